"""Iteration over trees. No function here recurses, so trees may have any depth."""
from __future__ import annotations

from collections.abc import Iterator

from .base import Module, Node
from .forms import PARTS
from .stmt import Load, Statements, Stmt


def children(node: Node) -> list[Node]:
    """Returns the nodes that are directly in a node, in the order of its fields."""
    found: list[Node] = []
    for name in PARTS[type(node)]:
        value = getattr(node, name)
        if isinstance(value, Node):
            found.append(value)
        elif isinstance(value, list):
            for item in value:
                # An entry of a dictionary is a pair.
                found += item if isinstance(item, tuple) else (item,)
    return found


def walk(node: Node) -> Iterator[Node]:
    """Iterates over a node and all nodes in it. Each node comes before its children, and those are in the order of `children`.

    The children of a node are read after the node was yielded, so a caller may change it first."""
    rest = [node]
    while rest:
        node = rest.pop()
        yield node
        rest += reversed(children(node))


def loads(module: Module) -> list[Load]:
    """Returns the top-level `load` statements of a module, in the order of the text."""
    found: list[Load] = []
    rest: list[Stmt] = [module.statement]
    while rest:
        statement = rest.pop()
        if isinstance(statement, Load):
            found.append(statement)
        elif isinstance(statement, Statements):
            rest += reversed(statement.statements)
    return found
