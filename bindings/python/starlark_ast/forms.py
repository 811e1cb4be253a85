"""The forms of docs/JSON.md, from the classes."""
from __future__ import annotations

from dataclasses import Field, fields
from types import ModuleType
from typing import Any

from . import argument, clause, expr, parameter, stmt, target
from .base import LoadArg, Module, Name, Node, TypeExpr

_FAMILIES: dict[ModuleType, type[Node]] = {
    stmt: stmt.Stmt, expr: expr.Expr, argument: argument.Argument, parameter: parameter.Parameter, target: target.Target,
    clause: clause.Clause,
}
# The annotations of fields that hold no node.
_PLAIN: tuple[object, ...] = ("Span", "str", "int", "bytes", "base.BinOp", "base.AssignOp", "Span | None", "list[Span]")


def _kinds(module: ModuleType, above: type[Node]) -> list[type[Node]]:
    """The classes of a module that are forms."""
    return [it for it in vars(module).values() if isinstance(it, type) and issubclass(it, above) and it not in (above, expr.Literal)]


def _fields(kind: type[Node]) -> list[Field[Any]]:
    """The fields of a class that are in JSON. One that is not is keyword-only."""
    return [it for it in fields(kind) if not it.kw_only]


def key_of(name: str) -> str:
    """Returns the key of a field in JSON: `else` of `else_`."""
    return name.rstrip("_")


# The classes of each family, by their names. A literal's name is its `literal`, and its kind is `Literal`.
KINDS: dict[str, dict[str, type[Node]]] = {
    above.family: {it.__name__: it for it in _kinds(module, above)} for module, above in _FAMILIES.items()
}
_ALL: list[type[Node]] = [Module, Name, TypeExpr, LoadArg, *[it for kinds in KINDS.values() for it in kinds.values()]]
# The fields of each class, in the order of docs/JSON.md, and those that may hold nodes.
FIELDS: dict[type[Node], tuple[str, ...]] = {it: tuple(field.name for field in _fields(it)) for it in _ALL}
PARTS: dict[type[Node], tuple[str, ...]] = {
    it: tuple(field.name for field in _fields(it) if field.type not in _PLAIN) for it in _ALL
}
