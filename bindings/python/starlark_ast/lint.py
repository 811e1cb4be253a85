"""The linter: the issues that `starlark lint` reports."""
from __future__ import annotations

import unicodedata
from collections.abc import Iterator
from dataclasses import dataclass
from enum import Enum

from . import expr
from .base import Module, Span
from .places import places_of
from .suppressing import suppressions
from .walk import loads, walk


class EvalSeverity(Enum):
    """How serious an issue is."""

    WARNING = "Warning"


@dataclass(frozen=True, slots=True)
class Issue:
    """An issue of a module: its name, which is `unused-load` or `duplicate-key`, its span, and the problem as a sentence."""

    name: str
    span: Span
    severity: EvalSeverity
    problem: str


def lint(module: Module) -> list[Issue]:
    """Returns the issues of a module that no comment `# starlark-lint-disable NAME` suppresses, in the order in which they begin.

    `unused-load` is a symbol of a top-level `load` whose local name the module does not read. `duplicate-key` is a key of a dictionary
    literal that is a string literal with the value of an earlier such key.

    Raises `ValueError` if the module's `source` is not set: `parse` sets it, and `from_json` does not. It does not recurse."""
    places = places_of(module)
    names, dicts = _read(module)
    # The sort is stable: an unused load comes before a duplicate key that begins at the same offset.
    found = sorted([*_unused_loads(module, names), *_duplicate_keys(dicts, module)], key=lambda it: it.span.begin)
    comments = suppressions(places.text, module, places.in_chars)
    return [it for it in found if not any(each.covers(it.name, places.in_chars(it.span)) for each in comments)]


def _read(module: Module) -> tuple[set[str], list[expr.Dict]]:
    """Returns the names that a module reads, and its dictionary literals."""
    names: set[str] = set()
    dicts: list[expr.Dict] = []
    for node in walk(module):
        if isinstance(node, expr.Identifier):
            names.add(node.name)
        elif isinstance(node, expr.Dict):
            dicts.append(node)
    return names, dicts


def _unused_loads(module: Module, names: set[str]) -> Iterator[Issue]:
    for load in loads(module):
        for arg in load.args:
            if arg.local.text not in names:
                (begin, end), (other, last) = arg.local.span, arg.their.span
                problem = f"`{arg.local.text}` is loaded from {_quoted(load.module.text)} and never used"
                yield Issue("unused-load", Span(min(begin, other), max(end, last)), EvalSeverity.WARNING, problem)


def _duplicate_keys(dicts: list[expr.Dict], module: Module) -> Iterator[Issue]:
    for node in dicts:
        first: dict[str, Span] = {}
        for key, _ in node.entries:
            if not isinstance(key, expr.String):
                continue
            if key.value in first:
                problem = f"the key {_quoted(key.value)} is repeated, first at {module.resolve_span(first[key.value])}"
                yield Issue("duplicate-key", key.span, EvalSeverity.WARNING, problem)
            else:
                first[key.value] = key.span


_ESCAPES = {"\0": "\\0", "\t": "\\t", "\n": "\\n", "\r": "\\r", '"': '\\"', "\\": "\\\\"}


def _quoted(text: str) -> str:
    """Returns a text in quotes, with the escapes of Rust."""
    return '"' + "".join(map(_escaped, text)) + '"'


def _escaped(char: str) -> str:
    if char.isprintable() and char not in _ESCAPES and unicodedata.category(char) not in ("Mn", "Me"):
        return char
    return _ESCAPES.get(char) or f"\\u{{{ord(char):x}}}"
