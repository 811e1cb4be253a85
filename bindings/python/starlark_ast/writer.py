"""Writing nodes as the JSON of docs/JSON.md."""
from __future__ import annotations

import json
from enum import Enum
from typing import Any

from .base import Module, Node, Position, Span
from .error import ParseError
from .expr import Literal
from .forms import FIELDS, key_of


class _Text(str):
    """A part of the JSON text."""


def to_json(value: Module | ParseError | Node) -> str:
    """Returns the JSON of a module, an error or a node, without spaces. Its spans are not changed. It does not recurse."""
    out: list[str] = []
    rest: list[Any] = [value]
    while rest:
        item = rest.pop()
        if isinstance(item, _Text):
            out.append(item)
        else:
            rest += reversed(_parts(item))
    return "".join(out)


def _parts(value: Any) -> list[Any]:
    """The texts and the values that make up a value's text."""
    if isinstance(value, Node):
        return _object(_header(value), [(key_of(it), getattr(value, it)) for it in FIELDS[type(value)]])
    if isinstance(value, ParseError):
        place: dict[str, Any] = {} if value.span is None else {"span": value.span, "begin": value.begin, "end": value.end}
        header: list[tuple[str, Any]] = [("version", 1), ("error", value.kind), ("message", value.message), ("file", value.file)]
        return _object([], [*header, *place.items()])
    if isinstance(value, Position):
        return _object([], [("line", value.line), ("column", value.column)])
    if isinstance(value, Span):
        return [_Text(f"[{value.begin},{value.end}]")]
    if isinstance(value, (list, tuple, bytes)):
        parts: list[Any] = [_Text("[")]
        for item in value:
            parts += [_Text(",")] * (len(parts) > 1) + [item]
        return [*parts, _Text("]")]
    scalar = value.value if isinstance(value, Enum) else value
    return [_Text(json.dumps(scalar, ensure_ascii=False))]


def _header(node: Node) -> list[tuple[str, Any]]:
    if isinstance(node, Module):
        return [("version", 1)]
    if isinstance(node, Literal):
        return [("expr", "Literal"), ("span", node.span), ("literal", type(node).__name__)]
    return [(node.family, type(node).__name__)] if node.family else []


def _object(header: list[tuple[str, Any]], fields: list[tuple[str, Any]]) -> list[Any]:
    """A JSON object. A field that the header has too is written there."""
    parts: list[Any] = []
    said = {key for key, _ in header}
    for key, value in [*header, *[it for it in fields if it[0] not in said]]:
        parts += [_Text(f'{"," if parts else "{"}"{key}":'), value]
    return [*parts, _Text("}")]
