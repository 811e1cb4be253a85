"""Nodes from JSON."""
from __future__ import annotations

import gc
from collections.abc import Callable, Iterator
from contextlib import contextmanager
from operator import itemgetter
from typing import Any

from .base import AssignOp, BinOp, LoadArg, Module, Name, Node, Position, Span, TypeExpr
from .error import ErrorKind, ParseError
from .forms import FIELDS, KINDS, key_of
from .json_text import read
from .places import Offset

Maker = Callable[[dict[str, Any]], Any]

_VERSION = 1
# Characters of JSON.
_LARGE = 1 << 18
_BIN_OPS = {it.value: it for it in BinOp}
_ASSIGN_OPS = {it.value: it for it in AssignOp}


def node_of(text: str, offset: Offset | None = None, is_low: bool = True) -> Any:
    """Returns the value of a JSON text of docs/JSON.md: a `Module`, a `ParseError` or a node. The function is applied to each offset of a
    span. Raises `ValueError` if an object of the JSON has none of the forms."""
    with collector_off(len(text) > _LARGE):
        try:
            return read(text, _hook(offset), is_low)
        except (KeyError, TypeError) as error:
            raise ValueError("the JSON has none of the forms of docs/JSON.md") from error


@contextmanager
def collector_off(is_off: bool) -> Iterator[None]:
    """Turns the collector of cycles off while a tree is made: a tree has none, and the collector would take over half of the time."""
    is_off = is_off and gc.isenabled()
    if is_off:
        gc.disable()
    try:
        yield
    finally:
        if is_off:
            gc.enable()


def _hook(offset: Offset | None) -> Maker:
    """Returns a function that makes the node of a JSON object, whose parts are nodes already."""
    memo: dict[str, str] = {}

    def span(pair: list[int]) -> Span:
        return Span._make(pair if offset is None else map(offset, pair))

    def made(fields: dict[str, Any]) -> Any:
        family = next(iter(fields), "")
        if "span" in fields and fields["span"] is not None:
            fields["span"] = span(fields["span"])
        if "name" in fields and type(fields["name"]) is str:
            # Equal names are one object.
            fields["name"] = memo.setdefault(fields["name"], fields["name"])
        kinds = _MAKERS.get(family)
        if kinds is not None:
            return kinds[fields[family]](fields)
        if family == "version":
            return _answer(fields, span)
        if family == "local":
            comma = fields["comma"]
            return LoadArg(fields["local"], fields["their"], None if comma is None else span(comma))
        if "line" in fields:
            return Position(fields["line"], fields["column"])
        if "text" in fields:
            return Name(fields["span"], memo.setdefault(fields["text"], fields["text"]))
        return TypeExpr(fields["span"], fields["expr"])

    return made


def _answer(fields: dict[str, Any], span: Callable[[list[int]], Span]) -> Module | ParseError:
    if fields["version"] != _VERSION:
        raise ValueError(f"the JSON is of version {fields['version']}, and this package reads version {_VERSION}")
    if "error" not in fields:
        return Module(fields["file"], [span(it) for it in fields["comments"]], fields["statement"])
    place = (fields.get(it) for it in ("file", "span", "begin", "end"))
    return ParseError(ErrorKind(fields["error"]), fields["message"], *place)


def _maker(kind: type[Node]) -> Maker:
    """Returns a function that makes a node of this class from its fields, which it finds by their names."""
    names, make = [key_of(it) for it in FIELDS[kind]], _constructor(kind)
    if len(names) == 1:
        only = names[0]
        return lambda fields: make(fields[only])
    values = itemgetter(*names)
    return lambda fields: make(*values(fields))


def _constructor(kind: type[Node]) -> Callable[..., Node]:
    return kind


def _after(change: Callable[[Any], Any], key: str, make: Maker) -> Maker:
    """Returns a function that changes one field, and then makes a node."""

    def changed(fields: dict[str, Any]) -> Any:
        fields[key] = change(fields[key])
        return make(fields)

    return changed


def _makers() -> dict[str, dict[str, Maker]]:
    makers = {family: {name: _maker(kind) for name, kind in kinds.items()} for family, kinds in KINDS.items()}
    statements, expressions = makers["stmt"], makers["expr"]
    statements["AssignModify"] = _after(_ASSIGN_OPS.__getitem__, "op", statements["AssignModify"])
    expressions["Op"] = _after(_BIN_OPS.__getitem__, "op", expressions["Op"])
    expressions["Bytes"] = _after(bytes, "value", expressions["Bytes"])
    expressions["Dict"] = _after(lambda entries: list(map(tuple, entries)), "entries", expressions["Dict"])
    literals = {it: expressions.pop(it) for it in ("Int", "BigInt", "Float", "String", "Bytes", "Ellipsis")}
    expressions["Literal"] = lambda fields: literals[fields["literal"]](fields)
    return makers


_MAKERS = _makers()
