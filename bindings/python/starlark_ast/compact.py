"""A reader of the compact format of docs/COMPACT.md. Each node comes after its parts, so the reader does not recurse."""
from __future__ import annotations

from collections.abc import Callable
from struct import Struct
from struct import error as StructError
from typing import Any

from . import argument, clause, expr, parameter, stmt, target
from .base import AssignOp, BinOp, LoadArg, Module, Name, Node, Position, Span, TypeExpr
from .error import ErrorKind, ParseError
from .places import Offset

Drop = Callable[[int, int], None]
Stack = list[Any]

_VERSION, _MODULE = 1, 0
_NUMBER, _SIGNED, _COUNT, _SPAN = Struct("<I"), Struct("<i"), Struct("<Q"), Struct("<II")
# `Span._make`, without its test of the length.
_new = tuple.__new__
# How many bytes are read before their memory is given back.
_PIECE = 1 << 20
_BIN_OPS, _ASSIGN_OPS = list(BinOp), list(AssignOp)
_ERRORS = [it for it in ErrorKind if it not in (ErrorKind.NOT_UTF8, ErrorKind.UNREADABLE)]


class Malformed(ValueError):
    """The bytes are not in the format."""


class _Bytes:
    """Reads bytes from front to back."""

    __slots__ = ("data", "at", "offset", "memo", "offsets")

    def __init__(self, data: memoryview, offset: Offset | None) -> None:
        self.data, self.at, self.offset = data, 0, offset
        self.memo: dict[bytes, str] = {}
        # Offsets that were read, each at the place of its last byte.
        self.offsets = [0] * 256

    def one(self, of: Struct) -> int:
        value: int = of.unpack_from(self.data, self.at)[0]
        self.at += of.size
        return value

    def number(self) -> int:
        return self.one(_NUMBER)

    def span(self) -> Span:
        """A span. Equal offsets of nodes beside each other are one object, which saves a tenth of a tree's memory."""
        begin, end = _SPAN.unpack_from(self.data, self.at)
        self.at += 8
        if self.offset is not None:
            begin, end = self.offset(begin), self.offset(end)
        offsets = self.offsets
        if offsets[begin & 255] == begin:
            begin = offsets[begin & 255]
        else:
            offsets[begin & 255] = begin
        if offsets[end & 255] == end:
            end = offsets[end & 255]
        else:
            offsets[end & 255] = end
        return _new(Span, (begin, end))

    def sized(self) -> bytes:
        end = self.one(_COUNT) + self.at
        if end > len(self.data):
            raise Malformed
        value = self.data[self.at:end].tobytes()
        self.at = end
        return value

    def text(self) -> str:
        return self.sized().decode()

    def word(self) -> str:
        """A text that is likely to occur again, as a name is. Equal ones are one object."""
        data = self.sized()
        word = self.memo.get(data)
        if word is None:
            word = self.memo[data] = data.decode()
        return word

    def name(self) -> Name:
        return Name(self.span(), self.word())

    def place(self) -> tuple[Span, Position, Position]:
        return self.span(), Position(self.number(), self.number()), Position(self.number(), self.number())

    def is_more(self) -> bool:
        return self.at < len(self.data)


# Reads a node: pops its parts from the stack, and pushes it.
Maker = Callable[[_Bytes, Stack], None]


def answer(data: memoryview, offset: Offset | None = None, drop: Drop | None = None) -> Module | ParseError:
    """Reads the module or the error. `offset` is applied to each offset of a span. `drop` is called with the begin and the end of each
    large part of the bytes that is not read again. Raises `ValueError` if the bytes are malformed."""
    read = _Bytes(data, offset)
    try:
        if read.number() != _VERSION:
            raise Malformed
        kind = read.number()
        value: Module | ParseError = _module(read, drop) if kind == _MODULE else _error(read, _ERRORS[kind - 1])
    except (IndexError, StructError) as error:
        raise Malformed from error
    if read.is_more():
        raise Malformed
    return value


def _module(read: _Bytes, drop: Drop | None) -> Module:
    comments = [read.span() for _ in range(read.one(_COUNT))]
    stack: Stack = []
    begin = 0
    while read.is_more():
        end = min(read.at + _PIECE, len(read.data))
        while read.at < end:
            _MAKERS[read.number()](read, stack)
        if drop is not None:
            drop(begin, read.at)
        begin = read.at
    if len(stack) != 1 or not isinstance(stack[0], stmt.Stmt):
        raise Malformed
    return Module("input", comments, stack[0])


def _error(read: _Bytes, kind: ErrorKind) -> ParseError:
    message = read.text()
    if not read.number():
        return ParseError(kind, message)
    return ParseError(kind, message, "input", *read.place())


def _last(stack: Stack, count: int) -> Stack:
    """Pops so many items from the end of the stack."""
    begin = len(stack) - count
    if begin < 0:
        raise Malformed
    items = stack[begin:]
    del stack[begin:]
    return items


def _of(kind: type[Node], parts: int) -> Maker:
    """Reads a node that has parts and no fields."""
    make: Callable[..., Node] = kind

    def one(read: _Bytes, stack: Stack) -> None:
        stack[-1] = make(read.span(), stack[-1])

    def made(read: _Bytes, stack: Stack) -> None:
        stack.append(make(read.span(), *_last(stack, parts)))

    return one if parts == 1 else made


def _valued(kind: type[Node], value: Callable[[_Bytes], Any]) -> Maker:
    """Reads a node that has no parts and one field."""
    make: Callable[..., Node] = kind
    return lambda read, stack: stack.append(make(read.span(), value(read)))


def _listed(kind: type[Node], before: int = 0, after: int = 0) -> Maker:
    """Reads a node that has a list, with so many parts before and after it."""
    make: Callable[..., Node] = kind

    def made(read: _Bytes, stack: Stack) -> None:
        span, count = read.span(), read.one(_COUNT)
        rest, items = _last(stack, after), _last(stack, count)
        stack.append(make(span, *_last(stack, before), items, *rest))

    return made


def _named(kind: type[Node], parts: int) -> Maker:
    """Reads a node whose name is its first attribute."""
    make: Callable[..., Node] = kind
    return lambda read, stack: stack.append(make(read.span(), read.name(), *_last(stack, parts)))


def _dot(kind: type[expr.Dot] | type[target.Dot]) -> Maker:
    def made(read: _Bytes, stack: Stack) -> None:
        stack[-1] = kind(read.span(), stack[-1], read.name())

    return made


def _operation(read: _Bytes, stack: Stack) -> None:
    span, op = read.span(), _BIN_OPS[read.number()]
    stack.append(expr.Op(span, op, *_last(stack, 2)))


def _assign_modify(read: _Bytes, stack: Stack) -> None:
    span, op = read.span(), _ASSIGN_OPS[read.number()]
    lhs, rhs = _last(stack, 2)
    stack.append(stmt.AssignModify(span, lhs, op, rhs))


def _dict(read: _Bytes, stack: Stack) -> None:
    span, parts = read.span(), iter(_last(stack, 2 * read.one(_COUNT)))
    stack.append(expr.Dict(span, list(zip(parts, parts))))


def _comprehension(kind: type[expr.ListComprehension] | type[expr.DictComprehension], parts: int) -> Maker:
    make: Callable[..., Node] = kind

    def made(read: _Bytes, stack: Stack) -> None:
        span, clauses = read.span(), _last(stack, read.one(_COUNT) + 1)
        stack.append(make(span, *_last(stack, parts), clauses))

    return made


def _f_string(read: _Bytes, stack: Stack) -> None:
    span, name = read.span(), read.name()
    stack.append(expr.FString(span, name, _last(stack, read.one(_COUNT))))


def _def(read: _Bytes, stack: Stack) -> None:
    span, name, count = read.span(), read.name(), read.one(_COUNT)
    returned, body = _last(stack, 2)
    stack.append(stmt.Def(span, name, _last(stack, count), returned, body))


def _load(read: _Bytes, stack: Stack) -> None:
    span, module = read.span(), read.name()
    stack.append(stmt.Load(span, module, [_load_arg(read) for _ in range(read.one(_COUNT))]))


def _load_arg(read: _Bytes) -> LoadArg:
    return LoadArg(read.name(), read.name(), read.span() if read.number() else None)


def _clause(kind: type[Node], parts: int) -> Maker:
    make: Callable[..., Node] = kind
    return lambda read, stack: stack.append(make(*_last(stack, parts)))


def _none(read: _Bytes, stack: Stack) -> None:
    stack.append(None)


def _some(read: _Bytes, stack: Stack) -> None:
    if not stack:
        raise Malformed


def _nothing(read: _Bytes, stack: Stack) -> None:
    raise Malformed


# By the numbers of the kinds. No kind has the number 0.
_MAKERS: list[Maker] = [
    _nothing,
    _listed(expr.Tuple), _dot(expr.Dot), _listed(expr.Call, before=1), _of(expr.Index, 2), _of(expr.Index2, 3), _of(expr.Slice, 4),
    _valued(expr.Identifier, _Bytes.word), _listed(expr.Lambda, after=1),
    _valued(expr.Int, lambda read: read.one(_SIGNED)), _valued(expr.BigInt, _Bytes.text), _valued(expr.Float, _Bytes.text),
    _valued(expr.String, _Bytes.text), _valued(expr.Bytes, _Bytes.sized), _of(expr.Ellipsis, 0),
    _of(expr.Not, 1), _of(expr.Minus, 1), _of(expr.Plus, 1), _of(expr.BitNot, 1), _operation, _of(expr.If, 3),
    _listed(expr.List), _dict, _comprehension(expr.ListComprehension, 1), _comprehension(expr.DictComprehension, 2), _f_string,
    _none, _some, _none, _of(TypeExpr, 1),
    _of(argument.Positional, 1), _named(argument.Named, 1), _of(argument.Args, 1), _of(argument.KwArgs, 1),
    _of(parameter.Slash, 0), _named(parameter.Normal, 2), _of(parameter.NoArgs, 0), _named(parameter.Args, 1), _named(parameter.KwArgs, 1),
    _clause(clause.For, 2), _clause(clause.If, 1),
    _listed(target.Tuple), _of(target.Index, 2), _dot(target.Dot), _valued(target.Identifier, _Bytes.word),
    _of(stmt.Break, 0), _of(stmt.Continue, 0), _of(stmt.Pass, 0), _of(stmt.Return, 1), _of(stmt.Expression, 1), _of(stmt.Assign, 3),
    _assign_modify, _listed(stmt.Statements), _of(stmt.If, 2), _of(stmt.IfElse, 3), _of(stmt.For, 3), _def, _load,
]
