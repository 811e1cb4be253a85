"""Types that nodes of all families use."""
from __future__ import annotations

from dataclasses import dataclass, field
from enum import Enum
from typing import AnyStr, ClassVar, Literal, NamedTuple


class Span(NamedTuple):
    """A range of the text: offsets in bytes, or in characters if `parse` was called with `spans="chars"`."""

    begin: int
    end: int

    def of(self, text: AnyStr) -> AnyStr:
        """Returns this part of the text, which is `bytes` if spans are in bytes, and a `str` if they are in characters."""
        return text[self.begin:self.end]


class Position(NamedTuple):
    """A position in a file: line and column, both from 0. The column is in characters."""

    line: int
    column: int


class ResolvedSpan(NamedTuple):
    """The lines and columns of a span. It prints as errors do, with lines and columns from 1: `1:5-6`, `1:5-2:3`, or `1:5` if it is empty."""

    begin: Position
    end: Position

    def __str__(self) -> str:
        first, last = (f"{it.line + 1}:{it.column + 1}" for it in self)
        if self.begin == self.end:
            return first
        return f"{first}-{self.end.column + 1 if self.begin.line == self.end.line else last}"


class Source(NamedTuple):
    """The text of a module, and whether spans are offsets in bytes of its UTF-8 text or in characters."""

    text: str | bytes
    spans: Literal["bytes", "chars"] = "bytes"


@dataclass(slots=True)
class Node:
    """A node of a tree."""

    family: ClassVar[str] = ""


@dataclass(slots=True)
class Spanned(Node):
    """A node with a span."""

    span: Span


@dataclass(slots=True)
class Name(Spanned):
    """A name or a string of the text, with its span."""

    text: str


@dataclass(slots=True)
class TypeExpr(Spanned):
    """The type annotation of a parameter, an assignment or a function."""

    expr: Expr


@dataclass(slots=True)
class LoadArg(Node):
    """One symbol of a `load`: the name in this file, the name in the loaded one, and the comma after it."""

    local: Name
    their: Name
    comma: Span | None


@dataclass(slots=True)
class Module(Node):
    """A file: its name, the spans of its comments, and its statement, which is a `stmt.Statements` unless there is only one.

    `parse` sets `source` to the text that it parsed. JSON does not contain it, and comparison and `repr` ignore it."""

    file: str
    comments: list[Span]
    statement: Stmt
    source: Source | None = field(default=None, compare=False, repr=False, kw_only=True)
    _places: Places | None = field(default=None, init=False, compare=False, repr=False, kw_only=True)

    def resolve_span(self, span: Span) -> ResolvedSpan:
        """Returns the lines and columns of a span of this module, as `node.span`. The first call finds the lines of the text.

        Raises `ValueError` if `source` is not set: `parse` sets it, and `from_json` does not."""
        return places_of(self).resolve(span)


class BinOp(Enum):
    """The operators of `expr.Op`; a value is the operator's name in JSON."""

    OR = "Or"
    AND = "And"
    EQUAL = "Equal"
    NOT_EQUAL = "NotEqual"
    LESS = "Less"
    GREATER = "Greater"
    LESS_OR_EQUAL = "LessOrEqual"
    GREATER_OR_EQUAL = "GreaterOrEqual"
    IN = "In"
    NOT_IN = "NotIn"
    SUBTRACT = "Subtract"
    ADD = "Add"
    MULTIPLY = "Multiply"
    PERCENT = "Percent"
    DIVIDE = "Divide"
    FLOOR_DIVIDE = "FloorDivide"
    BIT_AND = "BitAnd"
    BIT_OR = "BitOr"
    BIT_XOR = "BitXor"
    LEFT_SHIFT = "LeftShift"
    RIGHT_SHIFT = "RightShift"

    @property
    def symbol(self) -> str:
        """The operator as it is written: `+`, `not in`."""
        return _SYMBOLS[self.value]


class AssignOp(Enum):
    """The operators of `stmt.AssignModify`; a value is the operator's name in JSON."""

    ADD = "Add"
    SUBTRACT = "Subtract"
    MULTIPLY = "Multiply"
    DIVIDE = "Divide"
    FLOOR_DIVIDE = "FloorDivide"
    PERCENT = "Percent"
    BIT_AND = "BitAnd"
    BIT_OR = "BitOr"
    BIT_XOR = "BitXor"
    LEFT_SHIFT = "LeftShift"
    RIGHT_SHIFT = "RightShift"

    @property
    def symbol(self) -> str:
        """The operator as it is written: `+=`."""
        return _SYMBOLS[self.value] + "="


_SYMBOLS = {
    "Or": "or", "And": "and", "Equal": "==", "NotEqual": "!=", "Less": "<", "Greater": ">", "LessOrEqual": "<=",
    "GreaterOrEqual": ">=", "In": "in", "NotIn": "not in", "Subtract": "-", "Add": "+", "Multiply": "*", "Percent": "%",
    "Divide": "/", "FloorDivide": "//", "BitAnd": "&", "BitOr": "|", "BitXor": "^", "LeftShift": "<<", "RightShift": ">>",
}

# Last, since these modules import this one.
from .expr import Expr  # noqa: E402
from .stmt import Stmt  # noqa: E402
from .places import Places, places_of  # noqa: E402
