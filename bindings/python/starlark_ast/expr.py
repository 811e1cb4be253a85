"""Expressions: the family `expr` of docs/JSON.md."""
from __future__ import annotations

from dataclasses import dataclass
from typing import ClassVar

from . import argument, base, clause, parameter


@dataclass(slots=True)
class Expr(base.Spanned):
    """An expression."""

    family: ClassVar[str] = "expr"


@dataclass(slots=True)
class Tuple(Expr):
    items: list[Expr]


@dataclass(slots=True)
class List(Expr):
    items: list[Expr]


@dataclass(slots=True)
class Dot(Expr):
    """`object.attribute`"""

    object: Expr
    attribute: base.Name


@dataclass(slots=True)
class Call(Expr):
    callee: Expr
    args: list[argument.Argument]


@dataclass(slots=True)
class Index(Expr):
    """`array[index]`"""

    array: Expr
    index: Expr


@dataclass(slots=True)
class Index2(Expr):
    """`array[index0, index1]`"""

    array: Expr
    index0: Expr
    index1: Expr


@dataclass(slots=True)
class Slice(Expr):
    """`array[start:stop:step]`"""

    array: Expr
    start: Expr | None
    stop: Expr | None
    step: Expr | None


@dataclass(slots=True)
class Identifier(Expr):
    name: str


@dataclass(slots=True)
class Lambda(Expr):
    params: list[parameter.Parameter]
    body: Expr


@dataclass(slots=True)
class Not(Expr):
    operand: Expr


@dataclass(slots=True)
class Minus(Expr):
    operand: Expr


@dataclass(slots=True)
class Plus(Expr):
    operand: Expr


@dataclass(slots=True)
class BitNot(Expr):
    operand: Expr


@dataclass(slots=True)
class Op(Expr):
    """`left op right`"""

    op: base.BinOp
    left: Expr
    right: Expr


@dataclass(slots=True)
class If(Expr):
    """`then if condition else else_`"""

    condition: Expr
    then: Expr
    else_: Expr


@dataclass(slots=True)
class Dict(Expr):
    """`{key: value, ..}`"""

    entries: list[tuple[Expr, Expr]]


@dataclass(slots=True)
class ListComprehension(Expr):
    element: Expr
    clauses: list[clause.Clause]


@dataclass(slots=True)
class DictComprehension(Expr):
    key: Expr
    value: Expr
    clauses: list[clause.Clause]


@dataclass(slots=True)
class FString(Expr):
    """`f"..{..}.."`: the text with `{}` for each expression, and these."""

    format: base.Name
    expressions: list[Expr]


@dataclass(slots=True)
class Literal(Expr):
    """A literal: one of the classes below, by its `literal` in docs/JSON.md."""


@dataclass(slots=True)
class Int(Literal):
    """An integer of at most 32 bits."""

    value: int


@dataclass(slots=True)
class BigInt(Literal):
    """A larger integer, in its source text: `int(value, 0)` is the number."""

    value: str


@dataclass(slots=True)
class Float(Literal):
    """A floating-point number, in its source text: `float(value)` is the number."""

    value: str


@dataclass(slots=True)
class String(Literal):
    value: str


@dataclass(slots=True)
class Bytes(Literal):
    value: bytes


@dataclass(slots=True)
class Ellipsis(Literal):
    pass
