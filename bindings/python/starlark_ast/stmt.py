"""Statements: the family `stmt` of docs/JSON.md."""
from __future__ import annotations

from dataclasses import dataclass
from typing import ClassVar

from . import base, expr, parameter, target


@dataclass(slots=True)
class Stmt(base.Spanned):
    """A statement."""

    family: ClassVar[str] = "stmt"


@dataclass(slots=True)
class Break(Stmt):
    pass


@dataclass(slots=True)
class Continue(Stmt):
    pass


@dataclass(slots=True)
class Pass(Stmt):
    pass


@dataclass(slots=True)
class Return(Stmt):
    value: expr.Expr | None


@dataclass(slots=True)
class Expression(Stmt):
    value: expr.Expr


@dataclass(slots=True)
class Assign(Stmt):
    """`lhs: type = rhs`"""

    lhs: target.Target
    type: base.TypeExpr | None
    rhs: expr.Expr


@dataclass(slots=True)
class AssignModify(Stmt):
    """`lhs += rhs`"""

    lhs: target.Target
    op: base.AssignOp
    rhs: expr.Expr


@dataclass(slots=True)
class Statements(Stmt):
    statements: list[Stmt]


@dataclass(slots=True)
class If(Stmt):
    condition: expr.Expr
    then: Stmt


@dataclass(slots=True)
class IfElse(Stmt):
    condition: expr.Expr
    then: Stmt
    else_: Stmt


@dataclass(slots=True)
class For(Stmt):
    var: target.Target
    over: expr.Expr
    body: Stmt


@dataclass(slots=True)
class Def(Stmt):
    name: base.Name
    params: list[parameter.Parameter]
    return_type: base.TypeExpr | None
    body: Stmt


@dataclass(slots=True)
class Load(Stmt):
    module: base.Name
    args: list[base.LoadArg]
