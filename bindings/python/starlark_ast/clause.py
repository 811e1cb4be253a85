"""Clauses of a comprehension: the family `clause` of docs/JSON.md. The first of a comprehension is a `For`."""
from __future__ import annotations

from dataclasses import dataclass
from typing import ClassVar

from . import base, expr, target


@dataclass(slots=True)
class Clause(base.Node):
    """A clause, which has no span."""

    family: ClassVar[str] = "clause"


@dataclass(slots=True)
class For(Clause):
    """`for var in over`"""

    var: target.Target
    over: expr.Expr


@dataclass(slots=True)
class If(Clause):
    """`if condition`"""

    condition: expr.Expr
