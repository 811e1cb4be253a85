"""Arguments of a call: the family `argument` of docs/JSON.md."""
from __future__ import annotations

from dataclasses import dataclass
from typing import ClassVar

from . import base, expr


@dataclass(slots=True)
class Argument(base.Spanned):
    """An argument."""

    family: ClassVar[str] = "argument"


@dataclass(slots=True)
class Positional(Argument):
    value: expr.Expr


@dataclass(slots=True)
class Named(Argument):
    """`name = value`"""

    name: base.Name
    value: expr.Expr


@dataclass(slots=True)
class Args(Argument):
    """`*value`"""

    value: expr.Expr


@dataclass(slots=True)
class KwArgs(Argument):
    """`**value`"""

    value: expr.Expr
