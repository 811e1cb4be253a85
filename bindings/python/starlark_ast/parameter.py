"""Parameters of a function: the family `parameter` of docs/JSON.md."""
from __future__ import annotations

from dataclasses import dataclass
from typing import ClassVar

from . import base, expr


@dataclass(slots=True)
class Parameter(base.Spanned):
    """A parameter, or a mark between parameters."""

    family: ClassVar[str] = "parameter"


@dataclass(slots=True)
class Slash(Parameter):
    """`/`: those before it are positional only."""


@dataclass(slots=True)
class NoArgs(Parameter):
    """`*`: those after it are keyword only."""


@dataclass(slots=True)
class Normal(Parameter):
    """`name: type = default`"""

    name: base.Name
    type: base.TypeExpr | None
    default: expr.Expr | None


@dataclass(slots=True)
class Args(Parameter):
    """`*name: type`"""

    name: base.Name
    type: base.TypeExpr | None


@dataclass(slots=True)
class KwArgs(Parameter):
    """`**name: type`"""

    name: base.Name
    type: base.TypeExpr | None
