"""Targets of assignments and loops: the family `target` of docs/JSON.md."""
from __future__ import annotations

from dataclasses import dataclass
from typing import ClassVar

from . import base, expr


@dataclass(slots=True)
class Target(base.Spanned):
    """A target."""

    family: ClassVar[str] = "target"


@dataclass(slots=True)
class Tuple(Target):
    items: list[Target]


@dataclass(slots=True)
class Index(Target):
    """`array[index]`"""

    array: expr.Expr
    index: expr.Expr


@dataclass(slots=True)
class Dot(Target):
    """`object.attribute`"""

    object: expr.Expr
    attribute: base.Name


@dataclass(slots=True)
class Identifier(Target):
    name: str
