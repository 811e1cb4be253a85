"""The parser of Starlark, for Python: `parse(text)` returns the tree as dataclasses.

Each form of docs/JSON.md is a class: `stmt.Assign`, `expr.Call`, `target.Identifier`, `argument.Named`,
`parameter.Normal`, `clause.For`, and so on; its attributes are the form's fields, in that order.
"""
from . import argument, clause, expr, parameter, stmt, target
from .base import AssignOp, BinOp, LoadArg, Module, Name, Node, Position, ResolvedSpan, Source, Span, Spanned, TypeExpr
from .dialect import Dialect
from .error import ErrorKind, ParseError
from .library import LibraryError
from .lint import EvalSeverity, Issue, lint
from .parser import DEFAULT_DEPTH, from_json, node_from_json, parse, parse_json, parse_to_json
from .walk import children, loads, walk
from .writer import to_json

__version__ = "0.1.0"

__all__ = [
    "AssignOp", "BinOp", "DEFAULT_DEPTH", "Dialect", "ErrorKind", "EvalSeverity", "Issue", "LibraryError", "LoadArg", "Module", "Name",
    "Node", "ParseError", "Position", "ResolvedSpan", "Source", "Span", "Spanned", "TypeExpr", "argument", "children", "clause", "expr",
    "from_json", "lint", "loads", "node_from_json", "parameter", "parse", "parse_json", "parse_to_json", "stmt", "target", "to_json",
    "walk",
]
