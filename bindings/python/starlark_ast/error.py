"""The error that a text can have."""
from __future__ import annotations

from enum import Enum

from .base import Position, ResolvedSpan, Span


class ErrorKind(Enum):
    """The kind of an error; a value is its name in JSON."""

    TEXT_TOO_LONG = "TextTooLong"
    MEMORY = "Memory"
    LEXER = "Lexer"
    UNEXPECTED_TOKEN = "UnexpectedToken"
    UNEXPECTED_END = "UnexpectedEnd"
    GRAMMAR = "Grammar"
    CALL = "Call"
    PARAMS = "Params"
    TYPE_EXPR = "TypeExpr"
    DIALECT = "Dialect"
    PLACE = "Place"
    # A file that the program `starlark json` could not read as text. `parse` raises no error of these kinds.
    NOT_UTF8 = "NotUtf8"
    UNREADABLE = "Unreadable"


class ParseError(Exception):
    """The text is not a module: the error and its position. `str(error)` is one line: `input:1:5-6: Parse error: unexpected token`.

    The error has no position (`file`, `span`, `begin` and `end` are None) if the text is longer than 4 GiB. An error of a file that was
    not read has a `file` and no position."""

    def __init__(
        self, kind: ErrorKind, message: str, file: str | None = None, span: Span | None = None,
        begin: Position | None = None, end: Position | None = None,
    ) -> None:
        super().__init__(kind, message, file, span, begin, end)
        self.kind = kind
        self.message = message
        self.file = file
        self.span = span
        self.begin = begin
        self.end = end

    @property
    def line(self) -> int | None:
        """The line in which it begins, from 1."""
        return None if self.begin is None else self.begin.line + 1

    @property
    def column(self) -> int | None:
        """The column at which it begins, in characters from 1."""
        return None if self.begin is None else self.begin.column + 1

    def __str__(self) -> str:
        if self.begin is None or self.end is None:
            return self.message if self.file is None else f"{self.file}: {self.message}"
        return f"{self.file}:{ResolvedSpan(self.begin, self.end)}: {self.message}"
