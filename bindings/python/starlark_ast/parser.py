"""Parsing."""
from __future__ import annotations

from typing import Any, Literal

from . import compact, library
from .base import Module, Node, Source
from .dialect import Dialect
from .error import ParseError
from .json_text import read
from .places import chars_before
from .reader import collector_off, node_of

# The default limit on how deep a text nests. Hand-written files nest less than 100 deep.
DEFAULT_DEPTH = 500
# A tree of so many bytes has enough nodes for the collector of cycles to take time.
_LARGE = 1 << 16


def parse(
    text: str | bytes, dialect: Dialect = Dialect.ALL, *, spans: Literal["bytes", "chars"] = "bytes", file: str = "input",
    depth: int = DEFAULT_DEPTH,
) -> Module:
    """Parses a text, which is a `str` or `bytes` in UTF-8, and returns its tree. `file` is the file's name in the module and in errors.

    Spans are offsets in bytes of the UTF-8 text, or in characters if `spans` is "chars". The module keeps the text, in its `source`.

    A text that nests deeper than `depth` is an error. The depth of a token is the number of delimiters, blocks, operators, dots and
    keywords that are around it, or beside it up to the next comma or the end of the line. If a text nests deeper than 250 and `depth`
    allows that, it is parsed on a thread of its own, with a stack for `depth` levels.

    Raises `ParseError` if the text is not a module of the dialect, `UnicodeError` if it is not UTF-8 or has a lone surrogate,
    `ValueError` if `dialect`, `spans` or `depth` is out of range, `MemoryError` if an allocation fails, and `LibraryError` if the library
    for C is not found."""
    if spans not in ("bytes", "chars"):
        raise ValueError(f'spans are "bytes" or "chars", not {spans!r}')
    offset = chars_before(text) if spans == "chars" else None
    written = library.parsed(text, dialect.value, depth, library.COMPACT)
    with collector_off(written.length > _LARGE):
        answer = written.read(lambda part: compact.answer(part, offset, written.drop))
    if isinstance(answer, ParseError):
        raise ParseError(answer.kind, answer.message, answer.file and file, answer.span, answer.begin, answer.end)
    answer.file, answer.source = file, Source(text, spans)
    return answer


def parse_json(text: str | bytes, dialect: Dialect = Dialect.ALL, *, depth: int = DEFAULT_DEPTH) -> dict[str, Any]:
    """Parses a text, and returns the JSON of docs/JSON.md as dictionaries and lists.

    If the text is not a module of the dialect, the result describes the error and has the key "error". The other exceptions are those of
    `parse`."""
    written = library.parsed(text, dialect.value, depth, library.JSON)
    answer: dict[str, Any] = read(written.read(_text), None, written.is_low)
    return answer


def parse_to_json(text: str | bytes, dialect: Dialect = Dialect.ALL, *, depth: int = DEFAULT_DEPTH) -> str:
    """Parses a text, and returns the JSON of docs/JSON.md.

    If the text is not a module of the dialect, it is the JSON of the error. The other exceptions are those of `parse`."""
    return library.parsed(text, dialect.value, depth, library.JSON).read(_text)


def from_json(text: str) -> Module:
    """Reads a module from JSON that `parse_to_json`, `to_json` or `starlark json` wrote. Its spans are those of the JSON, and its `source`
    is None.

    Raises `ParseError` if it is the JSON of an error, and `ValueError` if it is not JSON, or that of neither."""
    answer = node_of(text)
    if isinstance(answer, ParseError):
        raise answer
    if not isinstance(answer, Module):
        raise ValueError("the JSON is not that of a module")
    return answer


def node_from_json(text: str) -> Node:
    """Reads a node from JSON that `to_json` wrote. Raises `ValueError` if it is not the JSON of a node."""
    answer = node_of(text)
    if not isinstance(answer, Node):
        raise ValueError("the JSON is not that of a node")
    return answer


def _text(part: memoryview) -> str:
    return str(part, "utf-8")
