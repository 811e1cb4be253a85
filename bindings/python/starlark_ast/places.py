"""Lines and columns of a text."""
from __future__ import annotations

import re
from array import array
from bisect import bisect_right
from collections.abc import Callable

from .base import Module, Position, ResolvedSpan, Source, Span

Offset = Callable[[int], int]


class Places:
    """The text of a module as characters, and where its lines begin."""

    def __init__(self, source: Source) -> None:
        text, spans = source
        self.source = source
        self.text = text if isinstance(text, str) else text.decode()
        self.offset = chars_before(text) if spans == "bytes" else None
        self.lines = [0, *(it.end() for it in re.finditer("\n", self.text))]

    def __reduce__(self) -> tuple[type[Places], tuple[Source]]:
        return Places, (self.source,)

    def in_chars(self, span: Span) -> Span:
        """Returns a span of the module with offsets in characters."""
        return span if self.offset is None else Span(self.offset(span.begin), self.offset(span.end))

    def resolve(self, span: Span) -> ResolvedSpan:
        """Returns the lines and columns of a span of the module."""
        begin, end = self.in_chars(span)
        return ResolvedSpan(self._position(begin), self._position(end))

    def _position(self, offset: int) -> Position:
        line = bisect_right(self.lines, offset) - 1
        return Position(line, offset - self.lines[line])


def places_of(module: Module) -> Places:
    """Returns the places of a module's text, which it keeps. Raises `ValueError` if its `source` is not set."""
    if module.source is None:
        raise ValueError("the module has no text: set its source to Source(text)")
    if module._places is None or module._places.source is not module.source:
        module._places = Places(module.source)
    return module._places


def chars_before(text: str | bytes) -> Offset | None:
    """Returns a function from an offset in bytes of a text in UTF-8 to that in characters, or None if the two are equal everywhere."""
    if text.isascii():
        return None
    data = text.encode() if isinstance(text, str) else text
    ends, counts, count = array("Q"), array("Q", [0]), 0
    for it in re.finditer(rb"[\x80-\xbf]+", data):
        count += it.end() - it.start()
        ends.append(it.end())
        counts.append(count)
    return lambda offset: offset - counts[bisect_right(ends, offset)]
