"""Issues that comments suppress.

A block is a list of comments without a token between them. A module has no tokens, so the text shows whether one is between two
comments: anything but whitespace is, and so is the newline that ends a statement. Offsets are in characters here."""
from __future__ import annotations

import re
from bisect import bisect_left, bisect_right
from collections.abc import Callable
from dataclasses import dataclass
from itertools import chain

from . import expr, stmt
from .base import Module, Span
from .walk import walk

_PREFIX = "starlark-lint-disable "
# The whitespace of Unicode. `str.strip` without an argument strips four control characters more.
_SPACE = "\t\n\v\f\r \x85\xa0\u1680\u2000\u2001\u2002\u2003\u2004\u2005\u2006\u2007\u2008\u2009\u200a\u2028\u2029\u202f\u205f\u3000"
_DELIMITER = re.compile(r"[()\[\]{}]")


@dataclass(frozen=True, slots=True)
class Suppression:
    """The names that a block of comments suppresses, the span of the comments, and the span in which issues are suppressed: the lines of
    the comments, and the line after them if `has_next_line`."""

    names: frozenset[str]
    comments: Span
    covered: Span
    has_next_line: bool

    def covers(self, name: str, issue: Span) -> bool:
        """Whether it suppresses an issue of this name and span. An issue that ends with the newline after the comments is not on the line
        after them."""
        if name not in self.names or self.has_next_line and issue.end == self.comments.end + 1:
            return False
        return issue.begin <= self.covered.end and self.covered.begin <= issue.end


def suppressions(text: str, module: Module, in_chars: Callable[[Span], Span]) -> list[Suppression]:
    """Returns what the comments of a module suppress, in the order of the text."""
    if _PREFIX not in text:
        return []
    comments = [in_chars(it) for it in module.comments]
    delimiters = _Delimiters(text, comments, *_strings(module, in_chars))
    found: list[Suppression | None] = []
    block = comments[:1]
    for at in range(1, len(comments) + 1):
        if at < len(comments) and not _has_token_between(text, comments, at - 1, delimiters):
            block.append(comments[at])
            continue
        found.append(_of_block(text, block))
        block = comments[at:at + 1]
    return [it for it in found if it is not None]


def _of_block(text: str, block: list[Span]) -> Suppression | None:
    """Returns what a block suppresses, from the first of its comments that names something on."""
    names = [_names(it.of(text)) for it in block]
    first = next((at for at, it in enumerate(names) if it), None)
    if first is None:
        return None
    block = block[first:]
    # Comments and their lines are in the order of the text.
    comments = Span(block[0].begin, block[-1].end)
    begin, end, next_begin = _line(text, block[0].begin)[0], *_line(text, block[-1].begin)[1:]
    is_alone = comments.end == end and not text[begin:comments.begin].strip(_SPACE)
    has_next_line = len(block) > 1 or is_alone
    if has_next_line and next_begin is not None:
        end = text.find("\n", next_begin) + 1 or len(text)
    return Suppression(frozenset(chain.from_iterable(names[first:])), comments, Span(begin, end), has_next_line)


def _names(comment: str) -> list[str]:
    """Returns the names that a comment suppresses."""
    listed = comment[1:].lstrip(_SPACE)
    if not listed.startswith(_PREFIX):
        return []
    names = (it.strip(_SPACE) for it in re.split("[ ,]", listed[len(_PREFIX):]))
    return [it for it in names if it]


def _line(text: str, offset: int) -> tuple[int, int, int | None]:
    """Returns where the line of an offset begins, where it ends without its newline, and where the next line begins if there is one."""
    begin, newline = text.rfind("\n", 0, offset) + 1, text.find("\n", offset)
    end = len(text) if newline < 0 else newline
    return begin, end - text.endswith("\r", begin, end), None if newline < 0 else newline + 1


def _has_token_between(text: str, comments: list[Span], index: int, delimiters: _Delimiters) -> bool:
    """Whether a token is between the comment of this index and the one after it."""
    comment, following = comments[index], comments[index + 1]
    if text[comment.end:following.begin].strip(" \t\r\n\\"):
        return True
    return not delimiters.have(comment.begin) and not _begins_line(text, comments, index)


def _begins_line(text: str, comments: list[Span], index: int) -> bool:
    """Whether only whitespace is before a comment on its line, and that line is not joined to the one before by a `\\`."""
    at = comments[index].begin
    begin = text.rfind("\n", 0, at) + 1
    if text[begin:at].strip(" \t"):
        return False
    end = begin - 1 - text.endswith("\r", 0, max(begin - 1, 0))
    is_in_comment = index > 0 and comments[index - 1].end >= end
    return is_in_comment or not text.endswith("\\", 0, max(end, 0))


def _strings(module: Module, in_chars: Callable[[Span], Span]) -> tuple[list[Span], list[Span]]:
    """Returns the spans of the strings of a module, and those of its f-strings."""
    strings: list[Span] = []
    f_strings: list[Span] = []
    for node in walk(module):
        if isinstance(node, (expr.String, expr.Bytes)):
            strings.append(in_chars(node.span))
        elif isinstance(node, expr.FString):
            f_strings.append(in_chars(node.span))
        elif isinstance(node, stmt.Load):
            strings += [in_chars(it.span) for it in (node.module, *(arg.their for arg in node.args))]
    return strings, f_strings


class _Delimiters:
    """The open delimiters at each offset, outside of comments and strings, and the outermost f-strings."""

    def __init__(self, text: str, comments: list[Span], strings: list[Span], f_strings: list[Span]) -> None:
        # The offsets at which the number of open delimiters changes, and the number after each.
        self.offsets: list[int] = []
        self.depths: list[int] = []
        opaque, depth = _outermost([*comments, *strings, *f_strings]), 0
        begins = [it.begin for it in opaque]
        for it in _DELIMITER.finditer(text):
            at = it.start()
            before = bisect_right(begins, at)
            if before and at < opaque[before - 1].end:
                continue
            depth = depth + 1 if it[0] in "([{" else max(depth - 1, 0)
            self.offsets.append(at)
            self.depths.append(depth)
        self.f_strings = _outermost(f_strings)
        self.f_begins = [it.begin for it in self.f_strings]

    def have(self, offset: int) -> bool:
        """Whether the offset is in delimiters, or in an f-string, where a newline in braces is whitespace too."""
        at = bisect_left(self.offsets, offset)
        if at and self.depths[at - 1]:
            return True
        at = bisect_right(self.f_begins, offset)
        return at > 0 and offset <= self.f_strings[at - 1].end


def _outermost(spans: list[Span]) -> list[Span]:
    """Returns the spans that are in no other, in order."""
    found: list[Span] = []
    for span in sorted(spans):
        if not found or found[-1].end <= span.begin:
            found.append(span)
    return found
