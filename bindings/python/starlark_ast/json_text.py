"""A reader of JSON of any depth. Python's own reader is tried first; it recurses, and fails some 1,000 levels deep."""
from __future__ import annotations

import json
import re
from collections.abc import Callable
from typing import Any

Hook = Callable[[dict[str, Any]], Any]

_SPACE = re.compile(r"[ \t\n\r]*")
_DECODER = json.JSONDecoder()


def read(text: str, hook: Hook | None = None, is_low: bool = True) -> Any:
    """Returns the value of a JSON text. Each object is replaced by what the hook returns for it. If a text is not low, Python's reader is
    not tried, since it recurses up to `sys.getrecursionlimit()` even if the stack is too small for that."""
    if is_low:
        try:
            return json.loads(text, object_hook=hook)
        except RecursionError:
            pass
    return _Reader(text, hook or (lambda fields: fields)).whole()


class _Reader:
    """Reads a text with a list of the open containers in place of recursion. The end of the text reads as a NUL."""

    def __init__(self, text: str, hook: Hook) -> None:
        self.text = text
        self.hook = hook
        self.at = 0
        # Each open container, and the key of the next value if it is an object.
        self.open: list[tuple[list[Any] | dict[str, Any], str]] = []

    def fail(self, why: str) -> json.JSONDecodeError:
        return json.JSONDecodeError(why, self.text, self.at)

    def next(self) -> str:
        """Returns the next character that is not whitespace, and does not consume it."""
        space = _SPACE.match(self.text, self.at)
        self.at = space.end() if space else self.at
        return self.text[self.at:self.at + 1] or "\0"

    def take(self, wanted: str) -> None:
        if self.next() != wanted:
            raise self.fail(f"Expecting {wanted!r}")
        self.at += 1

    def scalar(self) -> Any:
        value, self.at = _DECODER.raw_decode(self.text, self.at)
        return value

    def key(self) -> str:
        if self.next() != '"':
            raise self.fail("Expecting property name")
        name: str = self.scalar()
        self.take(":")
        return name

    def begun(self, first: str) -> bool:
        """Opens a list or an object, and returns whether it has a value."""
        self.at += 1
        is_empty = self.next() == ("]" if first == "[" else "}")
        if first == "[":
            self.open.append(([], ""))
        else:
            self.open.append(({}, "" if is_empty else self.key()))
        return not is_empty

    def ended(self) -> Any:
        """Closes the innermost open container, and returns its value."""
        container, _ = self.open.pop()
        self.take("]" if isinstance(container, list) else "}")
        return container if isinstance(container, list) else self.hook(container)

    def put(self, value: Any) -> bool:
        """Puts a value into the innermost open container, and returns whether another value follows."""
        container, key = self.open[-1]
        if isinstance(container, list):
            container.append(value)
        else:
            container[key] = value
        if self.next() != ",":
            return False
        self.at += 1
        if isinstance(container, dict):
            self.open[-1] = container, self.key()
        return True

    def whole(self) -> Any:
        while True:
            first = self.next()
            if first in "[{":
                if self.begun(first):
                    continue
                value = self.ended()
            else:
                value = self.scalar()
            while self.open and not self.put(value):
                value = self.ended()
            if not self.open:
                break
        if self.next() != "\0" or self.at < len(self.text):
            raise self.fail("Extra data")
        return value
