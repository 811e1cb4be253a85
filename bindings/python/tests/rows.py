"""The rows of `starlark_rows`: a call, a text and what is expected. Those of `to_json` have JSON, written by hand from docs/JSON.md."""
import os
import re
from typing import NamedTuple

TOP = os.path.join(os.path.dirname(os.path.abspath(__file__)), "..", "..", "..")
ROWS = re.compile(r"^=== to_json (\w+).*\n((?:.*\n)*?)---\n(.*)\n", re.M)


class Row(NamedTuple):
    what: str  # a dialect, "statement", "expression" or "error"
    text: str
    json: str


class Call(NamedTuple):
    call: str  # as "all lint"
    text: str
    wanted: str


def book() -> str:
    with open(f"{TOP}/crates/starlark_rows/stdout", encoding="utf-8", newline="") as it:
        return it.read()


def rows() -> list[Row]:
    # The text of a row is without the line feed before the three dashes.
    return [Row(what, text[:-1], json) for what, text, json in ROWS.findall(book())]


def calls(begin: str, line: str) -> list[Call]:
    """The rows whose call begins so, with this between the text and what is expected."""
    found = []
    for row in book().removeprefix("=== ").split("\n=== "):
        call, _, row = row.partition("\n")
        text, is_there, wanted = row.rpartition(line)
        if is_there and call.startswith(begin):
            found.append(Call(call, text, wanted.rstrip("\n")))
    return found
