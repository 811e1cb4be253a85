#!/usr/bin/env python3
"""Rows of source of `starlark_rows` that are not written by hand, in plain form, to be put after those that are.

    tools/source_rows.py operators    two operators after each other, in each order: the source has parentheses only if the table of
                                      the Starlark specification, which is repeated here, asks for them
    tools/source_rows.py same         each text that a row of another call accepts: its source has to parse to the same tree

No program of the repository is run, so no row is ever made of its output.
"""
import os
import re
import sys

import rows

# The operators of the specification's table, from loose to tight.
TABLE = [["or"], ["and"], ["==", "!=", "<", ">", "<=", ">=", "in", "not in"], ["|"], ["^"], ["&"], ["<<", ">>"], ["-", "+"],
         ["*", "%", "/", "//"]]
COMPARISONS = 2


def level(sign):
    return next(at for at, signs in enumerate(TABLE) if sign in signs)


def pair(outer, inner):
    """The lines of an operator with another to its left and to its right, and how they are written."""
    looser, same = level(inner) < level(outer), level(inner) == level(outer)
    left = looser or same and level(outer) == COMPARISONS
    inside = f"b {inner} c"
    yield f"(b {inner} c) {outer} a", f"({inside}) {outer} a" if left else f"{inside} {outer} a"
    yield f"a {outer} (b {inner} c)", f"a {outer} ({inside})" if looser or same else f"a {outer} {inside}"


def operator_rows():
    signs = [sign for signs in TABLE for sign in signs]
    for outer in signs:
        lines = [line for inner in signs for line in pair(outer, inner)]
        texts, wanted = zip(*lines)
        yield rows.row("to_source", "\n".join(texts), "\n".join(wanted) + "\nthe same\n")


def accepted(call, status, wanted):
    """Whether a row says that its text is a module in the largest dialect."""
    if call in ("cut", "broken", "clone", "module", "into_parts", "printed_again"):
        return True
    if call.split(" ")[0] in ("walk", "write", "replace", "payloads", "map"):
        return True
    if re.fullmatch("(all|bare) (print|locations|comments|loads|lint)", call):
        return status == " 0"
    if call in ("to_json all", "to_json standard", "to_json bare"):
        return '"statement":' in wanted
    return False


def texts(name):
    with open(os.path.join(rows.TOP, "crates", name, "stdout"), encoding="utf-8", newline="") as file:
        book = file.read()
    for piece in ("\n" + book).split("\n=== ")[1:]:
        call, *rest = piece.split("\n")
        end = next(at for at, line in enumerate(rest) if rows.is_rule(line))
        if accepted(call, rest[end][3:], "\n".join(rest[end + 1:])):
            yield "\n".join(rest[:end])


def same_rows():
    found = dict.fromkeys(text for name in ("starlark_rows", "starlark_tree_rows") for text in texts(name))
    for text in found:
        yield rows.row("same", text, "the same\n")


if __name__ == "__main__":
    made = {"operators": operator_rows, "same": same_rows}.get(" ".join(sys.argv[1:]))
    if made is None:
        sys.exit(__doc__)
    sys.stdout.writelines(made())
