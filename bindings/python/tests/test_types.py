"""The package, and tools that use it, have right types, if mypy is installed."""
import os
import shutil
import subprocess
import tempfile
import unittest

MYPY = shutil.which("mypy")
HERE = os.path.dirname(os.path.dirname(os.path.abspath(__file__)))
# A tool of a user, whose types mypy has to know without a hint.
TOOL = """
from starlark_ast import Module, ParseError, ResolvedSpan, Span, children, expr, lint, loads, parse, stmt, walk


def names(module: Module) -> dict[str, ResolvedSpan]:
    return {it.name.text: module.resolve_span(it.name.span) for it in walk(module) if isinstance(it, stmt.Def)}


def calls(module: Module) -> list[tuple[str, Span]]:
    found = []
    for node in walk(module):
        match node:
            case expr.Call(callee=expr.Identifier(name=name)):
                found.append((name, node.span))
    return found


def place(text: str) -> tuple[int | None, int | None]:
    try:
        module = parse(text, spans="chars")
    except ParseError as error:
        return error.line, error.column
    first = module.resolve_span(lint(module)[0].span).begin
    return first.line, first.column + len(loads(module)) + len(children(module))
"""


@unittest.skipUnless(MYPY, "mypy is not there")
class Types(unittest.TestCase):
    def check(self, *words: str) -> None:
        with tempfile.TemporaryDirectory() as cache:
            command = [str(MYPY), "--strict", "--cache-dir", cache, *words]
            done = subprocess.run(command, cwd=HERE, capture_output=True, text=True)
        self.assertEqual(done.returncode, 0, done.stdout + done.stderr)

    def test_strict(self) -> None:
        with tempfile.TemporaryDirectory() as room:
            with open(f"{room}/tool.py", "w", encoding="utf-8") as it:
                it.write(TOOL)
            self.check("starlark_ast", "calls.py", f"{room}/tool.py")


if __name__ == "__main__":
    unittest.main()
