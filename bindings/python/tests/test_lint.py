"""The linter returns what the rows say, and what comments suppress."""
import unittest

from starlark_ast import Dialect, EvalSeverity, Issue, ParseError, Source, Span, from_json, lint, parse, parse_to_json, to_json
from starlark_ast.lint import _quoted
from starlark_ast.places import places_of
from starlark_ast.suppressing import suppressions

from .rows import calls

DIALECTS = {"all": Dialect.ALL, "bare": Dialect.BARE}
DISABLE = "# starlark-lint-disable"


def told(text, dialect, **how):
    """What `starlark_ast DIALECT lint` prints for a text, after its status."""
    try:
        module = parse(text, dialect, file="stdin", **how)
    except ParseError as error:
        return "\n".join(["1", str(error)])
    return "\n".join(["0", *(f"{module.resolve_span(it.span)} {it.name}" for it in lint(module))])


def names(text, **how):
    return [it.name for it in lint(parse(text, **how))]


def is_suppressed(text, name="a"):
    """Whether the issue is suppressed at the last `here` of a text."""
    at = text.rindex("here")
    return any(it.covers(name, Span(at, at + 4)) for it in suppressions(text, parse(text, spans="chars"), lambda span: span))


class Rows(unittest.TestCase):
    def test_lint(self):
        tried = 0
        for name, dialect in DIALECTS.items():
            for row in calls(f"{name} lint", "\n--- "):
                if row.wanted.startswith("2") or row.wanted.endswith(": TooDeep"):
                    continue  # refused arguments, and a limit on depth that the program does not have
                for how in ("bytes", "chars"):
                    with self.subTest(row.text, spans=how):
                        self.assertEqual(told(row.text, dialect, spans=how), row.wanted)
                        self.assertEqual(told(row.text.encode(), dialect, spans=how), row.wanted)
                tried += 1
        self.assertGreater(tried, 100)

    def test_suppressed(self):
        tried = 0
        for row in calls("suppressed ", "\n---\n"):
            _, name, *spans = row.call.split(" ")
            module = parse(row.text)
            in_chars = places_of(module).in_chars
            found = suppressions(row.text, module, in_chars)
            with self.subTest(row.call, text=row.text):
                covered = [it for it in spans if covers(found, name, in_chars(Span(*map(int, it.split("..")))))]
                self.assertEqual(covered, row.wanted.split())
            tried += 1
        self.assertGreaterEqual(tried, 9)


def covers(found, name, span):
    return any(it.covers(name, span) for it in found)


class Issues(unittest.TestCase):
    def test_issues(self):
        text = 'load("m", "a", b = "é")\nx = {"k": 1, "é": {"k": 2, "k": 3},\n "k": 4}\n'
        for how, source in (("bytes", text.encode()), ("chars", text)):
            found = lint(parse(text, spans=how))
            self.assertEqual([str(it.span.of(source), "utf-8") if how == "bytes" else it.span.of(source) for it in found],
                             ['"a"', 'b = "é"', '"k"', '"k"'])
            self.assertEqual([it.name for it in found], ["unused-load"] * 2 + ["duplicate-key"] * 2)
            self.assertEqual([it.problem for it in found], [
                '`a` is loaded from "m" and never used', '`b` is loaded from "m" and never used',
                'the key "k" is repeated, first at 2:20-23', 'the key "k" is repeated, first at 2:6-9',
            ])
        issue = lint(parse('load("m", "a")\n'))[0]
        self.assertEqual(issue, Issue("unused-load", Span(10, 13), EvalSeverity.WARNING, '`a` is loaded from "m" and never used'))
        self.assertEqual(len({issue, issue}), 1)
        self.assertRaises(AttributeError, setattr, issue, "name", "other")

    def test_names_that_are_read(self):
        load = 'load("m", "a")\n'
        for text in ("a", "def f(x: a): pass", "def f(x = a): pass", "def f() -> a: pass", "x: a = 1", "a.b = 1", "a[0] = 1",
                     "[x for x in a]", "[1 for a[0] in y]", 'f"{a}"', "lambda: a", "f(**a)"):
            self.assertEqual(names(load + text), [], text)
        for text in ("a = 1", "a += 1", "x.a", "f(a = 1)", "lambda a: 1", '"a"', "def a(): pass"):
            self.assertEqual(names(load + text), ["unused-load"], text)

    def test_keys_that_are_repeated(self):
        for text, count in (('{"a": 1, "a": 2, \'a\': 3}', 2), ('{"a": 1, ("a"): 2}', 1), ('{1: 1, 1: 2}', 0), ('{b"a": 1, b"a": 2}', 0),
                            ('[{"a": 1}, {"a": 2}]', 0), ('{"a": {"a": 1}}', 0), ('{"a" + "b": 1, "a": 2}', 0)):
            self.assertEqual(names(text), ["duplicate-key"] * count, text)

    def test_text(self):
        text = 'load("é", "é")\n'
        for how in ("bytes", "chars"):
            module = parse(text, spans=how)
            self.assertEqual(module.source, Source(text, how))
            self.assertEqual(module, parse(text.encode(), spans=how))
            self.assertNotIn("source", repr(module) + to_json(module))
        module = from_json(parse_to_json(text))
        self.assertRaisesRegex(ValueError, "set its source", lint, module)
        module.source = Source(text)
        self.assertEqual(lint(module), lint(parse(text)))

    def test_deep_texts(self):
        load, levels = 'load("m", "a")\n', 10_000
        for text in ("x = " + "[" * levels + "a" + "]" * levels, "x = " + "{1: " * levels + '{"k": 1, "k": 2}' + "}" * levels,
                     "x = " + " + ".join(["y"] * levels), "x = " + "not " * levels + "y"):
            wanted = ["unused-load"] * ("a" not in text) + ["duplicate-key"] * ("k" in text)
            self.assertEqual(names(load + text, depth=30_000), wanted)
            self.assertEqual(names(f"{DISABLE} unused-load\n{load}{text}", depth=30_000), wanted[1:] if "a" not in text else wanted)

    def test_quotes(self):
        self.assertEqual(_quoted("a\"'\\\n\r\t\0\x01\x7f\u200b\u0301é日"), r'''"a\"'\\\n\r\t\0\u{1}\u{7f}\u{200b}\u{301}é日"''')


class Comments(unittest.TestCase):
    def test_blocks_end_with_a_token(self):
        comment = f"{DISABLE} a"
        for text in (f"{comment}\n# b\nz + here", f"x = [1, {comment}\n# b\nz + here]", f"x = ( {comment}\n# b\nz + here)",
                     f"# \\\n{comment}\r\n\n  # b\nz + here"):
            self.assertTrue(is_suppressed(text), text)
            self.assertFalse(is_suppressed(text, "b"), text)
        for text in (f"x = 1 {comment}\n# b\nz + here", f'x = "(" {comment}\n# b\nz + here', f'x = f"({{[1]}}" {comment}\n# b\nz + here',
                     f"x = y # (\nz = 1 {comment}\n# b\nz + here", f'load("(", "[", b = "{{") {comment}\n# b\nz + here',
                     f"x = 1 \\\n {comment}\n# b\nz + here", f"if x:\n  y {comment}\n# b\nz + here"):
            self.assertFalse(is_suppressed(text), text)

    def test_names(self):
        for listed in (" a", " a,b", "  b a ", " b , a,", " \u2003a\u2003"):
            self.assertTrue(is_suppressed(f"{DISABLE}{listed}\nhere"), listed)
        for listed in ("", " ", "a", " b", "\ta", " a\x1f"):
            self.assertFalse(is_suppressed(f"{DISABLE}{listed}\nhere"), listed)

    def test_lines(self):
        for text in (f"here {DISABLE} a", f"{DISABLE} a\nhere", f"{DISABLE} a\r\nhere", f"# b\n{DISABLE} a\nhere",
                     f"{DISABLE} a\n# b\nhere"):
            self.assertTrue(is_suppressed(text), text)
        for text in (f"x {DISABLE} a\nhere", f"{DISABLE} a\n\ny + here", f"here\n{DISABLE} a", f"{DISABLE} a\nx\ny + here"):
            self.assertFalse(is_suppressed(text), text)


if __name__ == "__main__":
    unittest.main()
