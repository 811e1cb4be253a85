"""Each row's text has the row's JSON; the JSON makes a tree, and the tree makes the JSON again."""
import unittest

from starlark_ast import Dialect, Module, ParseError, from_json, node_from_json, parse, parse_json, parse_to_json, stmt, to_json
from starlark_ast.json_text import _Reader
from starlark_ast.reader import _hook, node_of

from .rows import calls, rows

DIALECTS = {"all": Dialect.ALL, "standard": Dialect.STANDARD, "bare": Dialect.BARE}


class Rows(unittest.TestCase):
    def test_answers(self):
        answers = [it for it in rows() if it.what in DIALECTS]
        self.assertGreaterEqual(len(answers), 98)
        for row in answers:
            with self.subTest(row.text):
                dialect = DIALECTS[row.what]
                self.assertEqual(parse_to_json(row.text, dialect), row.json.replace('"file":"a.bzl"', '"file":"input"', 1))
                self.assertEqual(to_json(parsed(row.text, dialect)), row.json)
                self.assertEqual(parse_json(row.text.encode(), dialect).get("version"), 1)

    def test_trees_say_the_same_json(self):
        for row in rows():
            with self.subTest(row.json):
                self.assertEqual(to_json(node_of(row.json)), row.json)

    def test_the_reader_that_does_not_recurse_reads_the_same(self):
        for row in rows():
            with self.subTest(row.json):
                self.assertEqual(to_json(_Reader(row.json, _hook(None)).whole()), row.json)

    def test_what_a_text_of_json_is(self):
        module, statement = rows()[0].json, next(it.json for it in rows() if it.what == "statement")
        self.assertIsInstance(from_json(module), Module)
        self.assertIsInstance(node_from_json(statement), stmt.Stmt)
        self.assertRaises(ValueError, from_json, statement)
        self.assertRaises(ValueError, node_from_json, "[]")
        for text in ("", "{}", '{"version":1}', '{"stmt":"Other"}', '{"expr":"Tuple","span":1,"items":[]}', '{"expr":[]}', '{"line":1}'):
            self.assertRaises(ValueError, from_json, text)
            self.assertRaises(ValueError, node_from_json, text)
        self.assertRaisesRegex(ValueError, "version 2", from_json, module.replace('"version":1', '"version":2', 1))
        for row in rows():
            if row.what == "error":
                self.assertRaises(ParseError, from_json, row.json)

    def test_lines_of_the_program(self):
        unread = []
        for row in calls("starlark json ", "\n--- "):
            for line in row.wanted.split("\n")[1:]:
                with self.subTest(line):
                    read = node_of(line)
                    self.assertIsInstance(read, (Module, ParseError))
                    self.assertEqual(to_json(read), line)
                    if '"error":"NotUtf8"' in line or '"error":"Unreadable"' in line:
                        unread.append(str(read))
        self.assertIn("latin1.star: the file is not UTF-8", unread)
        self.assertIn("missing.star: cannot read the file: No such file or directory (os error 2)", unread)


def parsed(text, dialect):
    try:
        return parse(text, dialect, file="a.bzl")
    except ParseError as error:
        return error
