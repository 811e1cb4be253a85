"""Calls, and what they return."""
import ctypes
import doctest
import inspect
import os
import pickle
import re
import subprocess
import sys
import threading
import typing
import unittest
from unittest import mock

import starlark_ast
from starlark_ast import (
    DEFAULT_DEPTH, AssignOp, BinOp, Dialect, ErrorKind, LibraryError, Module, ParseError, Position, ResolvedSpan, Source, Span, children,
    expr, library, loads, parse, parse_json, parse_to_json, stmt, target, to_json, walk,
)

HERE = os.path.dirname(os.path.abspath(__file__))
TOP = os.path.join(HERE, "..", "..", "..")


def value_of(text, **how):
    return parse(f"x = {text}\n", **how).statement.rhs


class Trees(unittest.TestCase):
    def test_module(self):
        module = parse("x = f(1) # one\n", file="a.bzl")
        self.assertEqual((module.file, module.comments), ("a.bzl", [Span(9, 14)]))
        match module.statement:
            case stmt.Assign(lhs=target.Identifier(name="x"), type=None, rhs=expr.Call(span, expr.Identifier(name="f"), [argument])):
                self.assertEqual((span, argument.value), (Span(4, 8), expr.Int(Span(6, 7), 1)))
            case other:
                self.fail(other)

    def test_literals(self):
        self.assertEqual(value_of("0x10").value, 16)
        self.assertEqual(int(value_of("0o777777777777").value, 0), 0o777777777777)
        self.assertEqual(float(value_of("1.5e3").value), 1500.0)
        self.assertEqual(value_of('"\\"é\\n\\x01"').value, '"é\n\x01')
        self.assertEqual(value_of('b"a\\xff"').value, b"a\xff")
        self.assertIsInstance(value_of("..."), expr.Literal)

    def test_operators(self):
        self.assertEqual([value_of(f"a {it.symbol} b").op for it in BinOp], list(BinOp))
        modified = parse("".join(f"a {it.symbol} b\n" for it in AssignOp)).statement.statements
        self.assertEqual([it.op for it in modified], list(AssignOp))

    def test_walks(self):
        module = parse('load("m", "a", b = "c")\n{a: b}; load("n", "d")\nx = [y for y in z if y]\n')
        self.assertEqual([it.module.text for it in loads(module)], ["m", "n"])
        names = [it.name for it in walk(module) if isinstance(it, expr.Identifier)]
        self.assertEqual(names, ["a", "b", "y", "z", "y"])
        self.assertEqual(children(module), [module.statement])

    def test_nodes_have_types(self):
        for node in {type(it) for it in walk(parse("def f(a, /, b: int = 1, *c, **d) -> str:\n  return a[1:2]\n"))}:
            self.assertIn("family", typing.get_type_hints(node))

    def test_nodes_compare_and_pickle(self):
        module = parse("x = 1\n")
        self.assertEqual(module, parse(b"x = 1\n"))
        self.assertNotEqual(module, parse("x = 2\n"))
        self.assertEqual(pickle.loads(pickle.dumps(module)), module)

    def test_spans(self):
        text = 'y = "日本" + f("é", z) # é\n'
        for how, source in (("bytes", text.encode()), ("chars", text)):
            module = parse(text, spans=how)
            call = module.statement.rhs.right
            wanted = 'f("é", z)'
            self.assertEqual(call.span.of(source), wanted if how == "chars" else wanted.encode())
        with self.assertRaises(ParseError) as caught:
            parse('x = "é" = 1\n', spans="chars")
        self.assertEqual(caught.exception.span, Span(8, 9))
        self.assertRaises(ValueError, parse, "", spans="lines")

    def test_lines_and_columns(self):
        text = 'y = "日本" + f("é", z) # é\r\nif y:\n  z\n'
        for module in (parse(text), parse(text.encode()), parse(text, spans="chars")):
            found = [str(module.resolve_span(it.span)) for it in walk(module) if isinstance(it, (expr.Identifier, expr.String, stmt.Stmt))]
            self.assertEqual(sorted(found), ["1:1-21", "1:1-4:1", "1:12-13", "1:14-17", "1:19-20", "1:5-9", "2:1-4:1", "2:4-5", "3:3-4", "3:3-4"])
            self.assertEqual(module.resolve_span(Span(0, 1)), ResolvedSpan(Position(0, 0), Position(0, 1)))
            self.assertEqual(str(module.resolve_span(Span(0, 0))), "1:1")
            copy = pickle.loads(pickle.dumps(module))
            self.assertEqual(copy.resolve_span(copy.comments[0]), module.resolve_span(module.comments[0]))
            module.source = Source("\n" + text, module.source.spans)
            self.assertEqual(str(module.resolve_span(Span(1, 2))), "2:1-2")
        self.assertRaises(ValueError, starlark_ast.from_json(parse_to_json("x\n")).resolve_span, Span(0, 1))

    def test_deep_texts(self):
        def texts(levels):
            return "x = " + "[" * levels + "]" * levels, "x = " + " + ".join(["y"] * levels), "x = " + "not " * levels + "y"

        for levels, depth in ((200, 250), (DEFAULT_DEPTH - 5, DEFAULT_DEPTH), (20_000, 30_000)):
            for text in texts(levels):
                module = parse(text, depth=depth)
                self.assertEqual(to_json(module), parse_to_json(text, depth=depth))
                self.assertGreaterEqual(sum(1 for _ in walk(module)), levels)
                self.assertEqual(parse_json(text, depth=depth)["version"], 1)
                del module
        for text in texts(100_000):
            with self.assertRaises(ParseError) as caught:
                parse(text)
            self.assertEqual((caught.exception.kind, caught.exception.message), (ErrorKind.LEXER, "TooDeep"))
            self.assertEqual(parse_json(text)["message"], "TooDeep")

    def test_limits(self):
        for depth in (3, 249, 250, 251, 3_000):
            with self.assertRaises(ParseError) as caught:
                parse("[" * 4_000, depth=depth)
            self.assertEqual(caught.exception.span, Span(depth, depth + 1))
            self.assertIsInstance(parse("[" * depth + "]" * depth, depth=depth), Module)
        for depth in (-1, 1 << 32):
            self.assertRaises(ValueError, parse, "x", depth=depth)
        self.assertIsInstance(parse("[" * 300 + "]" * 300, depth=(1 << 32) - 1), Module)

    def test_stacks(self):
        size = threading.stack_size(256 << 10)
        try:
            self.assertIsInstance(parse("[" * 400 + "]" * 400), Module)
            self.assertEqual(threading.stack_size(256 << 10), 256 << 10)
            with mock.patch.object(library, "_LEVEL", 1 << 44), self.assertRaisesRegex(MemoryError, "no stack for 500 levels"):
                parse("[" * 400 + "]" * 400)
            self.assertEqual(threading.stack_size(256 << 10), 256 << 10)
        finally:
            threading.stack_size(size)


class Refusals(unittest.TestCase):
    def test_place(self):
        with self.assertRaises(ParseError) as caught:
            parse("x = = 1\n", file="a.bzl")
        error = caught.exception
        self.assertEqual((error.kind, error.file, error.span), (ErrorKind.UNEXPECTED_TOKEN, "a.bzl", Span(4, 5)))
        self.assertEqual((error.begin, error.end, error.line, error.column), (Position(0, 4), Position(0, 5), 1, 5))
        self.assertEqual(str(error), "a.bzl:1:5-6: Parse error: unexpected token")
        self.assertEqual(str(pickle.loads(pickle.dumps(error))), str(error))

    def test_places_in_words(self):
        for text, place in (("if a:", "1:6"), ("f(a = 1,\n  a = 2)\n", "2:3-4"), ("f(\n) = 1", "1:1-2:2")):
            with self.assertRaises(ParseError) as caught:
                parse(text)
            self.assertTrue(str(caught.exception).startswith(f"input:{place}: "), str(caught.exception))
        self.assertEqual(str(ParseError(ErrorKind.TEXT_TOO_LONG, "too long")), "too long")

    def test_dialects(self):
        self.assertIsInstance(parse("def f():\n  pass\n", Dialect.STANDARD), Module)
        with self.assertRaises(ParseError) as caught:
            parse("def f():\n  pass\n", Dialect.BARE)
        self.assertEqual(caught.exception.kind, ErrorKind.DIALECT)
        self.assertRaises(ValueError, parse, "", Dialect.TYPES | Dialect.TYPES_PARSE_ONLY)

    def test_dialects_have_the_names_of_the_header(self):
        with open(f"{TOP}/include/starlark.h", encoding="utf-8") as it:
            header = it.read()
        parts = dict(re.findall(r"^#define STARLARK_(\w+) (\d+)u$", header.partition("STARLARK_STANDARD")[0], re.M))
        self.assertEqual(len(parts), 10)
        for name, value in parts.items():
            self.assertEqual(Dialect[name].value, int(value))
        self.assertEqual(Dialect.STANDARD, Dialect.DEF | Dialect.LAMBDA | Dialect.LOAD)
        self.assertEqual(Dialect.ALL.value, 127 | Dialect.TYPES.value)

    def test_texts_that_are_none(self):
        self.assertRaises(UnicodeDecodeError, parse, b'x = "\xff"\n')
        self.assertRaises(UnicodeEncodeError, parse, 'x = "\ud800"\n')
        self.assertIsInstance(parse(""), Module)
        self.assertRaises(ParseError, parse, "x = \0\n")


class Library(unittest.TestCase):
    def test_answer_that_is_longer_than_the_room(self):
        text = "0;" * 3000
        json = parse_to_json(text).encode()
        with mock.patch.object(library, "_ROOM", 100):
            self.assertEqual(library.answer(text.encode(), Dialect.ALL.value, 500, library.JSON._replace(room=1), bytes), (json, True))

    def test_threads(self):
        text = "def f(a, b = 1):\n  return [x for x in range(a) if x in {b: [1, 2]}]\n" * 20
        one, all_equal = parse(text), []
        threads = [threading.Thread(target=lambda: all_equal.append(all(parse(text) == one for _ in range(5)))) for _ in range(4)]
        for thread in threads:
            thread.start()
        for thread in threads:
            thread.join()
        self.assertEqual(all_equal, [True] * 4)

    def test_other_version(self):
        with mock.patch.object(library, "VERSION", 2):
            self.assertRaisesRegex(LibraryError, "version 1 of its format, and this package reads version 2", library.library.__wrapped__)

    def test_no_library(self):
        with mock.patch.dict(os.environ, {"STARLARK_LIB": "/nowhere/libstarlark_c.so"}):
            self.assertRaisesRegex(LibraryError, "tools/install", library.library.__wrapped__)
        other = ctypes.CDLL(None)
        with mock.patch.object(library, "_loaded", lambda: other):
            self.assertRaises(LibraryError, library.library.__wrapped__)

    def test_statuses(self):
        self.assertIsInstance(library._failure(2, b"", 0), MemoryError)
        self.assertIsInstance(library._failure(3, b"\xff", 0), UnicodeDecodeError)
        self.assertIsInstance(library._failure(4, b"", 384), ValueError)


class Documents(unittest.TestCase):
    def test_readme(self):
        done = doctest.testfile("../README.md", optionflags=doctest.ELLIPSIS | doctest.IGNORE_EXCEPTION_DETAIL)
        self.assertGreater(done.attempted, 5)
        self.assertEqual(done.failed, 0)

    def test_example(self):
        how = {"env": {**os.environ, "PYTHONPATH": os.path.dirname(HERE)}, "capture_output": True, "text": True}
        ran = subprocess.run([sys.executable, os.path.join(HERE, "..", "calls.py")], input="x = f(g(1))\n", **how)
        self.assertEqual(ran.stdout, "4 f\n6 g\n", ran.stderr)

    def test_public_names_are_documented(self):
        for name in starlark_ast.__all__:
            self.assertTrue(inspect.getdoc(getattr(starlark_ast, name)), name)


