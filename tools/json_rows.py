#!/usr/bin/env python3
"""The rows `to_json` of `starlark_rows`: texts, and the JSON that is expected of them, written from docs/JSON.md by hand.

    tools/json_rows.py    prints the rows, to be put in place of those in crates/starlark_rows/stdout
    tools/rows.py inputs

Each tree is written here as calls that name the parts of its text; a span is that of the part in the text. No program of the
repository is run, so no row is ever made of its output.
"""
import json

TEXT = ""
ROWS = []


def bytes_before(at):
    return len(TEXT[:at].encode())


def span(part, nth=0):
    """The span of the part's nth occurrence, counted from 0; a pair is from the begin of one part to the end of another."""
    if isinstance(part, list):
        return part
    if isinstance(part, tuple):
        return [span(part[0])[0], span(part[1])[1]]
    at = -1
    for _ in range(nth + 1):
        at = TEXT.find(part, at + 1)
        if at < 0:
            raise ValueError((part, nth, TEXT))
    return [bytes_before(at), bytes_before(at + len(part))]


def node(family, kind, at, **fields):
    out = {family: kind, "span": span(*at) if isinstance(at, tuple) and isinstance(at[-1], int) else span(at)}
    for key, value in fields.items():
        out[key.rstrip("_")] = value
    return out


def E(kind, at, **fields):
    return node("expr", kind, at, **fields)


def S(kind, at, **fields):
    return node("stmt", kind, at, **fields)


def A(kind, at, **fields):
    return node("argument", kind, at, **fields)


def P(kind, at, **fields):
    return node("parameter", kind, at, **fields)


def T(kind, at, **fields):
    return node("target", kind, at, **fields)


def where(at):
    return span(*at) if isinstance(at, tuple) and isinstance(at[-1], int) else span(at)


def word(text, at=None):
    return {"span": where(text if at is None else at), "text": text}


def name(text, nth=0):
    return E("Identifier", (text, nth), name=text)


def bound(text, nth=0):
    return T("Identifier", (text, nth), name=text)


def integer(text, nth=0, value=None):
    return E("Literal", (text, nth), literal="Int", value=int(text) if value is None else value)


def string(value, at):
    return E("Literal", at, literal="String", value=value)


def type_of(text, nth=0):
    return {"span": span(text, nth), "expr": name(text, nth)}


def written(value):
    return json.dumps(value, separators=(",", ":"), ensure_ascii=False)


def row(dialect, text, answer):
    global TEXT
    TEXT = text
    ROWS.append(f"=== to_json {dialect}\n{text}\n---\n{written({'version': 1, **answer()})}\n")


def module(text, tree, comments=(), dialect="all"):
    row(dialect, text, lambda: {"file": "a.bzl", "comments": [where(c) for c in comments], "statement": tree()})


def value(text, tree):
    """A text that is one expression."""
    module(text, lambda: S("Expression", [0, len(text.encode())], value=tree()))


def place(at):
    before = TEXT.encode()[:at].decode()
    return {"line": before.count("\n"), "column": len(before) - before.rfind("\n") - 1}


def error(text, kind, message, at, dialect="all"):
    def answer():
        begin, end = where(at)
        return {"error": kind, "message": message, "file": "a.bzl", "span": [begin, end], "begin": place(begin), "end": place(end)}
    row(dialect, text, answer)


def nowhere(call, kind, message):
    """An error that no small text causes."""
    ROWS.append(f"=== to_json error {call}\n\n---\n{written({'version': 1, 'error': kind, 'message': message, 'file': None})}\n")


def part(call, text, tree):
    """A statement or an expression alone."""
    global TEXT
    TEXT = text
    ROWS.append(f"=== to_json {call}\n{text}\n---\n{written(tree())}\n")


# statements
module("", lambda: S("Statements", [0, 0], statements=[]))
module("pass\n", lambda: S("Pass", "pass"))
module("pass; a\n", lambda: S("Statements", [0, 8], statements=[S("Pass", "pass"), S("Expression", ("a", 1), value=name("a", 1))]))
module("for x in y:\n  break\n  continue\n", lambda: S("For", [0, 31], var=bound("x"), over=name("y"), body=S(
    "Statements", [14, 31], statements=[S("Break", "break"), S("Continue", "continue")])))
module("def f(): return\n", lambda: S("Def", [0, 16], name=word("f", ("f", 1)), params=[], return_type=None, body=S(
    "Return", "return", value=None)))
module("def f() -> t: return a\n", lambda: S("Def", [0, 23], name=word("f", ("f", 1)), params=[], return_type=type_of("t"), body=S(
    "Return", "return a", value=name("a"))))
module("x = y\n", lambda: S("Assign", "x = y", lhs=bound("x"), type=None, rhs=name("y")))
module("x: t = y\n", lambda: S("Assign", "x: t = y", lhs=bound("x"), type=type_of("t"), rhs=name("y")))
for sign, kind in [("+=", "Add"), ("-=", "Subtract"), ("*=", "Multiply"), ("/=", "Divide"), ("//=", "FloorDivide"), ("%=", "Percent"),
                   ("&=", "BitAnd"), ("|=", "BitOr"), ("^=", "BitXor"), ("<<=", "LeftShift"), (">>=", "RightShift")]:
    module(f"x {sign} y\n", lambda: S("AssignModify", f"x {sign} y", lhs=bound("x"), op=kind, rhs=name("y")))
module("if a: pass\n", lambda: S("If", [0, 11], condition=name("a"), then=S("Pass", ("pass", 0))))
module("if a: b\nelif c: d\nelse: g\n", lambda: S("IfElse", [0, 26], condition=name("a"), then=S("Expression", "b", value=name("b")), else_=S(
    "IfElse", [8, 26], condition=name("c"), then=S("Expression", "d", value=name("d")), else_=S("Expression", "g", value=name("g")))))
module('load("//m", "a", b = "c")\n', lambda: S("Load", 'load("//m", "a", b = "c")', module=word("//m", '"//m"'), args=[
    {"local": word("a", '"a"'), "their": word("a", '"a"'), "comma": span(",", 1)},
    {"local": word("b"), "their": word("c", '"c"'), "comma": None}]))
module("# one\nx = 1 # two\n", lambda: S("Assign", "x = 1", lhs=bound("x"), type=None, rhs=integer("1")), comments=["# one", "# two"])

# targets
module("(a, b[0], [c.d]) = z\n", lambda: S("Assign", "(a, b[0], [c.d]) = z", lhs=T("Tuple", "a, b[0], [c.d]", items=[
    bound("a"), T("Index", "b[0]", array=name("b"), index=integer("0")),
    T("Tuple", "[c.d]", items=[T("Dot", "c.d", object=name("c"), attribute=word("d"))])]), type=None, rhs=name("z")))

# expressions
value("()", lambda: E("Tuple", "()", items=[]))
value("(a,)", lambda: E("Tuple", "a,", items=[name("a")]))
module("x = a, b\n", lambda: S("Assign", "x = a, b", lhs=bound("x"), type=None, rhs=E("Tuple", "a, b", items=[name("a"), name("b")])))
value("a.b", lambda: E("Dot", "a.b", object=name("a"), attribute=word("b")))
value("f()", lambda: E("Call", "f()", callee=name("f"), args=[]))
value("f(a, b = c, *d, **e)", lambda: E("Call", "f(a, b = c, *d, **e)", callee=name("f"), args=[
    A("Positional", "a", value=name("a")), A("Named", "b = c", name=word("b"), value=name("c")),
    A("Args", "*d", value=name("d")), A("KwArgs", "**e", value=name("e"))]))
value("a[i]", lambda: E("Index", "a[i]", array=name("a"), index=name("i")))
value("a[i, j]", lambda: E("Index2", "a[i, j]", array=name("a"), index0=name("i"), index1=name("j")))
value("a[:]", lambda: E("Slice", "a[:]", array=name("a"), start=None, stop=None, step=None))
value("a[i:j]", lambda: E("Slice", "a[i:j]", array=name("a"), start=name("i"), stop=name("j"), step=None))
value("a[i:j:k]", lambda: E("Slice", "a[i:j:k]", array=name("a"), start=name("i"), stop=name("j"), step=name("k")))
value("a[::k]", lambda: E("Slice", "a[::k]", array=name("a"), start=None, stop=None, step=name("k")))
value("abc", lambda: name("abc"))
value("lambda: x", lambda: E("Lambda", "lambda: x", params=[], body=name("x")))
value("lambda y, *z: x", lambda: E("Lambda", "lambda y, *z: x", params=[
    P("Normal", "y", name=word("y"), type=None, default=None), P("Args", "*z", name=word("z"), type=None)], body=name("x")))
value("not a", lambda: E("Not", "not a", operand=name("a", 0)))
value("-a", lambda: E("Minus", "-a", operand=name("a")))
value("+a", lambda: E("Plus", "+a", operand=name("a")))
value("~a", lambda: E("BitNot", "~a", operand=name("a")))
for sign, kind in [("or", "Or"), ("and", "And"), ("==", "Equal"), ("!=", "NotEqual"), ("<", "Less"), (">", "Greater"), ("<=", "LessOrEqual"),
                   (">=", "GreaterOrEqual"), ("in", "In"), ("not in", "NotIn"), ("-", "Subtract"), ("+", "Add"), ("*", "Multiply"),
                   ("%", "Percent"), ("/", "Divide"), ("//", "FloorDivide"), ("&", "BitAnd"), ("|", "BitOr"), ("^", "BitXor"),
                   ("<<", "LeftShift"), (">>", "RightShift")]:
    value(f"x {sign} y", lambda: E("Op", f"x {sign} y", op=kind, left=name("x"), right=name("y")))
value("x if y else z", lambda: E("If", "x if y else z", condition=name("y"), then=name("x"), else_=name("z")))
value("[]", lambda: E("List", "[]", items=[]))
value("[a, b]", lambda: E("List", "[a, b]", items=[name("a"), name("b")]))
value("{}", lambda: E("Dict", "{}", entries=[]))
value("{a: b, c: d}", lambda: E("Dict", "{a: b, c: d}", entries=[[name("a"), name("b")], [name("c"), name("d")]]))
value("[a for b in c]", lambda: E("ListComprehension", "[a for b in c]", element=name("a"), clauses=[
    {"clause": "For", "var": bound("b"), "over": name("c")}]))
value("[a for b in c if d for e in g]", lambda: E("ListComprehension", "[a for b in c if d for e in g]", element=name("a"), clauses=[
    {"clause": "For", "var": bound("b"), "over": name("c")}, {"clause": "If", "condition": name("d")},
    {"clause": "For", "var": bound("e"), "over": name("g")}]))
value("{a: b for c, d in e}", lambda: E("DictComprehension", "{a: b for c, d in e}", key=name("a"), value=name("b"), clauses=[
    {"clause": "For", "var": T("Tuple", "c, d", items=[bound("c"), bound("d")]), "over": name("e")}]))
value('f"a{b}c"', lambda: E("FString", 'f"a{b}c"', format=word("a{}c", 'f"a{b}c"'), expressions=[name("b")]))
value("(a) + (b)", lambda: E("Op", [1, 8], op="Add", left=name("a"), right=name("b")))

# literals
value("0", lambda: integer("0"))
value("2147483647", lambda: integer("2147483647"))
value("0x7b", lambda: integer("0x7b", value=123))
value("2147483648", lambda: E("Literal", "2147483648", literal="BigInt", value="2147483648"))
value("1.50e3", lambda: E("Literal", "1.50e3", literal="Float", value="1.50e3"))
value('"a"', lambda: string("a", '"a"'))
value('"\\"\\\\/\\n\\t\\r\\b\\f"', lambda: string('"\\/\n\t\r\b\f', [0, 17]))
value('"\\0\\x01\\x1f\\x7f"', lambda: string("\0\x01\x1f\x7f", [0, 16]))
value('"\u00e9\u20ac\U0001f600"', lambda: string("\u00e9\u20ac\U0001f600", [0, 11]))
value('b"a\\x00\\xff"', lambda: E("Literal", [0, 12], literal="Bytes", value=[97, 0, 255]))
value('b""', lambda: E("Literal", 'b""', literal="Bytes", value=[]))
module("x = ...\n", lambda: S("Assign", "x = ...", lhs=bound("x"), type=None, rhs=E("Literal", "...", literal="Ellipsis")))

# parameters
module("def f(a, /, b: t, c = d, *, e, **g): pass\n", lambda: S("Def", [0, 42], name=word("f", ("f", 1)), params=[
    P("Normal", "a", name=word("a"), type=None, default=None), P("Slash", "/"), P("Normal", "b: t", name=word("b"), type=type_of("t"), default=None),
    P("Normal", "c = d", name=word("c"), type=None, default=name("d", 1)), P("NoArgs", ("*", 0)),
    P("Normal", ("e", 1), name=word("e", ("e", 1)), type=None, default=None), P("KwArgs", "**g", name=word("g"), type=None)],
    return_type=None, body=S("Pass", "pass")))
module("def h(*a: t, **k: u): pass\n", lambda: S("Def", [0, 27], name=word("h"), params=[
    P("Args", "*a: t", name=word("a"), type=type_of("t")), P("KwArgs", "**k: u", name=word("k"), type=type_of("u"))],
    return_type=None, body=S("Pass", "pass")))

# errors
error('"\u00e9\n', "Lexer", "UnfinishedString", [0, 3])
error("\u00e9", "Lexer", "InvalidCharacter", [0, 2])
error("x = = 1\n", "UnexpectedToken", "Parse error: unexpected token", ("=", 1))
error("f() = 1\n", "Grammar", "left-hand-side of assignment must take the form `a`, `a.b` or `a[b]`", "f()")
error("f(a = 1,\n  a = 2)\n", "Call", "repeated named argument", ("a", 1))
error("def f(a, a): pass\n", "Params", "duplicated parameter name", ("a", 1))
error("x: 1 = 2\n", "TypeExpr", "int expression is not allowed in type expression", "1")
error("lambda: 1\n", "Dialect", "`lambda` is not allowed in this dialect", "lambda: 1", dialect="bare")
error("return\n", "Place", "`return` cannot be used outside of a `def` function", "return")
error('"\u00e9" $\n', "Lexer", "InvalidCharacter", "$")
error("if a:", "UnexpectedEnd", "Parse error: unexpected end of file", [5, 5])
error("# \u00e9\nif a:\n", "UnexpectedEnd", "Parse error: unexpected end of file", [11, 11])
nowhere("text_too_long", "TextTooLong", "text is longer than 4294967295 bytes")
nowhere("out_of_memory", "Memory", "out of memory")

# parts alone
part("statement", "pass\n", lambda: S("Pass", "pass"))
part("statement", "x = y # c\n", lambda: S("Assign", "x = y", lhs=bound("x"), type=None, rhs=name("y")))
part("expression", "-a\n", lambda: E("Minus", "-a", operand=name("a")))
part("expression", "(a)\n", lambda: name("a"))

print("".join(ROWS), end="")
