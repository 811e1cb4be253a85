#!/usr/bin/env python3
"""The rows `following` of `starlark_rows`: what may follow the first lexemes of a text.

    tools/following_rows.py    prints the rows, to be put in place of those in crates/starlark_rows/stdout

What is expected is found by a chart parser over the grammar below, which is written from the Starlark specification's "Grammar
reference" and docs/DECISIONS.md by hand, for tokens that are written out here: no program of the repository is asked.
"""
KINDS = """Identifier Int Float String Bytes Newline Indent Dedent FStringStart FStringText FStringExprStart FStringBang FStringExprEnd
    FStringEnd And Break Continue Def Elif Else For If In Lambda Load Not Or Pass Return Comma Semicolon Colon Dot Ellipsis MinusGreater
    OpeningRound ClosingRound OpeningSquare ClosingSquare OpeningCurly ClosingCurly Plus Minus Star Slash SlashSlash Percent StarStar
    Ampersand Pipe Caret Tilde LessLess GreaterGreater LessThan GreaterThan LessEqual GreaterEqual EqualEqual BangEqual Equal PlusEqual
    MinusEqual StarEqual SlashEqual SlashSlashEqual PercentEqual AmpersandEqual PipeEqual CaretEqual LessLessEqual
    GreaterGreaterEqual""".split()

# A line for each nonterminal: its name, and its right sides. What is not a nonterminal is a kind of token.
GRAMMAR = """
Module: nothing | Module Newline | Module Stmt
Stmt: Simple | Def Identifier OpeningRound AnyDefParam ClosingRound ReturnType Colon Suite | If Test Colon Suite Rest | ForStmt
ForStmt: For LoopVars In Test Colon Suite
Rest: nothing | Elif Test Colon Suite Rest | Else Colon Suite
Suite: Simple | Newline Newlines Indent Block Dedent
Newlines: nothing | Newlines Newline
Block: Newlines Stmt | Block Newline | Block Stmt
ReturnType: nothing | MinusGreater Test
DefParam: Slash | Star | Star Identifier Annotation | StarStar Identifier Annotation | Identifier Annotation
    | Identifier Annotation Equal Test
Annotation: nothing | Colon Test
Simple: Smalls Newline | Smalls Semicolon Newline
Smalls: Small | Smalls Semicolon Small
Small: Return | Return TestList | Break | Continue | Pass | Load OpeningRound String Symbols ClosingRound | Test
    | TestList Annotation AssignSign TestList
TestList: SomeTest | SomeTest Comma
Symbols: nothing | Comma AnySym
Sym: String | Identifier Equal String | Identifier
Test: OrTest | OrTest If OrTest Else Test | Lambda AnyLambdaParam Colon Test
OrTest: AndTest | OrTest Or AndTest
AndTest: NotTest | AndTest And NotTest
NotTest: Not NotTest | Comparison
Comparison: BitOr | BitOr CompSign BitOr
CompSign: EqualEqual | BangEqual | LessThan | GreaterThan | LessEqual | GreaterEqual | In | Not In
BitOr: Xor | BitOr Pipe Xor
Xor: BitAnd | Xor Caret BitAnd
BitAnd: Shift | BitAnd Ampersand Shift
Shift: Sum | Shift LessLess Sum | Shift GreaterGreater Sum
Sum: Product | Sum Plus Product | Sum Minus Product
Product: Unary | Product Star Unary | Product Slash Unary | Product SlashSlash Unary | Product Percent Unary
Unary: Plus Unary | Minus Unary | Tilde Unary | Primary
Primary: Atom | Primary Dot Identifier | Primary OpeningSquare Sub ClosingSquare | Primary OpeningRound AnyArg ClosingRound
Sub: Test | Test Comma Test | Bound Colon Bound | Bound Colon Bound Colon Bound
Bound: nothing | Test
Arg: Test | Identifier Equal Test | Star Test | StarStar Test
Entry: Test Colon Test
LambdaParam: Slash | Star | Star Identifier | StarStar Identifier | Identifier | Identifier Equal Test
Atom: Identifier | Int | Float | String | Bytes | Ellipsis | OpeningRound AnyTest ClosingRound
    | OpeningSquare AnyTest ClosingSquare | OpeningCurly AnyEntry ClosingCurly | OpeningSquare Test Clauses ClosingSquare
    | OpeningCurly Entry Clauses ClosingCurly | FStringStart Parts FStringEnd
LoopVars: SomeBitOr | SomeBitOr Comma
ForClause: For LoopVars In OrTest
Clauses: ForClause | Clauses ForClause | Clauses If OrTest
Parts: nothing | Parts FStringText | Parts FStringExprStart Test Conversion FStringExprEnd
Conversion: nothing | FStringBang | FStringBang Identifier
AssignSign: Equal | PlusEqual | MinusEqual | StarEqual | SlashEqual | SlashSlashEqual | PercentEqual | AmpersandEqual
    | PipeEqual | CaretEqual | LessLessEqual | GreaterGreaterEqual
SomeTest: Test | SomeTest Comma Test
AnyTest: nothing | SomeTest | SomeTest Comma
SomeArg: Arg | SomeArg Comma Arg
AnyArg: nothing | SomeArg | SomeArg Comma
SomeEntry: Entry | SomeEntry Comma Entry
AnyEntry: nothing | SomeEntry | SomeEntry Comma
SomeLambdaParam: LambdaParam | SomeLambdaParam Comma LambdaParam
AnyLambdaParam: nothing | SomeLambdaParam | SomeLambdaParam Comma
SomeBitOr: BitOr | SomeBitOr Comma BitOr
AnyBitOr: nothing | SomeBitOr | SomeBitOr Comma
SomeSym: Sym | SomeSym Comma Sym
AnySym: nothing | SomeSym | SomeSym Comma
SomeDefParam: DefParam | SomeDefParam Comma DefParam
AnyDefParam: nothing | SomeDefParam | SomeDefParam Comma
"""

# A text, the kinds of its lexemes, and how many are consumed.
ROWS = [
    ("", "Newline", [0, 1]),
    ("x", "Identifier Newline", [1]),
    ("x = ", "Identifier Equal Newline", [2]),
    ("f(a b)", "Identifier OpeningRound Identifier Identifier ClosingRound Newline", [2, 3, 4]),
    ("f(a = 1, *b)", "Identifier OpeningRound Identifier Equal Int Comma Star Identifier ClosingRound Newline", [4, 6, 8]),
    ("f(a.b = 1)", "Identifier OpeningRound Identifier Dot Identifier Equal Int ClosingRound Newline", [3, 5]),
    ("1 < 2 < 3", "Int LessThan Int LessThan Int Newline", [3]),
    ("a not in b", "Identifier Not In Identifier Newline", [2]),
    ("a if b", "Identifier If Identifier Newline", [3]),
    ("lambda a, *, b = 1: a", "Lambda Identifier Comma Star Comma Identifier Equal Int Colon Identifier Newline", [1, 2, 4, 6]),
    ("[x for y, z in w if v]", "OpeningSquare Identifier For Identifier Comma Identifier In Identifier If Identifier ClosingSquare Newline", [1, 2, 4, 5, 8]),
    ("[x, y for", "OpeningSquare Identifier Comma Identifier For Newline", [4]),
    ("{a: b}", "OpeningCurly Identifier Colon Identifier ClosingCurly Newline", [1, 2, 4]),
    ("(a,)", "OpeningRound Identifier Comma ClosingRound Newline", [3]),
    ("a[b:c:]", "Identifier OpeningSquare Identifier Colon Identifier Colon ClosingSquare Newline", [2, 3, 5]),
    ("a, b", "Identifier Comma Identifier Newline", [2, 3]),
    ("a: int = 1", "Identifier Colon Identifier Equal Int Newline", [2, 3]),
    ("load('a', 'b', c = 'd')", "Load OpeningRound String Comma String Comma Identifier Equal String ClosingRound Newline", [1, 3, 4, 7]),
    ("load('m', x", "Load OpeningRound String Comma Identifier Newline", [5]),
    ("return", "Return Newline", [1]),
    ("pass; pass", "Pass Semicolon Pass Newline", [1, 2]),
    ("def f(*, a: b = c, **d) -> e: pass", "Def Identifier OpeningRound Star Comma Identifier Colon Identifier Equal Identifier Comma StarStar "
        "Identifier ClosingRound MinusGreater Identifier Colon Pass Newline", [1, 3, 4, 6, 13, 14, 17]),
    ("if a:\n  b\nelif c:\n  d\n", "If Identifier Colon Newline Indent Identifier Newline Dedent Elif Identifier Colon Newline Indent "
        "Identifier Newline Newline Dedent", [3, 4, 5, 7, 8, 17]),
    ("for a, b in c: pass", "For Identifier Comma Identifier In Identifier Colon Pass Newline", [1, 2, 3]),
    ("f'a{b!r}'", "FStringStart FStringText FStringExprStart Identifier FStringBang Identifier FStringExprEnd FStringEnd Newline", [1, 3, 4, 5, 6]),
    ("# c\nx", "Comment Newline Identifier Newline", [1]),
    ("x )", "Identifier ClosingRound Newline", [2]),
]


def rules():
    """The right sides of each nonterminal."""
    found = {}
    for line in GRAMMAR.replace("\n    |", " |").strip().split("\n"):
        name, sides = line.split(": ", 1)
        found[name] = [[] if side == "nothing" else side.split() for side in sides.split(" | ")]
    return found


RULES = rules()


def empty():
    """The nonterminals that derive no token."""
    found = set()
    while True:
        more = {n for n, sides in RULES.items() if any(all(part in found for part in side) for side in sides)}
        if more == found:
            return found
        found = more


EMPTY = empty()


class Chart:
    """The items (nonterminal, right side, parts that are read, where it begins) after each token that was consumed."""

    def __init__(self):
        self.columns = []
        self.close(("Module", tuple(side), 0, 0) for side in RULES["Module"])

    def close(self, items):
        here = len(self.columns)
        column, ready, left = set(), set(), list(items)
        self.columns.append(column)
        while left:
            item = left.pop()
            if item in column:
                continue
            column.add(item)
            name, side, read, begin = item
            if read == len(side):
                ready.add((name, begin))
                for above, other, count, start in list(self.columns[begin]):
                    if count < len(other) and other[count] == name:
                        left.append((above, other, count + 1, start))
            elif side[read] in RULES:
                part = side[read]
                left.extend((part, tuple(other), 0, here) for other in RULES[part])
                if part in EMPTY or (part, here) in ready:
                    left.append((name, side, read + 1, begin))

    def following(self):
        return {side[read] for _, side, read, _ in self.columns[-1] if read < len(side) and side[read] not in RULES}

    def is_program(self):
        return any(name == "Module" and read == len(side) and begin == 0 for name, side, read, begin in self.columns[-1])

    def take(self, kind):
        items = [(n, s, r + 1, b) for n, s, r, b in self.columns[-1] if r < len(s) and s[r] == kind]
        self.close(items)
        return bool(items)


def wanted(kinds):
    """What may follow. At the end of a program blocks may lack their Dedent, so that many are consumed before it is asked."""
    kinds = [kind for kind in kinds if kind != "Comment"]
    chart = Chart()
    if not all(chart.take(kind) for kind in kinds):
        return "none"
    following = chart.following()
    ends = all(chart.take("Dedent") for _ in range(kinds.count("Indent") - kinds.count("Dedent"))) and chart.is_program()
    return " ".join([kind for kind in KINDS if kind in following] + ["end" if ends else "-"])


if __name__ == "__main__":
    for text, kinds, counts in ROWS:
        for count in counts:
            print(f"=== following {count}\n{text}\n---\n{wanted(kinds.split()[:count])}")
