#!/usr/bin/env python3
"""Rows of tests in plain form: what the programs that run rows are to print.

    tools/rows.py inputs            writes crates/NAME/data/rows.txt of each program from crates/NAME/stdout
    tools/rows.py plain FILE..      prints the rows of an independent model, JSON objects one a line, in plain form

A row of `stdout` is a line `=== CALL`, a text, a line `---` (with a status if the call runs a program), and what is expected. To add one,
write it there, and run `inputs`: the data has the same rows without what is expected, which the programs never read. Neither
command runs a program of the repository, so no row is ever made of its output.

A JSON row has an `input` and one of these: `dialect`, `mode`, `stdout`, `stderr`, `status` of the program; `lexemes`, each
`[begin, token, value, end]` or `{"error", "begin", "end"}`, with the result (`answer`), and the
least and the most items that are consumed (`taken`) if the list is made by hand; the flags of a `dialect` and the `answer`.
"""
import json
import os
import re
import sys

TOP = os.path.dirname(os.path.dirname(os.path.abspath(__file__)))
PROGRAMS = ["starlark_rows", "starlark_tree_rows"]

KEYWORDS = "and break continue def elif else for if in lambda load not or pass return".split()
SIGN_NAMES = """Comma Semicolon Colon Dot Ellipsis MinusGreater OpeningRound ClosingRound OpeningSquare ClosingSquare OpeningCurly
    ClosingCurly Plus Minus Star Slash SlashSlash Percent StarStar Ampersand Pipe Caret Tilde LessLess GreaterGreater LessThan
    GreaterThan LessEqual GreaterEqual EqualEqual BangEqual Equal PlusEqual MinusEqual StarEqual SlashEqual SlashSlashEqual
    PercentEqual AmpersandEqual PipeEqual CaretEqual LessLessEqual GreaterGreaterEqual""".split()
SIGNS = """, ; : . ... -> ( ) [ ] { } + - * / // % ** & | ^ ~ << >> < > <= >= == != = += -= *= /= //= %= &= |= ^= <<= >>=""".split()
SOURCES = dict(zip(SIGN_NAMES, SIGNS)) | {word.capitalize(): word for word in KEYWORDS}
NAMED = "Newline Indent Dedent FStringExprStart FStringBang FStringExprEnd FStringEnd".split()
QUOTES = {"Single": "'", "Double": '"', "TripleSingle": "'''", "TripleDouble": '"""'}
STRING = re.compile(r"""(?P<prefix>[rbf]*)(?P<quote>\"""|'''|"|')(?:(?P<text>.*)(?P=quote))?""", re.S)

FLAGS = {
    "enable_def": "def",
    "enable_lambda": "lambda",
    "enable_load": "load",
    "enable_keyword_only_arguments": "keyword-only",
    "enable_positional_only_arguments": "positional-only",
    "enable_top_level_stmt": "top",
    "enable_f_strings": "f-strings",
}
TYPES = {"Disable": [], "ParseOnly": ["types-parsed"], "Enable": ["types"]}


def row(call, text, wanted, status=""):
    """A row. No line of its text looks like one of those between the parts of rows."""
    if "\n" in call or any(line.startswith("=== ") or is_rule(line) for line in text.split("\n")):
        raise ValueError(f"no row can hold {text!r}")
    return f"=== {call}\n{text}\n---{status}\n{wanted}"


def is_rule(line):
    return line == "---" or line.startswith("--- ")


def parts(book):
    """The call and the text of each row of a book of rows."""
    for piece in ("\n" + book).split("\n=== ")[1:]:
        call, *rest = piece.split("\n")
        end = next(at for at, line in enumerate(rest) if is_rule(line))
        yield call, "\n".join(rest[:end])


def write_inputs(name):
    folder = os.path.join(TOP, "crates", name)
    with open(os.path.join(folder, "stdout"), encoding="utf-8", newline="") as file:
        rows = list(parts(file.read()))
    with open(os.path.join(folder, "data", "rows.txt"), "w", encoding="utf-8", newline="") as file:
        file.writelines(f"=== {call}\n{text}\n" for call, text in rows)
    print(f"{name}: {len(rows)} rows")


def quoted(text):
    """A text as `{:?}` shows it."""
    plain = {"\t": "\\t", "\r": "\\r", "\n": "\\n", '"': '\\"', "\\": "\\\\", "\0": "\\0"}
    shown = (plain.get(c, c if c.isprintable() else f"\\u{{{ord(c):x}}}") for c in text)
    return '"' + "".join(shown) + '"'


def token(name, value):
    """A token as `{:?}` shows it."""
    if value is None:
        return name
    if name == "Int":
        return f"Int(I32({value}))" if isinstance(value, int) else f"Int(BigInt({quoted(value)}))"
    if name in ("Bytes", "FStringStart"):
        return f"{name}({value})"
    return f"{name}({quoted(value)})"


def lexeme(item):
    if isinstance(item, dict):
        return f"{item['begin']} !{item['error']} {item['end']}\n"
    begin, name, value, end = item
    return f"{begin} {token(name, value)} {end}\n"


def source(name, value):
    """A text whose first token is this one, or the word that a list has for it."""
    if name in NAMED:
        return name
    if name == "FStringText":
        return f"FStringText:{value}"
    if name == "FStringStart":
        return f"f{QUOTES[value]}"
    if name == "String":
        return f'"{value}"'
    if name == "Bytes":
        return f'b"{bytes(value).decode()}"'
    if name == "Comment":
        return f"#{value}"
    return SOURCES.get(name, str(value))


def is_source(text, name, value):
    """Whether the lexer gives this token first of the text. Of a literal with an escape that is assumed."""
    if name == "Int" and isinstance(value, int):
        based = re.fullmatch("0[xX][0-9a-fA-F]+|0[oO][0-7]+|0[bB][01]+|0|[1-9][0-9]*", text)
        return based is not None and int(text, 0) == value
    literal = STRING.fullmatch(text)
    if name == "FStringStart":
        return literal is not None and "f" in literal["prefix"] and literal["text"] is None and literal["quote"] == QUOTES[value]
    if name in ("String", "Bytes"):
        if literal is None or literal["text"] is None or ("b" in literal["prefix"]) != (name == "Bytes"):
            return False
        return "\\" in literal["text"] or list(literal["text"].encode()) == list(value.encode() if name == "String" else value)
    return name not in NAMED and name != "FStringText" and text == source(name, value)


def item(text, given):
    """An item of a list over the bytes of a text."""
    if isinstance(given, dict):
        return f"{given['begin']}..{given['end']}!{given['error']}"
    begin, name, value, end = given
    here = text[begin:end].decode("utf-8", "replace")
    if is_source(here, name, value):
        return f"{begin}..{end}"
    word = name if name == "FStringText" and here == value else source(name, value)
    if not word or " " in word or "\n" in word:
        raise ValueError(f"no list can hold {word!r}")
    return f"{begin}..{end}={word}"


def list_row(data):
    least, most = data["taken"]
    taken = f"{least}" if least == most else f"{least}..{most}"
    items = (item(data["input"].encode(), given) for given in data["lexemes"])
    return row(" ".join([f"from_lexemes {taken}:", *items]), data["input"], answer(data["answer"]))


def answer(data):
    place = f"{data['begin']}..{data['end']}"
    return f"{place}\n{data['print']}" if "print" in data else f"{place}: {data['text']}\n"


def dialect_row(data):
    flags = data["dialect"]
    words = [word for flag, word in FLAGS.items() if flags[flag]] + TYPES[flags["enable_types"]]
    return row(" ".join(["parse", *words]), data["input"], answer(data["answer"]))


def program_row(data):
    call = f"{data['dialect']} {data['mode']}"
    return row(call, data["input"], data["stdout"] + data["stderr"], f" {data['status']}")


def plain(data):
    if "mode" in data:
        return program_row(data)
    if "answer" not in data:
        return row("tokens", data["input"], "".join(map(lexeme, data["lexemes"])))
    return list_row(data) if "lexemes" in data else dialect_row(data)


def main(words):
    if words == ["inputs"]:
        for name in PROGRAMS:
            write_inputs(name)
    elif len(words) > 1 and words[0] == "plain":
        for name in words[1:]:
            with open(name, encoding="utf-8") as file:
                sys.stdout.writelines(plain(json.loads(line)) for line in file)
    else:
        sys.exit(__doc__)


if __name__ == "__main__":
    main(sys.argv[1:])
