#!/usr/bin/env python3
"""tools/format_rows.py [--program PROGRAM] [--schema FILE]

Checks that what the formats of `starlark check` and `starlark lint` print is what their readers read: in the rows `emit` and
`starlark` of `starlark_rows`, and with --program in what that program prints of files that it makes.

    short, full   the patterns of Vim and VS Code find the file, the line and the column
    json          each line has the form of docs/starlark.schema.json
    github        each line is a workflow command, whose properties are escaped
    sarif         the document has the form of docs/sarif-subset.schema.json, which is that of the types of SARIF 2.1.0; its regions
                  do not end before they begin. With --schema, it has the form of that schema, too

If several formats are given the same files, they print the same diagnostics. Of a folder of the program's files those that are to be
read are read, in order, and the summary counts them. Without the Python module `jsonschema` it says so, and checks no schema.
The status is 1 if something differs.
"""
import argparse
import json
import os
import re
import subprocess
import sys
import tempfile
import urllib.parse

TOP = os.path.dirname(os.path.dirname(os.path.realpath(__file__)))
FORMATS = ("full", "short", "json", "github", "sarif")
# Vim's errorformat `%f:%l:%c: %t%*[^:]: %m`, and the usual problem matcher of VS Code.
VIM = re.compile(r"(?P<file>.+?):(?P<line>\d+):(?P<column>\d+): (?P<type>.)[^:]+: (?P<message>.+)")
VS_CODE = re.compile(r"^(?P<file>.*):(?P<line>\d+):(?P<column>\d+): (?P<type>error|warning): (?P<message>.*)$")
WHOLE_FILE = re.compile(r"(?P<file>.+): (?P<type>error|warning): (?P<message>.*)")
CODE = re.compile(r"(?P<message>.*) \[(?P<code>[a-z0-9-]+)\]")
# The codes of diagnostics of whole files, which have no line.
NO_LINE = ("not-utf8", "unreadable")
COMMAND = re.compile(r"::(?P<type>error|warning) (?P<properties>[^:]*)::(?P<message>.*)")
# Files of the program: what they are called, and what is in them. Some are not of Starlark, or in a folder that is left out.
FILES = {
    "a.bzl": b'load("//m", "a", b = "c")\nx = {"k": 1, "k": 2}\n', "b c,d%e.star": b"x = = 1\n", "BUILD": 'x = "漢", f(\n'.encode(),
    "latin1.sky": b'x = "\xe9"\n', "sub/é.bzl": b"def f():\n\tx = y is z\n", "sub/long.bzl": b"return [\n1,\n2,\n3,\n]\n",
    "sub/clean.bazel": b"x = 1\n", "other.txt": b"= =\n", ".left/a.bzl": b"= =\n", "sub/BUILDS": b"= =\n",
}
# Links of that folder, those of its files that have errors or issues, in order, and the summary of all of them.
LINKS = {"link.bzl": "BUILD", "to": "sub"}
FOUND = ["BUILD", "a.bzl", "b c,d%e.star", "latin1.sky", "sub/long.bzl", "sub/é.bzl"]
SUMMARY = b"5 errors, 3 warnings in 7 files\n"


class Wrong(Exception):
    """What was printed is not what its readers read."""


def expect(is_right, what):
    if not is_right:
        raise Wrong(what)


def validators(official):
    """The validators of a diagnostic, of our documents of SARIF and of all documents of SARIF, each None if it is not there."""
    try:
        import jsonschema
    except ImportError:
        print("tools/format_rows.py: the Python module jsonschema is not found: no schema is checked")
        return None, None, None
    tree = loaded(f"{TOP}/docs/starlark.schema.json")
    del tree["oneOf"]
    schemas = [{**tree, "$ref": "#/$defs/diagnostic"}, loaded(f"{TOP}/docs/sarif-subset.schema.json")]
    schemas += [loaded(official)] if official else []
    found = [jsonschema.validators.validator_for(it)(it) for it in schemas]
    return *found, *[None] * (3 - len(found))


def loaded(path):
    with open(path, encoding="utf-8") as file:
        return json.load(file)


def validate(validator, value):
    if validator is not None:
        error = next(validator.iter_errors(value), None)
        expect(error is None, error and f"{error.json_path}: {error.message}")


class Reader:
    """Reads what each format prints: a list of diagnostics, each with its severity, file, line, column, code and message."""

    def __init__(self, official=None):
        self.diagnostic, self.subset, self.sarif_schema = validators(official)

    def short(self, text):
        return [self.line(it) for it in text.splitlines()]

    def full(self, text):
        """The lines that begin a diagnostic. Those of its snippets are indented, and its notes begin as it does."""
        heads = [it for it in text.splitlines() if not it.startswith("   ")]
        for it in heads:
            expect(": note: " not in it or VIM.fullmatch(it), it)
        return [self.line(it) for it in heads if ": note: " not in it]

    def line(self, line):
        """A diagnostic in one line, as both editors read it."""
        vim, code = VIM.fullmatch(line), VS_CODE.match(line)
        found = vim or WHOLE_FILE.fullmatch(line)
        expect(found and (vim is None) == (code is None), line)
        if code:
            expect(all(vim[it] == code[it] for it in ("file", "line", "column", "message")) and vim["type"] == code["type"][0], line)
        message = CODE.fullmatch(found["message"])
        expect(message, line)
        place = (int(vim["line"]), int(vim["column"])) if vim else None
        return (code or found)["type"], found["file"], place, message["code"], message["message"]

    def json(self, text):
        found = []
        for line in text.splitlines():
            it = json.loads(line)
            validate(self.diagnostic, it)
            begin = it["begin"]
            expect((begin is None) == (it["end"] is None), line)
            place = begin and (begin["line"] + 1, begin["column"] + 1)
            found.append((it["severity"], it["file"], place, it["code"], it["message"]))
        return found

    def github(self, text):
        found = []
        for line in text.splitlines():
            command = COMMAND.fullmatch(line)
            expect(command and re.sub("%(25|0D|0A|3A|2C)", "", command["properties"]).count("%") == 0, line)
            properties = dict(it.split("=", 1) for it in command["properties"].split(","))
            file, code = urllib.parse.unquote(properties.pop("file")), properties.pop("title")
            numbers = {key: int(value) for key, value in properties.items()}
            expect(set(numbers) in ({"line", "col", "endLine", "endColumn"}, set()) and all(it >= 1 for it in numbers.values()), line)
            place = (numbers["line"], numbers["col"]) if numbers else None
            found.append((command["type"], file, place, code, urllib.parse.unquote(command["message"])))
        return found

    def sarif(self, text):
        document = json.loads(text)
        validate(self.subset, document)
        validate(self.sarif_schema, document)
        found = []
        for it in document["runs"][0]["results"]:
            physical = it["locations"][0]["physicalLocation"]
            for where in (physical, *(note["physicalLocation"] for note in it["relatedLocations"])):
                if region := where.get("region"):
                    begin, end = (region["startLine"], region["startColumn"]), (region["endLine"], region["endColumn"])
                    expect((1, 1) <= begin <= end, region)
            region = physical.get("region")
            file = urllib.parse.unquote(physical["artifactLocation"]["uri"], errors="strict")
            found.append((it["level"], file, region and (region["startLine"], region["startColumn"]), it["ruleId"], it["message"]["text"]))
        return found


def rows():
    """The call, the text, what follows the three dashes, and what is expected, of each row."""
    with open(f"{TOP}/crates/starlark_rows/stdout", encoding="utf-8", newline="") as file:
        for row in ("\n" + file.read()).split("\n=== ")[1:]:
            call, _, rest = row.partition("\n")
            text, _, wanted = ("\n" + rest).rpartition("\n---")
            status, _, wanted = wanted.partition("\n")
            yield call, text, status.strip(), wanted


def printed():
    """For each row, what was read, the format, and what it printed. What was read is the same for several formats."""
    for call, text, status, wanted in rows():
        kind, _, words = call.partition(" ")
        if kind == "emit":
            name, _, path = words.partition(" ")
            yield ("emit", path, text), name, wanted
        elif kind == "starlark" and words.startswith(("check", "lint")) and status in ("0", "1", "3"):
            name = re.search("--format (\\w+) ?", words)
            lines = [it for it in wanted.splitlines(True) if not re.fullmatch(r"\d+ errors?, \d+ warnings? in \d+ files?\n?", it)]
            yield ("starlark", words.replace(name[0], "") if name else words, text), name[1] if name else "full", "".join(lines)


def made(program):
    """What a program prints of files, in each format and command."""
    with tempfile.TemporaryDirectory() as room:
        for path, text in FILES.items():
            os.makedirs(os.path.dirname(f"{room}/{path}"), exist_ok=True)
            with open(f"{room}/{path}", "wb") as file:
                file.write(text)
        for path, to in LINKS.items():
            os.symlink(to, f"{room}/{path}")
        for words in (["lint"], ["check", "sub", "missing.bzl", "b c,d%e.star"], ["check", "sub/clean.bazel"]):
            for name in FORMATS:
                done = subprocess.run([program, *words, "--format", name, "--quiet"], cwd=room, capture_output=True)
                expect(done.returncode in (0, 1, 3) and not done.stderr, f"{words} {name}: {done.returncode} {done.stderr}")
                yield tuple(words), name, done.stdout.decode()
        for path in (".", "./", room, f"{room}/"):
            done = subprocess.run([program, "lint", "--format", "json", path], cwd=room, capture_output=True)
            files = [os.path.relpath(json.loads(it)["file"], room if path.startswith(room) else ".") for it in done.stdout.decode().splitlines()]
            expect((done.returncode, done.stderr, list(dict.fromkeys(files))) == (1, SUMMARY, FOUND), f"lint {path}: {done.stderr} {files}")


def main():
    parser = argparse.ArgumentParser(usage=__doc__)
    parser.add_argument("--program", help=argparse.SUPPRESS)
    parser.add_argument("--schema", help=argparse.SUPPRESS)
    words = parser.parse_args()
    reader, texts, known = Reader(words.schema), dict.fromkeys(FORMATS, 0), {}
    count = 0
    try:
        for read, name, text in [*printed(), *(made(os.path.abspath(words.program)) if words.program else ())]:
            count += len(check(reader, known, read, name, text))
            texts[name] += 1
    except Wrong as error:
        print(f"tools/format_rows.py: FAILED: {error}")
        return 1
    print(f"tools/format_rows.py: {', '.join(f'{texts[it]} {it}' for it in FORMATS)}: {count} diagnostics")
    return 0 if all(texts.values()) else 1


def check(reader, known, read, name, text):
    """The diagnostics of a text in a format. They are those that are known of the other formats for what was read."""
    try:
        found = getattr(reader, name)(text)
        first, other = known.setdefault(read, (name, found))
        expect(found == other, f"{first} has {other}, and {name} {found}")
        for _, file, place, code, _ in found:
            expect((place is None) == (code in NO_LINE), f"{file}: {code} at {place}")
    except (Wrong, ValueError, KeyError) as error:
        raise Wrong(f"{' '.join(read)}, {name}: {error}") from error
    return found


if __name__ == "__main__":
    sys.exit(main())
