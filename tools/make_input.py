#!/usr/bin/env python3
"""make_input.py SIZE [STYLE] > FILE

Writes a Starlark file of about SIZE bytes (1000000, 200K, 10M), the same each time. STYLE is one of
  mixed    loads, constants, functions with nested blocks, comprehensions, f-strings, and calls as build files have them (the default)
  build    a build file: loads, and calls with strings, lists, dictionaries and `select`
  library  functions with typed parameters, nested blocks, short statements and comments"""
import random
import sys

UNITS = {"K": 1_000, "M": 1_000_000}
NOUNS = ["name", "deps", "srcs", "target", "config", "output", "rule", "path", "label", "flags", "library", "binary", "module"]
ADJECTIVES = ["", "", "", "local_", "default_", "extra_", "_private_", "transitive_", "host_"]
COMMENTS = ["Collects what the rule needs.", "TODO: drop once all callers pass a label.", "Order matters: the first match is taken."]


class Writer:
    def __init__(self):
        self.random = random.Random(1)
        self.lines = []
        self.size = 0

    def line(self, depth, text):
        line = "    " * depth + text + "\n"
        self.lines.append(line)
        self.size += len(line)

    def pick(self, *choices):
        return self.random.choice(choices)

    def name(self):
        return self.pick(*ADJECTIVES) + self.pick(*NOUNS) + self.pick("", "", "s", "_list", str(self.random.randrange(30)))

    def string(self):
        text = f"//{self.name()}/{self.name()}:{self.name()}"
        return self.pick(f'"{text}"', f'"{self.name()}"', f"'{self.name()}'", f'":{self.name()}.bzl"', f'"{self.name()}\\n"', f'r"\\d+{self.name()}"')

    def number(self):
        return self.pick("0", "1", str(self.random.randrange(100_000)), "0x1F", "1.5", "3e8", "12345678901")

    def simple(self):
        return self.pick(self.name, self.name, self.string, self.number)()

    def expression(self, depth=2):
        if depth == 0:
            return self.simple()
        inner = lambda: self.expression(depth - 1)
        return self.pick(
            lambda: self.simple(),
            lambda: f"{self.name()}.{self.name()}",
            lambda: f"{self.name()}({inner()}, {self.name()} = {inner()})",
            lambda: f"({inner()}) {self.pick('+', '-', '*', '//', '%', '==', '!=', '<=', 'and', 'or', 'in', 'not in')} ({inner()})",
            lambda: f"[{inner()}, {inner()}]",
            lambda: f"[{self.name()} for {self.name()} in {self.name()} if ({inner()})]",
            lambda: f"{{{self.string()}: {inner()}}}",
            lambda: f"({inner()}) if {self.name()} else {inner()}",
            lambda: f"{self.name()}[{inner()}]",
            lambda: f'f"{self.name()}: {{{self.name()}}} of {{{self.name()}!r}}"',
            lambda: f"lambda {self.name()}: {inner()}",
        )()

    def comment(self, depth):
        self.line(depth, "# " + self.pick(*COMMENTS))

    def load(self):
        names = ", ".join(f'"{self.pick(*NOUNS)}"' for _ in range(self.random.randrange(1, 4)))
        self.line(0, f'load("//{self.name()}:{self.name()}.bzl", {names}, {self.name()} = "{self.pick(*NOUNS)}")')

    def dictionary(self):
        self.line(0, f"{self.name().upper()} = {{")
        for _ in range(self.random.randrange(3, 12)):
            self.line(1, f"{self.string()}: {self.expression()},")
        self.line(0, "}")

    def call(self):
        self.line(0, f"{self.name()}(")
        self.line(1, f'name = "{self.name()}",')
        for index in range(self.random.randrange(1, 6)):
            self.line(1, f"{self.name()}_{index} = [")
            for _ in range(self.random.randrange(1, 6)):
                self.line(2, f"{self.string()},")
            self.line(1, "],")
        self.line(0, ")")

    def function(self):
        self.line(0, f"def {self.name()}({self.name()}_of, {self.name()}_or = {self.simple()}, *args, **kwargs):")
        self.line(1, f'"""{self.pick(*COMMENTS)}')
        self.line(0, "")
        self.line(1, f"Args: {self.name()}, {self.name()}.")
        self.line(1, '"""')
        self.block(1)
        self.line(1, f"return {self.expression()}")

    def block(self, depth):
        for _ in range(self.random.randrange(2, 6)):
            kind = self.random.random()
            if depth < 5 and kind < 0.15:
                self.line(depth, f"if {self.expression()}:")
                self.block(depth + 1)
                self.line(depth, "else:")
                self.block(depth + 1)
            elif depth < 5 and kind < 0.25:
                self.line(depth, f"for {self.name()} in {self.expression()}:")
                self.block(depth + 1)
            elif kind < 0.35:
                self.comment(depth)
                self.line(depth, "pass")
            elif kind < 0.5:
                self.line(depth, f"{self.name()} {self.pick('+=', '|=', '-=')} {self.expression()}")
            elif kind < 0.6:
                self.line(depth, f"{self.name()}.append({self.expression()})  # {self.pick(*COMMENTS)}")
            else:
                self.line(depth, f"{self.name()} = {self.expression()}")

    def target(self):
        self.line(0, f"{self.pick('cc_library', 'py_binary', 'java_test', 'genrule')}(")
        self.line(1, f'name = "{self.name()}",')
        self.line(1, f'srcs = glob(["{self.name()}/*.cc"], exclude = ["{self.name()}.cc"]),')
        for index in range(self.random.randrange(1, 4)):
            self.line(1, f"{self.name()}_{index} = [")
            for _ in range(self.random.randrange(1, 9)):
                self.line(2, f'"//{self.name()}/{self.name()}:{self.name()}",')
            self.line(1, f"] + select({{':{self.name()}': [], '//conditions:default': ['{self.name()}']}}),")
        self.line(1, f'visibility = ["//visibility:{self.pick("public", "private")}"],')
        self.line(0, ")")

    def typed_function(self):
        types = ["str", "int", "list[str]", "dict[str, int]", "None | str"]
        parameters = ", ".join(f"{self.name()}_{n}: {self.pick(*types)}" for n in range(self.random.randrange(0, 4)))
        self.line(0, f"def {self.name()}({parameters}) -> {self.pick(*types)}:")
        self.comment(1)
        self.statements(1)
        self.line(1, f"return {self.name()}.{self.name()}({self.name()})")

    def statements(self, depth):
        for _ in range(self.random.randrange(2, 7)):
            if depth < 4 and self.random.random() < 0.25:
                self.line(depth, self.pick(f"if not {self.name()}:", f"for {self.name()} in {self.name()}:", f"if {self.name()} == {self.simple()}:"))
                self.statements(depth + 1)
                continue
            self.line(depth, self.pick(
                f"{self.name()} = {self.simple()}",
                f"{self.name()}.{self.name()}({self.name()}, {self.simple()})",
                f"{self.name()}, {self.name()} = {self.name()}[{self.number()}], {self.name()}",
                f"{self.name()} += [{self.name()} for {self.name()} in {self.name()}]",
                "pass",
            ))

    def write(self, size, parts):
        for _ in range(5):
            self.load()
        while self.size < size:
            self.line(0, "")
            self.pick(*parts)()


def main():
    writer = Writer()
    styles = {
        "mixed": [writer.function, writer.function, writer.call, writer.dictionary],
        "build": [writer.target, writer.target, writer.target, writer.dictionary],
        "library": [writer.typed_function],
    }
    style = sys.argv[2] if len(sys.argv) > 2 else "mixed"
    if len(sys.argv) not in (2, 3) or style not in styles:
        sys.exit(__doc__)
    word = sys.argv[1]
    unit = UNITS.get(word[-1], 0)
    size = int(word[:-1]) * unit if unit else int(word)
    writer.write(size, styles[style])
    sys.stdout.write("".join(writer.lines))


main()
