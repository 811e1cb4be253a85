"""Prints the offset of each call of a named function: `calls.py < FILE`."""
import sys

from starlark_ast import ParseError, expr, parse, walk

try:
    module = parse(sys.stdin.buffer.read())
except ParseError as error:
    sys.exit(str(error))
for node in walk(module):
    match node:
        case expr.Call(callee=expr.Identifier(name=name)):
            print(node.span.begin, name)
