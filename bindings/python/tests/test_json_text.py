"""The reader that does not recurse reads what `json` reads, and refuses what it refuses."""
import json
import unittest

from starlark_ast.json_text import _Reader, read

READ = [
    "0", "-12", "1.5e3", "null", "true", "false", '""', '"a\\n\\u00e9\\"é"', "[]", "{}", "[[],{}]", '{"a":{},"b":[1,2]}', ' [ 1 , { "a" : [ ] } ] ',
    "\n[\t1\r]\n", '{"a":1,"a":2}', '[{"":[null,true,false,"x",-0]}]',
]
REFUSED = [
    "", " ", "[", "{", "]", "}", "[1", "[1,", "[1,]", "[,1]", "[1 2]", '{"a"}', '{"a":}', '{"a":1,}', "{1:2}", '{"a" 1}', '"a', "[1]]",
    "1 2", "nul", "nulls", "-", "01", '"\n"', '"\\q"', "[1}", '{"a":1]', "[\0]", "\0", "[1]\0", "--1", "a",
]


def slow(text, hook=lambda fields: fields):
    return _Reader(text, hook).whole()


class JsonText(unittest.TestCase):
    def test_reads_the_same(self):
        for text in READ:
            with self.subTest(text):
                self.assertEqual(slow(text), json.loads(text))

    def test_refuses_the_same(self):
        for text in REFUSED:
            with self.subTest(text):
                self.assertRaises(json.JSONDecodeError, json.loads, text)
                self.assertRaises(json.JSONDecodeError, slow, text)

    def test_hook_is_called_from_the_inside(self):
        text = '{"a":{"b":1},"c":[{"d":2}]}'
        calls = []
        hook = lambda fields: (calls.append(list(fields)), len(calls))[1]
        self.assertEqual(slow(text, hook), 3)
        self.assertEqual(calls, [["b"], ["d"], ["a", "c"]])

    def test_deep(self):
        depth = 100000
        value = read("[" * depth + "]" * depth)
        for _ in range(depth - 1):
            value, = value
        self.assertEqual(value, [])
        self.assertRaises(json.JSONDecodeError, read, "[" * depth)


if __name__ == "__main__":
    unittest.main()
