"""Bytes that are not a result in the compact format are refused, and end nothing."""
import random
import unittest

from starlark_ast import Dialect, Module, ParseError, compact, library

TEXT = """load("m", "a", b = "c") # one
def f(x: int = 1, *, y, **z) -> str:
  return [a + f(b, k = not y, *x)[1:2] for a, b in {1: 2.5}.items() if not a]
x[0], (y.z, w) = lambda q, /, *r: f"{q}" if q else ..., 99999999999, b"\\0"
if x: pass
else: x += 1
"""


def written(text):
    return library.answer(text.encode(), Dialect.ALL.value, 250, library.COMPACT, bytes)[0]


def read(data):
    with memoryview(data) as view:
        return compact.answer(view)


class Compact(unittest.TestCase):
    def test_fronts_and_more_are_refused(self):
        for text, kind in (("x = 1", Module), ("x = = 1", ParseError), ("", Module)):
            data = written(text)
            self.assertIsInstance(read(data), kind)
            for end in range(len(data)):
                self.assertRaises(ValueError, read, data[:end])
            for more in (b"\0", b"\1\0\0\0", b"\x2f" + bytes(11)):
                self.assertRaises(ValueError, read, data + more)

    def test_any_bytes_have_an_answer(self):
        whole, chance = written(TEXT), random.Random(1)
        for _ in range(3000):
            data = bytearray(whole)
            for _ in range(chance.randint(1, 4)):
                begin, count = chance.randrange(max(1, len(data) - 32)), chance.randrange(32)
                match chance.randrange(3):
                    case 0:
                        data[begin] = chance.choice((0, 1, 26, 47, 127, 255))
                    case 1:
                        del data[begin:begin + count]
                    case _:
                        data += data[begin:begin + count]
            try:
                read(bytes(data))
            except ValueError:
                pass

    def test_deep_texts_are_known_by_their_begin(self):
        text = "[" * 300 + "]" * 300
        for form in (library.JSON, library.COMPACT):
            data, is_low = library.answer(text.encode(), Dialect.ALL.value, 250, form, bytes)
            self.assertTrue(is_low and data.startswith(form.too_deep))
            data, is_low = library.answer(text.encode(), Dialect.ALL.value, 400, form, bytes)
            self.assertFalse(is_low or data.startswith(form.too_deep))


if __name__ == "__main__":
    unittest.main()
