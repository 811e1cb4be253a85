"""The library for C, by ctypes."""
from __future__ import annotations

import ctypes
import functools
import mmap
import os
import threading
from collections.abc import Callable, Iterator
from typing import NamedTuple, TypeVar

# The version of the formats that this package reads: that of include/starlark.h.
VERSION = 1
FILE_NAME = "libstarlark_c.so"

_DONE, _TOO_SMALL, _NO_MEMORY, _NOT_UTF8 = 0, 1, 2, 3
# The size in bytes of the first buffer for a result. If the result is longer, the text is parsed again into a buffer that is large enough.
_ROOM = 1 << 26

# The deepest nesting that is parsed on the stack of the calling thread. It takes less than 512 KB of stack, and less than 1 MB if the
# library is built without proof.
_LOW = 250
# The stack of a thread for deeper texts: bytes for each level, a fixed part, and a minimum. A level takes up to 1.35 KB, and up to 3 KB
# without proof.
_LEVEL, _BASE, _LEAST = 4 << 10, 64 << 10, 1 << 20
# `threading.stack_size` is one setting for the whole process, so only one thread at a time changes it and restores it.
_stack_size = threading.Lock()

T = TypeVar("T")


class Format(NamedTuple):
    """A format of a result: its number, the first bytes of the error for a text that nests too deep, and a number of bytes for each byte
    of the text that few results exceed (most need a fifth of it)."""

    number: int
    too_deep: bytes
    room: int


JSON = Format(1, b'{"version":1,"error":"Lexer","message":"TooDeep",', 40)
COMPACT = Format(2, b"\x01\0\0\0\x03\0\0\0\x07\0\0\0\0\0\0\0TooDeep", 20)


class Written:
    """What the library wrote: the first `length` bytes of `buffer`. `is_low` says that the text is known to nest at most 250 deep."""

    __slots__ = ("buffer", "length", "is_low")

    def __init__(self, buffer: mmap.mmap, length: int, is_low: bool) -> None:
        self.buffer, self.length, self.is_low = buffer, length, is_low

    def begins(self, front: bytes) -> bool:
        return self.length >= len(front) and self.buffer[:len(front)] == front

    def read(self, made: Callable[[memoryview], T]) -> T:
        """Returns what `made` makes of the bytes, and frees them."""
        with self.buffer as buffer, memoryview(buffer) as whole, whole[:self.length] as part:
            return made(part)

    def drop(self, begin: int, end: int) -> None:
        """Gives back the memory of the whole pages between two offsets, whose bytes are then zeros."""
        begin, end = -(-begin // mmap.PAGESIZE) * mmap.PAGESIZE, end // mmap.PAGESIZE * mmap.PAGESIZE
        if begin < end:
            self.buffer.madvise(mmap.MADV_DONTNEED, begin, end - begin)


class LibraryError(OSError):
    """The library for C is not found, or it has another version."""


def _paths() -> Iterator[str]:
    """The paths at which the library may be, in the order in which they are tried."""
    named, here = os.environ.get("STARLARK_LIB"), os.path.dirname(os.path.abspath(__file__))
    if named:
        yield named
        return
    yield os.path.join(here, FILE_NAME)
    # What bindings/build made, in the repository.
    yield os.path.join(here, "..", "..", "out", FILE_NAME)
    # A library that the system finds by its name.
    yield FILE_NAME


def _loaded() -> ctypes.CDLL:
    tried = []
    for path in _paths():
        if os.sep not in path or os.path.exists(path):
            try:
                return ctypes.CDLL(path)
            except OSError as error:
                tried.append(str(error))
    why = "; ".join(tried) or "the file that STARLARK_LIB names does not exist"
    raise LibraryError(f"{FILE_NAME} is not found: install it with tools/install, or set STARLARK_LIB to its path ({why})")


@functools.cache
def library() -> ctypes.CDLL:
    """The library, loaded once."""
    found = _loaded()
    try:
        found.starlark_version.restype = ctypes.c_uint32
        found.starlark_parse_limited.restype = ctypes.c_uint32
    except AttributeError as error:
        raise LibraryError(f"{found._name} is not the library of this package: {error}") from None
    version = found.starlark_version()
    if version != VERSION:
        raise LibraryError(f"{found._name} writes version {version} of its format, and this package reads version {VERSION}")
    found.starlark_parse_limited.argtypes = [
        ctypes.c_void_p, ctypes.c_size_t, ctypes.c_uint32, ctypes.c_uint32, ctypes.c_uint32,
        ctypes.c_void_p, ctypes.c_size_t, ctypes.POINTER(ctypes.c_size_t),
    ]
    return found


def answer(data: bytes, dialect: int, depth: int, form: Format, made: Callable[[memoryview], T]) -> tuple[T, bool]:
    """Returns what `made` makes of the library's result in a format, and whether the text is known to nest at most 250 deep."""
    written = parsed(data, dialect, depth, form)
    return written.read(made), written.is_low


def parsed(text: str | bytes, dialect: int, depth: int, form: Format) -> Written:
    """Parses a text whose tokens may nest up to `depth` deep, and returns what the library writes in a format. Nothing keeps the text."""
    if not 0 <= depth < 1 << 32:
        raise ValueError(f"a depth is a number of 32 bits, not {depth}")
    data = text
    # An ASCII `str` is passed as it is in memory.
    if isinstance(text, str) and (_address is None or not text.isascii()):
        data = text.encode()
    low = min(depth, _LOW)
    written = _parsed(data, dialect, low, form)
    if depth > low and written.begins(form.too_deep):
        written.buffer.close()
        # A level has at least one byte.
        written = _on_stack(min(depth, len(data)), lambda: _parsed(data, dialect, depth, form))
        written.is_low = False
    return written


def _on_stack(levels: int, call: Callable[[], T]) -> T:
    """Returns what `call` returns, on a thread with a stack for so many levels."""
    size = -(-max(_LEAST, _BASE + _LEVEL * levels) // mmap.PAGESIZE) * mmap.PAGESIZE
    given: list[T] = []
    failed: list[BaseException] = []

    def run() -> None:
        try:
            given.append(call())
        except BaseException as error:
            failed.append(error)

    thread = threading.Thread(target=run, daemon=True)
    try:
        with _stack_size:
            before = threading.stack_size(size)
            try:
                thread.start()
            finally:
                threading.stack_size(before)
    except (RuntimeError, ValueError) as error:
        raise MemoryError(f"no stack for {levels} levels") from error
    thread.join()
    if failed:
        raise failed[0]
    return given[0]


def _parsed(data: str | bytes, dialect: int, depth: int, form: Format) -> Written:
    """The same, on the stack of this thread."""
    room = max(form.room * len(data) // 3, min(form.room * len(data) + 512, _ROOM))
    while True:
        # Zeros that take no memory before they are written. What is dropped of a private mapping is free at once.
        out = mmap.mmap(-1, room, flags=mmap.MAP_PRIVATE | mmap.MAP_ANONYMOUS)
        status, length = _called(data, dialect, depth, form, out, room)
        if status == _DONE:
            return Written(out, length, True)
        out.close()
        if status != _TOO_SMALL:
            raise _failure(status, data, dialect)
        room = length


def _called(data: str | bytes, dialect: int, depth: int, form: Format, out: mmap.mmap, room: int) -> tuple[int, int]:
    """Calls the library, and returns the status and the length of the result."""
    parse, length = library().starlark_parse_limited, ctypes.c_size_t(0)
    first, begin = ctypes.c_char.from_buffer(out), _begin(data)
    status: int = parse(begin, len(data), dialect, form.number, depth, ctypes.addressof(first), room, ctypes.byref(length))
    return status, length.value


def _address_of_str() -> Callable[[str, None], int] | None:
    """Returns Python's own function for the address of a `str` in UTF-8, if it has one. That of an ASCII `str` is no copy."""
    try:
        return ctypes.PYFUNCTYPE(ctypes.c_void_p, ctypes.py_object, ctypes.c_void_p)(("PyUnicode_AsUTF8AndSize", ctypes.pythonapi))
    except AttributeError:
        return None


_address = _address_of_str()


def _begin(data: str | bytes) -> int | bytes:
    """Returns what is passed for a text: the address of a `str`, which is one only if Python has the function for it."""
    if isinstance(data, bytes):
        return data
    assert _address is not None
    return _address(data, None)


def _failure(status: int, data: str | bytes, dialect: int) -> Exception:
    if status == _NO_MEMORY:
        return MemoryError("out of memory")
    if status == _NOT_UTF8 and isinstance(data, bytes):
        try:
            data.decode()
        except UnicodeDecodeError as error:
            return error
    return ValueError(f"the library does not know the dialect {dialect} (status {status})")
