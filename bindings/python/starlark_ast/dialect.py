"""Dialects."""
from enum import Flag


class Dialect(Flag):
    """The parts of the language that a text may use, by their names in include/starlark.h. `TYPES` and `TYPES_PARSE_ONLY` exclude each
    other."""

    BARE = 0
    DEF = 1
    LAMBDA = 2
    LOAD = 4
    KEYWORD_ONLY_ARGUMENTS = 8
    POSITIONAL_ONLY_ARGUMENTS = 16
    TOP_LEVEL_STMT = 32
    F_STRINGS = 64
    TYPES_PARSE_ONLY = 128
    TYPES = 256
    STANDARD = 7
    ALL = 127 | 256
