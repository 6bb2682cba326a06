#!/usr/bin/env python3
"""Prints C that a compiler accepts exactly if the structures and numbers of the package are those of ptree.h. Needs PTREE_LIBRARY."""
import ctypes
import os
import struct
import sys

sys.path.insert(0, os.path.dirname(os.path.dirname(os.path.abspath(__file__))))
from ptree import PRESETS
from ptree import _config, _library as c

NUMBERS = (
    "DONE MEMORY UTF8 LEVEL PRESET PIECES LINE INCOMPLETE SYNTAX FLOAT DATE END NO_FORMAT NAMES COLOR FAULT EDGE STYLED JSON TOML NO_FILE "
    "FIXED RGB NAMED"
)
ENUMS = (
    (_config._TERMINAL, "NO_COLOR BLACK RED GREEN YELLOW BLUE PURPLE CYAN WHITE"), (_config._STYLED, "NEVER ALWAYS TTY"),
    (PRESETS, "DEFAULT TREE TREE_ASCII CARGO_TREE CARGO_TREE_ASCII FINDMNT FINDMNT_ASCII SQLITE MAVEN CLANG PS"),
)  # fmt: skip


def facts():
    for name in "Item Found Part Step Color Style Characters Config Variable Edge".split():
        made, of = getattr(c, name), "struct ptree_" + name.lower()
        yield f"sizeof({of}) == {ctypes.sizeof(made)}"
        for field, _ in made._fields_:
            place = getattr(made, field)
            yield f"offsetof({of}, {field}) == {place.offset} && sizeof((({of} *)0)->{field}) == {place.size}"
    for form, name in ((c.ITEM, "item"), (c.STEP, "step")):
        yield f"sizeof(struct ptree_{name}) == {struct.calcsize(form)}"
    yield f"sizeof(size_t) == {struct.calcsize(c.SIZE)} && PTREE_ALL_LEVELS == {c.ALL_LEVELS}"
    for name in NUMBERS.split():
        yield f"PTREE_{name} == {getattr(c, name)}"
    for texts, names in ENUMS:
        for number, name in enumerate(names.split()):
            yield f"PTREE_{name} == {number} && {number} < {len(texts)}"


print('#include "ptree.h"')
for fact in facts():
    print(f'_Static_assert({fact}, "{fact}");')
