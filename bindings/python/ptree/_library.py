"""The calls of the library for C, by ctypes, and the errors for its error codes. A call lets other threads run while it works."""
from __future__ import annotations

import ctypes
import os
import sys
import threading
from collections.abc import Callable
from ctypes import POINTER, Structure, byref, c_char_p, c_size_t, c_uint8, c_uint32, c_void_p
from typing import Any, NoReturn, TypeVar

ALL_LEVELS = 2**32 - 1
(
    DONE, MEMORY, UTF8, LEVEL, PRESET, PIECES, LINE, INCOMPLETE, SYNTAX, FLOAT, DATE, END, NO_FORMAT, NAMES, COLOR, FAULT, EDGE, STYLED,
) = range(18)  # fmt: skip
JSON, TOML, NO_FILE = range(3)
FIXED, RGB, NAMED = 9, 10, 11


def _structure(name: str, *fields: tuple[str, type]) -> Any:
    return type(name, (Structure,), {"_fields_": fields})


FLAGS = ("bold", "dimmed", "italic", "underline", "blink", "reverse", "hidden", "strikethrough")
CHARACTERS = ("down_and_right", "down", "turn_right", "right", "empty")
Item = _structure("Item", ("end", c_size_t), ("level", c_uint32))
Found = _structure("Found", ("bytes", c_size_t), ("items", c_size_t), ("place", c_size_t))
Part = _structure("Part", ("start", c_size_t), ("end", c_size_t))
Step = _structure("Step", ("text", Part), ("level", c_uint32), ("is_last", c_uint8))
Color = _structure("Color", ("kind", c_uint32), ("red", c_uint8), ("green", c_uint8), ("blue", c_uint8), ("name", Part))
Style = _structure("Style", ("foreground", Color), ("background", Color), *((flag, c_uint8) for flag in FLAGS))
Characters = _structure("Characters", *((name, Part) for name in CHARACTERS))
Config = _structure(
    "Config", ("depth", c_uint32), ("styled", c_uint32), ("indent", c_size_t), ("padding", c_size_t), ("characters", Characters),
    ("branch", Style), ("leaf", Style), ("continued", Part),
)  # fmt: skip
Variable = _structure("Variable", ("name", Part), ("value", Part))
Edge = _structure("Edge", ("source", c_size_t), ("target", c_size_t))
#: How `struct` packs arrays of these. (ctypes would keep a type for each length of an array, for ever.)
ITEM, STEP, SIZE = "NI4x", "NNIB3x", "N"

# What a parameter is: a text and its length, an array and its count, a number, or where to put something.
_TEXT, _ARRAY, _NUMBER, _PLACE = [c_char_p, c_size_t], [c_void_p, c_size_t], [c_uint32], [c_size_t]
_ROOM, _FOUND = [c_void_p, c_size_t], [POINTER(Found)]
_CONFIG = [POINTER(Config), *_TEXT]
_SOURCES = [*_TEXT, *_NUMBER, *_ARRAY, *_TEXT]
_CALLS: dict[str, list[Any]] = {
    "config": [*_NUMBER, POINTER(Config), *_ROOM, *_FOUND],
    "load": [*_SOURCES, POINTER(Config), *_ROOM, *_FOUND],
    "faults": [*_SOURCES, *_ROOM, *_FOUND],
    "draw_with": [*_ARRAY, *_TEXT, *_CONFIG, *_ROOM, *_FOUND],
    "draw_steps": [*_ARRAY, *_TEXT, *_ROOM, *_CONFIG, *_ROOM, *_FOUND],
    "read_with": [*_TEXT, *_CONFIG, *_ROOM, *_ROOM, *_FOUND],
    "draw_document_with": [*_TEXT, *_TEXT, *_NUMBER, *_CONFIG, *_ROOM, *_FOUND],
    "draw_walks": [*_ARRAY, *_TEXT, *_ARRAY, *_PLACE, *_CONFIG, *_ROOM, *_FOUND],
    "draw_once": [*_ARRAY, *_TEXT, *_ARRAY, *_PLACE, *_TEXT, *_CONFIG, *_ROOM, *_FOUND],
    "paint": [*_TEXT, POINTER(Style), *_TEXT, *_ROOM, *_FOUND],
    "draw": [*_ARRAY, *_TEXT, *_NUMBER, *_NUMBER, *_ROOM, *_FOUND],
    "read": [*_TEXT, *_NUMBER, *_NUMBER, *_ROOM, *_ROOM, *_FOUND],
    "draw_document": [*_TEXT, *_TEXT, *_NUMBER, *_NUMBER, *_NUMBER, *_ROOM, *_FOUND],
    "is_readable": _NUMBER,
    "is_styled": [*_NUMBER, *_NUMBER, *_NUMBER],
}  # fmt: skip


def _path() -> str:
    """The path of the shared library: what PTREE_LIBRARY says, or beside the package, as in a wheel, or below the prefix of Python, or the
    name by which the system's loader looks for it."""
    named = os.environ.get("PTREE_LIBRARY", "")
    paths = (os.path.join(os.path.dirname(os.path.abspath(__file__)), "libptree.so"), os.path.join(sys.prefix, "lib", "libptree.so.0.5"))
    return named or next((path for path in paths if os.path.exists(path)), "libptree.so.0.5")


def _load(path: str) -> ctypes.CDLL:
    try:
        found = ctypes.CDLL(path)
        for name, parameters in _CALLS.items():
            call = getattr(found, "ptree_" + name)
            call.argtypes, call.restype = parameters, c_uint32
        found.ptree_refusal_text.argtypes, found.ptree_refusal_text.restype = [c_uint32, *_ROOM], c_size_t
    except (OSError, AttributeError) as error:
        raise ImportError(f"cannot load the shared library of ptree 0.5, set PTREE_LIBRARY to its path: {error}") from error
    return found


library = _load(_path())


class PtreeError(ValueError):
    """An error of the library: `number` is its code in ptree.h, and `line` the line of the input that is wrong, counted from 1, or None."""

    number: int = 0
    line: int | None = None


class ReadError(PtreeError):
    """The text is not a drawing under the configuration. `line` is the first line that cannot continue the drawing, counted from 1, or None
    if the text is incomplete."""


class DocumentError(PtreeError):
    """The document is invalid, or has a float or, in TOML, a date or a time. `line` is the line where its syntax is wrong, counted from 1, or
    None."""


class ConfigError(PtreeError):
    """An unknown preset or set of characters, an invalid configuration file or variable, or a configuration whose drawings cannot be read
    back. `line` is the line of a file where its syntax is wrong, counted from 1, or None."""


_ERRORS: dict[int, type[PtreeError]] = {
    **dict.fromkeys((LINE, INCOMPLETE), ReadError),
    **dict.fromkeys((SYNTAX, FLOAT, DATE), DocumentError),
    **dict.fromkeys((PRESET, PIECES, NAMES, COLOR, FAULT, STYLED), ConfigError),
}


def refuse(number: int, place: int = 0, said: str = "") -> NoReturn:
    """Raises the error for an error code. `said` is a text in place of the code's."""
    text = said or refusal_text(number)
    if number == MEMORY:
        raise MemoryError(text)
    line = place if number in (LINE, SYNTAX, FAULT) and place else None
    if line:
        text = f"line {line} cannot continue the drawing" if number == LINE else f"{text}, in line {line}"
    error = _ERRORS.get(number, PtreeError)(text)
    error.number, error.line = number, line
    raise error


def room(size: int) -> tuple[bytearray, Any]:
    """Memory for a result, and its address as a call takes it."""
    made = bytearray(size + 1)
    return made, byref(ctypes.c_char.from_buffer(made))


def refusal_text(number: int) -> str:
    """The text of an error code."""
    made, at = room(200)
    return made[: min(200, library.ptree_refusal_text(number, at, 200))].decode()


def written(call: str, *given: Any, guess: int = 0) -> tuple[int, str, Any]:
    """Makes a call that writes a text: its number, the text, and what it found. It is made again if the guessed room is too small."""
    found, size = Found(), guess
    while True:
        made, at = room(size)
        number = getattr(library, "ptree_" + call)(*given, at, size, byref(found))
        if number != DONE:
            return number, "", found
        if found.bytes <= size:
            return DONE, str(memoryview(made)[: found.bytes], "utf-8"), found
        size = found.bytes


Result = TypeVar("Result")
_stacks = threading.Lock()


def deep(stack: int, call: Callable[[], Result]) -> Result:
    """Makes a call that may need so many bytes of stack, in a thread that has twice as many unless they are few: an overflow would end the
    process."""
    if stack <= 32768:
        return call()
    results: list[Result] = []
    errors: list[BaseException] = []

    def run() -> None:
        try:
            results.append(call())
        except BaseException as error:
            errors.append(error)

    thread = threading.Thread(target=run)
    with _stacks:
        before = threading.stack_size(min((2 << 20) + 2 * stack & -4096, 1 << 40))
        try:
            thread.start()
        except RuntimeError as error:
            raise MemoryError("out of memory for the stack that a tree so deep may need") from error
        finally:
            threading.stack_size(before)
    thread.join()
    if errors:
        raise errors[0]
    return results[0]
