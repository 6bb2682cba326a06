"""How trees are drawn: colours, styles, characters, and the configuration with its sources."""
from __future__ import annotations

import ctypes
import dataclasses
import functools
import json
import operator
import os
import stat
from collections.abc import Callable, Iterable, Mapping
from typing import Any, Literal, Union

from . import _library as c
from ._library import ConfigError

#: The names of the presets: the default, and what these programs draw.
PRESETS = (
    "default", "tree", "tree --charset=ascii", "cargo tree", "cargo tree --charset ascii", "findmnt", "findmnt --ascii", "sqlite3", "mvn",
    "clang", "ps --forest",
)  # fmt: skip
_SETS = ("utf", "ascii", "ascii-tick", "ascii-plus", "utf-bold", "utf-dashed", "utf-double")
_TERMINAL = ("", "black", "red", "green", "yellow", "blue", "purple", "cyan", "white")
_STYLED = ("never", "always", "tty")


@dataclasses.dataclass(frozen=True)
class NamedColor:
    """A colour by its name, exactly as spelled: one of the terminal's eight, as a style has them; `#` and six hexadecimal digits; or in any
    case one of the sixteen names of HTML 4.01, `steelblue` and `mediumseagreen`. Any other name sets no colour."""

    name: str


Color = Union[None, str, int, tuple[int, int, int], NamedColor]


def _number(what: str, value: int, bits: int) -> int:
    """A number that fits into so many bits. (ctypes would cut a greater one.)"""
    if not 0 <= operator.index(value) < 1 << bits:
        raise ValueError(f"{what} must be a whole number from 0 to {(1 << bits) - 1}, not {value}")
    return operator.index(value)


def _known(what: str, name: str, names: tuple[str, ...]) -> str:
    """A name that is one of these."""
    if name not in names:
        raise ConfigError(f"unknown {what} {name!r}, not one of {', '.join(names)}")
    return name


def _color(color: Color) -> Color:
    """A colour as a style keeps it."""
    if color is None or isinstance(color, NamedColor):
        return color
    if isinstance(color, str):
        return color if color in _TERMINAL[1:] else NamedColor(color)
    if isinstance(color, int):
        return _number("a colour of the terminal's table", color, 8)
    red, green, blue = (_number("red, green or blue", byte, 8) for byte in color)
    return red, green, blue


@dataclasses.dataclass(frozen=True)
class Style:
    """The style of a text. Each colour is None, or one of

    - the terminal's own `black`, `red`, `green`, `yellow`, `blue`, `purple`, `cyan` and `white`,
    - another name, such as `steelblue` or `#102030`, which is kept as a NamedColor,
    - a number of the terminal's table, from 0 to 255,
    - red, green and blue, each from 0 to 255.

    Raises ValueError for a number out of range, or if there are not three of them.
    """

    foreground: Color = None
    background: Color = None
    bold: bool = False
    dimmed: bool = False
    italic: bool = False
    underline: bool = False
    blink: bool = False
    reverse: bool = False
    hidden: bool = False
    strikethrough: bool = False

    def __post_init__(self) -> None:
        object.__setattr__(self, "foreground", _color(self.foreground))
        object.__setattr__(self, "background", _color(self.background))


@dataclasses.dataclass(frozen=True)
class Characters:
    """The characters that branches are drawn with, by default the set `utf`. Each may be any text, even an empty one.

    - `down_and_right`: points down and right.
    - `down`: points straight down.
    - `turn_right`: turns from down to right.
    - `right`: points right.
    - `empty`: a blank.
    """

    down_and_right: str = "├"
    down: str = "│"
    turn_right: str = "└"
    right: str = "─"
    empty: str = " "

    @staticmethod
    @functools.cache
    def named(name: str) -> Characters:
        """Returns a set by its name: `utf`, `ascii` or `ascii-tick`, `ascii-plus`, `utf-bold`, `utf-dashed`, or `utf-double`.

        Raises ConfigError for an unknown name.
        """
        _known("set of characters", name, _SETS)
        return Config.load(json.dumps({"characters": name}), "json").characters


@dataclasses.dataclass(frozen=True)
class Config:
    """How a tree is drawn.

    - `depth`: the greatest level that is drawn, below 2**32; the root has level 0. None draws all.
    - `styled`: when a drawing is styled, `never`, `always` or `tty`: only what `print_tree` writes to standard output, if that is a terminal.
    - `indent`: the width of a piece in characters, including the padding, below 2**64.
    - `padding`: how many of the `empty` characters end a piece, below 2**64.
    - `characters`: the characters of branches. The name of a set is replaced by the set.
    - `branch`: the style of branches.
    - `leaf`: the style of labels.
    - `continued`: the marker before each further line of a label. With an empty one no drawing can be read.

    Raises ValueError for a number out of range or an unknown value of `styled`, ConfigError for an unknown set.
    """

    depth: int | None = None
    styled: Literal["never", "always", "tty"] = "tty"
    indent: int = 3
    padding: int = 1
    characters: Characters = Characters()
    branch: Style = Style(dimmed=True)
    leaf: Style = Style()
    continued: str = ": "

    def __post_init__(self) -> None:
        if self.depth is not None:
            _number("the depth", self.depth, 32)
        _number("the indent", self.indent, 64)
        _number("the padding", self.padding, 64)
        if self.styled not in _STYLED:
            raise ValueError(f"`styled` must be one of {', '.join(_STYLED)}, not {self.styled!r}")
        if isinstance(self.characters, str):
            object.__setattr__(self, "characters", Characters.named(self.characters))

    @staticmethod
    @functools.cache
    def preset(name: str) -> Config:
        """Returns the configuration with which a program draws, by its name in PRESETS.

        Raises ConfigError for an unknown name.
        """
        number = PRESETS.index(_known("preset", name, PRESETS))
        return _filled(lambda *room: c.library.ptree_config(number, *room))

    @staticmethod
    def load(file: str | None = None, format: Literal["toml", "json"] = "toml", variables: Mapping[str, str] | None = None) -> Config:
        """Returns the configuration of a file's text and of variables, such as `{"PTREE_INDENT": "4"}`.

        Variables override keys of the file; unknown variables and keys are ignored.

        Raises ConfigError with all errors if a value or the file's syntax is wrong; `line` is that of the wrong syntax, or None. Raises
        ValueError for an unknown format.
        """
        if format not in ("toml", "json"):
            raise ValueError(f"the format must be toml or json, not {format!r}")
        number = c.NO_FILE if file is None else c.TOML if format == "toml" else c.JSON
        sources, stack = _sources(file or "", number, (variables or {}).items())

        def said() -> str:
            return c.written("faults", *sources, guess=500)[1].removesuffix("\n").replace("\n", "; ")

        return c.deep(stack, lambda: _filled(lambda *room: c.library.ptree_load(*sources, *room), said))

    @staticmethod
    def from_env(variables: Mapping[str, str] | None = None) -> Config:
        """Returns the configuration of the environment's variables, or of others, and of the file that they name or that is in the user's
        folder of configurations. If any of these is invalid, it is the complete default.

        Raises only MemoryError, if the names and values are str or bytes.
        """
        given = _texts(os.environb.items()) if variables is None else _texts(variables.items())
        try:
            path = _file_of(given)
            if path is None:
                return Config.load(variables=given)
            with open(path.encode(), encoding="utf-8", newline="") as file:
                return Config.load(file.read(), "json" if path.endswith(".json") else "toml", given)
        except (OSError, ValueError):
            return Config()


def _texts(pairs: Iterable[tuple[Any, Any]]) -> dict[str, str]:
    """The pairs of names and values that are UTF-8."""
    found = {}
    for pair in pairs:
        try:
            name, value = ((text if isinstance(text, bytes) else text.encode()).decode() for text in pair)
            found[name] = value
        except UnicodeError:
            continue
    return found


def _file_of(variables: Mapping[str, str]) -> str | None:
    """The path of the configuration's file, if there is one: the first that is not missing. That a named one is missing is an error."""
    named, folder, home = (variables.get(name) for name in ("PTREE_CONFIG", "XDG_CONFIG_HOME", "HOME"))
    if named is not None:
        paths = [named] if named.endswith((".toml", ".json")) else [named + ".toml", named + ".json"]
    elif folder and folder.startswith("/"):
        paths = [folder + "/ptree.toml", folder + "/ptree.json"]
    else:
        paths = [home + "/.config/ptree.toml", home + "/.config/ptree.json"] if home else []
    for path in paths:
        try:
            found = os.stat(path.encode())
        except FileNotFoundError:
            continue
        # (a FIFO would wait, and a device may have no end)
        if stat.S_ISREG(found.st_mode) or (stat.S_ISCHR(found.st_mode) and found.st_rdev == os.stat(os.devnull).st_rdev):
            return path
        raise OSError(f"{path} is not a file")
    if named is not None:
        raise FileNotFoundError(named)
    return None


def _sources(file: str, number: int, variables: Iterable[tuple[str, str]]) -> tuple[tuple[Any, ...], int]:
    """The sources of a configuration as the library takes them, and the stack that they may need."""
    texts = bytearray()
    places = b"".join(bytes(c.Variable(_part(texts, name), _part(texts, value))) for name, value in variables)
    source, given = str.encode(file), bytes(texts)
    return (source, len(source), number, places, len(places) // ctypes.sizeof(c.Variable), given, len(given)), document_stack(source)


def syntax_line(text: bytes, number: int) -> int:
    """The line where a text of a format's number has a syntax error, or 0: that which loading it as a configuration is refused for."""
    found = c.Found()
    c.library.ptree_load(text, len(text), number, b"", 0, b"", 0, c.Config(), c.room(0)[1], 0, found)
    return int(found.place)


def document_stack(text: bytes) -> int:
    """How much stack a document may need: 1 KB for each level. A level has a bracket, a brace or a dot of its own, and there are no more
    than some 80 parts of a key at each of 80 levels."""
    return 1024 * min(text.count(b"[") + text.count(b"{") + text.count(b"."), 6600)


def _part(texts: bytearray, text: str) -> Any:
    """Appends a text to texts, and returns its place."""
    start = len(texts)
    texts += str.encode(text)
    return c.Part(start, len(texts))


def _color_in(names: bytearray, color: Color) -> Any:
    if color is None:
        return c.Color()
    if isinstance(color, NamedColor):
        return c.Color(c.NAMED, name=_part(names, color.name))
    if isinstance(color, str):
        return c.Color(_TERMINAL.index(color))
    return c.Color(c.FIXED, color) if isinstance(color, int) else c.Color(c.RGB, *color)


def _color_of(names: bytearray, color: Any) -> Color:
    if color.kind == c.NAMED:
        return NamedColor(_text_of(names, color.name))
    if color.kind == c.RGB:
        return color.red, color.green, color.blue
    return color.red if color.kind == c.FIXED else _TERMINAL[color.kind] or None


def _text_of(names: bytearray, part: Any) -> str:
    return names[part.start : part.end].decode()


def _style_in(names: bytearray, style: Style) -> Any:
    """A style as the library takes it; the names of its colours are appended to names."""
    colors = (_color_in(names, style.foreground), _color_in(names, style.background))
    return c.Style(*colors, *(bool(getattr(style, flag)) for flag in c.FLAGS))


def _style_of(names: bytearray, style: Any) -> Style:
    return Style(_color_of(names, style.foreground), _color_of(names, style.background), *(bool(getattr(style, flag)) for flag in c.FLAGS))


@functools.lru_cache(maxsize=100)
def fields_of(config: Config) -> tuple[Any, bytes, int]:
    """A configuration as the library takes it: its fields, its texts and their length."""
    names = bytearray()
    fields = c.Config(
        c.ALL_LEVELS if config.depth is None else config.depth, _STYLED.index(config.styled), config.indent, config.padding,
        c.Characters(*(_part(names, getattr(config.characters, name)) for name in c.CHARACTERS)),
        _style_in(names, config.branch), _style_in(names, config.leaf), _part(names, config.continued),
    )  # fmt: skip
    return ctypes.pointer(fields), bytes(names), len(names)


def _filled(call: Callable[..., int], said: Callable[[], str] | None = None) -> Config:
    """The configuration that a call fills in. `said` has the texts of all faults, if there can be one."""
    fields, found, size = c.Config(), c.Found(), 200
    while True:
        names, at = c.room(size)
        number = call(fields, at, size, found)
        if number != c.DONE:
            c.refuse(number, found.place, said() if said and number == c.FAULT else "")
        if found.bytes <= size:
            break
        size = found.bytes
    return Config(
        None if fields.depth == c.ALL_LEVELS else fields.depth, _STYLED[fields.styled], fields.indent, fields.padding,  # type: ignore[arg-type]
        Characters(*(_text_of(names, getattr(fields.characters, name)) for name in c.CHARACTERS)), _style_of(names, fields.branch),
        _style_of(names, fields.leaf), _text_of(names, fields.continued),
    )  # fmt: skip


def config_of(config: Config | str | None, changes: dict[str, Any]) -> Config:
    """A configuration, or a preset's by its name, with other values of some fields."""
    found = Config() if config is None else Config.preset(config) if isinstance(config, str) else config
    if not isinstance(found, Config):
        raise TypeError(f"a configuration must be a Config or the name of a preset, not {config!r}")
    return dataclasses.replace(found, **changes) if changes else found
