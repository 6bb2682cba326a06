"""Draws trees as text, and reads the drawings back exactly.

>>> from ptree import Tree, draw, read
>>> notes = Tree("notes", [Tree("shopping", ["bread"]), "call home"])
>>> print(notes, end="")
notes
├─ shopping
│  └─ bread
└─ call home
>>> read(str(notes)) == notes
True
>>> print(draw(notes, "tree --charset=ascii", depth=1), end="")
notes
|-- shopping
`-- call home

Each line of a drawing ends in a line feed. A library whose results are proved does the drawing and reading; docs/PYTHON.md in its
repository says what is guaranteed. Every call may raise MemoryError, and UnicodeEncodeError for a text with half a surrogate pair. A call
that raises has changed nothing, unless its description says otherwise.
"""
from __future__ import annotations

import ctypes
import dataclasses
import functools
import graphlib
import itertools
import json
import operator
import struct
import sys
from collections.abc import Callable, Hashable, Iterable, Iterator, Mapping
from typing import Any, TextIO, TypeVar

from . import _library as c
from ._config import PRESETS, Characters, Config, NamedColor, Style, _style_in, config_of, document_stack, fields_of, syntax_line
from ._library import ConfigError, DocumentError, PtreeError, ReadError

__all__ = [
    "Tree", "Config", "Style", "Characters", "NamedColor", "PRESETS", "PtreeError", "ReadError", "DocumentError", "ConfigError",
    "draw", "draw_parts", "print_tree", "read", "draw_json", "draw_toml", "draw_graph", "paint",
]  # fmt: skip
for _public in (Config, Style, Characters, NamedColor, PtreeError, ReadError, DocumentError, ConfigError):
    _public.__module__ = __name__
__version__ = "0.5.2"
Node = TypeVar("Node")
Key = TypeVar("Key", bound=Hashable)
_children = operator.attrgetter("children")
_utf8 = str.encode


class Tree:
    """A tree: its `label`, any text, also with line feeds, and its `children`, a list of trees. `str(tree)` is its drawing.

    Only memory limits how deep a tree is.
    """

    __slots__ = ("label", "children")
    label: str
    children: list[Tree]

    def __init__(self, label: str, children: Iterable[Tree | str] = ()):
        """Makes a tree. A child that is a text becomes a tree without children.

        Raises TypeError if `label` is not a str, or `children` is a str.
        """
        if not isinstance(label, str):
            raise TypeError(f"a label must be a str, not {label!r}")
        if isinstance(children, str):
            raise TypeError("the children must be trees or texts, not one str")
        self.label = label
        self.children = [child if isinstance(child, Tree) else Tree(child) for child in children]

    def add(self, child: Tree | str) -> Tree:
        """Adds a child after the others, and returns it."""
        self.children.append(child if isinstance(child, Tree) else Tree(child))
        return self.children[-1]

    def walk(self) -> Iterator[tuple[int, Tree]]:
        """Returns this tree, at level 0, and all trees below it, in the order of drawing, each with its level."""
        return ((level, tree) for level, tree, _ in _walk(self, _children, None))

    def __eq__(self, other: object) -> bool:
        """Whether two trees have the same labels at the same places."""
        if self is other:
            return True
        if not isinstance(other, Tree):
            return NotImplemented
        pairs = itertools.zip_longest(self.walk(), other.walk(), fillvalue=(-1, self))
        return all(a[0] == b[0] and a[1].label == b[1].label for a, b in pairs)

    __hash__ = None  # type: ignore[assignment]

    def __str__(self) -> str:
        return draw(self)

    def __repr__(self) -> str:
        return f"<Tree {self.label!r}, {len(self.children)} children>"


def _label(node: Any) -> str:
    return node.label if isinstance(node, Tree) else str(node)


def _walk(root: Node, children: Callable[[Node], Iterable[Node]], depth: int | None) -> Iterator[tuple[int, Node, bool]]:
    """All nodes in the order of drawing, each with its level, and whether it is its parent's last child."""
    yield 0, root, True
    above = [iter(children(root) if depth != 0 else ())]
    # the next child of each node above, or `above` if there is none
    ahead: list[Any] = [next(above[0], above)]
    while above:
        node = ahead[-1]
        if node is above:
            above.pop()
            ahead.pop()
            continue
        ahead[-1] = next(above[-1], above)
        level = len(above)
        yield level, node, ahead[-1] is above
        if depth is None or level < depth:
            above.append(iter(children(node)))
            ahead.append(next(above[-1], above))


def draw(
    root: Node, config: Config | str | None = None, *, label: Callable[[Node], str] = _label,
    children: Callable[[Node], Iterable[Node]] = _children, **changes: Any,
) -> str:  # fmt: skip
    """Returns the drawing of a tree.

    `config` is a Config or the name of a preset, and `changes` replace some of its fields. For nodes of another type give `children`, and
    `label` unless `str` is right. The children of nodes at the greatest level that is drawn are not asked for. A tree that contains itself
    needs a depth.

    Raises ConfigError for an unknown preset, ValueError for a number out of range, TypeError for a label that is not a str or an unknown
    field.

    >>> print(draw(3, label=str, children=range), end="")
    3
    ├─ 0
    ├─ 1
    │  └─ 0
    └─ 2
       ├─ 0
       └─ 1
          └─ 0
    """
    config = config_of(config, changes)
    pack = struct.Struct(c.ITEM).pack
    texts, items, end = [], [], 0
    for level, node, _ in _walk(root, children, config.depth):
        text = _utf8(label(node))
        texts.append(text)
        end += len(text)
        items.append(pack(end, level))
    return _text("draw_with", b"".join(items), len(items), b"".join(texts), end, *fields_of(config), guess=2 * end + 40 * len(items))


def _text(call: str, *given: Any, guess: int = 0) -> str:
    """The text that a call writes."""
    number, text, found = c.written(call, *given, guess=guess)
    if number != c.DONE:
        c.refuse(number, found.place)
    return text


def draw_parts(
    root: Node, config: Config | str | None = None, *, label: Callable[[Node], str] = _label,
    children: Callable[[Node], Iterable[Node]] = _children, items: int = 500, **changes: Any,
) -> Iterator[str]:  # fmt: skip
    """Returns the drawing in parts, each of at most `items` items; joined, they are what `draw` returns.

    Nodes are asked for while it draws, one ahead at each level, and only those of a part and those above them are kept. So a tree of any
    size is drawn with little memory. Arguments and errors are those of `draw`; `items` must be at least 1. The parts before an error remain
    valid.
    """
    if items < 1:
        raise ValueError(f"items must be at least 1, not {items}")
    config = config_of(config, changes)
    return _parts(_walk(root, children, config.depth), label, items, fields_of(config))


def _parts(nodes: Iterator[tuple[int, Node, bool]], label: Callable[[Node], str], items: int, fields: tuple[Any, bytes, int]) -> Iterator[str]:
    """The entries of nodes, of so many at a time."""
    pack, path = struct.Struct(c.STEP).pack, bytearray(64)
    while part := list(itertools.islice(nodes, items)):
        texts, steps, start, deepest = [], [], 0, 0
        for level, node, is_last in part:
            text = _utf8(label(node))
            texts.append(text)
            steps.append(pack(start, start + len(text), level, is_last))
            start += len(text)
            deepest = max(deepest, level)
        path.extend(bytes(max(0, deepest - len(path))))
        yield _steps(b"".join(steps), b"".join(texts), path, fields)


def _steps(steps: bytes, texts: bytes, path: bytearray, fields: tuple[Any, bytes, int]) -> str:
    """The entries of some items. `path` says which items above them are last children, and afterwards the same for the next ones."""
    width, found, out = struct.calcsize(c.STEP), c.Found(), []
    left = len(steps) // width
    size = 4 * len(texts) + 64 * left
    levels = ctypes.byref(ctypes.c_char.from_buffer(path)) if path else b""
    while True:
        made, at = c.room(size)
        number = c.library.ptree_draw_steps(steps, left, texts, len(texts), levels, len(path), *fields, at, size, found)
        if number != c.DONE:
            c.refuse(number, found.place)
        out.append(made[: found.bytes])
        if not found.place:
            return b"".join(out).decode()
        # (the next entry has no room behind the others)
        steps, left, size = steps[found.items * width :], left - found.items, max(size, found.place)


def print_tree(
    root: Node, config: Config | str | None = None, file: TextIO | None = None, *, label: Callable[[Node], str] = _label,
    children: Callable[[Node], Iterable[Node]] = _children, **changes: Any,
) -> None:  # fmt: skip
    """Writes the drawing of a tree to a file, or to standard output.

    It is styled if `styled` of the configuration is `always`, or `tty`, the default, and the file is standard output and a terminal.
    Nodes are asked for while it writes. Arguments and errors are those of `draw`; an error of the file is raised unchanged. What was written
    before an error is whole entries, unless the file failed.
    """
    out = sys.stdout if file is None else file
    config = config_of(config, changes)
    if config.styled == "tty" and out is sys.stdout and out.isatty():
        config = dataclasses.replace(config, styled="always")
    for part in draw_parts(root, config, label=label, children=children):
        out.write(part)


def read(text: str, config: Config | str | None = None, **changes: Any) -> Tree:
    """Returns the tree that `draw` draws as this text, with no level beyond the configuration's depth.

    `config` and `changes` are those of `draw`. If `styled` is "always", the text must have the codes of the styles; else it has none.

    Raises ReadError if the text is not a drawing: `line` is the first line that cannot continue the drawing, counted from 1, or None if the
    text is incomplete. Raises ConfigError if drawings under this configuration cannot be read back.
    """
    given, found, config = _utf8(text), c.Found(), config_of(config, changes)
    most = given.count(b"\n")
    (items, items_at), (texts, texts_at) = c.room(struct.calcsize(c.ITEM) * most), c.room(len(given))
    number = c.library.ptree_read_with(given, len(given), *fields_of(config), items_at, most, texts_at, len(given), found)
    if number != c.DONE:
        c.refuse(number, found.place)
    path, start = [Tree("")], 0
    for end, level in struct.iter_unpack(c.ITEM, memoryview(items)[: struct.calcsize(c.ITEM) * found.items]):
        del path[level + 1 :]
        path.append(path[level].add(texts[start:end].decode()))
        start = end
    return path[1]


def draw_json(document: Any, label: str = "", config: Config | str | None = None, **changes: Any) -> str:
    """Returns the drawing of a JSON document under a label. A str is the document's text; any other value is converted by `json.dumps`.

    Keys are in ascending order. Under an empty label the root has the text of the document, if that is neither a list nor an object.
    `config` and `changes` are those of `draw`.

    Raises DocumentError if the document is invalid, nests lists and objects deeper than 127, or has a float; `-0` and a number outside of
    -2**63 to 2**64 - 1 are floats. Raises what `json.dumps` raises for a value, and ValueError if two keys become one text, as 1 and "1" do.
    """
    return _document(document if isinstance(document, str) else _json_text(document), label, c.JSON, config_of(config, changes))


def _json_text(document: Any) -> str:
    """The text of a document, in which each key occurs once."""

    def check(pairs: list[tuple[str, Any]]) -> None:
        keys: set[str] = set()
        for key, _ in pairs:
            if key in keys:
                raise ValueError(f"two keys become the text {key!r}")
            keys.add(key)

    text = json.dumps(document)
    json.loads(text, object_pairs_hook=check)
    return text


def draw_toml(document: str, label: str = "", config: Config | str | None = None, **changes: Any) -> str:
    """Returns the drawing of a TOML document under a label, with keys in ascending order. `config` and `changes` are those of `draw`.

    Raises DocumentError if the document is invalid, nests arrays and inline tables deeper than 80, has a key of more than 80 parts, or has a
    float, a date or a time.
    """
    return _document(document, label, c.TOML, config_of(config, changes))


def _document(document: str, label: str, number: int, config: Config) -> str:
    text, name = _utf8(document), _utf8(label)

    def draw() -> str:
        given = (text, len(text), name, len(name), number, *fields_of(config))
        refused, drawing, _ = c.written("draw_document_with", *given, guess=4 * len(text) + 100)
        if refused != c.DONE:
            c.refuse(refused, syntax_line(text, number) if refused == c.SYNTAX else 0)
        return drawing

    return c.deep(document_stack(text), draw)


def draw_graph(
    edges: Mapping[Key, Iterable[Key]], start: Key, config: Config | str | None = None, *, once: bool = True, mark: str = " (*)",
    label: Callable[[Key], str] = str, **changes: Any,
) -> str:  # fmt: skip
    """Returns the drawing of a graph from a node. `edges` maps a node to the nodes below it, in order; a missing node has none.

    What is below a node is drawn where it comes first; elsewhere `mark` follows its label instead, unless nothing is below it. If `once` is
    false, all walks are drawn: there can be far more walks than nodes, and walks round a cycle never end, so give a depth. `config` and
    `changes` are those of `draw`.

    Raises graphlib.CycleError, a ValueError, for walks round a cycle without a depth; otherwise as `draw` does.

    >>> print(draw_graph({"app": ["parser", "lexer"], "parser": ["lexer"], "lexer": ["parser"]}, "app"), end="")
    app
    ├─ parser
    │  └─ lexer
    │     └─ parser (*)
    └─ lexer (*)
    """
    config = config_of(config, changes)
    numbers, below = {start: 0}, {start: list(edges.get(start, ()))}
    # (each node is expanded where it comes first, as in the drawing)
    above, levels = [iter(below[start])], 0
    while above:
        for node in above[-1]:
            levels = max(levels, len(above))
            if node not in numbers:
                numbers[node], below[node] = len(numbers), list(edges.get(node, ()))
                above.append(iter(below[node]))
                break
        else:
            above.pop()
    if not once:
        levels = _longest_walk(below, start, config.depth)
    elif config.depth is not None:
        levels = min(levels, config.depth)
    texts = [_utf8(label(node)) for node in numbers]
    ends = list(itertools.accumulate(map(len, texts)))
    # (the library draws a node's newest edge first)
    pairs = [number for node, targets in below.items() for to in reversed(targets) for number in (numbers[node], numbers[to])]
    given = (_sizes(ends), len(ends), b"".join(texts), ends[-1], _sizes(pairs), len(pairs) // 2, 0)
    marks = (_utf8(mark), len(_utf8(mark))) if once else ()
    call = functools.partial(_text, "draw_once" if once else "draw_walks", *given, *marks, *fields_of(config), guess=1000)
    return c.deep(512 * levels, call)


def _longest_walk(below: dict[Key, list[Key]], start: Key, depth: int | None) -> int:
    """How many levels the walks from a node have. Round a cycle only a depth ends them."""
    levels: dict[Key, int] = {}
    try:
        for node in graphlib.TopologicalSorter(below).static_order():
            levels[node] = max((levels[to] + 1 for to in below[node]), default=0)
    except graphlib.CycleError:
        if depth is None:
            raise
        return depth
    return levels[start] if depth is None else min(levels[start], depth)


def _sizes(numbers: list[int]) -> bytes:
    """Numbers as an array of `size_t`."""
    return struct.pack(f"{len(numbers)}{c.SIZE}", *numbers)


def paint(text: str, style: Style) -> str:
    """Returns a text painted in a style: the codes of a terminal, the text, and a reset if there is a code.

    >>> paint("leaf", Style("green", bold=True))
    '\\x1b[1m\\x1b[32mleaf\\x1b[0m'
    """
    names, given = bytearray(), _utf8(text)
    fields = _style_in(names, style)
    return _text("paint", given, len(given), ctypes.byref(fields), bytes(names), len(names), guess=len(given) + 100)
