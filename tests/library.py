"""The calls of ptree.h that the package `ptree` does not make, or not for each input, and the shared library that both are made of."""
import dataclasses
import itertools
import os
import struct
import subprocess
import sys
import tempfile

from tests import support


def made(is_refusing=False):
    """The path of the shared library, which is linked anew if the static one is newer; or of the one that can refuse memory."""
    static = support.built("ptree_c")
    shared = static.with_name("libptree_refusing.so" if is_refusing else "libptree.so")
    if not shared.exists() or shared.stat().st_mtime_ns < static.stat().st_mtime_ns:
        with tempfile.TemporaryDirectory(dir=static.parent) as folder:
            words = [support.TOP / "tools/shared_library", folder, *["refusing"] * is_refusing]
            subprocess.run(words, check=True)
            os.replace(f"{folder}/{shared.name}", shared)
    return str(shared)


os.environ["PTREE_LIBRARY"] = os.environ.get("PTREE_LIBRARY") or made()
sys.path.insert(0, str(support.TOP / "bindings/python"))
import ptree  # noqa: E402
from ptree import _config  # noqa: E402
from ptree import _library as c  # noqa: E402

UNREADABLE = 3


def changed(value, **changes):
    """A configuration, characters or a style with other values of some fields."""
    return dataclasses.replace(value, **changes)


def is_readable(config):
    """Whether the pieces of a configuration and its marker are readable. Under none is the empty text a drawing."""
    try:
        ptree.read("", config)
    except ptree.ReadError:
        return True
    except ptree.ConfigError:
        return False
    raise AssertionError("an empty text is read")


def draw(tree, config):
    """The drawing of a tree whose items the library gets all. (The package leaves out those below the depth.)"""
    texts, items, end = [], [], 0
    for level, node in tree.walk():
        texts.append(node.label.encode())
        end += len(texts[-1])
        items.append(struct.pack(c.ITEM, end, level))
    return ptree._text("draw_with", b"".join(items), len(items), b"".join(texts), end, *ptree.fields_of(config), guess=1000)


def graph_given(nodes, edges, start):
    """A graph as calls take it: its edges are in the order in which they are added."""
    texts = [node.encode() for node in nodes]
    ends, pairs = ptree._sizes(list(itertools.accumulate(map(len, texts)))), ptree._sizes(list(itertools.chain(*edges)))
    return ends, len(texts), b"".join(texts), sum(map(len, texts)), pairs, len(edges), start


def graph(nodes, edges, start, config, mark=None):
    """The drawing of a graph: all walks, or with a mark each node expanded once."""
    given, fields = graph_given(nodes, edges, start), ptree.fields_of(config)
    if mark is None:
        return ptree._text("draw_walks", *given, *fields, guess=1000)
    return ptree._text("draw_once", *given, mark.encode(), len(mark.encode()), *fields, guess=1000)


def entry(config, level, is_last, path):
    """The entry of an empty text, without its line feed; `path` says of each level which item above it is a last child."""
    return ptree._steps(struct.pack(c.STEP, 0, 0, level, is_last), b"", bytearray(path), ptree.fields_of(config))[:-1]


def sources(file, number, variables):
    """A file's text, its format, and pairs of a name and a value, as calls take them. The package takes no name twice."""
    return _config._sources(file, number, variables)[0]


def load(given):
    """The configuration of sources. A ConfigError says that one is invalid."""
    return _config._filled(lambda *room: c.library.ptree_load(*given, *room))


def faults(given):
    """The texts of all faults of sources."""
    number, texts, found = c.written("faults", *given, guess=500)
    if number != c.DONE:
        c.refuse(number, found.place)
    lines = texts.split("\n")[:-1]
    assert len(lines) == found.items, "the number of faults is that of their texts"
    return lines


def is_styled(config, is_standard_output, is_terminal):
    """Whether an output is styled."""
    found = c.library.ptree_is_styled(("never", "always", "tty").index(config.styled), is_standard_output, is_terminal)
    assert found < 2, f"an output is styled or not, and not {found}"
    return bool(found)
