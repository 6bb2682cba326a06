"""The library for C: programs in C over the static library, under checkers of memory, and refusals of memory in each call of ptree.h."""
import ctypes
import itertools
import shutil
import subprocess
import unittest
from pathlib import Path

from tests import library as calls
from tests import support
from tests.library import _config, c, ptree

EXAMPLE = "fruits\n├── apples\n│   ├── green\n│   └── ripe\n└── pears\n0 fruits\n1 apples\n2 green\n2 ripe\n1 pears\n"
SANITIZERS = ["-fsanitize=address,undefined", "-fno-sanitize-recover=all"]


def setUpModule():
    """Finds the kit's part of the library, and the folder of what is compiled."""
    global LIBRARY, KIT, MADE
    if not shutil.which("cc") or not shutil.which("rt"):
        raise unittest.SkipTest("needs cc and rt")
    said = subprocess.run(["rt", "doc"], capture_output=True, text=True).stdout.splitlines()
    start = next(line.strip() for line in said if line.endswith("START-HERE.md"))
    LIBRARY, KIT = support.built("ptree_c"), Path(start).parent / "c/liblibc_c.a"
    MADE = unittest.enterModuleContext(support.new_folder())


def compiled(program, *flags):
    """The path of a program of bindings/c with the library."""
    path = MADE / "_".join([program, *flags]).replace("/", "_")
    if not path.exists():
        words = ["cc", "-std=c11", "-Wall", "-Wextra", "-Werror", "-g", *flags, "-o", path]
        ended = support.run([*words, support.TOP / f"bindings/c/{program}.c", LIBRARY, KIT])
        if ended.returncode:
            raise AssertionError(ended.stderr.decode())
    return path


def has_sanitizers():
    made = support.run(["cc", *SANITIZERS, "-x", "c", "-o", MADE / "empty", "-"], "int main(void) { return 0; }")
    return made.returncode == 0 and support.run([MADE / "empty"]).returncode == 0


class Programs(support.Case):
    """Programs in C write what they must."""

    def test_the_example(self):
        self.expect(support.run([compiled("example")]), 0, EXAMPLE)

    def test_the_example_of_items_one_by_one(self):
        self.expect(support.run([compiled("steps")]), 0, "6\n├── 1\n├── 2\n│   └── 1\n└── 3\n    └── 1\n")

    def test_each_call(self):
        self.expect(support.run([compiled("test")]), 0, "all calls are right\n")

    def test_each_call_under_the_sanitizers(self):
        if not has_sanitizers():
            self.skipTest("needs the sanitizers")
        self.expect(support.run([compiled("test", *SANITIZERS)], timeout=300), 0, "all calls are right\n")

    @unittest.skipUnless(shutil.which("valgrind"), "needs valgrind")
    def test_each_call_under_valgrind(self):
        words = ["valgrind", "--quiet", "--error-exitcode=9", "--leak-check=full"]
        self.expect(support.run([*words, compiled("test")], timeout=300), 0, "all calls are right\n")

    def test_random_calls_under_the_sanitizers(self):
        if not has_sanitizers():
            self.skipTest("needs the sanitizers")
        fuzz = compiled("fuzz", "-O1", *SANITIZERS, "-Wl,--wrap=malloc,--wrap=realloc")
        self.expect(support.run([fuzz, "1", "20000"], timeout=300), 0, "20000 cases are right\n")


class RefusalsOfMalloc(support.Preloading):
    """Each request for memory of a program in C is refused in turn. The call reports that, or is done without."""

    source = "refuse.c"

    def test_calls(self):
        test = compiled("test")
        for call in ("draw", "read", "document", "readable", "config", "load", "faults", "draw_with", "steps", "read_with", "walks", "once", "paint"):
            with self.subTest(call):
                reported = 0
                for n in range(1, 500):
                    ended, noticed = self.run_preloaded([test, call], env={"REFUSE": str(n)})
                    if not noticed:
                        break
                    self.assertIn(ended.returncode, (0, 1), f"refusal {n}")
                    reported += ended.returncode
                self.assertEqual(ended.returncode, 0)
                self.assertGreaterEqual(reported, 2)


@unittest.skipUnless(shutil.which("valgrind"), "needs valgrind")
class Costs(support.Case):
    """How many instructions each further item, line or variable of a call takes."""

    def test_calls(self):
        test = compiled("test")
        for call, most in {"draw_with": 335, "steps": 333, "lines": 149, "read_with": 2064, "once": 1090, "load": 2020, "faults": 1530}.items():
            with self.subTest(call):
                counts = []
                for size in (2000, 4000):
                    self.assertEqual(support.run([test, call, str(size)]).returncode, 0)
                    counts.append(support.instructions([test, call, str(size)]))
                each = (counts[1] - counts[0]) // 2000
                self.assertGreater(each, 0)
                self.assertLessEqual(each, most)


# Refusals of memory in each call of ptree.h

# What is drawn and read, with further lines; and a configuration in which each part that needs memory has some.
TEXT = "r\n: s\n├─ a\n│  ├─ b\n│  └─ c\n│     : d\n├─ e\n└─ f\n"
TREE = ptree.read(TEXT)
COLORS = ptree.Config(
    styled="always", depth=5, characters="utf-double", branch=ptree.Style(ptree.NamedColor("SteelBlue")),
    leaf=ptree.Style(ptree.NamedColor("#fed009"), ptree.NamedColor("navy")),
)  # fmt: skip
JSON = '{"b\\nc":"d\\ne","a":[1,{"b":null}],"n":-5}'
TOML = 'toml = ["yaml", ["json"]]\ndepth = 3\n[set]\n"" = "utf"\n'
GOOD_TOML = """styled = "always"
indent = 4
characters = { right = "~" }
continued = "> "
leaf = { foreground = "teal", background = [1, 2, 3] }
"""
GOOD_JSON = '{"leaf": {"foreground": "teal"}, "indent": 4}'
BAD_TOML = "depth = 'x'\nleaf = 3\n"
NODES = ["r", "a\nb", "c", "d"]
EDGES = [(0, 1), (0, 2), (1, 3), (2, 3), (3, 0), (0, 0)]


def text(value):
    value = value.encode() if isinstance(value, str) else bytes(value)
    return value, len(value)


def outline(tree):
    texts, numbers = b"", []
    for level, node in tree.walk():
        texts += node.label.encode()
        numbers += [len(texts), level]
    return (ctypes.c_uint64 * len(numbers))(*numbers), len(numbers) // 2, *text(texts)


def steps(tree):
    texts, found = bytearray(), []

    def add(node, level, is_last):
        start = len(texts)
        texts.extend(node.label.encode())
        found.append(c.Step(c.Part(start, len(texts)), level, is_last))
        for child in node.children:
            add(child, level + 1, child is node.children[-1])

    add(tree, 0, True)
    return (c.Step * len(found))(*found), len(found), *text(texts)


class Room:
    """Memory that a result goes into."""

    def __init__(self, size=3000, per=1):
        self.size, self.bytes = size, (ctypes.c_uint64 * (size * per // 8 + 1))()
        ctypes.memset(self.bytes, 0x23, ctypes.sizeof(self.bytes))

    def given(self):
        return self.bytes, self.size

    def state(self):
        return bytes(self.bytes)


class Items(Room):
    """Room for items."""

    def __init__(self):
        super().__init__(40, 16)


class Fields(Room):
    """A configuration that a call fills in."""

    def __init__(self):
        super().__init__(ctypes.sizeof(c.Config))

    def given(self):
        return (ctypes.cast(self.bytes, ctypes.POINTER(c.Config)),)


PLAIN, COLORED = ptree.fields_of(ptree.Config(depth=5)), ptree.fields_of(COLORS)
GRAPH = calls.graph_given(NODES, EDGES, 0)
NAMES = bytearray()
STYLE = _config._style_in(NAMES, ptree.Style("red", bold=True))
NAMED = _config._style_in(NAMES, ptree.Style(ptree.NamedColor("steelblue"), ptree.NamedColor("navy")))
LOADED = [("ptree_branch_background", "Navy"), ("PTREE_DEPTH", "7")]
# Each call: its name, what it is given, what it writes to besides `found`, and how many refusals it reports at least.
CALLS = [
    ("config", (3,), [Fields, Room], 19),
    ("is_readable", (3,), None, 20),
    ("load", calls.sources(GOOD_TOML, c.TOML, LOADED), [Fields, Room], 44),
    ("load", calls.sources(GOOD_JSON, c.JSON, [("PTREE_PADDING", "2")]), [Fields, Room], 28),
    ("faults", calls.sources(BAD_TOML, c.TOML, [("PTREE_STYLED", "maybe")]), [Room], 23),
    ("draw", (*outline(TREE), 3, 5), [Room], 28),
    ("draw_with", (*outline(TREE), *PLAIN), [Room], 21),
    ("draw_with", (*outline(TREE), *COLORED), [Room], 36),
    ("draw_steps", (*steps(TREE), (ctypes.c_uint8 * 8)(), 8, *COLORED), [Room], 34),
    ("read", (*text(TEXT), 0, 5), [Items, Room], 29),
    ("read_with", (*text(TEXT), *PLAIN), [Items, Room], 29),
    ("read_with", (*text(ptree.draw(TREE, COLORS)), *COLORED), [Items, Room], 39),
    ("draw_document", (*text(JSON), *text("j"), c.JSON, 0, 5), [Room], 34),
    ("draw_document_with", (*text(TOML), *text("t"), c.TOML, *PLAIN), [Room], 38),
    ("draw_document_with", (*text(JSON), *text("j"), c.JSON, *COLORED), [Room], 47),
    ("draw_walks", (*GRAPH, *PLAIN), [Room], 59),
    ("draw_once", (*GRAPH, *text(" (*)"), *PLAIN), [Room], 33),
    ("draw_once", (*GRAPH, *text(" again"), *COLORED), [Room], 45),
    ("paint", (*text("a\nb"), ctypes.pointer(STYLE), *text(NAMES)), [Room], 2),
    ("paint", (*text("a\nb"), ctypes.pointer(NAMED), *text(NAMES)), [Room], 4),
]


def make(name, given, rooms, refused=(0, 0)):
    """Makes a call: its number, what it found, what its rooms hold, its requests, and the blocks that it still holds."""
    made, found = [room() for room in rooms or ()], c.Found(7, 7, 7)
    before = library.ptree_test_held()
    library.ptree_test_refuse(*refused)
    last = () if rooms is None else (ctypes.byref(found),)
    number = getattr(library, "ptree_" + name)(*given, *itertools.chain(*(room.given() for room in made)), *last)
    requests = library.ptree_test_requests()
    library.ptree_test_refuse(0, 0)
    held = library.ptree_test_held() - before
    return number, (found.bytes, found.items, found.place), [room.state() for room in made], requests, held


class Refusals(unittest.TestCase):
    """Each request for memory in each call of ptree.h is refused in turn, alone and with all behind it. The call reports that memory ran out,
    and leaves everything that a result would go into as it was (but for a part of the drawing of an outline), or is done as without a refusal.
    It holds no block, and the same call again is done as ever."""

    @classmethod
    def setUpClass(cls):
        global library
        library = c._load(calls.made(is_refusing=True))
        library.ptree_test_refuse.argtypes, library.ptree_test_refuse.restype = [ctypes.c_long, ctypes.c_long], None
        library.ptree_test_requests.restype = library.ptree_test_held.restype = ctypes.c_long

    def test_each_call(self):
        for place, (name, given, rooms, fewest) in enumerate(CALLS):
            with self.subTest(name, place=place):
                self.assertGreaterEqual(self.count_reported(name, given, rooms), fewest)

    def count_reported(self, name, given, rooms):
        usual, untouched, reported = make(name, given, rooms), [room().state() for room in rooms or ()], 0
        number, found, states, requests, held = usual
        self.assertEqual((number, held), (c.DONE, 0))
        self.assertTrue(not untouched or states[-1] != untouched[-1], "nothing is written")
        for n in range(1, requests + 1):
            for last in (n, 2**62):
                number, found, states, _, held = make(name, given, rooms, (n, last))
                self.assertEqual(held, 0, f"request {n} refused: blocks are held")
                if number != c.MEMORY:
                    self.assertEqual((number, found, states), usual[:3], f"request {n} refused")
                # (items that ptree_draw_steps has drawn are drawn, and an outline may be drawn in part)
                elif name != "draw_steps":
                    if name not in ("draw", "draw_with"):
                        self.assertEqual(states, untouched, f"request {n} refused: something is written")
                    self.assertTrue(not rooms or found == (0, 0, 0), f"request {n} refused: something is found")
                reported += number == c.MEMORY and last == n
                self.assertEqual(make(name, given, rooms), usual, f"after request {n} was refused")
        return reported

    def test_no_call_is_left_out(self):
        # (ptree_refusal_text and ptree_is_styled need no memory)
        self.assertEqual({name for name, *_ in CALLS} | {"refusal_text", "is_styled"}, set(c._CALLS) | {"refusal_text"})
