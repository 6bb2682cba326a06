#!/usr/bin/env python3
"""Tests the package, and the examples of its page. PTREE_LIBRARY has the shared library.

    python3 test_package.py     prints each test's name, behind `ok` or `no`
"""
import contextlib
import doctest
import graphlib
import io
import os
import pickle
import pty
import re
import subprocess
import sys
import tempfile
import threading
import unittest

HERE = os.path.dirname(os.path.abspath(__file__))
sys.path.insert(0, os.path.dirname(HERE))
import ptree
from ptree import Characters, Config, NamedColor, Style, Tree, draw, draw_graph, draw_parts, draw_toml, paint, read

#: Pieces of no width: a drawing of many levels stays small, and is not readable.
NOTHING = {"indent": 0, "padding": 0, "characters": Characters("", "", "", "", "")}
#: Pieces of one byte.
NARROW = {"indent": 1, "padding": 0, "characters": Characters("+", "|", "`", "-", " "), "continued": ":"}


def on_small_stack(call):
    """What a call returns in a thread with a stack of 256 KiB."""
    found = []
    before = threading.stack_size(256 << 10)
    thread = threading.Thread(target=lambda: found.append(call()))
    try:
        thread.start()
    finally:
        threading.stack_size(before)
    thread.join()
    return found[0]


class Package(unittest.TestCase):
    def expect_line(self, error, line, call, *given, **named):
        with self.assertRaises(error) as caught:
            call(*given, **named)
        self.assertEqual(caught.exception.line, line)

    def test_examples_of_the_docstrings(self):
        ran = doctest.testmod(ptree)
        self.assertEqual((ran.failed, ran.attempted), (0, 8))

    def test_examples_of_the_page(self):
        with open(os.path.join(HERE, "../../../docs/PYTHON.md"), encoding="utf-8") as page:
            blocks = re.findall("^```pycon\n(.*?)^```$", page.read(), re.MULTILINE | re.DOTALL)
        ran, names = doctest.DocTestRunner(), {}
        self.assertGreaterEqual(len(blocks), 5)
        for number, block in enumerate(blocks):
            test = doctest.DocTestParser().get_doctest(block, names, f"block {number + 1}", "docs/PYTHON.md", 0)
            ran.run(test, clear_globs=False)
            names = test.globs
        self.assertEqual(ran.summarize().failed, 0)

    def test_the_version_is_the_project_s(self):
        with open(os.path.join(HERE, "../pyproject.toml"), encoding="utf-8") as project:
            self.assertIn(f'\nversion = "{ptree.__version__}"\n', project.read())
        self.assertEqual(draw(Tree(ptree.__version__)), f"{ptree.__version__}\n")

    def test_the_defaults_are_the_library_s(self):
        self.assertEqual(Config.preset("default"), Config())
        self.assertEqual(Config.load(), Config())

    def test_a_configuration_has_each_field_of_a_file(self):
        with open(os.path.join(HERE, "../../../docs/CLI.md"), encoding="utf-8") as page:
            file = re.search("^```toml\n(.*?)^```$", page.read(), re.MULTILINE | re.DOTALL)[1]
        steelblue = NamedColor("steelblue")
        expected = Config(
            4, "always", 4, 1, Characters("┣", "┃", "┗", "━", " "), Style(steelblue, 0, dimmed=True),
            Style((70, 130, 180), NamedColor("#102030"), True, False, True, True, True, True, True, True), "> ",
        )  # fmt: skip
        self.assertEqual(Config.load(file), expected)
        branch, leaf = "\033[2m\033[38;2;70;130;180m\033[48;5;0m", "\033[1m\033[3m\033[4m\033[5m\033[7m\033[8m\033[9m"
        leaf += "\033[38;2;70;130;180m\033[48;2;16;32;48m"
        drawing = f"{branch}\033[0m{leaf}r\n{branch}> \033[0ms\033[0m\n{branch}┗━━ \033[0m{leaf}a\033[0m\n"
        self.assertEqual(draw(Tree("r\ns", ["a"]), expected), drawing)

    def test_each_preset_reads_back(self):
        tree = Tree("r", [Tree("a\nb", ["c"]), "d"])
        for name in ptree.PRESETS:
            self.assertEqual(read(draw(tree, name), name), tree)
        self.assertEqual(draw(tree, "ps --forest"), "r\n \\_ a\n |  : b\n |   \\_ c\n \\_ d\n")
        with self.assertRaisesRegex(ptree.ConfigError, "^unknown preset 'ls', not one of default, tree, "):
            draw(tree, "ls")

    def test_sets_of_characters(self):
        self.assertEqual(draw(Tree("r", ["a", "b"]), characters="utf-double"), "r\n╠═ a\n╚═ b\n")
        self.assertEqual(Characters.named("ascii"), Characters("|", "|", "`", "-", " "))
        with self.assertRaisesRegex(ptree.ConfigError, "^unknown set of characters 'UTF', not one of utf, ascii, "):
            Config(characters="UTF")

    def test_trees(self):
        tree = Tree("r")
        tree.add("a").add(Tree("b", ["c"]))
        self.assertEqual([(level, node.label) for level, node in tree.walk()], [(0, "r"), (1, "a"), (2, "b"), (3, "c")])
        self.assertEqual(tree, read("r\n└─ a\n   └─ b\n      └─ c\n"))
        self.assertNotEqual(tree, Tree("r", ["a"]))
        self.assertNotEqual(Tree("r", [Tree("a", ["b"])]), Tree("r", ["a", "b"]))
        self.assertNotEqual(tree, "r")
        ring = Tree("r")
        ring.add(ring)
        self.assertEqual(ring, ring)
        for label, children in (("r", "ab"), (1, ()), ("r", [1])):
            with self.assertRaises(TypeError):
                Tree(label, children)

    def test_labels_and_configurations_that_are_none(self):
        self.assertEqual(draw(7, label=lambda n: f"<{n}>", children=lambda n: ()), "<7>\n")
        for given, named in (((7,), {"label": lambda n: n, "children": lambda n: ()}), ((Tree("r"), 5), {}), ((Tree("r"),), {"dept": 1})):
            with self.assertRaises(TypeError):
                draw(*given, **named)

    def test_texts_that_are_none(self):
        config = Config(continued=None)
        calls = (
            lambda: read(None), lambda: read(b"r\n"), lambda: draw(Tree("r"), config), lambda: paint(1, Style()), lambda: draw_toml(None),
            lambda: ptree.draw_json("[]", None), lambda: draw_graph({}, 1, mark=None), lambda: Config.load(b"depth = 1"),
            lambda: Config.load(variables={"PTREE_DEPTH": 1}),
        )  # fmt: skip
        for call in calls:
            with self.assertRaises(TypeError):
                call()
        self.assertEqual(read("r\n"), Tree("r"))

    def test_a_wrong_line(self):
        self.assertEqual(read("r\n├─ a\n│  : b\n└─ c\n"), Tree("r", ["a\nb", "c"]))
        for text, line in (("r\nx\n", 2), ("r\n├─ a\n", None), ("r", None), ("", None), ("r\n└─ a\n└─ b\n", 3)):
            self.expect_line(ptree.ReadError, line, read, text)
        self.expect_line(ptree.ReadError, 3, read, "r\n└─ a\n   └─ b\n", depth=1)
        with self.assertRaisesRegex(ptree.ReadError, "^line 2 cannot continue the drawing$"):
            read("r\nx\n")

    def test_pieces_that_cannot_be_read(self):
        self.assertEqual(read("r\n", continued="-"), Tree("r"))
        with self.assertRaises(ptree.ConfigError):
            read("r\n", continued="")

    def test_numbers_that_have_no_room(self):
        self.assertEqual(draw(Tree("r", ["a"]), depth=2**32 - 1, indent=2), "r\n└ a\n")
        cases = ({"depth": 2**32}, {"depth": -1}, {"indent": -1}, {"indent": 2**64}, {"padding": 2**64}, {"styled": "maybe"})
        for changes in cases:
            with self.assertRaises(ValueError):
                Config(**changes)
            with self.assertRaises(ValueError):
                draw_parts(Tree("r"), **changes)
        for color in (256, -1, (1, 2, 256), (1, 2), (1, 2, 3, 4)):
            with self.assertRaises(ValueError):
                Style(color)
        with self.assertRaises(TypeError):
            Config(depth=1.5)
        with self.assertRaises(ValueError):
            draw_parts(Tree("r"), items=0)

    def test_a_piece_that_is_too_long(self):
        for length in (2**63, 2**64 - 1):
            with self.assertRaises(MemoryError):
                draw(Tree("r", ["a"]), indent=length)

    def test_colours(self):
        for color, code in (
            ("red", "31"), (NamedColor("red"), "31"), ("Red", "38;2;255;0;0"), ("#102030", "38;2;16;32;48"),
            ("steelblue", "38;2;70;130;180"), (7, "38;5;7"), ((1, 2, 255), "38;2;1;2;255"),
        ):  # fmt: skip
            self.assertEqual(paint("x", Style(color)), f"\033[{code}mx\033[0m")
            config = Config(styled="always", branch=Style(), leaf=Style(color))
            self.assertEqual(draw(Tree("x"), config), f"\033[{code}mx\033[0m\n")
        self.assertEqual(Style("steelblue"), Style(NamedColor("steelblue")))
        self.assertEqual(paint("x", Style("no such colour")), "x")

    def test_a_syntax_error_has_a_line(self):
        self.expect_line(ptree.ConfigError, 2, Config.load, "indent = 4\n= 5\n")
        self.expect_line(ptree.ConfigError, None, Config.load, "indent = 'x'\n")
        self.expect_line(ptree.ConfigError, 1, Config.load, "[]", "json")
        self.assertEqual(Config.load("indent = 4", variables={"PTREE_DEPTH": "2", "other": "x"}), Config(indent=4, depth=2))
        with self.assertRaises(ValueError):
            Config.load("{}", "JSON")

    def test_the_texts_of_faults(self):
        texts = "the variable PTREE_STYLED isn't never, always or tty; the file's key leaf.bold isn't true or false"
        with self.assertRaisesRegex(ptree.ConfigError, f"^{texts}$"):
            Config.load("leaf.bold = 1", variables={"PTREE_STYLED": "maybe"})
        with self.assertRaisesRegex(ptree.ConfigError, "^the file has a syntax error, in line 2$"):
            Config.load("indent = 4\n= 5\n")

    def test_surroundings(self):
        with tempfile.TemporaryDirectory() as folder:
            os.makedirs(os.path.join(folder, ".config/folder.toml"))
            with open(os.path.join(folder, ".config", "ptree.json"), "w") as file:
                file.write('{"indent": 7}')
            os.symlink("/dev/null", os.path.join(folder, "null.toml"))
            os.mkfifo(os.path.join(folder, "fifo.toml"))
            home, named = {"HOME": folder}, folder + "/.config/ptree"
            for variables, config in (
                (home, Config(indent=7)),
                ({**home, "PTREE_INDENT": "5"}, Config(indent=5)),
                ({**home, "PTREE_CONFIG": named}, Config(indent=7)),
                ({**home, "PTREE_CONFIG": named + ".json"}, Config(indent=7)),
                ({**home, "PTREE_CONFIG": named + ".toml", "PTREE_INDENT": "5"}, Config()),
                ({"PTREE_CONFIG": folder + "/null.toml", "PTREE_INDENT": "5"}, Config(indent=5)),
                ({"PTREE_CONFIG": folder + "/fifo", "PTREE_INDENT": "5"}, Config()),
                ({"PTREE_CONFIG": folder + "/.config/folder", "PTREE_INDENT": "5"}, Config()),
                ({"PTREE_CONFIG": "/dev/null", "PTREE_INDENT": "5"}, Config()),
                ({"PTREE_CONFIG": "a\0b", "PTREE_INDENT": "5"}, Config()),
                ({"HOME": "/dev/null", "PTREE_INDENT": "5"}, Config()),
                ({"XDG_CONFIG_HOME": folder + "/.config", "\udcff": "x", "PTREE_DEPTH": "\udcff"}, Config(indent=7)),
                ({"XDG_CONFIG_HOME": "relative", **home}, Config(indent=7)),
                ({**home, "PTREE_DEPTH": "x"}, Config()),
                ({"PTREE_INDENT": "5", "HOME": ""}, Config(indent=5)),
                ({}, Config()),
            ):
                self.assertEqual(Config.from_env(variables), config, variables)
            script = "import ptree; print(ptree.Config.from_env().indent)"
            env = {b"HOME": folder.encode(), b"PTREE_LIBRARY": os.environb[b"PTREE_LIBRARY"], b"PTREE_DEPTH": b"\xff"}
            said = subprocess.run([sys.executable, "-B", "-c", script], env=env, cwd=os.path.dirname(HERE), capture_output=True)
            self.assertEqual((said.stdout, said.stderr), (b"7\n", b""))

    def test_print(self):
        out = io.StringIO()
        ptree.print_tree(range(5), "cargo tree", out, label=str, children=lambda n: range(2) if isinstance(n, range) else ())
        self.assertEqual(out.getvalue(), "range(0, 5)\n├── 0\n└── 1\n")

    def test_print_to_a_terminal(self):
        ours, theirs = pty.openpty()
        with os.fdopen(theirs, "w") as terminal, os.fdopen(os.dup(theirs), "w") as other, open(ours, "rb", 0) as shown:
            before, sys.stdout = sys.stdout, terminal
            try:
                ptree.print_tree(Tree("r", ["a"]), leaf=Style("red"))
                ptree.print_tree(Tree("r"), styled="never", leaf=Style("red"))
                terminal.flush()
                ptree.print_tree(Tree("r"), file=other, leaf=Style("red"))
                print("end", file=other, flush=True)
            finally:
                sys.stdout = before
            expected = "\033[2m\033[0m\033[31mr\033[0m\r\n\033[2m└─ \033[0m\033[31ma\033[0m\r\nr\r\nr\r\nend\r\n"
            found = b""
            while not found.endswith(b"end\r\n"):
                found += shown.read(1000)
        self.assertEqual(found.decode(), expected)

    def test_items_on_demand(self):
        asked = []

        def children(n):
            asked.append(n)
            return iter(range(n))

        first = next(draw_parts(6, label=str, children=children, items=3))
        self.assertEqual(first, "6\n├─ 0\n├─ 1\n")
        self.assertLess(len(asked), 9)
        parts = "".join(draw_parts(6, label=str, children=children))
        self.assertEqual((parts.count("\n"), parts), (64, draw(6, label=str, children=children)))
        for call in (draw, draw_parts):
            asked.clear()
            self.assertEqual("".join(call(3, label=str, children=children, depth=1)), "3\n├─ 0\n├─ 1\n└─ 2\n")
            self.assertEqual(asked, [3])

    def test_parts_of_many_levels_and_long_labels(self):
        tree = Tree("r")
        node = tree
        for n in range(300):
            node.add("\n" * (n % 40))
            node = node.add("x" * n)
        drawing = draw(tree)
        self.assertEqual((drawing.count("\n"), read(drawing)), (1 + 300 + sum(n % 40 + 1 for n in range(300)), tree))
        for items in (1, 7, 10**6):
            self.assertEqual("".join(draw_parts(tree, items=items)), drawing)

    def test_graphs(self):
        edges = {"app": ["parser", "lexer"], "parser": ["lexer"], "lexer": ["parser"], "x": ["x"]}
        drawing = "app\n├─ parser\n│  └─ lexer\n│     └─ parser (*)\n└─ lexer (*)\n"
        self.assertEqual(draw_graph(edges, "app"), drawing)
        with self.assertRaises(graphlib.CycleError):
            draw_graph(edges, "app", once=False)
        self.assertEqual(draw_graph(edges, "app", once=False, depth=1), "app\n├─ parser\n└─ lexer\n")
        self.assertEqual(draw_graph({}, "alone"), "alone\n")
        self.assertEqual(draw_graph({1: [2, 2], 3: [3]}, 1, once=False, label=hex), "0x1\n├─ 0x2\n└─ 0x2\n")
        self.assertEqual(draw_graph({1: [3, 2], 2: [3], 3: [4]}, 1), "1\n├─ 3\n│  └─ 4\n└─ 2\n   └─ 3 (*)\n")

    def test_a_deep_graph_takes_no_stack_of_the_caller(self):
        edges = {n: [n + 1] for n in range(100_000)}
        for once in (True, False):
            drawing = on_small_stack(lambda: draw_graph(edges, 0, once=once, **NOTHING))
            self.assertEqual((drawing.count("\n"), drawing[-7:]), (100_001, "100000\n"))
        drawing = on_small_stack(lambda: draw_graph({0: [0]}, 0, once=False, depth=100_000, **NOTHING))
        self.assertEqual(drawing, "0\n" * 100_001)

    def test_a_deep_drawing_is_read_on_a_small_stack(self):
        text = "\n".join(["r"] + [" " * n + "`x" for n in range(5000)]) + "\n"
        self.assertEqual(on_small_stack(lambda: sum(1 for _ in read(text, **NARROW).walk())), 5001)
        # (many pieces, in a line that cannot have them)
        text = "r\n" + " " * 1_000_000 + "`x\n"
        with self.assertRaises(ptree.ReadError) as caught:
            raise on_small_stack(lambda: self.failure_of(text))
        self.assertEqual(caught.exception.line, 2)

    @staticmethod
    def failure_of(text):
        try:
            return read(text, **NARROW)
        except ptree.ReadError as error:
            return error

    def test_a_deep_tree_is_drawn_on_a_small_stack(self):
        def drawn():
            tree = Tree("r")
            node = tree
            for _ in range(200_000):
                node = node.add("x")
            return tree == tree, draw(tree, **NOTHING), "".join(draw_parts(tree, **NOTHING))

        self.assertEqual(on_small_stack(drawn), (True, "r\n" + "x\n" * 200_000, "r\n" + "x\n" * 200_000))

    def test_deep_documents_take_no_stack_of_the_caller(self):
        keys = ".".join("a" * 80)
        deep = f"[{keys}]\n" + f"{keys} = " + f"{{{keys} = " * 79 + "1" + "}" * 79 + "\n"
        self.assertEqual(on_small_stack(lambda: draw_toml(deep, "d", depth=1)), "d\n└─ a\n")
        self.assertEqual(on_small_stack(lambda: Config.load(deep)), Config())
        nested = "[" * 127 + "]" * 127
        self.assertEqual(on_small_stack(lambda: ptree.draw_json(nested, "d", depth=1)), "d\n└─ \n")

    def test_documents(self):
        self.assertEqual(ptree.draw_json({"b": [1, None], "a": "x"}, "d"), "d\n├─ a = x\n└─ b\n   ├─ 1\n   └─ \n")
        self.assertEqual(ptree.draw_json('{"a": 1}', "d"), "d\n└─ a = 1\n")
        self.assertEqual(draw_toml("a = 1\n", "d"), "d\n└─ a = 1\n")
        for given, line in (("[1.5]", None), ([2**64], None), ("[1,\n2\n3]", 3), ("[\n", 2), ("[" * 128, 1)):
            self.expect_line(ptree.DocumentError, line, ptree.draw_json, given)
        for given, line in (("a = 1979-05-27", None), ("a = 1\nb\n", 2), ("a = 1\na = 2\n", 2), ("\ufeff\n\ufeff", 2)):
            self.expect_line(ptree.DocumentError, line, draw_toml, given)
        with self.assertRaisesRegex(ptree.DocumentError, "^the document is invalid, in line 2$"):
            ptree.draw_json("\n")
        with self.assertRaises(ValueError):
            ptree.draw_json({"a": {1: 2, "1": 3}})

    def test_texts_with_zero_bytes_and_no_texts(self):
        tree = Tree("", ["\0", "a\0b", Tree("", [""])])
        self.assertEqual(draw(tree), "\n├─ \0\n├─ a\0b\n└─ \n   └─ \n")
        self.assertEqual(read(draw(tree)), tree)
        with self.assertRaises(UnicodeEncodeError):
            draw(Tree("\ud800"))

    def test_errors_can_be_sent_to_another_process(self):
        try:
            read("r\nx\n")
        except ptree.ReadError as error:
            found = pickle.loads(pickle.dumps(error))
        self.assertEqual((type(found), found.line, found.number, str(found)), (ptree.ReadError, 2, 6, "line 2 cannot continue the drawing"))

    def test_threads(self):
        tree = Tree("r", [Tree("a", ["b"] * 1000)] * 3)
        drawing, found = draw(tree), []
        self.assertEqual(drawing.count("\n"), 3004)
        threads = [threading.Thread(target=lambda: found.extend(draw(read(drawing)) == drawing for _ in range(5))) for _ in range(8)]
        for thread in threads:
            thread.start()
        for thread in threads:
            thread.join()
        self.assertEqual(found, [True] * 40)


if __name__ == "__main__":
    failed = 0
    for name in unittest.defaultTestLoader.getTestCaseNames(Package):
        result = unittest.TestResult()
        with contextlib.redirect_stdout(sys.stderr):
            Package(name).run(result)
        failed += not result.wasSuccessful()
        print("ok" if result.wasSuccessful() else "no", name.removeprefix("test_").replace("_", " "), flush=True)
        for _, said in result.failures + result.errors:
            print(said, file=sys.stderr)
    sys.exit(failed > 0)
