"""Streams of the built programs that fail at each byte, and refusals of each request for memory."""
import os
import re
import shutil
import unittest

from tests import support
from tests.test_program import USAGE
from tests.test_trees import DOCUMENT, DRAWN, written

ENDLESS = ["eio", "eintr", "zero"]
ONCE = ["eio_once", "eintr_once", "enospc_once", "zero_once"]
#: The ways in which a read fails. (A read that returns nothing is the end.)
READS = ["eio", "eintr", "eio_once", "eintr_once"]
DRAWING = "r\n├─ a\n│  ├─ b\n│  └─ c\n└─ d\n   : e\n"
REDRAWN = "r\n+- a\n|  +- b\n|  +- c\n+- d\n   : e\n"
CONFIGURATION = b"indent = 6\n[leaf]\nbold = true\n"
CONFIGURED = "\x1b[2m\x1b[0m\x1b[1mr\x1b[0m\n\x1b[2m└─────── \x1b[0m\x1b[1ma\x1b[0m\n"
#: How many refusals of memory each call reports at least. Where a call takes less memory for a good reason, change its number.
REPORTED = {"words": 51, "words on a terminal": 56, "json": 56, "toml": 60, "redraw": 73, "words under a file": 69}


def setUpModule():
    global PTREE_CLI, TREES
    PTREE_CLI, TREES = support.built("ptree_cli"), support.built("trees")


@unittest.skipUnless(shutil.which("cc"), "needs cc")
class ProgramStreams(support.Preloading):
    """A stream that fails at each byte, in each way. No call uses it again."""

    source = "faulty.c"

    def expect_fault(self, fault, words, stdin=b"", env=None, status=0, output="", error=""):
        ended, noticed = self.run_preloaded([PTREE_CLI, *words], stdin, {"FAULT": fault, **(env or {})}, timeout=5)
        as_text = (text.decode(errors="surrogateescape") if isinstance(text, bytes) else text for text in (output, error))
        self.expect(ended, status, *as_text, fault)
        self.assertEqual(noticed, b"", f"{fault}: the stream is used again")

    def expect_output_faults(self, words, drawn, stdin=b"", places=None):
        """What is written is what stands before the fault."""
        self.expect(support.run([PTREE_CLI, *words], stdin), 0, drawn)
        drawn = drawn.encode()
        for how in ENDLESS + ONCE:
            with self.subTest(how):
                for at in places or range(len(drawn)):
                    self.expect_fault(f"output {how} {at}", words, stdin, None, 1, drawn[:at], "cannot write\n")

    def test_output_at_each_byte(self):
        self.expect_output_faults(["words", "petgraph", "quickcheck", "fixedbitset"], "petgraph\n├─ quickcheck\n└─ fixedbitset\n")

    def test_output_on_a_terminal(self):
        self.expect_output_faults(["--tty", "words", "r", "a"], "\x1b[2m\x1b[0mr\n\x1b[2m└─ \x1b[0ma\n")

    def test_output_of_a_drawing_that_is_read(self):
        self.expect_output_faults(["redraw"], REDRAWN, DRAWING)

    def test_output_longer_than_the_buffer(self):
        """(the buffer has 8192 bytes, and is passed on at the end of the entry before that place)"""
        children = [f"child {i}" for i in range(700)]
        drawn = "r\n" + "".join(f"├─ {child}\n" for child in children[:-1]) + f"└─ {children[-1]}\n"
        self.expect_output_faults(["words", "r", *children], drawn, places=[*range(0, 11792, 97), *range(8160, 8225)])

    def test_standard_error_at_each_byte(self):
        for how in ENDLESS + ONCE:
            with self.subTest(how):
                for at in range(len(USAGE)):
                    self.expect_fault(f"error {how} {at}", ["draw"], status=2, error=USAGE[:at])

    def test_input_at_each_byte(self):
        """Nothing is drawn of an input that cannot be read to its end."""
        calls = {
            "a drawing": (["redraw"], DRAWING, REDRAWN),
            "JSON": (["json", "j"], '{"a": [1, {"b": null}], "c": "d"}', "j\n├─ a\n│  ├─ 1\n│  └─ \n│     └─ b = \n└─ c = d\n"),
            "TOML": (["toml", "t"], 'a = [1, "é"]\n[b]\n', "t\n├─ a\n│  ├─ 1\n│  └─ é\n└─ b\n"),
        }
        for name, (words, given, drawn) in calls.items():
            self.expect(support.run([PTREE_CLI, *words], given), 0, drawn)
            for how in READS:
                with self.subTest(name, how=how):
                    for at in range(len(given.encode()) + 1):
                        self.expect_fault(f"input {how} {at}", words, given, None, 1, "", "cannot read\n")

    def test_pieces_are_tested_before_input_is_read(self):
        for how in READS:
            self.expect_fault(f"input {how} 0", ["redraw"], DRAWING, {"PTREE_CONTINUED": ""}, 1, "", "pieces not readable\n")

    def test_input_that_ends_early_is_a_shorter_one(self):
        given, drawn = DRAWING.encode(), {b"r\n": "r\n", DRAWING[:-7].encode(): REDRAWN[:-7]}
        for at in range(len(given)):
            start = given[:at]
            is_text = start.decode(errors="ignore").encode() == start
            error = "" if start in drawn else "not a drawing\n" if is_text else "cannot read\n"
            self.expect_fault(f"input zero {at}", ["redraw"], given, None, int(start not in drawn), drawn.get(start, ""), error)

    def configured(self, folder, text):
        """The variables that lead to a file with this text. PTREE_INDENT counts beside it."""
        (folder / "ptree.toml").write_bytes(text)
        path = str(folder / "ptree.toml")
        return {"PTREE_CONFIG": path, "FAULT_FILE": path, "PTREE_INDENT": "9", "PTREE_STYLED": "always"}

    def test_configuration_file_at_each_byte(self):
        """A file that cannot be read to its end means the default."""
        text, folder, words = CONFIGURATION, self.folder(), ["words", "r", "a"]
        self.expect(support.run([PTREE_CLI, *words], env=self.configured(folder, b"\xff")), 0, "r\n└─ a\n")
        self.expect(support.run([PTREE_CLI, *words], env=self.configured(folder, text)), 0, CONFIGURED)
        for how in READS:
            with self.subTest(how):
                for at in range(len(text) + 1):
                    self.expect_fault(f"file {how} {at}", words, env=self.configured(folder, text), output="r\n└─ a\n")

    def test_configuration_file_that_ends_early_is_a_shorter_one(self):
        text, folder, words = CONFIGURATION, self.folder(), ["words", "r", "a"]
        self.expect(support.run([PTREE_CLI, *words], env=self.configured(folder, text)), 0, CONFIGURED)
        for at in range(len(text)):
            shorter = support.run([PTREE_CLI, *words], env=self.configured(folder, text[:at]))
            self.expect_fault(f"file zero {at}", words, env=self.configured(folder, text), output=shorter.stdout)

    def test_list_of_variables(self):
        """The variables are found in another way if the system's list of them fails. (They have more bytes than the first room.)"""
        env = {"PTREE_CONTINUED": " " * 3000, "FAULT_FILE": "/proc/self/environ"}
        for how in READS:
            with self.subTest(how):
                for at in [*range(0, 40), *range(40, 3000, 97)]:
                    self.expect_fault(f"file {how} {at}", ["words", "r\ns"], env=env, output=f"r\n{' ' * 3000}s\n")

    def test_streams_of_one_byte_at_a_time(self):
        for words, given, stream, drawn in (
            (["words", "r", "a"], "", "output", "r\n└─ a\n"),
            (["redraw"], DRAWING, "input", REDRAWN),
            (["redraw"], DRAWING, "output", REDRAWN),
            (["json", "j"], '{"c": "d"}', "input", "j\n└─ c = d\n"),
        ):
            self.expect_fault(f"{stream} short 0", words, given, output=drawn)
        env = self.configured(self.folder(), b"characters = 'ascii'\n")
        self.expect_fault("file short 0", ["words", "r", "a"], env=env | {"PTREE_STYLED": "never"}, output="r\n`------- a\n")


@unittest.skipUnless(shutil.which("cc"), "needs cc")
class ProgramRefusals(support.Preloading):
    """Each request for memory of a call is refused in turn. The call then ends with status 1, behind a part of its drawing."""

    source = "refuse.c"

    def expect_reported(self, name, words, stdin=b"", env=None):
        reported = self.count_refusals([PTREE_CLI, *words], "no memory\n", stdin, env)
        self.assertGreaterEqual(reported, REPORTED[name])

    def test_words(self):
        self.expect_reported("words", ["words", "petgraph", "quickcheck", "fixedbitset"])

    def test_words_on_a_terminal(self):
        self.expect_reported("words on a terminal", ["--tty", "words", "r", "a"])

    def test_json(self):
        self.expect_reported("json", ["json", "j"], '{"b\\nc":"d\\ne","a":[1,{"b":null}],"n":-5}')

    def test_toml(self):
        self.expect_reported("toml", ["toml", "t"], 'a = ["x", [true]]\n[b]\nc = """d\ne"""\n')

    def test_redraw(self):
        self.expect_reported("redraw", ["redraw"], "r\n├─ a\n│  : b\n└─ c\n")

    def test_words_under_a_file(self):
        path = self.folder() / "full.json"
        path.write_text('{"characters": "ascii", "branch": {"foreground": "red"}}')
        env = {"PTREE_CONFIG": str(path), "PTREE_LEAF_BOLD": "1", "PTREE_STYLED": "always"}
        self.expect_reported("words under a file", ["words", "r", "a"], env=env)


@unittest.skipUnless(shutil.which("cc"), "needs cc")
class TreesStreams(support.Preloading):
    """Output and input fail at each byte, in each way. No call uses the stream again."""

    source = "faulty.c"

    def expect_fault(self, fault, status=0, output=DRAWN, error="", words=("json", "--label", "r"), given=DOCUMENT):
        ended, noticed = self.run_preloaded([TREES, *words], given, {"FAULT": fault}, timeout=5)
        self.expect(ended, status, output if isinstance(output, str) else output.decode(errors="surrogateescape"), error, fault)
        self.assertEqual(noticed, b"", f"{fault}: the stream is used again")

    def test_output_at_each_byte(self):
        """(of a document, and of a graph with each node expanded once and by its walks)"""
        for drawn, *call in (
            (DRAWN, ("json", "--label", "r"), DOCUMENT),
            ("r\n├─ a\n│  └─ b\n│     └─ c\n└─ b (*)\n", ("deps",), "r a\nr b\na b\nb c\n"),
            ("r\n├─ a\n│  └─ b\n└─ b\n", ("deps", "--walks"), "r a\nr b\na b\n"),
        ):
            for how in ENDLESS + ONCE:
                with self.subTest(words=call[0], how=how):
                    for at in range(len(drawn.encode())):
                        self.expect_fault(f"output {how} {at}", 1, drawn.encode()[:at], "trees: cannot write\n", *call)

    def test_input_at_each_byte(self):
        for how in ("eio", "eio_once"):
            with self.subTest(how):
                for at in range(len(DOCUMENT) + 1):
                    self.expect_fault(f"input {how} {at}", 1, "", "trees: standard input: Input/output error (os error 5)\n")

    def test_an_interrupted_read_is_tried_again(self):
        env = {"FAULT": "input eintr_once 5"}
        self.expect(self.run_preloaded([TREES, "json", "--label", "r"], DOCUMENT, env, timeout=5)[0], 0, DRAWN)

    def test_streams_of_one_byte_at_a_time(self):
        self.expect_fault("input short 0")
        self.expect_fault("output short 0")


@unittest.skipUnless(shutil.which("cc"), "needs cc")
class TreesRefusals(support.Preloading):
    """Each request for memory of a call is refused in turn. The call then ends with status 1, behind a part of its drawing."""

    source = "refuse.c"

    def expect_refusals(self, *calls, env=None):
        """Calls of an input and words."""
        for given, *words in calls:
            with self.subTest(words=words, given=given):
                self.assertGreater(self.count_refusals([TREES, *words], "trees: out of memory\n", given, env), 20)

    def test_documents(self):
        self.expect_refusals(
            ('{"b": [1, 2.5], "a": null}', "json", "--label", "r"),
            ('{"b": ', "json"),
            ("[1,\n2,,\n", "json"),
            ("a = 1\na = 2\n", "toml"),
            ('{"b": [1, 2.5], "a": {"key": [null]}}', "json", "--strict"),
            ("[key]\na = [1, 2, 1979-05-27]\n", "toml", "--strict"),
            ("a = 1979-05-27\nb = [1.5]\n", "toml", "--at", "b"),
        )

    def test_settings(self):
        """(faults and warnings of each kind, with their lines and values)"""
        folder = self.folder()
        toml = written(folder, "faulty.toml", '[leaf]\nbold = 1\nforeground = "grue"\ncolor = 1\n')
        json = written(folder, "faulty.json", '{"leaf": {"bold": 1}, "depth": "x"}')
        self.expect_refusals(("", "config"))
        variables = {"PTREE_INDENT": "x", "PTREE_DEPHT": "2", "PTREE_LEAF_BACKGROUND": "grue"}
        self.expect_refusals(("", "config"), env={"PTREE_CONFIG": str(toml), **variables})
        self.expect_refusals(("", "config"), env={"PTREE_CONFIG": str(json)})

    def test_dependencies(self):
        self.expect_refusals(
            ("a b\nb c\nd e\ne d\n", "deps", "--inverse"),
            ("a b\nc d\ne f\ng h\ni j\n", "deps", "--root", "x"),
            ('[[package]]\nname = "a"\nversion = "1"\ndependencies = ["b"]\n\n[[package]]\nname = "b"\nversion = "1"\n', "deps"),
            ('[[package]]\nname = "A"\nversion = "1"\n[package.dependencies]\nb = "1"\nA = "1"\n[metadata]\ncontent-hash = "0"\n', "deps"),
            (
                '{"lockfileVersion": 3, "packages": {"": {"workspaces": ["w"], "dependencies": {"a": "*"}}, "node_modules/a": {}, '
                '"node_modules/w": {"link": true, "resolved": "w"}, "w": {}}}',
                "deps",
            ),
        )

    def test_lines_and_drawings(self):
        left = str(written(self.folder(), "left", "r\n└─ a\n"))
        self.expect_refusals(
            ("b/c\na\n", "paths", "--sort", "--keep", "c"),
            ("a\n  b\n", "outline"),
            ("r\n└─ a\n", "indented"),
            ("r\n└─ a\n", "check"),
            ("r\nxx\n", "check"),
            ("r\n+- a\nxx\n", "check", "--as", "ascii-plus"),
            ("r\n├─ b\n└─ a\n", "convert", "--sort", "--to", "ascii"),
            ("r\n└─ b\n", "diff", "--all", left, "-"),
            ("r\n├─ b\n├─ a\n└─ c\n", "diff", "--all", left, "-"),
        )

    def test_on_a_terminal(self):
        """All but one, for the list of words, are reported; so also that for NO_COLOR."""
        given = written(self.folder(), "y.json", '["\\u001b[31m\\u202ex", "C:\\\\d", "a\\nb"]')
        whole, reported, spare = support.on_terminal([TREES, given], {"NO_COLOR": "1"}), 0, 0
        for n in range(1, 400):
            os.ftruncate(9, 0)
            said = support.on_terminal([TREES, given], {"NO_COLOR": "1", "REFUSE": str(n), "LD_PRELOAD": str(self.preloaded)})
            if "trees: out of memory" in said:
                reported += 1
                continue
            self.assertEqual(said, whole, f"refusal {n}")
            if not os.pread(9, 1, 0):
                break
            spare += 1
        self.assertEqual(spare, 1)
        self.assertGreater(reported, 20)


@unittest.skipUnless(shutil.which("cc"), "needs cc")
class Retries(support.Preloading):
    """The program tests makes calls of `ptree` that the library for C has not, and those that were refused memory once more. With each
    allocation refused in turn it must write what it writes otherwise, but for the count of refusals."""

    source = "refuse.c"

    def test_each_refusal(self):
        program, met = support.built("tests"), 0
        said = (support.TOP / "crates/tests/stdout").read_text(encoding="utf-8")
        retried = re.sub("0 refused\n$", "1 refused\n", said)
        for n in range(1, 2000):
            ended, noticed = self.run_preloaded([program], env={"REFUSE": str(n)})
            if not noticed:
                break
            if met or ended.returncode == 0:
                self.expect(ended, 0, retried, of=f"refusal {n}")
                met += 1
            else:  # (the first ones are of its own room)
                self.expect(ended, 1, of=f"refusal {n}")
        self.expect(ended, 0, said)
        self.assertGreaterEqual(met, 477)
