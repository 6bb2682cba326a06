"""The built program trees: rows of whole calls, what the pages show, streams, a terminal, refusals of memory, and inputs of several sizes."""
import os
import re
import resource
import shutil
import subprocess

from tests import reference, support
from tests.row_files import ROWS, CallRows

DOCUMENTS = support.TESTS / "documents"
VERSION = "trees 0.5.2\n"
#: Pieces of one byte.
NARROW = {"PTREE_INDENT": "1", "PTREE_PADDING": "0"} | {
    f"PTREE_CHARACTERS_{name}": piece for name, piece in {"DOWN_AND_RIGHT": "a", "TURN_RIGHT": "b", "DOWN": "c", "EMPTY": "d"}.items()
}
DOCUMENT, DRAWN = '{"a": [1, 2]}', "r\n└─ a\n   ├─ 1\n   └─ 2\n"


def setUpModule():
    global PROGRAM, LAUNCHER
    PROGRAM, LAUNCHER = support.built("trees"), support.launcher("trees")


def limited(kind, most):
    """What sets a limit in a program that is started."""
    return lambda: resource.setrlimit(kind, (most, most))


def written(folder, name, text):
    """The path of a new file."""
    path = folder / name
    path.write_bytes(text if isinstance(text, bytes) else text.encode())
    return path


def below(root, children):
    """The drawing of a root and of children of one line each."""
    children = list(children)
    return f"{root}\n" + "".join(f"├─ {child}\n" for child in children[:-1]) + "".join(f"└─ {child}\n" for child in children[-1:])


class Rows(CallRows):
    """Each row of a file passes."""

    def test_config(self):
        self.try_file(PROGRAM, ROWS / "trees/config.rows")

    def test_deps(self):
        self.try_file(PROGRAM, ROWS / "trees/deps.rows")

    def test_documents(self):
        self.try_file(PROGRAM, ROWS / "trees/documents.rows")

    def test_drawings(self):
        self.try_file(PROGRAM, ROWS / "trees/drawings.rows")

    def test_paths(self):
        self.try_file(PROGRAM, ROWS / "trees/paths.rows")

    def test_words(self):
        self.try_file(PROGRAM, ROWS / "trees/words.rows")


class Pages(support.Case):
    """The commands of the pages write what stands below them."""

    def shell(self, command, folder, **env):
        """What a command writes. Its files in /tmp are the test's own."""
        command = command.replace("/tmp/", f"{folder}/").replace("bin/trees", str(LAUNCHER))
        return support.run(["sh", "-c", command], env=env, cwd=support.TOP, stderr=subprocess.STDOUT).stdout.decode()

    def test_the_section_of_the_program(self):
        page, folder = support.section("docs/CLI.md", "The program `trees`"), self.folder()
        commands, shown = support.blocks(page, "sh"), support.blocks(page, "text")
        self.assertGreater(len(commands), 10)
        self.assertGreaterEqual(len(shown), len(commands))
        for command, drawing in zip(commands, shown):
            with self.subTest(command.rstrip("\n")):
                self.assertEqual(self.shell(command, folder), drawing)

    def test_the_readme_s_three_calls(self):
        """`git` is replaced by a program that prints the names of files."""
        readme, home = (support.TOP / "README.md").read_text(encoding="utf-8"), self.folder()
        (home / "app").mkdir()
        shutil.copy(DOCUMENTS / "npm-shrinkwrap.json", home / "app/package-lock.json")
        shutil.copy(DOCUMENTS / "urllib3.toml", home / "app/pyproject.toml")
        written(home, "git", '#!/bin/sh\nprintf "README.md\\0src/lib.rs\\0src/main.rs\\0"\n').chmod(0o755)
        toml = reference.document_tree("toml", (DOCUMENTS / "urllib3.toml").read_text(encoding="utf-8"), "pyproject.toml")
        drawn = [support.blocks(readme, "text")[1], ".\n├─ README.md\n└─ src\n   ├─ lib.rs\n   └─ main.rs\n", reference.draw(toml, reference.Look(reference.default()))]
        for line, drawing in zip(support.blocks(readme, "sh")[1].split("\n"), drawn):
            with self.subTest(line):
                command = line.partition(" #")[0]
                self.assertEqual(self.shell(command, home, HOME=str(home), PATH=f"{home}:{os.environ['PATH']}"), drawing)


class Streams(support.Case):
    """Streams that are closed, full or of another kind."""

    def setUp(self):
        self.at = self.folder()
        self.given = written(self.at, "x.json", DOCUMENT)

    def many(self):
        return written(self.at, "many.json", "[" + "".join(f"{i},\n" for i in range(1, 100_001)) + "0]\n")

    def test_a_file_by_the_launcher(self):
        self.expect(support.run([LAUNCHER, self.given]), 0, DRAWN.replace("r", "x.json", 1))

    def test_a_pipe_that_is_closed_early_ends_it_without_a_word(self):
        env = {"PATH": os.environ["PATH"], "HOME": "/none"}
        with subprocess.Popen([LAUNCHER, self.many()], stdin=subprocess.DEVNULL, stdout=subprocess.PIPE, stderr=subprocess.PIPE, env=env) as running:
            self.assertEqual(running.stdout.readline() + running.stdout.readline(), "many.json\n├─ 1\n".encode())
            running.stdout.close()
            self.assertEqual(running.stderr.read(), b"")
        self.assertEqual(running.returncode % 256, 256 - 13 if running.returncode < 0 else 141)

    def test_a_full_device(self):
        with open("/dev/full", "wb") as full:
            self.expect(support.run([LAUNCHER, self.given], stdout=full), 1, None, "trees: cannot write\n")
            self.expect(support.run([LAUNCHER, "--help"], stdout=full), 1, None, "trees: cannot write\n")

    def test_a_full_standard_error(self):
        with open("/dev/full", "wb") as full:
            self.expect(support.run([LAUNCHER, "jsom"], stderr=full), 2, "")

    def closing(self, stream, words):
        return support.run(words, subprocess.DEVNULL, preexec_fn=lambda: os.close(stream))

    def test_a_closed_output(self):
        self.expect(self.closing(1, [LAUNCHER, self.given]), 1, "", "trees: cannot write\n")

    def test_a_closed_input(self):
        self.expect(self.closing(0, [LAUNCHER, "json"]), 1, "", "trees: standard input: Bad file descriptor (os error 9)\n")

    def test_a_folder_as_input(self):
        folder = os.open("/", os.O_RDONLY)
        self.addCleanup(os.close, folder)
        self.expect(support.run([LAUNCHER, "json"], folder), 1, "", "trees: standard input: Is a directory (os error 21)\n")

    def test_the_launcher_by_a_symbolic_link(self):
        (self.at / "linked").symlink_to(LAUNCHER.resolve())
        self.expect(support.run([self.at / "linked", "--version"]), 0, VERSION)

    def test_a_limit_of_file_sizes(self):
        out = self.at / "out"
        with open(out, "wb") as file:
            ended = support.run([LAUNCHER, self.many()], stdout=file, preexec_fn=limited(resource.RLIMIT_FSIZE, 8192))
        self.expect(ended, 1, None, "trees: cannot write\n")
        self.assertEqual(out.stat().st_size, 8192)

    def test_a_name_of_the_program_that_is_not_utf8(self):
        link = os.fsencode(self.at) + b"/\xff"
        os.symlink(PROGRAM, link)
        self.expect(support.run([link, "--version"]), 0, VERSION)

    def test_a_word_that_is_not_utf8(self):
        self.expect(support.run([PROGRAM, "json", b"\xff"]), 2, "", "trees: an argument is not UTF-8\n")


class EndlessSettings(support.Case):
    """A call that needs no settings does not read them: their file never ends."""

    def expect_without_settings(self, words, status=0, output="", error=""):
        # (the system says of each page where it is: 256 GB)
        endless = self.folder() / "endless.toml"
        endless.symlink_to("/proc/self/pagemap")
        limit = limited(resource.RLIMIT_AS, 500_000 * 1024)
        ended = support.run([PROGRAM, *words], env={"PTREE_CONFIG": str(endless)}, timeout=20, preexec_fn=limit)
        self.expect(ended, status, output, error)

    def test_version(self):
        self.expect_without_settings(["--version"], 0, VERSION)

    def test_help(self):
        self.expect_without_settings(["--help"], 0, support.blocks((support.TOP / "docs/CLI.md").read_text(encoding="utf-8"), "text")[0])

    def test_wrong_words(self):
        for words, said in (
            (["check", "--depth"], "check has no option --depth; see trees check --help"),
            (["json", "--depth", "x"], "--depth needs a number up to 4294967295, not x"),
            (["convert", "--to", "asci"], "unknown pieces asci; did you mean ascii?"),
            (["indented", "--unit", "100"], "--unit needs a number from 1 to 99, or tab"),
            (["indented", "--bullet", " -"], "--bullet needs one line that begins with no space or tab"),
            (["outline", "--bullet", " -"], "--bullet needs one line that begins with no space or tab"),
            (["outline", "--label", " r"], "--label needs one line that begins with no space or tab"),
            (["diff", "--color", "red", "/dev/null", "/dev/null"], "--color needs auto, always or never, not red"),
        ):
            with self.subTest(words=words):
                self.expect_without_settings(words, 2, "", f"trees: {said}\n")


class Levels(support.Case):
    """Inputs of 5000 levels, which are drawn on a stack of 8 MB, and of one more, which are refused."""

    def setUp(self):
        self.at = self.folder()

    def make_chains(self, levels):
        """A chain of so many levels below the root in each form. The drawings `drawing` and `other` end otherwise."""
        drawing = "r\n" + "".join(f"{'d' * level}bx\n" for level in range(levels))
        written(self.at, "path", "/".join(map(str, range(1, levels + 1))) + "\n")
        written(self.at, "pairs", "".join(f"{i} {i + 1}\n" for i in range(levels)))
        written(self.at, "outline", "".join(f"{' ' * level}a\n" for level in range(levels + 1)))
        written(self.at, "drawing", drawing)
        written(self.at, "other", drawing[:-2] + "y\n")

    def call(self, *words):
        return support.run([PROGRAM, *words], env=NARROW, cwd=self.at, preexec_fn=limited(resource.RLIMIT_STACK, 8 << 20))

    def expect_lines(self, lines, *words, status=0):
        with self.subTest(words=words):
            ended = self.call(*words)
            self.assertEqual((ended.returncode, ended.stdout.count(b"\n"), ended.stderr), (status, lines, b""))

    def expect_refused(self, said, *words):
        with self.subTest(words=words):
            self.expect(self.call(*words), 1, "", f"trees: {said}\n")

    def test_5000_levels_are_drawn(self):
        self.make_chains(5000)
        self.expect_lines(5001, "paths", "path")
        self.expect_lines(5001, "paths", "--sort", "--keep", "5000", "path")
        self.expect_lines(5001, "deps", "pairs")
        self.expect_lines(5001, "deps", "--walks", "pairs")
        self.expect_lines(5001, "outline", "outline")
        self.expect_lines(5001, "indented", "--unit", "1", "drawing")
        self.expect_lines(5001, "convert", "--sort", "drawing")
        self.expect_lines(5002, "diff", "--all", "drawing", "other", status=1)
        self.expect(self.call("check", "drawing"), 0, "drawing: a drawing of 5001 items\n")

    def test_5001_levels_are_refused_even_where_few_are_drawn(self):
        self.make_chains(5001)
        for depth in ("4294967295", "2"):
            self.expect_refused("path:1: more than 5,000 levels", "paths", "--depth", depth, "path")
            self.expect_refused("outline:5002: more than 5,000 levels", "outline", "--depth", depth, "outline")
            self.expect_refused("drawing:5002: more than 5,000 levels", "convert", "--depth", depth, "drawing")
        self.expect_refused("drawing:5002: more than 5,000 levels", "diff", "--all", "drawing", "other")
        self.expect_refused("outline:5001: more than 5,000 levels", "outline", "--label", "r", "outline")
        self.expect_refused("drawing:5002: more than 5,000 levels", "indented", "drawing")
        self.expect(self.call("check", "drawing"), 1, "drawing:5002: more than 5,000 levels\n")

    def test_a_wrong_line_before_that_is_told(self):
        self.make_chains(5001)
        lines = (self.at / "outline").read_text().splitlines(keepends=True)
        written(self.at, "other", "".join([*lines[:2], " " + lines[2], *lines[3:]]))
        self.expect_refused("other:3: the indent matches no level", "outline", "other")
        self.expect_refused("other:3: the indent matches no level", "outline", "--label", "r", "other")

    def test_dependencies_of_5001_levels_need_a_depth(self):
        self.make_chains(5001)
        for words in (["deps", "pairs"], ["deps", "--walks", "pairs"]):
            self.expect_refused("pairs: more than 5,000 levels; use --depth 5000 or less", *words)
        self.expect_lines(3, "deps", "--depth", "2", "pairs")
        self.expect_lines(5001, "deps", "--walks", "--depth", "5000", "pairs")

    def test_a_cycle_through_each_of_100000_nodes(self):
        written(self.at, "pairs", "".join(f"0 {i}\n{i} 0\n" for i in range(1, 100_001)))
        self.expect_lines(200_001, "deps", "pairs")
        self.expect_refused("pairs: more than 5,000 levels; use --depth 5000 or less", "deps", "--walks", "pairs")


class Terminal(support.Case):
    """A terminal gets colours, unless NO_COLOR is set, and no text's codes."""

    PLAIN = "y.json\n├─ \\u001b[31m\\u202ex\n├─ C:\\\\d\n└─ a\\nb\n"
    COLORED = "\x1b[2m\x1b[0m" + re.sub("([├└]─ )", "\x1b[2m\\1\x1b[0m", PLAIN)

    def setUp(self):
        self.at = self.folder()
        self.given = written(self.at, "y.json", '["\\u001b[31m\\u202ex", "C:\\\\d", "a\\nb"]')

    def shown(self, *words, **env):
        return support.on_terminal([LAUNCHER, *words], env)

    def test_colours(self):
        self.assertEqual(self.shown(self.given), self.COLORED)

    def test_no_colours_under_no_color(self):
        self.assertEqual(self.shown(self.given, NO_COLOR="1"), self.PLAIN)

    def test_colours_under_an_empty_no_color(self):
        self.assertEqual(self.shown(self.given, NO_COLOR=""), self.COLORED)

    def test_own_pieces_are_escaped(self):
        env = {"NO_COLOR": "1", "PTREE_CHARACTERS_DOWN_AND_RIGHT": "\\", "PTREE_CHARACTERS_TURN_RIGHT": "\u202e"}
        self.assertEqual(self.shown(self.given, **env), self.PLAIN.replace("├", "\\").replace("└", "\\u202e"))

    def test_dependencies_are_escaped(self):
        lock = written(self.at, "deps.json", '{"lockfileVersion": 3, "packages": {"node_modules/\\u001b[31mx": {"version": "1.0.0"}, "node_modules/\\u202ey": {}}}')
        self.assertEqual(self.shown("deps", lock, NO_COLOR="1"), "deps.json\n├─ \\u001b[31mx@1.0.0\n└─ \\u202ey\n")

    def test_a_drawing_is_read(self):
        path = written(self.at, "r.txt", "r\n└─ a\n")
        self.assertEqual(self.shown("check", path), f"{path}: a drawing of 2 items\n")

    def test_a_long_text_and_many_items(self):
        text = "x" * 3000
        given = written(self.at, "many.json", f'["{text}\\u001b"' + "".join(f', "{i}"' for i in range(1, 3001)) + "]")
        drawn = f"many.json\n├─ {text}\\u001b\n" + "".join(f"├─ {i}\n" for i in range(1, 3000)) + "└─ 3000\n"
        self.assertEqual(self.shown(given, NO_COLOR="1"), drawn)


class Escaped(support.Case):
    """No name, word or text gets codes onto a terminal, on standard output or standard error."""

    ODD, CODED, SHOWN = "\x1b]0;t\a\r\x9b", "\\u001b]0;t\\u0007\\r\\u009b", "\\u001b]0;t\\u0007\\r\\u009b"

    def setUp(self):
        self.at = self.folder()
        self.given, self.named = self.at / "given", self.at / self.ODD

    def expect_escaped(self, *words, without=None, **env):
        """A call on a terminal, without one of its streams, shows ODD escaped, and nothing that the terminal would act on but styles."""
        with self.subTest(words=words, env=env):
            streams = {without: subprocess.DEVNULL} if without else {}
            said = re.sub("\x1b\\[[0-9;]*m", "", support.on_terminal([PROGRAM, *words], env, **streams))
            self.assertNotRegex(said, "[\x00-\x09\x0b-\x1f\x7f-\x9f]")
            self.assertIn(self.SHOWN, said)

    def test_wrong_words(self):
        self.given.write_text("r x\n")
        self.expect_escaped(self.ODD)
        self.expect_escaped("json", f"--{self.ODD}")
        for word in ("--depth", "--color", "--as"):
            self.expect_escaped("json", word, self.ODD, self.given)
        self.expect_escaped("convert", "--to", self.ODD, self.given)
        self.expect_escaped("deps", "--root", self.ODD, self.given, without="stdout")

    def test_settings(self):
        self.expect_escaped("config", PTREE_CONFIG=self.ODD)
        self.expect_escaped("config", PTREE_DEPTH=self.ODD, without="stderr")
        self.expect_escaped("config", **{f"PTREE_{self.ODD}": "1"})
        self.expect_escaped("config", PTREE_CHARACTERS_DOWN=self.ODD)

    def test_names_of_files(self):
        for word in ("json", "toml", "deps", "paths", "outline", "indented", "check", "convert"):
            self.named.unlink(missing_ok=True)
            self.expect_escaped(word, self.named)
            self.named.write_bytes(b"\xff")
            self.expect_escaped(word, self.named)
            self.named.write_text(f"a\n\0b {self.ODD}\nc\n", newline="")
            self.expect_escaped(word, self.named)

    def test_documents(self):
        self.named.write_text(f'{{"{self.CODED}": {{"a": 1.5}}}}')
        self.expect_escaped("json", "--label", "r", self.named)
        self.expect_escaped("json", "--label", self.ODD, self.named)
        self.expect_escaped("json", "--strict", self.named, without="stdout")
        self.expect_escaped("json", "--at", f"{self.ODD}.b", self.named)
        self.expect_escaped("deps", self.named)
        packages = f'{{"": {{"dependencies": {{"{self.CODED}": "1"}}}}, "node_modules/{self.CODED}": {{}}}}'
        self.given.write_text(f'{{"lockfileVersion": 3, "packages": {packages}}}')
        self.expect_escaped("deps", self.given)
        self.named.write_text(f'"{self.CODED}" = 1\n"{self.CODED}" = 2\n')
        self.expect_escaped("toml", self.named)

    def test_lines_and_drawings(self):
        self.given.write_text(f"r\n└─ a{self.ODD}\n", newline="")
        self.named.write_text("r\n└─ a\n")
        self.expect_escaped("paths", self.given)
        self.expect_escaped("paths", "--label", self.ODD, self.given)
        self.expect_escaped("paths", "--keep", self.ODD, self.named)
        self.expect_escaped("indented", self.given)
        self.expect_escaped("indented", "--bullet", self.ODD, self.named, without="stderr")
        self.expect_escaped("check", self.named, without="stderr")
        self.expect_escaped("convert", self.given)
        self.expect_escaped("convert", "--keep", self.ODD, self.named)
        self.expect_escaped("diff", self.named, self.given)
        self.expect_escaped("diff", "--all", self.named, self.given)
        self.given.write_text(f"r\n- {self.ODD}\n", newline="")
        self.expect_escaped("check", self.given)
        self.expect_escaped("convert", self.given, without="stdout")
        self.expect_escaped("outline", "--label", self.ODD, self.given)

    def test_pieces_of_the_settings(self):
        """They are also those of a drawing that is read."""
        self.given.write_text("r\n  a\n    b\n  c\n")
        for piece in ("DOWN_AND_RIGHT", "DOWN", "TURN_RIGHT", "RIGHT", "EMPTY"):
            env = {f"PTREE_CHARACTERS_{piece}": self.ODD}
            self.expect_escaped("outline", self.given, **env)
            self.expect_escaped("outline", "--color", "always", self.given, **env)
            pieces = written(self.at, "pieces", support.run([PROGRAM, "paths"], "a/b/c\na/d\ne\n", env).stdout)
            others = written(self.at, "others", support.run([PROGRAM, "paths"], "a/b/c\na/d\nf\n", env).stdout)
            self.expect_escaped("convert", pieces, **env)
            self.expect_escaped("diff", "--all", pieces, others, **env)
            self.expect_escaped("deps", written(self.at, "pieces", "a b\nb c\na d\n"), **env)
        self.named.write_text("s\n")
        self.expect_escaped("diff", "--all", written(self.at, "given", "r\n"), self.named, PTREE_CONTINUED=self.ODD)
