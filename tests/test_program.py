"""The built program ptree_cli: rows of whole calls, streams that fail, files and variables around it, refusals of memory, and costs."""
import os
import resource
import shutil
import socket
import subprocess
import unittest

from tests import support
from tests.row_files import ROWS, CallRows

USAGE = "usage: ptree_cli [--tty] (words ROOT [CHILD..] | json LABEL | toml LABEL | redraw)\n"
#: Damaged files of rows: what is said of each, and its text.
DAMAGED = [
    ("line 3: no such word", "row a\ncall words r\nstatus 0\n= output\n|r\n"),
    ("not the form of a text", "row a\ncall json j\ninput\n|1 \n= output\n|j\n"),
    ("line 4: the last line has no line feed", "row a\ncall words r\n= output\n|r"),
    ("no rows", ""),
    ("line 3: error", "row a\ncall redraw\n= status 1\n"),
    ("line 3: output", "row a\ncall words r a\n= output\n|r\n\nrow b\ncall words r\n= output\n|r\n"),
    ("line 3: output", "row a\ncall words r\n= output\n|r\\\n"),
    ("line 2: there is no call", "row a\n= output\n|r\n"),
    ("line 1: nothing is asked", "row a\ncall words r\n"),
    ("line 5: no answer of a call, or a second one", "row a\ncall words r\n= output\n|r\n= output\n|r\n"),
    ("line 3: no such word", "row a\ncall words r\ndepth 1\n= output\n|r\n"),
    ("line 3: status", "row a\ncall draw\n= error\n|" + USAGE),
]


def setUpModule():
    global PROGRAM, LAUNCHER
    PROGRAM, LAUNCHER = support.built("ptree_cli"), support.launcher("ptree_cli")


def below(count, turn="├─ ", last="└─ "):
    """The entries of so many children, from 1 on."""
    return "".join(f"{turn if i < count else last}{i}\n" for i in range(1, count + 1))


class Rows(CallRows):
    """Each row of a file passes."""

    def test_words(self):
        self.try_file(PROGRAM, ROWS / "ptree_cli/words.rows")

    def test_documents(self):
        self.try_file(PROGRAM, ROWS / "ptree_cli/documents.rows")

    def test_configuration(self):
        self.try_file(PROGRAM, ROWS / "ptree_cli/configuration.rows")

    def test_redraw(self):
        self.try_file(PROGRAM, ROWS / "ptree_cli/redraw.rows")

    def test_each_damaged_file_fails(self):
        """The rows are tried by code that notices what is wrong, at its line."""
        path = self.folder() / "damaged.rows"
        for said, text in DAMAGED:
            path.write_text(text)
            with self.subTest(text), self.assertRaisesRegex((ValueError, AssertionError), said):
                CallRows("try_file").try_file(PROGRAM, path)


class ConfigurationFiles(support.Case):
    """What can be at the path of the configuration: only regular files are opened, and nothing is waited for."""

    READ, EMPTY, UNREAD = "r\n+------- a\n", "r\n└─────── a\n", "r\n└─ a\n"

    def setUp(self):
        self.at = self.folder()
        self.at.chmod(0o755)
        self.program = shutil.copy(PROGRAM, self.at / "ptree_cli")
        (self.at / "file.toml").write_text('indent = 5\ncharacters = "ascii-plus"\n')

    def draw(self, **variables):
        # (permissions do not bind root)
        other = {"user": 65534, "group": 65534, "extra_groups": []} if os.getuid() == 0 else {}
        variables = {name: str(value) for name, value in variables.items()}
        return support.run([self.program, "words", "r", "a"], only={"HOME": "/none", "PTREE_INDENT": "9", **variables}, timeout=20, **other)

    def expect_file(self, drawn, **variable):
        """What is drawn under a file. Without it PTREE_INDENT counts; a file that cannot be read means the complete default."""
        self.expect(self.draw(), 0, self.EMPTY)
        self.expect(self.draw(**variable), 0, drawn)

    def linked(self, name, target):
        (self.at / name).symlink_to(target)
        return self.at / name

    def test_a_file_and_a_link_to_it_are_read(self):
        self.expect_file(self.READ, PTREE_CONFIG=self.at / "file.toml")
        self.expect_file(self.READ, PTREE_CONFIG=self.linked("link.toml", "file.toml"))

    def test_a_link_to_the_null_device_is_an_empty_file(self):
        self.expect_file(self.EMPTY, PTREE_CONFIG=self.linked("null.toml", "/dev/null"))

    def test_the_null_device_by_its_name_has_no_format(self):
        self.expect_file(self.UNREAD, PTREE_CONFIG="/dev/null")

    def test_what_is_no_regular_file_is_not_read(self):
        (self.at / "folder.toml").mkdir()
        os.mkfifo(self.at / "fifo.toml")
        with socket.socket(socket.AF_UNIX) as bound:
            bound.bind(str(self.at / "socket.toml"))
        for name in ("nothing", "folder", "fifo", "socket"):
            for path in (self.at / f"{name}.toml", self.linked(f"link_to_{name}.toml", f"{name}.toml")):
                with self.subTest(path.stem):
                    self.expect_file(self.UNREAD, PTREE_CONFIG=path)
        for name in ("zero", "full"):
            with self.subTest(name):
                self.expect_file(self.UNREAD, PTREE_CONFIG=self.linked(f"{name}.toml", f"/dev/{name}"))

    def test_a_loop_of_links(self):
        self.expect_file(self.UNREAD, PTREE_CONFIG=self.linked("loop.toml", "loop.toml"))

    def test_a_file_that_is_no_utf8(self):
        (self.at / "bytes.toml").write_bytes(b"indent = 5 # \xff\n")
        self.expect_file(self.UNREAD, PTREE_CONFIG=self.at / "bytes.toml")

    def test_a_file_below_a_file(self):
        self.expect_file(self.UNREAD, PTREE_CONFIG=self.at / "file.toml/x.toml")

    def test_a_file_without_permission(self):
        (self.at / "file.toml").chmod(0)
        self.expect_file(self.UNREAD, PTREE_CONFIG=self.at / "file.toml")

    def test_a_file_in_a_folder_without_permission(self):
        (self.at / "shut").mkdir()
        shutil.move(self.at / "file.toml", self.at / "shut/file.toml")
        (self.at / "shut").chmod(0)
        self.addCleanup((self.at / "shut").chmod, 0o700)
        self.expect_file(self.UNREAD, PTREE_CONFIG=self.at / "shut/file.toml")

    def test_a_home_below_which_nothing_can_be(self):
        for home in (self.at / "file.toml", "/dev/null"):
            self.expect_file(self.UNREAD, HOME=home)

    def test_a_file_that_is_found_counts_like_one_that_is_named(self):
        found = self.at / "xdg/ptree.toml"
        found.mkdir(parents=True)
        self.expect_file(self.UNREAD, XDG_CONFIG_HOME=self.at / "xdg")
        found.rmdir()
        found.write_bytes(b"indent = 5 # \xff\n")
        self.expect_file(self.UNREAD, XDG_CONFIG_HOME=self.at / "xdg")
        shutil.copy(self.at / "file.toml", found)
        self.expect_file(self.READ, XDG_CONFIG_HOME=self.at / "xdg")
        found.chmod(0)
        self.expect_file(self.UNREAD, XDG_CONFIG_HOME=self.at / "xdg")


class Variables(support.Case):
    """Variables that are long, many, or not UTF-8."""

    def draw(self, words, only):
        return support.run([PROGRAM, "words", *words], only={"HOME": "/none", **only})

    def test_no_variable_at_all(self):
        self.expect(support.run([PROGRAM, "words", "r", "a"], only={}), 0, "r\n└─ a\n")

    def test_one_behind_others_that_are_no_utf8(self):
        ended = self.draw(["r", "a"], {b"PTREE_A\xff": b"1", b"PTREE_B": b"\xff", b"PTREE_INDENT": b"9"})
        self.expect(ended, 0, "r\n└─────── a\n")

    def test_one_behind_long_ones(self):
        ended = self.draw(["r", "a"], {"LONG": " " * 5000, "PTREE_CONTINUED": " " * 5000, "PTREE_INDENT": "9"})
        self.expect(ended, 0, "r\n└─────── a\n")

    def test_a_value_of_5000_bytes(self):
        self.expect(self.draw(["r\ns"], {"PTREE_CONTINUED": " " * 5000}), 0, f"r\n{' ' * 5000}s\n")

    def test_a_value_with_signs_of_equality(self):
        self.expect(self.draw(["r\ns"], {"PTREE_CONTINUED": "=x="}), 0, "r\n=x=s\n")

    def test_without_proc_they_are_asked_for_one_by_one(self):
        hide = ["unshare", "-m" if os.getuid() == 0 else "-rm", "sh", "-c", 'mount -t tmpfs none /proc && exec "$@"', "sh"]
        if not shutil.which("unshare") or support.run([*hide, "true"]).returncode:
            self.skipTest("nothing can be mounted over /proc here")
        only = {b"PTREE_A\xff": b"1", b"PTREE_CONTINUED": b" " * 3000, b"PTREE_INDENT": b"9"}
        set_all = ["env", "-i", "HOME=/none", *(name + b"=" + value for name, value in only.items())]
        self.expect(support.run([*hide, *set_all, PROGRAM, "words", "r\ns", "a"]), 0, f"r\n{' ' * 3000}s\n└─────── a\n")

    def test_ten_times_as_many_take_about_ten_times_as_long(self):
        """(if each were looked for from the front, a hundred times; a second more is allowed where new memory is slow)"""

        def seconds(count):
            found = []
            for _ in range(3):
                before = resource.getrusage(resource.RUSAGE_CHILDREN)
                self.expect(self.draw(["r", "a"], {f"E{i}": "x" for i in range(count)} | {"PTREE_INDENT": "9"}), 0, "r\n└─────── a\n")
                after = resource.getrusage(resource.RUSAGE_CHILDREN)
                found.append(after.ru_utime + after.ru_stime - before.ru_utime - before.ru_stime)
            return min(found)

        self.assertLess(seconds(100_000), 25 * seconds(10_000) + 1)


class Edges(support.Case):
    """Streams, words and sizes at the edge of what a call can have."""

    def test_a_folder_as_input(self):
        folder = os.open("/", os.O_RDONLY)
        self.addCleanup(os.close, folder)
        self.expect(support.run([LAUNCHER, "json", "j"], folder), 1, "", "cannot read\n")

    def test_a_document_of_300000_values(self):
        given = "[" + "".join(f"{i},\n" for i in range(1, 300_001)) + "0]\n"
        drawn = "n\n" + "".join(f"├─ {i}\n" for i in range(1, 300_001)) + "└─ 0\n"
        self.expect(support.run([LAUNCHER, "json", "n"], given), 0, drawn)

    def test_a_full_device(self):
        with open("/dev/full", "wb") as full:
            self.expect(support.run([LAUNCHER, "words", "r", "a"], stdout=full), 1, None, "cannot write\n")

    def test_a_silent_pipe_as_input_is_not_waited_for(self):
        ours, theirs = os.pipe()
        self.addCleanup(os.close, theirs)
        with open(ours, "rb") as silent:
            self.expect(support.run([LAUNCHER, "words", "r", "a"], silent, timeout=10), 0, "r\n└─ a\n")

    def test_the_launcher_by_a_symbolic_link(self):
        link = self.folder() / "linked"
        link.symlink_to(LAUNCHER.resolve())
        self.expect(support.run([link, "words", "r"]), 0, "r\n")

    def test_100000_words(self):
        self.expect(support.run([LAUNCHER, "words", "r", *map(str, range(1, 100_001))]), 0, "r\n" + below(100_000))

    def test_words_of_2_mb_in_all(self):
        ended = support.run([PROGRAM, "words", "r", *["x" * 100_000] * 19])
        self.expect(ended, 0, "r\n" + f"├─ {'x' * 100_000}\n" * 18 + f"└─ {'x' * 100_000}\n")

    def test_a_closed_pipe(self):
        ours, theirs = os.pipe()
        os.close(ours)
        with open(theirs, "wb") as closed:
            ended = support.run([LAUNCHER, "words", "r", *map(str, range(100_000))], stdout=closed)
        self.expect(ended, 1, None, "cannot write\n")

    def test_a_terminal(self):
        drawn = support.on_terminal([LAUNCHER, "--tty", "words", "r", "a"])
        self.assertEqual(drawn, "\x1b[2m\x1b[0mr\n\x1b[2m└─ \x1b[0ma\n")

    def test_a_closed_output(self):
        self.expect(closing(1, [PROGRAM, "words", "r", "a"]), 1, "", "cannot write\n")

    def test_a_closed_input(self):
        self.expect(closing(0, [PROGRAM, "json", "j"]), 1, "", "cannot read\n")

    def test_a_closed_input_that_is_not_asked_for(self):
        self.expect(closing(0, [PROGRAM, "words", "r", "a"]), 0, "r\n└─ a\n")

    def test_a_closed_standard_error(self):
        self.expect(closing(2, [PROGRAM, "draw"]), 2, "")

    def test_a_full_standard_error(self):
        with open("/dev/full", "wb") as full:
            self.expect(support.run([PROGRAM, "draw"], stderr=full), 2, "")

    def test_a_limit_of_file_sizes(self):
        out = self.folder() / "out"
        with open(out, "wb") as file:
            limit = lambda: resource.setrlimit(resource.RLIMIT_FSIZE, (8192, 8192))  # noqa: E731
            ended = support.run([LAUNCHER, "words", "r", "x" * 10_000], stdout=file, preexec_fn=limit)
        self.expect(ended, 1, None, "cannot write\n")
        self.assertEqual(out.stat().st_size, 8192)

    def test_a_name_of_the_program_that_is_not_utf8(self):
        link = os.fsencode(self.folder()) + b"/\xff"
        os.symlink(PROGRAM, link)
        self.expect(support.run([link, "words", "r", "a"]), 0, "r\n└─ a\n")

    @unittest.skipIf(resource.getrlimit(resource.RLIMIT_STACK)[1] != resource.RLIM_INFINITY, "a limit of the stack")
    def test_a_drawing_of_25000_levels(self):
        levels = 25_000
        given = "r\n" + "".join(f"{'d' * level}bx\n" for level in range(levels - 1))
        pieces = {"DOWN_AND_RIGHT": "a", "TURN_RIGHT": "b", "DOWN": "c", "EMPTY": "d"}
        env = {"PTREE_INDENT": "1", "PTREE_PADDING": "0", **{f"PTREE_CHARACTERS_{name}": piece for name, piece in pieces.items()}}
        with open(self.folder() / "out", "w+b") as out:
            self.expect(support.run([LAUNCHER, "redraw"], given, env, stdout=out, timeout=300), 0, None)
            self.assertEqual(out.tell(), 2 + (levels - 1) * (levels - 2) * 3 // 2 + (levels - 1) * 5)

    def test_little_address_space(self):
        """A call under a limit draws all, or says that there is no memory, behind a part of the drawing."""
        given, whole = (("r\n" + f"{piece} %d\n" * 100_000 % (*range(100_000),) + f"{last} x\n").encode() for piece, last in (("├─", "└─"), ("+-", "+-")))
        for kib in (3000, 3500, 4000, 5000, 6000, 8000, 10000, 12000, 14000, 16000, 18000, 20000, 24000, 32000, 64000):
            with self.subTest(kib=kib):
                limit = lambda: resource.setrlimit(resource.RLIMIT_AS, (kib * 1024, kib * 1024))  # noqa: B023, E731
                ended = support.run([PROGRAM, "redraw"], given, preexec_fn=limit)
                self.assertIn((ended.returncode, ended.stderr), [(0, b""), (1, b"no memory\n")])
                self.assertEqual(ended.stdout, whole if ended.returncode == 0 else whole[: len(ended.stdout)])
        self.assertEqual(ended.returncode, 0, "64 MB are enough")


def closing(stream, words):
    """A call without one of its streams."""
    return support.run(words, subprocess.DEVNULL, preexec_fn=lambda: os.close(stream))


@unittest.skipUnless(shutil.which("valgrind"), "needs valgrind")
class Costs(support.Case):
    """How many instructions each further unit of a call takes: neither as the square of the size, nor an eighth more than before."""

    def expect_cost(self, make, size, most):
        """`make` returns the words, the input, the variables and the drawing of a size."""
        counts = []
        for one in (size, 2 * size):
            words, given, env, drawn = make(one)
            only = {name: str(value) for name, value in env.items()}
            self.expect(support.run([PROGRAM, *words], given, only=only), 0, drawn)
            counts.append(support.instructions([PROGRAM, *words], given, only))
        each = (counts[1] - counts[0]) // size
        self.assertGreater(each, 0)
        self.assertLessEqual(each, most, "instructions for each further one")

    def redraw(self, given):
        drawn = given.replace("├─", "+-").replace("└─", "+-").replace("│", "|")
        return ["redraw"], given, {}, drawn

    def test_children(self):
        self.expect_cost(lambda n: (["words", "r", *map(str, range(1, n + 1))], "", {}, "r\n" + below(n)), 2000, 1423)

    def test_lines_of_a_label(self):
        def make(n):
            lines = list(map(str, range(n)))
            return ["words", "\n".join(lines)], "", {}, "\n: ".join(lines) + "\n"

        self.expect_cost(make, 4000, 284)

    def test_items_that_are_read(self):
        self.expect_cost(lambda n: self.redraw("r\n" + below(n)), 2000, 878)

    def test_lines_that_are_read(self):
        self.expect_cost(lambda n: self.redraw("\n: ".join(map(str, range(n))) + "\n"), 4000, 407)

    def test_waves_that_are_read(self):
        """Items that each have a chain of seven below them."""

        def make(n):
            chain = [f"{'   ' * level}└─ x\n" for level in range(7)]
            waves = ("├─ x\n" + "".join("│  " + line for line in chain)) * (n - 1) + "└─ x\n" + "".join("   " + line for line in chain)
            return self.redraw("r\n" + waves)

        self.expect_cost(make, 500, 12555)

    def test_bytes_of_a_chain_that_is_read(self):
        """(the size is the number of hundreds of bytes: a chain of twice the levels has four times as many)"""

        def make(n):
            lines, left, level = ["r\n"], n * 100, 0
            while left > 0:
                lines.append(f"{'   ' * level}└─ x\n")
                level += 1
                left -= 3 * level + 8
            return self.redraw("".join(lines))

        self.expect_cost(make, 1000, 396)

    def test_values_of_json(self):
        self.expect_cost(lambda n: (["json", "j"], "[" + ",\n".join(map(str, range(1, n + 1))) + "]", {}, "j\n" + below(n)), 2000, 650)

    def test_keys_of_toml(self):
        def make(n):
            keys = [f"k{i:04} = 1\n" for i in range(n)]
            return ["toml", "t"], "".join(keys), {}, "t\n" + "".join(f"├─ {key}" for key in keys[:-1]) + f"└─ {keys[-1]}"

        self.expect_cost(make, 1000, 6620)

    def expect_cost_of_configuration(self, make, size, most):
        """`make` returns the variables of a size beside PTREE_INDENT, or what a file says."""
        self.expect_cost(lambda n: (["words", "r", "a"], "", make(n), "r\n└─────── a\n"), size, most)

    def test_variables(self):
        self.expect_cost_of_configuration(lambda n: {**{f"E{i}": "x" for i in range(n)}, "PTREE_INDENT": 9}, 5000, 2700)

    def test_own_variables(self):
        self.expect_cost_of_configuration(lambda n: {**{f"PTREE_{i}": "x" for i in range(n)}, "PTREE_INDENT": 9}, 2000, 2700)

    def written(self, name, text):
        path = self.folder() / name
        path.write_text(text)
        return {"PTREE_CONFIG": path}

    def test_keys_of_a_file_in_toml(self):
        self.expect_cost_of_configuration(lambda n: self.written("c.toml", "".join(f"k{i} = 1\n" for i in range(n)) + "indent = 9\n"), 1000, 5580)

    def test_keys_of_a_file_in_json(self):
        self.expect_cost_of_configuration(lambda n: self.written("c.json", "{" + "".join(f'"k{i}": 1,\n' for i in range(n)) + '"indent": 9}'), 2000, 2480)
