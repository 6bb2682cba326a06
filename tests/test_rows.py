"""Files of rows over the library for C, and random rows of what C has no call for."""
import functools
import itertools
import random
import re
import shutil
import subprocess
import tempfile
import unittest

from tests import reference, support
from tests.library import ptree
from tests.library_rows import Sources, Trees
from tests.random_input import SEED, TIMES, document, text
from tests.reference import FLAGS, Look, Refused
from tests.row_files import ROWS, Damaged, lines_form, read_rows, value_form

KINDS = {"trees": Trees, "sources": Sources}
FILES = sorted((ROWS / "library").glob("*/*.rows"))
#: The files whose questions are asked in one run, which takes half a minute.
ASKED_TOGETHER = list(FILES)


class Unasked(Exception):
    """The program has not been asked this yet."""


class Gathered:
    """All that the rows of some files ask the program of trials/rows. They are asked in one run, before the rows are tried."""

    def __init__(self, paths):
        self.calls, self.asked = [], []
        for path in paths:
            for row in read_rows(path):
                self.path, state = path, KINDS[path.parent.name](self)
                for field in row.fields:
                    try:
                        state.take(field.line, field.word, field.body)
                    except (Unasked, Damaged, ptree.PtreeError, MemoryError):
                        pass  # (which is found when the row is tried)

    def call(self, word, text):
        if "\0" in text:
            raise Damaged("the byte 0 in a text of a builder or of a value")
        self.calls.append(f"{word}\0{text}\0")

    def ask(self, line, word, text=""):
        self.call(word, text)
        self.asked.append((self.path, line))
        raise Unasked

    def answers(self):
        """The answers by their files and lines. The program writes each as a length and a text."""
        with tempfile.TemporaryDirectory(prefix="ptree.") as house:
            make = [support.TOP / "tools/apart.py", "make", house, "trials/rows"]
            crate = subprocess.run(make, cwd=support.TOP, check=True, capture_output=True, text=True).stdout.strip()
            ended = subprocess.run(["rt", "try"], cwd=crate, input="".join(self.calls).encode(), capture_output=True)
        if ended.returncode:
            raise RuntimeError(ended.stderr.decode())
        found, rest = [], ended.stdout
        while b" " in rest:
            size, _, rest = rest.partition(b" ")
            found.append(rest[: int(size)].decode())
            rest = rest[int(size) + 1 :]
        return dict(zip(self.asked, found, strict=True))


@functools.cache
def answers_of(paths):
    return Gathered(paths).answers()


class Answered:
    """The program of trials/rows as a row sees it that is tried."""

    def __init__(self, path):
        self.path = path

    def call(self, word, text):
        pass

    def ask(self, line, word, text=""):
        if not shutil.which("rt"):
            raise unittest.SkipTest("needs rt")
        return answers_of(tuple(ASKED_TOGETHER) if self.path in ASKED_TOGETHER else (self.path,))[self.path, line]


class LibraryRows(support.Case):
    def try_file(self, path):
        for row in read_rows(path):
            with self.subTest(row=row.name, line=row.line):
                state = KINDS[path.parent.name](Answered(path))
                for field in row.fields:
                    if field.word != "original":
                        found = state.take(field.line, field.word, field.body)
                        self.assertEqual(found, field.body if field.is_answer else None, f"line {field.line}: {field.word}")


class Rows(LibraryRows):
    """Each row of a file passes."""

    def test_building(self):
        self.try_file(ROWS / "library/trees/building.rows")

    def test_drawing(self):
        self.try_file(ROWS / "library/trees/drawing.rows")

    def test_graphs(self):
        self.try_file(ROWS / "library/trees/graphs.rows")

    def test_painting(self):
        self.try_file(ROWS / "library/trees/painting.rows")

    def test_pieces(self):
        self.try_file(ROWS / "library/trees/pieces.rows")

    def test_programs(self):
        self.try_file(ROWS / "library/trees/programs.rows")

    def test_reading(self):
        self.try_file(ROWS / "library/trees/reading.rows")

    def test_documents(self):
        self.try_file(ROWS / "library/sources/documents.rows")

    def test_sources(self):
        self.try_file(ROWS / "library/sources/sources.rows")


#: Damaged files: what is said of each, and its text.
DAMAGED = {
    "sources": [
        ("an edge of a node that isn't there", "row a\nnode x\nedges 0>1\n= graph_elsewhere\n|x\n"),
        ("line 4: loaded", "row a\nvariable PTREE_DEPTH=1\nvariable PTREE_INDENT=4\n= loaded\n|depth 1\n"),
        ("there is no tree", "row a\n= written\n|r\n"),
        ("no such word", "row a\nsource x\n= loaded\n"),
        ("a variable without its =", "row a\nvariable PTREE_DEPTH\n= loaded\n"),
        ("line 5: syntax_line", "row a\njson_file\n|{\n|x\n= syntax_line 1\n"),
    ],
    "trees": [
        ("line 4: drawn", "row a\ntree\n|r\ndrawn\n|r\n= items 1\n"),
        ("line 5: drawn", "row a\ntree\n|r\n|  a\\s\n= drawn\n|r\n|└─ a \n"),
        ("not the form of a text", "row a\ntree\n|r \n= drawn\n|r\n"),
        ("no such word", "row a\r\ntree\r\n|r\r\n= drawn\r\n|r\r\n"),
        ("no rows", "# nothing but a comment\n"),
        ("no rows", ""),
        ("line 5: the last line has no line feed", "row a\ntree\n|r\n= drawn\n|r"),
        ("line 4: depth", "row a\ntree\n|r\n= depth 3\n"),
        ("not the form of a text", "row a\nword \\u{1b}\n= painted \\e\n"),
        ("line 1: a field before the first row", "tree\n|r\n"),
        ("an item without a text", "row a\ntree\n|r\n|  \n= drawn\n|r\n"),
        ("no item can follow at that level", "row a\ntree\n|r\n|    a\n= drawn\n|r\n"),
        ("line 3: a line below a word that has a value", "row a\ndepth 1\n|x\n= pieces\n"),
        ("line 6: drawn", "row a\ntree\n|r\n|  a\n|  b\n= drawn\n|r\n|├─ a\n"),
        ("no number of a node", "row a\nstart x\n= neighbors\n"),
        ("no number of this setting", "row a\ndepth x\ntree\n|r\n= drawn\n|r\n"),
        ("invalid start byte", "row a\nword \udcff\n= painted \n"),
        ("line 1: nothing is asked", "row a\ntree\n|r\n"),
        ("an odd number of blanks", "row a\ntree\n|r\n|   a\n= drawn\n|r\n"),
        ("not the form of a text", "row a\nword \x1b[0m\n= painted \\e[0m\n"),
        ("line 6: a second row of this name", "row a\ntree\n|r\n= drawn\n|r\nrow a\ntree\n|r\n= drawn\n|r\n"),
        ("line 11: drawn", "row a\ntree\n|r\n= drawn\n|r\n\nrow b\ntree\n|r\n|  a\n= drawn\n|r\n|└─ b\n= items 3\n"),
        ("no such word", "row a\ntree\n|r\n= drawm\n|r\n"),
    ],
}


class Files(support.Case):
    """The files of rows themselves."""

    def test_each_damaged_file_is_noticed(self):
        for kind, files in DAMAGED.items():
            path = self.folder() / kind / "damaged.rows"
            path.parent.mkdir()
            for said, text in files:
                path.write_bytes(text.encode(errors="surrogateescape"))
                with self.subTest(text), self.assertRaisesRegex((ValueError, AssertionError), said):
                    LibraryRows().try_file(path)

    def test_each_file_is_tried(self):
        """The tests of rows name all files, so that none is lost."""
        for folder, module in (("library/trees", "test_rows"), ("library/sources", "test_rows"), ("ptree_cli", "test_program"), ("trees", "test_trees")):
            text = (support.TESTS / f"{module}.py").read_text(encoding="utf-8")
            named = re.findall(f'ROWS / "{folder}/(\\w+)\\.rows"', text)
            self.assertEqual(sorted(named), sorted(path.stem for path in (ROWS / folder).glob("*.rows")))

    def test_the_tests_of_the_original_crate_have_rows(self):
        listed = (ROWS / "original_tests.txt").read_text(encoding="utf-8").splitlines()
        wanted = {line for line in listed if not line.startswith("#") and " no: " not in line}
        named = {line[9:] for path in FILES for line in path.read_text(encoding="utf-8").splitlines() if line.startswith("original ")}
        self.assertEqual(wanted, named)


# Rows of what the library for C has no call for


def plain_text(dice):
    """A text without the byte 0, which ends the parts that the program of trials/rows reads."""
    return text(dice).replace("\0", "")


def outline(tree, level=0):
    return [f"|{'  ' * level}{value_form(tree[0]) or chr(92)}", *(line for child in tree[1] for line in outline(child, level + 1))]


def builder_lines(dice):
    """Calls of a builder, with levels that cannot follow among them, and what comes of them."""
    root = [plain_text(dice), []]
    path, lines = [root], [f"root {value_form(root[0])}"]
    for _ in range(dice.randrange(12)):
        word, label = dice.choice(["begin", "leaf", "at", "at", "end"]), plain_text(dice)
        if word == "end" and len(path) == 1 or word == "leaf" and label == "plain":
            continue
        item, at = [label, []], len(path)
        if word == "at":
            at = dice.choice([0, *range(1, len(path) + 1), len(path) + 1, 2**32 - 1])
            lines += [f"at {at} {value_form(label)}", "= outcome " + ("taken" if 0 < at <= len(path) else "refused")]
        else:
            lines.append(word if word == "end" else f"{word} {value_form(label)}")
        if word == "end":
            path.pop()
        elif 0 < at <= len(path):
            path[at - 1][1].append(item)
            path[at:] = [item] if word != "leaf" else []
        lines.append(f"= level {len(path) - 1}")
        if dice.random() < 0.2:
            lines += ["= built", *outline(root)]
    return [*lines, "= built", *outline(root)]


def graph_lines(dice):
    """Calls of a graph, which is turned round at times and grows on, and neighbours of its nodes."""
    nodes, edges, lines = [plain_text(dice) for _ in range(dice.randint(1, 6))], [], []
    lines += [f"node {value_form(node)}".rstrip(" ") for node in nodes]
    for _ in range(dice.randint(1, 3)):
        more = [(dice.randrange(len(nodes)), dice.randrange(len(nodes))) for _ in range(dice.randrange(8))]
        edges += more
        lines.append("edges " + " ".join(f"{source}>{target}" for source, target in more))
        if dice.random() < 0.5:
            edges = [(target, source) for source, target in edges]
            lines.append("reversed")
    for start in range(len(nodes) + 1):
        below = [str(target) for source, target in reversed(edges) if source == start]
        lines += [f"start {start}", " ".join(["= neighbors", *below])]
    return lines


def value_lines(dice):
    """A document's value, alone and under a label."""
    format, label, given = dice.choice(("json", "toml")), plain_text(dice), reference.default()
    given |= {"indent": dice.randrange(6), "styled": dice.choice(reference.STYLED)}
    given["leaf"] |= {flag: dice.random() < 0.2 for flag in FLAGS}
    source = document(dice, format).replace("\0", "")
    lines = [f"indent {given['indent']}", f"styled {given['styled']}", f"label {value_form(label)}"]
    lines += [f"leaf.{flag} true" for flag in FLAGS if given["leaf"][flag]]
    lines += [format, *("|" + line for line in lines_form(source).split("\n")[:-1])]
    for word, under in (("value", ""), ("labelled_value", label)):
        try:
            drawing = reference.draw(reference.document_tree(format, source, under), Look(given))
            lines += [f"= {word}", *("|" + line for line in lines_form(drawing).split("\n")[:-1])]
        except Refused as refused:
            lines.append(f"= {word} {refused}")
    return lines


def large_lines(size):
    """Calls of a builder and of a graph of a size, and lines that can follow a text."""
    chain = ["x", []]
    for _ in range(size):
        chain = ["x", [chain]]
    leaves = ["x", [["x", []]] * size]
    return [
        ["root x", *["leaf x"] * size, "= level 0", "= built", *outline(leaves)],
        ["root x", *["at 1 x"] * size, f"= level {min(size, 1)}", "= built", *outline(leaves)],
        ["root x", *["begin x"] * size, f"= level {size}", "= built", *outline(chain)],
        [*["node x"] * (size + 1), "edges " + " ".join(f"0>{i}" for i in range(1, size + 1)), " ".join(["= neighbors", *map(str, range(size, 0, -1))])],
        ["text", "|x", *["|├─ x"] * size, "next", *["|├─ x"] * size, "|x", f"= follow {'yes ' * size}no"],
    ]


class RandomRows(LibraryRows):
    """Rows of calls of builders and graphs, and of values of documents, which the library for C has not."""

    @classmethod
    def setUpClass(cls):
        folder = cls.enterClassContext(support.new_folder())
        cls.paths = [folder / kind / "random.rows" for kind in ("trees", "sources")]
        for path, makers in zip(cls.paths, ([builder_lines, graph_lines], [value_lines])):
            rows = [makers[case % len(makers)](random.Random(f"{SEED} {case}")) for case in range(200 * TIMES)]
            if path is cls.paths[0]:
                rows += itertools.chain(*map(large_lines, (0, 1, 40, 300)))
            path.parent.mkdir()
            lines = (line for case, row in enumerate(rows) for line in [f"row {case}", *row, ""])
            path.write_text("".join(line + "\n" for line in lines), encoding="utf-8", newline="")
        ASKED_TOGETHER.extend(cls.paths)

    def test_builders_and_graphs(self):
        self.try_file(self.paths[0])

    def test_values(self):
        self.try_file(self.paths[1])
