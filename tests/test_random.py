"""Random cases beside the second implementation, reference.py: drawings, texts that are read, graphs, documents and sources by the library for
C, and calls of ptree_cli and of trees.

SEED and CASES are variables: another seed, and how many times as many cases.
"""
import itertools
import os
import random
import re
import unittest

from tests import library as calls
from tests import lock_calls, reference, support, trees_calls
from tests.library import c, ptree
from tests.random_input import SEED, TIMES, configuration, damaged, document, exchanged, fields, made, nested, text, tree
from tests.reference import FIELDS, Look, Refused
from tests.row_files import ROWS

# What a variable and a key of a file may say, and what those say that a kind of field accepts.
WORDS = ["0", "3", "007", "0007", "256", "18446744073709551616", "-1", "+1", "x", "", "true", "OFF", "always", "UTF", "\n", "é"]
KEY_VALUES = ["0", "-1", "256", "true", '"x"', '""', '"tty"', '"utf"', "[1, 2]", "[1, 2, 256]", "[1, 2, 3]", "{}", "1.5"]
GOOD_WORDS = {
    "a text": ["~", "", "ab", "é"],
    "true or false": ["1", "TRUE", "on", "Yes", "0", "false", "oFF", "no"],
    "a colour": ["255", "Red", "#123456", "Navy", "1000", "", "É"],
    "never, always or tty": ["never", "ALWAYS", "tty"],
    "a set of characters": ["utf", "Ascii", "ascii-tick", "ascii-plus", "UTF-bold", "utf-dashed", "utf-double"],
    "a whole number up to 4294967295": ["0", "1", "4", "007", "4294967295"],
    "a whole number up to 18446744073709551615": ["0", "1", "2", "4", "007"],
}
GOOD_KEY_VALUES = {
    "a text": ['"~"', '""', '"ab"'],
    "true or false": ["true", "false"],
    "a colour": ["255", '"Red"', '"red"', "[1, 2, 3]"],
    "never, always or tty": ['"never"', '"always"', '"tty"'],
    "a set of characters": ['"utf-bold"', '"ascii"'],
    "a whole number up to 4294967295": ["0", "1", "4", "4294967295"],
    "a whole number up to 18446744073709551615": ["0", "1", "2", "4"],
}
USAGE = "usage: ptree_cli [--tty] (words ROOT [CHILD..] | json LABEL | toml LABEL | redraw)\n"


def full_file(language):
    """The file with every key, as a row has it."""
    rows = (ROWS / "library/sources/sources.rows").read_text(encoding="utf-8")
    lines = re.search(f"^row every key in {language.upper()}\n{language}_file\n((?:\\|.*\n)+)", rows, re.M)[1]
    return re.sub("^\\|", "", lines, flags=re.M)


FULL = {language: full_file(language) for language in ("toml", "json")}


def expect(found, wanted, of, **given):
    if found != wanted:
        said = "".join(f"\n  {name} {value!r}" for name, value in {"found": found, "wanted": wanted, **given}.items())
        raise AssertionError(f"{of} differs:{said}")


# The library


def read_by_library(text, config):
    """What the library reads of a text: a tree, the first wrong line, or 0."""
    try:
        return nested(ptree.read(text, config))
    except ptree.ReadError as error:
        return error.line or 0


def try_tree(dice, counts):
    """Drawings, whole and in parts, and what is read of them and of what is nearly one."""
    dealt, given, is_terminal = tree(dice, 13), fields(dice), dice.random() < 0.5
    config, look = configuration(given), Look(given)
    styled = "always" if calls.is_styled(config, True, is_terminal) else "never"
    shown = calls.changed(config, styled=styled)
    wanted = reference.draw(dealt, Look(given, is_terminal))
    expect(ptree.draw(made(dealt), shown), wanted, "a drawing", tree=dealt, config=given, is_terminal=is_terminal)
    expect(calls.draw(made(dealt), shown), wanted, "a drawing of all items", tree=dealt, config=given, is_terminal=is_terminal)
    parts = ptree.draw_parts(made(dealt), shown, items=dice.randint(1, 5))
    expect("".join(parts), wanted, "a drawing in parts", tree=dealt, config=given)
    counts["drawings"] += 1
    expect(calls.is_readable(config), look.is_readable(), "whether pieces are readable", config=given)
    if not look.is_readable():
        return
    drawing, whole = reference.draw(dealt, look), reference.draw(dealt, Look({**given, "depth": None}))
    for text in (drawing, whole, exchanged(dice, drawing, look), exchanged(dice, drawing, look), damaged(dice, drawing)):
        wanted = reference.read(text, look)
        expect(read_by_library(text, config), wanted, "what is read", text=text, config=given)
        counts["texts read" if isinstance(wanted, list) else "texts with a wrong line" if wanted else "texts that end too early"] += 1


def try_graph(dice, counts):
    """Graphs of a few nodes or more, with loops, parallel edges and cycles."""
    nodes = [text(dice) for _ in range(dice.randrange(6) if dice.random() < 0.8 else dice.randrange(40))]
    edges = [(dice.randrange(len(nodes)), dice.randrange(len(nodes))) for _ in range(dice.randrange(1 + 2 * len(nodes)))] if nodes else []
    given, mark = fields(dice), text(dice)
    start = dice.randrange(len(nodes) + 1) if dice.random() < 0.9 else 2**64 - 1
    given["depth"] = reference.few_walks(edges, start, dice.choice([0, 1, 2, 3, 5, 12]), 300)
    for kind, mark in (("walks of graphs", None), ("graphs drawn once", mark)):
        if mark is not None:
            given["depth"] = dice.choice([given["depth"], None])
        wanted = reference.draw(reference.graph_tree(nodes, edges, start, given["depth"], mark), Look(given))
        found = calls.graph(nodes, edges, start, configuration(given), mark)
        expect(found, wanted, "the drawing of a graph", nodes=nodes, edges=edges, start=start, mark=mark, config=given)
        counts[kind] += 1
    wrong = [*edges, dice.choice([(0, len(nodes)), (len(nodes), 0)])]
    dice.shuffle(wrong)
    try:
        found = calls.graph(nodes, wrong, start, configuration(given), mark)
    except ptree.PtreeError as error:
        found = error.number
    expect(found, c.EDGE, "an edge of no node", nodes=nodes, edges=wrong)


REFUSALS = {c.SYNTAX: "syntax", c.FLOAT: "float", c.DATE: "date"}


def try_document(dice, counts):
    """Documents in both formats."""
    format, label, given = dice.choice(("json", "toml")), text(dice), fields(dice)
    source = document(dice, format)
    try:
        wanted = reference.draw(reference.document_tree(format, source, label), Look(given))
        kind = f"documents in {format.upper()}"
    except Refused as refused:
        wanted = kind = str(refused)
    try:
        draw = ptree.draw_json if format == "json" else ptree.draw_toml
        found = draw(source, label, configuration(given))
    except ptree.DocumentError as error:
        found = REFUSALS[error.number]
    expect(found, wanted, f"a document in {format}", source=source, label=label, config=given)
    counts[kind] += 1


def variable(dice):
    """A variable, most often of a field, in any case, with a value that the field accepts."""
    part, key, kind = dice.choice(FIELDS)
    name = ("ptree_" + (f"{part}_{key}" if part else key)).upper() + ("X" if dice.random() < 0.1 else "")
    value = dice.choice(GOOD_WORDS[kind.name] if dice.random() < 0.9 else WORDS)
    return (name.lower() if dice.random() < 0.2 else name, value)


def own_file(dice, format):
    """A file of some keys, most often with values that their fields accept."""
    tables = {None: {}, "characters": {}, "branch": {}, "leaf": {}}
    for part, key, kind in dice.sample(FIELDS, dice.randrange(7)):
        good = GOOD_KEY_VALUES[kind.name]
        tables[part][key] = dice.choice(good if dice.random() < 0.95 else KEY_VALUES + ["null"] * (format == "json"))
    for part in ("branch", "leaf"):
        if dice.random() < 0.05:
            tables[None][part] = dice.choice(KEY_VALUES)
    top = tables.pop(None)
    tables = {part: table for part, table in tables.items() if table and part not in top}
    if format == "toml":
        lines = [f"{key} = {value}" for key, value in top.items()]
        for part, table in tables.items():
            lines += [f"[{part}]", *(f"{key} = {value}" for key, value in table.items())]
        return "\n".join(lines)
    top |= {part: "{" + ", ".join(f'"{key}": {value}' for key, value in table.items()) + "}" for part, table in tables.items()}
    return "{" + ", ".join(f'"{key}": {value}' for key, value in top.items()) + "}"


def file(dice):
    """The format of a file and its text."""
    if dice.random() < 0.2:
        return dice.choice([("absent", ""), ("absent", ""), ("unreadable", ""), ("toml", ""), ("json", "")])
    format = dice.choice(("json", "toml"))
    if dice.random() < 0.6:
        return format, own_file(dice, format)
    return format, FULL[format] if dice.random() < 0.3 else damaged(dice, FULL[format])


NUMBERS = {"json": c.JSON, "toml": c.TOML, "absent": c.NO_FILE, "unreadable": calls.UNREADABLE}


def try_sources(dice, counts):
    """Sources: what is loaded, or all faults."""
    (format, source), variables = file(dice), [variable(dice) for _ in range(dice.randrange(5))]
    wanted, faults = reference.load(format, source, variables)
    given, sources = calls.sources(source, NUMBERS[format], variables), {"format": format, "file": source, "variables": variables}
    expect(calls.faults(given), faults, "the faults of sources", **sources)
    try:
        found = calls.load(given)
    except ptree.ConfigError:
        found = None
    expect(found, wanted and configuration(wanted), "what is loaded of sources", **sources)
    counts["sources with a fault" if faults else "sources"] += 1


# The program


def call(dice):
    """The words of a call of the program after `--tty`, and its input."""
    words = [text(dice).replace("\0", "") for _ in range(dice.randint(1, 5))]
    way = dice.randrange(9)
    if way < 2:
        return ["words", *words], b""
    if way < 6:
        format = dice.choice(("json", "toml"))
        return [format, words[0]], document(dice, format).encode() + (b"\xff" if dice.random() < 0.08 else b"")
    if way < 8:
        return ["redraw"], None
    return dice.choice([[], ["words"], ["json", *words, "a"], ["redraw", *words], ["Toml", words[0]]]), b""


def redraw_input(dice, config):
    """What is nearly a drawing under a configuration, or is one."""
    if reference.is_too_wide(config):
        return b""
    look = Look(config)
    drawing = reference.draw(tree(dice, 9), look)
    found = dice.choice([drawing, exchanged(dice, drawing, look), damaged(dice, drawing)]).encode()
    return found + (b"\xff" if dice.random() < 0.05 else b"")


def answer(words, is_terminal, config, given):
    """What a call gives: its status, output and line of error."""
    is_usage = words[:1] == ["words"] and words[1:] or words[:1] in (["json"], ["toml"]) and len(words) == 2 or words == ["redraw"]
    if not is_usage:
        return 2, "", USAGE
    if words[0] == "words":
        tree = [words[1], [[word, []] for word in words[2:]]]
    elif words[0] == "redraw":
        if reference.is_too_wide(config):
            return 1, "", "no memory\n"
        if not Look(config).is_readable():
            return 1, "", "pieces not readable\n"
    try:
        source = given.decode()
    except UnicodeDecodeError:
        return 1, "", "cannot read\n"
    if words[0] == "redraw":
        tree = reference.read(source, Look(config))
        if not isinstance(tree, list):
            return 1, "", "not a drawing\n"
        return 0, reference.draw(tree, Look({**reference.default(), "characters": reference.SETS["ascii-plus"]})), ""
    if words[0] != "words":
        try:
            tree = reference.document_tree(words[0], source, words[1])
        except Refused:
            return 1, "", "bad document\n"
    if reference.is_too_wide(config):
        return 1, "", "no memory\n"
    return 0, reference.draw(tree, Look(config, is_terminal)), ""


# Variables that make pieces which cannot be told apart, and ones that are too long.
HARD = [("PTREE_CONTINUED", ""), ("PTREE_CONTINUED", "├"), ("PTREE_INDENT", str(2**64 - 1)), ("PTREE_PADDING", str(2**64 - 1))]


def try_call(dice, program, folder, counts):
    """A call of the program under random sources."""
    (format, source), variables = file(dice), [variable(dice) for _ in range(dice.randrange(4))]
    if dice.random() < 0.15:
        variables.append(dice.choice(HARD))
    variables = list(dict(variables).items())  # (an environment has each name once)
    config = reference.load(format, source, variables)[0] or reference.default()
    (words, given), is_terminal = call(dice), dice.random() < 0.5
    given = redraw_input(dice, config) if given is None else given
    env = dict(variables)
    if format != "absent":
        env["PTREE_CONFIG"] = os.path.join(folder, "none.toml" if format == "unreadable" else f"file.{format}")
        if format != "unreadable":
            with open(env["PTREE_CONFIG"], "w", encoding="utf-8", newline="") as out:
                out.write(source)
    wanted = answer(words, is_terminal, config, given)
    words = [program, *["--tty"] * is_terminal, *words]
    ended = support.run(words, given, only=env)
    found = (ended.returncode, ended.stdout.decode(errors="replace"), ended.stderr.decode(errors="replace"))
    expect(found, wanted, "a call", words=words, input=given, variables=env, file=source)
    counts[wanted[2].removesuffix("\n")] += 1


def try_cases(try_one, count, *given):
    """Tries so many cases, and returns of which kinds they were. The first that differs says how it can be made again."""
    counts = {}
    for case in range(count * TIMES):
        try:
            try_one(random.Random(f"{SEED} {case} {try_one.__name__}"), *given, Counts(counts))
        except (AssertionError, MemoryError, ptree.PtreeError) as error:
            raise AssertionError(f"case {case} of seed {SEED}: {type(error).__name__} {error}") from None
    return set(counts)


class Counts(dict):
    """How many cases there were of each kind."""

    def __init__(self, found):
        self.found = found

    def __getitem__(self, kind):
        return self.found.get(kind, 0)

    def __setitem__(self, kind, count):
        self.found[kind] = count


class Library(unittest.TestCase):
    """What the library draws, reads and loads is what the second implementation does. Cases of each kind are among them."""

    def test_trees(self):
        kinds = {"drawings", "texts read", "texts with a wrong line", "texts that end too early"}
        self.assertEqual(try_cases(try_tree, 20_000), kinds)

    def test_graphs(self):
        self.assertEqual(try_cases(try_graph, 20_000), {"walks of graphs", "graphs drawn once"})

    def test_documents(self):
        self.assertEqual(try_cases(try_document, 20_000), {"documents in JSON", "documents in TOML", "syntax", "float", "date"})

    def test_sources(self):
        self.assertEqual(try_cases(try_sources, 20_000), {"sources", "sources with a fault"})

    def test_each_text_of_up_to_5_characters(self):
        """(and of 6 with CASES=5) Each is read as the tree whose drawing it is, or refused at the same line."""
        for name, pieces, depth in (
            ("pieces that differ", "+`| ", 9), ("pieces that differ, to level 1", "+`| ", 1),
            ("one piece below an item", "+`||", 9), ("one piece before an item", "++| ", 9),
        ):  # fmt: skip
            with self.subTest(name):
                turn, last, down, empty = pieces
                characters = {"down_and_right": turn, "turn_right": last, "down": down, "empty": empty, "right": "-"}
                given = {**reference.default(), "indent": 1, "padding": 0, "continued": ":", "depth": depth, "characters": characters}
                config, look, letters = configuration(given), Look(given), sorted({*pieces, ":", "a", "\n"})
                for text in map("".join, itertools.chain(*(itertools.product(letters, repeat=length) for length in range(6 + (TIMES > 4))))):
                    wanted = reference.read(text, look)
                    self.assertEqual(read_by_library(text, config), wanted, text)
                    self.assertTrue(isinstance(wanted, int) or reference.draw(wanted, look) == text, text)


class Program(support.Case):
    """Calls of ptree_cli end and write as the second implementation says."""

    def test_calls(self):
        ends = {"", "bad document", "cannot read", "no memory", "not a drawing", "pieces not readable", USAGE.rstrip("\n")}
        self.assertEqual(try_cases(try_call, 1000, support.built("ptree_cli"), self.folder()), ends)


class Trees(support.Case):
    """Calls of trees end and write as the second implementation says."""

    def try_calls(self, make, *given):
        program = support.built("trees")
        for case in range(150 * TIMES):
            words, text, wanted, status, *said = make(random.Random(f"{SEED} {case} {make.__name__}"), *given)
            ended = support.run([program, *words], text, only={}, timeout=20)
            of = f"case {case} of seed {SEED}: {words}, over:\n{text}"
            if wanted is not None:
                self.assertEqual(ended.stdout.decode(errors="replace"), wanted, of)
            self.assertEqual(ended.returncode, status, of)
            self.assertTrue(not said or ended.stderr.decode().startswith(said[0]), of)

    def test_outlines(self):
        self.try_calls(trees_calls.of_outline)

    def test_outlines_whose_form_is_found(self):
        self.try_calls(trees_calls.of_guess)

    def test_indented_text_is_drawn_as_the_same_tree(self):
        self.try_calls(trees_calls.of_indented, support.built("trees"))

    def test_conversions(self):
        self.try_calls(trees_calls.of_convert)

    def test_drawings_that_a_line_is_taken_from(self):
        self.try_calls(trees_calls.of_check)

    def test_what_could_stand_in_the_place_of_a_wrong_line(self):
        self.try_calls(trees_calls.of_wrong)

    def test_paths(self):
        self.try_calls(trees_calls.of_paths)

    def test_documents_in_json(self):
        self.try_calls(trees_calls.of_json)

    def test_documents_in_toml(self):
        self.try_calls(trees_calls.of_toml)

    def test_pairs(self):
        self.try_calls(trees_calls.of_deps)

    def test_lock_files_of_cargo_and_alike(self):
        self.try_calls(lock_calls.of_cargo)

    def test_lock_files_of_poetry(self):
        self.try_calls(lock_calls.of_poetry)

    def test_lock_files_of_uv(self):
        self.try_calls(lock_calls.of_uv)

    def test_lock_files_of_npm(self):
        self.try_calls(lock_calls.of_npm)

    def test_the_first_difference(self):
        self.try_calls(trees_calls.of_diff, self.folder())

    def test_all_differences(self):
        self.try_calls(trees_calls.of_diff_all, self.folder())
