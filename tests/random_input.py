"""Random trees, configurations, texts and documents. SEED and CASES are variables: another seed, and how many times as many cases."""
import os

from tests import reference
from tests.library import ptree
from tests.reference import CHARACTERS, COLORS, FLAGS, Name

SEED, TIMES = os.environ.get("SEED", "1"), int(os.environ.get("CASES", "1"))
# What texts are made of: what looks like a branch, line feeds, what ends lines elsewhere, codes, characters of one to four bytes.
PARTS = [
    "", "a", "b", "item", " ", "   ", "\n", "\n\n", "\r", "\r\n", "\t", "\0", "├─ ", "│  ", "└─ ", ": ", "+- ", "|  ", "|- ", "`- ",
    "\x1b[0m", "\x1b[2m", "é", "語", "\U0010ffff", "\u0301", "\u2028", "\x85", "\ufeff", "\xa0", " = ", "🌳",
]  # fmt: skip
SINGLE = ["", "|", "+", "-", "`", " ", "├", "│", "└", "─", "x", "xx", "ab", "\n", "\u0301", "🌳"]
MARKERS = [": ", ": ", ": ", ": ", ":", "", "> ", "├", " ", "\n", "└─ "]
NAMES = ["red", "Red", "Navy", "#0a0B0c", "steelblue", "no colour", "", "#12345", "blac\u212a"]
DEPTHS = [None, None, None, 0, 1, 2, 3, 4, 2**32 - 2]
# Values of documents in each format, and ones for which a document is refused; and keys.
VALUES = {
    "json": ["null", "true", "0", "-5", "18446744073709551615", "-9223372036854775808", '""', '"text"', '"a\\nb"', '"├─ "', '"\\u00e9"'],
    "toml": ["false", "true", "0", "-5", "9223372036854775807", "0x1F", '""', '"text"', '"a\\nb"', "'├─ '", '"\\u00e9"'],
}
REFUSED = {
    "json": ["1.5", "-0", "18446744073709551616", "1e999", "01", "NaN"],
    "toml": ["1.5", "1979-05-27", "07:32:00", "-inf", "9223372036854775808", "1e999", "01"],
}
KEYS = ["a", "b", "c", "", "d e", "é", "f\\n", "g", "B", "\uffff", "𐀀"]


def text(dice):
    def part():
        if dice.random() < 0.9:
            return dice.choice(PARTS)
        return chr(dice.choice([dice.randrange(0xD800), dice.randrange(0xE000, 0x110000)]))

    return "".join(part() for _ in range(dice.randrange(5)))


def tree(dice, most):
    root = [text(dice), []]
    path = [root]
    for _ in range(dice.randrange(most)):
        level = dice.randint(1, len(path))
        path[level:] = [[text(dice), []]]
        path[level - 1][1].append(path[level])
    return root


def made(tree):
    """A tree as the package has it."""
    return ptree.Tree(tree[0], list(map(made, tree[1])))


def nested(tree):
    return [tree.label, list(map(nested, tree.children))]


def color(dice):
    byte = dice.randrange(256)
    return dice.choice([None, None, *COLORS, byte, (byte, 0, 255), Name(dice.choice(NAMES)), Name(dice.choice(NAMES))])


def style(dice):
    if dice.random() < 0.5:
        return reference.plain_style()
    return {"foreground": color(dice), "background": color(dice), **{flag: dice.random() < 0.2 for flag in FLAGS}}


def fields(dice):
    """A configuration of any kind."""
    own = {name: dice.choice(SINGLE) for name in CHARACTERS}
    characters = own if dice.random() < 0.25 else dice.choice(list(reference.SETS.values()))
    return {
        "depth": dice.choice(DEPTHS), "styled": dice.choice(reference.STYLED), "indent": dice.randrange(8), "padding": dice.randrange(3),
        "characters": characters, "branch": style(dice), "leaf": style(dice), "continued": dice.choice(MARKERS),
    }  # fmt: skip


def configuration(fields):
    """A configuration as the package has it."""

    def color_of(color):
        return ptree.NamedColor(str(color)) if isinstance(color, Name) else color

    def style_of(style):
        return ptree.Style(**{**style, **{key: color_of(style[key]) for key in ("foreground", "background")}})

    parts = {"characters": ptree.Characters(**fields["characters"]), **{part: style_of(fields[part]) for part in ("branch", "leaf")}}
    return ptree.Config(**{**fields, **parts})


def damaged(dice, text, parts=PARTS):
    """A text with one character left out, doubled or replaced."""
    at, way = dice.randrange(len(text) + 1), dice.randrange(3)
    here = text[at : at + 1]
    return text[:at] + (here * 2 if way == 0 else dice.choice(parts) if way == 1 else "") + text[at + 1 :]


def exchanged(dice, drawing, look):
    """A drawing in which a line is lost or doubled, a line has one of its pieces exchanged, or all behind a place is lost."""
    lines = drawing.split("\n")
    at, way = dice.randrange(len(lines)), dice.randrange(4)
    if way == 0:
        return drawing[: dice.randrange(len(drawing) + 1)]
    if way == 1:
        pieces = [*look.turning, *look.passing, look.marker]
        lines[at] = lines[at].replace(dice.choice(pieces) or "a", dice.choice(pieces), 1)
    else:
        lines[at : at + 1] = [lines[at]] * (2 if way == 2 else 0)
    return "\n".join(lines)


def document_value(dice, format, levels):
    way = dice.randrange(4) if levels else 3
    if way == 0:
        return "[" + ", ".join(document_value(dice, format, levels - 1) for _ in range(dice.randrange(4))) + "]"
    if way == 1:
        return "{" + ", ".join(document_entries(dice, format, levels - 1)) + "}"
    return dice.choice(REFUSED[format] if dice.random() < 0.03 else VALUES[format])


def document_entries(dice, format, levels):
    sign, keys = {"json": ": ", "toml": " = "}[format], [dice.choice(KEYS) for _ in range(dice.randrange(5))]
    if dice.random() < 0.9:
        keys = list(dict.fromkeys(keys))
    return [f'"{key}"{sign}{document_value(dice, format, levels)}' for key in keys]


def document(dice, format):
    """A document, most often a good one."""
    if format == "toml":
        found = "\n".join(document_entries(dice, format, 4))
    else:
        found = document_value(dice, format, 4) if dice.random() < 0.3 else "{" + ", ".join(document_entries(dice, format, 4)) + "}"
    if dice.random() < 0.8:
        return found
    # (TOML 1.1 allows line feeds in tables between braces, and the reader of the reference does not)
    return damaged(dice, found, PARTS if "{" not in found else [part for part in PARTS if "\n" not in part])
