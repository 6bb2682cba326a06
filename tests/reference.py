"""A second implementation of drawing, reading and loading, from the definitions of the documents. It calls no library.

A drawing is the entries of the items in order. A piece is a character, so many of another, and the padding. An entry is the painted pieces
of the levels above and of its own level, the painted text, and a line feed; behind each line feed of the text stand the passing pieces
of all its levels and the marker, painted as branches.

A text is read line by line from the left. Which items are last is not always seen at once, since two pieces of a kind may be equal, so
each item above has the set of what it can be; a line is wrong if it leaves none.

A tree is a list of a text and a list of trees. A configuration is a dictionary with the names of its fields, and so are characters and
styles; a depth of None is every level. A colour is a number, three bytes, one of the eight, or a Name.
"""
import datetime
import json
import re
import tomllib

# Codes, by ECMA-48.
FLAGS = dict(bold=1, dimmed=2, italic=3, underline=4, blink=5, reverse=7, hidden=8, strikethrough=9)
COLORS = ("black", "red", "green", "yellow", "blue", "purple", "cyan", "white")
# The sixteen names of HTML 4.01, and two more.
HTML = {
    "black": "000000", "silver": "c0c0c0", "gray": "808080", "white": "ffffff", "maroon": "800000", "red": "ff0000",
    "purple": "800080", "fuchsia": "ff00ff", "green": "008000", "lime": "00ff00", "olive": "808000", "yellow": "ffff00",
    "navy": "000080", "blue": "0000ff", "teal": "008080", "aqua": "00ffff", "steelblue": "4682b4", "mediumseagreen": "3cb371",
}  # fmt: skip
CHARACTERS = ("down_and_right", "down", "turn_right", "right", "empty")
SETS = {
    name: dict(zip(CHARACTERS, characters))
    for name, characters in {
        "utf": "├│└─ ", "ascii": "||`- ", "ascii-tick": "||`- ", "ascii-plus": "+|+- ", "utf-bold": "┣┃┗━ ", "utf-dashed": "├┆└╌ ",
        "utf-double": "╠║╚═ ",
    }.items()
}  # fmt: skip


class Name(str):
    """A colour by its name."""


def lowered(text):
    """A text with its ASCII letters in lower case."""
    return text.encode().lower().decode()


def plain_style():
    return {"foreground": None, "background": None, **dict.fromkeys(FLAGS, False)}


def default():
    """The default configuration."""
    branch = {**plain_style(), "dimmed": True}
    return {
        "depth": None, "styled": "tty", "indent": 3, "padding": 1, "characters": SETS["utf"], "branch": branch, "leaf": plain_style(),
        "continued": ": ",
    }  # fmt: skip


def color_code(color, ground):
    """The code of a colour, of text (30) or of what is behind it (40)."""
    if isinstance(color, str) and color in COLORS:
        return f"\x1b[{ground + COLORS.index(color)}m"
    if isinstance(color, str):
        digits = color[1:] if re.fullmatch("#[0-9a-fA-F]{6}", color) else HTML.get(lowered(color))
        color = digits and tuple(bytes.fromhex(digits))
    if color is None:
        return ""
    return f"\x1b[{ground + 8};5;{color}m" if isinstance(color, int) else "\x1b[{};2;{};{};{}m".format(ground + 8, *color)


def codes(style):
    out = "".join(f"\x1b[{code}m" for flag, code in FLAGS.items() if style[flag])
    return out + color_code(style["foreground"], 30) + color_code(style["background"], 40)


def is_too_wide(config):
    """Whether a piece would be longer than a text can be, so that memory for it runs out."""
    times = max(0, config["indent"] - 1 - config["padding"])
    most, chars = 2**40, config["characters"]
    return times > most and bool(chars["right"] or chars["empty"]) or config["padding"] > most and bool(chars["empty"])


class Look:
    """What a configuration comes down to: four pieces, the marker, and the codes of branches and leaves. Of each kind of piece the first
    is that of an item which is not a last child."""

    def __init__(self, config, is_terminal=False):
        chars = config["characters"]
        times = max(0, config["indent"] - 1 - config["padding"]) if chars["right"] or chars["empty"] else 0
        right, empty, blanks = chars["right"] * times, chars["empty"] * times, chars["empty"] and chars["empty"] * config["padding"]
        self.turning = [chars["down_and_right"] + right + blanks, chars["turn_right"] + right + blanks]
        self.passing = [chars["down"] + empty + blanks, chars["empty"] + empty + blanks]
        self.marker, self.depth = config["continued"], config["depth"]
        is_styled = config["styled"] == "always" or config["styled"] == "tty" and is_terminal
        self.branch, self.leaf = (codes(config["branch"]), codes(config["leaf"])) if is_styled else ("", "")

    def is_readable(self):
        def apart(a, b):
            return not a.startswith(b) and not b.startswith(a)

        pieces = self.turning + self.passing
        return (
            not any("\n" in text for text in [*pieces, self.marker])
            and all(apart(a, b) for a in self.turning for b in self.passing)
            and all(a == b or apart(a, b) for a, b in (self.turning, self.passing))
            and all(apart(self.marker, piece) for piece in pieces)
        )


def paint(codes, text):
    return codes + text + "\x1b[0m" if codes else text


def draw(tree, look):
    """The drawing of a tree. None is an item that is painted as branches are, and has no text."""
    out = []

    def add(node, above, is_last, level):
        label, children = node
        below = above + look.passing[is_last] if level else ""
        out.append(paint(look.branch, above + look.turning[is_last] if level else ""))
        if label is not None:
            out.append(paint(look.leaf, label.replace("\n", "\n" + paint(look.branch, below + look.marker))))
        out.append("\n")
        if look.depth is None or level < look.depth:
            for i, child in enumerate(children):
                add(child, below, i == len(children) - 1, level + 1)

    add(tree, "", True, 0)
    return "".join(out)


def take_front(line, look):
    """A line's passing pieces, each with the kinds that it fits, and what is behind them."""
    kinds = []
    while fits := {is_last for is_last in (False, True) if line.startswith(look.passing[is_last])}:
        kinds.append(fits)
        line = line[len(look.passing[max(fits)]) :]
    return kinds, line


def read(text, look):
    """The tree whose drawing a text is; or the first wrong line; or 0 if the text ends too early."""
    *lines, rest = text.split("\n")
    path, lasts = [], []  # the items above, and for each whether it can be one that is not a last child (False) and a last one (True)
    branch_end, leaf_end = ("\x1b[0m" if codes else "" for codes in (look.branch, look.leaf))
    for number, line in enumerate(lines, 1):
        if not line.startswith(look.branch):
            return number
        kinds, line = take_front(line.removeprefix(look.branch), look) if path else ([], line.removeprefix(look.branch))
        level, known, turns = len(kinds), lasts[:1] + [a & b for a, b in zip(lasts[1:], kinds)], {True}
        is_further = bool(path) and line.startswith(look.marker)
        if is_further:
            front = look.marker + branch_end
            if level != len(path) - 1:
                return number
        elif not path:
            front = branch_end + look.leaf
        else:
            turns = {is_last for is_last in (False, True) if line.startswith(look.turning[is_last])}
            if not turns or level + 1 > len(path) or look.depth is not None and level >= look.depth:
                return number
            front = look.turning[max(turns)] + branch_end + look.leaf
            if level + 1 < len(path):  # a sibling comes, and none for the items below it
                known += [lasts[level + 1] & {False}, *(kind & {True} for kind in lasts[level + 2 :])]
            if not path[-1][0].endswith(leaf_end):
                return number
        if not all(known) or not line.startswith(front):
            return number
        lasts, line = known, line.removeprefix(front)
        if is_further:
            path[-1][0] += "\n" + line
            continue
        item = [line, []]
        if path:
            path[-1][0] = path[-1][0].removesuffix(leaf_end)
            path[level][1].append(item)
        path[level + 1 if path else 0 :], lasts[level + 1 if lasts else 0 :] = [item], [turns]
    if rest or not path or not path[-1][0].endswith(leaf_end) or not all(True in kinds for kinds in lasts):
        return 0
    path[-1][0] = path[-1][0].removesuffix(leaf_end)
    return path[0]


# Graphs


def graph_tree(nodes, edges, start, depth, mark=None):
    """The tree of a graph's walks from a node, the newest edge first. With a mark a node is expanded at its first place alone, and marked
    at the later ones. No node is an item without a text."""
    below = {place: [target for source, target in reversed(edges) if source == place] for place in range(len(nodes))}
    expanded = set()

    def grown(place, level):
        if mark is not None and place in expanded:
            return [nodes[place] + mark, []]
        if level == depth or not below[place]:
            return [nodes[place], []]
        expanded.add(place)
        return [nodes[place], [grown(target, level + 1) for target in below[place]]]

    return grown(start, 0) if start < len(nodes) else [None, []]


def few_walks(edges, start, depth, most):
    """The depth, or a smaller one, so that there are at most so many walks of at most so many steps."""
    ends, count = [start], 1
    for steps in range(depth):
        ends = [target for end in ends for source, target in edges if source == end]
        count += len(ends)
        if not ends:
            break
        if count > most:
            return steps
    return depth


# Documents


class Refused(Exception):
    """Why a document is refused: `syntax`, `float` or `date`."""


def parse_json(text):
    """The value of a JSON text. A number is a float unless it has room in 64 bits, with or without a sign."""

    def whole(digits):
        number = int(digits)
        return number if digits != "-0" and -(2**63) <= number < 2**64 else float(0)

    def fraction(digits):
        if float(digits) in (float("inf"), float("-inf")):
            raise Refused("syntax")
        return float(0)

    def none(word):
        raise Refused("syntax")

    try:
        value = json.loads(text, parse_int=whole, parse_float=fraction, parse_constant=none)
        json.dumps(value, ensure_ascii=False).encode()  # (half of a pair of surrogates is no character)
        return value
    except ValueError:
        raise Refused("syntax") from None


def parse_toml(text):
    """The value of a TOML text. A whole number has room in 64 bits with a sign."""

    def fraction(digits):
        if "inf" not in digits and float(digits) in (float("inf"), float("-inf")):
            raise Refused("syntax")
        return float(0)

    def check(value):
        if isinstance(value, (list, dict)):
            for one in value.values() if isinstance(value, dict) else value:
                check(one)
        elif isinstance(value, int) and not -(2**63) <= value < 2**63:
            raise Refused("syntax")

    try:
        value = tomllib.loads(text.removeprefix("\ufeff"), parse_float=fraction)
    except ValueError:
        raise Refused("syntax") from None
    check(value)
    return value


def sorted_keys(value):
    return sorted(value, key=str.encode)


def refuse_values(value):
    """Refuses the first float or date: lists in order, and keys by their bytes."""
    if isinstance(value, dict):
        for key in sorted_keys(value):
            refuse_values(value[key])
    elif isinstance(value, list):
        for one in value:
            refuse_values(one)
    elif isinstance(value, float):
        raise Refused("float")
    elif isinstance(value, (datetime.date, datetime.time)):
        raise Refused("date")


def document_tree(format, text, label):
    """The tree of a document under a label."""

    def spell(value):
        if value is None or isinstance(value, (list, dict)):
            return ""
        return str(value).lower() if isinstance(value, bool) else str(value)

    def below(value):
        if isinstance(value, list):
            return [[spell(one), below(one)] for one in value]
        if not isinstance(value, dict):
            return []
        holds = {key: isinstance(value[key], (list, dict)) for key in sorted_keys(value)}
        return [[key if holds[key] else f"{key} = {spell(value[key])}", below(value[key])] for key in holds]

    value = (parse_json if format == "json" else parse_toml)(text)
    refuse_values(value)
    return [label or spell(value), below(value)]


# Sources

FLAG_WORDS = {**dict.fromkeys(("1", "true", "on", "yes"), True), **dict.fromkeys(("0", "false", "off", "no"), False)}
STYLED = ("never", "always", "tty")
STYLE_KEYS = ("foreground", "background", *FLAGS)


class Wrong(Exception):
    """A value that its field does not accept."""


def known(table, key):
    """What a table has at a key, or a word that a list has."""
    if key not in table:
        raise Wrong
    return table[key] if isinstance(table, dict) else key


class Kind:
    """What a field accepts: its name in the text of a fault, and what a variable's text and a key's value mean."""

    def __init__(self, name, of_variable, of_key):
        self.name, self.of_variable, self.of_key = name, of_variable, of_key


def number_kind(most):
    def of_variable(text):
        return of_key(int(text)) if re.fullmatch("[0-9]+", text) else of_key(None)

    def of_key(value):
        if type(value) is not int or not 0 <= value <= most:
            raise Wrong
        return value

    return Kind(f"a whole number up to {most}", of_variable, of_key)


def as_text(value):
    if not isinstance(value, str):
        raise Wrong
    return value


def as_flag(value):
    if not isinstance(value, bool):
        raise Wrong
    return value


def as_byte(value):
    return number_kind(255).of_key(value)


def set_of_key(value):
    """The characters of a set by its name, or of a table, whose keys are fields of their own."""
    return value if isinstance(value, dict) else known(SETS, as_text(value))


def color_of_variable(text):
    return int(text) if re.fullmatch("[0-9]{1,3}", text) and int(text) < 256 else Name(lowered(text))


def color_of_key(value):
    if value is None or isinstance(value, str):
        return value if value is None else Name(value)
    if isinstance(value, list) and len(value) == 3:
        return tuple(map(as_byte, value))
    return as_byte(value)


TEXT = Kind("a text", as_text, as_text)
FLAG = Kind("true or false", lambda text: known(FLAG_WORDS, lowered(text)), as_flag)
COLOR = Kind("a colour", color_of_variable, color_of_key)
WORD = Kind("never, always or tty", lambda text: known(STYLED, lowered(text)), lambda value: known(STYLED, as_text(value)))
SET = Kind("a set of characters", lambda text: known(SETS, lowered(text)), set_of_key)
# The fields in the order of faults: the table of a field, or none, its key, and its kind.
FIELDS = [
    (None, "depth", number_kind(2**32 - 1)), (None, "indent", number_kind(2**64 - 1)), (None, "padding", number_kind(2**64 - 1)),
    (None, "styled", WORD), (None, "characters", SET), *(("characters", key, TEXT) for key in CHARACTERS),
    *((part, key, FLAG if key in FLAGS else COLOR) for part in ("branch", "leaf") for key in STYLE_KEYS), (None, "continued", TEXT),
]  # fmt: skip


def load(format, text, variables):
    """The configuration of sources, or None if there is a fault; and the texts of all faults. The format is `json`, `toml`, `absent` or
    `unreadable`, and the variables are pairs of a name and a value."""
    file, faults, values = {}, [], {}
    if format == "unreadable":
        faults.append("the file couldn't be read")
    elif format != "absent":
        try:
            file = (parse_json if format == "json" else parse_toml)(text)
            if not isinstance(file, dict):
                raise Refused
        except Refused:
            file = {}
            faults.append("the file has a syntax error")
    tables = {}
    for part in ("branch", "leaf"):
        tables[part] = file.get(part, {})
        if not isinstance(tables[part], dict):
            faults.append(f"the file's key {part} is not a table")
            tables[part] = {}
    tables["characters"] = file["characters"] if isinstance(file.get("characters"), dict) else {}
    given = {lowered(name): value for name, value in variables}  # (the last one of a name counts)
    for part, key, kind in FIELDS:
        name = "ptree_" + (f"{part}_{key}" if part else key)
        variable = (f"the variable {name.upper()}", given, name, kind.of_variable)
        in_file = ("the file's key " + (f"{part}.{key}" if part else key), tables[part] if part else file, key, kind.of_key)
        for source, table, at, meant in (variable, in_file):
            if at not in table:
                continue
            try:
                values.setdefault((part, key), meant(table[at]))  # (a variable's value counts before a key's)
            except Wrong:
                faults.append(f"{source} isn't {kind.name}")
    return (None if faults else meant_by(values, given, file)), faults


def meant_by(values, given, file):
    """The configuration of the values that sources give."""
    config = default()
    for (part, key), value in values.items():
        if not part and key != "characters":
            config[key] = value
    if config["depth"] == 2**32 - 1:
        config["depth"] = None
    base = values.get((None, "characters"), SETS["utf"])
    config["characters"] = {**SETS["utf"], **{key: text for key, text in base.items() if key in CHARACTERS}}
    for key in CHARACTERS:
        config["characters"][key] = given.get(f"ptree_characters_{key}", config["characters"][key])
    is_branch_set = "branch" in file or any(f"ptree_branch_{key}" in given for key in STYLE_KEYS)
    config["branch"] = plain_style() if is_branch_set else default()["branch"]
    for part in ("branch", "leaf"):
        config[part] |= {key: values[part, key] for key in STYLE_KEYS if (part, key) in values}
    return config
