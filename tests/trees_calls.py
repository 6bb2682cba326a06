"""Random calls of the program trees, and what they must write: makers of the words, the input, the output, the status and perhaps the
beginning of standard error. Small cases come more often. An output of None is not looked at."""
import json
import subprocess
from types import SimpleNamespace

from tests import reference

TEXTS = ["a", "b", "c", "ab", "-", "- x", "x = y", "é", "树", "a b", "|", "└─ x", "0", "\u00a0", "tail ", "\\"]
NAMES = ["a", "b", "c", "d", "e.f", "-x", "é"]
# Names that share their first bytes, or have just these, and names whose first bytes are a part of a character.
ALIKE = ["abcdefg", "abcdefgh", "abcdefghi", "abcdefgi", "abcdefg!", "abcdefé", "abcdefè", "abcdef"]
CUT = ["树", "标", "树a", "标a1", "树a1"]
# Texts that indented text may not give back.
ODD = ["", " ", "\t", " a", "- a", "* a", "+ a", "- ", "-", "a\r", "\r", "a\nb", "\u00a0", "a\rb"]
# The pieces of each name: of a child that is not the last one and of what is below it, and of a last child and of what is below it.
PIECES = {
    "utf": ("├─ ", "│  ", "└─ ", "   "),
    "utf-bold": ("┣━ ", "┃  ", "┗━ ", "   "),
    "utf-dashed": ("├╌ ", "┆  ", "└╌ ", "   "),
    "utf-double": ("╠═ ", "║  ", "╚═ ", "   "),
    "ascii": ("|- ", "|  ", "`- ", "   "),
    "ascii-plus": ("+- ", "|  ", "+- ", "   "),
    "tree": ("├── ", "│\u00a0\u00a0 ", "└── ", "    "),
    "tree-ascii": ("|-- ", "|   ", "`-- ", "    "),
    "cargo-tree": ("├── ", "│   ", "└── ", "    "),
    "cargo-tree-ascii": ("|-- ", "|   ", "`-- ", "    "),
    "findmnt": ("├─", "│ ", "└─", "  "),
    "findmnt-ascii": ("|-", "| ", "`-", "  "),
    "sqlite": ("|--", "|  ", "`--", "   "),
    "maven": ("├─ ", "│  ", "└─ ", "   "),
    "clang": ("|-", "| ", "`-", "  "),
    "ps": (" \\_ ", " |  ", " \\_ ", "    "),
}
LOOKS = {
    name: SimpleNamespace(turning=(child, last), passing=(below, below_last), marker=": ", depth=None, branch="", leaf="")
    for name, (child, below, last, below_last) in PIECES.items()
}


def drawn(text, children, pieces="utf"):
    """The drawing of a tree, its children being pairs of the same form."""
    return reference.draw((text, children), LOOKS[pieces])


def random_tree(rng, levels, texts=TEXTS):
    children = [] if levels == 0 else [random_tree(rng, levels - 1, texts) for _ in range(rng.choice([0, 0, 1, 1, 2, 3]))]
    return (rng.choice(texts), children)


def indented(tree, unit, bullet, level=0):
    text, children = tree
    return unit * level + bullet + text + "\n" + "".join(indented(child, unit, bullet, level + 1) for child in children)


def sorted_tree(tree):
    text, children = tree
    return (text, sorted(map(sorted_tree, children), key=lambda child: child[0].encode()))


def kept(tree, part):
    text, children = tree
    below = [child for child in (kept(child, part) for child in children) if child]
    return (text, below) if below or part in text else None


def of_outline(rng):
    tree, unit, bullet = random_tree(rng, 4), rng.choice(["  ", "   ", "\t"]), rng.choice(["", "- ", "* "])
    words = ["--unit", "tab" if unit == "\t" else str(len(unit)), "--bullet", bullet]
    if rng.random() < 0.5:
        return ["outline", *words], indented(tree, unit, bullet), drawn(*tree), 0
    return ["indented", *words], drawn(*tree), indented(tree, unit, bullet), 0


def of_guess(rng):
    """Indented text whose unit and bullet `outline` finds, with blank lines between its lines."""
    tree, bullet = random_tree(rng, 3, ["a", "b", "x y", "é"]), rng.choice(["", "- ", "* ", "+ "])
    lines = indented(tree, rng.choice([" ", "  ", "    ", "\t"]), bullet).splitlines(keepends=True)
    for _ in range(rng.choice([0, 1, 3])):
        lines.insert(rng.randint(0, len(lines)), rng.choice(["\n", "   \n", "\t\n", "\r\n"]))
    return ["outline"], "".join(lines), drawn(*tree), 0


def has_only(tree, passes):
    return passes(tree[0]) and all(has_only(child, passes) for child in tree[1])


def of_indented(rng, program):
    """What `indented` writes, `outline` with the same options draws as the same tree. It refuses only what it has to."""
    tree = random_tree(rng, 2, TEXTS + ODD * rng.randint(0, 1))
    unit, bullet = rng.choice(["", "1", "4", "tab"]), rng.choice([None, None, "", "- ", "* ", "-", "a", "\u00a0"])
    words = (["--unit", unit] if unit else []) + ([] if bullet is None else ["--bullet", bullet])
    is_kept = has_only(tree, lambda text: "\n" not in text and text[-1:] != "\r" and (bullet or text and text[0] not in " \t"))
    is_kept = is_kept and (bullet is not None or tree[0][:2] not in ("- ", "* ", "+ "))
    if not is_kept:
        return ["indented", *words], drawn(*tree), "", 1
    text = indented(tree, "\t" if unit == "tab" else " " * int(unit or 2), bullet or "")
    ended = subprocess.run([program, "outline", *words], input=text.encode(), capture_output=True, env={}, timeout=20)
    if ended.stdout.decode() != drawn(*tree):
        return ["outline", *words], text, drawn(*tree), 0
    return ["indented", *words], drawn(*tree), text, 0


def of_convert(rng):
    tree, one, other = random_tree(rng, 4), rng.choice(list(PIECES)), rng.choice(list(PIECES))
    part = rng.choice(["", "a", "b", "x"])
    found, words = kept(tree, part), ["convert", "--as", one, "--to", other, "--keep", part]
    if found is None:
        return words, drawn(*tree, one), "", 1
    return [*words, "--sort"], drawn(*tree, one), drawn(*sorted_tree(found), other), 0


def goes_on(lines, name):
    """Whether some drawing begins with these lines."""
    found = reference.read("".join(line + "\n" for line in lines), LOOKS[name])
    return isinstance(found, list) or found == 0


def of_wrong(rng):
    """A drawing with a wrong line. What is said could stand there is each beginning of an item with which some drawing goes on."""
    name = rng.choice([*PIECES, "ascii-plus", "ps"])
    pieces = PIECES[name]
    text = drawn(*random_tree(rng, 3, ["a", "a\nb", "", "- x"]), name)
    lines = text.splitlines()
    lines = lines[: rng.randint(1, len(lines))]
    wanted, fronts = [], [""]
    while fronts:
        for front in fronts:
            for turn in dict.fromkeys([pieces[0], pieces[2]]):
                if goes_on([*lines, front + turn], name):
                    wanted.append(f"  {front}{turn}\n")
        fronts = [front + on for front in fronts for on in (pieces[1], pieces[3]) if len(front) < 5 * len(on)]
    said = f"standard input:{len(lines) + 1}: cannot continue the drawing:\n  xx\nexpected one of:\n"
    return ["check", "--as", name], "".join(line + "\n" for line in [*lines, "xx"]), said + "".join(wanted), 1


def of_check(rng):
    """A drawing that one line is taken from."""
    lines = drawn(*random_tree(rng, 3)).splitlines(keepends=True)
    del lines[rng.randrange(len(lines))]
    is_drawing = isinstance(reference.read("".join(lines), LOOKS["utf"]), list)
    wanted = f"standard input: a drawing of {len(lines)} item{'s' * (len(lines) > 1)}\n" if is_drawing else None
    return ["check"], "".join(lines), wanted, int(not is_drawing)


def of_paths(rng):
    names = rng.choice([NAMES + ALIKE + CUT, ALIKE, CUT, ["a", ".", "..", ".b"]])
    names = rng.sample(names, rng.randint(1, len(names)))
    paths = ["/".join(rng.choice(names) for _ in range(rng.randint(1, 4))) for _ in range(rng.choice([0, 1, 2, 5, 20, 100]))]
    root = {}
    for path in paths:
        at, names = root, path.split("/")
        # (a folder's own name counts only behind another name)
        while names[:1] == ["."]:
            del names[0]
        for name in names:
            at = at.setdefault(name, {})

    def items(found):
        return [(name, items(below)) for name, below in found.items()]

    tree, words = (".", items(root)), ["paths"]
    if rng.random() < 0.5:
        tree, words = sorted_tree(tree), words + ["--sort"]
    return words, "".join(path + "\n" for path in paths), drawn(*tree), 0


def random_value(rng, levels):
    kind = rng.randrange(8 if levels else 5)
    if kind < 5:
        return rng.choice([None, True, False, rng.randint(-9, 99), 0.5, -2.25, rng.choice(TEXTS)])
    if kind < 6:
        return [random_value(rng, levels - 1) for _ in range(rng.randint(0, 3))]
    return {rng.choice(NAMES): random_value(rng, levels - 1) for _ in range(rng.randint(0, 3))}


def scalar_text(value):
    return "" if value is None else value if isinstance(value, str) else json.dumps(value)


def items_of(value):
    if isinstance(value, list):
        return [("", items_of(it)) if isinstance(it, (list, dict)) else (scalar_text(it), []) for it in value]
    if isinstance(value, dict):
        return [
            (key, items_of(it)) if isinstance(it, (list, dict)) else (f"{key} = {scalar_text(it)}", [])
            for key, it in sorted(value.items(), key=lambda entry: entry[0].encode())
        ]
    return [(scalar_text(value), [])]


def of_json(rng):
    value = random_value(rng, 4)
    return ["json", "--label", "r"], json.dumps(value, ensure_ascii=rng.random() < 0.5), drawn("r", items_of(value)), 0


def toml_text(value):
    """A value in TOML, which has no null."""
    if isinstance(value, list):
        return f"[{', '.join(map(toml_text, value))}]"
    if isinstance(value, dict):
        return f"{{{', '.join(f'{json.dumps(key)} = {toml_text(it)}' for key, it in value.items())}}}"
    return json.dumps(value)


def without_null(value):
    if isinstance(value, list):
        return [without_null(it) for it in value]
    if isinstance(value, dict):
        return {key: without_null(it) for key, it in value.items()}
    return 0 if value is None else value


def of_toml(rng):
    """A document whose tables and lists below the top stand within a line, or as tables of their own."""
    value = {key: without_null(random_value(rng, 3)) for key in rng.sample(NAMES, rng.randint(0, 4))}
    inline = {key: it for key, it in value.items() if not isinstance(it, dict) or rng.random() < 0.5}
    lines = [f"{json.dumps(key)} = {toml_text(it)}\n" for key, it in inline.items()]
    for key in [key for key in value if key not in inline]:
        lines += [f"[{json.dumps(key)}]\n", *(f"{json.dumps(name)} = {toml_text(it)}\n" for name, it in value[key].items())]
    return ["toml", "--label", "r"], "".join(lines), drawn("r", items_of(value)), 0


def reached(needs, node):
    """All that a node needs, and what that needs."""
    found, left = set(), [node]
    while left:
        for it in needs.get(left.pop(), []):
            if it not in found:
                found.add(it)
                left.append(it)
    return found


def drawn_graph(labels, edges, root, is_inverse):
    """The drawing of nodes in order, each with its label, and of edges: each node's needs stand at its first place. What nothing needs
    is at the root, and the first node of each cycle that nothing else needs."""
    needs = {}
    for edge in edges:
        source, target = edge[::-1] if is_inverse else edge
        if target not in needs.setdefault(source, []):
            needs[source].append(target)
    if root is None:
        needed = {it: {by for by in labels if it in reached(needs, by)} for it in labels}
        tops = [it for it in labels if not needed[it]]
        cycles = [it for it in labels if needed[it] and needed[it] <= reached(needs, it)]
        tops += [it for n, it in enumerate(cycles) if not any(it in reached(needs, other) for other in cycles[:n])]
        if len(tops) == 1:
            root = tops[0]
        else:
            labels, needs = {**labels, None: "standard input"}, {**needs, None: tops}
    expanded = set()

    def item(node):
        if node in expanded:
            return (labels[node] + (" (*)" if needs.get(node) else ""), [])
        expanded.add(node)
        return (labels[node], [item(it) for it in needs.get(node, [])])

    return drawn(*item(root))


def of_deps(rng):
    """Edges among few nodes, in the order of the lines, from a root or from what nothing needs."""
    nodes = NAMES[:6]
    pairs = [(rng.choice(nodes), rng.choice(nodes)) for _ in range(rng.choice([1, 2, 5, 12]))]
    labels = {it: it for it in sorted({it for pair in pairs for it in pair}, key=str.encode)}
    root, is_inverse = rng.choice([None, pairs[0][0]]), rng.random() < 0.3
    words = ["deps"] + ([f"--root={root}"] if root else []) + ["--inverse"] * is_inverse
    given = "".join(f"{a} {b}\n" for a, b in pairs)
    return words, given, drawn_graph(labels, [it for it in pairs if it[0] != it[1]], root, is_inverse), 0


def of_diff(rng, folder):
    left = random_tree(rng, 3)
    right = left if rng.random() < 0.3 else random_tree(rng, 3)
    # Where a line is wrong, in each text that has one, the left one first.
    wrong = []
    for name, tree in (("left", left), ("right", right)):
        lines = drawn(*tree).splitlines(keepends=True)
        if rng.random() < 0.15:
            lines.insert(rng.randint(1, len(lines)), "xx\n")
            wrong.append(f"trees: {folder}/{name}:{lines.index('xx' + chr(10)) + 1}: cannot continue the drawing:")
        with open(f"{folder}/{name}", "w", encoding="utf-8") as file:
            file.write("".join(lines))
    if wrong:
        return ["diff", f"{folder}/left", f"{folder}/right"], "", "", 1, wrong[0]

    def first(left, right, above):
        """What is said of the first difference, or None."""
        if left[0] != right[0]:
            return above, left[0], right[0]
        for at in range(max(len(left[1]), len(right[1]))):
            here = above + [left[0], at + 1]
            if at >= len(left[1]):
                return here, None, right[1][at][0]
            if at >= len(right[1]):
                return here, left[1][at][0], None
            found = first(left[1][at], right[1][at], here)
            if found:
                return found
        return None

    def side(text):
        return "(nothing)" if text is None else text.replace("\\", "\\\\")

    found = first(left, right, [])
    if not found:
        return ["diff", f"{folder}/left", f"{folder}/right"], "", "", 0
    path, one, other = found
    at = "".join(side(text) + " / " for text in path[::2]) + f"child {path[-1]}" if path else "root"
    return ["diff", f"{folder}/left", f"{folder}/right"], "", f"{at}\n- {side(one)}\n+ {side(other)}\n", 1


def of_diff_all(rng, folder):
    """Two trees of few texts, so that the same text stands again and again."""

    def few(depth):
        return (rng.choice("ab"), [few(depth - 1) for _ in range(rng.randrange(6))] if depth else [])

    def marked(mark, item):
        return (mark + item[0], [marked(mark, it) for it in item[1]])

    def both(left, right):
        items, rest = [], right[1]
        for it in left[1]:
            at = next((n for n, other in enumerate(rest) if other[0] == it[0]), None)
            if at is None:
                items.append(marked("- ", it))
            else:
                items += [*(marked("+ ", other) for other in rest[:at]), both(it, rest[at])]
                rest = rest[at + 1 :]
        items += [marked("+ ", other) for other in rest]
        return (left[0] if left[0] == right[0] else f"- {left[0]}\n+ {right[0]}", items)

    left, right = few(2), few(2)
    for name, tree in (("left", left), ("right", right)):
        with open(f"{folder}/{name}", "w", encoding="utf-8") as file:
            file.write(drawn(*tree))
    shown = "" if left == right else drawn(*both(left, right))
    return ["diff", "--all", f"{folder}/left", f"{folder}/right"], "", shown, int(left != right)
