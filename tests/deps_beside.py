"""Compares the edges that `trees deps` draws of lock files with those of npm and cargo: `python3 -m tests.deps_beside PROGRAM SEED CASES`

PROGRAM is the built program `trees`. Beside `npm ls --all --package-lock-only` it draws the lock files of tests/rows/trees/deps.rows, but
those that it refuses, and CASES random ones of `lock_calls`; beside `cargo tree` CASES that cargo writes of random crates. Prints the
edges that only one of them draws, and which program is not installed. Ends with status 0 if nothing failed.
"""
import json
import os
import random
import re
import shutil
import subprocess
import sys
import tempfile
from pathlib import Path

from tests.lock_calls import of_npm as made_of_npm
from tests.row_files import parse_text, read_rows

ROWS = Path(__file__).parent / "rows" / "trees" / "deps.rows"


def write(path, text):
    os.makedirs(os.path.dirname(path), exist_ok=True)
    with open(path, "w", encoding="utf-8") as file:
        file.write(text)


def output(folder, *words):
    return subprocess.run(words, cwd=folder, env={**os.environ, "npm_config_cache": f"{folder}/.npm"}, capture_output=True).stdout.decode()


def edges(items):
    """The edges of a tree's items in order, each a level and a label."""
    above, found = [], set()
    for level, label in items:
        above[level:] = [label]
        found.update([(above[level - 1], label)] if level else [])
    return found


def drawn(folder, *words):
    """The edges that `trees deps` draws, but from the file's name, or None if it refuses the file."""
    lines = [re.fullmatch(r"((?:│  |   )*(?:[├└]─ )?)(.*?)(?: \(\*\))?", line).groups() for line in output(folder, *words).splitlines()]
    return {it for it in edges((len(front) // 3, label) for front, label in lines) if it[0] != words[-1]} if lines else None


def npm_files(rngs):
    """Lock files of npm, in which each package has a version of its own."""
    fields = [field for row in read_rows(ROWS) for field in row.fields]
    texts = [parse_text(field.body) for field in fields if field.word == "holds" and '"": {' in field.body]
    for text in texts + [made_of_npm(rng)[1] for rng in rngs]:
        lock = json.loads(text)
        lock["packages"][""].setdefault("name", lock.get("name", "project"))
        for number, (path, package) in enumerate(lock["packages"].items()):
            package.update({"version": f"1.0.{number}"} if path == "" or "link" not in package else {})
        yield lock


def npm_items(name, item, level=0):
    """The items of npm's tree, but those that are not installed, which have no version."""
    yield level, f"{name}@{item['version']}", "extraneous" in item
    for name, below in item.get("dependencies", {}).items():
        yield from npm_items(name, below, level + 1) if "version" in below else []


def of_npm(program, folder, lock):
    """The edges that both draw below the project. npm also wants the files of which it makes a lock file."""
    write(f"{folder}/package-lock.json", json.dumps(lock))
    ours = drawn(folder, program, "deps", "--root=", "package-lock.json")
    if ours is None:
        return None
    for path, package in lock["packages"].items():
        if path == "" or "link" not in package and "node_modules" not in path:
            write(os.path.join(folder, path, "package.json"), json.dumps(package))
    tree = json.loads(output(folder, "npm", "ls", "--all", "--package-lock-only", "--offline", "--json"))
    items = list(npm_items(tree["name"], tree))
    unneeded = {label for _, label, is_unneeded in items if is_unneeded}
    theirs = {edge for edge in edges(it[:2] for it in items) if unneeded.isdisjoint(edge)}
    return {tuple(re.sub("@npm:@?[^@]*", "", label) for label in edge) for edge in ours}, theirs


def of_cargo(program, folder, rng):
    """The edges that both draw of random crates, some of them in a registry. A crate needs later ones, and for its tests any."""
    crates = list(dict.fromkeys((rng.choice(["a", "b", "c-d"]), rng.randint(1, 4), at > 4) for at in range(rng.choice([3, 6, 9, 12]))))
    places = [f"{'registry' if crate[2] else 'crates'}/{at}" for at, crate in enumerate(crates)]
    members = {crate[0]: place for crate, place in zip(crates, places) if not crate[2]}.values()
    write(f"{folder}/.cargo/config.toml", '[source]\ncrates-io.replace-with = "here"\nhere.directory = "registry"\n')
    write(f"{folder}/Cargo.toml", f'[workspace]\nresolver = "2"\nmembers = {json.dumps([*members])}\nexclude = {json.dumps(places)}\n')
    for at, (name, version, is_registered) in enumerate(crates):
        text = f'package = {{ name = "{name}", version = "{version}.0.0", edition = "2021" }}\n'
        for kind in ("dependencies", "build-dependencies", "dev-dependencies"):
            for other, (needed, wanted, is_remote) in enumerate(crates):
                if rng.random() < 0.3 and (other > at or kind == "dev-dependencies" and other < at and not is_registered):
                    text += f'{kind}.n{other} = {{ package = "{needed}", version = "={wanted}.0.0"'
                    text += " }\n" if is_remote else f', path = "../../{places[other]}" }}\n'
        for path, text in (("Cargo.toml", text), ("src/lib.rs", ""), (".cargo-checksum.json", '{"files": {}}')):
            write(f"{folder}/{places[at]}/{path}", text)
    lines = output(folder, "cargo", "tree", "--offline", "--workspace", "--target=all", "--prefix=depth").splitlines()
    items = [re.fullmatch(r"(\d+)(\S+ \S+)( \(/.*?\))?(?: \(\*\))?", line).groups() for line in lines if line]
    twins, registry = {label for _, label, path in items if path}, " (registry+https://github.com/rust-lang/crates.io-index)"
    theirs = edges((int(level), label + registry * (path is None and label in twins)) for level, label, path in items)
    return drawn(folder, program, "deps", "Cargo.lock"), theirs


def main(program, seed, cases):
    rngs, failed = [random.Random(f"{seed} {case}") for case in range(int(cases))], 0
    for name, compared, given in (("npm", of_npm, npm_files(rngs)), ("cargo", of_cargo, rngs)):
        both = []
        for one in given if shutil.which(name) else []:
            with tempfile.TemporaryDirectory(prefix="ptree-") as folder:
                both += filter(None, [compared(os.path.abspath(program), folder, one)])
        for ours, theirs in (it for it in both if it[0] != it[1]):
            failed += 1
            print(f"FAILED: only trees draws {(ours or set()) - theirs}, only {name} {theirs - (ours or set())}")
        print(f"{name}: {len(both)} lock files, {sum(len(it[1]) for it in both)} edges" if shutil.which(name) else f"{name} is not installed")
    return min(failed, 1)


if __name__ == "__main__":
    sys.exit(main(*sys.argv[1:]) if len(sys.argv) == 4 else __doc__)
