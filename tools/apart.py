#!/usr/bin/env python3
"""Makes a program in Rattle that is no part of the gate, in a repository of its own beside copies of the crates that it uses.

  tools/apart.py make HOUSE FOLDER             makes the crate, or brings it up to date, and prints its folder
  tools/apart.py build HOUSE FOLDER [WORD..]   also proves and builds it, runs it with the words, and prints the program's path

HOUSE is the folder of that repository. FOLDER/crate is the program's line of crates.txt. FOLDER/src has its sources, under Rust's ending
`.rs`: `rt ci` refuses files of Rattle outside of the crates that it proves.
"""
import fcntl
import filecmp
import os
import re
import shutil
import subprocess
import sys
import tempfile

TOP = os.path.dirname(os.path.dirname(os.path.abspath(__file__)))


def kept(name):
    """The folder of a repository that is kept between runs: the variable of this name, or else a folder among the temporary files."""
    return os.environ.get(name.upper()) or os.path.join(tempfile.gettempdir(), name)


def files_of(folder):
    """The files below a folder, each by its path there. Rust's ending becomes Rattle's."""
    found = {}
    for at, _, names in os.walk(folder):
        for name in names:
            path = os.path.join(at, name)
            found[re.sub(r"\.rs$", ".rt", os.path.relpath(path, folder))] = path
    return found


def copy_files(files, target):
    """Makes a folder's files these, and leaves alone what is the same."""
    for name, path in files.items():
        to = os.path.join(target, name)
        if not os.path.isfile(to) or not filecmp.cmp(path, to, shallow=False):
            os.makedirs(os.path.dirname(to), exist_ok=True)
            shutil.copyfile(path, to)
    for name, path in files_of(target).items():
        if name not in files:
            os.remove(path)


def link_or_copy(source, target):
    """Links a file, or copies it to another file system. `rt` replaces the files that it writes."""
    try:
        os.link(source, target)
    except OSError:
        shutil.copy2(source, target)


def read_crate(folder):
    """The line of a program, after those of the crates of this repository that it reaches, by their names."""
    with open(os.path.join(TOP, "crates.txt"), encoding="utf-8") as file:
        known = {re.match(r"\w+", line)[0]: line.strip() for line in file if re.match(r"\w", line)}
    with open(os.path.join(TOP, folder, "crate"), encoding="utf-8") as file:
        own = file.read().strip()
    found = {}

    def add(line):
        for name in line.split(":")[1].split():
            if name in known and name not in found:
                add(known[name])
                found[name] = known[name]

    add(own)
    return found | {own.split(":")[0]: own}


def make(house, folder):
    """Makes a program's crate from a folder. Returns the crate's folder, and the names of its libraries."""
    lines = read_crate(folder)
    *libraries, name = lines
    crate = os.path.join(house, "crates", name)
    os.makedirs(house, exist_ok=True)
    with open(os.path.join(house, "held"), "w", encoding="utf-8") as held:
        fcntl.flock(held, fcntl.LOCK_EX)
        shutil.copyfile(os.path.join(TOP, "HANDLES"), os.path.join(house, "HANDLES"))
        with open(os.path.join(house, "crates.txt"), "w", encoding="utf-8") as file:
            file.write("\n".join([*lines.values(), ""]))
        for library in libraries:
            for part in "src", "specs", "proofs":
                copy_files(files_of(os.path.join(TOP, "crates", library, part)), os.path.join(house, "crates", library, part))
        copy_files(files_of(os.path.join(TOP, folder, "src")), os.path.join(crate, "src"))
        for part in "specs", "proofs":
            os.makedirs(os.path.join(crate, part), exist_ok=True)
            with open(os.path.join(crate, part, "Lib.antt"), "w", encoding="utf-8"):
                pass
    return crate, libraries


def proved_at(out):
    """The time at which a library was proved whose folder `out` this is, or 0."""
    stamp = os.path.join(out, "rlib", "stamp")
    return os.path.getmtime(stamp) if os.path.isfile(stamp) else 0


def build(house, folder, words=()):
    """Makes a program's crate, proves and builds it, and runs it with the words. What is kept of the libraries' proofs is taken along, if it
    is newer than what is there. Returns the program's path."""
    crate, libraries = make(house, folder)
    for library in libraries:
        of, to = (os.path.join(top, "crates", library, "out") for top in (TOP, house))
        if os.path.isdir(of) and (not os.path.isdir(to) or proved_at(of) > proved_at(to)):
            shutil.rmtree(to, ignore_errors=True)
            shutil.copytree(of, to, copy_function=link_or_copy)
    name = os.path.basename(crate)
    print(f"proving and building {name}", file=sys.stderr)
    done = subprocess.run(["rt", "run", "--", *words], cwd=crate, stdin=subprocess.DEVNULL, capture_output=True)
    if done.returncode != 0:
        sys.exit(done.stdout.decode() + done.stderr.decode())
    return os.path.join(crate, "out", name)


def main(words):
    match words:
        case ["make", house, folder]:
            print(make(house, folder)[0])
        case ["build", house, folder, *others]:
            print(build(house, folder, others))
        case _:
            sys.exit(__doc__.strip())


if __name__ == "__main__":
    main(sys.argv[1:])
