"""Random lock files for trees deps, and what it must draw of them."""
import json
import re

from tests.trees_calls import drawn_graph


def of_cargo(rng):
    """Packages of few names, versions and sources. An entry, which is a text or a table, that none or several match is refused, and so is a
    format of another version."""
    sources = ["", "git+https://x/a#1", "registry+https://x"]
    all_of_them = [(name, version, source) for name in ("a", "b", "b-c") for version in ("1.0.0", "1.0.0-b", "2.0.0") for source in sources]
    packages = sorted(rng.sample(all_of_them, rng.choice([1, 2, 4, 8])))
    twins = [it[:2] for it in packages]
    labels = {it: f"{it[0]} v{it[1]}" + (f" ({it[2]})" if it[2] and twins.count(it[:2]) > 1 else "") for it in packages}
    known = ["", "version = 1", "version = 3", "version = 4", 'metadata = { lock-version = "1.1" }', 'metadata = { lock-version = "2.10" }']
    other = ["version = 2", "version = 99", 'version = "4"', 'metadata = { lock-version = "10.0" }', "metadata = { lock-version = 2.1 }", "metadata = []"]
    other += [f'metadata = {{ lock-version = "{it}" }}' for it in ("2.", "2.x", "1.1.0")]
    is_refused = rng.random() < 0.1
    form = rng.choice(other if is_refused else known)
    tables, edges = {it: [] for it in packages}, []
    for package in packages:
        for name, version, source in rng.choices(packages, k=rng.choice([0, 1, 2])):
            same = [it for it in packages if it[0] == name]
            twin = [it for it in same if it[1] == version]
            if rng.random() < 0.2:
                # a table, which may leave out the version and the source
                parts = {"version": version} if rng.random() < 0.6 else {}
                parts |= {"source": rng.choice([source] * 4 + ["none"])} if source and rng.random() < 0.6 else {}
                alike = [it for it in same if parts.get("version", it[1]) == it[1] and parts.get("source", it[2]) == it[2]]
                meant = [it for it in alike if "version" in parts and not it[2]] or alike
                if len(meant) != 1 and rng.random() < 0.9:
                    continue
                text = {"name": name, **parts}
                if "source" in parts and rng.random() < 0.5:
                    text["source"] = parts["source"].partition("#")[0]
            elif rng.random() < 0.03:
                meant, text = [], rng.choice(["none", "b 3.0.0", f"{name} {version} (none)"])
            elif len(same) == 1 or rng.random() < 0.03:
                meant, text = same, name
            elif len(twin) == 1 or not source or rng.random() < 0.03:
                meant, text = [it for it in twin if not it[2]] or twin, f"{name} {version}"
            else:
                meant, text = [(name, version, source)], f"{name} {version} ({source.partition('#')[0]})"
            is_refused = is_refused or len(meant) != 1
            tables[package].append(
                json.dumps(text) if isinstance(text, str) else "{ " + ", ".join(f"{key} = {json.dumps(part)}" for key, part in text.items()) + " }"
            )
            edges += [(package, it) for it in meant]
    rng.shuffle(packages)
    given = f"{form}\n" + "".join(
        f'[[package]]\nname = "{name}"\nversion = "{version}"\n'
        + (f'source = "{source}"\n' if source else "")
        + f"dependencies = [{', '.join(tables[name, version, source])}]\n"
        for name, version, source in packages
    )
    return ["deps"], given, "" if is_refused else drawn_graph(labels, edges, None, False), int(is_refused)


def of_poetry(rng):
    """Packages whose names are written in several ways, and tables of needs, of which some are not locked. A name that several packages have
    is refused, and so is a need beside which there is no text, table or list."""

    def normal(name):
        return re.sub("[-_.]+", "-", name).lower()

    names = ["a", "B", "b-c", "B_c", "d..e", "D.E", "f"]
    packages = {(normal(name), version): name for name, version in ((rng.choice(names), rng.choice(["1.0", "2.0"])) for _ in range(rng.choice([1, 2, 5])))}
    order, is_refused, edges, tables = sorted(packages), False, [], []
    for package in packages:
        needs = {}
        for name in rng.sample([*names, "none", "E_"], rng.choice([0, 1, 3])):
            kind = rng.choice(['"*"'] * 9 + ['{ version = "<2", optional = true }', '["<2", ">2"]', "5" if rng.random() < 0.2 else '""'])
            needs[name] = kind
        # (a table is in the order of its keys)
        for name in sorted(needs):
            meant = [it for it in order if it[0] == normal(name)]
            is_refused = is_refused or len(meant) > 1 or needs[name] == "5"
            edges += [(package, it) for it in meant]
        lines = "".join(f"{json.dumps(name)} = {kind}\n" for name, kind in needs.items())
        tables.append(f'[[package]]\nname = "{packages[package]}"\nversion = "{package[1]}"\n' + (f"[package.dependencies]\n{lines}" if needs else ""))
    labels = {it: f"{it[0]} v{it[1]}" for it in order}
    edges.sort(key=lambda edge: edge[0])
    version = rng.choice(["1.1", "2.1", "2.0"] * 6 + ["3.0"])
    is_refused = is_refused or version == "3.0"
    given = "\n".join(tables) + f'\n[metadata]\nlock-version = "{version}"\ncontent-hash = "0"\n'
    is_inverse = rng.random() < 0.3
    return ["deps"] + ["--inverse"] * is_inverse, given, "" if is_refused else drawn_graph(labels, edges, None, is_inverse), int(is_refused)


def of_uv(rng):
    """Packages of registries, of git repositories and of folders, which may have no version. Needs are tables in lists, also in those of
    extras and groups; each has what tells its package apart, and perhaps more."""
    sources = [("registry", "https://x/simple"), ("git", "https://x/g?rev=1#1f"), ("editable", "."), ("virtual", "w")]
    all_of_them = [(name, version, source) for name in ("a", "b", "c-d") for source in sources for version in ("1.0", "2.0", "")]
    all_of_them = [it for it in all_of_them if it[1] or it[2][0] in ("editable", "virtual")]
    packages = rng.sample(all_of_them, rng.choice([1, 2, 4, 7]))

    def place(package):
        return (package[0], package[1], package[2][1].partition("#")[0])

    order, twins = sorted(packages, key=place), [it[:2] for it in packages]
    labels = {it: it[0] + (f" v{it[1]}" if it[1] else "") + (f" ({it[2][1]})" if twins.count(it[:2]) > 1 else "") for it in order}
    is_refused, edges, given = False, [], "version = 1\n"
    lists = ["dependencies", "optional-dependencies.a", "optional-dependencies.b", "dev-dependencies.dev"]
    for package in packages:
        name, version, (kind, source) = package
        entries = {key: [] for key in lists}
        for _ in range(rng.choice([0, 1, 3])):
            other = rng.choice(packages)
            known = {"version": other[1], "source": other[2]}
            left_out = rng.choice([[], [], ["version"], ["source"], ["version", "source"]])
            known = {key: part for key, part in known.items() if key not in left_out and (key == "source" or part)}
            alike = [it for it in packages if it[0] == other[0] and known.get("version", it[1]) == it[1] and known.get("source", it[2]) == it[2]]
            if len(alike) != 1 and rng.random() < 0.95:
                continue
            if rng.random() < 0.01:
                known, alike = {"version": "9.9"}, []
            is_refused = is_refused or len(alike) != 1
            parts = [f'name = "{other[0]}"'] + [f'version = "{it}"' for key, it in known.items() if key == "version"]
            if "source" in known:
                parts.append(f'source = {{ {known["source"][0]} = "{known["source"][1]}" }}')
            key = rng.choice(lists)
            entries[key].append((f"{{ {', '.join(parts)} }}", alike))
        given += f'\n[[package]]\nname = "{name}"\n' + (f'version = "{version}"\n' if version else "") + f'source = {{ {kind} = "{source}" }}\n'
        for key in lists:
            given += f"{key} = [{', '.join(text for text, _ in entries[key])}]\n" if entries[key] else ""
            edges += [(package, it) for _, alike in entries[key] for it in alike]
    edges.sort(key=lambda edge: order.index(edge[0]))
    is_inverse = rng.random() < 0.3
    return ["deps"] + ["--inverse"] * is_inverse, given, "" if is_refused else drawn_graph(labels, edges, None, is_inverse), int(is_refused)


def of_npm(rng):
    """Packages in folders, workspaces and links. A need is the package in the nearest `node_modules` from a package's folder up that has it,
    without regard to case. What a package is developed with counts unless it is in the `node_modules` of another. A need with no text beside
    it is refused, where it counts, and so is a list, unless it is empty. Refused are also two names in one `node_modules` that differ in
    case alone, a path outside of the project, and a link by another name than its package has."""
    names = ["a", "b", "@s/c", "d", "A" if rng.random() < 0.2 else "e"]
    out = "../out" if rng.random() < 0.05 else "out"
    kinds = ["dependencies", "optionalDependencies", "peerDependencies", "devDependencies"]
    folders = ["", "apps/w", out, "lib"]
    lock = {"": {"name": "top", "workspaces": ["apps/*"]}, "apps/w": {"name": "w"}, out: {"version": "1.0.0"}}
    for _ in range(rng.choice([0, 2, 6, 15])):
        path = f"{rng.choice(folders)}/node_modules/{rng.choice(names)}".lstrip("/")
        lock[path] = {"version": rng.choice(["1.0.0", "2.0.0"]), **({"name": "real"} if rng.random() < 0.2 else {})}
        folders.append(path)
    for path in folders[4:]:
        # (npm writes such a link where a package needs one that it is in)
        if rng.random() < 0.2:
            inner = rng.choice([other for other in folders if other.startswith(path)])
            lock.setdefault(f"{inner}/node_modules/{path.rpartition('node_modules/')[2]}", {"link": True, "resolved": path})
    if rng.random() < 0.7:
        lock["node_modules/w"] = {"link": True, "resolved": "apps/w"}
    if rng.random() < 0.7:
        lock["node_modules/out"] = {"link": True, "resolved": out}
    if rng.random() < 0.05:
        lock["node_modules/al"] = {"link": True, "resolved": "apps/w"}
    installed = [path.lower() for path in lock if "node_modules/" in path]
    is_refused = out != "out" or "node_modules/al" in lock or len(set(installed)) < len(installed)
    nodes = [path for path in lock if "link" not in lock[path]]
    counted = {path: kinds[:3] if "node_modules/" in path and path.rpartition("/node_modules/")[0] in lock else kinds for path in nodes}
    labels, edges = {}, []
    for path in nodes:
        given, version = lock[path].get("name"), lock[path].get("version")
        name = path.rpartition("node_modules/")[2] if "node_modules/" in path else given or "out"
        name = f"{name}@npm:{given}" if given and given != name else name
        labels[path] = f"{name}@{version}" if version else name
        needs = set(rng.sample([*names, "B", "@S/C", "w", "out", "none"], rng.choice([0, 0, 1, 3])))
        for kind in kinds:
            lock[path][kind] = {name: "*" for name in needs if rng.random() < 0.5} or rng.choice([{}, []])
            needs -= set() if rng.random() < 0.2 else set(lock[path][kind])
        found = set().union(*(lock[path][kind] for kind in counted[path]))
        for name in sorted(found | ({"w"} if path == "" and "node_modules/w" in lock else set()), key=str.encode):
            above = path.split("/") if path else []
            while above is not None:
                place = "/".join([*above, "node_modules", ""])
                here = [other for other in lock if other.startswith(place) and other[len(place) :].lower() == name.lower()]
                if here:
                    edges.append((path, lock[here[0]].get("resolved", here[0])))
                    break
                above = above[:-1] if above else None
    labels = dict(sorted(labels.items()))
    edges.sort(key=lambda edge: edge[0])
    is_inverse = rng.random() < 0.3
    if rng.random() < 0.1:
        path, kind = rng.choice(list(lock)), rng.choice(kinds)
        other = rng.choice([5, None, {}, ["*"], False])
        lock[path][kind] = [other] if rng.random() < 0.3 else {**(lock[path].get(kind) or {}), rng.choice(["", "none", "~"]): other}
        is_refused = is_refused or path in nodes and kind in counted[path]
    given = json.dumps({"lockfileVersion": 3, "packages": lock})
    return ["deps"] + ["--inverse"] * is_inverse, given, "" if is_refused else drawn_graph(labels, edges, None, is_inverse), int(is_refused)
