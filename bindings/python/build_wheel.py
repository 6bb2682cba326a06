#!/usr/bin/env python3
"""Makes the wheel of the package, with the shared library in it, by Python alone. pip calls it as pyproject.toml says.

    PTREE_LIBRARY=LIBRARY python3 build_wheel.py FOLDER      prints the wheel's name

The wheel is for this machine's kind, and for any Python 3, since ctypes loads the library.
"""
import base64
import hashlib
import os
import pathlib
import re
import sys
import sysconfig
import zipfile

HERE = pathlib.Path(__file__).resolve().parent


def build_wheel(wheel_directory, config_settings=None, metadata_directory=None):
    """Writes the wheel into a folder, and returns its name. The same sources and library always make the same bytes."""
    library = os.environ.get("PTREE_LIBRARY", "")
    if not os.path.isfile(library):
        sys.exit(f"PTREE_LIBRARY has to be the path of the shared library, and is {library!r}")
    project = dict(re.findall('^([a-z-]+) = "(.*)"$', (HERE / "pyproject.toml").read_text(), re.MULTILINE))
    stem, tag = f"{project['name']}-{project['version']}", f"py3-none-{re.sub('[-.]', '_', sysconfig.get_platform())}"
    files = {f"ptree/{path.name}": path.read_bytes() for path in (HERE / "ptree").iterdir() if path.suffix == ".py" or path.name == "py.typed"}
    files["ptree/libptree.so"] = pathlib.Path(library).read_bytes()
    for path in HERE.parent.parent.glob("LICENSE-*"):
        files[f"{stem}.dist-info/licenses/{path.name}"] = path.read_bytes()
    files[f"{stem}.dist-info/METADATA"] = (
        f"Metadata-Version: 2.1\nName: {project['name']}\nVersion: {project['version']}\nSummary: {project['description']}\n"
        f"License: {project['license']}\nRequires-Python: {project['requires-python']}\n"
    ).encode()
    files[f"{stem}.dist-info/WHEEL"] = f"Wheel-Version: 1.0\nGenerator: ptree\nRoot-Is-Purelib: false\nTag: {tag}\n".encode()
    record = f"{stem}.dist-info/RECORD"
    files[record] = "".join(line_of(name, files[name]) for name in sorted(files)).encode() + f"{record},,\n".encode()
    os.makedirs(wheel_directory, exist_ok=True)
    name = f"{stem}-{tag}.whl"
    with zipfile.ZipFile(os.path.join(wheel_directory, name), "w", zipfile.ZIP_DEFLATED) as wheel:
        for path in sorted(files, key=lambda path: (path == record, path)):
            entry = zipfile.ZipInfo(path, (1980, 1, 1, 0, 0, 0))
            entry.external_attr, entry.compress_type = 0o100644 << 16, zipfile.ZIP_DEFLATED
            wheel.writestr(entry, files[path])
    return name


def line_of(name, content):
    """The line of a file in the wheel's record."""
    digest = base64.urlsafe_b64encode(hashlib.sha256(content).digest()).rstrip(b"=").decode()
    return f"{name},sha256={digest},{len(content)}\n"


if __name__ == "__main__":
    if len(sys.argv) != 2:
        sys.exit("usage: PTREE_LIBRARY=LIBRARY python3 build_wheel.py FOLDER")
    print(build_wheel(sys.argv[1]))
