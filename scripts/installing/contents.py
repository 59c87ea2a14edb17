"""What is installed: for each path under the prefix the bytes and the mode, or where a link points."""

import glob
import os
import re
from collections import namedtuple

File = namedtuple("File", "data mode")
Link = namedtuple("Link", "target")

PROGRAMS = ["press", "replay"]
LIBRARIES = ["checker_library", "engine_library"]

# Sources in the tree as patterns, the folder that they are taken from, and the one under the prefix that they go to with the rest of their path.
TREES = [
    ("scripts/planning/*", "scripts", "lib/ceiling"),
    ("scripts/picturing/*", "scripts", "lib/ceiling"),
    ("library/examples/example.*", "library", "share/ceiling"),
    ("library/examples/replay.c", "library", "share/ceiling"),
    ("library/rust/Cargo.*", "library", "share/ceiling"),
    ("library/rust/build.rs", "library", "share/ceiling"),
    ("library/rust/*/*.rs", "library", "share/ceiling"),
    ("README.md", ".", "share/doc/ceiling"),
    ("docs/*", ".", "share/doc/ceiling"),
    ("samples/*", ".", "share/doc/ceiling"),
]
ENDINGS = (".py", ".css", ".js", ".c", ".cpp", ".toml", ".lock", ".rs", ".md", ".case", ".csv", ".log", ".plan")


def sources(root):
    """Where each plain file comes from: path under the prefix, source in the tree, whether it is a program."""
    for name in PROGRAMS:
        yield f"bin/{name}", f"target/bin/{name}", True
    for name in LIBRARIES:
        yield f"lib/lib{name}.a", f"target/staticlib/lib{name}.a", False
    yield "include/ceiling.h", "library/ceiling.h", False
    yield "lib/ceiling/ceiling", "scripts/ceiling", True
    yield "lib/ceiling/VERSION", "VERSION", False
    for pattern, base, to in TREES:
        found = [os.path.relpath(name, root) for name in glob.glob(os.path.join(glob.escape(root), pattern)) if name.endswith(ENDINGS)]
        for name in sorted(found) or [pattern]:
            yield os.path.join(to, os.path.relpath(name, base)), name, False


def contents(root, prefix):
    """Everything that is installed from the tree at `root`. OSError where something is missing there."""
    found = {"bin/ceiling": Link("../lib/ceiling/ceiling")}
    for path, source, program in sources(root):
        found[path] = File(read(os.path.join(root, source)), 0o755 if program else 0o644)
    places = {b"@prefix@": os.fsencode(prefix), b"@version@": found["lib/ceiling/VERSION"].data.strip()}
    for name in ("ceiling", "ceiling-checker"):
        text = read(os.path.join(root, f"library/{name}.pc.in"))
        text = re.sub(b"|".join(places), lambda place: places[place.group()], text)
        found[f"lib/pkgconfig/{name}.pc"] = File(text, 0o644)
    return found


def read(path):
    with open(path, "rb") as file:
        return file.read()
