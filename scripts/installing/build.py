"""Proves and builds programs and static libraries, and puts them where all else looks for them: target/bin and target/staticlib."""

import os
import shutil
import subprocess

# A program asks for its processor as it starts, a library never does: it is built for every x86-64 there is.
LIBRARY = ["rt", "lib", "--cpu=x86-64"]
# `rt` builds a program when it runs it; here it is handed an empty input, and what it prints is dropped.
PROGRAM = ["rt", "run"]


def build(root, names):
    """OSError where one is not proved or not built; those before it are in place."""
    for name in names:
        folder = os.path.join(root, "crates", name)
        program = os.path.isfile(os.path.join(folder, "src", "main.rt"))
        command, file, place = (PROGRAM, name, "bin") if program else (LIBRARY, f"lib{name}.a", "staticlib")
        if not os.path.isdir(folder):
            raise OSError(f"there is no crate {name}")
        if subprocess.run(command, cwd=folder, stdin=subprocess.DEVNULL, stdout=subprocess.DEVNULL if program else None).returncode:
            raise OSError(f"{' '.join(command)} in crates/{name} failed")
        put(os.path.join(folder, "out", file), os.path.join(root, "target", place))


def put(made, folder):
    """Complete or not at all, and a program that runs goes on running: made under another name and renamed."""
    os.makedirs(folder, exist_ok=True)
    new = os.path.join(folder, f".{os.path.basename(made)}.{os.getpid()}")
    try:
        shutil.copy(made, new)
        os.replace(new, os.path.join(folder, os.path.basename(made)))
    finally:
        if os.path.lexists(new):
            os.remove(new)
