#!/usr/bin/env python3
"""Spells the repository's own definitions, fields and lemmas in snake case: isRising becomes is_rising, mark-byteOf becomes mark-byte_of.

usage: tools/snake_names.py     at the top of the repository, once, right after /opt/rattle/port/port.py

It turns every name of src/, specs/, proofs/ and must-fail/ one of whose parts is in camel case, and the same names in README.md and docs/. Names of
the kit stay, and so does what Rust spells in camel case: types, variants, modules. Where a lemma has the name that a definition gets, the lemma
has a dash between its words (APART).
"""

import os
import re

TOKEN = re.compile(r"(?<![\w'-])[A-Za-z_][\w'₀-₉]*(?:-[\w'₀-₉]+)*")
PART = re.compile(r"[a-z][a-z0-9]*(?:[A-Z][a-z0-9]*)+'?")
OF_THE_KIT = {"toRight"}
# A crate, and lemmas of it that have a definition's new name.
APART = {
    "arcs": ["none_has"],
    "checker": ["lent_length", "no_line", "more_by", "step_line"],
    "engine": ["pair_made"],
    "log_checker": ["more_by"],
    "marks": ["first_of"],
}
# first_of is the word of a tactic.
RENAMED = {"first_of": "first_refusal"}


def turned(name):
    if name in OF_THE_KIT:
        return name
    parts = re.split(r"([-_])", name)
    new = "".join(re.sub("[A-Z]", lambda m: "_" + m[0].lower(), it) if PART.fullmatch(it) else it for it in parts)
    return RENAMED.get(new, new)


def below(top, endings):
    for folder, folders, files in os.walk(top):
        folders[:] = sorted(it for it in folders if it != "out")
        yield from (os.path.join(folder, it) for it in sorted(files) if it.endswith(endings))


def change(path, turn):
    with open(path, encoding="utf-8", newline="") as f:
        old = f.read()
    new = turn(old)
    if new != old:
        with open(path, "w", encoding="utf-8", newline="") as f:
            f.write(new)


def main():
    for crate, names in APART.items():
        words = "|".join(map(re.escape, names))
        lemma = re.compile(rf"(?<![\w.'-])({words})(?![\w.'-])")
        for path in below(os.path.join("crates", crate, "proofs"), ".antt"):
            change(path, lambda text: lemma.sub(lambda m: m[1].replace("_", "-"), text))
    names = set()

    def turn(text):
        names.update(it for it in TOKEN.findall(text) if turned(it) != it)
        return TOKEN.sub(lambda m: turned(m[0]), text)

    for path in below("crates", (".rt", ".antt", ".edit")):
        change(path, turn)
    for path in ["README.md", *below("docs", ".md")]:
        change(path, lambda text: TOKEN.sub(lambda m: turned(m[0]) if m[0] in names else m[0], text))


if __name__ == "__main__":
    main()
