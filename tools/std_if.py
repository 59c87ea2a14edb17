#!/usr/bin/env python3
"""Takes `if .. then .. else ..` from the kit's library, where the repository had its own: `rt ci` refuses another one under that name.

usage: tools/std_if.py     at the top of the repository, once, after tools/snake_names.py
"""

import os
import re

NAME = "if◌then◌else◌"
OURS = re.compile(r"(?m)^((?:ghost )?use Rattle\.integers\.specs\.Words\.\{)([^}]*)(\};?)\n")
STD = re.compile(r"(?m)^((?:ghost )?use Rattle\.std\.specs\.Prelude\.\{)([^}]*)(\};?)$")


def turned(text):
    for line in OURS.finditer(text):
        names = [it.strip() for it in line[2].split(",")]
        if NAME not in names:
            continue
        names.remove(NAME)
        rest = f"{line[1]}{', '.join(names)}{line[3]}\n" if names else ""
        text = text.replace(line[0], rest, 1)
        std = STD.search(text)
        if std:
            return text.replace(std[0], f"{std[1]}{std[2]}, {NAME}{std[3]}", 1)
        new = line[1].replace("Rattle.integers.specs.Words", "Rattle.std.specs.Prelude") + NAME + line[3] + "\n"
        if rest:
            return text.replace(rest, new + rest, 1)
        at = line.start()
        return text[:at] + new + text[at:]
    return text


def main():
    for folder, folders, files in os.walk("crates"):
        folders[:] = [it for it in folders if it != "out"]
        for it in files:
            if it.endswith((".rt", ".antt")):
                path = os.path.join(folder, it)
                with open(path, encoding="utf-8") as f:
                    old = f.read()
                new = turned(old)
                if new != old:
                    with open(path, "w", encoding="utf-8") as f:
                        f.write(new)
    path = "crates/integers/specs/Words.antt"
    with open(path, encoding="utf-8") as f:
        text = f.read()
    text = text.replace(f"infix 4 {NAME}\n", "")
    text = re.sub(rf"abbrev pub {NAME} .*\nif true then a else b = a\nif false then a else b = b\n\n", "", text)
    if not re.search(rf"(?m)^use .*{NAME}", text):
        text = re.sub(r"(?m)^use ", f"use Rattle.std.specs.Prelude.{{{NAME}}}\nuse ", text, count=1)
    with open(path, "w", encoding="utf-8") as f:
        f.write(text)


if __name__ == "__main__":
    main()
