"""Marks by which what was put is known again: of a file the SHA-256 of its bytes, of a link that of where it points, of a folder that it is one."""

import hashlib
import os
import re
import stat

from installing.contents import File, Link, read

FOLDER = "folder"
LINK = "link:"
MARK = re.compile(rf"{FOLDER}|({LINK})?[0-9a-f]{{64}}")


def mark_of(content):
    if isinstance(content, Link):
        return LINK + hashlib.sha256(os.fsencode(content.target)).hexdigest()
    return hashlib.sha256(content.data).hexdigest()


def mark_at(path):
    """The mark of what stands at a path, None where nothing does."""
    try:
        mode = os.lstat(path).st_mode
    except (FileNotFoundError, NotADirectoryError):
        return None
    if stat.S_ISLNK(mode):
        return mark_of(Link(os.readlink(path)))
    if stat.S_ISREG(mode):
        return mark_of(File(read(path), mode))
    return FOLDER if stat.S_ISDIR(mode) else "neither"


def parsed(line):
    """The mark and the path of a line of the list, None where it has none of ours."""
    mark, _, path = line.partition(" ")
    parts = path.split("/")
    within = path.isprintable() and not {"", ".", ".."} & set(parts)
    upwards = mark == FOLDER and set(parts) <= {".", ".."}
    return (mark, path) if MARK.fullmatch(mark) and (within or upwards) else None
