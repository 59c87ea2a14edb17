"""The place where things are installed, and the list of what was put there: in each line a mark and a path."""

import os

from installing.contents import File, Link
from installing.marks import FOLDER, mark_at, mark_of, parsed

LIST = "lib/ceiling/installed"


class Foreign(Exception):
    """Something is in the way that was not installed by us."""


class Place:
    def __init__(self, prefix, staged=""):
        """`staged` is the folder (DESTDIR) under which the prefix is made, for packages that are moved there later."""
        self.root = os.path.abspath(staged + prefix)
        self.words = []  # of what was left alone

    def at(self, path):
        return os.path.normpath(os.path.join(self.root, path))

    def listed(self):
        """The marks of each path that was put here before. A path has two while the file of an earlier version is replaced."""
        try:
            with open(self.at(LIST), "rb") as file:
                lines = file.read().decode("utf-8", "surrogateescape").split("\n")
        except (FileNotFoundError, NotADirectoryError):
            return {}
        known = {LIST: {mark_at(self.at(LIST))}}
        for line in lines[:-1] if lines[-1] == "" else lines:
            found = parsed(line)
            if found:
                known.setdefault(found[1], set()).add(found[0])
            else:
                self.words.append(f"{self.at(LIST)} has a line that is none of ours: {ascii(line)}")
        return known

    def foreign(self, path, known):
        """Why what stands at a path is not what was put there; None where it is, or nothing stands."""
        mark, parts = mark_at(self.at(path)), path.split("/")
        if mark is None:
            return None
        for folder in ("/".join(parts[:i]) for i in range(1, len(parts))):
            if folder in known and mark_at(self.at(folder)) != FOLDER:
                return f"{self.at(path)} is not ours: {self.at(folder)} was a folder"
        return None if mark in known.get(path, ()) else f"{self.at(path)} was not installed by this script, or changed since"

    def prepare(self, contents):
        """Asks that only what we put is in the way, and lists what is there and will be. Gives both; where it fails nothing was changed."""
        before = self.listed()
        for path in [*sorted(contents), LIST]:
            why = self.foreign(path, before)
            if why:
                raise Foreign(why)
        new = self.missing_folders([*contents, LIST])
        after = {path: {FOLDER} for path in new.union(path for path in before if FOLDER in before[path])}
        after.update({path: {mark_of(content)} for path, content in contents.items()})
        try:
            os.makedirs(os.path.dirname(self.at(LIST)), mode=0o755, exist_ok=True)
            self.write_list({path: before.get(path, set()) | after.get(path, set()) for path in {*before, *after}})
        except BaseException:
            self.remove_folders(new)
            raise
        return before, after

    def put(self, contents, before, after):
        """Puts everything in place, and takes away what an earlier version had put and this one has not."""
        for path in sorted(contents):
            os.makedirs(os.path.dirname(self.at(path)), mode=0o755, exist_ok=True)
            self.put_one(path, contents[path])
        for path in sorted(set(before) - set(after) - {LIST}):
            self.remove(path, before)
        self.write_list(after)

    def missing_folders(self, paths):
        """The folders of these paths that are not there yet, the prefix itself as `.` and those above it as `..`, `../..` and so on."""
        folders = {"."}
        for path in paths:
            parts = path.split("/")[:-1]
            folders |= {"/".join(parts[: i + 1]) for i in range(len(parts))}
        above = ".."
        while not os.path.lexists(self.at(above)):
            folders.add(above)
            above += "/.."
        return {folder for folder in folders if not os.path.lexists(self.at(folder))}

    def put_one(self, path, content):
        """A file or link, complete or not at all: made under another name and renamed."""
        new = os.path.join(os.path.dirname(self.at(path)), f".{os.path.basename(path)}.{os.getpid()}")
        try:
            if isinstance(content, Link):
                os.symlink(content.target, new)
            else:
                with open(new, "wb") as file:
                    os.fchmod(file.fileno(), content.mode)
                    file.write(content.data)
            os.replace(new, self.at(path))
        except BaseException:
            remove_file(new)
            raise

    def write_list(self, marks):
        lines = [f"{mark} {path}\n" for path in sorted(set(marks) - {LIST}) for mark in sorted(marks[path])]
        self.put_one(LIST, File("".join(lines).encode(), 0o644))

    def remove(self, path, known):
        why = self.foreign(path, known)
        if why:
            self.words.append(f"{why}: left alone")
        else:
            remove_file(self.at(path))

    def remove_folders(self, folders):
        """Those of them that are empty, the deepest first."""
        for folder in sorted(map(self.at, folders), key=len, reverse=True):
            try:
                os.rmdir(folder)
            except OSError:
                pass  # others have something in it, or it is not there

    def clear(self):
        """Takes away what the list names: files, then the list, then folders that are empty."""
        known = self.listed()
        if not known:
            raise Foreign(f"nothing was installed under {self.root}: there is no {self.at(LIST)}")
        folders = {path for path in known if FOLDER in known[path]}
        for path in [*sorted(set(known) - folders - {LIST}), LIST]:
            self.remove(path, known)
        self.remove_folders(folders)


def remove_file(path):
    try:
        os.remove(path)
    except (FileNotFoundError, NotADirectoryError):
        pass
