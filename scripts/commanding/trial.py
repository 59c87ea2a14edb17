"""What the tests of the command share: the command, the programs, a folder for files, the count."""

import os
import re

from picturing.case import read_head
from picturing.columns import LINE, Lines, Refused
from running import process
from running.command import Command
from running.counting import Count
from running.stand_ins import StandIns


class Trial:
    def __init__(self, root, paths, folder):
        self.root, self.folder = root, folder
        self.programs = dict(zip(("replay", "press", "peer"), paths))
        for name in ("families", "calls"):
            self.programs[name] = os.path.join(os.path.dirname(paths[0]), f"{name}_vectors")
        self.stand_ins = StandIns(folder, self.programs["press"], self.programs["replay"])
        self.command = Command(os.path.join(root, "scripts", "ceiling"), "planning", "CEILING_PROGRAMS", self.stand_ins.folder())
        self.ask, self.run, self.start, self.end = self.command.ask, self.command.run, self.command.start, self.command.end
        self.count = Count()
        self.made, self.printed = 0, {}

    def test(self, name, good, word=""):
        """A test; what is wrong is printed on one line."""
        self.count.test(name, good, ascii(word)[1:-1])

    def file(self, name, data):
        """A file of this name in a folder of its own."""
        path = os.path.join(self.empty(), name)
        with open(path, "wb") as file:
            file.write(data)
        return path

    def empty(self):
        """An empty folder."""
        self.made += 1
        path = os.path.join(self.folder, str(self.made))
        os.mkdir(path)
        return path

    def both(self, case, log):
        return self.file("plan.case", case), self.file("plan.log", log)

    def real(self, program, data):
        """What a program itself prints."""
        if (program, data) not in self.printed:
            self.printed[program, data] = process.on_file([self.programs[program]], data).printed
        return self.printed[program, data]

    def peer(self, *words, data=b""):
        """What the peer prints, which leaves and joins no links: the programs do not yet (docs/changes/05.md)."""
        return process.on_file([self.programs["peer"], *words, "--no-joins"], data).printed

    def verdict(self, case, log):
        """What `replay` says of the case alone where it is refused, else of both."""
        first = self.real("replay", case)
        return first if first.startswith(b"refused") else self.real("replay", case + log)

    def sample(self, *path):
        with open(os.path.join(self.root, "samples", *path), "rb") as file:
            return file.read()

    def samples(self, program):
        """The stored pairs: name, input and what the program prints."""
        for file in sorted(os.listdir(os.path.join(self.root, "samples", program))):
            name, ending = os.path.splitext(file)
            if ending == ".in":
                yield name, self.sample(program, file), self.sample(program, name + ".out")

    def ends(self, name, ended, status, out=None, err=None):
        """A test of the exit status and, where they are given, of standard output and standard error."""
        wrong = [] if ended.status == status else [f"status {ended.status} instead of {status}"]
        for stream, got, wanted in (("output", ended.out, out), ("error", ended.err, err)):
            if wanted is not None and got != wanted:
                wrong.append(f"standard {stream} {got[:80]} of {len(got)} bytes instead of {wanted[:80]} of {len(wanted)}")
        self.test(name, not wrong, ", ".join(wrong) + f"; standard error {ended.err[-300:]}" if wrong else "")


def cut(data):
    """An input as a case and the log after it; where its head cannot be read, all of it as the case."""
    try:
        case = read_head(Lines("case", data))
    except Refused:
        return data, b""
    end = lines(case.n, case.d, case.m) * LINE
    return data[:end], data[end:]


def lines(n, d, m):
    """How many lines a case has."""
    return 1 + n * d + m * (1 + d * d)


def plain(text):
    """Words as they are searched: digits without separators, a plain minus sign."""
    text = text.decode("utf-8", "replace").replace("\u2212", "-")
    return re.sub(r"(?<=\d)[,_\u202f](?=\d{3}(?!\d))", "", text)


def last_line(text):
    return text.rstrip(b"\n").rpartition(b"\n")[2]
