"""The judgements of `replay`."""

import re
import shlex
from collections import namedtuple

from .failed import Failed
from .programs import Program, converse
from .unfit import Unfit

LINE = re.compile(rb"(?:(accepted) ([0-9]{1,20}) (-?[0-9]{1,20})|(refused) ([0-9]{1,20}) ([0-9]{1,20})|(void))\n")
# More than `replay` ever prints.
MOST = 1000


class Verdict(namedtuple("Verdict", "printed word first second")):
    """The line as it was printed, and what it says: rounds and ceiling where accepted, number and line where refused, nothing where void."""

    @property
    def accepted(self):
        return self.word == b"accepted"

    @property
    def refused(self):
        return self.word == b"refused"

    @property
    def void(self):
        return self.word == b"void"


class TurnedBack(Exception):
    """A refusal that ends a command, as lines for standard error."""

    def __init__(self, *lines):
        super().__init__()
        self.lines = lines


class Judge:
    """`replay`, which is handed a case and its log."""

    def __init__(self, pieces, more=False):
        self.printed = b""
        self.program = Program("replay", pieces, self.take, more=more)

    def take(self, data):
        self.printed = (self.printed + data)[:MOST]

    def verdict(self):
        return verdict(self.printed)


def verdict(printed):
    match = LINE.fullmatch(printed)
    if not match:
        raise Failed("replay gave no judgement")
    word, *numbers = [group for group in match.groups() if group]
    return Verdict(printed, word, *map(int, numbers or [0, 0]))


def judge(*inputs):
    """The verdict on inputs one after another, each a list of pieces."""
    judged = Judge(piece for pieces in inputs for piece in pieces)
    converse([judged.program])
    return judged.verdict()


def judge_case(case):
    """The verdict on the case alone; it is turned down where it holds a log as well."""
    verdict = judge(case.chunks())
    if verdict.void or verdict.accepted and verdict.first > 0:
        raise Unfit(f"{case.label}: the file holds a log as well as a case (`{line(verdict)}`); give the case alone")
    return verdict


def judge_log(case, log):
    """The verdict on case and log. The log is asked only where the case is whole, so that no line of one can stand in the other."""
    verdict = judge_case(case)
    return judge(case.chunks(), log.chunks()) if verdict.accepted else verdict


def line(verdict):
    """The printed line as text, without its line feed."""
    return verdict.printed.decode().rstrip("\n")


def why(*names):
    return f"`ceiling explain {' '.join(map(shlex.quote, names))}` says why"


def valid_case(case):
    """The bytes of a case that `replay` accepts; of another one the refusal, as words."""
    verdict = judge_case(case)
    if verdict.refused:
        raise TurnedBack(line(verdict), why(case.name))
    return case.front()
