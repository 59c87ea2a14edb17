"""`ceiling press`: the log of a case, with the judgement of `replay` on it."""

from . import outputs
from .barring import NO_PLAN, none_above
from .judging import MOST, Judge, TurnedBack, line, why
from .programs import Program, converse
from .progress import Progress
from .rules import counted
from .sources import Source
from .standard import is_terminal, say

# The most rounds that `press` makes.
MOST_ROUNDS = 100_000
REFUSED = b"refused"


def run(options):
    case = Source(options.case, once=True)
    result = outputs.output(options.output)
    progress = Progress(result.descriptor != 1 or not is_terminal(1))
    press = Press(case, result, progress)
    try:
        converse(press.programs)
    finally:
        progress.clear()
    if press.refusal:
        raise TurnedBack(press.refusal.partition(b"\n")[0].decode("utf-8", "replace"), why(case.name))
    verdict = press.judged.verdict()
    if verdict.refused:
        raise TurnedBack("ceiling: replay turned back the log that press made", line(verdict))
    outputs.put_in_place(result)
    say(line(verdict), NO_PLAN if verdict.void else f"{summary(verdict.first)}: {none_above(case.front(), verdict.second)}")
    return 0


def summary(rounds):
    how = f"settled after {counted(rounds, 'round')}" if rounds else "settled at once"
    if rounds >= MOST_ROUNDS:
        how = f"the limit of {rounds} rounds was reached, perhaps not settled"
    return how


class Press:
    """`press` on a case; its log goes to the result and to `replay` while it is made."""

    def __init__(self, case, result, progress):
        self.case, self.result, self.progress = case, result, progress
        self.held = b""
        self.refusal = b""
        self.judged = None
        self.programs = []
        self.programs.append(Program("press", case.chunks(), self.take, self.over))

    def take(self, data):
        """Hands whole lines on, up to a refusal."""
        data = self.held + data
        end = data.rfind(b"\n") + 1
        whole, self.held = data[:end], data[end:]
        if self.refusal:
            return
        at = refusal_in(whole)
        self.refusal = whole[at : at + MOST]
        self.hand_on(whole[:at])

    def over(self):
        """Hands on what is left of a line."""
        if self.held.startswith(REFUSED) and not self.refusal:
            self.refusal = self.held[:MOST]
        if not self.refusal:
            self.hand_on(self.held)
            self.judge()
        if self.judged:
            self.judged.program.more = False

    def hand_on(self, lines):
        if lines:
            self.progress.lines(lines)
            self.result.write(lines)
            self.judge().hand(lines)

    def judge(self):
        """`replay`, started when there is something to judge."""
        if self.judged is None:
            self.judged = Judge(self.case.chunks(), more=True)
            self.programs.append(self.judged.program)
        return self.judged.program


def refusal_in(lines):
    """Where a line that begins with `refused` stands; else the end."""
    at = lines.find(REFUSED)
    while at > 0 and lines[at - 1] != 10:
        at = lines.find(REFUSED, at + 1)
    return at if at >= 0 else len(lines)
