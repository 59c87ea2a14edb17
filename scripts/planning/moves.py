"""The moves of a log: all of one that was not refused, or those up to the line that was."""

from collections import deque, namedtuple

from picturing.case import read_case
from picturing.columns import COLUMNS, LINE, Refused
from picturing.log import Log, read_log, read_move

from .progress import working
from .sources import changed

BLOCK = 1 << 20
# Lines of a log after which a word is shown meanwhile, and those of a log that is not read again.
LONG, MOST = 20_000, 500_000

# The weights before a line of the log, and the round so far; the press or void line held, if one is.
Standing = namedtuple("Standing", "log line held")


class Held(namedtuple("Held", "kind line link amount count raised")):
    """A press or a void line that waits for raise lines: its kind, line, link, amount (0 of a void line), count, and the scopes raised so far."""

    @property
    def is_press(self):
        return self.kind == 2


class Stretch:
    """The bytes of a source from one place to another, as slices."""

    def __init__(self, source, first, end):
        self.source, self.first, self.end = source, first, end
        self.at, self.block = 0, b""

    def __len__(self):
        return self.end - self.first

    def __getitem__(self, part):
        start, stop = part.start, min(part.stop, len(self))
        if not self.at <= start <= stop <= self.at + len(self.block):
            self.at = start
            self.block = b"".join(self.source.blocks(self.first + start, self.first + max(stop, min(start + BLOCK, len(self)))))
        return self.block[start - self.at : stop - self.at]


def stand_before(case, data, line):
    """The standing before a line, where all lines before it can be taken."""
    log = Log(case, data)
    log.ceilings, log.ends, log.pair_rounds = deque(log.ceilings, maxlen=1), deque([0], maxlen=1), deque(maxlen=1)
    at = 0
    while at < line:
        kind, link, count, _, amount = log.lines.read(at)
        if kind in (2, 5) and at + count >= line:
            raised = [log.lines.read(raise_line)[1] for raise_line in range(at + 1, line)]
            return Standing(log, line, Held(kind, at, link, amount, count, raised))
        at = read_move(log, at)
    return Standing(log, line, None)


def read_again(case, source, first, kind, words):
    """The log of a case that begins at a byte of the source, if it has lines of this kind and is not too long."""
    data = b"".join(source.blocks(first, first + MOST * LINE + 1))
    if len(data) > MOST * LINE or kind not in data[COLUMNS[0][1] - 1 :: LINE]:
        return None
    with working(words, len(data) > LONG * LINE):
        return read_log(read_case(case), data)


def read_lines(case, source, lines=None):
    """The moves of a log that `replay` has read, all or so many lines."""
    data = b"".join(source.chunks() if lines is None else source.blocks(0, lines * LINE))
    try:
        with working("making the moves ..", len(data) > LONG * LINE):
            return read_log(case, data)
    except Refused:
        raise changed(source) from None


def read_judged(case, source, verdict):
    """All moves of a log that `replay` did not refuse: they end as it says."""
    log = read_lines(case, source)
    if log.stopped or bool(log.void) != verdict.void:
        raise changed(source)
    if verdict.accepted and (log.rounds, log.ceilings[-1]) != (verdict.first, verdict.second):
        raise changed(source)
    return log
