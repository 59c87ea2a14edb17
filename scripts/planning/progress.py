"""What is shown on one line of a terminal meanwhile: the rounds so far and the falling ceiling, or that there is work."""

import contextlib
import os
import time

from picturing.columns import COLUMNS, LINE

from .standard import is_terminal

FIRST, EVERY = 0.4, 0.2
BOUND = b"4"
CLEAR = b"\r\x1b[K"


@contextlib.contextmanager
def working(words, long):
    """Shows on a terminal that there is long work, until the block is done."""
    shown = long and is_terminal(2)
    if shown:
        put(words.encode())
    try:
        yield
    finally:
        if shown:
            put(CLEAR)


def put(data):
    """Whether the data could be written to standard error."""
    try:
        return os.write(2, data) > 0
    except OSError:
        return False


class Progress:
    def __init__(self, shown):
        self.shown = shown and is_terminal(2)
        self.next = time.monotonic() + FIRST
        self.rounds = 0
        self.ceiling = None
        self.drawn = False

    def lines(self, data):
        """Takes note of whole lines of the log."""
        kinds = data[COLUMNS[0][1] - 1 :: LINE]
        self.rounds += kinds.count(BOUND)
        last = kinds.rfind(BOUND)
        if last >= 0:
            start, end = COLUMNS[4]
            self.ceiling = data[last * LINE + start : last * LINE + end].decode("ascii", "replace").strip()
        if self.shown and time.monotonic() >= self.next:
            self.draw()

    def draw(self):
        self.next = time.monotonic() + EVERY
        self.drawn = True
        self.shown = put(CLEAR + f"{self.rounds:,} rounds, ceiling {self.ceiling}".encode())

    def clear(self):
        if self.drawn:
            put(CLEAR)
            self.drawn = False
