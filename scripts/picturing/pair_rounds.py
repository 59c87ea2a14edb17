"""Pair rounds: the whole weights of a pair's two links shifted into the pair, as our engine does it."""

from .case import BARRED


def whole_shifts(case, table, pair):
    """A pair round's shifts, as end, channel and amount: end 0 first, channels upwards, weights of 0 and barred channels left out."""
    found = []
    for end, link in enumerate(case.pairs[pair]):
        weights = table[slice(*case.span(link))]
        found += [(end, channel, -weight) for channel, weight in enumerate(weights) if weight not in (0, BARRED)]
    return found


class Begun:
    """The moves of a round so far: the pair whose round they begin, if they begin one, and its shifts that are still due."""

    def __init__(self):
        self.moves = 0
        self.pair = None
        self.due = []

    def shift(self, case, table, pair, *shift):
        """Takes note of a shift that is made next."""
        if self.moves == 0:
            self.pair, self.due = pair, whole_shifts(case, table, pair)
        self.moves += 1
        if pair == self.pair and self.due[:1] == [shift]:
            del self.due[0]
        else:
            self.pair = None

    def press(self):
        self.moves += 1
        self.pair = None

    @property
    def whole(self):
        return self.pair is not None and not self.due
