"""Loops of pairs: ways from a link along pairs and back to it, on which no link and no pair comes twice."""

from collections import namedtuple

# The first pair that closes a loop with pairs before it, and the links of this loop from the pair's lower link to its higher one.
Loop = namedtuple("Loop", "pair links")


def first_loop(case):
    """The loop that is closed first; None where the pairs form none."""
    beside = [[] for _ in range(case.n)]
    for pair, (low, high) in enumerate(case.pairs):
        links = way(beside, low, high)
        if links:
            return Loop(pair, links)
        beside[low].append(high)
        beside[high].append(low)
    return None


def way(beside, first, last):
    """The links on the way from one link to another where each has these beside it; None where there is no way."""
    before, reached = {first: None}, [first]
    for link in reached:
        for other in beside[link]:
            if other not in before:
                before[other] = link
                reached.append(other)
    if last not in before:
        return None
    found = [last]
    while found[-1] != first:
        found.append(before[found[-1]])
    return found[::-1]
