"""Inputs made by plain rules, with the answer that document 01 gives to each."""

from picturing.case import write_case as case
from picturing.columns import LINE, line

BLOCK = 262144

P4 = case(2, [[2, 0], [2, 0]], [(0, 1, [-3, 0, 0, 0])])
# Its one round, and a press that another engine could make instead, to the same ceiling.
P4_ROUND = line(1, 0, 0, 0, -2) + line(1, 0, 1, 0, -2) + line(4, 0, 0, 0, 2)
P4_PRESS = line(2, 0, 2, 0, 2) + line(3, 1) + line(3, 2) + line(4, 0, 0, 0, 2)


def shifts(count):
    """Shifts of P4's pair that together change nothing: +1, -1, +1, -1 .., with +1, +1, -2 first where their count is odd."""
    amounts = [1, 1, -2] if count % 2 else []
    amounts += [1, -1] * ((count - len(amounts)) // 2)
    return b"".join(line(1, 0, 0, 0, amount) for amount in amounts)


def accepted_log(lines):
    """P4's case, shifts that change nothing and P4's press, so many lines in all: `accepted 1 2`."""
    return P4 + shifts(lines - len(P4 + P4_PRESS) // LINE) + P4_PRESS


# A line that each replay of P4 turns back where a move or bound is due, and its number.
FAULTS = [
    (b"x" * LINE, 1),
    (line(3, 1), 2),
    (line(1, 0, 0, 0, 0), 5),
    (line(1, 0, 0, 1, 1000000000), 11),
    (line(4, 0, 0, 0, 99), 12),
]


def with_line(text, at, new):
    return text[: at * LINE] + new + text[(at + 1) * LINE :]


def long_round():
    """A case whose one round raises 141 scopes, all but the pressed link's own, and its log.

    Two chains go through all 48 links, both from link 0 to link 47, over 94 pairs. Along the first value 0 is followed by 0 or 1, and 1 and 2 by
    2; along the second 3, 4 and 5 do the same; a chain asks nothing of the other's values but to stay among them. Link 0 begins with 0 or 3, the
    last link may end with 2 or 5 only, and 1 and 4 are inactive everywhere: each pair and each later link is needed to refute both values of link 0.
    """
    links = [[0, -1, -1] * 2] + [[0, -1, 0] * 2] * 46 + [[-1, -1, 0] * 2]
    second = list(range(0, 48, 2)) + list(range(1, 48, 2))
    pairs = []
    for chain, own in ((range(48), 0), (second, 3)):
        for first, next_one in zip(chain, chain[1:]):
            weights = [-1 if k // 3 != l // 3 or k // 3 == own // 3 else 0 for k in range(6) for l in range(6)]
            for k, l in ((0, 0), (0, 1), (1, 2), (2, 2)):
                at = (own + k, own + l) if first < next_one else (own + l, own + k)
                weights[at[0] * 6 + at[1]] = 0
            pairs.append((min(first, next_one), max(first, next_one), weights))
    log = line(2, 0, 141, 0, 1) + b"".join(line(3, scope) for scope in range(1, 142)) + line(4, 0, 0, 0, -1)
    return case(6, links, pairs), log


def many_rounds():
    """A case of 161 rounds, all presses, and its log.

    Link 0 has a pair with each of 23 other links, and each of these with one more. The pair with link 0 asks for another value than 0 there, and
    then the second pair for value 7 of the last link, which weighs 7 less than its value 0 and is reached in steps of 1. In each pair by itself
    the greatest weights go together. One such chain is enough to refute the values of link 0, and scopes are dropped upwards, so that the last one
    is kept until it is done.
    """
    links = [[0] * 8] + [[0] * 8, [-l for l in range(8)]] * 23
    first = [-100 if l == 0 else 0 for k in range(8) for l in range(8)]
    second = [0 if k == 0 or l == 7 else -100 for k in range(8) for l in range(8)]
    log = []
    for step in range(161):
        e = 22 - step // 7
        raised = (2 * e + 2, 47 + 2 * e, 48 + 2 * e)
        log += [line(2, 0, 3, 0, 1), *map(line, (3, 3, 3), raised), line(4, 0, 0, 0, -step - 1)]
    chains = [pair for e in range(23) for pair in ((0, 2 * e + 1, first), (2 * e + 1, 2 * e + 2, second))]
    return case(8, links, chains), b"".join(log)


def pair_rounds():
    """A case of 24 pair rounds, and its log.

    In each pair the lower link, all of whose values weigh 0, has no choice but the higher one's value 7, which weighs 7 less than value 0.
    """
    links = [[0] * 8, [-l for l in range(8)]] * 24
    weights = [0 if l == 7 else -100 for k in range(8) for l in range(8)]
    log = []
    for e in range(24):
        log += [line(1, e, 1, l, l) for l in range(1, 8)] + [line(4, 0, 0, 0, -7 * (e + 1))]
    return case(8, links, [(2 * e, 2 * e + 1, weights) for e in range(24)]), b"".join(log)
