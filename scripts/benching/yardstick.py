"""The cases on which ceilings are compared, and the best total of a plan where it can be found."""

from running import process

KINDS = ("uniform", "small", "chain", "ring", "mesh")
SIZES = ((4, 3, 6), (6, 4, 12), (12, 4, 24), (24, 4, 48), (24, 8, 48), (48, 4, 96), (48, 8, 96))
SEEDS = range(7, 12)
# Cases of at most so many plans are listed.
LISTED = 5000
# No table of the elimination is longer.
LONGEST = 3_000_000


class Differs(Exception):
    """Answers that do not go together."""


def generate(peer, kind, size, seed):
    """The text of a case."""
    options = [word for pair in zip(("--links", "--values", "--pairs"), map(str, size)) for word in pair]
    ended = process.on_file([peer, "generate", kind, "--seed", str(seed), *options], b"")
    if not ended.well:
        raise Differs("the peer did not end by itself")
    return ended.printed


def listed(case):
    """The best total of all plans, where they are few."""
    return max(map(case.total, case.plans())) if case.values ** len(case.links) <= LISTED else None


def eliminated(case):
    """The best total, one link after another taken out of the case; None where a table would be too long."""
    d = case.values
    tables = [((i,), weights) for i, weights in enumerate(case.links)] + [((i, j), weights) for i, j, weights in case.pairs]
    left = set(range(len(case.links)))
    while left:
        link = min(left, key=lambda i: (len(around(tables, i)), i))
        others = sorted(around(tables, link) - {link})
        if d ** (len(others) + 1) > LONGEST:
            return None
        whole = joined([table for table in tables if link in table[0]], others + [link], d)
        best = [max(whole[at : at + d]) for at in range(0, len(whole), d)]
        tables = [table for table in tables if link not in table[0]] + [(tuple(others), best)]
        left.remove(link)
    return sum(best[0] for _, best in tables)


def around(tables, link):
    """The links that have a table in common with this one."""
    return {other for links, _ in tables if link in links for other in links}


def joined(tables, links, d):
    """The sum of tables as one over these links, the last one fastest."""
    whole = [0] * d ** len(links)
    for own, weights in tables:
        places = [0]
        for link in links:
            step = d ** (len(own) - 1 - own.index(link)) if link in own else 0
            places = [place + step * k for place in places for k in range(d)]
        whole = [total + weights[place] for total, place in zip(whole, places)]
    return whole
