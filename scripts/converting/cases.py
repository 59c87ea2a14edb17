"""Cases as numbers, made at random, all their plans, and damaged bytes."""

import itertools
from collections import namedtuple

from picturing.case import BARRED, MOST_CHANNELS, MOST_LINKS, MOST_PAIRS, STARTING, read_case, write_case

LARGEST = (MOST_LINKS, MOST_CHANNELS, MOST_PAIRS)
# Weights by kind; the middle kind is the widest whose costs always fit the weights without being lifted.
WEIGHTS = {
    "zero": lambda random: 0,
    "small": lambda random: random.randint(-9, 9),
    "half": lambda random: random.randint(-STARTING // 2, STARTING // 2),
    "uniform": lambda random: random.randint(-STARTING, STARTING),
    "extreme": lambda random: random.choice([-STARTING, 1 - STARTING, -1, 0, 1, STARTING - 1, STARTING]),
}


class Case(namedtuple("Case", "values links pairs")):
    """Each link's weights, and each pair (lower link, higher link, weights)."""

    def text(self):
        return write_case(*self)

    def lowered(self):
        """Every scope lowered until its greatest weight is 0, or its least as low as it may be; and the sum of what they were lowered by."""
        known = self.links + [weights for _, _, weights in self.pairs]
        by = [min(max(weights), min(weight for weight in weights if weight != BARRED) + STARTING) for weights in known]
        new = [[weight if weight == BARRED else weight - less for weight in weights] for weights, less in zip(known, by)]
        pairs = [(i, j, weights) for (i, j, _), weights in zip(self.pairs, new[len(self.links) :])]
        return Case(self.values, new[: len(self.links)], pairs), sum(by)

    def ceiling(self):
        return sum(map(max, self.links + [weights for _, _, weights in self.pairs]))

    def total(self, plan):
        """The total of a plan, None where it is unlawful."""
        used = [weights[k] for weights, k in zip(self.links, plan)] + [weights[plan[i] * self.values + plan[j]] for i, j, weights in self.pairs]
        return None if BARRED in used else sum(used)

    def barring(self, random, share):
        """The same with so many of a hundred places barred, one place of each scope left."""
        links = [barred(random, weights, share) for weights in self.links]
        return Case(self.values, links, [(i, j, barred(random, weights, share)) for i, j, weights in self.pairs])

    def plans(self):
        return itertools.product(range(self.values), repeat=len(self.links))


def barred(random, weights, share):
    left = random.randrange(len(weights))
    return [BARRED if at != left and random.randrange(100) < share else weight for at, weight in enumerate(weights)]


def case_of(text):
    """A case's text as numbers."""
    known = read_case(text)
    scopes = [known.weights[slice(*known.span(scope))] for scope in range(known.scopes)]
    return Case(known.d, scopes[: known.n], [(*pair, weights) for pair, weights in zip(known.pairs, scopes[known.n :])])


def made(random, size, kind):
    n, d, m = size
    weight = WEIGHTS[kind]
    links = [[weight(random) for _ in range(d)] for _ in range(n)]
    joined = random.sample(list(itertools.combinations(range(n), 2)), m)
    return Case(d, links, [(i, j, [weight(random) for _ in range(d * d)]) for i, j in joined])


def sizes(random):
    """The smallest and the largest, thin ones, and some between."""
    yield from ((1, 1, 0), (1, MOST_CHANNELS, 0), (2, 1, 1), (2, MOST_CHANNELS, 1), LARGEST, (MOST_LINKS, 1, MOST_PAIRS), (MOST_LINKS, 2, 0))
    for _ in range(8):
        yield small_size(random, 12)


def small_size(random, most):
    n = random.randint(1, most)
    return n, random.randint(1, 4), random.randint(0, min(2 * n, n * (n - 1) // 2))


def damaged(random, data):
    """One to three changes: a byte put in, taken out or changed, a stretch taken out or doubled, the end cut off."""
    for _ in range(random.randint(1, 3)):
        at = random.randrange(len(data) + 1)
        upto = min(len(data), at + random.randint(1, 30))
        byte = random.choice([bytes([random.randrange(256)]), random.choice([b"0", b"9", b"-", b" ", b"\n", b"\r", b",", b";", b"\t", b'"', b"\0"])])
        data = random.choice(
            [
                data[:at] + byte + data[at:],
                data[:at] + data[at + 1 :],
                data[:at] + byte + data[at + 1 :],
                data[:at] + data[upto:],
                data[:upto] + data[at:],
                data[:at],
            ]
        )
    return data
