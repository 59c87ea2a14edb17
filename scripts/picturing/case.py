"""The case sheet: links, channels, pairs, starting weights and what is barred."""

from .columns import LINE, Lines, line

MOST_LINKS, MOST_CHANNELS, MOST_PAIRS = 48, 8, 96
STARTING = 1_000_000
# What a barred place holds in a table, and the kinds of lines that bar a place instead of giving its weight.
BARRED = -2_000_000_000
BARRING = {11: 14, 13: 15}


def line_count(n, d, m):
    """The lines of a case: head, link weights, and each pair with its weights."""
    return 1 + n * d + m * (1 + d * d)


# The bytes of the longest case.
MOST_BYTES = LINE * line_count(MOST_LINKS, MOST_CHANNELS, MOST_PAIRS)


class Case:
    def __init__(self, data, n, d, m):
        self.data = data
        self.n, self.d, self.m = n, d, m
        self.pairs = []
        self.weights = []

    @property
    def scopes(self):
        return self.n + self.m

    def span(self, scope):
        """Where a scope's weights lie in the table."""
        n, d = self.n, self.d
        if scope < n:
            return scope * d, (scope + 1) * d
        first = n * d + (scope - n) * d * d
        return first, first + d * d

    def barred(self, scope):
        """How many combinations of a scope are barred."""
        return self.weights[slice(*self.span(scope))].count(BARRED)

    def used(self, table, plan):
        """The weight of each scope that a plan uses by this table."""
        pairs = [plan[low] * self.d + plan[high] for low, high in self.pairs]
        return [table[self.span(scope)[0] + at] for scope, at in enumerate([*plan, *pairs])]

    @property
    def bars(self):
        """Whether anything is barred."""
        return BARRED in self.weights


def read_case(data):
    lines = Lines("case", data)
    case = read_head(lines)
    at = 1
    for link in range(case.n):
        for value in range(case.d):
            read_weight(lines, at, case, [11, link, value, 0])
            at += 1
        not_wholly_barred(lines, at - 1, case, link)
    for pair in range(case.m):
        read_pair(lines, at, case, pair)
        at += 1
        for k in range(case.d):
            for l in range(case.d):
                read_weight(lines, at, case, [13, pair, k, l])
                at += 1
        not_wholly_barred(lines, at - 1, case, case.n + pair)
    if len(data) > at * LINE:
        lines.read(at)
        lines.refuse(at, "the case is complete before this line")
    return case


def read_head(lines):
    kind, n, d, m, amount = lines.read(0)
    if kind != 10 or amount != 0:
        lines.refuse(0, "a case begins with its head, kind 10")
    if not (1 <= n <= MOST_LINKS and 1 <= d <= MOST_CHANNELS and 0 <= m <= MOST_PAIRS):
        lines.refuse(0, f"1 to {MOST_LINKS} links, 1 to {MOST_CHANNELS} channels and 0 to {MOST_PAIRS} pairs can be drawn")
    return Case(lines.data, n, d, m)


def read_weight(lines, at, case, due):
    """The weight of the place that is due, or that it is barred."""
    names = {11: "link {1}, channel {2}", 13: "pair {1}, channels {2} and {3}"}
    *place, amount = lines.read(at)
    if place[0] not in (due[0], BARRING[due[0]]) or place[1:] != due[1:]:
        lines.refuse(at, "here the weight of " + names[due[0]].format(*due) + " is due, or that it is barred")
    barred = place[0] != due[0]
    if barred and amount != 0:
        lines.refuse(at, "what is barred has no weight: the amount is 0")
    if abs(amount) > STARTING:
        lines.refuse(at, f"a starting weight lies between {-STARTING:,} and {STARTING:,}")
    case.weights.append(BARRED if barred else amount)


def not_wholly_barred(lines, at, case, scope):
    first, end = case.span(scope)
    if case.barred(scope) == end - first:
        what = f"channels of link {scope}" if scope < case.n else f"combinations of pair {scope - case.n}"
        lines.refuse(at, f"all {what} are barred, one at least must not be")


def read_pair(lines, at, case, pair):
    kind, number, low, high, amount = lines.read(at)
    if (kind, number, amount) != (12, pair, 0):
        lines.refuse(at, f"here the line of pair {pair} is due")
    if not (0 <= low < case.n and 0 <= high < case.n):
        lines.refuse(at, "the pair names a link that the case does not have")
    if low >= high:
        lines.refuse(at, "a pair's first link is below its second")
    if (low, high) in case.pairs:
        lines.refuse(at, "the two links are already paired")
    case.pairs.append((low, high))


def write_case(values, links, pairs):
    """The text of a case: each link's weights, and each pair (lower link, higher link, weights)."""
    text = [line(10, len(links), values, len(pairs))]
    text += [weight_line(11, i, k, 0, weights[k]) for i, weights in enumerate(links) for k in range(values)]
    for e, (first, second, weights) in enumerate(pairs):
        text.append(line(12, e, first, second))
        text += [weight_line(13, e, k, l, weights[k * values + l]) for k in range(values) for l in range(values)]
    return b"".join(text)


def weight_line(kind, a, b, c, weight):
    return line(BARRING[kind], a, b, c) if weight == BARRED else line(kind, a, b, c, weight)
