"""The log's moves, made on the weights without asking whether active channels are refuted (number 10)."""

from collections import namedtuple

from .case import BARRED
from .columns import LINE, Lines, NotInColumns, Refused
from .pair_rounds import Begun

WORKING = 500_000_000
MOVE = 1_000_000_000

# A void line: where it stands in the log, its link and the scopes that it raises.
Void = namedtuple("Void", "line link raised")


class Log:
    def __init__(self, case, data):
        self.lines = Lines("log", data, len(case.data) // LINE)
        self.data = data
        self.case = case
        self.table = list(case.weights)
        self.greatest = [max(self.weights(scope)) for scope in range(case.scopes)]
        self.ceilings = [sum(self.greatest)]
        self.ends = []
        self.begun = Begun()
        # Which rounds are pair rounds.
        self.pair_rounds = []
        # The void line with which the log ends.
        self.void = None
        self.stopped = None

    @property
    def rounds(self):
        return len(self.ends)

    def weights(self, scope):
        return self.table[slice(*self.case.span(scope))]


def read_log(case, data):
    """Every whole round up to the first line that breaks a rule the picture can see, and the void line after them."""
    log = Log(case, data)
    at = 0
    try:
        while at * LINE < len(data):
            at = read_move(log, at)
        if at > (log.ends[-1] if log.ends else 0) and log.void is None:
            log.lines.refuse(at, "the log stops inside a round")
    except NotInColumns:
        raise
    except Refused as refused:
        log.stopped = refused
    return log


def read_move(log, at):
    """Makes the move, the bound or the void line at a line; the line after it."""
    kind, a, b, c, amount = log.lines.read(at)
    if log.void:
        log.lines.refuse(at, "nothing is due any more after a void line")
    if kind == 1:
        shift(log, at, a, b, c, amount)
        return at + 1
    if kind == 2 and c == 0:
        return press(log, at, a, b, amount)
    if kind == 4 and a == b == c == 0:
        bound(log, at, amount)
        return at + 1
    if kind == 5 and c == amount == 0:
        return void(log, at, a, b)
    log.lines.refuse(at, "here a shift, a press, a bound line or a void line is due")


def added(weight, amount):
    """A weight after a change; what is barred stays barred."""
    return weight if weight == BARRED else weight + amount


def leaves_range(weights):
    return max(weights) > WORKING or min(weights) < -WORKING and any(BARRED != weight < -WORKING for weight in weights)


def shift(log, at, pair, end, value, amount):
    case = log.case
    ranges = 0 <= pair < case.m and 0 <= end < 2 and 0 <= value < case.d
    if not ranges or not 1 <= abs(amount) <= MOVE:
        log.lines.refuse(at, "the shift's pair, end, channel or amount is out of range")
    link, d = case.pairs[pair][end], case.d
    first, last = case.span(case.n + pair)
    inside = slice(first + value * d, first + value * d + d)
    if end == 1:
        inside = slice(first + value, last, d)
    lowered = [added(weight, -amount) for weight in log.table[inside]]
    raised = added(log.table[link * d + value], amount)
    if leaves_range([*lowered, raised]):
        log.lines.refuse(at, "the move takes a weight out of its range")
    log.begun.shift(case, log.table, pair, end, value, amount)
    log.table[inside] = lowered
    log.table[link * d + value] = raised
    for scope in (link, case.n + pair):
        log.greatest[scope] = max(log.weights(scope))


def press(log, at, link, count, amount):
    case = log.case
    if not (0 <= link < case.n and 1 <= count < case.scopes and 1 <= amount <= MOVE):
        log.lines.refuse(at, "the press's link, count or amount is out of range")
    changed = {link: pressed(log, link, amount)}
    for scope in raise_lines(log, at, link, count):
        changed[scope] = raised(log, scope, amount)
    if any(map(leaves_range, changed.values())):
        log.lines.refuse(at + count, "the move takes a weight out of its range")
    for scope, weights in changed.items():
        log.table[slice(*case.span(scope))] = weights
        log.greatest[scope] = max(weights)
    log.begun.press()
    return at + 1 + count


def void(log, at, link, count):
    case = log.case
    if not (0 <= link < case.n and 1 <= count < case.scopes):
        log.lines.refuse(at, "the void line's link or count is out of range")
    scopes = raise_lines(log, at, link, count)
    if any(unbarred(log, scope) for scope in [link, *scopes]):
        log.lines.refuse(at + count, "not everything is barred that has to be for a void line")
    log.void = Void(at, link, scopes)
    return at + 1 + count


def raise_lines(log, at, link, count):
    """The scopes that the lines after a press or a void line raise."""
    scopes = []
    for line in range(at + 1, at + 1 + count):
        kind, scope, b, c, unused = log.lines.read(line)
        if (kind, b, c, unused) != (3, 0, 0, 0):
            log.lines.refuse(line, "here a raise line is due")
        if not 0 <= scope < log.case.scopes:
            log.lines.refuse(line, "the case does not have this scope")
        if scopes and scope <= scopes[-1] or scope == link:
            log.lines.refuse(line, "raised scopes go upwards, without the link's own")
        scopes.append(scope)
    return scopes


def pressed(log, link, amount):
    top = log.greatest[link]
    return [weight - amount if weight == top else weight for weight in log.weights(link)]


def raised(log, scope, amount):
    stay = log.greatest[scope], BARRED
    return [weight if weight in stay else weight + amount for weight in log.weights(scope)]


def unbarred(log, scope):
    """The places of a scope that are neither active nor barred: of a void line's link and of the scopes that it raises there are none."""
    first = log.case.span(scope)[0]
    return [first + at for at, weight in enumerate(log.weights(scope)) if weight not in (log.greatest[scope], BARRED)]


def bound(log, at, amount):
    ceiling = sum(log.greatest)
    if amount != ceiling:
        log.lines.refuse(at, f"the bound line states another number than the ceiling, {ceiling:,}")
    if ceiling >= log.ceilings[-1]:
        log.lines.refuse(at, "the ceiling is not lower than at the round's start")
    if log.begun.whole:
        log.pair_rounds.append(log.rounds)
    log.begun = Begun()
    log.ceilings.append(ceiling)
    log.ends.append(at + 1)
