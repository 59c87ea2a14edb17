"""Pair rounds in words: those of an accepted log, and one that is not complete where a log is refused."""

from picturing.case import BARRED
from picturing.columns import line as written

from .failed import Failed
from .moves import read_again
from .rules import counted

SHIFT = b"1"

WHAT = (
    "A pair round moves the whole weights of a pair's two links into the pair. No plan's total changes by it.",
    "The ceiling falls because the three greatest weights, one of each link and one of the pair, do not go together: no two channels have all three.",
)


def told(case, source, first, verdict):
    """What is said of an accepted log's pair rounds, if anything; the log begins at a byte of the source."""
    try:
        log = read_again(case, source, first, SHIFT, "looking for pair rounds ..")
    except Failed:
        raise
    except Exception:
        return []
    if log is None or not log.pair_rounds or (log.stopped, log.rounds, log.ceilings[-1]) != (None, verdict.first, verdict.second):
        return []
    if log.rounds == 1:
        return ["It is a pair round.", *WHAT]
    count, fall = len(log.pair_rounds), sum(log.ceilings[at] - log.ceilings[at + 1] for at in log.pair_rounds)
    which = "is a pair round, which lowers" if count == 1 else "are pair rounds, which lower"
    return [f"{count} of them {which} it by {fall}.", *WHAT]


def incomplete(log):
    """How the shifts since the last bound line go on, where they begin a pair round and it would lower the ceiling."""
    begun = log.begun
    if begun.pair is None or not begun.due:
        return []
    ceiling = after_pair_round(log, begun.pair)
    if ceiling >= log.ceilings[-1]:
        return []
    low, high = log.case.pairs[begun.pair]
    rest = [written(1, begun.pair, *shift) for shift in begun.due] + [written(4, 0, 0, 0, ceiling)]
    words = f"The round so far is the beginning of a pair round: the weights of links {low} and {high} move into pair {begun.pair}."
    onward = f"It goes on with {counted(len(begun.due), 'shift')} and its bound line:"
    return [words, onward, "", *("    " + line.decode().rstrip("\n") for line in rest)]


def after_pair_round(log, pair):
    """The ceiling when all weights of a pair's links are in the pair: what is barred has none, and is not looked at in the pair."""
    case, d = log.case, log.case.d
    scopes = (*case.pairs[pair], case.n + pair)
    low, high, both = [log.table[slice(*case.span(scope))] for scope in scopes]
    low, high = [[0 if weight == BARRED else weight for weight in weights] for weights in (low, high)]
    best = max(low[k] + high[l] + both[k * d + l] for k in range(d) for l in range(d) if both[k * d + l] != BARRED)
    return sum(log.greatest) - sum(log.greatest[scope] for scope in scopes) + best
