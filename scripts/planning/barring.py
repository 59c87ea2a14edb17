"""Barred channels and combinations, and void lines, in words."""

from picturing.case import BARRED, read_case
from picturing.columns import LINE, Refused

from .family import active, listed
from .moves import read_again
from .rules import counted

NO_PLAN = "no lawful plan exists: every plan uses something that is barred"
VOID = b"5"


def bars(front):
    """How many channels and how many combinations of a case are barred; none of a case that is not valid."""
    try:
        case = read_case(front)
    except Refused:
        return 0, 0
    links = case.n * case.d
    return case.weights[:links].count(BARRED), case.weights[links:].count(BARRED)


def bars_words(front):
    """What a case bars, if anything."""
    channels, combinations = bars(front)
    what = [f"{counted(channels, 'channel')} of links"] * (channels > 0) + [f"{counted(combinations, 'combination')} of pairs"] * (combinations > 0)
    return [f"Barred: {' and '.join(what)}. A plan that uses nothing barred is lawful."] if what else []


def capital(words):
    return words[0].upper() + words[1:]


def none_above(front, ceiling):
    return f"no {'lawful ' if any(bars(front)) else ''}plan's total is above {ceiling}"


def pressing_words(front):
    """What `ceiling press` can do with a case."""
    return f"`ceiling press` lowers it{', or may show that no lawful plan exists' if any(bars(front)) else ''}."


def void_words(case, source, first):
    """What a void line at the end of a log says; the log begins at a byte of the source."""
    yield f"The log ends with a void line. {capital(NO_PLAN)}."
    try:
        log = read_again(case, source, first, VOID, "looking for the void line ..")
    except Refused:
        return
    if log is None or log.void is None:
        return
    link, raised, channels = log.void.link, log.void.raised, active(log, log.void.link)
    one, them = ("", "is", "it"), ("s", "are", "one of them")
    ending, are, which = one if len(channels) == 1 else them
    yield f"It is of link {link}, in line {first // LINE + log.void.line + 1}, and raises scope{'' if len(raised) == 1 else 's'} {listed(raised)}."
    yield f"So channel{ending} {listed(channels)} of link {link} {are} refuted: a plan with {which} uses something that is closed in a raised scope."
    others = "" if len(channels) == log.case.d else f", and so is every other channel of link {link}"
    yield f"Everything closed there is barred{others}."
    if log.rounds:
        yield f"{counted(log.rounds, 'round')} before it: what they lowered the ceiling to does not matter any more."
