"""`ceiling explain`: the judgement of `replay` in words."""

from picturing.case import read_case
from picturing.columns import LINE, Lines, Refused

from . import pair_rounds, standard
from .barring import bars_words, capital, none_above, pressing_words, void_words
from .in_case import Sheet
from .judging import judge, judge_case, line
from .places import Place
from .progress import working
from .reason import reason
from .reasons import find, lacks_feed
from .rules import AFTER_HEAD, RULES, counted, sizes, where
from .sources import Longer, Source

# Lines before a refused one that are not read again at once.
LONG = 50_000


def run(options):
    case = Source(options.case)
    log = Source(options.log) if options.log is not None else None
    verdict = judge_case(case) if log else judge(case.chunks())
    if log and verdict.accepted:
        start, verdict = verdict, judge(case.chunks(), log.chunks())
        words = refused(log_place(case, log, verdict), verdict) if verdict.refused else good_log(start, verdict, case.front(), log, 0)
    else:
        words = refused(case_place(case, verdict), verdict) if verdict.refused else good_case(case, verdict)
    words = list(words)
    for source in filter(None, (case, log)) if verdict.refused else ():
        source.same()
    standard.write(verdict.printed)
    standard.write(standard.rows(words))
    return 1 if verdict.refused else 0


def good_log(start, verdict, case, source, first):
    """Of a case and its log, accepted or void, which begins at a byte of the source."""
    if verdict.void:
        yield from void_words(case, source, first)
        return
    rounds, ceiling = verdict.first, verdict.second
    if rounds == 0:
        yield f"The log has no rounds: the ceiling stays {ceiling}, what it is at the start."
    else:
        yield f"The log is accepted: {'1 round lowers' if rounds == 1 else f'{rounds} rounds lower'} the ceiling from {start.second} to {ceiling}."
        yield from pair_rounds.told(case, source, first, verdict)
    yield f"{capital(none_above(case, ceiling))}."


def good_case(case, verdict):
    front = case.front()
    sheet = Sheet(front)
    size = ", ".join([*sizes(sheet), counted(sheet.count, "line")])
    if verdict.accepted and verdict.first == 0:
        yield f"The case is valid: {size}."
        yield from bars_words(front)
        yield f"Its ceiling at the start is {verdict.second}: {none_above(front, 'it')}. {pressing_words(front)}"
        return
    yield f"The file holds a case ({size}) and after it a log. Other commands take the case alone."
    alone = front[: sheet.count * LINE]
    yield from good_log(judge([alone]), verdict, alone, case, len(alone))


def log_place(case, log, verdict):
    lines, at = len(case.front()) // LINE, verdict.second
    return Place(log, at - lines, at, case.front(), 0) if at >= lines else Place(case, at, at, None, 0)


def case_place(case, verdict):
    """The place in a case, or in a log that follows it in the same file."""
    front, at = case.front(), verdict.second
    lines = whole_case(front)
    if lines and at >= lines and not uncounted(front, lines, verdict):
        return Place(case, at, at, front[: lines * LINE], lines)
    return Place(case, at, at, None, 0)


def uncounted(front, lines, verdict):
    """Whether the line after a case was refused as one of the case, which its head does not count."""
    try:
        return (verdict.first, verdict.second) == (2, lines) and Lines("case", front).read(lines)[0] in AFTER_HEAD
    except Refused:
        return False


def whole_case(front):
    """The lines of the case at the front of a file; 0 where it is no valid one."""
    try:
        count = Sheet(front).count
        read_case(front[: count * LINE])
    except Refused:
        return 0
    return count


def rule(number):
    """The name of a rule, and what it asks."""
    return RULES.get(number, ("this tree's words do not know it", ""))


def look(number, place):
    with working("looking for the reason ..", place.counted > LONG):
        return find(number, place)


def refused(place, verdict):
    number = verdict.first
    name, general = rule(number)
    found = look(number, place) or reason(0, general)
    yield f"Rule {number}: {name}."
    yield place.words(found.offset)
    yield from place.shown(found.offset)
    yield from found.words
    if number == 14 and lacks_feed(place.raw):
        yield from with_feed(place)
    if place.before:
        yield f"The file holds more than the case, which ends with line {place.before}; what follows was read as a log."
    yield where(number)


def with_feed(place):
    """What `replay` says when the last line has its line feed, and why."""
    source = Longer(place.source, place.start + len(place.raw), b"\n")
    first = [place.case] if place.case and not place.before else []
    verdict = judge(first, source.blocks(0, None))
    if not verdict.refused:
        yield f"With it replay says `{line(verdict)}`."
        return
    at = verdict.second - place.counted + place.line
    found = look(verdict.first, Place(source, at, verdict.second, place.case, place.before))
    yield f"With it replay says `{line(verdict)}`, rule {verdict.first} in line {at + 1}: {rule(verdict.first)[0]}."
    yield from found.words if found else []
