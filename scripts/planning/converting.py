"""`ceiling from-csv`, `to-csv`, `from-wcsp` and `to-wcsp`: cases made of other programs' files, and the other way round."""

from picturing.case import read_case

from . import outputs, spreadsheets, standard, wcsp
from .judging import TurnedBack, judge, line, valid_case
from .rules import sizes
from .sources import Source


def from_csv(options):
    links, pairs = Source(options.links), Source(options.pairs)
    case = spreadsheets.read(links.label, links.whole(), pairs.label, pairs.whole())
    return write_case(options.output, case, f"{', '.join(sizes(read_case(case)))}, numbered from 0 in the order of the spreadsheets")


def to_csv(options):
    links, pairs = spreadsheets.write(valid_case(Source(options.case, once=True)))
    outputs.write_all([(options.links, links), (options.pairs, pairs)])
    return 0


def from_wcsp(options):
    file = Source(options.file)
    case, words = wcsp.read(file.label, file.whole(), options.barred)
    return write_case(options.output, case, words)


def to_wcsp(options):
    case = Source(options.case, once=True)
    data, words = wcsp.write(case.name, valid_case(case))
    outputs.write_all([(options.output, data)])
    say(words)
    return 0


def write_case(name, case, words):
    """Writes a case that `replay` accepts."""
    verdict = judge([case])
    if not verdict.accepted or verdict.first > 0:
        raise TurnedBack("ceiling: the case that was made is turned back", line(verdict))
    outputs.write_all([(name, case)])
    say(words)
    return 0


def say(words):
    if words:
        standard.say(*words.rstrip("\n").split("\n"))
