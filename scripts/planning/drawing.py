"""`ceiling picture`: the page of scripts/picture with the judgement of `replay`."""

import os

from picturing import page
from picturing.case import read_case
from picturing.columns import LINE, NotInColumns, Refused

from . import outputs
from .judging import judge_case, judge, line
from .moves import read_judged, read_lines
from .places import Place
from .rules import RULES
from .sources import Source
from .standard import say


def run(options):
    case, log = Source(options.case), Source(options.log)
    result = outputs.output(options.output)
    names = [os.path.basename(source.label) for source in (case, log)]
    verdict = judge_case(case)
    if not verdict.refused:
        verdict = judge(case.chunks(), log.chunks())
        text = draw(names, case, log, verdict)
    else:
        refused = turned_back("case", Place(case, verdict.second, verdict.second, None, 0), verdict)
        case.same()
        text = page.refusal(names, refused, line(verdict))
    result.write(text.encode("utf-8", "replace"))
    outputs.put_in_place(result)
    say(line(verdict))
    return 1 if verdict.refused else 0


def draw(names, case, log, verdict):
    """The page of a case and a log; of a refused log the lines before the refused one."""
    sheet = read_case(case.front())
    if verdict.refused:
        at = verdict.second - len(case.front()) // LINE
        moves = read_lines(sheet, log, at)
        moves.stopped = turned_back("log", Place(log, at, verdict.second, None, 0), verdict)
    else:
        moves = read_judged(sheet, log, verdict)
    log.same()
    return page.picture(names, sheet, moves, line(verdict))


def turned_back(file, place, verdict):
    """The refused line as the page shows it."""
    why = f"rule {verdict.first}, {RULES[verdict.first][0]}" if verdict.first in RULES else f"rule {verdict.first}"
    kind = NotInColumns if verdict.first == 1 else Refused
    return kind(file, place.line, place.counted, place.raw, why)
