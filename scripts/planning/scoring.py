"""`ceiling score`: the totals of plans, each the figure of `replay`."""

import re

from picturing.case import BARRED, read_case, write_case

from . import standard
from .barring import NO_PLAN
from .failed import Failed
from .judging import TurnedBack, judge, judge_case, judge_log, line, why
from .rules import counted
from .sources import Source, read
from .unfit import Unfit

# No plan file is longer.
MOST = 1 << 16
SEPARATORS = re.compile(r"[\s,;]+")
CHANNEL = re.compile(r"[0-9]{1,9}")
# What stands in the place of an unlawful plan's total, and the number by which `replay` turns back the case that has this plan alone.
UNLAWFUL = "unlawful"
WHOLLY_BARRED = 15


def run(options):
    case = Source(options.case, once=True)
    plans = [read(name, MOST) for name in options.plan]
    log = Source(options.log, once=True) if options.log is not None else None
    verdict = judge_case(case)
    if verdict.refused:
        standard.write(verdict.printed)
        standard.say(why(case.name))
        return 1
    table = read_case(case.front())
    channels = [read_plan(table, *plan) for plan in plans]
    totals = [total(table, plan) for plan in channels]
    # Unlawful plans are level, below all others; the first is taken on a tie.
    best = max(range(len(totals)), key=lambda at: (totals[at] is not None, totals[at] or 0, -at))
    text = [f"{UNLAWFUL if figure is None else figure} {name}" for figure, name in zip(totals, options.plan)]
    text.append(f"best {text[best]}")
    words = [f"{name} is {UNLAWFUL}: {used_bar(table, plan)}" for name, plan, figure in zip(options.plan, channels, totals) if figure is None]
    judgement = b""
    if log:
        verdict = judge_log(case, log)
        if verdict.refused:
            raise TurnedBack(line(verdict), why(case.name, log.name))
        judgement = verdict.printed
        words += beside(verdict, totals[best], table.bars)
    standard.write(standard.rows(text) + judgement)
    standard.say(*words)
    return 0


def read_plan(case, label, data):
    """The channels of a plan, one for each link."""
    words = [word for word in SEPARATORS.split(data.decode("utf-8-sig", "replace")) if word]
    if len(words) != case.n:
        raise Unfit(f"{label}: {counted(len(words), 'channel')}, but the case has {counted(case.n, 'link')}")
    for link, word in enumerate(words):
        if not CHANNEL.fullmatch(word) or int(word) >= case.d:
            raise Unfit(f"{label}: link {link}: `{word[:40]}` is none of the channels 0 to {case.d - 1}")
    return [int(word) for word in words]


def total(case, plan):
    """The ceiling of the case that has this plan alone. Where the plan uses something barred, a scope of that case is wholly barred: no total."""
    verdict = judge([alone(case, plan)])
    if verdict.refused and verdict.first == WHOLLY_BARRED and BARRED in used(case, plan):
        return None
    if not verdict.accepted or verdict.first > 0:
        raise Failed(f"replay gave no total for a case of one plan: {line(verdict)}")
    return verdict.second


def used(case, plan):
    """The weight that the plan uses of each scope."""
    return case.used(case.weights, plan)


def alone(case, plan):
    """The case with one channel for each link, the plan's."""
    weights = used(case, plan)
    pairs = [(low, high, [weight]) for (low, high), weight in zip(case.pairs, weights[case.n :])]
    return write_case(1, [[weight] for weight in weights[: case.n]], pairs)


def used_bar(case, plan):
    """The first barred channel or combination that an unlawful plan uses."""
    scope = used(case, plan).index(BARRED)
    if scope < case.n:
        return f"channel {plan[scope]} of link {scope} is barred"
    low, high = case.pairs[scope - case.n]
    return f"channel {plan[low]} of link {low} with channel {plan[high]} of link {high} is barred"


def beside(verdict, best, bars):
    """What the judgement of a log says of the best plan's total."""
    if verdict.void:
        return [NO_PLAN]
    if best is None:
        return []
    if best == verdict.second:
        return [f"the best plan meets the ceiling: no {'lawful ' if bars else ''}plan is better"]
    return [f"the best plan is {verdict.second - best} below the ceiling"]
