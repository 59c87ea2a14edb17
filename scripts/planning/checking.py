"""`ceiling check`: the judgement of `replay` on a case and a log."""

from . import standard
from .barring import NO_PLAN
from .judging import judge_log, why
from .sources import Source


def run(options):
    case, log = [Source(name, once=True) for name in (options.case, options.log)]
    verdict = judge_log(case, log)
    standard.write(verdict.printed)
    if verdict.refused:
        standard.say(why(case.name, log.name))
        return 1
    if verdict.void:
        standard.say(NO_PLAN)
    return 0
