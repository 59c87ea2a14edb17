"""What follows for plans from what the links keep after a log, in words."""

from .columns import COLUMNS, LINE
from .loops import first_loop
from .meeting import meeting_plan

PRESS = b"2"

UNKNOWN = "With a loop nothing is promised: some plan may use active combinations only, or none (docs/RULES.md, part 10)."
SOME = "The pairs form no loop, and no press and no void line is left: some plan uses active combinations only (docs/RULES.md, part 10)."
SHIFTS = "The log has no press, and shifts change no plan's total."


def conclusion(log, found, number=str):
    """The words, by what each link keeps; numbers are written by `number`."""
    if None in found:
        yield f"A press or a void line is left: link {found.index(None)} is the lowest that keeps no channel."
        yield "No plan uses active combinations only, and every lawful plan's total is below the ceiling."
        yield "The engine is not settled with these weights. `ceiling press` begins anew from the case sheet, and may end higher or lower."
        return
    loop = first_loop(log.case)
    if loop:
        links = ", ".join(map(str, loop.links))
        yield f"The pairs form a loop, which pair {loop.pair} closes: links {links} and again {loop.links[0]}."
        yield UNKNOWN
        return
    yield SOME
    yield from met(log, meeting_plan(log.case, found[0]), number)


def met(log, plan, number):
    """What is said of the plan: its totals by the working weights and by the case sheet."""
    ceiling, total = sum(log.greatest), sum(log.case.used(log.case.weights, plan))
    yield f"One is taken from the family of link 0, a channel for each link from link 0 on: {' '.join(map(str, plan))}."
    yield f"It is lawful. Its total by the working weights is the ceiling, {number(ceiling)}, and no lawful plan's is greater."
    if not presses(log):
        yield SHIFTS
    if total == ceiling:
        yield f"By the case sheet its total is {number(total)} as well: it is a best plan, and the ceiling can fall no further."
    else:
        yield f"By the case sheet its total is {number(total)}, and the ceiling is {number(ceiling - total)} above it: presses have raised its total."
        yield "By the case sheet another plan may be better."


def presses(log):
    """Whether a log that was accepted has a press."""
    return PRESS in log.data[COLUMNS[0][1] - 1 :: LINE]
