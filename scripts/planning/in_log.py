"""Why a line of a log was refused."""

from picturing.case import BARRED
from picturing.columns import line as written
from picturing.log import MOVE, WORKING, added, pressed, raised as raised_weights, unbarred

from .family import active, family_words, listed, not_refuted
from .in_case import edge, unused
from .pair_rounds import incomplete
from .reason import reason
from .rules import KINDS, counted, kind_named


def in_log(number, standing, before):
    """The reason at a line of the log that is there in whole, other than 1; so many lines stand before the log in its file."""
    finders = {2: not_due, 5: out_of_range, 11: too_far, 12: other_ceiling, 13: not_lower}
    if standing.held:
        finders.update({9: not_upwards, 10: active_not_refuted, 16: not_all_barred})
    numbers = standing.log.lines.read(standing.line)
    return finders[number](standing, numbers, before) if number in finders else None


def held_words(held, before):
    """A press or a void line that waits for raise lines."""
    return f"the {'press' if held.is_press else 'void line'} of link {held.link} in line {before + held.line + 1}"


def not_due(standing, numbers, before):
    kind, held, void = numbers[0], standing.held, standing.log.void
    if void:
        ends = f"The void line of link {void.link} in line {before + void.line + 1} ends the log: nothing is due after its raise lines."
        return reason(edge(0), ends, f"The line is {kind_named(kind)}.")
    if held and kind != 3:
        words = f"A raise line (kind 3) is due: {held_words(held, before)} counts {held.count} and has {len(held.raised)} so far."
        return reason(edge(0), words, f"The line is {kind_named(kind)}.")
    if not held and kind not in (1, 2, 4, 5):
        words = [f"A shift (kind 1), a press (kind 2), a bound line (kind 4) or a void line (kind 5) is due. The line is {kind_named(kind)}."]
        if kind == 3:
            words.append("No press and no void line waits for a raise line here.")
            words += count_too_small(standing, before)
        elif kind in KINDS:
            words.append("It is a line of a case: a log holds kinds 1 to 5 only, and the case is not repeated in it.")
        return reason(edge(0), *words)
    return unused(numbers)


def count_too_small(standing, before):
    """A hint where the line before ends a press."""
    lines, at = standing.log.lines, standing.line - 1
    while at >= 0 and lines.read(at)[0] == 3:
        at -= 1
    if at < 0 or lines.read(at)[0] != 2:
        return []
    _, link, count, _, _ = lines.read(at)
    has = f"counts {counted(count, 'raise line')} and has as many"
    return [f"The press of link {link} in line {before + at + 1} {has}: perhaps its count is too small."]


def out_of_range(standing, numbers, before):
    case = standing.log.case
    kind, a, b, c, amount = numbers
    by = (f"it lies between 1 and {MOVE}", 1, MOVE)
    asked = {
        1: [(1, a, "pair", *there(case.m, "pair")), (2, b, "end", "the ends are 0 and 1", 0, 1), (3, c, "channel", *there(case.d, "channel"))],
        2: [(1, a, "link", *there(case.n, "link")), (2, b, "count of raise lines", *raisable(case)), (4, amount, "amount", *by)],
        3: [(1, a, "scope", *there(case.scopes, "scope"))],
    }
    asked[1].append((4, abs(amount), "amount, without its sign,", *by))
    asked[5] = asked[2][:2]
    for column, value, name, words, least, most in asked.get(kind, []):
        if not least <= value <= most:
            return reason(edge(column), f"The {KINDS[kind]} line's {name} is {value}: {words}.")
    return None


def there(count, name):
    """What the case has, in words and as least and greatest number."""
    has = f"{name}s 0 to {count - 1}" if count > 1 else f"{name} 0 alone" if count else f"no {name}s"
    return f"the case has {has}", 0, count - 1


def raisable(case):
    """How many scopes a press or a void line can raise: all but the link's own."""
    most = case.scopes - 1
    counts = f"1 to {most} can be raised" if most > 1 else "1 can be raised" if most else "none can be raised"
    return f"of the case's scopes, without the link's own, {counts}", 1, most


def not_upwards(standing, numbers, before):
    held, scope = standing.held, numbers[1]
    if held.raised and scope <= held.raised[-1]:
        last = held.line + len(held.raised) + 1 + before
        words = f"Scope {scope} is not above scope {held.raised[-1]}, which line {last} raises: the scopes of"
        return reason(edge(1), f"{words} {'a press' if held.is_press else 'a void line'} go upwards.")
    if scope == held.link:
        return reason(edge(1), f"Scope {scope} is the own scope of link {held.link}: {held_words(held, before)} cannot raise it.")
    return None


def complete(standing, scope, before):
    """A press or a void line with its last raise line."""
    raised = standing.held.raised + [scope]
    words = f"With this raise line {held_words(standing.held, before)} is complete. It raises {'scope' if len(raised) == 1 else 'scopes'}"
    return raised, f"{words} {listed(raised)}."


def active_not_refuted(standing, numbers, before):
    held, log = standing.held, standing.log
    raised, words = complete(standing, numbers[1], before)
    found = not_refuted(log, set(raised), held.link)
    if found is None:
        return None
    channels = active(log, held.link)
    asked = f"Every active channel of link {held.link} would have to be refuted; active: {listed(channels)}, of weight {log.greatest[held.link]}."
    return reason(edge(1), words, asked, *family_words(log, set(raised), held.link, *found), remedy(log, held))


def remedy(log, held):
    """Whether the link's active channels can be refuted at all."""
    others = set(range(log.case.scopes)) - {held.link}
    if not_refuted(log, others, held.link):
        return f"Link {held.link} {'cannot be pressed' if held.is_press else 'can have no void line'} here, whichever scopes are raised."
    if held.is_press:
        return f"With all other scopes raised, link {held.link} could be pressed here: scopes are missing from the press."
    return f"With all other scopes raised, the active channels of link {held.link} would be refuted: scopes are missing from the void line."


def not_all_barred(standing, numbers, before):
    """What is neither active nor barred of a void line's link, or of a scope that it raises."""
    held, log = standing.held, standing.log
    raised, words = complete(standing, numbers[1], before)
    for scope in [held.link, *raised]:
        for place in unbarred(log, scope):
            what = "channels of the link" if scope == held.link else f"combinations of scope {scope}, which is raised,"
            found = f"All {what} that are not active would have to be barred, but {place_words(log.case, place)} is {log.table[place]}."
            return reason(edge(1), words, found, *press_instead(log, held, raised))
    return None


def press_instead(log, held, raised):
    """A press in place of a void line that nothing but the barring keeps from being taken: by the least gap it lowers the ceiling."""
    gaps = []
    for scope in [held.link, *raised]:
        gaps += [log.greatest[scope] - log.table[place] for place in unbarred(log, scope)]
    said = f"The active channels of link {held.link} are refuted: a press with the same raise lines is allowed here, and by {min(gaps)}"
    return [f"{said} it lowers the ceiling by as much:", "", "    " + written(2, held.link, held.count, 0, min(gaps)).decode().rstrip("\n")]


def too_far(standing, numbers, before):
    """The weights that a move would take out of their range."""
    log, case = standing.log, standing.log.case
    changes = shifted(log, numbers) if numbers[0] == 1 else pressed_and_raised(standing, numbers)
    for place, old, new in changes:
        if old != BARRED and abs(new) > WORKING:
            limits = f"working weights lie between {-WORKING} and {WORKING}"
            return reason(edge(4) if numbers[0] == 1 else edge(1), f"The move would take {place_words(case, place)} from {old} to {new}: {limits}.")
    return None


def place_words(case, place):
    """A place of the table in words."""
    n, d = case.n, case.d
    if place < n * d:
        return f"the weight of link {place // d}, channel {place % d}"
    pair, rest = divmod(place - n * d, d * d)
    return f"the weight of pair {pair}, channels {rest // d} and {rest % d},"


def shifted(log, numbers):
    """The changes of a shift: place, weight before, weight after."""
    _, pair, end, value, amount = numbers
    case, d = log.case, log.case.d
    first = case.span(case.n + pair)[0]
    own = case.pairs[pair][end] * d + value
    inside = [first + (value * d + other if end == 0 else other * d + value) for other in range(d)]
    changes = [(own, amount)] + [(place, -amount) for place in inside]
    return [(place, log.table[place], added(log.table[place], change)) for place, change in changes]


def pressed_and_raised(standing, numbers):
    """The changes of a press that this raise line completes."""
    held, log = standing.held, standing.log
    if held is None or not held.is_press:
        return
    changed = [(held.link, pressed(log, held.link, held.amount))]
    changed += [(scope, raised_weights(log, scope, held.amount)) for scope in held.raised + [numbers[1]]]
    for scope, weights in changed:
        first = log.case.span(scope)[0]
        for at, new in enumerate(weights):
            yield first + at, log.table[first + at], new


def other_ceiling(standing, numbers, before):
    ceiling = sum(standing.log.greatest)
    if numbers[4] == ceiling:
        return None
    words = [f"The ceiling is {ceiling} here; the line says {numbers[4]}."]
    start = standing.log.ceilings[-1]
    if ceiling < start:
        words += right_bound(ceiling)
    else:
        words.append(f"A bound line may stand here only when the ceiling is below {start}, what it was at the round's start.")
        words += incomplete(standing.log)
    return reason(edge(4), *words)


def right_bound(ceiling):
    return ["This would be right:", "", "    " + written(4, 0, 0, 0, ceiling).decode().rstrip("\n")]


def not_lower(standing, numbers, before):
    log = standing.log
    ceiling, start = sum(log.greatest), log.ceilings[-1]
    if ceiling < start:
        return None
    words = f"At the round's start the ceiling was {start}, now it is {ceiling}: it has to be lower."
    return reason(edge(4), words, *(incomplete(log) if standing.line > log.ends[-1] else ["The round has no move."]))


def log_ends(standing, before):
    """What is missing where the log ends."""
    log, held = standing.log, standing.held
    if held:
        missing = held.count - len(held.raised)
        after = "further moves or the round's bound line, kind 4 with the ceiling" if held.is_press else "nothing: a void line ends the log"
        return [
            f"{held_words(held, before).capitalize()} has {len(held.raised)} of its {held.count} raise lines: {missing} missing.",
            f"Then {'come' if held.is_press else 'comes'} {after}.",
        ]
    if standing.line == log.ends[-1] or log.void:
        return ["What stands before is complete: nothing has to follow."]
    ceiling, start = sum(log.greatest), log.ceilings[-1]
    if ceiling >= start:
        words = [f"The moves since the last bound line have not lowered the ceiling yet: {ceiling}, at the round's start {start}."]
    else:
        words = ["The round's bound line is missing.", *right_bound(ceiling)]
    return words + incomplete(log)
