"""The largest supported family of a channel in words: why a press or a void line is not taken (number 10)."""

from picturing import families
from picturing.families import Opened, channels, lowest


def active(log, link):
    """The active channels of a link."""
    return channels(families.as_set(families.active(log.case, log.table, link)))


def not_refuted(log, raised, link):
    """The lowest active channel of a link that is not refuted, with its largest family."""
    return families.not_refuted(Opened(log.case, log.table, raised), link, active(log, link))


def listed(numbers):
    numbers = sorted(numbers)
    return ", ".join(map(str, numbers[:-1])) + f" and {numbers[-1]}" if len(numbers) > 1 else str(numbers[0])


def channel_words(found):
    """A list of channels."""
    return f"{'channel' if len(found) == 1 else 'channels'} {listed(found)}"


def family_words(log, raised, link, value, family):
    """The family in words that can be checked by hand."""
    case = log.case
    yield f"Channel {value} of link {link} is active and not refuted: with it fixed, a supported family is left:"
    yield ""
    sets = [channels(one) for one in family]
    told = [other for other in range(case.n) if len(sets[other]) < case.d or other == link]
    for other in told:
        yield f"    link {other}: {channel_words(sets[other])}"
    if len(told) < case.n:
        yield f"    every other link: all {case.d} channels"
    yield ""
    yield "Each of these channels is open, and in every pair it has a partner among the other link's with which the combination is open."
    yield "Open is what is active, and everything in a scope that is not raised."
    pairs = [pair for pair in range(case.m) if case.n + pair in raised]
    if pairs:
        yield "Such partners in the raised pairs:"
        yield ""
    opened = Opened(case, log.table, raised)
    for pair in pairs:
        low, high = case.pairs[pair]
        yield f"    pair {pair} (scope {case.n + pair}), links {low} and {high}: {', '.join(examples(opened, pair, family))}"
    if pairs:
        yield ""


def examples(opened, pair, family):
    """Open combinations of a pair in which every channel of the family occurs."""
    low, high = opened.case.pairs[pair]
    first, second = opened.partners[pair]
    chosen = {(k, lowest(first[k] & family[high])) for k in channels(family[low])}
    rest = set(channels(family[high])) - {l for _, l in chosen}
    chosen |= {(lowest(second[l] & family[low]), l) for l in rest}
    return [f"{k} with {l}" for k, l in sorted(chosen)]
