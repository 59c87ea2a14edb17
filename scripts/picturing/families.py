"""Supported families: the channels left to each link when one is fixed and all that have no partner across some pair are struck.

A set of channels is a number, bit k for channel k.
"""

from collections import namedtuple

# What stands for the partner of a channel that its link's family has not.
OUTSIDE = 255

# The lowest active channel of a link that is not refuted with all other scopes raised; its largest family, a set for each link; and the lowest
# partner of each channel of the family: bytes, by pair, end and channel.
Kept = namedtuple("Kept", "value family partners")


def channels(found):
    """The channels of a set, upwards."""
    return [k for k in range(found.bit_length()) if found >> k & 1]


def lowest(found):
    """The lowest channel of a set that is not empty."""
    return (found & -found).bit_length() - 1


def as_set(marks):
    """The set of the channels that are marked."""
    return sum(1 << k for k, marked in enumerate(marks) if marked)


def unions(sets):
    """For each choice of these sets, given by its bits, the union of those chosen."""
    found = [0]
    for one in sets:
        found += [union | one for union in found]
    return found


def active(case, table, scope):
    """Of each combination of a scope, whether it is active."""
    weights = table[slice(*case.span(scope))]
    greatest = max(weights)
    return [weight == greatest for weight in weights]


def is_open(case, table, raised, scope):
    """Of each combination of a scope, whether it is open: active, or the scope is not raised."""
    first, end = case.span(scope)
    return active(case, table, scope) if scope in raised else [True] * (end - first)


class Opened:
    """What is open where some scopes are raised."""

    def __init__(self, case, table, raised):
        self.case, d = case, case.d
        marks = [is_open(case, table, raised, scope) for scope in range(case.scopes)]
        self.channels = [as_set(one) for one in marks[: case.n]]
        # Of each pair and end: the open partners of each channel, and the channels that have one in each set of the other end's.
        self.partners, self.supported = [], []
        for one in marks[case.n :]:
            first = [as_set(one[k * d : (k + 1) * d]) for k in range(d)]
            second = [as_set(one[l::d]) for l in range(d)]
            self.partners.append((first, second))
            self.supported.append((unions(second), unions(first)))


def largest_family(opened, link, value):
    """The channels left to each link with this one fixed; None where a link has none left: it is refuted."""
    family, before = list(opened.channels), None
    family[link] &= 1 << value
    while family != before and all(family):
        before = list(family)
        for (low, high), (first, second) in zip(opened.case.pairs, opened.supported):
            family[low] &= first[family[high]]
            family[high] &= second[family[low]]
    return family if all(family) else None


def not_refuted(opened, link, values):
    """The first of a link's channels that is not refuted, with its largest family."""
    for value in values:
        family = largest_family(opened, link, value)
        if family:
            return value, family
    return None


def lowest_partners(opened, family):
    """The lowest partner in the family of each of its channels, across each pair."""
    found = []
    for ends, partners in zip(opened.case.pairs, opened.partners):
        for end in (0, 1):
            here, there = family[ends[end]], family[ends[1 - end]]
            both = [partners[end][k] & there if here >> k & 1 else 0 for k in range(opened.case.d)]
            found += [lowest(one) if one else OUTSIDE for one in both]
    return bytes(found)


def kept(case, table):
    """What each link keeps, None where all its active channels are refuted with all other scopes raised."""
    # The link's own scope may be raised as well: an active channel is open in it.
    opened = Opened(case, table, range(case.scopes))
    found = [not_refuted(opened, link, channels(opened.channels[link])) for link in range(case.n)]
    return [one and Kept(*one, lowest_partners(opened, one[1])) for one in found]


def first_alike(found, links, link):
    """The first of these links that keeps the same family as a link, and so the same partners."""
    return next(other for other in links if found[other] and found[other].family == found[link].family)
