"""The numbered rules of refusals, in general."""

from picturing.case import MOST_CHANNELS, MOST_LINKS, MOST_PAIRS, STARTING
from picturing.columns import LINE, SHAPE
from picturing.log import WORKING

NAMES = ("kind", "a", "b", "c", "amount")

# Of each number: its name, and what it asks.
RULES = {
    1: (
        f"the line is not {LINE} bytes of numbers in columns",
        f"A line is {LINE - 1} characters and a line feed: {SHAPE} for kind, a, b, c and amount, each a whole number at the column's "
        "right edge, filled up with spaces on the left, without leading zeros.",
    ),
    2: ("its kind is not due here, or an unused column is not 0", "The kind says what a line is; columns that its kind does not use hold 0."),
    3: (
        "links, channels or pairs are outside the limits",
        f"A case has 1 to {MOST_LINKS} links, 1 to {MOST_CHANNELS} channels for every link and 0 to {MOST_PAIRS} pairs.",
    ),
    4: ("something lent has the wrong length", "This concerns callers of the library and no file."),
    5: (
        "a number names nothing there is, an amount or count is out of range, or a case line names another place than the one that is due",
        "Links, channels, pairs and scopes count from 0, and the lines of a case come in the order of its table.",
    ),
    6: ("a pair's links do not ascend", "A pair names its lower link first, in b, and its higher link in c."),
    7: ("two pairs join the same links", "Two links are joined by one pair at most."),
    8: ("a weight is out of its range", f"A starting weight lies between {-STARTING:,} and {STARTING:,}."),
    9: (
        "raised scopes do not ascend, or the link itself is raised",
        "The raise lines of a press or a void line name scopes upwards, never the link's own.",
    ),
    10: (
        "an active channel of the link is not refuted",
        "A press or a void line is taken if each active channel of its link is refuted: fixed alone, it leaves some link without a channel that fits.",
    ),
    11: ("a move would take a working weight out of its range", f"Working weights lie between {-WORKING:,} and {WORKING:,}."),
    12: ("the bound line's ceiling is not the ceiling", "The ceiling is the sum of every scope's greatest weight after the moves so far."),
    13: (
        "the ceiling is not lower than at the round's start",
        "Each round, from the line after a bound line to the next one, has to lower the ceiling.",
    ),
    14: (
        "the file ends inside a line, a press, a void line, a round or a case",
        "A case has all its lines, and a log ends with a bound line or a whole void line.",
    ),
    15: (
        "all channels of a link or all combinations of a pair are barred",
        "Each link has a channel, and each pair a combination, that is not barred: otherwise no plan would be lawful.",
    ),
    16: (
        "something that has to be barred for a void line is not",
        "A void line is taken if all channels of its link but the active ones are barred, and everything that is closed in the raised scopes.",
    ),
}

KINDS = {
    1: "shift",
    2: "press",
    3: "raise",
    4: "bound",
    5: "void",
    10: "head of a case",
    11: "link weight",
    12: "pair",
    13: "pair weight",
    14: "barred link channel",
    15: "barred pair combination",
}
# The kinds of a case after its head.
AFTER_HEAD = (11, 12, 13, 14, 15)
# The columns that a kind does not use.
UNUSED = {1: (), 2: (3,), 3: (2, 3, 4), 4: (1, 2, 3), 5: (3, 4), 10: (4,), 11: (3,), 12: (4,), 13: (), 14: (3, 4), 15: (4,)}


def where(number):
    """Where the rule is told in full: lines in part 2, all numbers in part 8."""
    return f"docs/RULES.md, part {2 if number == 1 else 8}, has the rules."


def kind_named(kind):
    """A kind with its name, where it has one."""
    return f"kind {kind} ({KINDS.get(kind, 'there is no such kind')})"


def counted(count, one):
    return f"{count} {one}{'' if count == 1 else 's'}"


def sizes(case):
    """How many links, channels and pairs a case has."""
    return counted(case.n, "link"), counted(case.d, "channel"), counted(case.m, "pair")
