"""`ceiling show`: the channel that a link keeps after a log, its largest family and the partners in it; of all links, what follows for plans."""

from picturing.case import read_case
from picturing.concluding import conclusion
from picturing.families import channels, first_alike, kept
from picturing.kept import left

from . import standard
from .barring import NO_PLAN, capital
from .failed import Failed
from .family import active, channel_words
from .in_log import there
from .judging import judge_log, why
from .moves import read_judged
from .rules import counted
from .sources import Source

WHAT = (
    "A link keeps the lowest of its active channels that is not refuted with all other scopes raised (docs/RULES.md, part 4).",
    "With it fixed, its largest supported family is left: channels of each link, all of them active, each with a partner across each pair,",
    "which is a channel of the family at the other end such that their combination is active. Of these the lowest is shown.",
    "`links 0 and 1: 1 with 0` is channel 1 of link 0 with channel 0 of link 1.",
)
COMPUTED = "These words are computed by the command and not proved; the library's"
NOT_PROVED = f"{COMPUTED} function `ceiling_supported_value` (docs/LIBRARY.md) is the proved one."
NONE_PROVED = f"{COMPUTED} functions `ceiling_supported_value` and, for loops, `ceiling_is_acyclic` (docs/LIBRARY.md) are the proved ones."


def run(options):
    case, log = Source(options.case), Source(options.log)
    verdict = judge_log(case, log)
    if verdict.refused:
        standard.write(verdict.printed)
        standard.say(why(case.name, log.name))
        return 1
    sheet = read_case(case.front())
    links = asked(sheet, options.link)
    words = [f"{capital(NO_PLAN)}. There is nothing to show."]
    if verdict.accepted:
        words = list(shown(read_judged(sheet, log, verdict), links, options.link is None))
        log.same()
    standard.write(verdict.printed)
    standard.write(standard.rows(words))
    return 0


def asked(case, link):
    """The links that are asked for: all where none is named."""
    if link is None:
        return range(case.n)
    has, least, most = there(case.n, "link")
    if not least <= link <= most:
        raise Failed(f"there is no link {link}: {has}")
    return [link]


def shown(log, links, whole):
    """What is said of these links with the weights after a log, and where all are asked for, what follows for plans."""
    found = kept(log.case, log.table)
    weights = f"those after {counted(log.rounds, 'round')}" if log.rounds else "the starting weights"
    yield f"The weights are {weights}, with the ceiling {sum(log.greatest)}."
    if len(links) > 1:
        yield left(found)
    yield from WHAT
    for link in links:
        yield ""
        yield from kept_words(log, found, links, link) if found[link] else [none_kept(log, link)]
    yield ""
    if whole:
        yield from conclusion(log, found)
        yield ""
    yield NONE_PROVED if whole else NOT_PROVED


def active_words(log, link):
    return f"{channel_words(active(log, link))}, of weight {log.greatest[link]}"


def none_kept(log, link):
    refuted = f"all active channels of this link are refuted ({active_words(log, link)})"
    return f"Link {link} keeps no channel: {refuted}, so that a press or a void line of it is left."


def kept_words(log, found, links, link):
    """The channel that a link keeps, its family, and the partners pair by pair; a family that was told before is not told again."""
    value, first = found[link].value, first_alike(found, links, link)
    refuted = [one for one in active(log, link) if one < value]
    said = f"; refuted below it: {channel_words(refuted)}" if refuted else ""
    same = f" The family and its partners are those of link {first}." if first < link else ""
    yield f"Link {link} keeps channel {value}. Active: {active_words(log, link)}{said}.{same}"
    if not same:
        yield ""
        yield from family_rows(log, found[link])


def family_rows(log, found):
    """The channels of each link, and below them each pair's partners."""
    case = log.case
    for link, one in enumerate(found.family):
        yield f"    link {link}, of weight {log.greatest[link]}: {channel_words(channels(one))}"
    if case.m:
        yield ""
    for pair, (low, high) in enumerate(case.pairs):
        first, second = [", ".join(partner_words(case, found, pair, end)) for end in (0, 1)]
        name = f"pair {pair} (scope {case.n + pair}), of weight {log.greatest[case.n + pair]}"
        yield f"    {name}, links {low} and {high}: {first}; links {high} and {low}: {second}"


def partner_words(case, found, pair, end):
    """Each channel of the family at an end of a pair with its lowest partner."""
    first = (2 * pair + end) * case.d
    return [f"{k} with {found.partners[first + k]}" for k in channels(found.family[case.pairs[pair][end]])]
