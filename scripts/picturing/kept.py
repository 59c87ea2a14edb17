"""Why each channel is kept: of each link the channel that it keeps after the log, its largest family and the partners in it."""

import re

from .axes import number
from .concluding import conclusion
from .families import channels, first_alike, kept

# Families are folded where a case has more links than this, and a row of one has no more.
WIDE = 16
# Bytes of partners that the page carries.
MOST_PARTNERS = 400_000

WHAT = (
    "A link keeps the lowest of its active channels that is not refuted with all other scopes raised. With it fixed, its largest supported family "
    "is left: channels of each link, all of them active, each with a partner across each pair, which is a channel of the family at the other end "
    "such that their combination is active. The lowest partners are folded: \u201c1 with 0\u201d is channel 1 of the first link with channel 0 of "
    "the second. The weights are those at the log\u2019s end."
)
NOT_PROVED = (
    "This part is computed with the page and not proved; the library\u2019s functions <code>ceiling_supported_value</code> and, for loops, "
    "<code>ceiling_is_acyclic</code> (docs/LIBRARY.md) are the proved ones, and <code>ceiling show</code> says the same in words."
)

UNJUDGED = "What follows for plans is said of judged logs only: by <code>ceiling picture</code> and <code>ceiling show</code>."


def left(found):
    """Whether a press or a void line is left, by what the links keep."""
    none = [str(link) for link, one in enumerate(found) if one is None]
    if not none:
        return "Every link keeps a channel: no press and no void line is left."
    links = "No link keeps a channel"
    if len(none) < len(found):
        links = f"Link {none[0]} keeps no channel" if len(none) == 1 else f"Links {', '.join(none[:-1])} and {none[-1]} keep no channel"
    return f"{links}: all active channels {'of this link' if len(none) == 1 else 'there'} are refuted, and a press or a void line is left."


def section(log, judged):
    """The part of the page; none where the log is not drawn to its end, or ends with a void line. What follows for plans needs a judged log."""
    if log.stopped or log.void:
        return ""
    found = kept(log.case, log.table)
    rows, carried = [], MOST_PARTNERS
    for link, one in enumerate(found):
        if one:
            text = partners(log, found, link)
            carried -= len(text)
            rows.append(row(log, link, one, text if carried >= 0 else ELSEWHERE))
    table = f'<div class="wide">{HEAD}{"".join(rows)}</table></div>' if rows else ""
    too_many = f'<p class="warning">{TOO_MANY}</p>\n' if carried < 0 else ""
    said = follows(log, found) if judged else UNJUDGED
    return f"<h2>Why each channel is kept</h2>\n<p>{left(found)} {WHAT}</p>\n<p>{said}</p>\n<p>{NOT_PROVED}</p>\n{too_many}{table}"


def follows(log, found):
    """What follows for plans, as the command says it."""
    return re.sub("`(.*?)`", r"<code>\1</code>", " ".join(conclusion(log, found, number)).replace("'", "\u2019"))


ELSEWHERE = "partners: by <code>ceiling show</code>"
TOO_MANY = (
    "The page carries the partners of the first links only, to stay small enough for a browser. <code>ceiling show CASE LOG LINK</code> has those "
    "of every link."
)
HEAD = '<table class="kept"><tr><th>link</th><th>keeps channel</th><th>weight</th><th>largest family: the channels left to each link</th></tr>\n'


def row(log, link, one, text):
    return (
        f'<tr id="kept-{link}"><td>{link}</td><td class="own">{one.value}</td><td class="weight">{number(log.greatest[link])}</td>'
        f"<td>{family(log.case, link, one.family)}{text}</td></tr>\n"
    )


def family(case, link, sets):
    """The sets of a family under their links, folded where they are many."""
    rows = ""
    for first in range(0, case.n, WIDE):
        links = range(first, min(first + WIDE, case.n))
        rows += f"<tr>{''.join(f'<th>{other}</th>' for other in links)}</tr><tr>{''.join(cell(other == link, sets[other]) for other in links)}</tr>"
    table = f'<table class="family">{rows}</table>'
    return table if case.n <= WIDE else folded(f"{sum(len(channels(one)) for one in sets)} channels of {case.n} links", table)


def cell(own, one):
    style = ' class="own"' if own else ""
    return f"<td{style}>{' '.join(map(str, channels(one)))}</td>"


def folded(title, inner):
    return f"<details><summary>{title}</summary>{inner}</details>"


def partners(log, found, link):
    """The partners in a link's family, folded; they stand once, beside the first link with this family."""
    case, first = log.case, first_alike(found, range(log.case.n), link)
    if not case.m:
        return ""
    if first < link:
        return f"partners: those of link {first}"
    rows = "".join(pair_row(log, found[link], pair) for pair in range(case.m))
    return folded(f"partners across {'1 pair' if case.m == 1 else f'{case.m} pairs'}", f'<table class="rows">{rows}</table>')


def pair_row(log, one, pair):
    (low, high), d = log.case.pairs[pair], log.case.d
    text = f"<tr><td>pair {pair}</td>"
    for end, (here, there) in enumerate(((low, high), (high, low))):
        lowest = one.partners[(2 * pair + end) * d : (2 * pair + end + 1) * d]
        both = ", ".join(f"{k} with {lowest[k]}" for k in channels(one.family[here]))
        text += f"<td>links {here} and {there}: {both}</td>"
    return text + "</tr>"
