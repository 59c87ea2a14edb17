"""The void line with which a log ends, beside the rows of the case sheet that it names."""

from .axes import number
from .case import BARRED
from .columns import LINE

# Scopes are folded where a void line names more rows than this.
MOST_OPEN = 140

BAR = '<span class="bar">barred</span>'


def words(log):
    """What the void line says."""
    link = log.void.link
    said = (
        "A void line says that no lawful plan exists, one that uses nothing barred. Its raise lines are like those of a press: with these "
        f"scopes raised every active channel of link {link} has to be refuted, which this page does not ask. All other channels of link "
        f"{link} are barred, and so is everything that is closed in the raised scopes. So a lawful plan would give link {link} a refuted "
        "channel and use open combinations only, which no plan does. Nothing follows a void line."
    )
    moves = log.begun.moves
    if moves:
        said += f" {'One move stands' if moves == 1 else f'{number(moves)} moves stand'} before it without a bound line; the weights are those after."
    return said


SHOW = '<p id="void-line"><button type="button" id="show-void">show it in the network</button></p>\n'


def section(log, rounds):
    """The void line, where the log has one; where the page has rounds too, the network shows it when it is asked to."""
    if log.void is None:
        return ""
    scopes = [log.void.link, *log.void.raised]
    spans = [log.case.span(scope) for scope in scopes]
    unfold = sum(end - first for first, end in spans) <= MOST_OPEN
    blocks = [block(log, log.void.line + at, scope, unfold or at == 0) for at, scope in enumerate(scopes)]
    return (
        f'<h2>The void line</h2>\n<p>{words(log)}</p>\n{SHOW if rounds else ""}'
        '<div class="heads"><span><span class="no">line</span>of the log</span>'
        "<span>The rows of the case sheet that the line names</span></div>\n" + "\n".join(blocks)
    )


def block(log, line, scope, unfold):
    """A line of the log beside a scope's rows."""
    own = scope == log.void.link
    inactive = [weight for weight in log.weights(scope) if weight != log.greatest[scope]]
    what = f"{len(inactive)} of {len(log.weights(scope))} {'barred' if own else 'closed, all of them barred'}"
    title = f"{'Void line of' if own else 'Raise'} {named(log.case, scope)}: {what}"
    row = log.data[line * LINE : (line + 1) * LINE - 1].decode("ascii")
    return (
        f'<section class="block"><div class="said"><span class="no">{log.lines.before + line}</span><code>{row}</code></div>'
        f'<div class="beside"><details class="scope"{" open" if unfold else ""}><summary>{title}</summary>'
        f"{tables(log, scope, own)}</details></div></section>"
    )


def named(case, scope):
    if scope < case.n:
        return f"link {scope}"
    low, high = case.pairs[scope - case.n]
    return f"pair {scope - case.n} (links {low} and {high})"


def tables(log, scope, own):
    """The rows of a scope, those of a pair with many channels in as many tables."""
    case, (first, end) = log.case, log.case.span(scope)
    each = case.d if scope >= case.n and case.d > 4 else end - first
    found = []
    for start in range(first, end, each):
        rows = [weight_row(log, scope, place, own) for place in range(start, start + each)]
        if scope >= case.n and start == first:
            rows.insert(0, sheet_row(case, sheet_line(case, first) - 1, ""))
        found.append(HEAD + "".join(rows) + "</table>")
    return '<div class="tables">' + "".join(found) + "</div>"


HEAD = (
    '<table class="rows"><tr><th class="no">line</th><th class="text">row of the case sheet</th>'
    '<th class="weight">weight</th><th></th></tr>'
)


def weight_row(log, scope, place, own):
    weight = log.table[place]
    word = "active" if weight == log.greatest[scope] else "" if own else "closed"
    shown = BAR if weight == BARRED else number(weight)
    return sheet_row(log.case, sheet_line(log.case, place), f'<td class="weight">{shown}</td><td class="why">{word}</td>')


def sheet_row(case, line, more):
    row = case.data[line * LINE : (line + 1) * LINE - 1].decode("ascii")
    return f'<tr class="same"><td class="no">{line}</td><td class="text">{row}</td>{more}</tr>'


def sheet_line(case, place):
    """The line of the case sheet that gives a place of the table."""
    links, each = case.n * case.d, case.d * case.d
    return 1 + place if place < links else 2 + place + (place - links) // each
