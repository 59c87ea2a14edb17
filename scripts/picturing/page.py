"""The page: figures, network, fall of the ceiling, the rounds beside the case sheet, and what each link keeps at their end."""

import json
import os
from html import escape

from .axes import number
from .case import BARRED
from .columns import LINE, SHAPE, NotInColumns
from .curve import curve
from .kept import section as kept_section
from .network import network
from .void import BAR, section as void_section

# Bytes of log that the page carries; later rounds are in the curve only.
CARRIED = 12_000_000

HERE = os.path.dirname(os.path.abspath(__file__))


def part(name):
    with open(os.path.join(HERE, name), encoding="utf-8") as file:
        return file.read()


def frame(title, body):
    return (
        '<!doctype html>\n<html lang="en">\n<head>\n<meta charset="utf-8">\n'
        '<meta name="viewport" content="width=device-width, initial-scale=1">\n'
        f"<title>{escape(title)}</title>\n<style>\n{part('page.css')}</style>\n</head>\n"
        f"<body>\n<main>\n{body}\n</main>\n</body>\n</html>\n"
    )


def counted(count, one):
    return f"{number(count)} {one}{'' if count == 1 else 's'}"


def judged(judgement):
    """The line of `replay`, where it was asked."""
    if judgement is None:
        return ""
    style = "stop" if judgement.startswith("refused") else "good"
    words = " No lawful plan exists: every plan uses something that is barred." if judgement == "void" else ""
    return f'<p class="{style}"><strong>The judgement of <code>replay</code>: <code>{escape(judgement)}</code></strong>{words}</p>\n'


def refusal(names, refused, judgement=None):
    """The page for a line of the case that is refused, or one that cannot be read: nothing is drawn."""
    name = names[0] if refused.file == "case" else names[1]
    unread = isinstance(refused, NotInColumns)
    how = "cannot be read" if unread else "is refused" if judgement else "cannot be drawn"
    title = f"No picture: line {number(refused.line + 1)} of the {refused.file} {how}"
    return frame(
        title,
        f"<h1>{title}</h1>\n{judged(judgement)}"
        f"<p>The file is {escape(name)}: {both_counts(refused)}.</p>\n"
        f'<p class="stop">{escape(refused.why[0].upper() + refused.why[1:])}.</p>\n'
        f'<pre class="raw">{shown(refused.raw)}</pre>\n{IN_COLUMNS if unread else EXPLAIN}',
    )


def both_counts(refused):
    """A line as editors count it, and as `replay` does."""
    return (
        f"line {number(refused.line + 1)}, counted from 1; for <code>replay</code> "
        f"line {number(refused.input_line)}, counted from 0 through case and log"
    )


IN_COLUMNS = (
    f"<p>A line has {LINE} bytes: {SHAPE} (kind, a, b, c, amount) "
    "and a line feed. Each column holds a whole number at its right edge, filled up with "
    "spaces on the left, without leading zeros. The case comes first on the command line, "
    "the log second.</p>"
)
EXPLAIN = "<p><code>ceiling explain</code> says what would have been right; docs/RULES.md has the rules.</p>"


def shown(raw):
    if not raw:
        return "(nothing stands there)"
    if len(raw) == LINE and raw.endswith(b"\n"):
        raw = raw[:-1]
    text = raw.decode("ascii", "backslashreplace")
    return escape("".join(c if c.isprintable() else repr(c)[1:-1] for c in text))


def picture(names, case, log, judgement=None):
    body = [
        head(names, case, log, judgement),
        stop(log),
        drawings(case, log),
        rounds(case, log),
        void_section(log, carried_rounds(log) > 0),
        kept_section(log, judgement is not None),
        reading(case),
        data(case, log),
    ]
    return frame(f"Ceiling of {names[0]}", "\n".join(body))


def head(names, case, log, judgement):
    first, last = log.ceilings[0], log.ceilings[-1]
    barred = case.weights.count(BARRED)
    facts = [
        ("links", number(case.n)),
        ("channels for each link", number(case.d)),
        ("pairs", number(case.m)),
        *([("barred channels and combinations", number(barred))] if barred else []),
        ("log lines" if log.stopped is None else "log lines read", number(log.lines.count)),
        ("rounds" if log.stopped is None else "rounds drawn", number(log.rounds)),
        *([("pair rounds among them", number(len(log.pair_rounds)))] if log.pair_rounds else []),
        ("ceiling at the start", number(first)),
        ("ceiling at the end" if log.stopped is None and log.void is None else "ceiling after them", number(last)),
        ("fall", number(first - last)),
        *([("the log\u2019s end", "void")] if log.void and log.stopped is None else []),
    ]
    cells = "".join(f"<div><dd>{value}</dd><dt>{name}</dt></div>" for name, value in facts)
    return (
        f"<h1>The ceiling of {escape(names[0])}, round by round</h1>\n"
        f"<p>The case sheet {escape(names[0])} beside the log {escape(names[1])}: the network, how "
        f"far each round lowers the ceiling that no {'lawful ' if barred else ''}plan\u2019s total can pass, and for every line "
        f"of a round the rows of the sheet that it touches.</p>\n<dl>{cells}</dl>\n"
        f"{judged(judgement)}{warning(names, judgement)}"
    )


def warning(names, judgement):
    judge = "is what <code>replay</code> judged above."
    if judgement is None:
        judge = f"is judged by <code>replay</code>: <code>cat {escape(names[0])} {escape(names[1])} | replay</code>"
    return (
        '<p class="warning"><strong>This page is a picture and no proof.</strong> It adds the '
        "weights up by itself, but it does not ask whether a press or a void line was allowed. Whether the log "
        f"may be trusted {judge}</p>"
    )


def stop(log):
    if log.stopped is None:
        return ""
    refused = log.stopped
    return (
        f'<div class="stop"><p><strong>The picture ends after {counted(log.rounds, "round")}.'
        f"</strong> The log\u2019s {both_counts(refused)}: {escape(refused.why)}.</p>"
        f'<pre class="raw">{shown(refused.raw)}</pre>{EXPLAIN}</div>'
    )


COLOURS = (
    '<span class="key pressed"></span>pressed link '
    '<span class="key raised"></span>raised link or pair '
    '<span class="key shifted"></span>shifted pair '
    '<span class="key emptied"></span>link emptied by a pair round, in the round chosen below'
)
VOID_COLOURS = (
    '<span class="key pressed"></span>link of the void line '
    '<span class="key raised"></span>link or pair that it raises'
)
DASHED = '<span class="key bars"></span>something is barred: how much, under the pointer'
AXIS = (
    '<p class="legend">The upright axis covers the fall only. '
    "Click on the curve to choose a round.</p>\n"
)


def drawings(case, log):
    some = log.rounds > 0
    void = None if some else log.void
    chosen = COLOURS + (", or in the void line" if log.void else "")
    keys = [*[chosen] * some, *[VOID_COLOURS] * (void is not None), *[DASHED] * case.bars]
    legend = "".join(f'<p class="legend">{key}</p>\n' for key in keys)
    marks = {void.link: "pressed", **dict.fromkeys(void.raised, "raised")} if void else {}
    return (
        '<div class="drawings">\n<figure>\n<figcaption>The network: '
        f"{counted(case.n, 'link')}, {counted(case.m, 'pair')}</figcaption>\n"
        f"{network(case, marks)}\n{legend}</figure>\n"
        "<figure>\n<figcaption>The ceiling after each round</figcaption>\n"
        f"{curve(log.ceilings)}\n{AXIS if some else ''}</figure>\n</div>"
    )


def rounds(case, log):
    if log.rounds == 0:
        return ""
    carried = carried_rounds(log)
    if carried == 0:
        return '<p class="warning">The first round is too long to be laid out on a page.</p>'
    word = ""
    if carried < log.rounds:
        word = (
            f'<p class="warning">The page carries the lines of the first {number(carried)} of '
            f"{number(log.rounds)} rounds, to stay small enough for a browser. The figures above "
            "and the curve are those of all rounds.</p>"
        )
    return (
        '<h2>One round beside the case sheet</h2>\n<noscript><p class="warning">The rounds are '
        "laid out by a script on this page; the browser has scripts switched off.</p></noscript>\n"
        f'{word}\n<form id="choose"><button type="button" id="back">\u2190 before</button>'
        f'<label>round <input id="round" type="number" min="0" max="{carried - 1}" value="0">'
        f"</label><span>0 to {number(carried - 1)}</span>"
        '<button type="button" id="on">next \u2192</button>'
        '<label class="apart">round with line <input id="line" type="number" '
        f'min="{log.lines.before}" max="{log.lines.before + last_line(log, carried)}"></label>'
        '<button type="button" id="unfold" class="apart">unfold all rows</button></form>\n'
        '<div id="view"></div>\n<h2>All rounds</h2>\n<div id="list"></div>'
    )


def last_line(log, carried):
    """The last line that the page carries, counted in the log."""
    return log.void.line + len(log.void.raised) if log.void else log.ends[carried - 1] - 1


def carried_rounds(log):
    return sum(1 for end in log.ends if end * LINE <= CARRIED)


BARS = (
    f"<li>{BAR} stands for a channel or combination that the case bars (kinds 14 and 15). It has no weight, is never active, and no "
    "move changes it. A plan is lawful if it uses none; what is said of plans is said of the lawful ones.</li>\n"
)


def reading(case):
    return (
        "<h2>How to read it</h2>\n<ul>\n"
        "<li>Links, channels, pairs and rounds count from 0. Lines are counted from 0 through the "
        "case and then the log, as <code>replay</code> counts them.</li>\n"
        "<li>Scopes: link i is scope i; pair e is scope e plus the number of links. A weight is "
        "active if it is the greatest of its scope. The ceiling is the sum of every scope\u2019s "
        "greatest weight.</li>\n"
        "<li>A press by an amount lowers the active channels of its link by that amount, and in "
        "every raised scope raises all weights that are not active (closed) by it. A shift moves "
        "an amount between a link\u2019s channel and a pair; totals stay.</li>\n"
        "<li>A pair round shifts the whole weights of a pair\u2019s two links into the pair: both links weigh 0 after it, and "
        "no plan\u2019s total changes. The ceiling falls because the three greatest weights, of the two links and of the pair, "
        f"do not go together.</li>\n{BARS if case.bars else ''}"
        "<li>A row shows the line of the case sheet, with the weight that the case started with, "
        "then the weight before and after the move.</li>\n</ul>"
    )


def data(case, log):
    if carried_rounds(log) == 0:
        return ""
    carried = log.ends[carried_rounds(log) - 1] * LINE
    pair_rounds = [at for at in log.pair_rounds if at < carried_rounds(log)]
    return (
        f'<script type="text/plain" id="case">{case.data.decode("ascii")}</script>\n'
        f'<script type="text/plain" id="log">{log.data[:carried].decode("ascii")}</script>\n'
        f'<script type="application/json" id="pair-rounds">{pair_rounds}</script>\n'
        f'<script type="application/json" id="void">{json.dumps(log.void and log.void._asdict())}</script>\n'
        f"<script>\n{part('rounds.js')}</script>"
    )
