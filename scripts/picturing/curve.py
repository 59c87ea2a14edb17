"""The ceiling's fall, one step for each round."""

from .axes import number, whole_marks

WIDTH, HEIGHT = 600, 440
LEFT, RIGHT, TOP, BOTTOM = 100, 580, 34, 392
POINTS = 1200


def curve(ceilings):
    rounds = len(ceilings) - 1
    if rounds == 0:
        return '<p class="none">The log has no rounds: the ceiling stays where it started.</p>'
    x, y = scales(ceilings)
    parts = [
        f'<svg id="curve" viewBox="0 0 {WIDTH} {HEIGHT}" data-left="{LEFT}" data-right="{RIGHT}" '
        f'data-rounds="{rounds}" role="img" aria-label="Ceiling after each round">'
    ]
    parts += grid(ceilings, x, y)
    parts.append(f'<rect id="chosen" y="{TOP}" height="{BOTTOM - TOP}" x="0" width="0"/>')
    parts.append(f'<path class="fall" d="{steps(ceilings, x, y)}"/>')
    parts += ends(ceilings, x, y)
    return "\n".join(parts + ["</svg>"])


def scales(ceilings):
    rounds = len(ceilings) - 1
    low, high = min(ceilings), max(ceilings)
    room = (high - low) * 0.06
    low, high = low - room, high + room

    def x(round_number):
        return LEFT + (RIGHT - LEFT) * round_number / rounds

    def y(ceiling):
        return BOTTOM - (BOTTOM - TOP) * (ceiling - low) / (high - low)

    return x, y


def grid(ceilings, x, y):
    parts = []
    for mark in whole_marks(min(ceilings), max(ceilings), 6):
        parts.append(f'<line class="grid" x1="{LEFT}" x2="{RIGHT}" y1="{y(mark):.1f}" y2="{y(mark):.1f}"/>')
        parts.append(f'<text class="mark" x="{LEFT - 8}" y="{y(mark) + 4:.1f}" text-anchor="end">{number(mark)}</text>')
    for mark in whole_marks(0, len(ceilings) - 1, 8):
        parts.append(f'<line class="tick" x1="{x(mark):.1f}" x2="{x(mark):.1f}" y1="{BOTTOM}" y2="{BOTTOM + 5}"/>')
        parts.append(f'<text class="mark" x="{x(mark):.1f}" y="{BOTTOM + 19}" text-anchor="middle">{number(mark)}</text>')
    parts.append(f'<line class="axis" x1="{LEFT}" x2="{RIGHT}" y1="{BOTTOM}" y2="{BOTTOM}"/>')
    parts.append(f'<text class="mark" x="{(LEFT + RIGHT) / 2}" y="{BOTTOM + 39}" text-anchor="middle">rounds made</text>')
    parts.append(f'<text class="mark" x="{LEFT - 8}" y="14" text-anchor="end">ceiling</text>')
    return parts


def steps(ceilings, x, y):
    """A level line for each round and a fall at its end; of many rounds one in so many."""
    rounds = len(ceilings) - 1
    every = max(1, -(-rounds // POINTS))
    path = [f"M{x(0):.1f} {y(ceilings[0]):.1f}"]
    for made in [*range(every, rounds, every), rounds]:
        path.append(f"H{x(made):.1f}V{y(ceilings[made]):.1f}")
    return "".join(path)


def ends(ceilings, x, y):
    first, last = ceilings[0], ceilings[-1]
    return [
        f'<circle class="end" cx="{x(0):.1f}" cy="{y(first):.1f}" r="3.5"/>',
        f'<text class="endname" x="{x(0) + 8:.1f}" y="{y(first) - 7:.1f}">start {number(first)}</text>',
        f'<circle class="end" cx="{RIGHT}" cy="{y(last):.1f}" r="3.5"/>',
        f'<text class="endname" x="{RIGHT - 8}" y="{y(last) + 17:.1f}" text-anchor="end">end {number(last)}</text>',
    ]
