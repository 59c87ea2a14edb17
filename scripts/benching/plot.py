"""How cost grows, as an SVG drawing: panels of curves over links, values and pairs."""

import math

from .series import KINDS, axes

COLOURS = {"ours": "#b3261e", "fast": "#1d5fa6", "plain": "#6c757e"}
NAMES = {"ours": "ours", "fast": "peer, fast", "plain": "peer, plain"}
WIDE, HIGH, LEFT, TOP = 310, 230, 70, 96
GAP_X, GAP_Y = 40, 88


def plot(engine, replay, quick):
    panels = []
    for kind in KINDS:
        rows = [row for row in engine if row.kind == kind]
        name = f"microseconds a round, {kind} weights"
        panels.append((name, rows, 1e6))
    for log in ("untrimmed", "engine's own"):
        rows = [row for row in replay if row.kind == "uniform" and row.log == log]
        panels.append((f"nanoseconds a byte of log, replay of the {log} log", rows, 1e9))
    width = LEFT + 3 * (WIDE + GAP_X) + 10
    height = TOP + len(panels) * (HIGH + GAP_Y)
    parts = [
        f'<svg xmlns="http://www.w3.org/2000/svg" viewBox="0 0 {width} {height}" '
        f'width="{width}" height="{height}" font-family="system-ui, DejaVu Sans, Arial, '
        'sans-serif" font-size="12" fill="#1b1f24">',
        f'<rect width="{width}" height="{height}" fill="#fff"/>',
        f'<text x="{LEFT}" y="28" font-size="17" font-weight="600">How cost grows</text>',
    ]
    parts += legend()
    for at, (name, rows, scale) in enumerate(panels):
        parts += strip(name, rows, scale, TOP + at * (HIGH + GAP_Y), axes(quick))
    return "\n".join(parts + ["</svg>"]) + "\n"


def legend():
    parts = []
    for k, (key, colour) in enumerate(COLOURS.items()):
        x = LEFT + 120 * k
        parts.append(f'<line x1="{x}" x2="{x + 24}" y1="48" y2="48" stroke="{colour}" stroke-width="2"/>')
        parts.append(f'<text x="{x + 30}" y="52">{NAMES[key]}</text>')
    return parts


def strip(name, rows, scale, top, grown):
    """One kind of cost over each of the three sizes, with the same upright axis."""
    parts = [f'<text x="{LEFT}" y="{top - 12}" font-weight="600">{name}</text>']
    costs = [cost * scale for row in rows for cost in row.seconds.values() if cost]
    if not costs:
        return parts + [f'<text x="{LEFT}" y="{top + 20}">too short to say</text>']
    for at, (size, series) in enumerate(grown.items()):
        left = LEFT + at * (WIDE + GAP_X)
        chosen = [row for row in rows if row.size in series]
        parts += panel(size, chosen, scale, left, top, marks(min(costs), max(costs)), series)
    return parts


def marks(low, high):
    """Round costs from just below the lowest to just above the highest, fourfold at least."""
    steps = [part * 10.0**power for power in range(-6, 9) for part in (1, 2, 5)]
    below = max(step for step in steps if step <= low)
    above = min(step for step in steps if step > max(high, 4 * below))
    return [step for step in steps if below <= step <= above]


def panel(size, rows, scale, left, top, steps, series):
    where = ("links", "values", "pairs").index(size)
    most = max(each[where] for each in series)
    low, high = math.log10(steps[0]), math.log10(steps[-1])

    def x(value):
        return left + WIDE * value / most

    def y(cost):
        return top + HIGH * (high - math.log10(cost)) / (high - low)

    parts = frame(size, series, where, left, top, steps, x, y)
    for name, colour in COLOURS.items():
        points = sorted(
            (row.size[where], row.seconds[name] * scale) for row in rows if row.seconds.get(name)
        )
        if not points:
            continue
        line = " ".join(f"{x(value):.1f},{y(cost):.1f}" for value, cost in points)
        parts.append(f'<polyline points="{line}" fill="none" stroke="{colour}" stroke-width="2"/>')
        parts += [
            f'<circle cx="{x(value):.1f}" cy="{y(cost):.1f}" r="3" fill="{colour}"/>'
            for value, cost in points
        ]
    return parts


def frame(size, series, where, left, top, steps, x, y):
    parts = []
    for step in steps:
        parts.append(f'<line x1="{left}" x2="{left + WIDE}" y1="{y(step):.1f}" y2="{y(step):.1f}" stroke="#e3e6e9"/>')
        if where == 0:
            parts.append(f'<text x="{left - 8}" y="{y(step) + 4:.1f}" text-anchor="end" fill="#5b636d">{step:,.10g}</text>')
    base = top + HIGH
    parts.append(f'<line x1="{left}" x2="{left + WIDE}" y1="{base}" y2="{base}" stroke="#8b939b"/>')
    for each in series:
        value = each[where]
        parts.append(f'<line x1="{x(value):.1f}" x2="{x(value):.1f}" y1="{base}" y2="{base + 5}" stroke="#8b939b"/>')
        parts.append(f'<text x="{x(value):.1f}" y="{base + 18}" text-anchor="middle" fill="#5b636d">{value}</text>')
    parts.append(f'<text x="{left + WIDE / 2}" y="{base + 36}" text-anchor="middle" fill="#5b636d">{words(size, series)}</text>')
    return parts


def words(size, series):
    links, values, pairs = series[-1]
    return {
        "links": f"links ({values} values, pairs twice the links)",
        "values": f"values ({links} links, {pairs} pairs)",
        "pairs": f"pairs ({links} links, {values} values)",
    }[size]
