"""The network as a drawing: links as nodes, pairs as edges."""

import math

WIDTH, HEIGHT = 560, 440
SWEEPS = 120
LONGEST = 250


def network(case, marks):
    """The drawing; `marks` gives scopes that are drawn in a style of their own. What has something barred is dashed."""
    at = positions(case.n, case.pairs)
    radius = 17 if case.n <= 12 else 14 if case.n <= 24 else 11
    at = fit(at, WIDTH, HEIGHT, radius + 6)
    parts = [
        f'<svg id="network" viewBox="0 0 {WIDTH} {HEIGHT}" role="img" '
        f'aria-label="Network of {case.n} links and {case.m} pairs">'
    ]
    for pair, (low, high) in enumerate(case.pairs):
        parts.append(edge(pair, low, high, at, case, marks))
    if case.m <= 40:
        parts += [edge_name(pair, at[low], at[high]) for pair, (low, high) in enumerate(case.pairs)]
    for link in range(case.n):
        x, y = at[link]
        parts.append(
            f'<g class="{style("link", link, case, marks)}" id="s{link}"><title>link {link}{bars(case, link, "channels")}</title>'
            f'<circle cx="{x:.1f}" cy="{y:.1f}" r="{radius}"/>'
            f'<text x="{x:.1f}" y="{y + radius * 0.34:.1f}" '
            f'font-size="{radius}">{link}</text></g>'
        )
    return "\n".join(parts + ["</svg>"])


def style(name, scope, case, marks):
    return " ".join(filter(None, [name, "bars" if case.barred(scope) else "", marks.get(scope)]))


def bars(case, scope, what):
    """How much of a scope is barred, in words."""
    first, end = case.span(scope)
    return f", {case.barred(scope)} of {end - first} {what} barred" if case.barred(scope) else ""


def edge(pair, low, high, at, case, marks):
    (x1, y1), (x2, y2) = at[low], at[high]
    scope = case.n + pair
    return (
        f'<line class="{style("pair", scope, case, marks)}" id="s{scope}" x1="{x1:.1f}" y1="{y1:.1f}" x2="{x2:.1f}" '
        f'y2="{y2:.1f}"><title>pair {pair} (scope {scope}): links {low} and {high}{bars(case, scope, "combinations")}'
        "</title></line>"
    )


def edge_name(pair, start, end):
    x, y = (start[0] + end[0]) / 2, (start[1] + end[1]) / 2
    return f'<text class="pairname" x="{x:.1f}" y="{y + 4:.1f}">{pair}</text>'


def distances(n, pairs):
    """Steps from link to link; a little more than the longest way where there is none."""
    near = [[] for _ in range(n)]
    for low, high in pairs:
        near[low].append(high)
        near[high].append(low)
    table = [ways(start, near) for start in range(n)]
    longest = max(max(row.values()) for row in table)
    apart = max(1.0, min(longest, math.sqrt(n)))
    return [[row.get(other, apart) for other in range(n)] for row in table]


def ways(start, near):
    found = {start: 0}
    front = [start]
    for link in front:
        for other in near[link]:
            if other not in found:
                found[other] = found[link] + 1
                front.append(other)
    return found


def positions(n, pairs):
    """Places whose distances follow the steps between links (stress majorization)."""
    want = distances(n, pairs)
    at = first_places(n, want)
    for _ in range(SWEEPS if n > 1 else 0):
        at = [better(i, at, want, n) for i in range(n)]
    return at


def better(i, at, want, n):
    """Where the others would have link i."""
    x = y = total = 0.0
    xi, yi = at[i]
    for j in range(n):
        if j == i:
            continue
        dx, dy = xi - at[j][0], yi - at[j][1]
        apart = math.hypot(dx, dy) or 1e-9
        weight = want[i][j] ** -2
        x += weight * (at[j][0] + want[i][j] * dx / apart)
        y += weight * (at[j][1] + want[i][j] * dy / apart)
        total += weight
    return x / total, y / total


def first_places(n, want):
    """The two main directions of the squared distances, with a little spread."""
    square = [[d * d for d in row] for row in want]
    mean = [sum(row) / n for row in square]
    all_mean = sum(mean) / n
    inner = [
        [(mean[i] + mean[j] - all_mean - square[i][j]) / 2 for j in range(n)] for i in range(n)
    ]
    first = direction(inner, n, [])
    second = direction(inner, n, [first])
    return [
        (first[i] + 0.01 * math.cos(2.4 * i), second[i] + 0.01 * math.sin(2.4 * i))
        for i in range(n)
    ]


def direction(inner, n, others):
    """The strongest direction that stands upright on the others, by its own length."""
    vector = [math.sin(1 + 1.7 * i) for i in range(n)]
    length = 0.0
    for _ in range(60):
        vector = [sum(a * b for a, b in zip(row, vector)) for row in inner]
        for other in others:
            share = sum(a * b for a, b in zip(vector, other))
            size = sum(b * b for b in other) or 1.0
            vector = [a - share / size * b for a, b in zip(vector, other)]
        length = math.sqrt(sum(a * a for a in vector))
        if length < 1e-9:
            return [0.0] * n
        vector = [a / length for a in vector]
    return [a * math.sqrt(length) for a in vector]


def fit(at, width, height, margin):
    """The places scaled into the drawing, a step at most `LONGEST`, stretched by a quarter."""
    xs, ys = [x for x, _ in at], [y for _, y in at]
    wide, high = max(xs) - min(xs), max(ys) - min(ys)
    across = (width - 2 * margin) / wide if wide > 1e-6 else 0.0
    upright = (height - 2 * margin) / high if high > 1e-6 else 0.0
    if across and upright:
        across, upright = min(across, 1.25 * upright), min(upright, 1.25 * across)
    across, upright = min(across, LONGEST), min(upright, LONGEST)
    middle_x, middle_y = (max(xs) + min(xs)) / 2, (max(ys) + min(ys)) / 2
    return [
        (width / 2 + (x - middle_x) * across, height / 2 + (y - middle_y) * upright)
        for x, y in at
    ]
