#!/usr/bin/env python3
"""Writes docs/required.svg: which points of the grid have to be cut in a pocket, a slot and a hole, by the rules of docs/JOBS.md.

    required_figure.py > docs/required.svg

All lengths are pitches. The stock is larger than each figure, so that no point lies outside of it.
"""

STEP = 16
COLOURS = {"out": "#d0d0d0", "in": "#ffffff", "base": "#9ecae1", "required": "#08519c"}


def disc(diameter, centre):
    reach = diameter // 2 + 1
    x0, y0 = centre
    return {
        (x, y)
        for x in range(int(x0) - reach, int(x0) + reach + 1)
        for y in range(int(y0) - reach, int(y0) + reach + 1)
        if 4 * ((x - x0) ** 2 + (y - y0) ** 2) <= diameter**2
    }


def rounded(allowed, diameter):
    base = set()
    for node in allowed:
        nodes = disc(diameter, node)
        if nodes <= allowed:
            base |= nodes
    return base


def required(base):
    return {(x, y) for x, y in base if all((x + i, y + j) in base for i in range(-2, 3) for j in range(-2, 3))}


def near(p, a, b, width):
    (px, py), (ax, ay), (bx, by) = p, a, b
    length = (bx - ax) ** 2 + (by - ay) ** 2
    along = max(0, min(length, (px - ax) * (bx - ax) + (py - ay) * (by - ay)))
    x, y = (px - ax) * length - along * (bx - ax), (py - ay) * length - along * (by - ay)
    return 4 * (x * x + y * y) <= (width * length) ** 2


def panel(left, name, width, height, outline, allowed, base):
    wanted = required(base)
    top = 40
    lines = ['<text x="%d" y="24" font-size="15">%s</text>' % (left, name)]
    lines.append('<g transform="translate(%d %d) scale(1 -1) translate(0 %d)">' % (left, top, -height * STEP))
    lines.append(outline)
    for x in range(width + 1):
        for y in range(height + 1):
            kind = "required" if (x, y) in wanted else "base" if (x, y) in base else "in" if (x, y) in allowed else "out"
            lines.append(
                '<circle cx="%d" cy="%d" r="4" fill="%s" stroke="#555" stroke-width="0.8"/>' % (x * STEP, y * STEP, COLOURS[kind])
            )
    lines.append("</g>")
    return lines


def main():
    pocket = {(x, y) for x in range(1, 16) for y in range(1, 12)}
    slot = {(x, y) for x in range(17) for y in range(13) if near((x, y), (5, 6), (12, 6), 8)}
    hole = disc(8, (6, 6))
    s = STEP
    lines = ['<svg xmlns="http://www.w3.org/2000/svg" width="820" height="300" font-family="sans-serif">']
    lines += ['<rect width="820" height="300" fill="white"/>']
    lines += panel(
        20, "pocket, corner diameter 6", 16, 12,
        '<rect x="%d" y="%d" width="%d" height="%d" fill="none" stroke="#000"/>' % (s, s, 14 * s, 10 * s), pocket, rounded(pocket, 6),
    )
    lines += panel(
        300, "slot, width 8", 17, 12,
        '<rect x="%d" y="%d" width="%d" height="%d" rx="%d" fill="none" stroke="#000"/>' % (s, 2 * s, 15 * s, 8 * s, 4 * s), slot, slot,
    )
    lines += panel(
        600, "hole, diameter 8", 12, 12, '<circle cx="%d" cy="%d" r="%d" fill="none" stroke="#000"/>' % (6 * s, 6 * s, 4 * s), hole, hole,
    )
    legend = [("required", "has to be cut"), ("base", "may be cut, after rounding"), ("in", "may be cut, in a corner"), ("out", "has to stay")]
    for x, (kind, text) in zip((24, 164, 390, 590), legend):
        lines.append('<circle cx="%d" cy="272" r="5" fill="%s" stroke="#555"/>' % (x, COLOURS[kind]))
        lines.append('<text x="%d" y="277" font-size="13">%s</text>' % (x + 12, text))
    lines.append("</svg>")
    print("\n".join(lines))


main()
