#!/usr/bin/env python3
"""How the cost of the diet moves with the energy that it has to have: exactly, with every kink, as a table and a picture.

    optimum_over_demand.py [PICTURE] [--by-hand]

The optimum over a right side is convex and piecewise linear, and at each point the row's price is its slope. So two points
with their slopes either lie on one line, or the lines meet where the next point is solved. The picture is drawn by matplotlib
where it is there, and else, or with --by-hand, as SVG.
"""
import sys
from fractions import Fraction

import place

import lpd
from lpd.report import report

ROW, LEAST, MOST = "energy", Fraction(0), Fraction(4015)


def solved(session, right):
    """A point of the curve: the right side, the optimum, and the row's price."""
    session.set_rhs(ROW, right)
    value = session.solve().value
    rows = report(lpd.read_model(session.write()), session.certificate()).rows
    return right, value, next(row.price for row in rows if row.name == ROW)


def kinks(session, first, last):
    """The kinks between two points, in order."""
    (b, v, slope), (c, w, next_slope) = first, last
    if v + slope * (c - b) == w or w - next_slope * (c - b) == v:
        return []
    middle = (w - v + slope * b - next_slope * c) / (slope - next_slope)
    point = solved(session, middle)
    on_line = point[1] == v + slope * (middle - b)
    return [point] if on_line else [*kinks(session, first, point), point, *kinks(session, point, last)]


def straight(points):
    """The points without those at which the line goes straight on."""
    kept = points[:1]
    for at in range(1, len(points) - 1):
        (b, v, _), (c, w, _), (d, u, _) = kept[-1], points[at], points[at + 1]
        if (w - v) * (d - c) != (u - w) * (c - b):
            kept.append(points[at])
    return [*kept, points[-1]]


def by_hand(points, path):
    """The curve as SVG, with a mark and a label at each kink."""
    width, height, left, right_margin, foot = 720, 360, 90, 90, 40
    most = max(value for _, value, _ in points)

    def x(right):
        return left + float((right - LEAST) / (MOST - LEAST)) * (width - left - right_margin)

    def y(value):
        return height - foot - float(value / most) * (height - foot - 30)

    line = " ".join(f"{x(b):.1f},{y(v):.1f}" for b, v, _ in points)
    parts = [
        f'<svg xmlns="http://www.w3.org/2000/svg" width="{width}" height="{height}" font-family="sans-serif" font-size="11">',
        f'<path d="M{left},20 V{height - foot} H{width - 10}" fill="none" stroke="black"/>',
        f'<polyline points="{line}" fill="none" stroke="steelblue" stroke-width="2"/>',
    ]
    for at, (b, v, _) in enumerate(points):
        across, down, anchor = (6, 14, "start") if at % 2 else (-6, -6, "end")
        parts.append(f'<circle cx="{x(b):.1f}" cy="{y(v):.1f}" r="3" fill="steelblue"/>')
        parts.append(f'<text x="{x(b) + across:.1f}" y="{y(v) + down:.1f}" text-anchor="{anchor}">{b}: {v}</text>')
    parts += [f'<text x="{width // 2}" y="{height - 10}">{ROW} at least</text>', '<text x="8" y="14">cents</text>', "</svg>"]
    with open(path, "w", encoding="utf-8") as file:
        file.write("\n".join(parts) + "\n")


def draw(points, path):
    try:
        if "--by-hand" in sys.argv:
            raise ImportError
        import matplotlib

        matplotlib.use("Agg")
        from matplotlib import pyplot
    except ImportError:
        by_hand(points, path)
        return
    pyplot.plot([float(b) for b, _, _ in points], [float(v) for _, v, _ in points], marker="o")
    pyplot.xlabel(f"{ROW} at least")
    pyplot.ylabel("cents")
    pyplot.savefig(path)


with lpd.Session() as session:
    session.load((place.MODELS / "diet.mps").read_text())
    first, last = solved(session, LEAST), solved(session, MOST)
    points = straight([first, *kinks(session, first, last), last])
for (b, v, _), (c, w, _) in zip(points, points[1:]):
    print(f"{ROW} from {b} to {c}: from {v} to {w} cents, {(w - v) / (c - b)} for each unit")
pictures = [word for word in sys.argv[1:] if not word.startswith("-")]
if pictures:
    draw(points, pictures[0])
