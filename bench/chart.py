#!/usr/bin/env python3
"""Draws the times of a page's table as bars, one beside the other for each model.

    chart.py PAGE PICTURE

PAGE has the table that bench/beside.py writes, and PICTURE is an SVG. The first column has the names of models, and each column whose
head ends in `, ms` has the times of a solver. Bars are as long as the logarithms of times, from 1 ms on; behind each stands its time.
"""
import math
import re
import sys
from html import escape
from pathlib import Path

from beside import BEGIN, END

COLOURS = ("#2b6ca3", "#c26a1c", "#4d8f3a", "#8a5aa8", "#9c9c9c", "#b8b03a")
LEFT, DECADE, BAR, GAP = 90, 150, 14, 14


def rows(page):
    """The cells of the table, its head first."""
    lines = page.partition(BEGIN)[2].partition(END)[0].strip().splitlines()
    return [[cell.strip() for cell in line.strip("|").split("|")] for line in lines if not line.startswith("|---")]


def timed(head):
    """The columns with times, and whose they are."""
    return [(number, name.removesuffix(", ms")) for number, name in enumerate(head) if name.endswith(", ms")]


def bar(y, text, colour):
    """The bar of a cell, as `12 (=)`."""
    time = float(re.match(r"[\d,.]+", text)[0].replace(",", ""))
    length = max(2, round(DECADE * math.log10(max(time, 1))))
    yield f'<rect x="{LEFT}" y="{y}" width="{length}" height="{BAR - 2}" fill="{colour}"/>'
    yield f'<text x="{LEFT + length + 6}" y="{y + BAR - 4}">{escape(text)}</text>'


def legend(names):
    for number, name in enumerate(names):
        yield f'<rect x="{LEFT + number * 120}" y="8" width="12" height="12" fill="{COLOURS[number]}"/>'
        yield f'<text x="{LEFT + number * 120 + 18}" y="18">{escape(name)}</text>'


def picture(table):
    head, *models = table
    columns = timed(head)
    shapes, y = [*legend([name for _, name in columns])], 36
    for cells in models:
        shapes.append(f'<text x="{LEFT - 8}" y="{y + BAR - 4}" text-anchor="end">{escape(cells[0])}</text>')
        for colour, (number, _) in zip(COLOURS, columns):
            shapes += bar(y, cells[number], colour)
            y += BAR
        y += GAP
    size = f'viewBox="0 0 {LEFT + 120 * len(columns)} {y}" width="{LEFT + 120 * len(columns)}" height="{y}"'
    return "\n".join([f'<svg xmlns="http://www.w3.org/2000/svg" {size}>', "<style>text{font:12px sans-serif;fill:#222}</style>", *shapes, "</svg>"]) + "\n"


def main():
    if len(sys.argv) != 3:
        print(__doc__.strip())
        return 2
    page, target = map(Path, sys.argv[1:])
    target.write_text(picture(rows(page.read_text(encoding="utf-8"))), encoding="utf-8")
    return 0


if __name__ == "__main__":
    sys.exit(main())
