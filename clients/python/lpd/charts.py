"""Pictures of what is large: how long the numbers of a certificate are, where the matrix of a basis has numbers, and how long the models of
a batch took beside another solver. Each has as many marks at most as its page has places, however large the model is."""
from __future__ import annotations

import csv
import io
import math
from fractions import Fraction
from pathlib import Path
from typing import Dict, Iterable, List, NamedTuple, Sequence, Set, Tuple

from .certificate import LETTERS, matched, read_certificate
from .exact import BASIC, Basis
from .model import ZERO, Model
from .plotting import NoPicture
from .refining import whole
from .svg import FOOT, HEIGHT, LEFT, RIGHT, TOP, WIDTH, Box, Picture, escape

COLOURS = ("steelblue", "firebrick", "seagreen", "darkorange")
PLACES = WIDTH - LEFT - RIGHT  # as many bars are beside each other
CELLS = 260  # of a matrix in each direction


# ---- the bits of a certificate


class Part(NamedTuple):
    """The numbers of a certificate with one letter, of all columns or all rows in their order: the bits of each, 0 for 0."""

    letter: str
    of: str
    bits: List[int]


def bits_of(value: Fraction) -> int:
    """The bits of the longer one of a number's two parts."""
    return max(value.numerator.bit_length(), value.denominator.bit_length()) if value else 0


def parts_of(model: Model, lines: Sequence[str]) -> List[Part]:
    certificate = read_certificate(lines, wide=True)
    given = matched(model, certificate)
    names: Dict[str, Tuple[str, Iterable[str]]] = {"x": ("columns", model.columns), "r": ("columns", model.columns), "y": ("rows", model.rows)}
    found = []
    for letter in LETTERS[certificate.kind]:
        of, order = names[letter]
        found.append(Part(letter, of, [bits_of(given[letter].get(name, ZERO)) for name in order]))
    return found


def bits_picture(model: Model, lines: Sequence[str]) -> str:
    """How many bits each number of a certificate has, as SVG: of its parts one behind the other, each in the order of the model."""
    parts = parts_of(model, lines)
    count, most = sum(len(part.bits) for part in parts), max((max(part.bits, default=0) for part in parts), default=0)
    if not count:
        raise NoPicture("the certificate has no numbers")
    longest = ", ".join(f"{part.letter} of at most {max(part.bits, default=0)} bits" for part in parts)
    picture = Picture(Box(ZERO, Fraction(count), ZERO, Fraction(max(1, most))), f"{model.name or 'model'}: {longest}")
    at = 0
    for part, colour in zip(parts, COLOURS):
        picture.bars(highest(part.bits, at, count), colour)
        at += len(part.bits)
    of = ", then ".join(f"{part.letter} of {len(part.bits)} {part.of}" for part in parts)
    picture.axes(of, "bits")
    return picture.svg()


def highest(bits: Sequence[int], start: int, count: int) -> List[Tuple[Fraction, Fraction]]:
    """Where bars stand, and how high they are: of those with one place on the page the highest."""
    found: Dict[int, Tuple[int, int]] = {}
    for n, high in enumerate(bits, start):
        place = n * PLACES // count
        if high > found.get(place, (0, 0))[1]:
            found[place] = n, high
    return [(n + Fraction(1, 2), Fraction(high)) for n, high in found.values()]


# ---- the matrix of a basis


class Matrix(NamedTuple):
    """The rows in which each column of a basis has numbers, and how many rows there are."""

    columns: List[List[int]]
    rows: int


class Order(NamedTuple):
    """The rows and columns of a basis in an order in which as many as can be are triangular: those of which a column, and then those of
    which a row, has one number that is left. Behind `singletons` of them the nucleus begins."""

    rows: List[int]
    columns: List[int]
    singletons: int


def matrix_of(model: Model, basis: Basis) -> Matrix:
    """That of the basic columns, and behind them of the rows whose sums are basic."""
    full, places = whole(model, basis), {name: n for n, name in enumerate(model.rows)}
    columns = [sorted(places[row] for row in column.entries) for name, column in model.columns.items() if full.columns[name] == BASIC]
    return Matrix(columns + [[place] for name, place in places.items() if full.rows[name] == BASIC], len(places))


def order_of(matrix: Matrix) -> Order:
    rows_of: List[List[int]] = [[] for _ in range(matrix.rows)]
    for n, column in enumerate(matrix.columns):
        for row in column:
            rows_of[row].append(n)
    taken = Taken(matrix.columns, rows_of)
    taken.peel(matrix.columns, rows_of, taken.column_left, taken.row_left, is_by_column=True)
    taken.peel(rows_of, matrix.columns, taken.row_left, taken.column_left, is_by_column=False)
    singletons = len(taken.pairs)
    rows, columns = [row for row, _ in taken.pairs], [column for _, column in taken.pairs]
    rows += sorted(set(range(matrix.rows)) - set(rows))
    return Order(rows, columns + sorted(set(range(len(matrix.columns))) - set(columns)), singletons)


class Taken:
    """How many numbers each column and row still has when rows and columns are taken away in pairs; a count of 0 is of one that is gone."""

    def __init__(self, columns: Sequence[Sequence[int]], rows: Sequence[Sequence[int]]) -> None:
        self.column_left, self.row_left = [len(column) for column in columns], [len(row) for row in rows]
        self.pairs: List[Tuple[int, int]] = []

    def peel(self, lines: Sequence[Sequence[int]], across: Sequence[Sequence[int]], left: List[int], other: List[int], is_by_column: bool) -> None:
        """Takes each line that has one number left, with the line across that has it."""
        ready = [n for n, count in enumerate(left) if count == 1]
        while ready:
            line = ready.pop()
            if left[line] != 1:
                continue
            crossing = next(place for place in lines[line] if other[place] > 0)
            self.pairs.append((crossing, line) if is_by_column else (line, crossing))
            other[crossing] = 0
            for place in across[crossing]:
                if left[place] > 0:
                    left[place] -= 1
                    ready += [place] if left[place] == 1 else []
            left[line] = 0


def sparsity_picture(model: Model, basis: Basis) -> str:
    """Where the matrix of a basis has numbers, as SVG, with a frame around its nucleus."""
    matrix = matrix_of(model, basis)
    size = max(1, matrix.rows, len(matrix.columns))
    order = order_of(matrix)
    place_of_row = {row: n for n, row in enumerate(order.rows)}
    cells: Set[Tuple[int, int]] = set()
    numbers = 0
    for n, column in enumerate(order.columns):
        rows = [place_of_row[row] for row in matrix.columns[column]]
        numbers += sum(row >= order.singletons for row in rows) if n >= order.singletons else 0
        cells |= {(min(n * CELLS // size, n), min(row * CELLS // size, row)) for row in rows}
    nucleus = matrix.rows - order.singletons
    title = f"{model.name or 'model'}: {matrix.rows} rows, {order.singletons} by singletons; nucleus of {nucleus} rows and {numbers} numbers"
    return drawn_matrix(title, cells, min(CELLS, size), order.singletons / size)


def drawn_matrix(title: str, cells: Set[Tuple[int, int]], count: int, nucleus: float) -> str:
    """A square of so many cells each way, with a frame from a part of it on."""
    whole_side = HEIGHT - TOP - FOOT + 20
    side = whole_side / count
    dots = " ".join(f"M{LEFT + x * side:.2f},{TOP + (y + 0.5) * side:.2f}h{side:.2f}" for x, y in sorted(cells))
    start, rest = nucleus * whole_side, (1 - nucleus) * whole_side
    frame = f'<rect x="{LEFT + start:.2f}" y="{TOP + start:.2f}" width="{rest:.2f}" height="{rest:.2f}"'
    return page(
        title,
        HEIGHT,
        [
            f'<path d="{dots}" stroke="steelblue" stroke-width="{side:.2f}"/>',
            f'{frame} fill="none" stroke="firebrick"/>',
            f'<rect x="{LEFT}" y="{TOP}" width="{whole_side}" height="{whole_side}" fill="none" stroke="black"/>',
        ],
    )


def page(title: str, height: int, parts: Sequence[str]) -> str:
    start = f'<svg xmlns="http://www.w3.org/2000/svg" width="{WIDTH}" height="{height}" viewBox="0 0 {WIDTH} {height}"'
    head = [f'{start} font-family="sans-serif" font-size="12">', f'<rect width="{WIDTH}" height="{height}" fill="white"/>']
    return "\n".join([*head, f'<text x="{LEFT}" y="20" font-size="14">{escape(title)}</text>', *parts, "</svg>"]) + "\n"


# ---- a batch beside another solver


class Series(NamedTuple):
    """Seconds by the names of models, and what they are of."""

    name: str
    seconds: Dict[str, float]


OWN = {"seconds": "lpd", "solver seconds": "the other solver", "certify seconds": "its basis made exact, and checked"}
BAR, GAP = 7, 5
NAMES = 110  # how wide the names of models are


def seconds_in(text: str, head: str) -> Dict[str, float]:
    """A column of seconds of a table, where there are any."""
    found = {}
    for cells in csv.DictReader(io.StringIO(text)):
        try:
            found[cells.get("model") or ""] = float(cells.get(head) or "")
        except ValueError:
            continue
    return found


def series_of(text: str, beside: Sequence[Path]) -> List[Series]:
    """What a table of batch says of times, and the times of other tables, which have heads `model` and `seconds`."""
    found = [Series(name, seconds_in(text, head)) for head, name in OWN.items()]
    if beside:
        found = found[:1] + [Series(path.stem, seconds_in(path.read_text(encoding="utf-8"), "seconds")) for path in beside]
    found = [each for each in found if each.seconds]
    if not found:
        raise NoPicture("the table has no column of seconds by models: batch writes one with --resume FILE, or --csv")
    return found


def bars_picture(title: str, series: Sequence[Series]) -> str:
    """Bars of seconds for each model, along powers of ten, as SVG."""
    names = sorted(set().union(*(each.seconds for each in series)), key=lambda name: max(each.seconds.get(name, 0.0) for each in series))
    times = [seconds for each in series for seconds in each.seconds.values() if seconds > 0] or [1.0]
    low, high = math.floor(math.log10(min(times))), max(math.ceil(math.log10(max(times))), math.floor(math.log10(min(times))) + 1)
    left, top = LEFT + NAMES - 70, TOP + 16 * len(series)
    step = BAR * len(series) + GAP
    foot = top + step * len(names)

    def along(seconds: float) -> float:
        return left + (WIDTH - RIGHT - left) * (max(math.log10(seconds) if seconds > 0 else low, low) - low) / (high - low)

    parts = [
        f'<text x="{left}" y="{TOP + 16 * n + 6}" fill="{colour}">{escape(each.name)}</text>' for n, (each, colour) in enumerate(zip(series, COLOURS))
    ]
    for power in range(low, high + 1):
        x = along(10.0**power)
        parts.append(f'<line x1="{x:.2f}" y1="{top}" x2="{x:.2f}" y2="{foot}" stroke="lightgray"/>')
        parts.append(f'<text x="{x:.2f}" y="{foot + 16}" fill="dimgray" text-anchor="middle">{10.0**power:g} s</text>')
    for n, name in enumerate(names):
        y = top + step * n
        parts.append(f'<text x="{left - 6}" y="{y + step / 2 + 2:.2f}" font-size="10" text-anchor="end">{escape(name)}</text>')
        for at, (each, colour) in enumerate(zip(series, COLOURS)):
            if name in each.seconds:
                width = max(1.0, along(each.seconds[name]) - left)
                told = f"<title>{escape(f'{name}: {each.name} {each.seconds[name]:g} s')}</title>"
                parts.append(f'<rect x="{left}" y="{y + BAR * at}" width="{width:.2f}" height="{BAR - 1}" fill="{colour}">{told}</rect>')
    return page(title, foot + FOOT, parts)
