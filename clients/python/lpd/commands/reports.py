"""The report of the command solve, as people read it: the answer, columns that are not 0, and rows that bind."""
from __future__ import annotations

import heapq
import math
from fractions import Fraction
from typing import Dict, List, Optional, Sequence, TypeVar

from ..certificate import matched, read_certificate
from ..figures import Style
from ..model import MOST_COLUMNS, MOST_ROWS, Model
from ..replies import Answer, Open, Optimal, Past, Spent, Unbounded
from ..report import ColumnReport, Report, RowReport
from .common import print_prose, table

LONG = 40  # an exact number of more characters has a decimal beside it
MOST_VALUES = 6  # of a point or a ray
MOST_LINES = 20  # of a table of a large model


def shown_answer(answer: Answer, style: Style) -> str:
    """The answer in a line."""
    if not isinstance(answer, Optimal):
        return str(answer) if len(str(answer)) <= 3 * LONG else f"{str(answer)[: 3 * LONG - 3]} .."
    word = style.word(answer.value)
    if style.is_exact and style.places is None and len(word) > LONG:
        word = Style(True, 10).word(answer.value)
    return f"OPTIMAL {word}"


def words_for(answer: Answer, model: Model, certificate: List[str], style: Style) -> str:
    """What an answer without a point means."""
    if isinstance(answer, Unbounded):
        return growth(model, certificate, style)
    if isinstance(answer, Past):
        return "The result of this operation does not fit 127 bits, so lpd solve has no answer."
    if isinstance(answer, Open):
        return "There is no answer, at whatever width the program has."
    return f"The solve is not done after {answer.budget} pivots and flips: --budget allows more." if isinstance(answer, Spent) else ""


def growth(model: Model, certificate: List[str], style: Style) -> str:
    """Which columns of an unbounded model grow, by how much, and what that is worth."""
    given = matched(model, read_certificate(certificate, wide=True))
    moves = [f"{name} {'grows' if step > 0 else 'falls'} by {style.word(abs(step))}" for name, step in given["r"].items() if step]
    values = [f"{name} {style.word(value)}" for name, value in given["x"].items() if value]
    gain = model.cost(given["r"])
    change = f"the objective {'grows' if gain > 0 else 'falls'} by {style.word(abs(gain))}"
    return f"From the point {some_of(values) or 'with all columns 0'} on, with each step {some_of(moves)}, and {change}, without end."


def some_of(texts: Sequence[str]) -> str:
    more = f" and {len(texts) - MOST_VALUES} more" if len(texts) > MOST_VALUES else ""
    return ", ".join(texts[:MOST_VALUES]) + more


def print_report(found: Report, show: str, style: Style, shows_all: bool, before: Optional[Report] = None) -> None:
    """What is asked for of a point, beside that of the model without the numbers that were set, if some were. Of a large model a summary
    comes first, and without `shows_all` the largest numbers alone."""
    if show == "answer":
        return
    if len(found.columns) > MOST_COLUMNS or len(found.rows) > MOST_ROWS:
        print_prose(f"\n{summary(found)}")
        if not shows_all:
            print_largest(found, show, style)
            return
    if show in ("point", "all"):
        print_columns(found.columns, style, shows_all, {c.name: c.value for c in before.columns} if before else None)
    if show in ("rows", "all"):
        print_rows(found.rows, style, shows_all, {r.name: r.activity for r in before.rows} if before else None)
    if show == "prices":
        prices = [[r.name, style.cell(r.price)] for r in found.rows if r.price]
        costs = [[c.name, style.cell(c.reduced_cost)] for c in found.columns if c.reduced_cost]
        print("\n" + table([["row", "price"], *prices], style) + "\n\n" + table([["column", "reduced cost"], *costs], style))


def summary(found: Report) -> str:
    """How many columns and rows count for something."""
    used, bound = sum(bool(column.value) for column in found.columns), sum(binds(row) for row in found.rows)
    priced = sum(bool(row.price) for row in found.rows)
    return f"{used} of {len(found.columns)} columns are not 0; {bound} of {len(found.rows)} rows bind, and {priced} have a price."


def print_largest(found: Report, show: str, style: Style) -> None:
    """The largest values, and the rows that bind with the largest prices."""
    columns = largest(found.columns, [column.value for column in found.columns])
    rows = largest(found.rows, [row.price for row in found.rows])
    costs = largest(found.columns, [column.reduced_cost for column in found.columns])
    if show in ("point", "all"):
        print("\n" + table([["column", "value", "reduced cost"], *([c.name, style.cell(c.value), style.cell(c.reduced_cost)] for c in columns)], style))
    if show in ("rows", "all"):
        cells = [[r.name, style.cell(r.activity), style.cell(r.slack), style.cell(r.price)] for r in rows]
        print("\n" + table([["row", "sum", "slack", "price"], *cells], style))
    if show == "prices":
        print("\n" + table([["row", "price"], *([r.name, style.cell(r.price)] for r in rows)], style))
        print("\n" + table([["column", "reduced cost"], *([c.name, style.cell(c.reduced_cost)] for c in costs)], style))
    print(f"\nThese are the largest numbers, at most {MOST_LINES} of a kind: --all shows all, and --csv writes them.")


Part = TypeVar("Part")


def largest(parts: Sequence[Part], numbers: Sequence[Fraction]) -> List[Part]:
    """The parts with the largest numbers but 0, whatever their signs are: by floats, which are quick to compare."""
    sizes = [(abs(float_of(number)), at) for at, number in enumerate(numbers) if number]
    return [parts[at] for _, at in heapq.nlargest(MOST_LINES, sizes, key=lambda size: (size[0], -size[1]))]


def float_of(value: Fraction) -> float:
    try:
        return float(value)
    except OverflowError:
        return math.inf


def print_columns(columns: Sequence[ColumnReport], style: Style, shows_all: bool, before: Optional[Dict[str, Fraction]]) -> None:
    """Those that are not 0, or were not, or all of them."""
    old = before or {}
    kept = [column for column in columns if shows_all or column.value or old.get(column.name)]
    lines = [[c.name, style.cell(c.value), style.cell(old.get(c.name)), style.cell(c.reduced_cost)] for c in kept]
    print_table([["column", "value", "unchanged", "reduced cost"], *lines], before, style)
    print_rest(len(columns) - len(kept), "column that is 0 is", "columns that are 0 are")


def print_table(lines: Sequence[List[str]], before: Optional[Dict[str, Fraction]], style: Style) -> None:
    """A table, without the numbers of before where there are none."""
    print("\n" + table([line if before is not None else [*line[:2], *line[3:]] for line in lines], style))


def binds(row: RowReport) -> bool:
    """Whether the sum of a row is at a limit."""
    return row.slack == 0


def print_rows(rows: Sequence[RowReport], style: Style, shows_all: bool, before: Optional[Dict[str, Fraction]]) -> None:
    """Those that bind, and behind them those without limits, whose sums somebody wants to know; or the others too."""
    free = [row for row in rows if row.slack is None]
    kept = [row for row in rows if binds(row)] + free + [row for row in rows if shows_all and row.slack]
    old = before or {}
    lines = [[r.name, *(style.cell(value) for value in (r.activity, old.get(r.name), r.slack, r.price))] for r in kept]
    print_table([["row", "sum", "unchanged", "slack", "price"], *lines], before, style)
    print_rest(len(rows) - len(kept), "row that does not bind is", "rows that do not bind are")


def print_rest(count: int, one: str, many: str) -> None:
    if count:
        print(f"({count} {one if count == 1 else many} left out: --all shows all)")


def offset_words(offset: Fraction, value: Fraction, style: Style) -> str:
    """What the right side of the objective does to the value, which solvers do not agree on."""
    told = f"The value has the offset {style.word(offset)}, by the right side of the objective. Solvers differ there:"
    return f"{told} without it it is {style.word(value - offset)}, and with the other sign {style.word(value - 2 * offset)}."
