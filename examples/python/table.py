#!/usr/bin/env python3
"""A plan from a table, products.csv: a line for each product, and a last one of how much there is of what they take.

    table.py [TABLE.csv]

The first cell of a line is a name, `profit` what one piece earns, and `most` how many pieces are asked for, where that is limited. All
other cells say how much one piece takes. Numbers are taken as they are written: 0.1 is a tenth, and no float.
"""
import csv
import sys
from fractions import Fraction

import place

import lpd
from lpd.dialects import PROFILE, written
from lpd.figures import READABLE
from lpd.model import Column, Model, Row
from lpd.names import plain

ENDS = ("profit", "most")


def number(cell):
    """The number of a cell, or none of an empty one."""
    return Fraction(cell.strip()) if cell.strip() else None


def model_of(path):
    """The model of a table: a row for each thing that is taken, and a column for each product."""
    with open(path, newline="", encoding="utf-8-sig") as file:
        lines = csv.reader(file)
        name, *heads = next(lines)
        heads = [plain(head) for head in heads]  # names have no blanks
        if ENDS[0] not in heads:
            sys.exit(f"{path} has no column {ENDS[0]} between commas")
        *products, (_, limits) = [(plain(line[0]), dict(zip(heads, map(number, line[1:])))) for line in lines if any(line)]
    model = Model(name, -1, ENDS[0])  # -1 maximizes
    model.rows = {head: Row("L", limits[head]) for head in heads if head not in ENDS and limits[head] is not None}
    for product, cells in products:
        takes = {row: cells[row] for row in model.rows if cells[row]}
        model.columns[product] = Column(cells["profit"] or Fraction(0), Fraction(0), cells.get("most"), takes)
    return model


model = model_of(sys.argv[1] if len(sys.argv) > 1 else place.TOP / "examples" / "python" / "products.csv")
found = lpd.answered(written(model, PROFILE).text, model)
print(found.answer)
if not isinstance(found.answer, lpd.Optimal):
    sys.exit(1)
plan = lpd.report(model, found.certificate)
for column in plan.columns:
    print(f"  {column.name:10} {READABLE.word(column.value)}")
for row in plan.rows:
    print(f"  {row.name}: {READABLE.word(row.activity)} are taken, and one more would earn {READABLE.word(row.price)}")
