"""The smaller model of `lpd presolve`, made here once more by the rules of docs/ALGORITHMS.md, since the program writes its size alone.

A row without entries goes. One with one entry becomes a bound of its column. A column whose bounds are one number goes into the
right sides. The first rule that applies is taken, and in it the first row or column, until none applies, or one row or column
alone shows that there is no point.
"""
import copy
from fractions import Fraction

from lpd.model import Row

# No bound is made that is so far from 0.
FAR = 10**20


class NoPoint(Exception):
    """A row or a column alone shows that no point is feasible."""


def reduced(model):
    """The smaller model, and whether a row or a column of it alone shows that no point is feasible."""
    small = copy.deepcopy(model)
    try:
        while any(rule(small) for rule in (has_clash, drop_empty_row, drop_single_row, drop_fixed_column)):
            pass
    except NoPoint:
        return small, True
    return small, False


def has_clash(model):
    for column in model.columns.values():
        if column.lower is not None and column.upper is not None and column.lower > column.upper:
            raise NoPoint
    return False


def entries_of(model, row):
    """The columns with an entry in this row, with their entries."""
    return [(column, column.entries[row]) for column in model.columns.values() if row in column.entries]


def drop_row(model, row):
    del model.rows[row]
    for column in model.columns.values():
        column.entries.pop(row, None)


def drop_empty_row(model):
    for name, row in model.rows.items():
        if entries_of(model, name):
            continue
        lower, upper = row.limits()
        if lower is not None and lower > 0 or upper is not None and upper < 0:
            raise NoPoint
        drop_row(model, name)
        return True
    return False


def drop_single_row(model):
    for name, row in model.rows.items():
        entries = entries_of(model, name)
        if len(entries) != 1:
            continue
        column, entry = entries[0]
        asked = [limit if limit is None else limit / entry for limit in row.limits()]
        if any(limit is not None and abs(limit) >= FAR for limit in asked):
            continue
        lower, upper = asked if entry > 0 else reversed(asked)
        column.lower = max((limit for limit in (column.lower, lower) if limit is not None), default=None)
        column.upper = min((limit for limit in (column.upper, upper) if limit is not None), default=None)
        drop_row(model, name)
        return True
    return False


def shifted(row: Row, by: Fraction) -> Row:
    return Row(row.kind, row.rhs - by, row.range)


def drop_fixed_column(model):
    for name, column in model.columns.items():
        if column.lower is None or column.lower != column.upper:
            continue
        for row, entry in column.entries.items():
            model.rows[row] = shifted(model.rows[row], entry * column.lower)
        model.offset += column.cost * column.lower
        del model.columns[name]
        return True
    return False
