"""Iterative refinement: the basis of a floating point solver that is not exactly optimal, put right by the solver itself.

The point of that basis, and its prices, are found exactly. Shifted such that this point is 0, and scaled such that what it misses by
little is missed by 1, the model goes to the solver once more, which begins where it stopped. What it misses then is as much smaller.
The basis that it ends with is one of the model, too.

The exact point comes from `lpd basis --wide`, which answers a model whose optimum is at the basis: whatever is basic has no limits in
it, and all else is fixed where it is.
"""
from __future__ import annotations

import math
from fractions import Fraction
from typing import Dict, Iterable, List, NamedTuple, Optional

from .basis_file import basis_lines, exchanged
from .certificate import Sum, activities, matched, read_certificate, reduced_cost, sum_of, wholes_of
from .dialects import PROFILE, written
from .errors import LpdError
from .exact import BASIC, LOWER, UPPER, Basis
from .floating import Claim, ask
from .from_basis import solve_from
from .model import ZERO, Column, Limits, Model, Row
from .records import replace
from .replies import Optimal

ROUNDS = 3
MOST = 50  # the scale is at most 2 to this power
PAST_FLOATS = 1e300
DEAREST = Fraction(2**20)  # greater costs are cut, since by those some solvers (glpsol) judge which are about 0
Values = Dict[str, Fraction]


class NotRefined(LpdError):
    """There is no exact point of a basis, or the solver has no basis of the refined model."""


def whole(model: Model, basis: Basis) -> Basis:
    """The basis with a status for each row and column, as a file of it is read: one that is not basic is at a limit that it has."""
    columns, rows, _ = exchanged(model, basis)
    basic, left = set(columns), set(rows)
    return Basis(
        {name: BASIC if name in basic else at_limit(column.limits(), basis.columns.get(name)) for name, column in model.columns.items()},
        {name: at_limit(row.limits(), basis.rows.get(name)) if name in left else BASIC for name, row in model.rows.items()},
    )


def at_limit(limits: Limits, status: Optional[str]) -> str:
    is_upper = limits.upper is not None and (status == UPPER or limits.lower is None)
    return UPPER if is_upper else LOWER


def value_at(limits: Limits, status: str) -> Fraction:
    """A limit; 0 where there is none."""
    return (limits.upper if status == UPPER else limits.lower) or ZERO


# ---- the exact point


def settled(model: Model, basis: Basis) -> Model:
    """The model in which what is basic has no limits, and all else is fixed: so the basis is optimal."""
    rows = {
        name: Row("N") if basis.rows[name] == BASIC else Row("E", value_at(row.limits(), basis.rows[name])) for name, row in model.rows.items()
    }
    columns = {}
    for name, column in model.columns.items():
        status = basis.columns[name]
        value = None if status == BASIC else value_at(column.limits(), status)
        columns[name] = replace(column, lower=value, upper=value)
    return replace(model, rows=rows, columns=columns)


class Point(NamedTuple):
    """The exact point of a basis, and its prices."""

    x: Values
    y: Values


def point_of(model: Model, basis: Basis, seconds: Optional[float]) -> Point:
    fixed = settled(model, basis)
    lines, _ = basis_lines(fixed, Basis({name: BASIC if status == BASIC else LOWER for name, status in basis.columns.items()}, basis.rows))
    found = solve_from(written(fixed, PROFILE).text, lines, wide=True, seconds=seconds)
    if not isinstance(found.answer, Optimal):
        raise NotRefined(f"the basis has no exact point: lpd basis --wide ends with {found.answer}")
    given = matched(model, read_certificate(found.certificate, wide=True))
    return Point(given["x"], given["y"])


# ---- the refined model


class Shifted(NamedTuple):
    """A variable, which is a column or the sum of a row: its limits less its value, and its reduced cost, or the row's price."""

    lower: Optional[Sum]
    upper: Optional[Sum]
    price: Sum
    is_fixed: bool

    def missed(self) -> float:
        """By how much the value is outside of its limits."""
        return max([0.0, *(sign * quotient(end) for sign, end in ((1, self.lower), (-1, self.upper)) if end is not None)])

    def wrong(self, status: str) -> float:
        """By how much the price has the wrong sign for a variable that is not basic."""
        price = quotient(self.price)
        if self.is_fixed or status == BASIC:
            return 0.0
        if self.lower is None and self.upper is None:
            return abs(price)
        return max(0.0, price if status == UPPER else -price)


def quotient(value: Sum) -> float:
    """The nearest float, however long the numbers are; of those past all floats a great one."""
    try:
        return value.top / value.bottom
    except OverflowError:
        return PAST_FLOATS if value.top > 0 else -PAST_FLOATS


def gap(limit: Optional[Fraction], value: Sum) -> Optional[Sum]:
    return None if limit is None else Sum(-value.over(limit), value.bottom * limit.denominator)


def shifted(limits: Limits, value: Sum, price: Sum) -> Shifted:
    return Shifted(gap(limits.lower, value), gap(limits.upper, value), price, limits.lower is not None and limits.lower == limits.upper)


def scale_for(missed: Iterable[float]) -> int:
    """The power of 2 that makes what is missed most about 1."""
    most = max(missed, default=0.0)
    return 0 if most == 0 else max(-MOST, min(MOST, math.floor(-math.log2(most))))


def scaled(value: Sum, power: int) -> Fraction:
    """2 to this power times the number, in the digits of a float."""
    times = Sum(value.top << power, value.bottom) if power >= 0 else Sum(value.top, value.bottom << -power)
    return Fraction(repr(quotient(times)))


def cost_of(price: Sum, power: int) -> Fraction:
    found = scaled(price, power)
    return max(-DEAREST, min(DEAREST, found))


class Refined:
    """The model around the exact point of a basis. A row that limits nothing is left out. One that has a price, and is no equation,
    has a column S for its sum, whose cost is that price."""

    def __init__(self, model: Model, basis: Basis, point: Point) -> None:
        self.basis = basis
        sums, prices = activities(model, wholes_of(point.x)), wholes_of(point.y)
        self.rows = {
            name: shifted(row.limits(), sums[name], sum_of(point.y.get(name, ZERO))) for name, row in model.rows.items() if not row.is_free()
        }
        self.columns = {
            name: shifted(column.limits(), sum_of(point.x.get(name, ZERO)), reduced_cost(model, prices, name))
            for name, column in model.columns.items()
        }
        both = [*((one, basis.rows[name]) for name, one in self.rows.items()), *((one, basis.columns[name]) for name, one in self.columns.items())]
        self.primal = scale_for(one.missed() for one, _ in both)
        self.dual = scale_for(one.wrong(status) for one, status in both)
        self.row_names = {name: f"R{n}" for n, name in enumerate(self.rows)}
        self.column_names = {name: f"C{n}" for n, name in enumerate(self.columns)}
        self.sum_names = {name: f"S{n}" for n, (name, one) in enumerate(self.rows.items()) if one.price.top and not one.is_fixed}
        self.model = self.built(model)

    def limits(self, one: Shifted) -> Limits:
        return Limits(*(None if end is None else scaled(end, self.primal) for end in (one.lower, one.upper)))

    def row(self, name: str) -> Row:
        lower, upper = self.limits(self.rows[name])
        if name in self.sum_names:
            return Row("E")
        if self.rows[name].is_fixed or lower is None:
            return Row("E" if self.rows[name].is_fixed else "L", upper or ZERO)
        return Row("G", lower, None if upper is None else upper - lower)

    def built(self, model: Model) -> Model:
        columns: Dict[str, Column] = {}
        for name, one in self.columns.items():
            entries = {self.row_names[row]: value for row, value in model.columns[name].entries.items() if row in self.row_names}
            columns[self.column_names[name]] = Column(cost_of(one.price, self.dual), *self.limits(one), entries)
        for name, short in self.sum_names.items():
            one = self.rows[name]
            columns[short] = Column(cost_of(one.price, self.dual), *self.limits(one), {self.row_names[name]: Fraction(-1)})
        return Model("refined", 1, "OBJ", ZERO, {short: self.row(name) for name, short in self.row_names.items()}, columns)

    def begin(self) -> Basis:
        """The basis of the refined model that is the one of the model."""
        columns = {short: self.basis.columns[name] for name, short in self.column_names.items()}
        columns.update((short, self.basis.rows[name]) for name, short in self.sum_names.items())
        return Basis(columns, {short: self.basis.rows[name] for name, short in self.row_names.items()})

    def end(self, found: Basis) -> Basis:
        """The basis of the model that is this one of the refined model: a row is where its sum is."""
        columns = {name: found.columns.get(short, LOWER) for name, short in self.column_names.items()}
        rows: Dict[str, str] = {}
        for name, short in self.row_names.items():
            status = found.rows.get(short, BASIC)
            rows[name] = status if status == BASIC or name not in self.sum_names else found.columns.get(self.sum_names[name], LOWER)
        return Basis(columns, rows)


def refined(model: Model, basis: Basis, solver: str, seconds: Optional[float]) -> Basis:
    """The basis that a solver ends with when it goes on from this one in the refined model. Each of the two steps may take so many
    seconds."""
    begin = whole(model, basis)
    found = Refined(model, begin, point_of(model, begin, seconds))
    claim: Claim = ask(solver, found.model, seconds, found.begin())
    if claim.basis is None:
        raise NotRefined(f"{solver} gives no basis of the refined model, and says: {claim.said}")
    return found.end(claim.basis)
