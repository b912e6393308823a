"""What an answer says of a model, as a planner reads it: columns with values, rows with sums, slacks and prices, and which rows
contradict each other."""
from __future__ import annotations

import functools
import math
from fractions import Fraction
from typing import Callable, Dict, List, Optional, Sequence

from .certificate import activities, matched, read_certificate, reduced_cost, weighed, wholes_of
from .model import Limits, Model
from .number_text import shown
from .records import dataclass, field, replace

ZERO = Fraction(0)
MOST_TERMS = 6  # of a sum that is told
MOST_BOUNDS = 3  # that are told by name
SOME, LONG_MULTIPLIER = 10, 1000
SHORT = 4  # decimals of a multiplier that is told


@dataclass(frozen=True)
class ColumnReport:
    """A column of an optimal point. One more unit of it would change the objective by `reduced_cost`."""

    name: str
    value: Fraction
    limits: Limits
    reduced_cost: Fraction


@dataclass(frozen=True)
class RowReport:
    """A row at an optimal point. `slack` is the distance to the nearer limit, None without limits; one more unit of the right
    side changes the optimal value by `price`, as long as the certificate's multipliers still fit."""

    name: str
    activity: Fraction
    limits: Limits
    slack: Optional[Fraction]
    price: Fraction


@dataclass(frozen=True)
class Report:
    columns: List[ColumnReport]
    rows: List[RowReport]


def slack_of(limits: Limits, value: Fraction) -> Optional[Fraction]:
    gaps = [] if limits.lower is None else [value - limits.lower]
    gaps += [] if limits.upper is None else [limits.upper - value]
    return min(gaps) if gaps else None


def report(model: Model, certificate: Sequence[str]) -> Report:
    """The report of an optimal certificate, which has been checked. Prices and reduced costs are those of the objective as it is:
    under MAX one more unit that is worth something has a price above 0."""
    given = matched(model, read_certificate(certificate, wide=True))
    x, y, prices = given["x"], given["y"], wholes_of(given["y"])
    columns = [
        ColumnReport(name, x.get(name, ZERO), column.limits(), model.sense * reduced_cost(model, prices, name).exact())
        for name, column in model.columns.items()
    ]
    rows = []
    for name, found in activities(model, wholes_of(x)).items():
        limits, activity = model.rows[name].limits(), found.exact()
        rows.append(RowReport(name, activity, limits, slack_of(limits, activity), model.sense * y.get(name, ZERO)))
    return Report(columns, rows)


@dataclass(frozen=True)
class ConflictRow:
    """A row of a conflict: how often it counts in the combination, whether by its lower limit, and that limit."""

    name: str
    multiplier: Fraction
    is_lower: bool
    limit: Fraction

    def __str__(self) -> str:
        return f"{self.name} is at {'least' if self.is_lower else 'most'} {shown(self.limit)}"


@dataclass(frozen=True)
class Conflict:
    """Why there is no feasible point: the rows, each times its multiplier, ask for `asked` at least, and the bounds of the columns
    allow `allowed` at most, which is less. The multipliers are whole numbers without a common divisor. `bounded` has the columns whose
    bounds are not 0 in that. Or else `column` has a lower bound above its upper one, and these are the two."""

    rows: List[ConflictRow]
    asked: Fraction
    allowed: Fraction
    column: Optional[str] = None
    bounded: List[str] = field(default_factory=list)

    def __str__(self) -> str:
        return self.told(shown)

    def scaled(self) -> Conflict:
        """The same, but for a factor, where a row counts more than a few times: one that alone asks, or alone allows, counts once if the
        others then have short decimals. Else, where multipliers are long, the least of them is 1."""
        sizes = [abs(row.multiplier) for row in self.rows]
        if max(sizes, default=ZERO) < SOME:
            return self
        for is_lower in (True, False):
            alone = [abs(row.multiplier) for row in self.rows if row.is_lower == is_lower]
            if len(alone) == 1 and all(10**SHORT % (size / alone[0]).denominator == 0 for size in sizes):
                return self.divided(alone[0])
        return self.divided(min(sizes)) if max(sizes) >= LONG_MULTIPLIER else self

    def divided(self, by: Fraction) -> Conflict:
        rows = [replace(row, multiplier=row.multiplier / by) for row in self.rows]
        return replace(self, rows=rows, asked=self.asked / by, allowed=self.allowed / by)

    def bounds(self) -> str:
        """The bounds that count, by the names of their columns where these are few."""
        if not 0 < len(self.bounded) <= MOST_BOUNDS:
            return "the bounds of the columns"
        *names, last = self.bounded
        return f"the bounds of {', '.join(names)} and {last}" if names else f"the bound of {last}"

    def told(self, number: Callable[[Fraction], str]) -> str:
        """What contradicts what, in a sentence whose numbers are shown so."""
        if self.column is not None:
            return f"Column {self.column} has the lower bound {number(self.asked)} above its upper bound {number(self.allowed)}."
        if len(self.rows) == 1:
            return self.of_one_row(number)
        lower, upper = [row for row in self.rows if row.is_lower], [row for row in self.rows if not row.is_lower]
        most = sum((-row.multiplier * row.limit for row in upper), ZERO)
        if not lower:
            return f"{sum_of(upper, number)} allow {number(most)} at most, and {self.said('ask', number(-self.allowed), 'least')}."
        least = self.asked + most
        asks = f"{sum_of(lower, number)} ask{'' if len(lower) > 1 else 's'} for {number(least)} at least"
        if not upper:
            return f"{asks}, and {self.said('allow', number(self.allowed), 'most')}."
        s = "" if len(upper) > 1 or self.allowed else "s"
        return f"{asks}, and {sum_of(upper, number)}{f' with {self.bounds()}' if self.allowed else ''} allow{s} {number(most + self.allowed)} at most."

    def of_one_row(self, number: Callable[[Fraction], str]) -> str:
        row, times = self.rows[0], abs(self.rows[0].multiplier)
        most = number(self.allowed / times if row.is_lower else -self.allowed / times)
        if row.is_lower:
            return f"Row {row.name} asks for {number(row.limit)} at least, and {self.said('allow', most, 'most')}."
        return f"Row {row.name} allows {number(row.limit)} at most, and {self.said('ask', most, 'least')}."

    def said(self, verb: str, number: str, end: str) -> str:
        """What the bounds ask for, or allow."""
        s = "s" if len(self.bounded) == 1 else ""
        return f"{self.bounds()} {verb}{s}{' for' if verb == 'ask' else ''} {number} at {end}"


def sum_of(rows: Sequence[ConflictRow], number: Callable[[Fraction], str]) -> str:
    """The sum of some rows in words, of which many are counted."""
    terms = [f"{times_of(row, number)}{row.name}" for row in rows]
    if len(terms) <= MOST_TERMS:
        return " + ".join(terms)
    return f"{' + '.join(terms[:3])} + .. + {terms[-1]} ({len(terms)} rows)"


def times_of(row: ConflictRow, number: Callable[[Fraction], str]) -> str:
    times = abs(row.multiplier)
    return "" if times == 1 else f"{number(times)} "


def conflict(model: Model, certificate: Sequence[str]) -> Conflict:
    """Why there is no feasible point, by a certificate of it, in the numbers of the model."""
    found = read_certificate(certificate, wide=True)
    if found.column is not None:
        lower, upper = model.columns[found.column].limits()
        return Conflict([], lower or ZERO, upper or ZERO, found.column)
    y = without_fractions({name: value for name, value in matched(model, found)["y"].items() if value})
    rows = [ConflictRow(name, Fraction(value), value > 0, side_of(model.rows[name].limits(), value) or ZERO) for name, value in y.items()]
    rows.sort(key=lambda row: not row.is_lower)
    asked = sum((row.multiplier * row.limit for row in rows), ZERO)
    parts = {name: most_of(model, y, name) for name in model.columns}
    return Conflict(rows, asked, sum(parts.values(), ZERO), bounded=[name for name, part in parts.items() if part])


def without_fractions(values: Dict[str, Fraction]) -> Dict[str, int]:
    """The same numbers but for a factor above 0: whole ones without a common divisor."""
    numbers = wholes_of(values).numbers
    divisor = functools.reduce(math.gcd, numbers.values(), 0) or 1
    return {name: value // divisor for name, value in numbers.items()}


def side_of(limits: Limits, sign: int) -> Optional[Fraction]:
    return limits.lower if sign > 0 else limits.upper


def most_of(model: Model, y: Dict[str, int], name: str) -> Fraction:
    """The most that a column gives to the combination of the rows."""
    part = weighed(y, model.columns[name].entries)
    return part.exact() * (side_of(model.columns[name].limits(), -part.top) or ZERO) if part.top else ZERO
