"""Numbers that a float rounded: 22.759999999999998, where 22.76 was meant.

A number looks so where its decimal has 15 digits or more, and one of at most 12 digits is as near as floats of that size are to each
other, or a few times as far.
"""
from __future__ import annotations

from fractions import Fraction
from typing import Dict, Iterator, Optional

from .figures import exponent_of
from .model import Column, Model, Row
from .records import dataclass, replace

DIGITS, LONG = 12, 15
NEAR = Fraction(1, 10**14)  # how far off, as a part of the number
FEWEST_BITS, MOST_BITS = 47, 1200  # of a number that has so many digits, and of one that a float can have been


@dataclass(frozen=True)
class Rounded:
    """A model, and the numbers of the one before that look as if a float had rounded them, with what was taken in their place."""

    model: Model
    numbers: Dict[Fraction, Fraction]

    def told(self) -> str:
        """How many there are, and one of them."""
        value, near = next(iter(self.numbers.items()))
        count = len(self.numbers)
        what = "1 number looks" if count == 1 else f"{count} numbers look"
        return f"{what} like decimals that a float rounded, as {float(value)!r} for {float(near)!r}"


def nearest(value: Fraction, digits: int = DIGITS) -> Fraction:
    """The decimal of so many significant digits that is nearest."""
    if not value:
        return value
    unit = Fraction(10) ** (exponent_of(abs(value)) - digits + 1)
    return round(value / unit) * unit


def is_decimal(value: Fraction) -> bool:
    bottom = value.denominator
    for factor in (2, 5):
        while bottom % factor == 0:
            bottom //= factor
    return bottom == 1


def meant(value: Fraction) -> Optional[Fraction]:
    """What a float rounded to this number, which is long, if it looks so."""
    if not is_decimal(value) or nearest(value, LONG - 1) == value:
        return None
    near = nearest(value)
    return near if abs(near - value) <= abs(value) * NEAR else None


def numbers_of(model: Model) -> Iterator[Fraction]:
    """All numbers of a model, but for bounds and ranges that are not there."""
    for column in model.columns.values():
        yield column.cost
        yield from (bound for bound in column.limits() if bound is not None)
        yield from column.entries.values()
    for row in model.rows.values():
        yield row.rhs
        if row.range is not None:
            yield row.range
    yield model.offset


def is_long(value: Fraction) -> bool:
    """Whether a number has about as many digits as floats have, and is no integer."""
    bottom = value.denominator
    return bottom != 1 and FEWEST_BITS <= value.numerator.bit_length() + bottom.bit_length() <= MOST_BITS


def rounded(model: Model) -> Rounded:
    """The model with what was meant."""
    long = dict.fromkeys(value for value in numbers_of(model) if is_long(value))
    found = {value: near for value, near in ((value, meant(value)) for value in long) if near is not None}
    return Rounded(taken(model, found) if found else model, found)


def taken(model: Model, found: Dict[Fraction, Fraction]) -> Model:
    """The model with these numbers in place of those."""

    def of(value: Fraction) -> Fraction:
        return found.get(value, value)

    def maybe(value: Optional[Fraction]) -> Optional[Fraction]:
        return None if value is None else of(value)

    columns = {
        name: Column(of(column.cost), maybe(column.lower), maybe(column.upper), {row: of(entry) for row, entry in column.entries.items()})
        for name, column in model.columns.items()
    }
    rows = {name: Row(row.kind, of(row.rhs), maybe(row.range)) for name, row in model.rows.items()}
    return replace(model, offset=of(model.offset), rows=rows, columns=columns)
