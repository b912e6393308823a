"""Numbers as people read them: decimals of a few digits, with a mark that says whether they are exact.

An exact number is shown as it is where its decimal has no more digits than that. Of a greater one the digits before the point are
all shown, up to `MOST_DIGITS`, and two behind it where it has no more: so an amount of money is shown to the cent.
"""
from __future__ import annotations

from fractions import Fraction
from typing import Optional

from .number_text import parse, rounded, shown
from .records import dataclass

DIGITS = 6  # significant ones
MOST_DIGITS = 12  # before the point
CENTS = 2  # digits behind the point
SMALLEST = -4  # the power of ten of the first digit, below which there are zeros behind the point, and the decimal has an exponent
EXACT, NEAR = "=", "~"


def exponent_of(size: Fraction) -> int:
    """The power of ten of the first digit of a number above 0."""
    top, bottom = size.numerator, size.denominator
    found = (top.bit_length() - bottom.bit_length()) * 30103 // 100000
    while reaches(top, bottom, found + 1):
        found += 1
    while not reaches(top, bottom, found):
        found -= 1
    return found


def reaches(top: int, bottom: int, exponent: int) -> bool:
    """Whether a quotient is a power of ten or more."""
    unit: int = 10 ** abs(exponent)
    return top >= bottom * unit if exponent >= 0 else top * unit >= bottom


def decimal_of(value: Fraction, digits: int = DIGITS) -> str:
    """The decimal of so many significant digits that is nearest to a number, without zeros at its end."""
    if not value:
        return "0"
    exponent = exponent_of(abs(value))
    if exponent < SMALLEST or exponent >= MOST_DIGITS:
        front = round(abs(value) / Fraction(10) ** (exponent - digits + 1))
        if front == 10**digits:
            front, exponent = front // 10, exponent + 1
        text = str(front)
        text = f"{text[0]}.{text[1:]}".rstrip("0").rstrip(".")
        return f"{'-' if value < 0 else ''}{text}e{exponent:+03d}"
    places = max(0, digits - 1 - exponent)
    if places < CENTS and 10**CENTS % value.denominator == 0:
        places = CENTS
    text = rounded(value, places)
    return text.rstrip("0").rstrip(".") if places else text


def unit_of(text: str) -> Fraction:
    """How much one more is at the last digit of a decimal."""
    front, _, power = text.partition("e")
    return Fraction(10) ** (int(power or 0) - len(front.partition(".")[2]))


@dataclass(frozen=True)
class Style:
    """How numbers are shown: as decimals of a few significant digits, or of so many places, or as they are (`is_exact`), which has
    a decimal beside it where places are asked for."""

    is_exact: bool = False
    places: Optional[int] = None

    def decimal(self, value: Fraction) -> str:
        return decimal_of(value) if self.places is None else rounded(value, self.places)

    def shows(self, value: Fraction) -> bool:
        """Whether what is shown is the number itself."""
        return self.is_exact or parse(self.decimal(value)).value == value

    def cell(self, value: Optional[Fraction]) -> str:
        """In a table: behind a mark."""
        if value is None:
            return ""
        return self.marked(value, EXACT)

    def word(self, value: Fraction) -> str:
        """In a sentence: behind a mark only where it is not exact."""
        return self.marked(value, "")

    def marked(self, value: Fraction, exact: str) -> str:
        """Behind this mark where it is shown as it is."""
        if self.is_exact:
            return self.exactly(value)
        text = self.decimal(value)
        return f"{exact if not value or parse(text).value == value else NEAR}{text}"

    def plain(self, value: Optional[Fraction]) -> str:
        """In a cell that a spreadsheet reads: no mark."""
        if value is None:
            return ""
        return shown(value) if self.is_exact else self.decimal(value)

    def exactly(self, value: Fraction) -> str:
        return shown(value) if self.places is None else f"{shown(value)} ({rounded(value, self.places)})"

    def mark(self, *values: Optional[Fraction]) -> str:
        """Whether all of these are shown as they are."""
        return EXACT if all(value is None or self.shows(value) for value in values) else NEAR


READABLE, FRACTIONS = Style(), Style(is_exact=True)


def outward(value: Fraction, is_upper: bool, style: Style) -> str:
    """A limit in a sentence: where it is not shown exactly, rounded up if it is an upper one, and else down."""
    text = style.word(value)
    if style.shows(value):
        return text
    near = style.decimal(value)
    off = Fraction(near) - value
    if (off < 0) == is_upper:
        near = style.decimal(Fraction(near) + (unit_of(near) if is_upper else -unit_of(near)))
    return f"{NEAR}{near}"
