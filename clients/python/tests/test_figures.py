"""Numbers as people read them."""
import random
import unittest
from fractions import Fraction

from lpd.figures import FRACTIONS, READABLE, Style, decimal_of


class Decimals(unittest.TestCase):
    def test_six_digits(self) -> None:
        cases = {
            "0": "0",
            "92.5": "92.5",
            "-1/3": "-0.333333",
            "54992.0289999999995167": "54992",
            "3305.4375": "3305.44",
            "0.00123456789": "0.00123457",
            "10881.14": "10881.14",
            "-1234567.25": "-1234567.25",
            "1234567.125": "1234567",
            "123456.5": "123456.5",
            "123456789012.05": "123456789012.05",
            "123456789012": "123456789012",
            "1234567890123": "1.23457e+12",
            "-1/300000": "-3.33333e-06",
            "0.0000999999999": "1e-04",
            "999999.9": "999999.9",
            "999999.999": "1000000",
            "400": "400",
        }
        for value, text in cases.items():
            self.assertEqual(decimal_of(Fraction(value)), text)

    def test_numbers_of_any_width(self) -> None:
        self.assertEqual(decimal_of(Fraction(10**9000, 3)), "3.33333e+8999")
        self.assertEqual(decimal_of(-Fraction(2, 3 * 10**9000)), "-6.66667e-9001")

    def test_as_floats_are_printed(self) -> None:
        dice = random.Random(3)
        for _ in range(2000):
            value = Fraction(dice.randint(-(10**9), 10**9), dice.randint(1, 10**9)) * Fraction(10) ** dice.randint(-9, 5)
            if 100 % value.denominator:  # others are shown to the cent
                self.assertEqual(float(decimal_of(value)), float(f"{float(value):.{max(6, len(str(abs(int(value)))))}g}"), value)


class Styles(unittest.TestCase):
    def test_marks(self) -> None:
        third, half = Fraction(1, 3), Fraction(1, 2)
        self.assertEqual([READABLE.cell(value) for value in (third, half, None)], ["~0.333333", "=0.5", ""])
        self.assertEqual([READABLE.word(third), READABLE.word(half), READABLE.plain(third)], ["~0.333333", "0.5", "0.333333"])
        self.assertEqual((READABLE.mark(half, None), READABLE.mark(half, third)), ("=", "~"))

    def test_places(self) -> None:
        two = Style(places=2)
        self.assertEqual([two.cell(Fraction(value)) for value in ("1/3", "1/2", "0.125")], ["~0.33", "=0.50", "~0.12"])

    def test_fractions(self) -> None:
        self.assertEqual([FRACTIONS.cell(Fraction(1, 3)), FRACTIONS.word(Fraction(5, 2)), FRACTIONS.plain(None)], ["1/3", "2.5", ""])
        self.assertEqual(Style(True, 2).cell(Fraction(1, 3)), "1/3 (0.33)")
        self.assertEqual(FRACTIONS.mark(Fraction(1, 3)), "=")
