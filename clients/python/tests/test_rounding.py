"""Numbers that a float rounded."""
import json
import random
import unittest
from fractions import Fraction

import lpd
from lpd.rounding import meant, nearest, rounded

from .commands import command
from .models import has_program

FLOATS = "ROWS\n N cost\n G need\nCOLUMNS\n x cost 0.30000000000000004 need 1.1\n y need 2.2\nRHS\n need 22.759999999999998\nBOUNDS\n UP y 1\nENDATA\n"


class Numbers(unittest.TestCase):
    def test_what_was_meant(self) -> None:
        cases = {"22.759999999999998": "22.76", "0.30000000000000004": "0.3", "-5.000000000000001e-7": "-5e-7"}
        for text, near in cases.items():
            self.assertEqual(meant(Fraction(text)), Fraction(near))
        for text in ("0", "0.1", "1/3", "0.333333333333333", "0.3333333333333333", "12345678901234567890", "22.76", "0.1234567890123456"):
            self.assertIsNone(meant(Fraction(text)), text)

    def test_sums_of_floats(self) -> None:
        dice = random.Random(4)
        for _ in range(500):
            parts = [dice.randint(-9999, 9999) for _ in range(3)]
            value, total = Fraction(repr(sum(part / 100 for part in parts))), Fraction(sum(parts), 100)
            if value != total and abs(total) > 1:
                self.assertEqual(meant(value), total)

    def test_the_nearest(self) -> None:
        self.assertEqual([nearest(Fraction(text), 3) for text in ("0", "1/3", "-123456", "0.00012345")], [0, Fraction("0.333"), -123000, Fraction("0.000123")])

    def test_a_model(self) -> None:
        found = rounded(lpd.read_model(FLOATS))
        self.assertEqual(found.numbers, {Fraction(value): Fraction(near) for value, near in (("0.30000000000000004", "0.3"), ("22.759999999999998", "22.76"))})
        self.assertEqual((found.model.columns["x"].cost, found.model.rows["need"].rhs), (Fraction("0.3"), Fraction("22.76")))
        self.assertEqual(found.told(), "2 numbers look like decimals that a float rounded, as 0.30000000000000004 for 0.3")


@unittest.skipUnless(has_program(), "the program is not built")
class Solved(unittest.TestCase):
    def test_solve(self) -> None:
        said = command("solve", "-", "--json", stdin=FLOATS.encode())
        self.assertEqual((said.status, said.complaints.endswith(" for 0.3: --round takes that\n")), (0, True))
        told = json.loads(command("solve", "-", "--json", "--round", stdin=FLOATS.encode()).output)
        self.assertEqual(Fraction(told["value"]), (Fraction("22.76") - Fraction("2.2")) / Fraction("1.1") * Fraction("0.3"))
        self.assertEqual(command("solve", "-", stdin=FLOATS.replace("0000000000004", "").replace("22.759999999999998", "22.76").encode()).complaints, "")
