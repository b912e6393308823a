"""Sums over models: each coefficient is visited a few times, however many rows and columns there are."""
import unittest
from collections import Counter
from fractions import Fraction
from typing import Any, Counter as Counted, Dict

import lpd
from lpd.certificate import check_lines
from lpd.model import Column, Model, Row

ONE = Fraction(1)


class Entries(Dict[str, Fraction]):
    """Coefficients that count how often one of them is asked for."""

    def __init__(self, entries: Dict[str, Fraction], asked: "Counted[str]") -> None:
        super().__init__(entries)
        self.asked = asked

    def get(self, name: str, default: Any = None) -> Any:
        self.asked["get"] += 1
        return super().get(name, default)

    def items(self) -> Any:
        self.asked["items"] += len(self)
        return super().items()


def diagonal(size: int, asked: "Counted[str]") -> Model:
    """Each row asks for 1 of its own column."""
    rows = {f"r{n}": Row("G", ONE) for n in range(size)}
    columns = {f"x{n}": Column(ONE, entries=Entries({f"r{n}": ONE}, asked)) for n in range(size)}
    return Model("diagonal", objective="cost", rows=rows, columns=columns)


class Sums(unittest.TestCase):
    SIZE = 100

    def test_coefficients_are_visited_a_few_times(self) -> None:
        asked: "Counted[str]" = Counter()
        model = diagonal(self.SIZE, asked)
        x, y = {name: ONE for name in model.columns}, {name: ONE for name in model.rows}
        certificate = ["OPTIMAL", *(f"x {name} 1" for name in x), *(f"y {name} 1" for name in y), "END"]
        self.assertEqual(check_lines(model, certificate), lpd.Accepted(lpd.Optimal(Fraction(self.SIZE))))
        lpd.report(model, certificate)
        self.assertLess(sum(asked.values()), 20 * self.SIZE)

    def test_the_sums(self) -> None:
        model = lpd.read_model("ROWS\n N c\n G a\n L b\n N none\nCOLUMNS\n x a 2 b 3\n y b 4\nENDATA\n")
        values = {"x": Fraction(1, 2), "y": Fraction(0), "unknown": ONE}
        self.assertEqual(model.activities(values), {"a": 1, "b": Fraction(3, 2), "none": 0})
        self.assertEqual([model.activity(values, row) for row in model.rows], [1, Fraction(3, 2), 0])
