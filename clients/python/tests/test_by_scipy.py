"""The basis at the point that `linprog` of scipy gives, by where its numbers are and by their prices. What needs scipy is in test_certify."""
import random
import unittest
from typing import List, Tuple

from lpd.by_scipy import Place, basis_of, sides_of
from lpd.certificate import matched, read_certificate
from lpd.exact import BASIC, LOWER, UPPER, Basis, Simplex
from lpd.model import Model, read_model

from .models import some_model

TEXT = """ROWS
 N cost
 G a
 L b
 E c
 G d
COLUMNS
 x cost 1 a 1
 x b 1 c 1
 y cost 1 a 1
 z cost 1 c 1
 z d 1
RHS
 RHS a 2 b 5
RANGES
 RNG a 7
BOUNDS
 UP BND y 3
 FR BND z
ENDATA
"""


def places_at(model: Model, certificate: List[str]) -> Tuple[List[Place], List[Place]]:
    """Where columns and sums of rows are at an optimum, with their prices."""
    given = matched(model, read_certificate(certificate))
    sums = model.activities(given["x"])
    columns = [Place(float(given["x"].get(name, 0)), float(model.reduced_cost(given["y"], name))) for name in model.columns]
    return columns, [Place(float(sums[name]), float(given["y"].get(name, 0))) for name in model.rows]


class Bases(unittest.TestCase):
    def test_what_is_between_limits_is_basic(self) -> None:
        model = read_model(TEXT)
        columns = [Place(1.0, 0.0), Place(3.0, -1.0), Place(-1.0, 0.0)]
        rows = [Place(4.0, 0.0), Place(1.0, 0.0), Place(0.0, 1.0), Place(-1.0, 0.0)]
        basis = basis_of(model, columns, rows)
        self.assertEqual(basis.columns, {"x": BASIC, "y": UPPER, "z": BASIC})
        self.assertEqual(basis.rows, {"a": BASIC, "b": BASIC, "c": LOWER, "d": BASIC})

    def test_what_is_at_a_limit_without_a_price_is_put_in(self) -> None:
        """Rows before columns, as many as are missing."""
        model = read_model(TEXT)
        columns = [Place(0.0, 0.0), Place(2.0, 0.0), Place(0.0, 0.0)]
        rows = [Place(2.0, 1.0), Place(0.0, 0.0), Place(0.0, 0.0), Place(0.0, 0.0)]
        basis = basis_of(model, columns, rows)
        self.assertEqual(basis.rows, {"a": LOWER, "b": BASIC, "c": BASIC, "d": LOWER})
        self.assertEqual(basis.columns, {"x": LOWER, "y": BASIC, "z": BASIC})

    def test_the_rows_of_linprog(self) -> None:
        equal, upper = sides_of(read_model(TEXT))
        self.assertEqual(equal, ([2], [1], [0.0]))
        self.assertEqual(upper, ([0, 0, 1, 3], [-1, 1, 1, -1], [-2.0, 9.0, 5.0, -0.0]))

    def test_random_models(self) -> None:
        """From the basis at an optimum few steps are left."""
        dice, tried, steps = random.Random(66), 0, 0
        for _ in range(200):
            model = some_model(dice, 8, 9)
            certificate = Simplex(model, Basis()).run()
            if certificate[0] == "OPTIMAL":
                tried += 1
                simplex = Simplex(model, basis_of(model, *places_at(model, certificate)))
                self.assertEqual(simplex.run()[0], "OPTIMAL")
                steps += simplex.steps
        self.assertGreater(tried, 50)
        self.assertLess(steps, 10)


if __name__ == "__main__":
    unittest.main()
