"""The rough basis: exact steps from it are few, and end as they do from no basis."""
import io
import random
import unittest
from fractions import Fraction
from pathlib import Path
from unittest import mock

from lpd.certificate import check_lines
from lpd.conversion import convert
from lpd.exact import Basis, OutOfTime, Simplex, Watch
from lpd.model import Column, Model, Row
from lpd.rough import Rough, rough_basis

from .models import some_model

MODELS = Path(__file__).resolve().parents[3] / "examples" / "models"


def ends(model: Model, basis: Basis) -> "tuple[str, int]":
    simplex = Simplex(model, basis)
    return str(check_lines(model, simplex.run(), wide=True)), simplex.steps


class RoughBasis(unittest.TestCase):
    def test_no_steps_are_left(self) -> None:
        for path in sorted(MODELS.glob("*.mps")):
            with self.subTest(path.name):
                verdict, steps = ends(convert(path.read_bytes()).model, rough_basis(convert(path.read_bytes()).model) or Basis())
                self.assertEqual((verdict, steps), (f"YES {path.with_suffix('.solved').read_text().splitlines()[0]}", 0))

    def test_random_models(self) -> None:
        dice, more = random.Random(7), 0
        for turn in range(300):
            model = some_model(dice, 8, 9)
            with self.subTest(turn):
                verdict, steps = ends(model, rough_basis(model) or Basis())
                self.assertEqual(verdict, ends(model, Basis())[0])
                more += steps
        self.assertLess(more, 150)  # and some hundreds from no basis

    def test_dependent_equations(self) -> None:
        """Limits that are a little off contradict each other where equations depend on each other."""
        model = Model("same", 1, "cost")
        for i in range(6):
            model.rows[f"r{i}"] = Row("E", Fraction(7 * (i % 3 + 1)))
        for j in range(4):
            model.columns[f"x{j}"] = Column(Fraction(j + 1), entries={f"r{i}": Fraction((i % 3 + 1) * (j + 1)) for i in range(6)})
        verdict, steps = ends(model, Rough(model).run(Watch()))
        self.assertEqual(verdict, "YES OPTIMAL 7")
        self.assertLess(steps, 3)

    def test_numbers_past_floats(self) -> None:
        model = Model("wide", 1, "cost", rows={"r": Row("G", Fraction(10**400))}, columns={"x": Column(Fraction(1), entries={"r": Fraction(1)})})
        self.assertIsNone(rough_basis(model))
        self.assertEqual(ends(model, Basis())[0], f"YES OPTIMAL {10**400}")

    def test_a_terminal_sees_how_far_it_is(self) -> None:
        class Terminal(io.StringIO):
            def isatty(self) -> bool:
                return True

        line = "[##..................] 3 exact steps in Python, all limits are kept, 5 of at most 60 seconds"
        for stream, said in ((Terminal(), f"\r\x1b[K{line}\r\x1b[K"), (io.StringIO(), "")):
            with mock.patch("sys.stderr", stream), mock.patch("time.monotonic", return_value=100.0), Watch(60) as watch:
                watch.started -= 5
                watch.step(3, "all limits are kept")
                watch.step(4, "all limits are kept")  # within the same second
            self.assertEqual(stream.getvalue(), said)
        with Watch(1) as watch, self.assertRaisesRegex(OutOfTime, "7 exact steps in Python were not enough in 1 seconds"):
            watch.started -= 2
            watch.step(7, "")

    def test_the_time_is_kept_to(self) -> None:
        model = convert((MODELS / "transport.mps").read_bytes()).model
        self.assertEqual(Rough(model).run(Watch(0.01)).rows, Basis({}, {name: "basic" for name in model.rows}).rows)
