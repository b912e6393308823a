"""Rows without limits: what is shown of them, and what other solvers are asked of a model with them."""
import json
import shutil
import unittest
from fractions import Fraction

import lpd
from lpd.certifying import certified
from lpd.dialects import without_free_rows
from lpd.exact import LOWER, UPPER, Basis
from lpd.floating import SOLVERS, Claim, ask
from lpd.lp_format import from_lp

from .commands import command
from .models import has_program

# Two ways to get 10 of something: cheap and slow, with room for 8, or dear and quick. The hours are counted, and limit nothing.
PLAN = """NAME plan
ROWS
 N cost
 N hours
 G need
 L room
COLUMNS
 slow cost 1 hours 3
 slow need 1 room 1
 quick cost 4 hours 1
 quick need 1
RHS
 RHS need 10 hours -6
 RHS cost -2 room 8
ENDATA
"""
SOLVED = """OPTIMAL 18
OPTIMAL
x slow 8
x quick 2
y need 4
y room -3
END
"""


class Reading(unittest.TestCase):
    def test_a_second_objective_of_mathprog(self) -> None:
        """glpsol has the first objective as a row, too, which is left out, and the constant of the second one it drops."""
        text = "var x >= 0, <= 3; var y >= 0; minimize cost: x + 2*y; minimize hours: 5*x + y + 3; s.t. need: x + y >= 4; end;\n"
        if not shutil.which("glpsol"):
            self.skipTest("glpsol is not on the path")
        model = lpd.read_model(from_lp(text.encode(), "two.mod", ".mod").decode())
        self.assertEqual((model.objective, list(model.rows), model.free_rows()), ("cost", ["hours", "need"], ["hours"]))
        self.assertEqual(model.columns["x"].entries, {"hours": 5, "need": 1})

    def test_they_are_left_out_for_solvers(self) -> None:
        model = lpd.read_model(PLAN)
        limiting = without_free_rows(model)
        self.assertEqual(list(limiting.rows), ["need", "room"])
        self.assertEqual([list(column.entries) for column in limiting.columns.values()], [["need", "room"], ["need"]])
        for name in SOLVERS:
            if not shutil.which(name):
                continue
            with self.subTest(name):
                claim = ask(name, model)
                self.assertEqual((claim.said, claim.value), ("OPTIMAL", 18))
                self.assertNotIn("hours", (claim.basis or Basis()).rows)
                known, _, steps = certified(model, claim)
                self.assertEqual((known, steps), (lpd.Optimal(Fraction(18)), 0))

    def test_from_a_basis_that_has_them(self) -> None:
        """Exact steps in Python give each free row the multiplier 0, wherever the basis has it."""
        model = lpd.read_model(PLAN)
        for status in (LOWER, UPPER):
            basis = Basis({"slow": "basic", "quick": "basic"}, {"hours": status, "need": LOWER})
            known, certificate, _ = certified(model, Claim("", basis=basis))
            self.assertEqual(known, lpd.Optimal(Fraction(18)))
            self.assertNotIn("hours", " ".join(certificate))


@unittest.skipUnless(has_program(), "the program is not built")
class WithTheProgram(unittest.TestCase):
    def test_the_session(self) -> None:
        with lpd.Session() as session:
            self.assertEqual(session.load(PLAN), lpd.Loaded(3, 2))
            answer, certificate = session.solve_checked(lpd.read_model(PLAN))
            self.assertEqual("".join(f"{line}\n" for line in [str(answer), *certificate]), SOLVED)
            self.assertEqual(lpd.read_model(session.write()), lpd.read_model(PLAN))
            with self.assertRaises(lpd.FreeRow):
                session.set_range("hours", 1)
            session.set_range("hours", None)
            with self.assertRaises(lpd.BadCommand):
                session.add_row("days", "N", 0, 1)
            session.add_row("days", "N", Fraction(1, 2))
            session.set_coefficient("days", "slow", Fraction(3, 8))
            model = lpd.read_model(session.write())
            self.assertEqual((model.free_rows(), model.rows["days"].rhs), (["hours", "days"], Fraction(1, 2)))
            session.delete_row("days")
            self.assertEqual(session.solve(), lpd.Optimal(Fraction(18)))

    def test_a_report_has_the_sum(self) -> None:
        lines = command("solve", "-", stdin=PLAN.encode()).output.splitlines()
        self.assertEqual(lines[0], "OPTIMAL 18")
        self.assertEqual([line.split() for line in lines if line.startswith(("row ", "hours", "need"))], [["row", "sum", "slack", "price"], ["need", "=10", "=0", "=4"], ["hours", "=26", "=0"]])
        told = json.loads(command("solve", "-", "--json", stdin=PLAN.encode()).output)["rows"]["hours"]
        self.assertEqual((told["sum"], told["slack"], told["price"]), ("26", None, "0"))
        self.assertIn("row,hours,26,0,,=\n", command("solve", "-", "--csv", stdin=PLAN.encode()).output)
