"""lpd as a solver of PuLP, beside glpsol on random models, and what it refuses."""
import contextlib
import io
import random
import shutil
import tempfile
import unittest
from decimal import Decimal
from fractions import Fraction
from pathlib import Path
from typing import Any
from unittest import mock

import lpd

from .models import has_program, the_basis

try:
    import pulp
except ImportError:
    pulp = None
if pulp is not None:
    from lpd.pulp import BINARY, LPD, ROUNDED, SHOWN, exactly, text_names


def some_problem(dice: random.Random) -> Any:
    """A problem with bounds and constraints of every kind, whose numbers are quarters or tenths."""

    def number() -> Any:
        return dice.choice([dice.randint(-9, 9), dice.randint(-30, 30) / 4, dice.randint(-30, 30) / 10])

    problem = pulp.LpProblem("made", dice.choice([pulp.LpMinimize, pulp.LpMaximize]))
    lows = [0, 0, 0, None, -2.5]
    variables = [pulp.LpVariable(f"x{j}", dice.choice(lows), dice.choice([None, 3, 7.5])) for j in range(dice.randint(1, 6))]
    problem += pulp.lpSum(number() * variable for variable in variables) + number()
    for _ in range(dice.randint(1, 6)):
        terms = pulp.lpSum(number() * variable for variable in variables if dice.random() < 0.7) + number()
        right = number()
        problem += dice.choice([terms <= right, terms >= right, terms <= right + 9, terms >= right - 9, terms == right])
    return problem


@unittest.skipIf(pulp is None, "python3-pulp is not installed")
@unittest.skipUnless(has_program(), "the program is not built")
class WithPulp(unittest.TestCase):
    def diet(self) -> Any:
        problem = pulp.LpProblem("diet", pulp.LpMinimize)
        self.bread, self.milk = pulp.LpVariable("bread", 0), pulp.LpVariable("milk", 0, 3)
        problem += 0.3 * self.bread + 0.1 * self.milk + 2, "cost"
        problem += self.bread + self.milk >= 4, "food"
        problem += self.bread - self.milk <= 9.5, "taste"
        return problem

    def test_values(self) -> None:
        problem = self.diet()
        self.assertEqual(problem.solve(LPD(msg=False)), pulp.LpStatusOptimal)
        self.assertEqual((problem.sol_status, pulp.LpStatus[problem.status]), (pulp.LpSolutionOptimal, "Optimal"))
        self.assertEqual([(self.bread.varValue, self.bread.dj), (self.milk.varValue, self.milk.dj)], [(1.0, 0.0), (3.0, -0.2)])
        food, taste = problem.constraints["food"], problem.constraints["taste"]
        self.assertEqual([(food.pi, food.slack), (taste.pi, taste.slack)], [(0.3, 0.0), (0.0, 11.5)])
        self.assertEqual(problem.exact.answer, lpd.Optimal(Fraction(26, 10)))
        self.assertEqual(problem.exact.dj["milk"], Fraction(-1, 5))
        self.assertEqual(problem.exact.slack, {"food": 0, "taste": Fraction(23, 2)})

    def test_the_sense(self) -> None:
        problem = pulp.LpProblem("most", pulp.LpMaximize)
        x, y, z = pulp.LpVariable("x", 0, 3), pulp.LpVariable("y", 0), pulp.LpVariable("z", -1, 5)
        problem += 3 * x + 2 * y - z + 7
        problem += x + y <= 4, "c1"
        problem += x - y >= -9, "c2"
        problem += x + z == 4, "c3"
        problem.solve(LPD(msg=False))
        self.assertEqual([(v.varValue, v.dj) for v in (x, y, z)], [(3, 2), (1, 0), (1, 0)])
        self.assertEqual([(c.pi, c.slack) for c in problem.constraints.values()], [(2, 0), (0, -11), (-1, 0)])

    def test_numbers(self) -> None:
        self.assertEqual(exactly(0.1), Fraction(1, 10))
        self.assertEqual(exactly(0.1, BINARY), Fraction(0.1))
        self.assertEqual([exactly(22.759999999999998, floats) for floats in (ROUNDED, SHOWN)], [Fraction("22.76"), Fraction("22.759999999999998")])
        self.assertEqual(exactly(123456789.123456789), Fraction("123456789.1235"))
        self.assertEqual([exactly(value) for value in (True, 7, Decimal("0.1"), Fraction(1, 3))], [1, 7, Fraction(1, 10), Fraction(1, 3)])
        with self.assertRaises(pulp.PulpSolverError):
            exactly(float("nan"))
        problem = pulp.LpProblem("third", pulp.LpMinimize)
        x = pulp.LpVariable("x", 0)
        problem += x * Fraction(1, 3)
        problem += x >= 1
        problem.solve(LPD(msg=False))
        self.assertEqual(problem.exact.answer, lpd.Optimal(Fraction(1, 3)))

    def test_names(self) -> None:
        self.assertEqual(text_names(["größe", "gro_e", "a b", "x" * 70]), ["gro_e", "gro_e.2", "a_b", "x" * 64])

    def test_other_ends(self) -> None:
        problem = pulp.LpProblem("open", pulp.LpMaximize)
        x, y = pulp.LpVariable("x", 0), pulp.LpVariable("y", 0)
        problem += x
        problem += x - y <= 1
        self.assertEqual(problem.solve(LPD(msg=False)), pulp.LpStatusUnbounded)
        problem += x >= 2
        problem += x <= 1
        self.assertEqual(problem.solve(LPD(msg=False)), pulp.LpStatusInfeasible)
        self.assertEqual((x.varValue, problem.exact.certificate[0]), (None, "INFEASIBLE"))
        problem = self.diet()
        self.assertEqual(problem.solve(LPD(msg=False, budget=1)), pulp.LpStatusNotSolved)
        self.assertEqual(problem.exact.answer, lpd.Spent(1))

    def test_another_solvers_basis(self) -> None:
        if not shutil.which("glpsol"):
            self.skipTest("glpsol is not on the path")
        problem = self.diet()
        self.assertEqual(problem.solve(LPD(msg=False, budget=1, certify="glpsol")), pulp.LpStatusOptimal)
        self.assertEqual((problem.exact.answer, problem.exact.certified_with), (lpd.Optimal(Fraction(26, 10)), "glpsol"))
        problem = pulp.LpProblem("wide", pulp.LpMinimize)
        x = pulp.LpVariable("x", 0)
        problem += x
        problem += Fraction(1, 10**50) * x >= 1
        with self.assertRaises(pulp.PulpSolverError):
            problem.solve(LPD(msg=False, only_lpd=True))
        problem.solve(LPD(msg=False, certify="glpsol"))
        self.assertEqual(problem.exact.answer, lpd.Optimal(Fraction(10**50)))

    def test_it_goes_on_by_itself(self) -> None:
        past = lpd.Answered(lpd.Past("ADD", Fraction(1), Fraction(2)), [], "lpd solve")
        missing = lpd.CommandMissing("presolve")
        without = mock.patch("lpd.ways.presolve", side_effect=missing), mock.patch("lpd.ways.solve_wide", side_effect=missing)
        with mock.patch("lpd.ways.by_lpd", return_value=past), without[0], without[1]:
            problem = self.diet()
            self.assertEqual(problem.solve(LPD(msg=False, options=["--with", "none"])), pulp.LpStatusOptimal)
            self.assertEqual((self.milk.varValue, problem.exact.certified_with), (3.0, "none"))
            self.assertTrue(problem.exact.way.startswith(f"{the_basis()} from a basis of its own"))
            self.assertEqual(problem.solve(LPD(msg=False, options=["--only-lpd"])), pulp.LpStatusNotSolved)
            self.assertEqual((self.milk.varValue, problem.exact.answer), (None, past.answer))

    def test_options_as_others_take_them(self) -> None:
        problem = self.diet()
        self.assertEqual(problem.solve(LPD(msg=False, options=["--budget", "1"])), pulp.LpStatusNotSolved)
        with self.assertRaisesRegex(pulp.PulpSolverError, "unrecognized arguments: --bugdet"):
            LPD(options=["--bugdet", "1"])
        solver = pulp.getSolver("LPD", msg=False, timeLimit=60)
        self.assertEqual((solver.timeLimit, problem.solve(solver)), (60, pulp.LpStatusOptimal))
        self.assertIn("LPD", pulp.listSolvers(onlyAvailable=True))
        again = solver.copy()
        self.assertEqual((again.timeLimit, again.msg), (60, False))

    def test_a_log(self) -> None:
        with tempfile.TemporaryDirectory() as folder:
            path = f"{folder}/log"
            said = io.StringIO()
            with contextlib.redirect_stdout(said):
                self.diet().solve(LPD(logPath=path))
            self.assertEqual((said.getvalue(), Path(path).read_text()), ("lpd: OPTIMAL 2.6\n", "lpd: OPTIMAL 2.6\n"))
            with contextlib.redirect_stdout(said):
                self.diet().solve(LPD(logPath=path, msg=False))
            self.assertEqual(said.getvalue(), "lpd: OPTIMAL 2.6\n")
            self.assertEqual(len(Path(path).read_text().splitlines()), 2)

    def test_floats_that_are_rounded(self) -> None:
        """Those of more digits than PuLP writes to MPS are taken so, and that is said."""
        problem, x = pulp.LpProblem("floats", pulp.LpMinimize), pulp.LpVariable("x", 0)
        problem += x
        problem += x >= 22.759999999999998, "need"
        said = io.StringIO()
        with contextlib.redirect_stdout(said):
            problem.solve(LPD())
        self.assertEqual(problem.exact.values, {"x": Fraction("22.76")})
        told = "1 number was taken with the 13 digits that PuLP writes to MPS, as 22.76 for 22.759999999999998: round=False takes them as they are"
        self.assertIn(f"lpd: {told}\n", said.getvalue())
        problem.solve(LPD(msg=False, round=False))
        self.assertEqual(problem.exact.values, {"x": Fraction("22.759999999999998")})
        self.assertEqual(problem.exact.ranges.sides["need"].slope, 1)

    def test_a_limit_of_time(self) -> None:
        busy = str(Path(__file__).with_name("busy.sh"))
        asked = [mock.patch(f"lpd.{module}.the_program", return_value=busy) for module in ("program", "once")]
        with asked[0], asked[1], mock.patch("lpd.program.SECONDS", 1):
            problem = self.diet()
            self.assertEqual(problem.solve(LPD(msg=False, timeLimit=0.2)), pulp.LpStatusNotSolved)
            self.assertEqual((problem.exact, self.bread.varValue), (None, None))

    def test_a_problem_that_is_too_large(self) -> None:
        problem = self.diet()
        for number in range(300):
            problem += self.bread <= 100 + number
        told = "this problem has 302 constraints and 2 variables, and lpd takes at most 256 and 512 with wide=False"
        with self.assertRaisesRegex(pulp.PulpSolverError, told):
            problem.solve(LPD(msg=False, wide=False))
        with mock.patch("lpd.pulp.LARGE_ROWS", 301), self.assertRaisesRegex(pulp.PulpSolverError, "lpd takes at most 301 and 131072$"):
            problem.solve(LPD(msg=False))

    def test_a_large_problem(self) -> None:
        """A transport of 20 x 40, which has more columns than a session takes."""
        costs = {(i, j): (7 * i + 11 * j) % 13 + 1 for i in range(20) for j in range(40)}
        problem = pulp.LpProblem("transport", pulp.LpMinimize)
        carried = {(i, j): pulp.LpVariable(f"x_{i}_{j}", 0) for i, j in costs}
        problem += pulp.lpSum(costs[place] * carried[place] for place in costs), "cost"
        for i in range(20):
            problem += pulp.lpSum(carried[i, j] for j in range(40)) <= 20, f"plant_{i}"
        for j in range(40):
            problem += pulp.lpSum(carried[i, j] for i in range(20)) >= 5, f"city_{j}"
        self.assertEqual(problem.solve(LPD(msg=False)), pulp.LpStatusOptimal)
        exact = problem.exact
        self.assertEqual((exact.way, exact.answer.value), ("lpd solve --wide", sum(costs[place] * exact.values[f"x_{place[0]}_{place[1]}"] for place in costs)))
        self.assertEqual(len(exact.ranges.costs), 800)
        problem += pulp.lpSum(carried[0, j] for j in range(40)) >= 21, "too_much"
        self.assertEqual(problem.solve(LPD(msg=False)), pulp.LpStatusInfeasible)
        self.assertEqual(str(problem.exact.conflict), "at most 20 of plant_0 is there, but too_much asks for 21 at least\nat least 21 of too_much is asked for, but plant_0 allows 20 at most")

    def test_what_is_no_linear_program(self) -> None:
        problem = self.diet()
        problem += pulp.LpVariable("slices", 0, 4, pulp.LpInteger) <= self.bread
        with self.assertRaisesRegex(pulp.PulpSolverError, "whole numbers: slices"):
            problem.solve(LPD(msg=False))
        self.assertEqual(problem.solve(LPD(mip=False, msg=False)), pulp.LpStatusOptimal)
        problem = self.diet()
        problem.sos1["either"] = {self.bread: 1, self.milk: 2}
        with self.assertRaisesRegex(pulp.PulpSolverError, "special ordered sets: either"):
            problem.solve(LPD(msg=False))

    def test_as_glpsol_answers(self) -> None:
        if not shutil.which("glpsol"):
            self.skipTest("glpsol is not on the path")
        dice, optimal = random.Random(2), 0
        for turn in range(200):
            problem = some_problem(dice)
            with self.subTest(turn):
                is_optimal = problem.solve(pulp.GLPK_CMD(msg=False)) == pulp.LpStatusOptimal
                value = pulp.value(problem.objective) if is_optimal else None
                size = 1 + sum(abs(cost * (variable.varValue or 0)) for variable, cost in problem.objective.items())
                status = problem.solve(LPD(msg=False))
                self.assertEqual(status == pulp.LpStatusOptimal, is_optimal)
                exact = problem.exact
                self.assertEqual(lpd.check(exact.text, "\n".join(exact.certificate) + "\n"), lpd.Accepted(exact.answer))
                if is_optimal:
                    optimal += 1
                    # PuLP reads glpsol's values in the six digits of its page.
                    self.assertAlmostEqual(float(exact.answer.value), value, delta=1e-5 * size)
                    self.assertAlmostEqual(float(exact.answer.value), pulp.value(problem.objective), delta=1e-12 * size)
                    for constraint in problem.constraints.values():
                        self.assertAlmostEqual(constraint.slack, -constraint.value(), 6)
        self.assertGreater(optimal, 50)
