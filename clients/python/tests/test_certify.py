"""Exact elimination, exact steps from any basis, what solvers write, and certificates by each solver that is there.

LPD_CORPUS may name a folder of models with a list optima.tsv of them, which are then certified too: a line for each with its
name, its outcome and its optimum as a fraction, between tabs.
"""
import json
import os
import random
import shutil
import tempfile
import unittest
from fractions import Fraction
from pathlib import Path
from typing import Dict
from unittest import mock

import lpd
from lpd.basis_file import read_bas
from lpd.certificate import check_lines
from lpd.certifying import certified, certify
from lpd.conversion import Options, convert
from lpd.dialects import PROFILE, written
from lpd.exact import BASIC, LOWER, UPPER, Basis, Factors, Simplex, Vector
from lpd.floating import SOLVERS, Claim, SolverMissing, ask, read_highs, read_highs_basis
from lpd.solver_names import SCIPY, is_there

from .commands import command
from .models import has_program, some_model

MODELS = Path(__file__).resolve().parents[3] / "examples" / "models"
# What HiGHS is expected to write of diet.mps with plain names. It is written by hand.
HIGHS = Path(__file__).with_name("highs.solution")
WIDE = f"ROWS\n N cost\n G need\nCOLUMNS\n x cost 1 need 3\nRHS\n RHS need {10**50}\nENDATA\n"


class Elimination(unittest.TestCase):
    def test_solutions(self) -> None:
        dice = random.Random(3)
        for size in (1, 2, 5, 12):
            for _ in range(20):
                matrix: Dict[int, Vector] = {
                    i: {j: Fraction(dice.randint(-4, 4)) for j in range(size) if dice.random() < 0.5 or i == j} for i in range(size)
                }
                matrix = {i: {j: value for j, value in row.items() if value} for i, row in matrix.items()}
                factors = Factors(matrix)
                rows, columns = [i for i, _ in factors.pivots], [j for _, j in factors.pivots]
                self.assertEqual(sorted(rows + factors.left_rows), list(range(size)))
                self.assertEqual(len(set(columns)), len(rows))
                if factors.left_rows:
                    continue
                right = {i: Fraction(dice.randint(-9, 9)) for i in range(size)}
                x, y = factors.solve(right), factors.solve_transposed(right)
                for k in range(size):
                    self.assertEqual(sum(value * x.get(j, 0) for j, value in matrix[k].items()), right[k])
                    self.assertEqual(sum(row.get(k, 0) * y.get(i, 0) for i, row in matrix.items()), right[k])

    def test_dependent_rows_are_left_over(self) -> None:
        one = Fraction(1)
        factors = Factors({0: {0: one, 1: one}, 1: {0: 2 * one, 1: 2 * one}})
        self.assertEqual((len(factors.pivots), len(factors.left_rows), len(factors.left_columns)), (1, 1, 1))


class ExactSteps(unittest.TestCase):
    def test_any_basis_leads_to_a_certificate(self) -> None:
        dice = random.Random(11)
        counts: Dict[str, int] = {}
        for _ in range(150):
            model = some_model(dice)
            verdicts = set()
            for _ in range(3):
                statuses = [BASIC, LOWER, UPPER]
                basis = Basis({name: dice.choice(statuses) for name in model.columns}, {name: dice.choice(statuses) for name in model.rows})
                verdicts.add(str(check_lines(model, Simplex(model, basis).run(), wide=True)))
            self.assertEqual(len(verdicts), 1, verdicts)
            said = verdicts.pop().split()
            self.assertEqual(said[0], "YES")
            counts[said[1]] = counts.get(said[1], 0) + 1
        self.assertGreater(min(counts[kind] for kind in ("OPTIMAL", "INFEASIBLE", "UNBOUNDED")), 10)

    def test_cycling(self) -> None:
        text = (MODELS / "cycling.mps").read_text()
        simplex = Simplex(lpd.read_model(text), Basis())
        self.assertEqual(str(lpd.check(text, "\n".join(simplex.run()) + "\n")), "YES " + (MODELS / "cycling.solved").read_text().splitlines()[0])

    def test_a_clash(self) -> None:
        model = lpd.read_model("ROWS\n N c\nCOLUMNS\n x c 1\nBOUNDS\n LO B x 2\n UP B x 1\nENDATA\n")
        self.assertEqual(Simplex(model, Basis()).run(), ["CLASH x", "END"])

    def test_an_optimal_basis_takes_no_step(self) -> None:
        model = lpd.read_model((MODELS / "diet.mps").read_text())
        first = Simplex(model, Basis())
        first.run()
        names = list(model.columns)
        again = Simplex(model, Basis(dict(zip(names, first.status)), dict(zip(model.rows, first.status[len(names) :]))))
        self.assertEqual(again.run(), first.run())
        self.assertEqual(again.steps, 0)


class Claims(unittest.TestCase):
    def test_a_basis_in_mps(self) -> None:
        basis = read_bas("NAME m\n XL C0 R1\n XU C1 R0\n UL C2\n LL C3\nENDATA\n")
        self.assertEqual(basis, Basis({"C0": BASIC, "C1": BASIC, "C2": UPPER, "C3": LOWER}, {"R1": LOWER, "R0": UPPER}))
        self.assertIsNone(read_bas(""))

    def test_the_basis_of_highs(self) -> None:
        columns, rows = {"C0": UPPER, "C1": LOWER, "C2": LOWER, "C3": BASIC}, {"R0": LOWER, "R1": BASIC}
        first = "HiGHS v1\nValid\n# Columns 4\n2 0 3 1 \n# Rows 2\n0 1 \n"
        second = "HiGHS_basis_file v2\nValid\n# Columns 4\nC0 2\nC1 0\nC2 3\nC3 1\n# Rows 2\nR0 0\nR1 1\n"
        for text in (first, second):
            self.assertEqual(read_highs_basis(text), Basis(columns, rows))
        for text in ("", "HiGHS v1\nNone\n", "Valid\n"):
            self.assertIsNone(read_highs_basis(text))

    def test_the_solution_of_highs(self) -> None:
        cases = {
            "Optimal": ("OPTIMAL", Fraction(185, 2)),
            "Infeasible": ("INFEASIBLE", None),
            "Unbounded": ("UNBOUNDED", None),
            "Time limit reached": ("Time limit reached", None),
        }
        columns = dict(zip(["C0", "C1", "C2", "C3", "C4", "C5"], [UPPER, LOWER, LOWER, BASIC, UPPER, LOWER]))
        with tempfile.TemporaryDirectory() as place:
            self.assertEqual(read_highs("", Path(place)), Claim("no solution file"))
            for status, (said, value) in cases.items():
                (Path(place) / "solution").write_text(HIGHS.read_text().replace("Optimal", status))
                basis = Basis(columns, {"R0": LOWER, "R1": BASIC, "R2": BASIC})
                self.assertEqual(read_highs("", Path(place)), Claim(said, value, basis))

    def test_a_solver_that_is_not_there(self) -> None:
        model = lpd.read_model((MODELS / "diet.mps").read_text())
        with tempfile.TemporaryDirectory() as place, mock.patch.dict(os.environ, {"PATH": place}):
            for solver in SOLVERS:
                if solver != SCIPY:
                    with self.assertRaisesRegex(SolverMissing, f"^{solver} is not on the path$"):
                        ask(solver, model)
            said = command("certify", str(MODELS / "diet.mps"), "--with", "highs")
        self.assertEqual((said.status, said.complaints), (3, "lpd: highs is not on the path\n"))

    def test_wrong_claims_do_not_matter(self) -> None:
        model = lpd.read_model((MODELS / "diet.mps").read_text())
        wrong = Claim("OPTIMAL", Fraction(91), parts=[("x", {"milk": Fraction(9)}), ("y", {})])
        known, _, steps = certified(model, wrong)
        self.assertEqual(known, lpd.Optimal(Fraction(185, 2)))
        self.assertGreater(steps, 0)


@unittest.skipUnless(has_program(), "the program is not built")
class BySolvers(unittest.TestCase):
    def by(self, solver: str) -> None:
        if not is_there(solver):
            self.skipTest(f"{solver} is not there")
        for path in sorted(MODELS.glob("*.mps")):
            with self.subTest(path.name):
                answer = path.with_suffix(".solved").read_text().splitlines()[0]
                found = certify(convert(path.read_bytes()).text, solver)
                self.assertEqual((str(found.known), found.narrow), (answer, True))
                self.assertTrue(str(found.known).startswith(found.claim.said), found.claim.said)
        found = certify(WIDE, solver)
        self.assertEqual((found.known, found.narrow), (lpd.Optimal(Fraction(10**50, 3)), False))
        self.assertIn("past 127 bits", found.why)
        self.corpus(solver)

    def corpus(self, solver: str) -> None:
        folder = os.environ.get("LPD_CORPUS")
        if not folder:
            return
        for line in (Path(folder) / "optima.tsv").read_text().splitlines()[1:]:
            name, outcome, optimum = line.split("\t")[:3]
            with self.subTest(name):
                text = convert((Path(folder) / f"{name}.mps").read_bytes(), options=Options(wide=True)).text
                known = certify(text, solver, seconds=60).known
                self.assertEqual(str(known).split()[0], outcome.upper())
                if isinstance(known, lpd.Optimal):
                    self.assertEqual(known.value, Fraction(optimum))

    def test_no_solver(self) -> None:
        for path in sorted(MODELS.glob("*.mps")):
            answer = path.with_suffix(".solved").read_text().splitlines()[0]
            found = certify(convert(path.read_bytes()).text, "none")
            self.assertEqual((str(found.known), found.command), (answer, "lpd solve --wide"))

    def test_no_solver_and_a_number_that_the_program_does_not_take(self) -> None:
        found = certify(WIDE, "none")
        self.assertEqual((found.known, found.way, found.narrow), (lpd.Optimal(Fraction(10**50, 3)), "python", False))
        self.assertEqual(found.notes[0], "lpd solve --wide has no answer: line 7 of the model has a number past 127 bits")

    def test_glpsol(self) -> None:
        self.by("glpsol")

    def test_clp(self) -> None:
        self.by("clp")

    def test_cbc(self) -> None:
        self.by("cbc")

    def test_lp_solve(self) -> None:
        self.by("lp_solve")

    def test_esolver(self) -> None:
        self.by("esolver")

    def test_highs(self) -> None:
        self.by("highs")

    def test_scipy(self) -> None:
        self.by(SCIPY)

    def test_what_stands_in_for_highs(self) -> None:
        with tempfile.TemporaryDirectory() as place:
            program = Path(place) / "highs"
            words = "model.mps --presolve off --solver simplex --solution_file solution"
            program.write_text(f'#!/bin/sh\n[ "$*" = "{words}" ] && /bin/cp "{HIGHS}" solution\n')
            program.chmod(0o755)
            with mock.patch.dict(os.environ, {"PATH": place}):
                found = certify((MODELS / "diet.mps").read_text(), "highs")
        self.assertEqual((found.claim.said, found.claim.value), ("OPTIMAL", Fraction(185, 2)))
        self.assertEqual((found.known, found.steps, found.narrow), (lpd.Optimal(Fraction(185, 2)), 0, True))

    def test_random_models(self) -> None:
        solvers = [name for name in SOLVERS if is_there(name)]
        if not solvers:
            self.skipTest("there is no other solver on the path")
        dice = random.Random(5)
        for turn in range(40):
            text = written(some_model(dice), PROFILE).text
            with lpd.Session() as session:
                session.load(text)
                answer = session.solve()
            self.assertEqual(certify(text, solvers[turn % len(solvers)]).known, answer)

    def test_the_command(self) -> None:
        solver = next((name for name in SOLVERS if shutil.which(name)), None)
        if solver is None:
            self.skipTest("there is no other solver on the path")
        said = command("certify", str(MODELS / "diet.mps"), "--with", solver)
        self.assertEqual(said.status, 0)
        self.assertIn("exactly       OPTIMAL 92.5\noff by        0,", said.output)
        self.assertIn("certificate   accepted by lpd check, and by the checker in Python\n", said.output)
        said = command("certify", "-", "--with", solver, "--json", stdin=WIDE.encode())
        self.assertEqual((said.status, json.loads(said.output)["accepted_by_lpd_check"]), (14, False))
        self.assertEqual(command("certify", str(MODELS / "orders.mps"), "--with", solver).status, 10)
