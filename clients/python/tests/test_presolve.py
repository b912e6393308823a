"""Presolve: what the program writes, what is told of the smaller model, and that solve goes on by it past 127 bits."""
import csv
import io
import json
import os
import random
import unittest
from fractions import Fraction
from pathlib import Path
from typing import Optional
from unittest import mock

import lpd
from lpd.certificate import check_lines
from lpd.dialects import PROFILE, written
from lpd.exact import BASIC, LOWER, Basis
from lpd.floating import Claim
from lpd.once import has_command
from lpd.presolving import Size, read_presolved
from lpd.ways import BOTH, Effort, answered

from .commands import command, reported, unwrapped
from .models import has_program, some_model, the_basis

MODELS = Path(__file__).resolve().parents[3] / "examples" / "models"
TEXT = """NAME m
ROWS
 N cost
 G R1
 L R2
COLUMNS
 x cost 1
 x R1 1
 x R2 1
 y cost 1
 y R1 1
RHS
 RHS R1 2
 RHS R2 3
ENDATA
"""
PAST = lpd.Past("ADD", Fraction(1), Fraction(2))
KNOWN = lpd.Presolved(lpd.Optimal(Fraction(2)), ["OPTIMAL", "x x 2", "y R1 1", "END"], Size(1, 2))
NO_WIDE = "this program has no command solve --wide"
BY_PRESOLVE = "lpd presolve, which left 1 of 2 rows and 2 of 2 columns"


def ready() -> bool:
    return has_program() and has_command("presolve")


class Written(unittest.TestCase):
    """What the program writes."""

    def test_what_is_read(self) -> None:
        certificate = ["OPTIMAL", "x x 2", "y R1 1", "END"]
        found = read_presolved(["REDUCED 1 2", "OPTIMAL 2", *certificate])
        self.assertEqual(found, lpd.Presolved(lpd.Optimal(Fraction(2)), certificate, Size(1, 2)))
        found = read_presolved(["PLAIN PAST MUL 2 3", "INFEASIBLE", "CLASH x", "END"])
        self.assertEqual(found, lpd.Presolved(lpd.Infeasible(), ["CLASH x", "END"], plain="PAST MUL 2 3"))
        self.assertEqual(read_presolved(["PLAIN SPENT", "SPENT 10000"]), lpd.Presolved(lpd.Spent(10000), [], plain="SPENT"))

    def test_what_is_none(self) -> None:
        for lines in ([], ["OPTIMAL 1"], ["REDUCED 1", "OPTIMAL 1"], ["REDUCED 1 2"], ["PLAIN", "OPTIMAL 1"], ["REDUCED 1 2", "YES"], ["REDUCED a b", "OPTIMAL 1"]):
            with self.assertRaises(lpd.Unexpected):
                read_presolved(lines)


@unittest.skipUnless(has_program(), "the program is not built")
class Ways(unittest.TestCase):
    """What is done with what the program answers, or where it does not know the command. It knows no `solve --wide` here."""

    def setUp(self) -> None:
        patch = mock.patch("lpd.ways.solve_wide", side_effect=lpd.CommandMissing("solve --wide"))
        patch.start()
        self.addCleanup(patch.stop)

    def past(self) -> "mock._patch[mock.MagicMock]":
        """A program whose own solve ends past 127 bits."""
        return mock.patch("lpd.ways.by_lpd", return_value=lpd.Answered(PAST, [], "lpd solve"))

    def other(self, name: str, claim: Optional[Claim] = None, error: Optional[lpd.LpdError] = None) -> "mock._patch[mock.MagicMock]":
        """Another solver that is there, and what it says, or the error that it ends with; or none."""
        ask = mock.Mock(return_value=claim, side_effect=error)
        return mock.patch.multiple("lpd.ways", other_solver=mock.Mock(return_value=name), ask=ask)

    def test_a_program_without_the_command(self) -> None:
        with mock.patch("lpd.ways.presolve", side_effect=lpd.CommandMissing("presolve")):
            said = command("solve", str(MODELS / "diet.mps"), "--presolve", "--show", "answer")
            self.assertEqual(said, (0, reported("OPTIMAL 92.5\n"), "note: this program has no command presolve, so lpd solve was asked\n"))
            with mock.patch("lpd.ways.by_lpd", return_value=lpd.Answered(PAST, [], "lpd solve")):
                said = command("solve", str(MODELS / "diet.mps"), "--with", "none", "--show", "answer")
        self.assertEqual((said.status, said.complaints), (0, f"note: the first try, lpd solve, ran out of digits\nnote: {NO_WIDE}\n"))
        self.assertIn(f"This answer is by {the_basis()} from a basis of its own", said.output)

    def test_another_solvers_basis_comes_before_it(self) -> None:
        """Whose basis is optimal as it is: x and the sum of R2 are basic."""
        claim = Claim("OPTIMAL", Fraction(2), Basis({"x": BASIC, "y": LOWER}, {"R1": LOWER, "R2": BASIC}))
        with self.past(), self.other("glpsol", claim), mock.patch("lpd.ways.presolve") as asked:
            found = answered(TEXT, lpd.read_model(TEXT))
        asked.assert_not_called()
        self.assertEqual((found.answer, found.accepted_by, found.solver, found.reduced), (KNOWN.answer, BOTH, "glpsol", None))
        self.assertEqual((found.way, found.notes), (f"{the_basis()} from glpsol's basis, in 0 pivots", ["the first try, lpd solve, ran out of digits", NO_WIDE]))

    def test_it_comes_where_no_basis_leads_to_an_answer(self) -> None:
        """Where no other solver is on the path, or the one that is there gives none or is too slow for the seconds."""
        ways = [
            (self.other("none"), []),
            (self.other("glpsol", Claim("nothing")), ["glpsol gives no basis, and says: nothing"]),
            (self.other("glpsol", error=lpd.OutOfTime("late")), ["late"]),
        ]
        for way, notes in ways:
            with self.past(), way, mock.patch("lpd.ways.presolve", return_value=KNOWN), self.subTest(notes):
                found = answered(TEXT, lpd.read_model(TEXT))
                self.assertEqual((found.answer, found.way, found.accepted_by, found.reduced), (KNOWN.answer, BY_PRESOLVE, BOTH, Size(1, 2)))
                self.assertEqual((found.notes, found.solver), (["the first try, lpd solve, ran out of digits", NO_WIDE, *notes], None))

    def test_where_it_is_not_asked(self) -> None:
        """Where the program alone is wanted, and behind a budget that is spent."""
        with mock.patch("lpd.ways.presolve", return_value=KNOWN) as asked:
            with self.past():
                self.assertEqual(answered(TEXT, lpd.read_model(TEXT), Effort(only_lpd=True)).answer, PAST)
            with mock.patch("lpd.ways.by_lpd", return_value=lpd.Answered(lpd.Spent(10000), [], "lpd solve")):
                self.assertEqual(answered(TEXT, lpd.read_model(TEXT), Effort(solver="none")).answer, KNOWN.answer)
            asked.assert_not_called()

    def test_a_certificate_that_a_checker_does_not_accept(self) -> None:
        for answer, certificate in (("OPTIMAL 3", "x x 2"), ("OPTIMAL 2", "x x 3")):
            wrong = read_presolved(["REDUCED 1 2", answer, "OPTIMAL", certificate, "y R1 1", "END"])
            with mock.patch("lpd.ways.presolve", return_value=wrong), self.assertRaises(lpd.LpdError):
                answered(TEXT, lpd.read_model(TEXT), Effort(presolve=True))

    def test_no_budget_beside_it(self) -> None:
        for words in (["solve", "x"], ["batch", "x"]):
            said = command(*words, "--presolve", "--budget", "5")
            self.assertEqual((said.status, said.output), (2, ""))
            self.assertIn("not allowed with argument --presolve", said.complaints)


@unittest.skipUnless(ready(), "there is no program, or it has no command presolve")
class WithTheProgram(unittest.TestCase):
    def test_a_row_of_one_entry(self) -> None:
        found = lpd.presolve(TEXT)
        self.assertEqual((found.answer, found.reduced, found.certificate[-1]), (lpd.Optimal(Fraction(2)), Size(1, 2), "END"))

    def test_solve(self) -> None:
        said = command("solve", "-", "--presolve", "--show", "answer", stdin=TEXT.encode())
        told = f"This answer is by {BY_PRESOLVE}, accepted by {BOTH}: its certificate is within 127 bits."
        self.assertEqual((said.status, unwrapped(said.output), said.complaints), (0, reported(f"OPTIMAL 2\n{told}\n"), ""))
        told = json.loads(command("solve", "-", "--presolve", "--json", stdin=TEXT.encode()).output)
        self.assertEqual((told["reduced"], told["way"]), ({"rows": 1, "columns": 2}, BY_PRESOLVE))
        self.assertNotIn("reduced", json.loads(command("solve", "-", "--json", stdin=TEXT.encode()).output))

    def test_batch(self) -> None:
        plain, presolved = (list(csv.DictReader(io.StringIO(command("batch", str(MODELS), "--csv", *words).output))) for words in ([], ["--presolve"]))
        self.assertEqual([(row["model"], row["answer"], row["value"]) for row in presolved], [(row["model"], row["answer"], row["value"]) for row in plain])
        left = [row for row in presolved if row["way"] == "lpd presolve" and row["rows left"]]
        self.assertGreater(len(left), 3)
        for row in left:
            self.assertEqual(row["accepted by"], "lpd check")
            self.assertLessEqual(int(row["rows left"]), int(row["rows"]))
            self.assertLessEqual(int(row["columns left"]), int(row["columns"]))
        self.assertNotIn("rows left", plain[0])

    def test_random_models(self) -> None:
        """The answer is that of solve, and the certificate is accepted for the text that was given."""
        dice = random.Random(int(os.environ.get("SEED", "5")))
        for _ in range(int(os.environ.get("MODELS", "20"))):
            model = some_model(dice, 4, 4)
            text = written(model, PROFILE).text
            found = lpd.presolve(text)
            self.assertEqual(found.answer, answered(text, model).answer)
            self.assertEqual(check_lines(model, found.certificate), lpd.Accepted(found.answer))
