"""Another objective: a free row in place of the first one, by edits of a session, and what is said of it."""
import csv
import io
import json
import random
import tempfile
import unittest
from fractions import Fraction
from pathlib import Path

import lpd
from lpd.dialects import PROFILE, without_free_rows, written
from lpd.model import Model
from lpd.objective import NoObjective, aimed, with_objective
from lpd.once import has_command

from .commands import Said, command, reported
from .models import has_program, some_model
from .test_free_rows import PLAN

WIDE = PLAN.replace("need 10", f"need {10**50}")


class Numbers(unittest.TestCase):
    def test_its_numbers(self) -> None:
        model = lpd.read_model(PLAN)
        other = with_objective(model, "hours")
        self.assertEqual([column.cost for column in other.columns.values()], [3, 1])
        self.assertEqual((other.offset, other.objective, other.sense, other.rows), (6, "cost", 1, model.rows))
        self.assertEqual([column.entries for column in other.columns.values()], [column.entries for column in model.columns.values()])

    def test_rows_that_are_none(self) -> None:
        model = lpd.read_model(PLAN)
        with self.assertRaises(lpd.UnknownName):
            with_objective(model, "days")
        with self.assertRaises(lpd.UnknownName):
            with_objective(model, "cost")
        with self.assertRaisesRegex(NoObjective, "row need has limits, and an objective is a row of type N: those are cost, hours"):
            with_objective(model, "need")


@unittest.skipUnless(has_program(), "the program is not built")
class Solved(unittest.TestCase):
    def said(self, *words: str, text: str = PLAN) -> Said:
        return command("solve", "-", *words, stdin=text.encode())

    def test_a_session(self) -> None:
        with lpd.Session() as session:
            session.load(PLAN)
            session.add_row("days", "N", Fraction(1, 2))
            session.set_coefficient("days", "slow", Fraction(3, 8))
            model = lpd.read_model(session.write())
            session.set_objective("days")
            self.assertEqual(lpd.read_model(session.write()), with_objective(model, "days"))
            self.assertEqual(session.solve(), lpd.Optimal(Fraction(-1, 2)))
            session.delete_row("days")
            self.assertEqual(session.solve(), lpd.Optimal(Fraction(-1, 2)))
            session.set_objective("hours")
            self.assertEqual(session.solve_checked()[0], lpd.Optimal(Fraction(16)))

    def test_another_objective(self) -> None:
        said = self.said("--objective", "hours")
        lines = said.output.splitlines()
        self.assertEqual((said.status, lines[:2]), (0, ["OPTIMAL 16", "Solved for hours in place of cost, which is 42 there."]))
        self.assertIn("The certificate is for the text with hours as its objective: -o FILE writes both", lines[2])
        self.assertEqual(self.said("--objective", "cost").output, self.said().output)
        said = self.said("--objective", "hours", "--max", "--show", "answer")
        self.assertEqual((said.status, said.output.splitlines()[:2]), (11, ["UNBOUNDED", "Solved for hours in place of cost."]))

    def test_its_certificate(self) -> None:
        with tempfile.TemporaryDirectory() as folder:
            said = self.said("--objective", "hours", "-o", f"{folder}/answer", "--show", "answer")
            self.assertEqual(said.output, reported("OPTIMAL 16\nSolved for hours in place of cost, which is 42 there.\n"))
            self.assertIn(f"{folder}/answer is for the text {folder}/answer.mps\n", said.complaints)
            self.assertEqual(command("check", f"{folder}/answer.mps", f"{folder}/answer", "--claim", "16")[:2], (0, "YES OPTIMAL 16\n"))
            self.assertEqual(lpd.read_model(Path(f"{folder}/answer.mps").read_text()), with_objective(lpd.read_model(PLAN), "hours"))
            (Path(folder) / "plan.mps").write_text(PLAN)
            self.assertEqual(command("check", f"{folder}/plan.mps", f"{folder}/answer").status, 1)

    def test_how_it_is_told(self) -> None:
        told = json.loads(self.said("--objective", "hours", "--json", "--decimals", "1").output)
        self.assertEqual(told["answer"], "OPTIMAL 16")
        self.assertEqual(told["objective"], {"row": "hours", "in_place_of": "cost", "value": "42", "decimals": {"value": 42.0}})
        self.assertNotIn("objective", json.loads(self.said("--json").output))
        lines = list(csv.reader(io.StringIO(self.said("--objective", "hours", "--csv").output)))
        self.assertEqual(lines[1:3], [["answer", "OPTIMAL", "16", "", "", "="], ["objective", "cost", "42", "", "", "="]])

    @unittest.skipUnless(has_program() and has_command("range"), "the program has no command range")
    def test_with_what_else_is_shown(self) -> None:
        said = self.said("--objective", "hours", "--ranges", "--csv")
        self.assertIn("objective,cost,42,,,,,,=\n", said.output)
        self.assertIn("column,quick,10,0,,1,0,3,=\n", said.output)
        self.assertIn("row,hours,10,0,,-6,-inf,inf,=\n", said.output)

    def test_rows_that_are_none(self) -> None:
        said = self.said("--objective", "days")
        self.assertEqual((said.status, said.output, said.complaints.splitlines()[0]), (9, "", "ERR 5 NAME days"))
        said = self.said("--objective", "need")
        self.assertEqual((said.status, said.output), (9, ""))
        self.assertIn("row need has limits", said.complaints)

    def test_past_127_bits(self) -> None:
        aim = aimed(WIDE, lpd.read_model(WIDE, wide=True), "hours")
        self.assertEqual(aim.model, with_objective(lpd.read_model(WIDE, wide=True), "hours"))
        self.assertEqual(aim.notes, ["the objective was exchanged in Python, since line 13 of the model has a number past 127 bits"])
        self.assertEqual(lpd.read_model(aim.text, wide=True), aim.model)

    def test_random_models(self) -> None:
        """The optimum is that of the text with the row in the first one's place, and the first one's value is that of the point."""
        dice, tried = random.Random(5), 0
        for _ in range(40):
            model = some_model(dice)
            for row in model.free_rows():
                aim, other = aimed(written(model, PROFILE).text, model, row), exchanged(model, row)
                found = lpd.answered(aim.text, aim.model)
                self.assertEqual(found.answer, lpd.answered(written(other, PROFILE).text, other).answer)
                if isinstance(found.answer, lpd.Optimal):
                    tried += 1
                    point = {column.name: column.value for column in lpd.report(aim.model, found.certificate).columns}
                    self.assertEqual(model.activity(point, row) - model.rows[row].rhs, found.answer.value)
                    self.assertEqual(aim.value_before(point), model.cost(point) + model.offset)
        self.assertGreater(tried, 0)


def exchanged(model: Model, row: str) -> Model:
    """The model with a free row as its objective, under its own name, and without the first one."""
    text = written(model, PROFILE).text
    first = f"ROWS\n N {model.objective}\n"
    assert first in text
    lines = text.replace(f"\n N {row}\n", "\n", 1).replace(first, f"ROWS\n N {row}\n N {model.objective}\n", 1)
    return without_free_rows(lpd.read_model(lines))
