"""Limits that contradict each other, none of which can be left out: what the program writes of them, what is said, and, on random
models, that all of them together have no point and all but one have."""
import itertools
import json
import os
import random
import unittest
from fractions import Fraction
from pathlib import Path
from typing import List, Optional, Sequence
from unittest import mock

import lpd
from lpd.certificate import check_lines
from lpd.dialects import PROFILE, written
from lpd.irreducible import Side, best_of, only, read_iis, renamed, satisfies
from lpd.model import Model
from lpd.once import has_command

from .commands import command, reported
from .models import has_program, some_model

try:
    import pulp
except ImportError:
    pulp = None

MODELS = Path(__file__).resolve().parents[3] / "examples" / "models"
DEPARTMENTS = MODELS / "departments.mps"
WRITTEN = """INFEASIBLE
IIS 4
ROW UPPER hours
ROW LOWER sales
ROW LOWER service
ROW LOWER training
INFEASIBLE
y hours -0.5
y sales 0.25
y service 0.5
y training 1
END
POINT 1
x brochures 120
x manuals 40
x textbooks 30
POINT 2
x manuals 40
x textbooks 30
POINT 3
x brochures 120
x textbooks 30
POINT 4
x brochures 120
x manuals 40
END
""".splitlines()
SENTENCES = [
    "at most 150 of hours is there, but the other rows ask for 160 at least",
    "at least 120 of sales is asked for, but the other rows allow 100 at most",
    "at least 40 of service is asked for, but the other rows allow 30 at most",
    "at least 30 of training is asked for, but the other rows allow 25 at most",
]
CLASH = "ROWS\n N cost\nCOLUMNS\n x cost 1\nRHS\nBOUNDS\n LO x 3\n UP x 2\nENDATA\n"
PROTEIN = "ROWS\n N cost\n G protein\nCOLUMNS\n beans cost 1 protein 9\n eggs protein 6\nRHS\n protein 40\nBOUNDS\n UP beans 2\n UP eggs 3\nENDATA\n"


def ready() -> bool:
    return has_program() and has_command("iis")


class Written(unittest.TestCase):
    """What the program writes."""

    def setUp(self) -> None:
        self.model = lpd.read_model(DEPARTMENTS.read_text())

    def test_what_is_read(self) -> None:
        found = read_iis(self.model, WRITTEN)
        self.assertEqual(found.sentences(), SENTENCES)
        hours, sales = found.members[0], found.members[1]
        self.assertEqual((hours.side, hours.limit, hours.best, hours.by, hours.reached), (Side(True, "hours", True), 150, 160, 10, 160))
        self.assertEqual((sales.name, sales.limit, sales.best, sales.by, sales.reached), ("sales", 120, 100, 20, 0))
        self.assertEqual(sales.point, {"manuals": 40, "textbooks": 30})
        self.assertEqual(sales.words(), "the lower limit of row sales")
        self.assertEqual(found.certificate, WRITTEN[6:12])

    def test_other_answers(self) -> None:
        self.assertEqual(read_iis(self.model, ["OPTIMAL 3"]), lpd.Irreducible(lpd.Optimal(Fraction(3))))
        stopped = lpd.Irreducible(lpd.Infeasible(), stopped=lpd.Past("MUL", Fraction(2), Fraction(3)))
        self.assertEqual(read_iis(self.model, ["INFEASIBLE", "STOPPED PAST MUL 2 3"]), stopped)
        self.assertEqual(read_iis(self.model, ["INFEASIBLE", "STOPPED SPENT 10000"]).stopped, lpd.Spent(10000))

    def test_a_clash(self) -> None:
        model = lpd.read_model(CLASH)
        lines = "INFEASIBLE\nIIS 2\nCOLUMN LOWER x\nCOLUMN UPPER x\nCLASH x\nEND\nPOINT 1\nx x 2\nPOINT 2\nx x 3\nEND".split("\n")
        found = read_iis(model, lines)
        self.assertEqual(found.sentences(), ["x has to be 3 at least, but its other bound allows 2 at most", "x may be 2 at most, but its other bound asks for 3 at least"])
        self.assertEqual([member.by for member in found.members], [1, 1])

    def test_bounds_of_columns(self) -> None:
        model = lpd.read_model(PROTEIN)
        sides = [Side(True, "protein", False), Side(False, "beans", True), Side(False, "eggs", True)]
        self.assertEqual(best_of(only(model, sides), sides, ["INFEASIBLE", "y protein 1", "END"]), [36, Fraction(22, 9), Fraction(11, 3)])

    def test_what_is_none(self) -> None:
        """A line that is missing, and what the checker in Python does not accept."""
        for line in range(len(WRITTEN)):
            if WRITTEN[line].startswith("x "):
                continue
            with self.assertRaises(lpd.LpdError, msg=WRITTEN[line]):
                read_iis(self.model, WRITTEN[:line] + WRITTEN[line + 1 :])
        for old, new in (("x manuals 40", "x manuals 4"), ("y sales 0.25", "y sales 0.2"), ("ROW UPPER hours", "ROW UPPER paper"), ("ROW LOWER sales", "ROW UPPER sales")):
            with self.assertRaises(lpd.LpdError, msg=new):
                read_iis(self.model, [new if line == old else line for line in WRITTEN])

    def test_other_names(self) -> None:
        found = renamed(read_iis(self.model, WRITTEN), {"hours": "the hours"}, {"manuals": "a manual"})
        self.assertEqual((found.members[0].name, found.members[1].point), ("the hours", {"a manual": 40, "textbooks": 30}))


@unittest.skipUnless(has_program(), "the program is not built")
class WithoutTheCommand(unittest.TestCase):
    def test_it_is_told_where_it_is_asked_for(self) -> None:
        with mock.patch("lpd.commands.conflicts.iis", side_effect=lpd.CommandMissing("iis")):
            said = command("solve", str(DEPARTMENTS))
            self.assertEqual((said.status, said.complaints), (10, ""))
            self.assertIn("sales + 2 service + 4 training ask for 320 at least, and 2 hours allows 300 at most.\n", said.output)
            self.assertNotIn("contradict each other", said.output)
            self.assertIn("that is enough: training at least 25 in place of 30 (5 less).\n", said.output)
            said = command("solve", str(DEPARTMENTS), "--iis")
            self.assertEqual((said.status, said.complaints), (10, "lpd: there is no list: this program has no command iis\n"))

    def test_it_ran_out_of_digits(self) -> None:
        """Then it is asked for the limits of the certificate alone."""
        past, model = lpd.Past("SUB", Fraction(10**50), Fraction(10**60, 7)), lpd.read_model(DEPARTMENTS.read_text())
        stopped = lpd.Irreducible(lpd.Infeasible(), stopped=past)
        with mock.patch("lpd.commands.conflicts.iis", side_effect=[stopped, read_iis(model, WRITTEN)]) as asked:
            said = command("solve", str(DEPARTMENTS))
        self.assertEqual((said.status, said.complaints, asked.call_count), (10, "", 2))
        self.assertIn(f"  {SENTENCES[0]}\n", said.output)
        part = lpd.read_model(asked.call_args_list[1].args[0])
        self.assertEqual((list(part.rows), part.columns["manuals"].limits()), (["hours", "sales", "service", "training"], (None, None)))
        with mock.patch("lpd.commands.conflicts.iis", side_effect=[stopped, stopped]):
            said = command("solve", str(DEPARTMENTS))
        self.assertEqual(said.complaints, "note: it is not known which limits can be left out: lpd iis ran out of digits\n")

    def test_it_takes_too_long(self) -> None:
        with mock.patch("lpd.commands.conflicts.iis", side_effect=lpd.OutOfTime("lpd iis is not done in 1 seconds")):
            said = command("solve", str(DEPARTMENTS))
        self.assertEqual((said.status, said.complaints), (10, "note: it is not known which limits can be left out: lpd iis is not done in 1 seconds\n"))


@unittest.skipUnless(ready(), "there is no program, or it has no command iis")
class WithTheProgram(unittest.TestCase):
    def test_each_two_departments_can_be_met(self) -> None:
        text = DEPARTMENTS.read_text()
        self.assertEqual(lpd.iis(text).sentences(), SENTENCES)
        for name in ("sales", "service", "training"):
            with lpd.Session() as session:
                session.load(text)
                self.assertEqual(session.conflict().sentences(), SENTENCES)
                session.set_rhs(name, 0)
                self.assertIsInstance(session.solve(), lpd.Optimal)
                self.assertEqual(session.conflict().members, [])

    def test_the_least_that_is_enough(self) -> None:
        """A limit that is moved up to where the others let it come leaves them a point, and one that is moved less does not."""
        for member in lpd.iis(DEPARTMENTS.read_text()).members:
            for part, kind in ((Fraction(1), lpd.Optimal), (Fraction(9, 10), lpd.Infeasible)):
                with lpd.Session() as session:
                    session.load(DEPARTMENTS.read_text())
                    session.set_rhs(member.name, member.limit + part * (member.best - member.limit))
                    self.assertIsInstance(session.solve(), kind)

    def test_sentences(self) -> None:
        said = command("solve", str(DEPARTMENTS))
        self.assertEqual((said.status, said.complaints), (10, ""))
        self.assertEqual(said.output.splitlines()[1], "sales + 2 service + 4 training ask for 320 at least, and 2 hours allows 300 at most.")
        self.assertIn(f"  {SENTENCES[0]}\n", said.output)
        told = "training at least 25 in place of 30 (5 less).\n  Then there is a point: brochures 120, manuals 40, textbooks 25.\n"
        self.assertIn(f"The least change of one right side or bound that is enough: {told}", said.output)
        self.assertNotIn("POINT", said.output)
        self.assertEqual(command("solve", str(DEPARTMENTS), "--show", "answer").output, reported("INFEASIBLE\n"))

    def test_one_row_and_the_columns(self) -> None:
        said = command("solve", "-", stdin=PROTEIN.encode())
        self.assertIn("Row protein asks for 40 at least, and the bounds of beans and eggs allow 36 at most.\n", said.output)
        self.assertIn("  beans may be 2 at most, but the others ask for ~2.44444 at least\n", said.output)
        self.assertIn("beans at most ~2.44445 in place of 2 (~0.444444 more).\n", said.output)
        said = command("solve", "-", "--exact", stdin=PROTEIN.encode())
        self.assertIn("beans at most 22/9 in place of 2 (4/9 more).\n", said.output)

    def test_the_list(self) -> None:
        said = command("solve", str(DEPARTMENTS), "--iis", "--show", "answer")
        lines = said.output.splitlines()
        self.assertEqual(lines[0], "INFEASIBLE")
        self.assertEqual(lines[3].split(), ["1", "the", "upper", "limit", "of", "row", "hours", "=150", "=160", "=10", "=160"])
        self.assertIn("POINT 2\nx manuals =40\nx textbooks =30\n", said.output)
        said = command("solve", str(MODELS / "diet.mps"), "--iis", "--show", "answer")
        self.assertEqual(said, (0, reported("OPTIMAL 92.5\n"), "lpd: there is no list: --iis is for an infeasible model, and the answer is OPTIMAL 92.5\n"))

    def test_json(self) -> None:
        told = json.loads(command("solve", str(DEPARTMENTS), "--iis", "--json").output)["iis"]
        member = told["members"][1]
        self.assertEqual((member["of"], member["name"], member["side"], member["moved_to"], member["by"]), ("row", "sales", "lower", "100", "20"))
        self.assertEqual((member["point"], member["words"], told["certificate"][0]), ({"manuals": "40", "textbooks": "30"}, SENTENCES[1], "INFEASIBLE"))
        self.assertNotIn("iis", json.loads(command("solve", str(DEPARTMENTS), "--json").output))

    def test_random_models(self) -> None:
        """By brute force: of a small model every set of its members, and no set of fewer limits than all of them, has no point."""
        dice, tried = random.Random(int(os.environ.get("SEED", "11"))), 0
        for _ in range(int(os.environ.get("MODELS", "40"))):
            model = some_model(dice, 4, 3)
            found = lpd.iis(written(model, PROFILE).text)
            if found.members:
                tried += 1
                self.try_members(model, found)
        self.assertGreater(tried, 0)

    def try_members(self, model: Model, found: "lpd.Irreducible") -> None:
        sides = [member.side for member in found.members]
        self.assertEqual(check_lines(only(model, sides), found.certificate), lpd.Accepted(lpd.Infeasible()))
        for count in range(len(sides)):
            for some in itertools.combinations(sides, count):
                self.assertTrue(any(all(satisfies(model, member.point, side) for side in some) for member in found.members))
        for member in found.members:
            self.assertIsInstance(self.answer(model, sides, member, member.best), lpd.Optimal)
            self.assertIsInstance(self.answer(model, sides, member, (member.limit + 99 * member.best) / 100), lpd.Infeasible)

    def answer(self, model: Model, sides: Sequence[Side], member: "lpd.Member", limit: Fraction) -> "lpd.Answer":
        """With one limit moved."""
        moved = only(model, sides)
        if member.side.is_row:
            moved.rows[member.name].rhs = limit
        elif member.side.is_upper:
            moved.columns[member.name].upper = limit
        else:
            moved.columns[member.name].lower = limit
        return lpd.answered(written(moved, PROFILE).text, moved).answer


@unittest.skipIf(pulp is None, "python3-pulp is not installed")
@unittest.skipUnless(ready(), "there is no program, or it has no command iis")
class WithPulp(unittest.TestCase):
    def test_names(self) -> None:
        from lpd.pulp import LPD

        problem = pulp.LpProblem("shop", pulp.LpMinimize)
        tables, chairs = pulp.LpVariable("a_tàble", 0, 4), pulp.LpVariable("chairs", 0)
        problem += tables + chairs, "cost"
        problem += 2 * tables + chairs <= 10, "wööd"
        problem += tables + 0 * chairs >= 3, "hall"
        problem += chairs >= 5, "kitchen"
        self.assertEqual(problem.solve(LPD(msg=False)), pulp.LpStatusInfeasible)
        found = problem.exact.conflict
        self.assertEqual([member.name for member in found.members], ["wööd", "hall", "kitchen"])
        self.assertEqual(found.members[0].point, {"a_tàble": 3, "chairs": 5})
        self.assertEqual(found.sentences()[0], "at most 10 of wööd is there, but the other rows ask for 11 at least")
