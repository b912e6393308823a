"""What makes an infeasible model feasible: on random models beside models in which a limit, or all of them, may be missed."""
import json
import os
import random
import re
import unittest
from fractions import Fraction
from typing import List, Optional
from unittest import mock

import lpd
from lpd.certificate import must_be_feasible
from lpd.certifying import certified
from lpd.commands.conflicts import in_words
from lpd.dialects import PROFILE, written
from lpd.exact import OutOfTime
from lpd.figures import READABLE
from lpd.floating import ask
from lpd.irreducible import Side
from lpd.model import Model, Row
from lpd.records import replace
from lpd.remedy import Advice, Change, Remedy, advise, changed, elastic
from lpd.solver_names import NONE

from .commands import command
from .models import has_program, some_model

# 1000 of both, which have to have protein and may not be too fat. Less fat needs more soy than there is.
FEED = """NAME feed
ROWS
 N cost
 E amount
 G protein
 L fat
COLUMNS
 maize cost 10 amount 1
 maize protein 0.09 fat 0.04
 soy cost 25 amount 1
 soy protein 0.44 fat 0.02
RHS
 RHS amount 1000 protein 460
 RHS fat 35
BOUNDS
 UP BND soy 400
ENDATA
"""
# Neither row alone has a point with the columns' bounds, so that no single change is enough.
TWO = "ROWS\n N c\n G one\n G two\nCOLUMNS\n x c 1 one 1\n y c 1 two 2\nRHS\n one 5 two 9\nBOUNDS\n UP x 3\n UP y 4\nENDATA\n"
CLASH = "ROWS\n N c\n G one\nCOLUMNS\n x c 1 one 1\n y c 1\nRHS\n one 5\nBOUNDS\n UP x 3\n LO y 4\n UP y 2\nENDATA\n"


def exactly(model: Model) -> "tuple[lpd.Known, List[str]]":
    """The answer by exact steps in Python."""
    return certified(model, ask(NONE, model))[:2]


def advice_of(model: Model) -> Advice:
    known, certificate = exactly(model)
    assert known == lpd.Infeasible()
    return advise(model, [certificate])


def all_sides(model: Model) -> List[Side]:
    found = []
    for is_row, items in ((True, model.rows), (False, model.columns)):
        for name, item in items.items():
            lower, upper = item.limits()
            found += [Side(is_row, name, False)] if lower is not None else []
            found += [Side(is_row, name, True)] if upper is not None else []
    return found


def in_a_row(model: Model, side: Side) -> Model:
    """The model in which a bound of a column is that of a row of its own, "bound"."""
    lower, upper = model.columns[side.name].limits()
    limit = upper if side.is_upper else lower
    own = {"upper": None} if side.is_upper else {"lower": None}
    column = replace(model.columns[side.name], entries={**model.columns[side.name].entries, "bound": Fraction(1)}, **own)
    rows = {**model.rows, "bound": Row("L" if side.is_upper else "G", limit or Fraction(0))}
    return replace(model, rows=rows, columns={**model.columns, side.name: column})


def least_of_one(model: Model) -> Optional[Fraction]:
    """By a model for each limit, in which a column of its own makes up for what is missing."""
    found = []
    for side in all_sides(model):
        one = elastic(model, [side]) if side.is_row else elastic(in_a_row(model, side), [side._replace(is_row=True, name="bound")])
        known, _ = exactly(one)
        found += [known.value] if isinstance(known, lpd.Optimal) else []
    return min(found, default=None)


class Advised(unittest.TestCase):
    def check(self, model: Model, remedy: Optional[Remedy]) -> None:
        """It is enough, and a little less is not."""
        if remedy is not None:
            must_be_feasible(changed(model, remedy.changes), remedy.point)
            nearly = [replace(change, after=(change.before + 99 * change.after) / 100) for change in remedy.changes]
            self.assertEqual(exactly(changed(model, nearly))[0], lpd.Infeasible())

    def test_a_feed(self) -> None:
        """Of the limits that contradict each other the fat could go up, and the others would do: but not the bound of maize."""
        model = lpd.read_model(FEED)
        found = advice_of(model)
        self.check(model, found.single)
        self.check(model, found.together)
        assert found.single and found.together
        self.assertLessEqual(found.together.total, found.single.total)
        self.assertEqual(found.single.total, least_of_one(model))

    def test_no_single_change(self) -> None:
        found = advice_of(lpd.read_model(TWO))
        self.assertIsNone(found.single)
        self.assertEqual([(change.side.name, change.after) for change in found.together.changes] if found.together else [], [("one", 3), ("two", 8)])

    def test_bounds_that_contradict_each_other(self) -> None:
        self.assertEqual(advice_of(lpd.read_model(CLASH)), Advice(None, None))
        model = lpd.read_model(CLASH.replace("one 5", "one 2"))
        found = advice_of(model)
        self.assertEqual((found.single.total if found.single else None, found.together), (2, None))

    def test_random_models(self) -> None:
        dice, tried = random.Random(int(os.environ.get("SEED", "3"))), {True: 0, False: 0}
        for _ in range(int(os.environ.get("MODELS", "60"))):
            model = some_model(dice, 4, 3)
            known, certificate = exactly(model)
            if known != lpd.Infeasible():
                continue
            found = advise(model, [certificate])
            tried[found.single is None] += 1
            self.check(model, found.single)
            self.check(model, found.together)
            self.assertEqual(found.single.total if found.single else None, least_of_one(model))
            rows = [side for side in all_sides(model) if side.is_row]
            known, _ = exactly(elastic(model, rows))
            self.assertEqual(found.together.total if found.together else None, known.value if isinstance(known, lpd.Optimal) else None)
        self.assertTrue(all(tried.values()), tried)


@unittest.skipUnless(has_program(), "the program is not built")
class Told(unittest.TestCase):
    def test_what_is_not_found_in_time(self) -> None:
        """Whatever part of the seconds was left for the last solve."""
        with mock.patch("lpd.commands.conflicts.advise", side_effect=OutOfTime("lpd solve --wide is not done in 0.1 seconds")):
            said = command("solve", "-", stdin=TWO.encode())
        self.assertIn("which change of the model is enough: none was found in 20 seconds\n", said.complaints)

    def test_the_feed(self) -> None:
        """First what contradicts what, then what is enough for the whole model: no point has less than no maize."""
        said = command("solve", "-", stdin=FEED.encode())
        lines = said.output.splitlines()
        self.assertEqual((said.status, said.complaints, lines[0]), (10, "", "INFEASIBLE"))
        self.assertIn("The least change of one right side or bound that is enough: ", said.output)
        self.assertNotRegex(said.output, "maize ~?-")
        self.assertNotIn("is enough for the others", said.output)

    def test_two_rows(self) -> None:
        said = command("solve", "-", stdin=TWO.encode())
        self.assertIn("No change of one right side or bound is enough.\n", said.output)
        told = "The least changes of right sides that are enough, 3 in all:\n  one at least 3 in place of 5 (2 less)\n  two at least 8 in place of 9 (1 less)\n"
        self.assertIn(told, said.output)
        self.assertIn("  Then there is a point: x 3, y 4.\n", said.output)

    def test_demand_and_capacity(self) -> None:
        """Of a transport the sums of what is asked for and of what is there are told."""
        rows = [f" L s{n}" for n in range(3)] + [f" G d{n}" for n in range(9)]
        cards = [f" x{i}.{j} cost {i + j + 1} s{i} 1\n x{i}.{j} d{j} 1" for i in range(3) for j in range(9)]
        sides = [f" RHS s{i} 100.5" for i in range(3)] + [f" RHS d{j} 40.25" for j in range(9)]
        text = "\n".join(["ROWS", " N cost", *rows, "COLUMNS", *cards, "RHS", *sides, "ENDATA", ""])
        said = command("solve", "-", stdin=text.encode())
        self.assertEqual(said.output.splitlines()[1], "d0 + d1 + d2 + .. + d8 (9 rows) ask for 362.25 at least, and s0 + s1 + s2 allow 301.5 at most.")
        self.assertRegex(said.output, r"The least change of one right side or bound that is enough: s\d at most 161.25 in place of 100.5 \(60.75 more\)")

    def test_the_list_has_points_of_the_model_alone(self) -> None:
        said = command("solve", "-", "--iis", stdin=FEED.encode())
        self.assertNotRegex(said.output, "x maize .?-")
        self.assertIn("\n3 points are left out: each meets the other limits of the list, but not all of the model.\n", said.output)
        told = json.loads(command("solve", "-", "--iis", "--json", stdin=FEED.encode()).output)
        self.assertIn(None, [member["point"] for member in told["iis"]["members"]])
        change = told["advice"]["single"]["changes"][0]
        self.assertEqual(Fraction(change["by"]), abs(Fraction(change["moved_to"]) - Fraction(change["limit"])))

    def test_what_is_said_can_be_tried(self) -> None:
        """The options that are told make a model with a point."""
        third = "ROWS\n N c\n G one\n E two\nCOLUMNS\n x c 1 one 3\n x two 7\n y c 1 two 1\nRHS\n one 5 two 20\nBOUNDS\n UP x 1\n UP y 1\nENDATA\n"
        for text in (FEED, TWO, third, TWO.replace("UP y 4", "UP y 4\n LO x 2")):
            for words in ([], ["--exact"], ["--decimals", "1"]):
                said = command("solve", "-", *words, stdin=text.encode())
                told = re.findall(r"  To try it: (.*(?:\n    .*)*)", said.output)
                self.assertGreater(len(told), 0, said.output)
                for options in told:
                    self.assertEqual(command("solve", "-", *options.split(), stdin=text.encode()).status, 0, options)

    def test_what_is_said_is_true(self) -> None:
        """With the changed numbers as they are printed the model is feasible."""
        dice, tried = random.Random(9), 0
        for _ in range(60):
            model = some_model(dice, 4, 3)
            answer = lpd.answered(written(model, PROFILE).text, model)
            if answer.answer == lpd.Infeasible():
                found = advise(model, [answer.certificate])
                for remedy in (found.single, found.together):
                    tried += self.try_remedy(model, remedy)
        self.assertGreater(tried, 0)

    def try_remedy(self, model: Model, remedy: Optional[Remedy]) -> bool:
        if remedy is None:
            return False
        printed = [replace(change, after=self.printed(model, change)) for change in remedy.changes]
        self.assertIsInstance(exactly(changed(model, printed))[0], (lpd.Optimal, lpd.Unbounded))
        return True

    def printed(self, model: Model, change: Change) -> Fraction:
        words = in_words(model, change, READABLE)[len(change.side.name) + 1 :].split()
        self.assertIn(" ".join(words[:2]), ("at most", "at least", "equal to"))
        return Fraction(words[2].lstrip("~"))
