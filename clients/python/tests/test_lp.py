"""The LP format: its sections, what it refuses, and random models beside glpsol's reading of them."""
import random
import shutil
import subprocess
import tempfile
import unittest
from fractions import Fraction
from pathlib import Path

import lpd
from lpd.lp_format import Unreadable, from_lp, mps_of
from lpd.model import Model

ALL = """\\ a comment
Maximise
 gain: 3 x + 0.1 y - 2 x + 7 one - 4
Subject To
 c1: x + y
   <= 4
 - 2 <= x - y <= 3.5
 c3: 3 x + 0 y => 1e-1
 5 >= 2 z
 eq: z - 2.50 w = -3
Bounds
 x <= 2.5
 y free
 -1 <= z <= 8
 one = 1
 w >= -inf
 -Infinity <= v <= 3
End
"""
HEADS = "Minimize\n c: x\nSubject To\n r: x >= 1\n"


def model_of(text: str) -> Model:
    return lpd.read_model(from_lp(text.encode(), "some.lp").decode("latin-1"), wide=True)


class Read(unittest.TestCase):
    def test_all_sections(self) -> None:
        model = model_of(ALL)
        self.assertEqual((model.sense, model.objective, model.offset), (-1, "gain", -4))
        self.assertEqual({name: column.cost for name, column in model.columns.items()}, {"x": 1, "y": Fraction(1, 10), "one": 7, "z": 0, "w": 0, "v": 0})
        rows = {name: row.limits() for name, row in model.rows.items()}
        self.assertEqual(rows, {"c1": (None, 4), "r.7": (-2, Fraction(7, 2)), "c3": (Fraction(1, 10), None), "r.9": (None, 5), "eq": (-3, -3)})
        self.assertEqual(model.columns["w"].entries, {"eq": Fraction(-5, 2)})
        bounds = {name: column.limits() for name, column in model.columns.items()}
        expected = {"x": (0, Fraction(5, 2)), "y": (None, None), "one": (1, 1), "z": (-1, 8), "w": (None, None), "v": (None, 3)}
        self.assertEqual(bounds, expected)

    def test_every_digit(self) -> None:
        model = model_of("min\n x\nst\n r: 0.30000000000000000001 x >= 4.123456789012345678\nend\n")
        self.assertEqual(model.rows["r"].rhs, Fraction("4.123456789012345678"))
        self.assertEqual(model.columns["x"].entries["r"], Fraction("0.30000000000000000001"))

    def test_a_word_that_is_a_column(self) -> None:
        model = model_of("Minimize\n c: bin + end2 + free\nSubject To\n st: bin + free >= 1\n bin - end2 >= 2\nEnd\n")
        self.assertEqual((list(model.columns), list(model.rows)), (["bin", "end2", "free"], ["st", "r.5"]))

    def test_names_with_brackets(self) -> None:
        model = model_of("min\n 2 flow[Pencils,Detroit] + x(1,2)\nst\n r[-1]: flow[Pencils,Detroit] + 3x[2][y] + x(1,2) >= 2 s: x[2][y] <= 1\nend\n")
        self.assertEqual((list(model.columns), list(model.rows)), (["flow[Pencils,Detroit]", "x(1,2)", "x[2][y]"], ["r[-1]", "s"]))

    def test_what_does_not_fit(self) -> None:
        cases = {
            "": "a model begins with Minimize or Maximize",
            "x >= 1\n": "line 1: a model begins with",
            "Minimize\n c: 3 x +\nEnd\n": "line 2: a column was expected at the end of a section",
            "Minimize\n c: [ x ^2 ]\nEnd\n": "quadratic terms",
            HEADS + " s: x y >= 2\nEnd\n": "line 5: <=, >= or = was expected, and not 'y'",
            HEADS + " r: x >= 2\nEnd\n": "there is already a constraint r",
            HEADS + " s: x >= y\nEnd\n": "line 5: a number was expected, and not 'y': columns stand on the left side alone",
            HEADS + " s: x >= 4,5\nEnd\n": "line 5: 4,5 is no number: a decimal has a point, as 4.5",
            HEADS + " s 4 x >= 4\nEnd\n": "line 5: the name of a constraint ends with a colon, as s:",
            HEADS + " s: y <= 0.4 x\n t: x >= 2\nEnd\n": "line 5: one number is on the right side of a constraint, and 'x' stands behind it",
            HEADS + " s: x <= 3 + 2\nEnd\n": "line 5: one number is on the right side of a constraint, and '+' stands behind it",
            HEADS + " total need: x >= 2\nEnd\n": "line 5: the name of a constraint has no blanks, as total_need:",
            "Minimize\n c: x + 2 (y + z)\nEnd\n": "line 2: (y: the LP format has no parentheses around terms: multiply out",
            "Minimize\n c: x + 2 (y)\nEnd\n": "line 2: (y): the LP format has no parentheses around terms",
            "Minimize\n c: x + y(1 + z\nEnd\n": "line 2: y(1: the LP format has no parentheses around terms",
            "/* own */\nmax: 3x;\n": "line 1: a model begins with Minimize or Maximize. If this is the format of lp_solve: lp_solve -S1",
            HEADS + " s: x = 1 -> x >= 2\nEnd\n": "line 5: ",
            HEADS + "Bounds\n x\nEnd\n": "free, or a relation",
            HEADS + "SOS1\n s: x:1\nEnd\n": "line 5: SOS1: lpd solves linear programs",
            HEADS + "Semi-Continuous\n x\nEnd\n": "line 5: Semi-Continuous: lpd solves linear programs",
        }
        for text, why in cases.items():
            with self.assertRaises(Unreadable) as raised:
                model_of(text)
            self.assertIn(why, str(raised.exception))
            self.assertIn("some.lp is in the LP format, and ", str(raised.exception))

    def test_whole_numbers(self) -> None:
        text = from_lp((HEADS + "Generals\n x\nBinaries\n y z\nEnd\n").encode(), "some.lp").decode()
        self.assertEqual(text.count("'INTORG'"), 3)
        self.assertIn(" UP BND y 1\n", text)

    @unittest.skipUnless(shutil.which("glpsol"), "glpsol is not on the path")
    def test_as_glpsol_reads_it(self) -> None:
        dice = random.Random(12)
        for _ in range(20):
            text = some_text(dice)
            with tempfile.TemporaryDirectory() as folder:
                (Path(folder) / "model.lp").write_text(text)
                subprocess.run(["glpsol", "--lp", "model.lp", "--check", "--wglp", "model.glp"], cwd=folder, capture_output=True, check=True)
                other = lpd.read_model(mps_of((Path(folder) / "model.glp").read_text()))
            mine = model_of(text)
            self.assertEqual({name: row.limits() for name, row in mine.rows.items()}, {name: row.limits() for name, row in other.rows.items()})
            self.assertEqual((mine.sense, mine.columns), (other.sense, other.columns), text)


def some_text(dice: random.Random) -> str:
    """A text whose numbers have few digits."""

    def some_sum() -> str:
        names = dice.sample("uvwxyz", dice.randint(1, 4))
        return " ".join(f"{dice.choice('+-')} {dice.choice(['', '2', '0.25', '3e1'])} {name}" for name in names)

    def number() -> str:
        return f"{dice.choice(['', '-'])}{dice.randint(0, 99) / 4}"

    lines = [dice.choice(["Minimize", "MAXIMIZE", "min"]), f" obj: {some_sum()}", dice.choice(["Subject To", "st", "s.t."])]
    lines += [f" {dice.choice(['', f'c{n}:'])} {some_sum()} {dice.choice(['<=', '>=', '=', '<', '>'])} {number()}" for n in range(1, dice.randint(2, 6))]
    lines.append("Bounds")
    for name in dice.sample("uvwxyz", 3):
        low = dice.randint(-9, 9)
        lines.append(dice.choice([f" {name} free", f" {low} <= {name} <= {low + 3}", f" {name} >= {low}", f" {name} = {low}", f" -inf <= {name} <= {low}"]))
    return "\n".join([*lines, "End", ""])
