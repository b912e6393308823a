"""Pictures of models of two columns, and of the optimum over one number."""
import os
import re
import tempfile
import unittest
from fractions import Fraction
from pathlib import Path
from typing import List
from xml.etree import ElementTree

import lpd
from lpd.plotting import Turn, curve, over_number, turns_of
from lpd.svg import place_of, ticks

from .commands import Said, command
from .models import has_program

EXAMPLES = Path(__file__).resolve().parents[3] / "examples"
DIET = str(EXAMPLES / "models" / "diet.mps")
SHOP = "NAME shop\nOBJSENSE MAX\nROWS\n N profit\n L wood\n L hours\nCOLUMNS\n tables profit 30 wood 4\n tables hours 2\n"
SHOP += " chairs profit 20 wood 1\n chairs hours 3\nRHS\n wood 40 hours 42\nENDATA\n"


class Numbers(unittest.TestCase):
    def test_ticks(self) -> None:
        cases = [((0, 10), [0, 2, 4, 6, 8, 10]), ((-3, 3), [-3, -2, -1, 0, 1, 2, 3]), ((0, 4700), [0, 1000, 2000, 3000, 4000])]
        for (low, high), expected in cases:
            self.assertEqual(ticks(Fraction(low), Fraction(high)), expected)
        for low, high in ((Fraction(1, 7), Fraction(2, 7)), (Fraction(-(10**9)), Fraction(3)), (Fraction(5), Fraction(5) + Fraction(1, 10**6))):
            self.assertTrue(2 <= len(ticks(low, high)) <= 8, ticks(low, high))

    def test_every_kink_is_found(self) -> None:
        """Of the greatest of some lines, which are convex together."""
        lines = [(Fraction(slope), Fraction(start)) for slope, start in ((-2, 3), (0, 0), (1, -1), (3, -9), (7, -100))]

        def solve(number: Fraction) -> Turn:
            value, slope = max((slope * number + start, slope) for slope, start in lines)
            return Turn(number, value, slope)

        turns = over_number(solve, Fraction(-1), Fraction(40))
        self.assertEqual([turn.number for turn in turns], [-1, Fraction(4, 3), 4, Fraction(91, 4), 40])

    def test_texts_do_not_meet(self) -> None:
        """Of many kinks near each other, of which each has its words to be shown over it."""
        turns = [Turn(Fraction(n, 3), Fraction(n * n, 7), Fraction(1)) for n in range(40)]
        drawn = ElementTree.fromstring(curve(turns, "need", "right side of"))
        texts = drawn.findall("{http://www.w3.org/2000/svg}text")[1:]
        places = [place_of(float(one.attrib["x"]), float(one.attrib["y"]), one.text or "", one.attrib["text-anchor"]) for one in texts]
        self.assertGreater(len(places), 15)
        for at, one in enumerate(places):
            for other in places[:at]:
                self.assertFalse(one.meets(other), (one, other))
        self.assertEqual(len(drawn.findall(".//{http://www.w3.org/2000/svg}title")), 40)

    def test_a_straight_line(self) -> None:
        self.assertEqual(len(over_number(lambda number: Turn(number, 2 * number, Fraction(2)), Fraction(0), Fraction(9))), 2)


@unittest.skipUnless(has_program(), "the program is not built")
class Plot(unittest.TestCase):
    def points(self, said: Said, kind: str) -> "List[List[float]]":
        self.assertEqual((said.status, said.complaints if kind == "polygon" else ""), (0, ""))
        found = ElementTree.fromstring(said.output).find(f"{{http://www.w3.org/2000/svg}}{kind}")
        return [] if found is None else [[float(number) for number in point.split(",")] for point in found.attrib["points"].split()]

    def test_a_region(self) -> None:
        said = command("plot", "-", "-o", "-", stdin=SHOP.encode())
        self.assertEqual(len(self.points(said, "polygon")), 4)
        for words in ("shop: OPTIMAL 410", "tables =7.8, chairs =8.8", ">wood<", ">hours<", "<path "):
            self.assertIn(words, said.output)

    def test_other_ends(self) -> None:
        said = command("plot", "-", "-o", "-", stdin=SHOP.replace(" L ", " G ").encode())
        self.assertIn("UNBOUNDED", said.output)
        self.assertGreater(len(self.points(said, "polygon")), 3)
        said = command("plot", str(EXAMPLES / "models" / "orders.mps"), "-o", "-")
        self.assertIn("INFEASIBLE", said.output)
        self.assertEqual(self.points(said, "polygon"), [])

    def test_more_columns(self) -> None:
        said = command("plot", DIET)
        self.assertEqual((said.status, said.output), (2, ""))
        self.assertIn("the model has 6 columns, and a plane has two: --rhs ROW or --cost COLUMN", said.complaints)

    def test_over_a_right_side(self) -> None:
        said = command("plot", DIET, "--rhs", "energy", "--from", "0", "--to", "4015", "--exact", "-o", "-")
        stored = re.findall(r"from (\S+) to (\S+): from (\S+) to (\S+) cents", (EXAMPLES / "python" / "optimum_over_demand.out").read_text())
        told = re.findall(r"^from (\S+) to (\S+): (\S+) to (\S+),", said.complaints, re.M)
        self.assertEqual([list(map(Fraction, line)) for line in told], [list(map(Fraction, line)) for line in stored])
        self.assertEqual(said.output.count("<circle"), len(stored) + 1)
        ElementTree.fromstring(said.output)

    def test_over_a_cost(self) -> None:
        model = lpd.read_model(Path(DIET).read_text())
        turns = turns_of(model, None, "milk", Fraction(0), Fraction(40))
        self.assertGreater(len(turns), 2)
        for turn in turns:
            with lpd.Session() as session:
                session.load(Path(DIET).read_text())
                session.set_cost("milk", turn.number)
                self.assertEqual(session.solve(), lpd.Optimal(turn.value))

    def test_the_file(self) -> None:
        """It is named where nobody names one, and is SVG."""
        with tempfile.TemporaryDirectory() as folder:
            before = os.getcwd()
            os.chdir(folder)
            self.addCleanup(os.chdir, before)
            (Path(folder) / "shop.mps").write_text(SHOP)
            said = command("plot", "shop.mps")
            self.assertEqual((said.status, said.output, said.complaints), (0, "", "shop.svg has the picture\n"))
            self.assertTrue(command("plot", DIET, "--rhs", "energy").complaints.endswith("\nenergy.svg has the picture\n"))
            for path in Path(folder).glob("*.svg"):
                ElementTree.fromstring(path.read_text())
            os.chdir(before)
            for words in (["plot", DIET, "--rhs", "energy", "-o", f"{folder}/x.png"], ["solve", DIET, "--plot", "energy", "--picture", f"{folder}/x.png"]):
                said = command(*words)
                self.assertEqual((said.status, said.output), (2, ""))
                self.assertIn("x.png ends with .png: name a file .svg", said.complaints)
            self.assertEqual(sorted(path.name for path in Path(folder).iterdir()), ["energy.svg", "shop.mps", "shop.svg"])

    def test_an_end_without_an_optimum(self) -> None:
        """Where nobody asks for it, the picture ends where the optimum does."""
        text = "NAME feed\nROWS\n N cost\n E mass\n L fat\nCOLUMNS\n maize cost 2 mass 1\n maize fat 4\n soy cost 5 mass 1\n soy fat 1\nRHS\n mass 10 fat 15\nENDATA\n"
        said = command("plot", "-", "--rhs", "fat", "-o", "-", stdin=text.encode())
        told = "below 10: INFEASIBLE\nfrom 10 to 22.5: 50 to 37.5, -1 for each unit\n"
        self.assertEqual((said.status, said.complaints), (0, told))
        said = command("plot", "-", "--rhs", "fat", "--from", "9", "-o", "-", stdin=text.encode())
        self.assertEqual((said.status, said.complaints), (2, "lpd: at 9 the answer is INFEASIBLE: choose other ends by --from and --to\n"))

    def test_what_cannot_be_shown(self) -> None:
        cases = {
            "--rhs none": "the model has no row none",
            "--cost energy": "the model has no column energy",
            "--rhs energy --from 9 --to 1": "from 9 to 1 there is nothing to be shown",
            "--rhs energy --to 9999": "at 9999 the answer is INFEASIBLE: choose other ends",
            "--from 1": "name it by --rhs ROW or --cost COLUMN",
        }
        for words, expected in cases.items():
            said = command("plot", DIET, *words.split())
            self.assertEqual((said.status, said.output), (2, ""))
            self.assertIn(expected, said.complaints)
