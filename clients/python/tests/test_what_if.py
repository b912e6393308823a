"""Other numbers than those of the text, by words of the command solve."""
import csv
import io
import json
import tempfile
import unittest
from fractions import Fraction
from pathlib import Path
from typing import List

import lpd
from lpd.conversion import convert
from lpd.what_if import NoChange, changed

from .commands import Said, command, unwrapped
from .models import has_program

DIET = str(Path(__file__).resolve().parents[3] / "examples" / "models" / "diet.mps")
NAMES = "ROWS\n N c\n G a:b\n G a=1\nCOLUMNS\n x:y c 1 a:b 1\n x:y a=1 2\nRHS\n a:b 3\nENDATA\n"


class Words(unittest.TestCase):
    def test_each_number(self) -> None:
        model = lpd.read_model(Path(DIET).read_text())
        words = [("rhs", "energy=2100"), ("cost", "pie=1/3"), ("bound", "eggs=-inf:2"), ("coef", "protein:milk=0"), ("rhs", f"{model.objective}=7")]
        found = changed(model, words)
        self.assertEqual((found.model.rows["energy"].rhs, found.model.columns["pie"].cost, found.model.offset), (2100, Fraction(1, 3), -7))
        self.assertEqual((found.model.columns["eggs"].limits(), found.model.columns["milk"].entries.get("protein")), ((None, 2), None))
        self.assertEqual(found.changes[3], "coefficient of milk in protein 8 to 0")
        self.assertEqual(model, lpd.read_model(Path(DIET).read_text()))

    def test_names_with_signs(self) -> None:
        model = lpd.read_model(NAMES)
        found = changed(model, [("coef", "a:b:x:y=5"), ("coef", "a=1:x:y=6"), ("rhs", "a=1=4"), ("bound", "x:y=1:2")]).model
        self.assertEqual((found.columns["x:y"].entries, found.rows["a=1"].rhs, found.columns["x:y"].limits()), ({"a:b": 5, "a=1": 6}, 4, (1, 2)))

    def test_names_before_a_conversion(self) -> None:
        text = NAMES.replace("x:y c", "xü c").replace("x:y a", "xü a").replace(" a:b", " a:ö")
        converted = convert(text.encode())
        words = [("rhs", "a:ö=4"), ("cost", "xü=5"), ("bound", "xü=1:2"), ("coef", "a:ö:xü=6"), ("coef", "a=1:xü=7"), ("rhs", "a=1=8")]
        found = changed(converted.model, words, converted.names).model
        column = found.columns["xu"]
        self.assertEqual((column.cost, column.limits(), column.entries), (5, (1, 2), {"a:o": 6, "a=1": 7}))
        self.assertEqual([row.rhs for row in found.rows.values()], [4, 8])
        with self.assertRaises(lpd.Refused):
            changed(converted.model, [("rhs", "a:ä=4")], converted.names)

    def test_what_is_no_change(self) -> None:
        model = lpd.read_model(NAMES)
        for what, word in (("rhs", "a:b"), ("rhs", "a:b=two"), ("rhs", "=2"), ("cost", "x:y="), ("bound", "x:y=3"), ("bound", "x:y=a:b"), ("coef", "ab=2")):
            with self.assertRaisesRegex(NoChange, "is no change: give it as "):
                changed(model, [(what, word)])
        for what, word in (("rhs", "b=1"), ("cost", "y=1"), ("coef", "c:x:y=1"), ("coef", "a:b:z=1")):
            with self.assertRaises(lpd.UnknownName):
                changed(model, [(what, word)])


@unittest.skipUnless(has_program(), "the program is not built")
class Solved(unittest.TestCase):
    def solve(self, *words: str) -> Said:
        return command("solve", DIET, *words)

    def test_the_difference(self) -> None:
        said = self.solve("--set-rhs", "energy=2100")
        told = "Changed: right side of energy 2000 to 2100. Without that the answer is OPTIMAL 92.5, so it is worth 5.625 more.\n"
        self.assertEqual((said.status, said.output.splitlines()[0]), (0, "OPTIMAL 98.125"))
        self.assertIn(told, unwrapped(said.output))
        self.assertRegex(said.output, r"\nenergy +=2100 +=2000 ")
        self.assertEqual(self.solve("--set-cost", "pie=0", "--set-cost", "pie=20", "--set-rhs", "energy=2000").output.splitlines()[0], "OPTIMAL 92.5")

    def test_other_answers(self) -> None:
        said = self.solve("--set-rhs", "energy=9999")
        self.assertEqual((said.status, said.output.splitlines()[0]), (10, "INFEASIBLE"))
        self.assertIn("Without that the answer is OPTIMAL 92.5.\n", unwrapped(said.output))

    def test_as_data(self) -> None:
        told = json.loads(self.solve("--set-rhs", "energy=2100", "--json").output)
        self.assertEqual((told["answer"], told["unchanged"]["answer"], told["unchanged"]["difference"]), ("OPTIMAL 98.125", "OPTIMAL 92.5", "5.625"))
        self.assertEqual(told["unchanged"]["changes"], ["right side of energy 2000 to 2100"])
        lines: List[List[str]] = list(csv.reader(io.StringIO(self.solve("--set-rhs", "energy=2100", "--csv").output)))
        self.assertEqual([line[:3] for line in lines[1:4]], [["answer", "OPTIMAL", "98.125"], ["unchanged", "OPTIMAL", "92.5"], ["difference", "", "5.625"]])

    def test_its_certificate(self) -> None:
        with tempfile.TemporaryDirectory() as folder:
            self.assertEqual(self.solve("--set-rhs", "energy=2100", "-o", f"{folder}/answer").status, 0)
            self.assertEqual(command("check", f"{folder}/answer.mps", f"{folder}/answer")[:2], (0, "YES OPTIMAL 98.125\n"))

    def test_words_that_are_wrong(self) -> None:
        self.assertEqual(self.solve("--set-rhs", "energy")[:2], (2, ""))
        self.assertEqual(self.solve("--set-rhs", "energies=3")[:2], (9, ""))
