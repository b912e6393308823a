"""Texts of other dialects, which solve and check read by themselves."""
import tempfile
import unittest
from pathlib import Path

from .commands import command
from .models import has_program

DIET = Path(__file__).resolve().parents[3] / "examples" / "models" / "diet.mps"
NOTE = "note: the text is of another dialect of MPS, and was converted, with 1 change, which the command convert lists\n"


@unittest.skipUnless(has_program(), "the program is not built")
class ByItself(unittest.TestCase):
    def test_solve_and_check(self) -> None:
        with tempfile.TemporaryDirectory() as folder:
            model, answer = f"{folder}/diet.mps", f"{folder}/answer"
            Path(model).write_text(DIET.read_text().replace("ROWS\n", "rows\n", 1))
            said = command("solve", model, "-o", answer)
            self.assertEqual((said.status, said.output.splitlines()[0]), (0, "OPTIMAL 92.5"))
            self.assertTrue(said.complaints.startswith(NOTE))
            said = command("check", model, answer)
            self.assertEqual(said, (0, "YES OPTIMAL 92.5\n", NOTE))
            self.assertEqual(command("check", f"{answer}.mps", answer), (0, "YES OPTIMAL 92.5\n", ""))

    def test_cards_of_more_pairs(self) -> None:
        """They are parted where the column, or the set, stands in front."""
        text = "ROWS\n N c\n G a\n G b\n G d\nCOLUMNS\n x c 1 a 2 b 3 d 4\nRHS\n RHS a 2 b 9 d 1\nENDATA\n"
        said = command("solve", "-", stdin=text.encode())
        self.assertEqual((said.status, said.output.splitlines()[0]), (0, "OPTIMAL 3"))
        self.assertIn("with 2 changes, which the command convert lists\n", said.complaints)
        listed = command("convert", "-", stdin=text.encode())
        self.assertEqual(listed.complaints, "line 7: a card with 4 pairs is parted\nline 9: a card with 3 pairs is parted\n")
        self.assertIn("\n x c 1 a 2\n x b 3 d 4\n", listed.output)
        said = command("solve", "-", stdin=text.replace(" RHS a 2 b 9", " a 2 b 9").encode())
        self.assertEqual((said.status, said.complaints.splitlines()[0]), (9, "ERR 8 MPS 7 M3"))

    def test_what_is_in_no_dialect(self) -> None:
        said = command("solve", "-", stdin=b"ROWS\n N c\nCOLUMNS\n x c one\nENDATA\n")
        self.assertEqual((said.status, said.complaints.splitlines()[0]), (9, "ERR 8 MPS 4 M9"))
        self.assertNotIn("dialect", said.complaints)
        said = command("solve", "-", stdin=b"ROWS\n N c\nSOS1\n")
        self.assertEqual((said.status, said.complaints), (9, "lpd: line 3: SOS1: special ordered sets, which lpd has not\n"))
