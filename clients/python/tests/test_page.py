"""A page with a result in it: the repository's page, changed in the one line that holds the result."""
import base64
import difflib
import json
import re
import tempfile
import unittest
from pathlib import Path

import lpd
from lpd.page import page, page_with

from .commands import command
from .models import has_program

EXAMPLES = Path(__file__).resolve().parents[3] / "examples"


def given_in(text: str) -> "dict[str, str]":
    """What a page is given."""
    found = re.findall(r'<script type="application/json" id="given">(.*)</script>', text)
    given: "dict[str, str]" = json.loads(found[0])
    return given


class Pages(unittest.TestCase):
    def test_texts_come_back(self) -> None:
        model, certificate = bytes(range(256)), b"OPTIMAL\nEND\n"
        made = page_with(model, certificate, fixed=True, claim="</script><script>")
        given = given_in(made)
        self.assertEqual(base64.b64decode(given["model"]), model)
        self.assertEqual(base64.b64decode(given["certificate"]), certificate)
        self.assertEqual((given["form"], given["claim"]), ("fixed", "</script><script>"))
        changes = [line for line in difflib.ndiff(page().splitlines(), made.splitlines()) if line[0] in "+-"]
        self.assertEqual([line[0] for line in changes], ["-", "+"])

    @unittest.skipUnless(has_program(), "the program is not built")
    def test_solve_writes_a_page(self) -> None:
        with tempfile.TemporaryDirectory() as folder:
            path = Path(folder) / "out.html"
            said = command("solve", str(EXAMPLES / "models" / "diet.mps"), "--page", str(path))
            self.assertEqual(said.status, 0, said.complaints)
            given = given_in(path.read_text())
        model, certificate = (base64.b64decode(given[name]).decode() for name in ("model", "certificate"))
        self.assertEqual(str(lpd.check(model, certificate)), "YES OPTIMAL 92.5")
        self.assertEqual((given["form"], given["claim"]), ("free", "OPTIMAL 92.5"))

    @unittest.skipUnless(has_program(), "the program is not built")
    def test_a_page_past_127_bits(self) -> None:
        text = f"* seen\nROWS\n N cost\n G need\nCOLUMNS\n x cost 1 need 3\nRHS\n RHS need {10**50}\nENDATA\n"
        with tempfile.TemporaryDirectory() as folder:
            path = Path(folder) / "out.html"
            said = command("solve", "-", "--with", "none", "--page", str(path), stdin=text.encode())
            self.assertEqual(said.status, 14, said.complaints)
            given = given_in(path.read_text())
        model, certificate = (base64.b64decode(given[name]).decode() for name in ("model", "certificate"))
        self.assertEqual((model, given["claim"]), (text, f"OPTIMAL {10**50}/3"))
        self.assertEqual(str(lpd.check(model, certificate, wide=True)), f"YES OPTIMAL {10**50}/3")

    @unittest.skipUnless(has_program(), "the program is not built")
    def test_a_page_of_another_sense(self) -> None:
        with tempfile.TemporaryDirectory() as folder:
            path = Path(folder) / "out.html"
            said = command("solve", str(EXAMPLES / "models" / "diet.mps"), "--max", "--page", str(path))
            self.assertEqual(said.status, 0, said.complaints)
            given = given_in(path.read_text())
        model, certificate = (base64.b64decode(given[name]).decode() for name in ("model", "certificate"))
        self.assertEqual(str(lpd.check(model, certificate)), f"YES {given['claim']}")
        self.assertNotEqual(given["claim"], "OPTIMAL 92.5")

    @unittest.skipUnless(has_program(), "the program is not built")
    def test_no_page_without_a_certificate(self) -> None:
        with tempfile.TemporaryDirectory() as folder:
            path = Path(folder) / "out.html"
            said = command("solve", str(EXAMPLES / "models" / "diet.mps"), "--budget", "1", "--page", str(path))
            self.assertNotEqual(said.status, 0)
            self.assertIn("SPENT 1 has no certificate", said.complaints)
            self.assertFalse(path.exists())
