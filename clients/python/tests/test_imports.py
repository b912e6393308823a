"""What a command imports: no more than it uses, so that nobody waits for the rest."""
import subprocess
import sys
import unittest
from pathlib import Path
from typing import Set

import lpd
from lpd.floating import SOLVERS
from lpd.solver_names import NAMES

from .models import has_program

PACKAGE = Path(__file__).resolve().parents[1]
EXAMPLES = PACKAGE.parents[1] / "examples"
SCRIPT = "import sys; from lpd.__main__ import main; main(sys.argv[1:]); print('modules', *sys.modules)"
# What takes long: encryption and other protocols, processes, and what is for pictures and for other commands.
SLOW = {"ssl", "http.client", "xml.sax", "multiprocessing", "concurrent.futures", "importlib.metadata", "difflib", "dataclasses", "inspect"}
OTHERS = {"lpd.batching", "lpd.plotting", "lpd.svg", "lpd.tables"}
# What the first way to an answer does without.
LATER = {"lpd.remedy", "lpd.ranging", "lpd.rough", "lpd.floating", "lpd.certifying", "lpd.conversion", "lpd.lp_reader", "lpd.link", "socket", "gzip"}


def imported(*words: str) -> Set[str]:
    line = [sys.executable, "-S", "-c", SCRIPT, *words]  # without what packages of others import as Python starts
    done = subprocess.run(line, cwd=PACKAGE, capture_output=True, text=True, timeout=300)
    return set(done.stdout.splitlines()[-1].split()[1:])


class Imports(unittest.TestCase):
    def test_check(self) -> None:
        found = imported("check", str(EXAMPLES / "optimal.mps"))
        self.assertIn("lpd.certificate", found)
        self.assertEqual(found & (SLOW | OTHERS | {"lpd.ways", "lpd.floating"}), set())

    @unittest.skipUnless(has_program(), "the program is not built")
    def test_solve(self) -> None:
        found = imported("solve", str(EXAMPLES / "models" / "diet.mps"))
        self.assertIn("lpd.ways", found)
        self.assertEqual(found & (SLOW | OTHERS | LATER), set())

    def test_names_of_solvers(self) -> None:
        self.assertEqual(list(SOLVERS), list(NAMES))

    def test_names_of_the_package(self) -> None:
        for name in lpd.__all__:
            self.assertIsNotNone(getattr(lpd, name))
        self.assertLessEqual(set(lpd.__all__), set(dir(lpd)))
        self.assertTrue(callable(lpd.report))
        with self.assertRaises(AttributeError):
            lpd.nothing  # type: ignore[attr-defined]
