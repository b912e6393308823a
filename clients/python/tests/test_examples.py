"""The examples in Python print what is stored beside them."""
import importlib.util
import subprocess
import sys
import tempfile
import unittest
from pathlib import Path

from .models import has_program

EXAMPLES = Path(__file__).resolve().parents[3] / "examples" / "python"


@unittest.skipUnless(has_program(), "the program is not built")
class Examples(unittest.TestCase):
    def prints(self, name: str, *words: str) -> None:
        command = [sys.executable, str(EXAMPLES / f"{name}.py"), *words]
        done = subprocess.run(command, capture_output=True, text=True, timeout=600)
        self.assertEqual((done.returncode, done.stdout), (0, (EXAMPLES / f"{name}.out").read_text()), done.stderr)

    def test_transportation(self) -> None:
        self.prints("transportation")

    def test_table(self) -> None:
        self.prints("table")

    def test_infeasible(self) -> None:
        self.prints("infeasible")

    @unittest.skipUnless(importlib.util.find_spec("pulp"), "python3-pulp is not installed")
    def test_whiskas(self) -> None:
        self.prints("whiskas")

    def test_the_optimum_over_demand(self) -> None:
        with tempfile.TemporaryDirectory() as folder:
            picture = Path(folder) / "picture.svg"
            self.prints("optimum_over_demand", str(picture), "--by-hand")
            self.assertEqual(picture.read_text(), (EXAMPLES / "optimum_over_demand.svg").read_text())

    @unittest.skipUnless(importlib.util.find_spec("matplotlib"), "matplotlib is not installed")
    def test_the_picture_by_matplotlib(self) -> None:
        with tempfile.TemporaryDirectory() as folder:
            picture = Path(folder) / "picture.png"
            self.prints("optimum_over_demand", str(picture))
            self.assertEqual(picture.read_bytes()[1:4], b"PNG")
