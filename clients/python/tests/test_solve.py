"""The command solve: what it shows and in which style, what was not read, and how it goes on where lpd has no answer."""
import csv
import gzip
import io
import json
import os
import shutil
import signal
import subprocess
import sys
import tempfile
import unittest
from fractions import Fraction
from pathlib import Path
from unittest import mock

import lpd
from lpd.certifying import NotAnswered
from lpd.version import version
from lpd.ways import ALONE, BOTH

from .commands import command, reported, unwrapped
from .models import has_program, the_basis

PACKAGE = Path(__file__).resolve().parents[1]
MODELS = PACKAGE.parents[1] / "examples" / "models"
DIET = str(MODELS / "diet.mps")
PAST = lpd.Answered(lpd.Past("ADD", Fraction(1), Fraction(2)), [], "lpd solve")
WIDE = f"ROWS\n N cost\n G need\nCOLUMNS\n x cost 1 need 3\nRHS\n RHS need {10**50}\nENDATA\n"
THIRD = "ROWS\n N cost\n G need\nCOLUMNS\n x cost 1 need 3\nRHS\n RHS need 1\nENDATA\n"
# As glpsol takes it, x is at least 3 and costs 2: one right side has a set, the other none.
SETS = "NAME\nROWS\n N cost\n G a\n G b\nCOLUMNS\n x cost 2 a 1\n x b 1\nRHS\n RHS1 a 3\n b 11\nENDATA\n"


class Words(unittest.TestCase):
    def test_numbers_that_are_none(self) -> None:
        for words in (["--decimals", "-2"], ["--decimals", "two"], ["--seconds", "0"], ["--seconds", "nan"], ["--budget", "0"]):
            with self.subTest(words):
                said = command("solve", DIET, *words)
                self.assertEqual((said.status, said.output), (2, ""))
                self.assertIn(f"{words[1]} is no", said.complaints)

    def test_an_interrupt(self) -> None:
        for name in ("convert", "certify"):
            with mock.patch(f"lpd.commands.{name}.{name}", side_effect=KeyboardInterrupt):
                self.assertEqual(command(name, DIET), (130, "", "lpd: interrupted\n"))

    @unittest.skipUnless(hasattr(sys, "orig_argv"), "this Python does not say what it was told to run")
    def test_an_interrupt_while_python_imports(self) -> None:
        """Modules that the package and its command import, in whose place others stand here that wait to be interrupted."""
        # What a script begins in its background, and what that begins, ignores interrupts: a run of these tests does not.
        self.addCleanup(signal.signal, signal.SIGINT, signal.signal(signal.SIGINT, signal.default_int_handler))
        for module in ("fractions", "argparse"):
            with self.subTest(module), tempfile.TemporaryDirectory() as folder:
                (Path(folder) / f"{module}.py").write_text("import time\nprint('waits', flush=True)\ntime.sleep(300)\n")
                line, path = [sys.executable, "-m", "lpd", "--version"], f"{folder}:{PACKAGE}"
                with subprocess.Popen(line, env={**os.environ, "PYTHONPATH": path}, stdout=subprocess.PIPE, stderr=subprocess.PIPE, text=True) as run:
                    self.assertEqual(run.stdout and run.stdout.readline(), "waits\n")
                    run.send_signal(signal.SIGINT)
                    self.assertEqual(run.communicate(), ("", "lpd: interrupted\n"))
                self.assertEqual(run.returncode, 130)

    def test_words_that_were_likely_meant(self) -> None:
        cases = {"solv": "did you mean solve?", "solve x --jsno": "did you mean --json?", "convert x --to glpslo": "did you mean glpsol?"}
        for words, meant in cases.items():
            said = command(*words.split())
            self.assertEqual((said.status, said.output), (2, ""))
            self.assertIn(meant, said.complaints)
            self.assertIn("--help says which words there are", said.complaints)


@unittest.skipUnless(has_program(), "the program is not built")
class Shown(unittest.TestCase):
    def test_json(self) -> None:
        told = json.loads(command("solve", "-", "--json", stdin=THIRD.encode()).output)
        self.assertEqual((told["answer"], told["kind"], told["value"], told["decimals"]), ("OPTIMAL 1/3", "OPTIMAL", "1/3", {"value": 1 / 3}))
        self.assertEqual(told["columns"]["x"]["value"], "1/3")
        self.assertEqual(told["columns"]["x"]["decimals"], {"value": 1 / 3, "reduced_cost": 0.0})
        self.assertEqual(told["rows"]["need"]["price"], "1/3")
        self.assertEqual((told["way"], told["accepted_by"], told["cards_not_read"]), ("lpd solve --wide", BOTH, []))
        self.assertEqual(told["lpd"], version())
        told = json.loads(command("solve", "-", "--json", "--decimals", "2", stdin=THIRD.encode()).output)
        self.assertEqual(told["columns"]["x"]["decimals"], {"value": 0.33, "reduced_cost": 0.0})

    def test_json_of_parts(self) -> None:
        parts = {"answer": [], "point": ["columns"], "rows": ["rows"], "prices": ["columns", "rows"], "all": ["columns", "rows"]}
        for show, names in parts.items():
            told = json.loads(command("solve", DIET, "--json", "--show", show).output)
            self.assertEqual([name for name in ("columns", "rows") if name in told], names)
        told = json.loads(command("solve", DIET, "--json", "--show", "prices").output)
        self.assertEqual(list(told["rows"]["energy"]), ["price", "decimals"])

    def test_json_of_a_conflict(self) -> None:
        told = json.loads(command("solve", str(MODELS / "orders.mps"), "--json").output)["conflict"]
        self.assertEqual((told["asked"], told["allowed"]), ("3", "0"))
        self.assertEqual(told["rows"]["bolts"], {"multiplier": "2", "side": "lower", "limit": "11"})
        self.assertEqual(told["words"], "2 bolts + 3 screws ask for 43 at least, and capacity allows 40 at most.")

    def test_csv_of_parts_and_decimals(self) -> None:
        def lines(*words: str) -> "list[list[str]]":
            return list(csv.reader(io.StringIO(command("solve", "-", "--csv", *words, stdin=THIRD.encode()).output)))[1:]

        third = "0.333333"
        self.assertEqual(lines(), [["answer", "OPTIMAL", third, "", "", "~"], ["column", "x", third, "0", "", "~"], ["row", "need", "1", third, "0", "~"]])
        self.assertEqual(lines("--exact")[1:], [["column", "x", "1/3", "0", "", "="], ["row", "need", "1", "1/3", "0", "="]])
        self.assertEqual(lines("--decimals", "2")[1], ["column", "x", "0.33", "0.00", "", "~"])
        for line in lines():
            for cell in line[2:5]:
                self.assertEqual(cell and float(cell), float(cell or 0) if cell else "")
        self.assertEqual([line[0] for line in lines("--show", "point")], ["answer", "column"])
        self.assertEqual(lines("--show", "rows")[1], ["row", "need", "1", third, "0", "~"])
        self.assertEqual(lines("--show", "prices")[1:], [["column", "x", "", "0", "", "="], ["row", "need", "", third, "", "~"]])
        self.assertEqual(len(lines("--show", "answer")), 1)

    def test_numbers_that_can_be_read(self) -> None:
        """Six digits, a mark where that is not all, and fractions where they are asked for. No line is longer than 120 characters."""
        long = "x" * 64
        text = THIRD.replace(" x ", f" {long} ").replace("need", "n" * 64)
        for words in ([], ["--ranges"], ["--all", "--decimals", "3"]):
            said = command("solve", "-", *words, stdin=text.encode())
            self.assertEqual(said.status, 0)
            self.assertLessEqual(max(map(len, said.output.splitlines())), 120)
        said = command("solve", "-", stdin=THIRD.encode())
        self.assertEqual(said.output.splitlines()[:5], ["OPTIMAL ~0.333333", "", "column  value      reduced cost", "x       ~0.333333  =0", ""])
        self.assertEqual(said.output.splitlines()[6], "need  =1   =0     ~0.333333")
        said = command("solve", "-", "--exact", stdin=THIRD.encode())
        self.assertEqual((said.output.splitlines()[0], said.output.splitlines()[3]), ("OPTIMAL 1/3", "x       1/3    0"))

    def test_what_counts_first(self) -> None:
        """Columns that are not 0 and rows that bind; the others where they are asked for."""
        said = command("solve", DIET)
        self.assertIn("(3 columns that are 0 are left out: --all shows all)\n", said.output)
        self.assertIn("(2 rows that do not bind are left out: --all shows all)\n", said.output)
        self.assertNotIn("chicken", said.output)
        said = command("solve", DIET, "--all")
        self.assertIn("\nchicken  =0     =12.4688".replace("=12.4688", "~12.4688"), said.output)
        self.assertNotIn("left out", said.output)

    def test_unbounded(self) -> None:
        text = "OBJSENSE MAX\nROWS\n N gain\n L r\nCOLUMNS\n x gain 2 r 1\n y gain 1 r -3\nRHS\n r 4\nENDATA\n"
        said = command("solve", "-", stdin=text.encode())
        self.assertEqual(said.status, 11)
        self.assertRegex(unwrapped(said.output), r"\nFrom the point .* on, with each step .*y grows by \S+.*, and the objective grows by \S+, without end\.\n")

    def test_the_right_side_of_the_objective(self) -> None:
        said = command("solve", "-", stdin=THIRD.replace("RHS need 1", "RHS need 1 cost 7").encode())
        told = "The value has the offset -7, by the right side of the objective. Solvers differ there: without it it is ~0.333333, and with the "
        self.assertEqual(unwrapped(said.output).count(f"{told}other sign ~7.33333.\n"), 1)
        self.assertNotIn("offset", command("solve", "-", stdin=THIRD.encode()).output)
        with tempfile.TemporaryDirectory() as folder:
            path = Path(folder) / "some.lp"
            path.write_text("Minimize\n cost: 3 x + 7\nSubject To\n need: x >= 2\nEnd\n")  # of a constant no two solvers differ
            said = command("solve", str(path))
        self.assertEqual((said.output.splitlines()[0], "Solvers differ" in said.output), ("OPTIMAL 13", False))

    def test_cards_that_were_not_read_come_first(self) -> None:
        said = command("solve", "-", stdin=SETS.encode())
        self.assertEqual(said.output.splitlines()[:2], ["1 CARD OF OTHER SETS NOT READ: line 11 (docs/FORMATS.md)", "OPTIMAL 6"])
        self.assertEqual(json.loads(command("solve", "-", "--json", stdin=SETS.encode()).output)["cards_not_read"], [11])

    def test_the_answer_in_a_file(self) -> None:
        with tempfile.TemporaryDirectory() as folder:
            answer = f"{folder}/answer"
            for words in ([], ["--max"], ["--convert"]):
                self.assertEqual(command("solve", DIET, "-o", answer, *words).status, 0)
                model = f"{answer}.mps" if words == ["--max"] else DIET
                said = command("check", model, answer)
                self.assertEqual((said.status, said.output), (0, f"YES {Path(answer).read_text().splitlines()[0]}\n"))
            command("solve", DIET, "-o", answer)
            self.assertEqual(Path(answer).read_text(), (MODELS / "diet.solved").read_text())

    def test_a_text_that_was_converted(self) -> None:
        text = Path(DIET).read_text().replace(" eggs ", " œufs ").replace("ROWS\n", "rows\n")
        with tempfile.TemporaryDirectory() as folder:
            model, answer = f"{folder}/model.mps", f"{folder}/answer"
            Path(model).write_text(text, encoding="utf-8")
            for words in (["solve", model, "--convert"], ["certify", model, "--with", "none"]):
                said = command(*words, "-o", answer)
                self.assertEqual(said.status, 0, said.complaints)
                self.assertIn(f"{answer} is for the text {answer}.mps\n", said.complaints)
                for converted in ([f"{answer}.mps"], [model, "--convert"]):
                    self.assertEqual(command("check", converted[0], answer, *converted[1:])[:2], (0, "YES OPTIMAL 92.5\n"))
            behind = Path(model).read_bytes() + Path(answer).read_bytes()
            self.assertEqual(command("check", "-", "--convert", stdin=behind)[:2], (0, "YES OPTIMAL 92.5\n"))

    def test_a_compressed_text(self) -> None:
        with tempfile.TemporaryDirectory() as folder:
            path = Path(folder) / "diet.mps.gz"
            path.write_bytes(gzip.compress(Path(DIET).read_bytes()))
            self.assertEqual(command("solve", str(path), "--show", "answer")[:2], (0, reported("OPTIMAL 92.5\n")))
            path.write_bytes(path.read_bytes()[:-20])
            said = command("solve", str(path))
            self.assertEqual((said.status, said.output), (9, ""))
            self.assertIn("is no whole gzip file", said.complaints)

    def test_the_lp_format(self) -> None:
        text = "Maximize\n gain: 3 x + 0.1 y + 7 one\nSubject To\n c1: x + y <= 4\n c2: x - y >= -1\n c3: x + y >= 0.1\n"
        text += "Bounds\n x <= 2.5\n y free\n one = 1\nEnd\n"
        with tempfile.TemporaryDirectory() as folder:
            path = Path(folder) / "model.lp"
            path.write_text(text)
            self.assertEqual(command("solve", str(path), "--show", "answer")[:2], (0, reported("OPTIMAL 14.65\n")))
            path.write_text(text.replace("End", "Generals\n x\nEnd"))
            for words in ([], ["--convert"]):
                said = command("solve", str(path), *words)
                told = "lpd: whole-number columns (x): lpd solves linear programs. --relax solves without that.\n"
                self.assertEqual((said.status, said.complaints), (2, told))
            path.write_text("Maximize\n gain: 3 x +\nSubject To\n")
            self.assertIn("is in the LP format, and line 2: a column was expected at the end of a section", command("solve", str(path)).complaints)

    @unittest.skipUnless(shutil.which("glpsol"), "glpsol is not on the path")
    def test_mathprog(self) -> None:
        text = "var x >= 0, <= 3; var y >= 0; maximize z: 3*x + 2*y + 7; s.t. c1: x + y <= 4; s.t. c2: 1 <= x + 3*y <= 6; end;\n"
        with tempfile.TemporaryDirectory() as folder:
            path = Path(folder) / "model.mod"
            path.write_text(text)
            self.assertEqual(command("solve", str(path), "--show", "answer")[:2], (0, reported("OPTIMAL 18\n")))

    def test_mathprog_without_glpsol(self) -> None:
        with tempfile.TemporaryDirectory() as folder, mock.patch("shutil.which", return_value=None):
            (Path(folder) / "model.mod").write_text("end;\n")
            said = command("solve", f"{folder}/model.mod")
        self.assertEqual(said.status, 9)
        self.assertIn("is in GNU MathProg, which glpsol reads", said.complaints)

    def test_all_digits_of_the_lp_format(self) -> None:
        with tempfile.TemporaryDirectory() as folder:
            path = Path(folder) / "model.lp"
            path.write_text("Minimize\n c: 2 x + 2 y\nSubject To\n r: x + y >= 4.123456789012345678\nEnd\n")
            self.assertEqual(command("solve", str(path), "--exact").output.splitlines()[0], "OPTIMAL 8.246913578024691356")


@unittest.skipUnless(has_program(), "the program is not built")
class GoingOn(unittest.TestCase):
    """A model that lpd solve has no answer to, nor lpd presolve, nor lpd solve --wide."""

    def setUp(self) -> None:
        for name, option in (("presolve", "presolve"), ("solve_wide", "solve --wide")):
            without = mock.patch(f"lpd.ways.{name}", side_effect=lpd.CommandMissing(option))
            without.start()
            self.addCleanup(without.stop)

    def test_from_a_number_past_127_bits(self) -> None:
        said = command("solve", "-", "--with", "none", "--show", "answer", stdin=WIDE.encode())
        self.assertEqual(said.status, 14)
        self.assertEqual(said.output.splitlines()[0], "OPTIMAL ~3.33333e+49")
        self.assertIn(f"by exact steps in Python from a basis of its own, 0 of them, accepted by {ALONE}, since line 7 of the model has", unwrapped(said.output))
        self.assertEqual(command("solve", "-", "--only-lpd", stdin=WIDE.encode()).status, 9)

    def test_from_past(self) -> None:
        for solver, begin in (("none", "a basis of its own"), ("glpsol", "glpsol's basis")):
            if solver == "none" or shutil.which(solver):
                with mock.patch("lpd.ways.by_lpd", return_value=PAST), self.subTest(solver):
                    said = command("solve", DIET, "--with", solver)
                    self.assertEqual((said.status, said.output.splitlines()[0]), (0, "OPTIMAL 92.5"))
                    told = unwrapped(said.output).splitlines()[1]
                    self.assertIn(f"This answer is by {the_basis()} from {begin}, in 0 pivots, accepted by {BOTH}: its certificate", told)
                    self.assertIn("the first try, lpd solve, ran out of digits", said.complaints)

    def test_only_lpd(self) -> None:
        with mock.patch("lpd.ways.by_lpd", return_value=PAST):
            said = command("solve", DIET, "--only-lpd")
        self.assertEqual((said.status, said.output.splitlines()[0]), (12, "PAST ADD 1 2"))

    def test_a_budget_that_is_set_is_kept_to(self) -> None:
        self.assertEqual(command("solve", DIET, "--budget", "1").status, 13)
        spent = lpd.Answered(lpd.Spent(10000), [], "lpd solve")
        with mock.patch("lpd.ways.by_lpd", return_value=spent):
            self.assertEqual(command("solve", DIET, "--with", "none", "--show", "answer").output.splitlines()[0], "OPTIMAL 92.5")

    def test_the_time_is_kept_to(self) -> None:
        with mock.patch("lpd.ways.by_lpd", return_value=PAST), mock.patch("lpd.certifying.answered", side_effect=NotAnswered("PAST")):
            said = command("solve", DIET, "--with", "none", "--seconds", "1e-9")
        self.assertEqual((said.status, said.output.splitlines()[0]), (12, "PAST ADD 1 2"))
        self.assertIn("exact steps in Python were not enough in 1e-09 seconds: --seconds allows more", said.complaints)
        said = command("solve", "-", "--with", "none", "--seconds", "1e-9", stdin=WIDE.encode())
        self.assertEqual((said.status, said.output), (13, ""))

    def test_json_says_the_way(self) -> None:
        with mock.patch("lpd.ways.by_lpd", return_value=PAST):
            told = json.loads(command("solve", DIET, "--with", "none", "--json").output)
        self.assertTrue(told["way"].startswith(f"{the_basis()} from a basis of its own"))
        self.assertEqual((told["accepted_by"], told["notes"]), (BOTH, ["the first try, lpd solve, ran out of digits", "this program has no command solve --wide"]))
