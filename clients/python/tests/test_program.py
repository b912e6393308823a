"""Sessions and the command over the program itself, where it is built."""
import json
import os
import subprocess
import sys
import tempfile
import unittest
from fractions import Fraction
from pathlib import Path
from unittest import mock

import lpd
from lpd.program import find_program

from .commands import command

MODELS = Path(__file__).resolve().parents[3] / "examples" / "models"

try:
    PROGRAM = find_program()
except lpd.ProgramMissing:
    PROGRAM = ""


class AnotherProgram(unittest.TestCase):
    """What $LPD names and is not lpd is told within seconds."""

    def told(self, text: str, seconds: float = 200) -> str:
        with tempfile.TemporaryDirectory() as folder:
            path = Path(folder) / "other"
            path.write_text(f"#!/bin/sh\n{text}\n")
            path.chmod(0o755)
            code = "import sys, lpd.program as p; from lpd.__main__ import main; p.SECONDS = float(sys.argv[1]); sys.exit(main(sys.argv[2:]))"
            words = [sys.executable, "-c", code, str(seconds), "solve", str(MODELS / "diet.mps")]
            said = subprocess.run(words, env={**os.environ, "LPD": str(path)}, capture_output=True, text=True, timeout=300)
            self.assertEqual((said.returncode, said.stdout), (3, ""), said.stderr)
            self.assertIn("not lpd", said.stderr)
            return said.stderr

    def test_one_that_writes_without_end(self) -> None:
        self.assertIn("it replies 'run", self.told("exec yes run"))

    def test_one_that_repeats(self) -> None:
        self.assertIn("it replies '1 QUIT", self.told("exec cat"))

    def test_one_that_is_silent(self) -> None:
        self.assertIn("it does not reply", self.told("exec sleep 100", 1))

    def test_one_that_fails(self) -> None:
        self.assertIn("it replies ''", self.told("exit 1"))

    def test_a_session_that_is_left_in_mid_answer(self) -> None:
        program = lpd.Program(str(Path(__file__).with_name("busy.sh")))
        program.send(b"1 SOLVE\n")
        with mock.patch("lpd.program.SECONDS", 0.2):
            program.close()
        self.assertIsNotNone(program.process.returncode)


@unittest.skipUnless(PROGRAM, "the program is not built")
class WithTheProgram(unittest.TestCase):
    def test_each_command(self) -> None:
        with lpd.Program() as program, lpd.Session(program) as session, lpd.Session(program) as other:
            self.assertEqual(session.load((MODELS / "diet.mps").read_text()), lpd.Loaded(3, 6))
            self.assertEqual(session.solve(), lpd.Optimal(Fraction(185, 2)))
            certificate = session.certificate()
            self.assertEqual(session.check(certificate), lpd.Accepted(lpd.Optimal(Fraction(185, 2))))
            self.assertEqual(str(lpd.check(session.write(), "\n".join(certificate) + "\n")), "YES OPTIMAL 92.5")
            session.add_row("vitamins", "G", "0.5", 2)
            session.add_column("bread", 2, {"vitamins": 1, "energy": Fraction(1, 3)})
            session.set_coefficient("vitamins", "milk", "1/4")
            session.set_cost("bread", 3)
            session.set_rhs("energy", 1900)
            session.set_range("protein", 100)
            session.set_range("protein", None)
            session.set_bounds("bread", 0, 5)
            session.delete_column("pork")
            session.delete_row("calcium")
            session.set_sense(maximize=True)
            session.budget(1)
            self.assertIsInstance(session.solve(), lpd.Spent)
            session.budget(10000)
            self.assertIsInstance(session.solve(), lpd.Optimal)
            with self.assertRaises(lpd.NoModel):
                other.solve()
            with self.assertRaises(lpd.NameTaken):
                session.add_column("bread", 1)

    def test_sixty_four_sessions(self) -> None:
        with lpd.Program() as program:
            sessions = [lpd.Session(program) for _ in range(64)]
            with self.assertRaises(ValueError):
                lpd.Session(program)
            sessions[7].close()
            self.assertEqual(lpd.Session(program).front, ["8"])

    def test_a_script(self) -> None:
        self.assertEqual(lpd.run("1 SOLVE\n"), "1 ERR 4 NOMODEL\n")
        with self.assertRaises(lpd.ProgramEnded) as raised:
            lpd.run("1 CHECK\nOPTIMAL\n")
        self.assertEqual(raised.exception.status, 6)

    def test_the_command_solve(self) -> None:
        for name, expected in {"diet": 0, "orders": 10, "currency": 11}.items():
            self.assertEqual(command("solve", str(MODELS / f"{name}.mps"))[0], expected)
        status, output, _ = command("solve", str(MODELS / "diet.mps"), "--json", "--max")
        self.assertEqual((status, json.loads(output)["value"]), (0, "260"))
        status, output, _ = command("solve", str(MODELS / "diet.mps"), "--budget", "1")
        self.assertEqual((status, output.splitlines()[0]), (13, "SPENT 1"))
        status, _, complaints = command("solve", str(MODELS / "diet.solved"))
        self.assertEqual((status, complaints.splitlines()[0]), (9, "ERR 8 MPS 1 M2"))

    def test_the_command_check(self) -> None:
        example = MODELS.parent / "optimal.mps"
        self.assertEqual(command("check", str(example))[:2], (0, "YES OPTIMAL 4\n"))
        self.assertEqual(command("check", str(example), "--claim", "4.5")[0], 1)
        self.assertEqual(command("check", str(MODELS.parent / "no-contradiction.mps"))[0], 1)
