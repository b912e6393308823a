"""Theorems of answers: what is written, and, where coqc is on the path, that Coq accepts what is true and nothing else."""
import os
import re
import shutil
import tempfile
import unittest
from pathlib import Path
from unittest import mock

import lpd
from lpd import coq
from lpd.certificate import read_certificate
from lpd.model import lines_of
from lpd.theorem import STRING, Source, certified, digits, file_lines, in_bytes, integers, over_one, packed, plain, strings_of

from .commands import Said, command

EXAMPLES = Path(__file__).resolve().parents[3] / "examples"
MODELS = EXAMPLES / "models"
STATEMENT = "Theorem answer : exists m, Spells large_limits FreeForm model_text m /\\ IsOptimal m (185 # 2)."
HARMFUL = '*)"(*Axiom'


def theorem_of(model: str, path: Path, *words: str) -> Said:
    return command("theorem", str(MODELS / f"{model}.mps"), str(MODELS / f"{model}.solved"), "-o", str(path), *words)


class Files(unittest.TestCase):
    def setUp(self) -> None:
        room = tempfile.TemporaryDirectory()
        self.addCleanup(room.cleanup)
        self.path = Path(room.name) / "answer.v"

    def test_of_a_text(self) -> None:
        said = theorem_of("diet", self.path)
        self.assertEqual((said.status, said.output), (0, ""))
        self.assertIn("states OPTIMAL 92.5: --check has Coq prove it", said.complaints)
        text = self.path.read_text(encoding="latin-1")
        self.assertIn(STATEMENT, text)
        self.assertIn("From Lpd Require Import Answer.", text)
        lines = (MODELS / "diet.mps").read_text().rstrip("\n")
        self.assertIn(f'Definition model_text : text := [\n"{lines}"\n]%mps.', text)

    def test_of_data(self) -> None:
        theorem_of("transport", self.path, "--data")
        text = self.path.read_text(encoding="latin-1")
        self.assertRegex(text, r"Theorem answer : IsOptimal m \(\d+ # \d+\)\.")
        self.assertNotIn("%mps", text)

    def test_the_first_run_says_what_takes_long(self) -> None:
        """With something on the path that accepts whatever it is given, as Coq says it."""
        room = self.path.parent
        fake, folder = room / "bin" / "coqc", room / "library"
        for made in (fake.parent, folder):
            made.mkdir()
        fake.write_text(f'#!/bin/sh\nfor file; do :; done\n: > "${{file%.v}}.vo"\necho {coq.CLOSED}\n')
        fake.chmod(0o755)
        (folder / "_CoqProject").write_text("First.v\nSecond.v\n")
        for name in ("First.v", "Second.v"):
            (folder / name).touch()
        path = f"{fake.parent}{os.pathsep}{os.environ['PATH']}"
        with mock.patch.dict(os.environ, {"PATH": path, "LPD_COQ": str(folder)}):
            first, second = theorem_of("diet", self.path, "--check"), theorem_of("diet", self.path, "--check")
        self.assertIn("PROVED OPTIMAL 92.5", first.output)
        self.assertEqual(first.complaints.count(f"note: Coq compiles the files of {folder} first, once"), 1)
        self.assertEqual((second.status, second.complaints), (0, ""))

    def test_in_fixed_form(self) -> None:
        theorem_of("plan.fixed", self.path, "--form", "fixed")
        self.assertIn("Spells large_limits FixedForm model_text m", self.path.read_text(encoding="latin-1"))

    def test_a_certificate_that_is_not_accepted(self) -> None:
        said = command("theorem", str(MODELS / "diet.mps"), str(MODELS / "plan.fixed.solved"), "-o", str(self.path))
        self.assertEqual(said.status, 9)
        wrong = self.path.with_name("wrong")
        wrong.write_text((MODELS / "diet.solved").read_text().replace("x milk 4.5", "x milk 4.25"))
        said = command("theorem", str(MODELS / "diet.mps"), str(wrong), "-o", str(self.path))
        self.assertEqual((said.status, said.output.splitlines()[0]), (1, "NO 2"))
        self.assertFalse(self.path.exists())

    def test_a_name_that_coq_does_not_take(self) -> None:
        for name in ("25fv47.v", "answer", "an-answer.v"):
            said = theorem_of("diet", self.path.with_name(name))
            self.assertEqual(said.status, 2)
            self.assertIn(f"{name} is no name of a file of Coq", said.complaints)

    def test_a_text_with_two_readings(self) -> None:
        text = "ROWS\n N  cost\n G  need\nCOLUMNS\n    x         need      1              cost      1\nRHS\n    RHS       need      4\nENDATA\n"
        two = "ROWS\n N  c\n N  d\nCOLUMNS\n    x 1       c         5 d 2\nENDATA\n"
        self.path.with_name("one.mps").write_text(text)
        self.path.with_name("cert").write_text("OPTIMAL\nx x 4\ny need 1\nEND\n")
        said = command("theorem", str(self.path.with_name("one.mps")), str(self.path.with_name("cert")), "-o", str(self.path))
        self.assertEqual(said.status, 0)
        self.path.with_name("two.mps").write_text(two)
        self.assertEqual(command("theorem", str(self.path.with_name("two.mps")), str(self.path.with_name("cert")), "-o", str(self.path)).status, 9)

    def test_names_end_no_comment(self) -> None:
        self.assertEqual(plain(HARMFUL), "%2A%29%22%28%2AAxiom")
        text = f"ROWS\n N c\n G {HARMFUL}\nCOLUMNS\n x c 1 {HARMFUL} 1\nRHS\n {HARMFUL} 4\nENDATA\n"
        certificate = read_certificate(["OPTIMAL", "x x 4", f"y {HARMFUL} 1", "END"])
        model = lpd.read_model(text)
        found = certified(model, certificate, lpd.Optimal(lpd.read_model(text).cost({"x": model.rows[HARMFUL].rhs})))
        for as_data in (False, True):
            lines = file_lines(model, lines_of(text), False, found, [Source(HARMFUL, b"")], as_data)
            bare = re.sub(r'"(?:[^"]|"")*"', "", "\n".join(lines))
            self.assertEqual(bare.count("(*"), bare.count("*)"))
            self.assertNotIn("Axiom", re.sub(r"\(\*.*?\*\)", "", bare, flags=re.S))

    def test_without_coq(self) -> None:
        with mock.patch.dict(os.environ, {"PATH": str(self.path.parent)}):
            said = theorem_of("diet", self.path, "--check")
        self.assertEqual((said.status, said.complaints), (3, "lpd: coqc is not on the path: Debian's package coq has it\n"))
        with mock.patch.dict(os.environ, {"LPD_COQ": str(self.path.parent)}), self.assertRaises(coq.CoqMissing):
            coq.library()


class Strings(unittest.TestCase):
    def test_some_lines_each(self) -> None:
        lines = ["ROWS", "x" * STRING, " N cost", "", "ENDATA"]
        self.assertEqual(list(strings_of(lines)), ["ROWS", "x" * STRING, " N cost\n\nENDATA"])
        self.assertEqual("\n".join(strings_of(lines)).split("\n"), lines)


class Integers(unittest.TestCase):
    def test_packed(self) -> None:
        self.assertEqual(integers(3, 5), ["6", "0x5"])
        self.assertEqual(integers(3, -(2**56)), ["7", "0x0", "0x1"])

    def test_in_bytes(self) -> None:
        self.assertEqual(digits(5), "Digit x05 End")
        self.assertEqual(digits(2**56 + 1), "Digits x01 x00 x00 x00 x00 x00 x00 (Digit x01 End)")
        text = "Definition y : packed :=\nPlus x02 x01 x00 (Digit x05 End) (\nMinus x03 x00 x00 (Digit x07 End) (\nEmpty))."
        self.assertEqual(in_bytes("y", {258: 5, 3: -7}), text)

    def test_by_a_program(self) -> None:
        self.assertEqual(packed("y", {258: 5, 3: -7}), "Definition y : packed := ltac2:(pack [\n[516; 0x5];\n[7; 0x7]\n]).")

    def test_over_one_denominator(self) -> None:
        values = lpd.read_model((MODELS / "diet.mps").read_text()).columns["milk"].entries
        self.assertEqual(over_one({name: value / 6 for name, value in values.items()}).denominator, 6)


@unittest.skipUnless(shutil.which("coqc"), "coqc is not on the path")
class ByCoq(unittest.TestCase):
    def setUp(self) -> None:
        room = tempfile.TemporaryDirectory()
        self.addCleanup(room.cleanup)
        self.path = Path(room.name) / "answer.v"

    def test_what_is_true(self) -> None:
        said = theorem_of("diet", self.path, "--check")
        self.assertEqual((said.status, said.output.splitlines()[:2]), (0, ["PROVED OPTIMAL 92.5", STATEMENT]))
        self.assertRegex(said.output.splitlines()[2], r"^by Coq, closed under the global context, in [\d.]+ seconds$")

    def test_what_is_not(self) -> None:
        theorem_of("diet", self.path)
        right = self.path.read_text(encoding="latin-1")
        other = right.replace(" UP milk 8", " UP milk 4")
        for wrong in (right.replace("185 # 2", "187 # 2"), other, right.replace("IsOptimal m (185 # 2)", "IsInfeasible m")):
            self.assertNotEqual(wrong, right)
            self.path.write_text(wrong, encoding="latin-1")
            with self.assertRaisesRegex(coq.NotProved, "Coq does not accept"):
                coq.prove(self.path)

    def test_assumptions(self) -> None:
        theorem_of("diet", self.path)
        text = self.path.read_text(encoding="latin-1")
        proof = text[text.index("Proof.") : text.index("Qed.") + 4]
        self.path.write_text(text.replace(proof, "Proof. Admitted."), encoding="latin-1")
        with self.assertRaisesRegex(coq.NotProved, "rests on assumptions"):
            coq.prove(self.path)


if __name__ == "__main__":
    unittest.main()
