"""Certificates whose numbers pass 127 bits: by whom they are accepted, with a program that has lpd check --wide and without; and
models that lpd solve --wide answers, and lpd basis --wide from another solver's basis."""
import contextlib
import csv
import io
import json
import os
import random
import tempfile
import unittest
from fractions import Fraction
from pathlib import Path
from typing import Iterator, List
from unittest import mock

import lpd
from lpd.certifying import BASIS_WIDE, certify
from lpd.floating import Claim
from lpd.from_basis import read_answer
from lpd.judging import judged
from lpd.once import has_command
from lpd.ways import ALONE, BOTH, WIDE, Effort, answered
from lpd.wide import read_wide_solved

from .commands import command, reported, unwrapped
from .models import has_program
from .standing_in import DOES_NOT_KNOW, program, program_with_wide

try:
    import pulp
except ImportError:
    pulp = None

# x is a third of the right side, and y 10^30 times that.
TEXT = "ROWS\n N cost\n E a\n E b\nCOLUMNS\n x a 3 b -1e30\n y cost 1 b 1\nRHS\n RHS a 1e30\nENDATA\n"
FIXED = """ROWS
 N  cost
 E  a
 E  b
COLUMNS
    x         a         3              b         -1e30
    y         cost      1              b         1
RHS
    RHS       a         1e30
ENDATA
"""
VALUE = f"1{'0' * 60}/3"
CERTIFICATE = ["OPTIMAL", f"x x 1{'0' * 30}/3", f"x y {VALUE}", f"y a 1{'0' * 30}/3", "y b 1", "END"]
OPTIMAL = f"OPTIMAL {VALUE}"
NO_COMMAND, NO_SOLVE = "this program has no command check --wide", "this program has no command solve --wide"
NO_SOLVE_ANSWER = f"lpd solve --wide has no answer: {NO_SOLVE}"
TOO_WIDE = "line 3 of the certificate has a number past 127 bits"


@unittest.skipUnless(has_program(), "the program is not built")
class Wide(unittest.TestCase):
    def test_verdicts(self) -> None:
        with program_with_wide():
            for text, is_fixed in ((TEXT, False), (FIXED, True)):
                self.assertEqual(lpd.check_wide(text, CERTIFICATE, is_fixed), lpd.Accepted(lpd.Optimal(Fraction(VALUE))))
            self.assertEqual(lpd.check_wide(TEXT, [*CERTIFICATE[:4], "y b 2", "END"]), lpd.Rejected(3))
            for line, fault in (("x x one", lpd.CertificateFault), ("x z 1", lpd.UnknownName)):
                with self.assertRaises(fault):
                    lpd.check_wide(TEXT, ["OPTIMAL", line, "END"])
            with self.assertRaises(lpd.TextFault):
                lpd.check_wide(TEXT.replace("RHS a 1e30", "RHS a 1e60"), CERTIFICATE)
        with program(DOES_NOT_KNOW), self.assertRaisesRegex(lpd.CommandMissing, f"^{NO_COMMAND}$"):
            lpd.check_wide(TEXT, CERTIFICATE)

    def test_check(self) -> None:
        with tempfile.TemporaryDirectory() as folder:
            certificate = Path(folder) / "certificate"

            def said(text: str, *words: str, lines: List[str] = CERTIFICATE) -> "tuple[int, str]":
                certificate.write_text("".join(f"{line}\n" for line in lines))
                return command("check", "-", str(certificate), "--wide", *words, stdin=text.encode())[:2]

            yes = f"YES OPTIMAL {VALUE}\naccepted by"
            with program_with_wide():
                for text, words in ((TEXT, []), (FIXED, ["--form", "fixed"]), (TEXT.replace("ROWS", "rows"), ["--convert"])):
                    self.assertEqual(said(text, *words), (0, f"{yes} lpd check --wide, and by the checker in Python\n"))
                wider = said(TEXT.replace("RHS a 1e30", "RHS a 3e60"), lines=["OPTIMAL", "x x 1e60", "x y 1e90", f"y a {CERTIFICATE[3][4:]}", "y b 1", "END"])
                self.assertEqual(wider[1].partition("\n")[2], "accepted by the checker in Python alone: line 9 of the model has a number past 127 bits\n")
            with program(DOES_NOT_KNOW):
                self.assertEqual(said(TEXT), (0, f"{yes} the checker in Python alone: {NO_COMMAND}\n"))
            with mock.patch("lpd.judging.check_wide", side_effect=lpd.ProgramMissing("there is no program lpd")):
                self.assertEqual(said(TEXT), (0, f"{yes} the checker in Python alone: there is no program lpd\n"))
            with program("echo YES OPTIMAL 1"):
                self.assertEqual(said(TEXT), (3, ""))
            narrow = command("check", "-", str(certificate), stdin=TEXT.encode())
        self.assertEqual((narrow.status, narrow.output.splitlines()[0], narrow.complaints), (0, f"YES OPTIMAL {VALUE}", ""))
        self.assertIn("accepted by ", narrow.output.splitlines()[1])

    def test_certify(self) -> None:
        with program_with_wide():
            said = command("certify", "-", "--with", "none", stdin=TEXT.encode())
            self.assertEqual(said.status, 0)
            accepted = "accepted by lpd check --wide, and by the checker in Python"
            self.assertIn(f"certificate   {accepted} (lpd check does not take it: {TOO_WIDE})\n", unwrapped(said.output))
            told = json.loads(command("certify", "-", "--with", "none", "--json", stdin=TEXT.encode()).output)
        self.assertEqual((told["answer"], told["judge"], told["accepted_by_lpd_check"]), (f"OPTIMAL {VALUE}", "lpd check --wide", True))
        with program(DOES_NOT_KNOW):
            said = command("certify", "-", "--with", "none", stdin=TEXT.encode())
        self.assertEqual(said.status, 14)
        self.assertIn(f"certificate   accepted by the checker in Python alone: {TOO_WIDE}, and {NO_COMMAND}\n", unwrapped(said.output))
        with program("echo YES OPTIMAL 1"):
            self.assertEqual(command("certify", "-", "--with", "none", stdin=TEXT.encode()).status, 3)

    def test_solve(self) -> None:
        with program_with_wide():
            said = command("solve", "-", "--with", "none", "--show", "answer", stdin=TEXT.encode())
        self.assertEqual(said.status, 0)
        self.assertIn(f"accepted by {WIDE}.\n", said.output)
        with program(DOES_NOT_KNOW):
            said = command("solve", "-", "--with", "none", "--show", "answer", stdin=TEXT.encode())
        self.assertEqual(said.status, 14)
        self.assertIn(f"accepted by {ALONE}, since {TOO_WIDE}, and {NO_COMMAND}.\n", unwrapped(said.output))

    def test_no_load_for_a_certificate_that_is_too_wide(self) -> None:
        """That of such a one is seen without lpd check, to which the model would have to be given."""
        with program_with_wide(), mock.patch("lpd.judging.Session") as asked:
            found = judged(TEXT, CERTIFICATE)
        self.assertEqual((found.judge, found.why), ("lpd check --wide", TOO_WIDE))
        asked.assert_not_called()

    def test_batch(self) -> None:
        with tempfile.TemporaryDirectory() as folder:
            (Path(folder) / "long.mps").write_text(TEXT)
            (Path(folder) / "short.mps").write_text(TEXT.replace("e30", "e3"))

            def judges() -> List[str]:
                rows = csv.DictReader(io.StringIO(command("batch", folder, "--with", "none", "--csv").output))
                return [row[column] for row in rows for column in ("accepted by", "judge")]

            with program_with_wide():
                self.assertEqual(judges(), [*["lpd check --wide"] * 2, *["lpd check"] * 2])
                said = command("batch", folder, "--with", "none").output
                for what in ("accepted", "certified"):
                    self.assertIn(f"1 {what} by lpd check, 1 by lpd check --wide, 0 by the checker in Python alone", unwrapped(said))
            with program(DOES_NOT_KNOW):
                self.assertEqual(judges(), [*["python alone"] * 2, *["lpd check"] * 2])


@unittest.skipUnless(has_program(), "the program is not built")
class SolveWide(unittest.TestCase):
    """Where lpd solve ends past 127 bits, and no other solver is there."""

    def setUp(self) -> None:
        stack = contextlib.ExitStack()
        self.addCleanup(stack.close)
        stack.enter_context(mock.patch.dict(os.environ, {"PATH": ""}))
        stack.enter_context(mock.patch("lpd.ways.presolve", side_effect=lpd.CommandMissing("presolve")))
        stack.enter_context(program(DOES_NOT_KNOW, "basis --wide"))

    def solved(self, answer: str = OPTIMAL, certificate: List[str] = CERTIFICATE) -> "mock._patch[mock.MagicMock]":
        return mock.patch("lpd.ways.solve_wide", return_value=read_wide_solved([answer, *certificate]))

    def test_what_is_read(self) -> None:
        found = read_wide_solved([OPTIMAL, *CERTIFICATE])
        self.assertEqual(found, lpd.WideSolved(lpd.Optimal(Fraction(VALUE)), CERTIFICATE))
        self.assertEqual(read_wide_solved(["PAST MUL 2 3"]), lpd.WideSolved(lpd.Past("MUL", Fraction(2), Fraction(3)), []))
        self.assertEqual(read_wide_solved(["OPEN"]), lpd.WideSolved(lpd.Open(), []))
        fell = read_answer([OPTIMAL, "FELL PIVOTS 3", *CERTIFICATE])
        self.assertEqual((fell.start, fell.pivots, fell.certificate, fell.basis), ("FELL", 3, CERTIFICATE, []))
        self.assertEqual(read_answer(["OPEN"]), lpd.FromBasis(lpd.Open(), "", None, [], []))
        for lines in ([], ["YES"], ["REDUCED 1 2"]):
            with self.assertRaises(lpd.Unexpected):
                read_wide_solved(lines)

    def test_the_way(self) -> None:
        """It comes first; where a budget is set, before a basis of the front's own or of another solver, and behind that of a solver
        that is named, if this one gives any."""
        model = lpd.read_model(TEXT)
        with program_with_wide(), self.solved():
            found = answered(TEXT, model)
            self.assertEqual((str(found.answer), found.certificate, found.way, found.accepted_by), (OPTIMAL, CERTIFICATE, "lpd solve --wide", WIDE))
            self.assertEqual(found.notes, [])
            ended = "the first try, lpd solve, ran out of digits"
            for named, notes in ((None, [ended]), ("glpsol", [ended, "glpsol gives no basis, and says: nothing"])):
                with mock.patch("lpd.ways.other_solver", return_value="glpsol"), mock.patch("lpd.ways.ask", return_value=Claim("nothing")):
                    self.assertEqual(answered(TEXT, model, Effort(solver=named)).notes, [])
                    found = answered(TEXT, model, Effort(10000, solver=named))
                self.assertEqual((found.way, found.notes), ("lpd solve --wide", notes))
            self.assertEqual(str(answered(TEXT, model, Effort(only_lpd=True)).answer)[:4], "PAST")
            narrow = answered(TEXT, model, Effort(wide=False))
            self.assertEqual((str(narrow.answer)[:4], narrow.certificate), ("PAST", []))
            self.assertRegex(narrow.notes[-1], "^exact steps in Python from a basis of its own, .* has an answer whose numbers pass 127 bits")

    def test_it_leads_to_none(self) -> None:
        """Then exact steps in Python do, and it is told."""
        for fault, told in ((lpd.OutOfTime("late"), "late: --seconds allows more"), (lpd.CommandMissing("solve --wide"), NO_SOLVE)):
            with program_with_wide(), mock.patch("lpd.ways.solve_wide", side_effect=fault):
                said = command("solve", "-", "--show", "answer", "--exact", stdin=TEXT.encode())
            self.assertEqual((said.status, said.output.split(" (")[0], said.complaints.count(f"note: {told}\n")), (0, OPTIMAL, 1))
            self.assertIn("This answer is by exact steps in Python from a basis of its own", said.output)
        with program(DOES_NOT_KNOW, "solve --wide"):
            self.assertEqual(command("solve", "-", "--show", "answer", stdin=TEXT.encode()).complaints.count(NO_SOLVE), 1)
            said = command("solve", "-", "--wide", "--show", "answer", "--exact", stdin=TEXT.replace("e30", "e3").encode())
        self.assertEqual(said, (0, reported(OPTIMAL.replace("0" * 60, "0" * 6) + "\n"), f"note: {NO_SOLVE}, so lpd solve was asked\n"))

    def test_no_answer(self) -> None:
        """A line that later programs write in place of PAST and SPENT: other ways are gone then."""
        says_open = "/bin/cat >/dev/null; echo OPEN"
        with program_with_wide(), program(says_open, "solve --wide"):
            said = command("solve", "-", "--wide", "--only-lpd", stdin=TEXT.encode())
            self.assertEqual((said.status, said.output.splitlines()[:2]), (12, ["OPEN", "There is no answer, at whatever width the program has."]))
            said = command("solve", "-", "--show", "answer", "--exact", stdin=TEXT.encode())
            self.assertEqual((said.status, said.output.split(" (")[0]), (0, OPTIMAL))
            self.assertIn("note: the first try, lpd solve --wide, has no answer\n", said.complaints)
            told = json.loads(command("solve", "-", "--wide", "--only-lpd", "--json", stdin=TEXT.encode()).output)
        self.assertEqual((told["answer"], told["kind"], told["certificate"]), ("OPEN", "OPEN", []))
        with program_with_wide(), program(says_open, "solve --wide"), program(says_open, "basis --wide"):
            self.assertEqual(command("certify", "-", "--with", "none", "--by", "lpd", stdin=TEXT.encode()).status, 12)

    def test_a_certificate_that_a_checker_does_not_accept(self) -> None:
        for wrong in (self.solved("OPTIMAL 1"), self.solved(certificate=[*CERTIFICATE[:4], "y b 2", "END"])):
            with program_with_wide(), wrong, self.assertRaises(lpd.LpdError):
                answered(TEXT, lpd.read_model(TEXT))

    @unittest.skipUnless(has_program() and has_command("solve --wide"), "the program has no command solve --wide")
    def test_with_the_program(self) -> None:
        self.assertEqual(lpd.solve_wide(TEXT), lpd.WideSolved(lpd.Optimal(Fraction(VALUE)), CERTIFICATE))
        told = json.loads(command("solve", "-", "--json", stdin=TEXT.encode()).output)
        self.assertEqual((told["answer"], told["way"], told["accepted_by"], told["certificate"]), (OPTIMAL, "lpd solve --wide", WIDE, CERTIFICATE))
        said = command("solve", "-", "--wide", "--show", "answer", stdin=TEXT.encode())
        self.assertEqual((said.status, said.complaints), (0, ""))
        self.assertIn(f"This answer is by lpd solve --wide, accepted by {WIDE}.\n", said.output)
        short = command("solve", "-", stdin=TEXT.replace("e30", "e3").encode())
        told = f"This answer is by lpd solve --wide, accepted by {BOTH}: its certificate is within 127 bits.\n"
        self.assertIn(told, unwrapped(short.output))
        with tempfile.TemporaryDirectory() as folder:
            (Path(folder) / "long.mps").write_text(TEXT)
            (row,) = csv.DictReader(io.StringIO(command("batch", folder, "--csv", "--exact").output))
        self.assertEqual((row["value"], row["way"], row["accepted by"]), (VALUE, "lpd solve --wide", "lpd check --wide"))

    @unittest.skipIf(pulp is None, "python3-pulp is not installed")
    def test_with_pulp(self) -> None:
        from lpd.pulp import LPD

        problem = pulp.LpProblem("long", pulp.LpMinimize)
        x, y = pulp.LpVariable("x", 0), pulp.LpVariable("y", 0)
        problem += y
        problem += 3 * x == 10**30, "a"
        problem += y - 10**30 * x == 0, "b"
        with program_with_wide():
            with self.solved(certificate=CERTIFICATE):
                self.assertEqual(problem.solve(LPD(msg=False)), pulp.LpStatusOptimal)
                self.assertEqual((str(problem.exact.answer), problem.exact.way, problem.exact.certified_with), (OPTIMAL, "lpd solve --wide", None))
            with mock.patch("lpd.ways.solve_wide") as asked:
                self.assertEqual(problem.solve(LPD(msg=False, wide=False).copy()), pulp.LpStatusNotSolved)
                asked.assert_not_called()


@unittest.skipUnless(has_program(), "the program is not built")
class BasisWide(unittest.TestCase):
    """Where lpd basis ends past 127 bits from the basis of a solver, here of one that the package comes to by itself."""

    def setUp(self) -> None:
        missing = {"ways.presolve": "presolve", "ways.solve_wide": "solve --wide", "certifying.solve_wide": "solve --wide"}
        for place, name in missing.items():
            patch = mock.patch(f"lpd.{place}", side_effect=lpd.CommandMissing(name))
            patch.start()
            self.addCleanup(patch.stop)

    @contextlib.contextmanager
    def answers(self, start: str = "WARM PIVOTS 0", certificate: List[str] = CERTIFICATE) -> Iterator[None]:
        """A program that answers so from each basis."""
        lines = "".join(f" '{line}'" for line in [OPTIMAL, start, *certificate, "NAME", "ENDATA"])
        with program_with_wide(), program(f"/bin/cat >/dev/null; printf '%s\\n'{lines}", "basis --wide"):
            yield

    def test_certify(self) -> None:
        began = {
            "WARM PIVOTS 0": "0 pivots by lpd basis --wide: WARM",
            "FELL PIVOTS 2": "2 pivots by lpd basis --wide: FELL, so it gave the basis up and began anew",
        }
        for start, words in began.items():
            with self.answers(start):
                said = command("certify", "-", "--with", "none", stdin=TEXT.encode())
                told = json.loads(command("certify", "-", "--with", "none", "--by", "lpd", "--json", stdin=TEXT.encode()).output)
            self.assertEqual((said.status, said.complaints), (0, f"none: {NO_SOLVE_ANSWER}\n"))
            self.assertIn(f"from there    {words}\n", said.output)
            self.assertIn("certificate   accepted by lpd check --wide, and by the checker in Python", unwrapped(said.output))
            wanted = (f"OPTIMAL {VALUE}", "lpd", BASIS_WIDE, start.partition(" PIVOTS")[0], CERTIFICATE)
            self.assertEqual(tuple(told[name] for name in ("answer", "by", "command", "start", "certificate")), wanted)
            with self.answers(start):
                found = certify(TEXT, "none", way="python")
            self.assertEqual((found.certificate, found.way, found.command), (CERTIFICATE, "python", ""))

    def test_a_certificate_that_a_checker_does_not_accept(self) -> None:
        for wrong in ([*CERTIFICATE[:4], "y b 2", "END"], ["INFEASIBLE", "y a 1", "END"]):
            with self.answers(certificate=wrong):
                self.assertEqual(command("certify", "-", "--with", "none", stdin=TEXT.encode()).status, 3)

    def test_a_program_without_it(self) -> None:
        with program_with_wide(), program(DOES_NOT_KNOW, "basis --wide"):
            said = command("certify", "-", "--with", "none", stdin=TEXT.encode())
            self.assertEqual(command("certify", "-", "--with", "none", "--by", "lpd", stdin=TEXT.encode()).status, 12)
        self.assertRegex(said.output, "from there    [01] exact steps in Python\n")
        missing = "and this program has no command basis --wide"
        self.assertRegex(said.complaints, f"^none: {NO_SOLVE_ANSWER}\nnone: lpd basis has no answer: it ends with PAST .* {missing}\n$")

    def test_solve_and_batch(self) -> None:
        with self.answers(), tempfile.TemporaryDirectory() as folder:
            told = json.loads(command("solve", "-", "--with", "none", "--json", stdin=TEXT.encode()).output)
            (Path(folder) / "long.mps").write_text(TEXT)
            (row,) = csv.DictReader(io.StringIO(command("batch", folder, "--with", "none", "--csv", "--exact").output))
        way = "lpd basis --wide from a basis of its own"
        self.assertEqual((told["answer"], told["way"], told["accepted_by"]), (OPTIMAL, f"{way}, in 0 pivots", WIDE))
        self.assertEqual((row["value"], row["way"], row["accepted by"], row["judge"]), (VALUE, way, "lpd check --wide", "lpd check --wide"))
        with self.answers("FELL PIVOTS 2"):
            found = answered(TEXT, lpd.read_model(TEXT), Effort(solver="none"))
        self.assertEqual(found.way, f"{way}, which it gave up, in 2 pivots")

    def test_no_wide_answer_is_wanted(self) -> None:
        with self.answers(), mock.patch("lpd.certifying.solve_from", wraps=lpd.solve_from) as asked:
            found = answered(TEXT, lpd.read_model(TEXT), Effort(solver="none", wide=False))
        self.assertEqual((str(found.answer)[:4], found.certificate), ("PAST", []))
        self.assertEqual({call.kwargs["wide"] for call in asked.call_args_list}, {False})

    @unittest.skipUnless(has_program() and has_command("basis --wide"), "the program has no command basis --wide")
    def test_with_the_program(self) -> None:
        found = lpd.solve_from(TEXT, ["NAME", " XL x a", " XL y b", "ENDATA"], wide=True)
        self.assertEqual((str(found.answer), found.start, found.pivots, found.certificate), (OPTIMAL, "WARM", 0, CERTIFICATE))
        self.assertEqual(lpd.solve_from(TEXT, found.basis, wide=True), found)
        exact = certify(TEXT, "none")
        self.assertEqual((str(exact.known), exact.way, exact.command, exact.judge), (OPTIMAL, "lpd", BASIS_WIDE, "lpd check --wide"))
        for seed in range(3):
            text = planned(random.Random(seed))
            exact, other = certify(text, "none"), certify(text, "none", way="python")
            self.assertEqual((exact.known, exact.way, exact.is_proved), (other.known, "lpd", True))


def planned(dice: random.Random, rows: int = 12, columns: int = 16, entries: int = 4) -> str:
    """A plan with two decimals, which some point meets, and whose certificate passes 127 bits or comes near."""

    def number() -> str:
        return f"{dice.randint(10, 9999) / 100:.2f}"

    kinds, sums = [dice.choice("GL") for _ in range(rows)], [Fraction(0)] * rows
    lines = ["ROWS", " N cost", *(f" {kind} r{i}" for i, kind in enumerate(kinds)), "COLUMNS"]
    for j in range(columns):
        lines.append(f" x{j} cost {number()}")
        amount = dice.randint(0, 6)
        for i in sorted(dice.sample(range(rows), entries)):
            lines.append(f" x{j} r{i} {number()}")
            sums[i] += amount * Fraction(lines[-1].split()[2])
    sides = [f" RHS r{i} {float(total * Fraction(9 if kind == 'G' else 12, 10)):.2f}" for i, (kind, total) in enumerate(zip(kinds, sums))]
    return "\n".join([*lines, "RHS", *sides, "ENDATA", ""])
