"""Basis files: what solvers write of them, what is handed to `lpd basis`, and what it answers."""
import os
import shutil
import tempfile
import unittest
from fractions import Fraction
from pathlib import Path
from typing import List, Optional, Tuple, Union
from unittest import mock

import lpd
from lpd.basis_file import basis_lines, read_bas
from lpd.certifying import BASIS, BASIS_WIDE, PROGRAM, PYTHON, NotAnswered, NotCertified, made_exact
from lpd.exact import BASIC, LOWER, UPPER, Basis
from lpd.floating import SOLVERS, Claim, ask
from lpd.from_basis import FromBasis, read_answer, solve_from
from lpd.once import has_command

from .commands import command
from .models import has_program, the_basis

MODELS = Path(__file__).resolve().parents[3] / "examples" / "models"
TEXT = """NAME a
ROWS
 N cost
 G R1
 L R2
COLUMNS
 x cost 1 R1 1
 y cost 1 R2 1
RHS
 R1 1 R2 3
BOUNDS
 UP y 4
ENDATA
"""
Steps = Tuple[str, str, int]
MODEL = lpd.read_model(TEXT)
SINCE = "since as many columns are basic as rows are not"
OPEN = "x: at the lower bound, or at 0 without one, since there is no upper bound"
ANSWER = ["OPTIMAL 1", "WARM PIVOTS 0", "OPTIMAL", "x x 1", "y R1 1", "END"]
# A row and a column of each kind, where every row is at a limit at the optimum. MIN puts x to w at the lower ones.
SIDES = """ROWS
 N cost
 L a
 G b
 E c
 E d
COLUMNS
 x cost 1 a 1
 y cost 1 b 1
 z cost 1 c 1
 w cost 1 d 1
RHS
 a 10 b 10
 c 10 d 10
RANGES
 a 4 b 4
 c 4 d -4
BOUNDS
 FR x
 FR y
 FR z
 FR w
ENDATA
"""


class Files(unittest.TestCase):
    def handed(self, text: str) -> Tuple[List[str], List[str]]:
        return basis_lines(MODEL, read_bas(text) or Basis())

    def test_what_solvers_write(self) -> None:
        wanted = ["NAME", " XL x R1", " UL y", "ENDATA"]
        texts = {
            "clp": "NAME          a       VALUES\n XL x        R1     1.\n UL y      _dummy_     4.     \nENDATA\n",
            "lp_solve": "NAME          a Rows 2 Cols 2 Iters 1\n XL x         R1      \n UL y       \nENDATA\n",
            "esolver": "NAME    a\n XL x R1\n UL y\nENDATA\n",
        }
        for name, text in texts.items():
            with self.subTest(name):
                self.assertEqual(self.handed(text), (wanted, []))

    def test_a_column_that_is_called_basic_alone(self) -> None:
        lines, notes = self.handed("NAME\n BS x _dummy_ 0.0\n XL y R2 3.\nENDATA\n")
        self.assertEqual(lines, ["NAME", " XL y R2", "ENDATA"])
        self.assertEqual(notes, [f"x: at the bound, or at 0 without one, and not basic, {SINCE}, and here 2 and 1"])

    def test_rows_that_no_column_stands_for(self) -> None:
        lines, notes = basis_lines(MODEL, Basis({"x": BASIC}, {"R1": LOWER, "R2": UPPER}))
        self.assertEqual(lines, ["NAME", " XL x R1", "ENDATA"])
        self.assertEqual(notes, [f"R2: the rows are basic, {SINCE}, and here 1 and 2"])

    def test_an_upper_bound_that_is_not_there(self) -> None:
        lines, notes = self.handed("NAME\n UL x\nENDATA\n")
        self.assertEqual((lines, notes), (["NAME", "ENDATA"], [OPEN]))

    def test_names_and_cards_that_are_not_known(self) -> None:
        lines, notes = self.handed("NAME\n XL x R1\n XU q R3\n XX y\n XL y\nENDATA\n")
        self.assertEqual(lines, ["NAME", " XL x R1", "ENDATA"])
        unknown = ["q: no such column in the model", "R3: no such row in the model"]
        self.assertEqual(notes, ["XX y, XL y: no card of a basis", *unknown])

    @unittest.skipUnless(shutil.which("lp_solve"), "lp_solve is not on the path")
    def test_far_sides(self) -> None:
        for sense, status in (("MIN", LOWER), ("MAX", UPPER)):
            claim = ask("lp_solve", lpd.read_model(f"OBJSENSE {sense}\n{SIDES}"))
            self.assertEqual(claim.basis and claim.basis.rows, dict.fromkeys("abcd", status))


class Answers(unittest.TestCase):
    def test_what_the_program_writes(self) -> None:
        found = read_answer([*ANSWER, "NAME a", " XL x R1", "ENDATA"])
        wanted = FromBasis(lpd.Optimal(Fraction(1)), "WARM", 0, ANSWER[2:], ["NAME a", " XL x R1", "ENDATA"])
        self.assertEqual(found, wanted)
        found = read_answer(["INFEASIBLE", "FELL SINGULAR PIVOTS 3", "INFEASIBLE", "y R1 -1", "END"])
        self.assertEqual((found.start, found.pivots, found.basis), ("FELL SINGULAR", 3, []))
        exact = [read_answer([*ANSWER[:1], start, *ANSWER[2:]]) for start in ("COLD", "WARM PIVOTS 2", "FELL PIVOTS 4")]
        self.assertEqual([(found.start, found.pivots) for found in exact], [("COLD", None), ("WARM", 2), ("FELL", 4)])
        spent = read_answer(["SPENT 10000", "FELL SPENT PIVOTS -"])
        self.assertEqual(spent, FromBasis(lpd.Spent(10000), "FELL SPENT", None, [], []))
        past = read_answer(["PAST MUL 2 3", "COLD PIVOTS -"])
        self.assertEqual(past.answer, lpd.Past("MUL", Fraction(2), Fraction(3)))

    def test_what_it_does_not_write(self) -> None:
        starts = [["OPTIMAL 1", f"{start} PIVOTS 0"] for start in ("HOT", "FELL OFF", "WARM 1", "")]
        for lines in ([], ["OPTIMAL 1"], ["YES 1", "WARM PIVOTS 0"], *starts):
            with self.assertRaises(lpd.Unexpected):
                read_answer(lines)

    def answered(self, script: str, words: str = "basis", wide: bool = False, seconds: Optional[float] = None) -> FromBasis:
        """What a program replies to these words that is this script."""
        with tempfile.TemporaryDirectory() as place:
            program = Path(place) / "lpd"
            program.write_text(f'#!/bin/sh\n[ "$*" = "{words}" ] || exit 2\n{script}\n')
            program.chmod(0o755)
            return solve_from(TEXT, ["NAME", " XL q R1", "ENDATA"], str(program), wide, seconds)

    def test_what_it_reads(self) -> None:
        found = self.answered("/bin/cat >&2; echo OPTIMAL 1; echo WARM PIVOTS 0")
        self.assertEqual(found.answer, lpd.Optimal(Fraction(1)))

    def test_with_the_switch(self) -> None:
        wide = f"OPTIMAL 1{'0' * 60}/3"
        found = self.answered(f"/bin/cat >&2; echo {wide}; echo FELL PAST PIVOTS 2", "basis --wide", wide=True)
        self.assertEqual((str(found.answer), found.start, found.pivots), (wide, "FELL PAST", 2))
        with self.assertRaisesRegex(lpd.CommandMissing, "^this program has no command basis --wide$"):
            self.answered("echo OPTIMAL 1; echo WARM PIVOTS 0", wide=True)
        with self.assertRaisesRegex(lpd.OutOfTime, "^lpd basis --wide is not done in 0.1 seconds$"):
            self.answered("exec /bin/sleep 60", "basis --wide", wide=True, seconds=0.1)

    def test_what_it_refuses(self) -> None:
        with self.assertRaisesRegex(lpd.BasisFault, "line 2 of the basis file: unknown column .fault 3.: ' ?XL q R1'"):
            self.answered("echo ERR 17 BAS 2 B3; exit 9")
        with self.assertRaises(lpd.TextFault):
            self.answered("echo ERR 8 MPS 2 M10; exit 9")
        with self.assertRaises(lpd.ProgramEnded):
            self.answered("echo lpd: bad command line >&2; exit 2")


PAST = read_answer(["PAST MUL 2 3", "FELL PAST PIVOTS -"])
NO_SWITCH = lpd.CommandMissing("basis --wide")


class FirstWay(unittest.TestCase):
    def by(
        self,
        answer: Union[FromBasis, Exception],
        way: Optional[str] = None,
        basis: Optional[Basis] = None,
        then: Optional[FromBasis] = None,
        wide: Union[FromBasis, Exception] = NO_SWITCH,
        takes_wide: bool = True,
    ) -> Steps:
        """Which way led to the exact answer 1, the start, and the steps, where `lpd basis` answers so, and then so, and `lpd basis
        --wide`, if that is taken, so."""
        claim = Claim("OPTIMAL", basis=basis)
        self.texts: List[str] = []
        self.asked: List[str] = []

        def solve_from(text: str, lines: List[str], wide: bool, seconds: Optional[float]) -> FromBasis:
            self.asked.append(BASIS_WIDE if wide else BASIS)
            if not wide:
                self.texts.append(text)
            said = with_switch if wide else answer if len(self.texts) == 1 or then is None else then
            if isinstance(said, Exception):
                raise said
            return said

        with_switch = wide
        with mock.patch("lpd.certifying.solve_from", solve_from):
            found = made_exact(TEXT, MODEL, claim, way, wide=takes_wide)
        self.assertEqual(found.known, lpd.Optimal(Fraction(1)))
        self.notes, self.command = found.notes, found.command
        return found.way, found.start, found.steps

    def test_by_the_program(self) -> None:
        self.assertEqual(self.by(read_answer(ANSWER)), (PROGRAM, "WARM", 0))
        self.assertEqual((self.command, self.asked, self.notes), (BASIS, [BASIS_WIDE, BASIS], []))
        fell = read_answer([ANSWER[0], "FELL UNFIT PIVOTS 5", *ANSWER[2:]])
        self.assertEqual(self.by(fell, PROGRAM), (PROGRAM, "FELL UNFIT", 5))

    def test_by_the_program_in_numbers_of_any_width(self) -> None:
        for start in ("WARM", "FELL PAST"):
            found = read_answer([ANSWER[0], f"{start} PIVOTS 2", *ANSWER[2:]])
            self.assertEqual(self.by(PAST, wide=found), (PROGRAM, start, 2))
            self.assertEqual((self.command, self.asked, self.notes), (BASIS_WIDE, [BASIS_WIDE], []))
        self.assertEqual(self.by(read_answer(ANSWER), wide=PAST, takes_wide=False), (PROGRAM, "WARM", 0))
        self.assertEqual((self.command, self.asked), (BASIS, [BASIS]))

    def test_by_python_where_the_program_has_no_answer(self) -> None:
        ends = f"{BASIS} has no answer: it ends with PAST MUL 2 3 (FELL PAST)"
        self.assertEqual(self.by(PAST), (PYTHON, "", 1))
        self.assertEqual(self.notes, [f"{ends}, and {NO_SWITCH}"])
        self.assertEqual(self.by(PAST, takes_wide=False), (PYTHON, "", 1))
        self.assertEqual(self.notes, [ends])
        self.by(lpd.TextFault(3, 10))
        self.assertEqual(self.notes, [f"{BASIS} has no answer: line 3 of the model has a number past 127 bits"])
        self.by(lpd.CommandMissing("basis"))
        self.assertEqual(self.notes, [f"{BASIS} has no answer: this program has no command basis"])
        for answer in (PAST, lpd.TextFault(3, 10)):
            with self.assertRaises(NotAnswered):
                self.by(answer, PROGRAM)
        with self.assertRaises(lpd.TextFault):
            self.by(lpd.TextFault(3, 9))
        self.assertEqual(self.by(PAST, PYTHON), (PYTHON, "", 1))
        self.assertEqual((self.notes, self.asked), ([], []))

    def test_by_python_where_the_wide_solve_has_no_answer(self) -> None:
        """`lpd basis` is not asked then, since it would end past 127 bits, or take as long."""
        ends = {
            "it ends with PAST MUL 2 3 (FELL PAST)": PAST,
            "lpd basis --wide is not done in 2 seconds": lpd.OutOfTime("lpd basis --wide is not done in 2 seconds"),
            str(lpd.ProgramEnded(4, "lpd: out of memory")): lpd.ProgramEnded(4, "lpd: out of memory"),
        }
        for why, wide in ends.items():
            self.assertEqual(self.by(read_answer(ANSWER), wide=wide), (PYTHON, "", 1))
            self.assertEqual((self.notes, self.asked), ([f"{BASIS_WIDE} has no answer: {why}"], [BASIS_WIDE]))
            with self.assertRaisesRegex(NotAnswered, f"^{BASIS_WIDE} has no answer: "):
                self.by(read_answer(ANSWER), PROGRAM, wide=wide)

    def test_by_the_program_in_another_order(self) -> None:
        basis = Basis({"y": BASIC, "x": BASIC}, {"R1": LOWER, "R2": UPPER})
        self.assertEqual(self.by(PAST, basis=basis, then=read_answer(ANSWER)), (PROGRAM, "WARM", 0))
        self.assertEqual(len(self.notes), 1)
        self.assertEqual([list(lpd.read_model(text).columns) for text in self.texts], [["x", "y"], ["y", "x"]])
        self.assertEqual(lpd.read_model(self.texts[1]), lpd.read_model(TEXT))

    def test_a_certificate_that_the_checker_in_python_does_not_accept(self) -> None:
        for lines in (["OPTIMAL 2", *ANSWER[1:]], [*ANSWER[:3], "x x 2", "END"], ["INFEASIBLE", *ANSWER[1:]]):
            with self.assertRaisesRegex(NotCertified, f"^{BASIS} answers"):
                self.by(read_answer(lines))
            with self.assertRaisesRegex(NotCertified, f"^{BASIS_WIDE} answers"):
                self.by(PAST, wide=read_answer(lines))

    def test_what_is_left_out_of_the_basis_is_told(self) -> None:
        for wide in (NO_SWITCH, read_answer(ANSWER)):
            self.by(read_answer(ANSWER), basis=Basis({"x": UPPER}), wide=wide)
            self.assertEqual(self.notes, [OPEN])


@unittest.skipUnless(has_program() and has_command("basis"), "there is no program, or it has no command basis")
class WithTheProgram(unittest.TestCase):
    def test_an_optimal_basis_takes_no_pivot(self) -> None:
        for path in sorted(MODELS.glob("*.mps")):
            if path.name.endswith(".fixed.mps"):
                continue
            text = path.read_text()
            first = solve_from(text, ["ENDATA"])
            self.assertEqual(str(first.answer), path.with_suffix(".solved").read_text().splitlines()[0])
            if isinstance(first.answer, lpd.Optimal):
                again = solve_from(text, first.basis)
                self.assertEqual((again.answer, again.start, again.pivots), (first.answer, "WARM", 0))
                self.assertEqual(again.basis, first.basis)

    def test_refusals(self) -> None:
        cards = {1: "RHS", 2: " BS x", 3: " LL q", 4: " XL x q", 5: " LL x\n UL x", 6: " UL x", 7: " LL x"}
        for fault, card in cards.items():
            with self.assertRaises(lpd.BasisFault) as raised:
                solve_from(TEXT, ["NAME", *card.split("\n"), *([] if fault == 7 else ["ENDATA"])])
            self.assertEqual(raised.exception.fault, fault)

    def test_the_command(self) -> None:
        for solver in SOLVERS:
            if shutil.which(solver):
                said = command("certify", str(MODELS / "diet.mps"), "--with", solver, "--by", "lpd")
                self.assertEqual((said.status, said.complaints), (0, ""))
                self.assertIn(f"from there    0 pivots by {the_basis()}: WARM\n", said.output)
