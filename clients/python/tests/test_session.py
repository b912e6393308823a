"""Each reply and each error of a session, against replies that are stored."""
import os
import sys
import tempfile
import unittest
from fractions import Fraction
from pathlib import Path

import lpd

REPLAYING = str(Path(__file__).with_name("replaying.py"))
# Begins this Python itself, and without what it would import by itself: a test may begin it thirty times.
SCRIPT = f'#!/bin/sh\nexec "{sys.executable}" -S "{REPLAYING}"\n'
TEXT = "ROWS\n N cost\n G R1\nCOLUMNS\n x cost 1 R1 1\nRHS\n R1 1\nENDATA\n"


class Replayed(unittest.TestCase):
    @classmethod
    def setUpClass(cls) -> None:
        cls.folder = tempfile.TemporaryDirectory()
        cls.program = Path(cls.folder.name) / "lpd"
        cls.program.write_text(SCRIPT)
        cls.program.chmod(0o755)

    @classmethod
    def tearDownClass(cls) -> None:
        cls.folder.cleanup()

    def session(self, *replies: str) -> lpd.Session:
        file = tempfile.NamedTemporaryFile("w", suffix=".replies", delete=False, encoding="latin-1")
        with file:
            file.write("".join(f"{reply}\n" for reply in replies))
        self.addCleanup(os.unlink, file.name)
        os.environ["REPLIES"] = file.name
        program = lpd.Program(str(self.program))
        self.addCleanup(program.close)
        return lpd.Session(program)

    def test_answers(self) -> None:
        session = self.session("1 OPTIMAL -2/3", "1 INFEASIBLE", "1 UNBOUNDED", "1 PAST ADD 0.5 1/3", "1 SPENT 7")
        expected = [lpd.Optimal(Fraction(-2, 3)), lpd.Infeasible(), lpd.Unbounded(), lpd.Past("ADD", Fraction(1, 2), Fraction(1, 3)), lpd.Spent(7)]
        self.assertEqual([session.solve() for _ in expected], expected)

    def test_verdicts(self) -> None:
        session = self.session("1 YES OPTIMAL 1", "1 YES INFEASIBLE", "1 YES UNBOUNDED", "1 NO 3", "1 PAST MUL 1 2")
        expected = [lpd.Accepted(lpd.Optimal(Fraction(1))), lpd.Accepted(lpd.Infeasible()), lpd.Accepted(lpd.Unbounded()), lpd.Rejected(3), lpd.Past("MUL", Fraction(1), Fraction(2))]
        self.assertEqual([session.check("OPTIMAL\nx x 1\n") for _ in expected], expected)

    def test_other_replies(self) -> None:
        session = self.session("1 LOADED 1 2", "1 OK", "1 CERT 2", "CLASH x", "END", "1 CERT 0", "1 TEXT 1", "ENDATA", "1 BYE")
        self.assertEqual(session.load(TEXT), lpd.Loaded(1, 2))
        session.set_bounds("x", None, Fraction(1, 2))
        self.assertEqual(session.certificate(), ["CLASH x", "END"])
        self.assertEqual(session.certificate(), [])
        self.assertEqual(session.write(), "ENDATA\n")
        session.close()

    def test_how_an_answer_was_found(self) -> None:
        cases = {
            "HOW COLD PIVOTS 3 NONE": lpd.Found(lpd.Cold(), 3, lpd.Unpublished()),
            "HOW COLD PIVOTS - NONE": lpd.Found(lpd.Cold(), None, lpd.Unpublished()),
            "HOW COLD PIVOTS 2 FULL 1": lpd.Found(lpd.Cold(), 2, lpd.Full(1)),
            "HOW BASIS 255 PIVOTS 0 SAME": lpd.Found(lpd.Basis(255), 0, lpd.Same()),
            "HOW BASIS 0 PIVOTS 1 PUBLISHED 1": lpd.Found(lpd.Basis(0), 1, lpd.Published(1)),
            "HOW FELL 0 SINGULAR PIVOTS 1 RACED 2": lpd.Found(lpd.Fell(0, "SINGULAR"), 1, lpd.Raced(2)),
            "HOW FELL 7 UNFIT PIVOTS 0 NONE": lpd.Found(lpd.Fell(7, "UNFIT"), 0, lpd.Unpublished()),
            "HOW FELL 7 PAST PIVOTS - NONE": lpd.Found(lpd.Fell(7, "PAST"), None, lpd.Unpublished()),
            "HOW FELL 7 SPENT PIVOTS - NONE": lpd.Found(lpd.Fell(7, "SPENT"), None, lpd.Unpublished()),
        }
        session = self.session(*(f"1 {reply}" for reply in cases))
        for reply, found in cases.items():
            with self.subTest(reply):
                self.assertEqual(session.how(), found)
                self.assertEqual(str(found), reply)

    def test_errors(self) -> None:
        cases = [
            ("1 ERR 1 WORD", lpd.BadCommand, "does not know"),
            ("1 ERR 2 NUMBER", lpd.BadNumber, "not a number"),
            ("1 ERR 3 WIDE", lpd.NumberTooWide, "127 bits"),
            ("1 ERR 4 NOMODEL", lpd.NoModel, "holds no model"),
            ("1 ERR 5 NAME R9", lpd.UnknownName, "'R9'"),
            ("1 ERR 6 TAKEN R1", lpd.NameTaken, "'R1'"),
            ("1 ERR 7 LIMIT ROWS 256", lpd.LimitReached, "256 rows"),
            ("1 ERR 8 MPS 3 M5", lpd.TextFault, "line 3 of the model's text: this row is there already (fault 5): 'G R1'"),
            ("1 ERR 9 NOANSWER", lpd.NoAnswer, "no answer"),
            ("1 ERR 10 FIXEDWIDE ninebytes", lpd.TooWideForFixed, "ninebytes"),
            ("1 ERR 11 LONG", lpd.LineTooLong, "too long"),
            ("1 ERR 12 REPEATED R1", lpd.NameRepeated, "'R1'"),
            ("1 ERR 13 BADNAME", lpd.BadName, "no name"),
            ("1 ERR 14 CERT 2", lpd.CertificateFault, "line 2 of the certificate"),
            ("1 ERR 16 FREEROW other", lpd.FreeRow, "'other' is a free row"),
            ("1 MEMORY", lpd.OutOfMemory, "out of memory"),
            ("1 ERR 99 NEW", lpd.Unexpected, "ERR 99 NEW"),
            ("1 FINE", lpd.Unexpected, "FINE"),
        ]
        for reply, kind, words in cases:
            with self.subTest(reply), self.assertRaises(kind) as raised:
                self.session(reply).load(TEXT)
            self.assertIn(words, str(raised.exception))
            if isinstance(raised.exception, lpd.Refused):
                self.assertEqual(f"1 {raised.exception.reply}", reply)

    def test_a_free_row_takes_no_range(self) -> None:
        session = self.session("1 OK", "1 ERR 16 FREEROW other", "1 OK", "1 ERR 1 WORD")
        session.add_row("other", "N", 4)
        with self.assertRaises(lpd.FreeRow) as raised:
            session.set_range("other", 2)
        self.assertEqual((raised.exception.name, raised.exception.reply), ("other", "ERR 16 FREEROW other"))
        self.assertIn("has no limits, and so no range", str(raised.exception))
        session.set_range("other", None)
        with self.assertRaises(lpd.BadCommand):
            session.add_row("spare", "N", 4, 5)

    def test_faults_of_texts_have_words(self) -> None:
        for fault in range(1, 20):
            with self.subTest(fault), self.assertRaises(lpd.TextFault) as raised:
                self.session(f"1 ERR 8 MPS 2 M{fault}").load(TEXT)
            self.assertEqual(raised.exception.fault, fault)

    def test_what_is_no_reply(self) -> None:
        faulty = ("1 ERR", "1 ERR 8 MPS x M1", "1 ERR 8 MPS 1 M99")
        for reply in ("1", "1 ", "1 LOADED", "1 LOADED a 1", "1 OPTIMAL 1", *faulty):
            with self.subTest(reply), self.assertRaises(lpd.Unexpected):
                self.session(reply).load(TEXT)
        for reply in ("1 OPTIMAL", "1 OPTIMAL x", "1 SPENT x", "1 PAST ADD 1", "1 LOADED 1 1"):
            with self.subTest(reply), self.assertRaises(lpd.Unexpected):
                self.session(reply).solve()
        starts = ("BASIS PIVOTS 3 NONE", "BASIS x PIVOTS 3 NONE", "FELL 1 PIVOTS 3 NONE", "FELL 1 LATE PIVOTS 3 NONE", "WARM PIVOTS 3 NONE")
        ends = ("COLD", "COLD 3 NONE", "COLD PIVOTS", "COLD PIVOTS 3", "COLD PIVOTS x NONE", "COLD PIVOTS 3 FULL", "COLD PIVOTS 3 NONE 1")
        for reply in (*(f"1 HOW {how}" for how in starts + ends), "1 OK"):
            with self.subTest(reply), self.assertRaises(lpd.Unexpected):
                self.session(reply).how()
        for reply in ("1 CERT", "1 CERT x", "1 CERT 9999999999", "1 OK"):
            with self.subTest(reply), self.assertRaises(lpd.Unexpected):
                self.session(reply).certificate()

    def test_a_wide_solve(self) -> None:
        session = self.session("1 WIDE 4", "OPTIMAL 1000000000000000000000000000000000000000/3", "OPTIMAL", "x x 1", "END", "1 WIDE 1", "PAST MUL 1e38 1e38")
        self.assertEqual(session.solve_wide(), lpd.WideSolved(lpd.Optimal(Fraction(10**39, 3)), ["OPTIMAL", "x x 1", "END"]))
        self.assertEqual(session.solve_wide(), lpd.WideSolved(lpd.Past("MUL", Fraction(10**38), Fraction(10**38)), []))
        for replies in (("1 WIDE",), ("1 WIDE 0",), ("1 WIDE 1", "DONE"), ("1 CERT 0",)):
            with self.subTest(replies), self.assertRaises(lpd.Unexpected):
                self.session(*replies).solve_wide()

    def test_the_reply_of_another_session(self) -> None:
        with self.assertRaisesRegex(lpd.Unexpected, "another session's"):
            self.session("2 OPTIMAL 1").solve()

    def test_an_end_in_mid_command(self) -> None:
        session = self.session("1 LOADED 1 1", "EXIT 5")
        session.load(TEXT)
        with self.assertRaises(lpd.ProgramEnded) as raised:
            session.solve()
        self.assertEqual((raised.exception.status, raised.exception.complaint), (5, "lpd: out of order"))
        with self.assertRaises(lpd.ProgramEnded):
            session.solve()

    def test_words_that_are_no_words(self) -> None:
        session = self.session("1 OK")
        for name in ("", "two words", "a\nb"):
            with self.assertRaises(ValueError):
                session.delete_row(name)
        with self.assertRaisesRegex(ValueError, "'\u0142' is no byte"):
            session.load(f"* \u0142\n{TEXT}")
        with self.assertRaises(TypeError):
            session.set_cost("x", 0.1)  # type: ignore[arg-type]
        with self.assertRaises(lpd.TextFault):
            session.load("ROWS\n N cost\n")
        session.delete_row("R1")

    def test_a_program_that_is_not_there(self) -> None:
        with self.assertRaises(lpd.ProgramMissing):
            lpd.Program("/nowhere/lpd")
