"""The checker: the examples' certificates, each condition, each fault of a text, and numbers of any width."""
import re
import tempfile
import unittest
from fractions import Fraction
from pathlib import Path

import lpd
from lpd.figures import READABLE
from lpd.model import Limits
from lpd.number_text import TooWide, number, shown

from .commands import Said, command

EXAMPLES = Path(__file__).resolve().parents[3] / "examples"
# The cheaper of two columns is taken, with a row whose sum is counted and limits nothing, and one that has no entries.
FREE = """ROWS
 N cost
 N sum
 G R1
 N none
COLUMNS
 a sum 4
 a cost 1 R1 1
 b cost 2 R1 1
RHS
 R1 1 sum 7
 cost -3
RANGES
 RNG sum 2
ENDATA
"""
LEAST = "ROWS\n N cost\n G R1\nCOLUMNS\n a cost 1 R1 1\n b cost 2 R1 1\nRHS\n cost -3 R1 1\nENDATA\n"


class Checks(unittest.TestCase):
    def test_examples(self) -> None:
        for path in sorted(EXAMPLES.glob("*.mps")):
            with self.subTest(path.name):
                self.assertEqual(f"{lpd.check(path.read_text())}\n", path.with_suffix(".said").read_text())

    def test_solved_models(self) -> None:
        for path in sorted((EXAMPLES / "models").glob("*.mps")):
            answer, _, certificate = path.with_suffix(".solved").read_text().partition("\n")
            with self.subTest(path.name):
                self.assertEqual(str(lpd.check(path.read_text(), certificate, fixed=".fixed." in path.name)), f"YES {answer}")

    def test_conditions(self) -> None:
        cases = {
            "OPTIMAL\nx a 1\ny R1 1\nEND\n": "YES OPTIMAL 4",
            "OPTIMAL\nx a -1\nx b 2\nEND\n": "NO 1: column a is -1, and has to be at least 0",
            "OPTIMAL\ny R1 1\nEND\n": "NO 2: the sum of row R1 is 0, and has to be at least 1",
            "OPTIMAL\nx b 1\ny R1 1\nEND\n": "NO 3: column b has the reduced cost 1, so it has to be at its lower bound, and is 1",
            "OPTIMAL\nx a 2\ny R1 1\nEND\n": "NO 4: row R1 has the multiplier 1, so its sum has to be at its lower limit, and is 2",
            "INFEASIBLE\ny R1 -1\nEND\n": "NO 1: row R1 has the multiplier -1 and no upper limit",
            "INFEASIBLE\ny R1 1\nEND\n": "NO 2: column a has the sum 1 and no upper bound",
            "INFEASIBLE\nEND\n": "NO 3: the rows require 0, and the bounds allow 0, which is not less",
            "UNBOUNDED\nx a 1\nr b -1\nEND\n": "NO 3: the ray moves column b by -1, towards a bound: it is at least 0",
            "UNBOUNDED\nx a 1\nr b 1\nEND\n": "NO 5: the ray changes the objective by 2, which is not better",
            "CLASH a\nEND\n": "NO 1: column a is at least 0, and that is no clash",
        }
        for certificate, expected in cases.items():
            with self.subTest(certificate):
                verdict = lpd.check(LEAST, certificate)
                self.assertEqual(f"{verdict}: {verdict.why}" if isinstance(verdict, lpd.Rejected) else str(verdict), expected)

    def test_free_rows(self) -> None:
        """A row without limits takes no multiplier but 0, and any sum of it will do."""
        cases = {
            "OPTIMAL\nx a 1\ny R1 1\ny sum 0\nEND\n": "YES OPTIMAL 4",
            "OPTIMAL\nx a 1\ny R1 1\ny sum 1/2\nEND\n": "NO 3: column a has the reduced cost -2 and no upper bound",
            "OPTIMAL\nx a 1\ny R1 1\ny none 1\nEND\n": "NO 4: row none has the multiplier 1 and no lower limit",
            "INFEASIBLE\ny sum 1\nEND\n": "NO 1: row sum has the multiplier 1 and no lower limit",
            "INFEASIBLE\ny none -1\nEND\n": "NO 1: row none has the multiplier -1 and no upper limit",
            "UNBOUNDED\nx a 1\nr a 1\nEND\n": "NO 5: the ray changes the objective by 1, which is not better",
        }
        for certificate, expected in cases.items():
            with self.subTest(certificate):
                verdict = lpd.check(FREE, certificate)
                self.assertEqual(f"{verdict}: {verdict.why}" if isinstance(verdict, lpd.Rejected) else str(verdict), expected)

    def test_free_rows_are_read(self) -> None:
        model = lpd.read_model(FREE)
        self.assertEqual((list(model.rows), model.free_rows()), (["sum", "R1", "none"], ["sum", "none"]))
        self.assertEqual((model.rows["sum"].rhs, model.rows["sum"].range, model.rows["sum"].limits()), (7, None, Limits(None, None)))
        self.assertEqual((model.offset, model.columns["a"].entries), (3, {"sum": 4, "R1": 1}))
        faults = {
            FREE.replace(" a sum 4", " a sum 4 sum 4"): "ERR 8 MPS 7 M8",
            FREE.replace(" a sum 4", " a sum 0 sum 4"): "ERR 8 MPS 7 M8",
            FREE.replace("R1 1 sum 7", "sum 7 sum 7"): "ERR 8 MPS 11 M8",
            FREE.replace("RNG sum 2", "RNG sum x"): "ERR 8 MPS 14 M9",
            FREE.replace("RNG sum 2", "RNG cost 2"): "ERR 8 MPS 14 M18",
            FREE.replace(" N none", " N sum"): "ERR 8 MPS 5 M5",
            FREE.replace(" N none", "".join(f" N r{n}\n" for n in range(255))[:-1]): "ERR 8 MPS 259 M16",
        }
        for text, reply in faults.items():
            with self.subTest(reply), self.assertRaises(lpd.TextFault) as raised:
                lpd.read_model(text)
            self.assertEqual(raised.exception.reply, reply)
        self.assertEqual(lpd.read_model(FREE.replace("RNG sum 2", "RNG sum 2 sum 3")), model)

    def test_certificates_that_do_not_fit(self) -> None:
        cases = {
            "OPTIMAL\nx c 1\nEND\n": "ERR 5 NAME c",
            "OPTIMAL\nx a 1\nx a 1\nEND\n": "ERR 12 REPEATED a",
            "OPTIMAL\n\nEND\n": "ERR 14 CERT 2",
            "OPTIMAL\nx a 1\n": "ERR 14 CERT 3",
            "OPTIMAL\nx a 1e99\nEND\n": "ERR 14 CERT 2",
        }
        for certificate, reply in cases.items():
            with self.subTest(certificate), self.assertRaises(lpd.Refused) as raised:
                lpd.check(LEAST, certificate)
            self.assertEqual(raised.exception.reply, reply)

    def test_what_to_do_with_an_answer(self) -> None:
        for answer in ("OPTIMAL 4\nOPTIMAL\n", "INFEASIBLE\nINFEASIBLE\n", "UNBOUNDED\nUNBOUNDED\n"):
            with self.assertRaisesRegex(lpd.CertificateFault, "drop the first line"):
                lpd.check(LEAST, answer + "END\n")

    def test_large_models(self) -> None:
        """With wide a model may have 65,536 rows and 131,072 columns, and without 256 and 512, where the same line is at fault as ever."""

        def text(rows: int, columns: int) -> str:
            cards = [*(f" L s{n}" for n in range(rows)), "COLUMNS", *(f" x{n} cost 1" for n in range(columns))]
            return "\n".join(["ROWS", " N cost", *cards, "ENDATA", ""])

        for rows, columns, wide, line in (
            (256, 512, False, None),
            (257, 1, False, 259),
            (1, 513, False, 517),
            (257, 513, True, None),
            (65536, 131072, True, None),
            (65537, 1, True, 65539),
            (1, 131073, True, 131077),
        ):
            with self.subTest(rows=rows, columns=columns, wide=wide):
                if line is None:
                    said = lpd.check(text(rows, columns), "OPTIMAL\nEND\n", wide=wide)
                    self.assertEqual(said, lpd.Accepted(lpd.Optimal(Fraction(0))))
                else:
                    with self.assertRaises(lpd.TextFault) as raised:
                        lpd.check(text(rows, columns), "OPTIMAL\nEND\n", wide=wide)
                    self.assertEqual(raised.exception.reply, f"ERR 8 MPS {line} M16")

    def test_faults_of_texts(self) -> None:
        script = (EXAMPLES / "texts.lpd").read_text()
        output = re.findall(r"^\d+ (LOADED .*|ERR 8 .*)$", (EXAMPLES / "texts.out").read_text(), re.M)
        texts = re.findall(r"^\d+ LOAD (FREE|FIXED)\n(.*?^ENDATA\n)", script, re.M | re.S)
        self.assertEqual(len(texts), len(output))
        for (form, text), expected in zip(texts, output):
            with self.subTest(expected):
                try:
                    model = lpd.read_model(text, fixed=form == "FIXED")
                    said = f"LOADED {len(model.rows)} {len(model.columns)}"
                except lpd.TextFault as fault:
                    said = fault.reply
                self.assertEqual(said, expected)

    def test_wide_numbers(self) -> None:
        text = LEAST.replace("R1 1\nENDATA", f"R1 {10**60}\nENDATA")
        certificate = f"OPTIMAL\nx a {10**60}\ny R1 1\nEND\n"
        with self.assertRaises(lpd.TextFault):
            lpd.check(text, certificate)
        self.assertEqual(lpd.check(text, certificate, wide=True), lpd.Accepted(lpd.Optimal(Fraction(10**60 + 3))))

    def test_numbers_as_texts(self) -> None:
        for text in ("0", "-1.5", "1/3", "0.000000000000000001", "-2/7", "170141183460469231731687303715884105727"):
            self.assertEqual(shown(number(text)), text)
        self.assertEqual(number("+.5e+2"), 50)
        self.assertEqual(number("1" * 5000, wide=True), int("1" * 4000) * 10**1000 + int("1" * 1000))
        self.assertEqual(shown(Fraction(10**9000)), "1" + "0" * 9000)

    def test_far_powers_of_ten(self) -> None:
        """The e of S 10^e counts, where S has no zeros at its end: the server takes it from -16,384 to 16,384."""
        self.assertEqual(number("1e16384", wide=True), 10**16384)
        self.assertEqual(number("10e-16385", wide=True), Fraction(1, 10**16384))
        for text in ("1e16385", "10e16384", "1e-16385", "0.1e-16384"):
            with self.assertRaises(TooWide):
                number(text, wide=True)


class TheCommand(unittest.TestCase):
    """python3 -m lpd check, which needs no program."""

    def said(self, *words: str, text: str = LEAST, certificate: str = "OPTIMAL\nx a 1\ny R1 1\nEND\n") -> Said:
        with tempfile.TemporaryDirectory() as folder:
            (Path(folder) / "certificate").write_bytes(certificate.encode())
            return command("check", "-", str(Path(folder) / "certificate"), *words, stdin=text.encode())

    def test_the_claim_is_judged_first(self) -> None:
        self.assertEqual(self.said("--claim", "4")[:2], (0, "YES OPTIMAL 4\n"))
        said = self.said("--claim", "4.5")
        self.assertEqual((said.status, said.output.splitlines()[0]), (1, "NO CLAIM"))
        self.assertIn("shows OPTIMAL 4, and the claim is OPTIMAL 4.5, which is off by 0.5", said.output)

    def test_other_claims(self) -> None:
        self.assertEqual(self.said("--claim", "infeasible").output.splitlines()[0], "NO CLAIM")
        self.assertEqual(self.said("--claim", "OPTIMAL 8/2").status, 0)
        said = self.said("--claim", "four")
        self.assertEqual((said.status, said.output), (2, ""))
        self.assertIn("the claim 'four' is no answer", said.complaints)

    def test_what_lpd_solve_prints(self) -> None:
        for path in sorted((EXAMPLES / "models").glob("*.mps")):
            form = "fixed" if ".fixed." in path.name else "free"
            answer = path.with_suffix(".solved").read_text().splitlines()[0]
            with self.subTest(path.name):
                said = command("check", str(path), str(path.with_suffix(".solved")), "--form", form)
                self.assertEqual(said, (0, f"YES {answer}\n", ""))
        answered = "OPTIMAL\nx a 1\ny R1 1\nEND\n"
        self.assertEqual(self.said(certificate=f"OPTIMAL 5\n{answered}").output.splitlines()[0], "NO CLAIM")
        self.assertEqual(self.said(certificate=f"OPTIMAL 4\nWARM PIVOTS 0\n{answered}NAME\nENDATA\n").status, 0)
        self.assertIn("without a certificate", self.said(certificate="PAST ADD 1 2\n").complaints)

    def test_a_text_without_a_last_newline(self) -> None:
        for certificate in ("OPTIMAL\nx a 1\ny R1 1\nEND\n", "OPTIMAL 4\nOPTIMAL\nx a 1\ny R1 1\nEND\n"):
            said = command("check", "-", stdin=f"{LEAST.rstrip()}{certificate}".encode())
            self.assertEqual(said[:2], (0, "YES OPTIMAL 4\n"))
            self.assertIn("no newline behind ENDATA", said.complaints)

    def test_a_value_that_is_too_long_for_a_line(self) -> None:
        value = Fraction(10**70, 3**140)
        text, certificate = LEAST.replace("R1 1\nENDATA", f"R1 {value}\nENDATA"), f"OPTIMAL\nx a {value}\ny R1 1\nEND\n"
        found = self.said(text=text, certificate=certificate).output.splitlines()
        self.assertEqual(found[:2], ["YES OPTIMAL ~1598.97", "the value is a fraction of 138 digits: --exact shows it"])
        self.assertEqual(self.said("--exact", text=text, certificate=certificate).output.splitlines()[0], f"YES OPTIMAL {value + 3}")

    def test_a_file_that_there_is_not(self) -> None:
        self.assertEqual(command("check", "none.mps"), (3, "", "lpd: none.mps: No such file or directory\n"))

    def test_a_number_past_127_bits(self) -> None:
        """It is taken as it is, with --wide and without."""
        certificate = f"OPTIMAL\nx a 1\ny R1 {10**40}\nEND\n"
        self.assertEqual(self.said(certificate=certificate).output.splitlines()[0], "NO 3")
        self.assertEqual(self.said("--wide", certificate=certificate), self.said(certificate=certificate))
        text, certificate = LEAST.replace("R1 1\nENDATA", f"R1 {10**60}\nENDATA"), f"OPTIMAL\nx a {10**60}\ny R1 1\nEND\n"
        said = self.said(text=text, certificate=certificate)
        self.assertEqual((said.status, said.output.splitlines()[0]), (0, f"YES OPTIMAL {10**60 + 3}"))
        self.assertIn("accepted by", said.output.splitlines()[1])
        with self.assertRaisesRegex(lpd.CertificateFault, "line 2 of the certificate has a number past 127 bits.*use --wide"):
            lpd.check(LEAST, certificate)

    def test_an_exponent_that_is_read_at_no_width(self) -> None:
        for words in ((), ("--wide",)):
            said = self.said(*words, certificate="OPTIMAL\nx a 1e20000\ny R1 1\nEND\n")
            self.assertEqual(said.status, 9)
            self.assertIn("line 2 of the certificate has a number whose exponent is past 16384: 'x a 1e20000'", said.complaints)
            self.assertIn("With --wide too, a decimal", said.complaints)
            self.assertNotIn("lpd check --wide", said.complaints)
            said = self.said(*words, text=LEAST.replace(" b cost 2", " b cost 2e-20000"))
            self.assertEqual(said.status, 9)
            self.assertIn("this number does not fit 127 bits, and its exponent is past 16384 (fault 10)", said.complaints)

    def test_limits_that_are_passed(self) -> None:
        many = {"row": "".join(f" L s{n}\n" for n in range(257)), "column": "".join(f" a{n} cost 1\n" for n in range(513))}
        cases = {
            LEAST.replace(" G R1\n", f" G R1\n{many['row']}"): "s255 is one too many of the rows, of which there are at most 256",
            LEAST.replace(" a cost", f"{many['column']} a cost"): "a512 is one too many of the columns, of which there are at most 512",
            LEAST.replace(" a cost 1", f" a cost 1{' ' * 17000}"): "bytes, and a line has at most 16384",
        }
        for text, why in cases.items():
            with self.assertRaisesRegex(lpd.TextFault, why):
                lpd.check(text, "OPTIMAL\nEND\n")
        certificate = "OPTIMAL\nx a 1\ny R1 1\nEND\n"
        for text in list(cases)[:2]:
            self.assertEqual(lpd.check(text, certificate, wide=True), lpd.Accepted(lpd.Optimal(Fraction(4))))
            for words in ([], ["--wide"]):
                said = self.said(*words, text=text, certificate=certificate)
                self.assertEqual((said.status, said.output.splitlines()[0]), (0, "YES OPTIMAL 4"))
                self.assertIn("accepted by ", said.output.splitlines()[1])
        with self.assertRaisesRegex(lpd.TextFault, "A card has one or two pairs"):
            lpd.read_model(LEAST.replace(" a cost 1 R1 1", " a cost 1 R1 1 R1 2"))

    def test_limits_of_large_models(self) -> None:
        rows = "".join(f" L s{n}\n" for n in range(65536))
        text = LEAST.replace(" G R1\n", f" G R1\n{rows}")
        for read in (lambda: lpd.read_model(text, wide=True), lambda: lpd.read_model(text, large=True)):
            with self.assertRaisesRegex(lpd.TextFault, "s65535 is one too many of the rows, of which there are at most 65536"):
                read()
        self.assertEqual(len(lpd.read_model(text.replace(" L s65535\n", ""), large=True).rows), 65536)
        columns = "".join(f" x{n} cost 1\n" for n in range(131073))
        with self.assertRaisesRegex(lpd.TextFault, "x131072 is one too many of the columns, of which there are at most 131072"):
            lpd.read_model(f"ROWS\n N cost\nCOLUMNS\n{columns}ENDATA\n", large=True)

    def test_a_large_model_of_fixed_form(self) -> None:
        """Its text is converted, since in free form its names have blanks."""
        rows = "".join(f" L  row {n:04}\n" for n in range(300))
        text = f"NAME\nROWS\n N  cost\n{rows}COLUMNS\n    x         cost      1\nENDATA\n"
        said = self.said(text=text, certificate="OPTIMAL\nEND\n")
        self.assertEqual((said.status, said.output.splitlines()[0]), (0, "YES OPTIMAL 0"), said.complaints)

    def test_utf8_in_errors(self) -> None:
        said = self.said(text=LEAST.replace(" b cost 2", " é_ü cost two"))
        self.assertIn("' é_ü cost two R1 1'".replace("' ", "'"), said.complaints)
        said = self.said(certificate="OPTIMAL\nx größe 1\nEND\n")
        self.assertIn("ERR 5 NAME größe", said.complaints)
        self.assertIn("the model has no column 'größe'", said.complaints)


class Reports(unittest.TestCase):
    def test_prices(self) -> None:
        model = lpd.read_model(LEAST)
        found = lpd.report(model, ["OPTIMAL", "x a 1", "y R1 1", "END"])
        self.assertEqual([(c.name, c.value, c.reduced_cost) for c in found.columns], [("a", 1, 0), ("b", 0, 1)])
        self.assertEqual([(r.name, r.activity, r.slack, r.price) for r in found.rows], [("R1", 1, 0, 1)])

    def test_prices_of_a_maximum(self) -> None:
        text = "OBJSENSE MAX\nROWS\n N gain\n L R1\nCOLUMNS\n x gain 2 R1 1\nRHS\n R1 3\nENDATA\n"
        certificate = ["OPTIMAL", "x x 3", "y R1 -2", "END"]
        self.assertEqual(str(lpd.check(text, "\n".join(certificate) + "\n")), "YES OPTIMAL 6")
        self.assertEqual(lpd.report(lpd.read_model(text), certificate).rows[0].price, 2)

    def test_a_conflict_of_rows(self) -> None:
        text = "ROWS\n N cost\n L R1\n G R2\nCOLUMNS\n x R1 1 R2 1\nRHS\n R1 1 R2 2\nENDATA\n"
        found = lpd.conflict(lpd.read_model(text), ["INFEASIBLE", "y R1 -1/7", "y R2 1/7", "END"])
        self.assertEqual(str(found), "R2 asks for 2 at least, and R1 allows 1 at most.")
        text = text.replace("x R1 1 R2 1\nRHS", "x R1 1 R2 1\n z R2 -3\nRHS").replace("ENDATA", "BOUNDS\n LO B z 1/2\nENDATA")
        found = lpd.conflict(lpd.read_model(text), ["INFEASIBLE", "y R1 -1/7", "y R2 1/7", "END"])
        self.assertEqual(str(found), "R2 asks for 2 at least, and R1 with the bound of z allow -0.5 at most.")
        found = lpd.conflict(lpd.read_model(text), ["INFEASIBLE", "y R1 -2", "y R2 1", "END"])
        self.assertEqual(str(found), "R2 asks for 2 at least, and 2 R1 with the bound of z allow 0.5 at most.")

    def test_long_multipliers(self) -> None:
        text = "ROWS\n N cost\n L R1\n G R2\nCOLUMNS\n x R1 1 R2 0.001\nRHS\n R1 1 R2 2\nENDATA\n"
        found = lpd.conflict(lpd.read_model(text), ["INFEASIBLE", "y R1 -1/3001", "y R2 1000/3001", "END"])
        self.assertEqual(str(found), "1000 R2 asks for 2000 at least, and R1 allows 1 at most.")
        found = lpd.conflict(lpd.read_model(text.replace("0.001", "3/4001")), ["INFEASIBLE", "y R1 -3", "y R2 4001", "END"])
        self.assertEqual(found.scaled().told(READABLE.word), "~1333.67 R2 asks for ~2667.33 at least, and R1 allows 1 at most.")
        self.assertEqual(str(found), "4001 R2 asks for 8002 at least, and 3 R1 allows 3 at most.")

    def test_a_row_that_alone_asks_counts_once(self) -> None:
        text = "ROWS\n N c\n E total\n G protein\nCOLUMNS\n maize total 1 protein 0.09\n soy total 1 protein 0.51\nRHS\n total 1000 protein 460\n"
        text += "BOUNDS\n UP soy 400\nENDATA\n"
        found = lpd.conflict(lpd.read_model(text), ["INFEASIBLE", "y total -9", "y protein 100", "END"])
        self.assertIn("100 protein asks for 46000 at least", str(found))
        told = "protein asks for 460 at least, and 0.09 total with the bound of soy allow 258 at most."
        self.assertEqual(found.scaled().told(READABLE.word), told)
        text = text.replace("0.09", "1/9")
        found = lpd.conflict(lpd.read_model(text), ["INFEASIBLE", "y total -1", "y protein 9", "END"])
        self.assertIn("9 protein asks for", found.scaled().told(READABLE.word))

    def test_sums_that_contradict_each_other(self) -> None:
        rows = [f" G d{n}" for n in range(40)] + [f" L s{n}" for n in range(3)]
        cards = [f" x{i}.{j} s{i} 1 d{j} 1" for i in range(3) for j in range(40)]
        sides = [f" d{j} 82.635" for j in range(40)] + [f" s{i} 982.75" for i in range(3)]
        text = "\n".join(["ROWS", " N cost", *rows, "COLUMNS", *cards, "RHS", *sides, "ENDATA", ""])
        certificate = ["INFEASIBLE", *(f"y d{j} 1/9" for j in range(40)), *(f"y s{i} -1/9" for i in range(3)), "END"]
        found = lpd.conflict(lpd.read_model(text), certificate)
        self.assertEqual(str(found), "d0 + d1 + d2 + .. + d39 (40 rows) ask for 3305.4 at least, and s0 + s1 + s2 allow 2948.25 at most.")

    def test_upper_limits_alone(self) -> None:
        text = "ROWS\n N c\n L a\n L b\nCOLUMNS\n x a 1 b 1\n y a 1 b -1\nRHS\n a 3 b 3\nBOUNDS\n LO x 4\nENDATA\n"
        found = lpd.conflict(lpd.read_model(text), ["INFEASIBLE", "y a -1", "y b -1", "END"])
        self.assertEqual(str(found), "a + b allow 6 at most, and the bound of x asks for 8 at least.")

    def test_a_conflict_with_the_columns(self) -> None:
        text = (EXAMPLES / "models" / "diet.mps").read_text().replace("energy 2000", "energy 5000")
        found = lpd.conflict(lpd.read_model(text), ["INFEASIBLE", "y energy 1/205", "END"])
        self.assertEqual(str(found), "Row energy asks for 5000 at least, and the bounds of the columns allow 4015 at most.")
        text = "ROWS\n N c\n L r\nCOLUMNS\n x r 2\nRHS\n r 3\nBOUNDS\n LO B x 5\nENDATA\n"
        found = lpd.conflict(lpd.read_model(text), ["INFEASIBLE", "y r -1/3", "END"])
        self.assertEqual(str(found), "Row r allows 3 at most, and the bound of x asks for 10 at least.")
        text = "ROWS\n N c\n L r\nCOLUMNS\n x r 2\n z r 1\nRHS\n r 3\nBOUNDS\n LO B x 5\n LO B z 1\nENDATA\n"
        found = lpd.conflict(lpd.read_model(text), ["INFEASIBLE", "y r -1/3", "END"])
        self.assertEqual(str(found), "Row r allows 3 at most, and the bounds of x and z ask for 11 at least.")

    def test_a_conflict_of_bounds(self) -> None:
        text = "ROWS\n N c\nCOLUMNS\n x c 2\nBOUNDS\n LO B x 5\n UP B x 4.5\nENDATA\n"
        found = lpd.conflict(lpd.read_model(text), ["CLASH x", "END"])
        self.assertEqual(str(found), "Column x has the lower bound 5 above its upper bound 4.5.")
