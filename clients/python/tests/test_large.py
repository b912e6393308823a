"""Models of more rows or columns than lpd solve takes: by which ways they are answered, how their bases are refined, and what is shown."""
import contextlib
import io
import json
import random
import sys
import tempfile
import unittest
from fractions import Fraction
from pathlib import Path
from typing import Optional
from unittest import mock

import lpd
from lpd import progress
from lpd.certifying import NotAnswered, TooLarge, certify
from lpd.dialects import PROFILE, written
from lpd.exact import BASIC, LOWER, UPPER, Basis, Simplex, Watch
from lpd.floating import Claim, coin_lines, glpsol_lines
from lpd.model import Model, read_model
from lpd.refining import Point, Refined, whole
from lpd.certificate import matched, read_certificate
from lpd.ways import LARGE_SECONDS, SECONDS, WIDE, Effort, Unanswered, answered

from .commands import command
from .large import EACH, ROWS, VALUE, best_basis, end_of, large_model, refused, solved, standing_in
from .models import some_model

TEXT = written(large_model(), PROFILE).text


def asked(name: str, model: Model, seconds: Optional[float] = None, begin: Optional[Basis] = None) -> Claim:
    """A solver that ends with a basis which is not optimal for one row, and refines it."""
    if model.name == "refined":
        return Claim("OPTIMAL", basis=end_of(Simplex(model, begin or Basis())))
    basis = best_basis()
    basis.columns.update({"x0.100": LOWER, "x0.101": BASIC})
    return Claim("OPTIMAL", VALUE, basis)


@contextlib.contextmanager
def solvers(*names: str):  # type: ignore[no-untyped-def]
    with mock.patch("lpd.ways.solvers_there", return_value=list(names)), mock.patch("lpd.floating.ask", asked):
        with mock.patch("lpd.certifying.ask", asked), mock.patch("lpd.refining.ask", asked):
            yield


class Ways(unittest.TestCase):
    def test_from_a_basis_that_its_solver_refines(self) -> None:
        with standing_in(), solvers("clp"):
            found = answered(TEXT, read_model(TEXT, large=True))
        self.assertEqual((found.answer, found.accepted_by, found.solver), (lpd.Optimal(VALUE), WIDE, "clp"))
        self.assertEqual(found.notes, ["the first try, lpd solve --wide, has no answer", "clp refined its basis once"])

    def test_the_command_certify(self) -> None:
        with standing_in(), solvers("clp"):
            found = certify(TEXT, "clp")
        self.assertEqual((found.known, found.judge), (lpd.Optimal(VALUE), "lpd check --wide"))
        self.assertEqual(found.why, "the model has more than 256 rows or 512 columns")

    def test_without_a_solver(self) -> None:
        with standing_in(), solvers():
            found = answered(TEXT, read_model(TEXT, large=True))
            self.assertEqual((found.answer, found.notes), (lpd.Open(), ["the first try, lpd solve --wide, has no answer"]))
            with self.assertRaisesRegex(NotAnswered, "lpd solve --wide has no answer: it ends with OPEN"):
                certify(TEXT, "none")
            with self.assertRaisesRegex(TooLarge, "exact steps in Python are for no model as large"):
                certify(TEXT, "none", way="python")

    def test_certify_without_a_solver(self) -> None:
        """It asks lpd solve --wide."""
        with standing_in(solved):
            found = certify(TEXT, "none")
        self.assertEqual((found.known, found.judge, found.command), (lpd.Optimal(VALUE), "lpd check --wide", "lpd solve --wide"))

    def test_a_program_that_does_not_take_it(self) -> None:
        with standing_in(refused), solvers("clp"):
            with self.assertRaisesRegex(Unanswered, "which lpd solve --wide of this program does not take, and from clp's basis"):
                answered(TEXT, read_model(TEXT, large=True))
            with self.assertRaisesRegex(NotAnswered, "line 260 of the model is past what it takes"):
                certify(TEXT, "clp")

    def test_seconds(self) -> None:
        self.assertEqual([Effort().limit(model) for model in (Model(), large_model())], [SECONDS, LARGE_SECONDS])
        self.assertEqual(Effort(seconds=3).limit(large_model()), 3)


class Commands(unittest.TestCase):
    def setUp(self) -> None:
        folder = tempfile.TemporaryDirectory()
        self.addCleanup(folder.cleanup)
        self.model, self.certificate = Path(folder.name) / "large.mps", Path(folder.name) / "large.certificate"
        self.model.write_text(TEXT)

    def test_solve_shows_a_summary_and_check_takes_what_it_wrote(self) -> None:
        with standing_in(), solvers("clp"):
            said = command("solve", str(self.model), "-o", str(self.certificate))
            self.assertEqual(said.status, 0)
            self.assertIn(f"303 of {ROWS * EACH} columns are not 0; {ROWS} of {ROWS} rows bind, and {ROWS} have a price.", said.output)
            self.assertIn("\nx0.19   =1     =-81", said.output)
            self.assertNotIn("\nx0.20 ", said.output)
            self.assertNotIn("columns are not 0", command("solve", str(self.model), "--show", "answer").output)
            checked = command("check", str(self.model), str(self.certificate))
            self.assertEqual((checked.status, checked.output), (0, "YES OPTIMAL 15301.5\naccepted by lpd check --wide, and by the checker in Python\n"))
            self.certificate.write_text(self.certificate.read_text().replace("x x0.100 0.5", "x x0.100 0.4"))
            self.assertEqual(command("check", str(self.model), str(self.certificate)).status, 1)

    def test_all_and_json_and_csv(self) -> None:
        with standing_in(), solvers("clp"):
            self.assertIn("\nx2.199  ", command("solve", str(self.model), "--all").output)
            told = json.loads(command("solve", str(self.model), "--json").output)
            self.assertEqual(len(told["columns"]), ROWS * EACH)
            self.assertEqual(len(command("solve", str(self.model), "--csv").output.splitlines()), 2 + ROWS + ROWS * EACH)

    def test_batch_and_convert(self) -> None:
        with standing_in(), solvers("clp"):
            told = json.loads(command("batch", str(self.model), "--json").output)
        self.assertEqual((told[0]["answer"], told[0]["accepted by"]), ("OPTIMAL", "lpd check --wide"))
        said = command("convert", str(self.model))
        self.assertEqual((said.status, said.output), (0, TEXT))
        self.assertIn("so it is one for the commands with --wide", said.complaints)


class Refinement(unittest.TestCase):
    def test_the_refined_model_leads_to_an_optimal_basis(self) -> None:
        """Of models of all kinds, from any basis; the exact point is by the elimination in Python."""
        dice = random.Random(66)
        tried = 0
        for _ in range(60):
            model = some_model(dice)
            best = Simplex(model, Basis())
            if best.run()[0] != "OPTIMAL":
                continue
            begin = whole(model, Basis())
            found = Refined(model, begin, Point({name: value for name, value in zip(model.columns, Simplex(model, begin).values)}, {}))
            end = Simplex(found.model, found.begin())
            if end.run()[0] != "OPTIMAL":
                continue
            tried += 1
            steps = Simplex(model, found.end(end_of(Simplex(found.model, found.begin()))))
            self.assertEqual((steps.run()[0], steps.steps), ("OPTIMAL", 0), written(model, PROFILE).text)
        self.assertGreater(tried, 10)


class Bases(unittest.TestCase):
    def test_as_other_programs_read_them(self) -> None:
        model = read_model("ROWS\n N cost\n G a\n L b\nCOLUMNS\n x cost 1 a 1\n y cost 1 b 1\nBOUNDS\n UP BND y 4\nENDATA\n")
        basis = Basis({"x": BASIC, "y": UPPER}, {"a": LOWER, "b": BASIC})
        self.assertEqual(coin_lines(model, basis), ["NAME", " XL x a", " UL y _dummy_ 0.0", "ENDATA"])
        self.assertEqual(glpsol_lines(model, basis)[1:-1], ["i 1 l 0 0", "i 2 b 0 0", "j 1 b 0 0", "j 2 u 0 0"])


class Progress(unittest.TestCase):
    def test_a_bar(self) -> None:
        self.assertEqual(progress.bar(1, 4), "[#####...............]")
        self.assertEqual((progress.bar(0, 0), progress.bar(9, 3)), (f"[{'.' * 20}]", f"[{'#' * 20}]"))

    def test_a_line_a_minute(self) -> None:
        told = io.StringIO()
        with mock.patch.object(progress, "by_command", True), mock.patch.object(sys, "stderr", told), Watch(600) as watch:
            watch.tell("clp")
            watch.started -= 61
            watch.tell("clp")
            watch.tell("clp")
        self.assertEqual(told.getvalue(), "lpd: clp, 61 of at most 600 seconds\n")


if __name__ == "__main__":
    unittest.main()
