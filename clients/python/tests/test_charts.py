"""Pictures of what is large: the bits of certificates, the matrices of bases, and times of batches."""
import random
import re
import tempfile
import unittest
from pathlib import Path
from typing import List, Set, Tuple
from xml.etree import ElementTree

from lpd.charts import Matrix, Series, bars_picture, bits_picture, matrix_of, order_of, parts_of, series_of, sparsity_picture
from lpd.dialects import PROFILE, written
from lpd.exact import Basis, Simplex
from lpd.plotting import NoPicture

from .commands import command
from .large import EACH, ROWS, best_basis, end_of, large_model
from .models import some_model

SVG = "{http://www.w3.org/2000/svg}"
TABLE = "model,seconds,solver seconds,certify seconds\na,0.010,0.020,0.030\nb,10.0,,\nc & d,0.000,1,2\n"


def title_of(picture: str) -> str:
    return ElementTree.fromstring(picture).findtext(f"{SVG}text") or ""


class Bits(unittest.TestCase):
    def test_each_number_of_a_certificate(self) -> None:
        model = large_model()
        lines = Simplex(model, best_basis()).run()
        x, y = parts_of(model, lines)
        self.assertEqual((len(x.bits), len(y.bits)), (ROWS * EACH, ROWS))
        self.assertEqual((x.bits[:100], x.bits[100], x.bits[101:200]), ([1] * 100, 2, [0] * 99))
        self.assertEqual(y.bits, [7] * ROWS)
        picture = bits_picture(model, lines)
        self.assertEqual(title_of(picture), "large: x of at most 2 bits, y of at most 7 bits")
        heights = [path.attrib["d"].count("V") for path in ElementTree.fromstring(picture).iter(f"{SVG}path")]
        self.assertEqual(heights[1], ROWS)
        self.assertGreater(heights[0], ROWS * 95)

    def test_a_contradiction_has_rows_alone(self) -> None:
        model = large_model()
        lines = ["INFEASIBLE", "y need0 1/1024", "END"]
        self.assertEqual([(part.letter, part.bits[0]) for part in parts_of(model, lines)], [("y", 11)])
        with self.assertRaisesRegex(NoPicture, "the certificate has no numbers"):
            bits_picture(model, ["CLASH x0.0", "END"])

    def test_the_command(self) -> None:
        with tempfile.TemporaryDirectory() as folder:
            model, certificate = Path(folder) / "large.mps", Path(folder) / "certificate"
            model.write_text(written(large_model(), PROFILE).text)
            certificate.write_text("".join(f"{line}\n" for line in ["OPTIMAL 1", *Simplex(large_model(), best_basis()).run()]))
            said = command("plot", str(model), "--bits", "--certificate", str(certificate), "-o", "-")
            self.assertEqual((said.status, title_of(said.output)), (0, "large: x of at most 2 bits, y of at most 7 bits"))


class Sparsity(unittest.TestCase):
    def left_over(self, matrix: Matrix) -> Tuple[Set[int], Set[int]]:
        """The rows and columns that are left where any of one number goes, with what crosses it, until none is left."""
        rows, columns = set(range(matrix.rows)), set(range(len(matrix.columns)))
        while True:
            numbers = [(row, n) for n in columns for row in matrix.columns[n] if row in rows]
            one = next((pair for pair in numbers if 1 in (sum(pair[at] == other[at] for other in numbers) for at in (0, 1))), None)
            if one is None:
                return rows, columns
            rows.discard(one[0])
            columns.discard(one[1])

    def triangular(self, matrix: Matrix, rows: List[int], columns: List[int]) -> None:
        """Each pair has a number, and each is the only one of its row or of its column that is left."""
        for n, (row, column) in enumerate(zip(rows, columns)):
            self.assertIn(row, matrix.columns[column])
            of_column = [other for other in matrix.columns[column] if other not in rows[:n]]
            of_row = [other for other, entries in enumerate(matrix.columns) if row in entries and other not in columns[:n]]
            self.assertIn(1, (len(of_column), len(of_row)))

    def test_as_many_as_can_be_are_triangular(self) -> None:
        dice = random.Random(7)
        nuclei = 0
        for _ in range(60):
            model = some_model(dice)
            matrix = matrix_of(model, end_of(Simplex(model, Basis())))
            if dice.random() < 0.5:
                diagonal = dice.sample(range(9), 9)
                matrix = Matrix([sorted({row, *dice.sample(range(9), dice.randint(0, 3))}) for row in diagonal], 9)
            order = order_of(matrix)
            self.assertEqual((sorted(order.rows), sorted(order.columns)), (list(range(matrix.rows)), list(range(len(matrix.columns)))))
            self.triangular(matrix, order.rows[: order.singletons], order.columns[: order.singletons])
            rows, columns = self.left_over(matrix)
            self.assertEqual((set(order.rows[order.singletons :]), set(order.columns[order.singletons :])), (rows, columns))
            nuclei += bool(rows)
        self.assertGreater(nuclei, 5)

    def test_the_picture_is_small(self) -> None:
        picture = sparsity_picture(large_model(), best_basis())
        self.assertEqual(title_of(picture), f"large: {ROWS} rows, {ROWS} by singletons; nucleus of 0 rows and 0 numbers")
        path = next(ElementTree.fromstring(picture).iter(f"{SVG}path")).attrib["d"]
        self.assertEqual(path.count("M"), ROWS)

    def test_the_command(self) -> None:
        with tempfile.TemporaryDirectory() as folder:
            model, basis = Path(folder) / "large.mps", Path(folder) / "basis"
            model.write_text(written(large_model(), PROFILE).text)
            basis.write_text("NAME\n XL x0.100 need0\n XL x1.100 need1\nENDATA\n")
            said = command("plot", str(model), "--sparsity", "--basis", str(basis), "-o", "-")
            self.assertEqual((said.status, title_of(said.output).partition(":")[0]), (0, "large"))
            basis.write_text("")
            self.assertEqual(command("plot", str(model), "--sparsity", "--basis", str(basis), "-o", "-").status, 2)


class Bars(unittest.TestCase):
    def test_what_a_table_says(self) -> None:
        found = series_of(TABLE, [])
        self.assertEqual([each.name for each in found], ["lpd", "the other solver", "its basis made exact, and checked"])
        self.assertEqual(found[1].seconds, {"a": 0.02, "c & d": 1.0})
        with self.assertRaisesRegex(NoPicture, "no column of seconds"):
            series_of("model,rows\na,1\n", [])

    def test_bars_along_powers_of_ten(self) -> None:
        picture = bars_picture("batch", [Series("lpd", {"a": 0.01, "b": 10.0}), Series("clp", {"a": 0.1})])
        drawn = ElementTree.fromstring(picture)
        widths = {bar.findtext(f"{SVG}title"): float(bar.attrib["width"]) for bar in drawn.iter(f"{SVG}rect") if bar.findtext(f"{SVG}title")}
        self.assertEqual(list(widths), ["a: lpd 0.01 s", "a: clp 0.1 s", "b: lpd 10 s"])
        least, more, most = widths.values()
        self.assertEqual(least, 1)
        self.assertAlmostEqual(more * 3, most, places=1)
        self.assertEqual(re.findall(r">(\S+ s)</text>", picture), ["0.01 s", "0.1 s", "1 s", "10 s"])

    def test_the_command(self) -> None:
        with tempfile.TemporaryDirectory() as folder:
            table, other = Path(folder) / "table.csv", Path(folder) / "glpsol.csv"
            table.write_text(TABLE)
            other.write_text("model,seconds\na,3\n")
            said = command("plot", str(table), "-o", "-")
            self.assertEqual((said.status, said.output.count("<title>")), (0, 7))
            said = command("plot", str(table), "--beside", str(other), "-o", "-")
            self.assertEqual((said.status, said.output.count("<title>")), (0, 4))
            self.assertIn(">glpsol<", said.output)


if __name__ == "__main__":
    unittest.main()
