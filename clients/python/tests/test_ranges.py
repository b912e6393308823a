"""Ranges of costs and right sides: what the program writes of them, what gives a basis up, the optimum piece by piece, and what is
shown. On random models a range is tried beside solves within it, at its ends and behind them."""
import csv
import io
import json
import os
import random
import tempfile
import unittest
from fractions import Fraction
from pathlib import Path
from typing import Dict, List, Optional, Tuple
from unittest import mock
from xml.etree import ElementTree

import lpd
from lpd.dialects import PROFILE, written
from lpd.exact import BASIC, UPPER, Basis
from lpd.model import Model
from lpd.once import has_command, output_of
from lpd.pieces import DOWN, UP, Piece, Walk, edge, picture_of
from lpd.ranging import COST, RHS, Range, number_of, numbers_of, range_of, read_range, read_ranges, with_number
from lpd.tableau import Gap, Tableau, ends_of

from .commands import Said, command, reported
from .models import has_program, some_model

MODELS = Path(__file__).resolve().parents[3] / "examples" / "models"
DIET = str(MODELS / "diet.mps")
SHOP = """NAME shop
OBJSENSE MAX
ROWS
 N gain
 L R1
 L R2
COLUMNS
 x gain 2 R1 1
 x R2 1
 y gain 1 R1 1
 y R2 -1
RHS
 RHS R1 4
 RHS R2 2
ENDATA
"""
# The optimum over the right side of need is 0 up to 1, and then its double less 2 up to 4: more there cannot be.
KINKED = """ROWS
 N cost
 G need
COLUMNS
 own need 1
 bought cost 2 need 1
RHS
 need 3
BOUNDS
 UP own 1
 UP bought 3
ENDATA
"""


def ready() -> bool:
    return has_program() and has_command("range")


class Written(unittest.TestCase):
    """What the program writes."""

    def test_what_is_read(self) -> None:
        now = Fraction(1)
        answer, found = read_range(["OPTIMAL 7", "RANGE -2 2 SLOPE 1"], now)
        self.assertEqual((answer, found), (lpd.Optimal(Fraction(7)), Range(now, Fraction(7), Fraction(-2), Fraction(2), now)))
        _, found = read_range(["OPTIMAL 7", "RANGE 2 NONE SLOPE 1.5"], now)
        if not isinstance(found, Range):
            self.fail()
        self.assertEqual((found.low, found.high, found.slope, found.optimum(Fraction(3))), (2, None, Fraction(3, 2), 10))
        self.assertEqual([number in found for number in (now, Fraction(2), Fraction(10**9))], [False, True, True])
        self.assertEqual(read_range(["OPTIMAL 7", "PAST DIV 1 3"], now)[1], lpd.Past("DIV", now, Fraction(3)))
        for line in ("INFEASIBLE", "UNBOUNDED", "SPENT 10000", "PAST MUL 1 3"):
            self.assertEqual((str(read_range([line], now)[0]), read_range([line], now)[1]), (line, None))

    def test_what_is_none(self) -> None:
        for lines in ([], ["RANGE 1 2 SLOPE 1"], ["OPTIMAL 1"], ["OPTIMAL 1", "RANGE 1 2"], ["OPTIMAL 1", "RANGE 1 2 SLOPE q"], ["OPTIMAL 1", "RANGE 1 2 SLOPE 1", ""]):
            with self.assertRaises(lpd.Unexpected):
                read_range(lines, Fraction(0))


class WrittenOfAll(unittest.TestCase):
    """What the program writes of all numbers."""

    model = lpd.read_model(SHOP)
    lines = [
        "OPTIMAL 7",
        "cost x RANGE -1 NONE SLOPE 3",
        "cost y PAST DIV 1 3",
        "rhs R1 RANGE 2 NONE SLOPE 1.5",
        "rhs R2 RANGE -4 4 SLOPE 0.5",
    ]

    def test_what_is_read(self) -> None:
        found = read_ranges(self.lines, self.model)
        self.assertEqual((found.answer, list(found.costs), list(found.sides)), (lpd.Optimal(Fraction(7)), ["x", "y"], ["R1", "R2"]))
        one = found.sides["R2"]
        self.assertEqual((one.now, one.says(), one.is_proved) if isinstance(one, Range) else one, (2, (-4, 4, Fraction(1, 2)), True))
        self.assertEqual(found.costs["y"], lpd.Past("DIV", Fraction(1), Fraction(3)))
        self.assertEqual(found.told(), "lpd range all, which is proved, says the same of 3 of the 4 ranges. The rest were found in Python alone.")
        self.assertEqual(read_ranges(["INFEASIBLE"], self.model), lpd.Ranges(lpd.Infeasible()))

    def test_what_is_none(self) -> None:
        other_order = [*self.lines[:3], self.lines[4], self.lines[3]]
        for lines in ([], self.lines[:4], [*self.lines, "rhs R2 RANGE -4 4 SLOPE 0.5"], other_order, [*self.lines[:4], "rhs R2"]):
            with self.assertRaises(lpd.Unexpected):
                read_ranges(lines, self.model)


class Steps(unittest.TestCase):
    """The ratio test, and the tableau of a basis that is given."""

    def test_the_ratio_test(self) -> None:
        one, two = Fraction(1), Fraction(2)
        found = ends_of([Gap(one, one, "a"), Gap(two, two, "b"), Gap(two, -one, "c"), Gap(one, Fraction(0), "d")])
        self.assertEqual(found, (1, 2, ["a", "b"], ["c"]))
        self.assertEqual(ends_of([]), (None, None, [], []))

    def test_a_tableau(self) -> None:
        """With more of R1 x and y go up, and with less y comes to 0; at a cost of 2 for y the row R2 gets slack, and at -2 R1."""
        model = lpd.read_model(SHOP)
        tableau = Tableau(model, Basis({"x": BASIC, "y": BASIC}, {"R1": UPPER, "R2": UPPER}))
        self.assertEqual(tableau.simplex.steps, 0)
        self.assertEqual(tableau.of_side("R1"), (2, None, ["y comes to its lower bound"], []))
        self.assertEqual(tableau.of_cost("y"), (3, 1, ["R1 leaves its upper limit"], ["R2 leaves its upper limit"]))

    def test_another_basis_is_gone_on_from(self) -> None:
        self.assertEqual(Tableau(lpd.read_model(SHOP), Basis()).certificate[0], "OPTIMAL")


class Pieces(unittest.TestCase):
    """The walk from piece to piece, over ranges that are made of lines."""

    LINES = [(Fraction(slope), Fraction(start)) for slope, start in ((-2, 3), (0, 0), (1, -1), (3, -9), (7, -100))]
    KINKS = [Fraction(4, 3), Fraction(4), Fraction(91, 4)]

    def walk(self, now: Fraction, below: Optional[Fraction] = None, above: Optional[Fraction] = None) -> "lpd.Curve":
        """The greatest of some lines, which are convex together, between two numbers. A range is half a unit on each side, or less."""
        ends = [end for end in (below, above) if end is not None]

        def range_of(model: Model, what: str, name: str) -> "Tuple[lpd.Answer, Optional[Range]]":
            number = model.rows[name].rhs
            if below is not None and number < below or above is not None and number > above:
                return lpd.Infeasible(), None
            value, slope = max((slope * number + start, slope) for slope, start in self.LINES)
            low = max([number - Fraction(1, 2), *(end for end in self.KINKS + ends if end <= number)])
            high = min([number + Fraction(1, 2), *(end for end in self.KINKS + ends if end > number or end == above)])
            return lpd.Optimal(value), Range(number, value, low, high, slope)

        def edge(model: Model, *_: object) -> Optional[Fraction]:
            number = model.rows["row"].rhs
            return (above if above is not None and number > above else below or Fraction(0)) - number

        model = lpd.read_model(f"ROWS\n N c\n G row\nCOLUMNS\nRHS\n row {now}\nENDATA\n")
        with mock.patch("lpd.pieces.range_of", range_of), mock.patch("lpd.pieces.edge", edge), mock.patch("lpd.pieces.by_lpd"):
            _, first = range_of(model, RHS, "row")
            self.assertIsNotNone(first)
            return Walk(model, RHS, "row").curve(first or Range(now, now, now, now, now), 9)

    def slopes(self, found: "lpd.Curve") -> List[Fraction]:
        kept: List[Fraction] = []
        for piece in found.pieces:
            kept += [piece.slope] if kept[-1:] != [piece.slope] else []
        return kept

    def test_ends_where_there_is_no_optimum(self) -> None:
        found = self.walk(Fraction(5), Fraction(2), Fraction(23))
        self.assertEqual((found.pieces[0].low, found.pieces[-1].high), (2, 23))
        self.assertEqual((found.beyond[DOWN], found.beyond[UP]), ("INFEASIBLE", "INFEASIBLE"))
        self.assertEqual(self.slopes(found), [1, 3, 7])
        for piece, after in zip(found.pieces, found.pieces[1:]):
            self.assertEqual(piece.high, after.low)
            self.assertEqual(piece.optimum(piece.high or Fraction(0)), after.optimum(piece.high or Fraction(0)))
        ElementTree.fromstring(picture_of(found, "row", "right side of"))

    def test_more_pieces_than_are_followed(self) -> None:
        found = self.walk(Fraction(5))
        self.assertEqual((found.beyond[DOWN], found.beyond[UP]), ("more pieces", "more pieces"))

    def test_where_lines_meet(self) -> None:
        piece = Piece(Fraction(0), Fraction(1), Fraction(0), Fraction(0), Fraction(1))
        other = Range(Fraction(3), Fraction(5), Fraction(3), None, Fraction(2))
        self.assertEqual(piece.meets(other), 1)
        with self.assertRaises(lpd.Unexpected):
            piece.meets(Range(Fraction(3), Fraction(5), None, None, Fraction(1)))

    def test_how_far_a_certificate_holds(self) -> None:
        model = with_number(lpd.read_model(KINKED), RHS, "need", Fraction(9))
        self.assertEqual(edge(model, RHS, "need", lpd.Infeasible(), ["INFEASIBLE", "y need 1", "END"]), -5)
        open_model = lpd.read_model("ROWS\n N cost\nCOLUMNS\n x cost -3\nENDATA\n")
        self.assertEqual(edge(open_model, COST, "x", lpd.Unbounded(), ["UNBOUNDED", "r x 2", "END"]), 3)
        self.assertIsNone(edge(open_model, COST, "x", lpd.Infeasible(), ["CLASH x", "END"]))


class WithoutTheCommand(unittest.TestCase):
    """A program that does not know the command ends with status 2."""

    @unittest.skipUnless(has_program(), "the program is not built")
    def test_it_is_told_in_a_line(self) -> None:
        with mock.patch("lpd.commands.range_tables.ranges", side_effect=lpd.CommandMissing("range")):
            said = command("solve", DIET, "--ranges", "--show", "answer")
        self.assertEqual(said, (0, reported("OPTIMAL 92.5\n"), "lpd: there are no ranges: this program has no command range\n"))
        with mock.patch("lpd.commands.range_tables.curve_of", side_effect=lpd.CommandMissing("range")):
            said = command("solve", DIET, "--plot", "energy", "--show", "answer")
        self.assertEqual(said, (0, reported("OPTIMAL 92.5\n"), "lpd: there is no picture: this program has no command range\n"))

    def test_its_status(self) -> None:
        with tempfile.TemporaryDirectory() as folder:
            program = Path(folder) / "lpd"
            program.write_text("#!/bin/sh\n/bin/cat >/dev/null; exit 2\n")
            program.chmod(0o755)
            with self.assertRaises(lpd.CommandMissing) as raised:
                range_of(lpd.read_model(SHOP), COST, "x", str(program))
        self.assertEqual((str(raised.exception), raised.exception.status), ("this program has no command range", 2))


@unittest.skipUnless(ready() and has_command("range all"), "there is no program, or it does not range all numbers")
class AllAtOnce(unittest.TestCase):
    """`lpd range all` writes what `lpd range` writes of each cost and then of each right side, and nothing else."""

    def compare(self, text: str, *form: str) -> int:
        """How many numbers have a range."""
        model, body = lpd.read_model(text, fixed=bool(form)), text.splitlines()
        first, *lines = output_of(["range", "all", *form], body)
        self.assertEqual(first, output_of(["solve", *form], body)[0])
        if not first.startswith("OPTIMAL "):
            self.assertEqual(lines, [])
            return 0
        numbers = numbers_of(model)
        self.assertEqual([line.split(" ")[:2] for line in lines], [[what, name] for what, name in numbers])
        for line, (what, name) in zip(lines, numbers):
            if not name.startswith("-"):  # which begins no name on a command line
                alone = output_of(["range", what, name, *form], body)
                self.assertEqual([first, line], [alone[0], f"{what} {name} {alone[1]}"])
        return sum(" RANGE " in line for line in lines)

    def test_the_examples(self) -> None:
        counts = {path.stem: self.compare(path.read_text(), *(["--form", "fixed"] if ".fixed" in path.name else []))
                  for path in sorted(MODELS.glob("*.mps"))}
        self.assertEqual((counts["diet"], counts["orders"]), (9, 0))
        self.assertGreater(sum(map(bool, counts.values())), 3)

    def test_random_models(self) -> None:
        dice = random.Random(int(os.environ.get("SEED", "9")))
        models = [some_model(dice) for _ in range(int(os.environ.get("MODELS", "25")))]
        self.assertGreater(sum(self.compare(written(model, PROFILE).text) for model in models), 0)

    def test_the_examples_are_proved(self) -> None:
        """Those of all examples are: what the tableau has the program has too."""
        for path in sorted(MODELS.glob("*.mps")):
            found = lpd.ranges(path.read_text(), fixed=".fixed" in path.name)
            every = [*found.costs.values(), *found.sides.values()]
            self.assertTrue(all(isinstance(one, Range) and one.is_proved for one in every), path.stem)


@unittest.skipUnless(ready(), "there is no program, or it has no command range")
class WithTheProgram(unittest.TestCase):
    def test_a_model_of_two_columns(self) -> None:
        found = lpd.ranges(SHOP)
        self.assertEqual(found.answer, lpd.Optimal(Fraction(7)))
        cost, side = found.costs["y"], found.sides["R1"]
        if not isinstance(cost, Range) or not isinstance(side, Range):
            self.fail()
        self.assertEqual((cost.now, cost.low, cost.high, cost.slope), (1, -2, 2, 1))
        self.assertEqual((cost.below, cost.above), (["R1 leaves its upper limit"], ["R2 leaves its upper limit"]))
        self.assertEqual((side.now, side.low, side.high, side.slope), (4, 2, None, Fraction(3, 2)))
        self.assertEqual((side.below, side.above), (["y comes to its lower bound"], []))

    def test_without_the_command_for_all(self) -> None:
        """The ranges are the same, and none is called proved."""
        whole = lpd.ranges(SHOP)
        for why in (lpd.CommandMissing("range"), lpd.OutOfTime("lpd range is not done in 2 seconds")):
            with mock.patch("lpd.ranging.output_of", side_effect=why):
                found = lpd.ranges(SHOP)
            self.assertEqual(found, whole)
            self.assertEqual(found.told(), "None of the 4 ranges is proved: they were found in Python alone.")

    def test_a_large_model(self) -> None:
        """It goes to no command that has the limits of a session."""
        columns = "".join(f" x{n} cost {n % 7 + 1} need 1\n" for n in range(600))
        found = lpd.ranges(f"ROWS\n N cost\n G need\nCOLUMNS\n{columns}RHS\n need 4\nENDATA\n")
        self.assertEqual((found.answer, len(found.costs), found.sides["need"].slope), (lpd.Optimal(Fraction(4)), 600, 1))

    def test_a_session(self) -> None:
        with lpd.Session() as session:
            session.load(SHOP)
            session.set_rhs("R1", 2)
            found = session.ranges().sides["R1"]
            self.assertEqual(session.solve(), lpd.Optimal(Fraction(4)))
        self.assertEqual((found.now, Fraction(2) in found) if isinstance(found, Range) else found, (2, True))

    def test_other_ends(self) -> None:
        self.assertEqual(lpd.ranges((MODELS / "orders.mps").read_text()), lpd.Ranges(lpd.Infeasible()))
        with self.assertRaises(lpd.UnknownName):
            range_of(lpd.read_model(SHOP), COST, "R1")
        with self.assertRaises(lpd.TextFault):
            lpd.ranges("ENDATA\n")

    def test_a_name_that_begins_like_an_option(self) -> None:
        found = lpd.ranges("ROWS\n N c\n G -r\nCOLUMNS\n -x c 2 -r 1\n _x c 3 -r 1\nRHS\n -r 4\nENDATA\n")
        self.assertEqual((list(found.costs), list(found.sides)), (["-x", "_x"], ["-r"]))
        self.assertEqual([one.slope for one in [*found.costs.values(), *found.sides.values()] if isinstance(one, Range)], [4, 0, 2])

    def test_two_bases_of_one_optimum(self) -> None:
        """At a degenerate optimum there are two bases, and the ranges that are told are those of one of them."""
        text = "ROWS\n N cost\n G {}\n G {}\nCOLUMNS\n x cost 1 once 1\n x twice 2\nRHS\n once 1 twice 2\nENDATA\n"
        half = Fraction(1, 2)
        tight_once = {"once": (1, None, 1), "twice": (None, 2, 0)}
        tight_twice = {"once": (None, 1, 0), "twice": (2, None, half)}
        for rows in (("once", "twice"), ("twice", "once")):
            found = lpd.ranges(text.format(*rows))
            told = {name: (one.low, one.high, one.slope) for name, one in found.sides.items() if isinstance(one, Range)}
            self.assertIn(told, [tight_once, tight_twice])

    def test_the_optimum_piece_by_piece(self) -> None:
        model = lpd.read_model(KINKED)
        answer, found = lpd.curve_of(model, RHS, "need")
        if not isinstance(found, lpd.Curve):
            self.fail(f"{answer} {found}")
        self.assertEqual([(piece.low, piece.high, piece.slope) for piece in found.pieces], [(None, 1, 0), (1, 4, 2)])
        self.assertEqual((found.beyond.get(UP), DOWN in found.beyond, found.kinks()), ("INFEASIBLE", False, [(1, 0), (4, 6)]))
        answer, found = lpd.curve_of(model, COST, "own")
        if not isinstance(found, lpd.Curve):
            self.fail(f"{answer} {found}")
        self.assertEqual([(piece.low, piece.high, piece.slope) for piece in found.pieces], [(None, 2, 1), (2, None, 0)])

    def test_over_a_cost_up_to_where_there_is_no_best(self) -> None:
        text = "ROWS\n N cost\n G need\nCOLUMNS\n x cost 1 need 1\nRHS\n need 1\nENDATA\n"
        _, found = lpd.curve_of(lpd.read_model(text), COST, "x")
        if not isinstance(found, lpd.Curve):
            self.fail()
        self.assertEqual(([(piece.low, piece.high) for piece in found.pieces], found.beyond), ([(0, None)], {DOWN: "UNBOUNDED"}))

    def solved(self, model: Model) -> "lpd.Answer":
        with lpd.Session() as session:
            session.load(lpd.dialects.written(model, lpd.dialects.PROFILE).text)
            return session.solve()

    def test_random_models(self) -> None:
        """In the range, ends included, the optimum is what the slope says; and behind an end it is not better than that."""
        dice = random.Random(int(os.environ.get("SEED", "7")))
        tried = 0
        for _ in range(int(os.environ.get("MODELS", "25"))):
            model = some_model(dice, 3, 3)
            if not isinstance(self.solved(model), lpd.Optimal):
                continue
            for what, names in ((COST, model.columns), (RHS, model.rows)):
                for name in names:
                    answer, found = range_of(model, what, name)
                    if isinstance(found, Range):
                        tried += 1
                        self.try_range(model, what, name, found)
        self.assertGreater(tried, 0)

    def test_random_models_by_one_basis(self) -> None:
        """The same of all ranges together, in whatever numbers."""
        dice = random.Random(int(os.environ.get("SEED", "8")))
        tried = 0
        for _ in range(int(os.environ.get("MODELS", "25"))):
            model = some_model(dice, 3, 3)
            found = lpd.ranges(written(model, PROFILE).text)
            for what, kept in ((COST, found.costs), (RHS, found.sides)):
                for name, one in kept.items():
                    tried += 1
                    self.assertIsInstance(one, Range)
                    if isinstance(one, Range):
                        self.try_range(model, what, name, one)
        self.assertGreater(tried, 0)

    def test_the_program_is_asked_once(self) -> None:
        """Of a transport with 34 rows and 240 columns, whose ranges are 274."""
        dice = random.Random(1)
        rows = [f" L s{i}" for i in range(10)] + [f" G d{j}" for j in range(24)]
        cards = [f" x{i}.{j} cost {dice.randint(1, 99)} s{i} 1\n x{i}.{j} d{j} 1" for i in range(10) for j in range(24)]
        sides = [f" RHS s{i} 30" for i in range(10)] + [f" RHS d{j} 9.5" for j in range(24)]
        text = "\n".join(["ROWS", " N cost", *rows, "COLUMNS", *cards, "RHS", *sides, "ENDATA", ""])
        by_program = lpd.once.output_of
        with mock.patch("lpd.from_basis.output_of", wraps=by_program) as basis, mock.patch("lpd.ranging.output_of", wraps=by_program) as whole:
            found = lpd.ranges(text)
        self.assertEqual((len(found.costs), len(found.sides), basis.call_count, whole.call_count), (240, 34, 1, 1))
        self.assertEqual(whole.call_args.args[0], ["range", "all"])

    def test_past_127_bits(self) -> None:
        """Where the rule's own operations pass them, and where a number of the model does."""
        text = "ROWS\n N cost\n E a\n E b\nCOLUMNS\n x a 3 b -1e30\n y cost 1 b 1\nRHS\n RHS a {}\nENDATA\n"
        for side in (10**30, 10**45):
            found = lpd.ranges(text.format(side))
            self.assertEqual(found.answer, lpd.Optimal(Fraction(10**30 * side, 3)))
            one = found.sides["a"]
            self.assertEqual(one.says() if isinstance(one, Range) else one, (0, None, Fraction(10**30, 3)))
            self.assertFalse(isinstance(one, Range) and one.is_proved)
            self.assertEqual(range_of(lpd.read_model(text.format(side), wide=True), RHS, "a")[1], one)

    def try_range(self, model: Model, what: str, name: str, found: Range) -> None:
        self.assertIn(found.now, found)
        self.assertEqual(found.now, number_of(model, what, name))
        low = found.now - 3 if found.low is None else found.low
        high = found.now + 3 if found.high is None else found.high
        for number in {low, (low + 2 * high) / 3, high}:
            self.assertEqual(self.solved(with_number(model, what, name, number)), lpd.Optimal(found.optimum(number)), (name, number))
        for end, behind in ((found.low, Fraction(-1, 7)), (found.high, Fraction(1, 7))):
            answer = None if end is None else self.solved(with_number(model, what, name, end + behind))
            if end is not None and isinstance(answer, lpd.Optimal):
                off = model.sense * (answer.value - found.optimum(end + behind)) * (1 if what == RHS else -1)
                self.assertGreaterEqual(off, 0, (name, end))


@unittest.skipUnless(ready(), "there is no program, or it has no command range")
class Shown(unittest.TestCase):
    def solve(self, text: str, *words: str) -> Said:
        return command("solve", "-", *words, stdin=text.encode())

    def test_tables(self) -> None:
        said = self.solve(SHOP, "--ranges", "--show", "answer")
        self.assertEqual((said.status, said.complaints), (0, ""))
        lines = [line.rstrip() for line in said.output.splitlines()]
        self.assertEqual(lines[0], "OPTIMAL 7")
        for head in ("column", "obj coef range", "obj value at break point", "limiting variable"):
            self.assertIn(head, lines[2])
        self.assertIn("from =-2", lines[5])
        self.assertTrue(lines[5].startswith("y") and lines[5].endswith("R1 leaves its upper limit"), lines[5])
        self.assertIn("to   inf", lines[10])
        proved = [line for line in lines if line == "lpd range all, which is proved, says the same of all 4 ranges."]
        self.assertEqual(len(proved), has_command("range all"))

    def test_several_limit_at_once(self) -> None:
        """The first is shown and how many more there are; all of them with fractions."""
        columns = "".join(f" y{n} cost 1 need 1\n" for n in range(3))
        text = f"ROWS\n N cost\n G need\nCOLUMNS\n x cost 1/2 need 1\n{columns}RHS\n need 4\nENDATA\n"
        self.assertIn("y0 leaves its lower bound, and 2 more\n", self.solve(text, "--ranges", "--show", "answer").output)
        every = "; ".join(f"y{n} leaves its lower bound" for n in range(3))
        self.assertIn(f"{every}\n", self.solve(text, "--ranges", "--show", "answer", "--exact").output)

    def test_fractions_have_decimals(self) -> None:
        third = "ROWS\n N cost\n G need\nCOLUMNS\n x cost 1 need 3\nRHS\n need 1\nENDATA\n"
        self.assertIn("~0.333333", self.solve(third, "--ranges", "--show", "answer").output)
        self.assertIn("1/3 (0.33)", self.solve(third, "--ranges", "--show", "answer", "--decimals", "2", "--exact").output)

    def test_json(self) -> None:
        told = json.loads(self.solve(SHOP, "--ranges", "--json").output)["ranges"]
        wanted: Dict[str, object] = {"now": "1", "low": "-2", "high": "2", "slope": "1", "value_at_low": "4", "value_at_high": "8"}
        self.assertEqual({name: told["costs"]["y"][name] for name in wanted}, wanted)
        self.assertEqual(told["costs"]["y"]["decimals"]["low"], -2.0)
        self.assertEqual((told["right_sides"]["R1"]["high"], told["right_sides"]["R1"]["above"]), (None, []))
        self.assertNotIn("ranges", json.loads(self.solve(SHOP, "--json").output))

    def test_csv(self) -> None:
        lines = list(csv.reader(io.StringIO(self.solve(SHOP, "--ranges", "--csv").output)))
        self.assertEqual(lines[0], ["kind", "name", "value", "price", "slack", "now", "low", "high", "exact"])
        self.assertEqual(lines[3][5:], ["1", "-2", "2", "="])
        self.assertEqual(lines[4][5:], ["4", "2", "inf", "="])

    def test_no_optimum(self) -> None:
        said = command("solve", str(MODELS / "orders.mps"), "--ranges", "--show", "answer")
        self.assertEqual((said.status, said.output), (10, reported("INFEASIBLE\n")))
        self.assertEqual(said.complaints, "lpd: there are no ranges: --ranges are those of an optimum, and the answer is INFEASIBLE\n")

    def test_a_picture(self) -> None:
        with tempfile.TemporaryDirectory() as folder:
            file = f"{folder}/picture.svg"
            said = self.solve(KINKED, "--plot", "need", "--picture", file, "--show", "answer")
            self.assertEqual((said.status, said.output), (0, reported("OPTIMAL 4\n")))
            self.assertIn("from 1 to 4: 0 to 6, 2 for each unit\nabove 4: INFEASIBLE\n", said.complaints)
            drawn = Path(file).read_text()
            ElementTree.fromstring(drawn)
            for words in ("the optimum over the right side of need", "=1: =0<", "=4: =6<", "now =3: =4<", "INFEASIBLE"):
                self.assertIn(words, drawn)

    def test_names_of_numbers(self) -> None:
        both = "ROWS\n N c\n G a\nCOLUMNS\n a c 1 a 1\nRHS\n a 1\nENDATA\n"
        cases = {"a": "a is a row and a column: rhs:a is the right side of the one, cost:a the cost of the other", "b": "the model has no row and no column b"}
        for word, expected in cases.items():
            said = self.solve(both, "--plot", word)
            self.assertEqual((said.status, said.output, said.complaints), (2, "", f"lpd: {expected}\n"))
        with tempfile.TemporaryDirectory() as folder:
            self.assertEqual(self.solve(both, "--plot", "rhs:a", "--picture", f"{folder}/a.svg").status, 0)
            self.assertEqual(self.solve(both, "--plot", "cost:a", "--picture", f"{folder}/a.svg").status, 0)
