"""Conversions: each dialect with a text, what is asked and not guessed, and what other programs make of the texts for them."""
import os
import random
import re
import shutil
import subprocess
import tempfile
import unittest
from fractions import Fraction
from pathlib import Path
from typing import Dict, Optional
from unittest import mock

import lpd
from lpd.conversion import Changes, Converted, Options, Question, Unconvertible, as_it_stands, convert, is_same_in_fixed, of_form
from lpd.dialects import DIALECTS, PROFILE, Inexact, WrongName, written
from lpd.model import Column, Model, Row
from lpd.names import Renamed

from .commands import AS_EVER, command, reported
from .models import has_program, some_model

MODELS = Path(__file__).resolve().parents[3] / "examples" / "models"
PLAIN = "ROWS\n N cost\n G need\nCOLUMNS\n x cost 1 need 1\n y cost 2 need 1\nRHS\n RHS need 4\nBOUNDS\n UP BND x 3\nENDATA\n"
MARKED = " M1 'MARKER' 'INTORG'\n x cost 1 need 1\n M2 'MARKER' 'INTEND'"


def plain(old: str = "", new: str = "", text: str = PLAIN) -> str:
    assert old in text, old
    return text.replace(old, new)


def fixed(*cards: str) -> str:
    """Cards of fixed form: section cards, or their fields between bars."""
    firsts = [1, 4, 14, 24, 39, 49]
    lines = []
    for card in cards:
        line = "" if "|" in card else card
        for first, part in zip(firsts, card.split("|") if "|" in card else []):
            line = line.ljust(first) + part if part else line
        lines.append(f"{line}\n")
    return "".join(lines)


FIXED = ("ROWS", "N|cost", "G|need", "COLUMNS", "|x|cost|1|need|1", "|y|cost|2|need|1", "RHS", "|RHS|need|4", "BOUNDS", "UP|BND|x|3", "ENDATA")


class IntoTheProfile(unittest.TestCase):
    def becomes_plain(self, text: str, change: str, form: Optional[str] = None, options: Options = Options()) -> Converted:
        """The text spells the plain model once it is converted, and the change is listed."""
        found = convert(text.encode(), form, options)
        self.assertEqual(found.model, lpd.read_model(PLAIN))
        self.assertEqual(lpd.read_model(found.text), found.model)
        self.assertIn(change, "\n".join(map(str, found.changes)))
        return found

    def test_a_text_of_the_profile_stays(self) -> None:
        for path in sorted(MODELS.glob("*.mps")):
            with self.subTest(path.name):
                found = convert(path.read_bytes())
                self.assertEqual((found.text, found.changes, found.names), (path.read_text(), [], []))
                self.assertEqual(found.model, lpd.read_model(path.read_text(), fixed=".fixed." in path.name))

    def test_comments(self) -> None:
        text = plain(" G need", " G need $ what is needed", plain("UP BND x 3", "UP BND x 3 $"))
        self.becomes_plain(plain("RHS need 4", "RHS need 4 $ by day", text), "lines 3, 8, 10: a comment behind $ is taken out")
        cards = list(FIXED)
        cards[2], cards[4] = "G|need|$ what is needed", "|x|cost|1|$ 5"
        cards.insert(5, "|x|need|1")
        self.becomes_plain(fixed(*cards), "lines 3, 5: a comment behind $", "fixed")

    def test_names_with_a_dollar_are_no_comments(self) -> None:
        text = plain("need", "$need", plain("x", "$x"))
        self.assertEqual(convert(text.encode()).text, text)

    def test_the_column_is_left_out(self) -> None:
        self.becomes_plain(plain(" x cost 1 need 1", " x cost 1\n need 1"), "line 6: the column that the card leaves out is put in")
        cards = list(FIXED)
        cards[4:5] = ["|x|cost|1", "||need|1"]
        self.becomes_plain(fixed(*cards), "line 6: the column that the card leaves out is put in")
        with self.assertRaises(lpd.TextFault):
            convert(plain(" x cost 1 need 1", " need 1").encode())

    def test_objname(self) -> None:
        text = plain("ROWS\n N cost", "OBJNAME\n cost\nROWS\n N other\n N cost")
        found = convert(text.encode())
        self.assertEqual(found.text, plain("ROWS\n N cost", "ROWS\n N cost\n N other"))
        self.assertIn("line 5: row cost is put first, since OBJNAME names it", map(str, found.changes))
        self.assertEqual((found.model.objective, found.model.free_rows()), ("cost", ["other"]))
        self.becomes_plain(plain("ROWS", "OBJNAME cost\nROWS"), "line 1: OBJNAME is taken out")
        with self.assertRaises(Unconvertible):
            convert(plain("ROWS", "OBJNAME need\nROWS").encode())

    def test_free_rows_are_kept(self) -> None:
        text = plain(" G need\n", " G need\n n other\n", plain("RHS need 4", "RHS need 4 other -3", plain(" y cost 2", " y other 7\n y cost 2")))
        found = convert(text.encode())
        self.assertEqual(found.text, text.replace(" n other", " N other"))
        self.assertEqual(found.model.rows["other"], Row("N", Fraction(-3)))
        self.assertEqual((found.model.columns["y"].entries["other"], list(found.model.rows)), (7, ["need", "other"]))
        again = lpd.read_model(written(found.model, PROFILE).text)
        self.assertEqual((again.rows, again.columns), (found.model.rows, found.model.columns))
        ranged = convert(found.text.replace("BOUNDS\n", "RANGES\n RNG other 5 need 2\nBOUNDS\n").encode())
        self.assertEqual(list(map(str, ranged.changes)), ["line 12: row other is free, so its range counts for nothing"])
        self.assertEqual([row.range for row in ranged.model.rows.values()], [2, None])
        with self.assertRaises(lpd.TextFault) as raised:
            convert(text.replace("other 7", "other 7 other 8").encode())
        self.assertEqual((raised.exception.line, raised.exception.fault), (7, 8))

    def test_lower_case(self) -> None:
        text = plain(" N cost\n G need", " n cost\n g need", plain(" UP", " up"))
        text = "objsense\n minimise\n" + re.sub(r"(?m)^[A-Z]+", lambda word: word[0].lower(), text)
        found = self.becomes_plain(text, "a section in lower case")
        said = [str(change) for change in found.changes]
        self.assertIn("line 2: minimise is written as MINIMIZE", said)
        self.assertIn("lines 4-5: a type in lower case", said)
        self.assertIn("line 12: a kind in lower case", said)

    def test_senses(self) -> None:
        for text in ("OBJSENSE max\nROWS", "OBJSENSE\n Max\nROWS", "OBJSENSE\nMAX\nROWS", "OBJSENSE\n maximise\nROWS"):
            self.assertEqual(convert(plain("ROWS", text).encode()).model.sense, -1, text)
        late = convert(plain("COLUMNS", "OBJSENSE\n    MAX\nCOLUMNS").encode())
        self.assertEqual(late.text, plain("ROWS", "OBJSENSE\n    MAX\nROWS"))
        self.assertEqual(str(late.changes[0]), "lines 4-5: OBJSENSE is put before ROWS")
        kept = plain("ROWS", "OBJSENSE\n    MAX\nROWS")
        self.assertEqual(convert(kept.encode()).text, kept)

    def test_numbers_behind_kinds_that_need_none(self) -> None:
        for card in ("FR BND y 0", "FR y 0", "PL BND y 1e30"):
            text = plain("UP BND x 3", "UP BND x 3\n PL BND y") if card[:2] == "PL" else plain("UP BND x 3", "UP BND x 3\n FR BND y")
            found = convert(plain("UP BND x 3", f"UP BND x 3\n {card}").encode(), options=Options(no_set="same"))
            self.assertEqual(found.model, lpd.read_model(text))
            self.assertIn(f"a number behind {card[:2]} is taken out", "\n".join(map(str, found.changes)))
        with self.assertRaises(Unconvertible):
            convert(plain("UP BND x 3", "FR x 1", plain("y", "1")).encode())

    def test_marks_and_ends(self) -> None:
        self.becomes_plain("\ufeff" + PLAIN, "line 1: a byte-order mark is taken out")
        found = convert(b"\xff\xfe" + PLAIN.encode("utf-16-le"))
        self.assertEqual((found.text, found.model), (PLAIN, lpd.read_model(PLAIN)))
        self.becomes_plain(PLAIN.replace("\n", "\r\n"), "carriage returns at the ends of lines are taken out")

    def test_names(self) -> None:
        long = "x" * 80
        found = convert(plain("y", "größe", plain("x", long)).encode())
        self.assertEqual(found.names, [Renamed("column", long, "x" * 64), Renamed("column", "größe", "große".replace("ß", "_"))])
        self.assertEqual(list(found.model.columns), ["x" * 64, "gro_e"])
        cards = [card.replace("|x|", "|x 1|").replace("need", "my need") for card in FIXED]
        cards[5] = cards[5].replace("|y|", "|x_1|")
        found = convert(fixed(*cards).encode())
        self.assertEqual(found.names, [Renamed("row", "my need", "my_need"), Renamed("column", "x 1", "x_1.2")])
        self.assertEqual(list(found.model.columns), ["x_1.2", "x_1"])
        latin = plain("y", "größe").encode("latin-1")
        self.assertEqual(list(convert(latin).model.columns), ["x", "gro_e"])

    def test_fixed_form_by_characters_and_by_bytes(self) -> None:
        cards = [card.replace("|y|", "|größe|") for card in FIXED]
        by_characters = fixed(*cards)
        by_bytes = by_characters.replace("größe     cost", "größe   cost")
        for text in (by_characters, by_bytes):
            self.assertEqual(list(convert(text.encode(), "fixed").model.columns), ["x", "gro_e"])

    def test_comments_in_any_letters_stay(self) -> None:
        text = "* größe\n" + PLAIN
        self.assertEqual(convert(text.encode()).text.encode("latin-1"), text.encode())

    def asks(self, text: str, option: str, options: Options = Options()) -> None:
        with self.assertRaises(Question) as raised:
            convert(text.encode(), options=options)
        self.assertEqual(raised.exception.option, option)

    def test_sets_are_asked(self) -> None:
        text = plain("UP BND x 3", "UP BND y 9\n UP x 3")
        self.asks(text, "no_set")
        same = convert(text.encode(), options=Options(no_set="same"))
        self.assertEqual(same.model.columns["x"].upper, 3)
        own = convert(text.encode(), options=Options(no_set="own"))
        self.assertEqual((own.text, own.model.columns["x"].upper), (text, None))
        self.assertIn("no set and the first one the set BND, so it is skipped", str(own.changes[0]))

    def test_other_sets_are_noted(self) -> None:
        text = plain("UP BND x 3", "UP BND x 3\n UP OTHER x 1")
        self.becomes_plain(text, "line 11: this card of BOUNDS has the set OTHER and the first one the set BND, so it is skipped")

    def test_whole_numbers_are_asked(self) -> None:
        text = plain(" x cost 1 need 1", MARKED)
        self.asks(text, "relax")
        self.becomes_plain(text, "lines 5, 7: a marker of whole-number columns is taken out", options=Options(relax=True))
        unbounded = plain("BOUNDS\n UP BND x 3\n", "", text)
        self.asks(unbounded, "no_bound", Options(relax=True))
        for no_bound, upper in (("1", 1), ("none", None)):
            found = convert(unbounded.encode(), options=Options(relax=True, no_bound=no_bound))
            self.assertEqual(found.model.columns["x"].upper, upper)
        kinds = plain("UP BND x 3", "BV BND x\n LI BND y 1\n UI BND y 4")
        self.asks(kinds, "relax")
        found = convert(kinds.encode(), options=Options(relax=True))
        self.assertEqual([column.limits() for column in found.model.columns.values()], [(0, 1), (1, 4)])

    def test_the_form_is_asked(self) -> None:
        cards = [*FIXED[:4], "|x|cost|1", *FIXED[5:]]
        text = fixed(*cards).replace("cost      1\n    y", f"{'cost      1':48}need 1\n    y")
        self.asks(text, "form")
        for form, entries in (("free", {"need": 1}), ("fixed", {})):
            self.assertEqual(convert(text.encode(), form).model.columns["x"].entries, entries)

    def test_what_is_no_linear_program(self) -> None:
        for text in (plain("ENDATA", "SOS1\nENDATA"), plain("ENDATA", "QUADOBJ\n x x 1\nENDATA"), plain("UP BND x 3", "SC BND x 3")):
            with self.assertRaises(Unconvertible):
                convert(text.encode())

    def test_faults_name_the_line_of_the_text(self) -> None:
        with self.assertRaises(lpd.TextFault) as raised:
            convert(plain("ROWS\n N cost", "OBJNAME\n cost\nROWS\n N cost", plain("RHS need 4", "RHS need four")).encode())
        self.assertEqual((raised.exception.line, raised.exception.fault), (10, 9))


def dialect_of(text: str, dice: random.Random) -> str:
    """The text of a model in a dialect: the same model in other cards."""
    lines, column, section = [], "", ""
    objective = re.search(r"^ N (\S+)", text, re.M)
    for line in text.splitlines():
        words = line.split()
        if line[:1] != " ":
            section = words[0]
            line = line.lower() if dice.random() < 0.5 and section != "NAME" else line
            if section == "ROWS" and objective and dice.random() < 0.5:
                lines += ["OBJNAME", f"  {objective[1]}", line, " N another"]
                continue
        elif section == "COLUMNS" and words[0] == column and dice.random() < 0.5:
            line = " " + " ".join(words[1:])
        elif section in ("ROWS", "BOUNDS") and dice.random() < 0.5:
            line = f" {words[0].lower()} {' '.join(words[1:])}"
        if section == "COLUMNS":
            column = words[0]
        if section == "BOUNDS" and words[0] in ("FR", "MI") and dice.random() < 0.5:
            line += " 0"
        if line[:1] == " " and section != "OBJSENSE" and dice.random() < 0.3:
            line += dice.choice([" $", " $ more or less", " $0$"])
        lines.append(line)
    end = dice.choice(["\n", "\r\n"])
    return dice.choice(["", "\ufeff"]) + "".join(line + end for line in lines)


class BothForms(unittest.TestCase):
    """What is read in free form alone says the same in fixed form, or is no text of it."""

    FIELDS = (1, 4, 14, 24, 39, 49)
    CARDS = {
        "ROWS": [["N", "cost"], ["L", "a"], ["G", "b"], ["E", "c"]],
        "COLUMNS": [["", "x", "a", "1", "b", "2"], ["", "", "c", "3"], ["", "x", "cost", "4"], ["", "y", "a", "1"], ["", "y", "c", "2", "b", "1"]],
        "RHS": [["", "S", "a", "4", "b", "1"], ["", "", "a", "4"], ["", "S", "c", "2"], ["", "", "cost", "-1"]],
        "RANGES": [["", "S", "a", "2"], ["", "", "c", "-1"]],
        "BOUNDS": [["UP", "S", "x", "4"], ["UP", "", "y", "-2"], ["FR", "S", "y"], ["FX", "", "x", "1"], ["MI", "", "x"], ["BV", "S", "x"]],
    }

    def text(self, dice: random.Random) -> str:
        lines = ["NAME          some"]
        for section, cards in self.CARDS.items():
            lines.append(section)
            for card in cards if section == "ROWS" else dice.sample(cards, dice.randint(1, len(cards))):
                line = ""
                for place, word in zip(self.FIELDS, card):
                    # Now and then a word stands one field before its own, or one column behind its place.
                    at = place + (dice.random() < 0.02) - (10 if dice.random() < 0.02 and place > 20 else 0)
                    line = f"{line:{at}}{word}" if word else line
                lines.append(line)
        return "\n".join([*lines, "ENDATA", ""])

    def test_of_made_texts(self) -> None:
        dice, both = random.Random(66), 0
        for _ in range(600):
            text = self.text(dice)
            options = Options(relax=True, no_set="same", no_bound="none")
            if not is_same_in_fixed(text.split("\n")):
                continue
            try:
                free = of_form(text.encode(), False, options)
            except lpd.LpdError:
                continue
            try:
                fixed = of_form(text.encode(), True, options)
            except lpd.LpdError:
                continue
            both += 1
            self.assertEqual(free.model, fixed.model, text)
        self.assertGreater(both, 50)

    def test_as_it_stands(self) -> None:
        """What is taken at once is what is read card by card."""
        dice, taken = random.Random(67), 0
        texts = [path.read_text() for path in sorted(MODELS.rglob("*.mps"))]
        texts += [written(some_model(dice), PROFILE).text.replace("$", "S") for _ in range(100)] + [self.text(dice) for _ in range(400)]
        for text in texts:
            for given in (text, text.replace("\n", "\r\n", 1), text + "OPTIMAL\n", text.replace(" N ", " n ", 1), text.replace("OBJSENSE MAX", "OBJSENSE\n    MAXIMIZE")):
                found = as_it_stands(given, Options())
                if found is not None:
                    taken += 1
                    self.assertEqual(found, of_form(given.encode(), False, Options()), given)
        self.assertGreater(taken, 100)
        unclear = "ROWS\n N  cost\nCOLUMNS\n    x         cost      1\n    4         cost      1\nBOUNDS\n FR x         4\nENDATA\n"
        self.assertIsNone(as_it_stands(unclear, Options()))
        self.assertEqual(convert(unclear.encode()), of_form(unclear.encode(), True, Options()))

    def test_what_is_not(self) -> None:
        card = "    x         a         1"
        for line in (card.replace("x  ", "x y"), f"\t{card}", f"{card} $ said", f"{card[:14]}\u00e4{card[15:]}", f"{card[:5]}{card}", f"{card:61} 5"):
            self.assertFalse(is_same_in_fixed(f"ROWS\nCOLUMNS\n{line}\nENDATA\n".split("\n")), line)
        self.assertTrue(is_same_in_fixed(f"ROWS\nCOLUMNS\n* said\n{card}\n\nENDATA\nx y z\n".split("\n")))


class Dialects(unittest.TestCase):
    def test_random_models_in_dialects(self) -> None:
        dice = random.Random(4)
        for turn in range(200):
            model = some_model(dice)
            text = dialect_of(written(model, PROFILE).text, dice)
            if "\n N another" in text:
                model.rows["another"] = Row("N")
            with self.subTest(turn):
                found = convert(text.encode(), "free")
                self.assertEqual(found.model, model)
                again = convert(found.text.encode("latin-1"))
                self.assertEqual((again.text, again.changes), (found.text, []))


class Command(unittest.TestCase):
    def test_convert(self) -> None:
        with tempfile.TemporaryDirectory() as folder:
            names, output = f"{folder}/names", f"{folder}/out"
            text = plain("x", "größe", plain(" G need", " G need $"))
            said = command("convert", "-", "--renames", names, "-o", output, stdin=text.encode())
            self.assertEqual((said.status, said.output), (0, ""))
            self.assertIn("line 3: a comment behind $ is taken out\n", said.complaints)
            self.assertIn(f"column 'größe' is named gro_e, as {names} has it\n", said.complaints)
            self.assertEqual(Path(names).read_text(encoding="utf-8"), "column\tgröße\tgro_e\n")
            self.assertEqual(Path(output).read_text(), plain("x", "gro_e"))

    def test_many_names(self) -> None:
        rows = "".join(f" L  row {n:03}\n" for n in range(200))
        text = f"NAME\nROWS\n N  cost\n{rows}COLUMNS\n    x         cost      1\nENDATA\n"
        said = command("convert", "-", "--form", "fixed", "-o", os.devnull, stdin=text.encode())
        self.assertEqual(said.status, 0, said.complaints)
        self.assertIn("row 'row 000' is named row_000, and 199 more names are changed: --renames FILE puts them down\n", said.complaints)
        self.assertLess(len(said.complaints.splitlines()), 5)

    def test_many_lines(self) -> None:
        """The command convert tells all, and other commands some."""
        change = Changes("it is another", (1, 2, 3, 5, 7, 9, 11))
        self.assertEqual(str(change), "lines 1-3, 5, 7, 9, 11: it is another")
        self.assertEqual([change.told(most) for most in (2, 5)], ["lines 1-3, 5, ..: it is another", str(change)])
        rows = "".join(f" L  row {n:03}\n L  row{n:03}\n" for n in range(20))
        text = f"NAME\nROWS\n N  cost\n{rows}COLUMNS\n    x         cost      1\nENDATA\n"
        with mock.patch("lpd.commands.certify.certify", side_effect=lpd.ProgramMissing("there is no program lpd")):
            said = command("certify", "-", "--form", "fixed", stdin=text.encode())
        self.assertIn("lines 4, 6, 8, 10, 12, 14, 16, 18, ..: written in free form", said.complaints)

    def test_large_models(self) -> None:
        text = plain(" G need", " G need\n" + "\n".join(f" L more{n}" for n in range(256))).encode()
        said = command("convert", "-", stdin=text)
        self.assertEqual((said.status, said.output), (0, text.decode()))
        self.assertIn("note: the model has more than 256 rows or 512 columns, so it is one for the commands with --wide", said.complaints)
        said = command("convert", "-", stdin=text.replace(b"x cost 1", b"x cost 1e40"))
        self.assertIn("this number does not fit 127 bits", said.complaints)

    def test_questions(self) -> None:
        said = command("convert", "-", stdin=plain("UP BND x 3", "UP BND y 9\n UP x 3").encode())
        self.assertEqual((said.status, said.output), (2, ""))
        self.assertIn("line 11: a card of BOUNDS without a set", said.complaints)
        self.assertIn("--no-set same or --no-set own", said.complaints)
        said = command("convert", "-", stdin=plain(" x cost 1 need 1", MARKED).encode())
        self.assertEqual(said.status, 2)
        self.assertIn("line 6: whole-number columns (x)", said.complaints)

    def test_a_table_is_no_text(self) -> None:
        with tempfile.TemporaryDirectory() as folder:
            path = Path(folder) / "Plan.CSV"
            path.write_text("product,profit\nchair,12.5\n")
            said = command("convert", str(path))
        self.assertEqual((said.status, said.output), (9, ""))
        self.assertIn("is a table, and no text of a model: examples/python/table.py", said.complaints)

    def test_refusals(self) -> None:
        self.assertEqual(command("convert", "-", stdin=plain("ENDATA", "SOS1\nENDATA").encode()).status, 9)
        self.assertEqual(command("convert", "-", "--to", "clp", stdin=plain("x cost 1", "x cost 1/3").encode()).status, 9)
        self.assertEqual(command("convert", "/nowhere").status, 3)

    def test_for_others(self) -> None:
        text = plain("ROWS", "OBJSENSE MAX\nROWS")
        said = command("convert", "-", "--to", "clp", stdin=text.encode())
        self.assertIn("run it as: clp MODEL -maximize\n", said.complaints)
        self.assertEqual(said.output.splitlines()[0], "NAME model FREE")

    @unittest.skipUnless(has_program(), "the program is not built")
    def test_solve(self) -> None:
        text = plain(" x cost 1 need 1", MARKED).encode()
        for words in ([], ["--convert"]):
            said = command("solve", "-", "--show", "answer", *words, stdin=text)
            self.assertEqual((said.status, said.output), (2, ""))
            self.assertIn("--relax solves without that.\n", said.complaints)
        self.assertEqual(command("solve", "-", "--relax", "--show", "answer", stdin=text)[:2], (0, reported("OPTIMAL 5\n")))
        said = command("solve", "-", "--csv", stdin=plain("UP BND x 3", "UP BND x 3\n UP OTHER x 1").encode())
        self.assertEqual(said.output.splitlines()[1:3], ["answer,OPTIMAL,5,,,=", "column,x,3,-1,,="])
        self.assertEqual(said.complaints, "1 CARD OF OTHER SETS NOT READ: line 11 (docs/FORMATS.md)\n")
        said = command("solve", "-", "--show", "prices", "--decimals", "1", stdin=PLAIN.encode())
        self.assertEqual(said.output, reported("OPTIMAL 5.0\n\nrow   price\nneed  =2.0\n\ncolumn  reduced cost\nx       =-1.0\n", AS_EVER))


class ForOthers(unittest.TestCase):
    """What other programs make of a text is what lpd makes of the model."""

    NO = {"glpsol": r"NO (PRIMAL )?FEASIBLE|incorrect bounds", "lp_solve": "infeasible", "clp": "(?i)infeasible", "cbc": "(?i)infeasible"}
    OPEN = {"glpsol": "UNBOUNDED|NO DUAL", "lp_solve": "unbounded", "clp": "(?i)dual ?infeasible|unbounded", "cbc": "(?i)dual ?infeasible|unbounded"}
    VALUE = {"lp_solve": r"objective function: (\S+)", "clp": r"Optimal objective (\S+)", "cbc": r"Optimal objective (\S+)"}
    MORE = {"glpsol": ["--nopresol", "-o", "page"], "lp_solve": ["-S3"], "clp": ["-primalsimplex"], "cbc": ["-initialSolve"], "esolver": []}

    def said(self, name: str, model: Model, folder: Path) -> "tuple[str, Optional[float]]":
        """How a program ends with the text for it, and its value."""
        out = written(model, DIALECTS[name], path="model.mps")
        (folder / "model.mps").write_text(out.text)
        command = out.command + self.MORE[name]
        if name == "esolver":
            command[1:1] = ["-O", "solution"]
        done = subprocess.run(command, cwd=folder, capture_output=True, text=True, timeout=600)
        said = done.stdout + done.stderr
        pages = {"glpsol": "page", "esolver": "solution"}
        if name in pages:
            page = folder / pages[name]
            said, log = (page.read_text() if page.exists() else ""), said
            page.unlink(missing_ok=True)
            found = re.search(r"Status:\s+OPTIMAL\s+Objective:\s+\S+ = (\S+)" if name == "glpsol" else r"status = OPTIMAL\s.*?Value = (\S+)", said, re.S)
            said = log + said
        else:
            found = re.search(self.VALUE[name], said)
        if found:
            value = float(Fraction(found[1])) + (float(model.offset) if name == "esolver" else 0)
            # 1e30 is no bound to lp_solve, which now and then calls a point there an optimum.
            return ("UNBOUNDED", None) if name == "lp_solve" and abs(value) > 1e29 else ("OPTIMAL", value)
        if re.search(self.OPEN.get(name, "status UNBOUNDED"), said):
            return "UNBOUNDED", None
        return ("INFEASIBLE" if re.search(self.NO.get(name, "status INFEASIBLE"), said) else said), None

    def agree(self, name: str) -> None:
        if not has_program():
            self.skipTest("the program is not built")
        if not shutil.which(name):
            self.skipTest(f"{name} is not on the path")
        counts: Dict[str, int] = {}
        dice = random.Random(7)
        with tempfile.TemporaryDirectory() as folder, lpd.Session() as session:
            for _ in range(40):
                model = some_model(dice)
                session.load(written(model, PROFILE).text)
                answer = session.solve()
                kind, value = self.said(name, model, Path(folder))
                if isinstance(answer, lpd.Optimal):
                    self.assertEqual(kind, "OPTIMAL")
                    self.assertAlmostEqual(value or 0, float(answer.value), 5)
                else:
                    self.assertNotEqual(kind, "OPTIMAL", f"{answer}: {value}")
                counts[type(answer).__name__] = counts.get(type(answer).__name__, 0) + 1
        self.assertGreater(min(counts.get(kind, 0) for kind in ("Optimal", "Infeasible", "Unbounded")), 2, counts)

    def test_glpsol(self) -> None:
        self.agree("glpsol")

    def test_lp_solve(self) -> None:
        self.agree("lp_solve")

    def test_clp(self) -> None:
        self.agree("clp")

    def test_cbc(self) -> None:
        self.agree("cbc")

    def test_esolver(self) -> None:
        self.agree("esolver")

    def test_quotients(self) -> None:
        model = lpd.read_model(plain("x cost 1", "x cost 1/3"))
        self.assertIn(" x cost 1/3\n", written(model, DIALECTS["esolver"]).text)
        with self.assertRaises(Inexact):
            written(model, DIALECTS["clp"])
        out = written(model, DIALECTS["clp"], rounds=True)
        self.assertIn(" x cost 3.3333333333333331e-01\n", out.text)
        self.assertEqual(out.notes, ["rounded to 17 digits: 1/3"])

    def test_free_rows(self) -> None:
        """None of the programs refuses a text with them, and all leave them out of their models."""
        model = lpd.read_model(plain(" G need\n", " N first\n G need\n N last\n", plain("RHS need 4", "RHS need 4 last 9", plain(" y cost 2", " y first 1 last 2\n y cost 2"))))
        for name, dialect in DIALECTS.items():
            out = written(model, dialect)
            self.assertIn(" N cost\n N first\n G need\n N last\n", out.text)
            told = [f"the text has the free rows first, last, and {name} leaves them out of its model"]
            self.assertEqual(out.notes, told if name != "highs" else [])
            if shutil.which(name):
                with tempfile.TemporaryDirectory() as folder:
                    self.assertEqual(self.said(name, model, Path(folder)), ("OPTIMAL", 5.0))
        self.assertEqual(written(model, PROFILE).notes, [])

    def test_names_that_no_text_has(self) -> None:
        for name in ("garden chair", "", "Stühle", "x" * 65):
            for model in (
                Model("made", objective="cost", rows={name: Row("L")}),
                Model("made", objective="cost", columns={name: Column()}),
                Model("made", objective=name),
            ):
                with self.assertRaises(WrongName):
                    written(model, PROFILE)
        self.assertTrue(written(Model("my plan", objective="cost"), PROFILE).text.startswith("NAME my_plan\n"))

    def test_notes(self) -> None:
        text = plain("ROWS", "OBJSENSE MAX\nROWS", plain("RHS need 4", "RHS need 4 cost 2"))
        notes = {name: written(lpd.read_model(text), dialect).notes for name, dialect in DIALECTS.items()}
        self.assertIn("--max", notes["glpsol"][0])
        self.assertIn("-maximize", notes["clp"][0])
        self.assertEqual([len(notes[name]) for name in ("glpsol", "lp_solve", "clp", "cbc", "esolver")], [2, 1, 1, 1, 1])
        self.assertEqual(written(lpd.read_model(text), PROFILE).notes, [])
