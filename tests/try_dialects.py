#!/usr/bin/env python3
"""Tries which dialects of MPS other programs read, and what they write.

    try_dialects.py [--program PROGRAM] [--write PAGE]

Each question is a small text, and what a program makes of it is told by the value that it answers: the table says in
words what each value means. Programs that are not on the path are left out. Then each program that writes MPS is given
a model to write: what the text that it writes has lost is told by reading it back. With --write the two tables take the
place of what stands between the marks of PAGE.
"""
import argparse
import gzip
import re
import shutil
import subprocess
import sys
import tempfile
from fractions import Fraction
from pathlib import Path

TOP = Path(__file__).resolve().parent.parent
sys.path.insert(0, str(TOP / "clients" / "python"))

# The package of this repository.
from lpd.conversion import convert  # noqa: E402
from lpd.dialects import DIALECTS, without_free_rows, written  # noqa: E402
from lpd.model import Column, Model, Row  # noqa: E402
from lpd.number_text import shown  # noqa: E402

BEGIN, END = "<!-- tried by tests/try_dialects.py -->", "<!-- end of what was tried -->"

# ---- questions

PLAIN = "NAME t{free}\nROWS\n N cost\n G need\nCOLUMNS\n x cost 1 need 1\n y cost 2 need 1\nRHS\n RHS need 4\nBOUNDS\n UP BND x 3\nENDATA\n"
FIXED = """NAME          t
ROWS
 N  cost
 G  need
COLUMNS
    x         cost      1              need      1
    y         cost      2              need      1
RHS
    RHS       need      4
BOUNDS
 UP BND       x         3
ENDATA
"""
MOST = PLAIN.replace(" G need", " L need")


def changed(old, new, text=PLAIN):
    assert old in text, old
    return text.replace(old, new)


def ranged(kind, value):
    """x is as small as a row with this range allows."""
    return f"NAME t{{free}}\nROWS\n N cost\n {kind} need\nCOLUMNS\n x cost 1 need 1\nRHS\n RHS need 4\nRANGES\n RNG need {value}\nENDATA\n"


def with_free_row(old="BOUNDS", new="BOUNDS", number=" y other 1\n"):
    """A second row of type N, with a number in the column y and a right side."""
    text = changed(" y cost 2 need 1\n", f" y cost 2 need 1\n{number}", changed(" N cost\n", " N cost\n N other\n"))
    return changed(old, new, changed("RHS need 4", "RHS need 4 other 3", text))


LEFT_OUT = "    x         cost      1\n              need      1"
BOUNDS_FIRST = changed("RHS\n RHS need 4\nBOUNDS\n UP BND x 3\n", "BOUNDS\n UP BND x 3\nRHS\n RHS need 4\n")
WHOLE = changed(" x cost 1 need 1", " M1 'MARKER' 'INTORG'\n x cost 1 need 1\n M2 'MARKER' 'INTEND'", changed("BOUNDS\n UP BND x 3\n", ""))
READS = {"5": "yes"}
SENSES = {"8": "yes", "0": "ignored"}
SECOND = {"5": "yes", "0": "ignored"}
OFFSETS = {"-5": "offset -10", "15": "offset 10", "5": "ignored"}
NEGATIVE = {"9": "no lower bound", "INFEASIBLE": "lower bound 0"}
MIXED = {**dict.fromkeys(("-5", "15", "5"), "as of one set"), **dict.fromkeys(("0", "-10", "10"), "skipped")}
# What is asked, the text, whether it is in fixed form, and what answers mean.
QUESTIONS = [
    ("free form", PLAIN, False, READS),
    ("fixed form", FIXED, True, READS),
    ("no `NAME`", changed("NAME t{free}\n", ""), False, {**READS, "0": "as an empty model"}),
    ("sections in lower case", changed("ROWS", "rows", changed("COLUMNS", "columns")), False, READS),
    ("`OBJSENSE MAX` on one line", changed("ROWS", "OBJSENSE MAX\nROWS", MOST), False, SENSES),
    ("`OBJSENSE`, and `MAX` under it", changed("ROWS", "OBJSENSE\n    MAX\nROWS", MOST), False, SENSES),
    ("`OBJSENSE`, and `max` under it", changed("ROWS", "OBJSENSE\n    max\nROWS", MOST), False, SENSES),
    ("`OBJSENSE`, and `MAXIMIZE` under it", changed("ROWS", "OBJSENSE\n    MAXIMIZE\nROWS", MOST), False, SENSES),
    ("`OBJNAME`, and the name of the second `N` row on the card under it", changed("ROWS\n N cost\n", "OBJNAME\n    cost\nROWS\n N other\n N cost\n"), False, SECOND),
    ("the objective's right side 10", changed("RHS need 4", "RHS need 4 cost 10"), False, OFFSETS),
    ("`UP` -1 without a lower bound", changed("UP BND x 3", "UP BND x -1"), False, NEGATIVE),
    ("`UP` 0 without a lower bound", changed("UP BND x 3", "UP BND x 0\n LO BND y 5"), False, {"10": "lower bound 0", "9": "no lower bound"}),
    ("`MI` without an upper bound", changed("UP BND x 3", "MI BND x\n UP BND y 9"), False, {"4": "none", "8": "upper bound 0"}),
    ("`E` 4 with the range 2", ranged("E", 2), False, {"4": "from 4", "2": "from 2", "3": "from 3"}),
    ("`E` 4 with the range -2", ranged("E", -2), False, {"4": "from 4", "2": "from 2", "3": "from 3"}),
    ("`L` 4 with the range -2", ranged("L", -2), False, {"2": "from 2", "0": "at most 4"}),
    ("quotients, as `1/2`", changed("y cost 2", "y cost 1/2"), False, {"2": "yes", "4": "as 1"}),
    ("exponents with `D`, as `2D0`", changed("y cost 2", "y cost 2D0"), False, READS),
    ("comments behind `$`", changed(" G need", " G need $ what is needed", changed("UP BND x 3", "UP BND x 3 $ at most")), False, READS),
    ("names that begin with `$`", changed("x", "$x"), False, READS),
    ("cards that leave the column out", changed(" x cost 1 need 1", " x cost 1\n   need 1"), False, READS),
    ("the same, in fixed form", changed("    x         cost      1              need      1", LEFT_OUT, FIXED), True, READS),
    ("`FR` with a number", changed("UP BND x 3", "FR BND x 0\n LO BND x 0"), False, {"4": "yes"}),
    ("bounds without a set", changed("UP BND x 3", "UP x 3"), False, {"5": "yes", "4": "ignored"}),
    ("right sides without a set", changed("RHS need 4", "need 4"), False, {"5": "yes", "0": "ignored"}),
    ("a card without a set behind one with a set", changed("RHS need 4", "RHS cost 10\n need 4"), False, MIXED),
    ("a bound of a second set", changed("UP BND x 3", "UP BND x 3\n UP OTHER x 1"), False, {"5": "skipped", "7": "as of one set"}),
    ("names with blanks, in fixed form", changed("    x  ", "    x 1", changed("BND       x  ", "BND       x 1", FIXED)), True, READS),
    ("names in UTF-8", changed("x", "größe"), False, READS),
    ("names of 100 bytes", changed("x", "x" * 100), False, READS),
    ("a byte-order mark", "\ufeff" + PLAIN, False, READS),
    ("`UP` with `inf`", changed("UP BND x 3", "UP BND x inf"), False, {"4": "yes"}),
    ("`UP` with 1e30", changed("UP BND x 3", "UP BND x 1e30"), False, {"4": "yes"}),
    ("two numbers of one row in a column", changed("y cost 2", "y cost 1 cost 1"), False, {"5": "the sum", "4": "one of them"}),
    ("a second `N` row with a right side", with_free_row(), False, READS),
    ("two numbers of a second `N` row in a column", with_free_row(number=" y other 1 other 2\n"), False, READS),
    ("two right sides of a second `N` row", with_free_row("BOUNDS", " RHS other 4\nBOUNDS"), False, READS),
    ("a range of a second `N` row", with_free_row("BOUNDS", "RANGES\n RNG other 2\nBOUNDS"), False, READS),
    ("`BOUNDS` before `RHS`", BOUNDS_FIRST, False, READS),
    ("the upper bound of whole-number columns without bounds", WHOLE, False, {"4": "none", "7": "1"}),
]

# ---- programs


class Reader:
    """A program that solves a text. `free` is what stands behind the name of a text in free form, so that it is read as such."""

    name, free, told_in, version = "", "", None, r"(\d+(?:\.\d+)+)"
    words, value, writes = {}, "", None

    def command(self, path, fixed):
        raise NotImplementedError

    def version_command(self):
        return [self.name, "-quit"]

    def run(self, command, folder):
        """What the program says, and writes into the file that it answers in."""
        page = folder / (self.told_in or "none")
        page.unlink(missing_ok=True)
        done = subprocess.run(command, capture_output=True, timeout=20, cwd=folder)
        said = done.stdout + done.stderr + (page.read_bytes() if page.exists() else b"")
        return said.decode("latin-1")

    def answer(self, text, fixed, folder):
        """The optimal value, or a word."""
        path = folder / "model.mps"
        path.write_bytes(text.replace("{free}", "" if fixed else self.free).encode())
        said = self.run(self.command(str(path), fixed), folder)
        for word, meaning in self.words.items():
            if re.search(word, said):
                return meaning
        found = re.search(self.value, said, re.S)
        return shown(Fraction(found[1]).limit_denominator(1000)) if found else "refused"

    def whole_name(self, folder):
        found = re.search(self.version, self.run(self.version_command(), folder))
        return f"{self.name} {found[1]}" if found else self.name


class Lpd(Reader):
    name = "lpd"
    words = {"^INFEASIBLE": "INFEASIBLE", "^UNBOUNDED": "UNBOUNDED"}
    value = r"^OPTIMAL (\S+)"

    def __init__(self, program):
        self.program = program

    def command(self, path, fixed):
        return ["sh", "-c", f'exec "$0" solve --form {"fixed" if fixed else "free"} <"$1"', self.program, path]

    def whole_name(self, folder):
        return self.name


class Glpsol(Reader):
    name, told_in, version = "glpsol", "page", r"Solver (\S+)"
    words = {"incorrect bounds|NO (PRIMAL )?FEASIBLE": "INFEASIBLE", "UNBOUNDED|NO DUAL FEASIBLE": "UNBOUNDED", "processing error": "refused"}
    value = r"Objective:\s*\S+ = (\S+)"
    writes = "glpsol --freemps model.mps {sense} --check --wfreemps out.mps", "--min", "--max"

    def command(self, path, fixed):
        return ["glpsol", "--mps" if fixed else "--freemps", path, "--nomip", "-o", "page"]

    def version_command(self):
        return ["glpsol", "--version"]


class LpSolve(Reader):
    name, version = "lp_solve", r"version ([\d.]+)"
    words = {"problem is infeasible": "INFEASIBLE", "problem is unbounded": "UNBOUNDED"}
    value = r"Value of objective function: (\S+)"
    writes = "lp_solve -fmps model.mps {sense} -S1 -parse_only -wfmps out.mps", "", ""

    def command(self, path, fixed):
        return ["lp_solve", "-mps" if fixed else "-fmps", path, "-S4", "-noint"]

    def version_command(self):
        return ["lp_solve", "-p"]


class Clp(Reader):
    name, free, version = "clp", " FREE", r"version (\S+?),"
    words = {r"[1-9]\d* errors on input|not valid": "refused", "[Ii]nfeasible": "INFEASIBLE", "nbounded": "UNBOUNDED"}
    value = r"Optimal objective (\S+)"
    writes = "clp model.mps -presolve off {sense} -export out.mps", "-minimize", "-maximize"

    def command(self, path, fixed):
        return ["clp", path, "-primalsimplex"]


class Cbc(Clp):
    name, version = "cbc", r"Version: (\S+)"
    writes = "cbc model.mps -presolve off {sense} -export out.mps", "-minimize", "-maximize"

    def command(self, path, fixed):
        return ["cbc", path, "-initialSolve"]


class Esolver(Reader):
    name, told_in, version = "esolver", "solution", r"QSopt_ex (\S+)"
    words = {"status = INFEASIBLE": "INFEASIBLE", "status = UNBOUNDED": "UNBOUNDED"}
    value = r"status = OPTIMAL\s.*?Value = (\S+)"

    def command(self, path, fixed):
        return ["esolver", "-O", "solution", path]

    def version_command(self):
        return ["esolver", "-v"]


# ---- what is written

COST = Fraction("0.12345678901234567")


def model_to_write(maximize):
    columns = {"x": Column(COST, None, Fraction(-1), {"least": Fraction(1)}), "y": Column(Fraction(2), entries={"least": Fraction(1)})}
    rows = {"least": Row("G", Fraction(-4), Fraction(3)), "same": Row("E", Fraction(1), Fraction(-2)), "other": Row("N")}
    columns["y"].entries.update({"same": Fraction(1), "other": Fraction(3)})
    return Model("model", -1 if maximize else 1, "gain", Fraction(-10), rows, columns)


def digits(number):
    """How many digits of the cost are kept."""
    text = f"{COST.numerator / COST.denominator:.17f}"
    return next((str(n) for n in range(17, 0, -1) if abs(number - COST) < Fraction(1, 10**n)), text)


def written_back(reader, maximize, folder):
    """The model that the program writes, its own readings of signs undone."""
    dialect = DIALECTS[reader.name]
    (folder / "model.mps").write_text(written(model_to_write(maximize), dialect).text)
    for path in folder.glob("out.mps*"):
        path.unlink()
    command, least, most = reader.writes
    reader.run(command.format(sense=most if maximize else least).split(), folder)
    found = next(folder.glob("out.mps*")).read_bytes()
    model = convert(gzip.decompress(found) if found[:2] == b"\x1f\x8b" else found).model
    model.offset *= -dialect.offset_sign
    return model


def kept(before, after):
    return "kept" if before == after else "negated" if before == -after else "left out" if not after else f"as {after}"


def what_is_written(reader, folder):
    """A cell for each thing that a text may lose."""
    for maximize in (False, True):
        before, after = model_to_write(maximize), written_back(reader, maximize, folder)
        if maximize:
            is_negated = after.columns["x"].cost < 0
            yield "kept" if after.sense == before.sense else "by negated costs" if is_negated else "left out"
            if is_negated:
                yield "negated" if after.offset == -before.offset else "not negated"
                continue
        yield kept(before.offset, after.offset)
    yield "kept" if after.objective == before.objective else f"as {after.objective}"
    limits = [[one.limits() for one in (*without_free_rows(model).rows.values(), *model.columns.values())] for model in (before, after)]
    yield "kept" if limits[0] == limits[1] else "others"
    yield "kept" if after.free_rows() == before.free_rows() else "left out"
    yield digits(abs(after.columns["x"].cost))


WRITTEN = ["the offset", "that the objective is maximized", "the offset where it is maximized", "the objective's name", "the limits of rows and columns"]
WRITTEN += ["a second `N` row", "numbers, in digits"]

# ---- tables


def row(cells):
    return "| " + " | ".join(cells) + " |"


def tables(readers, folder):
    names = [reader.whole_name(folder) for reader in readers]
    yield row(["Read", *names])
    yield row(["---"] * (len(names) + 1))
    for what, text, fixed, meanings in QUESTIONS:
        answers = [reader.answer(text, fixed, folder) for reader in readers]
        yield row([what, *(meanings.get(answer, answer) for answer in answers)])
    writers = [(name, reader) for name, reader in zip(names, readers) if reader.writes]
    cells = [list(what_is_written(reader, folder)) for _, reader in writers]
    yield ""
    yield row(["Written", *(name for name, _ in writers)])
    yield row(["---"] * (len(writers) + 1))
    for at, what in enumerate(WRITTEN):
        yield row([what, *(of_one[at] for of_one in cells)])


def main():
    parser = argparse.ArgumentParser(description="Tries which dialects of MPS other programs read, and what they write.")
    parser.add_argument("--program", default=str(TOP / "crates/lpd/out/lpd"))
    parser.add_argument("--write", metavar="PAGE")
    options = parser.parse_args()
    readers = [Lpd(options.program), *(r for r in (Glpsol(), LpSolve(), Clp(), Cbc(), Esolver()) if shutil.which(r.name))]
    with tempfile.TemporaryDirectory() as folder:
        lines = list(tables(readers, Path(folder)))
    print("\n".join(lines))
    if options.write:
        page = Path(options.write)
        before, _, rest = page.read_text(encoding="utf-8").partition(BEGIN)
        after = rest.partition(END)[2]
        page.write_text("\n".join([before + BEGIN, "", *lines, "", END + after]), encoding="utf-8")


if __name__ == "__main__":
    main()
