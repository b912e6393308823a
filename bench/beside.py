#!/usr/bin/env python3
"""Solves the models of a folder by `lpd solve --wide` and by other solvers, and says how far each one's value is from the exact one.

    beside.py FOLDER [--only NAME,..] [--program PROGRAM] [--runs N] [--seconds N] [--write PAGE]

The others are esolver (QSopt_ex), z3, `glpsol --exact`, glpsol and clp; one that is not on the path is left out. Each has so many
seconds of the processor (20). Times are of the processor, for the whole process, in ms. Behind a time stands what the solver shows
of the value: `=` where that is the exact value, else how many of its digits are right, or how it ended. `lpd check --wide` has to say
yes to each certificate. With --write the table takes the place of what stands between the two marks of PAGE.
"""
import math
import re
import shutil
import sys
import tempfile
from fractions import Fraction
from pathlib import Path

from exact import checked
from options import read_options
from page import ended, shown
from planners import row
from solvers import limited, models_of
from lpd.number_text import shown as number_text

BEGIN, END = "<!-- measured by bench/beside.py -->", "<!-- end of the solvers beside each other -->"
NUMBER = r"(-?[\d.]+(?:e[+-]?\d+)?(?:/\d+)?)"


def smt(x):
    """A number as z3 reads it."""
    size = f"{abs(x.numerator)}.0" if x.denominator == 1 else f"(/ {abs(x.numerator)}.0 {x.denominator}.0)"
    return f"(- {size})" if x < 0 else size


def within(term, lower, upper):
    """That a term is within its limits, those that there are."""
    return [f"(assert ({sign} {term} {smt(limit)}))" for sign, limit in ((">=", lower), ("<=", upper)) if limit is not None]


def smt_of(model):
    """The model as z3 reads it."""
    names = {name: f"x{j}" for j, name in enumerate(model.plain.columns)}

    def total(pairs):
        terms = [f"(* {smt(Fraction(v))} {names[name]})" for name, v in pairs if v]
        return f"(+ 0.0 0.0 {' '.join(terms)})"

    lines = [f"(declare-const {x} Real)" for x in names.values()]
    for name, column in model.plain.columns.items():
        lines += within(names[name], column.lower, column.upper)
    for label, of_row in model.plain.rows.items():
        sum_of = total((name, column.entries.get(label, 0)) for name, column in model.plain.columns.items())
        lines += within(sum_of, *of_row.limits())
    cost = total((name, model.sign * column.cost) for name, column in model.plain.columns.items())
    return "\n".join([*lines, f"(minimize {cost})", "(check-sat)", "(get-objectives)", ""])


def by_esolver(model, room, seconds):
    solution = room / "solution"
    solution.unlink(missing_ok=True)
    _, spent = limited(["esolver", "-O", str(solution), str(room / "model.mps")], b"", seconds)
    text = solution.read_text() if solution.exists() else ""
    return re.search(rf"Value = {NUMBER}", text), spent


def by_z3(model, room, seconds):
    (room / "model.smt2").write_text(smt_of(model))
    said, spent = limited(["z3", str(room / "model.smt2")], b"", seconds)
    # long fractions go over several lines
    plain = re.sub(r"\(- (\S+|\(/ \S+ \S+\))\)", r"-\1", " ".join(said.split()))
    return re.search(rf"{NUMBER}\)\s*\)\s*$", re.sub(r"\(/ (\S+) (\S+)\)", r"\1/\2", plain).replace(".0", "")), spent


def by_glpsol(exact):
    def solve(model, room, seconds):
        page = room / "page"
        page.unlink(missing_ok=True)
        words = ["glpsol", "--freemps", str(room / "model.mps"), *["--exact"] * exact, "-o", str(page)]
        said, spent = limited(words, b"", seconds)
        found = re.search(rf"^Objective:\s*\S+ = {NUMBER}", page.read_text() if page.exists() else "", re.M)
        return found if "OPTIMAL" in said else None, spent

    return solve


def by_clp(model, room, seconds):
    said, spent = limited(["clp", str(room / "model.mps"), "-dualsimplex"], b"", seconds)
    return re.search(rf"Optimal - objective value {NUMBER}", said), spent


OTHERS = {
    "esolver": ("esolver", by_esolver),
    "z3": ("z3", by_z3),
    "glpsol --exact": ("glpsol", by_glpsol(True)),
    "glpsol": ("glpsol", by_glpsol(False)),
    "clp": ("clp", by_clp),
}


def agreement(text, value):
    """`=`, or how many digits of the value are right."""
    said = Fraction(text)
    if said == value:
        return "="
    off = abs(said - value) / abs(value) if value else abs(said)
    return f"{max(0, math.floor(-math.log10(off)))} digits"


def cell(found, spent, model, value, seconds):
    time = f"{spent * 1e3:,.0f}"
    if found:
        return f"{time} ({agreement(found[1], (value - model.plain.offset) * model.sign)})"
    return f"{time} ({'no end' if spent > 0.95 * seconds else 'none'})"


def table(options, faults):
    others = {name: solve for name, (tool, solve) in OTHERS.items() if shutil.which(tool)}
    yield row(["Model", "Rows", "Columns", "lpd solve --wide, ms", *(f"{name}, ms" for name in others)])
    yield "|---" * (4 + len(others)) + "|"
    chosen = options.only.split(",") if options.only else None
    for model in models_of(options.folder):
        if chosen is not None and model.name not in chosen:
            continue
        said, spent = limited([*options.program, "solve", "--wide"], model.data, options.seconds)
        answer, *certificate = said.splitlines() or ["none"]
        if not answer.startswith("OPTIMAL "):
            faults.append(f"{model.name}: {answer}")
            continue
        checked(options, model, answer, certificate, faults)
        with tempfile.TemporaryDirectory() as folder:
            room = Path(folder)
            (room / "model.mps").write_text(model.text())
            value = Fraction(answer.split()[1])
            cells = [cell(*solve(model, room, options.seconds), model, value, options.seconds) for solve in others.values()]
        yield row([model.name, str(len(model.plain.rows)), str(len(model.plain.columns)), f"{spent * 1e3:,.0f} (=)", *cells])


def main():
    options = read_options(__doc__, "folder", only="", runs=1, seconds=20)
    faults = []
    return ended(options.write, BEGIN, END, shown(table(options, faults)), faults)


if __name__ == "__main__":
    sys.exit(main())
