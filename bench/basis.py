#!/usr/bin/env python3
"""Measures `lpd basis` from the bases of other solvers beside the cold solve, and checks the certificates of both.

    basis.py FOLDER [--program PROGRAM] [--with SOLVER,..] [--only NAME,..] [--optima FILE] [--runs N] [--seconds N]
        [--write PAGE]

Each NAME.mps is converted into the profile, solved cold in a session with the budget that `lpd basis` has, and solved
by `lpd basis` from the basis at which each solver stopped (glpsol and clp; any of clients/python); where that ends past
127 bits, once more with the rows and columns in another order, as the command `certify` does. Each certificate has to
be accepted by `lpd check` and by the checker in Python, and the answers have to be the same; FILE has a line 'NAME
outcome optimum ..' for each model, its words parted by tabs, with which they are compared too.

Times are of the processor, for the whole process of lpd, the least of N runs (3); the other solver's is not in them.
With --write the table and what it comes to take the place of what stands between the two marks of PAGE.
"""
import argparse
import os
import pathlib
import shutil
import sys
from dataclasses import dataclass, replace
from fractions import Fraction

from page import ended
from solvers import PROGRAM, TOP, least, run, session

sys.path.insert(0, str(TOP / "clients" / "python"))

from lpd.basis_file import basis_lines, reordered  # noqa: E402  (the package of this repository)
from lpd.certificate import check_lines  # noqa: E402
from lpd.conversion import Options, convert  # noqa: E402
from lpd.dialects import PROFILE, written  # noqa: E402
from lpd.exact import Basis  # noqa: E402
from lpd.floating import ask  # noqa: E402
from lpd.solver_names import CHOICES  # noqa: E402
from lpd.from_basis import read_answer  # noqa: E402
from lpd.replies import Accepted, Optimal, Past, Spent  # noqa: E402

BEGIN, END = "<!-- measured by bench/basis.py -->", "<!-- end of the solves from bases -->"
BUDGET = 10_000
REORDERED = "reordered"


@dataclass
class Solved:
    """An answer by its words, how it was found, its pivots and its certificate, and the time; no answer within the time
    is TIME, and a refused text is its ERR."""

    answer: str
    start: str = ""
    pivots: str = ""
    certificate: tuple = ()
    spent: float = 0

    def is_known(self):
        return self.answer.split()[0] in ("OPTIMAL", "INFEASIBLE", "UNBOUNDED")

    def cells(self):
        words = self.answer.split()
        shown = " ".join(words[: 1 if self.is_known() else 4 if words[0] == "ERR" else 2])
        yield shown if self.start in ("", "COLD", "WARM") else f"{shown} ({self.start})"
        yield self.pivots
        yield f"{self.spent * 1e3:.1f}" if self.spent else ""


def cold(options, text):
    """The answer of a session."""

    def solve():
        return session(options.program, "free", text, [f"BUDGET {BUDGET}", "SOLVE", "HOW", "CERT"], options.seconds)

    lines, spent = least(options.runs, solve)
    if lines is None:
        return Solved("TIME")
    if not lines[0].startswith("1 LOADED"):
        return Solved(lines[0][2:])
    return Solved(lines[2][2:], "COLD", lines[3].split(" PIVOTS ")[1].split()[0], tuple(lines[5:]), spent)


def from_basis(options, text, lines):
    """The answer of `lpd basis`."""
    data = text + "".join(f"{line}\n" for line in lines).encode("latin-1")
    said, spent = least(options.runs, lambda: run(options.program + ["basis"], data, options.seconds))
    if said is None:
        return Solved("TIME")
    if said.startswith("ERR") or not said:
        return Solved(said.strip() or "ERR no answer")
    found = read_answer(said.split("\n")[:-1])
    pivots = "-" if found.pivots is None else str(found.pivots)
    return Solved(said.partition("\n")[0], found.start, pivots, tuple(found.certificate), spent)


def faults_of(options, model, text, solved, expected):
    """What is wrong with an answer: a checker does not accept its certificate, or it is not the one of the list."""
    verdict = check_lines(model, solved.certificate, wide=True)
    if not isinstance(verdict, Accepted) or str(verdict.known) != solved.answer:
        yield f"the checker in Python says {verdict} to {solved.answer}"
    data = text + "".join(f"{line}\n" for line in solved.certificate).encode("latin-1")
    said = run(options.program + ["check"], data, options.seconds)[0]
    if said != f"YES {solved.answer}\n":
        yield f"lpd check says {said!r} to {solved.answer}"
    if expected and solved.answer.split()[0] != expected[0].upper():
        yield f"{solved.answer}, and the list says {expected}"
    if expected and expected[0] == "optimal" and Fraction(solved.answer.split()[1]) != Fraction(expected[1]):
        yield f"{solved.answer}, and the list says {expected}"


def measured(options, path, expected, faults):
    """The model and its solves: cold, and from the basis of each solver."""
    converted = convert(path.read_bytes(), None, Options(wide=True))
    model, text = converted.model, converted.text.rstrip("\n").encode("latin-1") + b"\n"
    solves = [cold(options, text)]
    for solver in options.solvers:
        claim = ask(solver, model, options.seconds)
        basis = claim.basis or Basis()
        lines, notes = basis_lines(model, basis)
        first = from_basis(options, text, lines)
        if first.answer.startswith("PAST"):
            other = written(reordered(model, basis), PROFILE).text.encode("latin-1")
            second = from_basis(options, other, lines)
            first = replace(second, start=f"{second.start}, {REORDERED}") if second.is_known() else first
        solves.append(first)
        for note in notes:
            print(f"{path.stem}, {solver}: {note}", file=sys.stderr)
    for solved in solves:
        if solved.is_known():
            faults += [f"{path.stem}: {fault}" for fault in faults_of(options, model, text, solved, expected)]
    return model, solves


def row(cells):
    return "| " + " | ".join(cells) + " |"


def counts(solver, colds, warms):
    """What the bases of a solver come to."""
    known = [solved.is_known() for solved in warms]
    refused = [warm for cold, warm in zip(colds, warms) if not cold.is_known()]
    won = [warm for warm in refused if warm.is_known()]
    said = f"From the bases of `{solver}`, `lpd basis` answers {sum(known)} of {len(warms)} models. The cold solve answers"
    said += f" {sum(cold.is_known() for cold in colds)}. Of the {len(refused)} that the cold solve refuses, `lpd basis` answers {len(won)}."
    others = sum(warm.is_known() and warm.start.endswith(REORDERED) for warm in won)
    which = "this answer" if len(won) == 1 else f"{others} of these answers"
    said += f" For {which} the rows and columns were put in another order." if others else ""
    at_once = sum(warm.start.startswith("WARM") and warm.pivots == "0" for warm in warms)
    whys = [warm.start.split()[1].rstrip(",") for warm in warms if warm.start.startswith("FELL")]
    reasons = ", ".join(f"{whys.count(why)} {why}" for why in dict.fromkeys(whys))
    said += f" {at_once} need no pivot; {len(whys)} bases are given up{f' ({reasons})' if whys else ''}."
    both = [(cold, warm) for cold, warm in zip(colds, warms) if cold.is_known() and warm.is_known()]
    pivots = [sum(int(solves[at].pivots) for solves in both) for at in (0, 1)]
    return f"{said} On the {len(both)} that both answer there are {pivots[0]:,} pivots cold, {pivots[1]:,} from the bases."


def measure(options, faults):
    """The lines of the table, with what it comes to before it."""
    optima = {}
    if options.optima:
        lines = [line.split("\t") for line in options.optima.read_text().splitlines()[1:]]
        optima = {name: rest for name, *rest in lines}
    heads = [head for solver in options.solvers for head in (f"from `{solver}`", "Pivots", "ms")]
    table = [row(["Model", "Rows", "Columns", "Cold", "Pivots", "ms", *heads]), "|---" * (6 + len(heads)) + "|"]
    all_solves = []
    for path in sorted(options.folder.glob("*.mps")):
        if options.only and path.stem not in options.only:
            continue
        model, solves = measured(options, path, optima.get(path.stem), faults)
        all_solves.append(solves)
        cells = [cell for solved in solves for cell in solved.cells()]
        table.append(row([path.stem, str(len(model.rows)), str(len(model.columns)), *cells]))
        print(table[-1], flush=True)
    colds, *warms = zip(*all_solves)
    return [*(counts(solver, colds, of_one) for solver, of_one in zip(options.solvers, warms)), "", *table]


def main():
    options = argparse.ArgumentParser(description=__doc__, formatter_class=argparse.RawDescriptionHelpFormatter)
    options.add_argument("folder", type=pathlib.Path)
    options.add_argument("--program", default=os.environ.get("LPD", PROGRAM))
    options.add_argument("--with", dest="solvers", type=lambda text: text.split(","), default=["glpsol", "clp"])
    options.add_argument("--only", type=lambda text: text.split(","))
    options.add_argument("--optima", type=pathlib.Path)
    options.add_argument("--runs", type=int, default=3)
    options.add_argument("--seconds", type=float, default=60)
    options.add_argument("--write", type=pathlib.Path)
    options = options.parse_args()
    options.program = options.program.split()
    missing = [solver for solver in options.solvers if solver not in CHOICES or not shutil.which(solver)]
    if missing:
        sys.exit(f"not on the path: {', '.join(missing)}")
    faults = []
    lines = measure(options, faults)
    print("\n".join(lines[: len(options.solvers)]))
    return ended(options.write, BEGIN, END, lines, faults)


if __name__ == "__main__":
    sys.exit(main())
