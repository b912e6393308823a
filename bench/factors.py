#!/usr/bin/env python3
"""Measures the time of a pivot on made models that are dense, sparse, or a staircase, for one program or more.

    factors.py [--program [NAME=]PROGRAM ..] [--models FOLDER] [--only NAME,..] [--runs N] [--seconds N] [--write PAGE]

Dense models have 10 to 60 rows and as many columns, of which each row has a third; sparse ones 50 to 256 rows and up to
340 columns with 3 entries each; staircases are plans of 10 to 80 periods of three rows each, which stock links. Their
entries are small, so that most ways to the optimum stay within 127 bits. With --models those of FOLDER take the place
of the made ones. Each program solves each model in a session with the largest budget, and so does esolver (Debian's
qsopt-ex) where it is on the path; all that answer have to answer the same.

Times are of the processor, for the whole process, the least of N runs (3), in which the programs take turns; the time
of a pivot is that of the solve and its check, less that of a session which loads the text alone, over the pivots and
flips, where it is at least 2 ms. With --write the table and its summary take the place of what stands between the two
marks of PAGE.
"""
import pathlib
import random
import sys
import tempfile
from dataclasses import dataclass
from fractions import Fraction

from options import read_options
from page import write
from solvers import LARGEST, Esolver, Model, least, models_of, session
from workers import plan

BEGIN, END = "<!-- measured by bench/factors.py -->", "<!-- end of the factors -->"
ANSWERS = ("OPTIMAL", "INFEASIBLE", "UNBOUNDED")
SHORTEST = 0.002
DENSE = [10, 15, 20, 30, 40, 50, 60]
SPARSE = [(50, 60), (50, 100), (80, 100), (80, 160), (120, 150), (180, 200), (256, 280), (256, 340)]
STAIRCASES = [10, 20, 40, 60, 80]


# ---- models


def covering(name, rows, columns, dice):
    """A model whose rows ask for at least something of columns that cost something; the entries of a column by rows."""
    lines = [f"NAME {name}", "ROWS", " N cost", *(f" G r{i}" for i in range(rows)), "COLUMNS"]
    for j, entries in enumerate(columns):
        lines.append(f" x{j} cost {dice.randint(1, 20)}")
        lines += [f" x{j} r{i} {value}" for i, value in sorted(entries.items())]
    lines += ["RHS", *(f" RHS r{i} {dice.randint(1, 30)}" for i in range(rows)), "ENDATA", ""]
    return Model(name, "\n".join(lines).encode(), "free")


def dense(size):
    dice = random.Random(size)
    columns = [{i: 1 for i in range(size) if i == j or dice.random() < 1 / 3} for j in range(size)]
    return covering(f"dense-{size}", size, columns, dice)


def sparse(rows, count):
    """Each of the first columns has an entry in a row of its own, so that there is a point."""
    dice = random.Random(f"{rows}/{count}")
    columns = []
    for j in range(count):
        others = [i for i in dice.sample(range(rows), 3) if i != j]
        entries = ([j] if j < rows else []) + others
        columns.append({i: 1 for i in entries[:3]})
    return covering(f"sparse-{rows}x{count}", rows, columns, dice)


def staircase(periods):
    lines = plan(periods, random.Random(periods))
    return Model(f"staircase-{periods * 3}", "\n".join([*lines, ""]).encode(), "free")


# ---- measuring


@dataclass
class Measured:
    """What a program answers, its pivots, and the times of the whole process and of the solve in it."""

    answer: str
    pivots: int
    spent: float
    solving: float

    def cells(self):
        yield f"{self.spent * 1e3:.1f}"
        yield f"{self.solving / self.pivots * 1e6:.1f}" if self.pivots and self.solving >= SHORTEST else ""


def by_lpd(options, model):
    """What each program answers, and what it takes at the least."""
    tasks = {(name, cut): [] for name in options.programs for cut in ("solve", "load")}
    answers = {}
    for _ in range(options.runs):
        for name, cut in [task for task in tasks if answers.get(task[0], True) is not None]:
            commands = [f"BUDGET {LARGEST}", "SOLVE", "HOW"] if cut == "solve" else []
            lines, spent = session(options.programs[name], model.form, model.data, commands, options.seconds)
            if cut == "solve":
                answers[name] = lines
            tasks[name, cut].append(spent)
    for name, lines in answers.items():
        if lines is None:
            yield name, Measured("TIME", None, options.seconds, 0)
            continue
        pivots = lines[3].split(" PIVOTS ")[1].split()[0]
        spent, loading = min(tasks[name, "solve"]), min(tasks[name, "load"])
        yield name, Measured(lines[2][2:], None if pivots == "-" else int(pivots), spent, spent - loading)


def by_esolver(options, model):
    """The answer of esolver in lpd's words, and its time."""
    with tempfile.TemporaryDirectory() as place:
        (pathlib.Path(place) / "model.mps").write_text(model.text())
        answer, spent = least(options.runs, lambda: Esolver().solve(pathlib.Path(place), options.seconds))
    return (answer[0], *map(model.value, answer[1:])), spent


def row(cells):
    return "| " + " | ".join(cells) + " |"


def measure(options, models, faults):
    """The lines of the table, and for each program what it took for each model."""
    has_esolver = Esolver.is_there()
    heads = [head for name in options.programs for head in (f"{name}, ms", "µs a pivot")]
    heads = ["Model", "Rows", "Columns", "Entries", "Answer", "Pivots", *heads, *["esolver, ms"] * bool(has_esolver)]
    lines = [row(heads)]
    lines.append("|---" * len(heads) + "|")
    print("\n".join(lines), flush=True)
    found = {}
    for model in models:
        plain = model.plain
        sizes = [len(plain.rows), len(plain.columns), sum(len(column.entries) for column in plain.columns.values())]
        cells = [model.name, *map(str, sizes)]
        theirs, spent = by_esolver(options, model) if has_esolver else (("NONE",), None)
        known = theirs if theirs[0] in ANSWERS else None
        ours = dict(by_lpd(options, model))
        for told in (lambda one: one.answer.split()[0], lambda one: "" if one.pivots is None else str(one.pivots)):
            cells.append(" / ".join(dict.fromkeys(map(told, ours.values()))))
        for name, one in ours.items():
            found.setdefault(name, {})[model.name] = one
            cells += one.cells()
            word, *value = one.answer.split()
            answer = (word, *map(Fraction, value)) if word in ANSWERS else None
            known = known or answer
            if answer and answer != known:
                faults.append(f"{model.name}: {name} says {one.answer}, and another {' '.join(map(str, known))}")
        if has_esolver:
            cells.append("TIME" if spent is None else f"{spent * 1e3:.1f}")
        lines.append(row(cells))
        print(lines[-1], flush=True)
    return lines, found


def summary(found):
    """For each kind of model and each program the time of a pivot over all models that it answers."""
    for kind in ("dense", "sparse", "staircase"):
        for name, by_model in found.items():
            ours = [one for model, one in by_model.items() if model.startswith(kind)]
            done = [one for one in ours if one.pivots]
            if done:
                each = sum(one.solving for one in done) / sum(one.pivots for one in done)
                told = f"{len(done)} of {len(ours)} answered, {each * 1e6:.1f} µs a pivot over all of them"
                yield f"- {kind}, {name}: {told}"


def main():
    options = read_options(__doc__, "programs", models="", only="", runs=3, seconds=60)
    models = [*map(dense, DENSE), *(sparse(*shape) for shape in SPARSE), *map(staircase, STAIRCASES)]
    if options.models:
        models = [*models_of(options.models)]
    wanted = options.only.split(",") if options.only else [model.name for model in models]
    faults = []
    lines, found = measure(options, [model for model in models if model.name in wanted], faults)
    behind = ["", *summary(found)]
    print("\n".join(behind))
    if options.write:
        write(options.write, BEGIN, END, lines + behind)
    for fault in faults:
        print(f"FAULT: {fault}", file=sys.stderr)
    return 1 if faults else 0


if __name__ == "__main__":
    sys.exit(main())
