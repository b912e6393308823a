#!/usr/bin/env python3
"""Measures lpd beside other exact solvers, and checks that all of them answer the same.

    compare.py [--program PROGRAM] [--before PROGRAM] [--beside SOLVER,..] [--models FOLDER] [--only NAME,..] [--runs N]
               [--seconds N] [--write PAGE]

The models are those of examples/models, some that are made here from stated seeds, and those of FOLDER. lpd solves each
in a session with the largest budget. solvers.py says which the other solvers are and what they read. gmp_bland takes
the same path as lpd in the fractions of GMP, so that its pivots have to be lpd's; it also tells how many entries that
are not 0 these visit. With --plain it walks the entries that are 0 too.

Times are of the processor, for the whole process, the least of N runs (3); the time of a process that does nothing
stands apart. Behind another solver's time stands the ratio of lpd's time to it, where both answer the same, or else
what the other answers. The time for a pivot and for a non-zero is that of the solve and its check, less that of a
session which loads the text alone, where it is at least 2 ms. With --write the table and its summary take the place of
what stands between the two marks of PAGE.
"""
import os
import pathlib
import statistics
import sys
import tempfile
from dataclasses import dataclass, field
from fractions import Fraction

from options import read_options
from page import write
from solvers import LARGEST, MADE, TOP, Esolver, Glpsol, GmpBland, least, made, models_of, run, session

BEGIN, END = "<!-- measured by bench/compare.py -->", "<!-- end -->"
ANSWERS = ("OPTIMAL", "INFEASIBLE", "UNBOUNDED")
SHORTEST = 0.002
# Models that took longer before count in the mean.
LONG = 0.005


@dataclass
class Measured:
    """What lpd answers and takes for a model, and the ratios to the others' times."""

    name: str
    answer: tuple
    spent: float
    solving: float
    pivots: int = None
    nonzeros: int = None
    bits: int = None
    ratios: dict = field(default_factory=dict)
    before: "Measured" = None

    def each(self, number):
        """The time for each of a number, in seconds, where it can be told."""
        if self.answer[0] in ANSWERS and number and self.solving >= SHORTEST:
            return self.solving / number
        return None

    def quicker(self):
        """How many times quicker it is than before, where both answer or both refuse."""
        same = self.before and self.before.answer[0] == self.answer[0] != "TIME"
        return self.before.spent / self.spent if same else None

    def cells(self):
        pivot, nonzero = self.each(self.pivots), self.each(self.nonzeros)
        visited = self.nonzeros / self.pivots if self.nonzeros and self.pivots else None
        yield self.answer[0]
        yield "" if self.pivots is None else str(self.pivots)
        yield f"{self.spent * 1e3:.1f}"
        if self.before:
            told = self.before.answer[0] if self.quicker() is None else f"{self.quicker():.2f}"
            yield f"{self.before.spent * 1e3:.1f} ({told})"
        yield "" if pivot is None else f"{pivot * 1e6:.0f}"
        yield "" if visited is None else f"{visited:.0f}"
        yield "" if nonzero is None else f"{nonzero * 1e9:.0f}"
        yield "" if self.bits is None else str(self.bits)


def by_lpd(options, model):
    """The answer, the pivots behind an answer, and the time of the solve and of the load alone; and the same before."""
    solve, times, replies = [f"BUDGET {LARGEST}", "SOLVE", "HOW"], {}, {}
    for _ in range(options.runs):
        for name, program in options.programs.items():
            for commands in [solve, []] if replies.get(name, True) else []:
                said, spent = session(program, model.form, model.data, commands, options.seconds)
                times.setdefault((name, bool(commands)), []).append(spent)
                if commands:
                    replies[name] = said
    found = {}
    for name, said in replies.items():
        if said is None:
            found[name] = Measured(model.name, ("TIME",), options.seconds, 0)
            continue
        spent, loading = min(times[name, True]), min(times[name, False])
        answer, how = said[2].split()[1:], said[3].split()
        answer = ("OPTIMAL", Fraction(answer[1])) if answer[0] == "OPTIMAL" else tuple(answer)
        pivots = int(how[4]) if answer[0] in ANSWERS else None
        found[name] = Measured(model.name, answer, spent, spent - loading, pivots)
    mine = found["lpd"]
    mine.before = found.get("before")
    return mine


def changed(mine):
    """What is wrong with an answer, by that before: a PAST may have become an answer, and nothing else."""
    words = (mine.before or mine).answer
    if words != mine.answer and "TIME" not in (words[0], mine.answer[0]) and (words[0] != "PAST" or mine.answer[0] == "PAST"):
        yield f"{mine.name}: lpd says {mine.answer}, and said {words} before"


def agrees(model, ours, theirs, is_exact):
    """Whether two answers are the same; None where one of them is none."""
    if ours[0] not in ANSWERS or theirs[0] not in ANSWERS:
        return None
    if ours[0] != "OPTIMAL" or theirs[0] != "OPTIMAL":
        return ours[0] == theirs[0]
    other = model.value(theirs[1])
    return ours[1] == other if is_exact else abs(ours[1] - other) * 10**9 <= max(1, abs(ours[1]), abs(theirs[1]))


def beside(options, model, folder, mine, other, faults):
    """The cell of another solver: its time, and the ratio where it answers the same."""
    if not other.reads_quotients and not model.is_decimal():
        return "quotients"
    theirs, spent = least(options.runs, lambda: other.solve(folder, options.seconds))
    same = agrees(model, mine.answer, theirs, other.is_exact)
    if same is False:
        faults.append(f"{model.name}: lpd says {mine.answer}, {other.name} says {theirs}")
    if theirs[0] in ANSWERS and hasattr(other, "told"):
        if same and other.told["PIVOTS"] != mine.pivots:
            faults.append(f"{model.name}: lpd has {mine.pivots} pivots, {other.name} has {other.told['PIVOTS']}")
        if same:
            mine.nonzeros, mine.bits = other.told["NONZEROS"], other.told["BITS"]
    if theirs[0] not in ANSWERS:
        return theirs[0]
    if not same:
        return f"{spent * 1e3:.1f} ({theirs[0] if same is None else 'OTHER'})"
    mine.ratios[other.name] = mine.spent / spent
    return f"{spent * 1e3:.1f} ({mine.ratios[other.name]:.2f})"


def row(cells):
    return "| " + " | ".join(cells) + " |"


def measure(options, models, others, faults):
    """The lines of the table, and what was measured for each model."""
    heads = ["Model", "Rows", "Columns", "lpd", "Pivots", "ms", *["before, ms"] * bool(options.before)]
    heads += ["µs a pivot", "Non-zeros a pivot", "ns a non-zero", "Bits"]
    heads += [f"{other.name}, ms" for other in others]
    lines, all_measured = [row(heads), "|---" * len(heads) + "|"], []
    print("\n".join(lines), flush=True)
    for model in models:
        mine = by_lpd(options, model)
        faults += changed(mine)
        with tempfile.TemporaryDirectory() as name:
            folder = pathlib.Path(name)
            (folder / "model.mps").write_text(model.text())
            cells = [beside(options, model, folder, mine, other, faults) for other in others]
        size = [str(len(model.plain.rows)), str(len(model.plain.columns))]
        lines.append(row([model.name, *size, *mine.cells(), *cells]))
        print(lines[-1], flush=True)
        all_measured.append(mine)
    return lines, all_measured


def summary(all_measured, others):
    """The worst cases: of each ratio, and of the time for a non-zero where numbers fit 64 bits and where not."""
    answered = [mine for mine in all_measured if mine.answer[0] in ANSWERS]
    for other in others:
        for scope, found in [
            ("the answered models", [m for m in answered if other.name in m.ratios]),
            ("those that take lpd more than 20 ms", [m for m in answered if other.name in m.ratios and m.spent > 0.02]),
        ]:
            if found:
                worst = max(found, key=lambda m: m.ratios[other.name])
                yield f"- the largest ratio lpd / {other.name}, over {scope}: {worst.ratios[other.name]:.2f} ({worst.name})"
    for scope, found in [
        ("whose numbers fit 63 bits", [m for m in answered if m.bits and m.bits <= 63 and m.each(m.nonzeros)]),
        ("with longer numbers", [m for m in answered if m.bits and m.bits > 63 and m.each(m.nonzeros)]),
    ]:
        if found:
            worst = max(found, key=lambda m: m.each(m.nonzeros))
            spent = worst.each(worst.nonzeros) * 1e9
            yield f"- the most ns for an entry that is not 0, over the answered models {scope}: {spent:.0f} ({worst.name})"


def since(all_measured):
    """How much quicker than before: on answered models in the mean and at the least, and on refused ones at the least."""
    for scope, words in (("answered", ANSWERS), ("refused", ("PAST",))):
        found = [mine for mine in all_measured if mine.quicker() and mine.answer[0] in words]
        long = [mine for mine in found if mine.before.spent > LONG]
        if long:
            mean = statistics.geometric_mean(mine.quicker() for mine in long)
            yield f"- times quicker than before, in the geometric mean over {len(long)} {scope} models of more than 5 ms: {mean:.2f}"
        if found:
            worst = min(found, key=Measured.quicker)
            told = f"{worst.quicker():.2f} ({worst.name}, {worst.spent * 1e3:.1f} ms)"
            yield f"- times quicker than before, at the least on {scope} models: {told}"
    won = [mine.name for mine in all_measured if mine.before and mine.before.answer[0] == "PAST" and mine.answer[0] in ANSWERS]
    if won:
        yield f"- refused before, and answered: {', '.join(won)}"


def starts(options, others):
    """How long the processes take that do nothing."""
    idle = {"lpd": options.programs["lpd"] + ["run"], **{other.name: other.idle for other in others if other.idle}}
    for name, command in idle.items():
        spent = least(options.runs * 2, lambda: run(command, b"", options.seconds))[1]
        yield f"{name} {spent * 1e3:.1f} ms"


def main():
    options = read_options(__doc__, before="", beside="", models="", only="", runs=3, seconds=60)
    options.programs = {"lpd": options.program} | ({"before": options.before.split()} if options.before else {})
    os.environ["LC_ALL"] = "C"
    others = [other for other in [GmpBland(), GmpBland("--plain"), Esolver(), Glpsol()] if other.is_there()]
    others = [other for other in others if not options.beside or other.name in options.beside.split(",")]
    models = [*models_of(TOP / "examples/models"), *(made(*shape) for shape in MADE)]
    models += models_of(options.models) if options.models else []
    if options.only:
        models = [model for model in models if model.name in options.only.split(",")]
    faults = []
    lines, all_measured = measure(options, models, others, faults)
    front = ["A process that does nothing: " + ", ".join(starts(options, others)) + ".", ""]
    behind = ["", *since(all_measured), *summary(all_measured, others)]
    print("\n".join([*front, *behind]))
    if options.write:
        write(options.write, BEGIN, END, front + lines + behind)
    for fault in faults:
        print(fault, file=sys.stderr)
    return 1 if faults else 0


if __name__ == "__main__":
    sys.exit(main())
