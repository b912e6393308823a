#!/usr/bin/env python3
"""Solves made models as planners write them, ten of a kind, by one program or more and by esolver.

    planners.py [--program [NAME=]PROGRAM ..] [--wide NAME,..] [--only WORD,..] [--seed WORD] [--runs N] [--seconds N]
                [--write PAGE]

The rows ask for at least something, or have room for at most something; the columns cost something. A kind has 15 x 25 to 60 x 90
rows and columns, 3 or 8 entries a column, and whole numbers from 1 to 9 or two decimals from 0.10 to 99.99: 20 kinds, 200 models.
--only takes the kinds of these sizes, as 15x25, and those of 100x150, 150x250, 200x300 and 250x500 too, which nearly reach the
limits of the format and are made only where they are named. Each model is solved by `PROGRAM solve`, by `PROGRAM solve --wide` for the names
of --wide, and by esolver (Debian's qsopt-ex) where it is on the path. All that answer have to answer the same, and the checker in
Python, which shares nothing with lpd, has to say yes to each certificate.

The table has for each kind how many of ten are answered, and the median and the largest time of all ten, answered or not. Times are
of the processor, for the whole process, the least of N runs (1), in which the programs take turns. With --write the table takes the
place of what stands between the two marks of PAGE.
"""
import math
import pathlib
import random
import statistics
import sys
import tempfile
from fractions import Fraction

from options import read_options
from page import ended, shown
from solvers import CHECKER, Esolver, Model, least, run

BEGIN, END = "<!-- measured by bench/planners.py -->", "<!-- end of the planners' models -->"
ANSWERS = ("OPTIMAL", "INFEASIBLE", "UNBOUNDED")
SIZES = [(15, 25), (20, 30), (30, 45), (40, 60), (60, 90)]
LARGE_SIZES = [(100, 150), (150, 250), (200, 300), (250, 500)]
EACH = 10


def of_sizes(sizes):
    """The kinds of these sizes."""
    return [(rows, columns, entries, numbers) for rows, columns in sizes for entries in (3, 8) for numbers in ("whole", "decimals")]


KINDS = of_sizes(SIZES)


def chosen(only):
    """The kinds of these sizes, parted by commas, large ones too; those of SIZES where none is named."""
    if not only:
        return KINDS
    return [kind for kind in of_sizes(SIZES + LARGE_SIZES) if f"{kind[0]}x{kind[1]}" in only.split(",")]


def made(kind, seed, at, lacks=""):
    """A model of a kind, the same for a seed everywhere. It lacks a point with one more row, which leaves less than shares of
    up to twelve others ask for together, and a limit with one more column, whose cost is below 0 and of which each row takes any number."""
    rows, columns, entries, numbers = kind
    dice = random.Random(f"{seed}{rows}/{columns}/{entries}/{numbers == 'decimals'}/{at}")

    def number():
        return f"{dice.randint(10, 9999) / 100:.2f}" if numbers == "decimals" else str(dice.randint(1, 9))

    def written(number):
        return f"{number:.2f}" if numbers == "decimals" else str(int(number))

    def side(i):
        total = sum(float(values[i, j]) * point[j] for j in places if (i, j) in values)
        return written(total * (0.9 if kinds[i] == "G" else 1.2))

    kinds = ["G" if dice.random() < 0.6 else "L" for _ in range(rows)]
    places = {j: sorted(dice.sample(range(rows), min(entries, rows))) for j in range(columns)}
    values = {(i, j): number() for j in places for i in places[j]}
    point = [dice.randint(0, 6) for _ in range(columns)]
    costs = [number() for _ in range(columns)]
    asking = [i for i, word in enumerate(kinds) if word == "G"]
    few = {i: dice.randint(50, 150) / 100 for i in dice.sample(asking, min(12, len(asking))) if lacks == "point"}
    free = dice.sample(asking, min(entries, len(asking))) if lacks == "limit" else []
    lines = ["NAME made", "ROWS", " N cost", *(f" {word} r{i}" for i, word in enumerate(kinds)), *[" L few"] * bool(few), "COLUMNS"]
    for j, ones in places.items():
        lines += [f" x{j} cost {costs[j]}", *(f" x{j} r{i} {values[i, j]}" for i in ones)]
        taken = sum(few[i] * float(values[i, j]) for i in ones if i in few)
        lines += [f" x{j} few {written(math.ceil(100 * taken) / 100 if numbers == 'decimals' else math.ceil(taken))}"] * (taken > 0)
    if free:
        lines += [f" out cost -{number()}", *(f" out r{i} {number()}" for i in free)]
    lines += ["RHS", *(f" RHS r{i} {side(i)}" for i in range(rows))]
    lines += [f" RHS few {written(0.98 * sum(few[i] * float(side(i)) for i in few) - 0.01)}"] * bool(few)
    lines += ["ENDATA", ""]
    return Model(f"{rows}x{columns}", "\n".join(lines).encode(), "free")


# ---- measuring


def by_lpd(options, model, faults):
    """For each program its answer, None where it has none, and its time."""
    told, times = {}, {}
    for _ in range(options.runs):
        for name, program in options.programs.items():
            wide = ["--wide"] * (name in options.wide.split(","))
            said, spent = run([*program, "solve", *wide], model.data, options.seconds)
            told[name] = said or "TIME\n"
            times[name] = min(times.get(name, options.seconds), options.seconds if spent is None else spent)
    for name, said in told.items():
        answer, _, certificate = said.partition("\n")
        word, *value = answer.split()
        if word not in ANSWERS:
            yield name, (None, times[name])
            continue
        checked = run([*CHECKER, "--wide"], model.data + certificate.encode(), options.seconds)[0]
        if checked != f"YES {answer}\n":
            faults.append(f"{name} answers {answer} to {model.name}, and the checker says {checked}")
        yield name, ((word, *map(Fraction, value)), times[name])


def by_esolver(options, model):
    with tempfile.TemporaryDirectory() as place:
        (pathlib.Path(place) / "model.mps").write_text(model.text())
        answer, spent = least(options.runs, lambda: Esolver().solve(pathlib.Path(place), options.seconds))
    known = (answer[0], *map(model.value, answer[1:])) if answer[0] in ANSWERS else None
    return known, options.seconds if spent is None else spent


def cells(found):
    """How many are answered, and the median and the largest time in milliseconds."""
    times = [spent * 1e3 for _, spent in found]
    yield str(sum(answer is not None for answer, _ in found))
    yield from (f"{number:,.0f}" if number >= 100 else f"{number:.1f}" for number in (statistics.median(times), max(times)))


def row(words):
    return "| " + " | ".join(words) + " |"


def table(options, faults):
    names = [*options.programs, *["esolver"] * bool(Esolver.is_there())]
    heads = [head for name in names for head in (f"{name}, of {EACH}", "median, ms", "largest, ms")]
    yield row(["Rows x columns", "Entries a column", "Numbers", *heads])
    yield "|---" * (3 + len(heads)) + "|"
    answered = dict.fromkeys(names, 0)
    kinds = chosen(options.only)
    for kind in kinds:
        found = {name: [] for name in names}
        for at in range(EACH):
            model = made(kind, options.seed, at)
            ours = dict(by_lpd(options, model, faults))
            if "esolver" in found:
                ours["esolver"] = by_esolver(options, model)
            if len({answer for answer, _ in ours.values()} - {None}) > 1:
                faults.append(f"{kind}, model {at}: {', '.join(f'{name} says {one[0]}' for name, one in ours.items())}")
            for name, one in ours.items():
                found[name].append(one)
        for name in names:
            answered[name] += sum(answer is not None for answer, _ in found[name])
        yield row([f"{kind[0]} x {kind[1]}", *map(str, kind[2:]), *(cell for name in names for cell in cells(found[name]))])
    yield ""
    yield f"Answered of {EACH * len(kinds)}: " + ", ".join(f"{name} {number}" for name, number in answered.items()) + "."


def main():
    options = read_options(__doc__, "programs", wide="", only="", seed="", runs=1, seconds=60)
    faults = []
    return ended(options.write, BEGIN, END, shown(table(options, faults)), faults)


if __name__ == "__main__":
    sys.exit(main())
