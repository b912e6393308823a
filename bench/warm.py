#!/usr/bin/env python3
"""Measures solves that begin with the basis of another model beside those that begin anew.

    warm.py [--program PROGRAM] [--models FOLDER] [--only NAME,..] [--runs N] [--seconds N] [--write PAGE]

The models are those of bench/compare.py that have an optimum. Each is solved, and then solved with one number changed: a
right side, a cost or a bound, as `edits` chooses them. In the warm run the model is solved in one session of a script
and then with the change in another, so that this begins with the basis of the first; in the cold run there is no other
session. Both are to give the same answer, where both give one, and `lpd check` is to accept both certificates.

The pivots are those that HOW says. The time of a solve is that of a run of the program less that of a run without this
solve, each the least of N runs (5), of the processor; it is left out below 2 ms. With --write the table takes the place
of what stands between the two marks of PAGE.
"""
import sys
from dataclasses import dataclass
from fractions import Fraction

from options import read_options
from page import write
from solvers import LARGEST, MADE, TOP, least, made, models_of, run, script, shown

BEGIN, END = "<!-- measured by bench/warm.py -->", "<!-- end of the warm starts -->"
ANSWERS = ("OPTIMAL", "INFEASIBLE", "UNBOUNDED")
SHORTEST = 0.002
WHAT = ["right side", "cost", "bound"]


def tenth(number):
    """A tenth of a number's size; 1 if it is 0."""
    return abs(number) / 10 or Fraction(1)


def edits(plain, point, multipliers):
    """One edit of each kind, or None: a tenth more on the right side of the first row that has a multiplier; the cost of
    the first column that is not 0 worse by a tenth; and, of the first such column with a bound that can be moved past
    its value by a tenth, this bound. No bound comes or goes, so that the shape is kept."""
    row = next(iter(multipliers), None)
    right_side = row and f"SETRHS {row} {shown(plain.rows[row].rhs + tenth(plain.rows[row].rhs))}"
    column = next(iter(point), None)
    worse = column and plain.columns[column].cost + plain.sense * tenth(plain.columns[column].cost)
    cost = column and f"SETCOST {column} {shown(worse)}"
    bounds = (moved(name, *plain.columns[name].limits(), value) for name, value in point.items())
    return [right_side, cost, next(filter(None, bounds), None)]


def moved(name, lower, upper, value):
    """The edit that moves a bound of a column past its value; None if it has none that can be."""
    if upper is not None and (lower is None or lower < value - tenth(value)):
        return f"SETBOUND {name} {'-inf' if lower is None else shown(lower)} {shown(value - tenth(value))}"
    if upper is None and lower is not None:
        return f"SETBOUND {name} {shown(value + tenth(value))} inf"
    return None


def certified(lines):
    """The point and the multipliers of a certificate."""
    parts = [line.split() for line in lines]
    return tuple({name: Fraction(value) for letter, name, value in filter(is_part, parts) if letter == kind} for kind in "xy")


def is_part(words):
    return len(words) == 3


@dataclass
class Solved:
    """An answer, how it was found, its certificate and the time of the solve."""

    answer: str
    start: str
    pivots: str
    certificate: list
    spent: float


def solve(options, front, commands):
    """The last SOLVE of a script of session 2 behind what is in front."""
    whole = front + "".join(f"2 {command}\n" for command in commands).encode()
    asked = "2 SOLVE\n2 HOW\n2 CERT\n".encode()
    said, spent = least(options.runs, lambda: run(options.program + ["run"], whole + asked, options.seconds))
    if said is None:
        return Solved("TIME", "", "", [], 0)
    without = least(options.runs, lambda: run(options.program + ["run"], whole, options.seconds))[1]
    lines = said.split("\n")
    at = next(n for n, line in enumerate(lines) if line.startswith("2 HOW "))
    how, _, end = lines[at].removeprefix("2 HOW ").partition(" PIVOTS ")
    return Solved(lines[at - 1][2:], how, end.split()[0], lines[at + 2 : -1], spent - without)


def loading(number, model):
    return script(model.form, model.data).replace(b"1 LOAD", f"{number} LOAD".encode(), 1)


def faults_of(options, model, edit, warm, cold):
    """What is wrong with two solves of one edited model."""
    known = [it for it in (warm, cold) if it.answer.split()[0] in ANSWERS]
    if len({it.answer for it in known}) > 1:
        yield f"{model.name}, {edit}: {warm.answer} warm and {cold.answer} cold"
    for it in known:
        check = loading(1, model) + f"1 {edit}\n1 CHECK\n".encode() + "".join(f"{line}\n" for line in it.certificate).encode()
        said = run(options.program + ["run"], check, options.seconds)[0]
        if said is None or said.split("\n")[-2] != f"1 YES {it.answer}":
            yield f"{model.name}, {edit}: the check says {said}"


def cells(warm, cold):
    """Pivots and times of an edited model, warm and cold."""

    def pivots(solved):
        return solved.pivots if solved.answer.split()[0] in ANSWERS else solved.answer.split()[0]

    fell = f" ({' '.join(warm.start.split()[2:])})" if warm.start.startswith("FELL") else ""
    yield f"{pivots(warm)}{fell} / {pivots(cold)}"
    slow = max(warm.spent, cold.spent) >= SHORTEST
    yield f"{max(warm.spent, 0) * 1e3:.1f} / {cold.spent * 1e3:.1f}" if slow else ""


def row_of(options, model, faults, all_solved):
    """The line of a model in the table; None if it has no optimum, or no edit is chosen."""
    front = loading(1, model) + f"1 BUDGET {LARGEST}\n1 SOLVE\n".encode()
    said = run(options.program + ["run"], front + b"1 CERT\n", options.seconds)[0]
    replies = [] if said is None else said.split("\n")
    if len(replies) < 3 or not replies[2].startswith("1 OPTIMAL"):
        return None
    line = [model.name]
    for edit in edits(model.plain, *certified(replies[4:])):
        if edit is None:
            line += ["", ""]
            continue
        commands = [f"BUDGET {LARGEST}", edit]
        warm = solve(options, front + loading(2, model), commands)
        cold = solve(options, loading(2, model), commands)
        faults += faults_of(options, model, edit, warm, cold)
        all_solved.append((warm, cold))
        line += cells(warm, cold)
    return "| " + " | ".join(line) + " |" if any(line[1:]) else None


def summary(all_solved):
    """How the warm starts ended, and the pivots of those that both ways answer."""
    fell = [warm for warm, cold in all_solved if warm.start.startswith("FELL")]
    both = [(warm, cold) for warm, cold in all_solved if "-" not in (warm.pivots, cold.pivots)]
    won = [warm for warm, cold in all_solved if warm.pivots != "-" and cold.pivots == "-"]
    fewer = sum(int(warm.pivots) < int(cold.pivots) for warm, cold in both)
    more = sum(int(warm.pivots) > int(cold.pivots) for warm, cold in both)
    yield f"- solves from a basis: {len(all_solved)}; given up, and made anew: {len(fell)}"
    yield f"- answered where the cold solve has no answer: {len(won)}"
    yield f"- answered both ways: {len(both)}; with fewer pivots from the basis: {fewer}; with more: {more}"
    yield f"- pivots of these, from the basis: {sum(int(warm.pivots) for warm, _ in both):,}; cold: {sum(int(cold.pivots) for _, cold in both):,}"


def main():
    options = read_options(__doc__, models="", only="", runs=5, seconds=60)
    models = [*models_of(TOP / "examples/models"), *(made(*size) for size in MADE)]
    models += models_of(options.models) if options.models else []
    wanted = options.only.split(",") if options.only else [model.name for model in models]
    heads = ["Model"] + [f"{what}: {each}" for what in WHAT for each in ("pivots", "ms")]
    lines, faults, all_solved = ["| " + " | ".join(heads) + " |", "|---" * len(heads) + "|"], [], []
    print("\n".join(lines), flush=True)
    for model in models:
        line = row_of(options, model, faults, all_solved) if model.name in wanted else None
        if line:
            lines.append(line)
            print(line, flush=True)
    lines += ["", *summary(all_solved)]
    print("\n".join(lines[-5:]))
    if options.write:
        write(options.write, BEGIN, END, lines)
    for fault in faults:
        print(fault, file=sys.stderr)
    return 1 if faults else 0


if __name__ == "__main__":
    sys.exit(main())
