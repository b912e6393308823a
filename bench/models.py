#!/usr/bin/env python3
"""Solves the models of a folder, has each answer checked, and writes a table of the answers and refusals.

    models.py FOLDER [--program PROGRAM] [--optima FILE] [--seconds N] [--write PAGE]

Each NAME.mps is solved in a session with the largest budget. A certificate goes back to `lpd check` and to
bin/check_certificate.py behind the model's text, and both are to say yes to the answer. A text that is refused in
both forms stands in the table with its fault. FILE has a line 'NAME outcome optimum form' for each model, its words
parted by tabs, with which the answer is compared. A refusal is shown with its operation and operands, and with the
pivots and flips that were made before it: the least budget that is not spent. It prints what is wrong, and with --write
puts the table in place of what stands between the two marks of PAGE.
"""
import pathlib
import sys
from fractions import Fraction

from options import read_options
from page import write
from solvers import CHECKER, LARGEST, run, session, texts_of

BEGIN, END = "<!-- measured by bench/models.py -->", "<!-- end of the models -->"


def ask(options, form, data, *commands):
    """What a session replies that has loaded the text; that it has no end in time, instead of each reply."""
    said = session(options.program, form, data, commands, options.seconds)[0]
    return ["1 TIME"] * (len(commands) + 1) if said is None else said


def loaded(options, data, forms):
    """The form in which the text is read, with the numbers of rows and columns; or why it is not read in any."""
    for form in forms:
        reply = ask(options, form, data)[0][2:]
        if reply.startswith("LOADED"):
            return form, *map(int, reply.split()[1:])
    return reply


def pivots_before(options, form, data):
    """The least budget that is not spent before the refusal; few of those that are tried are larger, since these take longest."""

    def is_spent(budget):
        return budget == 0 or "SPENT" in ask(options, form, data, f"BUDGET {budget}", "SOLVE")[2]

    low, high = 0, 1
    while high < LARGEST and is_spent(high):
        low, high = high + 1, min(2 * high, LARGEST)
    while low < high:
        middle = (low + high) // 2
        low, high = (middle + 1, high) if is_spent(middle) else (low, middle)
    return low


def checks(options, form, data, answer, certificate):
    """Who does not say yes to the certificate."""
    text = data + "\n".join(certificate + [""]).encode("latin-1")
    for checker in [options.program + ["check"], CHECKER]:
        said = run(checker + ["--form", form], text, options.seconds)[0]
        if (said or "TIME").strip() != "YES " + answer:
            yield f"{' '.join(checker)}: {said}"


def row_of(options, name, data, expected, faults):
    forms = {"free": ["free"], "fixed": ["fixed"]}.get(expected[2] if expected else "", ["free", "fixed"])
    read = loaded(options, data, forms)
    if isinstance(read, str):
        return f"| {name} | | | `{read}` | |"
    form, rows, columns = read
    replies = ask(options, form, data, f"BUDGET {LARGEST}", "SOLVE", "HOW", "CERT")
    answer, how, certificate = replies[2][2:], replies[3].split(), replies[5:]
    words = answer.split()
    if words[0] == "PAST":
        pivots = pivots_before(options, form, data)
        return f"| {name} | {rows} | {columns} | `{answer}` | {pivots} |"
    if words[0] in ("SPENT", "TIME"):
        return f"| {name} | {rows} | {columns} | `{answer}` | |"
    faults += [f"{name}: {fault}" for fault in checks(options, form, data, answer, certificate)]
    is_other = expected and words[0].lower() != expected[0]
    if is_other or expected and words[0] == "OPTIMAL" and Fraction(words[1]) != Fraction(expected[1]):
        faults.append(f"{name}: answers {answer}, where {' '.join(expected)} is expected")
    return f"| {name} | {rows} | {columns} | `{answer}` | {how[4]} |"


def optima(path):
    lines = [line.split("\t") for line in path.read_text().split("\n")[1:] if line]
    return {name: rest for name, *rest in lines}


def main():
    options = read_options(__doc__, "folder", optima="", seconds=600)
    expected = optima(pathlib.Path(options.optima)) if options.optima else {}
    faults = []
    lines = ["| Model | Rows | Columns | Answer | Pivots and flips |", "|---|---|---|---|---|"]
    for name, data in texts_of(options.folder):
        lines.append(row_of(options, name, data, expected.get(name), faults))
        print(lines[-1], flush=True)
    if options.write:
        write(options.write, BEGIN, END, lines)
    for fault in faults:
        print(fault, file=sys.stderr)
    print(f"{len(lines) - 2} models, {len(faults)} faults")
    return 1 if faults else 0


if __name__ == "__main__":
    sys.exit(main())
