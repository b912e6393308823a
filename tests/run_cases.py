#!/usr/bin/env python3
"""Runs lpd on the cases of a table, and compares what it writes and its status.

    run_cases.py TABLE PROGRAM [WORD ..]

A case begins with a line '== NAME: WORDS', where WORDS are those of the command line. The lines of its input follow a line
'-- in', and those of its output a line '-- out'. A line '-- status N' after them gives the status, if it is not 0, and a line
'-- says TEXT' the next line on standard error, from the first one on, of which nothing is asked otherwise. In the input a line '%repeat N TEXT'
stands for TEXT N times on one line, '%pad N TEXT' for TEXT with blanks up to N bytes, '%return TEXT' for TEXT with a carriage
return behind it, '%lines N TEXT' for N lines, each with its number from 0 on in place of the '@' of TEXT, and '%cut' as the
last line removes the line feed before it.
Blank lines at the end of an output do not count, and lines that begin with '#' before a case's '-- in' are comments. It
prints what differs, and at last 'N passed, N failed'.
"""
import subprocess
import sys
from pathlib import Path

sys.path.insert(0, str(Path(__file__).resolve().parent.parent / "tools"))

from helping import helps  # noqa: E402


class Case:
    def __init__(self, name, words):
        self.name, self.words, self.status, self.says = name, words, 0, []
        self.parts = {"in": [], "out": []}


def cases_of(table):
    """The cases of a table, in order."""
    cases, part = [], None
    for line in table.split("\n"):
        if line.startswith("== "):
            name, words = line[3:].rsplit(":", 1)
            cases.append(Case(name, words.split()))
            part = None
        elif line in ("-- in", "-- out"):
            part = cases[-1].parts[line[3:]]
        elif line.startswith("-- status "):
            cases[-1].status, part = int(line[10:]), None
        elif line.startswith("-- says "):
            cases[-1].says.append(line[8:])
            part = None
        elif part is not None:
            part.append(line)
        elif line and not line.startswith("#"):
            sys.exit("run_cases.py: a line that belongs to nothing: " + line)
    for case in cases:
        while case.parts["out"] and not case.parts["out"][-1]:
            case.parts["out"].pop()
    return cases


def expanded(line):
    """The lines that a line of an input stands for."""
    if line.startswith("%lines "):
        _, number, text = line.split(" ", 2)
        return [text.replace("@", str(n)) for n in range(int(number))]
    if line.startswith(("%repeat ", "%pad ")):
        how, number, text = line.split(" ", 2)
        return [text * int(number) if how == "%repeat" else text.ljust(int(number))]
    if line.startswith("%return "):
        return [line[8:] + "\r"]
    return [line]


def bytes_of(lines):
    cut = bool(lines) and lines[-1] == "%cut"
    text = "".join(whole + "\n" for line in lines[:-1 if cut else None] for whole in expanded(line))
    return (text[:-1] if cut else text).encode("latin-1")


def difference(want, got):
    """The first line that differs, as a text, or None."""
    if want == got:
        return None
    a, b = want.split(b"\n"), got.split(b"\n")
    for number in range(max(len(a), len(b))):
        x = a[number] if number < len(a) else b"(nothing)"
        y = b[number] if number < len(b) else b"(nothing)"
        if x != y:
            return "line %d: expected %r, got %r" % (number + 1, x, y)
    return "other ends"


def fault_of(case, program):
    try:
        run = subprocess.run(program + case.words, input=bytes_of(case.parts["in"]), capture_output=True, timeout=600)
    except subprocess.TimeoutExpired:
        return "no end within ten minutes"
    if run.returncode != case.status:
        return "expected the status %d, got %d" % (case.status, run.returncode)
    said = run.stderr.decode("latin-1").split("\n")[: len(case.says)]
    if said != case.says:
        return "expected %r on standard error, got %r" % (case.says, said)
    return difference(bytes_of(case.parts["out"]), run.stdout)


def main():
    if len(sys.argv) < 3:
        sys.exit(__doc__)
    with open(sys.argv[1], encoding="latin-1") as table:
        cases = cases_of(table.read())
    faults = [(case.name, fault_of(case, sys.argv[2:])) for case in cases]
    for name, fault in faults:
        if fault:
            print("%s: %s" % (name, fault))
    failed = sum(1 for _, fault in faults if fault)
    print("%d passed, %d failed" % (len(cases) - failed, failed))
    return 1 if failed or not cases else 0


if __name__ == "__main__":
    helps(__doc__)
    sys.exit(main())
