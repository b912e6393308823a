#!/usr/bin/env python3
"""How long the front in Python takes, beside the program that it asks and beside glpsol.

    front.py FOLDER [--program PROGRAM] [--most N] [--write PAGE]

Of the folder it takes the first N (20) models that `PROGRAM solve --wide` answers within 10 seconds, and last a transport of 12 x 40
that is made, with all its ranges. Times are of the processor, for the whole process with those that it begins, and behind them of the
wall, each the least of three runs. On a machine with other work the wall says how busy it is. What the front adds is what it takes more
than the program: to start Python, to read the model, to have `lpd check` or `lpd check --wide` judge the certificate, to check it
itself, and to write the report. With --write the table takes the place of what stands between the two marks of PAGE.
"""
import os
import pathlib
import random
import subprocess
import sys
import tempfile
import time
from typing import NamedTuple

from options import read_options
from page import ended

TOP = pathlib.Path(__file__).resolve().parent.parent
BEGIN, END = "<!-- measured by bench/front.py -->", "<!-- end of the front -->"
RUNS, SECONDS = 3, 10
FRONT = [sys.executable, "-m", "lpd", "solve"]


class Spent(NamedTuple):
    """Seconds."""

    processor: float
    wall: float


def spent(words, path=None):
    """The least seconds of the processor of some runs, and the least of the wall, or nothing where one takes too long or fails."""
    times, walls = [], []
    for _ in range(RUNS):
        with open(path or os.devnull, "rb") as given:
            began = time.monotonic()
            try:
                run = subprocess.Popen(words, stdin=given, stdout=subprocess.DEVNULL, stderr=subprocess.DEVNULL)
            except OSError:
                return None
            _, status, usage = os.wait4(run.pid, 0)
            run.returncode = os.waitstatus_to_exitcode(status)
            walls.append(time.monotonic() - began)
        if run.returncode not in (0, 10, 11):
            return None
        times.append(usage.ru_utime + usage.ru_stime)
        if times[-1] > SECONDS:
            return None
    return Spent(min(times), min(walls))


def transport(sources, goals):
    """The text of a transport with costs and needs of two decimals."""
    dice = random.Random(1)
    need = [dice.randint(100, 9999) for _ in range(goals)]
    rows = [f" L s{i}" for i in range(sources)] + [f" G d{j}" for j in range(goals)]
    cards = [f" x{i}.{j} cost {dice.randint(100, 5000) / 100} s{i} 1\n x{i}.{j} d{j} 1" for i in range(sources) for j in range(goals)]
    sides = [f" RHS s{i} {sum(need) * 12 // sources / 1000:.2f}" for i in range(sources)] + [f" RHS d{j} {need[j] / 100}" for j in range(goals)]
    return "\n".join(["NAME transport", "ROWS", " N cost", *rows, "COLUMNS", *cards, "RHS", *sides, "ENDATA", ""])


def cell(seconds):
    return "" if seconds is None else f"{seconds:.3f}"


def line(name, *found):
    """The processor's times of the program, of the front and of glpsol, with what the front adds, and their times of the wall."""
    by_program, by_front, by_glpsol = (one.processor if one else None for one in found)
    more = None if by_front is None or by_program is None else by_front - by_program
    walls = [one.wall if one else None for one in found]
    return f"| {name} | {' | '.join(cell(one) for one in (by_program, by_front, more, by_glpsol, *walls))} |"


def measure(options):
    yield "| Model | `lpd solve --wide`, s | `lpd-py solve`, s | the front's own, s | `glpsol`, s | wall: program | front | `glpsol` |"
    yield "|---|---|---|---|---|---|---|---|"
    kept = 0
    for path in sorted(options.folder.glob("*.mps")):
        by_program = spent([*options.program, "solve", "--wide"], path)
        if by_program is None or kept == options.most:
            continue
        kept += 1
        yield line(path.stem, by_program, spent([*FRONT, str(path)]), spent(["glpsol", "--freemps", str(path)]))
    with tempfile.TemporaryDirectory() as folder:
        path = pathlib.Path(folder) / "transport.mps"
        path.write_text(transport(12, 40))
        # glpsol takes away the file to which it cannot write ranges, so none but one of this folder is named.
        by_glpsol = spent(["glpsol", "--freemps", str(path), "--ranges", str(path.with_suffix(".ranges"))])
        ranged = spent([*FRONT, str(path), "--ranges"]), by_glpsol
        yield line("transport 12 x 40, with its 532 ranges", spent([*options.program, "solve", "--wide"], path), *ranged)


def main():
    options = read_options(__doc__, "folder", most=20)
    os.environ.update(LPD=options.program[0], PYTHONPATH=str(TOP / "clients" / "python"))
    os.environ.pop("PYTHONDONTWRITEBYTECODE", None)
    with tempfile.TemporaryDirectory() as compiled:
        os.environ["PYTHONPYCACHEPREFIX"] = compiled  # as it is from the second run on, and nothing is left in the tree
        lines = list(measure(options))
    print("\n".join(lines))
    return ended(options.write, BEGIN, END, lines, [])


if __name__ == "__main__":
    sys.exit(main())
