#!/usr/bin/env python3
"""Measures the processor time of the gate by crate: of the proofs, of the tests, and of the wrong bodies.

    gate.py [--write PAGE] [--words WORD ..]     runs `rt ci` at the top of the tree, with these words, and measures it
    gate.py [--write PAGE] --watch FOLDER        measures the run that goes on in that copy of the tree, until it ends
    gate.py [--write PAGE] --read FILE           makes the table of the times that an earlier run wrote
    gate.py --beside COMMIT=FILE ..              gives the table a column of what such a run of that commit took in all

A run from nothing is one on a machine that kept nothing, or with `--words=--anew`. Twice a second the processes of the
run are looked up under /proc, and the time that each took is put down to its crate: a check in the tree's own folder is
a proof or, with --test, that of the tests, and one in a folder that the gate made for wrong bodies is theirs. The last half
second of each process is lost, and what is no check at all, as rt's own work, has a row of its own. The times are written
as tab-separated lines to standard output, and with --write as a table, the most first, between the marks of PAGE.
"""
import argparse
import os
import re
import subprocess
import sys
import time
from collections import Counter, defaultdict
from pathlib import Path

from page import write

TOP = Path(__file__).resolve().parent.parent
BEGIN, END = "<!-- measured by bench/gate.py -->", "<!-- end of the gate -->"
KINDS = ("proof", "tests", "wrong bodies")
TICKS = os.sysconf("SC_CLK_TCK")
# The rows of the table; the other crates share one.
ROWS = 30


def words_of(process):
    """The folder and the words of a process, or None where it has ended."""
    try:
        command = Path(process, "cmdline").read_bytes().replace(b"\0", b" ").decode("utf-8", "replace")
        return os.readlink(Path(process, "cwd")), command
    except OSError:
        return None


def kind_of(folder, command, tree):
    """The crate and the kind of work of a process, or None where it belongs to another run."""
    crate = re.search(r"--crate-name (\w+)", command)
    if folder.startswith(str(tree)):
        if crate:
            return crate[1], "tests" if "--test " in command else "proof"
        # (this program, started in the tree, is no part of the run)
        return ("(rt)", "proof") if re.search(r"\brt ci\b", command) else None
    maker = re.search(r"/rt-edits?-(\d+)-", folder)
    if crate and maker and is_in(tree, maker[1]):
        return crate[1], "wrong bodies"
    return None


def is_in(tree, process):
    """Whether a process works in the tree."""
    words = words_of(Path("/proc", process))
    return words is not None and words[0].startswith(str(tree))


def time_of(process):
    """When a process began, and the seconds of processor that it took."""
    try:
        fields = Path(process, "stat").read_text().rpartition(")")[2].split()
    except OSError:
        return None
    return fields[19], (int(fields[11]) + int(fields[12])) / TICKS


def sample(tree, seen, times):
    """Puts down what each process of the run took since the sample before, and says whether there was one."""
    alive = False
    for process in Path("/proc").glob("[0-9]*"):
        found = time_of(process)
        if not found:
            continue
        begun, spent = found
        key = (process.name, begun)
        known, before = seen.get(key, (None, 0))
        # (a process that has just begun still has the words of the one that made it)
        if before < 2:
            words = words_of(process)
            known = kind_of(*words, tree) if words else known
        seen[key] = known, spent
        if known:
            alive = True
            times[known] += spent - before
    return alive


def measured(tree, gate=None):
    """The times of the run of this gate, or without one of that which goes on in the tree."""
    seen, times, goes_on = {}, Counter(), True
    while goes_on:
        alive = sample(tree, seen, times)
        goes_on = gate.poll() is None if gate else alive
        time.sleep(0.5)
    return times


def read(file):
    times = Counter()
    for line in Path(file).read_text().splitlines():
        crate, kind, seconds = line.split("\t")
        times[crate, kind] += float(seconds)
    return times


def by_crate(times, beside):
    """What each crate took by column: by kind, in all, and in all at each of the other commits."""
    crates = defaultdict(Counter)
    for (crate, kind), seconds in times.items():
        crates[crate][kind] += seconds
        crates[crate]["all"] += seconds
    for commit, then in beside.items():
        for (crate, _), seconds in then.items():
            crates[crate][commit] += seconds
    return crates


def table(times, beside):
    crates = by_crate(times, beside)
    order = sorted(crates, key=lambda crate: -max(crates[crate][column] for column in ("all", *beside)))
    if len(order) > ROWS:
        last = f"{len(order) - ROWS} others"
        crates[last] = sum((crates.pop(crate) for crate in order[ROWS:]), Counter())
        order = [*order[:ROWS], last]
    whole = sum(crates.values(), Counter())
    columns = [*KINDS, "all", *beside]
    heads = [*KINDS, "all", *(f"all at {commit}" for commit in beside)]
    lines = ["| Crate | " + " | ".join(f"{head}, s" for head in heads) + " |", "|---|" + "---|" * len(columns)]
    for crate in order:
        cells = [f"{crates[crate][column]:.0f}" if crates[crate][column] >= 0.5 else "" for column in columns]
        lines.append(f"| {crate if ' ' in crate or '(' in crate else f'`{crate}`'} | " + " | ".join(cells) + " |")
    lines.append("| **minutes** | " + " | ".join(f"{whole[column] / 60:.1f}" for column in columns) + " |")
    return lines


def main():
    parser = argparse.ArgumentParser(description=__doc__.split("\n", 1)[0])
    parser.add_argument("--words", nargs="*", default=[])
    parser.add_argument("--watch", type=Path)
    parser.add_argument("--read", type=Path)
    parser.add_argument("--beside", action="append", default=[], metavar="COMMIT=FILE")
    parser.add_argument("--write", type=Path)
    given = parser.parse_args()
    beside = {commit: read(file) for commit, file in (it.split("=", 1) for it in given.beside)}
    status = 0
    if given.read:
        times = read(given.read)
    elif given.watch:
        times = measured(given.watch.resolve())
    else:
        gate = subprocess.Popen(["rt", "ci", *given.words], cwd=TOP, stdout=sys.stderr)
        times = measured(TOP, gate)
        status = gate.returncode
    for (crate, kind), seconds in times.most_common():
        print(f"{crate}\t{kind}\t{seconds:.2f}")
    if given.write:
        write(given.write, BEGIN, END, table(times, beside))
    return status


if __name__ == "__main__":
    sys.exit(main())
