#!/usr/bin/env python3
"""Counts the instructions of `lpd solve` on each model of a folder, and keeps them by commit in history.tsv.

    history.py FOLDER [--program PROGRAM] [--only NAME,..] [--dry]

The counts are callgrind's (Debian's valgrind), for the whole process, so that they do not depend on what else the
machine does. history.tsv has a line for each model and commit, in the order in which they were measured: the commit,
the model and its instructions, parted by tabs. A model that has a line for this commit is not measured again. It prints
the models whose count is by a tenth or more above that of the last other commit that has the model, with status 1, and
those whose count fell as much. With --dry all are measured and compared to their last lines, and nothing is kept.
"""
import argparse
import os
import pathlib
import re
import subprocess
import sys

from solvers import HERE, PROGRAM, TOP, models_of

TABLE = HERE / "history.tsv"


def commit():
    """The short name of the commit that is checked out; with a mark where a crate's files differ from it."""
    git = ["git", "-C", str(TOP)]
    name = subprocess.run([*git, "rev-parse", "--short=7", "HEAD"], capture_output=True, text=True, check=True).stdout
    changed = subprocess.run([*git, "status", "--porcelain", "crates"], capture_output=True, check=True).stdout
    return name.strip() + ("+" if changed else "")


def kept():
    """The counts that were kept, by model: pairs of a commit and its count, the last one last."""
    counts = {}
    if TABLE.exists():
        for line in TABLE.read_text().split("\n")[1:-1]:
            name, model, count = line.split("\t")
            counts.setdefault(model, []).append((name, int(count)))
    return counts


def keep(name, model, count):
    with TABLE.open("a") as table:
        if table.tell() == 0:
            table.write("commit\tmodel\tinstructions\n")
        table.write(f"{name}\t{model}\t{count}\n")


def instructions(program, model):
    counter = ["valgrind", "--tool=callgrind", f"--callgrind-out-file={os.devnull}"]
    done = subprocess.run([*counter, *program, "solve", "--form", model.form], input=model.data, capture_output=True)
    return int(re.search(rb"Collected : (\d+)", done.stderr)[1])


def main():
    options = argparse.ArgumentParser(description=__doc__, formatter_class=argparse.RawDescriptionHelpFormatter)
    options.add_argument("folder", type=pathlib.Path)
    options.add_argument("--program", default=PROGRAM)
    options.add_argument("--only")
    options.add_argument("--dry", action="store_true")
    options = options.parse_args()
    here, counts, grown = commit(), kept(), 0
    models = [m for m in models_of(options.folder) if not options.only or m.name in options.only.split(",")]
    for model in models:
        before = counts.get(model.name, [])
        own = [count for name, count in before if name == here and not options.dry]
        count = own[-1] if own else instructions(options.program.split(), model)
        if not own and not options.dry:
            keep(here, model.name, count)
        last = next(((name, c) for name, c in reversed(before) if name != here or options.dry), None)
        if last and abs(count - last[1]) * 10 >= last[1]:
            print(f"{model.name}: {count:,} instructions, {count / last[1]:.2f} times the {last[1]:,} of {last[0]}")
            grown += count > last[1]
    print(f"{len(models)} models at {here}, {grown} of them grown by a tenth or more")
    return 1 if grown else 0


if __name__ == "__main__":
    sys.exit(main())
