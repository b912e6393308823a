"""python3 -m lpd batch PATH..: a table of the answers to the models of files and folders."""
from __future__ import annotations

import argparse
import sys
from pathlib import Path
from typing import Dict, Iterator, List, Optional

from .. import progress
from ..batching import FAILED, Result, Task, Work, by_dask, by_processes, one_by_one, tasks_of
from ..certifying import WAYS
from ..figures import Style
from ..interrupts import INTERRUPTED, WORDS
from ..judging import LPD_CHECK, LPD_CHECK_WIDE, PYTHON_ALONE
from ..solver_names import CHOICES
from ..tables import OTHER, SAME, Cells, Kept, Writer, against, cells_of, columns_of, read_optima
from ..ways import SECONDS_WORDS, Effort
from .common import add_options, add_presolve, budget, options_of, print_prose, seconds, tell


LEAST_MEMORY = 256  # megabytes, of which Python's own take some


def jobs(word: str) -> int:
    if not (word.isascii() and word.isdigit() and len(word) <= 3 and int(word) >= 1):
        raise argparse.ArgumentTypeError(f"{word} is no number of processes, from 1 to 999")
    return int(word)


def megabytes(word: str) -> int:
    """How many bytes a process may have."""
    if not (word.isascii() and word.isdigit() and len(word) <= 7 and int(word) >= LEAST_MEMORY):
        raise argparse.ArgumentTypeError(f"{word} is no number of megabytes, from {LEAST_MEMORY} to 9999999")
    return int(word) * 2**20


def add(commands: "argparse._SubParsersAction[argparse.ArgumentParser]") -> None:
    batch = commands.add_parser("batch", help="solves models of files and folders, and shows a table of the answers")
    batch.set_defaults(run=run)
    folders = "files, and folders whose files *.mps, *.lp and *.mod, also with .gz, are taken, in the order of their names"
    batch.add_argument("models", nargs="+", metavar="PATH", help=folders)
    batch.add_argument("--form", choices=["free", "fixed"], help="the form of all texts (for each the one that fits)")
    add_options(batch)
    own = batch.add_mutually_exclusive_group()
    own.add_argument("--budget", type=budget, metavar="N", help="makes at most N pivots and flips a model, up to 1000000 (10000)")
    add_presolve(own)
    batch.add_argument("--only-lpd", action="store_true", help="takes PAST and SPENT for the end, and goes no other way")
    batch.add_argument("--with", dest="solver", choices=CHOICES, help="certifies each model too, as the command certify does")
    batch.add_argument("--by", dest="way", choices=WAYS, help="what makes its basis exact, as in the command certify")
    limit = f"how long the other ways of a model may take together, and a certificate of its own ({SECONDS_WORDS})"
    batch.add_argument("--seconds", type=seconds, metavar="N", help=limit)
    most = "how many megabytes each process, and each program that it asks, may have (as many as there are)"
    batch.add_argument("--memory", type=megabytes, metavar="MB", help=most)
    batch.add_argument("--timeout", type=seconds, metavar="N", help="how many seconds a model may take in all (as many as it takes)")
    batch.add_argument("--optima", metavar="FILE", help="compares with known answers: lines of a name, an outcome and a value, between tabs")
    resume = "keeps the table in this file too, as CSV, and takes what stands there of an earlier run"
    batch.add_argument("--resume", metavar="TABLE", help=resume)
    engine = batch.add_mutually_exclusive_group()
    engine.add_argument("--jobs", type=jobs, metavar="N", default=1, help="solves N models at a time, each in a process (1)")
    engine.add_argument("--dask", metavar="ADDRESS", help="gives the models to the scheduler of Dask at this address")
    batch.add_argument("--exact", action="store_true", help="shows values as they are, as fractions where they have no short decimal")
    output = batch.add_mutually_exclusive_group()
    output.add_argument("--json", action="store_true", help="a list of objects, as docs/PYTHON.md has it")
    output.add_argument("--csv", action="store_true")


def results(tasks: List[Task], words: argparse.Namespace) -> Iterator[Result]:
    """The results by the engine that is asked for, as they come."""
    effort = Effort(words.budget, words.only_lpd, words.solver, words.seconds, presolve=words.presolve)
    work = Work(words.form, options_of(words), effort, words.solver, words.way, words.memory, words.timeout)
    if words.dask:
        return by_dask(tasks, work, words.dask)
    return one_by_one(tasks, work) if words.jobs == 1 and not work.is_limited else by_processes(tasks, work, words.jobs)


class Progress:
    """On a terminal one line of standard error with a bar, which is renewed, and else a line for each model that is done."""

    def __init__(self, count: int) -> None:
        self.count, self.done = count, 0

    def show(self, name: str = "") -> None:
        self.done += bool(name)
        if progress.is_live():
            bar = progress.bar(self.done, self.count)
            print(f"{progress.CLEAR}{bar} {self.done}/{self.count} {name}", end="", file=sys.stderr, flush=True)
        elif name:
            tell(f"{self.done}/{self.count} {name}")


def summary(rows: List[Cells]) -> str:
    """How many models have which answer, by whom they are accepted, and of how many not all was read."""
    counts: Dict[str, int] = {}
    for cells in rows:
        kind = "refused" if cells["answer"].startswith("ERR") else cells["answer"]
        counts[kind] = counts.get(kind, 0) + 1

    def count(column: str, word: str) -> int:
        return sum(cells.get(column, "") == word for cells in rows)

    said = [f"{len(rows)} models: " + ", ".join(f"{count} {kind}" for kind, count in sorted(counts.items()))]
    for column, what in (("accepted by", "accepted"), ("judge", "certified")):
        narrow, wide, alone = (count(column, judge) for judge in (LPD_CHECK, LPD_CHECK_WIDE, PYTHON_ALONE))
        if column == "accepted by" or any(cells.get("exactly") for cells in rows):
            said.append(f"{narrow} {what} by {LPD_CHECK}, {wide} by {LPD_CHECK_WIDE}, {alone} by the checker in Python alone")
    if any("optimum" in cells for cells in rows):
        said.append(f"{count('optimum', SAME)} answers as they are known, {count('optimum', OTHER)} others")
    skipped = sum("OF OTHER SETS NOT READ" in cells.get("note", "") for cells in rows)
    return "; ".join(said + ([f"{skipped} WITH CARDS OF OTHER SETS NOT READ"] if skipped else []))


def run(words: argparse.Namespace) -> int:
    tasks = tasks_of(words.models)
    if not tasks:
        tell(f"lpd: {', '.join(words.models)} has no file *.mps, *.lp or *.mod, nor one of these with .gz")
        return 3
    missing = next((task.path for task in tasks if not task.path.exists()), None)
    if missing:
        tell(f"lpd: there is no {missing}")
        return 3
    optima = read_optima(Path(words.optima).read_text(encoding="utf-8")) if words.optima else None
    columns = columns_of(bool(words.solver), optima is not None, words.presolve)
    kept = Kept(words.resume, columns) if words.resume else None
    writer = Writer("json" if words.json else "csv" if words.csv else "text", columns, [task.name for task in tasks], Style(words.exact))
    rows: List[Cells] = []
    is_whole = False
    print(writer.head(), end="", flush=True)
    try:
        for cells in found_cells(tasks, words, kept, optima):
            rows.append(cells)
            print(writer.line(cells), end="", flush=True)
        is_whole = True
    except KeyboardInterrupt:
        tell(f"{WORDS}: {len(rows)} of {len(tasks)} models are done" + (f", and {words.resume} has them" if kept else ""))
    print(writer.foot(), end="")
    if kept:
        kept.write()
    if rows and not (words.json or words.csv):
        print_prose("\n" + summary(rows))
    if not is_whole:
        return INTERRUPTED
    if any(cells["answer"] == FAILED for cells in rows):
        return 3
    return 1 if any(cells.get("optimum") == OTHER for cells in rows) else 0


def found_cells(tasks: List[Task], words: argparse.Namespace, kept: Optional[Kept], optima: Optional[Dict[str, str]]) -> Iterator[Cells]:
    """The cells of each model: first those of an earlier run, and then the others as they end."""
    old = dict(kept.rows) if kept else {}
    yield from (old[task.name] for task in tasks if task.name in old)
    left = [task for task in tasks if task.name not in old]
    shown = Progress(len(left))
    shown.show()
    try:
        for result in results(left, words):
            cells = cells_of(result)
            if optima is not None:
                cells["optimum"] = against(cells, optima.get(result.name))
            if kept:
                kept.add(cells)
            progress.clear()
            yield cells
            shown.show(result.name)
    finally:
        progress.clear()
