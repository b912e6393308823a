#!/usr/bin/env python3
"""Tries lpd on inputs made at random, which need no reference.

    fuzz.py PROGRAM [--inputs N] [--processor S] [--seed WORD] [--from FILE] [--jobs K] [--found FOLDER] [--cases FOLDER]

After each input

- the program ends with a stated status, and within 512 MiB of addresses, as 'ulimit -v' counts them, memory is never short;
- its output is made of lines that docs/PROTOCOL.md knows;
- each OPTIMAL, INFEASIBLE and UNBOUNDED is accepted by the checker in Python (bin/check_certificate.py), with the text
  that WRITE gave just before it and the certificate that CERT gives just after, or that stands behind it in a reply WIDE;
- the same input, cut at a random place, gives a prefix of the output; and cut there, but with other numbers of workers and
  places, a prefix again, but for the words of HOW, the lines of certificates, and answers in place of PAST or SPENT.

Inputs are bytes; lines of the grammar with words exchanged; sessions over one model, with warm starts, edits and checks; and
texts of models, a third of which are as they should be, for commands of their own. An input is counted once, however often it
is run. Those of a batch stand behind each other in one run, each in sessions of its own; a text has a run of its own.

It goes on until N inputs were tried (1,000,000), or it and its children have used S seconds of processor time. The seed, by
default the day's date, and the number of a batch make all that is in the batch. With --from FILE it puts down there how far it
is, and begins where the file says. Each run first tries the cases of FOLDER (tests/fuzz/cases). What is found is kept in the
folder of --found, one file each with what is wrong as its first line, to be named and put among the cases. It prints the
counts last; the status is 1 where something was found.
"""
from __future__ import annotations

import argparse
import datetime
import json
import multiprocessing
import os
import random
import sys
import time
from collections import Counter
from functools import partial
from pathlib import Path
from typing import Iterator, Optional

sys.path.insert(0, str(Path(__file__).resolve().parent))

from runs import SIZES, Counts, Finding, Program, batch_of, kind_of, wrong_with  # noqa: E402

HERE = Path(__file__).resolve().parent
# How many seconds apart progress is told and kept.
TELLS = 5.0


class Progress:
    """What was done so far, and in how many seconds. It is kept in a file, if there is one."""

    def __init__(self, seed: str, path: Optional[Path]) -> None:
        self.seed, self.path, self.next, self.seconds, self.counts = seed, path, 0, 0.0, Counts()
        if path and path.exists():
            kept = json.loads(path.read_text())
            self.seed, self.next, self.seconds = kept["seed"], kept["next"], kept["seconds"]
            counters = {name: Counter(kept[name]) for name in ("inputs", "words", "statuses")}
            self.counts = Counts(runs=kept["runs"], answers=kept["answers"], most_memory=kept["most_memory"], processor=kept["processor"], **counters)
        self.before, self.began, self.told = self.seconds, time.monotonic(), 0.0

    def add(self, counts: Counts) -> None:
        self.next += 1
        self.counts.add(counts)
        self.seconds = self.before + time.monotonic() - self.began

    def tell(self, wanted: int) -> None:
        if time.monotonic() - self.told < TELLS:
            return
        self.told = time.monotonic()
        done = self.counts.inputs.total()
        print(f"{done:,} of {wanted:,} inputs, {done / self.seconds:.0f} a second, {len(self.counts.findings)} found", file=sys.stderr, flush=True)
        self.keep()

    def keep(self) -> None:
        if self.path:
            counts = self.counts
            kept = {"seed": self.seed, "next": self.next, "seconds": round(self.seconds, 1), "inputs": counts.inputs, "runs": counts.runs,
                    "answers": counts.answers, "most_memory": counts.most_memory, "processor": round(counts.processor, 1), "words": counts.words, "statuses": counts.statuses}
            new = self.path.with_suffix(".new")
            new.write_text(json.dumps(kept, indent=1))
            os.replace(new, self.path)


def batches(progress: Progress, wanted: int) -> Iterator[int]:
    number, planned = progress.next, progress.counts.inputs.total()
    while planned < wanted:
        yield number
        planned += SIZES[kind_of(progress.seed, number)]
        number += 1


def try_cases(path: str, is_bounded: bool, folder: Path, counts: Counts) -> None:
    """What was found once, tried again."""
    for case in sorted(folder.glob("*.lpd")):
        found = wrong_with(Program(path, is_bounded, counts), random.Random(case.name), [case.read_bytes()], "case")
        counts.inputs["cases"] += 1
        if found:
            counts.findings.append(found._replace(what=f"{case.name}: {found.what}"))


def keep_finding(folder: Path, finding: Finding, number: int) -> None:
    folder.mkdir(exist_ok=True)
    path = folder / f"found-{number}.lpd"
    path.write_bytes(f"# {' '.join(finding.words)}: {finding.what}\n".encode("latin-1", "replace") + finding.script)
    print(f"{path}: {finding.what}", flush=True)


def tell_counts(progress: Progress) -> None:
    counts = progress.counts
    done = counts.inputs.total()
    print(f"seed {progress.seed}: {done:,} inputs in {counts.runs:,} runs, {progress.seconds:.0f} s and {counts.processor:.0f} s of processors, {done / max(progress.seconds, 1e-9):.0f} a second")
    for what, of in (("inputs", counts.inputs), ("statuses", counts.statuses), ("replies", counts.words)):
        print(f"{what}: " + ", ".join(f"{word} {count:,}" for word, count in sorted(of.items())))
    print(f"{counts.answers:,} answers accepted by the checker in Python; most memory {counts.most_memory:,} KiB; {len(counts.findings)} found")


def main() -> int:
    parser = argparse.ArgumentParser(description=__doc__, formatter_class=argparse.RawDescriptionHelpFormatter)
    parser.add_argument("program", metavar="PROGRAM", type=os.path.abspath)
    parser.add_argument("--inputs", metavar="N", type=int, default=1_000_000)
    parser.add_argument("--processor", metavar="S", type=float, default=float("inf"))
    parser.add_argument("--seed", metavar="WORD", default=datetime.datetime.now(datetime.timezone.utc).strftime("%Y-%m-%d"))
    parser.add_argument("--from", metavar="FILE", dest="kept", type=Path)
    parser.add_argument("--jobs", metavar="K", type=int, default=os.cpu_count())
    parser.add_argument("--found", metavar="FOLDER", type=Path, default=Path("fuzz-found"))
    parser.add_argument("--cases", metavar="FOLDER", type=Path, default=HERE / "cases")
    parser.add_argument("--unbounded", action="store_true", help="without the bound on memory, for a program built with checks of its own")
    words = parser.parse_args()
    progress = Progress(words.seed, words.kept)
    try_cases(words.program, not words.unbounded, words.cases, progress.counts)
    found = 0
    with multiprocessing.Pool(words.jobs) as pool:
        for counts in pool.imap(partial(batch_of, words.program, not words.unbounded, progress.seed), batches(progress, words.inputs)):
            progress.add(counts)
            for finding in progress.counts.findings[found:]:
                found += 1
                keep_finding(words.found, finding, found)
            progress.tell(words.inputs)
            if progress.counts.processor > words.processor:
                break
    progress.keep()
    tell_counts(progress)
    return 1 if progress.counts.findings else 0


if __name__ == "__main__":
    sys.exit(main())
