#!/usr/bin/env python3
"""Measures a script of many sessions with one worker and with more.

    workers.py [--program PROGRAM] [--workers K,..] [--sessions N] [--solves N] [--places P] [--seed N] [--runs N]
        [--write PAGE]

The script has N (64) sessions. Each holds one of four plans, of 30 to 60 rows, and is solved N (20) times, each time
with the right side of one more row changed. The sessions take turns, so that a solve may begin with the basis of any
other that holds the same plan. It is run with each K (1, 2 and 4), and all answers have to be the same, but that one
may stand where another run has none.

Times are of the wall, the least of N runs (3), and memory is the most that the process of that run had. The pivots are
those of HOW; beside them stand those of the same solves made cold, each in a process of its own. With --write the table
takes the place of what stands between the two marks of PAGE.
"""
import argparse
import os
import pathlib
import random
import re
import sys
import tempfile
import time
from dataclasses import dataclass

from page import ended
from solvers import PROGRAM, run

BEGIN, END = "<!-- measured by bench/workers.py -->", "<!-- end of the workers -->"
PERIODS = (10, 12, 15, 20)
HOW = re.compile(r"^\d+ HOW (\w+).* PIVOTS (\d+|-) (\w+)", re.M)
NONE = re.compile(r"\d+ (PAST|SPENT) ")
BAD_WORDS = 2


# ---- scripts


def plan(periods, dice):
    """The text of a plan: what to make, buy, hold over and add in overtime in each period, to meet its demand."""
    rows = [f" {kind} {name}{t}" for t in range(periods) for kind, name in zip("ELG", ("demand", "hours", "share"))]
    lines = ["NAME plan", "ROWS", " N cost", *rows, "COLUMNS"]
    for t in range(periods):
        hours = dice.randint(1, 3)
        lines.append(f" make{t} cost {dice.randint(2, 5)} demand{t} 1")
        lines.append(f" make{t} hours{t} {hours} share{t} 1")
        lines.append(f" buy{t} cost {dice.randint(6, 12)} demand{t} 1")
        lines.append(f" buy{t} share{t} -{dice.randint(1, 2)}")
        lines.append(f" hold{t} cost {dice.randint(1, 3)} demand{t} -1")
        lines += [f" hold{t} demand{t + 1} 1"] * (t + 1 < periods)
        lines.append(f" over{t} cost {dice.randint(2, 6)} hours{t} -1")
    lines.append("RHS")
    lines += [f" RHS demand{t} {dice.randint(20, 90)} hours{t} {dice.randint(40, 120)}" for t in range(periods)]
    return [*lines, "ENDATA"]


def change(periods, dice):
    t = dice.randrange(periods)
    return dice.choice([f"SETRHS demand{t} {dice.randint(20, 90)}", f"SETRHS hours{t} {dice.randint(40, 120)}"])


def script_of(options):
    """The lines of the script, and for each session its text and its changes. Sessions of one plan follow each other,
    so that they are of different workers."""
    dice = random.Random(options.seed)
    sessions = {}
    for number in range(1, options.sessions + 1):
        periods = PERIODS[(number - 1) * len(PERIODS) // options.sessions]
        text = plan(periods, random.Random(f"{options.seed}/{periods}"))
        sessions[number] = text, [change(periods, dice) for _ in range(options.solves)]
    lines = [line for number, (text, _) in sessions.items() for line in (f"{number} LOAD FREE", *text)]
    for turn in range(options.solves):
        for number, (_, changes) in sessions.items():
            lines += [f"{number} {words}" for words in (changes[turn], "SOLVE", "HOW")]
    return lines, sessions


# ---- runs


@dataclass
class Run:
    """What a run replied, its wall time in seconds, and the most memory that it had, in KiB."""

    said: str
    seconds: float
    memory: int

    def differs(self, other):
        """How many replies of two runs differ that may not."""
        mine, theirs = ([line for line in run.said.split("\n") if " HOW " not in line] for run in (self, other))
        pairs = [(one, two) for one, two in zip(mine, theirs) if one != two]
        return abs(len(mine) - len(theirs)) + sum(not NONE.match(one) and not NONE.match(two) for one, two in pairs)

    def hows(self):
        return HOW.findall(self.said)


def timed(command, path):
    """A run of the command with a file as its input; None where it does not take its words."""
    with open(path, "rb") as source, tempfile.TemporaryFile() as sink, open(os.devnull, "wb") as nowhere:
        started = time.monotonic()
        files = [(os.POSIX_SPAWN_DUP2, file.fileno(), number) for number, file in enumerate((source, sink, nowhere))]
        child = os.posix_spawnp(command[0], command, os.environ, file_actions=files)
        _, status, usage = os.wait4(child, 0)
        seconds = time.monotonic() - started
        sink.seek(0)
        said = sink.read().decode("latin-1")
    code = os.waitstatus_to_exitcode(status)
    if code not in (0, BAD_WORDS):
        sys.exit(f"{' '.join(command)} ended with status {code}")
    return None if code else Run(said, seconds, usage.ru_maxrss)


def with_workers(options, path, workers):
    """The quickest of some runs. A program that has no workers runs as with one."""
    command = [*options.program, "run", "--places", str(options.places)]
    best = None
    for _ in range(options.runs):
        found = timed([*command, "--workers", str(workers)], path)
        if found is None and workers == 1:
            found = timed(command, path)
        if found is None:
            return None
        best = found if best is None or found.seconds < best.seconds else best
    return best


def cold_pivots(options, sessions):
    """The pivots of the same solves, each made cold; those without an answer are left out."""
    found = []
    for text, changes in sessions.values():
        done = []
        for words in changes:
            done.append(words)
            lines = ["1 LOAD FREE", *text, *(f"1 {words}" for words in done), "1 SOLVE", "1 HOW", ""]
            said = run([*options.program, "run"], "\n".join(lines).encode(), None)[0]
            found += [int(pivots) for _, pivots, _ in HOW.findall(said) if pivots != "-"]
    return found


def counted(hows, at):
    """How often each word stands at a place of HOW."""
    words = [how[at] for how in hows]
    return ", ".join(f"{words.count(word)} {word}" for word in sorted(set(words)))


def measure(options, faults):
    """The lines of the table, and those behind it."""
    lines, sessions = script_of(options)
    heads = ["Workers", "s", "Times quicker", "Solves a second", "Solves from", "Bases", "Pivots", "MiB"]
    table, first = ["| " + " | ".join(heads) + " |", "|---" * len(heads) + "|"], None
    with tempfile.TemporaryDirectory() as place:
        path = pathlib.Path(place) / "script.lpd"
        path.write_text("\n".join([*lines, ""]))
        for workers in options.workers:
            found = with_workers(options, path, workers)
            if found is None:
                faults.append(f"the program takes no --workers {workers}")
                continue
            first = first or found
            if found.differs(first):
                faults.append(f"{workers} workers: {found.differs(first)} other replies")
            hows = found.hows()
            pivots = sum(int(pivots) for _, pivots, _ in hows if pivots != "-")
            cells = [str(workers), f"{found.seconds:.2f}", f"{first.seconds / found.seconds:.2f}"]
            cells += [f"{len(hows) / found.seconds:,.0f}", counted(hows, 0), counted(hows, 2), f"{pivots:,}"]
            table.append("| " + " | ".join([*cells, f"{found.memory / 1024:.1f}"]) + " |")
            print("\n".join(table[-1:] if len(table) > 3 else table), flush=True)
    cold = [] if options.no_cold else cold_pivots(options, sessions)
    size = f"{options.sessions} sessions, {options.solves} solves each, {len(lines):,} lines, {options.places} places"
    behind = [f"- {size}"]
    behind += [f"- the same {len(cold):,} solves, each made cold: {sum(cold):,} pivots"] if cold else []
    print("\n".join(behind))
    return [*table, "", *behind]


def main():
    options = argparse.ArgumentParser(description=__doc__, formatter_class=argparse.RawDescriptionHelpFormatter)
    options.add_argument("--program", default=os.environ.get("LPD", PROGRAM))
    options.add_argument("--workers", type=lambda text: [int(word) for word in text.split(",")], default=[1, 2, 4])
    options.add_argument("--sessions", type=int, default=64)
    options.add_argument("--solves", type=int, default=20)
    options.add_argument("--places", type=int, default=256)
    options.add_argument("--seed", type=int, default=1)
    options.add_argument("--runs", type=int, default=3)
    options.add_argument("--no-cold", action="store_true", help="leaves the cold solves out")
    options.add_argument("--write", type=pathlib.Path)
    options = options.parse_args()
    options.program = options.program.split()
    faults = []
    lines = measure(options, faults)
    return ended(options.write, BEGIN, END, lines, faults)


if __name__ == "__main__":
    sys.exit(main())
