#!/usr/bin/env python3
"""Checks that `lpd run --workers 2` plays two sessions on threads beside each other.

    check_threads.py PROGRAM [WORD ..]

Two sessions each solve a dense model of 60 rows, which takes some tenths of a second. With two workers the process has
more than one thread meanwhile, as the system counts them in /proc, and with one it has one; and the output is the same.
No contract says so: a run that plays all sessions one after the other meets every clause.
"""
import random
import subprocess
import sys
import time

ROWS = 60


def model():
    dice = random.Random(ROWS)
    lines = ["ROWS", " N cost", *(f" G r{i}" for i in range(ROWS)), "COLUMNS"]
    for j in range(ROWS):
        lines.append(f" x{j} cost {dice.randint(1, 20)}")
        lines += [f" x{j} r{i} 1" for i in range(ROWS) if i == j or dice.random() < 1 / 3]
    return [*lines, "RHS", *(f" RHS r{i} {dice.randint(1, 30)}" for i in range(ROWS)), "ENDATA"]


def script():
    loads = [line for session in (1, 2) for line in (f"{session} LOAD FREE", *model(), f"{session} BUDGET 1000000")]
    return "\n".join([*loads, "1 SOLVE", "2 SOLVE", ""]).encode()


def threads_of(pid):
    """How many threads the process has; none where it has ended."""
    try:
        with open(f"/proc/{pid}/status", encoding="ascii") as lines:
            return max((int(line.split()[1]) for line in lines if line.startswith("Threads:")), default=0)
    except OSError:
        return 0


def played(words, workers):
    """The output, and the most threads that were seen."""
    process = subprocess.Popen([*words, "run", "--workers", workers], stdin=subprocess.PIPE, stdout=subprocess.PIPE)
    process.stdin.write(script())
    process.stdin.close()
    most = 0
    while process.poll() is None:
        most = max(most, threads_of(process.pid))
        time.sleep(0.002)
    return process.stdout.read(), most


def main():
    if sys.argv[1:2] in ([], ["-h"], ["--help"]):
        print(__doc__)
        return 0 if sys.argv[1:] else 2
    alone, one = played(sys.argv[1:], "1")
    beside, more = played(sys.argv[1:], "2")
    if alone != beside or alone.count(b" OPTIMAL ") != 2:
        sys.exit("two workers do not write what one does")
    if one != 1 or more < 2:
        sys.exit(f"one worker has {one} threads, and two have {more}")
    return 0


if __name__ == "__main__":
    sys.exit(main())
