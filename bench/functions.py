#!/usr/bin/env python3
"""Measures the processor time of a crate's proof by function, or ranks functions by what a proof goes over.

    functions.py CRATE ..                        checks these crates from nothing, one after the other, and measures each
    functions.py --read FILE ..                  reads the times that earlier runs wrote
    functions.py --sizes                         checks nothing: ranks the functions of all crates that are built by their size
    functions.py .. --built FOLDER ..            takes crates that are not built in this tree from these copies of it
    functions.py .. --write PAGE                 makes a table of the dearest functions in place of that of the page

A crate is checked by one job over an empty folder, into which the checker writes each module as soon as it is checked. Meanwhile
the processor time of the checker and of the copies that it makes of itself is noted, many times a second. So a module took
what was spent between its file and the one before it. The modules of a function are its contract, its code and its proof. What is
written by hand beside them, as a lemma, has a row of its own. What is left is the reading of the libraries and the verdict.

The size of a function is the number of its calls times that of its variables, in the form that the checker proves. There
each way out of a function has calls of its own: of `from_residual` for a `?`, and of `drop` for each value that is let go there.
A proof goes over all calls, and has all variables at hand at each. So the size tells which functions are dear, if not their seconds.

The libraries below a crate are those that `rt ci` or `rt lib` left in `out/rlib`, or those of the kit. What is found is written as
tab-separated lines to standard output: the crate, the function or file, and its seconds, or its calls and its variables. Seconds
are those of one machine, whose other work counts too: compare runs of one hour.
"""
import argparse
import bisect
import json
import os
import re
import subprocess
import sys
import tempfile
import time
from collections import defaultdict
from pathlib import Path

from page import write

Times = dict[tuple[str, str], float]

TOP = Path(__file__).resolve().parent.parent
MARKS = {
    "times": ("<!-- measured by bench/functions.py -->", "<!-- end of the functions -->"),
    "sizes": ("<!-- ranked by bench/functions.py --sizes -->", "<!-- end of the sizes -->"),
}
TICKS = os.sysconf("SC_CLK_TCK")
# How long the processes are left alone between two looks at them, in seconds.
PAUSE = 0.05
# The rows of the table.
ROWS = 20
REST = "(libraries and verdict)"


def dependencies() -> dict[str, list[str]]:
    """What each crate stands on."""
    lines = (line.split("#")[0] for line in (TOP / "crates.txt").read_text().splitlines())
    named = (line.partition(":") for line in lines if line.strip())
    return {name.split()[0]: below.split() for name, _, below in named}


def all_below(crate: str, below: dict[str, list[str]]) -> list[str]:
    """The crates that a crate stands on, and those that these stand on."""
    found, left = [], list(below[crate])
    while left:
        name = left.pop(0)
        if name not in found:
            found.append(name)
            left += below.get(name, [])
    return found


def kit() -> Path:
    """The folder of the kit."""
    page = subprocess.run(["rt", "doc"], capture_output=True, text=True, check=True).stdout
    return Path(page.strip()).parent


def library(crate: str, trees: list[Path], tools: Path) -> Path:
    """The built library of a crate, in the first copy of the tree that has it, or the kit's."""
    places = [tree / "crates" / crate / "out/rlib" / f"{crate}.rlib" for tree in trees]
    for place in [*places, tools / "rlibs" / f"{crate}.rlib"]:
        if place.exists():
            return place
    sys.exit(f"{crate} is not built: run `rt ci {crate}` first, or name a tree in which it is by --built")


def words(crate: str, trees: list[Path], kept: Path) -> list[str]:
    """The command that checks a crate into an empty folder."""
    below, tools = dependencies(), kit()
    command = ["rattle", "check", "--crate-name", crate, "src/lib.rt", "--jobs", "1", "--incremental", str(kept)]
    command += ["--links", f"{crate}=", "--logic-built", f"{tools}/logic_built"]
    command += ["--antt-project", f"{tools}/rattle/logic/antt-project.json", "-L", f"dependency={tools}/rlibs"]
    for name in ["std", *below[crate]]:
        command += ["--extern", f"{name}={library(name, trees, tools)}"]
    for name in all_below(crate, below):
        command += ["-L", f"dependency={library(name, trees, tools).parent}"]
    return command


def time_of(process: str) -> tuple[float, list[str]]:
    """The processor time of a process and of its children that have ended, and its other children."""
    fields = Path("/proc", process, "stat").read_text().rpartition(")")[2].split()
    children = [it.read_text().split() for it in Path("/proc", process, "task").glob("*/children")]
    return sum(int(it) for it in fields[11:15]) / TICKS, sum(children, [])


def time_of_all(process: str) -> float:
    """The processor time of a process and of all that came of it."""
    total, left = 0.0, [process]
    while left:
        try:
            spent, children = time_of(left.pop())
        except OSError:
            continue
        total += spent
        left += children
    return total


def sampled(command: list[str], folder: Path, log: Path) -> list[tuple[float, float]]:
    """Runs a check, and notes at many times how much processor time it has taken."""
    samples = [(time.time(), 0.0)]
    with log.open("w") as output:
        check = subprocess.Popen(command, cwd=folder, stdout=output, stderr=subprocess.STDOUT)
        while check.poll() is None:
            # (a copy that has just ended is counted nowhere until its parent has waited for it)
            samples.append((time.time(), max(samples[-1][1], time_of_all(str(check.pid)))))
            time.sleep(PAUSE)
    if check.returncode:
        sys.exit(f"{' '.join(command[:4])}: not proved\n{log.read_text()[-2000:]}")
    return samples


def spent_until(samples: list[tuple[float, float]], when: float) -> float:
    """The processor time that had been taken at a time between two of those noted."""
    k = bisect.bisect(samples, (when, float("inf")))
    if k == 0:
        return 0.0
    if k == len(samples):
        return samples[-1][1]
    (before, low), (after, high) = samples[k - 1], samples[k]
    return low + (high - low) * (when - before) / (after - before)


def module_of(crate: str, file: str) -> str:
    """The name of a module within its library."""
    return re.sub(rf"^Rattle-{crate}-(specs|proofs)\.((contracts|declared)\.)?|(\.decls)?\.oantt$", "", file)


def owner_of(module: str, owners: set[str]) -> str:
    """The function or the type that a module is made for; or the module itself, where it is written by hand."""
    name = module
    while name and name not in owners:
        name = name.rpartition(".")[0]
    return (name or module).replace(".", "::")


def by_function(crate: str, samples: list[tuple[float, float]], kept: Path) -> Times:
    """What each function of a crate took, by the files that the check wrote."""
    files = sorted((it.stat().st_mtime, it.name) for it in kept.rglob("*.oantt"))
    stated = f"Rattle-{crate}-specs.contracts."
    owners = {module_of(crate, name) for _, name in files if name.startswith(stated)}
    times: Times = defaultdict(float)
    before = 0.0
    for when, name in files:
        spent = spent_until(samples, when)
        is_own = name.startswith(f"Rattle-{crate}-") and times
        times[crate, owner_of(module_of(crate, name), owners) if is_own else REST] += spent - before
        before = spent
    times[crate, REST] += samples[-1][1] - before
    return times


def profile(crate: str, trees: list[Path]) -> Times:
    """What each function of a crate takes in a check from nothing."""
    with tempfile.TemporaryDirectory(prefix="functions-") as room:
        kept = Path(room, "kept")
        kept.mkdir()
        command = words(crate, trees, kept)
        return by_function(crate, sampled(command, TOP / "crates" / crate, Path(room, "log")), kept)


def read(file: Path) -> Times:
    """The times that a run wrote."""
    lines = (line.split("\t") for line in file.read_text().splitlines())
    return {(crate, name): float(seconds) for crate, name, seconds in lines}


def by_time(times: Times) -> list[tuple[tuple[str, str], float]]:
    """The times, the longest first."""
    return sorted(times.items(), key=lambda it: -it[1])


def table(times: Times) -> list[str]:
    """The dearest functions, and what part of their crate each is."""
    whole: dict[str, float] = defaultdict(float)
    for (crate, _), spent in times.items():
        whole[crate] += spent
    dearest = [it for it in by_time(times) if it[0][1] != REST][:ROWS]
    lines = ["| Function | s | of its crate |", "|---|---|---|"]
    for (crate, name), spent in dearest:
        lines.append(f"| `{crate}::{name}` | {spent:.1f} | {100 * spent / whole[crate]:.0f} % |")
    return lines


def calls_in(code: object) -> int:
    """How many calls stand in code, on all ways through it."""
    if isinstance(code, dict):
        return sum((key == "Call") + calls_in(part) for key, part in code.items())
    return sum(map(calls_in, code)) if isinstance(code, list) else 0


def sizes_of(built: Path) -> list[tuple[str, str, int, int]]:
    """The functions of a built crate, each with its calls and its variables."""
    crate = built.stem
    made = json.loads((built / "toolchain/mir.json").read_text())
    return [(crate, name.removeprefix(f"{crate}::"), calls_in(it["body"]), len(it["locals"])) for name, it in made]


def all_sizes(trees: list[Path]) -> list[tuple[str, str, int, int]]:
    """The functions of all crates that are built in one of these trees, the largest first."""
    found: dict[str, Path] = {}
    for tree in reversed(trees):
        found |= {it.stem: it for it in tree.glob("crates/*/out/rlib/*.rlib")}
    sizes = [size for built in found.values() for size in sizes_of(built)]
    return sorted(sizes, key=lambda it: (-it[2] * it[3], it))


def table_of_sizes(sizes: list[tuple[str, str, int, int]]) -> list[str]:
    """The largest functions."""
    lines = ["| Function | calls | variables | product |", "|---|---|---|---|"]
    for crate, name, calls, values in sizes[:ROWS]:
        lines.append(f"| `{crate}::{name}` | {calls} | {values} | {calls * values:,} |")
    return lines


def measured(given: argparse.Namespace, trees: list[Path]) -> tuple[list[str], list[str]]:
    """The lines of a measurement, and its table."""
    times: Times = {}
    for file in given.read:
        times |= read(file)
    for crate in given.crates:
        times |= profile(crate, trees)
    return [f"{crate}\t{name}\t{spent:.2f}" for (crate, name), spent in by_time(times)], table(times)


def ranked(trees: list[Path]) -> tuple[list[str], list[str]]:
    """The lines of the sizes, and their table."""
    sizes = all_sizes(trees)
    return ["\t".join(map(str, it)) for it in sizes], table_of_sizes(sizes)


def main() -> int:
    parser = argparse.ArgumentParser(description=__doc__, formatter_class=argparse.RawDescriptionHelpFormatter)
    parser.add_argument("crates", nargs="*", metavar="CRATE")
    parser.add_argument("--built", nargs="*", type=Path, default=[], metavar="FOLDER")
    parser.add_argument("--read", nargs="*", type=Path, default=[], metavar="FILE")
    parser.add_argument("--sizes", action="store_true")
    parser.add_argument("--write", type=Path, metavar="PAGE")
    given = parser.parse_args()
    trees = [TOP, *(tree.resolve() for tree in given.built)]
    lines, rows = ranked(trees) if given.sizes else measured(given, trees)
    print("\n".join(lines))
    if given.write:
        begin, end = MARKS["sizes" if given.sizes else "times"]
        write(given.write, begin, end, rows)
    return 0


if __name__ == "__main__":
    sys.exit(main())
