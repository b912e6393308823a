#!/usr/bin/env python3
"""Measures the natural numbers of lp_natural and their texts beside those of GMP.

    measure.py [--program PROGRAM] [--words N,..] [--seconds N] [--write PAGE]

Numbers have 10, 100, 400 and 1,000 words of 64 bits. Of each operation so many are done that they take N tenths of a second (3), by a
program that does nothing else, less the time of the same program that does one; the least of two runs. gcc builds that of GMP
(libgmp-dev), and `rt`, the command of the kit, one of main.txt over the crates of this repository, which it proves, but for those
that it proved before; PROGRAM is one that is built already. Times are of the processor. With --write the table takes the place of
what stands between the two marks of PAGE.
"""
import pathlib
import re
import shutil
import subprocess
import sys
import tempfile

HERE = pathlib.Path(__file__).resolve().parent
TOP = HERE.parent.parent
sys.path.insert(0, str(HERE.parent))

from options import read_options  # noqa: E402
from page import ended, shown  # noqa: E402
from planners import row  # noqa: E402
from solvers import limited  # noqa: E402

BEGIN, END = "<!-- measured by bench/naturals/measure.py -->", "<!-- end of the natural numbers -->"
OPERATIONS = {
    1: "n words times n words",
    2: "2n words by n words, with the rest",
    3: "n over n words in lowest terms",
    4: "n words to digits",
    5: "n words from digits",
}
NEEDED = ("lp_natural", "lp_numtext")
OUT = HERE.parent / "out"
LONGEST = 600


def crates_below(names):
    """The lines of crates.txt of these crates and of those that they stand on."""
    lines = [line.split("#")[0].strip() for line in (TOP / "crates.txt").read_text().splitlines()]
    of = {re.split("[ :]", line)[0]: line for line in lines if ":" in line}
    found, left = set(), list(names)
    while left:
        name = left.pop()
        if name in of and name not in found:
            found.add(name)
            left += of[name].partition(":")[2].split()
    return {name: line for name, line in of.items() if name in found}


def built():
    """The program of lpd's numbers, which a copy of the crates that it needs makes."""
    program = OUT / "naturals"
    with tempfile.TemporaryDirectory() as place:
        room = pathlib.Path(place)
        lines = crates_below(NEEDED)
        for name in lines:
            for part in ("src", "specs", "proofs"):
                if (TOP / "crates" / name / part).exists():
                    shutil.copytree(TOP / "crates" / name / part, room / "crates" / name / part)
        (room / "crates/naturals/src").mkdir(parents=True)
        shutil.copy(HERE / "main.txt", room / "crates/naturals/src/main.rt")
        (room / "crates/naturals/status").write_text("1\n")
        (room / "crates.txt").write_text("\n".join([*lines.values(), f"naturals: {' '.join(NEEDED)}", ""]))
        shutil.copy(TOP / "HANDLES", room)
        subprocess.run(["rt", "ci"], cwd=room, check=True, stdout=sys.stderr)
        OUT.mkdir(exist_ok=True)
        shutil.copy(room / "crates/naturals/out/naturals", program)
    return str(program)


def built_of_gmp():
    OUT.mkdir(exist_ok=True)
    program = str(OUT / "naturals_gmp")
    subprocess.run(["gcc", "-O2", "-o", program, str(HERE / "gmp.c"), "-lgmp"], check=True)
    return program


def spent(program, what, words, times):
    return limited([program, str(what), str(words), str(times)], b"", LONGEST)[1]


def time_of(program, what, words, wanted):
    """The seconds of one operation."""
    one, times = spent(program, what, words, 1), 2
    while (whole := spent(program, what, words, times)) < wanted:
        times *= max(2, min(64, int(wanted / max(whole - one, 0.01))))
    again = spent(program, what, words, times)
    return max(0.0, min(whole, again) - one) / (times - 1)


def microseconds(time):
    return f"{time * 1e6:,.2f}" if time < 1e-5 else f"{time * 1e6:,.1f}" if time < 1e-4 else f"{time * 1e6:,.0f}"


def table(options, program, gmp):
    sizes = [int(size) for size in options.words.split(",")]
    heads = [head for size in sizes for head in (f"n = {size:,}, µs", "GMP", "ratio")]
    yield row(["Operation", *heads])
    yield "|---" * (1 + len(heads)) + "|"
    for what, told in OPERATIONS.items():
        cells = []
        for size in sizes:
            ours, theirs = (time_of(one, what, size, options.seconds / 10) for one in (program, gmp))
            cells += [microseconds(ours), microseconds(theirs), f"{ours / theirs:.1f}"]
        yield row([told, *cells])


def main():
    options = read_options(__doc__, words="10,100,400,1000", seconds=3)
    is_given = any(word.split("=")[0] == "--program" for word in sys.argv)
    program = options.program[0] if is_given else built()
    return ended(options.write, BEGIN, END, shown(table(options, program, built_of_gmp())))


if __name__ == "__main__":
    sys.exit(main())
