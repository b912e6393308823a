#!/usr/bin/env python3
"""Puts models of every size up to the largest to `lpd check` and `lpd check --wide`: each limit holds at its line.

    check_sizes.py [--lpd PROGRAM] [--per-byte NANOSECONDS] [--certificates] [--solve]

The columns of each model have two entries, and the largest has 65,536 rows and 131,072 columns. With --wide it is read; with
one row or column more the line of that card is refused, and without --wide that of row 257 or column 513. A text may take the
processor at most so many nanoseconds a byte, and at most four times as many as the smallest text does. With --certificates a
certificate that names all rows and columns, the last one first, stands behind each of these texts, and is to hold. With --solve
the same limits hold for `lpd solve` and `lpd basis`, each with --wide and without, and `lpd solve --wide` answers each of these
models, whose answer is its start, in such time.
"""
import argparse
import resource
import subprocess
import sys
from pathlib import Path
from typing import Iterable, Iterator, List, NamedTuple, Optional

USUAL, LARGE = (256, 512), (65536, 131072)


class Size(NamedTuple):
    rows: int
    columns: int


class Said(NamedTuple):
    """The first line of what a command wrote, and the time of the processor."""

    line: str
    seconds: float


class Command(NamedTuple):
    """The words of a command without its switch, what it reads behind the text of a model, and what it says of one that it takes."""

    word: str
    behind: List[str]
    answer: str


SOLVES = [Command("solve", [], "OPTIMAL 0"), Command("basis", ["NAME", "ENDATA"], "OPTIMAL 0")]


def row_name(i: int) -> str:
    return f"R{i:07d}"


def column_name(j: int) -> str:
    return f"C{j:07d}"


def text_lines(size: Size) -> Iterator[str]:
    """The least sum of columns of which each counts in two rows, whose sums are at least 0."""
    yield "NAME sizes"
    yield "ROWS"
    yield " N cost"
    for i in range(size.rows):
        yield f" G {row_name(i)}"
    yield "COLUMNS"
    for j in range(size.columns):
        name, first = column_name(j), 7919 * j % size.rows
        yield f" {name} cost 1 {row_name(first)} 1"
        if size.rows > 1:
            yield f" {name} {row_name((first + 1) % size.rows)} 1/3"
    yield "RHS"
    yield "ENDATA"


def certificate_lines(size: Size) -> Iterator[str]:
    """The point 0, with all its parts, the last column first."""
    yield "OPTIMAL"
    for j in reversed(range(size.columns)):
        yield f"x {column_name(j)} 0"
    for i in range(size.rows):
        yield f"y {row_name(i)} 0"
    yield "END"


def input_of(size: Size, behind: Iterable[str] = ()) -> bytes:
    return "".join(f"{line}\n" for line in [*text_lines(size), *behind]).encode("ascii")


def spent() -> float:
    """The time of processors that programs took which have ended."""
    used = resource.getrusage(resource.RUSAGE_CHILDREN)
    return used.ru_utime + used.ru_stime


def said(program: str, words: List[str], given: bytes) -> Said:
    before = spent()
    end = subprocess.run([program, *words], input=given, capture_output=True, check=False, timeout=600)
    return Said(end.stdout.decode("ascii").partition("\n")[0], spent() - before)


def refused_at(line: int) -> str:
    return f"ERR 8 MPS {line} M16"


def first_row(size: Size, most: int) -> str:
    """What is said of a row too many."""
    return refused_at(3 + most + 1)


def first_column(size: Size, most: int) -> str:
    """What is said of a column too many, of which each has two cards."""
    return refused_at(4 + size.rows + 2 * most + 1)


def limits_hold(program: str, command: Optional[Command] = None) -> List[str]:
    """What is wrong with those of a command, or of the check, behind whose texts their certificates stand."""
    word, answer = (command.word, command.answer) if command else ("check", "YES OPTIMAL 0")
    cases = [
        ([], Size(*USUAL), answer),
        ([], Size(USUAL[0] + 1, 3), first_row(Size(USUAL[0] + 1, 3), USUAL[0])),
        ([], Size(3, USUAL[1] + 1), first_column(Size(3, USUAL[1] + 1), USUAL[1])),
        (["--wide"], Size(USUAL[0] + 1, USUAL[1] + 1), answer),
        (["--wide"], Size(LARGE[0] + 1, 3), first_row(Size(LARGE[0] + 1, 3), LARGE[0])),
        (["--wide"], Size(3, LARGE[1] + 1), first_column(Size(3, LARGE[1] + 1), LARGE[1])),
    ]
    wrong = []
    for switches, size, wanted in cases:
        behind = command.behind if command else certificate_lines(size)
        got = said(program, [word, *switches], input_of(size, behind)).line
        if got != wanted:
            wrong.append(f"{' '.join([word, *switches])}, {size.rows} x {size.columns}: {got!r}, and not {wanted!r}")
    return wrong


class Timed(NamedTuple):
    """A command whose time is to grow as its input, what it says, and whether certificates stand behind the texts."""

    words: List[str]
    wanted: str
    certified: bool = False


CHECK = Timed(["check", "--wide"], "ERR 14 CERT 1")
CHECK_CERTIFIED = Timed(["check", "--wide"], "YES OPTIMAL 0", certified=True)
SOLVE = Timed(["solve", "--wide"], "OPTIMAL 0")


# A byte of a larger text may take so many times what one of the smallest takes, which has other caches. What grows by the square
# takes 16 times as much.
MOST_GROWTH = 4
LEAST_SECONDS = 0.05


def times_hold(program: str, per_byte: float, timed: Timed) -> List[str]:
    """What is wrong, and a line on standard output for each size."""
    wrong, least, wanted = [], 0.0, timed.wanted
    for size in (Size(4096, 8192), Size(16384, 32768), Size(*LARGE)):
        given = input_of(size, certificate_lines(size) if timed.certified else [])
        got = said(program, timed.words, given)
        nanoseconds = 1e9 * got.seconds / len(given)
        least = least or max(nanoseconds, 1e9 * LEAST_SECONDS / len(given))
        told = f"{timed.words[0]}, {size.rows} x {size.columns}, {len(given)} bytes"
        print(f"{told}: {got.line} in {got.seconds:.2f} s, {nanoseconds:.0f} ns a byte", flush=True)
        if got.line != wanted:
            wrong.append(f"{size.rows} x {size.columns}: {got.line!r}, and not {wanted!r}")
        if nanoseconds > min(per_byte, MOST_GROWTH * least):
            wrong.append(f"{size.rows} x {size.columns}: {nanoseconds:.0f} ns a byte, after {least:.0f} ns of the smallest")
    return wrong


def main() -> int:
    parser = argparse.ArgumentParser(description="Tries the limits on rows and columns, and the time of the largest models.")
    parser.add_argument("--lpd", default=str(Path(__file__).resolve().parent.parent / "lpd"), help="the program")
    parser.add_argument("--per-byte", type=float, default=2000.0, help="nanoseconds that a byte may take")
    parser.add_argument("--certificates", action="store_true", help="time the check of certificates too")
    parser.add_argument("--solve", action="store_true", help="try solve and basis, with --wide and without, too")
    words = parser.parse_args()
    wrong = limits_hold(words.lpd)
    for command in SOLVES if words.solve else []:
        wrong += limits_hold(words.lpd, command)
    for timed in [CHECK, *[CHECK_CERTIFIED] * words.certificates, *[SOLVE] * words.solve]:
        wrong += times_hold(words.lpd, words.per_byte, timed)
    for line in wrong:
        print(line)
    return 1 if wrong else 0


if __name__ == "__main__":
    sys.exit(main())
