#!/usr/bin/env python3
"""Measures how long a text takes to load, beside other programs that read MPS, and whether a card's time stays flat.

    loading.py [--program PROGRAM] [--only NAME,..] [--runs N] [--seconds N] [--uncounted] [--write PAGE]

The texts are made here from a stated seed. They are in free form, with 512 columns, a card for each entry in a random
order of the rows, and with names of one length, 8 or 64 bytes. Those of 64 bytes are also made with further cards: of
bounds that are set anew, and of other sets of RHS and RANGES, the longest of nearly 2^26 bytes. A text's name is the
length of its names, the number of its entries, and what else sets it apart.

Each text is given to a session of lpd that loads it and ends, to one that also writes it, to `glpsol --check`
(glpk-utils) and to `clp` (coinor-clp); one that is not there is left out. Behind another's time stands the ratio of
lpd's to it, or that it refuses the text. Times are of the processor, for the whole process, the least of N runs (5).
Instructions are callgrind's (valgrind), memory is the most that /usr/bin/time tells; where these are not there, or with
--uncounted, a cell is empty. The lines behind the table say how much a card's time and instructions grow, the most over
the least of the texts that differ in their entries alone. With --write the table and these lines take the place of what
stands between the two marks of PAGE.
"""
import os
import pathlib
import random
import re
import resource
import shutil
import subprocess
import sys
import tempfile
from concurrent.futures import ThreadPoolExecutor
from dataclasses import dataclass

from options import read_options
from page import write
from solvers import least

BEGIN, END = "<!-- measured by bench/loading.py -->", "<!-- end of the loading -->"
COLUMNS, ROWS, LONGEST, MIB = 512, 256, 1 << 26, 1 << 20
ENTRIES = [8_192, 32_768, 131_072]
LOAD, WRITE, QUIT = b"1 LOAD FREE\n", b"1 WRITE FREE\n", b"1 QUIT\n"


# ---- texts


@dataclass
class Text:
    """A text by its measures."""

    width: int
    entries: int
    rows: int = ROWS
    further: int = 0

    def kind(self):
        """The texts of one kind differ in their entries alone."""
        few = f", {self.rows} rows" if self.rows != ROWS else ""
        return f"names of {self.width} bytes{few}" + (", further cards" if self.further else "")

    def name(self):
        few = f"-{self.rows}" if self.rows != ROWS else ""
        return f"{self.width}-{self.entries}{few}" + ("-further" if self.further else "")

    def word(self, letter, number=""):
        return f"{letter}{number}".ljust(self.width, "_")

    def lines(self):
        dice = random.Random(1)
        rows = [self.word("r", i) for i in range(self.rows)]
        columns = [self.word("c", j) for j in range(COLUMNS)]
        yield from ["NAME loading", "ROWS", " N " + self.word("cost"), *(" L " + row for row in rows), "COLUMNS"]
        for column in columns:
            yield f" {column} {self.word('cost')} {dice.randint(1, 99)}"
            taken = dice.sample(rows, self.entries // COLUMNS)
            yield from (f" {column} {row} {dice.randint(1, 99)}" for row in taken)
        yield "RHS"
        yield from self.sides(dice, rows, "RHS")
        yield "RANGES"
        yield from self.sides(dice, rows, "RNG")
        yield "BOUNDS"
        yield from (f" UP {self.word('BND')} {column} {dice.randint(100, 999)}" for column in columns)
        for _ in range(self.further // 2):
            yield f" {dice.choice(['LO', 'UP'])} {self.word('BND')} {dice.choice(columns)} {dice.randint(100, 999)}"
        yield from ["ENDATA", ""]

    def sides(self, dice, rows, section):
        """A number for each row, and the section's share of further cards, of another set."""
        yield from (f" {self.word(section)} {row} {dice.randint(100, 999)}" for row in rows)
        for _ in range(self.further // 4):
            yield f" {self.word('other')} {dice.choice(rows)} {dice.randint(100, 999)}"


def texts():
    for width in [8, 64]:
        yield Text(width, ENTRIES[0], rows=16)
        yield from (Text(width, entries) for entries in ENTRIES)
    yield from (Text(64, entries, further=entries * 11 // 4) for entries in ENTRIES)


# ---- programs that read a text: what each says, where it has read it


@dataclass
class Reader:
    """A program; the file that is its standard input, if one is; and what it says where it has read a text."""

    name: str
    command: list
    source: str
    said: str

    def is_there(self):
        return shutil.which(self.command[0])

    def run(self, front, folder, seconds):
        """How its process ends, called behind these words, and its time."""
        command = front + [word.format(text=folder / "text.mps") for word in self.command]
        before = resource.getrusage(resource.RUSAGE_CHILDREN)
        with (folder / self.source).open("rb") if self.source else open(os.devnull, "rb") as source:
            done = subprocess.run(command, stdin=source, capture_output=True, timeout=seconds)
        after = resource.getrusage(resource.RUSAGE_CHILDREN)
        return done, after.ru_utime - before.ru_utime + after.ru_stime - before.ru_stime

    def time(self, text, folder, options):
        """The least time; None where it does not read the text."""
        done, spent = least(options.runs, lambda: self.run([], folder, options.seconds))
        wanted = self.said.format(rows=text.rows, columns=COLUMNS, entries=text.entries).encode()
        return spent if re.search(wanted, done.stdout) and b"errors" not in done.stdout else None

    def instructions(self, folder, options):
        if options.uncounted or not shutil.which("valgrind"):
            return None
        counter = ["valgrind", "--tool=callgrind", f"--callgrind-out-file={os.devnull}"]
        return int(re.search(rb"Collected : (\d+)", self.run(counter, folder, None)[0].stderr)[1])

    def memory(self, folder, options):
        """The most bytes that are held at once."""
        if not shutil.which("/usr/bin/time"):
            return None
        return 1024 * int(self.run(["/usr/bin/time", "-f", "%M"], folder, options.seconds)[0].stderr.split()[-1])


def lpd(program, source, said):
    return Reader("lpd", program + ["run"], source, said)


OTHERS = [
    Reader("glpsol", ["glpsol", "--freemps", "{text}", "--check"], None, r"non-zeros \(matrix\) = +{entries}\n"),
    Reader("clp", ["clp", "{text}", "-stop"], None, "has {rows} rows, {columns} columns and {entries} elements"),
]


# ---- the table


@dataclass
class Loaded:
    """What a text takes."""

    text: Text
    cards: int
    size: int
    spent: float
    with_write: float
    memory: int
    others: list
    instructions: int = None

    def cells(self):
        yield f"{self.text.width}{', further cards' if self.text.further else ''}"
        yield from (f"{number:,}" for number in (self.text.rows, self.text.entries, self.cards, self.size))
        yield f"{self.spent * 1e3:.1f}"
        yield f"{self.with_write * 1e3:.1f}"
        yield f"{self.spent / self.cards * 1e9:,.0f}"
        yield f"{self.instructions / self.cards:,.0f}" if self.instructions else ""
        yield f"{self.memory / MIB:.1f}" if self.memory else ""
        yield f"{self.memory / self.size:.2f}" if self.memory else ""
        for spent in self.others:
            yield "refused" if spent is None else f"{spent * 1e3:.1f} ({self.spent / spent:.2f})"


def loading(options):
    """A session that loads a text and ends."""
    return lpd(options.program, "load", "^1 LOADED {rows} {columns}\n1 BYE\n$")


def load(options, text, others, folder):
    """What a text takes; the folder keeps the script that loads it."""
    folder.mkdir()
    data = "\n".join(text.lines()).encode()
    assert len(LOAD + data + WRITE + QUIT) <= LONGEST
    for name, content in [("text.mps", data), ("load", LOAD + data + QUIT), ("write", LOAD + data + WRITE + QUIT)]:
        (folder / name).write_bytes(content)
    own = loading(options)
    writing = lpd(options.program, "write", "^1 LOADED {rows} {columns}\n1 TEXT ")
    times = [it.time(text, folder, options) for it in (own, writing)]
    if None in times:
        sys.exit(f"{text.name()} is not loaded, or not written")
    others = [it.time(text, folder, options) for it in others]
    for name in ("text.mps", "write"):
        (folder / name).unlink()
    return Loaded(text, data.count(b"\n"), len(data), *times, own.memory(folder, options), others)


def count(options, loaded, folders):
    """Counts the instructions of all loads side by side, since these do not depend on what else the machine does."""
    with ThreadPoolExecutor(os.cpu_count()) as pool:
        counts = pool.map(lambda folder: loading(options).instructions(folder, options), folders)
        for it, instructions in zip(loaded, counts):
            it.instructions = instructions


def grown(loaded):
    """How much a card's time and instructions grow, by the kinds of texts."""
    kinds = {}
    for it in loaded:
        kinds.setdefault(it.text.kind(), []).append(it)
    for kind, members in kinds.items():
        if len(members) < 2:
            continue
        factor = max(it.text.entries for it in members) // min(it.text.entries for it in members)
        times = [it.spent / it.cards for it in members]
        counts = [it.instructions / it.cards for it in members if it.instructions]
        timed = f"the longest time of a card is {max(times) / min(times):.2f} times the shortest"
        counted = f", the most instructions {max(counts) / min(counts):.2f} times the fewest" if counts else ""
        yield f"- {kind}, up to {factor} times as many entries: {timed}{counted}"


def main():
    options = read_options(__doc__, only="", runs=5, seconds=60, uncounted=False)
    others = [it for it in OTHERS if it.is_there()]
    heads = ["Names", "Rows", "Entries", "Cards", "Bytes", "ms", "With `WRITE`, ms", "ns a card", "Instructions a card"]
    heads += ["MiB", "Times the text", *(f"{it.name}, ms" for it in others)]
    wanted = options.only.split(",") if options.only else [text.name() for text in texts()]
    chosen = [text for text in texts() if text.name() in wanted]
    with tempfile.TemporaryDirectory() as top:
        folders = [pathlib.Path(top) / text.name() for text in chosen]
        loaded = [load(options, text, others, folder) for text, folder in zip(chosen, folders)]
        count(options, loaded, folders)
    lines = ["| " + " | ".join(heads) + " |", "|---" * len(heads) + "|"]
    lines += ["| " + " | ".join(it.cells()) + " |" for it in loaded]
    lines += ["", *grown(loaded)]
    print("\n".join(lines))
    if options.write:
        write(options.write, BEGIN, END, lines)


if __name__ == "__main__":
    main()
