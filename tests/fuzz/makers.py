"""Inputs made at random: bytes, lines of the grammar with words exchanged, and whole sessions over one model."""
from __future__ import annotations

import random
import re
import sys
from pathlib import Path
from typing import Callable, Iterator, List, Tuple

TOP = Path(__file__).resolve().parent.parent.parent
sys.path.insert(0, str(TOP / "tests"))

import made_models  # noqa: E402

LONGEST = 16384
# The numbers of sessions that makers use. One more, the last, marks the ends of inputs (runs.py).
SESSIONS = range(1, 9)
NUMBERS = ["0", "1", "-1", "2", "3", "5", "7", "10", "-4", "0.5", "-2.25", "1/3", "-7/2", "100", "1e3", "1e-3"]
WIDE = [str(2**127 - 1), str(-(2**127 - 1)), "1e38", "-1e38", "1/170141183460469231731687303715884105727", "0.000000000000000001"]
WRONG = [str(2**127), "1e39", "1e-40", "1/0", "", "x", "1.", ".", "+", "1e", "--1", "0x10", "nan", "1e20", "-inf", "inf"]
COMMANDS = """LOAD WRITE BUDGET SOLVE WIDE CERT HOW CHECK QUIT ADDROW DELROW ADDCOL DELCOL SETCOST SETCOEF SETRHS SETRANGE SETBOUND SENSE
FREE FIXED MIN MAX NONE L G E N 1 2 8 9 0 65 -1 01 1000000 1000001""".split()
WORDS = COMMANDS + made_models.WORDS + NUMBERS + WIDE + [word for word in WRONG if word]
BYTES = bytes(range(256))
SPECIAL = b"\0\t\n\r \x0b\x0c\x7f\x80\xa0\xff*#'-/.0e"
ALPHABET = b"0123456789 \t\nLOADFREESOLVECERTHOWCHECKQUITWRITEROWSCOLUMNSRHSENDATAEND xyr.-/e#*\r"
SEEDS = [path.read_bytes() for path in sorted((TOP / "examples").glob("*.lpd"))]
# The rows and the columns of a text that made_models has made, whose objective is named cost.
ROW, COLUMN = re.compile(r"^[ \t]+[LGEN][ \t]+(?!cost\s)(\S+)", re.M), re.compile(r"^[ \t]+([xcv$-]\d)[ \t]", re.M)
SOLVE, WIDELY = (re.compile(rb"^[ \t]*([1-9]|[1-5][0-9]|6[0-4])[ \t]+" + word + rb"[ \t]*(?:\r?\n|\Z)", re.M) for word in (b"SOLVE", b"WIDE"))


def probed(script: bytes) -> bytes:
    """The same script with WRITE before each line that says SOLVE or WIDE, and CERT behind SOLVE."""
    script = SOLVE.sub(lambda found: b"%b WRITE FREE\n%b SOLVE\n%b CERT\n" % ((found[1],) * 3), script)
    return WIDELY.sub(lambda found: b"%b WRITE FREE\n%b WIDE\n" % ((found[1],) * 2), script)


def sessions_of(script: bytes) -> List[int]:
    """The numbers of sessions with which lines of a script begin."""
    return sorted({int(n) for n in re.findall(rb"(?:\A|\n)[ \t]*([1-9]|[1-5][0-9]|6[0-4])(?=[ \t\r\n]|\Z)", script)})


class Makers:
    """Draws inputs of each kind from one source of chance."""

    def __init__(self, dice: random.Random) -> None:
        self.dice = dice
        # The sessions made so far, of which more inputs are made.
        self.sessions: List[bytes] = []

    def made(self, kind: str) -> bytes:
        make: Callable[[], bytes] = {"bytes": self.noise, "lines": self.lines, "sessions": self.session}[kind]
        return probed(make())

    # ---- bytes

    def noise(self) -> bytes:
        size = int(2 ** self.dice.uniform(0, 10))
        way = self.dice.random()
        if way < 0.2:
            return self.dice.randbytes(size)
        if way < 0.4:
            return bytes(self.dice.choices(ALPHABET, k=size))
        text = bytearray(self.seed())
        for _ in range(self.dice.choice([1, 1, 2, 4, 8])):
            self.dice.choice(BYTE_CHANGES)(self.dice, text)
        return bytes(text)

    def seed(self) -> bytes:
        """A script that is right, or a piece of one that begins with a model."""
        way = self.dice.random()
        if way < 0.2 or not self.sessions:
            self.sessions.append(self.session())
            return self.sessions[-1]
        if way < 0.7:
            return self.dice.choice(self.sessions)
        lines = self.dice.choice(SEEDS).splitlines(keepends=True)
        start = self.dice.choice([0, *(at for at, line in enumerate(lines) if b" LOAD " in line)])
        return b"".join(lines[start : start + 60])

    # ---- lines

    def lines(self) -> bytes:
        lines = [line.split(" ") for line in self.seed().decode("latin-1").split("\n")]
        for _ in range(self.dice.choice([1, 1, 2, 3, 6, 12])):
            if len(lines) < 2:
                break
            self.dice.choice(LINE_CHANGES)(self.dice, lines)
        return "\n".join(" ".join(words) for words in lines).encode("latin-1", "replace")

    # ---- sessions

    def session(self, alone: bool = False) -> bytes:
        """Sessions that load the same model, solve it, edit it, and check certificates. One that is alone has the number 1."""
        made = made_models.Maker(self.dice, self.dice.choice([4, 5, 5, 8, 20, 60])).made()
        talk = Talk(self.dice, made, ROW.findall(made.text), sorted(set(COLUMN.findall(made.text))))
        talk.sessions = [1] if alone else talk.sessions
        return "".join(talk.steps()).encode("latin-1")


def load(session: int, fixed: bool, text: str) -> bytes:
    return f"{session} LOAD {'FIXED' if fixed else 'FREE'}\n{text}".encode("latin-1")


class Talk:
    """The commands of one to three sessions over one model."""

    def __init__(self, dice: random.Random, made: made_models.Made, rows: List[str], columns: List[str]) -> None:
        self.dice, self.made, self.rows, self.columns = dice, made, rows, columns
        self.sessions = dice.sample(SESSIONS, dice.choice([1, 1, 2, 3]))

    def steps(self) -> Iterator[str]:
        for session in self.sessions:
            yield load(session, self.made.fixed, self.made.text).decode("latin-1")
        for _ in range(self.dice.randint(2, 9)):
            session = self.dice.choice(self.sessions)
            yield from self.some(session, self.dice.random())

    def some(self, session: int, way: float) -> Iterator[str]:
        if way < 0.35:
            yield f"{session} {self.edit()}\n"
            yield f"{session} SOLVE\n"
            yield f"{session} HOW\n"
        elif way < 0.5:
            yield f"{session} SOLVE\n"
        elif way < 0.8:
            yield f"{session} {self.edit()}\n"
        elif way < 0.9:
            made = self.made if self.dice.random() < 0.5 else made_models.mutated(self.dice, self.made)
            yield f"{session} CHECK\n{made.certificate}"
        else:
            yield f"{session} {self.dice.choice(['HOW', 'CERT', 'WIDE', 'WRITE FREE', 'WRITE FIXED', 'QUIT', self.budget()])}\n"

    def budget(self) -> str:
        return f"BUDGET {self.dice.choice([1, 2, 3, 10, 10000, 1000000])}"

    def number(self) -> str:
        return self.dice.choice(NUMBERS if self.dice.random() < 0.85 else WIDE if self.dice.random() < 0.6 else WRONG)

    def row(self) -> str:
        return self.dice.choice(self.rows) if self.dice.random() < 0.95 else self.dice.choice(["cost", "nobody", *self.columns])

    def column(self) -> str:
        return self.dice.choice(self.columns) if self.dice.random() < 0.95 else self.dice.choice(["nobody", *self.rows])

    def new(self, names: List[str]) -> str:
        name = f"n{self.dice.randrange(6)}"
        if self.dice.random() < 0.9:
            names.append(name)
        return name

    def edit(self) -> str:
        return self.dice.choice([
            lambda: f"SETRHS {self.row()} {self.number()}",
            lambda: f"SETRHS {self.row()} {self.number()}",
            lambda: f"SETCOST {self.column()} {self.number()}",
            lambda: f"SETCOEF {self.row()} {self.column()} {self.number()}",
            lambda: f"SETBOUND {self.column()} {self.dice.choice(['0', '-inf', self.number()])} {self.dice.choice(['inf', self.number()])}",
            lambda: f"SETRANGE {self.row()} {self.dice.choice(['NONE', self.number()])}",
            lambda: f"SENSE {self.dice.choice(['MIN', 'MAX'])}",
            lambda: f"ADDROW {self.new(self.rows)} {self.dice.choice('LLGGEEN')} {self.number()}{self.dice.choice(['', ' ' + self.number()])}",
            lambda: f"DELROW {self.row()}",
            lambda: f"ADDCOL {self.new(self.columns)} {self.number()} {self.row()} {self.number()}",
            lambda: f"DELCOL {self.column()}",
            self.budget,
        ])()


# ---- changes of bytes


def place(dice: random.Random, text: bytearray) -> int:
    return dice.randrange(len(text) + 1)


def bit_turned(dice: random.Random, text: bytearray) -> None:
    if text:
        text[dice.randrange(len(text))] ^= 1 << dice.randrange(8)


def byte_put(dice: random.Random, text: bytearray) -> None:
    at = place(dice, text)
    text[at : at + dice.choice([0, 1])] = bytes([dice.choice(SPECIAL if dice.random() < 0.7 else BYTES)])


def part_dropped(dice: random.Random, text: bytearray) -> None:
    at = place(dice, text)
    del text[at : at + int(2 ** dice.uniform(0, 8))]


def part_doubled(dice: random.Random, text: bytearray) -> None:
    at = place(dice, text)
    text[at:at] = text[at : at + int(2 ** dice.uniform(0, 8))]


def part_moved(dice: random.Random, text: bytearray) -> None:
    at, size = place(dice, text), int(2 ** dice.uniform(0, 7))
    part = text[at : at + size]
    del text[at : at + size]
    to = place(dice, text)
    text[to:to] = part


def line_long(dice: random.Random, text: bytearray) -> None:
    if dice.random() < 0.1:
        at = place(dice, text)
        text[at:at] = bytes([dice.choice(b" x0\t\xff")]) * dice.choice([LONGEST - 8, LONGEST - 1, LONGEST, LONGEST + 1, 20000])


BYTE_CHANGES = [bit_turned, byte_put, byte_put, part_dropped, part_doubled, part_moved, line_long]

# ---- changes of lines

Lines = List[List[str]]


def spot(dice: random.Random, lines: Lines) -> Tuple[int, int]:
    """A word of a line, every other time of one that is a command."""
    at = dice.randrange(len(lines))
    if dice.random() < 0.5:
        at = dice.choice([n for n, words in enumerate(lines) if words[0].isdigit()] or [at])
    return at, dice.randrange(len(lines[at]))


def words_exchanged(dice: random.Random, lines: Lines) -> None:
    (a, b), (c, d) = spot(dice, lines), spot(dice, lines)
    lines[a][b], lines[c][d] = lines[c][d], lines[a][b]


def word_put(dice: random.Random, lines: Lines) -> None:
    a, b = spot(dice, lines)
    lines[a][b] = dice.choice(WORDS)


def word_added(dice: random.Random, lines: Lines) -> None:
    a, b = spot(dice, lines)
    lines[a].insert(b, dice.choice(WORDS))


def word_dropped(dice: random.Random, lines: Lines) -> None:
    a, b = spot(dice, lines)
    if len(lines[a]) > 1:
        del lines[a][b]


def lines_exchanged(dice: random.Random, lines: Lines) -> None:
    a, b = dice.randrange(len(lines)), dice.randrange(len(lines))
    lines[a], lines[b] = lines[b], lines[a]


def line_doubled(dice: random.Random, lines: Lines) -> None:
    lines.insert(dice.randrange(len(lines)), list(dice.choice(lines)))


def line_dropped(dice: random.Random, lines: Lines) -> None:
    del lines[dice.randrange(len(lines))]


LINE_CHANGES = [words_exchanged, words_exchanged, word_put, word_put, word_added, word_dropped, lines_exchanged, line_doubled, line_dropped]
