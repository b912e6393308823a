#!/usr/bin/env python3
"""Checks what lpd says on standard error of what it reads, where its standard input is a terminal.

    check_terminal.py PROGRAM [WORD ..]

It starts 'PROGRAM WORD ..' with the words of each command that reads. On a pseudo terminal the line that says what is read comes
before a byte is typed. Then it types a text, and Ctrl-D ends the input. Nothing of the kind is said where standard input is a
pipe or a file, nor on a terminal by a command that reads nothing, by a notice, or where the words are wrong. Each run may take a
minute. It prints what differs; the status is 1 where something does.
"""
from __future__ import annotations

import contextlib
import os
import select
import subprocess
import sys
import tempfile
import time
from typing import IO, Iterator, List, NamedTuple, Tuple, Union

# How many seconds a run may take.
MOST = 60.0
END = b"\x04"  # Ctrl-D
MODEL = "NAME a\nROWS\n N cost\n G R1\nCOLUMNS\n x cost 1 R1 1\nRHS\n R1 1\nENDATA\n"
CERTIFICATE = "OPTIMAL\nx x 1\ny R1 1\nEND\n"
BASIS = "NAME\n XL x R1\nENDATA\n"
SCRIPT = f"1 LOAD FREE\n{MODEL}1 SOLVE\n"
OF_A_MODEL = "a model in MPS"


class Reader(NamedTuple):
    """A command that reads: its words, what it says that it reads, a text to read, and the first line that it writes."""

    words: str
    reads: str
    text: str
    writes: str


READERS = [
    Reader("run", "a script, as `1 LOAD FREE`, a model and `1 SOLVE` (docs/PROTOCOL.md)", SCRIPT, "1 LOADED 1 1"),
    Reader("solve", OF_A_MODEL, MODEL, "OPTIMAL 1"),
    Reader("solve --wide", OF_A_MODEL, MODEL, "OPTIMAL 1"),
    Reader("check", "a model in MPS, and its certificate behind it", MODEL + CERTIFICATE, "YES OPTIMAL 1"),
    Reader("basis", "a model in MPS, and a basis file behind it", MODEL + BASIS, "OPTIMAL 1"),
    Reader("presolve", OF_A_MODEL, MODEL, "REDUCED 0 1"),
    Reader("iis", OF_A_MODEL, MODEL, "OPTIMAL 1"),
    Reader("range cost x", OF_A_MODEL, MODEL, "OPTIMAL 1"),
    Reader("range all", OF_A_MODEL, MODEL, "OPTIMAL 1"),
]
# Words that read nothing: their status, and the first line on standard error. No machine has an address of this network.
SILENT = [
    ("gen 3 3 4", 0, ""),
    ("--help", 0, ""),
    ("solve --help", 0, ""),
    ("--version", 0, ""),
    ("solve now", 2, "lpd: bad command line"),
    ("solve --form", 2, "lpd: bad command line"),
    ("serve 192.0.2.1:7007", 7, "lpd: cannot listen on 192.0.2.1:7007: this machine has no such address (status 7)"),
]


class Run:
    """A running program. As a context manager it ends the program."""

    def __init__(self, command: List[str], source: Union[int, IO[bytes]]) -> None:
        self.end = time.monotonic() + MOST
        self.program = subprocess.Popen(command, stdin=source, stdout=subprocess.PIPE, stderr=subprocess.PIPE)

    def __enter__(self) -> Run:
        return self

    def __exit__(self, *_: object) -> None:
        if self.program.poll() is None:
            self.program.kill()
        self.program.communicate()

    def said(self) -> str:
        """The next line on standard error, as far as it comes in time."""
        assert self.program.stderr is not None
        stream, line = self.program.stderr.fileno(), b""
        while not line.endswith(b"\n"):
            ready, _, _ = select.select([stream], [], [], max(0.0, self.end - time.monotonic()))
            byte = os.read(stream, 1) if ready else b""
            if not byte:
                break
            line += byte
        return line.decode("latin-1").removesuffix("\n")

    def rest(self) -> Tuple[int, str, str]:
        """The status, the first line on standard output, and what else is on standard error."""
        written, said = self.program.communicate(timeout=max(0.0, self.end - time.monotonic()))
        return self.program.returncode, written.decode("latin-1").partition("\n")[0], said.decode("latin-1")


def typed(command: List[str], text: str) -> Iterator[Tuple[str, object]]:
    """What a run at a terminal says before the text is typed, and how it ends after it."""
    keyboard, terminal = os.openpty()
    try:
        with Run(command, terminal) as run:
            os.close(terminal)
            yield "says", run.said()
            with contextlib.suppress(OSError):  # where the program has ended
                os.write(keyboard, text.encode() + END)
            yield "ends", run.rest()
    finally:
        os.close(keyboard)


def at_terminal(command: List[str], reader: Reader) -> Iterator[Tuple[str, object, object]]:
    """What is expected of a command that reads a terminal, and what is found."""
    line = f"lpd: reading {reader.reads}, up to the end of the input (Ctrl-D)"
    wanted = {"says": line, "ends": (0, reader.writes, "")}
    for what, found in typed([*command, *reader.words.split()], reader.text):
        yield f"lpd {reader.words} at a terminal {what}", wanted[what], found


def without_terminal(command: List[str], reader: Reader) -> Iterator[Tuple[str, object, object]]:
    """The same of one that reads a pipe, and a file."""
    words = [*command, *reader.words.split()]
    done = subprocess.run(words, input=reader.text.encode(), capture_output=True, timeout=MOST)
    yield f"lpd {reader.words} says of a pipe", (0, b""), (done.returncode, done.stderr)
    with tempfile.TemporaryFile() as file:
        file.write(reader.text.encode())
        file.seek(0)
        done = subprocess.run(words, stdin=file, capture_output=True, timeout=MOST)
    yield f"lpd {reader.words} says of a file", (0, b""), (done.returncode, done.stderr)


def reading_nothing(command: List[str], words: str, status: int, line: str) -> Tuple[str, object, object]:
    """The same of words that read nothing: they end though nothing is typed."""
    keyboard, terminal = os.openpty()
    try:
        with Run([*command, *words.split()], terminal) as run:
            os.close(terminal)
            found = run.said(), run.rest()[0]
    finally:
        os.close(keyboard)
    return f"lpd {words} at a terminal says and ends with", (line, status), found


def refused(command: List[str]) -> Iterator[Tuple[str, object, object]]:
    """The same of a text that is refused: the line that says why follows the one that says what is read."""
    reader = Reader("solve", OF_A_MODEL, "NAME a\nROW\n", "ERR 8 MPS 2 M2")
    why = "lpd: line 2: there is no such section; other lines begin with a blank (status 9)\n"
    for what, found in typed([*command, "solve"], reader.text):
        if what == "ends":
            yield "lpd solve at a terminal refuses a text, and ends", (9, reader.writes, why), found


def compared(command: List[str]) -> Iterator[Tuple[str, object, object]]:
    """All that is expected, and what is found."""
    for reader in READERS:
        yield from at_terminal(command, reader)
        yield from without_terminal(command, reader)
    for words, status, line in SILENT:
        yield reading_nothing(command, words, status, line)
    yield from refused(command)


def main(command: List[str]) -> int:
    if command[:1] in ([], ["-h"], ["--help"]):
        print(__doc__)
        return 0 if command else 2
    wrong = 0
    try:
        for what, wanted, found in compared(command):
            if wanted != found:
                print(f"{what}: expected {wanted!r}, got {found!r}")
                wrong = 1
    except subprocess.TimeoutExpired as error:
        print(f"{error.cmd!r} does not end within {MOST:g} seconds")
        wrong = 1
    return wrong


if __name__ == "__main__":
    sys.exit(main(sys.argv[1:]))
