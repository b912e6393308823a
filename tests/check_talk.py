#!/usr/bin/env python3
"""Talks with lpd over two FIFOs, and checks that the reply to each command comes before the next one is written.

    check_talk.py PROGRAM [WORD ..]

It starts 'PROGRAM WORD .. run' with a FIFO as its standard input and another as its standard output. It writes one command,
and waits for the whole reply, at most a minute, before it writes the next. It prints the first reply that does not come or
is another one. The status is 1 where there is such a reply, and where the program does not end at the end of its input, with
status 0 and without a further byte.
"""
from __future__ import annotations

import os
import select
import subprocess
import sys
import tempfile
import time
from typing import List, Optional

# How many seconds a reply may take.
MOST = 60.0
MODEL = "NAME talk\nROWS\n N cost\n G R1\nCOLUMNS\n x cost 2 R1 1\nRHS\n R1 3\nENDATA\n"
# A session: each command with its body, and the reply.
SESSION = [
    ("1 LOAD FREE\n" + MODEL, "1 LOADED 1 1\n"),
    ("1 SOLVE\n", "1 OPTIMAL 6\n"),
    ("1 CERT\n", "1 CERT 4\nOPTIMAL\nx x 3\ny R1 2\nEND\n"),
    ("1 SETRHS R1 4\n", "1 OK\n"),
    ("1 SOLVE\n", "1 OPTIMAL 8\n"),
    ("1 CHECK\nOPTIMAL\nx x 4\ny R1 2\nEND\n", "1 YES OPTIMAL 8\n"),
    ("1 QUIT\n", "1 BYE\n"),
]


class Talk:
    """A running program, and the ends of its FIFOs that it does not have. As a context manager it ends the program."""

    def __init__(self, command: List[str], room: str) -> None:
        asks, replies = os.path.join(room, "asks"), os.path.join(room, "replies")
        os.mkfifo(asks)
        os.mkfifo(replies)
        # The end that is read is opened first, since an end that is written waits for it.
        source = os.open(asks, os.O_RDONLY | os.O_NONBLOCK)
        os.set_blocking(source, True)
        self.asks: Optional[int] = os.open(asks, os.O_WRONLY)
        self.replies = os.open(replies, os.O_RDONLY | os.O_NONBLOCK)
        sink = os.open(replies, os.O_WRONLY)
        self.program = subprocess.Popen(command, stdin=source, stdout=sink)
        os.close(source)
        os.close(sink)

    def __enter__(self) -> Talk:
        return self

    def __exit__(self, *_: object) -> None:
        self.end_input()
        os.close(self.replies)
        if self.program.poll() is None:
            self.program.kill()
            self.program.wait()

    def write(self, command: str) -> None:
        assert self.asks is not None
        os.write(self.asks, command.encode())

    def end_input(self) -> None:
        if self.asks is not None:
            os.close(self.asks)
            self.asks = None

    def read(self, count: int) -> bytes:
        """The next bytes of the replies: fewer where they end before, or do not come in time."""
        got, end = b"", time.monotonic() + MOST
        while len(got) < count:
            ready, _, _ = select.select([self.replies], [], [], max(0.0, end - time.monotonic()))
            piece = os.read(self.replies, count - len(got)) if ready else b""
            if not piece:
                break
            got += piece
        return got


def fault_of(talk: Talk) -> Optional[str]:
    """What is wrong with a session, or None."""
    for command, reply in SESSION:
        first = command.split("\n", 1)[0]
        try:
            talk.write(command)
        except BrokenPipeError:
            return f"{first}: the program has ended"
        got = talk.read(len(reply))
        if got != reply.encode():
            return f"{first}: expected {reply!r} before the next command, got {got!r}"
    talk.end_input()
    if talk.read(1):
        return "more is written at the end of the input"
    try:
        status = talk.program.wait(MOST)
    except subprocess.TimeoutExpired:
        return "the program does not end at the end of its input"
    return f"expected the status 0, got {status}" if status else None


def main(command: List[str]) -> int:
    if command[:1] in ([], ["-h"], ["--help"]):
        print(__doc__)
        return 0 if command else 2
    with tempfile.TemporaryDirectory(prefix="lpd-talk-") as room, Talk([*command, "run"], room) as talk:
        fault = fault_of(talk)
    if fault:
        print(fault)
    return 1 if fault else 0


if __name__ == "__main__":
    sys.exit(main(sys.argv[1:]))
