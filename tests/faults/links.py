#!/usr/bin/env python3
"""Has lpd serve one connection while one of the server's requests for memory is refused, each in turn, and checks how both end.

    links.py PROGRAM

- The word of the connection is MEMORY, and its client has got the first of the replies, each whole as without a fault, and no
  other.
- Or one command has the reply MEMORY, the connection goes on, and its word is DONE.
- Or the server has no memory for itself: it says so, with status 5, and the client has got the first of the replies.
- Or nothing changes.

Where the server ends with status 0, the line on standard error has the word that standard output has. It builds refuse_memory.c
beside it, as sweep.py does. It prints each fault after which something is otherwise, and the counts last; the status is 0 where
there is none, and connections have ended by MEMORY.
"""
from __future__ import annotations

import os
import sys
import tempfile
from collections import Counter
from concurrent.futures import ThreadPoolExecutor
from pathlib import Path
from typing import List, NamedTuple

sys.path.insert(0, str(Path(__file__).resolve().parent.parent))

from check_serve import LINK, LISTENING, LOAD, SECONDS, Server, Wrong  # noqa: E402
from sweep import Program  # noqa: E402
from talk import Ended  # noqa: E402

COMMANDS = [LOAD, b"SOLVE\n", b"CERT\n", b"HOW\n", b"SETRHS R1 4\n", b"SOLVE\n", b"WRITE FREE\n", b"QUIT\n"]
REPLY = b"MEMORY\n"


class Seen(NamedTuple):
    """The server's status, the words of its links by standard output and by standard error, what else it said, and the replies."""

    status: int
    words: List[str]
    said: List[str]
    told: str
    replies: List[bytes]


def served(command: List[str]) -> Seen:
    replies: List[bytes] = []
    with Server(command, 1, 1) as server:
        try:
            with server.link() as link:
                replies += map(link.ask, COMMANDS)
        except Ended:
            pass  # the connection ended before a reply: its word says why
        status = server.program.wait(SECONDS)
        server.output.seek(0)
        words = [line.split()[-1] for line in server.output.read().decode("latin-1").splitlines()]
        told = LINK.sub("", LISTENING.sub("", server.said()))
        return Seen(status, words, [link.word for link in server.links()], told, replies)


def requests_of(command: List[str]) -> int:
    """How many requests for memory a server makes."""
    return int(served(["env", "FAULT_COUNT_TO=2", *command]).told)


class Links:
    """A server of one link, and what its client gets without a fault."""

    def __init__(self, program: Program) -> None:
        self.command = [f"LD_PRELOAD={program.memory}", program.path]
        seen = served(["env", *self.command])
        self.replies = seen.replies
        if seen != (0, ["DONE"], ["DONE"], "", self.replies) or len(self.replies) != len(COMMANDS):
            raise Wrong(f"a link without a fault: {seen}")

    def outcome(self, number: int) -> str:
        """What a refused request for memory does."""
        try:
            seen = served(["env", f"FAULT_MEMORY_AT={number}", *self.command])
        except Wrong as why:
            if "(status 5)" in str(why):
                return "servers that did not listen"
            raise
        first = seen.replies == self.replies[: len(seen.replies)]
        if seen.status == 5 and "(status 5)" in seen.told and first:
            return "servers that ended"
        if seen[:4] == (0, ["MEMORY"], ["MEMORY"], "") and first:
            return "links that ended"
        if seen[:4] == (0, ["DONE"], ["DONE"], "") and len(seen.replies) == len(COMMANDS) and seen.replies.count(REPLY) == 1:
            return "replies"
        if seen == (0, ["DONE"], ["DONE"], "", self.replies):
            return "without a change"
        raise Wrong(str(seen))


def main(words: List[str]) -> int:
    if len(words) != 1 or words[0].startswith("-"):
        sys.exit(__doc__)
    counts: Counter[str] = Counter()
    with tempfile.TemporaryDirectory(prefix="lpd-faults-") as room, ThreadPoolExecutor(os.cpu_count()) as pool:
        links = Links(Program(os.path.abspath(words[0]), room))
        last = requests_of(links.command)

        def told(number: int) -> str:
            try:
                return links.outcome(number)
            except Wrong as why:
                print(f"request {number} for memory refused: {why}")
                return "wrong"

        counts.update(pool.map(told, range(1, last + 1)))
    print(f"{last} servers without one request for memory: " + ", ".join(f"{count} {what}" for what, count in counts.items()))
    return 1 if counts["wrong"] or not counts["links that ended"] else 0


if __name__ == "__main__":
    if {"--help", "-h"} & {*sys.argv[1:]}:
        print(__doc__.strip())
        sys.exit(0)
    sys.exit(main(sys.argv[1:]))
