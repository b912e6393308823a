#!/usr/bin/env python3
"""Talks with `lpd serve`: sends the commands of one session over a connection, and prints the replies.

    talk.py HOST:PORT [--timeout SECONDS] [--ca FILE] < SCRIPT

The script has the commands of docs/PROTOCOL.md without a session's number. Each is sent, a LOAD or a CHECK with its body, and
its whole reply is printed before the next one is sent. With --ca the connection is encrypted, and the certificate of the other
side has to be one that FILE vouches for. Connecting, and each reply, may take SECONDS (60).

Where a command is refused as unknown, a line on standard error says where the commands are described, and for a script with
numbers of sessions how these come out. On a terminal it begins with a line of the commands, and HELP lists all of them.

The status is 0 after BYE, and where the script ended and each command has its reply. It is 1 where there is no connection,
where the connection ended early, and where a reply did not come in time; a line on standard error says which. It is 141 where
nobody reads the replies any more, and 130 after an interrupt.
"""
from __future__ import annotations

import argparse
import os
import re
import socket
import ssl
import sys
import time
from types import TracebackType
from typing import Iterable, Iterator, Optional, Type

SECONDS = 60.0
# A longer line is answered, whatever it says, and has no body.
LONGEST = 16384
PIECE = 2**16
LOADS = ([b"LOAD", b"FREE"], [b"LOAD", b"FIXED"])
BANNER = """talk.py: one session on this connection. LOAD FREE, and then the lines of a model until ENDATA; SOLVE; CERT; HOW; SETRHS ROW VALUE;
talk.py: WRITE FREE; QUIT, without a session's number. HELP lists all commands; docs/PROTOCOL.md has their replies."""
HELP = """LOAD FREE, LOAD FIXED   loads the model whose text follows, up to and with ENDATA
SOLVE                   solves it, within BUDGET n; WIDE does in numbers of any width, and writes the certificate
CERT, HOW               the certificate of the last answer, and how it was found
CHECK                   checks a certificate that follows, up to and with END
WRITE FREE, WRITE FIXED the text of the model
SETRHS row value, SETCOST column value, SETCOEF row column value, SETRANGE row value|NONE
SETBOUND column lower upper, SENSE MIN|MAX
ADDROW name L|G|E|N rhs [range], ADDCOL name cost [row value ..], DELROW name, DELCOL name
BUDGET n, QUIT"""
UNKNOWN = "talk.py: docs/PROTOCOL.md describes the commands, of which this is none"
NUMBERED = "talk.py: a connection has one session, and its commands have no number: sed 's/^[0-9][0-9]* //' takes it off the script's lines"
FOLLOWED = re.compile(rb"(?:TEXT|CERT|WIDE) (\d{1,9})\n")


class Ended(Exception):
    """There is no connection any more, or no reply in time."""


class Link:
    """One session. As a context manager it closes the connection."""

    def __init__(self, host: str, port: int, seconds: float = SECONDS, ca: Optional[str] = None, source: str = "") -> None:
        self.seconds, self.end, self.rest = seconds, time.monotonic() + seconds, b""
        try:
            self.socket = socket.create_connection((host, port), seconds, (source, 0) if source else None)
            self.socket.setsockopt(socket.IPPROTO_TCP, socket.TCP_NODELAY, 1)
            if ca:
                self.socket = ssl.create_default_context(cafile=ca).wrap_socket(self.socket, server_hostname=host)
        except OSError as error:
            raise Ended(f"there is no connection to {host}:{port}: {error}") from None

    def __enter__(self) -> Link:
        return self

    def __exit__(self, kind: Optional[Type[BaseException]], error: Optional[BaseException], trace: Optional[TracebackType]) -> None:
        self.socket.close()

    def send(self, command: bytes) -> None:
        """Sends the lines of one command, whose reply may take some seconds from now on."""
        self.end = time.monotonic() + self.seconds
        try:
            self.socket.settimeout(self.seconds)
            self.socket.sendall(command)
        except OSError as error:
            raise Ended(f"the connection ended before a command was sent: {error}") from None

    def close_asks(self) -> None:
        """Says that no more commands come."""
        try:
            self.socket.shutdown(socket.SHUT_WR)
        except OSError:
            pass  # the link has ended already, as the next read will find

    def line(self) -> bytes:
        """The next line that comes, or what came of it before the connection ended."""
        while b"\n" not in self.rest:
            try:
                self.socket.settimeout(max(0.001, self.end - time.monotonic()))
                piece = self.socket.recv(PIECE)
            except socket.timeout:
                raise Ended(f"no whole reply came within {self.seconds:g} seconds") from None
            except OSError as error:
                raise Ended(f"the connection ended before the reply came: {error}") from None
            if not piece:
                line, self.rest = self.rest, b""
                return line
            self.rest += piece
        line, _, self.rest = self.rest.partition(b"\n")
        return line + b"\n"

    def reply(self) -> bytes:
        """The next reply: its line, and those that follow it."""
        lines = [self.whole_line()]
        followed = FOLLOWED.fullmatch(lines[0])
        lines += (self.whole_line() for _ in range(int(followed[1]) if followed else 0))
        return b"".join(lines)

    def whole_line(self) -> bytes:
        line = self.line()
        if not line.endswith(b"\n"):
            raise Ended("the connection ended before the reply came")
        return line

    def ask(self, command: bytes) -> bytes:
        """The reply to a command."""
        self.send(command)
        return self.reply()


def words_of(line: bytes) -> list[bytes]:
    return re.split(rb"[ \t]+", re.sub(rb"\r?\n?\Z", b"", line).strip(b" \t"))


def ends_body(words: list[bytes], line: bytes) -> bool:
    """Whether the line is the last one of the body of a command with these words."""
    if words == [b"CHECK"]:
        return words_of(line) == [b"END"]
    return line[:1] not in b" \t" and words_of(line)[0] == b"ENDATA"


def is_long(line: bytes) -> bool:
    return len(line.rstrip(b"\r\n")) > LONGEST


def body(words: list[bytes], lines: Iterator[bytes]) -> Iterator[bytes]:
    """The lines of the body that belongs to a command with these words. An empty line stands for an end that is missing."""
    if words not in LOADS and words != [b"CHECK"]:
        return
    for line in lines:
        yield line
        if not is_long(line) and ends_body(words, line):
            return
    yield b""


def helped(lines: Iterable[bytes]) -> Iterator[bytes]:
    """The lines of a terminal, but for those that ask for help, which they get on standard error."""
    for line in lines:
        if line.strip().upper() == b"HELP":
            print(HELP, file=sys.stderr)
        else:
            yield line


def commands(lines: Iterable[bytes]) -> Iterator[tuple[bytes, bool]]:
    """Each command of a script that has a reply, with its body, and whether it is whole. Lines that are skipped stay out."""
    lines = iter(lines)
    for line in lines:
        words = words_of(line)
        if is_long(line):
            yield line, line.endswith(b"\n")
        elif words != [b""] and not line.startswith(b"#"):
            parts = [line, *body(words, lines)]
            yield b"".join(parts), parts[-1].endswith(b"\n")


def hint_of(command: bytes, reply: bytes) -> str:
    """What helps where a command is refused as unknown."""
    if not reply.startswith(b"ERR 1 "):
        return ""
    return NUMBERED if words_of(command.split(b"\n")[0])[0].isdigit() else UNKNOWN


def talk(link: Link, script: Iterable[bytes]) -> None:
    told = ""
    for command, is_whole in commands(script):
        link.send(command)
        if not is_whole:
            link.close_asks()
        reply = link.reply()
        sys.stdout.buffer.write(reply)
        sys.stdout.buffer.flush()
        hint = hint_of(command, reply)
        if hint and hint != told:
            told = hint
            print(hint, file=sys.stderr)
        if reply == b"BYE\n":
            return
    link.close_asks()
    if link.line():
        raise Ended("more came than the replies to the commands")


def address_of(word: str) -> tuple[str, int]:
    host, _, port = word.rpartition(":")
    if not host or not port.isdecimal():
        raise argparse.ArgumentTypeError(f"{word} is no HOST:PORT")
    return host.strip("[]"), int(port)


def main() -> int:
    options = argparse.ArgumentParser(description=__doc__, formatter_class=argparse.RawDescriptionHelpFormatter)
    options.add_argument("address", metavar="HOST:PORT", type=address_of)
    options.add_argument("--timeout", metavar="SECONDS", type=float, default=SECONDS)
    options.add_argument("--ca", metavar="FILE")
    given = options.parse_args()
    host, port = given.address
    if sys.stdin.isatty():
        print(BANNER, file=sys.stderr)
    try:
        with Link(host, port, given.timeout, given.ca) as link:
            talk(link, helped(sys.stdin.buffer) if sys.stdin.isatty() else sys.stdin.buffer)
    except Ended as why:
        print(f"talk.py: {why}", file=sys.stderr)
        return 1
    except BrokenPipeError:
        # nothing more is written, not even at the end
        os.dup2(os.open(os.devnull, os.O_WRONLY), sys.stdout.fileno())
        return 141
    except KeyboardInterrupt:
        return 130
    return 0


if __name__ == "__main__":
    sys.exit(main())
