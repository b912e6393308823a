#!/usr/bin/env python3
"""Runs a server of lpd that SIGTERM ends in order, and that never waits for who reads its log.

    orderly.py [--seconds S] PROGRAM serve ADDRESS [OPTION ..]

At SIGTERM, or SIGINT, new connections are refused at once. Those that are open go on to their end, for S seconds (30) at most; then
each ends at its next reply. The server writes how each connection ended on standard output, and the status is 0. A client that does
not read its replies is broken off S seconds later, and a server that still has not ended S seconds after that is killed: the status
is 137 then. Without a signal the status is the server's own.

What the server says on standard error goes on as it comes. Where that takes no more, as a pipe that nobody reads, lines are dropped,
and the next one says how many. The server hears no signal itself: this takes its sockets by pidfd_getfd of Linux 5.6, and shuts them
down. Where that is refused it makes connections that say QUIT alone, as stop.py does, and new ones are served meanwhile.
"""
from __future__ import annotations

import argparse
import contextlib
import errno
import os
import select
import signal
import socket
import stat
import subprocess
import sys
import threading
import time
from pathlib import Path
from typing import Iterator, List

PIDFD_GETFD = 438  # the number of the call, which all machines have
PR_SET_PDEATHSIG = 1
PAUSE = 0.05
CANNOT_ACCEPT, KILLED = 7, 137
# What a server says where it listens, and the end of what it says where it could take no more connections.
LISTENING, LAST = b"lpd: listening on ", b"(status 7)\n"


def say(line: bytes) -> None:
    """Writes a line on standard error where that takes it, and else raises OSError. A pipe that takes any takes 4,096 bytes."""
    _, takes, _ = select.select([], [2], [], 0)
    if not takes:
        raise BlockingIOError
    os.write(2, line)


def sockets_of(pid: int) -> Iterator[socket.socket]:
    """The sockets of a process, which are shared with it."""
    import ctypes  # here, since not each system lets it be loaded

    call = ctypes.CDLL(None, use_errno=True).syscall
    process = os.pidfd_open(pid)
    try:
        for name in os.listdir(f"/proc/{pid}/fd"):
            taken = call(PIDFD_GETFD, process, int(name), 0)
            if taken < 0 and ctypes.get_errno() != errno.EBADF:
                raise OSError(ctypes.get_errno(), os.strerror(ctypes.get_errno()))
            if taken >= 0 and stat.S_ISSOCK(os.fstat(taken).st_mode):
                with socket.socket(fileno=taken) as found:
                    yield found
            elif taken >= 0:
                os.close(taken)
    finally:
        os.close(process)


def is_listening(found: socket.socket) -> bool:
    return found.getsockopt(socket.SOL_SOCKET, socket.SO_ACCEPTCONN) != 0


def shut(pid: int, how: int, listening: bool) -> int:
    """Shuts down the sockets that listen, or those of connections, and gives how many."""
    count = 0
    for found in sockets_of(pid):
        if is_listening(found) == listening:
            try:
                found.shutdown(how)
                count += 1
            except OSError:
                pass  # its client has gone
    return count


class Server:
    """The program, and what a signal has asked for."""

    def __init__(self, words: List[str], seconds: float) -> None:
        self.address, self.seconds, self.is_asked = b"", seconds, False
        self.process = subprocess.Popen(words, stderr=subprocess.PIPE, start_new_session=True, preexec_fn=ends_with_this)
        self.reader = threading.Thread(target=self.pass_on, daemon=True)
        self.reader.start()

    def pass_on(self) -> None:
        """What the server says, line by line, and how many lines were dropped."""
        dropped = 0
        for line in self.process.stderr or ():
            if line.startswith(LISTENING):
                self.address = line[len(LISTENING) :].strip()
            if self.is_asked and line.endswith(LAST):
                continue  # it took no more connections, as it was asked
            try:
                if dropped:
                    say(f"orderly.py: lines dropped, since nobody read standard error: {dropped}\n".encode())
                    dropped = 0
                say(line)
            except OSError:
                dropped += 1

    def ask(self, *_: object) -> None:
        self.is_asked = True

    def has_ended(self, seconds: float) -> bool:
        end = time.monotonic() + seconds
        while self.process.poll() is None and time.monotonic() < end:
            time.sleep(PAUSE)
        return self.process.poll() is not None

    def end(self) -> int:
        """Ends it in order, and gives the status."""
        pid = self.process.pid
        try:
            shut(pid, socket.SHUT_RD, listening=True)
            if not self.has_ended(self.seconds):
                shut(pid, socket.SHUT_RD, listening=False)
            if not self.has_ended(self.seconds):
                shut(pid, socket.SHUT_RDWR, listening=False)
        except (OSError, ImportError, AttributeError, MemoryError) as why:
            if self.process.poll() is None:
                self.end_by_quits(why)
        return self.status() if self.has_ended(self.seconds) else self.kill()

    def end_by_quits(self, why: Exception) -> None:
        """Without its sockets: connections that say QUIT use up those that it serves."""
        with contextlib.suppress(OSError):
            say(f"orderly.py: the server's sockets cannot be had ({why}): new connections are served until it has ended\n".encode())
        stop = Path(__file__).resolve().with_name("stop.py")
        subprocess.run([sys.executable, str(stop), "--seconds", str(self.seconds), self.address.decode()], stderr=subprocess.DEVNULL)

    def kill(self) -> int:
        self.process.kill()
        self.process.wait()
        return KILLED

    def status(self) -> int:
        """That of the server. That one which was asked to end took no more connections is no fault."""
        found = self.process.wait()
        self.reader.join(1)
        return 0 if self.is_asked and found == CANNOT_ACCEPT else found if found >= 0 else 128 - found

    def run(self) -> int:
        while self.process.poll() is None and not self.is_asked:
            time.sleep(PAUSE)
        return self.end() if self.is_asked else self.status()


def ends_with_this() -> None:
    """Has the server get SIGTERM where this is killed, so that none is left that nobody ends."""
    with contextlib.suppress(Exception):
        import ctypes

        ctypes.CDLL(None).prctl(PR_SET_PDEATHSIG, signal.SIGTERM)


def main() -> int:
    parser = argparse.ArgumentParser(description=__doc__, formatter_class=argparse.RawDescriptionHelpFormatter)
    parser.add_argument("--seconds", metavar="S", type=float, default=30.0)
    parser.add_argument("program", metavar="PROGRAM serve ADDRESS ..", nargs=argparse.REMAINDER)
    words = parser.parse_args()
    if "serve" not in words.program[1:-1]:
        parser.error("PROGRAM serve ADDRESS is missing")
    server = Server(words.program, words.seconds)
    for number in (signal.SIGTERM, signal.SIGINT):
        signal.signal(number, server.ask)
    return server.run()


if __name__ == "__main__":
    sys.exit(main())
