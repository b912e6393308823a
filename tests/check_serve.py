#!/usr/bin/env python3
"""Has lpd serve connections on 127.0.0.1, and checks what good and bad peers see of it.

    check_serve.py PROGRAM [WORD ..]

It starts 'PROGRAM WORD .. serve' some times, each time for as many connections as it makes itself, and checks that

- two workers serve connections at once, which wait for each other's replies; each reply comes before the next command is
  sent; and what one connection has published another one finds;
- a bad peer (one that closes within a line, a body or a reply, sends too much or no text, never reads, or resets) ends its
  own connection alone: another connection is served meanwhile, a later one finds the same basis, and the server goes on;
- a client that sends more behind its QUIT, or too much, gets the replies that it has not read, and no reset;
- at its end the server writes how each connection ended, and another one can listen at the same address at once;
- a server that examples/serve/stop.py has end serves the connection that is open to its end;
- one that examples/serve/orderly.py runs ends in order at SIGTERM, whether or not that can take its sockets;
- with orderly.py and without, it serves on where nobody reads its lines, and a later line says how many were dropped;
- as each connection ends, it says so in a line on standard error, with the same word, the connection's peer and what it
  took;
- a server whose standard error takes nothing serves as another does;
- where it cannot listen or accept, where its words are no command line, and where its output cannot be written, its status
  says so, and standard error why it cannot listen.

It prints what is wrong, and its status is 1 where something is. It takes some seconds, and ten minutes at most.
"""
from __future__ import annotations

import fcntl
import os
import resource
import re
import select
import signal
import socket
import struct
import subprocess
import sys
import tempfile
import time
from pathlib import Path
from types import TracebackType
from typing import Callable, Iterator, List, NamedTuple, NoReturn, Optional, Set, Tuple, Type

sys.path.insert(0, str(Path(__file__).resolve().parent.parent / "bin"))

from check_talk import MODEL, SESSION  # noqa: E402
from talk import Ended, Link  # noqa: E402

HOST = "127.0.0.1"
STOP = Path(__file__).resolve().parent.parent / "examples" / "serve" / "stop.py"
ORDERLY = STOP.with_name("orderly.py")
# Has a script of Python run where there is no call for the sockets of another process.
WITHOUT_SOCKETS = "import os, runpy, sys; del os.pidfd_open; del sys.argv[0]; runpy.run_path(sys.argv[0], run_name='__main__')"
# The least bytes that a pipe holds, and how many lines that is fewer than.
F_SETPIPE_SZ, SMALLEST, MANY = 1031, 4096, 60
# How many seconds a reply, a line of the server and its end may take, and all of the checks.
SECONDS, ALL_SECONDS = 120.0, 600
# How long a server that takes nothing more is watched.
STILL = 0.3
# The most bytes of one link that are read.
MOST = 2**26
# How many bytes come behind those, or behind QUIT.
BEHIND = 2**20
# What is said of a word that can be no address.
NO_PLACE = "it is no host, colon and port"
LISTENING = re.compile(rf"lpd: listening on {re.escape(HOST)}:(\d+)\n")
# What a server says when a link has ended.
LINK = re.compile(
    r"time=\d{4}-\d\d-\d\dT\d\d:\d\d:\d\d\.\d{3}Z worker=(\d+) link=(\d+) "
    rf"peer={re.escape(HOST)}:(\d+) word=([A-Z]+) commands=(\d+) pivots=(\d+) in=(\d+) out=(\d+) seconds=(\d+\.\d{{3}})\n"
)
LOAD = b"LOAD FREE\n" + MODEL.encode()
LOADED, SOLVED = b"LOADED 1 1\n", b"OPTIMAL 6\n"
TEXT = b"TEXT 10\nNAME talk\nROWS\n N cost\n G R1\nCOLUMNS\n x cost 2\n x R1 1\nRHS\n RHS R1 3\nENDATA\n"
COLD, WARM = b"HOW COLD PIVOTS 1 PUBLISHED 0\n", b"HOW BASIS 0 PIVOTS 0 SAME\n"
# A model of some kilobytes, so that the replies to WRITE fill what a link holds.
COLUMNS = b"".join(b" column%d cost %d\n" % (i, i) for i in range(1, 501))
WIDE, WIDE_LOADED = b"LOAD FREE\nROWS\n N cost\nCOLUMNS\n" + COLUMNS + b"ENDATA\n", b"LOADED 0 500\n"
Peer = Callable[[Link], Iterator[None]]


class Wrong(Exception):
    """What is wrong."""


class Said(NamedTuple):
    """What a server says of a link that has ended."""

    worker: int
    link: int
    port: int
    word: str
    commands: int
    pivots: int
    read: int
    written: int
    seconds: float


class Server:
    """A program that serves. As a context manager it ends the program."""

    def __init__(self, command: List[str], workers: int, each: int, port: int = 0, output: Optional[str] = None) -> None:
        self.output = open(output, "wb") if output else tempfile.TemporaryFile()
        self.errors = tempfile.TemporaryFile()
        words = [*command, "serve", f"{HOST}:{port}", "--workers", str(workers), "--each", str(each)]
        self.program = subprocess.Popen(words, bufsize=0, stdout=self.output, stderr=self.errors)
        try:
            self.port = self.port_said()
        except Wrong:
            self.__exit__(None, None, None)
            raise

    def port_said(self) -> int:
        end, said = time.monotonic() + SECONDS, ""
        while "\n" not in said and self.program.poll() is None and time.monotonic() < end:
            time.sleep(0.01)
            said = self.said()
        said = self.said()  # one that has ended may have written since
        found = LISTENING.match(said)
        if not found:
            raise Wrong(f"the server says {said!r}, and not where it listens")
        return int(found[1])

    def said(self) -> str:
        """What it has written on standard error so far."""
        return os.pread(self.errors.fileno(), os.fstat(self.errors.fileno()).st_size, 0).decode("latin-1")

    def links(self) -> List[Said]:
        """What it has said of its links, in the order of their ends."""
        lines = LINK.findall(self.said())
        return [
            Said(int(w), int(n), int(p), word, int(c), int(v), int(i), int(o), float(s))
            for w, n, p, word, c, v, i, o, s in lines
        ]

    def __enter__(self) -> Server:
        return self

    def __exit__(self, kind: Optional[Type[BaseException]], error: Optional[BaseException], trace: Optional[TracebackType]) -> None:
        self.output.close()
        self.errors.close()
        if self.program.poll() is None:
            self.program.kill()
            self.program.wait()

    def link(self) -> Link:
        return Link(HOST, self.port, SECONDS)

    def end(self) -> Tuple[int, str, str]:
        """Its status, what it wrote, and what else it said than where it listens and how links ended, when it has ended."""
        try:
            self.program.wait(SECONDS)
        except subprocess.TimeoutExpired:
            raise Wrong("the server does not end after its links") from None
        written = b""
        if self.output.readable():
            self.output.seek(0)
            written = self.output.read()
        lines = written.decode("latin-1")
        if self.output.readable():
            expect("the words that are said of links", "".join(f"{s.worker} {s.link} {s.word}\n" for s in sorted(self.links())), lines)
        return self.program.returncode, lines, LINK.sub("", LISTENING.sub("", self.said()))


def expect(what: str, got: object, *wanted: object) -> None:
    if got not in wanted:
        raise Wrong(f"{what}: expected {' or '.join(map(shown, wanted))}, got {shown(got)}")


def shown(what: object) -> str:
    text = repr(what)
    return text if len(text) <= 200 else text[:200] + " .."


def ask(link: Link, *pairs: Tuple[bytes, bytes]) -> None:
    """Sends each command when the reply to the one before has come."""
    for command, reply in pairs:
        expect(command.split(b"\n", 1)[0].decode("latin-1")[:40], link.ask(command), reply)


def port_of(link: Link) -> int:
    return int(link.socket.getsockname()[1])


def pivots_of(*pairs: Tuple[bytes, bytes]) -> int:
    """The pivots that HOW tells of after each solve."""
    solves = [i for i, (command, _) in enumerate(pairs) if command == b"SOLVE\n"]
    return sum(int(re.findall(rb"PIVOTS (\d+)", pairs[i + 1][1])[0]) for i in solves)


def is_said(server: Server, port: int, *pairs: Tuple[bytes, bytes]) -> None:
    """The server has said of the link from this port that it had these commands and replies."""
    said = [(s.word, s.commands, s.read, s.written) for s in server.links() if s.port == port]
    wanted = ("DONE", len(pairs), sum(len(command) for command, _ in pairs), sum(len(reply) for _, reply in pairs))
    expect("what is said of a link", said, [wanted])


def are_said(server: Server, port: int, pivots: int) -> None:
    """The server has said of the link from this port that its solves took so many pivots."""
    expect("the pivots of a link", [s.pivots for s in server.links() if s.port == port], [pivots])


def ends(link: Link) -> None:
    """No more comes."""
    expect("the end of a link", link.line(), b"")


# ---- good peers


def check_workers(command: List[str]) -> None:
    """The second link is loaded before the first is solved, and solved after that."""
    load, cold, bye = (LOAD, LOADED), [(b"SOLVE\n", SOLVED), (b"HOW\n", COLD)], (b"QUIT\n", b"BYE\n")
    warm = [(b"SOLVE\n", SOLVED), (b"HOW\n", WARM)]
    with Server(command, 2, 1) as server:
        with server.link() as one, server.link() as other:
            ports = port_of(one), port_of(other)
            ask(one, load)
            ask(other, load)
            ask(one, *cold)
            ask(other, *warm, bye)
            ends(other)
            ask(one, *warm, (b"WRITE FREE\n", TEXT), bye)
            ends(one)
        expect("the server's end", server.end(), (0, "1 1 DONE\n2 1 DONE\n", ""))
        is_said(server, ports[0], load, *cold, *warm, (b"WRITE FREE\n", TEXT), bye)
        is_said(server, ports[1], load, *warm, bye)
        are_said(server, ports[0], pivots_of(*cold, *warm))
        are_said(server, ports[1], pivots_of(*warm))


def check_session(command: List[str]) -> None:
    """The session that a program is also asked over FIFOs. Then another server listens where this one did."""
    port, pairs = 0, [(text[2:].encode(), reply[2:].encode()) for text, reply in SESSION]
    for _ in range(2):
        with Server(command, 1, 1, port) as server:
            port = server.port
            with server.link() as link:
                from_port = port_of(link)
                ask(link, *pairs)
                ends(link)
            expect("the server's end", server.end(), (0, "1 1 DONE\n", ""))
            is_said(server, from_port, *pairs)


# ---- bad peers: each yields where another link has to be served


def says_nothing(link: Link) -> Iterator[None]:
    yield


def ends_in_a_line(link: Link) -> Iterator[None]:
    ask(link, (LOAD, LOADED))
    link.send(b"SOLVE")
    yield
    link.close_asks()
    expect("the reply to a line without an end", link.reply(), SOLVED)
    ends(link)


def closes_in_a_line(link: Link) -> Iterator[None]:
    ask(link, (LOAD, LOADED))
    link.send(b"SOLVE")
    yield


def closes_in_a_text(link: Link) -> Iterator[None]:
    link.send(LOAD[: len(LOAD) // 2])
    yield


def closes_in_a_certificate(link: Link) -> Iterator[None]:
    ask(link, (LOAD, LOADED))
    link.send(b"CHECK\nOPTIMAL\nx x 3\n")
    yield


def sends_too_much(link: Link) -> Iterator[None]:
    link.send(b"x" * MOST)
    yield
    link.send(b"x")
    ends(link)


def sends_too_much_at_last(link: Link) -> Iterator[None]:
    """It gets the reply that it has not read, though it sends more than the server reads."""
    ask(link, (LOAD, LOADED))
    link.send(b"SOLVE\n" + b"x" * (MOST - len(LOAD) - len(b"SOLVE\n")))
    yield
    link.send(b"x" * BEHIND)
    expect("the reply before too much", link.reply(), SOLVED)
    ends(link)


def asks_on_behind_its_quit(link: Link) -> Iterator[None]:
    """It gets all its replies, of which it reads none before it has sent more than the server reads."""
    link.send(LOAD + b"SOLVE\nQUIT\n" + b"SOLVE\n" * (BEHIND // 6))
    yield
    expect("the last replies", [link.reply() for _ in range(3)], [LOADED, SOLVED, b"BYE\n"])
    ends(link)


def sends_no_text(link: Link) -> Iterator[None]:
    wrong = b"ERR 1 WORD\n"
    ask(link, (bytes(range(11, 256)) + b"\n", wrong), (b"\0\n", wrong), (b"\xff" * 20000 + b"\n", b"ERR 11 LONG\n"))
    yield
    ask(link, (b"GET / HTTP/1.1\n", wrong), (b"1 SOLVE\n", wrong), (b"SOLVE\xa0\n", wrong), (b"SOLVE\n", b"ERR 4 NOMODEL\n"))
    link.close_asks()
    ends(link)


def never_reads(link: Link) -> Iterator[None]:
    """It asks until the server, which waits to write a reply, takes nothing more."""
    ask(link, (WIDE, WIDE_LOADED))
    link.socket.setsockopt(socket.SOL_SOCKET, socket.SO_RCVBUF, 1)
    link.socket.setblocking(False)
    while select.select([], [link.socket], [], STILL)[1]:
        link.socket.send(b"WRITE FREE\n" * 4096)
    yield
    reset(link)


def closes_in_a_reply(link: Link) -> Iterator[None]:
    """The replies are more than a link holds, and one of them has begun to come."""
    ask(link, (WIDE, WIDE_LOADED))
    link.socket.setsockopt(socket.SOL_SOCKET, socket.SO_RCVBUF, 1)
    link.send(b"WRITE FREE\n" * 4096)
    expect("the first bytes of a reply", link.socket.recv(4), b"TEXT")
    yield


def resets(link: Link) -> Iterator[None]:
    yield
    reset(link)


def reset(link: Link) -> None:
    link.socket.setsockopt(socket.SOL_SOCKET, socket.SO_LINGER, struct.pack("ii", 1, 0))
    link.socket.close()


# Bad peers, and the words that may tell how their links ended.
PEERS: List[Tuple[Peer, Set[str]]] = [
    (says_nothing, {"DONE"}),
    (ends_in_a_line, {"DONE"}),
    (closes_in_a_line, {"DONE"}),
    (closes_in_a_text, {"CUT"}),
    (closes_in_a_certificate, {"CUT"}),
    (sends_too_much, {"OVER"}),
    (sends_too_much_at_last, {"OVER"}),
    (asks_on_behind_its_quit, {"DONE"}),
    (sends_no_text, {"DONE"}),
    (never_reads, {"READ", "WRITE"}),
    (closes_in_a_reply, {"READ", "WRITE"}),
    (resets, {"READ"}),
]


def check_peers(command: List[str]) -> None:
    """One worker serves a good link from the first peer to the last, so the other one serves each peer and a link after it."""
    each = 2 * len(PEERS)
    with Server(command, 2, each) as server:
        with server.link() as good:
            ask(good, (LOAD, LOADED), (b"SOLVE\n", SOLVED), (b"HOW\n", COLD))
            for peer, _ in PEERS:
                try:
                    meet(server, peer, good)
                except (Wrong, Ended, OSError) as error:
                    raise Wrong(f"a peer that {peer.__name__.replace('_', ' ')}: {error}") from None
            ask(good, (b"QUIT\n", b"BYE\n"))
        for _ in range(each - 1):
            with server.link() as link:
                ask(link, (b"QUIT\n", b"BYE\n"))
        status, lines, told = server.end()
        expect("the status, and what is told", (status, told), (0, ""))
        check_lines(lines, each)


def meet(server: Server, peer: Peer, good: Link) -> None:
    """The good link is served beside the peer, and one after it."""
    with server.link() as link:
        for _ in peer(link):
            ask(good, (b"SETRHS R1 4\n", b"OK\n"), (b"SOLVE\n", b"OPTIMAL 8\n"), (b"SETRHS R1 3\n", b"OK\n"))
    with server.link() as later:
        ask(later, (LOAD, LOADED), (b"SOLVE\n", SOLVED), (b"HOW\n", WARM), (b"QUIT\n", b"BYE\n"))
    ask(good, (b"SOLVE\n", SOLVED), (b"HOW\n", WARM))


def check_lines(lines: str, each: int) -> None:
    """The lines at the end: of one worker, which served good links alone, and of the one that also served the peers."""
    words = [line.split(" ") for line in lines.splitlines()]
    expect("the links of the lines", [word[:-1] for word in words], [[w, str(n)] for w in "12" for n in range(1, each + 1)])
    parts = [[word[-1] for word in words[:each]], [word[-1] for word in words[each:]]]
    good = parts[0] if set(parts[0]) == {"DONE"} else parts[1]
    other = parts[1] if good is parts[0] else parts[0]
    expect("the words of a worker with good links", set(good), {"DONE"})
    for (peer, allowed), word, after in zip(PEERS, other[::2], other[1::2]):
        expect(f"the word of a peer that {peer.__name__.replace('_', ' ')}", word, *sorted(allowed))
        expect("the word of a link after that", after, "DONE")


# ---- servers that end otherwise


def check_accept(command: List[str]) -> None:
    """A worker that can open no more files cannot accept a second link."""
    with Server(command, 1, 2) as server:
        with server.link() as link:
            ask(link, (LOAD, LOADED))
            resource.prlimit(server.program.pid, resource.RLIMIT_NOFILE, (0, 0))
            ask(link, (b"QUIT\n", b"BYE\n"))
        status, lines, told = server.end()
    expect("the end of a server that cannot accept", (status, lines, told.count("(status 7)\n")), (7, "1 1 DONE\n", 1))


def check_stop(command: List[str]) -> None:
    """A server that examples/serve/stop.py has end serves the link that is open to its end, and says how all have ended."""
    each = 20
    with Server(command, 2, each) as server:
        with server.link() as link:
            ask(link, (LOAD, LOADED))
            stop = subprocess.Popen([sys.executable, str(STOP), f"{HOST}:{server.port}"])
            while len(server.links()) < each and stop.poll() is None:
                time.sleep(0.01)
            ask(link, (b"SOLVE\n", SOLVED), (b"QUIT\n", b"BYE\n"))
        expect("the status of stop.py", stop.wait(SECONDS), 0)
        status, lines, told = server.end()
    words = [line.split(" ")[-1] for line in lines.splitlines()]
    expect("the end of a server that is stopped", (status, told, words), (0, "", ["DONE"] * (2 * each)))


def check_orderly(command: List[str]) -> None:
    """At SIGTERM to orderly.py new links are refused, one that is open is served, and a silent one ended, with status 0 and the words
    of all. Without the server's sockets links are used up as by stop.py."""
    solves, bye = (b"SOLVE\n", SOLVED), (b"QUIT\n", b"BYE\n")
    with Server([sys.executable, str(ORDERLY), "--seconds", "3", *command], 2, 20) as server:
        with server.link() as busy, server.link() as silent:
            ask(busy, (LOAD, LOADED))
            ask(silent, (LOAD, LOADED))
            server.program.terminate()
            is_refused(server.port)
            ask(busy, solves, bye)
            ends(silent)
        expect("the end of a server that is ended in order", server.end(), (0, "1 1 DONE\n2 1 DONE\n", ""))
    with Server([sys.executable, "-c", WITHOUT_SOCKETS, str(ORDERLY), "--seconds", str(SECONDS), *command], 2, 3) as server:
        with server.link() as busy:
            ask(busy, (LOAD, LOADED))
            server.program.terminate()
            while len(server.links()) < 3 and server.program.poll() is None:
                time.sleep(0.01)
            ask(busy, solves, bye)
        status, lines, told = server.end()
    words = [line.split(" ")[-1] for line in lines.splitlines()]
    expect("its end by QUIT alone", (status, words, told.count("sockets cannot be had")), (0, ["DONE"] * 6, 1))


def is_refused(port: int) -> None:
    """No new link is taken, soon."""
    end = time.monotonic() + SECONDS
    while time.monotonic() < end:
        try:
            socket.create_connection((HOST, port), SECONDS).close()
        except OSError:
            return
        time.sleep(0.01)
    raise Wrong("the server takes links after SIGTERM")


def check_full_pipe(command: List[str]) -> None:
    """Nobody reads what the server says: lines are dropped, links are served, and a later line says how many were dropped."""
    drops_lines(command, rb" dropped=[1-9]\d*\n")
    drops_lines([sys.executable, str(ORDERLY), *command], rb" dropped=[1-9]\d*\n|\norderly.py: lines dropped, since nobody read standard error: \d+\n")


def drops_lines(command: List[str], told: bytes) -> None:
    """That a server, whose standard error nobody reads, says in such a line how many were dropped."""
    words = [*command, "serve", f"{HOST}:0", "--each", "1000"]
    with subprocess.Popen(words, stdout=subprocess.DEVNULL, stderr=subprocess.PIPE) as program:
        try:
            pipe = program.stderr.fileno() if program.stderr else -1
            fcntl.fcntl(pipe, F_SETPIPE_SZ, SMALLEST)
            said = b""
            while not said.endswith(b"\n"):
                said += os.read(pipe, 1)
            port = int(said.rpartition(b":")[2])
            for _ in range(MANY):
                with Link(HOST, port, SECONDS) as link:
                    ask(link, (b"QUIT\n", b"BYE\n"))
            said, end = os.read(pipe, MOST), time.monotonic() + SECONDS
            while not re.search(told, b"\n" + said) and time.monotonic() < end:
                with Link(HOST, port, SECONDS) as link:
                    ask(link, (b"QUIT\n", b"BYE\n"))
                ready, _, _ = select.select([pipe], [], [], 1)
                said += os.read(pipe, MOST) if ready else b""
            expect("lines that say how many were dropped", len(re.findall(told, b"\n" + said)), 1)
        finally:
            program.kill()


def check_output(command: List[str]) -> None:
    with Server(command, 1, 1, output="/dev/full") as server:
        with server.link() as link:
            ask(link, (b"QUIT\n", b"BYE\n"))
        status, _, told = server.end()
    expect("the end of a server that cannot write", (status, told.count("(status 4)\n")), (4, 1))


def check_errors(command: List[str]) -> None:
    """Nothing can be said on standard error, neither where it listens nor of its link."""
    with socket.create_server((HOST, 0)) as free:
        port = int(free.getsockname()[1])
    with open("/dev/full", "wb") as full, tempfile.TemporaryFile() as output:
        program = subprocess.Popen([*command, "serve", f"{HOST}:{port}"], stdout=output, stderr=full)
        try:
            with first_link(port) as link:
                ask(link, (b"QUIT\n", b"BYE\n"))
            status = program.wait(SECONDS)
        finally:
            program.kill()
            program.wait()
        output.seek(0)
        expect("the end of a server that can say nothing", (status, output.read()), (0, b"1 1 DONE\n"))


def first_link(port: int) -> Link:
    """A link to a server that has just been started."""
    end = time.monotonic() + SECONDS
    while True:
        try:
            return Link(HOST, port, SECONDS)
        except (Ended, OSError):
            if time.monotonic() > end:
                raise
            time.sleep(0.05)


def check_words(command: List[str]) -> None:
    """An address that another program has, what is none, and words that are no command line."""
    with socket.create_server((HOST, 0)) as taken:
        busy = f"{HOST}:{taken.getsockname()[1]}"
        reasons = {busy: "it is in use", "nowhere": NO_PLACE, f"{HOST}:65536": NO_PLACE}
        reasons["192.0.2.1:0"] = "this machine has no such address"
        for address, why in reasons.items():
            done = run(command, address)
            told = f"lpd: cannot listen on {address}: {why} (status 7)\n"
            expect(f"serve {address}", (done.returncode, done.stdout, done.stderr), (7, "", told))
    free = f"{HOST}:0"
    refused = [(), ("",), ("--workers", "2"), (free, "1"), (free, "--workers", "0"), (free, "--workers", "17")]
    refused += [(free, "--each", "0"), (free, "--each", "1001"), (free, "--places", "1025"), (free, "--form", "free")]
    for words in refused:
        expect(" ".join(["serve", *words]), run(command, *words).returncode, 2)


def run(command: List[str], *words: str) -> subprocess.CompletedProcess[str]:
    return subprocess.run([*command, "serve", *words], capture_output=True, text=True, timeout=SECONDS)


def out_of_time(*_: object) -> NoReturn:
    raise Wrong(f"the checks are not done within {ALL_SECONDS} seconds")


def main(command: List[str]) -> int:
    if command[:1] in ([], ["-h"], ["--help"]):
        print(__doc__)
        return 0 if command else 2
    signal.signal(signal.SIGALRM, out_of_time)
    signal.alarm(ALL_SECONDS)
    faults = 0
    stops = (check_stop, check_orderly, check_full_pipe)
    for check in (check_workers, check_session, check_peers, *stops, check_accept, check_output, check_errors, check_words):
        try:
            check(command)
        except (Wrong, Ended, OSError, subprocess.TimeoutExpired) as error:
            faults += 1
            print(f"{check.__name__}: {error}")
    return 1 if faults else 0


if __name__ == "__main__":
    sys.exit(main(sys.argv[1:]))
