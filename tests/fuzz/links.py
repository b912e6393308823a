#!/usr/bin/env python3
"""Has lpd serve many clients at once over TCP, half of them bad, and checks what the good ones get and that the server stays small.

    links.py PROGRAM [--seconds S] [--clients N] [--every S] [--each C] [--seed WORD] [--stay]

Round after round N clients (1,000) connect at once to 'PROGRAM serve' with 16 workers, until S seconds (30) are over; rounds
begin at least --every seconds (0) after each other. Each worker serves C connections (1,000); when a server has served all of its
connections, the next one is started.

With --stay the N clients are there all the time, and not in rounds, before one server: a client that ends comes again at once.
Its connections are spread over the S seconds: a good client pauses between its commands, of which it has more, or behind the
first of them, and a bad one stays as long in the midst of what it does.

- Good clients ask a session of fuzz.py's makers, command by command, or all at once. Some send more behind their QUIT. Their
  replies are those of 'PROGRAM run' to the same session alone, but for the words of HOW, the lines of CERT, and answers in place
  of PAST or SPENT; each answer is accepted by the checker in Python. Then the connection ends, without a reset, with DONE.
- Bad ones are silent, are cut off, flood the server, send more than 2^26 bytes, reset their connection in the midst of a reply,
  send a byte at a time, speak HTTP or TLS, or send bytes at random. Their connections end by any word but MEMORY.
- At the end the server has as many descriptors as at the start, never more than one for each worker besides, and hardly more
  memory than in the middle. (At first each worker's share grows to what the largest sessions take.)

A client that gets no connection, or whose connection is reset and was none that the server had, as the system does where its
queue is full for long, is tried again, and counted. It tells of each round, or of each sixtieth of the time, on standard error,
prints two lines of counts for each server, and has status 1 where something is wrong.
"""
from __future__ import annotations

import argparse
import asyncio
import datetime
import errno
import os
import random
import re
import resource
import socket
import struct
import subprocess
import sys
import time
from collections import Counter
from pathlib import Path
from typing import Awaitable, Callable, Dict, List, NamedTuple, Optional, Set, Tuple

sys.path.insert(0, str(Path(__file__).resolve().parent))
sys.path.insert(0, str(Path(__file__).resolve().parent.parent))

from answers import Answers, Untrue  # noqa: E402
from check_serve import HOST, Server  # noqa: E402
from makers import LONGEST, Makers, probed  # noqa: E402
from replies import Reply, Unknown, may_both_be, replies_of  # noqa: E402
from talk import Ended, commands  # noqa: E402

WORKERS = 16
# How long a client waits for each reply, and how often it connects anew where the system makes no connection, or breaks it
# off before the first reply.
SECONDS, TRIES = 600.0, 8
# How long a bad peer of a round stays at most.
STAYS = 0.5
# Of clients that stay: how often one connects anew, since each of the others does so too; of how many made sessions one of theirs
# is; and how often they are looked at.
TRIES_OF_MANY, PARTS, LOOKS = 64, 5, 60
# How many sessions the good clients of a server draw from: a tenth of its clients at once, and at least so many.
SESSIONS = 20
# How much memory a server may gain from the middle of its rounds to the last: of what it had, and in KiB.
GAIN, GAIN_KIB = 0.1, 1024
MOST = 2**26
# The number of the only session of a script, which its lines over a link do not have.
OWN = re.compile(rb"(?m)^[ \t]*1[ \t]+")
LINE = re.compile(r"worker=(\d+) link=(\d+) peer=([\d.]+:\d+) word=([A-Z]+) ")
HTTP = b"GET / HTTP/1.1\r\nHost: lpd\r\nUser-Agent: stranger\r\n\r\n"
TLS = bytes.fromhex("16030100c8010000c40303") + bytes(range(32)) + b"\x20" + bytes(range(32)) + bytes.fromhex("003e130213031301c02cc030") + bytes(128)
WORDS = {"DONE", "CUT", "OVER", "READ", "WRITE"}


class Wrong(Exception):
    """What is wrong."""


class Session(NamedTuple):
    """The commands of a session as they are sent, and the replies of 'lpd run' to it alone."""

    asks: List[bytes]
    replies: List[Reply]


def script_of(dice: random.Random, parts: int) -> bytes:
    """Made sessions one behind the other, each up to the first QUIT, and then QUIT."""
    made = (Makers(dice).session(alone=True) + b"1 QUIT\n" for _ in range(parts))
    return probed(b"".join(one[: one.index(b"1 QUIT\n")] for one in made) + b"1 QUIT\n")


def session_of(program: str, dice: random.Random, parts: int) -> Session:
    """A session that ends with QUIT, and not in a body that swallows it. None of its lines is too long by its number alone."""
    while True:
        script = script_of(dice, parts)
        if any(len(line) > LONGEST >= len(OWN.sub(b"", line)) for line in script.split(b"\n")):
            continue
        done = subprocess.run([program, "run"], input=script, capture_output=True)
        asks = [ask for ask, _ in commands(OWN.sub(b"", script).splitlines(keepends=True))]
        # A line that names no session is answered under session 0 there, and here as any other.
        replies = [reply._replace(session=1) for reply in replies_of(done.stdout)]
        if done.returncode == 0 and len(asks) == len(replies) and asks[-1] == b"QUIT\n":
            return Session(asks, replies)


class Client:
    """One link of a client, from an address of its own."""

    def __init__(self, reader: asyncio.StreamReader, writer: asyncio.StreamWriter) -> None:
        self.reader, self.writer = reader, writer
        self.name = "%s:%d" % writer.get_extra_info("sockname")[:2]

    async def rest(self) -> bytes:
        """All that still comes."""
        return await asyncio.wait_for(self.reader.read(), SECONDS)

    async def reply(self) -> bytes:
        line = await asyncio.wait_for(self.reader.readline(), SECONDS)
        found = re.fullmatch(rb"(?:TEXT|CERT|WIDE) (\d+)\n", line)
        for _ in range(int(found[1]) if found else 0):
            line += await asyncio.wait_for(self.reader.readline(), SECONDS)
        return line

    async def ask(self, command: bytes) -> bytes:
        await self.send(command)
        return await self.reply()

    async def send(self, piece: bytes) -> None:
        self.writer.write(piece)
        await asyncio.wait_for(self.writer.drain(), SECONDS)

    def reset(self) -> None:
        self.writer.get_extra_info("socket").setsockopt(socket.SOL_SOCKET, socket.SO_LINGER, struct.pack("ii", 1, 0))
        self.writer.transport.abort()


# ---- good clients: each gives what it got, and has its worker for so many seconds more than it takes


async def asks_in_turn(client: Client, session: Session, stays: float) -> bytes:
    got = b""
    for ask in session.asks:
        got += await client.ask(ask)
        await asyncio.sleep(stays / len(session.asks))
    return got + await client.rest()


async def asks_at_once(client: Client, session: Session, stays: float) -> bytes:
    got, asks = await begun(client, session, stays)
    client.writer.write(asks)
    return got + await client.rest()


async def asks_on_behind_its_quit(client: Client, session: Session, stays: float) -> bytes:
    """More than the server reads at a time is sent behind QUIT, and nothing is read before."""
    got, asks = await begun(client, session, stays)
    client.writer.write(asks + b"SOLVE\n" * 2_000)
    await asyncio.sleep(0.05)
    return got + await client.rest()


async def begun(client: Client, session: Session, stays: float) -> Tuple[bytes, bytes]:
    """What came so far, and what is left to ask. A client that stays has a worker when its first command is answered."""
    if not stays:
        return b"", b"".join(session.asks)
    got = await client.ask(session.asks[0])
    await asyncio.sleep(stays)
    return got, b"".join(session.asks[1:])


GOOD: List[Callable[[Client, Session, float], Awaitable[bytes]]] = [asks_in_turn, asks_at_once, asks_on_behind_its_quit]

# ---- bad ones


async def is_silent(client: Client, session: Session, dice: random.Random, stays: float) -> None:
    await asyncio.sleep(stays or dice.uniform(0, STAYS))


async def is_cut_off(client: Client, session: Session, dice: random.Random, stays: float) -> None:
    script = b"".join(session.asks)
    await client.send(script[: dice.randrange(len(script))])
    await asyncio.sleep(stays)


async def floods(client: Client, session: Session, dice: random.Random, stays: float) -> None:
    """It asks and never reads, until nothing more is taken or it has had enough."""
    await client.send(session.asks[0])
    try:
        async with asyncio.timeout(STAYS + stays):
            for _ in range(100):
                client.writer.write(b"WRITE FREE\n" * 2_000)
                await client.writer.drain()
    except TimeoutError:
        client.reset()


async def sends_too_much(client: Client, session: Session, dice: random.Random, stays: float) -> None:
    """The reply to its first command comes, and then the end, though more was sent than is read."""
    asks = session.asks[0] + b"x" * 2**16
    sends = asyncio.create_task(sends_all(client, asks, MOST + 2**20))
    got = await client.rest()
    await sends
    if len(replies_of(got, numbered=False)) != 1:
        raise Wrong(f"a link with too much got {got[-100:]!r}")


async def sends_all(client: Client, first: bytes, size: int) -> None:
    client.writer.write(first)
    for _ in range(size // 2**16):
        client.writer.write(b"x" * 2**16)
        await client.writer.drain()


async def resets_in_a_reply(client: Client, session: Session, dice: random.Random, stays: float) -> None:
    client.writer.write(b"".join(session.asks))
    await asyncio.wait_for(client.reader.read(dice.randint(1, 40)), SECONDS)
    await asyncio.sleep(stays)
    client.reset()


async def is_slow(client: Client, session: Session, dice: random.Random, stays: float) -> None:
    for byte in b"".join(session.asks)[: dice.randint(1, 100)]:
        await client.send(bytes([byte]))
        await asyncio.sleep((STAYS + stays) / 100)


async def speaks(client: Client, text: bytes, stays: float) -> None:
    """Each line that is answered has a line that docs/PROTOCOL.md knows."""
    client.writer.write(text)
    await client.writer.drain()
    await asyncio.sleep(stays)
    client.writer.write_eof()
    replies_of(await client.rest(), numbered=False)


async def speaks_http(client: Client, session: Session, dice: random.Random, stays: float) -> None:
    await speaks(client, HTTP, stays)


async def speaks_tls(client: Client, session: Session, dice: random.Random, stays: float) -> None:
    await speaks(client, TLS, stays)


async def speaks_bytes(client: Client, session: Session, dice: random.Random, stays: float) -> None:
    text = re.sub(rb"(?m)^[1-9] ", b"", Makers(dice).made(dice.choice(["bytes", "lines"])))
    await speaks(client, text, stays)


Peer = Callable[[Client, Session, random.Random, float], Awaitable[None]]
BAD: List[Peer] = [is_silent, is_cut_off, floods, resets_in_a_reply, is_slow, speaks_http, speaks_tls, speaks_bytes]
# What these say first is answered by nothing that they wait for, so that they do not hear when a worker has their link.
STRANGERS: List[Peer] = [is_silent, speaks_http, speaks_tls, speaks_bytes]

# ---- rounds


class Round:
    """Clients that connect at once: so many good ones, and as many bad ones."""

    tries = TRIES

    def __init__(self, server: Server, sessions: List[Session], seed: str, clients: int) -> None:
        self.server, self.sessions, self.clients = server, sessions, clients
        self.dice = random.Random(seed)
        self.counts: Counter[str] = Counter()
        self.good: Set[str] = set()
        # The links that were made, by their names, and the good ones that were reset.
        self.made: Counter[str] = Counter()
        self.reset: Set[str] = set()
        self.wrong: List[str] = []
        self.checked: Dict[Tuple[bytes, bytes, bytes], bool] = {}
        # The server's, while the clients are there.
        self.sizes: List[Size] = []

    async def run(self) -> None:
        plans = [self.client(number, random.Random(self.dice.getrandbits(64))) for number in range(self.clients)]
        await asyncio.gather(*plans)

    def stays(self, dice: random.Random) -> float:
        """For how many seconds more than it takes a link is to have its worker."""
        return 0.0

    async def client(self, number: int, dice: random.Random) -> None:
        session = dice.choice(self.sessions)
        try:
            if number % 2 == 0:
                await self.good_client(session, dice)
            else:
                peer = sends_too_much if number % self.clients == 1 else BAD[number // 2 % len(BAD)]
                await self.bad_client(peer, session, dice)
        except (Wrong, Untrue, Unknown, TimeoutError, OSError) as why:
            self.counts["wrong"] += 1
            self.wrong.append(f"{type(why).__name__}: {why}")

    async def connect(self, dice: random.Random) -> Client:
        """A link, once the system makes one: while the server's queue is full it gives up after two minutes."""
        for _ in range(self.tries):
            local = (f"127.0.0.{dice.randint(2, 250)}", 0)
            try:
                client = Client(*await asyncio.open_connection(HOST, self.server.port, local_addr=local, limit=2**20))
                self.made[client.name] += 1
                return client
            except OSError as why:
                self.counts[f"not connected, {errno.errorcode.get(why.errno or 0)}"] += 1
        raise Wrong(f"no connection in {self.tries} tries")

    async def good_client(self, session: Session, dice: random.Random) -> None:
        way = dice.choice(GOOD)
        for _ in range(self.tries):
            client = await self.connect(dice)
            got = b""
            try:
                got = await way(client, session, self.stays(dice))
            except ConnectionResetError:
                self.counts["reset before a reply"] += 1
                self.reset.add(client.name)
                continue
            finally:
                client.writer.transport.abort()
            if got:
                self.good.add(client.name)
                self.compare(session, got, way.__name__)
                self.counts["good"] += 1
                return
        raise Wrong("a good client has no reply")

    async def bad_client(self, peer: Peer, session: Session, dice: random.Random) -> None:
        client = await self.connect(dice)
        try:
            await self.misbehaves(peer, client, session, dice)
        except OSError:
            self.counts["bad, broken off"] += 1
        finally:
            client.writer.transport.abort()  # whatever it has not sent
        self.counts["bad"] += 1

    async def misbehaves(self, peer: Peer, client: Client, session: Session, dice: random.Random) -> None:
        await peer(client, session, dice, 0.0)

    def compare(self, session: Session, got: bytes, way: str) -> None:
        replies = replies_of(got, numbered=False)
        if len(replies) != len(session.replies):
            raise Wrong(f"{way}: {len(replies)} replies in place of {len(session.replies)}")
        for number, (reply, wanted) in enumerate(zip(replies, session.replies)):
            if not may_both_be(reply, wanted):
                raise Wrong(f"{way}: reply {number}: {reply.line!r} in place of {wanted.line!r} to {session.asks[number][:60]!r}")
        answers = Answers()
        answers.accepted = self.checked
        for reply in replies:
            answers.take(reply)
        self.counts["answers"] += answers.checked


class Crowd(Round):
    """Clients that are there all the time. A link stays as long as has these many links last until the seconds are over."""

    tries = TRIES_OF_MANY

    def __init__(self, server: Server, sessions: List[Session], seed: str, clients: int, links: int, seconds: float) -> None:
        super().__init__(server, sessions, seed, clients)
        self.links, self.until, self.every = links, time.monotonic() + seconds, seconds / LOOKS
        # How many links have ended, and how long a client waited for its worker, as far as was seen last.
        self.ended, self.waited = 0, 0.0

    async def run(self) -> None:
        looks = asyncio.create_task(self.look())
        await asyncio.gather(*(self.comes(number, random.Random(self.dice.getrandbits(64))) for number in range(self.clients)))
        looks.cancel()

    async def comes(self, number: int, dice: random.Random) -> None:
        """Client after client, the first of which has this number."""
        while time.monotonic() < self.until and self.ended < self.links:
            await self.client(number, random.Random(dice.getrandbits(64)))
            number += self.clients + 2

    async def look(self) -> None:
        while True:
            await asyncio.sleep(self.every)
            self.ended = self.server.said().count("\n") - 1
            size = size_of(self.server)
            self.sizes += [size] if size else []
            print(f"{self.ended} links, {size}, {dict(self.counts)}", file=sys.stderr, flush=True)

    def stays(self, dice: random.Random) -> float:
        left = max(0.0, self.until - time.monotonic())
        return dice.uniform(0, 2) * left * WORKERS / max(WORKERS, self.links - self.ended)

    async def misbehaves(self, peer: Peer, client: Client, session: Session, dice: random.Random) -> None:
        """It begins when a worker has the link. A stranger does not hear of that, and waits as long as the last client that did."""
        stays, began = self.stays(dice), time.monotonic()
        if stays and peer in STRANGERS:
            stays += self.waited
        elif stays:
            await client.ask(session.asks[0])
            self.waited = time.monotonic() - began
        await peer(client, session, dice, stays)


class Size(NamedTuple):
    """What the system says of a server: KiB of memory now and at most, and its descriptors."""

    memory: int
    most: int
    descriptors: int


def size_of(server: Server) -> Optional[Size]:
    pid = server.program.pid
    try:
        status = dict(line.split(":", 1) for line in Path(f"/proc/{pid}/status").read_text().splitlines())
        return Size(int(status["VmRSS"].split()[0]), int(status["VmHWM"].split()[0]), len(os.listdir(f"/proc/{pid}/fd")))
    except (OSError, KeyError):
        return None  # it has ended


def settled(server: Server, descriptors: int) -> Optional[Size]:
    """Its size, once the links of a round are closed."""
    end = time.monotonic() + 10
    size = size_of(server)
    while size and size.descriptors > descriptors and time.monotonic() < end:
        time.sleep(0.1)
        size = size_of(server)
    return size


class Served:
    """One server, from its start to its end."""

    def __init__(self, words: argparse.Namespace, seed: str, until: float) -> None:
        self.words, self.seed, self.clients, self.until = words, seed, words.clients, until
        # How many links it gives, and how many of them clients take that come again: the others are for the last that came.
        self.links = WORKERS * words.each
        self.taken = self.links - self.clients - self.clients // 2
        self.counts: Counter[str] = Counter()
        self.good: Set[str] = set()
        self.made: Counter[str] = Counter()
        self.reset: Set[str] = set()
        self.wrong: List[str] = []
        self.sizes: List[Size] = []
        dice = random.Random(seed)
        parts = PARTS if words.stay else 1
        self.sessions = [session_of(words.program, dice, parts) for _ in range(max(SESSIONS, self.clients // 10))]

    def serve(self) -> None:
        with Server([self.words.program], WORKERS, self.words.each) as server:
            before = size_of(server)
            descriptors = before.descriptors if before else 0
            if self.words.stay:
                self.crowd(server, descriptors)
            else:
                self.rounds(server, descriptors)
            self.finish(server)
            self.judge(server, before)

    def crowd(self, server: Server, descriptors: int) -> None:
        one = Crowd(server, self.sessions, self.seed, self.clients, self.taken, self.words.seconds)
        self.have("crowd", one, server, descriptors)

    def rounds(self, server: Server, descriptors: int) -> None:
        for number in range((self.links - self.clients // 2) // self.clients):
            began = time.monotonic()
            if number and began > self.until:
                break
            one = Round(server, self.sessions, f"{self.seed}:{number}", self.clients)
            self.have(f"round {number + 1}", one, server, descriptors)
            time.sleep(max(0.0, min(began + self.words.every, self.until) - time.monotonic()))

    def have(self, name: str, one: Round, server: Server, descriptors: int) -> None:
        began = time.monotonic()
        asyncio.run(one.run())
        self.counts += one.counts
        self.good |= one.good
        self.made += one.made
        self.reset |= one.reset
        self.wrong += one.wrong
        size = settled(server, descriptors)
        self.sizes += [*one.sizes, *([size] if size else [])]
        took = time.monotonic() - began
        print(f"{name}: {took:.1f} s, {size}, {dict(one.counts)}", file=sys.stderr, flush=True)

    def finish(self, server: Server) -> None:
        """Links that only quit, until the server has served all of its own."""
        while server.program.poll() is None:
            try:
                with server.link() as link:
                    link.ask(b"QUIT\n")
            except Ended:
                time.sleep(0.01)

    def judge(self, server: Server, before: Optional[Size]) -> None:
        status = server.program.wait()
        server.output.seek(0)
        lines = server.output.read().decode("latin-1").splitlines()
        words = Counter(line.split()[-1] for line in lines)
        ends: Dict[str, Set[str]] = {}
        for _, _, peer, word in LINE.findall(server.said()):
            ends.setdefault(peer, set()).add(word)
        if status != 0 or len(lines) != self.links or not set(words) <= WORDS:
            self.wrong.append(f"the server ends with status {status}, {len(lines)} lines and the words {dict(words)}")
        self.wrong += [f"a good connection ended with {ends.get(name)}" for name in self.good if "DONE" not in ends.get(name, set())]
        # Where the system's queue was full for long, the server has never had the link.
        had = [name for name in self.reset if name in ends and self.made[name] == 1]
        self.wrong += [f"a good link was reset, and ended with {ends[name]}" for name in had]
        self.judge_size(before)
        sizes, what = len(self.sizes), "looks" if self.words.stay else "rounds"
        first, middle, last = (self.sizes[0], self.sizes[sizes // 2], self.sizes[-1]) if sizes else (None, None, None)
        print(f"links {len(lines)}: {dict(words)}; clients in {sizes} {what}: {dict(self.counts)}; {len(self.wrong)} wrong")
        print(f"  before {before}, after the first of the {what} {first}, in the middle {middle}, after the last {last}", flush=True)
        for why, count in Counter(self.wrong).most_common(10):
            print(f"  {count} times: {why}")

    def judge_size(self, before: Optional[Size]) -> None:
        if not before or not self.sizes:
            return
        middle, last = self.sizes[len(self.sizes) // 2], self.sizes[-1]
        most = max(size.descriptors for size in self.sizes)
        if last.descriptors != before.descriptors or most > before.descriptors + WORKERS:
            self.wrong.append(f"{last.descriptors} descriptors, {most} at most, in place of {before.descriptors}")
        if last.memory > middle.memory * (1 + GAIN) + GAIN_KIB:
            self.wrong.append(f"{last.memory} KiB at the end, and {middle.memory} KiB in the middle")


def main() -> int:
    parser = argparse.ArgumentParser(description=__doc__, formatter_class=argparse.RawDescriptionHelpFormatter)
    parser.add_argument("program", metavar="PROGRAM", type=os.path.abspath)
    parser.add_argument("--seconds", metavar="S", type=float, default=30.0)
    parser.add_argument("--clients", metavar="N", type=int, default=1000)
    parser.add_argument("--each", metavar="C", type=int, default=1000)
    parser.add_argument("--every", metavar="S", type=float, default=0.0)
    parser.add_argument("--seed", metavar="WORD", default=datetime.datetime.now(datetime.timezone.utc).strftime("%Y-%m-%d"))
    parser.add_argument("--stay", action="store_true")
    words = parser.parse_args()
    if words.stay and WORKERS * words.each < 2 * words.clients:
        parser.error("with --stay the workers need two links for each client, or more")
    hard = resource.getrlimit(resource.RLIMIT_NOFILE)[1]
    resource.setrlimit(resource.RLIMIT_NOFILE, (hard, hard))
    until, number, wrong = time.monotonic() + words.seconds, 0, 0
    print(f"seed {words.seed}", flush=True)
    while number == 0 or (time.monotonic() < until and not words.stay):
        served = Served(words, f"{words.seed}:{number}", until)
        served.serve()
        wrong += len(served.wrong)
        number += 1
    return 1 if wrong else 0


if __name__ == "__main__":
    sys.exit(main())
