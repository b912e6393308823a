#!/usr/bin/env python3
"""Measures `lpd serve` on 127.0.0.1: small solves over one connection and over more at once, and many connections one after
the other.

    serve.py [--program PROGRAM] [--seconds S] [--runs N] [--at-once N] [--workers K] [--each C] [--waves N,..]
        [--write PAGE]

For the solves each client is a process with one connection, which has a worker of its own. It loads a model, and then for
S (2) seconds changes a right side and solves, two commands, each sent when the reply to the one before has come. It is
measured with one client and with N (16), for a model of 3 rows and for one of 30, and the best of some runs (5) counts.

For the connections the server has K (16) workers of C (1,000) connections each, which come in waves of N (100 and then
200) at once: each connects, loads a model, solves it and quits. The server's memory is read before the first connection
and before the last.

Times are of the wall, and the clients have a part in them. With --write the tables take the place of what stands between
the two marks of PAGE.
"""
from __future__ import annotations

import argparse
import itertools
import asyncio
import multiprocessing
import os
import pathlib
import random
import socket
import sys
import time

from page import ended, shown
from solvers import PROGRAM, TOP

sys.path.insert(0, str(TOP / "tests"))

from check_serve import HOST, Server  # noqa: E402

BEGIN, END = "<!-- measured by bench/serve.py -->", "<!-- end of the links -->"
WORKERS = 16
# How many seconds a reply may take.
PATIENCE = 60.0
# A link that waited longer for its connection was sent away once by the system.
SLOW = 0.9
MODELS = {
    "diet": ("LOAD FREE", TOP / "examples/models/diet.mps", "energy", (1900, 2600)),
    "plan": ("LOAD FIXED", TOP / "examples/models/plan.fixed.mps", "DEM01", (10, 40)),
}


def load_of(name):
    command, path, _, _ = MODELS[name]
    return command.encode() + b"\n" + path.read_bytes().rstrip(b"\n") + b"\n"


# ---- solves


def round_trip(link, command):
    """The reply to a command, which is one line."""
    link.sendall(command)
    reply = link.recv(4096)
    while not reply.endswith(b"\n"):
        piece = link.recv(4096)
        if not piece:
            raise ConnectionError("the connection ended before the reply came")
        reply += piece
    return reply


def solves(port, name, seed, seconds, start, counts):
    """One client, which counts its solves."""
    _, _, row, (least, most) = MODELS[name]
    dice, done = random.Random(seed), 0
    with socket.create_connection((HOST, port), PATIENCE) as link:
        link.setsockopt(socket.IPPROTO_TCP, socket.TCP_NODELAY, 1)
        round_trip(link, load_of(name))
        round_trip(link, b"SOLVE\n")
        start.wait()
        end = time.monotonic() + seconds
        while time.monotonic() < end:
            round_trip(link, f"SETRHS {row} {dice.randint(least, most)}\n".encode())
            done += round_trip(link, b"SOLVE\n").startswith(b"OPTIMAL ")
        counts.put(done)
        round_trip(link, b"QUIT\n")


def solve_rate(options, name, clients):
    """Solves a second of so many clients at once."""
    start, counts = multiprocessing.Barrier(clients), multiprocessing.SimpleQueue()
    with Server(options.program, clients, 1) as server:
        words = [(server.port, name, seed, options.seconds, start, counts) for seed in range(clients)]
        processes = [multiprocessing.Process(target=solves, args=word) for word in words]
        for process in processes:
            process.start()
        done = sum(counts.get() for _ in processes)
        for process in processes:
            process.join()
        status, _, _ = server.end()
    if status:
        sys.exit(f"the server ended with status {status}")
    return done / options.seconds


def solve_table(options):
    yield "| Model | Rows | Links at once | Solves a second | Replies a second |"
    yield "|---|---|---|---|---|"
    for name, rows in (("diet", 3), ("plan", 30)):
        for clients in (1, options.at_once):
            rate = max(solve_rate(options, name, clients) for _ in range(options.runs))
            yield f"| {name} | {rows} | {clients} | {rate:,.0f} | {2 * rate:,.0f} |"


# ---- links


async def session(port, load):
    """One link; how many seconds it took to connect, and to its end."""
    started = time.monotonic()
    reader, writer = await asyncio.open_connection(HOST, port)
    connected = time.monotonic() - started
    for command, reply in ((load, b"LOADED "), (b"SOLVE\n", b"OPTIMAL "), (b"QUIT\n", b"BYE")):
        writer.write(command)
        line = await asyncio.wait_for(reader.readline(), PATIENCE)
        if not line.startswith(reply):
            raise ConnectionError(f"{command[:10]!r} was answered {line!r}")
    writer.close()
    await writer.wait_closed()
    return connected, time.monotonic() - started


async def waves(port, load, links, wave):
    found = []
    while len(found) < links:
        count = min(wave, links - len(found))
        found += await asyncio.gather(*(session(port, load) for _ in range(count)))
    return found


def memory(pid, name):
    """A line of the process's status, in MiB."""
    with open(f"/proc/{pid}/status", encoding="ascii") as lines:
        return next(int(line.split()[1]) for line in lines if line.startswith(name + ":")) / 1024


def link_row(options, wave):
    load, links = load_of("diet"), options.workers * options.each
    with Server(options.program, options.workers, options.each) as server:
        pid = server.program.pid
        before, started = memory(pid, "VmRSS"), time.monotonic()
        found = asyncio.run(waves(server.port, load, links - 1, wave))
        seconds = time.monotonic() - started
        after, most = memory(pid, "VmRSS"), memory(pid, "VmHWM")
        asyncio.run(waves(server.port, load, 1, 1))
        status, lines, _ = server.end()
    if status or lines.count(" DONE\n") != links:
        sys.exit(f"the server ended with status {status}, and {lines.count(' DONE')} of {links} links are done")
    slow = sum(connected > SLOW for connected, _ in found)
    longest = max(whole for _, whole in found)
    cells = [str(options.workers), f"{options.each:,}", str(wave), f"{seconds:.1f}", f"{links / seconds:,.0f}"]
    cells += [f"{slow:,}", f"{longest:.2f}", f"{before:.1f}", f"{after:.1f}", f"{most:.1f}"]
    return "| " + " | ".join(cells) + " |"


def link_table(options):
    heads = ["Workers", "Links each", "At once", "s", "Links a second", f"Over {SLOW} s to connect", "Longest, s"]
    heads += ["MiB before", "MiB after", "MiB at most"]
    yield "| " + " | ".join(heads) + " |"
    yield "|---" * len(heads) + "|"
    yield from (link_row(options, wave) for wave in options.waves)


def main():
    options = argparse.ArgumentParser(description=__doc__, formatter_class=argparse.RawDescriptionHelpFormatter)
    options.add_argument("--program", default=os.environ.get("LPD", PROGRAM))
    options.add_argument("--seconds", type=float, default=2.0)
    options.add_argument("--runs", type=int, default=5)
    options.add_argument("--at-once", type=int, default=WORKERS)
    options.add_argument("--workers", type=int, default=WORKERS)
    options.add_argument("--each", type=int, default=1000)
    options.add_argument("--waves", type=lambda text: [int(word) for word in text.split(",")], default=[100, 200])
    options.add_argument("--write", type=pathlib.Path)
    options = options.parse_args()
    options.program = options.program.split()
    lines = shown(itertools.chain(solve_table(options), [""], link_table(options)))
    return ended(options.write, BEGIN, END, lines)


if __name__ == "__main__":
    sys.exit(main())
