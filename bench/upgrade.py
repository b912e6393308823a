#!/usr/bin/env python3
"""Counts what a thousand clients see while both servers behind HAProxy are started anew as another version.

    upgrade.py [--program PROGRAM] [--clients N] [--over SECONDS] [--solves N] [--write PAGE]

It starts two servers of four workers at the ports that examples/serve/haproxy.cfg names, and HAProxy with that file. N (1,000)
clients connect, at once or evenly over some SECONDS, from as many addresses of the loopback as the file's limit of connections
asks for; each loads a model of 3 rows, changes and solves it N (20) times, a hundredth of a second apart, and quits. While they
come, wait and are served, examples/serve/renew.py starts one server anew and then the other, from another path. Then the same is
done without renew.py: both servers are killed and started anew, as by an operator in a hurry.

A client does not try again. 'Refused' are those that got no reply at all, 'broken off' those that got one and no BYE. The
clients are one process, and HAProxy and the servers have the rest of the machine. It needs haproxy on the path, and the ports
7000, 7007, 7008, 7080 and 7443 of 127.0.0.1. With --write the table takes the place of what stands between the two marks of
PAGE.
"""
from __future__ import annotations

import argparse
import asyncio
import collections
import os
import pathlib
import random
import shutil
import signal
import subprocess
import sys
import tempfile
import time

from page import ended, shown
from proxy import CONFIGURATION, HOST, PAUSE, PORTS, WORKERS, make_certificate
from serve import load_of
from solvers import PROGRAM, TOP

BEGIN, END = "<!-- measured by bench/upgrade.py -->", "<!-- end of the upgrade -->"
FRONT = 7000
RENEW = TOP / "examples" / "serve" / "renew.py"
EACH = 1000
# Links at once that the file allows an address, how long a client waits for a reply, and when the upgrade begins.
PER_ADDRESS, PATIENCE, BEGINS = 50, 120.0, 1.0
# How long a client thinks before it solves once more.
THINKS = 0.01


class Server:
    """A server at a port, as a unit of systemd keeps it: `restart` ends it and starts it anew from a path."""

    def __init__(self, port):
        self.port, self.process = port, None

    def restart(self, program):
        if self.process:
            self.process.send_signal(signal.SIGTERM)
            self.process.wait()
            time.sleep(PAUSE)
        words = [str(program), "serve", f"{HOST}:{self.port}", "--workers", str(WORKERS), "--each", str(EACH)]
        self.process = subprocess.Popen(words, stdout=subprocess.DEVNULL, stderr=subprocess.DEVNULL)

    def runs(self):
        return pathlib.Path(os.readlink(f"/proc/{self.process.pid}/exe"))

    def stop(self):
        self.process.kill()
        self.process.wait()


# ---- clients


async def ask(reader, writer, command):
    writer.write(command)
    await writer.drain()
    reply = await asyncio.wait_for(reader.readline(), PATIENCE)
    if not reply.endswith(b"\n"):
        raise ConnectionError("the connection ended before the reply")
    return reply


async def client(seed, options, ends):
    """One session, whose end is counted: done, refused or broken off."""
    dice, replies = random.Random(seed), 0
    await asyncio.sleep(options.over * seed / options.clients)
    try:
        # addresses of the loopback, so that no address has more links than it may
        place = (f"127.0.0.{2 + seed // PER_ADDRESS}", 0)
        reader, writer = await asyncio.open_connection(HOST, FRONT, local_addr=place)
        for command in [load_of("diet"), *commands(dice, options.solves)]:
            reply = await ask(reader, writer, command)
            await asyncio.sleep(THINKS if command == b"SOLVE\n" else 0)
            if reply.startswith((b"ERR", b"MEMORY")):
                sys.exit(f"{command[:20]!r} was answered {reply!r}")
            replies += 1
        writer.close()
        ends["done"] += 1
    except (OSError, asyncio.TimeoutError):
        ends["broken off" if replies else "refused"] += 1


def commands(dice, solves):
    for _ in range(solves):
        yield b"SETRHS energy %d\n" % dice.randint(1900, 2600)
        yield b"SOLVE\n"
    yield b"QUIT\n"


async def clients(options, upgrade):
    """All clients, and the upgrade beside them: how they ended, and how long both took."""
    ends, begun = collections.Counter(), time.monotonic()
    sessions = [asyncio.create_task(client(seed, options, ends)) for seed in range(options.clients)]
    await asyncio.sleep(BEGINS)
    started, before = time.monotonic(), sum(ends.values())
    await asyncio.to_thread(upgrade)
    upgraded, during = time.monotonic() - started, sum(ends.values()) - before
    await asyncio.gather(*sessions)
    return ends, upgraded, during, time.monotonic() - begun


# ---- upgrades


def renewed(room, server, name, program):
    """By renew.py, whose COMMAND asks this process to start the server anew."""
    asked, done = room / f"{name}.asked", room / f"{name}.done"
    command = ["sh", "-c", f"touch {asked}; until [ -e {done} ]; do sleep 0.05; done"]
    told = subprocess.Popen([sys.executable, str(RENEW), str(room / "haproxy.sock"), f"servers/{name}", *command])
    while told.poll() is None:
        if asked.exists() and not done.exists():
            server.restart(program)
            done.touch()
        time.sleep(0.05)
    if told.returncode:
        sys.exit(f"renew.py ended with the status {told.returncode}")


def by_drain(room, servers, program):
    for server, name in zip(servers, ("one", "two")):
        renewed(room, server, name, program)


def by_kill(room, servers, program):
    for server in servers:
        server.restart(program)


CASES = {"`renew.py`, one by one": by_drain, "killed and started": by_kill}


def measured(options, room, upgrade):
    """The servers run from one path at first, and from another one at the end."""
    old, new = room / "old", room / "new"
    for place in (old, new):
        place.mkdir(parents=True)
        shutil.copy(options.program, place / "lpd")
    servers = [Server(port) for port in PORTS]
    for server in servers:
        server.restart(old / "lpd")
    nowhere = subprocess.DEVNULL
    proxy = subprocess.Popen(["haproxy", "-f", str(CONFIGURATION)], cwd=room, stdout=nowhere, stderr=nowhere)
    try:
        time.sleep(1)
        result = asyncio.run(clients(options, lambda: upgrade(room, servers, new / "lpd")))
        if [server.runs() for server in servers] != [new / "lpd"] * 2:
            sys.exit("not both servers run from the new path")
        return result
    finally:
        proxy.terminate()
        proxy.wait()
        for server in servers:
            server.stop()


def table(options, room):
    heads = ["Upgrade", "Clients", "Done", "Refused", "Broken off", "Ended meanwhile", "Upgrade took, s", "All, s"]
    yield "| " + " | ".join(heads) + " |"
    yield "|---" * len(heads) + "|"
    for number, (name, upgrade) in enumerate(CASES.items()):
        place = room / str(number)
        place.mkdir()
        shutil.copy(room / "lpd.pem", place)
        ends, upgraded, during, whole = measured(options, place, upgrade)
        cells = [name, f"{options.clients:,}", *(f"{ends[word]:,}" for word in ("done", "refused", "broken off"))]
        yield "| " + " | ".join([*cells, f"{during:,}", f"{upgraded:.1f}", f"{whole:.1f}"]) + " |"


def main():
    options = argparse.ArgumentParser(description=__doc__, formatter_class=argparse.RawDescriptionHelpFormatter)
    options.add_argument("--program", default=os.environ.get("LPD", PROGRAM))
    options.add_argument("--clients", type=int, default=1000)
    options.add_argument("--over", type=float, default=0.0, metavar="SECONDS")
    options.add_argument("--solves", type=int, default=20)
    options.add_argument("--write", type=pathlib.Path)
    options = options.parse_args()
    for name in ("haproxy", "openssl"):
        if not shutil.which(name):
            sys.exit(f"{name} is not on the path")
    with tempfile.TemporaryDirectory(prefix="lpd-upgrade-") as place:
        room = pathlib.Path(place)
        make_certificate(room)
        lines = shown(table(options, room))
    return ended(options.write, BEGIN, END, lines)


if __name__ == "__main__":
    sys.exit(main())
