#!/usr/bin/env python3
"""Measures whether it pays that links go to the server which has seen models of their shape.

    spread.py [--program PROGRAM] [--sessions N] [--shapes N] [--solves N] [--clients N] [--write PAGE]

It starts two servers of four workers, and HAProxy before them, once as examples/serve/haproxy.cfg spreads links, by
`leastconn`, and once by the port that the client connects to, of which each shape has one (`balance hash dst_port`). N (8)
clients have N (600) sessions: each loads the plan of one of N (24) shapes, of 4 periods and more, with some right sides
changed, and changes and solves it N (5) times. It is done with servers that stay, and with servers that end after 100 links and
are started anew with no bases. Both ways the sessions ask the same.

Counted are the pivots and flips that HOW tells of all solves and of the first of each session, and the solves that found no
basis of their shape. It needs haproxy on the path, and the ports 7007, 7008 and from 7100 on of 127.0.0.1. With --write the
table takes the place of what stands between the two marks of PAGE.
"""
from __future__ import annotations

import argparse
import collections
import os
import pathlib
import random
import re
import shutil
import subprocess
import sys
import tempfile
import threading
import time

from page import ended, shown
from proxy import HOST, PATIENCE, PAUSE, PORTS, WORKERS, Keeper
from solvers import PROGRAM, TOP
from workers import change, plan

sys.path.insert(0, str(TOP / "bin"))

from talk import Ended, Link  # noqa: E402

BEGIN, END = "<!-- measured by bench/spread.py -->", "<!-- end of the spread -->"
FRONT, LEAST = 7100, 4
CONFIGURATION = """
defaults
    mode tcp
    timeout connect 250ms
    timeout queue 1m
    timeout client 10m
    timeout server 10m
frontend links
    bind {host}:{first}-{last}
    default_backend servers
backend servers
    balance {balance}
    retries 3
    option redispatch 1
    default-server maxconn {workers} check inter 500ms rise 1 fall 1 observe layer4 error-limit 1 on-error mark-down
    server one {host}:{one}
    server two {host}:{two}
"""
HOW = re.compile(rb"HOW (\w+).* PIVOTS (\d+)")
BALANCES = {"by load": "leastconn", "by shape": "hash dst_port"}
EACH = {"stay": 1000, "end after 100 links": 25}


class Client(threading.Thread):
    """Has sessions until none is left, and counts the pivots of their solves."""

    def __init__(self, options, sessions):
        super().__init__(daemon=True)
        self.options, self.sessions, self.counts = options, sessions, collections.Counter()
        self.start()

    def run(self):
        while self.sessions:
            try:
                seed = self.sessions.pop()
            except IndexError:
                return
            while not self.session(seed):
                time.sleep(PAUSE)

    def session(self, seed):
        """Whether the session ended as it should. Only then it counts."""
        dice, found = random.Random(seed), collections.Counter()
        shape = dice.randrange(self.options.shapes)
        try:
            with Link(HOST, FRONT + shape, PATIENCE) as link:
                for command in commands(shape, dice, self.options.solves):
                    reply = link.ask(command.encode())
                    self.count(reply, found)
        except Ended:
            return False
        self.counts += found
        return True

    def count(self, reply, found):
        how = HOW.match(reply)
        if how:
            found["solves"] += 1
            found["pivots"] += int(how[2])
            found["first pivots"] += int(how[2]) * (found["solves"] == 1)
            found["cold"] += how[1] == b"COLD"
        elif not reply.startswith((b"LOADED", b"OK", b"OPTIMAL", b"INFEASIBLE", b"BYE")):
            sys.exit(f"a reply of another kind: {reply!r}")


def commands(shape, dice, solves):
    periods = LEAST + shape
    yield "\n".join(["LOAD FREE", *plan(periods, random.Random(shape)), ""])
    for _ in range(3):
        yield f"{change(periods, dice)}\n"
    for _ in range(solves):
        yield f"{change(periods, dice)}\n"
        yield "SOLVE\n"
        yield "HOW\n"
    yield "QUIT\n"


def measured(options, room, balance, each):
    """What all clients counted, and the seconds that it took."""
    keepers = [Keeper(options.program, port, each) for port in PORTS]
    time.sleep(2 * PAUSE)
    file = room / "haproxy.cfg"
    ports = {"host": HOST, "first": FRONT, "last": FRONT + options.shapes - 1, "one": PORTS[0], "two": PORTS[1]}
    file.write_text(CONFIGURATION.format(balance=balance, workers=WORKERS, **ports))
    nowhere = subprocess.DEVNULL
    proxy = subprocess.Popen(["haproxy", "-f", str(file)], stdout=nowhere, stderr=nowhere)
    try:
        time.sleep(1)
        started, sessions = time.monotonic(), list(range(options.sessions))
        clients = [Client(options, sessions) for _ in range(options.clients)]
        for client in clients:
            client.join()
        took = time.monotonic() - started
    finally:
        proxy.terminate()
        proxy.wait()
        for keeper in keepers:
            keeper.stop()
    return sum((client.counts for client in clients), collections.Counter()), took


def table(options, room):
    heads = ["Servers", "Links go", "Sessions", "Solves", "Cold", "Pivots of first solves", "Pivots of all", "s"]
    yield "| " + " | ".join(heads) + " |"
    yield "|---" * len(heads) + "|"
    for servers, each in EACH.items():
        for name, balance in BALANCES.items():
            counts, took = measured(options, room, balance, each)
            cells = [servers, name, f"{options.sessions:,}"]
            cells += [f"{counts[what]:,}" for what in ("solves", "cold", "first pivots", "pivots")]
            yield "| " + " | ".join([*cells, f"{took:.1f}"]) + " |"


def main():
    options = argparse.ArgumentParser(description=__doc__, formatter_class=argparse.RawDescriptionHelpFormatter)
    options.add_argument("--program", default=os.environ.get("LPD", PROGRAM))
    for name, number in (("sessions", 600), ("shapes", 24), ("solves", 5), ("clients", 8)):
        options.add_argument(f"--{name}", type=int, default=number)
    options.add_argument("--write", type=pathlib.Path)
    options = options.parse_args()
    options.program = options.program.split()
    if not shutil.which("haproxy"):
        sys.exit("haproxy is not on the path")
    with tempfile.TemporaryDirectory(prefix="lpd-spread-") as place:
        lines = shown(table(options, pathlib.Path(place)))
    return ended(options.write, BEGIN, END, lines)


if __name__ == "__main__":
    sys.exit(main())
