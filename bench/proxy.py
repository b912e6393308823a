#!/usr/bin/env python3
"""Counts what clients see behind HAProxy while servers of lpd end and are killed.

    proxy.py [--program PROGRAM] [--seconds S] [--clients N] [--solves N] [--write PAGE]

It starts two servers of four workers at the ports that examples/serve/haproxy.cfg names, and HAProxy with that file and a
certificate that openssl makes. A server that has ended is started anew a tenth of a second later, as the unit lpd@.service
has it. N (8) clients connect over TLS, load a model of 30 rows, change and solve it N (20) times, quit and begin anew, for
S (10) seconds. It is done with servers of 1,000 connections a worker; with servers of 25 and of 40, which end again and
again; with both of 25, which end at about the same time; and with the first of the two killed by SIGKILL at a third and at
two thirds of the time.

A session that did not end with BYE is tried again a tenth of a second later. 'Waited' is the longest time from the first
try of a session to its BYE. It needs haproxy and openssl on the path, and the ports 7000, 7007, 7008 and 7443 of
127.0.0.1. With --write the table takes the place of what stands between the two marks of PAGE.
"""
from __future__ import annotations

import argparse
import collections
import os
import pathlib
import random
import shutil
import signal
import subprocess
import sys
import tempfile
import threading
import time

from page import ended, shown
from serve import load_of
from solvers import PROGRAM, TOP

sys.path.insert(0, str(TOP / "bin"))

from talk import Ended, Link  # noqa: E402

BEGIN, END = "<!-- measured by bench/proxy.py -->", "<!-- end of the proxy -->"
HOST, FRONT, PORTS = "127.0.0.1", 7443, (7007, 7008)
CONFIGURATION = TOP / "examples" / "serve" / "haproxy.cfg"
WORKERS = 4
# How long it takes until an ended server is started anew, and a session is tried again; and how long a reply may take.
PAUSE, PATIENCE = 0.1, 20.0
# The links of a worker of each of the two servers, and how often the first is killed.
CASES = {
    "left alone": ((1000, 1000), 0),
    "end by turns": ((25, 40), 0),
    "end together": ((25, 25), 0),
    "one killed twice": ((1000, 1000), 2),
}


class Keeper(threading.Thread):
    """Starts a server anew whenever it has ended, until it is told to stop."""

    def __init__(self, program, port, each):
        super().__init__(daemon=True)
        self.command = [*program, "serve", f"{HOST}:{port}", "--workers", str(WORKERS), "--each", str(each)]
        self.stops, self.process, self.starts = False, None, 0
        self.start()

    def run(self):
        while not self.stops:
            self.starts += 1
            self.process = subprocess.Popen(self.command, stdout=subprocess.DEVNULL, stderr=subprocess.DEVNULL)
            self.process.wait()
            time.sleep(PAUSE)

    def kill(self):
        self.process.send_signal(signal.SIGKILL)

    def stop(self):
        self.stops = True
        self.process.kill()
        self.join()


class Client(threading.Thread):
    """Has one session after the other until the time is over, and counts how they ended."""

    def __init__(self, seed, options, end, ca):
        super().__init__(daemon=True)
        self.dice, self.solves, self.end, self.ca = random.Random(seed), options.solves, end, ca
        self.ends, self.waited = collections.Counter(), 0.0
        self.load = load_of("plan")

    def run(self):
        while time.monotonic() < self.end:
            started, word = time.monotonic(), None
            while word != "done":
                if word:
                    time.sleep(PAUSE)
                word = self.session()
                self.ends[word] += 1
            self.waited = max(self.waited, time.monotonic() - started)

    def session(self):
        """How a session ended."""
        replies = 0
        try:
            with Link(HOST, FRONT, PATIENCE, self.ca) as link:
                for command in self.commands():
                    reply = link.ask(command)
                    if reply.startswith((b"ERR", b"MEMORY")):
                        sys.exit(f"{command[:20]!r} was answered {reply!r}")
                    replies += 1
            return "done"
        except Ended as why:
            if "within" in str(why):
                return "late"
            return "within" if replies else "before"

    def commands(self):
        yield self.load
        for _ in range(self.solves):
            yield b"SETRHS DEM01 %d\n" % self.dice.randint(10, 40)
            yield b"SOLVE\n"
        yield b"QUIT\n"


def measured(options, room, each, kills):
    """The clients, after their time, and how often servers were started."""
    keepers = [Keeper(options.program, port, links) for port, links in zip(PORTS, each)]
    time.sleep(2 * PAUSE)
    nowhere = subprocess.DEVNULL
    proxy = subprocess.Popen(["haproxy", "-f", str(CONFIGURATION)], cwd=room, stdout=nowhere, stderr=nowhere)
    try:
        time.sleep(1)
        started = time.monotonic()
        clients = [Client(seed, options, started + options.seconds, room / "cert.pem") for seed in range(options.clients)]
        for client in clients:
            client.start()
        for at in range(1, kills + 1):
            time.sleep(max(0.0, started + options.seconds * at / (kills + 1) - time.monotonic()))
            keepers[0].kill()
        for client in clients:
            client.join(options.seconds + 2 * PATIENCE)
    finally:
        proxy.terminate()
        proxy.wait()
        for keeper in keepers:
            keeper.stop()
    return clients, sum(keeper.starts for keeper in keepers)


def table(options, room):
    heads = ["Servers", "Links each", "Starts", "Sessions", "Done", "Ended before a reply", "Ended later", "Late"]
    heads += ["Waited, s"]
    yield "| " + " | ".join(heads) + " |"
    yield "|---" * len(heads) + "|"
    for name, (each, kills) in CASES.items():
        clients, starts = measured(options, room, each, kills)
        ends = sum((client.ends for client in clients), collections.Counter())
        cells = [name, " and ".join(f"{links:,}" for links in each), str(starts), f"{sum(ends.values()):,}"]
        cells += [f"{ends[word]:,}" for word in ("done", "before", "within", "late")]
        yield "| " + " | ".join([*cells, f"{max(client.waited for client in clients):.2f}"]) + " |"


def make_certificate(room):
    command = "openssl req -x509 -newkey rsa:2048 -nodes -keyout key.pem -out cert.pem -days 2 -subj /CN=localhost"
    subprocess.run([*command.split(), "-addext", f"subjectAltName=IP:{HOST}"], cwd=room, check=True, capture_output=True)
    (room / "lpd.pem").write_bytes((room / "cert.pem").read_bytes() + (room / "key.pem").read_bytes())


def main():
    options = argparse.ArgumentParser(description=__doc__, formatter_class=argparse.RawDescriptionHelpFormatter)
    options.add_argument("--program", default=os.environ.get("LPD", PROGRAM))
    options.add_argument("--seconds", type=float, default=10.0)
    options.add_argument("--clients", type=int, default=8)
    options.add_argument("--solves", type=int, default=20)
    options.add_argument("--write", type=pathlib.Path)
    options = options.parse_args()
    options.program = options.program.split()
    for name in ("haproxy", "openssl"):
        if not shutil.which(name):
            sys.exit(f"{name} is not on the path")
    with tempfile.TemporaryDirectory(prefix="lpd-proxy-") as place:
        room = pathlib.Path(place)
        make_certificate(room)
        lines = shown(table(options, room))
    return ended(options.write, BEGIN, END, lines)


if __name__ == "__main__":
    sys.exit(main())
