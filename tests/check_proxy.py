#!/usr/bin/env python3
"""Runs HAProxy with examples/serve/haproxy.cfg before two servers on 127.0.0.1, and renews one of them under load.

    check_proxy.py [--clients N] PROGRAM

The file is taken as it is, but for its ports, in whose place free ones stand, and its certificate, which is left out. N clients
(12) connect at once, from as many addresses of the loopback as the file's limit of connections asks for, and have sessions all
the time, each of which thinks between its commands; examples/serve/renew.py starts one server anew, and then the other. It checks
that

- HAProxy takes the file, and its stats socket is for its user alone;
- each session of each client ends with BYE, and each server was started anew;
- the metrics that docs/SERVING.md names are those that HAProxy has, and one address gets no more connections than it may.

It prints what is wrong, and its status is 1 where something is. It takes some ten seconds; with --clients, which prints the counts
too, as long as it takes eight workers to serve each client.
"""
from __future__ import annotations

import argparse
import contextlib
import os
import re
import signal
import socket
import subprocess
import sys
import tempfile
import threading
import time
import urllib.request
from pathlib import Path
from typing import Dict, List, NoReturn, Tuple

TOP = Path(__file__).resolve().parent.parent
sys.path.insert(0, str(TOP / "bin"))

from talk import Ended, Link  # noqa: E402

SERVE = TOP / "examples" / "serve"
HOST, NAMES = "127.0.0.1", ("one", "two")
# The ports of haproxy.cfg: with TLS, without, the page, and the two servers.
PORTS = (7443, 7000, 7080, 7007, 7008)
MODEL = b"LOAD FREE\n" + (TOP / "examples" / "models" / "diet.mps").read_bytes()
CLIENTS, SOLVES, THINKS = 12, 5, 0.01
SECONDS, ALL_SECONDS = 120.0, 600
MOST_LINKS = 64
# Clients of one address, which may have some more links.
PER_ADDRESS = 50
LINKS_NOW = 'haproxy_frontend_current_sessions{proxy="links"}'


class Wrong(Exception):
    """What is wrong."""


def free_ports(count: int) -> List[int]:
    sockets = [socket.create_server((HOST, 0)) for _ in range(count)]
    ports = [each.getsockname()[1] for each in sockets]
    for each in sockets:
        each.close()
    return ports


class Proxy:
    """HAProxy in a folder of its own, with the example's file. As a context manager it ends HAProxy."""

    def __init__(self, room: Path) -> None:
        self.room, self.ports = room, dict(zip(PORTS, free_ports(len(PORTS))))
        text = (SERVE / "haproxy.cfg").read_text(encoding="utf-8")
        for port in PORTS:
            if f"{HOST}:{port}" not in text:
                raise Wrong(f"haproxy.cfg has no port {port}")
            text = text.replace(f"{HOST}:{port}", f"{HOST}:{self.ports[port]}")
        file = room / "haproxy.cfg"
        file.write_text(text.replace(" ssl crt lpd.pem ssl-min-ver TLSv1.2", ""), encoding="utf-8")
        self.log = open(room / "haproxy.log", "wb")
        self.process = subprocess.Popen(["haproxy", "-f", str(file)], cwd=room, stdout=self.log, stderr=self.log)

    def __enter__(self) -> Proxy:
        return self

    def __exit__(self, *_: object) -> None:
        self.process.terminate()
        self.process.wait()
        self.log.close()

    def link(self, address: str) -> Link:
        """A link from an address of the loopback."""
        return Link(HOST, self.ports[7000], SECONDS, source=address)

    def wait(self) -> None:
        """Until it has a stats socket and takes links."""
        end = time.monotonic() + SECONDS
        while time.monotonic() < end and self.process.poll() is None:
            try:
                socket.create_connection((HOST, self.ports[7080]), SECONDS).close()
                return
            except OSError:
                time.sleep(0.05)
        raise Wrong(f"HAProxy does not start: {(self.room / 'haproxy.log').read_text()}")

    def metrics(self) -> Dict[str, float]:
        with urllib.request.urlopen(f"http://{HOST}:{self.ports[7080]}/metrics", timeout=SECONDS) as page:
            lines = page.read().decode().splitlines()
        pairs = (line.rsplit(" ", 1) for line in lines if line and not line.startswith("#"))
        return {name: float(value) for name, value in pairs if value != "NaN"}


class Server:
    """A server, which `restart` ends and starts anew, as systemctl does."""

    def __init__(self, program: str, port: int) -> None:
        self.command = [program, "serve", f"{HOST}:{port}", "--workers", "4", "--each", "1000"]
        self.starts = 0
        self.start()

    def start(self) -> None:
        self.process = subprocess.Popen(self.command, stdout=subprocess.DEVNULL, stderr=subprocess.DEVNULL)
        self.starts += 1

    def restart(self) -> None:
        self.process.send_signal(signal.SIGTERM)
        self.process.wait()
        self.start()

    def stop(self) -> None:
        self.process.kill()
        self.process.wait()


class Client(threading.Thread):
    """Has sessions until it is told to stop, and keeps from when to when each was, and what went wrong."""

    def __init__(self, proxy: Proxy, number: int) -> None:
        super().__init__(daemon=True)
        self.proxy, self.address, self.stops = proxy, f"127.0.0.{2 + number // PER_ADDRESS}", False
        self.done: List[Tuple[float, float]] = []
        self.faults: List[str] = []
        self.start()

    def run(self) -> None:
        while not self.stops and not self.faults:
            try:
                self.session()
            except (Ended, Wrong) as why:
                self.faults.append(str(why))

    def session(self) -> None:
        with self.proxy.link(self.address) as link:
            begun = 0.0
            for command in [MODEL, *[b"SETRHS energy 2100\n", b"SOLVE\n"] * SOLVES, b"QUIT\n"]:
                reply = link.ask(command)
                begun = begun or time.monotonic()
                if not reply.startswith((b"LOADED", b"OK", b"OPTIMAL", b"BYE")):
                    raise Wrong(f"{command[:20]!r} was answered {reply!r}")
                time.sleep(THINKS)
            self.done.append((begun, time.monotonic()))


def renew(room: Path, name: str, server: Server) -> None:
    """By renew.py, whose command touches a file at which the server is started anew here."""
    asked = room / f"{name}.asked"
    command = ["sh", "-c", f"touch {asked}; while [ -e {asked} ]; do sleep 0.05; done"]
    words = [sys.executable, str(SERVE / "renew.py"), "--seconds", f"{SECONDS:g}", "haproxy.sock", f"servers/{name}"]
    told = subprocess.Popen([*words, *command], cwd=room, stderr=subprocess.PIPE, text=True)
    while told.poll() is None:
        if asked.exists():
            server.restart()
            asked.unlink()
        time.sleep(0.05)
    if told.returncode:
        raise Wrong(f"renew.py on {name}: {told.stderr.read() if told.stderr else ''}")


# ---- the checks


def check_renewal(room: Path, proxy: Proxy, servers: Dict[str, Server], count: int) -> str:
    """That no session is broken off or refused; how many there were."""
    if os.stat(room / "haproxy.sock").st_mode & 0o077:
        raise Wrong("others than its user may write to the stats socket")
    clients = [Client(proxy, number) for number in range(count)]
    begun = time.monotonic()
    for name, server in servers.items():
        renew(room, name, server)
    ended = time.monotonic()
    for client in clients:
        client.stops = True
    for client in clients:
        client.join(SECONDS)
    faults = [fault for client in clients for fault in client.faults]
    if faults:
        raise Wrong(f"{len(faults)} sessions were broken off or refused, the first as: {faults[0]}")
    if not all(client.done for client in clients) or any(server.starts != 2 for server in servers.values()):
        raise Wrong("not each client had a session, or not each server was started anew")
    sessions = [session for client in clients for session in client.done]
    meanwhile = sum(first < ended and last > begun for first, last in sessions)
    return (
        f"{count:,} clients had {len(sessions):,} sessions, {meanwhile:,} of them while the servers were started anew, "
        f"which took {ended - begun:.1f} s of {time.monotonic() - begun:.1f} s; each ended with BYE"
    )


def check_numbers(proxy: Proxy) -> None:
    """More links than an address may have: the last ones are refused, and all is counted."""
    page = (TOP / "docs" / "SERVING.md").read_text(encoding="utf-8")
    queries = re.findall(r"(haproxy_\w+\{[^}]*\})", page.partition("## What to watch")[2].partition("\n## ")[0])
    # the links that were there before have to be gone, since an address has only so many
    wait_for(proxy, [LINKS_NOW], [0])
    with contextlib.ExitStack() as links:
        for _ in range(MOST_LINKS + 6):
            # a link that is refused may be reset while it is made
            with contextlib.suppress(ConnectionResetError):
                links.enter_context(socket.create_connection((HOST, proxy.ports[7000]), SECONDS))
        wait_for(proxy, queries, [MOST_LINKS - 8, MOST_LINKS, 6, 0, 2])


def wait_for(proxy: Proxy, queries: List[str], wanted: List[float]) -> None:
    """Until HAProxy counts that."""
    end, found = time.monotonic() + SECONDS, None
    while found != wanted:
        if time.monotonic() > end:
            raise Wrong(f"HAProxy counts {found} of {', '.join(queries)}, and not {wanted}")
        time.sleep(0.1)
        # the page may be cut off while HAProxy is busy with what it counts
        with contextlib.suppress(OSError):
            metrics = proxy.metrics()
            found = [metrics.get(query) for query in queries]


def out_of_time(*_: object) -> NoReturn:
    raise Wrong(f"the checks are not done within {ALL_SECONDS} seconds")


def check(room: Path, program: str, count: int) -> str:
    """All checks; what was counted."""
    with Proxy(room) as proxy:
        proxy.wait()
        servers = {name: Server(program, proxy.ports[port]) for name, port in zip(NAMES, PORTS[3:])}
        try:
            time.sleep(1)
            counted = check_renewal(room, proxy, servers, count)
            check_numbers(proxy)
        finally:
            for server in servers.values():
                server.stop()
    return counted


def main() -> int:
    options = argparse.ArgumentParser(description=__doc__, formatter_class=argparse.RawDescriptionHelpFormatter)
    options.add_argument("program")
    options.add_argument("--clients", type=int, metavar="N")
    words = options.parse_args()
    signal.signal(signal.SIGALRM, out_of_time)
    signal.alarm(ALL_SECONDS)
    with tempfile.TemporaryDirectory(prefix="lpd-proxy-") as place:
        try:
            counted = check(Path(place), words.program, words.clients or CLIENTS)
        except (Wrong, OSError) as why:
            print(f"check_proxy: {why}")
            return 1
    if words.clients:
        print(f"check_proxy: {counted}")
    return 0


if __name__ == "__main__":
    sys.exit(main())
