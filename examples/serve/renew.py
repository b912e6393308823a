#!/usr/bin/env python3
"""Has a server of lpd started anew behind HAProxy, and breaks off no connection.

    renew.py [--seconds S] SOCKET BACKEND/SERVER COMMAND ..

It tells HAProxy, at its stats socket, to send the server no more connections; waits until those that it has have ended; runs
COMMAND, which has to start the server anew; waits until HAProxy's check finds it; and has connections sent to it again:

    renew.py haproxy.sock servers/one systemctl restart lpd@7007

Meanwhile connections go to the other servers, or wait in HAProxy's queue. Where the connections have not ended after S (3600)
seconds, nothing is started anew, and the server gets connections again. The status is that of COMMAND, or 1.
"""
from __future__ import annotations

import argparse
import csv
import socket
import subprocess
import sys
import time
from typing import Callable, Dict

# How often HAProxy is asked, and how long it may take to find the server after COMMAND.
PAUSE, STARTS = 0.1, 60.0
# HAProxy's checks come every half a second: after so long what it says of the server is of the new one.
CHECKED = 1.5


class Failed(Exception):
    """Why the server was not started anew."""


class Proxy:
    """The stats socket of HAProxy, and one server."""

    def __init__(self, path: str, server: str) -> None:
        self.path, self.server = path, server

    def ask(self, command: str) -> str:
        with socket.socket(socket.AF_UNIX) as link:
            link.connect(self.path)
            link.sendall(f"{command}\n".encode())
            return b"".join(iter(lambda: link.recv(65536), b"")).decode().strip()

    def set_state(self, state: str) -> None:
        said = self.ask(f"set server {self.server} state {state}")
        if said:
            raise Failed(f"HAProxy says: {said}")

    def give_links(self) -> None:
        """Has connections sent to the server again. HAProxy 2.6 gives a server that was drained none of those that wait, until one
        more comes; to a server that comes out of maintenance it gives them at once."""
        self.set_state("maint")
        self.set_state("ready")

    def row(self) -> Dict[str, str]:
        """What HAProxy counts of the server."""
        table = self.ask("show stat").removeprefix("# ").splitlines()
        for row in csv.DictReader(table):
            if f"{row['pxname']}/{row['svname']}" == self.server:
                return row
        raise Failed(f"HAProxy has no server {self.server}")

    def is_empty(self) -> bool:
        row = self.row()
        return row["scur"] == row["qcur"] == "0"

    def is_found(self) -> bool:
        """Whether its last check was met."""
        return self.row()["check_status"] == "L4OK"


def wait(what: Callable[[], bool], seconds: float) -> bool:
    """Whether it holds before so many seconds are over, two times one after the other."""
    end, held = time.monotonic() + seconds, 0
    while held < 2 and time.monotonic() < end:
        held = held + 1 if what() else 0
        time.sleep(PAUSE)
    return held == 2


def renew(proxy: Proxy, command: "list[str]", seconds: float) -> int:
    proxy.set_state("drain")
    try:
        if not wait(proxy.is_empty, seconds):
            raise Failed(f"{proxy.server} still has connections after {seconds:g} seconds")
        status = subprocess.run(command).returncode
        time.sleep(CHECKED)
        if not wait(proxy.is_found, STARTS):
            raise Failed(f"{proxy.server} does not listen {STARTS:g} seconds after {' '.join(command)}")
    finally:
        proxy.give_links()
    return status


def main() -> int:
    options = argparse.ArgumentParser(description=__doc__, formatter_class=argparse.RawDescriptionHelpFormatter)
    options.add_argument("--seconds", type=float, default=3600.0)
    options.add_argument("socket")
    options.add_argument("server", metavar="BACKEND/SERVER")
    options.add_argument("command", nargs=argparse.REMAINDER)
    words = options.parse_args()
    if not words.command:
        options.error("there is no COMMAND")
    try:
        return renew(Proxy(words.socket, words.server), words.command, words.seconds)
    except (Failed, OSError) as why:
        print(f"renew.py: {why}", file=sys.stderr)
        return 1


if __name__ == "__main__":
    sys.exit(main())
