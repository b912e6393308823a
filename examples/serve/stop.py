#!/usr/bin/env python3
"""Has a server of lpd end by itself, after the connections that are open.

    stop.py [--seconds S] HOST:PORT

A server ends once each of its workers has served its connections. So this makes connections that say QUIT alone, one after the
other, until the server takes no more. A connection that is open keeps its worker, and is served to its end; those that come
meanwhile are served too. Then the server writes the lines of all connections, with status 0. Where it has not ended after S
seconds (60), the status is 1.
"""
from __future__ import annotations

import argparse
import socket
import sys
import time
from typing import Tuple


def quits(address: Tuple[str, int], end: float) -> None:
    """One connection, from its start to its end. Where no worker is free it waits."""
    with socket.create_connection(address, max(0.01, end - time.monotonic())) as link:
        link.sendall(b"QUIT\n")
        while link.recv(4096):
            link.settimeout(max(0.01, end - time.monotonic()))


def has_ended(address: Tuple[str, int], seconds: float) -> bool:
    """Whether the server takes no more connections within so many seconds."""
    end = time.monotonic() + seconds
    while time.monotonic() < end:
        try:
            quits(address, end)
        except ConnectionRefusedError:
            return True
        except OSError:
            pass  # the server ended, or no worker was free in time: the next link tells
    return False


def address_of(word: str) -> Tuple[str, int]:
    host, _, port = word.rpartition(":")
    if not host or not port.isdecimal():
        raise argparse.ArgumentTypeError(f"{word} is no HOST:PORT")
    return host.strip("[]"), int(port)


def main() -> int:
    parser = argparse.ArgumentParser(description=__doc__, formatter_class=argparse.RawDescriptionHelpFormatter)
    parser.add_argument("address", metavar="HOST:PORT", type=address_of)
    parser.add_argument("--seconds", metavar="S", type=float, default=60.0)
    words = parser.parse_args()
    if has_ended(words.address, words.seconds):
        return 0
    print(f"stop.py: the server has not ended after {words.seconds:g} seconds", file=sys.stderr)
    return 1


if __name__ == "__main__":
    sys.exit(main())
