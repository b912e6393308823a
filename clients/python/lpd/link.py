"""A TCP connection, which holds one session: commands and replies as in docs/PROTOCOL.md, without a session's number."""
from __future__ import annotations

import socket
import time
from collections import deque
from typing import Deque, List, Optional, Sequence

from .errors import ConnectFailed, LinkClosed, LinkFailed, LinkTimeout

# No line of a reply, and no reply, is longer in bytes: a peer that sends more is no server of this protocol.
LONGEST_LINE = 2**16
LONGEST_REPLY = 2**26
PIECE = 2**16
TIMEOUT = 60.0


class NotEncrypted(Exception):
    """Why a connection is not encrypted as it should be."""


def encrypted(link: socket.socket, host: str, ca: Optional[str]) -> socket.socket:
    import ssl  # here, since that takes long and few links need it

    try:
        return ssl.create_default_context(cafile=ca).wrap_socket(link, server_hostname=host)
    except ssl.SSLError as error:
        raise NotEncrypted(getattr(error, "verify_message", "") or error.reason or str(error)) from None


class Link:
    """A connection to the server at this address. Connecting, and each reply from its command to its last byte, may take
    `timeout` seconds; how long a host's name is looked up is the system's matter. After a fault the connection is closed, since
    what would come next is not the next command's reply. With `tls` it is encrypted, and the certificate of the other side has
    to be for the host, and one that the file `ca` vouches for, or without it the system."""

    def __init__(self, host: str, port: int, timeout: float = TIMEOUT, tls: bool = False, ca: Optional[str] = None) -> None:
        self.peer, self.timeout = f"{host}:{port}", timeout
        self.is_taken = False
        self.lines: Deque[bytes] = deque()
        self.rest = b""
        self.received = 0
        self.deadline = 0.0
        self.socket: Optional[socket.socket] = None
        try:
            self.socket = socket.create_connection((host, port), timeout)
            self.socket.setsockopt(socket.IPPROTO_TCP, socket.TCP_NODELAY, 1)
            if tls or ca:
                self.socket = encrypted(self.socket, host, ca)
        except NotEncrypted as why:
            self.close()
            raise ConnectFailed(f"the connection to {self.peer} is not encrypted as it should be: {why}") from None
        except socket.timeout:
            self.close()
            raise ConnectFailed(f"{self.peer} does not answer within {timeout} seconds") from None
        except OSError as error:
            self.close()
            raise ConnectFailed(f"there is no connection to {self.peer}: {error.strerror or error}") from None

    def begin_session(self) -> List[str]:
        """No words stand in front of a command."""
        if self.is_taken:
            raise ValueError("a connection has one session: connect once more for another")
        self.is_taken = True
        return []

    def end_session(self, front: Sequence[str]) -> None:
        self.close()

    def send(self, command: bytes) -> None:
        """Sends the lines of one command."""
        unasked = self.unasked()
        if unasked:
            raise self.failed(LinkFailed(f"{self.peer} sent {unasked[:120]!r} when nothing was asked"))
        self.deadline, self.received = time.monotonic() + self.timeout, 0
        link = self.within()
        try:
            link.sendall(command)
        except socket.timeout:
            raise self.late() from None
        except OSError as error:
            raise self.ended(error) from None

    def line(self) -> str:
        """The next line of the reply."""
        while not self.lines:
            data = self.receive()
            self.received += len(data)
            *lines, self.rest = (self.rest + data).split(b"\n")
            self.lines.extend(lines)
            if len(self.rest) > LONGEST_LINE or self.received > LONGEST_REPLY:
                raise self.failed(LinkFailed(f"{self.peer} sends without an end, which is no reply"))
        return self.lines.popleft().decode("latin-1")

    def close(self) -> None:
        if self.socket is not None:
            self.socket.close()
            self.socket = None

    def unasked(self) -> bytes:
        """What came since the end of the last reply. It would be taken for the reply to the next command."""
        if self.socket is not None and not self.lines and not self.rest:
            self.socket.settimeout(0)
            try:
                self.rest = self.socket.recv(PIECE)
            except OSError:
                pass  # nothing came, or the link has ended, as the next step will find
        return b"\n".join([*self.lines, self.rest])

    def receive(self) -> bytes:
        link = self.within()
        try:
            data = link.recv(PIECE)
        except socket.timeout:
            raise self.late() from None
        except OSError as error:
            raise self.ended(error) from None
        if not data:
            raise self.ended()
        return data

    def within(self) -> socket.socket:
        """The socket, which waits for what is left of the time."""
        if self.socket is None:
            raise LinkClosed(f"the connection to {self.peer} is closed")
        left = self.deadline - time.monotonic()
        if left <= 0:
            raise self.late()
        self.socket.settimeout(left)
        return self.socket

    def late(self) -> LinkFailed:
        return self.failed(LinkTimeout(f"{self.peer} sent no whole reply within {self.timeout} seconds"))

    def ended(self, error: Optional[OSError] = None) -> LinkFailed:
        why = f": {error.strerror}" if error and error.strerror else ""
        return self.failed(LinkClosed(f"{self.peer} closed the connection before it replied{why}"))

    def failed(self, fault: LinkFailed) -> LinkFailed:
        """The fault, after which the connection is closed and has nothing more to read."""
        self.close()
        self.lines.clear()
        self.rest = b""
        return fault
