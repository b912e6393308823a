"""Servers on 127.0.0.1 for tests. Each has a thread and a port of its own, serves one connection, and ends with it."""
import socket
import threading
from typing import Callable, Iterator, List

from lpd.model import words_of
from lpd.program import Program
from lpd.session import encoded

HOST = "127.0.0.1"
SECONDS = 120.0  # for what comes at once, but on a machine that is busy
Serve = Callable[[socket.socket], object]


class Server(threading.Thread):
    """Serves the first connection that comes within some seconds."""

    def __init__(self, serve: Serve) -> None:
        super().__init__(daemon=True)
        self.serve = serve
        self.listener = socket.create_server((HOST, 0))
        self.listener.settimeout(SECONDS)
        self.port: int = self.listener.getsockname()[1]
        self.start()

    def run(self) -> None:
        try:
            with self.listener:
                link, _ = self.listener.accept()
            with link:
                link.settimeout(SECONDS)
                self.serve(link)
        except OSError:
            pass  # no client came, or it has gone


def body_ends(words: List[str], line: str) -> bool:
    """Whether this line is the last one of the body of a command with these words."""
    if words[0] == "LOAD":
        return line[:1] not in (" ", "\t") and words_of(line)[:1] == ["ENDATA"]
    return words_of(line) == ["END"]


def commands(link: socket.socket) -> Iterator[List[str]]:
    """The lines of each command with its body, until the client closes the connection."""
    with link.makefile("rb") as source:
        lines = (line.decode("latin-1").rstrip("\n") for line in source)
        for line in lines:
            words, command = words_of(line), [line]
            if not words or line.startswith("#"):
                continue
            for body_line in lines if words[0] in ("LOAD", "CHECK") else ():
                command.append(body_line)
                if body_ends(words, body_line):
                    break
            yield command


def by_program(link: socket.socket) -> None:
    """Replies what a program does, to which each command goes with the number 1 in front."""
    with Program() as program:
        for command in commands(link):
            program.send(encoded([f"1 {command[0]}", *command[1:]]))
            reply = [program.line()[2:]]
            words = reply[0].split(" ")
            reply += [program.line() for _ in range(int(words[1]) if words[0] in ("TEXT", "CERT", "WIDE") else 0)]
            link.sendall(encoded(reply))
            if words == ["BYE"]:
                return


def by_bytes(*replies: bytes, stays: bool = False) -> Serve:
    """Sends these bytes, some for each command, and then closes the connection, or waits until the client does."""

    def serve(link: socket.socket) -> None:
        asked = commands(link)
        for reply, _ in zip(replies, asked):
            link.sendall(reply)
        if stays:
            list(asked)

    return serve
