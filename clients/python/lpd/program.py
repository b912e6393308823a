"""The program `lpd run` as a process that replies as lines come."""
from __future__ import annotations

import functools
import os
import select
import shutil
import subprocess
import tempfile
import time
from pathlib import Path
from types import TracebackType
from typing import IO, List, Optional, Sequence, Tuple, Type

from .errors import ProgramEnded, ProgramMissing, Unexpected

REPOSITORY = Path(__file__).resolve().parents[3]
SESSIONS = 64
# A program that is asked for nothing but BYE, or whose input has ended, has so many seconds.
SECONDS = 20.0


def home() -> Tuple[Optional[Path], str]:
    """Where this repository, or this unpacked release, has its program, and what to do where there is none."""
    if (REPOSITORY / "crates.txt").exists():
        return REPOSITORY / "crates" / "lpd" / "out" / "lpd", "build it with ./lpd build"
    if (REPOSITORY / "VERSION").exists():
        return REPOSITORY / "lpd", "unpack the release anew"
    return None, "install it"


def find_program() -> str:
    """The program that $LPD names, or that this repository or this unpacked release has, or that is on the path as lpd."""
    place, help = home()
    found = os.environ.get("LPD") or (str(place) if place and os.access(place, os.X_OK) else shutil.which("lpd"))
    if not found:
        raise ProgramMissing(f"there is no program lpd: {help}, or name it in the environment variable LPD")
    return found


def the_program() -> str:
    """The program that is found. Where it is not lpd, ProgramMissing says within seconds what it did instead."""
    found = find_program()
    wrong = wrong_about(found)
    if wrong:
        named = ", which the environment variable LPD names," if found == os.environ.get("LPD") else ""
        raise ProgramMissing(f"{found}{named} is not lpd: {wrong}")
    return found


@functools.lru_cache(maxsize=None)
def wrong_about(path: str) -> str:
    """What a program does instead of what lpd does with a session that quits at once; nothing where it is lpd."""
    try:
        process = subprocess.Popen([path, "run"], stdin=subprocess.PIPE, stdout=subprocess.PIPE, stderr=subprocess.DEVNULL)
    except OSError as error:
        return f"it does not start ({error.strerror})"
    try:
        asked, replied = process.stdin, process.stdout
        if asked is None or replied is None:
            return "it has no pipes"
        try:
            asked.write(b"1 QUIT\n")
            asked.close()
        except BrokenPipeError:
            pass  # what it wrote says more
        said = first_bytes(replied, 64)
    finally:
        process.kill()
        process.wait()
        if process.stdout is not None:
            process.stdout.close()
    if said is None:
        return f"it does not reply to '1 QUIT' within {SECONDS:g} seconds"
    return "" if said == b"1 BYE\n" else f"it replies {said.decode('latin-1')[:40]!r} to '1 QUIT'"


def first_bytes(source: IO[bytes], most: int) -> Optional[bytes]:
    """The first bytes that come until the end, or None where neither comes in time."""
    got, end = b"", time.monotonic() + SECONDS
    while len(got) < most:
        ready, _, _ = select.select([source], [], [], max(0.0, end - time.monotonic()))
        if not ready:
            return None
        piece = os.read(source.fileno(), most - len(got))
        if not piece:
            break
        got += piece
    return got


class Program:
    """A running `lpd run`, which holds up to 64 sessions. As a context manager it ends the program."""

    def __init__(self, path: Optional[str] = None) -> None:
        self.path = path or the_program()
        self.complaints = tempfile.TemporaryFile()
        try:
            self.process = subprocess.Popen([self.path, "run"], stdin=subprocess.PIPE, stdout=subprocess.PIPE, stderr=self.complaints)
        except OSError as error:
            self.complaints.close()
            raise ProgramMissing(f"{self.path} does not start: {error.strerror}") from None
        self.free = list(range(SESSIONS, 0, -1))

    def __enter__(self) -> Program:
        return self

    def __exit__(self, kind: Optional[Type[BaseException]], error: Optional[BaseException], trace: Optional[TracebackType]) -> None:
        self.close()

    def begin_session(self) -> List[str]:
        """The number of a session that nobody has, which stands in front of its commands and replies."""
        if not self.free:
            raise ValueError(f"the program has {SESSIONS} sessions, and all are in use: close one")
        return [str(self.free.pop())]

    def end_session(self, front: Sequence[str]) -> None:
        self.free += [int(number) for number in front]

    def send(self, command: bytes) -> None:
        """Sends the lines of one command."""
        source, _ = self.pipes()
        try:
            source.write(command)
            source.flush()
        except (BrokenPipeError, ValueError):
            raise self.ended() from None

    def line(self) -> str:
        """The next line of the reply."""
        _, sink = self.pipes()
        line = sink.readline()
        if not line.endswith(b"\n"):
            raise self.ended()
        return line[:-1].decode("latin-1")

    def close(self) -> None:
        """Ends the input of the program, and waits for its end. One that still works on what nobody waits for is ended."""
        source, sink = self.pipes()
        if not source.closed:
            try:
                source.close()
            except BrokenPipeError:
                pass
            self.wait()
            sink.close()
            self.complaints.close()

    def wait(self) -> int:
        """The status of the program, which ends by itself within seconds, or is ended."""
        try:
            return self.process.wait(SECONDS / 2)
        except subprocess.TimeoutExpired:
            self.process.kill()
            return self.process.wait()

    def pipes(self) -> "tuple[IO[bytes], IO[bytes]]":
        if self.process.stdin is None or self.process.stdout is None:
            raise Unexpected("the program has no pipes")
        return self.process.stdin, self.process.stdout

    def ended(self) -> ProgramEnded:
        """Why there is no reply. The program has ended, or it is ended here."""
        status = self.wait()
        said = b""
        if not self.complaints.closed:
            self.complaints.seek(0)
            said = self.complaints.read()
        return ProgramEnded(status, said.decode("latin-1").strip())


def run(script: str, path: Optional[str] = None) -> str:
    """The output of a whole script. A status other than 0 raises ProgramEnded."""
    done = subprocess.run([path or the_program(), "run"], input=script.encode("latin-1"), capture_output=True)
    if done.returncode:
        raise ProgramEnded(done.returncode, done.stderr.decode("latin-1").strip())
    return done.stdout.decode("latin-1")
