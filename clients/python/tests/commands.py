"""Runs the commands of python3 -m lpd within a test."""
import contextlib
import io
import sys
from typing import NamedTuple
from unittest import mock

from lpd.__main__ import main
from lpd.version import version
from lpd.ways import BOTH


class Said(NamedTuple):
    status: int
    output: str
    complaints: str


class Bytes(io.TextIOWrapper):
    """Standard output, or input, whose bytes are kept."""

    def __init__(self, data: bytes = b"") -> None:
        super().__init__(io.BytesIO(data), encoding="latin-1", write_through=True)

    def data(self) -> bytes:
        self.flush()
        return self.buffer.getvalue()  # type: ignore[attr-defined, no-any-return]


def command(*words: str, stdin: bytes = b"") -> Said:
    output, complaints = Bytes(), io.StringIO()
    with mock.patch.object(sys, "stdin", Bytes(stdin)), contextlib.redirect_stdout(output), contextlib.redirect_stderr(complaints):
        try:
            status = main(list(words))
        except SystemExit as ended:
            status = int(ended.code or 0)
    return Said(status, output.data().decode("latin-1"), complaints.getvalue())


def unwrapped(text: str) -> str:
    """A report whose sentences stand in one line each."""
    return text.replace("\n  ", " ")


AS_EVER = f"This answer is by lpd solve --wide, accepted by {BOTH}: its certificate is within 127 bits."


def reported(text: str, told: str = "") -> str:
    """A report of the command solve, whose last lines say how the answer came, where that is told there, and name the version."""
    return "\n".join([text, *([told] if told else []), f"lpd {version()}", ""])
