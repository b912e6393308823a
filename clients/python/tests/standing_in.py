"""Programs that stand in for the built one, and know `lpd check --wide` or `lpd solve --wide`, or do not, whatever that one does."""
import contextlib
import os
import sys
import tempfile
from pathlib import Path
from typing import Iterator
from unittest import mock

import lpd
from lpd.certificate import check_lines
from lpd.model import lines_of, read_lines
from lpd.once import has_command
from lpd.program import find_program

PACKAGE = Path(__file__).resolve().parents[1]
SCRIPT = """#!/bin/sh
case "$1 $2" in
"{command}") {wide} ;;
*) exec "{program}" "$@" ;;
esac
"""
CHECKS = f'PYTHONPATH="{PACKAGE}" exec "{sys.executable}" -m tests.standing_in "$@"'
DOES_NOT_KNOW = "/bin/cat >/dev/null; exit 2"


@contextlib.contextmanager
def program(wide: str, command: str = "check --wide") -> Iterator[None]:
    """A program that does so for this command, and else as the built one does."""
    with tempfile.TemporaryDirectory() as folder:
        script = Path(folder) / "lpd"
        script.write_text(SCRIPT.format(wide=wide, command=command, program=find_program()))
        script.chmod(0o755)
        with mock.patch.dict(os.environ, {"LPD": str(script)}):
            yield


@contextlib.contextmanager
def program_with_wide() -> Iterator[None]:
    """The built program, or one that stands in where that does not know `check --wide`."""
    if has_command("check --wide"):
        yield
    else:
        with program(CHECKS):
            yield


def main() -> int:
    """`lpd check --wide` of standard input, by the checker in Python."""
    lines = lines_of(sys.stdin.buffer.read().decode("latin-1"))
    try:
        model, count = read_lines(lines, "fixed" in sys.argv)
        print(check_lines(model, lines[count:], wide=True))
    except lpd.Refused as refused:
        print(refused.reply)
        return 9
    return 0


if __name__ == "__main__":
    sys.exit(main())
