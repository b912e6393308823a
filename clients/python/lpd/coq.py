"""Runs Coq on the files that `theorem` writes, and compiles what they stand on, the folder coq/ of the repository."""
from __future__ import annotations

import fcntl
import os
import re
import shutil
import subprocess
import tempfile
from pathlib import Path
from typing import Callable, List, NamedTuple, Optional

from .errors import LpdError

REPOSITORY = Path(__file__).resolve().parents[3]
CLOSED = "Closed under the global context"
# What Coq takes for the name of a file.
NAME = re.compile(r"[A-Za-z_][A-Za-z0-9_']*\.v\Z")
LONGEST_LINE = 160


class CoqMissing(LpdError):
    """There is no coqc, or no folder coq/."""


class NotProved(LpdError):
    """Coq does not accept the theorem, or not without assumptions."""

    ends_with = 1


class Ran(NamedTuple):
    """What coqc said, and its status."""

    said: str
    complaint: str
    status: int


def library() -> Path:
    """The folder that $LPD_COQ names, or that of this repository or this unpacked release."""
    found = Path(os.environ.get("LPD_COQ") or REPOSITORY / "coq")
    if not (found / "_CoqProject").exists():
        raise CoqMissing(f"there is no folder {found} with Coq's sources: name it in the environment variable LPD_COQ")
    return found


def sources(folder: Path) -> List[Path]:
    """Its files, each behind those that it stands on."""
    lines = (folder / "_CoqProject").read_text(encoding="ascii").splitlines()
    return [folder / line for line in lines if line.endswith(".v")]


def coqc(words: List[str], folder: Path, seconds: Optional[float] = None) -> Ran:
    program = shutil.which("coqc")
    if program is None:
        raise CoqMissing("coqc is not on the path: Debian's package coq has it")
    command = [program, "-q", "-Q", str(library().resolve()), "Lpd", *words]
    try:
        done = subprocess.run(command, cwd=folder, capture_output=True, timeout=seconds, stdin=subprocess.DEVNULL)
    except subprocess.TimeoutExpired:
        raise NotProved(f"Coq had no answer within {seconds:g} seconds") from None
    said, complaint = (text.decode("utf-8", "replace") for text in (done.stdout, done.stderr))
    return Ran(said, complaint, done.returncode)


def unsaid(_: str) -> None:
    pass


def compile_library(tell: Callable[[str], None] = unsaid) -> None:
    """Compiles the files of the folder that are newer than what was compiled of them, one process at a time, and tells before the first
    one that it does."""
    folder, is_told = library(), False
    with open(folder / "_CoqProject", encoding="ascii") as held:
        fcntl.flock(held, fcntl.LOCK_EX)
        last = 0.0
        for source in sources(folder):
            made = source.with_suffix(".vo")
            last = max(last, source.stat().st_mtime)
            if not made.exists() or made.stat().st_mtime < last:
                if not is_told:
                    is_told = True
                    tell(f"note: Coq compiles the files of {folder} first, once, which takes a minute or two")
                ran = coqc([source.name], folder)
                if ran.status:
                    raise NotProved(f"Coq does not compile {source}: {shortened(ran.complaint)}")
            last = max(last, made.stat().st_mtime)


def shortened(complaint: str) -> str:
    """What Coq complains of, where a line may have a whole certificate in it."""
    return "\n".join(line[:LONGEST_LINE] for line in complaint.strip().splitlines()[:12])


def prove(path: Path, seconds: Optional[float] = None, tell: Callable[[str], None] = unsaid) -> None:
    """Has Coq prove the file, whose last command is Print Assumptions. NotProved says why it does not, or that the theorem rests on
    assumptions."""
    compile_library(tell)
    with tempfile.TemporaryDirectory() as room:
        copy = Path(room) / "answer.v"
        shutil.copyfile(path, copy)
        ran = coqc(["-noglob", copy.name], Path(room), seconds)
    if ran.status:
        raise NotProved(f"Coq does not accept {path}: {shortened(ran.complaint)}")
    if ran.said.strip() != CLOSED:
        raise NotProved(f"the theorem of {path} rests on assumptions: {shortened(ran.said)}")
