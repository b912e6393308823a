"""The clone that a release is made of."""
from __future__ import annotations

import subprocess
from dataclasses import dataclass
from pathlib import Path
from typing import Iterator, List

TOP = Path(__file__).resolve().parent.parent.parent
PROGRAM = TOP / "crates" / "lpd" / "out" / "lpd"


class Unfit(Exception):
    """Why no release can be made."""


@dataclass(frozen=True)
class Entry:
    """A file of an archive: its path there, its bytes and whether it is a program."""

    path: str
    data: bytes
    runs: bool = False

    @property
    def mode(self) -> int:
        return 0o755 if self.runs else 0o644


@dataclass(frozen=True)
class Checkout:
    """What a clone has: its version, its commit, that commit's tree and time, and whether files were changed since."""

    version: str
    commit: str
    tree: str
    seconds: int
    is_clean: bool

    @property
    def name(self) -> str:
        """What a release names itself."""
        return f"{self.version} {self.commit}{'' if self.is_clean else ' with changes'}"


def run(*words: str) -> str:
    """What a program writes, which runs at the top of the clone."""
    try:
        done = subprocess.run(words, cwd=TOP, capture_output=True, text=True)
    except FileNotFoundError:
        raise Unfit(f"{words[0]} is not on the path") from None
    if done.returncode:
        raise Unfit(f"{' '.join(words)}: {done.stderr.strip()}")
    return done.stdout.strip()


def read_checkout() -> Checkout:
    commit, tree, seconds = run("git", "log", "-1", "--format=%H %T %ct").split()
    version = (TOP / "VERSION").read_text(encoding="ascii").strip()
    return Checkout(version, commit, tree, int(seconds), run("git", "status", "--porcelain") == "")


def committed(*places: str) -> List[str]:
    """The paths of the files of the repository that are at or below these places, in their order."""
    return sorted(path for path in run("git", "ls-files", "--", *places).splitlines() if not (TOP / path).is_symlink())


def entries(paths: List[str], under: str = "", within: str = "") -> Iterator[Entry]:
    """Files of the repository, with their paths below `within` put below `under`."""
    for path in paths:
        file = TOP / path
        yield Entry(under + path[len(within) :], file.read_bytes(), runs=bool(file.stat().st_mode & 0o100))
