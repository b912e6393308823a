"""Which lpd this is: its version, and the commit that it is of."""
from __future__ import annotations

import argparse
import subprocess
from pathlib import Path
from typing import Optional

REPOSITORY = Path(__file__).resolve().parents[3]
# A release has this file, which no repository has.
RELEASE = Path(__file__).with_name("RELEASE")
OID, NO_COMMIT = "# branch.oid ", "(initial)"  # of git's status


def version() -> str:
    """The version and the commit: those of the release, or of the repository that this file is in, with a + where its files
    were changed since; of an installed package that is no release, the version alone."""
    if RELEASE.exists():
        return RELEASE.read_text(encoding="ascii").strip()
    if not (REPOSITORY / "VERSION").exists():
        from importlib import metadata  # here, since that takes long

        return metadata.version("lpd")
    number = (REPOSITORY / "VERSION").read_text(encoding="ascii").strip()
    return f"{number} {commit()}".strip()


def commit() -> str:
    """The commit of the repository, or nothing where there is no git to ask. The status has both words at once, in half of the time
    that `git describe` takes."""
    try:
        asked = ["git", "--no-optional-locks", "status", "--porcelain=v2", "--branch", "--untracked-files=no"]
        done = subprocess.run(asked, cwd=REPOSITORY, capture_output=True, text=True)
    except OSError:
        return ""
    lines = done.stdout.splitlines()
    found = next((line[len(OID) :] for line in lines if line.startswith(OID)), NO_COMMIT)
    is_changed = any(not line.startswith("#") for line in lines)
    return "" if found == NO_COMMIT else f"{found}{'+' if is_changed else ''}"


class ShowVersion(argparse.Action):
    """An option that shows the version and the commit, and ends."""

    def __call__(self, parser: argparse.ArgumentParser, words: argparse.Namespace, value: object, option: Optional[str] = None) -> None:
        print(f"lpd {version()}")
        parser.exit()
