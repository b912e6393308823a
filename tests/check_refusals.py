#!/usr/bin/env python3
"""Checks that each wrong body of must-fail/ was refused, and for what it changes.

    check_refusals.py <LOG     what `rt ci` wrote

A wrong body in crates/CRATE/must-fail/ may leave out what it does not need: lines put `#[cfg(test)]` before an item, or make
a comment of a file of specs/ or proofs/ (tools/edits.py). Then the crate's check is of the rest alone. `rt ci` fails where
a wrong body is still proved, but not where it no longer compiles; and a crate may also be refused because too much was left
out. So each has to have a line that it was refused, and the first fault that stands there has to be in the file that the
wrong body changes, or in a proof of it. It prints what is not so; the status is 1 where something is.
"""
import re
import sys
from pathlib import Path

TOP = Path(__file__).resolve().parent.parent
sys.path.insert(0, str(TOP / "tools"))

from edits import leaves_out, pairs_of  # noqa: E402
from helping import helps  # noqa: E402

TRIED = re.compile(r"^rt: must-fail (\w+/[\w.-]+\.edit): (.*)$", re.M)
REFUSED = re.compile(r"refused, as it must be(?: \([^)]*\))?(?:: (?:note: )?(?:\./)?(\S+?):\d+:\d+: )?")


def changed(edit: Path) -> set[str]:
    """The files whose code an edit changes, but for lines that leave something out."""
    return {file for file, old, new in pairs_of(edit.read_text(encoding="utf-8")) if not leaves_out(old, new)}


def is_of(place: str, files: set[str]) -> bool:
    """Whether a fault in this file is one of these files, or of a proof of theirs."""
    modules = [re.sub(r"^src/|(/mod|/?lib|/?main)?\.rt$", "", file) for file in files]
    return place in files or any(place.startswith(f"proofs/{module}/" if module else "proofs/") for module in modules)


def complaints(log: str):
    told = dict(TRIED.findall(log))
    for edit in sorted((TOP / "crates").glob("*/must-fail/*.edit")):
        name = f"{edit.parts[-3]}/{edit.name}"
        refused = REFUSED.match(told.get(name, ""))
        if not refused or "only because a proof file names" in told[name]:
            yield f"{name} was not refused by a contract: {told.get(name, 'nothing is said of it')[:200]}"
        elif refused[1] and not is_of(refused[1], changed(edit)):
            yield f"{name} was refused for a fault in {refused[1]}, which it does not change"


def main() -> int:
    helps(__doc__)
    found = list(complaints(sys.stdin.read()))
    print(*found, sep="\n", end="\n" if found else "")
    return 1 if found else 0


if __name__ == "__main__":
    sys.exit(main())
