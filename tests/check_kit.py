#!/usr/bin/env python3
"""Checks that the program stands on the kit's crates that docs/ARCHITECTURE.md names.

    check_kit.py

Each crate in the table under "Crates of the kit" has to be named in the line of crates.txt, and in a `use` of the sources,
of a crate that the program stands on; and each crate of the kit that such a crate names in crates.txt has to be in the
table. docs/TRUST.md says under "What is trusted" that these crates are. It prints what is not so; the status is 1 where
something is.
"""
import re
import sys
from pathlib import Path

TOP = Path(__file__).resolve().parent.parent
sys.path.insert(0, str(TOP / "tools"))

from count_definitions import crates_below  # noqa: E402
from helping import helps  # noqa: E402

PROGRAM = "lpd"


def standing(lines):
    """The crates of the repository that the program stands on, and itself."""
    found, left = set(), [PROGRAM]
    while left:
        crate = left.pop()
        if crate in lines and crate not in found:
            found.add(crate)
            left += lines[crate]
    return found


def uses(crate, name):
    sources = (TOP / "crates" / crate / "src").rglob("*.rt")
    return any(re.search(rf"^\s*use {name}::", path.read_text(encoding="utf-8"), re.M) for path in sources)


def named():
    """The crates of the kit in the table of docs/ARCHITECTURE.md."""
    text = (TOP / "docs" / "ARCHITECTURE.md").read_text(encoding="utf-8")
    section = text.partition("### Crates of the kit")[2].partition("\n#")[0]
    return set(re.findall(r"^\| `(\w+)` \|", section, re.M))


def trusted():
    """The crates of the kit that docs/TRUST.md says are trusted."""
    text = (TOP / "docs" / "TRUST.md").read_text(encoding="utf-8")
    section = text.partition("## What is trusted\n")[2].partition("\n#")[0]
    return set(re.findall(r"`(\w+)`", section))


def complaints():
    lines, kit = crates_below(), named()
    crates = standing(lines)
    for name in sorted(kit):
        if not any(name in lines[crate] and uses(crate, name) for crate in crates):
            yield f"docs/ARCHITECTURE.md names {name} of the kit, but no crate below {PROGRAM} uses it"
    for name in sorted({name for crate in crates for name in lines[crate]} - set(lines) - kit):
        yield f"a crate below {PROGRAM} names {name} of the kit, but docs/ARCHITECTURE.md does not"
    for name in sorted(kit - trusted()):
        yield f"docs/TRUST.md does not say that {name} of the kit is trusted"
    for name in sorted(trusted() - kit):
        yield f"docs/TRUST.md says that {name} is trusted, but docs/ARCHITECTURE.md does not name it"
    if not kit:
        yield "docs/ARCHITECTURE.md has no table of the kit's crates"


def main():
    found = list(complaints())
    for complaint in found:
        print(complaint)
    sys.exit(1 if found else 0)


if __name__ == "__main__":
    helps(__doc__)
    main()
