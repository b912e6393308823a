#!/usr/bin/env python3
"""Says which files of lemmas lack a line on one of their lemmas.

    check_proofs.py [CRATE ..]     of these crates, or of all

A file of proofs that has two public lemmas or more lists them at its head, in their order: behind the sentence on the file and an
empty line of comment there is for each a line of its name and what it says, which may go on in lines further in:

    -- Sums of products.
    --
    -- `sum_zero`: a sum of zeros is 0.
    -- `sum_swap`: the two terms of a sum may change places.

A file called Answers.antt is left out: its names are those of goals of the function that its folder names. The status is 1 where a
name is missing, out of order, or of no lemma of the file.
"""
import re
import sys
from pathlib import Path

TOP = Path(__file__).resolve().parent.parent
LEMMA = re.compile(r"^pub (\S+)(?: :|$)", re.M)
ENTRY = re.compile(r"^-- `([^`\s]+)`: \S.*$", re.M)


def head_of(text: str) -> str:
    """The lines of comment at the top of a file."""
    lines = text.splitlines()
    end = next((k for k, line in enumerate(lines) if not line.startswith("--")), len(lines))
    return "\n".join(lines[:end])


def fault_of(text: str) -> str | None:
    """What is wrong with the head of a file of proofs, or None."""
    lemmas = [name for name in LEMMA.findall(text) if name not in ("record", "data")]
    if len(lemmas) < 2:
        return None
    listed = ENTRY.findall(head_of(text))
    for name in lemmas:
        if name not in listed:
            return f"its head has no line on `{name}`"
    for name in listed:
        if name not in lemmas:
            return f"its head has a line on `{name}`, which is no public lemma of it"
    return None if listed == lemmas else "its head has the lemmas in another order"


def main() -> int:
    if any(word.startswith("-") for word in sys.argv[1:]):
        print(__doc__)
        return 0 if sys.argv[1:] == ["--help"] else 2
    crates = sys.argv[1:] or sorted(path.name for path in (TOP / "crates").iterdir())
    status = 0
    for crate in crates:
        for path in sorted((TOP / "crates" / crate / "proofs").rglob("*.antt")):
            if path.name == "Answers.antt":
                continue
            fault = fault_of(path.read_text(encoding="utf-8"))
            if fault:
                print(f"{path.relative_to(TOP)}: {fault}")
                status = 1
    return status


if __name__ == "__main__":
    sys.exit(main())
