#!/usr/bin/env python3
"""Draws functions, definitions and lemmas by chance, each with its place and its comment, for a reader who judges them.

    draw_names.py SEED [N]     N of each (20 where no number is given)

The same seed draws the same names from the same sources. The reader sees what stands here and no code. He says of each what it
does or says, what it may change, and in which crate he would look for it; where he can't, its name or its comment is to be mended.
A method of a trait of std (`drop`, `clone`, `fmt` and the like) and an answer to a goal, whose name the checker gives, are not drawn.
"""
import random
import re
import sys
from pathlib import Path

from helping import helps

TOP = Path(__file__).resolve().parent.parent
FUNCTION = re.compile(r"^ *(?:pub(?:\(crate\))? )?(?:const )?fn (\w+)")
DEFINITION = re.compile(r"^(?:(?:abbrev|unfoldable|pub|record|data) )*(\S+)(?: [({][^=]*[)}])? :")
LEMMA = re.compile(r"^(?:pub )?(\S+) :")
OF_STD = {"drop", "clone", "fmt", "next", "from", "eq", "cmp", "partial_cmp", "into_iter", "deref", "index", "default", "hash", "main"}
# Words that begin a line of a file of definitions and are no names.
NO_NAME = {"use", "mod", "infixl", "infixr", "infix", "--", "pub", "abbrev", "unfoldable", "record", "data"}


def comment_above(lines: list[str], k: int, marks: tuple[str, ...]) -> str:
    """The lines of comment right above a line, behind attributes, as one text."""
    at = k
    while at and lines[at - 1].strip().startswith("#["):
        at -= 1
    begin = at
    while begin and lines[begin - 1].strip().startswith(marks):
        begin -= 1
    return " ".join(line.strip().lstrip("/-! ").strip() for line in lines[begin:at])


def entry_at_head(lines: list[str], name: str) -> str:
    """What the head of a file of lemmas says of a lemma, if it has a line on it. What goes on in a further line stands further in."""
    head = "\n".join(line.removeprefix("--").removeprefix(" ") for line in head_of(lines))
    entry = re.search(rf"^`{re.escape(name)}`: (.*?)(?=^`|\Z)", head, re.M | re.S)
    return " ".join(entry[1].split()) if entry else ""


def first_sentence(lines: list[str]) -> str:
    """What the head of a file says of the file."""
    head = [line.removeprefix("--").strip() for line in head_of(lines)]
    return " ".join(head[:head.index("")] if "" in head else head)


def head_of(lines: list[str]) -> list[str]:
    return lines[:next((k for k, line in enumerate(lines) if not line.startswith("--")), len(lines))]


def functions(path: Path) -> list[tuple[str, str]]:
    lines = path.read_text(encoding="utf-8").splitlines()
    found = [(FUNCTION.match(line), k) for k, line in enumerate(lines)]
    return [(m[1], comment_above(lines, k, ("//",))) for m, k in found if m and m[1] not in OF_STD]


def definitions(path: Path) -> list[tuple[str, str]]:
    lines = path.read_text(encoding="utf-8").splitlines()
    found = [(DEFINITION.match(line), k) for k, line in enumerate(lines)]
    return [(m[1], comment_above(lines, k, ("--",))) for m, k in found if m and m[1] not in NO_NAME]


def lemmas(path: Path) -> list[tuple[str, str]]:
    if path.name == "Answers.antt":
        return []
    lines = path.read_text(encoding="utf-8").splitlines()
    found = [(LEMMA.match(line), k) for k, line in enumerate(lines)]
    names = [(m[1], k) for m, k in found if m and m[1] not in NO_NAME]
    return [(name, entry_at_head(lines, name) or comment_above(lines, k, ("-- ",)) or first_sentence(lines))
            for name, k in names]


def main() -> int:
    helps(__doc__)
    if not sys.argv[1:] or not all(word.isdigit() for word in sys.argv[1:]) or len(sys.argv) > 3:
        print(__doc__.strip(), file=sys.stderr)
        return 2
    seed, most = sys.argv[1], int(sys.argv[2]) if sys.argv[2:] else 20
    kinds = {"functions": ("src", "*.rt", functions), "definitions": ("specs", "*.antt", definitions),
             "lemmas": ("proofs", "*.antt", lemmas)}
    for kind, (folder, pattern, items) in kinds.items():
        found = [(path, name, said) for path in sorted((TOP / "crates").glob(f"*/{folder}/**/{pattern}"))
                 if "declared" not in path.parts for name, said in items(path)]
        print(f"\n== {most} of {len(found):,} {kind}")
        for path, name, said in random.Random(f"{seed} {kind}").sample(found, most):
            print(f"- `{name}` ({path.relative_to(TOP / 'crates')}): {said or '(no comment)'}")
    return 0


if __name__ == "__main__":
    sys.exit(main())
