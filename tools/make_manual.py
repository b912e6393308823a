#!/usr/bin/env python3
"""Makes the manual page docs/lpd.1 of docs/CLI.md.

    make_manual.py

It takes what stands there: headings, paragraphs, lists, tables and blocks of code. The first heading has the program's name, and what it
is. tests/check_docs.py says where the page is not up to date.
"""
import re
from pathlib import Path
from typing import Callable, Dict, Iterator, List

from helping import differing, helps, rewrite

TOP = Path(__file__).resolve().parent.parent
SOURCE = TOP / "docs" / "CLI.md"
PAGE = TOP / "docs" / "lpd.1"
HEAD = """'\\" t
.\\" Made by tools/make_manual.py of docs/CLI.md.
.TH LPD 1 "" lpd "User Commands"
.SH NAME
{name} \\- {what}
"""
# A block of code, or what stands between empty lines.
BLOCK = re.compile(r"^```\n(.*?)^```\n|^((?:(?!```)[^\n]+\n)+)", re.M | re.S)
ITEM = re.compile(r"^(?:-|(\d+\.)) (.*)$")
INLINE = re.compile(r"`([^`]+)`|\*\*([^*]+)\*\*|\[([^\]]+)\]\([^)]+\)")


def escaped(text: str) -> str:
    return text.replace("\\", "\\e").replace("-", "\\-")


def shown(found: "re.Match[str]") -> str:
    """Code and bold words in bold, and links as their words."""
    code, bold, link = found.groups()
    return link if link else f"\\fB{escaped(code or bold)}\\fP"


def safe(line: str) -> str:
    """A line that roff does not take for a request."""
    return f"\\&{line}" if line[:1] in (".", "'") else line


def prose(text: str) -> List[str]:
    """The lines of a text, one for each sentence."""
    return [safe(line) for line in re.sub(r"(?<=[^.\s][.?!]) +", "\n", INLINE.sub(shown, text)).splitlines()]


def code(text: str) -> List[str]:
    lines = [safe(escaped(re.sub(r"(^|\| )\./lpd ", r"\1lpd ", line))) for line in text.splitlines()]
    return [".PP", ".nf", ".RS", *lines, ".RE", ".fi"]


def heading(text: str) -> List[str]:
    level, words = text.split(" ", 1)
    if level == "##":
        return [f".SH {words.upper()}"]
    return [f'.SS "{escaped(words.strip("`"))}"']


def items(text: str) -> List[str]:
    found = [ITEM.match(line) for line in text.splitlines()]
    return [line for item in found if item for line in (f".IP {item[1] or chr(92) + '(bu'} 3", *prose(item[2]))]


def cells(line: str) -> List[str]:
    return [cell.strip() for cell in line.strip().strip("|").split("|")]


def table(text: str) -> List[str]:
    """A table whose last column takes what is left of the line."""
    head, _, *rows = text.splitlines()
    columns = len(cells(head))
    kinds = [" ".join(["lb"] * columns), " ".join(["l"] * (columns - 1) + ["lx"]) + "."]
    lines = ["\t".join(cells(head))]
    for row in rows:
        *first, last = (INLINE.sub(shown, cell) for cell in cells(row))
        lines += ["\t".join([*(f"T{{\n{cell}\nT}}" for cell in first), "T{"]), safe(last), "T}"]
    return [".PP", ".TS", *kinds, *lines, ".TE"]


def paragraph(text: str) -> List[str]:
    return [".PP", *prose(" ".join(text.splitlines()))]


KINDS: Dict[str, Callable[[str], List[str]]] = {"#": heading, "|": table, "-": items, "1": items}


def blocks(text: str) -> Iterator[List[str]]:
    for found in BLOCK.finditer(text):
        yield code(found[1]) if found[1] else KINDS.get(found[2][0], paragraph)(found[2].rstrip("\n"))


def page() -> str:
    first, _, rest = SOURCE.read_text(encoding="utf-8").partition("\n")
    name, what = first.removeprefix("# ").split(": ", 1)
    return HEAD.format(name=name, what=what) + "\n".join(line for block in blocks(rest) for line in block) + "\n"


def outdated() -> Dict[Path, str]:
    """The page as it has to be, where it is otherwise."""
    return differing({PAGE: page()})


if __name__ == "__main__":
    helps(__doc__)
    rewrite(outdated())
