"""Names that a text of the profile, or another program, does not take, and those that stand for them."""
from __future__ import annotations

import unicodedata
from typing import Callable, Dict, Iterable, NamedTuple

LONGEST = 64


class Renamed(NamedTuple):
    """A name and the one that stands for it. `kind` is row, column, set or model."""

    kind: str
    old: str
    new: str


def plain(name: str) -> str:
    """The name in printable ASCII without blanks, of 1 to 64 bytes: accents are dropped, and other characters become _."""
    letters = (c for c in unicodedata.normalize("NFKD", name.strip()) if not unicodedata.combining(c))
    return "".join(c if "!" <= c <= "~" else "_" for c in letters)[:LONGEST] or "_"


def renamed(names: Iterable[str], fits: Callable[[str], bool], proposed: Callable[[str], str] = plain) -> Dict[str, str]:
    """For each name that does not fit one that does: what is proposed for it, with a number behind it where that is taken."""
    listed = list(dict.fromkeys(names))
    fitting = {name for name in listed if fits(name)}
    taken, found = set(fitting), {}
    for name in listed:
        if name in fitting:
            continue
        base = new = proposed(name)
        number = 1
        while new in taken:
            number += 1
            new = f"{base[: LONGEST - len(str(number)) - 1]}.{number}"
        taken.add(new)
        found[name] = new
    return found
