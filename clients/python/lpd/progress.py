"""How far long work is: a bar on a line of standard error, renewed each second, where that is a terminal, and else, by commands, a line
a minute."""
from __future__ import annotations

import sys
from typing import Optional

CELLS = 20
SECOND, MINUTE = 1.0, 60.0
CLEAR = "\r\x1b[K"
by_command = False  # whether lines are wanted where nobody sees them at once


def is_live() -> bool:
    """Whether somebody sees lines that are renewed."""
    return sys.stderr.isatty()


def pause() -> float:
    """How many seconds there are between two lines."""
    return SECOND if is_live() else MINUTE


def bar(done: float, whole: float) -> str:
    """What is done, and what is left."""
    full = max(0, min(CELLS, round(CELLS * done / whole))) if whole else 0
    return f"[{'#' * full}{'.' * (CELLS - full)}]"


def spent_words(spent: float, most: Optional[float]) -> str:
    """The seconds that it takes so far, of those that it may take."""
    return f"{spent:.0f} seconds" if most is None else f"{spent:.0f} of at most {most:.0f} seconds"


def tell(what: str, spent: float, most: Optional[float]) -> None:
    """What is done, and since when; on a terminal in place of what was told before."""
    words = f"{what}, {spent_words(spent, most)}"
    if is_live():
        print(f"{CLEAR}{'' if most is None else f'{bar(spent, most)} '}{words}", end="", file=sys.stderr, flush=True)
    elif by_command:
        print(f"lpd: {words}", file=sys.stderr, flush=True)


def clear() -> None:
    """Takes the line of a terminal away."""
    if is_live():
        print(CLEAR, end="", file=sys.stderr, flush=True)
