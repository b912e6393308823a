"""`lpd solve --wide`: a solve that goes on where a number passes 127 bits, to a certificate whose numbers have any width."""
from __future__ import annotations

from typing import List, Optional, Sequence

from .dialects import PROFILE, written
from .model import read_model
from .once import answer_in, output_of
from .records import dataclass
from .replies import Answer
from .session import body_of

SOLVE_WIDE = "lpd solve --wide"


@dataclass(frozen=True)
class WideSolved:
    """The answer, and its certificate, which Past and Spent have not. `lpd check --wide` judges it."""

    answer: Answer
    certificate: List[str]


def read_wide_solved(lines: Sequence[str], command: str = "solve --wide") -> WideSolved:
    """What the program wrote to this command."""
    return WideSolved(answer_in(lines, 0, command), list(lines[1:]))


def solve_wide(text: str, fixed: bool = False, path: Optional[str] = None, seconds: Optional[float] = None) -> WideSolved:
    """The answer to a text of the profile, whose numbers have 127 bits. OutOfTime says that it is not done in as many seconds, and
    a program that does not know the switch raises CommandMissing."""
    body = body_of(written(read_model(text, fixed, large=True), PROFILE).text if fixed else text, fixed=False)
    return read_wide_solved(output_of(["solve", "--wide"], body, path=path, seconds=seconds))
