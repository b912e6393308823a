"""`lpd basis`: a solve that begins with a basis which it is handed, and the basis that it ends with; with `--wide` it goes on
where a number passes 127 bits, to a certificate whose numbers have any width."""
from __future__ import annotations

from typing import List, Optional, Sequence, Tuple

from .errors import Unexpected
from .model import words_of
from .once import SWITCH, answer_in, output_of, unexpected_of
from .records import dataclass
from .replies import Answer, Open
from .session import FALLS, body_of, count_of


@dataclass(frozen=True)
class FromBasis:
    """What is answered; how it was found: WARM from the basis, COLD without one, or FELL where the basis was given up and the
    solve began anew, with the reason at 127 bits; the pivots and flips, where they are told; the certificate, which Past,
    Spent and Open have not; and the final basis, which an optimum has, as a basis file."""

    answer: Answer
    start: str
    pivots: Optional[int]
    certificate: List[str]
    basis: List[str]


def is_start(words: Sequence[str]) -> bool:
    return list(words) in (["WARM"], ["COLD"], ["FELL"]) or len(words) == 2 and words[0] == "FELL" and words[1] in FALLS


def start_in(words: Sequence[str]) -> Tuple[str, Optional[int]]:
    """How an answer was found, and in how many pivots and flips; an exact one without a basis does not tell these."""
    if list(words) == ["COLD"]:
        return words[0], None
    if len(words) < 3 or words[-2] != "PIVOTS" or not is_start(words[:-2]):
        raise unexpected_of("basis", words, "WARM, FELL or COLD stands")
    return " ".join(words[:-2]), None if words[-1] == "-" else count_of(words[-1])


def read_answer(lines: Sequence[str]) -> FromBasis:
    """What the program wrote. Behind OPEN, which is no answer, nothing may stand."""
    if list(lines) == [str(Open())]:
        return FromBasis(Open(), "", None, [], [])
    if len(lines) < 2:
        raise Unexpected(f"lpd basis wrote {len(lines)} lines, which is no answer")
    answer, (start, pivots) = answer_in(lines, 0, "basis"), start_in(words_of(lines[1]))
    end = next((n for n, line in enumerate(lines, 1) if words_of(line) == ["END"]), 2)
    return FromBasis(answer, start, pivots, list(lines[2:end]), list(lines[end:]))


def solve_from(
    text: str,
    basis: Sequence[str],
    path: Optional[str] = None,
    wide: bool = False,
    seconds: Optional[float] = None,
) -> FromBasis:
    """The answer to a text of the profile in free form from the basis of a file, by its lines, and with `wide` by `lpd basis
    --wide`, whose certificate `lpd check --wide` judges. A text or a file that is refused raises what `errors` has for it,
    a program without the command, or its switch, CommandMissing, and one that is not done in as many seconds OutOfTime."""
    words = ["basis", SWITCH] if wide else ["basis"]
    return read_answer(output_of(words, body_of(text, fixed=False), basis, path, seconds))
