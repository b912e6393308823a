"""`lpd presolve`: the answer to a model by a smaller one, with a certificate that is carried back to the text that was given."""
from __future__ import annotations

from typing import List, NamedTuple, Optional, Sequence

from .dialects import PROFILE, written
from .model import read_model, words_of
from .once import answer_in, output_of, unexpected_of
from .records import dataclass
from .replies import Answer
from .session import body_of, count_of


class Size(NamedTuple):
    rows: int
    columns: int


@dataclass(frozen=True)
class Presolved:
    """The answer and its certificate, which Past and Spent have not, for the model as it was given. `reduced` is the size of the smaller
    model; or else the model was solved as it is, since the smaller one ended with `plain`: PAST and an operation, or SPENT."""

    answer: Answer
    certificate: List[str]
    reduced: Optional[Size] = None
    plain: str = ""


def read_presolved(lines: Sequence[str]) -> Presolved:
    """What the program wrote."""
    words = words_of(lines[0]) if lines else []
    is_reduced = len(words) == 3 and words[0] == "REDUCED"
    if not is_reduced and (len(words) not in (2, 5) or words[0] != "PLAIN" or words[1] not in ("PAST", "SPENT")):
        raise unexpected_of("presolve", words, "REDUCED or PLAIN stands")
    answer, certificate = answer_in(lines, 1, "presolve"), list(lines[2:])
    if is_reduced:
        return Presolved(answer, certificate, Size(count_of(words[1]), count_of(words[2])))
    return Presolved(answer, certificate, plain=" ".join(words[1:]))


def presolve(text: str, fixed: bool = False, path: Optional[str] = None, seconds: Optional[float] = None) -> Presolved:
    """The answer to a text of the profile by a smaller model. OutOfTime says that it is not done in as many seconds."""
    body = body_of(written(read_model(text, fixed), PROFILE).text if fixed else text, fixed=False)
    return read_presolved(output_of(["presolve"], body, path=path, seconds=seconds))
