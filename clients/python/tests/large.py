"""A program that stands in for one whose `basis --wide` and `check --wide` take large models, and a large model."""
import contextlib
from fractions import Fraction
from typing import Callable, Iterator, List, Optional, Sequence
from unittest import mock

from lpd.basis_file import read_bas
from lpd.certificate import check_lines
from lpd.errors import refusal
from lpd.exact import BASIC, LOWER, UPPER, Basis, Simplex
from lpd.model import Column, Model, Row, read_lines
from lpd.replies import Accepted

ROWS, EACH = 3, 200


def large_model() -> Model:
    """Of the columns of each row, of which each is at most 1 and costs more than the one before, 100 1/2 are needed."""
    model = Model("large", 1, "cost")
    for row in range(ROWS):
        model.rows[f"need{row}"] = Row("G", Fraction(201, 2))
        for n in range(EACH):
            model.columns[f"x{row}.{n}"] = Column(Fraction(n + 1), Fraction(0), Fraction(1), {f"need{row}": Fraction(1)})
    return model


VALUE = ROWS * (sum(range(101)) + Fraction(101, 2))


def best_basis() -> Basis:
    columns = {f"x{row}.{n}": UPPER if n < 100 else BASIC if n == 100 else LOWER for row in range(ROWS) for n in range(EACH)}
    return Basis(columns, {f"need{row}": LOWER for row in range(ROWS)})


def end_of(simplex: Simplex) -> Basis:
    """The basis with which exact steps end."""
    simplex.run()
    count = len(simplex.names)
    return Basis(dict(zip(simplex.names, simplex.status)), dict(zip(simplex.row_names, simplex.status[count:])))


def from_basis(model: Model, behind: List[str]) -> List[str]:
    """An answer where the basis is optimal, and else OPEN."""
    simplex = Simplex(model, read_bas("\n".join(behind)) or Basis())
    lines = simplex.run()
    verdict = check_lines(model, lines, wide=True)
    if simplex.steps or not isinstance(verdict, Accepted):
        return ["OPEN"]
    return [str(verdict.known), "WARM PIVOTS 0", *lines, "NAME", "ENDATA"]


def replied(
    words: Sequence[str], body: Sequence[str], behind: Sequence[str] = (), path: Optional[str] = None, seconds: Optional[float] = None
) -> List[str]:
    """What the program writes."""
    model, _ = read_lines(list(body), wide=True, large=True)
    if words[0] == "check":
        return [str(check_lines(model, list(behind), wide=True))]
    return from_basis(model, list(behind)) if words[0] == "basis" else ["OPEN"]


def solved(
    words: Sequence[str], body: Sequence[str], behind: Sequence[str] = (), path: Optional[str] = None, seconds: Optional[float] = None
) -> List[str]:
    """What a program writes whose `solve --wide` answers too."""
    if words[0] != "solve":
        return replied(words, body, behind)
    lines = Simplex(read_lines(list(body), wide=True, large=True)[0], best_basis()).run()
    return [f"OPTIMAL {VALUE}", *lines]


def refused(
    words: Sequence[str], body: Sequence[str], behind: Sequence[str] = (), path: Optional[str] = None, seconds: Optional[float] = None
) -> List[str]:
    """What a program does that takes no model as large."""
    raise refusal(["ERR", "8", "MPS", "260", "M16"], " ".join(words), body)


@contextlib.contextmanager
def standing_in(output_of: Callable[..., List[str]] = replied) -> Iterator[None]:
    """A program that does so, whatever is built."""
    with contextlib.ExitStack() as stack:
        for module in ("wide", "from_basis", "judging"):
            stack.enter_context(mock.patch(f"lpd.{module}.output_of", output_of))
        yield
