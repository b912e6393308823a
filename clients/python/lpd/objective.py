"""Another objective: the numbers of a free row in place of the first one's.

The objective keeps its name, since no edit changes that, and the row stays in the model as it is. The costs become the row's
coefficients, and the offset the negative of its right side, as it is for an objective. So the optimum is that of the text whose
first row of type N is this one, and its certificate is one of the edited model.
"""
from __future__ import annotations

from fractions import Fraction
from typing import List, Mapping

from .certificate import raise_unknown
from .dialects import PROFILE, written
from .errors import TOO_MUCH, TOO_WIDE, LpdError, TextFault, Unexpected
from .judging import LARGE
from .model import ZERO, Model, read_model
from .program import Program
from .records import dataclass, replace
from .session import Session


class NoObjective(LpdError):
    """The row has limits, so that it is none to be minimized or maximized in place of the objective."""

    ends_with = 9


@dataclass(frozen=True)
class Aim:
    """A model that was given the objective of a row, its text, and the model as it was. The notes say where the edits were not the
    program's."""

    row: str
    text: str
    model: Model
    before: Model
    notes: List[str]

    def value_before(self, point: Mapping[str, Fraction]) -> Fraction:
        """What the first objective is at a point."""
        return self.before.cost(point) + self.before.offset


def with_objective(model: Model, row: str) -> Model:
    """The model with the numbers of a free row as its objective's."""
    if row not in model.rows:
        raise_unknown(row, "row")
    if not model.rows[row].is_free():
        raise NoObjective(f"row {row} has limits, and an objective is a row of type N: those are {', '.join([model.objective, *model.free_rows()])}")
    columns = {name: replace(column, cost=column.entries.get(row, ZERO)) for name, column in model.columns.items()}
    return replace(model, offset=-model.rows[row].rhs, columns=columns)


def edit(session: Session, model: Model, row: str) -> None:
    """Gives the objective of a session's model, which is this one, the numbers of a row, by edits."""
    wanted = with_objective(model, row)
    for name, column in wanted.columns.items():
        if column.cost != model.columns[name].cost:
            session.set_cost(name, column.cost)
    if wanted.offset != model.offset:
        session.set_rhs(model.objective, -wanted.offset)


def aimed(text: str, model: Model, row: str) -> Aim:
    """The model of a text of the profile in free form with another objective, as a session of the program edits and writes it. A
    text with a number past 127 bits, or of a large model, which no session holds, is written in Python."""
    wanted = with_objective(model, row)
    try:
        with Program() as program, Session(program) as session:
            session.load(text)
            edit(session, model, row)
            edited = session.write()
    except TextFault as fault:
        if fault.fault not in (TOO_WIDE, TOO_MUCH):
            raise
        why = LARGE if fault.fault == TOO_MUCH else f"line {fault.line} of the model has a number past 127 bits"
        note = f"the objective was exchanged in Python, since {why}"
        return Aim(row, written(wanted, PROFILE).text, wanted, model, [note])
    if read_model(edited) != wanted:
        raise Unexpected(f"the model that lpd writes is not the one with {row} as its objective")
    return Aim(row, edited, wanted, model, [])
