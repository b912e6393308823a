"""What makes an infeasible model feasible: the least change of one right side or bound that does, and the least changes of right
sides together.

Each limit that is worth a thought stands in every combination of limits that shows the contradiction. So one after the other is
left out: then the others either let its row, or its column, come to some best value, which is where the limit has to be moved; or
they have no point either, and the combination that shows this leaves fewer limits to be thought of. Each combination also says how
far a limit has to be moved at the least.

Right sides may all move where each row has a column of its own that makes up for what is missing (an elastic model): the sum of
these columns is minimized. Rows get them as they are needed, and at the end the prices show that no other row would help.

Whatever is said here was solved, and its certificate accepted by the checker in Python. A point is one of the changed model: it
meets all rows and bounds.
"""
from __future__ import annotations

from fractions import Fraction
from typing import Dict, List, Optional, Sequence, Tuple

from .certificate import Failed, check_lines, matched, must_be_feasible, read_certificate
from .certifying import certified
from .dialects import PROFILE, written
from .errors import ProgramEnded, ProgramMissing, Refused
from .exact import Watch
from .floating import ask
from .irreducible import Side, limit_of
from .judging import NotCertified
from .model import ZERO, Column, Limits, Model, Row
from .records import dataclass, replace
from .replies import Accepted, Infeasible, Known, Optimal
from .solver_names import NONE
from .wide import solve_wide

Weights = Dict[Side, Fraction]
ONE = Fraction(1)


@dataclass(frozen=True)
class Change:
    """A limit of a row, or a bound of a column, that is moved."""

    side: Side
    before: Fraction
    after: Fraction

    @property
    def by(self) -> Fraction:
        return abs(self.after - self.before)


@dataclass(frozen=True)
class Remedy:
    """Changes after which the model has a point, and such a point. No changes that are less in sum do."""

    changes: List[Change]
    point: Dict[str, Fraction]

    @property
    def total(self) -> Fraction:
        return sum((change.by for change in self.changes), ZERO)


@dataclass(frozen=True)
class Advice:
    """The least change of one right side or bound, None where none alone is enough; and the least changes of right sides, None where
    none of them are enough, since the bounds of a column contradict each other."""

    single: Optional[Remedy] = None
    together: Optional[Remedy] = None


class Solved:
    """What is known of a model, by a certificate that the checker in Python accepts: of the program, or where it has no answer or does
    not take the model by exact steps in Python."""

    def __init__(self, model: Model, watch: Watch) -> None:
        self.model = model
        self.known, self.certificate = by_program(model, watch) or by_steps(model, watch)
        self.given = matched(model, read_certificate(self.certificate, wide=True))

    @property
    def point(self) -> Dict[str, Fraction]:
        return {name: value for name, value in self.given["x"].items() if value}


def by_program(model: Model, watch: Watch) -> Optional[Tuple[Known, List[str]]]:
    try:
        with watch.telling("what would be enough is looked for"):
            found = solve_wide(written(model, PROFILE).text, seconds=watch.left())
    except (ProgramEnded, ProgramMissing, Refused):
        return None
    verdict = check_lines(model, found.certificate, wide=True) if found.certificate else None
    if not found.certificate:
        return None
    if not isinstance(verdict, Accepted) or verdict.known != found.answer:
        raise NotCertified(f"lpd solve --wide answers {found.answer}, and the checker in Python says {verdict} to its certificate")
    return verdict.known, found.certificate


def by_steps(model: Model, watch: Watch) -> Tuple[Known, List[str]]:
    known, certificate, _ = certified(model, ask(NONE, model, watch.left()), watch)
    return known, certificate


# ---- one limit


def without(model: Model, side: Side) -> Model:
    """The model without a limit, which seeks how near the others let its row, or its column, come to that."""
    columns = {name: replace(column, cost=ZERO) for name, column in model.columns.items()}
    rows = dict(model.rows)
    if side.is_row:
        rows[side.name] = row_of(without_side(rows[side.name].limits(), side))
        for name, column in columns.items():
            columns[name] = replace(column, cost=column.entries.get(side.name, ZERO))
    else:
        lower, upper = without_side(columns[side.name].limits(), side)
        columns[side.name] = replace(columns[side.name], cost=ONE, lower=lower, upper=upper)
    return Model(model.name, 1 if side.is_upper else -1, model.objective, ZERO, rows, columns)


def without_side(limits: Limits, side: Side) -> Limits:
    return Limits(limits.lower, None) if side.is_upper else Limits(None, limits.upper)


def row_of(limits: Limits) -> Row:
    """A row with at most one limit."""
    lower, upper = limits
    if lower is not None:
        return Row("G", lower)
    return Row("N") if upper is None else Row("L", upper)


def weights_of(model: Model, certificate: Sequence[str]) -> Weights:
    """How often each limit counts in the combination of an accepted certificate of a contradiction: above 0 for lower limits."""
    found = read_certificate(certificate, wide=True)
    if found.column is not None:
        return {Side(False, found.column, False): ONE, Side(False, found.column, True): -ONE}
    y = matched(model, found)["y"]
    columns = {name: -model.priced(y, name) for name in model.columns}
    return {**sided(True, y), **sided(False, columns)}


def sided(is_row: bool, values: Dict[str, Fraction]) -> Weights:
    return {Side(is_row, name, value < 0): value for name, value in values.items() if value}


def weights_without(found: Solved, side: Side) -> Weights:
    """The combination that shows a contradiction with this limit, by the best that the model without it has."""
    y = found.given["y"]
    costs = {name: found.model.reduced_cost(y, name) for name in found.model.columns}
    return {**sided(True, y), **sided(False, costs), side: -ONE if side.is_upper else ONE}


class Candidates:
    """The limits of which a change could be enough, and by how much each has to be moved at the least."""

    def __init__(self, model: Model) -> None:
        self.model = model
        self.least: Optional[Dict[Side, Fraction]] = None

    def take(self, weights: Weights) -> None:
        """What a contradiction leaves, of which these limits are the parts."""
        off = sum((weight * limit_of(self.model, side) for side, weight in weights.items()), ZERO)
        by = {side: off / abs(weight) for side, weight in weights.items()}
        known = by if self.least is None else self.least
        self.least = {side: max(least, by[side]) for side, least in known.items() if side in by}

    def next(self, done: Sequence[Side], best: Optional[Fraction]) -> Optional[Side]:
        """The one that may be enough by the least change, and by less than the best that is known. Rows come before columns."""
        left = [(by, not side.is_row, n, side) for n, (side, by) in enumerate((self.least or {}).items()) if side not in done]
        by, _, _, side = min(left) if left else (ZERO, False, 0, None)
        return side if best is None or by < best else None


def single(model: Model, candidates: Candidates, watch: Watch) -> Optional[Remedy]:
    """The least change of one limit that is enough."""
    best: Optional[Remedy] = None
    done: List[Side] = []
    while True:
        side = candidates.next(done, best.total if best else None)
        if side is None:
            return best
        done.append(side)
        found = Solved(without(model, side), watch)
        if isinstance(found.known, Optimal):
            remedy = Remedy([Change(side, limit_of(model, side), found.known.value)], found.point)
            best = tried(model, remedy) if best is None or remedy.total < best.total else best
            candidates.take(weights_without(found, side))
        elif isinstance(found.known, Infeasible):
            candidates.take(weights_of(found.model, found.certificate))


# ---- all right sides


def moved_name(taken: Dict[str, Column], number: int) -> str:
    """A name for a column that the model has not."""
    return next(name for name in (f"{'+' * times}{number}" for times in range(1, 65)) if name not in taken)


def elastic(model: Model, sides: Sequence[Side]) -> Model:
    """The model in which these limits of rows may be missed, by columns whose sum is minimized."""
    columns = {name: replace(column, cost=ZERO) for name, column in model.columns.items()}
    for number, side in enumerate(sides):
        columns[moved_name(columns, number)] = Column(ONE, entries={side.name: -ONE if side.is_upper else ONE})
    return Model(model.name, 1, model.objective, ZERO, model.rows, columns)


def rows_in(weights: Weights) -> List[Side]:
    return [side for side in weights if side.is_row]


def dear(model: Model, y: Dict[str, Fraction]) -> List[Side]:
    """The limits of rows whose price is more than 1, which a unit of change costs."""
    return [Side(True, name, value < 0) for name, value in y.items() if abs(value) > 1]


def together(model: Model, sides: List[Side], watch: Watch) -> Optional[Remedy]:
    """The least changes of right sides that are enough, of which some are known to be in contradictions."""
    sides = list(dict.fromkeys(sides))
    while True:
        found = Solved(elastic(model, sides), watch)
        is_optimal = isinstance(found.known, Optimal)
        more = dear(model, found.given["y"]) if is_optimal else rows_in(weights_of(found.model, found.certificate))
        new = [side for side in dict.fromkeys(more) if side not in sides]
        if new:
            sides += new
        elif is_optimal:
            return tried(model, with_parts(model, found, sides))
        else:
            return None


def with_parts(model: Model, found: Solved, sides: Sequence[Side]) -> Remedy:
    names = list(found.model.columns)[len(model.columns) :]
    missed = [(side, found.given["x"].get(name, ZERO)) for side, name in zip(sides, names)]
    changes = [Change(side, limit_of(model, side), limit_of(model, side) + (by if side.is_upper else -by)) for side, by in missed if by]
    return Remedy(changes, {name: value for name, value in found.point.items() if name in model.columns})


# ---- both


def changed(model: Model, changes: Sequence[Change]) -> Model:
    """The model with other right sides, and other bounds."""
    rows, columns = dict(model.rows), dict(model.columns)
    for side, before, after in ((change.side, change.before, change.after) for change in changes):
        if side.is_row:
            rows[side.name] = replace(rows[side.name], rhs=rows[side.name].rhs + after - before)
        elif side.is_upper:
            columns[side.name] = replace(columns[side.name], upper=after)
        else:
            columns[side.name] = replace(columns[side.name], lower=after)
    return replace(model, rows=rows, columns=columns)


def tried(model: Model, remedy: Remedy) -> Remedy:
    """The remedy, where its point meets all rows and bounds of the changed model."""
    try:
        must_be_feasible(changed(model, remedy.changes), remedy.point)
    except Failed as failed:
        raise NotCertified(f"a point of a changed model does not do: {failed.why}") from None
    return remedy


def advise(model: Model, certificates: Sequence[Sequence[str]], seconds: Optional[float] = None) -> Advice:
    """What makes a model feasible that these certificates show to be infeasible. OutOfTime says that it is not known in as many
    seconds."""
    candidates, known = Candidates(model), [weights_of(model, certificate) for certificate in certificates]
    for weights in known:
        candidates.take(weights)
    with Watch(seconds) as watch:
        alone = single(model, candidates, watch)
        sides = [side for weights in known for side in rows_in(weights)]
        return Advice(alone, together(model, sides, watch))
