"""The ranges of all costs and right sides by one basis, exactly, in fractions of any width.

The basis is that with which `lpd basis` ends, from where no column is basic. It is eliminated once. Then a range is a ratio test over
one row of its tableau, of a cost, or over one column, of a right side.
"""
from __future__ import annotations

from fractions import Fraction
from typing import Iterable, List, NamedTuple, Optional, Tuple

from .basis_file import read_bas
from .errors import ProgramEnded, Refused
from .exact import BASIC, LOWER, UPPER, Basis, OutOfTime, Simplex, Watch
from .from_basis import solve_from
from .model import Limits, Model
from .replies import Answer, Optimal
from .report import report
from .ways import Effort, answered

NO_CARDS = ["NAME", "ENDATA"]
ONE = Fraction(1)


class Ends(NamedTuple):
    """How far a number may move down and up, None where nothing limits it, and what does."""

    down: Optional[Fraction]
    up: Optional[Fraction]
    below: List[str]
    above: List[str]


class Gap(NamedTuple):
    """What is 0 or more as long as a basis is optimal: how much it is, how it goes with the number, and what happens at 0."""

    size: Fraction
    rate: Fraction
    words: str


def ends_of(gaps: Iterable[Gap]) -> Ends:
    """The ratio test, to both sides."""
    found: Tuple[List[Tuple[Fraction, str]], List[Tuple[Fraction, str]]] = ([], [])
    for gap in gaps:
        if gap.rate:
            found[gap.rate < 0].append((gap.size / abs(gap.rate), gap.words))
    down, up = (min((step for step, _ in one), default=None) for one in found)
    below, above = ([words for step, words in one if step == least] for one, least in zip(found, (down, up)))
    return Ends(down, up, below, above)


class Tableau:
    """A model at a basis that is optimal."""

    def __init__(self, model: Model, basis: Basis, watch: Optional[Watch] = None) -> None:
        self.model = model
        self.simplex = Simplex(model, basis, watch)
        self.certificate = self.simplex.run()
        self.names = self.simplex.names + self.simplex.row_names
        self.at = {(k >= self.simplex.count, name): k for k, name in enumerate(self.names)}
        self.y = self.simplex.prices(self.simplex.cost)
        self.others = [k for k, status in enumerate(self.simplex.status) if status != BASIC]
        self.costs = {k: self.simplex.reduced_cost(k, self.simplex.cost, self.y) for k in self.others}

    def word(self, k: int) -> str:
        return "limit" if k >= self.simplex.count else "bound"

    def value(self, k: int) -> Fraction:
        return self.simplex.values[k]

    # ---- costs

    def cost_gaps(self, k: int, rate: Fraction) -> List[Gap]:
        """What keeps a variable that is not basic where it is, as its reduced cost moves at this rate."""
        lower, upper = self.simplex.limits[k]
        name, cost = self.names[k], self.costs[k]
        if lower is None and upper is None:
            return [Gap(cost, rate, f"{name} goes up from 0"), Gap(-cost, -rate, f"{name} goes down from 0")]
        if lower == upper:
            return []
        if self.value(k) == lower:
            return [Gap(cost, rate, f"{name} leaves its lower {self.word(k)}")]
        return [Gap(-cost, -rate, f"{name} leaves its upper {self.word(k)}")]

    def of_cost(self, column: str) -> Ends:
        """How far a cost may move."""
        j, sense = self.at[False, column], self.model.sense
        if self.simplex.status[j] != BASIC:
            return ends_of(self.cost_gaps(j, Fraction(sense)))
        unit = {j: Fraction(sense)}
        y = self.simplex.prices(unit)
        return ends_of(gap for k in self.others for gap in self.cost_gaps(k, self.simplex.reduced_cost(k, unit, y)))

    # ---- right sides

    def limit_gaps(self, k: int, rate: Fraction) -> List[Gap]:
        """The distances of a variable to its limits, as it moves towards the upper one at this rate."""
        lower, upper = self.simplex.limits[k]
        name, value = self.names[k], self.value(k)
        found = [] if lower is None else [Gap(value - lower, rate, f"{name} comes to its lower {self.word(k)}")]
        return found + ([] if upper is None else [Gap(upper - value, -rate, f"{name} comes to its upper {self.word(k)}")])

    def of_side(self, row: str) -> Ends:
        """How far a right side may move, with which both limits of its row do."""
        k = self.at[True, row]
        if self.model.rows[row].is_free():
            return Ends(None, None, [], [])
        if self.simplex.status[k] == BASIC:
            return ends_of(self.limit_gaps(k, -ONE))
        rates = self.simplex.rates(k, 1)
        return ends_of(gap for other, rate in rates.items() for gap in self.limit_gaps(other, rate))


def by_program(text: str, path: Optional[str], is_narrow: bool) -> Optional[Tuple[Answer, Basis]]:
    """The answer of `lpd basis --wide`, or of `lpd basis`, and the basis that it ends with. Of a narrow model the second is asked
    first, since it solves as `lpd range all` does."""
    for wide in (not is_narrow, is_narrow):
        try:
            found = solve_from(text, NO_CARDS, path, wide)
        except (ProgramEnded, Refused, OutOfTime):
            continue
        if isinstance(found.answer, Optimal) or found.certificate:
            return found.answer, read_bas("\n".join(found.basis)) or Basis()
    return None


def near(limits: Limits, value: Fraction) -> str:
    """The status of a variable at an optimum with this value, as far as the value says it."""
    return LOWER if value == limits.lower else UPPER if value == limits.upper else BASIC


def by_ways(text: str, model: Model) -> Tuple[Answer, Basis]:
    """The answer by whichever way there is, and a basis near its point, from which few steps are left."""
    found = answered(text, model, Effort())
    if not isinstance(found.answer, Optimal):
        return found.answer, Basis()
    point = report(model, found.certificate)
    columns = {c.name: near(c.limits, c.value) for c in point.columns if c.limits != Limits(None, None) or c.value}
    return found.answer, Basis(columns, {r.name: near(r.limits, r.activity) for r in point.rows})


def tableau_of(text: str, model: Model, path: Optional[str] = None, is_narrow: bool = False) -> Tuple[Answer, Optional[Tableau]]:
    """The answer to the model of a text of the profile in free form, and of an optimum its tableau; of a narrow model the program
    solves within 127 bits."""
    answer, basis = by_program(text, path, is_narrow) or by_ways(text, model)
    return answer, Tableau(model, basis) if isinstance(answer, Optimal) else None
