"""The simplex method in fractions of any width, from any basis: it carries on where a floating point solver stopped.

Each step eliminates the basis anew, sparsely and exactly, so it is for few steps: a basis that a float solver calls optimal
mostly needs none. It ends for every model, since it falls back on Bland's rule where steps do not move. What it finds is a
certificate, and its word counts for nothing: a checker judges the certificate.
"""
from __future__ import annotations

import contextlib
import threading
import time
from fractions import Fraction
from types import TracebackType
from typing import Dict, Iterator, List, Mapping, NamedTuple, Optional, Sequence, Set, Tuple, Type, Union

from . import progress
from .errors import LpdError
from .model import ZERO, Limits, Model
from .number_text import shown
from .records import dataclass, field

Vector = Dict[int, Fraction]
BASIC, LOWER, UPPER = "basic", "at its lower bound", "at its upper bound"
STALLED = 20  # so many steps that do not move, and then Bland's rule


class OutOfTime(LpdError):
    """The steps are not done in the time that they may take."""

    ends_with = 13


class Watch:
    """Lets exact steps go on for so many seconds from the beginning of the block that it manages, or for ever, and says how far
    they are."""

    LEAST = 0.1  # seconds that are said to be left, however late it is

    def __init__(self, seconds: Optional[float] = None) -> None:
        self.seconds, self.started, self.told = seconds, time.monotonic(), 0.0

    def __enter__(self) -> Watch:
        self.started = time.monotonic()
        return self

    def __exit__(self, kind: Optional[Type[BaseException]], error: Optional[BaseException], trace: Optional[TracebackType]) -> None:
        if self.told:
            progress.clear()

    def left(self) -> Optional[float]:
        """How many seconds are left, in tenths."""
        return None if self.seconds is None else max(self.LEAST, round(self.seconds - (time.monotonic() - self.started), 1))

    def half(self) -> Watch:
        """One for half of the seconds that are left."""
        left = self.left()
        return Watch(None if left is None else max(self.LEAST, round(left / 2, 1)))

    def step(self, steps: int, what: str) -> None:
        """Before each step: how many were made. OutOfTime ends them."""
        if self.seconds is not None and time.monotonic() - self.started > self.seconds:
            raise OutOfTime(f"{steps} exact steps in Python were not enough in {self.seconds:g} seconds: --seconds allows more")
        self.tell(f"{steps} exact steps in Python, {what}")

    def tell(self, what: str) -> None:
        """On a terminal each second, and else each minute: how far it is."""
        spent = time.monotonic() - self.started
        if spent - self.told > progress.pause():
            self.told = spent
            progress.tell(what, spent, self.seconds)

    @contextlib.contextmanager
    def telling(self, what: str) -> Iterator[None]:
        """Tells that while the block waits for another program."""
        is_done = threading.Event()

        def tell() -> None:
            while not is_done.wait(0.5):
                self.tell(what)

        teller = threading.Thread(target=tell, daemon=True)
        teller.start()
        try:
            yield
        finally:
            is_done.set()
            teller.join()


class Factors:
    """A sparse elimination of rows of a matrix. Rows and columns that find no pivot are left over."""

    def __init__(self, matrix: Mapping[int, Vector]) -> None:
        self.pivots: List[Tuple[int, int]] = []
        self.lower: List[Tuple[int, int, Fraction]] = []  # a row, the pivot's row, and how much of it was subtracted
        self.upper: Dict[int, Vector] = {}
        rows = {i: dict(row) for i, row in matrix.items()}
        users: Dict[int, Set[int]] = {}
        for i, row in rows.items():
            for j in row:
                users.setdefault(j, set()).add(i)
        self.left_rows: List[int] = []
        while rows:
            i = min(rows, key=lambda i: (len(rows[i]), i))
            row = rows.pop(i)
            for j in row:
                users[j].discard(i)
            if not row:
                self.left_rows.append(i)
                continue
            j = min(row, key=lambda j: (len(users[j]), row[j].denominator.bit_length() + row[j].numerator.bit_length(), j))
            self.pivots.append((i, j))
            self.upper[i] = row
            for other in users.pop(j):
                self.subtract(rows[other], row, i, j, other, users)
        self.left_columns = list(users)

    def subtract(self, target: Vector, row: Vector, i: int, j: int, other: int, users: Dict[int, Set[int]]) -> None:
        factor = target.pop(j) / row[j]
        self.lower.append((other, i, factor))
        for k, value in row.items():
            if k == j:
                continue
            before = target.get(k)
            after = (before or 0) - factor * value
            if after:
                target[k] = after
                if before is None:
                    users[k].add(other)
            elif before is not None:
                del target[k]
                users[k].discard(other)

    def solve(self, right: Vector) -> Vector:
        """The x by columns with the matrix times x equal to the right side by rows."""
        b = dict(right)
        for other, i, factor in self.lower:
            if b.get(i):
                b[other] = b.get(other, ZERO) - factor * b[i]
        x: Vector = {}
        for i, j in reversed(self.pivots):
            row = self.upper[i]
            rest = b.get(i, ZERO) - sum((value * x[k] for k, value in row.items() if k != j and k in x), ZERO)
            if rest:
                x[j] = rest / row[j]
        return x

    def solve_transposed(self, right: Vector) -> Vector:
        """The y by rows with y times the matrix equal to the right side by columns."""
        c, y = dict(right), {}
        for i, j in self.pivots:
            rest = c.get(j)
            if not rest:
                continue
            y[i] = rest / self.upper[i][j]
            for k, value in self.upper[i].items():
                if k != j:
                    c[k] = c.get(k, ZERO) - value * y[i]
        for other, i, factor in reversed(self.lower):
            if y.get(other):
                y[i] = y.get(i, ZERO) - factor * y[other]
        return y


@dataclass
class Basis:
    """A status for each column and row by name. What is not named is at its lower bound if it is a column, and basic if
    a row. `alone` are the columns that are called basic with no row beside them that is not, and `unread` the cards of
    its file that say something else."""

    columns: Dict[str, str] = field(default_factory=dict)
    rows: Dict[str, str] = field(default_factory=dict)
    alone: List[str] = field(default_factory=list)
    unread: List[str] = field(default_factory=list)


class Move(NamedTuple):
    """A step: a variable enters, up or down by the distance, and the one that limits it goes to this status."""

    entering: int
    sign: int
    distance: Fraction
    leaving: int
    status: str


class Stuck(NamedTuple):
    """Nothing limits the variable that enters: all variables move at these rates."""

    rates: Vector


def certificate_lines(kind: str, parts: Sequence[Tuple[str, Mapping[str, Fraction]]]) -> List[str]:
    lines = [f"{letter} {name} {shown(value)}" for letter, values in parts for name, value in values.items() if value]
    return [kind, *lines, "END"]


class Simplex:
    """Variables are the columns, and behind them for each row its sum, which its limits bound."""

    def __init__(self, model: Model, basis: Basis, watch: Optional[Watch] = None) -> None:
        self.model, self.watch = model, watch or Watch()
        self.names, self.row_names = list(model.columns), list(model.rows)
        self.count = len(self.names)
        at = {name: i for i, name in enumerate(self.row_names)}
        self.by_column: List[Vector] = [{at[row]: v for row, v in column.entries.items()} for column in model.columns.values()]
        self.by_row: List[Vector] = [{} for _ in self.row_names]
        for j, entries in enumerate(self.by_column):
            for i, value in entries.items():
                self.by_row[i][j] = value
        self.limits: List[Limits] = [column.limits() for column in model.columns.values()] + [row.limits() for row in model.rows.values()]
        self.cost: Vector = {j: model.sense * c.cost for j, c in enumerate(model.columns.values()) if c.cost}
        self.status = [basis.columns.get(name, LOWER) for name in self.names] + [basis.rows.get(name, BASIC) for name in self.row_names]
        self.steps = 0
        self.stalled = 0
        self.eliminate()

    # ---- the basis

    def eliminate(self) -> None:
        """Eliminates the basic columns in the rows whose sums are not basic. A basis that is none is mended by sums of rows."""
        rows = [i for i in range(len(self.row_names)) if self.status[self.count + i] != BASIC]
        self.factors = Factors({i: {j: v for j, v in self.by_row[i].items() if self.status[j] == BASIC} for i in rows})
        pivoted = {j for _, j in self.factors.pivots}
        for i in self.factors.left_rows:
            self.status[self.count + i] = BASIC
        for j in range(self.count):
            if self.status[j] == BASIC and j not in pivoted:
                self.status[j] = LOWER
        self.values = self.values_of()

    def resting(self, k: int) -> Fraction:
        """Where a variable is that is not basic: at the bound of its status if it has that, or else at the other one, or at 0."""
        lower, upper = self.limits[k]
        first, second = (upper, lower) if self.status[k] == UPPER else (lower, upper)
        return first if first is not None else second if second is not None else ZERO

    def values_of(self) -> List[Fraction]:
        values = [ZERO if status == BASIC else self.resting(k) for k, status in enumerate(self.status)]
        right: Vector = {}
        for i, _ in self.factors.pivots:
            right[i] = values[self.count + i] - self.sum_of(i, values)
        for j, value in self.factors.solve(right).items():
            values[j] = value
        for i in range(len(self.row_names)):
            if self.status[self.count + i] == BASIC:
                values[self.count + i] = self.sum_of(i, values)
        return values

    def sum_of(self, i: int, values: Sequence[Fraction]) -> Fraction:
        return sum((value * values[j] for j, value in self.by_row[i].items() if values[j]), ZERO)

    # ---- prices

    def violations(self) -> Vector:
        """For each basic variable that is outside its bounds the slope of its violation: -1 below, 1 above."""
        found: Vector = {}
        for k, status in enumerate(self.status):
            lower, upper = self.limits[k]
            if status != BASIC:
                continue
            if lower is not None and self.values[k] < lower:
                found[k] = Fraction(-1)
            elif upper is not None and self.values[k] > upper:
                found[k] = Fraction(1)
        return found

    def prices(self, cost: Vector) -> Vector:
        """The multipliers of the rows that make the reduced costs of basic variables 0."""
        given = {k - self.count: -value for k, value in cost.items() if k >= self.count and self.status[k] == BASIC}
        right: Vector = {}
        for _, j in self.factors.pivots:
            right[j] = cost.get(j, ZERO) - sum((value * given[i] for i, value in self.by_column[j].items() if i in given), ZERO)
        return {**given, **self.factors.solve_transposed(right)}

    def reduced_cost(self, k: int, cost: Vector, y: Vector) -> Fraction:
        if k >= self.count:
            return cost.get(k, ZERO) + y.get(k - self.count, ZERO)
        return cost.get(k, ZERO) - sum((value * y[i] for i, value in self.by_column[k].items() if i in y), ZERO)

    def entering(self, cost: Vector, y: Vector) -> Optional[Tuple[int, int]]:
        """The variable that lowers the cost most per unit, and its sign; the first one once steps do not move."""
        best: Optional[Tuple[int, int]] = None
        most = ZERO
        for k, status in enumerate(self.status):
            lower, upper = self.limits[k]
            if status == BASIC or (lower is not None and lower == upper):
                continue
            reduced = self.reduced_cost(k, cost, y)
            can_rise = upper is None or self.values[k] != upper
            can_fall = lower is None or self.values[k] != lower
            if (reduced < 0 and can_rise or reduced > 0 and can_fall) and abs(reduced) > most:
                best, most = (k, 1 if reduced < 0 else -1), abs(reduced)
                if self.stalled >= STALLED:
                    break
        return best

    # ---- steps

    def rates(self, k: int, sign: int) -> Vector:
        """How each basic variable moves with one unit of a variable."""
        if k < self.count:
            right = {i: -sign * value for i, value in self.by_column[k].items()}
        else:
            right = {k - self.count: Fraction(sign)}
        pivoted = {i for i, _ in self.factors.pivots}
        found = self.factors.solve({i: value for i, value in right.items() if i in pivoted})
        moving = {**found, **({k: Fraction(sign)} if k < self.count else {})}
        for i in range(len(self.row_names)):
            if self.status[self.count + i] == BASIC:
                rate = sum((value * moving[j] for j, value in self.by_row[i].items() if j in moving), ZERO)
                if rate:
                    found[self.count + i] = rate
        return found

    def limit(self, k: int, rate: Fraction) -> Optional[Tuple[Fraction, str]]:
        """How far a basic variable lets the others move, and where it is then: outside its bounds, until it comes to one."""
        lower, upper = self.limits[k]
        value = self.values[k]
        if rate > 0 and lower is not None and value < lower:
            return (lower - value) / rate, LOWER
        if rate < 0 and upper is not None and value > upper:
            return (upper - value) / rate, UPPER
        if rate > 0 and upper is not None and value <= upper:
            return (upper - value) / rate, UPPER
        if rate < 0 and lower is not None and value >= lower:
            return (lower - value) / rate, LOWER
        return None

    def move(self, k: int, sign: int) -> Union[Move, Stuck]:
        """The step of a variable. Of equal distances the first variable limits it."""
        rates = self.rates(k, sign)
        lower, upper = self.limits[k]
        found: List[Tuple[Fraction, int, str]] = []
        if lower is not None and upper is not None:
            found.append((upper - lower, k, UPPER if sign > 0 else LOWER))
        for other, rate in rates.items():
            limited = self.limit(other, rate)
            if limited is not None:
                found.append((limited[0], other, limited[1]))
        if not found:
            return Stuck({**rates, k: Fraction(sign)})
        distance, leaving, status = min(found)
        return Move(k, sign, distance, leaving, status)

    def make(self, move: Move) -> None:
        self.steps += 1
        self.stalled = 0 if move.distance else self.stalled + 1
        self.status[move.entering] = BASIC
        self.status[move.leaving] = move.status
        self.eliminate()

    # ---- the way to the end

    def run(self) -> List[str]:
        """The lines of a certificate of how the model ends."""
        for name, column in self.model.columns.items():
            if column.lower is not None and column.upper is not None and column.lower > column.upper:
                return [f"CLASH {name}", "END"]
        while True:
            violations = self.violations()
            self.watch.step(self.steps, f"{len(violations)} limits are not kept" if violations else "all limits are kept")
            cost = violations or self.cost
            y = self.prices(cost)
            found = self.entering(cost, y)
            if found is None:
                if violations:
                    return certificate_lines("INFEASIBLE", [("y", self.of_rows(y))])
                return certificate_lines("OPTIMAL", [("x", self.of_columns(dict(enumerate(self.values)))), ("y", self.of_rows(y))])
            move = self.move(*found)
            if isinstance(move, Stuck):
                point = self.of_columns(dict(enumerate(self.values)))
                return certificate_lines("UNBOUNDED", [("x", point), ("r", self.of_columns(move.rates))])
            self.make(move)

    def of_columns(self, values: Vector) -> Dict[str, Fraction]:
        return {name: values[j] for j, name in enumerate(self.names) if values.get(j)}

    def of_rows(self, values: Vector) -> Dict[str, Fraction]:
        return {name: values[i] for i, name in enumerate(self.row_names) if values.get(i)}
