"""A basis by floating point, in Python, where no other solver is there: rough, and only a place for the exact steps to begin.

It is the simplex method on bounded variables, of which those behind the columns are the sums of the rows, with the inverse of the
basis as rows of floats. It takes sums of violations first, and then the costs. All limits are a little off, each by another
amount, so that few steps do not move. Whatever it gives is a basis that the exact steps mend; it ends early where it does not
move or the time is over.
"""
from __future__ import annotations

import random
from typing import Dict, List, Optional, Sequence, Tuple

from .exact import BASIC, LOWER, UPPER, Basis, Watch
from .model import Limits, Model

Entries = List[Tuple[int, float]]
OFF = 1e-7  # by about so much of their size limits are off
NEAR = 1e-9  # smaller numbers count for nothing
STILL = 400  # so many steps that do not move end it
MOST = 50  # so many steps for each variable
FRESH = 60  # the inverse is made anew after so many steps


def rough_basis(model: Model, seconds: Optional[float] = None) -> Optional[Basis]:
    """A basis to begin with, within so many seconds; none where the model's numbers are past floats."""
    with Watch(seconds) as watch:
        try:
            return Rough(model).run(watch)
        except ArithmeticError:
            return None


class Rough:
    """Variable j below `count` is a column, and count + i the sum of row i: its coefficient in row i is -1, and all rows are 0."""

    def __init__(self, model: Model, basis: Optional[Basis] = None) -> None:
        self.model, self.count, self.size = model, len(model.columns), len(model.rows)
        at = {name: i for i, name in enumerate(model.rows)}
        self.columns: List[Entries] = [[(at[row], float(v)) for row, v in c.entries.items()] for c in model.columns.values()]
        self.columns += [[(i, -1.0)] for i in range(self.size)]
        limits: List[Limits] = [c.limits() for c in model.columns.values()] + [r.limits() for r in model.rows.values()]
        dice = random.Random(1)
        self.low, self.high = [], []
        for lower, upper in limits:
            low, high = float("-inf") if lower is None else float(lower), float("inf") if upper is None else float(upper)
            down, up = dice.uniform(OFF / 2, OFF) * (1.0 + abs(low)), dice.uniform(OFF / 2, OFF) * (1.0 + abs(high))
            self.low.append(low - down if lower is not None else low)
            self.high.append(high - down if low == high else high + up if upper is not None else high)
        self.cost = [model.sense * float(c.cost) for c in model.columns.values()] + [0.0] * self.size
        self.scale = [max([1e-30, *(abs(v) for _, v in entries)]) for entries in self.columns]
        self.basic = [self.count + i for i in range(self.size)]
        self.is_basic = [False] * self.count + [True] * self.size
        self.value = [min(max(0.0, low), high) for low, high in zip(self.low, self.high)]
        self.inverse: List[List[float]] = []
        self.begin_anew()

    # ---- the basis

    def begin_anew(self) -> None:
        """The inverse of the basis by elimination, in which a column that depends on others gives way to the sum of a row."""
        inverse = [[0.0] * self.size for _ in range(self.size)]
        for i in range(self.size):
            inverse[i][i] = -1.0
        wanted, self.basic = self.basic, [self.count + i for i in range(self.size)]
        self.inverse, self.is_basic = inverse, [False] * self.count + [True] * self.size
        for k in sorted((k for k in wanted if k < self.count), key=lambda k: len(self.columns[k])):
            column = self.times(k)
            places = [i for i in range(self.size) if self.basic[i] >= self.count and self.basic[i] not in wanted]
            row = max(places, key=lambda i: abs(column[i]), default=None)
            if row is not None and abs(column[row]) > 1e-7 * self.scale[k]:
                self.exchange(k, row, column)
        for i in range(self.size):
            self.is_basic[self.basic[i]] = True
        self.set_values()

    def times(self, k: int) -> List[float]:
        """The inverse times a column."""
        entries = self.columns[k]
        return [sum(row[i] * v for i, v in entries) for row in self.inverse]

    def exchange(self, entering: int, row: int, column: Sequence[float]) -> None:
        pivot = column[row]
        pivoted = [v / pivot for v in self.inverse[row]]
        self.inverse[row] = pivoted
        for i, factor in enumerate(column):
            if i != row and abs(factor) > 1e-14:
                self.inverse[i] = [v - factor * p for v, p in zip(self.inverse[i], pivoted)]
        self.is_basic[self.basic[row]], self.is_basic[entering] = False, True
        self.basic[row] = entering

    def set_values(self) -> None:
        """The values of the basic variables, by those of the others."""
        right = [0.0] * self.size
        for k, value in enumerate(self.value):
            if not self.is_basic[k] and value:
                for i, v in self.columns[k]:
                    right[i] -= v * value
        for i, row in enumerate(self.inverse):
            self.value[self.basic[i]] = sum(a * b for a, b in zip(row, right) if b)

    # ---- steps

    def slack(self, k: int) -> float:
        """How far outside its limits a variable counts as inside."""
        return 1e-9 * (1.0 + abs(self.value[k]))

    def slopes(self) -> Dict[int, float]:
        """For each place of the basis outside its limits how the violation changes with the value."""
        found = {}
        for i, k in enumerate(self.basic):
            if self.value[k] < self.low[k] - self.slack(k):
                found[i] = -1.0
            elif self.value[k] > self.high[k] + self.slack(k):
                found[i] = 1.0
        return found

    def prices(self, violated: Dict[int, float]) -> List[float]:
        weights = violated or {i: self.cost[k] for i, k in enumerate(self.basic) if self.cost[k]}
        total = [0.0] * self.size
        for i, weight in weights.items():
            total = [t + weight * v for t, v in zip(total, self.inverse[i])]
        return total

    def entering(self, prices: Sequence[float], is_first_phase: bool, still: int) -> Optional[Tuple[int, float]]:
        """The variable that gains most for its size, and its sign; after many steps without a move the first one."""
        best, most = None, NEAR
        for k, entries in enumerate(self.columns):
            if self.is_basic[k] or self.low[k] == self.high[k]:
                continue
            reduced = (0.0 if is_first_phase else self.cost[k]) - sum(prices[i] * v for i, v in entries)
            gain = abs(reduced) / self.scale[k]
            can_move = self.value[k] < self.high[k] if reduced < 0 else self.value[k] > self.low[k]
            if can_move and gain > most:
                best, most = (k, 1.0 if reduced < 0 else -1.0), gain
                if still > STILL // 4:
                    break
        return best

    def step(self, k: int, sign: float) -> Optional[float]:
        """Moves a variable as far as it may, and says how far; None where nothing limits it."""
        column = self.times(k)
        far, row, pivot, end = self.high[k] - self.low[k], None, 0.0, 0.0
        for i, factor in enumerate(column):
            rate = -sign * factor
            if abs(rate) < NEAR:
                continue
            other = self.basic[i]
            value, low, high, slack = self.value[other], self.low[other], self.high[other], self.slack(other)
            if rate > 0:
                stop = low if value < low - slack else high if value <= high + slack else float("inf")
            else:
                stop = high if value > high + slack else low if value >= low - slack else float("-inf")
            limit = max(0.0, (stop - value) / rate)
            if limit < far - 1e-12 or row is not None and limit <= far + 1e-12 and abs(rate) > abs(pivot):
                far, row, pivot, end = limit, i, rate, stop
        if far == float("inf"):
            return None
        for i, factor in enumerate(column):
            self.value[self.basic[i]] -= sign * factor * far
        self.value[k] += sign * far
        if row is None:
            self.value[k] = self.high[k] if sign > 0 else self.low[k]
        else:
            self.value[self.basic[row]] = end
            self.exchange(k, row, column)
        return far

    def run(self, watch: Watch) -> Basis:
        """The basis at which it ends."""
        still = steps = 0
        most = MOST * (self.count + self.size + 1)
        while still < STILL and steps < most and (watch.left() or 1.0) > 0.2:
            violated = self.slopes()
            watch.tell(f"{steps} rough steps, {len(violated)} limits are not kept")
            found = self.entering(self.prices(violated), bool(violated), still)
            if found is None and violated and self.gives_way(violated):
                continue
            moved = None if found is None else self.step(*found)
            if moved is None:
                break
            steps += 1
            still = 0 if moved > NEAR else still + 1
            if steps % FRESH == 0:
                self.begin_anew()
        return self.basis()

    def gives_way(self, violated: Dict[int, float]) -> bool:
        """Puts limits that cannot all be kept, since they are a little off, to where the values are, if that is near."""
        outside = [self.basic[i] for i in violated]
        if any(self.value[k] < self.low[k] - self.close(k) or self.value[k] > self.high[k] + self.close(k) for k in outside):
            return False
        for k in outside:
            self.low[k], self.high[k] = min(self.low[k], self.value[k]), max(self.high[k], self.value[k])
        return True

    def close(self, k: int) -> float:
        return 1e3 * OFF * (1.0 + abs(self.value[k]))

    def basis(self) -> Basis:
        def status(k: int) -> str:
            return BASIC if self.is_basic[k] else UPPER if self.value[k] >= self.high[k] and self.low[k] < self.high[k] else LOWER

        columns = {name: status(j) for j, name in enumerate(self.model.columns)}
        return Basis(columns, {name: status(self.count + i) for i, name in enumerate(self.model.rows)})
