"""python3 -m lpd.by_scipy MODEL.mps: solves a model by HiGHS, as scipy's `linprog` has it, and writes the file `basis`.

`linprog` gives a point and prices, and no basis. Here a column between its bounds is basic, and a row whose sum is between its limits.
Up to as many as there are rows, rows at a limit without a price are basic too, and then columns at a bound without one. Such a basis
may be singular where the point is degenerate, and `lpd basis --wide` mends that.
"""
from __future__ import annotations

import sys
from importlib import import_module
from pathlib import Path
from typing import Any, Dict, List, NamedTuple, Sequence, Tuple

from .basis_file import basis_lines
from .exact import BASIC, LOWER, UPPER, Basis
from .model import Limits, Model, read_model

NEAR = 1e-9  # as far as a number may be from a limit that it is at, and a price from 0
STATUSES = {2: "primal infeasible", 3: "unbounded"}


class Place(NamedTuple):
    """Where a column, or the sum of a row, is."""

    value: float
    price: float


def status_of(limits: Limits, place: Place) -> str:
    """At which limit it is: BASIC between them, or where there are none."""
    lower, upper = (None if limit is None else float(limit) for limit in limits)
    gaps = [(abs(place.value - limit) / (1 + abs(limit)), at) for limit, at in ((lower, LOWER), (upper, UPPER)) if limit is not None]
    gap, nearest = min(gaps, default=(1.0, BASIC))
    if abs(place.price) > NEAR and gaps:
        at = LOWER if place.price > 0 else UPPER
        return at if any(at == each for _, each in gaps) else nearest
    return nearest if gap <= NEAR else BASIC


def basis_of(model: Model, columns: Sequence[Place], rows: Sequence[Place]) -> Basis:
    """A basis at a point with these prices, which are above 0 where a number is held at its lower limit."""
    of_columns = {name: status_of(column.limits(), place) for (name, column), place in zip(model.columns.items(), columns)}
    of_rows = {name: status_of(row.limits(), place) for (name, row), place in zip(model.rows.items(), rows)}
    left = len(of_rows) - sum(status == BASIC for of in (of_columns, of_rows) for status in of.values())
    for statuses, places in ((of_rows, rows), (of_columns, columns)):
        free = [name for (name, status), place in zip(statuses.items(), places) if status != BASIC and abs(place.price) <= NEAR]
        statuses.update(dict.fromkeys(free[: max(0, left)], BASIC))
        left -= len(free)
    return Basis(of_columns, of_rows)


class Sides(NamedTuple):
    """Rows as `linprog` has them: their numbers in the model, the sign of each, and its right side."""

    rows: List[int]
    signs: List[int]
    sides: List[float]

    def add(self, row: int, sign: int, side: Any) -> None:
        self.rows.append(row)
        self.signs.append(sign)
        self.sides.append(sign * float(side))


def sides_of(model: Model) -> Tuple[Sides, Sides]:
    """The equations, and the rows that have an upper limit, or whose negative has one."""
    equal, upper = Sides([], [], []), Sides([], [], [])
    for n, row in enumerate(model.rows.values()):
        limits = row.limits()
        if limits.lower is not None and limits.lower == limits.upper:
            equal.add(n, 1, limits.lower)
            continue
        for sign, limit in ((-1, limits.lower), (1, limits.upper)):
            if limit is not None:
                upper.add(n, sign, limit)
    return equal, upper


def matrix_of(model: Model) -> Any:
    places = {name: n for n, name in enumerate(model.rows)}
    entries = [(places[row], n, float(value)) for n, column in enumerate(model.columns.values()) for row, value in column.entries.items()]
    rows, columns, values = zip(*entries) if entries else ((), (), ())
    return import_module("scipy.sparse").csr_matrix((values, (rows, columns)), shape=(len(model.rows), len(model.columns)))


def solved(model: Model) -> Tuple[Any, List[Place], List[Place]]:
    """What `linprog` says, and where columns and rows are."""
    matrix, (equal, upper) = matrix_of(model), sides_of(model)
    given: Dict[str, Any] = {"bounds": [tuple(None if end is None else float(end) for end in c.limits()) for c in model.columns.values()]}
    if equal.rows:
        given.update(A_eq=matrix[equal.rows], b_eq=equal.sides)
    if upper.rows:
        given.update(A_ub=import_module("scipy.sparse").diags(upper.signs) @ matrix[upper.rows], b_ub=upper.sides)
    costs = [float(model.sense * column.cost) for column in model.columns.values()]
    found = import_module("scipy.optimize").linprog(costs, method="highs-ds", **given)
    if found.x is None or not found.success:
        return found, [], []
    prices = [0.0] * len(model.rows)
    for of, marginals in ((equal, found.eqlin.marginals), (upper, found.ineqlin.marginals)):
        for row, sign, marginal in zip(of.rows, of.signs, marginals):
            prices[row] += sign * float(marginal)
    columns = [Place(float(x), float(low) + float(high)) for x, low, high in zip(found.x, found.lower.marginals, found.upper.marginals)]
    return found, columns, [Place(float(sum_), price) for sum_, price in zip(matrix @ found.x, prices)]


def main() -> int:
    model = read_model(Path(sys.argv[1]).read_text(encoding="latin-1"), wide=True, large=True)
    found, columns, rows = solved(model)
    if not columns:
        print(STATUSES.get(found.status, f"no answer: {found.message}"))
        return 0
    Path("basis").write_text("".join(f"{line}\n" for line in basis_lines(model, basis_of(model, columns, rows))[0]), encoding="latin-1")
    print(f"Optimal objective {model.sense * float(found.fun) + float(model.offset)!r}")
    return 0


if __name__ == "__main__":
    sys.exit(main())
