"""Pictures of models: the plane of a model of two columns, and the optimum over one of a model's numbers.

The optimum is convex or concave over a right side or a cost, and goes straight between its kinks; at each point the row's price,
or the column's value, is its slope. So two points with their slopes either lie on one line, or the lines meet where the next
point is solved: every kink is found, exactly.
"""
from __future__ import annotations

from fractions import Fraction
from typing import Callable, List, NamedTuple, Optional, Sequence

from .dialects import PROFILE, written
from .errors import LpdError
from .figures import READABLE
from .model import ZERO, Limits, Model
from .number_text import shown
from .ranging import COST, RHS, with_number
from .replies import Optimal
from .report import report
from .svg import Box, Picture, Point, box_around, label
from .ways import Answered, Effort, answered

COLOURS = ("firebrick", "seagreen", "darkorange", "purple", "teal", "saddlebrown", "crimson", "olive")


class NoPicture(LpdError):
    """There is nothing to be shown."""

    ends_with = 2


class NoOptimum(NoPicture):
    """At an end of what is to be shown there is no optimum."""


class Side(NamedTuple):
    """The points with a x + b y at least c. `name` is the row's, or the column's."""

    name: str
    a: Fraction
    b: Fraction
    c: Fraction

    def over(self, point: Point) -> Fraction:
        return self.a * point[0] + self.b * point[1] - self.c


def sides_of(name: str, a: Fraction, b: Fraction, limits: Limits) -> List[Side]:
    lower = [] if limits.lower is None else [Side(name, a, b, limits.lower)]
    upper = [] if limits.upper is None else [Side(name, -a, -b, -limits.upper)]
    return [side for side in lower + upper if a or b]


def all_sides(model: Model) -> List[Side]:
    """The sides of the region of a model of two columns: of its rows, and then of its columns."""
    (x, first), (y, second) = model.columns.items()
    found = [side for row in model.rows for side in sides_of(row, first.entries.get(row, ZERO), second.entries.get(row, ZERO), model.rows[row].limits())]
    return found + sides_of(x, Fraction(1), ZERO, first.limits()) + sides_of(y, ZERO, Fraction(1), second.limits())


def crossing(one: Side, other: Side) -> Optional[Point]:
    """Where the lines of two sides cross."""
    size = one.a * other.b - one.b * other.a
    return None if size == 0 else ((one.c * other.b - one.b * other.c) / size, (one.a * other.c - one.c * other.a) / size)


def clipped(points: Sequence[Point], side: Side) -> List[Point]:
    """The part of a polygon that is on a side."""
    found: List[Point] = []
    for start, end in zip(points, [*points[1:], *points[:1]]):
        before, after = side.over(start), side.over(end)
        if before >= 0:
            found.append(start)
        if before * after < 0:
            part = before / (before - after)
            found.append((start[0] + part * (end[0] - start[0]), start[1] + part * (end[1] - start[1])))
    return found


def corners(box: Box) -> List[Point]:
    return [(box.left, box.foot), (box.right, box.foot), (box.right, box.top), (box.left, box.top)]


def across_box(side: Side, box: Box) -> List[Point]:
    """The two points in which the line of a side comes into the box and leaves it, or fewer."""
    ends = [Side("", Fraction(1), ZERO, edge) for edge in (box.left, box.right)] + [Side("", ZERO, Fraction(1), edge) for edge in (box.foot, box.top)]
    met = (crossing(side, end) for end in ends)
    within = {point for point in met if point and box.left <= point[0] <= box.right and box.foot <= point[1] <= box.top}
    return sorted(within)[:: max(1, len(within) - 1)][:2]


def view_of(sides: Sequence[Side], marked: Sequence[Point]) -> Box:
    """A box around the corners of the region, or where it has none around all crossings, and around what is marked."""
    met = [point for n, one in enumerate(sides) for other in sides[:n] for point in [crossing(one, other)] if point]
    kept = [point for point in met if all(side.over(point) >= 0 for side in sides)]
    points = [*marked, *(kept or met)] or [(ZERO, ZERO)]
    box = box_around(points)
    return box if len(points) > 1 else Box(box.left - 9, box.right + 9, box.foot - 9, box.top + 9)


def optimum_of(model: Model, found: Answered) -> Optional[Point]:
    if not isinstance(found.answer, Optimal):
        return None
    x, y = (column.value for column in report(model, found.certificate).columns)
    return x, y


def plane(model: Model, effort: Effort = Effort()) -> str:
    """The plane of a model of two columns as SVG: the region, the line of each row, the optimum with the line of its value, and the
    direction in which the objective gets better."""
    if len(model.columns) != 2:
        raise NoPicture(f"the model has {len(model.columns)} columns, and a plane has two: --rhs ROW or --cost COLUMN show the optimum over a number")
    found = answered(written(model, PROFILE).text, model, effort)
    best, sides = optimum_of(model, found), all_sides(model)
    box = view_of(sides, [best] if best else [])
    answer = f"OPTIMAL {READABLE.word(found.answer.value)}" if isinstance(found.answer, Optimal) else found.answer
    picture = Picture(box, f"{model.name or 'model'}: {answer}")
    picture.axes(*model.columns)
    region = corners(box)
    for side in sides:
        region = clipped(region, side)
    if region:
        picture.polygon(region, "lightsteelblue")
    draw_lines(picture, sides, [*model.rows])
    x, y = model.columns
    cost = (model.columns[x].cost, model.columns[y].cost)
    if best:
        level = Side("", *cost, cost[0] * best[0] + cost[1] * best[1])
        if any(cost):
            picture.line(across_box(level, box), "black", "2 4")
            draw_direction(picture, best, (-model.sense * cost[0], -model.sense * cost[1]))
        picture.dot(best, "black")
        picture.note(best, f"{x} {label(best[0])}, {y} {label(best[1])}")
    return picture.svg()


def draw_lines(picture: Picture, sides: Sequence[Side], rows: Sequence[str]) -> None:
    for side in sides:
        points = across_box(side, picture.box)
        colour = COLOURS[rows.index(side.name) % len(COLOURS)] if side.name in rows else "gray"
        if len(points) == 2:
            picture.line(points, colour, "" if side.name in rows else "6 3")
            picture.note(points[1] if side.name in rows else points[0], side.name, colour)


def draw_direction(picture: Picture, start: Point, direction: Point) -> None:
    """An arrow of a fixed size on the page, at a right angle to the level's line in the model's own units."""
    box = picture.box
    scale = max(abs(direction[0]) / (box.right - box.left), abs(direction[1]) / (box.top - box.foot)) * 8
    picture.arrow(start, (start[0] + direction[0] / scale, start[1] + direction[1] / scale), "black")


class Turn(NamedTuple):
    """A point of the optimum over a number, and how much more the optimum is for one unit more."""

    number: Fraction
    value: Fraction
    slope: Fraction


def over_number(solve: Callable[[Fraction], Turn], low: Fraction, high: Fraction) -> List[Turn]:
    """The ends and the kinks between them, in order."""
    first, last = solve(low), solve(high)
    turns = [first, *kinks(solve, first, last), last]
    kept = turns[:1]
    for turn, after in zip(turns[1:], turns[2:]):
        before = kept[-1]
        if (turn.value - before.value) * (after.number - turn.number) != (after.value - turn.value) * (turn.number - before.number):
            kept.append(turn)
    return [*kept, last]


def kinks(solve: Callable[[Fraction], Turn], first: Turn, last: Turn) -> List[Turn]:
    gap = last.number - first.number
    if first.slope == last.slope or first.value + first.slope * gap == last.value or last.value - last.slope * gap == first.value:
        return []
    middle = (last.value - first.value + first.slope * first.number - last.slope * last.number) / (first.slope - last.slope)
    turn = solve(middle)
    if turn.value == first.value + first.slope * (middle - first.number):
        return [turn]
    return [*kinks(solve, first, turn), turn, *kinks(solve, turn, last)]


def with_number_of(model: Model, rhs: Optional[str], cost: Optional[str], number: Fraction) -> Model:
    """The model with another right side of a row, or another cost of a column."""
    return with_number(model, RHS, rhs, number) if rhs is not None else with_number(model, COST, cost or "", number)


def turns_of(model: Model, rhs: Optional[str], cost: Optional[str], low: Fraction, high: Fraction, effort: Effort = Effort()) -> List[Turn]:
    """The optimum over the right side of a row, or over the cost of a column."""
    if not (rhs in model.rows if rhs is not None else cost in model.columns):
        raise NoPicture(f"the model has no {'row' if rhs is not None else 'column'} {rhs if rhs is not None else cost}")
    if low >= high:
        raise NoPicture(f"from {shown(low)} to {shown(high)} there is nothing to be shown")

    def solve(number: Fraction) -> Turn:
        changed = with_number_of(model, rhs, cost, number)
        found = answered(written(changed, PROFILE).text, changed, effort)
        if not isinstance(found.answer, Optimal):
            raise NoOptimum(f"at {shown(number)} the answer is {found.answer}: choose other ends by --from and --to")
        parts = report(changed, found.certificate)
        slope = next(row.price for row in parts.rows if row.name == rhs) if rhs is not None else next(c.value for c in parts.columns if c.name == cost)
        return Turn(number, found.answer.value, slope)

    return over_number(solve, low, high)


def curve(turns: Sequence[Turn], name: str, what: str) -> str:
    """The optimum over a number as SVG, with a mark at each kink."""
    points = [(turn.number, turn.value) for turn in turns]
    picture = Picture(box_around(points), f"the optimum over the {what} {name}")
    picture.axes(name, "optimum")
    picture.line(points, "steelblue", width=2)
    for point in points:
        words = f"{label(point[0])}: {label(point[1])}"
        picture.dot(point, "steelblue", words)
        picture.note(point, words)
    return picture.svg()
