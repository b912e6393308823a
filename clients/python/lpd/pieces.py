"""The optimum over a right side or a cost, piece by piece: the range of the first basis, and beyond its ends those of the next ones.

The optimum is convex or concave over the number, and goes straight within a range. Beyond an end the model is solved again: either
the line of the basis that is found there meets the line before at that end, or they meet where the next one is solved. Where there is
no optimum any more, the certificate of that says up to where it holds, and there the next one is solved. So all ends are exact.
"""
from __future__ import annotations

from fractions import Fraction
from typing import Dict, List, NamedTuple, Optional, Tuple, Union

from .certificate import matched, read_certificate
from .dialects import PROFILE, written
from .errors import TextFault, Unexpected
from .model import ZERO, Model
from .number_text import shown
from .ranging import COST, RHS, Range, number_of, range_of, with_number
from .records import dataclass, field
from .replies import Answer, Infeasible, Past, Unbounded
from .report import conflict
from .svg import Box, Picture, Point, box_around, label
from .ways import by_lpd

MOST = 16  # pieces on each side of the first one
UP, DOWN = 1, -1


class Piece(NamedTuple):
    """The numbers from `low` to `high`, or without an end, over which the optimum is a straight line: at `at` it is `value`."""

    low: Optional[Fraction]
    high: Optional[Fraction]
    at: Fraction
    value: Fraction
    slope: Fraction

    def optimum(self, number: Fraction) -> Fraction:
        return self.value + (number - self.at) * self.slope

    def end(self, way: int) -> Optional[Fraction]:
        return self.high if way == UP else self.low

    def with_end(self, way: int, end: Optional[Fraction]) -> "Piece":
        return self._replace(high=end) if way == UP else self._replace(low=end)

    def is_on_line(self, other: Range) -> bool:
        return self.optimum(other.now) == other.value

    def meets(self, other: Range) -> Fraction:
        """Where its line meets that of a range."""
        if self.slope == other.slope:
            raise Unexpected("two ranges of one optimum are on lines side by side")
        return (other.value - other.slope * other.now - self.value + self.slope * self.at) / (self.slope - other.slope)


@dataclass
class Curve:
    """The optimum over a number, in pieces from left to right, each of which begins where the one before ends. The first range is the
    one of now. `beyond` is what there is below the first piece and above the last, where these have ends: INFEASIBLE, UNBOUNDED,
    or the answer, or the operation, that was not followed any further."""

    now: Fraction
    pieces: List[Piece]
    beyond: Dict[int, str] = field(default_factory=dict)

    def kinks(self) -> List[Tuple[Fraction, Fraction]]:
        """The ends of the pieces with the optimum there, in order."""
        ends = [(piece.low, piece) for piece in self.pieces] + [(self.pieces[-1].high, self.pieces[-1])]
        return [(end, piece.optimum(end)) for end, piece in ends if end is not None]


def edge(model: Model, what: str, name: str, answer: Answer, certificate: List[str]) -> Optional[Fraction]:
    """How far the number may be from what it is in this model, such that the certificate, that it has no optimum, holds no more."""
    if isinstance(answer, Infeasible) and what == RHS:
        found = conflict(model, certificate)
        times = next((row.multiplier for row in found.rows if row.name == name), ZERO)
        return -(found.asked - found.allowed) / times if times else None
    if isinstance(answer, Unbounded) and what == COST:
        ray = matched(model, read_certificate(certificate, wide=True))["r"]
        step = ray.get(name, ZERO)
        return -model.cost(ray) / step if step else None
    return None


class Walk:
    """Goes from piece to piece of the optimum over one number of a model."""

    def __init__(self, model: Model, what: str, name: str) -> None:
        self.model, self.what, self.name = model, what, name
        self.now = number_of(model, what, name)

    def curve(self, first: Range, most: int = MOST) -> Curve:
        """The pieces around the range of now, at most so many more on each side."""
        found = Curve(self.now, [Piece(first.low, first.high, first.now, first.value, first.slope)])
        for way in (UP, DOWN):
            for _ in range(most):
                if not self.go_on(found, way):
                    break
            else:
                found.beyond[way] = "more pieces"
        found.pieces = [piece for piece in found.pieces if piece.low is None or piece.low != piece.high] or found.pieces[:1]
        return found

    def go_on(self, found: Curve, way: int) -> bool:
        """Puts down the next piece, or that the last one goes on, and says whether there may be more."""
        at = -1 if way == UP else 0
        last = found.pieces[at]
        end = last.end(way)
        if end is None:
            return False
        number = end + way * width_of(last)
        while True:
            one = self.at(number, found, way)
            if one is None:
                return False
            if isinstance(one, Fraction):
                if (one - end) * way <= 0:
                    return False
                if (number - one) * way <= 0:
                    raise Unexpected(f"a certificate says that there is no optimum at {shown(end)}, where there is one")
                number = one
            elif last.is_on_line(one):
                found.pieces[at] = last.with_end(way, far_end(one, way) if one.slope == last.slope else number)
                return True
            elif last.meets(one) == end:
                far, near = far_end(one, way), end
                low, high = (near, far) if way == UP else (far, near)
                found.pieces.insert(len(found.pieces) if way == UP else 0, Piece(low, high, one.now, one.value, one.slope))
                return True
            else:
                number = last.meets(one)

    def at(self, number: Fraction, found: Curve, way: int) -> Union[Range, Fraction, None]:
        """The range with this number; or where to look next, since there is no optimum with it; or nothing, since that is not known."""
        changed = with_number(self.model, self.what, self.name, number)
        try:
            answer, one = range_of(changed, self.what, self.name)
        except TextFault:
            found.beyond[way] = "a number past 127 bits"
            return None
        if isinstance(one, Range):
            return one
        found.beyond[way] = str(answer if one is None else one)
        if not isinstance(answer, (Infeasible, Unbounded)):
            return None
        certificate = by_lpd(written(changed, PROFILE).text, changed).certificate
        step = edge(changed, self.what, self.name, answer, certificate)
        return None if step is None else number + step


def far_end(found: Range, way: int) -> Optional[Fraction]:
    return found.high if way == UP else found.low


def width_of(piece: Piece) -> Fraction:
    """How far behind the end of a piece the next one is looked for."""
    if piece.low is not None and piece.high is not None and piece.low != piece.high:
        return piece.high - piece.low
    end = piece.low if piece.high is None else piece.high
    return max(Fraction(1), abs((end or ZERO) - piece.at))


def curve_of(model: Model, what: str, name: str, most: int = MOST) -> "Tuple[Answer, Union[Curve, Past, None]]":
    """The answer to a model, and of an optimum the pieces of it over one number, a column's cost or a row's right side; or the
    operation of the first range that is past 127 bits."""
    answer, first = range_of(model, what, name)
    return answer, Walk(model, what, name).curve(first, most) if isinstance(first, Range) else first


# ---- pictures


def outer_ends(curve: Curve) -> Tuple[Fraction, Fraction]:
    """The ends of what is shown: where a piece has no end, as far behind the last kink as all kinks are apart."""
    kinks = [number for number, _ in curve.kinks()] or [curve.now]
    least, most = min([*kinks, curve.now]), max([*kinks, curve.now])
    more = (most - least) or max(Fraction(1), abs(curve.now) / 2)
    first, last = curve.pieces[0], curve.pieces[-1]
    return (least - more if first.low is None else first.low), (most + more if last.high is None else last.high)


def picture_of(curve: Curve, name: str, what: str) -> str:
    """The optimum over a number as SVG: a mark at each kink, a ring at now, and at the ends what is beyond them."""
    low, high = outer_ends(curve)
    kinks, first, last = curve.kinks(), curve.pieces[0], curve.pieces[-1]
    points: List[Point] = [*([(low, first.optimum(low))] if first.low is None else []), *kinks]
    points += [(high, last.optimum(high))] if last.high is None else []
    here = (curve.now, next(piece for piece in curve.pieces if holds(piece, curve.now)).optimum(curve.now))
    picture = Picture(box_around([*points, here]), f"the optimum over the {what} {name}")
    picture.axes(name, "optimum")
    picture.line(points, "steelblue", width=2)
    draw_beyond(picture, curve, picture.box)
    for point, front, fill in [(here, "now ", "firebrick"), *((kink, "", "steelblue") for kink in kinks)]:
        words = f"{front}{label(point[0])}: {label(point[1])}"
        picture.dot(point, fill, words)
        picture.note(point, words, "firebrick" if front else "black")
    return picture.svg()


def holds(piece: Piece, number: Fraction) -> bool:
    return (piece.low is None or piece.low <= number) and (piece.high is None or number <= piece.high)


def draw_beyond(picture: Picture, curve: Curve, box: Box) -> None:
    """A dashed line at each end of the optimum, with what is beyond it."""
    for way, piece in ((DOWN, curve.pieces[0]), (UP, curve.pieces[-1])):
        end = piece.end(way)
        if end is not None and way in curve.beyond:
            picture.line([(end, box.foot), (end, box.top)], "gray", "4 3")
            picture.text((end, box.top), curve.beyond[way][:24], "gray", across=6 * way, down=12, anchor="start" if way == UP else "end")
