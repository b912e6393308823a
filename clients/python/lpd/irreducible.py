"""`lpd iis`: limits of an infeasible model that contradict each other, of which none can be left out, and for each of them a point
that satisfies all the others.

Such limits have one combination that shows the contradiction, but for a factor. So it says of each limit exactly how far the
others let its row, or its column, come: moved up to there, it leaves the others a point, and moved less it does not.
"""
from __future__ import annotations

from fractions import Fraction
from typing import Callable, Dict, List, NamedTuple, Optional, Sequence

from .certificate import check_lines, matched, raise_unknown, read_certificate
from .dialects import PROFILE, written
from .errors import Unexpected
from .model import ZERO, Column, Model, Row, read_model, words_of
from .number_text import rounded, shown
from .once import answer_in, output_of, unexpected_of
from .records import dataclass, field, replace
from .replies import Accepted, Answer, Infeasible
from .session import body_of, count_of, value_of

SIDES = {("ROW", "LOWER"): (True, False), ("ROW", "UPPER"): (True, True), ("COLUMN", "LOWER"): (False, False), ("COLUMN", "UPPER"): (False, True)}
PLACES = 4  # of the decimal beside a quotient


class Side(NamedTuple):
    """One limit of a row, or one bound of a column."""

    is_row: bool
    name: str
    is_upper: bool


@dataclass(frozen=True)
class Member:
    """A limit of a row, or a bound of a column. The others let the row's sum, or the column's value, come up to `best` and no
    further. They are all satisfied by `point`, where that is `reached`."""

    side: Side
    limit: Fraction
    best: Fraction
    point: Dict[str, Fraction]
    reached: Fraction

    @property
    def name(self) -> str:
        return self.side.name

    @property
    def by(self) -> Fraction:
        """The least by which the limit has to be moved, such that it leaves the others a point."""
        return abs(self.limit - self.best)

    def words(self) -> str:
        kind, place = ("row", "limit") if self.side.is_row else ("column", "bound")
        return f"the {'upper' if self.side.is_upper else 'lower'} {place} of {kind} {self.name}"

    def sentence(self, others: str, s: str, number: Callable[[Fraction], str]) -> str:
        """What it says, and what the others say against it, who are named so; with an s behind the verb where that is one."""
        limit, best, name = number(self.limit), number(self.best), self.name
        if self.side.is_row and self.side.is_upper:
            return f"at most {limit} of {name} is there, but {others} ask{s} for {best} at least"
        if self.side.is_row:
            return f"at least {limit} of {name} is asked for, but {others} allow{s} {best} at most"
        if self.side.is_upper:
            return f"{name} may be {limit} at most, but {others} ask{s} for {best} at least"
        return f"{name} has to be {limit} at least, but {others} allow{s} {best} at most"


@dataclass(frozen=True)
class Irreducible:
    """Why there is no feasible point: `members` contradict each other, as the certificate shows for a model that has no other
    limits (`only`), and without any one of them there is a point. There are none where the model has another answer, and where
    an operation on the way passed 127 bits, or the pivots were not enough: `stopped`."""

    answer: Answer
    members: List[Member] = field(default_factory=list)
    certificate: List[str] = field(default_factory=list)
    stopped: Optional[Answer] = None

    def __str__(self) -> str:
        return "\n".join(self.sentences())

    def sentences(self, number: Optional[Callable[[Fraction], str]] = None) -> List[str]:
        """One for each member, with numbers that are shown so."""
        s = "s" if len(self.members) == 2 else ""
        return [member.sentence(self.others(member), s, number or in_words) for member in self.members]

    def others(self, member: Member) -> str:
        """A name for all members but one."""
        rest = [other.side for other in self.members if other is not member]
        if len(rest) == 1:
            bound = "its other bound" if rest[0].name == member.name else f"the bound of {rest[0].name}"
            return rest[0].name if rest[0].is_row else bound
        if all(not side.is_row for side in rest):
            return "the columns"
        return "the other rows" if member.side.is_row and all(side.is_row for side in rest) else "the others"


def in_words(value: Fraction) -> str:
    """A number, with a decimal beside it where it is a quotient."""
    text = shown(value)
    return f"{text} ({rounded(value, PLACES)})" if "/" in text else text


def limit_of(model: Model, side: Side) -> Fraction:
    if not (side.name in model.rows if side.is_row else side.name in model.columns):
        raise_unknown(side.name, "row" if side.is_row else "column")
    limits = model.rows[side.name].limits() if side.is_row else model.columns[side.name].limits()
    found = limits.upper if side.is_upper else limits.lower
    if found is None:
        raise Unexpected(f"lpd iis names a limit of {side.name} that there is not")
    return found


def only(model: Model, sides: Sequence[Side]) -> Model:
    """The model of these limits and bounds alone, without an objective."""
    listed = set(sides)
    found = Model(model.name, 1, model.objective)
    for name, row in model.rows.items():
        lower, upper = (limit if Side(True, name, is_upper) in listed else None for limit, is_upper in zip(row.limits(), (False, True)))
        if lower is not None and upper is not None:
            found.rows[name] = row
        elif lower is not None or upper is not None:
            found.rows[name] = Row("G", lower) if lower is not None else Row("L", upper or ZERO)
    for name, column in model.columns.items():
        lower, upper = (limit if Side(False, name, is_upper) in listed else None for limit, is_upper in zip(column.limits(), (False, True)))
        entries = {row: value for row, value in column.entries.items() if row in found.rows}
        found.columns[name] = Column(ZERO, lower, upper, entries)
    return found


def bare(model: Model, sides: Sequence[Side]) -> Model:
    """The same without the columns that these do not have, so that `lpd iis` may take what is left of a large model."""
    found, bounded = only(model, sides), {side.name for side in sides if not side.is_row}
    return replace(found, columns={name: column for name, column in found.columns.items() if column.entries or name in bounded})


def satisfies(model: Model, point: Dict[str, Fraction], side: Side) -> bool:
    value, limit = value_at(model, point, side), limit_of(model, side)
    return value <= limit if side.is_upper else value >= limit


def value_at(model: Model, point: Dict[str, Fraction], side: Side) -> Fraction:
    """The row's sum, or the column's value, at a point."""
    return model.activity(point, side.name) if side.is_row else point.get(side.name, ZERO)


# ---- what the program wrote


class Lines:
    """Takes the lines that the program wrote one after the other."""

    def __init__(self, lines: Sequence[str]) -> None:
        self.lines, self.at = list(lines), 0

    def next(self) -> List[str]:
        words = words_of(self.lines[self.at]) if self.at < len(self.lines) else []
        self.at += 1
        return words

    def count(self, word: str) -> int:
        words = self.next()
        if len(words) != 2 or words[0] != word:
            raise unexpected_of("iis", words, f"{word} stands")
        return count_of(words[1])

    def sides(self) -> List[Side]:
        found = []
        for _ in range(self.count("IIS")):
            words = self.next()
            if len(words) != 3 or (words[0], words[1]) not in SIDES:
                raise unexpected_of("iis", words, "a limit stands")
            is_row, is_upper = SIDES[words[0], words[1]]
            found.append(Side(is_row, words[2], is_upper))
        return found

    def certificate(self) -> List[str]:
        start = self.at
        while self.next() != ["END"]:
            if self.at > len(self.lines):
                raise unexpected_of("iis", [], "the END of a certificate stands")
        return self.lines[start : self.at]

    def points(self, count: int) -> List[Dict[str, Fraction]]:
        """The points, behind which END stands."""
        found: List[Dict[str, Fraction]] = []
        for number in range(1, count + 1):
            if self.count("POINT") != number:
                raise unexpected_of("iis", words_of(self.lines[self.at - 1]), f"POINT {number} stands")
            found.append({})
            while self.at < len(self.lines) and self.lines[self.at].startswith("x "):
                words = self.next()
                found[-1][words[1]] = value_of(words[-1])
        if self.next() != ["END"] or self.at != len(self.lines):
            raise unexpected_of("iis", words_of(self.lines[-1]), "END stands")
        return found


def best_of(contradicting: Model, sides: Sequence[Side], certificate: Sequence[str]) -> List[Fraction]:
    """How far the others let the row, or the column, of each member come."""
    found = read_certificate(certificate, wide=True)
    if found.column is not None:
        return [limit_of(contradicting, side._replace(is_upper=not side.is_upper)) for side in sides]
    y = matched(contradicting, found)["y"]
    times = [y.get(side.name, ZERO) if side.is_row else -contradicting.priced(y, side.name) for side in sides]
    if not all(times) or any((factor < 0) != side.is_upper for side, factor in zip(sides, times)):
        raise Unexpected("the combination of lpd iis leaves out one of its limits")
    limits = [limit_of(contradicting, side) for side in sides]
    more = sum((factor * limit for factor, limit in zip(times, limits)), ZERO)
    return [limit - more / factor for factor, limit in zip(times, limits)]


def judged(model: Model, sides: Sequence[Side], certificate: List[str], points: Sequence[Dict[str, Fraction]]) -> List[Member]:
    """The members, where the checker in Python accepts the certificate and each point satisfies all the others."""
    contradicting = only(model, sides)
    verdict = check_lines(contradicting, certificate)
    if not isinstance(verdict, Accepted) or verdict.known != Infeasible():
        raise Unexpected(f"the checker in Python says {verdict} to the certificate of lpd iis")
    for side, point in zip(sides, points):
        unmet = [other for other in sides if other != side and not satisfies(model, point, other)]
        if unmet:
            raise Unexpected(f"a point of lpd iis does not satisfy {unmet[0].name}")
    best = best_of(contradicting, sides, certificate)
    return [Member(side, limit_of(model, side), most, point, value_at(model, point, side)) for side, most, point in zip(sides, best, points)]


def read_iis(model: Model, lines: Sequence[str]) -> Irreducible:
    """What the program wrote."""
    answer, rest = answer_in(lines, 0, "iis"), Lines(lines[1:])
    if not isinstance(answer, Infeasible):
        return Irreducible(answer)
    if lines[1:2] and words_of(lines[1])[:1] == ["STOPPED"]:
        return Irreducible(answer, stopped=answer_in([lines[1].partition(" ")[2]], 0, "iis"))
    sides = rest.sides()
    certificate = rest.certificate()
    return Irreducible(answer, judged(model, sides, certificate, rest.points(len(sides))), certificate)


def iis(text: str, fixed: bool = False, path: Optional[str] = None, seconds: Optional[float] = None) -> Irreducible:
    """Limits of the model that a text of the profile spells which contradict each other, none of which can be left out. The checker in
    Python has accepted the certificate, and tried each point. OutOfTime says that the program is not done in as many seconds."""
    model = read_model(text, fixed)
    body = body_of(written(model, PROFILE).text if fixed else text, fixed=False)
    return read_iis(model, output_of(["iis"], body, path=path, seconds=seconds))


def renamed(found: Irreducible, rows: Dict[str, str], columns: Dict[str, str]) -> Irreducible:
    """With other names for rows and columns. The certificate keeps its own."""

    def member(one: Member) -> Member:
        side = one.side._replace(name=(rows if one.side.is_row else columns).get(one.name, one.name))
        return replace(one, side=side, point={columns.get(name, name): value for name, value in one.point.items()})

    return replace(found, members=[member(one) for one in found.members])
