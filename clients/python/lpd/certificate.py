"""Certificates and their check, with sums of any width (docs/FORMATS.md, "Certificates" and "The check")."""
from __future__ import annotations

from fractions import Fraction
from math import gcd
from typing import Callable, Dict, Iterable, List, NamedTuple, NoReturn, Optional, Sequence, Tuple, Union

from .errors import CertificateFault, NameRepeated, UnknownName, readable
from .model import LONGEST_LINE, Limits, Model, lines_of, read_lines, words_of
from .number_text import NotANumber, TooWide, number, shown
from .records import dataclass
from .replies import Accepted, Infeasible, Known, Optimal, Rejected, Unbounded

LETTERS: Dict[str, Tuple[str, ...]] = {"OPTIMAL": ("x", "y"), "INFEASIBLE": ("y",), "UNBOUNDED": ("x", "r"), "CLASH": ()}


class Part(NamedTuple):
    letter: str
    name: str
    value: Fraction


@dataclass
class Certificate:
    """What a text of a certificate says. `column` is that of CLASH."""

    kind: str
    column: Optional[str]
    parts: List[Part]


Values = Dict[str, Fraction]


def read_certificate(lines: Sequence[str], wide: bool = False) -> Certificate:
    found: Optional[Certificate] = None
    for n, line in enumerate(lines, 1):
        words = words_of(line) if len(line) <= LONGEST_LINE else []
        if found is None:
            if not words or words[0] not in LETTERS or len(words) != (2 if words[0] == "CLASH" else 1):
                raise CertificateFault(n, line)
            found = Certificate(words[0], words[1] if len(words) == 2 else None, [])
        elif words == ["END"]:
            return found
        else:
            if len(words) != 3 or words[0] not in LETTERS[found.kind]:
                raise CertificateFault(n, line)
            try:
                found.parts.append(Part(words[0], words[1], number(words[2], wide)))
            except (NotANumber, TooWide):
                raise CertificateFault(n, line) from None
    raise CertificateFault(len(lines) + 1)


def matched(model: Model, certificate: Certificate) -> Dict[str, Values]:
    """For each letter the numbers by names."""
    if certificate.column is not None and certificate.column not in model.columns:
        raise_unknown(certificate.column, "column")
    given: Dict[str, Values] = {"x": {}, "y": {}, "r": {}}
    for letter, name, value in certificate.parts:
        if not (name in model.rows if letter == "y" else name in model.columns):
            raise_unknown(name, "row" if letter == "y" else "column")
        if name in given[letter]:
            raise NameRepeated(f"ERR 12 REPEATED {name}", f"the certificate has two parts {letter} {readable(name)}", name)
        given[letter][name] = value
    return given


def raise_unknown(name: str, what: str) -> NoReturn:
    raise UnknownName(f"ERR 5 NAME {name}", f"the model has no {what} {readable(name)!r}", name)


# ---- conditions


class Failed(Exception):
    """The number of the condition that fails, and why."""

    def __init__(self, condition: int, why: str) -> None:
        self.condition, self.why = condition, why


def need(holds: bool, condition: int, why: Callable[[], str]) -> None:
    """Why is asked for only where it does not hold: a number of thousands of digits takes long to write."""
    if not holds:
        raise Failed(condition, why())


def limits_in_words(limits: Limits) -> str:
    lower, upper = limits
    if lower is not None and upper is not None:
        return f"equal to {shown(lower)}" if lower == upper else f"from {shown(lower)} to {shown(upper)}"
    if lower is None and upper is None:
        return "of any value"
    return f"at least {shown(lower)}" if lower is not None else f"at most {shown(upper or Fraction(0))}"


class Sum(NamedTuple):
    """A sum as a quotient that is not in lowest terms. Its bottom is above 0."""

    top: int
    bottom: int

    def exact(self) -> Fraction:
        return Fraction(self.top, self.bottom)

    def over(self, limit: Fraction) -> int:
        """How far it is above the limit, as a number with the same sign."""
        return self.top * limit.denominator - limit.numerator * self.bottom


def sum_of(value: Fraction) -> Sum:
    return Sum(value.numerator, value.denominator)


def is_between(limits: Limits, value: Sum) -> bool:
    return (limits.lower is None or value.over(limits.lower) >= 0) and (limits.upper is None or value.over(limits.upper) <= 0)


def is_tight(limits: Limits, multiplier: int, value: Sum) -> bool:
    """The multiplier counts by its sign."""
    limit = limits.lower if multiplier > 0 else limits.upper
    return multiplier == 0 or (limit is not None and value.over(limit) == 0)


def allows(limits: Limits, step: int) -> bool:
    """The step counts by its sign."""
    return (limits.lower is None or step >= 0) and (limits.upper is None or step <= 0)


# ---- sums


def common_denominator(numbers: Iterable[Fraction]) -> int:
    common = 1
    for number in numbers:
        if common % number.denominator:
            common *= number.denominator // gcd(common, number.denominator)
    return common


class Wholes(NamedTuple):
    """Numbers by their names, each as many times as their common denominator says."""

    numbers: Dict[str, int]
    times: int


def wholes_of(values: Values) -> Wholes:
    times = common_denominator(values.values())
    return Wholes({name: value.numerator * (times // value.denominator) for name, value in values.items()}, times)


def weighed(numbers: Dict[str, int], weights: Dict[str, Fraction]) -> Sum:
    """The sum of the numbers times their weights."""
    used = {name: weight for name, weight in weights.items() if name in numbers}
    unit = common_denominator(used.values())
    return Sum(sum(numbers[name] * (weight.numerator * (unit // weight.denominator)) for name, weight in used.items()), unit)


def activities(model: Model, wholes: Wholes) -> Dict[str, Sum]:
    """The sums of all rows, by a walk over the entries of the columns that have a number."""
    entries: Dict[str, Dict[str, Fraction]] = {name: {} for name in model.rows}
    for name in wholes.numbers:
        for row, entry in model.columns[name].entries.items():
            entries[row][name] = entry
    sums = {row: weighed(wholes.numbers, found) for row, found in entries.items()}
    return {row: Sum(found.top, found.bottom * wholes.times) for row, found in sums.items()}


def cost_of(model: Model, values: Values) -> Fraction:
    wholes = wholes_of(values)
    found = weighed(wholes.numbers, {name: model.columns[name].cost for name in wholes.numbers})
    return Fraction(found.top, found.bottom * wholes.times)


def reduced_cost(model: Model, wholes: Wholes, name: str) -> Sum:
    """The reduced cost of a column, by multipliers."""
    column = model.columns[name]
    part = weighed(wholes.numbers, column.entries)
    own = model.sense * column.cost
    bottom = part.bottom * wholes.times
    return Sum(own.numerator * bottom - part.top * own.denominator, bottom * own.denominator)


ZERO = Fraction(0)


def must_be_feasible(model: Model, x: Values) -> Dict[str, Sum]:
    """The sums of all rows at a point that is feasible."""
    for name, column in model.columns.items():
        value, limits = x.get(name, ZERO), column.limits()
        need(is_between(limits, sum_of(value)), 1, lambda: f"column {name} is {shown(value)}, and has to be {limits_in_words(limits)}")
    sums = activities(model, wholes_of(x))
    for name, row in model.rows.items():
        found, limits = sums[name], row.limits()
        need(
            is_between(limits, found), 2, lambda: f"the sum of row {name} is {shown(found.exact())}, and has to be {limits_in_words(limits)}"
        )
    return sums


def side(sign: Union[int, Fraction]) -> str:
    return "lower" if sign > 0 else "upper"


def has_limit(limits: Limits, sign: Union[int, Fraction]) -> bool:
    """Whether there is the limit for a multiplier with this sign: a free row has none for any."""
    return (limits.lower if sign > 0 else limits.upper) is not None


def optimal(model: Model, x: Values, y: Values) -> Optimal:
    sums = must_be_feasible(model, x)
    multipliers = wholes_of(y)
    for name, column in model.columns.items():
        reduced, value = reduced_cost(model, multipliers, name), x.get(name, ZERO)
        need(is_tight(column.limits(), reduced.top, sum_of(value)), 3, lambda: loose_column(name, column.limits(), reduced, value))
    for name, row in model.rows.items():
        multiplier = y.get(name, ZERO)
        need(is_tight(row.limits(), multiplier.numerator, sums[name]), 4, lambda: loose_row(name, row.limits(), multiplier, sums[name]))
    return Optimal(cost_of(model, x) + model.offset)


def loose_column(name: str, limits: Limits, reduced: Sum, value: Fraction) -> str:
    there = f", so it has to be at its {side(reduced.top)} bound, and is {shown(value)}"
    why = there if has_limit(limits, reduced.top) else f" and no {side(reduced.top)} bound"
    return f"column {name} has the reduced cost {shown(reduced.exact())}{why}"


def loose_row(name: str, limits: Limits, multiplier: Fraction, found: Sum) -> str:
    there = f", so its sum has to be at its {side(multiplier)} limit, and is {shown(found.exact())}"
    why = there if has_limit(limits, multiplier) else f" and no {side(multiplier)} limit"
    return f"row {name} has the multiplier {shown(multiplier)}{why}"


def infeasible(model: Model, y: Values) -> Infeasible:
    wholes = wholes_of(y)
    asked = given = ZERO  # each as many times as the multipliers are
    for name, row in model.rows.items():
        multiplier = wholes.numbers.get(name, 0)
        if multiplier:
            limit = row.limits().lower if multiplier > 0 else row.limits().upper
            if limit is None:
                raise Failed(1, f"row {name} has the multiplier {shown(y[name])} and no {side(multiplier)} limit")
            asked += multiplier * limit
    for name, column in model.columns.items():
        part = weighed(wholes.numbers, column.entries)
        if part.top:
            limit = column.upper if part.top > 0 else column.lower
            if limit is None:
                raise Failed(2, f"column {name} has the sum {shown(part.exact() / wholes.times)} and no {side(-part.top)} bound")
            given += part.exact() * limit
    need(given < asked, 3, lambda: too_little(asked / wholes.times, given / wholes.times))
    return Infeasible()


def too_little(asked: Fraction, given: Fraction) -> str:
    return f"the rows require {shown(asked)}, and the bounds allow {shown(given)}, which is not less"


def clash(model: Model, name: str) -> Infeasible:
    lower, upper = model.columns[name].limits()
    is_clash = lower is not None and upper is not None and lower > upper
    need(is_clash, 1, lambda: f"column {name} is {limits_in_words(Limits(lower, upper))}, and that is no clash")
    return Infeasible()


def unbounded(model: Model, x: Values, r: Values) -> Unbounded:
    must_be_feasible(model, x)
    for name, column in model.columns.items():
        step = r.get(name, ZERO)
        need(allows(column.limits(), step.numerator), 3, lambda: towards("bound", f"column {name}", step, column.limits()))
    sums = activities(model, wholes_of(r))
    for name, row in model.rows.items():
        found = sums[name]
        need(allows(row.limits(), found.top), 4, lambda: towards("limit", f"row {name}", found.exact(), row.limits()))
    gain = cost_of(model, r)
    need(model.sense * gain < 0, 5, lambda: f"the ray changes the objective by {shown(gain)}, which is not better")
    return Unbounded()


def towards(limit: str, what: str, step: Fraction, limits: Limits) -> str:
    return f"the ray moves {what} by {shown(step)}, towards a {limit}: it is {limits_in_words(limits)}"


def known_by(model: Model, certificate: Certificate) -> Known:
    """What an accepted certificate shows of the model."""
    given = matched(model, certificate)
    if certificate.kind == "OPTIMAL":
        return optimal(model, given["x"], given["y"])
    if certificate.kind == "INFEASIBLE":
        return infeasible(model, given["y"])
    if certificate.kind == "UNBOUNDED":
        return unbounded(model, given["x"], given["r"])
    return clash(model, certificate.column or "")


def check_lines(model: Model, lines: Sequence[str], wide: bool = False) -> Union[Accepted, Rejected]:
    """The verdict on a certificate for a model."""
    try:
        return Accepted(known_by(model, read_certificate(lines, wide)))
    except Failed as failed:
        return Rejected(failed.condition, failed.why)


def check(text: str, certificate: Optional[str] = None, fixed: bool = False, wide: bool = False) -> Union[Accepted, Rejected]:
    """The verdict on a certificate for the model that a text spells. Without a certificate it comes after ENDATA in the text.

    It is the check of `lpd check` in plain Python. Sums are of any width, and with wide, as for `lpd check --wide`, the numbers in the
    texts too, and the model may be large. A text that spells no model, and a certificate that does not fit, raise what `errors` has
    for them.
    """
    lines = lines_of(text)
    model, count = read_lines(lines, fixed, wide, large=wide)
    return check_lines(model, lines[count:] if certificate is None else lines_of(certificate), wide)
