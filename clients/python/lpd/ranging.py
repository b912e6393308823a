"""The interval of a cost, or of a right side, in which the basis of an optimum stays optimal; and what the optimum does in it, and
what gives the basis up at its ends: of one number by `lpd range`, and of all of them by the tableau of one basis, beside `lpd range
all`, which is proved.

A range is of a basis, not of the optimum: where an optimum has several bases, another one may have another range
(docs/PYTHON.md, "Ranges").
"""
from __future__ import annotations

from fractions import Fraction
from typing import Callable, Dict, List, Optional, Sequence, Tuple, Union

from .certificate import raise_unknown
from .dialects import PROFILE, Dialect, written
from .errors import TOO_WIDE, CommandMissing, ProgramEnded, TextFault, Unexpected
from .exact import OutOfTime
from .model import ZERO, Model, read_model, words_of
from .once import answer_in, output_of, unexpected_of
from .records import dataclass, field, replace
from .replies import Answer, Infeasible, Open, Optimal, Past, Spent, Unbounded
from .session import body_of, past_of, value_of
from .tableau import Tableau, tableau_of

COST, RHS = "cost", "rhs"
# For as many seconds the program is asked for all ranges. One that takes longer has numbers near 127 bits, or past them.
SECONDS = 2
# A word that begins with - is no name on the command line.
ASKED = Dialect("lpd range", reads_quotients=True, misreads=lambda name: name.startswith("-"))


@dataclass(frozen=True)
class Range:
    """The numbers from `low` to `high`, or without an end where that is None, with which the basis stays optimal. Now it is `now`, and
    the optimum `value`, which each unit more changes by `slope`. `below` and `above` are what gives the basis up at the ends. Whether
    the program writes this range, which is proved, is `is_proved`."""

    now: Fraction
    value: Fraction
    low: Optional[Fraction]
    high: Optional[Fraction]
    slope: Fraction
    below: List[str] = field(default_factory=list)
    above: List[str] = field(default_factory=list)
    is_proved: bool = field(default=False, compare=False)

    def __contains__(self, number: Fraction) -> bool:
        return (self.low is None or self.low <= number) and (self.high is None or number <= self.high)

    def optimum(self, number: Fraction) -> Fraction:
        """The optimum with another number of the range."""
        return self.value + (number - self.now) * self.slope

    def says(self) -> Tuple[Optional[Fraction], Optional[Fraction], Fraction]:
        """What a line of the program says of it."""
        return self.low, self.high, self.slope


Ranged = Union[Range, Past]  # an operation of the rule may be past 127 bits


@dataclass(frozen=True)
class Ranges:
    """The ranges of all costs and of all right sides of an optimum, by the names of columns and rows."""

    answer: Answer
    costs: Dict[str, Ranged] = field(default_factory=dict)
    sides: Dict[str, Ranged] = field(default_factory=dict)

    def of(self, what: str) -> Dict[str, Ranged]:
        return self.costs if what == COST else self.sides

    def told(self) -> str:
        """How many of them are proved, in a sentence."""
        every = [*self.costs.values(), *self.sides.values()]
        proved = sum(isinstance(one, Range) and one.is_proved for one in every)
        if not proved:
            return f"None of the {len(every)} ranges is proved: they were found in Python alone."
        agrees = "lpd range all, which is proved, says the same of"
        if proved == len(every):
            return f"{agrees} all {proved} ranges."
        return f"{agrees} {proved} of the {len(every)} ranges. The rest were found in Python alone."


def number_of(model: Model, what: str, name: str) -> Fraction:
    """The cost of a column, or the right side of a row."""
    if what == COST and name in model.columns:
        return model.columns[name].cost
    if what == RHS and name in model.rows:
        return model.rows[name].rhs
    raise_unknown(name, "column" if what == COST else "row")


def with_number(model: Model, what: str, name: str, number: Fraction) -> Model:
    """The model with another cost of a column, or another right side of a row."""
    if what == RHS:
        return replace(model, rows={**model.rows, name: replace(model.rows[name], rhs=number)})
    return replace(model, columns={**model.columns, name: replace(model.columns[name], cost=number)})


def read_range(lines: Sequence[str], now: Fraction) -> Tuple[Answer, Optional[Ranged]]:
    """What the program wrote: the answer, and of an optimum the range, or the operation that is past 127 bits."""
    answer = answer_in(lines, 0, "range")
    if not isinstance(answer, Optimal):
        return answer, None
    return answer, ranged_in(words_of(lines[1]) if len(lines) == 2 else [], now, answer.value)


def ranged_in(words: Sequence[str], now: Fraction, value: Fraction) -> Ranged:
    """The range that stands in words of the program, or the operation that is past 127 bits."""
    past = past_of(words)
    if past is not None:
        return past
    if len(words) != 5 or words[0] != "RANGE" or words[3] != "SLOPE":
        raise unexpected_of("range", words, "RANGE or PAST stands")
    low, high = (None if word == "NONE" else value_of(word) for word in words[1:3])
    return Range(now, value, low, high, value_of(words[4]), is_proved=True)


def numbers_of(model: Model) -> List[Tuple[str, str]]:
    """All costs and then all right sides, each by its kind and the name of its column or row."""
    return [(COST, name) for name in model.columns] + [(RHS, name) for name in model.rows]


def read_ranges(lines: Sequence[str], model: Model) -> Ranges:
    """What `lpd range all` wrote: the answer, and of an optimum a line for each number of the model."""
    found = Ranges(answer_in(lines, 0, "range all"))
    if not isinstance(found.answer, Optimal):
        return found
    numbers = numbers_of(model)
    if len(lines) != 1 + len(numbers):
        raise Unexpected(f"lpd range all wrote {len(lines)} lines of {len(numbers)} numbers")
    for line, (what, name) in zip(lines[1:], numbers):
        first, second, *words = line.split(" ", 2)
        if [first, second] != [what, name]:
            raise unexpected_of("range all", [first, second], f"{what} {name} stands")
        found.of(what)[name] = ranged_in(words_of(" ".join(words)), number_of(model, what, name), found.answer.value)
    return found


class Asked:
    """A model of whose numbers the program is asked for the ranges. Each time it solves the model, cold."""

    def __init__(self, text: str, model: Model, path: Optional[str] = None) -> None:
        self.model, self.path = model, path
        self.names: Dict[Tuple[str, str], str] = {}
        if any(ASKED.misreads(name) for name in [*model.rows, *model.columns]):
            out = written(model, ASKED)
            text, self.names = out.text, {(RHS if name.kind == "row" else COST, name.old): name.new for name in out.names}
        self.body = body_of(text, fixed=False)

    def range(self, what: str, name: str) -> Tuple[Answer, Optional[Ranged]]:
        now = number_of(self.model, what, name)
        return read_range(output_of(["range", what, self.names.get((what, name), name)], self.body, path=self.path), now)


def range_of(model: Model, what: str, name: str, path: Optional[str] = None) -> Tuple[Answer, Optional[Ranged]]:
    """The answer to a model, and of an optimum the range of one number: of a column's cost, or of a row's right side. Where the
    program's numbers are not wide enough it is found in Python."""
    text = written(model, PROFILE).text
    try:
        answer, found = Asked(text, model, path).range(what, name)
        if not isinstance(answer, (Past, Spent, Open)) and not isinstance(found, Past):
            return answer, found
    except TextFault as fault:
        if fault.fault != TOO_WIDE:
            raise
    return exactly(text, model, what, name, path)


def exactly(text: str, model: Model, what: str, name: str, path: Optional[str] = None) -> Tuple[Answer, Optional[Ranged]]:
    """The answer, and of an optimum the range of one number, in fractions of any width."""
    answer, tableau = tableau_of(text, model, path)
    return answer, None if tableau is None else in_tableau(model, answer, tableau, what, name)


def in_tableau(model: Model, answer: Answer, tableau: Tableau, what: str, name: str) -> Ranged:
    """The range of one number by a tableau."""
    now, k = number_of(model, what, name), tableau.at[what == RHS, name]
    ends = tableau.of_cost(name) if what == COST else tableau.of_side(name)
    slope = tableau.value(k) if what == COST else model.sense * tableau.y.get(k - tableau.simplex.count, ZERO)
    low, high = (None if ends.down is None else now - ends.down), (None if ends.up is None else now + ends.up)
    return Range(now, answer.value if isinstance(answer, Optimal) else ZERO, low, high, slope, ends.below, ends.above)


def nothing(done: int, count: int) -> None:
    pass


def told_at_once(text: str, model: Model, path: Optional[str]) -> Optional[Ranges]:
    """What `lpd range all` says of a text of the profile in free form; nothing where the program has no such command, or is not done
    soon, or where a number of the text is past 127 bits."""
    try:
        return read_ranges(output_of(["range", "all"], body_of(text, fixed=False), path=path, seconds=SECONDS), model)
    except (CommandMissing, ProgramEnded, OutOfTime):
        return None
    except TextFault as fault:
        if fault.fault != TOO_WIDE:
            raise
        return None


def as_told(found: Ranged, told: Optional[Ranged]) -> Ranged:
    """A range, which is proved where the program says the same."""
    if isinstance(found, Range) and isinstance(told, Range) and found.says() == told.says():
        return replace(found, is_proved=True)
    return found


def ranges(text: str, fixed: bool = False, path: Optional[str] = None, tell: Callable[[int, int], None] = nothing) -> Ranges:
    """The ranges of all costs and right sides of the model that a text of the profile spells, as one basis of its optimum has them, in
    fractions of any width. `lpd range all`, which takes no large model, is asked once, and a basis once; `tell` is told how many ranges
    are done, and of how many."""
    model = read_model(text, fixed, wide=True)
    body = written(model, PROFILE).text if fixed else text
    told = None if model.is_large else told_at_once(body, model, path)
    if told is not None and isinstance(told.answer, (Infeasible, Unbounded)):
        return told
    answer, tableau = tableau_of(body, model, path, is_narrow=told is not None and isinstance(told.answer, Optimal))
    found, numbers = Ranges(answer), numbers_of(model)
    if tableau is None:
        return found
    for done, (what, name) in enumerate(numbers):
        tell(done, len(numbers))
        one = in_tableau(model, answer, tableau, what, name)
        found.of(what)[name] = one if told is None else as_told(one, told.of(what).get(name))
    return found
