"""Other numbers of a model, as words say them: ROW=NUMBER for a right side, COLUMN=NUMBER for a cost, COLUMN=LOW:HIGH for bounds, and
ROW:COLUMN=NUMBER for a coefficient. Names may have = and : in them, since a number has neither."""
from __future__ import annotations

from fractions import Fraction
from typing import Callable, Dict, List, NamedTuple, NoReturn, Optional, Sequence, Tuple

from .certificate import raise_unknown
from .errors import LpdError
from .model import Column, Model
from .names import Renamed
from .number_text import NotANumber, bound, number, shown
from .records import replace


class NoChange(LpdError):
    """Words say no change of a model."""

    ends_with = 2


class Changed(NamedTuple):
    """A model with other numbers, and what was changed, in words."""

    model: Model
    changes: List[str]


def refused(word: str, form: str) -> NoReturn:
    raise NoChange(f"{word!r} is no change: give it as {form}")


def parted(word: str, form: str) -> Tuple[str, str]:
    """What stands before the last =, and what behind it."""
    name, sign, text = word.rpartition("=")
    if not sign or not name or not text:
        refused(word, form)
    return name, text


def read_number(word: str, text: str, form: str) -> Fraction:
    try:
        return number(text, wide=True)
    except (NotANumber, ValueError):
        refused(word, form)


def read_bound(word: str, text: str, form: str) -> Optional[Fraction]:
    try:
        return bound(text, wide=True)[0]
    except (NotANumber, ValueError):
        refused(word, form)


def with_column(model: Model, name: str, change: Callable[[Column], Column]) -> Model:
    if name not in model.columns:
        raise_unknown(name, "column")
    return replace(model, columns={**model.columns, name: change(model.columns[name])})


def set_rhs(model: Model, word: str) -> Changed:
    """Of the objective it is the negative of the offset."""
    name, text = parted(word, "ROW=NUMBER")
    value = read_number(word, text, "ROW=NUMBER")
    if name == model.objective and name not in model.rows:
        told = [f"right side of {name} {shown(-model.offset)} to {shown(value)}"]
        return Changed(replace(model, offset=-value), told)
    if name not in model.rows:
        raise_unknown(name, "row")
    rows = {**model.rows, name: replace(model.rows[name], rhs=value)}
    return Changed(replace(model, rows=rows), [f"right side of {name} {shown(model.rows[name].rhs)} to {shown(value)}"])


def set_cost(model: Model, word: str) -> Changed:
    name, text = parted(word, "COLUMN=NUMBER")
    value = read_number(word, text, "COLUMN=NUMBER")
    found = with_column(model, name, lambda column: replace(column, cost=value))
    return Changed(found, [f"cost of {name} {shown(model.columns[name].cost)} to {shown(value)}"])


def set_bound(model: Model, word: str) -> Changed:
    """Both bounds, of which -inf and inf are none."""
    form = "COLUMN=LOW:HIGH, of which -inf and inf are no bounds"
    name, text = parted(word, form)
    low, sign, high = text.partition(":")
    if not sign:
        refused(word, form)
    lower, upper = read_bound(word, low, form), read_bound(word, high, form)
    found = with_column(model, name, lambda column: replace(column, lower=lower, upper=upper))
    before = model.columns[name]
    return Changed(found, [f"bounds of {name} {in_words(before.lower, before.upper)} to {in_words(lower, upper)}"])


def in_words(lower: Optional[Fraction], upper: Optional[Fraction]) -> str:
    return f"{'-inf' if lower is None else shown(lower)}:{'inf' if upper is None else shown(upper)}"


def set_coefficient(model: Model, word: str) -> Changed:
    form = "ROW:COLUMN=NUMBER"
    names, text = parted(word, form)
    value = read_number(word, text, form)
    at = [n for n, sign in enumerate(names) if sign == ":"]
    if not at:
        refused(word, form)
    row, column = next(((names[:n], names[n + 1 :]) for n in at if names[:n] in model.rows), (names[: at[0]], names[at[0] + 1 :]))
    if row not in model.rows:
        raise_unknown(row, "row")
    before = model.columns[column].entries.get(row, Fraction(0)) if column in model.columns else Fraction(0)

    def change(found: Column) -> Column:
        entries = {**found.entries, row: value}
        return replace(found, entries={name: entry for name, entry in entries.items() if entry})

    return Changed(with_column(model, column, change), [f"coefficient of {column} in {row} {shown(before)} to {shown(value)}"])


SETTERS: Dict[str, Callable[[Model, str], Changed]] = {
    "rhs": set_rhs,
    "cost": set_cost,
    "bound": set_bound,
    "coef": set_coefficient,
}


def with_new_names(model: Model, what: str, word: str, names: Sequence[Renamed]) -> str:
    """The word for a change with names of the model, where it has those of the text before it was converted."""
    name, sign, text = word.rpartition("=")
    rows, columns = ({one.old: one.new for one in names if one.kind == kind} for kind in ("row", "column"))
    if what != "coef":
        of_kind = rows if what == "rhs" else columns
        return f"{of_kind.get(name, name)}{sign}{text}"
    for at in [n for n, letter in enumerate(name) if letter == ":"]:
        row, column = name[:at], name[at + 1 :]
        row, column = rows.get(row, row), columns.get(column, column)
        if row in model.rows and column in model.columns:
            return f"{row}:{column}{sign}{text}"
    return word


def changed(model: Model, words: Sequence[Tuple[str, str]], names: Sequence[Renamed] = ()) -> Changed:
    """The model with other numbers, by pairs of what is set (rhs, cost, bound or coef) and the word for it. The words may have the names
    before those that a conversion changed."""
    told: List[str] = []
    for what, word in words:
        model, more = SETTERS[what](model, with_new_names(model, what, word, names) if names else word)
        told += more
    return Changed(model, told)
