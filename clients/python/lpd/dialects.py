"""Models as other programs read them, in free form. docs/DIALECTS.md says which program reads what, as it was tried."""
from __future__ import annotations

from fractions import Fraction
from typing import Callable, Dict, List, Optional, Sequence, Tuple

from .errors import LpdError
from .model import Column, Limits, Model, is_name
from .names import Renamed, plain, renamed
from .number_text import shown
from .records import dataclass, field, replace

DIGITS = 17  # enough for each float to be read back


class Inexact(LpdError):
    """A number has no finite decimal, and the program reads no quotients."""

    ends_with = 9


class WrongName(LpdError):
    """A name of a model that was made by a program, which no text can have."""

    ends_with = 9

    def __init__(self, name: str) -> None:
        super().__init__(f"{name!r} is no name of a row or a column: lpd.names.plain makes {plain(name)!r} of it")


def with_dollar_before(name: str) -> bool:
    return name.startswith("$")


def is_sign(name: str) -> bool:
    return name in ("+", "-")


def nothing(name: str) -> bool:
    return False


@dataclass(frozen=True)
class Dialect:
    """What a program makes of a text. `offset_sign` is that of the objective's right side in the offset, 0 where it is ignored;
    `arguments` are those that read a text in free form, and `maximize` is the one that maximizes where OBJSENSE is not read.
    With `drops_free_rows` it leaves rows of type N behind the objective out of its model."""

    name: str
    arguments: Tuple[str, ...] = ()
    free_mark: str = ""  # behind the model's name
    maximize: Optional[str] = None
    offset_sign: int = -1
    reads_quotients: bool = False
    drops_free_rows: bool = False
    misreads: Callable[[str], bool] = with_dollar_before  # names that are read as something else

    def command(self, path: str, is_maximized: bool) -> List[str]:
        return [self.name, *self.arguments, path, *([self.maximize] if is_maximized and self.maximize else [])]


PROFILE = Dialect("lpd", reads_quotients=True, misreads=nothing)
DIALECTS = {
    dialect.name: dialect
    for dialect in (
        Dialect("glpsol", ("--freemps",), maximize="--max", offset_sign=1, drops_free_rows=True),
        Dialect("lp_solve", ("-fmps",), offset_sign=1, drops_free_rows=True, misreads=nothing),
        Dialect("clp", free_mark=" FREE", maximize="-maximize", drops_free_rows=True, misreads=is_sign),
        Dialect("cbc", free_mark=" FREE", maximize="-maximize", drops_free_rows=True, misreads=is_sign),
        Dialect("esolver", offset_sign=0, reads_quotients=True, drops_free_rows=True),
        Dialect("highs"),  # as HiGHS is documented; it was never tried
    )
}


@dataclass
class Written:
    """A model's text for a program, how to run it, what the text does not say as it was, and the names that were changed."""

    text: str
    command: List[str]
    notes: List[str] = field(default_factory=list)
    names: List[Renamed] = field(default_factory=list)


def decimal(value: Fraction) -> Optional[str]:
    """The exact decimal of a number, if it has a finite one."""
    bottom, twos, fives = value.denominator, 0, 0
    while bottom % 2 == 0:
        bottom, twos = bottom // 2, twos + 1
    while bottom % 5 == 0:
        bottom, fives = bottom // 5, fives + 1
    if bottom != 1:
        return None
    places = max(twos, fives)
    digits = str(abs(value.numerator) * 10**places // value.denominator).rjust(places + 1, "0")
    text = f"{digits[:-places]}.{digits[-places:]}" if places else digits
    return f"-{text}" if value < 0 else text


class Writer:
    """Writes one model for one program. With `rounds` a number without a finite decimal is rounded to 17 digits."""

    def __init__(self, model: Model, dialect: Dialect, rounds: bool = False) -> None:
        self.model, self.dialect, self.rounds = model, dialect, rounds
        self.rounded: List[str] = []
        self.texts: Dict[Tuple[int, int], str] = {}  # of numbers by tops and bottoms: most stand more than once

    def number(self, value: Fraction) -> str:
        key = (value.numerator, value.denominator)
        found = self.texts.get(key)
        if found is None:
            found = self.texts[key] = self.text_of(value)
        return found

    def text_of(self, value: Fraction) -> str:
        exact = shown(value)
        if self.dialect.reads_quotients or "/" not in exact:
            return exact
        found = decimal(value)
        if found is None:
            if not self.rounds:
                raise Inexact(f"{exact} has no finite decimal, and {self.dialect.name} reads no quotients: --round writes {DIGITS} digits of it")
            found = f"{float(value):.{DIGITS - 1}e}"
            self.rounded.append(exact)
        return found

    def column_cards(self, name: str, column: Column) -> List[str]:
        cards = [f" {name} {self.model.objective} {self.number(column.cost)}"]
        return cards + [f" {name} {row} {self.number(value)}" for row, value in column.entries.items()]

    def side_cards(self) -> List[str]:
        offset, cards = self.model.offset * self.dialect.offset_sign, []
        if offset:
            cards.append(f" RHS {self.model.objective} {self.number(offset)}")
        return cards + [f" RHS {name} {self.number(row.rhs)}" for name, row in self.model.rows.items() if row.rhs]

    def bound_cards(self, name: str, limits: Limits) -> List[str]:
        """The bounds, such that no card depends on the sign of an upper one."""
        lower, upper = limits
        if lower is None and upper is None:
            return [f" FR BND {name}"]
        if lower is not None and lower == upper:
            return [f" FX BND {name} {self.number(lower)}"]
        cards = [] if upper is None else [f" UP BND {name} {self.number(upper)}"]
        if lower is None:
            return [f" MI BND {name}", *cards]
        return [f" LO BND {name} {self.number(lower)}", *cards] if lower or (upper is not None and upper <= 0) else cards

    def text(self) -> str:
        model = self.model
        lines = [f"NAME {plain(model.name or 'model')}{self.dialect.free_mark}"]
        if model.sense < 0 and self.dialect.maximize is None:
            lines += ["OBJSENSE", "    MAX"]
        lines += ["ROWS", f" N {model.objective}", *(f" {row.kind} {name}" for name, row in model.rows.items()), "COLUMNS"]
        lines += [card for name, column in model.columns.items() for card in self.column_cards(name, column)]
        lines += ["RHS", *self.side_cards()]
        ranges = [f" RNG {name} {self.number(row.range)}" for name, row in model.rows.items() if row.range is not None]
        lines += ["RANGES", *ranges] if ranges else []
        bounds = [card for name, column in model.columns.items() for card in self.bound_cards(name, column.limits())]
        lines += ["BOUNDS", *bounds] if bounds else []
        return "".join(f"{line}\n" for line in [*lines, "ENDATA"])


def with_names(model: Model, rows: Dict[str, str], columns: Dict[str, str]) -> Model:
    """The model with other names for the rows and columns that are in the tables."""
    if not rows and not columns:
        return model

    def entries(column: Column) -> Dict[str, Fraction]:
        return {rows.get(row, row): value for row, value in column.entries.items()}

    return replace(
        model,
        objective=rows.get(model.objective, model.objective),
        rows={rows.get(name, name): row for name, row in model.rows.items()},
        columns={columns.get(name, name): replace(column, entries=entries(column)) for name, column in model.columns.items()},
    )


def without_free_rows(model: Model) -> Model:
    """The model without the rows that limit nothing."""
    if not model.free_rows():
        return model
    rows = {name: row for name, row in model.rows.items() if not row.is_free()}

    def entries(column: Column) -> Dict[str, Fraction]:
        return {row: value for row, value in column.entries.items() if row in rows}

    columns = {name: replace(column, entries=entries(column)) for name, column in model.columns.items()}
    return replace(model, rows=rows, columns=columns)


def first_few(names: Sequence[str]) -> str:
    return f"{', '.join(names[:6])}{', ..' if len(names) > 6 else ''}"


def written(model: Model, dialect: Dialect, rounds: bool = False, path: str = "MODEL") -> Written:
    """The model's text for a program. A number that the program cannot read exactly raises Inexact, unless it may be rounded, and a name
    with a blank or the like WrongName."""
    for name in (model.objective, *model.rows, *model.columns):
        if not is_name(name):
            raise WrongName(name)

    def fits(name: str) -> bool:
        return not dialect.misreads(name)

    def proposed(name: str) -> str:
        return f"_{name[1:]}"

    rows = renamed([model.objective, *model.rows], fits, proposed)
    columns = renamed(model.columns, fits, proposed)
    writer = Writer(with_names(model, rows, columns), dialect, rounds)
    text, notes, free = writer.text(), [], writer.model.free_rows()
    if model.sense < 0 and dialect.maximize:
        notes.append(f"the text does not say MAX, which {dialect.name} does not read there: run it with {dialect.maximize}")
    if model.offset and dialect.offset_sign == 0:
        notes.append(f"the offset {shown(model.offset)} is left out, since {dialect.name} ignores it: add it to the value")
    if model.offset and dialect.offset_sign > 0:
        notes.append(f"the objective's right side has the other sign, as {dialect.name} reads it")
    if free and dialect.drops_free_rows:
        notes.append(f"the text has the free rows {first_few(free)}, and {dialect.name} leaves them out of its model")
    if writer.rounded:
        notes.append(f"rounded to {DIGITS} digits: {first_few(writer.rounded)}")
    names = [Renamed("row", old, new) for old, new in rows.items()] + [Renamed("column", old, new) for old, new in columns.items()]
    return Written(text, dialect.command(path, model.sense < 0), notes, names)
