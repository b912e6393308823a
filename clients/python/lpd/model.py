"""Models, and the reading of their texts in free and in fixed MPS (docs/FORMATS.md, "Texts of models").

It is written from the manual alone and shares nothing with the server, so that it can serve as a second opinion.
"""
from __future__ import annotations

import re
from fractions import Fraction
from operator import itemgetter
from typing import Callable, Dict, Iterable, List, Mapping, NamedTuple, Optional, Set, Tuple, TypeVar

from .errors import TextFault
from .number_text import NotANumber, TooWide, bound, number
from .records import dataclass, field

LONGEST_LINE = 16384
MOST_ROWS, MOST_COLUMNS = 256, 512
LARGE_ROWS, LARGE_COLUMNS = 65536, 131072  # of lpd check, solve and basis, each with --wide
SECTIONS = ["NAME", "OBJSENSE", "ROWS", "COLUMNS", "RHS", "RANGES", "BOUNDS", "ENDATA"]
SENSES = {"MIN": 1, "MINIMIZE": 1, "MAX": -1, "MAXIMIZE": -1}
FIELDS = [(2, 3), (5, 12), (15, 22), (25, 36), (40, 47), (50, 61)]
SHAPES_OF_COLUMN = {False: ([1, 2, 3], [1, 2, 3, 4, 5]), True: ([2, 3, 4], [2, 3, 4, 5, 6])}  # whether the form is fixed
GAPS = (1, 4, 13, 14, 23, 24, 37, 38, 39, 48, 49, 62)
BETWEEN = itemgetter(*(column - 1 for column in GAPS))
BLANKS = (" ",) * len(GAPS)
Value = TypeVar("Value")
ZERO = Fraction(0)
FREE = "N"  # the type of the objective, and of a row without limits
MARKER = "'MARKER'"
NAME = re.compile(r"[!-~]{1,64}\Z")


class Limits(NamedTuple):
    """A lower and an upper limit, each None if it is absent."""

    lower: Optional[Fraction]
    upper: Optional[Fraction]


@dataclass
class Row:
    """A row of type L, G, E or N. One of type N is free: it has no limits and no range, and its right side limits nothing."""

    kind: str
    rhs: Fraction = Fraction(0)
    range: Optional[Fraction] = None

    def is_free(self) -> bool:
        return self.kind == FREE

    def limits(self) -> Limits:
        b, r = self.rhs, self.range
        if self.is_free():
            return Limits(None, None)
        if self.kind == "L":
            return Limits(None if r is None else b - abs(r), b)
        if self.kind == "G":
            return Limits(b, None if r is None else b + abs(r))
        return Limits(b, b) if r is None else Limits(min(b, b + r), max(b, b + r))


@dataclass
class Column:
    cost: Fraction = Fraction(0)
    lower: Optional[Fraction] = Fraction(0)
    upper: Optional[Fraction] = None
    entries: Dict[str, Fraction] = field(default_factory=dict)

    def limits(self) -> Limits:
        return Limits(self.lower, self.upper)


@dataclass
class Model:
    name: str = ""
    sense: int = 1  # -1 if the objective is maximized
    objective: str = ""
    offset: Fraction = Fraction(0)
    rows: Dict[str, Row] = field(default_factory=dict)
    columns: Dict[str, Column] = field(default_factory=dict)
    skipped: List[int] = field(default_factory=list, compare=False)  # the lines of cards of other sets

    @property
    def is_large(self) -> bool:
        """Whether it has more rows or columns than sessions take, and the commands without --wide."""
        return len(self.rows) > MOST_ROWS or len(self.columns) > MOST_COLUMNS

    def free_rows(self) -> List[str]:
        """The names of the rows without limits."""
        return [name for name, row in self.rows.items() if row.is_free()]

    def activity(self, values: Mapping[str, Fraction], row: str) -> Fraction:
        """The sum of a row at the values of columns, which are 0 if absent. Of many rows `activities` has them at once."""
        given = ((self.columns[name].entries.get(row), value) for name, value in values.items() if value and name in self.columns)
        return sum((entry * value for entry, value in given if entry), ZERO)

    def activities(self, values: Mapping[str, Fraction]) -> Dict[str, Fraction]:
        """The sums of all rows, by which each coefficient is seen once, and only those of columns that are not 0."""
        sums = dict.fromkeys(self.rows, ZERO)
        for name, value in values.items():
            if value and name in self.columns:
                for row, entry in self.columns[name].entries.items():
                    sums[row] += entry * value
        return sums

    def cost(self, values: Mapping[str, Fraction]) -> Fraction:
        """The sum of the costs at the values of columns, without the offset."""
        return sum((c.cost * values.get(name, ZERO) for name, c in self.columns.items()), ZERO)

    def reduced_cost(self, multipliers: Mapping[str, Fraction], column: str) -> Fraction:
        """e times the column's cost less its coefficients times the multipliers of their rows, with e as the sense."""
        found = self.columns[column]
        return self.sense * found.cost - self.priced(multipliers, column)

    def priced(self, multipliers: Mapping[str, Fraction], column: str) -> Fraction:
        entries = self.columns[column].entries.items()
        return sum((multipliers[row] * entry for row, entry in entries if multipliers.get(row)), ZERO)


# ---- lines


def lines_of(text: str) -> List[str]:
    """The lines of a text. One carriage return before a line feed is dropped."""
    lines = text.split("\n")
    last = lines.pop()
    lines = [line[:-1] if line[-1:] == "\r" else line for line in lines]
    return lines + ([last] if last else [])


def words_of(line: str) -> List[str]:
    """The words between spaces and tabs. In a text of printable characters alone there is no other blank than the space."""
    return line.split() if line.isprintable() else list(filter(None, line.replace("\t", " ").split(" ")))


def has_gaps(line: str) -> bool:
    """Whether there is nothing but spaces between the fields of fixed form."""
    return bool(BETWEEN(line.ljust(GAPS[-1])) == BLANKS)


def is_name(name: str, of_row: bool = False) -> bool:
    return NAME.match(name) is not None and not (of_row and name == MARKER)


# ---- reading


class Fault(Exception):
    """The number of what is wrong with a line."""

    def __init__(self, number: int) -> None:
        self.number = number


def must(holds: bool, fault: int) -> None:
    if not holds:
        raise Fault(fault)


def coded(read: Callable[[str], Value], text: str) -> Value:
    try:
        return read(text)
    except NotANumber:
        raise Fault(9) from None
    except TooWide:
        raise Fault(10) from None


def pairs(texts: List[str]) -> Iterable[Tuple[str, str]]:
    return zip(texts[::2], texts[1::2])


class Reader:
    """Reads the text of a model line by line. Strings stand for bytes, one for each, as latin-1 has them."""

    def __init__(self, fixed: bool = False, wide: bool = False, large: bool = False) -> None:
        self.model = Model()
        self.is_large = wide or large
        self.most_rows, self.most_columns = (LARGE_ROWS, LARGE_COLUMNS) if self.is_large else (MOST_ROWS, MOST_COLUMNS)
        self.fixed = fixed
        self.number: Callable[[str], Fraction] = lambda text: number(text, wide)
        self.bound: Callable[[str], Tuple[Optional[Fraction], int]] = lambda text: bound(text, wide)
        self.has_objective = self.has_sense = False
        self.line = 0
        self.section: Optional[str] = None
        self.seen: List[str] = []
        self.column: Optional[str] = None  # that of the card before, in COLUMNS
        self.given: Set[str] = set()  # the rows with a number in this column, or in this set
        self.set: Optional[Tuple[Optional[str]]] = None
        self.lowered: Set[str] = set()  # the columns with a card that sets or removes the lower bound
        self.cards: Dict[Optional[str], Callable[[Dict[int, str]], None]] = {
            "OBJSENSE": self.sense_card,
            "ROWS": self.row_card,
            "COLUMNS": self.column_card,
            "RHS": self.side_card,
            "RANGES": self.side_card,
            "BOUNDS": self.bound_card,
        }

    def feed(self, line: str) -> bool:
        """Takes a line, and says whether it is the last."""
        self.line += 1
        must(len(line) <= LONGEST_LINE, 16)
        bare = line[:-1] if line[-1:] == "\r" else line
        if not bare.strip(" \t") or line[:1] == "*":
            return False
        if line[:1] not in (" ", "\t"):
            return self.section_card(words_of(line))
        card = self.cards.get(self.section)
        if card is None:
            raise Fault(3)
        card(self.fields(line))
        return False

    def fields(self, line: str) -> Dict[int, str]:
        """The fields of a data card by their numbers."""
        if not self.fixed or self.section == "OBJSENSE":
            return dict(enumerate(words_of(line), 1))
        must(has_gaps(line), 3)
        must("\t" not in line[:62], 3)
        texts = [line[first - 1 : last].strip(" ") for first, last in FIELDS]
        return {n: text for n, text in enumerate(texts, 1) if text}

    def section_card(self, words: List[str]) -> bool:
        word, second = words[0], words[1] if len(words) > 1 else ""
        must(word in SECTIONS, 2)
        place = SECTIONS.index(word)
        if place < 2:
            in_place = "ROWS" not in self.seen
        else:
            in_place = place == 2 or ("ROWS" if place == 3 else "COLUMNS") in self.seen
        must(in_place and word not in self.seen, 1)
        self.seen.append(word)
        self.section, self.column, self.given, self.set = word, None, set(), None
        if word == "NAME":
            must(not second or is_name(second), 17)
            self.model.name = second
        if word == "OBJSENSE" and second:
            self.take_sense(second)
        if word == "COLUMNS":
            must(self.has_objective, 15)
        return word == "ENDATA"

    def take_sense(self, word: str) -> None:
        must(word in SENSES and not self.has_sense, 3)
        self.model.sense, self.has_sense = SENSES[word], True

    def sense_card(self, fields: Dict[int, str]) -> None:
        must(list(fields) == [1], 3)
        self.take_sense(fields[1])

    def is_objective(self, name: str) -> bool:
        return self.has_objective and name == self.model.objective

    def is_known(self, name: str) -> bool:
        return self.is_objective(name) or name in self.model.rows

    def row_card(self, fields: Dict[int, str]) -> None:
        must(list(fields) == [1, 2], 3)
        kind, name = fields[1], fields[2]
        must(kind in (FREE, "L", "G", "E"), 4)
        must(is_name(name, of_row=True), 17)
        must(not self.is_known(name), 5)
        if kind == FREE and not self.has_objective:
            self.model.objective, self.has_objective = name, True
            return
        must(len(self.model.rows) < self.most_rows, 16)
        self.model.rows[name] = Row(kind)

    def column_card(self, fields: Dict[int, str]) -> None:
        must(fields.get(3 if self.fixed else 2) != MARKER, 12)
        must(list(fields) in SHAPES_OF_COLUMN[self.fixed], 3)
        name, *texts = fields.values()
        if name != self.column:
            self.begin_column(name)
        column, objective, given = self.model.columns[name], self.model.objective, self.given
        for row, text in pairs(texts):
            must(row in self.model.rows or row == objective, 6)
            value = coded(self.number, text)
            must(row not in given, 8)
            given.add(row)
            if row == objective:
                column.cost = value
            elif value:
                column.entries[row] = value

    def begin_column(self, name: str) -> None:
        must(is_name(name), 17)
        must(name not in self.model.columns, 7)
        must(len(self.model.columns) < self.most_columns, 16)
        self.model.columns[name], self.column, self.given = Column(), name, set()

    def is_other_set(self, name: Optional[str]) -> bool:
        if self.set is None:
            self.set = (name,)
        if self.set != (name,):
            self.model.skipped.append(self.line)
        return self.set != (name,)

    def side_card(self, fields: Dict[int, str]) -> None:
        if self.fixed:
            must(list(fields) in ([3, 4], [2, 3, 4], [3, 4, 5, 6], [2, 3, 4, 5, 6]), 3)
        must(2 <= len(fields) <= 5, 3)
        texts = list(fields.values())
        if self.is_other_set(texts.pop(0) if len(texts) % 2 else None):
            return
        for row, text in pairs(texts):
            must(self.is_known(row), 6)
            must(self.section == "RHS" or not self.is_objective(row), 18)
            value = coded(self.number, text)
            if self.section == "RANGES" and self.model.rows[row].is_free():
                continue
            must(row not in self.given, 8)
            self.given.add(row)
            if self.is_objective(row):
                self.model.offset = -value
            elif self.section == "RHS":
                self.model.rows[row].rhs = value
            else:
                self.model.rows[row].range = value

    def bound_card(self, fields: Dict[int, str]) -> None:
        kind = fields.get(1, "")
        must(kind not in ("BV", "LI", "UI"), 12)
        must(kind != "SC", 13)
        must(kind in ("UP", "LO", "FX", "FR", "MI", "PL"), 11)
        is_valued = kind in ("UP", "LO", "FX")
        if self.fixed:
            fields = {n: text for n, text in fields.items() if is_valued or n != 4}
            must(list(fields) in (([1, 3, 4], [1, 2, 3, 4]) if is_valued else ([1, 3], [1, 2, 3])), 3)
        else:
            must(len(fields) in ((3, 4) if is_valued else (2, 3)), 3)
        texts = list(fields.values())[1:]
        text = texts.pop() if is_valued else None
        if self.is_other_set(texts[0] if len(texts) == 2 else None):
            return
        must(texts[-1] in self.model.columns, 14)
        self.put_bound(texts[-1], kind, text)

    def put_bound(self, name: str, kind: str, text: Optional[str]) -> None:
        column = self.model.columns[name]
        value, infinite = (None, 0) if text is None else coded(self.bound, text)
        must(not (kind == "UP" and infinite < 0 or kind == "LO" and infinite > 0 or kind == "FX" and infinite), 11)
        if kind == "UP":
            if value is not None and value < 0 and name not in self.lowered:
                column.lower = None
            column.upper = value
        elif kind == "PL":
            column.upper = None
        else:
            self.lowered.add(name)
            column.lower = value
            if kind in ("FX", "FR"):
                column.upper = value


def read_lines(lines: List[str], fixed: bool = False, wide: bool = False, large: bool = False) -> Tuple[Model, int]:
    """The model that the first of these lines spell, and how many they are. With wide its numbers may have any width, and with either
    of wide and large it may have LARGE_ROWS and LARGE_COLUMNS."""
    reader = Reader(fixed, wide, large)
    for n, line in enumerate(lines, 1):
        try:
            if reader.feed(line):
                return reader.model, n
        except Fault as fault:
            raise TextFault(n, fault.number, line, reader.is_large) from None
    raise TextFault(len(lines) + 1, 19)


def read_model(text: str, fixed: bool = False, wide: bool = False, large: bool = False) -> Model:
    """The model that a text spells; with wide its numbers may be of any width, and with wide or large it may be large."""
    return read_lines(lines_of(text), fixed, wide, large)[0]
