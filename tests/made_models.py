"""Models with right certificates, made from a seed without a solver, and texts that are changed a little.

A certificate is drawn first, and then a model that it fits. So each is right by the way it is made, and nothing is
solved.
"""
import random
from dataclasses import dataclass
from fractions import Fraction
from typing import Dict, List, Optional

Number = Fraction


@dataclass
class Row:
    """A row, which is a free one where it has no limits."""

    name: str
    entries: Dict[str, Number]
    lower: Optional[Number] = None
    upper: Optional[Number] = None

    def is_free(self) -> bool:
        return self.lower is None and self.upper is None


@dataclass
class Column:
    name: str
    cost: Number = Fraction(0)
    lower: Optional[Number] = None
    upper: Optional[Number] = None


@dataclass
class Made:
    """A text of a model in one form, and the text of a certificate for it."""

    text: str
    fixed: bool
    certificate: str


class Maker:
    """Draws models and certificates of each kind. With bits, numbers are about so wide."""

    def __init__(self, dice: random.Random, bits: int = 5):
        self.dice, self.bits = dice, bits

    def number(self) -> Number:
        """A number that is no infinite bound, however wide it is."""
        size = self.dice.choice([3, self.bits])
        below = self.dice.choice([1, 1, 1, 2, 4, 5, 8, 10, 3, 7]) << max(0, size - 16)
        return Fraction(self.dice.randint(-(2**size), 2**size), below + (size > 16))

    def some(self) -> Number:
        """A number above 0."""
        return abs(self.number()) + Fraction(1, self.dice.choice([1, 2, 3]))

    def rows_and_columns(self):
        columns = [Column(f"{self.dice.choice('xcv-$')}{j}") for j in range(self.dice.randint(1, 7))]
        rows = []
        for i in range(self.dice.randint(1, 6)):
            entries = {column.name: self.number() for column in columns if self.dice.random() < 0.7}
            rows.append(Row(f"{self.dice.choice('rRw+%')}{i}", {name: a for name, a in entries.items() if a}))
        return rows, columns

    def around(self, item, value, needs_lower=False, needs_upper=False, at_lower=False, at_upper=False):
        """Gives a row or a column limits between which a value is, and at which it is if that is asked for."""
        if at_lower or needs_lower or self.dice.random() < 0.4:
            item.lower = value if at_lower or self.dice.random() < 0.3 else value - self.some()
        if at_upper or needs_upper or self.dice.random() < 0.4:
            item.upper = value if at_upper or self.dice.random() < 0.3 else value + self.some()

    def bounded(self, rows):
        """Gives some of the rows without a limit one that is far away."""
        for row in rows:
            if row.is_free() and self.dice.random() < 0.5:
                row.upper = Fraction(10**11)

    def multiplier(self) -> Number:
        return self.dice.choice([Fraction(0), self.number()])

    def optimal(self, sense):
        rows, columns = self.rows_and_columns()
        x = {column.name: self.multiplier() for column in columns}
        y = {row.name: self.multiplier() for row in rows}
        for row in rows:
            self.around(row, total(row.entries, x), at_lower=y[row.name] > 0, at_upper=y[row.name] < 0)
        self.bounded(rows)
        for column in columns:
            reduced = self.multiplier()
            self.around(column, x[column.name], at_lower=reduced > 0, at_upper=reduced < 0)
            column.cost = sense * (reduced + sum(y[row.name] * row.entries.get(column.name, 0) for row in rows))
        return rows, columns, certificate("OPTIMAL", x=x, y=y)

    def infeasible(self, _sense):
        rows, columns = self.rows_and_columns()
        y = {row.name: self.multiplier() for row in rows}
        last = self.dice.choice(rows)
        y[last.name] = self.number() or Fraction(1)
        allowed = required = Fraction(0)
        for column in columns:
            combined = sum(y[row.name] * row.entries.get(column.name, 0) for row in rows)
            bound = self.number()
            self.around(column, bound, at_lower=combined < 0, at_upper=combined > 0)
            allowed += combined * bound
            column.cost = self.number()
        for row in [*(row for row in rows if row is not last), last]:
            weight, limit = y[row.name], self.number()
            if row is last:
                limit = (allowed - required + self.some()) / weight
            self.around(row, limit, at_lower=weight > 0, at_upper=weight < 0)
            required += weight * limit
        self.bounded(rows)
        return rows, columns, certificate("INFEASIBLE", y=y)

    def unbounded(self, sense):
        rows, columns = self.rows_and_columns()
        x = {column.name: self.multiplier() for column in columns}
        r = {column.name: self.multiplier() for column in columns}
        leading = self.dice.choice(columns)
        r[leading.name] = self.number() or Fraction(1)
        for items, at, step in ((columns, lambda c: x[c.name], lambda c: r[c.name]),
                                (rows, lambda w: total(w.entries, x), lambda w: total(w.entries, r))):
            for item in items:
                self.around(item, at(item))
                item.lower = item.lower if step(item) >= 0 else None
                item.upper = item.upper if step(item) <= 0 else None
        for row in rows:
            if row.is_free() and self.dice.random() < 0.5:
                away = total(row.entries, r) >= 0
                row.lower, row.upper = (total(row.entries, x), None) if away else (None, total(row.entries, x))
        for column in columns:
            column.cost = self.number()
        others = sum(column.cost * r[column.name] for column in columns if column is not leading)
        leading.cost = (-sense * self.some() - others) / r[leading.name]
        return rows, columns, certificate("UNBOUNDED", x=x, r=r)

    def clash(self, sense):
        rows, columns, _ = self.optimal(sense)
        column = self.dice.choice(columns)
        column.lower = self.number()
        column.upper = column.lower - self.some()
        return rows, columns, f"CLASH {column.name}\nEND\n"

    def made(self) -> Made:
        sense = self.dice.choice([1, -1])
        kind = self.dice.choices([self.optimal, self.infeasible, self.unbounded, self.clash], [5, 3, 3, 1])[0]
        rows, columns, text = kind(sense)
        offset = self.number()
        if self.dice.random() < 0.3:
            try:
                return Made(Writer(self.dice, fixed=True).text(rows, columns, sense, offset), True, text)
            except TooWideForFixed:
                pass
        return Made(Writer(self.dice, fixed=False).text(rows, columns, sense, offset), False, text)


def total(entries: Dict[str, Number], values: Dict[str, Number]) -> Number:
    return sum((a * values[name] for name, a in entries.items()), Fraction(0))


def certificate(kind, **values) -> str:
    lines = [f"{letter} {name} {spelled(a)}" for letter, of in values.items() for name, a in of.items() if a]
    return "\n".join([kind, *lines, "END"]) + "\n"


def spelled(a: Number) -> str:
    """A number as a decimal where that ends soon, and otherwise as a quotient."""
    for places in range(7):
        if (a * 10**places).denominator == 1:
            digits = str(abs(a.numerator) * 10**places // a.denominator).rjust(places + 1, "0")
            return ("-" if a < 0 else "") + (f"{digits[:-places]}.{digits[-places:]}" if places else digits)
    return f"{a.numerator}/{a.denominator}"


class TooWideForFixed(Exception):
    """A number does not fit its field."""


class Writer:
    """Writes a model as people and programs do, in all the ways that the formats allow."""

    def __init__(self, dice: random.Random, fixed: bool):
        self.dice, self.fixed = dice, fixed
        self.lines: List[str] = []

    def number(self, a: Number) -> str:
        text = spelled(a)
        if self.fixed or self.dice.random() < 0.7:
            return text
        if "/" in text:
            return f"{a.numerator * 2}/{a.denominator * 2}"
        return self.dice.choice([text + ("" if "." in text else ".") + "0", f"{text}e0", f"{text}D+00"])

    def card(self, *fields: str) -> None:
        """A data card of the fields 1 to 6; None is an absent one."""
        if not self.fixed:
            gap = self.dice.choice([" ", "  ", "\t"])
            self.lines.append(gap + gap.join(field for field in fields if field is not None))
            return
        line = ""
        for field, start, width in zip(fields, (1, 4, 14, 24, 39, 49), (2, 8, 8, 12, 8, 12)):
            if field and len(field) > width:
                raise TooWideForFixed
            line = line.ljust(start) + (field or "")
        self.lines.append(line)

    def section(self, text: str) -> None:
        if self.dice.random() < 0.2:
            self.lines.append(self.dice.choice(["* said by the way", "", "  ", "*"]))
        self.lines.append(text)

    def pairs(self, name, pairs) -> None:
        """Cards of one or two pairs of a row and a number."""
        while pairs:
            count = 2 if len(pairs) > 1 and self.dice.random() < 0.5 else 1
            self.card(None, name, *(word for pair in pairs[:count] for word in pair))
            pairs = pairs[count:]

    def text(self, rows, columns, sense, offset) -> str:
        typed = [(row, *self.typed(row)) for row in rows]
        if self.dice.random() < 0.7:
            self.section("NAME made")
        if sense < 0 or self.dice.random() < 0.3:
            self.section(f"OBJSENSE {'MAX' if sense < 0 else 'MIN'}")
        self.section("ROWS")
        self.card("N", "cost")
        for row, kind, _, _ in typed:
            self.card(kind, row.name)
        self.section("COLUMNS")
        for column in columns:
            pairs = [("cost", self.number(column.cost))]
            pairs += [(row.name, self.number(row.entries[column.name])) for row in rows if column.name in row.entries]
            self.pairs(column.name, pairs)
        sections = [self.sides(typed, offset), self.ranges(typed), self.bounds(columns)]
        self.dice.shuffle(sections)
        for section in sections:
            self.lines += section
        self.section("ENDATA")
        ending = "\r\n" if self.dice.random() < 0.1 else "\n"
        return "".join(f"{line}{ending}" for line in self.lines)

    def typed(self, row: Row):
        """A row's type, right side and range. Those of a free row count for nothing."""
        if row.is_free():
            size = Fraction(self.dice.randint(-9, 9))
            return "N", size, self.dice.choice([None, None, size])
        if row.lower is None:
            return "L", row.upper, None
        if row.upper is None:
            return "G", row.lower, None
        width = row.upper - row.lower
        if width == 0:
            return "E", row.upper, None
        ways = [("L", row.upper, width), ("G", row.lower, -width), ("E", row.lower, width), ("E", row.upper, -width)]
        return self.dice.choice(ways)

    def apart(self, write) -> List[str]:
        """The lines that something writes, kept apart."""
        before, self.lines = self.lines, []
        write()
        found, self.lines = self.lines, before
        return found

    def sides(self, typed, offset) -> List[str]:
        pairs = [(row.name, self.number(side)) for row, _, side, _ in typed if side or self.dice.random() < 0.2]
        pairs += [("cost", self.number(-offset))] if offset else []
        return self.apart(lambda: (self.section("RHS"), self.pairs(self.dice.choice(["RHS", None]), pairs)))

    def ranges(self, typed) -> List[str]:
        pairs = [(row.name, self.number(width)) for row, _, _, width in typed if width is not None]
        return self.apart(lambda: (self.section("RANGES"), self.pairs("RNG", pairs))) if pairs else []

    def bounds(self, columns) -> List[str]:
        name = self.dice.choice(["BND", None])
        return self.apart(lambda: (self.section("BOUNDS"), [self.bound(name, column) for column in columns]))

    def bound(self, name, column: Column) -> None:
        lower, upper = column.lower, column.upper
        if lower is not None and lower == upper:
            self.card("FX", name, column.name, self.number(lower))
            return
        if lower is None and upper is None:
            self.card("FR", name, column.name)
        elif lower is None:
            self.no_lower_bound(name, column)
        elif lower != 0 or (upper is not None and upper < 0):
            self.card("LO", name, column.name, self.number(lower))
        if upper is not None:
            self.card("UP", name, column.name, self.number(upper))

    def no_lower_bound(self, name, column: Column) -> None:
        """A negative upper bound removes the lower bound 0 by itself."""
        other = None if column.upper < 0 else ("FR", name, column.name)
        way = self.dice.choice([("MI", name, column.name), ("LO", name, column.name, "-inf"), other])
        if way:
            self.card(*way)


def with_one_number_changed(dice: random.Random, made: Made) -> Made:
    """The same, with a number of the certificate or of the model a little different."""
    in_model = dice.random() < 0.4 or not any(len(line.split()) == 3 for line in made.certificate.splitlines())
    text = made.text if in_model else made.certificate
    lines = text.split("\n")
    start = next((i for i, line in enumerate(lines) if line.startswith("COLUMNS")), 0) + 1 if in_model else 1
    places = [i for i, line in enumerate(lines) if i >= start and line.split() and is_number(line.split()[-1])]
    place = dice.choice(places)
    ending = "\r" if lines[place].endswith("\r") else ""
    word = lines[place].split()[-1]
    old = value_of(word)
    other = Fraction(0) if old else Fraction(1)
    new = dice.choice([old + 1, -old or Fraction(1), old + Fraction(1, 1000), old * 2 + Fraction(1, 2), other])
    lines[place] = lines[place].rpartition(word)[0] + spelled(new) + ending
    changed = "\n".join(lines)
    return Made(changed, made.fixed, made.certificate) if in_model else Made(made.text, made.fixed, changed)


def with_one_digit_changed(dice: random.Random, made: Made) -> Made:
    """The same, with another digit in a number of the certificate that is not 0."""
    lines = made.certificate.split("\n")
    place = dice.choice([i for i, line in enumerate(lines) if len(line.split()) == 3 and line.split()[2] != "0"])
    front, _, word = lines[place].rpartition(" ")
    at = dice.choice([n for n, letter in enumerate(word) if letter.isdigit()])
    digit = dice.choice([digit for digit in "123456789" if digit != word[at]])
    lines[place] = f"{front} {word[:at]}{digit}{word[at + 1 :]}"
    return Made(made.text, made.fixed, "\n".join(lines))


def is_number(word: str) -> bool:
    try:
        value_of(word)
    except (ValueError, ZeroDivisionError):
        return False
    return True


def value_of(word: str) -> Number:
    return Fraction(word.replace("D", "e").replace("d", "e"))


# What a mutated text has in it.
WORDS = """BV LI UI SC XX UP LO FX FR MI PL inf -Infinity 1e20 -1e20 1e-40 1e40 1/0 1e 0 N L G E 'MARKER' ROWS COLUMNS
RHS RANGES BOUNDS ENDATA NAME OBJSENSE MAX MIN SOS cost r0 x0 BND \x7f END x y r OPTIMAL INFEASIBLE CLASH""".split()
WORDS += ["a" * 64, "a" * 65, str(2**127)]


def mutated(dice: random.Random, made: Made) -> Made:
    """The same with its text, or its certificate, cut, turned round, or with other words and bytes in it."""
    in_model = dice.random() < 0.75
    text = made.text if in_model else made.certificate
    for _ in range(dice.choice([1, 1, 1, 2, 3])):
        text = dice.choice(CHANGES)(dice, text)
    return Made(text, made.fixed, made.certificate) if in_model else Made(made.text, made.fixed, text)


def on_lines(change):
    """A change of the lines of a text, as one of the text."""

    def of_text(dice, text):
        lines = text.split("\n")
        change(dice, lines, dice.randrange(len(lines)))
        return "\n".join(lines)

    return of_text


def word_put(dice, lines, at):
    words = lines[at].split(" ")
    words[dice.randrange(len(words))] = dice.choice(WORDS)
    lines[at] = " ".join(words)


def word_added(dice, lines, at):
    words = lines[at].split(" ")
    words.insert(dice.randrange(len(words) + 1), dice.choice(WORDS))
    lines[at] = " ".join(words)


def line_moved(dice, lines, at):
    lines.insert(dice.randrange(len(lines)), lines.pop(at))


def line_doubled(dice, lines, at):
    lines.insert(dice.randrange(len(lines)), lines[at])


def line_dropped(_dice, lines, at):
    del lines[at]
    lines.append("") if not lines else None


def line_long(dice, lines, at):
    lines[at] = lines[at].ljust(dice.choice([16383, 16384, 16385, 20000])) + dice.choice(["", "\r", "x"])


def byte_put(dice, text):
    at = dice.randrange(len(text) + 1)
    return text[:at] + dice.choice(" \t\r\n*x0-./eé\x00") + text[at + dice.choice([0, 1]):]


def cut(dice, text):
    return text[: dice.randrange(len(text) + 1)]


CHANGES = [on_lines(word_put), on_lines(word_put), on_lines(word_added), on_lines(line_moved), on_lines(line_doubled),
           on_lines(line_dropped), on_lines(line_long), byte_put, byte_put, cut]
