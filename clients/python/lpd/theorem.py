"""An answer as a Coq theorem: a file that Coq accepts only where the certificate shows what the theorem states (docs/THEOREM.md).

Nothing here has to be believed: what is wrong in a file, Coq refuses. The certificate is handed over in integers, as coq/Checker.v
has it: each row and the costs are multiplied such that their numbers are integers, and the values of a point, the multipliers
of rows and the steps of a ray have one denominator each.
"""
from __future__ import annotations

import hashlib
import re
from fractions import Fraction
from math import gcd
from typing import Dict, Iterable, Iterator, List, Mapping, NamedTuple, Optional, Sequence

from .certificate import Certificate, Values, matched
from .model import FREE, Model
from .records import dataclass, field
from .replies import Infeasible, Known, Optimal

BITS = 56  # of an integer of coq/Packing.v
MOST_INTEGERS, MOST_NUMBERS = 2**14, 500  # in one definition, which bounds the memory that Coq takes
LONG_CERTIFICATE = 2**15  # a certificate of more bits is packed by coq/Packing.v, which Coq reads faster than bytes
STRING = 2000  # bytes of a string of a text: Coq takes some 300 microseconds for each string, and its stack bounds the length
LONG = 60  # a value of more characters is a definition of its own
KINDS = {"L": "AtMost", "G": "AtLeast", "E": "Equal", FREE: "Free"}
# Whatever else stands in a name is not put into a comment, which it might end.
PLAIN = re.compile(r"[^A-Za-z0-9_.,;:+\-/<>=!?#$&@^~|\[\]{} ]")


class Source(NamedTuple):
    """A file, by its name and its bytes."""

    name: str
    data: bytes

    def __str__(self) -> str:
        return f"{plain(self.name)}, sha256 {hashlib.sha256(self.data).hexdigest()}"


def plain(name: str) -> str:
    """A name within a comment."""
    return PLAIN.sub(lambda found: f"%{ord(found[0]):02X}", name)


# ---- numbers


def common_multiple(numbers: Iterable[int]) -> int:
    found = 1
    for number in numbers:
        found = found * number // gcd(found, number)
    return found


class OverOne(NamedTuple):
    """Fractions by name, as integers over one denominator."""

    values: Dict[str, int]
    denominator: int


def over_one(values: Mapping[str, Fraction]) -> OverOne:
    denominator = common_multiple({value.denominator for value in values.values()})
    return OverOne({name: value.numerator * (denominator // value.denominator) for name, value in values.items()}, denominator)


@dataclass
class Scales:
    """What the rows and the costs are multiplied by, so that their numbers are integers."""

    rows: Dict[str, int]
    costs: int

    def of_rows(self, y: Values, factor: int = 1) -> Dict[str, Fraction]:
        """Multipliers of the rows as they are, times a factor, as those of the multiplied rows."""
        return {name: value * factor / self.rows[name] for name, value in y.items()}


def scales_of(model: Model) -> Scales:
    found: Dict[str, List[int]] = {name: [v.denominator for v in row.limits() if v is not None] for name, row in model.rows.items()}
    for column in model.columns.values():
        for name, value in column.entries.items():
            found[name].append(value.denominator)
    costs = common_multiple({column.cost.denominator for column in model.columns.values()})
    return Scales({name: common_multiple(set(numbers)) for name, numbers in found.items()}, costs)


def bounds_scale(model: Model, y: Values) -> int:
    """What makes the bounds integers that a contradiction uses."""
    used = []
    for name, column in model.columns.items():
        part = model.priced(y, name)
        bound = column.upper if part > 0 else column.lower if part < 0 else None
        used.append(1 if bound is None else bound.denominator)
    return common_multiple(set(used))


# ---- terms


def fraction(value: Fraction) -> str:
    """A fraction as Coq has it."""
    if value.denominator == 1:
        return f"({integer(value.numerator)})" if value < 0 else integer(value.numerator)
    return f"({integer(value.numerator)} # {integer(value.denominator)})"


def integer(value: int) -> str:
    """An integer, in hexadecimal where it is long, which Python and Coq write and read faster."""
    return str(value) if value.bit_length() < 200 else f"-{-value:#x}" if value < 0 else f"{value:#x}"


def integers(index: int, value: int) -> List[str]:
    """A number of coq/Packing.v: its index and its sign, and its bits from the lowest ones on."""
    found, size = [str(2 * index + (value < 0))], abs(value)
    while size:
        found.append(hex(size & (2**BITS - 1)))
        size >>= BITS
    return found


def blocks(numbers: Mapping[int, int]) -> Iterator[Dict[int, int]]:
    """The numbers that are not 0, in blocks of one definition each."""
    block: Dict[int, int] = {}
    count = 0
    for index, value in numbers.items():
        if value:
            block[index] = value
            count += 1 + value.bit_length() // BITS
        if count > MOST_INTEGERS or len(block) >= MOST_NUMBERS:
            yield block
            block, count = {}, 0
    if block:
        yield block


def packed(name: str, block: Mapping[int, int]) -> str:
    """A definition by integers that coq/Packing.v packs."""
    rows = ";\n".join(f"[{'; '.join(integers(index, value))}]" for index, value in block.items())
    return f"Definition {name} : packed := ltac2:(pack [\n{rows}\n])."


def byte_words(value: int, count: int = 0) -> List[str]:
    """The bytes of a number from the lowest on, as coq/Packed.v has them."""
    return [f"x{byte:02x}" for byte in value.to_bytes(max(count, (value.bit_length() + 7) // 8), "little")]


def digits(value: int) -> str:
    """The bytes of a number above 0, seven at a time as long as they do."""
    words = byte_words(value)
    whole = len(words) - len(words) % 7
    nodes = [f"Digits {' '.join(words[at : at + 7])}" for at in range(0, whole, 7)] + [f"Digit {word}" for word in words[whole:]]
    return f"{' ('.join(nodes)} End{')' * (len(nodes) - 1)}"


def in_bytes(name: str, block: Mapping[int, int]) -> str:
    """The same definition by bytes alone."""
    rows = [f"{'Minus' if value < 0 else 'Plus'} {' '.join(byte_words(index, 3))} ({digits(abs(value))}) (" for index, value in block.items()]
    return f"Definition {name} : packed :=\n" + "\n".join([*rows, "Empty" + ")" * len(rows)]) + "."


@dataclass
class Terms:
    """The definitions of a certificate, the term that has it, and what it shows: an answer and a statement of a model m."""

    definitions: List[str] = field(default_factory=list)
    is_long: bool = False  # whether its numbers are packed by coq/Packing.v
    term: str = ""
    answer: str = ""
    statement: str = ""

    def pack(self, name: str, block: Mapping[int, int]) -> None:
        self.definitions.append((packed if self.is_long else in_bytes)(name, block))

    def numbers(self, name: str, numbers: Mapping[int, int]) -> str:
        term = "nothing"
        for count, block in enumerate(blocks(numbers), 1):
            self.pack(f"{name}_{count}", block)
            term = f"unpacked {name}_{count} {term if count == 1 else f'({term})'}"
        self.definitions.append(f"Definition {name} : numbers := {term}.")
        return name

    def positive(self, name: str, value: int) -> str:
        if value.bit_length() <= BITS:
            self.definitions.append(f"Definition {name} : positive := {value}.")
            return name
        self.pack(f"{name}_1", {1: value})
        self.definitions.append(f"Definition {name} : positive := first {name}_1.")
        return name

    def scales(self, rows: Mapping[int, int], costs: int) -> str:
        self.numbers("row_numbers", {index: value for index, value in rows.items() if value > 1})
        self.positive("cost_number", costs)
        self.definitions.append("Definition row_and_cost_scales : scales := scales_of row_numbers cost_number.")
        return "row_and_cost_scales"

    def value(self, value: Fraction) -> str:
        term = fraction(value)
        if len(term) <= LONG:
            return term
        self.definitions.append(f"Definition optimum : Q := {term}.")
        return "optimum"

    def shows(self, known: Known, value: str = "") -> None:
        if isinstance(known, Optimal):
            self.answer, self.statement = f"Optimal {value}", f"IsOptimal m {value}"
        elif isinstance(known, Infeasible):
            self.answer, self.statement = "Infeasible", "IsInfeasible m"
        else:
            self.answer, self.statement = "Unbounded", "IsUnbounded m"


def certified(model: Model, certificate: Certificate, known: Known) -> Terms:
    """A certificate that shows this of the model."""
    given = matched(model, certificate)
    bits = sum(value.numerator.bit_length() + value.denominator.bit_length() for values in given.values() for value in values.values())
    found = Terms(is_long=bits > LONG_CERTIFICATE)
    columns = {name: index for index, name in enumerate(model.columns, 1)}
    rows = {name: index for index, name in enumerate(model.rows, 1)}

    def of_columns(values: Mapping[str, int]) -> Dict[int, int]:
        return {columns[name]: value for name, value in values.items()}

    def of_rows(values: Mapping[str, int]) -> Dict[int, int]:
        return {rows[name]: value for name, value in values.items()}

    if certificate.kind == "CLASH":
        found.term = "ClashOfBounds"
        found.shows(known)
        return found
    scales = scales_of(model)
    terms = [found.scales(of_rows(scales.rows), scales.costs)]
    if certificate.kind in ("OPTIMAL", "UNBOUNDED"):
        x = over_one(given["x"])
        terms += [found.positive("denominator", x.denominator), found.numbers("point", of_columns(x.values))]
    if certificate.kind == "OPTIMAL":
        y = over_one(scales.of_rows(given["y"], scales.costs))
        terms += [found.positive("costs_times", y.denominator), found.numbers("multipliers", of_rows(y.values))]
        value = found.value(known.value if isinstance(known, Optimal) else Fraction(0))
        found.term = f"OptimalBy {' '.join([*terms, value])}"
        found.shows(known, value)
        return found
    if certificate.kind == "INFEASIBLE":
        y = over_one(scales.of_rows(given["y"]))
        terms += [found.numbers("multipliers", of_rows(y.values)), found.positive("bounds_times", bounds_scale(model, given["y"]))]
        found.term = f"InfeasibleBy {' '.join(terms)}"
    else:
        terms.append(found.numbers("ray", of_columns(over_one(given["r"]).values)))
        found.term = f"UnboundedBy {' '.join(terms)}"
    found.shows(known)
    return found


# ---- the model


def strings_of(lines: Iterable[str]) -> Iterator[str]:
    """The lines of a text, some of them to a string."""
    block: List[str] = []
    size = 0
    for line in lines:
        if block and size + len(line) > STRING:
            yield "\n".join(block)
            block, size = [], 0
        block.append(line)
        size += len(line) + 1
    if block:
        yield "\n".join(block)


def text_definition(lines: Sequence[str]) -> str:
    """The lines of a text in strings, as they stand."""
    strings = ";\n".join('"' + string.replace('"', '""') + '"' for string in strings_of(lines))
    return f"Definition model_text : text := [\n{strings}\n]%mps."


class Data:
    """A model as data, in which each number and each row has a name of its own, since Coq reads names faster."""

    def __init__(self, model: Model) -> None:
        self.model = model
        self.numbers: Dict[Fraction, str] = {}
        self.rows = {name: f"r{index}" for index, name in enumerate(model.rows, 1)}

    def number(self, value: Fraction) -> str:
        return self.numbers.setdefault(value, f"n{len(self.numbers)}")

    def optional(self, value: Optional[Fraction]) -> str:
        return "None" if value is None else f"(Some {self.number(value)})"

    def row_lines(self) -> Iterator[str]:
        for name, row in self.model.rows.items():
            yield f"(* {self.rows[name]} {plain(name)} *) Row {KINDS[row.kind]} {self.number(row.rhs)} {self.optional(row.range)}"

    def column_lines(self) -> Iterator[str]:
        for index, (name, column) in enumerate(self.model.columns.items(), 1):
            entries = "; ".join(f"At {self.rows[row]} {self.number(value)}" for row, value in column.entries.items())
            bounds = f"{self.optional(column.lower)} {self.optional(column.upper)}"
            yield f"(* {index} {plain(name)} *) Column {self.number(column.cost)} {bounds} [{entries}]"

    def definitions(self) -> List[str]:
        rows, columns = ";\n".join(self.row_lines()), ";\n".join(self.column_lines())
        sense = "Minimize" if self.model.sense > 0 else "Maximize"
        offset = self.number(self.model.offset)
        named = [f"Definition {name} : positive := {name[1:]}." for name in self.rows.values()]
        named += [f"Definition {name} : Q := {fraction(value)}." for value, name in self.numbers.items()]
        return [*named, f"Definition m : model := Model {sense} {offset} [\n{rows}\n] [\n{columns}\n]."]


# ---- the file


def theorem(text: str, use: str, found: Terms) -> List[str]:
    """The theorem, and its proof: Coq calculates that the checker gives the answer."""
    proof = [f"  refine ({use} ({found.term}) ({found.answer}) _).", f"  vm_cast_no_check (eq_refl (Some ({found.answer})))."]
    return [f"Theorem answer : {text}.", "Proof.", *proof, "Qed.", "", "Print Assumptions answer."]


def statement(found: Terms, fixed: bool, as_data: bool) -> str:
    """What the theorem says."""
    spells = f"Spells large_limits {'FixedForm' if fixed else 'FreeForm'} model_text m"
    return found.statement if as_data else f"exists m, {spells} /\\ {found.statement}"


def file_lines(model: Model, lines: Sequence[str], fixed: bool, found: Terms, sources: Sequence[Source], as_data: bool) -> List[str]:
    """The file of a theorem about the model that these lines spell, or about its data."""
    names = [f"   {what:12}{source}" for what, source in zip(("model", "certificate"), sources)]
    head = ["(* An answer, as lpd-py theorem wrote it. docs/THEOREM.md says how it is read, and what has to be believed.", *names]
    head += ["   The objective is the row " + plain(model.objective) + ". *)", ""]
    library = "Answer Packing" if found.is_long else "Answer"
    imports = ["From Coq Require Import QArith List.", "From Coq.Init Require Import Byte.", f"From Lpd Require Import {library}."]
    imports += ["Import ListNotations.", "Open Scope Q_scope.", ""]
    form = "FixedForm" if fixed else "FreeForm"
    use = "model_sound m" if as_data else f"text_sound large_limits {form} model_text"
    of_model = Data(model).definitions() if as_data else [text_definition(lines)]
    return [*head, *imports, *of_model, "", *found.definitions, "", *theorem(statement(found, fixed, as_data), use, found)]
