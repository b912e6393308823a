"""Models in the LP format, which is read here with all digits, and in GNU MathProg, which glpsol reads, as MPS.

glpsol holds numbers as floats and writes them in 15 digits: a longer number of such a file is not the one that is solved.
"""
from __future__ import annotations

import shutil
import subprocess
import tempfile
from fractions import Fraction
from pathlib import Path
from typing import List, Optional, Sequence, Tuple

from .errors import Unreadable
from .lp_reader import LpModel, Unfit, read_lp
from .number_text import parse, shown
from .reading import LP, MATHPROG
from .records import dataclass, field

# By the end of a file's name what it is called.
FORMATS = {LP: "the LP format", MATHPROG: "GNU MathProg"}
ROW_KINDS = {"f": "N", "l": "G", "u": "L", "d": "G", "s": "E"}


def from_lp(data: bytes, name: str, end: str = LP) -> bytes:
    """The MPS text of a model in the format with this end of a name."""
    if end == MATHPROG:
        return by_glpsol(data, name, FORMATS[end])
    try:
        return mps_of_lp(read_lp(data.decode("latin-1"))).encode("latin-1")
    except Unfit as unfit:
        raise Unreadable(f"{name} is in {FORMATS[end]}, and {unfit}") from None


def by_glpsol(data: bytes, name: str, what: str) -> bytes:
    """The MPS text of a model in GNU MathProg, as glpsol reads it."""
    if not shutil.which("glpsol"):
        raise Unreadable(f"{name} is in {what}, which glpsol reads, and that is not on the path (Debian's glpk-utils)")
    with tempfile.TemporaryDirectory() as folder:
        (Path(folder) / "model").write_bytes(data)
        command = ["glpsol", "--math", "model", "--check", "--wglp", "model.glp"]
        done = subprocess.run(command, cwd=folder, capture_output=True, stdin=subprocess.DEVNULL)
        written = Path(folder) / "model.glp"
        if done.returncode or not written.exists():
            said = [line for line in done.stdout.decode("utf-8", "replace").splitlines() if line.startswith("model:")]
            why = said[0].replace("model:", "line ") if said else f"its status is {done.returncode}"
            raise Unreadable(f"{name} is in {what}, and glpsol does not read it: {why}")
        return mps_of(written.read_text(encoding="latin-1")).encode("latin-1")


def limits_of(lower: Optional[Fraction], upper: Optional[Fraction]) -> "tuple[str, List[str]]":
    """The letter that says which limits there are, and these."""
    kind = ("f" if upper is None else "u") if lower is None else "l" if upper is None else "s" if lower == upper else "d"
    limits = [limit for limit in (lower, upper) if limit is not None]
    return kind, [shown(limit) for limit in (limits[:1] if kind == "s" else limits)]


def mps_of_lp(model: LpModel) -> str:
    """The MPS text of a model that was read in the LP format."""
    rows = [Item(model.objective, "f", []), *(Item(row.name, *limits_of(row.lower, row.upper)) for row in model.rows)]
    columns = {name: Item(name, *limits_of(column.lower, column.upper), column.is_whole) for name, column in model.columns.items()}
    for number, entries in enumerate([model.costs, *(row.entries for row in model.rows)]):
        for name, value in entries.items():
            columns[name].entries.append((number, shown(value)))
    offset = Item("", "s", [], entries=[(0, shown(model.offset))] if model.offset else [])
    give_free_name(rows)
    return "".join(f"{line}\n" for line in mps_lines(model.is_max, rows, [offset, *columns.values()]))


def give_free_name(rows: List[Item]) -> None:
    """Names the objective, which is row 0, as no other row is."""
    if any(row.name == rows[0].name for row in rows[1:]):
        rows[0].name = next(name for name in ("OBJ", *(f"OBJ{n}" for n in range(len(rows)))) if all(row.name != name for row in rows[1:]))


@dataclass
class Item:
    """A row or a column: its name, the letter that says which limits it has, these, and for a column its coefficients."""

    name: str
    kind: str
    limits: List[str]
    is_whole: bool = False
    entries: List[Tuple[int, str]] = field(default_factory=list)

    def set_kind(self, words: Sequence[str]) -> None:
        self.kind, self.limits = words[0], list(words[1:])

    def row_cards(self) -> "tuple[List[str], List[str]]":
        """The cards of RHS and of RANGES."""
        sides = [f" RHS {self.name} {self.limits[0]}"] if self.limits else []
        if self.kind != "d":
            return sides, []
        return sides, [f" RNG {self.name} {shown(parse(self.limits[1]).value - parse(self.limits[0]).value)}"]

    def bound_cards(self) -> List[str]:
        """The cards of BOUNDS: the lower bound is 0 without them."""
        if self.kind in "fs":
            return [" ".join([" FR BND" if self.kind == "f" else " FX BND", self.name, *self.limits])]
        lower = [f" MI BND {self.name}"] if self.kind == "u" else [f" LO BND {self.name} {self.limits[0]}"]
        return lower + ([f" UP BND {self.name} {self.limits[-1]}"] if self.kind in "ud" else [])

    def column_cards(self, rows: Sequence[Item]) -> List[str]:
        cards = [f" {self.name} {rows[row].name} {value}" for row, value in self.entries] or [f" {self.name} {rows[0].name} 0"]
        return [" M1 'MARKER' 'INTORG'", *cards, " M2 'MARKER' 'INTEND'"] if self.is_whole else cards


def set_item(item: Item, words: Sequence[str], may_be_whole: bool) -> None:
    """What a line says of a row or a column: in a model with whole-number columns a column has its kind in front."""
    if may_be_whole:
        item.is_whole = words[0] in ("i", "b")
        words = ["d", "0", "1"] if words[0] == "b" else words[1:]
    if words:
        item.set_kind(words)


def mps_of(text: str) -> str:
    """The MPS text of a model as glpsol writes it by --wglp: lines of a letter, numbers that count from 1, and what is so of these."""
    lines = [line.split() for line in text.splitlines() if line.strip()]
    head = lines[0]
    rows = [Item("OBJ", "f", []), *(Item(f"R{n}", "s", ["0"]) for n in range(1, int(head[3]) + 1))]
    columns = [Item("", "s", []), *(Item(f"C{n}", "l", ["0"]) for n in range(1, int(head[4]) + 1))]
    for words in lines[1:]:
        if words[:2] == ["n", "z"]:
            rows[0].name = words[2]
        elif words[0] == "n" and words[1] in ("i", "j"):
            (rows if words[1] == "i" else columns)[int(words[2])].name = words[3]
        elif words[0] in ("i", "j"):
            set_item((rows if words[0] == "i" else columns)[int(words[1])], words[2:], words[0] == "j" and head[1] == "mip")
        elif words[0] == "a":
            columns[int(words[2])].entries.append((int(words[1]), words[3]))
    leave_out_copy(rows, columns)
    give_free_name(rows)
    return "".join(f"{line}\n" for line in mps_lines(head[2] == "max", rows, columns))


def leave_out_copy(rows: List[Item], columns: Sequence[Item]) -> None:
    """Takes out the row that has the objective once more, under its name and without limits, as glpsol has it of MathProg."""
    at = next((n for n, row in enumerate(rows) if n and (row.name, row.kind) == (rows[0].name, "f")), None)
    if at is None or any(numbers_in(column, 0) != numbers_in(column, at) for column in columns[1:]):
        return
    del rows[at]
    for column in columns:
        column.entries = [(row - (row > at), value) for row, value in column.entries if row != at]


def numbers_in(column: Item, at: int) -> List[str]:
    return [value for row, value in column.entries if row == at]


def mps_lines(is_max: bool, rows: Sequence[Item], columns: Sequence[Item]) -> List[str]:
    """The objective is row 0, and what column 0 has in it is the offset, which is the negative of its right side."""
    offset = [f" RHS {rows[0].name} {shown(-parse(value).value)}" for row, value in columns[0].entries if row == 0]
    sides = [row.row_cards() for row in rows[1:]]
    lines = ["NAME", *(["OBJSENSE MAX"] if is_max else []), "ROWS", *(f" {ROW_KINDS[row.kind]} {row.name}" for row in rows)]
    lines += ["COLUMNS", *(card for column in columns[1:] for card in column.column_cards(rows))]
    lines += ["RHS", *offset, *(card for cards, _ in sides for card in cards)]
    ranges = [card for _, cards in sides for card in cards]
    bounds = [card for column in columns[1:] if (column.kind, column.limits) != ("l", ["0"]) or column.is_whole for card in column.bound_cards()]
    return [*lines, *(["RANGES", *ranges] if ranges else []), *(["BOUNDS", *bounds] if bounds else []), "ENDATA"]
