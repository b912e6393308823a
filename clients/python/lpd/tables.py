"""Tables of the answers to many models: their cells, and how they are written line by line, kept in a file, and read again."""
from __future__ import annotations

import csv
import io
import json
import os
import textwrap
from fractions import Fraction
from pathlib import Path
from typing import Callable, Dict, List, Optional, Sequence

from .batching import Result
from .certifying import Certified
from .errors import LpdError
from .figures import READABLE, Style
from .judging import LPD_CHECK, LPD_CHECK_WIDE, PYTHON_ALONE
from .number_text import NotANumber, number, rounded, shown
from .ways import BOTH, WIDE

Cells = Dict[str, str]
ANSWERED = ["model", "rows", "columns", "answer", "value", "way", "accepted by", "pivots", "seconds"]
REDUCED = ["rows left", "columns left"]  # by lpd presolve
CERTIFIED = ["exactly", "judge", "claim", "off", "solver seconds", "certify seconds"]
# How wide the columns of a table are that is written before all its cells are known, and which they are; what else there is stands
# below the line of its model.
WIDTHS = {"model": 26, "rows": 4, "columns": 7, "answer": 10, "value": 14, "optimum": 7, "way": 16, "accepted by": 16, "seconds": 8}
WIDEST_LINE = 120
SAME, OTHER = "same", "OTHER"


class OtherTable(LpdError):
    """A file holds another table than the one that would be written."""


def columns_of(is_certified: bool, has_optima: bool, is_presolved: bool = False) -> List[str]:
    answered = [*ANSWERED[:3], *(REDUCED if is_presolved else []), *ANSWERED[3:]]
    return [*answered, *(["optimum"] if has_optima else []), *(CERTIFIED if is_certified else []), "note"]


def small(value: Fraction) -> str:
    """A difference in three digits."""
    try:
        return f"{float(value):.3g}"
    except OverflowError:
        return rounded(value, 0)


def claim_of(found: Certified, number: Callable[[Fraction], str] = shown) -> str:
    value = found.claim.value
    return found.claim.said if value is None else f"{found.claim.said} {number(value)}"


def off_of(found: Certified) -> Optional[str]:
    off = found.off()
    return None if off is None else small(off)


def not_read(count: int) -> str:
    return f"{count} CARD{'S' if count > 1 else ''} OF OTHER SETS NOT READ"


def cells_of(result: Result) -> Cells:
    """All cells of a result: texts, empty where there is nothing to say."""
    found = result.certified
    judges = {"": "", BOTH: LPD_CHECK, WIDE: LPD_CHECK_WIDE}
    notes = ([not_read(result.not_read)] if result.not_read else []) + result.notes
    return {
        "model": result.name,
        "rows": "" if result.rows is None else str(result.rows),
        "columns": "" if result.columns is None else str(result.columns),
        "rows left": "" if result.reduced is None else str(result.reduced.rows),
        "columns left": "" if result.reduced is None else str(result.reduced.columns),
        "answer": result.answer,
        "value": result.value,
        "way": result.way.partition(",")[0],
        "accepted by": judges.get(result.accepted_by, PYTHON_ALONE),
        "pivots": "" if result.pivots is None else str(result.pivots),
        "seconds": f"{result.seconds:.3f}",
        "exactly": str(found.known) if found else "",
        "judge": found.judge if found else "",
        "claim": claim_of(found) if found else "",
        "off": (off_of(found) or "") if found else "",
        "solver seconds": f"{found.solver_seconds:.3f}" if found else "",
        "certify seconds": f"{result.certify_seconds:.3f}" if found else "",
        "note": "; ".join(notes).replace("\n", " "),
    }


class NotOptima(LpdError):
    """A file has no known answers."""

    ends_with = 2


def read_optima(text: str) -> Dict[str, str]:
    """Known answers by the names of models: lines of a name, an outcome and an optimum, between tabs, below a line of heads. An outcome
    may be another than these three, as `unknown`, or missing, but no number, as a table of another kind has there."""
    found = {}
    for count, line in enumerate(text.splitlines()[1:], 2):
        name, outcome, value, *_ = [*line.split("\t"), "", "", ""]
        if outcome and not outcome[0].isalpha():
            raise NotOptima(f"line {count} of the known answers has {outcome!r} behind its name, where optimal, infeasible or unbounded stands")
        found[name] = f"{outcome.upper()} {value}".strip()
    return found


def against(cells: Cells, known: Optional[str]) -> str:
    """Whether an answer is the known one: SAME, OTHER, or nothing where one of the two is missing."""
    if known is None or cells["answer"] not in ("OPTIMAL", "INFEASIBLE", "UNBOUNDED"):
        return ""
    outcome, _, value = known.partition(" ")
    if outcome != cells["answer"]:
        return OTHER
    try:
        return SAME if outcome != "OPTIMAL" or number(value, wide=True) == number(cells["value"], wide=True) else OTHER
    except NotANumber:
        return ""


def csv_text(cells: Sequence[str]) -> str:
    """A line of comma-separated values, with quotes where they are needed."""
    line = io.StringIO()
    csv.writer(line, lineterminator="\n").writerow(cells)
    return line.getvalue()


def number_of(cells: Cells) -> Optional[Fraction]:
    """The value of an optimum."""
    return number(cells["value"], wide=True) if cells["answer"] == "OPTIMAL" and cells["value"] else None


def shortened(text: str, width: int) -> str:
    return text if len(text) <= width else f"{text[: width - 2]}.."


class Writer:
    """Writes a table line by line, as text, as CSV or as JSON. In text a line has at most 120 characters, and in CSV numbers are such
    as a spreadsheet reads."""

    def __init__(self, style: str, columns: List[str], names: Sequence[str], figures: Style = READABLE) -> None:
        self.style, self.columns, self.count, self.figures = style, columns, 0, figures
        longest = max(map(len, names), default=0)
        self.widths = {column: max(len(column), width) for column, width in WIDTHS.items() if column in columns}
        self.widths["model"] = max(len("model"), min(longest, self.widths["model"]))

    def head(self) -> str:
        if self.style == "json":
            return "[\n"
        return csv_text(self.with_mark(self.columns, "exact")) if self.style == "csv" else self.padded({column: column for column in self.columns})

    def line(self, cells: Cells) -> str:
        self.count += 1
        told = {column: cells.get(column, "") for column in self.columns}
        if self.style == "json":
            before = ",\n" if self.count > 1 else ""
            return before + json.dumps({**told, **decimals_of(told)}, indent=2)
        value = number_of(told)
        if self.style == "csv":
            mark = "" if value is None else self.figures.mark(value)
            return csv_text(self.with_mark([*{**told, "value": self.figures.plain(value)}.values()], mark))
        shown = self.figures.cell(value)
        return self.padded({**told, "value": shown}) + "".join(self.below(told))

    def with_mark(self, cells: Sequence[str], mark: str) -> List[str]:
        """The cells, and behind that of the value whether it is exact."""
        at = self.columns.index("value") + 1
        return [*cells[:at], mark, *cells[at:]]

    def padded(self, cells: Cells) -> str:
        kept = [shortened(cells[column], width if not self.figures.is_exact or column != "value" else 10**6).ljust(width) for column, width in self.widths.items()]
        return "  ".join(kept).rstrip() + "\n"

    def below(self, cells: Cells) -> List[str]:
        """What has no column of its own: of the certificate, of a smaller model, and the notes."""
        kind, _, value = cells.get("exactly", "").partition(" ")
        certified = {**cells, "exactly": f"{kind} {self.figures.word(number(value, wide=True))}" if value else kind}
        more = [f"{column} {certified[column]}" for column in (*CERTIFIED, *REDUCED) if certified.get(column)]
        operands = [f"{cells['answer']} {cells['value']}"] if cells["value"] and cells["answer"] != "OPTIMAL" else []
        texts = [*(shortened(text, WIDEST_LINE - 2) for text in operands), ", ".join(more), cells.get("note", "")]
        lines = [line for text in texts for line in textwrap.wrap(text, WIDEST_LINE - 2, break_on_hyphens=False)]
        return [f"  {line}\n" for line in lines]

    def foot(self) -> str:
        return ("\n" if self.count else "") + "]\n" if self.style == "json" else ""


def decimals_of(cells: Cells) -> Dict[str, object]:
    """The value of an optimum as a number too."""
    if cells["answer"] != "OPTIMAL":
        return {"decimals": {"value": None}}
    try:
        return {"decimals": {"value": float(number(cells["value"], wide=True))}}
    except OverflowError:
        return {"decimals": {"value": None}}


class Kept:
    """A table in a file, CSV, to which each line is put as it comes, and which a later run goes on with. A line that was cut short
    in the writing is dropped."""

    def __init__(self, path: str, columns: List[str]) -> None:
        self.path, self.columns = Path(path), columns
        self.rows: Dict[str, Cells] = {}
        text = self.path.read_text(encoding="utf-8") if self.path.exists() else ""
        lines = list(csv.reader(io.StringIO(text[: text.rfind("\n") + 1])))
        if lines and lines[0] != columns:
            raise OtherTable(f"{path} holds a table with the columns {', '.join(lines[0])[:200]}, and this one has {', '.join(columns)}")
        for cells in lines[1:]:
            if len(cells) == len(columns) and cells[columns.index("answer")] != "FAILED":
                self.rows[cells[0]] = dict(zip(columns, cells))
        self.write()

    def add(self, cells: Cells) -> None:
        self.rows[cells["model"]] = cells
        with open(self.path, "a", encoding="utf-8", newline="") as file:
            file.write(csv_text([cells.get(column, "") for column in self.columns]))

    def write(self) -> None:
        """Writes the table anew, in the order of names, in one step."""
        beside = self.path.with_name(f"{self.path.name}.new")
        rows = [[row.get(column, "") for column in self.columns] for _, row in sorted(self.rows.items())]
        with open(beside, "w", encoding="utf-8", newline="") as file:
            file.writelines(map(csv_text, [self.columns, *rows]))
        os.replace(beside, self.path)
