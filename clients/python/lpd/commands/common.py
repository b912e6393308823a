"""What the commands share: files, statuses, tables, and the conversion of dialects."""
from __future__ import annotations

import argparse
import sys
import textwrap
from fractions import Fraction
from pathlib import Path
from typing import TYPE_CHECKING, List, Optional, Sequence

from ..errors import LIMITS, TextFault
from ..figures import READABLE, Style
from ..interrupts import kept
from ..model import Model
from ..names import Renamed
from ..reading import is_lp, unpacked
from ..records import replace
from ..replies import Answer, Infeasible, Optimal, Spent, Unbounded

if TYPE_CHECKING:
    from ..conversion import Converted, Options

MOST_DECIMALS, MOST_PIVOTS = 1000, 1000000
MOST_RUNS = 8  # of lines that were changed in one way
WIDEST_LINE, SHORTEST = 120, 14  # characters of a line, and of a column of a table that is cut
PYTHON_ALONE = 14  # an answer whose certificate the checker in Python alone accepts


def read(path: str) -> bytes:
    return unpacked(sys.stdin.buffer.read() if path == "-" else Path(path).read_bytes(), path)


def as_text(data: bytes) -> str:
    """A text whose characters stand for its bytes."""
    return data.decode("latin-1")


def put(text: str, path: Optional[str]) -> None:
    """Writes a text, whose characters stand for bytes, to a file or to standard output."""
    data = text.encode("latin-1")
    if path is None:
        sys.stdout.buffer.write(data)
        sys.stdout.flush()
    else:
        Path(path).write_bytes(data)
        kept.append(path)


def put_beside(path: str, lines: Sequence[str], text: Optional[str]) -> None:
    """Writes a certificate, or an answer in front of one, and beside it the text that it is for, where that is not the
    one of the file."""
    put(lines_text(lines), path)
    if text is not None:
        put(text, f"{path}.mps")
        tell(f"{path} is for the text {path}.mps")


def tell(words: str) -> None:
    print(words, file=sys.stderr)


def decimals(word: str) -> int:
    """How many decimals are shown."""
    if not (word.isascii() and word.isdigit() and int(word[:6]) <= MOST_DECIMALS and len(word) < 6):
        raise argparse.ArgumentTypeError(f"{word} is no number of decimals, from 0 to {MOST_DECIMALS}")
    return int(word)


def seconds(word: str) -> float:
    """How long something may take."""
    try:
        found = float(word)
    except ValueError:
        found = -1.0
    if not 0 < found < float("inf"):
        raise argparse.ArgumentTypeError(f"{word} is no number of seconds above 0")
    return found


def budget(word: str) -> int:
    """How many pivots and flips a solve may make."""
    if not (word.isascii() and word.isdigit() and len(word) <= 7 and 1 <= int(word) <= MOST_PIVOTS):
        raise argparse.ArgumentTypeError(f"{word} is no budget of pivots, from 1 to {MOST_PIVOTS}")
    return int(word)


def add_style(parser: argparse.ArgumentParser) -> None:
    """How numbers are shown."""
    parser.add_argument("--exact", action="store_true", help="shows numbers as they are, as fractions where they have no short decimal")
    places = "shows D decimals in place of 6 digits, and with --exact beside each fraction"
    parser.add_argument("--decimals", type=decimals, metavar="D", help=places)


def style_of(words: argparse.Namespace) -> Style:
    return Style(words.exact, words.decimals)


def status_of(answer: Answer) -> int:
    if isinstance(answer, Optimal):
        return 0
    if isinstance(answer, Infeasible):
        return 10
    if isinstance(answer, Unbounded):
        return 11
    return 13 if isinstance(answer, Spent) else 12


def number_in(value: Optional[Fraction], places: Optional[int]) -> Optional[float]:
    """The number of JSON that is nearest to a fraction, or to its decimal of so many places; none where it is past all floats."""
    try:
        return None if value is None else float(value if places is None else round(value, places))
    except OverflowError:
        return None


def width_of(rows: Sequence[Sequence[str]]) -> List[int]:
    return [max(len(row[column]) for row in rows) for column in range(len(rows[0]))]


def table(rows: Sequence[Sequence[str]], style: Style = READABLE) -> str:
    """Rows of cells below each other. No line is longer than `WIDEST_LINE`, unless the style is of exact numbers: of the widest columns,
    which are those of names, cells are cut short in the middle."""
    widths = width_of(rows)
    while sum(widths) + 2 * len(widths) - 2 > WIDEST_LINE and not style.is_exact and max(widths) > SHORTEST:
        widest = widths.index(max(widths))
        widths[widest] -= 1
    cells = [[cut(text, width) for text, width in zip(row, widths)] for row in rows]
    return "\n".join("  ".join(text.ljust(width) for text, width in zip(row, widths)).rstrip() for row in cells)


def cut(text: str, width: int) -> str:
    """A text of at most so many characters: without those in its middle."""
    if len(text) <= width:
        return text
    kept = width - 2
    return f"{text[: kept - kept // 2]}..{text[len(text) - kept // 2 :]}"


def in_lines(text: str) -> str:
    """Sentences in lines that are no longer than `WIDEST_LINE`, of which all but the first are moved in."""
    front = text[: len(text) - len(text.lstrip())]
    return textwrap.fill(
        text,
        WIDEST_LINE,
        subsequent_indent=f"{front.strip(chr(10))}  ",
        break_long_words=False,
        break_on_hyphens=False,
        replace_whitespace=False,
    )


def print_prose(text: str) -> None:
    print(in_lines(text))


def add_options(parser: argparse.ArgumentParser) -> None:
    """The words that answer what a conversion asks, and say where the names go that it changes."""
    parser.add_argument("--renames", "--names", metavar="FILE", help="where a table of the changed names goes: kind, old, new, between tabs")
    parser.add_argument("--relax", action="store_true", help="solves without the condition that columns are whole numbers")
    no_set = "a card without a set, where others have one, is of the same set, or of its own"
    parser.add_argument("--no-set", choices=["same", "own"], help=no_set)
    no_bound = "the upper bound of a whole-number column without bounds"
    parser.add_argument("--no-bound", choices=["1", "none"], help=no_bound)


def add_presolve(group: "argparse._MutuallyExclusiveGroup") -> None:
    """Stands beside --budget, since the program's presolve has a budget of its own."""
    group.add_argument("--presolve", action="store_true", help="makes the model smaller first, and solves that, by lpd presolve")


def options_of(words: argparse.Namespace) -> Options:
    from ..conversion import Options  # here and below, since most texts need no conversion

    return Options(words.relax, words.no_set, words.no_bound)


def converted(words: argparse.Namespace, data: bytes, options: Optional[Options] = None) -> Converted:
    """The text in the profile. What was changed goes to standard error."""
    from ..conversion import Question, convert

    try:
        found = convert(data, words.form, options or options_of(words))
    except Question as question:
        raise question.without_line() if is_lp(words.model) else question from None
    tell_changes(found, words.renames)
    return found


def in_dialect(words: argparse.Namespace, data: bytes, fault: TextFault, wide: bool = True) -> Converted:
    """The text of another dialect in the profile, where it is one: else the fault is raised with which the profile refuses it, or that
    of a limit which a wide one would not pass, and a question that a reader has to answer is asked."""
    from ..conversion import Question, convert

    try:
        found = convert(data, words.form, replace(options_of(words), wide=wide))
    except TextFault as other:
        raise other if other.fault in LIMITS and not wide else fault from None
    except Question as question:
        raise question.without_line() if is_lp(words.model) else question from None
    count = len(found.changes)
    changes = "1 change, which" if count == 1 else f"{count} changes, which"
    tell(f"note: the text is of another dialect of MPS, and was converted, with {changes} the command convert lists")
    tell_renames(found.names, words.renames)
    return found


def tell_changes(found: Converted, renames: Optional[str] = None) -> None:
    """What was changed, in some of the lines, and how many names were, whose table goes to a file. The command convert has all lines."""
    for change in found.changes:
        tell(change.told(MOST_RUNS))
    tell_renames(found.names, renames)


def tell_renames(names: Sequence[Renamed], renames: Optional[str]) -> None:
    """Each name that was changed, or the first one and how many more, and where their table is."""
    if not names:
        return
    if renames:
        Path(renames).write_text("".join(f"{name.kind}\t{name.old}\t{name.new}\n" for name in names), encoding="utf-8")
    first = f"{names[0].kind} {names[0].old!r} is named {names[0].new}"
    more = f", and {len(names) - 1} more names are changed" if len(names) > 1 else ""
    tell(first + more + (f", as {renames} has it" if renames else f": --renames FILE puts them down" if more else ""))


def skipped_words(model: Model) -> str:
    """That cards of other sets were not read, in capitals, so that it is seen beside an answer; nothing where all were."""
    if not model.skipped:
        return ""
    count, lines = len(model.skipped), listed([str(line) for line in model.skipped], 8)
    return f"{count} CARD{'S' if count > 1 else ''} OF OTHER SETS NOT READ: line{'s' if count > 1 else ''} {lines} (docs/FORMATS.md)"


def lines_text(lines: Sequence[str]) -> str:
    return "".join(f"{line}\n" for line in lines)


def listed(values: Sequence[str], most: int = 6) -> str:
    return ", ".join(list(values)[:most]) + (", .." if len(values) > most else "")


def csv_line(cells: List[str]) -> str:
    """A line of comma-separated values, with quotes where they are needed."""
    quoted = ['"' + cell.replace('"', '""') + '"' if any(c in cell for c in ',"\n') else cell for cell in cells]
    return ",".join(quoted)
