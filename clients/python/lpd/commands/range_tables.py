"""What the command solve shows of ranges: tables with the heads that `glpsol --ranges` has, members of JSON, cells of CSV, and a
picture of the optimum over one number."""
from __future__ import annotations

from fractions import Fraction
from typing import Dict, List, Mapping, Optional, Sequence, Tuple

from ..errors import CommandMissing, Refused
from ..exact import Watch
from ..figures import READABLE, Style
from ..model import Model
from ..number_text import shown
from ..pieces import Curve, curve_of, picture_of
from ..plotting import NoPicture
from ..ranging import COST, RHS, Range, Ranged, Ranges, ranges
from ..replies import Answer, Optimal
from .common import number_in, table, tell
from .plot import put_picture


def asked_ranges(text: str, answer: Answer) -> Optional[Ranges]:
    """The ranges, where there are any. Why there are none is told in a line."""
    if not isinstance(answer, Optimal):
        tell(f"lpd: there are no ranges: --ranges are those of an optimum, and the answer is {answer}")
        return None
    try:
        with Watch() as watch:
            found = ranges(text, tell=lambda done, count: watch.tell(f"{done} of {count} ranges"))
    except (CommandMissing, Refused) as why:
        tell(f"lpd: there are no ranges: {why}")
        return None
    if not isinstance(found.answer, Optimal):
        tell(f"lpd: there are no ranges: lpd range ends with {found.answer}")
        return None
    return found


# ---- tables


def lines_of(name: str, found: Ranged, style: Style) -> List[List[str]]:
    """Two lines: of the lower end of the range, and of the upper one."""
    if not isinstance(found, Range):
        return [[name, "", "", str(found), "", ""]]
    ends = [("from", found.low, "-inf", found.below), ("to  ", found.high, "inf", found.above)]
    lines = []
    for word, end, without, limiting in ends:
        there = "" if end is None else style.cell(found.optimum(end))
        lines.append(["", "", "", f"{word} {style.cell(end) or without}", there, told(limiting, style)])
    lines[0][:3] = [name, style.cell(found.now), style.cell(found.slope)]
    return lines


def told(limiting: Sequence[str], style: Style) -> str:
    """What gives a basis up: of several, which come there at once, the first and how many more. JSON and `--exact` have all of them."""
    if len(limiting) < 2 or style.is_exact:
        return "; ".join(limiting)
    return f"{limiting[0]}, and {len(limiting) - 1} more"


def table_of(found: Mapping[str, Ranged], heads: Sequence[str], style: Style) -> str:
    return table([list(heads), *(line for name, one in found.items() for line in lines_of(name, one, style))], style)


def print_ranges(found: Ranges, style: Style) -> None:
    behind = ["obj value at break point", "limiting variable"]
    print("\n" + table_of(found.costs, ["column", "obj coef", "value", "obj coef range", *behind], style))
    print("\n" + table_of(found.sides, ["row", "right side", "price", "right side range", *behind], style))
    print("\n" + found.told())


def in_json(found: Ranged, places: Optional[int]) -> Dict[str, object]:
    if not isinstance(found, Range):
        return {"past": str(found)}
    low, high = found.low, found.high
    values: Dict[str, Optional[Fraction]] = {"now": found.now, "low": low, "high": high, "slope": found.slope}
    values["value_at_low"] = None if low is None else found.optimum(low)
    values["value_at_high"] = None if high is None else found.optimum(high)
    told: Dict[str, object] = {name: None if value is None else shown(value) for name, value in values.items()}
    decimals = {name: number_in(value, places) for name, value in values.items()}
    return {**told, "decimals": decimals, "below": found.below, "above": found.above, "is_proved": found.is_proved}


def ranges_in_json(found: Optional[Ranges], places: Optional[int]) -> Optional[Dict[str, object]]:
    if found is None:
        return None
    parts = {"costs": found.costs, "right_sides": found.sides}
    return {part: {name: in_json(one, places) for name, one in named.items()} for part, named in parts.items()}


def csv_cells(found: Ranges, kind: str, name: str, style: Style, numbers: List[Optional[Fraction]]) -> List[str]:
    """Of a column or a row the number as it is, and the ends of its range, or nothing where they are not known. They are put to the
    numbers of the line."""
    one = {"column": found.costs, "row": found.sides}.get(kind, {}).get(name)
    if not isinstance(one, Range):
        return ["", "", ""]
    numbers += [one.now, one.low, one.high]
    return [style.plain(one.now), style.plain(one.low) or "-inf", style.plain(one.high) or "inf"]


# ---- the picture


def number_named(model: Model, word: str) -> Tuple[str, str]:
    """Which number of a model is meant: a cost or a right side, and of whom."""
    kinds = {RHS: set(model.rows), COST: set(model.columns)}
    for what, names in kinds.items():
        name = word[len(what) + 1 :]
        if word == f"{what}:{name}" and name in names and not any(word in others for others in kinds.values()):
            return what, name
    found = [what for what, names in kinds.items() if word in names]
    if not found:
        raise NoPicture(f"the model has no row and no column {word}")
    if len(found) == 2:
        raise NoPicture(f"{word} is a row and a column: rhs:{word} is the right side of the one, cost:{word} the cost of the other")
    return found[0], word


def draw(model: Model, number: Tuple[str, str], path: Optional[str], style: Style = READABLE) -> None:
    """Writes the picture, and tells the pieces of the optimum; or why there is none."""
    what, name = number
    try:
        answer, found = curve_of(model, what, name)
    except (CommandMissing, Refused) as why:
        tell(f"lpd: there is no picture: {why}")
        return
    if not isinstance(found, Curve):
        tell(f"lpd: there is no picture: lpd range ends with {answer if found is None else found}")
        return
    for line in lines_of_curve(found, style):
        tell(line)
    put_picture(picture_of(found, name, "cost of" if what == COST else "right side of"), path, name)


def lines_of_curve(found: Curve, style: Style) -> List[str]:
    """The pieces in words, as the command plot tells them, and what is beyond them."""
    lines, word = [], style.word
    for piece in found.pieces:
        ends = [("", "") if end is None else (word(end), word(piece.optimum(end))) for end in (piece.low, piece.high)]
        span = f"from {ends[0][0] or '-inf'} to {ends[1][0] or 'inf'}"
        values = " to ".join(value for _, value in ends if value) or word(piece.value)
        lines.append(f"{span}: {values}, {word(piece.slope)} for each unit")
    below, above = found.beyond.get(-1), found.beyond.get(1)
    first, last = found.pieces[0].low, found.pieces[-1].high
    lines += [f"below {word(first)}: {below}"] if below and first is not None else []
    lines += [f"above {word(last)}: {above}"] if above and last is not None else []
    return lines
