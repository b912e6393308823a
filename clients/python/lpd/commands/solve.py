"""python3 -m lpd solve MODEL: the answer, as a planner reads it, with a certificate that two checkers accept."""
from __future__ import annotations

import argparse
import sys
from fractions import Fraction
from pathlib import Path
from typing import TYPE_CHECKING, Dict, Iterator, List, NamedTuple, Optional, Sequence, Tuple

from .. import errors
from ..dialects import PROFILE, written
from ..figures import Style
from ..judging import LARGE
from ..model import Model, read_model
from ..names import Renamed
from ..number_text import shown
from ..reading import MATHPROG, end_of, is_lp, read_model_file
from ..records import replace
from ..replies import Answer, Infeasible, Optimal
from ..report import Report, conflict, report
from ..rounding import rounded
from ..solver_names import CHOICES
from ..version import version
from ..ways import BOTH, SECONDS_WORDS, Answered, Effort, answered
from .common import add_options, add_presolve, as_text, budget, converted, csv_line, number_in, options_of, put_beside, seconds, skipped_words
from .common import PYTHON_ALONE, add_style, in_dialect, in_lines, print_prose, status_of, style_of, tell
from .reports import offset_words, print_report, shown_answer, words_for

if TYPE_CHECKING:
    from ..objective import Aim
    from ..ranging import Ranges

SHOWN = ["all", "point", "rows", "prices", "answer"]


def add(commands: "argparse._SubParsersAction[argparse.ArgumentParser]") -> None:
    solve = commands.add_parser("solve", help="solves a model, and checks the certificate of the answer twice")
    solve.set_defaults(run=run)
    solve.add_argument("model", help="a file of MPS text, or of the LP format (.lp) or GNU MathProg (.mod), each also with .gz, or - for standard input")
    solve.add_argument("--form", choices=["free", "fixed"], help="the form of the text (free; with --convert or --relax the one that fits)")
    sense = solve.add_mutually_exclusive_group()
    sense.add_argument("--max", action="store_true", help="maximizes, whatever the text says")
    sense.add_argument("--min", action="store_true", help="minimizes, whatever the text says")
    add_objective(solve)
    add_changes(solve)
    rounds = "takes the decimal of at most 12 digits where a number looks as if a float had rounded that"
    solve.add_argument("--round", action="store_true", help=rounds)
    own = solve.add_mutually_exclusive_group()
    own.add_argument("--budget", type=budget, metavar="N", help="makes at most N pivots and flips, up to 1000000 (10000)")
    add_presolve(own)
    own.add_argument("--wide", action="store_true", help="asks lpd solve --wide first whatever else is said, as is done where nothing is")
    solve.add_argument("--convert", action="store_true", help="converts the text from other dialects first, as the command convert does")
    add_options(solve)
    add_ways(solve)
    solve.add_argument("--show", choices=SHOWN, default="all", help="what of an optimal point is shown (all)")
    solve.add_argument("--all", action="store_true", help="shows columns that are 0 and rows that do not bind too")
    add_style(solve)
    solve.add_argument("-o", "--output", metavar="FILE", help="where the answer and its certificate go too, as lpd solve prints them")
    solve.add_argument("--page", metavar="FILE", help="writes a page that checks the model and its certificate in a browser")
    add_ranges(solve)
    add_iis(solve)
    output = solve.add_mutually_exclusive_group()
    output.add_argument("--json", action="store_true", help="an object, as docs/PYTHON.md has it")
    output.add_argument("--csv", action="store_true", help="a line for each column and row")


def add_ways(parser: argparse.ArgumentParser) -> None:
    """What is done where lpd has no answer within 127 bits."""
    parser.add_argument("--only-lpd", action="store_true", help="takes PAST and SPENT for the end, and goes no other way")
    solver = "the solver whose basis is made exact where lpd has no answer (the first that is there, or none; of a large model one after the other)"
    parser.add_argument("--with", dest="solver", choices=CHOICES, help=solver)
    limit = f"how long lpd solve --wide and the other ways of a model may take together, of which each has half of what is left ({SECONDS_WORDS})"
    parser.add_argument("--seconds", type=seconds, metavar="N", help=limit)


def add_objective(parser: argparse.ArgumentParser) -> None:
    solves = "solves for this row, a later one of type N, in place of the first: its sum less its right side is minimized, or maximized"
    parser.add_argument("--objective", metavar="ROW", help=solves)


class Change(argparse.Action):
    """Puts a change behind those before it, whatever they are of."""

    def __call__(self, parser: argparse.ArgumentParser, words: argparse.Namespace, value: object, option: Optional[str] = None) -> None:
        words.changes = [*words.changes, (self.dest.partition("_")[2], value)]


def add_changes(parser: argparse.ArgumentParser) -> None:
    """Other numbers than those of the text: any number of them, one after the other."""
    parser.set_defaults(changes=[])
    forms = {"rhs": "ROW=NUMBER", "cost": "COLUMN=NUMBER", "bound": "COLUMN=LOW:HIGH", "coef": "ROW:COLUMN=NUMBER"}
    whats = {"rhs": "right side", "cost": "cost", "bound": "bounds (-inf and inf are none)", "coef": "coefficient"}
    for what, form in forms.items():
        told = f"solves with another {whats[what]}, and tells the difference; as often as wanted"
        parser.add_argument(f"--set-{what}", dest=f"set_{what}", metavar=form, action=Change, help=told)


def add_ranges(parser: argparse.ArgumentParser) -> None:
    shows = "shows for each cost and right side in which range the basis of the optimum stays optimal, and what limits it"
    parser.add_argument("--ranges", action="store_true", help=shows)
    draws = "draws the optimum over the right side of this row, or the cost of this column, beyond the range of the basis"
    parser.add_argument("--plot", metavar="NAME", help=f"{draws}; rhs:NAME and cost:NAME where both have the name")
    parser.add_argument("--picture", metavar="FILE", help="where that picture goes, as SVG (NAME.svg)")


def add_iis(parser: argparse.ArgumentParser) -> None:
    lists = "lists limits that contradict each other, none of which can be left out, with a point for each without it"
    parser.add_argument("--iis", action="store_true", help=lists)


def effort_of(words: argparse.Namespace) -> Effort:
    return Effort(words.budget, words.only_lpd, words.solver, words.seconds, presolve=words.presolve, wide_first=words.wide or None)


def numbers(places: Optional[int], **values: Optional[Fraction]) -> Dict[str, object]:
    """Fractions as texts, and beside them decimals as numbers."""
    told: Dict[str, object] = {name: None if value is None else shown(value) for name, value in values.items()}
    told["decimals"] = {name: number_in(value, places) for name, value in values.items()}
    return told


def parts_of(found: Report, show: str, places: Optional[int]) -> Dict[str, object]:
    """The columns and rows of a point, by their names, and of each what is to be shown."""
    told: Dict[str, object] = {}
    if show == "prices":
        told["columns"] = {c.name: numbers(places, reduced_cost=c.reduced_cost) for c in found.columns}
        told["rows"] = {r.name: numbers(places, price=r.price) for r in found.rows}
    if show in ("all", "point"):
        told["columns"] = {c.name: numbers(places, value=c.value, reduced_cost=c.reduced_cost) for c in found.columns}
    if show in ("all", "rows"):
        told["rows"] = {r.name: numbers(places, sum=r.activity, slack=r.slack, price=r.price) for r in found.rows}
    return told


def conflict_in_json(model: Model, certificate: List[str]) -> Dict[str, object]:
    """Why there is no feasible point."""
    found = conflict(model, certificate)
    told: Dict[str, object] = {"words": str(found)}
    if found.column is not None:
        return {**told, "column": found.column, "lower": shown(found.asked), "upper": shown(found.allowed)}
    rows = {
        row.name: {"multiplier": shown(row.multiplier), "side": "lower" if row.is_lower else "upper", "limit": shown(row.limit)}
        for row in found.rows
    }
    return {**told, "rows": rows, "asked": shown(found.asked), "allowed": shown(found.allowed)}


def as_json(
    found: Answered, model: Model, point: Optional[Report], show: str, places: Optional[int], more: Dict[str, object]
) -> Dict[str, object]:
    """An object with the answer and its parts, and with `more`, which is asked for by name."""
    answer = found.answer
    told: Dict[str, object] = {"answer": str(answer), "kind": str(answer).split(" ")[0]}
    if isinstance(answer, Optimal):
        told.update(numbers(places, value=answer.value))
    told.update({"way": found.way, "accepted_by": found.accepted_by, "notes": found.notes, "cards_not_read": model.skipped})
    if isinstance(answer, Infeasible):
        told["conflict"] = conflict_in_json(model, found.certificate)
    if point:
        told.update(parts_of(point, show, places))
    if found.reduced:
        told["reduced"] = found.reduced._asdict()
    return {**told, **more, "certificate": found.certificate, "lpd": version()}


def print_json(told: Dict[str, object]) -> None:
    """Writes an object piece by piece, since that of a large model is long."""
    import json  # here, since it is asked for seldom

    sys.stdout.writelines(json.JSONEncoder(indent=2).iterencode(told))
    print()


def csv_lines(
    found: Answered,
    aim: Optional[Aim],
    point: Optional[Report],
    show: str,
    style: Style,
    ranges: Optional[Ranges],
    before: Optional[Unchanged] = None,
) -> Iterator[str]:
    """Lines whose last cell is = where all their numbers are exact: first those of the answer, then one for each column (value, reduced
    cost), and one for each row (sum, price, slack); of ranges also the cost, or the right side, and the ends of its range."""
    lines = lines_of_answer(found, aim, before) + (lines_of_point(point, show) if point else [])
    yield csv_line(["kind", "name", "value", "price", "slack", *(["now", "low", "high"] if ranges else []), "exact"])
    for line in lines:
        more: List[str] = []
        if ranges:
            from .range_tables import csv_cells

            more = csv_cells(ranges, line.kind, line.name, style, line.values)
        yield csv_line([line.kind, line.name, *(style.plain(value) for value in line.values[:3]), *more, style.mark(*line.values)])


def lines_of_answer(found: Answered, aim: Optional[Aim], before: Optional[Unchanged]) -> List[Line]:
    """The answer, that without the numbers that were set, and an objective that is not solved for."""
    lines = [line_of("answer", found.answer)]
    if before:
        lines.append(line_of("unchanged", before.found.answer))
        lines.append(Line("difference", "", [before.difference(found.answer), None, None]))
    if aim:
        from .objectives import value_before

        lines.append(Line("objective", aim.before.objective, [value_before(aim, found), None, None]))
    return lines


def line_of(kind: str, answer: Answer) -> Line:
    value = answer.value if isinstance(answer, Optimal) else None
    return Line(kind, str(answer).split(" ")[0], [value, None, None])


def lines_of_point(point: Report, show: str) -> List[Line]:
    """What is asked for of the columns and the rows: with `prices` these alone."""
    lines, is_whole = [], show != "prices"
    if show in ("all", "point", "prices"):
        lines += [Line("column", c.name, [c.value if is_whole else None, c.reduced_cost, None]) for c in point.columns]
    if show in ("all", "rows", "prices"):
        rows = ((r, r.activity if is_whole else None, r.slack if is_whole else None) for r in point.rows)
        lines += [Line("row", r.name, [total, r.price, slack]) for r, total, slack in rows]
    return lines


class Line(NamedTuple):
    """A line of CSV: of what it is, and the numbers of its cells."""

    kind: str
    name: str
    values: List[Optional[Fraction]]


class Loaded(NamedTuple):
    """A text in free form, its model, whether the text is another than that of the file, and the other objective that it was
    given, if it was; where other numbers were set, the model without them, and what they are; and the names that were changed."""

    text: str
    model: Model
    is_other: bool
    aim: Optional[Aim] = None
    before: Optional[Model] = None
    changes: Sequence[str] = ()
    names: Sequence[Renamed] = ()


def loaded(words: argparse.Namespace) -> Loaded:
    """What is to be solved."""
    data = read_model_file(words.model)
    if end_of(Path(words.model)) == MATHPROG:
        tell("note: glpsol reads .mod, and gives numbers in 15 digits")
    read = None if words.convert or words.relax else as_it_is(words, data)
    if read is None:
        found = converted(words, data, replace(options_of(words), wide=True, large=True))
        read = Loaded(found.text, found.model, bool(found.changes), names=found.names)
    text, model, is_other = read.text, read.model, read.is_other or words.form == "fixed" or is_lp(words.model)
    if words.max or words.min:
        model, is_other = replace(model, sense=-1 if words.max else 1), True
    numbers = rounded(model)
    if numbers.numbers and words.round:
        model, is_other = numbers.model, True
        tell(f"note: {numbers.told()}, which was taken")
    elif numbers.numbers:
        tell(f"note: {numbers.told()}: --round takes that")
    given = read._replace(text=written(model, PROFILE).text if is_other else text, model=model, is_other=is_other)
    if words.objective is not None:
        from .objectives import asked_aim

        aim = asked_aim(words, given.text, model)
        given = given if aim is None else given._replace(text=aim.text, model=aim.model, is_other=True, aim=aim)
    return with_changes(given, words.changes)


def as_it_is(words: argparse.Namespace, data: bytes) -> Optional[Loaded]:
    """The model of a text of the profile; or of another dialect, which is told in a line."""
    text = as_text(data)
    try:
        return Loaded(text, read_model(text, words.form == "fixed", wide=True, large=True), False)
    except errors.TextFault as fault:
        found = in_dialect(words, data, fault)
    return Loaded(found.text, found.model, True, names=found.names)


def with_changes(given: Loaded, words: Sequence[Tuple[str, str]]) -> Loaded:
    """What is to be solved, with other numbers."""
    if not words:
        return given
    from ..what_if import changed

    model, changes = changed(given.model, words, given.names)
    return given._replace(text=written(model, PROFILE).text, model=model, is_other=True, before=given.model, changes=changes)


class Unchanged(NamedTuple):
    """The answer to the model without the numbers that were set, its point, and what these were."""

    found: Answered
    point: Optional[Report]
    changes: Sequence[str]

    def difference(self, answer: Answer) -> Optional[Fraction]:
        """How much more the optimum is with the changes."""
        before = self.found.answer
        return answer.value - before.value if isinstance(answer, Optimal) and isinstance(before, Optimal) else None


def unchanged(words: argparse.Namespace, given: Loaded) -> Optional[Unchanged]:
    if given.before is None:
        return None
    found = answered(written(given.before, PROFILE).text, given.before, effort_of(words))
    point = report(given.before, found.certificate) if isinstance(found.answer, Optimal) else None
    return Unchanged(found, point, given.changes)


def run(words: argparse.Namespace) -> int:
    given = loaded(words)
    text, model, is_other, aim = given[:4]
    number = named_number(words, given)
    found = answered(text, model, effort_of(words))
    if words.output:
        put_beside(words.output, [str(found.answer), *found.certificate], text if is_other else None)
    if words.page:
        from ..page import write_page

        write_page(words.page, text, found.certificate, found.answer)
    point = report(model, found.certificate) if isinstance(found.answer, Optimal) else None
    before = unchanged(words, given)
    skipped = skipped_words(model)
    if words.json or words.csv:
        if skipped:
            tell(skipped)
        if words.csv and words.iis:
            tell("lpd: there is no list: --iis is for text and --json, and CSV has no cells for it")
        ranges = ranges_of(words, text, model, found.answer)
        if words.json:
            more = more_in_json(words, text, model, found, ranges, aim, before)
            print_json(as_json(found, model, point, words.show, words.decimals, more))
        else:
            for line in csv_lines(found, aim, point, words.show, style_of(words), ranges, before):
                print(line)
    else:
        print_answer(words, found, model, point, skipped, aim, before)
        sys.stdout.flush()
        print_more(words, text, found, model)
        if is_as_ever(found) and words.show != "answer":
            print(f"\n{in_lines(found.told())}\nlpd {version()}")
        else:
            print(f"\nlpd {version()}")
    if number:
        from .range_tables import draw

        draw(model, number, words.picture, style_of(words))
    return status_of(found.answer) if found.is_proved or not found.certificate else PYTHON_ALONE


def named_number(words: argparse.Namespace, given: Loaded) -> Optional[Tuple[str, str]]:
    """The number over which the optimum is to be drawn."""
    if not words.plot:
        return None
    from .plot import must_be_svg

    must_be_svg(words.picture)
    from .range_tables import number_named

    new = {name.old: name.new for name in given.names}
    return number_named(given.model, new.get(words.plot, words.plot))


def ranges_of(words: argparse.Namespace, text: str, model: Model, answer: Answer) -> Optional[Ranges]:
    """The ranges, where they are asked for and there are any."""
    if not words.ranges:
        return None
    if model.is_large:
        tell(f"lpd: there are no ranges: {LARGE}")
        return None
    from .range_tables import asked_ranges

    return asked_ranges(text, answer)


def more_in_json(
    words: argparse.Namespace,
    text: str,
    model: Model,
    found: Answered,
    ranges: Optional[Ranges],
    aim: Optional[Aim],
    before: Optional[Unchanged],
) -> Dict[str, object]:
    """The members that are asked for by name: null where they are not known."""
    more: Dict[str, object] = {}
    if words.ranges:
        from .range_tables import ranges_in_json

        more["ranges"] = ranges_in_json(ranges, words.decimals)
    if aim:
        from .objectives import objective_in_json

        more["objective"] = objective_in_json(aim, found, words.decimals)
    if before:
        more["unchanged"] = unchanged_in_json(found, before, words.decimals)
    if words.iis:
        from . import conflicts

        limits = conflicts.found_limits(words, text, model, found)
        more["iis"] = conflicts.limits_in_json(model, limits, words.decimals)
        if isinstance(found.answer, Infeasible):
            more["advice"] = conflicts.advice_in_json(conflicts.found_advice(words, model, found.certificate, limits))
    return more


def unchanged_in_json(found: Answered, before: Unchanged, places: Optional[int]) -> Dict[str, object]:
    """What was changed, the answer without that, and how much more the optimum is with it."""
    answer = before.found.answer
    values = {"value": answer.value if isinstance(answer, Optimal) else None, "difference": before.difference(found.answer)}
    return {"changes": list(before.changes), "answer": str(answer), **numbers(places, **values)}


def print_more(words: argparse.Namespace, text: str, found: Answered, model: Model) -> None:
    """What is asked for behind the answer, and of an infeasible model what contradicts what, and what is enough."""
    ranges = ranges_of(words, text, model, found.answer)
    if ranges:
        from .range_tables import print_ranges

        print_ranges(ranges, style_of(words))
    if words.iis or isinstance(found.answer, Infeasible) and words.show != "answer":
        from .conflicts import print_conflicts

        print_conflicts(words, text, model, found, style_of(words))


def is_as_ever(found: Answered) -> bool:
    """Whether the answer is the program's own, within 127 bits, so that who accepted it is told at the end."""
    return found.is_by_lpd and found.accepted_by == BOTH


def difference_words(found: Answered, before: Unchanged, style: Style) -> str:
    """What was changed, and what that is worth."""
    difference = before.difference(found.answer)
    changes = f"Changed: {'; '.join(before.changes)}. Without that the answer is {shown_answer(before.found.answer, style)}"
    if difference is None:
        return f"{changes}."
    return f"{changes}, so it is worth {style.word(abs(difference))} {'less' if difference < 0 else 'more'}."


def print_answer(
    words: argparse.Namespace,
    found: Answered,
    model: Model,
    point: Optional[Report],
    skipped: str,
    aim: Optional[Aim],
    before: Optional[Unchanged] = None,
) -> None:
    """The answer as people read it: first what was not read, and how the answer came where that was not lpd solve alone."""
    style = style_of(words)
    print("\n".join([*([in_lines(skipped)] if skipped else []), shown_answer(found.answer, style)]))
    lines: List[str] = [difference_words(found, before, style)] if before else []
    if aim:
        from .objectives import sentences

        lines += sentences(aim, found, style, bool(words.output))
    if found.certificate and not is_as_ever(found):
        lines.append(found.told())
    if model.offset and isinstance(found.answer, Optimal) and words.show != "answer" and not is_lp(words.model):
        lines.append(offset_words(model.offset, found.answer.value, style))
    for line in lines:
        print_prose(line)
    sys.stdout.flush()
    for note in found.notes:
        tell(f"note: {note}")
    if point:
        print_report(point, words.show, style, words.all, before.point if before else None)
    elif words.show != "answer" and not isinstance(found.answer, Infeasible):
        print_prose(words_for(found.answer, model, found.certificate, style))
