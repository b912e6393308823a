"""python3 -m lpd plot MODEL: the plane of a model of two columns, the optimum over one of a model's numbers, how long the numbers of a
certificate are, or where a basis has numbers; python3 -m lpd plot TABLE.csv: how long the models of a batch took. All as SVG."""
from __future__ import annotations

import argparse
from fractions import Fraction
from pathlib import Path
from typing import List, Optional, Tuple

from ..basis_file import read_bas
from ..errors import CommandMissing, Refused
from ..exact import Basis
from ..model import Model
from ..number_text import number
from ..plotting import NoOptimum, NoPicture, Turn, curve, plane, turns_of
from ..ranging import COST, RHS
from ..reading import name_of
from ..solver_names import NONE
from ..ways import ask, answered, other_solver
from .check import parted, without_comments
from .common import add_options, add_style, as_text, put, read, style_of, tell
from .solve import Loaded, add_ways, effort_of, loaded

TABLE = ".csv"


def number_word(word: str) -> Fraction:
    try:
        return number(word, wide=True)
    except ValueError:
        raise argparse.ArgumentTypeError(f"{word} is no number") from None


def add(commands: "argparse._SubParsersAction[argparse.ArgumentParser]") -> None:
    plot = commands.add_parser("plot", help="draws a model of two columns, the optimum over one number, a certificate, a basis or a batch, as SVG")
    plot.set_defaults(run=run, changes=[], round=False, max=False, min=False, objective=None, budget=None, presolve=False, wide=False)
    plot.add_argument("model", help="a file of a model, as for solve, or TABLE.csv, which batch wrote")
    plot.add_argument("--form", choices=["free", "fixed"], help="the form of the text (free; with --convert or --relax the one that fits)")
    plot.add_argument("--convert", action="store_true", help="converts the text from other dialects first, as the command convert does")
    add_options(plot)
    add_ways(plot)
    over = plot.add_mutually_exclusive_group()
    over.add_argument("--rhs", metavar="ROW", help="the optimum over the right side of this row")
    over.add_argument("--cost", metavar="COLUMN", help="the optimum over the cost of this column")
    add_large(over, plot)
    plot.add_argument("--from", dest="low", type=number_word, metavar="A", help="where the number begins (half of what it is, or where there is an optimum)")
    plot.add_argument("--to", dest="high", type=number_word, metavar="B", help="where the number ends (one and a half times what it is, or where there is one)")
    add_style(plot)
    plot.add_argument("-o", "--output", metavar="FILE", help="where the picture goes, as SVG, or - for standard output (MODEL.svg, or NAME.svg of a number)")


def add_large(over: "argparse._MutuallyExclusiveGroup", plot: argparse.ArgumentParser) -> None:
    """Pictures of what is large."""
    over.add_argument("--bits", action="store_true", help="how many bits each number of the answer's certificate has")
    plot.add_argument("--certificate", metavar="FILE", help="with --bits: that of this file, which is not checked")
    over.add_argument("--sparsity", action="store_true", help="where the matrix of a basis has numbers, and what of it is not triangular")
    basis = "with --sparsity: the basis of this file (that with which the solver of --with, or the first that is there, ends)"
    plot.add_argument("--basis", metavar="FILE", help=basis)
    beside = "of TABLE.csv: the seconds of this table too, whose heads are model and seconds; as often as wanted"
    plot.add_argument("--beside", metavar="TABLE", type=Path, action="append", default=[], help=beside)


def bits_of(given: Loaded, words: argparse.Namespace) -> str:
    from ..charts import bits_picture

    if words.certificate is None:
        found = answered(given.text, given.model, effort_of(words))
        if not found.certificate:
            raise NoPicture(f"the answer is {found.answer}, which has no certificate")
        return bits_picture(given.model, found.certificate)
    _, lines = parted(without_comments(as_text(read(words.certificate))))
    return bits_picture(given.model, lines)


def basis_of(model: Model, words: argparse.Namespace) -> Basis:
    """The basis of a file, or that with which a solver ends."""
    if words.basis is not None:
        found = read_bas(as_text(read(words.basis)))
        if found is None:
            raise NoPicture(f"{words.basis} has no basis in it")
        return found
    solver = other_solver(words.solver)
    if solver == NONE and model.is_large:
        raise NoPicture("there is no solver that ends with a basis: name a file by --basis FILE")
    claim = ask(solver, model, effort_of(words).limit(model))
    if claim.basis is None:
        raise NoPicture(f"{solver} gives no basis, and says: {claim.said}")
    return claim.basis


def sparsity_of(model: Model, words: argparse.Namespace) -> str:
    from ..charts import sparsity_picture

    return sparsity_picture(model, basis_of(model, words))


def table_picture(words: argparse.Namespace) -> str:
    from ..charts import bars_picture, series_of

    text = Path(words.model).read_text(encoding="utf-8")
    return bars_picture(f"{Path(words.model).stem}: seconds of each model", series_of(text, words.beside))


def around(model: Model, words: argparse.Namespace) -> "tuple[Fraction, Fraction]":
    """The ends that are asked for, or else some around what the number is."""
    row, column = model.rows.get(words.rhs), model.columns.get(words.cost)
    now = row.rhs if row else column.cost if column else Fraction(0)
    gap = abs(now) / 2 or Fraction(1)
    return (now - gap if words.low is None else words.low), (now + gap if words.high is None else words.high)


def shown_turns(model: Model, words: argparse.Namespace) -> List[Turn]:
    """The optimum between the ends. Where there is none at an end that nobody asked for, it begins, or ends, where there is one."""
    low, high = around(model, words)
    effort = effort_of(words)
    try:
        return turns_of(model, words.rhs, words.cost, low, high, effort)
    except NoOptimum:
        if words.low is not None and words.high is not None:
            raise
        ends = ends_of_optimum(model, words)
        if ends is None:
            raise
    (least, below), (most, above) = ends
    if words.low is None and least is not None and least > low:
        low = least
        tell(f"below {style_of(words).word(low)}: {below}")
    if words.high is None and most is not None and most < high:
        high = most
        tell(f"above {style_of(words).word(high)}: {above}")
    return turns_of(model, words.rhs, words.cost, low, high, effort)


End = Tuple[Optional[Fraction], str]


def ends_of_optimum(model: Model, words: argparse.Namespace) -> "Optional[Tuple[End, End]]":
    """Up to where there is an optimum on each side, and what there is beyond; or nothing, where that is not known."""
    from ..pieces import DOWN, UP, Curve, curve_of

    what, name = (RHS, words.rhs) if words.rhs is not None else (COST, words.cost)
    try:
        _, found = curve_of(model, what, name)
    except (CommandMissing, Refused):
        return None
    if not isinstance(found, Curve):
        return None
    return (found.pieces[0].low, found.beyond.get(DOWN, "")), (found.pieces[-1].high, found.beyond.get(UP, ""))


def put_picture(picture: str, path: Optional[str], name: str) -> None:
    """Writes a picture, to a file of this name where no other is named, and tells which."""
    file = path or f"{Path(name.replace('/', '_')).name}.svg"
    put(picture, None if file == "-" else file)
    if file != "-":
        tell(f"{file} has the picture")


def must_be_svg(path: Optional[str]) -> None:
    """Refuses a file whose name says that it is of another kind."""
    end = Path(path or "").suffix.lower()
    if end not in ("", ".svg"):
        raise NoPicture(f"pictures are SVG, and {path} ends with {end}: name a file .svg, which browsers show, and rsvg-convert or inkscape turn into others")


def name_of_model(path: str) -> str:
    return "model" if path == "-" else name_of(Path(path))


def run(words: argparse.Namespace) -> int:
    must_be_svg(words.output)
    if words.model.endswith(TABLE):
        put_picture(table_picture(words), words.output, Path(words.model).stem)
        return 0
    given = loaded(words)
    model = given.model
    if words.bits or words.sparsity:
        put_picture(bits_of(given, words) if words.bits else sparsity_of(model, words), words.output, name_of_model(words.model))
        return 0
    if words.rhs is None and words.cost is None:
        if words.low is not None or words.high is not None:
            raise NoPicture("--from and --to are of a number: name it by --rhs ROW or --cost COLUMN")
        put_picture(plane(model, effort_of(words)), words.output, name_of_model(words.model))
        return 0
    turns = shown_turns(model, words)
    name, what = (words.rhs, "right side of") if words.rhs is not None else (words.cost, "cost of")
    word = style_of(words).word
    for turn, after in zip(turns, turns[1:]):
        slope = (after.value - turn.value) / (after.number - turn.number)
        numbers = f"from {word(turn.number)} to {word(after.number)}: {word(turn.value)} to {word(after.value)}"
        tell(f"{numbers}, {word(slope)} for each unit")
    put_picture(curve(turns, name, what), words.output, name)
    return 0
