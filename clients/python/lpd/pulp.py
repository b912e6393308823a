"""lpd as a solver of PuLP (Debian's python3-pulp): problem.solve(lpd.pulp.LPD()).

PuLP's numbers are handed over by a writer of its own: a float as the decimal of 13 digits that PuLP's own writer of MPS prints, with
round=False as the decimal that Python shows for it, and with binary=True as the binary number that it is; ints, Fractions and Decimals
as they are. It sets status,
varValue, dj, pi and slack as PuLP's own solvers do, in floats, and keeps in problem.exact the fractions and the certificate.
"""
from __future__ import annotations

import argparse
import functools
import math
import numbers
from decimal import Decimal
from fractions import Fraction
from typing import Any, Dict, Iterable, List, NoReturn, Optional

import pulp  # type: ignore[import]

from .certificate import matched, read_certificate
from .commands.common import budget as budget_word
from .commands.solve import add_ways
from .dialects import PROFILE, written
from .errors import LpdError, ProgramMissing, TextFault
from .exact import OutOfTime
from .figures import READABLE
from .irreducible import Irreducible, bare, iis, renamed
from .model import LARGE_COLUMNS, LARGE_ROWS, MOST_COLUMNS, MOST_ROWS, Column, Model, Row, is_name, read_model
from .names import LONGEST, plain
from .program import the_program
from .ranging import Ranges, ranges
from .records import dataclass, field, replace
from .remedy import weights_of
from .replies import Answer, Infeasible, Optimal, Unbounded
from .report import conflict, report
from .solver_names import CHOICES
from .ways import Effort, answered

KINDS = {pulp.LpConstraintLE: "L", pulp.LpConstraintEQ: "E", pulp.LpConstraintGE: "G"}


@dataclass
class Exact:
    """What was found, in fractions, by PuLP's names. `text` is the model as lpd read it, and `certificate` the lines for it."""

    answer: Answer
    certificate: List[str]
    text: str
    values: Dict[str, Fraction] = field(default_factory=dict)
    dj: Dict[str, Fraction] = field(default_factory=dict)
    pi: Dict[str, Fraction] = field(default_factory=dict)
    slack: Dict[str, Fraction] = field(default_factory=dict)
    certified_with: Optional[str] = None  # the other solver whose basis was made exact, or none, where the program had no answer
    way: str = ""
    accepted_by: str = ""
    rows: Dict[str, str] = field(default_factory=dict)  # PuLP's names of the rows and columns of `text`
    columns: Dict[str, str] = field(default_factory=dict)

    @functools.cached_property
    def conflict(self) -> Irreducible:
        """Constraints and bounds of an infeasible problem that contradict each other, none of which can be left out, by PuLP's names,
        from a solve of their own (`lpd iis`), as `lpd.iis` has them. Of a large problem they are looked for in those of the certificate."""
        model = read_model(self.text, wide=True, large=True)
        if not model.is_large:
            return renamed(iis(self.text), self.rows, self.columns)
        try:
            part = bare(model, list(weights_of(model, self.certificate)))
            return renamed(iis(written(part, PROFILE).text), self.rows, self.columns)
        except TextFault:
            raise LpdError("the constraints that contradict each other have more than 256 rows or 512 columns: the log says what they come to") from None

    def told_conflict(self, model: Model) -> str:
        """What contradicts what, in a sentence, by PuLP's names."""
        found = conflict(model, self.certificate).scaled()
        rows = [replace(row, name=self.rows[row.name]) for row in found.rows]
        bounded = [self.columns[name] for name in found.bounded]
        return replace(found, rows=rows, column=self.columns.get(found.column or ""), bounded=bounded).told(READABLE.word)

    @functools.cached_property
    def ranges(self) -> Ranges:
        """The ranges of costs and right sides of an optimum, by PuLP's names, as `lpd.ranges` has them."""
        found = ranges(self.text)
        costs = {self.columns[name]: one for name, one in found.costs.items()}
        return Ranges(found.answer, costs, {self.rows[name]: one for name, one in found.sides.items()})


ROUNDED, SHOWN, BINARY = "rounded", "shown", "binary"  # how a float is taken


def exactly(value: Any, floats: str = ROUNDED) -> Fraction:
    """The number that PuLP holds, as a fraction."""
    if isinstance(value, (Fraction, Decimal)):
        return Fraction(value)
    if isinstance(value, numbers.Integral):
        return Fraction(int(value))
    number = float(value)
    if not math.isfinite(number):
        raise pulp.PulpSolverError(f"lpd: {value!r} is no number of a linear program")
    if floats == BINARY:
        return Fraction(number)
    return Fraction(f"{number:.12e}" if floats == ROUNDED else float.__repr__(number))


class Numbers:
    """Takes the numbers of a problem, and keeps those that are taken as others than Python shows."""

    def __init__(self, floats: str) -> None:
        self.floats = floats
        self.others: Dict[float, Fraction] = {}

    def of(self, value: Any) -> Fraction:
        found = exactly(value, self.floats)
        if self.floats == ROUNDED and isinstance(value, float) and found != Fraction(float.__repr__(value)):
            self.others[value] = found
        return found

    def bound(self, value: Any) -> Optional[Fraction]:
        return None if value is None or value in (math.inf, -math.inf) else self.of(value)

    def told(self) -> List[str]:
        """How many floats have more digits than PuLP writes, and one of them."""
        if not self.others:
            return []
        value, found = next(iter(self.others.items()))
        count = f"{len(self.others)} numbers were" if len(self.others) > 1 else "1 number was"
        return [f"{count} taken with the 13 digits that PuLP writes to MPS, as {abs(float(found))!r} for {abs(value)!r}: round=False takes them as they are"]


def text_names(names: Iterable[str]) -> List[str]:
    """For each name one of the profile, all different."""
    taken, found = set(), []
    for name in names:
        base = new = name if is_name(name, of_row=True) else plain(name)
        number = 1
        while new in taken:
            number += 1
            new = f"{base[: LONGEST - len(str(number)) - 1]}.{number}"
        taken.add(new)
        found.append(new)
    return found


def model_of(problem: Any, take: Optional[Numbers] = None) -> Model:
    """The model of a problem of PuLP, whose rows and columns are in the order of its constraints and variables."""
    take, variables = take or Numbers(ROUNDED), problem.variables()
    columns = dict(zip((id(variable) for variable in variables), text_names(variable.name for variable in variables)))
    objective, *rows = text_names(["obj", *problem.constraints])
    model = Model("", 1 if problem.sense == pulp.LpMinimize else -1, objective)
    for variable in variables:
        model.columns[columns[id(variable)]] = Column(Fraction(0), take.bound(variable.lowBound), take.bound(variable.upBound))
    if problem.objective is not None:
        model.offset = take.of(problem.objective.constant)
        for variable, value in problem.objective.items():
            model.columns[columns[id(variable)]].cost = take.of(value)
    for row, constraint in zip(rows, problem.constraints.values()):
        model.rows[row] = Row(KINDS[constraint.sense], -take.of(constraint.constant))
        for variable, value in constraint.items():
            if exact := take.of(value):
                model.columns[columns[id(variable)]].entries[row] = exact
    return model


def must_be_linear(problem: Any, relaxes: bool) -> None:
    """Refuses, by name, what is no linear program."""
    whole = [variable.name for variable in problem.variables() if variable.isInteger()]
    if whole and not relaxes:
        listed = ", ".join(whole[:6]) + (", .." if len(whole) > 6 else "")
        raise pulp.PulpSolverError(f"lpd solves linear programs, and these variables are whole numbers: {listed}. LPD(mip=False) solves the relaxation")
    sets = [*getattr(problem, "sos1", {}), *getattr(problem, "sos2", {})]
    if sets:
        raise pulp.PulpSolverError(f"lpd solves linear programs, and these are special ordered sets: {', '.join(map(str, sets[:6]))}")


def must_fit(problem: Any, is_wide: bool) -> None:
    """Refuses a problem that is too large, in its own terms. One of more than 256 x 512 goes to lpd solve --wide alone."""
    rows, columns = len(problem.constraints), len(problem.variables())
    most = (LARGE_ROWS, LARGE_COLUMNS) if is_wide else (MOST_ROWS, MOST_COLUMNS)
    if rows > most[0] or columns > most[1]:
        size = f"this problem has {rows} constraints and {columns} variables"
        without = "" if is_wide else " with wide=False"
        raise pulp.PulpSolverError(f"lpd: {size}, and lpd takes at most {most[0]} and {most[1]}{without}")


class Options(argparse.ArgumentParser):
    """The words of `options`, which are those of the command solve."""

    def __init__(self) -> None:
        super().__init__(prog="options of LPD", add_help=False)
        self.add_argument("--budget", type=budget_word)
        add_ways(self)
        self.add_argument("--binary", action="store_true")
        self.add_argument("--round", action="store_true", default=None)

    def error(self, message: str) -> NoReturn:
        raise pulp.PulpSolverError(f"lpd: {message}: {self.format_usage().strip()}")


class LPD(pulp.LpSolver):  # type: ignore[misc]
    """The solver. `budget` is the most pivots, and `timeLimit` the seconds of all ways together. Where lpd itself has no answer
    within 127 bits it goes on by the basis of the solver that `certify` names (glpsol, clp, cbc, esolver, highs, scipy, or none), or of
    the first that is there, and by lpd solve --wide, unless only_lpd=True; where a budget is set it is kept to, unless certify
    names one. With `wide=False` lpd solve --wide is not asked, and no answer is taken whose numbers pass 127 bits, by whichever
    way: what is accepted is accepted by lpd check. A float is taken with the 13 digits that PuLP writes to MPS, which the log says of those
    that have more; with `round=False` as Python shows it, and with `binary=True` as it is. `mip=False` takes whole-number variables as real ones. `options` are words as
    those of python3 -m lpd solve, as ["--budget", "500"], and the log, that msg=True shows, goes to the file `logPath` too."""

    name = "LPD"

    def __init__(
        self,
        mip: bool = True,
        msg: bool = True,
        budget: Optional[int] = None,
        binary: bool = False,
        certify: Optional[str] = None,
        timeLimit: Optional[float] = None,
        logPath: Optional[str] = None,
        options: Optional[List[str]] = None,
        only_lpd: bool = False,
        wide: bool = True,
        round: bool = True,
    ) -> None:
        super().__init__(mip=mip, msg=msg, options=options, timeLimit=timeLimit, logPath=logPath)
        if certify is not None and certify not in CHOICES:
            raise ValueError(f"certify is one of {', '.join(CHOICES)}")
        words = Options().parse_args([str(word) for word in options or []])
        self.budget = words.budget if budget is None else budget
        self.binary, self.only_lpd, self.logPath = binary or words.binary, only_lpd or words.only_lpd, logPath
        self.certify, self.wide, self.round = certify or words.solver, wide, words.round or round
        self.seconds: Optional[float] = words.seconds

    def copy(self) -> LPD:
        ways = (self.only_lpd, self.wide, self.round)
        return LPD(self.mip, self.msg, self.budget, self.binary, self.certify, self.timeLimit, self.logPath, self.options, *ways)

    def available(self) -> bool:
        try:
            return bool(the_program())
        except ProgramMissing:
            return False

    def actualSolve(self, lp: Any) -> int:
        """Solves the problem, and gives PuLP's status: Not Solved where there is no answer in the end."""
        must_be_linear(lp, relaxes=not self.mip)
        must_fit(lp, self.wide)
        take = Numbers(BINARY if self.binary else ROUNDED if self.round else SHOWN)
        text = written(model_of(lp, take), PROFILE).text
        lp.exact = None
        try:
            model = read_model(text, wide=True, large=True)
            found = answered(text, model, self.effort())
        except OutOfTime as late:
            self.log([f"lpd: {late}"])
            return put_nothing(lp)
        except LpdError as error:
            raise pulp.PulpSolverError(f"lpd: {error}") from error
        lp.exact = Exact(found.answer, found.certificate, text, certified_with=found.solver, way=found.way, accepted_by=found.accepted_by)
        lp.exact.rows = dict(zip(model.rows, lp.constraints))
        lp.exact.columns = dict(zip(model.columns, (variable.name for variable in lp.variables())))
        lines = [lp.exact.told_conflict(model)] if isinstance(found.answer, Infeasible) else []
        lines += [*take.told(), *found.notes, *([] if found.is_by_lpd else [found.told()])]
        self.log([f"lpd: {found.answer}", *(f"lpd: {line}" for line in lines)])
        put_values(lp, model, lp.exact)
        return put_status(lp, lp.exact.answer)

    def effort(self) -> Effort:
        seconds = self.seconds if self.timeLimit is None else float(self.timeLimit)
        return Effort(self.budget, self.only_lpd, self.certify, seconds, self.timeLimit, wide=self.wide)

    def log(self, lines: List[str]) -> None:
        if self.msg:
            print("\n".join(lines))
        if self.logPath:
            with open(self.logPath, "a", encoding="utf-8") as file:
                file.writelines(f"{line}\n" for line in lines)


def register() -> None:
    """Lets pulp.getSolver("LPD") and pulp.listSolvers() know the solver."""
    known = getattr(pulp.apis, "_all_solvers", None)
    if isinstance(known, list) and LPD not in known:
        known.append(LPD)


register()


def put_nothing(problem: Any) -> int:
    """Sets that there is no answer."""
    for variable in problem.variables():
        variable.varValue = variable.dj = None
    for constraint in problem.constraints.values():
        constraint.pi = constraint.slack = None
    problem.assignStatus(pulp.LpStatusNotSolved, pulp.LpSolutionNoSolutionFound)
    return int(pulp.LpStatusNotSolved)


def put_values(problem: Any, model: Model, exact: Exact) -> None:
    """Sets the point of an optimal or unbounded problem, and of an optimal one the prices; else there is none."""
    variables, constraints = problem.variables(), list(problem.constraints.items())
    for variable in variables:
        variable.varValue = variable.dj = None
    for _, constraint in constraints:
        constraint.pi = constraint.slack = None
    if isinstance(exact.answer, Optimal):
        found = report(model, exact.certificate)
        for variable, column in zip(variables, found.columns):
            exact.values[variable.name], exact.dj[variable.name] = column.value, column.reduced_cost
            variable.varValue, variable.dj = float(column.value), float(column.reduced_cost)
        for (name, constraint), row, side in zip(constraints, found.rows, model.rows.values()):
            exact.pi[name], exact.slack[name] = row.price, side.rhs - row.activity
            constraint.pi, constraint.slack = float(row.price), float(side.rhs - row.activity)
    if isinstance(exact.answer, Unbounded):
        point = matched(model, read_certificate(exact.certificate, wide=True))["x"]
        for variable, name in zip(variables, model.columns):
            exact.values[variable.name] = point.get(name, Fraction(0))
            variable.varValue = float(exact.values[variable.name])


def put_status(problem: Any, answer: Answer) -> int:
    if isinstance(answer, Optimal):
        status, solution = pulp.LpStatusOptimal, pulp.LpSolutionOptimal
    elif isinstance(answer, Infeasible):
        status, solution = pulp.LpStatusInfeasible, pulp.LpSolutionInfeasible
    elif isinstance(answer, Unbounded):
        status, solution = pulp.LpStatusUnbounded, pulp.LpSolutionUnbounded
    else:
        status, solution = pulp.LpStatusNotSolved, pulp.LpSolutionNoSolutionFound
    problem.assignStatus(status, solution)
    return int(status)
