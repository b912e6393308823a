"""A floating point solver's answer, made exact: by `lpd basis --wide` from its basis, where that has no answer from the basis that the
solver ends with when it refines that one, and else, of a model that is not large, by exact steps in Python. Without a
solver `lpd solve --wide` is asked first. The certificate is judged by the checkers.

`lpd basis --wide` goes on where the start from a basis meets a number past 127 bits: so it alone is asked. A program without it
is asked for `lpd basis`, and once more with rows and columns in another order."""
from __future__ import annotations

import time
from fractions import Fraction
from typing import List, Optional, Sequence, Tuple

from .basis_file import basis_lines, reordered
from .certificate import check_lines
from .dialects import PROFILE, written
from .errors import TOO_MUCH, TOO_WIDE, CommandMissing, LpdError, ProgramEnded, TextFault
from .exact import Basis, OutOfTime, Simplex, Watch, certificate_lines
from .floating import Claim, ask
from .from_basis import FromBasis, solve_from
from .judging import LARGE, LPD_CHECK, PYTHON_ALONE, NotCertified, judged
from .model import Model, read_model
from .records import dataclass, field, replace
from .refining import ROUNDS, NotRefined, refined
from .replies import Accepted, Answer, Known, Open, Optimal, Past, Spent
from .solver_names import NONE
from .wide import SOLVE_WIDE, solve_wide

PROGRAM, PYTHON = "lpd", "python"
WAYS = (PROGRAM, PYTHON)
BASIS, BASIS_WIDE = "lpd basis", "lpd basis --wide"
NO_BASIS = "it gives no basis, so the steps begin where the sums of all rows are basic"


class NotAnswered(LpdError):
    """`lpd basis`, or `lpd basis --wide`, has no answer: why, and, where it ended past its numbers or its budget, that."""

    def __init__(self, why: str, answer: Optional[Answer] = None, command: str = BASIS) -> None:
        self.why, self.answer, self.command = why, answer, command
        super().__init__(f"{command} has no answer: {why}")


class TooLarge(LpdError):
    """A way that is for small models alone."""

    ends_with = 12


@dataclass(frozen=True)
class Exact:
    """What is exactly true, its certificate, and the steps to it from the solver's basis. `way` is what took them:
    PROGRAM, by which `command` (BASIS_WIDE or BASIS), whose `start` says whether it began there (WARM, FELL and why, or
    COLD), or PYTHON. The notes say what of the basis was not handed on, why the program has no answer, and how often the basis
    was refined before it had one."""

    known: Known
    certificate: List[str]
    steps: int
    way: str
    start: str = ""
    notes: List[str] = field(default_factory=list)
    command: str = ""


@dataclass(frozen=True)
class Certified:
    """What is exactly true, by a certificate; what the solver said; the steps from its basis, and what took them (see
    `Exact`), and how long the solver took. `judge` is by whom the certificate is accepted beside the checker in Python (see `Judged`), and `why` says
    which number does not fit `lpd check`, where that does not judge it."""

    known: Known
    certificate: List[str]
    claim: Claim
    steps: int
    judge: str
    why: str = ""
    way: str = PYTHON
    start: str = ""
    notes: List[str] = field(default_factory=list)
    command: str = ""
    solver_seconds: float = 0.0

    @property
    def narrow(self) -> bool:
        """Whether all numbers fit `lpd check`, which accepted the certificate."""
        return self.judge == LPD_CHECK

    @property
    def is_proved(self) -> bool:
        """Whether a proved checker accepted the certificate."""
        return self.judge != PYTHON_ALONE

    def off(self) -> Optional[Fraction]:
        """How much more the solver's value is than the exact one."""
        if isinstance(self.known, Optimal) and self.claim.value is not None:
            return self.claim.value - self.known.value
        return None


def by_parts(model: Model, claim: Claim) -> Optional[Exact]:
    """What an exact solver's own certificate shows, if it has one that is accepted."""
    if not claim.parts:
        return None
    lines = certificate_lines("OPTIMAL", claim.parts)
    verdict = check_lines(model, lines, wide=True)
    return Exact(verdict.known, lines, 0, PYTHON) if isinstance(verdict, Accepted) else None


def certified(model: Model, claim: Claim, watch: Optional[Watch] = None) -> Tuple[Known, List[str], int]:
    """What an accepted certificate shows, its lines, and the exact steps to it in Python. An exact solver's own
    certificate is tried first."""
    own = by_parts(model, claim)
    if own is not None:
        return own.known, own.certificate, 0
    simplex = Simplex(model, claim.basis or Basis(), watch)
    lines = simplex.run()
    verdict = check_lines(model, lines, wide=True)
    if not isinstance(verdict, Accepted):
        raise NotCertified(f"the checker in Python says {verdict} to the certificate: {verdict.why}")
    return verdict.known, lines, simplex.steps


def must_be_small(model: Model, what: str) -> None:
    """Refuses what costs rows times columns."""
    if model.is_large:
        raise TooLarge(f"{LARGE}, and {what} for no model as large")


def answered(text: str, basis: Sequence[str], command: str = BASIS, seconds: Optional[float] = None) -> FromBasis:
    """What the command answers from a basis file. Where it has no answer NotAnswered says why, and CommandMissing that the program
    has no such command."""
    try:
        found = solve_from(text, basis, wide=command == BASIS_WIDE, seconds=seconds)
    except TextFault as fault:
        raise refusal_of(fault, command) from None
    except CommandMissing:
        raise
    except (OutOfTime, ProgramEnded) as ended:
        raise NotAnswered(str(ended), command=command) from None
    if isinstance(found.answer, (Past, Spent, Open)):
        began = f" ({found.start})" if found.start.startswith("FELL") else ""
        raise NotAnswered(f"it ends with {found.answer}{began}", found.answer, command)
    return found


def exact_of(model: Model, found: FromBasis, command: str, notes: Sequence[str]) -> Exact:
    """What the command answers, with a certificate that the checker in Python accepts."""
    verdict = check_lines(model, found.certificate, wide=command != BASIS)
    if not isinstance(verdict, Accepted) or verdict.known != found.answer:
        raise NotCertified(f"{command} answers {found.answer}, and the checker in Python says {verdict} to its certificate")
    return Exact(verdict.known, found.certificate, found.pivots or 0, PROGRAM, found.start, list(notes), command)


def by_narrow(text: str, model: Model, basis: Basis, lines: Sequence[str], seconds: Optional[float]) -> Exact:
    """The answer of `lpd basis`. Where numbers pass 127 bits on the way to the basis, it is asked once more with rows and
    columns in another order."""
    try:
        return exact_of(model, answered(text, lines, BASIS, seconds), BASIS, [])
    except NotAnswered as failed:
        if not isinstance(failed.answer, Past):
            raise
        found = answered(written(reordered(model, basis), PROFILE).text, lines, BASIS, seconds)
        return exact_of(model, found, BASIS, [f"{failed}, and answers with the rows and columns in another order"])


def by_program(text: str, model: Model, basis: Basis, wide: bool, watch: Watch) -> Exact:
    """The answer of `lpd basis --wide`; that of `lpd basis` where the program has no such switch, or without `wide`."""
    lines, notes = basis_lines(model, basis)
    with watch.telling(BASIS_WIDE if wide else BASIS):
        found = by_lines(text, model, basis, lines, wide, watch.left())
    return replace(found, notes=[*notes, *found.notes])


def by_lines(text: str, model: Model, basis: Basis, lines: Sequence[str], wide: bool, seconds: Optional[float]) -> Exact:
    missing = ""
    if wide:
        try:
            return exact_of(model, answered(text, lines, BASIS_WIDE, seconds), BASIS_WIDE, [])
        except CommandMissing as switch:
            if model.is_large:
                raise NotAnswered(str(switch), command=BASIS_WIDE) from None
            missing = f", and {switch}"
    try:
        return by_narrow(text, model, basis, lines, seconds)
    except CommandMissing as command:
        raise NotAnswered(str(command)) from None
    except NotAnswered as failed:
        raise NotAnswered(f"{failed.why}{missing if isinstance(failed.answer, Past) else ''}", failed.answer) from None


def by_refining(text: str, model: Model, basis: Basis, solver: str, watch: Watch) -> Exact:
    """The answer of `lpd basis --wide` from a basis that the solver refined, once or some times."""
    for count in range(1, ROUNDS + 1):
        with watch.telling(f"{solver} refines its basis, round {count} of at most {ROUNDS}"):
            basis = refined(model, basis, solver, watch.left())
        try:
            found = by_program(text, model, basis, True, watch)
        except NotAnswered as failed:
            if count == ROUNDS or not isinstance(failed.answer, Open):
                raise
            continue
        return replace(found, notes=[*found.notes, f"{solver} refined its basis {'once' if count == 1 else f'{count} times'}"])
    raise NotAnswered("no round of refinement is left", Open(), BASIS_WIDE)


def with_refinement(text: str, model: Model, basis: Basis, solver: str, wide: bool, watch: Watch) -> Exact:
    """The answer of the program from a basis, or where it has none from one that its solver refined."""
    try:
        return by_program(text, model, basis, wide, watch)
    except NotAnswered as failed:
        if not (isinstance(failed.answer, Open) and wide) or solver == NONE:
            raise
        try:
            return by_refining(text, model, basis, solver, watch)
        except (NotRefined, OutOfTime, ProgramEnded) as why:
            raise NotAnswered(f"{failed.why}, and {why}", failed.answer, BASIS_WIDE) from None


def made_exact(
    text: str,
    model: Model,
    claim: Claim,
    way: Optional[str] = None,
    watch: Optional[Watch] = None,
    wide: bool = True,
    solver: str = NONE,
) -> Exact:
    """What is exactly true of the model of a text, from the basis of a solver: by the program, with `wide` in numbers of any width, and
    where that has no answer by exact steps in Python; or only one of the two ways. The program has half of the watch's seconds
    where steps may follow, which the watch may end. Of a large model there are no steps in Python."""
    notes: List[str] = []
    watch, basis = watch or Watch(), claim.basis or Basis()
    if way == PYTHON:
        must_be_small(model, "exact steps in Python are")
    else:
        is_last = way == PROGRAM or model.is_large
        try:
            return with_refinement(text, model, basis, solver, wide, watch if is_last else watch.half())
        except NotAnswered as failed:
            own = by_parts(model, claim) if model.is_large and way is None else None
            if own is not None:
                return own
            if is_last:
                raise
            notes = [*basis_lines(model, basis)[1], str(failed)]
    known, certificate, steps = certified(model, claim, watch)
    return Exact(known, certificate, steps, PYTHON, notes=notes)


def refusal_of(fault: TextFault, command: str) -> NotAnswered:
    """Why a command has no answer which refuses a text for its numbers or its size. Another fault is raised."""
    if fault.fault not in (TOO_WIDE, TOO_MUCH):
        raise fault
    has = "has a number past 127 bits" if fault.fault == TOO_WIDE else "is past what it takes"
    return NotAnswered(f"line {fault.line} of the model {has}", command=command)


def by_own_solve(text: str, model: Model, seconds: Optional[float]) -> Exact:
    """The answer of `lpd solve --wide`, without a solver to begin with."""
    try:
        with Watch(seconds) as watch, watch.telling(SOLVE_WIDE):
            found = solve_wide(text, seconds=seconds)
    except TextFault as fault:
        raise refusal_of(fault, SOLVE_WIDE) from None
    except (CommandMissing, OutOfTime, ProgramEnded) as failed:
        raise NotAnswered(str(failed), command=SOLVE_WIDE) from None
    if not found.certificate:
        raise NotAnswered(f"it ends with {found.answer}", found.answer, SOLVE_WIDE)
    return exact_of(model, FromBasis(found.answer, "COLD", None, found.certificate, []), SOLVE_WIDE, [])


def made_exact_alone(text: str, model: Model, way: Optional[str], watch: Watch) -> Exact:
    """What is exactly true, without a solver: by `lpd solve --wide`, and where that has no answer, of a model that is not large, from
    a basis of the package's own; or, as `way` may say, only by exact steps in Python."""
    notes: List[str] = []
    if way == PYTHON:
        must_be_small(model, "exact steps in Python are")
    else:
        try:
            return by_own_solve(text, model, (watch if model.is_large else watch.half()).left())
        except NotAnswered as failed:
            if model.is_large:
                raise
            notes = [str(failed)]
    claim = ask(NONE, model, watch.half().left())
    found = made_exact(text, model, claim, way, watch)
    return replace(found, notes=[*notes, *found.notes])


def certify(
    text: str,
    solver: str = "glpsol",
    seconds: Optional[float] = None,
    way: Optional[str] = None,
    model: Optional[Model] = None,
) -> Certified:
    """What is exactly true of the model that a text of the profile spells, whose numbers may have any width, and which may be large: by
    `lpd basis --wide` from the solver's basis, or else by exact steps in Python; `way` names the one that alone is taken. The solver
    may take so many seconds, and what comes behind it as many: then it ends with OutOfTime. Who has read the model may give it."""
    model = read_model(text, wide=True, large=True) if model is None else model
    started = time.monotonic()
    if solver == NONE:
        claim, asked = Claim("nothing"), started
        with Watch(seconds) as watch:
            found = made_exact_alone(text, model, way, watch)
    else:
        with Watch(seconds) as watch, watch.telling(solver):
            claim = ask(solver, model, seconds)
        asked = time.monotonic()
        with Watch(seconds) as watch:
            found = made_exact(text, model, claim, way, watch, solver=solver)
    with Watch() as watch, watch.telling("the proved checker"):
        by = judged(text, found.certificate, model.is_large)
    if by.known not in (None, found.known):
        raise NotCertified(f"{by.judge} says {by.known}, and the checker in Python {found.known}")
    notes = ([] if claim.basis or solver == NONE else [NO_BASIS]) + found.notes
    more = (by.judge, by.why, found.way, found.start, notes, found.command, asked - started)
    return Certified(found.known, found.certificate, claim, found.steps, *more)
