"""An answer by whichever way there is.

The first way is `lpd solve --wide`, which mostly answers within a second, by a run in floating point whose basis it makes exact. Where
a budget is set, or the program alone is wanted, or no number past 127 bits, it is the program's own solve, or else its presolve. Where
the first way has no answer, a person still wants one. The other ways are, one after the other:

1. behind `lpd solve` or `lpd presolve` that ended past 127 bits `lpd solve --wide`;
2. if another solver is there, its basis, made exact by `lpd basis --wide` or by exact steps in Python; first where it is named;
3. `lpd presolve`, in whose smaller model numbers are often shorter;
4. a basis that rough steps in Python come to, made exact likewise.

They have some seconds together: the first may take a half, each further one half of those that are left, and the last one
all. Whatever finds an answer, its certificate is judged, and it is said who accepted it.

A large model, which has more rows or columns than `lpd solve` takes, goes to `lpd solve --wide` whatever else is asked for, and then
the basis of one solver after the other, of those that are there, to `lpd basis --wide`. It has more seconds.
"""
from __future__ import annotations

import contextlib
import threading
from typing import TYPE_CHECKING, Callable, Iterator, List, Optional, Sequence

from .certificate import check_lines
from .errors import TOO_MUCH, TOO_WIDE, CommandMissing, LpdError, ProgramEnded, TextFault
from .exact import OutOfTime, Watch
from .judging import LARGE, LPD_CHECK, LPD_CHECK_WIDE, Judged, NotCertified, judged
from .model import MOST_COLUMNS, MOST_ROWS, Model
from .program import Program
from .records import dataclass, field, replace
from .replies import Accepted, Answer, Open, Past, Spent
from .session import Session
from .solver_names import NAMES, NONE, QUICKEST_FIRST, is_there
from .wide import SOLVE_WIDE, solve_wide

if TYPE_CHECKING:
    from .certifying import Exact
    from .floating import Claim
    from .presolving import Presolved, Size

SECONDS = 60.0  # for all ways of a model together but lpd solve
LARGE_SECONDS = 600.0  # for all ways of a large model
SECONDS_WORDS = f"{SECONDS:g}, and {LARGE_SECONDS:g} for a model of more than {MOST_ROWS} rows or {MOST_COLUMNS} columns"
OUT_OF_MEMORY = 5  # the status of the program
BOTH, WIDE, ALONE = (f"{LPD_CHECK} and the checker in Python", f"{LPD_CHECK_WIDE} and the checker in Python", "the checker in Python alone")
SOLVE, PRESOLVE = "lpd solve", "lpd presolve"


class WayFailed(LpdError):
    """A way led to no answer. Its words say why, where that is to be told."""


class Unanswered(LpdError):
    """No way leads to an answer."""

    ends_with = 12


@dataclass(frozen=True)
class Effort:
    """How far it goes: at most so many pivots of the program (a number that is set is kept to, unless a solver is named),
    whether the program alone is asked, which other solver (else the first that is there, or each of them), how many seconds all ways
    but `lpd solve` have (else SECONDS, or LARGE_SECONDS), and how many that has (else as many as it takes). `wide_first` says whether `lpd solve --wide` is asked first, which is so
    where it says nothing and nothing else is asked for. With `presolve` `lpd presolve` is. Both have a budget of their own. Without
    `wide` no answer is taken whose numbers pass 127 bits."""

    budget: Optional[int] = None
    only_lpd: bool = False
    solver: Optional[str] = None
    seconds: Optional[float] = None
    solve_seconds: Optional[float] = None
    presolve: bool = False
    wide_first: Optional[bool] = None
    wide: bool = True

    def begins_wide(self, model: Model) -> bool:
        """Whether `lpd solve --wide` comes first."""
        if model.is_large and self.wide:
            return True
        if self.wide_first is not None:
            return self.wide_first
        return self.wide and not (self.only_lpd or self.presolve) and self.budget is None

    def limit(self, model: Model) -> float:
        """How many seconds all ways have together."""
        return self.seconds if self.seconds is not None else LARGE_SECONDS if model.is_large else SECONDS


@dataclass(frozen=True)
class Answered:
    """An answer, and its certificate, which Past, Spent and Open have not; by which way it came, and who accepted the certificate
    (BOTH, WIDE, or ALONE and why). The notes say what came of the ways that led to none. `reduced` is the size of the smaller model that
    `lpd presolve` solved, and `solver` whose basis was made exact, if one was: another solver's, or NONE's."""

    answer: Answer
    certificate: List[str]
    way: str
    accepted_by: str = ""
    pivots: Optional[int] = None
    notes: List[str] = field(default_factory=list)
    reduced: Optional[Size] = None
    solver: Optional[str] = None

    @property
    def is_proved(self) -> bool:
        """Whether a proved checker accepted the certificate."""
        return self.accepted_by in (BOTH, WIDE)

    @property
    def is_by_lpd(self) -> bool:
        """Whether it is the answer of the program's own solve, as narrow or as wide as its numbers are."""
        return self.way in (SOLVE, SOLVE_WIDE)

    def told(self) -> str:
        """How the answer came, in a sentence."""
        accepted = f", accepted by {self.accepted_by}" if self.accepted_by else ""
        within = ": its certificate is within 127 bits" if self.accepted_by == BOTH else ""
        return f"This answer is by {self.way}{accepted}{within}." if self.certificate else ""


# ---- what the first way mostly does without, so that it is imported where it is asked for


def presolve(text: str, seconds: Optional[float]) -> Presolved:
    from . import presolving

    return presolving.presolve(text, seconds=seconds)


def ask(solver: str, model: Model, seconds: Optional[float]) -> Claim:
    from . import floating

    return floating.ask(solver, model, seconds)


def made_exact(text: str, model: Model, claim: Claim, wide: bool, watch: Watch, solver: str) -> Exact:
    from . import certifying

    try:
        return certifying.made_exact(text, model, claim, watch=watch, wide=wide, solver=solver)
    except (certifying.NotAnswered, certifying.TooLarge) as failed:
        raise WayFailed(f"from {solver}'s basis {failed}") from None


def other_solver(named: Optional[str]) -> str:
    """The solver that is named, or else the first that is there, or none."""
    return named or (solvers_there(NAMES) or [NONE])[0]


def solvers_there(names: Sequence[str]) -> List[str]:
    return [name for name in names if is_there(name)]


def by_lpd(text: str, model: Model, budget: Optional[int] = None, seconds: Optional[float] = None) -> Answered:
    """The answer of the program's own solve, whose certificate both checkers accept. OutOfTime says that it is not done in as
    many seconds: then the program is ended."""
    with Program() as program, Session(program) as session, ended_after(program, seconds):
        session.load(text)
        if budget is not None:
            session.budget(budget)
        answer, certificate = session.solve_checked(model)
        return Answered(answer, certificate, SOLVE, BOTH if certificate else "", session.how().pivots)


def by_presolve(text: str, model: Model, seconds: Optional[float] = None) -> Answered:
    """The answer of `lpd presolve`, whose certificate both checkers accept for the model as it is given."""
    found = presolve(text, seconds)
    by = judges_of(PRESOLVE, text, model, found.answer, found.certificate)
    notes = [f"lpd presolve solved the model as it is, since the smaller one ended with {found.plain}"] if found.plain else []
    return Answered(found.answer, found.certificate, way_to(found, model), by, None, notes, found.reduced)


def by_solve_wide(text: str, model: Model, watch: Watch) -> Answered:
    """The answer of `lpd solve --wide`, whose certificate `lpd check --wide` and the checker in Python accept."""
    try:
        with watch.telling(SOLVE_WIDE):
            found = solve_wide(text, seconds=watch.left())
    except OutOfTime as late:
        raise OutOfTime(f"{late}: --seconds allows more") from None
    return Answered(found.answer, found.certificate, SOLVE_WIDE, judges_of(SOLVE_WIDE, text, model, found.answer, found.certificate))


def judges_of(command: str, text: str, model: Model, answer: Answer, certificate: List[str]) -> str:
    """Who accepts the certificate that a command wrote behind its answer, in words; nobody where it wrote none."""
    if not certificate:
        return ""
    with Watch() as watch, watch.telling("the checkers"):
        by = judged(text, certificate, model.is_large)
        known_here = known_in_python(model, certificate)
    for known in (by.known or answer, known_here):
        if known != answer:
            raise NotCertified(f"{command} answers {answer}, and a checker says {known} to its certificate")
    return accepted_by(by)


def known_in_python(model: Model, certificate: List[str]) -> Optional[Answer]:
    verdict = check_lines(model, certificate, wide=True)
    return verdict.known if isinstance(verdict, Accepted) else None


def way_to(found: Presolved, model: Model) -> str:
    if found.reduced is None:
        return PRESOLVE
    rows, columns = found.reduced
    return f"{PRESOLVE}, which left {rows} of {len(model.rows)} rows and {columns} of {len(model.columns)} columns"


@contextlib.contextmanager
def ended_after(program: Program, seconds: Optional[float]) -> Iterator[None]:
    """Ends the program where the block is not done in so many seconds."""
    is_late = threading.Event()

    def end() -> None:
        is_late.set()
        program.process.kill()

    timer = None if seconds is None else threading.Timer(seconds, end)
    try:
        if timer:
            timer.start()
        yield
    except ProgramEnded:
        if is_late.is_set():
            raise OutOfTime(f"lpd solve is not done in {seconds:g} seconds") from None
        raise
    finally:
        if timer:
            timer.cancel()


def way_of(found: Exact, solver: str) -> str:
    """What made the steps from where to the answer."""
    begin = "a basis of its own" if solver == NONE else f"{solver}'s basis"
    if found.command:
        fell, _, why = found.start.partition(" ")
        gave_up = f", which it gave up{f' ({why})' if why else ''}" if fell == "FELL" else ""
        return f"{found.command} from {begin}{gave_up}, in {found.steps} pivots"
    return f"exact steps in Python from {begin}, {found.steps} of them"


def from_basis(text: str, model: Model, solver: str, wide: bool, watch: Watch) -> Answered:
    """The answer from the basis of a solver, or from one of the package's own, with `wide` by `lpd basis --wide`. OutOfTime says that
    the seconds were not enough."""
    with watch.telling(solver):
        claim = ask(solver, model, watch.left())
    if solver != NONE and claim.basis is None and not claim.parts:
        raise WayFailed(f"{solver} gives no basis, and says: {claim.said}")
    found = made_exact(text, model, claim, wide, watch, solver)
    by = judged(text, found.certificate, model.is_large)
    if by.known not in (None, found.known):
        raise NotCertified(f"{by.judge} says {by.known}, and the checker in Python {found.known}")
    return Answered(found.known, found.certificate, way_of(found, solver), accepted_by(by), found.steps, found.notes, solver=solver)


def accepted_by(found: Judged) -> str:
    """Who accepted a certificate, in words."""
    if found.judge == LPD_CHECK:
        return BOTH
    return WIDE if found.judge == LPD_CHECK_WIDE else f"{ALONE}, since {found.why}"


def by_program(text: str, model: Model, effort: Effort) -> Answered:
    """The answer of the program's own solve, or of its wide solve or its presolve where those come first and the program has them."""
    try:
        if effort.begins_wide(model):
            with Watch(effort.limit(model)) as watch, watch_of(effort, watch) as part:
                return with_note_of_size(by_solve_wide(text, model, part), effort)
        if effort.presolve:
            return by_presolve(text, model, effort.solve_seconds)
    except CommandMissing as missing:
        found = by_lpd(text, model, effort.budget, effort.solve_seconds)
        is_told = effort.presolve or effort.wide_first
        return replace(found, notes=[*([f"{missing}, so lpd solve was asked"] if is_told else []), *found.notes])
    return by_lpd(text, model, effort.budget, effort.solve_seconds)


def with_note_of_size(found: Answered, effort: Effort) -> Answered:
    """What is not done as it was asked for, since the model is large."""
    if effort.budget is None and not effort.presolve:
        return found
    return replace(found, notes=[f"{LARGE}, so {SOLVE_WIDE} was asked", *found.notes])


def watch_of(effort: Effort, watch: Watch) -> Watch:
    """That of the first way: half of the seconds where others may follow."""
    return watch if effort.only_lpd else watch.half()


def by_lpd_first(text: str, model: Model, effort: Effort) -> "tuple[Optional[Answered], str]":
    """The answer of the program's own solve, if it has one to a text with such numbers, and why that is not the end."""
    try:
        found = by_program(text, model, effort)
    except TextFault as fault:
        if fault.fault not in (TOO_WIDE, TOO_MUCH) or effort.only_lpd or not effort.wide:
            raise
        if fault.fault == TOO_MUCH:
            return None, f"{LARGE}, which {SOLVE_WIDE} of this program does not take"
        return None, f"line {fault.line} of the model has a number past 127 bits"
    except (OutOfTime, ProgramEnded) as failed:
        if not effort.begins_wide(model) or effort.only_lpd or isinstance(failed, ProgramEnded) and failed.status != OUT_OF_MEMORY:
            raise
        return None, str(failed)
    is_meant = isinstance(found.answer, Spent) and found.way == SOLVE and effort.budget is not None and effort.solver is None
    return found, "" if found.certificate or effort.only_lpd or is_meant else ended_with(found)


def ended_with(found: Answered) -> str:
    """Why a first try has no answer."""
    way = found.way.partition(",")[0]
    if isinstance(found.answer, Past):
        return f"the first try, {way}, ran out of digits"
    if isinstance(found.answer, Spent):
        return f"the first try, {way}, was not done after {found.answer.budget} pivots"
    return f"the first try, {way}, has no answer"


# ---- the other ways: each answers, or says by WayFailed or OutOfTime that it does not

Way = Callable[[str, Model, Effort, Watch], Answered]


def by_presolve_then(text: str, model: Model, effort: Effort, watch: Watch) -> Answered:
    """The answer of `lpd presolve`, of which nothing is told where it has none."""
    try:
        found = by_presolve(text, model, watch.left())
    except (CommandMissing, OutOfTime):
        raise WayFailed from None
    if not found.certificate:
        raise WayFailed
    return found


def from_another_basis(text: str, model: Model, effort: Effort, watch: Watch) -> Answered:
    return from_basis(text, model, other_solver(effort.solver), effort.wide, watch)


def by_solve_wide_then(text: str, model: Model, effort: Effort, watch: Watch) -> Answered:
    """The answer of `lpd solve --wide`, which may run out of memory. Mostly it is there within a second."""
    try:
        with watch.half() as part:
            found = by_solve_wide(text, model, part)
    except ProgramEnded as ended:
        raise WayFailed(str(ended)) from None
    if not found.certificate:
        raise WayFailed(f"{SOLVE_WIDE} ends likewise")
    return found


def from_basis_of(solver: str) -> Way:
    def way(text: str, model: Model, effort: Effort, watch: Watch) -> Answered:
        return from_basis(text, model, solver, effort.wide, watch)

    return way


def from_own_basis(text: str, model: Model, effort: Effort, watch: Watch) -> Answered:
    return from_basis(text, model, NONE, effort.wide, watch)


def ways_after(first: Optional[Answered], model: Model, effort: Effort) -> List[Way]:
    """The ways that are left, in their order, where the program ended so, or refused a text with such numbers."""
    if model.is_large:
        names = [effort.solver] if effort.solver else solvers_there(QUICKEST_FIRST)
        return [from_basis_of(name) for name in names if name != NONE]
    past = first.way.partition(",")[0] if first is not None and isinstance(first.answer, (Past, Open)) else None
    wide: List[Way] = [by_solve_wide_then] if past in (SOLVE, PRESOLVE) and effort.wide and effort.wide_first is None else []
    basis: List[Way] = [from_another_basis] if other_solver(effort.solver) != NONE else []
    smaller: List[Way] = [by_presolve_then] if past in (SOLVE, SOLVE_WIDE) else []
    return [*(wide + basis if effort.solver is None else basis + wide), *smaller, from_own_basis]


def answered(text: str, model: Model, effort: Effort = Effort()) -> Answered:
    """The answer to the model of a text of the profile in free form, whose numbers may have any width, and which may be large."""
    first, ended = by_lpd_first(text, model, effort)
    if first is not None and not ended:
        return first
    notes = [*(first.notes if first else []), ended]
    seconds = effort.limit(model) / (1 if first is not None or not effort.begins_wide(model) else 2)
    with Watch(seconds) as watch:
        found = by_ways(ways_after(first, model, effort), text, model, effort, watch, notes)
        is_late = watch.left() == Watch.LEAST
    if found is not None:
        return replace(found, notes=[*notes, *found.notes])
    if first is None:
        raise (OutOfTime if is_late or not model.is_large else Unanswered)(", and ".join(notes))
    return replace(first, notes=notes)


def by_ways(ways: List[Way], text: str, model: Model, effort: Effort, watch: Watch, notes: List[str]) -> Optional[Answered]:
    """The answer of the first way that has one. Why those before have none is put to the notes."""
    for way in ways:
        try:
            if way is ways[-1]:
                found = way(text, model, effort, watch)
            else:
                with watch.half() as part:
                    found = way(text, model, effort, part)
            if effort.wide or found.accepted_by == BOTH:
                return found
            notes.append(f"{found.way} has an answer whose numbers pass 127 bits, which is not wanted")
        except (WayFailed, OutOfTime) as failed:
            notes += [str(failed)] if str(failed) else []
    return None
