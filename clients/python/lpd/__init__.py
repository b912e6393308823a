"""lpd in Python: sessions over the program, its replies as values, and a checker of certificates of its own.

    import lpd

    with lpd.Session() as session:
        session.load(open("diet.mps").read())
        print(session.solve())
        print(session.certificate())

The program decides: this package talks to it, and says in words what it refuses. Numbers are exact, as
fractions.Fraction. It needs nothing but Python's standard library.
"""
from __future__ import annotations

from . import interrupts  # before all that takes its time

from importlib import import_module
from typing import TYPE_CHECKING, List

from .report import ColumnReport, Conflict, ConflictRow, Report, RowReport, conflict, report

if TYPE_CHECKING:
    from .certificate import check
    from .certifying import Certified, certify
    from .conversion import Converted, Options, Question, Unconvertible, convert
    from .errors import (
        BadCommand,
        BadName,
        BadNumber,
        BasisFault,
        CertificateFault,
        CommandMissing,
        ConnectFailed,
        FreeRow,
        LimitReached,
        LineTooLong,
        LinkClosed,
        LinkFailed,
        LinkTimeout,
        LpdError,
        NameRepeated,
        NameTaken,
        NoAnswer,
        NoModel,
        NumberTooWide,
        OutOfMemory,
        ProgramEnded,
        ProgramMissing,
        Refused,
        TextFault,
        TooWideForFixed,
        Unexpected,
        UnknownName,
    )
    from .exact import OutOfTime
    from .from_basis import FromBasis, solve_from
    from .irreducible import Irreducible, Member, iis
    from .judging import check_wide
    from .link import Link
    from .model import Model, read_model
    from .pieces import Curve, Piece, curve_of
    from .plotting import Turn, curve, plane, turns_of
    from .presolving import Presolved, presolve
    from .program import Program, run
    from .ranging import Range, Ranges, ranges
    from .remedy import Advice, Change, Remedy, advise
    from .replies import Accepted, Answer, Infeasible, Loaded, Open, Optimal, Past, Rejected, Spent, Unbounded, Verdict
    from .replies import Basis, Cold, Fell, Found, Full, Published, Raced, Same, Unpublished
    from .rounding import Rounded, rounded
    from .session import Session, connect
    from .ways import Answered, Effort, answered
    from .wide import WideSolved, solve_wide

# What each module has that is the package's too. A module is imported where one of its names is asked for, so that a command waits for
# nothing that it does not use. `report` is a module and a function of the package, so it is imported before.
HOMES = {
    "certificate": "check",
    "certifying": "Certified certify",
    "conversion": "Converted Options Question Unconvertible convert",
    "errors": (
        "BadCommand BadName BadNumber BasisFault CertificateFault CommandMissing ConnectFailed FreeRow LimitReached "
        "LineTooLong LinkClosed LinkFailed LinkTimeout LpdError NameRepeated NameTaken NoAnswer NoModel NumberTooWide "
        "OutOfMemory ProgramEnded ProgramMissing Refused TextFault TooWideForFixed Unexpected UnknownName"
    ),
    "exact": "OutOfTime",
    "from_basis": "FromBasis solve_from",
    "irreducible": "Irreducible Member iis",
    "judging": "check_wide",
    "link": "Link",
    "model": "Model read_model",
    "pieces": "Curve Piece curve_of",
    "plotting": "Turn curve plane turns_of",
    "presolving": "Presolved presolve",
    "program": "Program run",
    "ranging": "Range Ranges ranges",
    "remedy": "Advice Change Remedy advise",
    "replies": (
        "Accepted Answer Infeasible Loaded Open Optimal Past Rejected Spent Unbounded Verdict Basis Cold Fell Found Full "
        "Published Raced Same Unpublished"
    ),
    "rounding": "Rounded rounded",
    "session": "Session connect",
    "ways": "Answered Effort answered",
    "wide": "WideSolved solve_wide",
}


def __getattr__(name: str) -> object:
    for module, names in HOMES.items():
        if name in names.split():
            found: object = getattr(import_module(f"{__name__}.{module}"), name)
            globals()[name] = found
            return found
    raise AttributeError(f"module {__name__!r} has no attribute {name!r}")


def __dir__() -> List[str]:
    return sorted({*globals(), *__all__})


__all__ = [
    "Accepted",
    "Advice",
    "Answer",
    "Answered",
    "BadCommand",
    "BadName",
    "BadNumber",
    "Basis",
    "BasisFault",
    "CertificateFault",
    "Certified",
    "Change",
    "Cold",
    "ColumnReport",
    "CommandMissing",
    "Conflict",
    "ConflictRow",
    "ConnectFailed",
    "Converted",
    "Curve",
    "Effort",
    "Fell",
    "Found",
    "FreeRow",
    "FromBasis",
    "Full",
    "Infeasible",
    "Irreducible",
    "LimitReached",
    "LineTooLong",
    "Link",
    "LinkClosed",
    "LinkFailed",
    "LinkTimeout",
    "Loaded",
    "LpdError",
    "Member",
    "Model",
    "NameRepeated",
    "NameTaken",
    "NoAnswer",
    "NoModel",
    "NumberTooWide",
    "Open",
    "Optimal",
    "Options",
    "OutOfMemory",
    "OutOfTime",
    "Past",
    "Piece",
    "Presolved",
    "Program",
    "ProgramEnded",
    "ProgramMissing",
    "Published",
    "Question",
    "Raced",
    "Range",
    "Ranges",
    "Refused",
    "Rejected",
    "Remedy",
    "Report",
    "Rounded",
    "RowReport",
    "Same",
    "Session",
    "Spent",
    "TextFault",
    "TooWideForFixed",
    "Turn",
    "Unbounded",
    "Unconvertible",
    "Unexpected",
    "UnknownName",
    "Unpublished",
    "Verdict",
    "WideSolved",
    "advise",
    "answered",
    "certify",
    "check",
    "check_wide",
    "conflict",
    "connect",
    "convert",
    "curve",
    "curve_of",
    "iis",
    "plane",
    "presolve",
    "ranges",
    "read_model",
    "report",
    "rounded",
    "run",
    "solve_from",
    "solve_wide",
    "turns_of",
]
