"""Who accepts a certificate: `lpd check`, whose numbers have 127 bits; where these do not do `lpd check --wide`, whose numbers have
any width, if the program has it; or the checker in Python alone."""
from __future__ import annotations

from typing import List, Optional, Sequence

from .errors import TOO_MUCH, TOO_WIDE, CertificateFault, CommandMissing, LpdError, TextFault, number_in
from .model import MOST_COLUMNS, MOST_ROWS, words_of
from .once import output_of, unexpected_of
from .records import dataclass, replace
from .replies import Accepted, Known, Past, Verdict
from .session import Session, body_of, verdict_of

SHORTEST = 38  # characters of a number past 127 bits, if it is no decimal with an exponent, which no certificate of the program has
LPD_CHECK, LPD_CHECK_WIDE, PYTHON_ALONE = "lpd check", "lpd check --wide", "python alone"
LARGE = f"the model has more than {MOST_ROWS} rows or {MOST_COLUMNS} columns"


class NotCertified(LpdError):
    """A checker does not accept the certificate that was found."""


class TooLong(LpdError):
    """A number of a certificate, or of its check, that does not fit 127 bits."""


@dataclass(frozen=True)
class Judged:
    """By whom a certificate is accepted beside the checker in Python (LPD_CHECK, LPD_CHECK_WIDE, or nobody: PYTHON_ALONE), what it
    shows them, and why those before cannot judge it: whether that is for the model."""

    judge: str
    known: Optional[Known] = None
    why: str = ""
    is_for_model: bool = False


def check_wide(text: str, certificate: Sequence[str], fixed: bool = False, path: Optional[str] = None) -> Verdict:
    """The verdict of `lpd check --wide` on a certificate, whose numbers may have any width, for the model of a text, whose
    numbers have 127 bits. A program without it raises CommandMissing."""
    form = ["--form", "fixed"] if fixed else []
    end = next((n for n, line in enumerate(certificate, 1) if words_of(line) == ["END"]), len(certificate))
    lines = output_of(["check", "--wide", *form], body_of(text, fixed), certificate[:end], path)
    words = words_of(lines[0]) if lines else []
    verdict = verdict_of(words)
    if verdict is None:
        raise unexpected_of("check", words, "a verdict stands")
    return verdict


def judged(text: str, certificate: List[str], is_large: bool = False) -> Judged:
    """By whom a certificate is accepted that the checker in Python accepts. That of a large model is one for `lpd check --wide`."""
    if is_large:
        found = judged_wide(text, certificate)
        return replace(found, why=f"{LARGE}, and {found.why}" if found.why else LARGE)
    try:
        must_be_narrow(certificate)
        return Judged(LPD_CHECK, by_check(text, certificate))
    except TextFault as fault:
        return judged_wide(text, certificate) if fault.fault == TOO_MUCH else too_wide(fault)
    except TooLong as long:
        found = judged_wide(text, certificate)
        return found if found.is_for_model else replace(found, why=f"{long}, and {found.why}" if found.why else str(long))


def must_be_narrow(certificate: Sequence[str]) -> None:
    """That no number of a certificate passes 127 bits, without asking the program."""
    for n, line in enumerate(certificate, 1):
        word = line.rpartition(" ")[2]
        if len(word) >= SHORTEST and not number_in(word).is_narrow:
            raise TooLong(f"line {n} of the certificate has a number past 127 bits")


def judged_wide(text: str, certificate: Sequence[str], fixed: bool = False) -> Judged:
    """By whom a certificate is accepted whose numbers may have any width: by LPD_CHECK_WIDE, or PYTHON_ALONE, and why."""
    try:
        return Judged(LPD_CHECK_WIDE, shown_by(check_wide(text, certificate, fixed), LPD_CHECK_WIDE))
    except CommandMissing as missing:
        return Judged(PYTHON_ALONE, why=str(missing))
    except CertificateFault as unfit:
        return Judged(PYTHON_ALONE, why=f"{LPD_CHECK_WIDE} does not take line {unfit.line} of the certificate")
    except TextFault as fault:
        return too_wide(fault)


def too_wide(fault: TextFault) -> Judged:
    """Nobody but the checker in Python takes the model, since it has such a number, or is larger than this program takes."""
    if fault.fault == TOO_MUCH:
        return Judged(PYTHON_ALONE, why=f"{LPD_CHECK_WIDE} of this program takes no model as large", is_for_model=True)
    if fault.fault != TOO_WIDE:
        raise fault
    return Judged(PYTHON_ALONE, why=f"line {fault.line} of the model has a number past 127 bits", is_for_model=True)


def by_check(text: str, certificate: List[str]) -> Known:
    """What `lpd check` accepts."""
    with Session() as session:
        session.load(text)
        try:
            verdict = session.check(certificate)
        except CertificateFault as unfit:
            raise TooLong(f"line {unfit.line} of the certificate has a number past 127 bits") from None
    if isinstance(verdict, Past):
        raise TooLong(f"the check comes to {str(verdict)[:80]}")
    return shown_by(verdict, LPD_CHECK)


def shown_by(verdict: Verdict, judge: str) -> Known:
    if not isinstance(verdict, Accepted):
        raise NotCertified(f"{judge} says {verdict} to the certificate")
    return verdict.known
