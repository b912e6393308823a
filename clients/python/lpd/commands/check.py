"""python3 -m lpd check MODEL [CERTIFICATE]: whether a certificate is accepted and shows what is claimed, and if not, what fails."""
from __future__ import annotations

import argparse
import re
from typing import Dict, List, NamedTuple, Optional, Tuple, Union

from ..certificate import check_lines
from ..errors import LIMITS, CertificateFault, LpdError, ProgramMissing, TextFault
from ..figures import READABLE
from ..judging import PYTHON_ALONE, Judged, NotCertified, judged_wide
from ..model import Model, lines_of, read_lines, words_of
from ..number_text import NotANumber, number, shown
from ..reading import read_model_file
from ..records import replace
from ..replies import Accepted, Infeasible, Known, Optimal, Rejected, Unbounded
from .common import WIDEST_LINE, add_options, as_text, converted, in_dialect, lines_text, options_of, read, skipped_words, tell

OTHERS: Dict[str, Known] = {"INFEASIBLE": Infeasible(), "UNBOUNDED": Unbounded()}
KINDS = ("OPTIMAL", "INFEASIBLE", "UNBOUNDED", "CLASH")
# The last line of a text that has no final newline, and the certificate behind it.
JOINED = re.compile(rf"^ENDATA(?=(?:OPTIMAL|INFEASIBLE|UNBOUNDED|CLASH [^\n]*)(?: [^ \n]*)?\r?$)", re.M)


class NoClaim(LpdError):
    """What is given as an answer is none that a certificate shows."""

    ends_with = 2


def add(commands: "argparse._SubParsersAction[argparse.ArgumentParser]") -> None:
    checks = commands.add_parser("check", help="checks anyone's certificate for a model, exactly")
    checks.set_defaults(run=run)
    checks.add_argument("model", help="a file of MPS text, or of the LP format (.lp) or GNU MathProg (.mod), each also with .gz, or - for standard input")
    told = "a file: a certificate, or what lpd solve or lpd basis printed; without it that comes after ENDATA in the model's file"
    checks.add_argument("certificate", nargs="?", help=told)
    checks.add_argument("--form", choices=["free", "fixed"], help="the form of the text (free; with --convert or --relax the one that fits)")
    checks.add_argument("--convert", action="store_true", help="converts the text from other dialects first, as solve does")
    add_options(checks)
    checks.add_argument("--exact", action="store_true", help=f"shows the optimal value as it is, also where it does not fit a line of {WIDEST_LINE} characters")
    claim = "what the certificate has to show, exactly: the optimal value, INFEASIBLE or UNBOUNDED"
    checks.add_argument("--claim", metavar="ANSWER", help=claim)
    checks.add_argument("--wide", action="store_true", help="has lpd check --wide judge too, if the program has it, as is done by itself where a number passes 127 bits")


def answer_of(claim: str, wide: bool = True) -> Known:
    """What is claimed: an answer, or an optimal value alone."""
    words = words_of(claim)
    if len(words) == 1 and words[0].upper() in OTHERS:
        return OTHERS[words[0].upper()]
    if words[:1] and words[0].upper() == "OPTIMAL":
        del words[0]
    try:
        return Optimal(number(" ".join(words), wide))
    except NotANumber:
        raise NoClaim(f"the claim {claim!r} is no answer: give a value as 92.5 or 185/2, INFEASIBLE or UNBOUNDED") from None


def with_newline(text: str) -> str:
    """The text with the newline that it lacks where a certificate was put behind a text without one."""
    joined = JOINED.sub("ENDATA\n", text)
    if joined != text:
        tell("note: the model's text has no newline behind ENDATA, and is read as if it had one")
    return joined


def parted(lines: List[str]) -> Tuple[Optional[Known], List[str]]:
    """The answer that stands in front of a certificate, as lpd solve and lpd basis print it, and the certificate."""
    words = words_of(lines[0]) if lines else []
    behind = lines[2:] if len(lines) > 1 and "PIVOTS" in words_of(lines[1]) else lines[1:]
    if words[:1] and words[0] in ("PAST", "SPENT") and not behind:
        raise NoClaim(f"{lines[0]} is an answer without a certificate: there is nothing to check")
    follows = bool(behind) and words_of(behind[0])[:1] != [] and words_of(behind[0])[0] in KINDS
    if follows and (len(words) == 2 and words[0] == "OPTIMAL" or words in (["INFEASIBLE"], ["UNBOUNDED"])):
        return answer_of(lines[0]), behind
    return None, lines


def without_comments(certificate: str) -> List[str]:
    """The lines of a certificate without blank ones and those that begin with #, which people write into it."""
    return [line for line in lines_of(certificate) if line.strip() and not line.startswith("#")]


class Given(NamedTuple):
    """A model, the text that spells it, in which form, the lines behind that, and whether numbers may have any width."""

    model: Model
    text: str
    is_fixed: bool
    behind: List[str]
    is_wide: bool


def given(words: argparse.Namespace) -> Given:
    """What is to be checked: as one of any width where --wide is said, or a number of the text passes 127 bits, or it is large."""
    text = with_newline(as_text(read_model_file(words.model)))
    try:
        return given_as(words, text, words.wide)
    except TextFault as fault:
        if fault.fault not in LIMITS or fault.is_far or words.wide:
            raise
        return given_as(words, text, True)


def given_as(words: argparse.Namespace, text: str, is_wide: bool) -> Given:
    lines = lines_of(text)
    if words.convert or words.relax:
        found = converted(words, text.encode("latin-1"), replace(options_of(words), wide=is_wide, large=is_wide))
        return Given(found.model, found.text, False, behind(lines), is_wide)
    is_fixed = words.form == "fixed"
    try:
        model, count = read_lines(lines, is_fixed, is_wide, large=is_wide)
    except TextFault as fault:
        if fault.fault in LIMITS:
            raise
        found = in_dialect(words, text.encode("latin-1"), fault, is_wide)
        return Given(found.model, found.text, False, behind(lines), is_wide)
    return Given(model, lines_text(lines[:count]), is_fixed, lines[count:], is_wide)


def behind(lines: List[str]) -> List[str]:
    """What stands behind the text of a model, in whichever dialect."""
    end = next((n for n, line in enumerate(lines, 1) if line[:1] not in " \t" and words_of(line)[0].upper() == "ENDATA"), len(lines))
    return lines[end:]


def verdict_on(of: Given, certificate: List[str]) -> Tuple[Union[Accepted, Rejected], bool]:
    """The verdict of the checker in Python, and whether numbers may have any width: they may where one of the certificate does not
    fit 127 bits."""
    try:
        return check_lines(of.model, certificate, of.is_wide), of.is_wide
    except CertificateFault as fault:
        if not fault.is_wide:
            raise
        return check_lines(of.model, certificate, wide=True), True


def run(words: argparse.Namespace) -> int:
    claims = [] if words.claim is None else [answer_of(words.claim)]
    of = given(words)
    printed, certificate = parted(of.behind if words.certificate is None else without_comments(as_text(read(words.certificate))))
    skipped = skipped_words(of.model)
    if skipped:
        tell(skipped)
    verdict, is_wide = verdict_on(of, certificate)
    if isinstance(verdict, Rejected):
        why = verdict.why or ""
        print(f"{verdict}\n{why[:1].upper()}{why[1:]}.")
        return 1
    other = next((claim for claim in [*claims, *([printed] if printed else [])] if claim != verdict.known), None)
    if other is not None:
        print(f"NO CLAIM\n{told(verdict, other)}")
        return 1
    judge = judge_of(of, certificate, verdict.known) if is_wide else ""
    print("\n".join([*verdict_lines(verdict, words.exact), *([judge] if judge else [])]))
    return 0


def verdict_lines(verdict: Accepted, is_exact: bool) -> List[str]:
    """What is accepted: of a value that is too long for a line its decimal, unless it is wanted as it is."""
    if is_exact or len(str(verdict)) <= WIDEST_LINE or not isinstance(verdict.known, Optimal):
        return [str(verdict)]
    value = verdict.known.value
    count = len(shown(value)) - 1 - (value < 0)
    return [f"YES OPTIMAL {READABLE.word(value)}", f"the value is a fraction of {count} digits: --exact shows it"]


def judge_of(of: Given, certificate: List[str], known: Known) -> str:
    """By whom a certificate is accepted whose numbers may have any width, and which the checker in Python accepts."""
    try:
        found = judged_wide(of.text, certificate, of.is_fixed)
    except ProgramMissing as missing:
        found = Judged(PYTHON_ALONE, why=str(missing))
    if found.judge == PYTHON_ALONE:
        return f"accepted by the checker in Python alone: {found.why}"
    if found.known != known:
        raise NotCertified(f"{found.judge} says {found.known}, and the checker in Python {known}")
    return f"accepted by {found.judge}, and by the checker in Python"


def told(verdict: Accepted, claim: Known) -> str:
    """How what is claimed differs from what an accepted certificate shows."""
    known = verdict.known
    off = f", which is off by {shown(claim.value - known.value)}" if isinstance(claim, Optimal) and isinstance(known, Optimal) else ""
    return f"The certificate is accepted and shows {known}, and the claim is {claim}{off}."
