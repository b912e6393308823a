"""python3 -m lpd theorem MODEL CERTIFICATE -o answer.v: an answer as a theorem that Coq accepts."""
from __future__ import annotations

import argparse
import time
from pathlib import Path
from typing import List, NamedTuple, Optional

from ..certificate import check_lines, read_certificate
from ..conversion import Question
from ..coq import LONGEST_LINE, NAME, prove
from ..errors import TextFault
from ..model import Model, lines_of, read_lines, words_of
from ..reading import read_model_file
from ..replies import Rejected
from ..theorem import Source, certified, file_lines, statement
from .check import parted, without_comments
from .common import as_text, lines_text, put, read, seconds, tell


class Text(NamedTuple):
    """A model, the last line of those that spell it, and whether they are in fixed form."""

    model: Model
    line: int
    is_fixed: bool


def add(commands: "argparse._SubParsersAction[argparse.ArgumentParser]") -> None:
    theorem = commands.add_parser("theorem", help="writes an answer as a theorem that Coq proves")
    theorem.set_defaults(run=run)
    theorem.add_argument("model", help="a file of MPS text, or of the LP format (.lp) or GNU MathProg (.mod), each also with .gz, or - for standard input")
    theorem.add_argument("certificate", help="a file: a certificate, or what lpd solve, lpd basis or lpd iis printed")
    theorem.add_argument("--form", choices=["free", "fixed"], help="the form of the text (the one that fits)")
    about = theorem.add_mutually_exclusive_group()
    about.add_argument("--text", action="store_true", help="states the answer of the text itself, which Coq reads (what is done without --data)")
    about.add_argument("--data", action="store_true", help="states the answer of the model as data, which Coq reads faster")
    theorem.add_argument("--check", action="store_true", help="has coqc prove the theorem too, and shows what it says")
    theorem.add_argument("--seconds", type=seconds, metavar="N", help="how long coqc may take")
    theorem.add_argument("-o", "--output", metavar="FILE.v", type=file_of_coq, required=True, help="where the theorem goes")


def file_of_coq(name: str) -> str:
    """A name that Coq takes for a file."""
    if not NAME.match(Path(name).name):
        raise argparse.ArgumentTypeError(f"{name} is no name of a file of Coq: letters, digits and _, not a digit first, and .v behind them")
    return name


def read_text(lines: List[str], form: Optional[str]) -> Text:
    """Without a form both are tried; where both fit, they have to spell the same model."""
    found: List[Text] = []
    faults: List[TextFault] = []
    for fixed in [form == "fixed"] if form else [False, True]:
        try:
            found.append(Text(*read_lines(lines, fixed, large=True), fixed))
        except TextFault as fault:
            faults.append(fault)
    if not found:
        raise max(faults, key=lambda fault: fault.line)
    if len(found) == 2 and found[0].model != found[1].model:
        raise Question(1, "the text spells one model in free form and another in fixed form", "form", ["free", "fixed"])
    return found[0]


def behind_limits(lines: List[str]) -> List[str]:
    """The certificate that lpd iis writes behind the limits that contradict each other, where these stand in front; else the lines."""
    words = words_of(lines[1]) if len(lines) > 1 else []
    return lines[2 + int(words[1]) :] if len(words) == 2 and words[0] == "IIS" and words[1].isdecimal() else lines


def run(words: argparse.Namespace) -> int:
    data, proof = read_model_file(words.model), read(words.certificate)
    lines = lines_of(as_text(data))
    model, last, fixed = read_text(lines, words.form)
    _, certificate = parted(behind_limits(without_comments(as_text(proof))))
    verdict = check_lines(model, certificate, wide=True)
    if isinstance(verdict, Rejected):
        why = verdict.why or ""
        print(f"{verdict}\n{why[:1].upper()}{why[1:]}.")
        return 1
    found = certified(model, read_certificate(certificate, wide=True), verdict.known)
    sources = [Source(words.model, data), Source(words.certificate, proof)]
    put(lines_text(file_lines(model, lines[:last], fixed, found, sources, words.data)), words.output)
    if words.check:
        return shown(Path(words.output), statement(found, fixed, words.data), str(verdict.known), words.seconds)
    tell(f"{words.output} states {str(verdict.known)[:LONGEST_LINE]}: --check has Coq prove it")
    return 0


def shown(path: Path, says: str, known: str, most: Optional[float]) -> int:
    """Has Coq prove the theorem, and shows what it says."""
    started = time.monotonic()
    prove(path, most, tell)
    print(f"PROVED {known}\nTheorem answer : {says}.\nby Coq, closed under the global context, in {time.monotonic() - started:.1f} seconds")
    return 0
