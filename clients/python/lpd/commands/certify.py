"""python3 -m lpd certify MODEL: another solver's answer, made exact, and how far off it was."""
from __future__ import annotations

import argparse
import json
import time
from typing import Dict

from ..certifying import PYTHON, WAYS, Certified, NotAnswered, certify
from ..reading import is_lp, read_model_file
from ..records import replace
from ..solver_names import CHOICES, NONE
from ..tables import claim_of, off_of
from ..ways import SECONDS_WORDS, Effort
from ..wide import SOLVE_WIDE
from .common import PYTHON_ALONE, add_options, add_style, converted, options_of, print_prose, put_beside, seconds, status_of, style_of, tell
from .reports import shown_answer


def add(commands: "argparse._SubParsersAction[argparse.ArgumentParser]") -> None:
    certifies = commands.add_parser("certify", help="makes another solver's answer exact, with a certificate that is judged")
    certifies.set_defaults(run=run)
    certifies.add_argument("model", help="a file of MPS text, or of the LP format (.lp) or GNU MathProg (.mod), each also with .gz, or - for standard input")
    certifies.add_argument("--with", dest="solver", choices=CHOICES, default="glpsol", help="the solver that is asked for a basis (glpsol), or none")
    limit = f"how long the solver may take, and as long what makes its basis exact ({SECONDS_WORDS})"
    certifies.add_argument("--seconds", type=seconds, metavar="N", help=limit)
    ways = "what makes its basis exact: lpd basis --wide, or steps in Python (lpd, and of a model that is not large python where that has no answer)"
    certifies.add_argument("--by", dest="way", choices=WAYS, help=ways)
    certifies.add_argument("--form", choices=["free", "fixed"], help="the form of the text (the one that fits)")
    add_options(certifies)
    add_style(certifies)
    certifies.add_argument("-o", "--output", metavar="FILE", help="where the certificate goes; a text that was converted goes beside it, to FILE.mps")
    certifies.add_argument("--json", action="store_true")


def judge_of(found: Certified) -> str:
    if found.is_proved:
        return f"accepted by {found.judge}, and by the checker in Python" + (f" (lpd check does not take it: {found.why})" if found.why else "")
    return f"accepted by the checker in Python alone: {found.why}"


def steps_of(found: Certified) -> str:
    """The steps from the solver's basis, and what took them."""
    if found.command == SOLVE_WIDE:
        return f"{found.command}, since there is no solver"
    if found.way == PYTHON:
        return f"{found.steps} exact steps in Python"
    gave_up = ", so it gave the basis up and began anew" if found.start.startswith("FELL") else ""
    return f"{found.steps} pivots by {found.command}: {found.start}{gave_up}"


def as_json(found: Certified, solver: str, seconds: float) -> str:
    told: Dict[str, object] = {"answer": str(found.known), "solver": solver, "said": claim_of(found), "off": off_of(found)}
    told.update({"steps": found.steps, "by": found.way, "command": found.command, "start": found.start, "notes": found.notes})
    told.update({"judge": found.judge, "accepted_by_lpd_check": found.is_proved, "why": found.why, "seconds": round(seconds, 3)})
    return json.dumps({**told, "certificate": found.certificate}, indent=2)


def run(words: argparse.Namespace) -> int:
    started = time.monotonic()
    options = options_of(words)
    read = converted(words, read_model_file(words.model), replace(options, wide=True, large=True))
    text, changed = read.text, bool(read.changes) or is_lp(words.model)
    try:
        found = certify(text, words.solver, Effort(seconds=words.seconds).limit(read.model), words.way, read.model)
    except NotAnswered as failed:
        if failed.answer is None:
            raise
        tell(f"lpd: {failed}")
        return status_of(failed.answer)
    seconds = time.monotonic() - started
    for note in found.notes:
        tell(f"{words.solver}: {note}")
    if words.output:
        put_beside(words.output, found.certificate, text if changed else None)
    if words.json:
        print(as_json(found, words.solver, seconds))
    else:
        if words.solver != NONE:
            print(f"{words.solver + ' says':14}{claim_of(found, style_of(words).word)}")
        print(f"exactly       {shown_answer(found.known, style_of(words))}")
        if found.off() is not None:
            print(f"off by        {off_of(found)}, as {words.solver} prints its value")
        print(f"from there    {steps_of(found)}")
        print_prose(f"certificate   {judge_of(found)}")
    return status_of(found.known) if found.is_proved else PYTHON_ALONE
