#!/usr/bin/env python3
"""Tries the theorems of lpd-py theorem, and the reader of MPS texts that Coq has, in coq/.

    check_theorems.py [--program PROGRAM] [--only PART] [--made N] [--changed N] [--texts N] [--seed N] [--jobs N] [--chk] [TEXT ...]

1. Coq compiles coq/, and proves the answers of the examples and of made models of each kind, with no assumptions; those without a
   feasible point by what `lpd iis` writes, too.
2. Of some certificates a number is changed. Coq accepts each that the checker in Python accepts, and no other.
3. Coq's reader says of each text what the program says of it: the same line and fault, or the same model, which it prints back. The
   texts are those of tests/try_dialects.py, mutated ones, the examples, and those that are named: files of MPS, or scripts of
   sessions, whose texts are tried.

With --chk coqchk judges the compiled files of coq/ and of one answer too, and may name no axiom.
"""
import argparse
import random
import re
import subprocess
import sys
import tempfile
from concurrent.futures import ThreadPoolExecutor
from pathlib import Path
from typing import Iterator, List, NamedTuple, Optional, Tuple

TOP = Path(__file__).resolve().parent.parent
sys.path[:0] = [str(TOP / "clients" / "python"), str(TOP / "tests")]

# The package of this repository, and what stands beside this one.
import lpd  # noqa: E402
from lpd import coq, theorem  # noqa: E402
from lpd.certificate import check_lines, read_certificate  # noqa: E402
from lpd.commands.theorem import behind_limits  # noqa: E402
from lpd.model import lines_of, read_lines, words_of  # noqa: E402
from lpd.program import Program  # noqa: E402
from lpd.replies import Accepted, Known  # noqa: E402
from made_models import Maker, Made, Writer, mutated, with_one_number_changed  # noqa: E402
from try_dialects import QUESTIONS  # noqa: E402

EXAMPLES = TOP / "examples"
KINDS = ("optimal", "infeasible", "unbounded", "clash")
TEXTS_AT_ONCE = 120
LONGEST = 3000  # bytes of a text that is tried; longer ones take Coq long
# A module of Coq's own library that hides what it is made of: coqchk calls that axioms where it does not judge the module.
SEALED = "Coq.ssr.ssrunder"
STRING = re.compile(r'"((?:[^"]|"")*)"%mps')


class Case(NamedTuple):
    """A text, whether it is in fixed form, and a certificate for it."""

    name: str
    text: str
    is_fixed: bool
    certificate: List[str]


# ---- cases


def examples() -> Iterator[Case]:
    for path in sorted((EXAMPLES / "models").glob("*.mps")):
        lines = lines_of(path.with_suffix(".solved").read_text(encoding="latin-1"))
        yield Case(path.name, path.read_text(encoding="latin-1"), ".fixed." in path.name, lines[1:])
    for path in sorted(EXAMPLES.glob("*.mps")):
        lines = lines_of(path.read_text(encoding="latin-1"))
        _, last = read_lines(lines)
        if path.with_suffix(".said").read_text(encoding="ascii").startswith("YES"):
            yield Case(path.name, "".join(f"{line}\n" for line in lines[:last]), False, lines[last:])


def made(dice: random.Random, count: int) -> Iterator[Case]:
    """As many models of each kind, some of them in fixed form."""
    maker = Maker(dice)
    for number in range(count):
        kind = KINDS[number % len(KINDS)]
        sense = dice.choice([1, -1])
        rows, columns, certificate = getattr(maker, kind)(sense)
        text = Writer(dice, fixed=False).text(rows, columns, sense, maker.number())
        yield Case(f"{kind} {number}", text, False, lines_of(certificate))


def conflicts(program: str, cases: List[Case]) -> Iterator[Case]:
    """The models without a feasible point, with the certificates that lpd iis writes."""
    for case in cases:
        if case.certificate[0].split()[0] in ("INFEASIBLE", "CLASH"):
            form = "fixed" if case.is_fixed else "free"
            done = subprocess.run([program, "iis", "--form", form], input=case.text.encode("latin-1"), capture_output=True)
            yield case._replace(name=f"the conflict of {case.name}", certificate=behind_limits(lines_of(done.stdout.decode("latin-1"))))


def file_of(case: Case, known: Known, as_data: bool = False) -> str:
    """The theorem that the certificate shows this, whether or not it does."""
    lines = lines_of(case.text)
    model, last = read_lines(lines, case.is_fixed, large=True)
    found = theorem.certified(model, read_certificate(case.certificate, wide=True), known)
    source = theorem.Source(case.name, case.text.encode("latin-1"))
    return "\n".join(theorem.file_lines(model, lines[:last], case.is_fixed, found, [source], as_data)) + "\n"


def complaint_of(case: Case, known: Known, as_data: bool = False) -> str:
    """Why Coq does not accept the theorem, or nothing."""
    with tempfile.TemporaryDirectory() as room:
        path = Path(room) / "answer.v"
        path.write_bytes(file_of(case, known, as_data).encode("latin-1"))
        try:
            coq.prove(path)
        except coq.NotProved as failed:
            return str(failed)
    return ""


def known_by(case: Case) -> Optional[Known]:
    """What the checker in Python says that the certificate shows, if it accepts it."""
    model, _ = read_lines(lines_of(case.text), case.is_fixed)
    verdict = check_lines(model, case.certificate, wide=True)
    return verdict.known if isinstance(verdict, Accepted) else None


# ---- theorems


def prove_all(cases: List[Case], jobs: int) -> List[str]:
    """Proves the answers, of the text and, of each second one, of the data too."""
    asked: List[Tuple[Case, bool]] = [(case, False) for case in cases] + [(case, True) for case in cases[::2]]

    def prove(one: Tuple[Case, bool]) -> str:
        known = known_by(one[0])
        if known is None:
            return f"{one[0].name}: the checker in Python does not accept the certificate"
        complaint = complaint_of(one[0], known, one[1])
        return f"{one[0].name}: {complaint}" if complaint else ""

    with ThreadPoolExecutor(jobs) as pool:
        return [said for said in pool.map(prove, asked) if said]


def change_some(dice: random.Random, cases: List[Case], count: int) -> Iterator[Tuple[Case, Case]]:
    """Cases, and the same with a number of the certificate changed."""
    numbered = [case for case in cases if len(case.certificate) > 2]
    while count:
        case = dice.choice(numbered)
        other = with_one_number_changed(dice, Made(case.text, case.is_fixed, "\n".join(case.certificate) + "\n"))
        if other.text == case.text:
            count -= 1
            yield case, case._replace(certificate=lines_of(other.certificate))


def judge_changed(dice: random.Random, cases: List[Case], count: int, jobs: int) -> Tuple[List[str], int]:
    """What Coq and the checker in Python do not judge alike, and how many both refuse."""

    def judge(pair: Tuple[Case, Case]) -> Tuple[str, bool]:
        before, after = pair
        known = known_by(before)
        if known is None:
            return f"{before.name}: the certificate is not accepted", False
        is_right = known_by(after) == known
        complaint = complaint_of(after, known)
        wrong = f"{before.name}, changed: Coq and the checker in Python differ: {complaint or 'Coq accepts it'}" if is_right == bool(complaint) else ""
        return wrong, bool(complaint)

    with ThreadPoolExecutor(jobs) as pool:
        judged = list(pool.map(judge, change_some(dice, cases, count)))
    return [wrong for wrong, _ in judged if wrong], sum(refused for _, refused in judged)


# ---- texts


class Text(NamedTuple):
    """A text, and the form in which it is read."""

    text: str
    is_fixed: bool


def texts_in(path: Path) -> Iterator[Text]:
    """The text of a file of MPS, or the texts that a script of sessions loads, in both forms."""
    lines = path.read_bytes().decode("latin-1").split("\n")
    if path.suffix == ".mps":
        bodies = ["\n".join(lines)]
    else:
        starts = [at for at, line in enumerate(lines, 1) if words_of(line)[1:2] == ["LOAD"]]
        bodies = ["\n".join(upto_end(lines[start:])) + "\n" for start in starts]
    for body in bodies:
        yield Text(body, False)
        yield Text(body, True)


def upto_end(lines: List[str]) -> List[str]:
    end = next((at for at, line in enumerate(lines, 1) if line[:1] not in (" ", "\t") and words_of(line)[:1] == ["ENDATA"]), len(lines))
    return lines[:end]


def texts(dice: random.Random, count: int, named: List[Path]) -> List[Text]:
    found = [Text(text.replace("{free}", "").encode().decode("latin-1"), fixed) for _, text, fixed, _ in QUESTIONS]
    for path in [*sorted((EXAMPLES / "models").glob("*.mps")), *sorted(EXAMPLES.glob("*.lpd")), *named]:
        found += texts_in(path)
    maker = Maker(dice)
    while count:
        one = mutated(dice, maker.made())
        found.append(Text(one.text.encode().decode("latin-1"), one.fixed))
        count -= 1
    return [text for text in dict.fromkeys(found) if len(text.text) <= LONGEST or named]


def evaluation(text: Text) -> str:
    strings = ";\n".join('"' + line.replace('"', '""') + '"' for line in lines_of(text.text))
    return f"Eval vm_compute in told usual_limits {'FixedForm' if text.is_fixed else 'FreeForm'} [\n{strings}\n]%mps.\n"


def told_by_coq(asked: List[Text]) -> List[List[str]]:
    """The lines that Coq has for each of these texts: the model, written, or ERR 8."""
    head = "From Coq Require Import List.\nFrom Lpd Require Import MpsCard MpsText MpsWritten.\nImport ListNotations.\n"
    head += "Set Printing Width 1000000.\nSet Printing Depth 1000000.\n"
    with tempfile.TemporaryDirectory() as room:
        path = Path(room) / "texts.v"
        path.write_bytes((head + "".join(map(evaluation, asked))).encode("latin-1"))
        ran = coq.coqc(["-noglob", path.name], Path(room))
    if ran.status:
        raise coq.NotProved(coq.shortened(ran.complaint))
    parts = ran.said.split("\n     : text\n")[:-1]
    return [[found.replace('""', '"') for found in STRING.findall(part)] for part in parts]


def told_by_program(program: Optional[str], asked: List[Text]) -> List[List[str]]:
    """The lines that the program has for them, or, without one, the reader in Python, which does not write the model."""
    if program is None:
        return [told_by_python(text) for text in asked]
    found = []
    with lpd.Session(Program(program)) as session:
        for text in asked:
            try:
                session.load(text.text, text.is_fixed)
                found.append(lines_of(session.write()))
            except lpd.TextFault as fault:
                found.append([f"ERR 8 MPS {fault.line} M{fault.fault}"])
    return found


def told_by_python(text: Text) -> List[str]:
    try:
        read_lines(lines_of(text.text), text.is_fixed)
    except lpd.TextFault as fault:
        return [f"ERR 8 MPS {fault.line} M{fault.fault}"]
    return []


def is_same(text: Text, by_coq: List[str], expected: List[str]) -> bool:
    """Whether both refuse the text alike, or both have the same model of it; that, too, which the reader in Python has."""
    if expected and by_coq != expected:
        return False
    if by_coq[0].startswith("ERR"):
        return bool(expected)
    return bool(read_lines(by_coq)[0] == read_lines(lines_of(text.text), text.is_fixed)[0])


def compare_texts(asked: List[Text], program: Optional[str], jobs: int) -> Tuple[List[str], int]:
    """What is read differently, and how many texts spell a model."""
    blocks = [asked[at : at + TEXTS_AT_ONCE] for at in range(0, len(asked), TEXTS_AT_ONCE)]
    with ThreadPoolExecutor(jobs) as pool:
        by_coq = [told for block in pool.map(told_by_coq, blocks) for told in block]
    expected = told_by_program(program, asked)
    wrong = []
    for text, told, other in zip(asked, by_coq, expected):
        if not is_same(text, told, other):
            wrong.append(f"{text!r}:\n  Coq has {told[:1]}, and not {other[:1]}")
    if len(by_coq) != len(asked):
        wrong.append(f"Coq answers {len(by_coq)} of {len(asked)} texts")
    return wrong, sum(not told[0].startswith("ERR") for told in by_coq)


# ---- the compiled files


def judge_compiled(case: Case) -> List[str]:
    """What coqchk says against the compiled files: an axiom, or that it does not accept them."""
    known = known_by(case)
    assert known is not None
    with tempfile.TemporaryDirectory() as room:
        (Path(room) / "answer.v").write_bytes(file_of(case, known).encode("latin-1"))
        coq.coqc(["-noglob", "answer.v"], Path(room))
        names = [SEALED, *(f"Lpd.{source.stem}" for source in coq.sources(coq.library())), "answer"]
        judged = [word for name in names for word in ("-norec", name)]
        command = ["coqchk", "-silent", "-o", "-Q", str(coq.library()), "Lpd", "-Q", ".", "", *judged]
        done = subprocess.run(command, cwd=room, capture_output=True, text=True)
    said = done.stdout + done.stderr
    axioms = said.partition("* Axioms:")[2].partition("*")[0].split()
    return [f"coqchk: {said}"] if done.returncode or axioms != ["<none>"] else []


def main() -> int:
    parser = argparse.ArgumentParser(description="Tries the theorems of lpd-py theorem, and the reader of MPS texts in coq/.")
    parser.add_argument("--program", help="the program that reads the texts too (the reader in Python alone)")
    parser.add_argument("--made", type=int, default=12, metavar="N", help="how many made models are proved (12)")
    parser.add_argument("--changed", type=int, default=6, metavar="N", help="how many changed certificates are judged (6)")
    parser.add_argument("--texts", type=int, default=200, metavar="N", help="how many mutated texts are read (200)")
    parser.add_argument("--seed", type=int, default=1)
    parser.add_argument("--jobs", type=int, default=2)
    parser.add_argument("--only", choices=["theorems", "changed", "texts"], help="one of the three parts alone")
    parser.add_argument("--chk", action="store_true", help="has coqchk judge the compiled files")
    parser.add_argument("named", nargs="*", type=Path, metavar="TEXT", help="files of MPS, or scripts of sessions")
    options = parser.parse_args()
    dice = random.Random(options.seed)
    coq.compile_library()
    cases = [*examples(), *made(dice, options.made)]
    wrong: List[str] = []
    if options.program:
        cases += list(conflicts(options.program, cases))
    if options.only in (None, "theorems"):
        wrong += prove_all(cases, options.jobs)
        print(f"{len(cases)} answers proved of the text, and {len(cases[::2])} of the data", flush=True)
    if options.only in (None, "changed"):
        differing, refused = judge_changed(dice, cases, options.changed, options.jobs)
        wrong += differing
        print(f"{options.changed} changed certificates: {refused} refused by Coq and by the checker in Python", flush=True)
    if options.only in (None, "texts"):
        asked = texts(dice, options.texts, options.named)
        misread, spelled = compare_texts(asked, options.program, options.jobs)
        wrong += misread
        print(f"{len(asked)} texts: {spelled} spell a model, and {len(asked) - spelled} have a fault", flush=True)
    wrong += judge_compiled(cases[0]) if options.chk else []
    print("\n".join(wrong), end="\n" if wrong else "")
    return 1 if wrong else 0


if __name__ == "__main__":
    sys.exit(main())
