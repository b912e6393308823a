#!/usr/bin/env python3
"""Has Coq prove the answers of the models of a folder, as `lpd-py theorem` writes them, of the text and of the data.

    coq.py FOLDER.. [--certificates FOLDER] [--program PROGRAM] [--made N] [--kept FILE] [--seconds N] [--jobs N] [--only NAME,..] [--data] [--write PAGE]

A certificate is NAME.cert of the second folder, as `exact.cpp` or `lpd` writes it, or else what `PROGRAM solve --wide` finds. It is
not judged before: Coq does that. With --made, N models are made too, of each kind as many; those without a feasible point are
proved once more by what `PROGRAM iis` writes. A proof may take N (600) seconds of the processor. What was proved is kept in FILE,
a line for each, and is not proved again. --jobs proves as many at once (1), and --data proves those of the data too. The smallest
come first.

Times are of the processor, for the whole of coqc, of one run each, and the memory is the most that it held. With --write the table of
all that is kept takes the place of what stands between the two marks of PAGE.
"""
import argparse
import os
import random
import resource
import subprocess
import sys
import tempfile
from concurrent.futures import ThreadPoolExecutor
from pathlib import Path
from typing import Dict, Iterator, List, NamedTuple, Optional

from page import ended
from solvers import PROGRAM, TOP

sys.path.insert(0, str(TOP / "tests"))

import check_theorems  # (a test of this repository)
from lpd import coq, theorem
from lpd.certificate import Certificate, matched, read_certificate
from lpd.conversion import convert
from lpd.errors import LpdError, TextFault
from lpd.model import Model, lines_of, read_lines
from lpd.replies import Infeasible, Known, Optimal, Unbounded

BEGIN, END = "<!-- measured by bench/coq.py -->", "<!-- end of the proofs -->"
LETTERS = ("x ", "y ", "r ")
HEAD = ["Model", "Rows", "Columns", "Coefficients", "Bytes of the text", "Bits of the certificate", "Answer", "Text, s", "Memory, MB"]
OF_DATA = ["Data, s", "Memory, MB"]
HEAD_OF_MADE = ["Made models", "Proved", "Text, s in all", "Text, s at most", "Memory, MB at most"]
MADE = "made_"  # begins the name of a model that is made
SEED = 1


class Read(NamedTuple):
    model: Model
    lines: List[str]
    is_fixed: bool


class Proof(NamedTuple):
    """What one run of coqc took, or why it proved nothing."""

    name: str
    kind: str
    numbers: List[str]
    seconds: float
    memory: float
    failed: str

    def line(self) -> str:
        return "\t".join([self.name, self.kind, *self.numbers, f"{self.seconds:.1f}", f"{self.memory:.0f}", self.failed])


def read_proof(line: str) -> Proof:
    name, kind, *numbers, seconds, memory, failed = line.split("\t")
    return Proof(name, kind, numbers, float(seconds), float(memory), failed)


def read_model(path: Path) -> Read:
    """In free form, or in fixed form where the text is not in that; else as the command convert turns it into the profile."""
    lines = lines_of(path.read_bytes().decode("latin-1"))
    for fixed in (False, True):
        try:
            model, last = read_lines(lines, fixed, large=True)
            return Read(model, lines[:last], fixed)
        except TextFault:
            pass
    found = convert(path.read_bytes())
    return Read(found.model, lines_of(found.text), False)


def write_made(folder: Path, count: int, program: str) -> List[Path]:
    """So many models of each kind by turns, with their certificates beside them, and the conflicts of those that have one."""
    cases = list(check_theorems.made(random.Random(SEED), count))
    paths = []
    for case in [*cases, *check_theorems.conflicts(program, cases)]:
        path = folder / f"{MADE}{case.name.replace(' ', '_')}.mps"
        path.write_text(case.text, encoding="latin-1")
        path.with_suffix(".cert").write_text("".join(f"{line}\n" for line in case.certificate), encoding="latin-1")
        paths.append(path)
    return paths


def certificate_of(path: Path, read: Read, folder: Optional[Path], program: str) -> Certificate:
    beside = path.with_suffix(".cert")
    kept = folder / beside.name if folder and not path.stem.startswith(MADE) else beside
    if kept.exists():
        lines = lines_of(kept.read_text(encoding="latin-1"))
        if lines[0].startswith(LETTERS):
            lines = ["OPTIMAL", *lines, "END"]
    else:
        form = "fixed" if read.is_fixed else "free"
        text = "".join(f"{line}\n" for line in read.lines).encode("latin-1")
        done = subprocess.run([program, "solve", "--wide", "--form", form], input=text, capture_output=True)
        lines = lines_of(done.stdout.decode("latin-1"))[1:]
    return read_certificate(lines, wide=True)


def claimed(model: Model, certificate: Certificate) -> Known:
    """What the certificate shows if it is right."""
    if certificate.kind == "OPTIMAL":
        return Optimal(model.cost(matched(model, certificate)["x"]) + model.offset)
    return Unbounded() if certificate.kind == "UNBOUNDED" else Infeasible()


def bits_of(certificate: Certificate) -> int:
    return sum(abs(part.value.numerator).bit_length() + part.value.denominator.bit_length() for part in certificate.parts)


def run_coq(path: Path, seconds: int) -> "tuple[str, float, float]":
    """Why coqc does not prove the file, or nothing; seconds of the processor, and MB."""
    with tempfile.TemporaryFile() as said, tempfile.TemporaryFile() as complaint:
        command = ["prlimit", f"--cpu={seconds}", "coqc", "-q", "-noglob", "-Q", str(coq.library().resolve()), "Lpd", path.name]
        child = subprocess.Popen(command, cwd=path.parent, stdout=said, stderr=complaint)
        status, used = os.wait4(child.pid, 0)[1:]
        child.returncode = os.waitstatus_to_exitcode(status)
        said.seek(0)
        complaint.seek(0)
        told = complaint.read().decode("latin-1").strip().replace("\t", " ").replace("\n", " ")[-100:]
        is_closed = said.read().decode("latin-1").strip() == coq.CLOSED
    spent = used.ru_utime + used.ru_stime
    why = "" if is_closed and child.returncode == 0 else "TIME" if spent >= seconds - 1 else told or f"status {child.returncode}"
    return why, spent, used.ru_maxrss / 1024


def proofs_of(path: Path, options: argparse.Namespace, done: Dict[str, Proof]) -> Iterator[Proof]:
    ways = [way for way in (["text", "data"] if options.data else ["text"]) if f"{path.stem} {way}" not in done]
    if not ways:
        return
    read = read_model(path)
    certificate = certificate_of(path, read, options.certificates, options.program)
    known = claimed(read.model, certificate)
    entries = sum(len(column.entries) + (column.cost != 0) for column in read.model.columns.values())
    size = sum(len(line) + 1 for line in read.lines)
    numbers = [str(n) for n in (len(read.model.rows), len(read.model.columns), entries, size, bits_of(certificate))]
    found = theorem.certified(read.model, certificate, known)
    for way in ways:
        source = theorem.Source(path.name, path.read_bytes())
        lines = theorem.file_lines(read.model, read.lines, read.is_fixed, found, [source], way == "data")
        with tempfile.TemporaryDirectory() as room:
            file = Path(room) / "answer.v"
            file.write_bytes("".join(f"{line}\n" for line in lines).encode("latin-1"))
            failed, spent, memory = run_coq(file, options.seconds)
        yield Proof(path.stem, way, [*numbers, str(known).split()[0]], spent, memory, failed)


def prove(path: Path, options: argparse.Namespace, done: Dict[str, Proof]) -> None:
    """Proves the answer of a model, and keeps what that took."""
    try:
        for proof in proofs_of(path, options, done):
            done[f"{proof.name} {proof.kind}"] = proof
            with open(options.kept, "a", encoding="ascii") as file:
                file.write(f"{proof.line()}\n")
            print(proof.line(), flush=True)
    except (LpdError, OSError, IndexError) as error:
        print(f"{path.stem}: {str(error)[:200]}", file=sys.stderr, flush=True)


def measured(proof: Optional[Proof]) -> List[str]:
    if proof is None:
        return ["", ""]
    return [proof.failed[:20] or f"{proof.seconds:.1f}", f"{proof.memory:.0f}"]


def table_of_made(done: Dict[str, Proof]) -> List[str]:
    """A row for each kind of made models, if there are any."""
    kinds: Dict[str, List[Proof]] = {}
    for proof in done.values():
        if proof.name.startswith(MADE) and proof.kind == "text":
            kinds.setdefault(proof.name[len(MADE) :].rpartition("_")[0].replace("_", " "), []).append(proof)
    rows = [HEAD_OF_MADE, ["---"] * len(HEAD_OF_MADE)]
    for kind, proofs in sorted(kinds.items()):
        times = [proof.seconds for proof in proofs]
        proved = f"{sum(not proof.failed for proof in proofs)} of {len(proofs)}"
        rows.append([kind, proved, f"{sum(times):.1f}", f"{max(times):.1f}", f"{max(proof.memory for proof in proofs):.0f}"])
    return ["", *("| " + " | ".join(row) + " |" for row in rows)] if kinds else []


def table(done: Dict[str, Proof]) -> List[str]:
    texts = [proof for proof in done.values() if proof.kind == "text" and not proof.name.startswith(MADE)]
    texts.sort(key=lambda proof: proof.seconds)
    has_data = any(proof.kind == "data" for proof in done.values())
    rows = [HEAD + (OF_DATA if has_data else [])]
    rows.append(["---"] * len(rows[0]))
    for proof in texts:
        of_data = measured(done.get(f"{proof.name} data")) if has_data else []
        rows.append([proof.name, *proof.numbers, *measured(proof), *of_data])
    proved = [proof for proof in texts if not proof.failed]
    within = [proof for proof in proved if int(proof.numbers[0]) <= 256 and int(proof.numbers[1]) <= 512]
    total = sum(proof.seconds for proof in proved)
    said = f"{len(proved)} of {len(texts)} answers are proved of the text, in {total:.0f} seconds in all;"
    said += f" {len(within)} of them are of models of at most 256 rows and 512 columns, and take {sum(p.seconds for p in within):.0f} seconds, at most {max((p.seconds for p in within), default=0):.1f}."
    return [said, "", *("| " + " | ".join(row) + " |" for row in rows), *table_of_made(done)]


def main() -> int:
    parser = argparse.ArgumentParser(description=__doc__, formatter_class=argparse.RawDescriptionHelpFormatter)
    parser.add_argument("folders", type=Path, nargs="*")
    parser.add_argument("--certificates", type=Path)
    parser.add_argument("--program", default=PROGRAM)
    parser.add_argument("--made", type=int, default=0)
    parser.add_argument("--kept", type=Path, default=Path("coq.tsv"))
    parser.add_argument("--seconds", type=int, default=600)
    parser.add_argument("--jobs", type=int, default=1)
    parser.add_argument("--only", type=lambda words: words.split(","))
    parser.add_argument("--data", action="store_true")
    parser.add_argument("--write", type=Path)
    options = parser.parse_args()
    coq.compile_library()
    kept = options.kept.read_text(encoding="ascii").splitlines() if options.kept.exists() else []
    done = {f"{proof.name} {proof.kind}": proof for proof in map(read_proof, kept)}
    paths = sorted((path for folder in options.folders for path in folder.glob("*.mps")), key=lambda path: path.stat().st_size)
    resource.setrlimit(resource.RLIMIT_CORE, (0, 0))
    with ThreadPoolExecutor(options.jobs) as pool, tempfile.TemporaryDirectory() as room:
        paths += write_made(Path(room), options.made, options.program)
        list(pool.map(lambda path: prove(path, options, done), [path for path in paths if not options.only or path.stem in options.only]))
    return ended(options.write, BEGIN, END, table(done), [f"{proof.name}: {proof.failed}" for proof in done.values() if proof.failed])


if __name__ == "__main__":
    sys.exit(main())
