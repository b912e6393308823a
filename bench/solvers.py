"""Models as every solver reads them, and the solvers, each run as a process of its own.

`lpd` answers by the session that docs/PROTOCOL.md says. The others are `esolver` (Debian's qsopt-ex), `glpsol --exact`
(glpk-utils) and bench/gmp_bland.cpp, which g++ builds with GMP (libgmp-dev); one that is not there is left out. They
get a model written anew, in the dialect that all of them read: its costs to be made least, and without an offset, which
is put to their values afterwards. glpsol reads no quotients and prints a value in ten digits or so; the others' values
are quotients.
"""
import os
import pathlib
import random
import re
import resource
import shutil
import subprocess
import sys
import tempfile
from fractions import Fraction
from typing import NamedTuple

HERE = pathlib.Path(__file__).resolve().parent
TOP = HERE.parent
PROGRAM = str(TOP / "crates/lpd/out/lpd")
CHECKER = [sys.executable, str(TOP / "bin/check_certificate.py")]
LARGEST = 1_000_000
MADE = [(5, 5, 1), (8, 10, 2), (10, 10, 3), (12, 20, 4), (15, 15, 5), (20, 20, 6), (30, 30, 7), (40, 60, 8)]
sys.path.insert(0, str(TOP / "clients" / "python"))

from lpd.errors import TextFault  # noqa: E402  (the package of this repository)
from lpd.model import read_model  # noqa: E402
from lpd.number_text import parse, shown  # noqa: E402

# ---- models


class Model:
    """A model by its text, and as it is written for the other solvers."""

    def __init__(self, name, data, form):
        self.name, self.data, self.form = name, data, form
        self.plain = read_model(data.decode("latin-1"), fixed=form == "fixed", large=True)
        self.sign = self.plain.sense

    def numbers(self):
        """Every number of the text that is written anew."""
        for row in self.plain.rows.values():
            yield from (x for x in (row.rhs, row.range) if x is not None)
        for column in self.plain.columns.values():
            yield from (x for x in (column.cost, column.lower, column.upper) if x is not None)
            yield from column.entries.values()

    def is_decimal(self):
        return all("/" not in shown(x) for x in self.numbers())

    def text(self):
        rows = {name: f"r{i}" for i, name in enumerate(self.plain.rows)}
        lines = ["NAME m", "ROWS", " N cost"]
        lines += [f" {row.kind} {rows[name]}" for name, row in self.plain.rows.items()]
        lines.append("COLUMNS")
        for j, column in enumerate(self.plain.columns.values()):
            lines.append(f" x{j} cost {shown(self.sign * column.cost)}")
            lines += [f" x{j} {rows[name]} {shown(v)}" for name, v in column.entries.items()]
        lines.append("RHS")
        lines += [f" RHS {rows[name]} {shown(row.rhs)}" for name, row in self.plain.rows.items() if row.rhs]
        ranged = [(name, row) for name, row in self.plain.rows.items() if row.range is not None]
        lines += ["RANGES"] * bool(ranged) + [f" RNG {rows[name]} {shown(row.range)}" for name, row in ranged]
        lines.append("BOUNDS")
        for j, column in enumerate(self.plain.columns.values()):
            lines += [f" {kind} BND x{j}{value}" for kind, value in bounds(column.lower, column.upper)]
        return "\n".join(lines + ["ENDATA", ""])

    def value(self, least):
        """The model's value, by that of the text that was written anew."""
        return self.sign * least + self.plain.offset


def bounds(lower, upper):
    """The cards of a column's bounds; those from 0 on have none."""
    if lower is None and upper is None:
        return [("FR", "")]
    if lower is not None and lower == upper:
        return [("FX", " " + shown(lower))]
    cards = [("MI", "")] if lower is None else [("LO", " " + shown(lower))] if lower else []
    return cards + ([] if upper is None else [("UP", " " + shown(upper))])


def made(rows, columns, seed):
    """A model whose rows ask for at least something of columns that cost something."""
    dice = random.Random(seed)
    lines = [f"NAME made-{rows}x{columns}", "ROWS", " N cost"] + [f" G r{i}" for i in range(rows)] + ["COLUMNS"]
    for j in range(columns):
        lines.append(f" x{j} cost {dice.randint(1, 20)}")
        lines += [f" x{j} r{i} {dice.randint(1, 9)}" for i in range(rows) if dice.random() < 0.4 or i % columns == j]
    lines += ["RHS"] + [f" r{i} {dice.randint(1, 30)}" for i in range(rows)] + ["ENDATA", ""]
    return Model(f"made-{rows}x{columns}", "\n".join(lines).encode(), "free")


def texts_of(folder):
    """The names and texts of a folder's models, in the order of their names."""
    for path in sorted(pathlib.Path(folder).glob("*.mps")):
        yield path.name.removesuffix(".mps").removesuffix(".fixed"), path.read_bytes().rstrip(b"\n") + b"\n"


def models_of(folder):
    """The models of a folder that can be read, in free form where that fits and else in fixed form."""
    for name, data in texts_of(folder):
        for form in ["free", "fixed"]:
            try:
                yield Model(name, data, form)
                break
            except TextFault:
                continue


# ---- processes


def run(command, data, seconds):
    """What a process wrote and the processor time that it took; None and no time where it has no end in time."""
    before = resource.getrusage(resource.RUSAGE_CHILDREN)
    try:
        done = subprocess.run(command, input=data, capture_output=True, timeout=seconds)
    except subprocess.TimeoutExpired:
        return None, None
    after = resource.getrusage(resource.RUSAGE_CHILDREN)
    spent = after.ru_utime - before.ru_utime + after.ru_stime - before.ru_stime
    return done.stdout.decode("latin-1"), spent


def limited(command, data, seconds):
    """What a process wrote that may take so many seconds of the processor, and those that it took. Threads may run several at once."""
    with tempfile.TemporaryFile() as given, tempfile.TemporaryFile() as written:
        given.write(data)
        given.seek(0)
        child = subprocess.Popen(["prlimit", f"--cpu={seconds}", *command], stdin=given, stdout=written, stderr=subprocess.DEVNULL)
        status, used = os.wait4(child.pid, 0)[1:]
        child.returncode = os.waitstatus_to_exitcode(status)
        written.seek(0)
        return written.read().decode("latin-1"), used.ru_utime + used.ru_stime


class Ran(NamedTuple):
    """What a process wrote, the seconds of the processor that it took, and the MB of memory that it had at the most."""

    said: str
    seconds: float
    memory: float


# A small process that runs a command and puts down what that took: of a child of its own a process sees at least the memory that it
# has itself, which here is some 8 MB.
WATCHER = """
import os, sys
told = os.open(sys.argv[1], os.O_WRONLY)
child = os.posix_spawnp(sys.argv[2], sys.argv[2:], os.environ)
used = os.wait4(child, 0)[2]
os.write(told, b"%f %d" % (used.ru_utime + used.ru_stime, used.ru_maxrss))
"""


def watched(command, data, seconds):
    """As `limited`, with the memory."""
    with tempfile.TemporaryFile() as given, tempfile.TemporaryFile() as written, tempfile.NamedTemporaryFile() as told:
        given.write(data)
        given.seek(0)
        words = [sys.executable, "-S", "-E", "-c", WATCHER, told.name, "prlimit", f"--cpu={seconds}", *command]
        subprocess.run(words, stdin=given, stdout=written, stderr=subprocess.DEVNULL, check=True)
        written.seek(0)
        spent, kilobytes = map(float, told.read().split())
        return Ran(written.read().decode("latin-1"), spent, kilobytes / 1024)


def script(form, data, *commands):
    """The bytes of a session that loads the text, and then is given these commands."""
    return f"1 LOAD {form.upper()}\n".encode() + data + "".join(f"1 {c}\n" for c in commands).encode()


def session(program, form, data, commands, seconds):
    """What a session replies that has loaded the text, and its time."""
    said, spent = run(program + ["run"], script(form, data, *commands), seconds)
    return (None if said is None else said.split("\n")[:-1]), spent


# ---- the other solvers: each gives how a model ends, as ("OPTIMAL", value), ("INFEASIBLE",), .., and its time


class Esolver:
    name, idle, reads_quotients, is_exact = "esolver", ["esolver", "-v"], True, True

    @staticmethod
    def is_there():
        return shutil.which("esolver")

    def solve(self, folder, seconds):
        solution = folder / "solution"
        solution.unlink(missing_ok=True)
        spent = limited(["esolver", "-O", str(solution), str(folder / "model.mps")], b"", seconds)[1]
        text = solution.read_text() if solution.exists() else ""
        status, value = re.search(r"status\s*=?\s*(\w+)", text), re.search(r"Value = (\S+)", text)
        if value and status and status[1] == "OPTIMAL":
            return ("OPTIMAL", parse(value[1]).value), spent
        if status is None and spent > 0.95 * seconds:
            return ("TIME",), None
        return (status[1] if status else "FAILED",), spent


class Glpsol:
    name, idle, reads_quotients, is_exact = "glpsol", ["glpsol", "--version"], False, False

    @staticmethod
    def is_there():
        return shutil.which("glpsol")

    def solve(self, folder, seconds):
        page = folder / "page"
        page.unlink(missing_ok=True)
        command = ["glpsol", "--freemps", str(folder / "model.mps"), "--exact", "-o", str(page)]
        said, spent = run(command, None, seconds)
        if said is None:
            return ("TIME",), None
        value = re.search(r"^Objective:\s*\S+ = (\S+)", page.read_text() if page.exists() else "", re.M)
        if "OPTIMAL SOLUTION FOUND" in said and value:
            return ("OPTIMAL", Fraction(value[1])), spent
        if "NO FEASIBLE SOLUTION" in said:
            return ("INFEASIBLE",), spent
        return ("UNBOUNDED" if "UNBOUNDED" in said else "FAILED",), spent


class GmpBland:
    """lpd's own path in the fractions of GMP. It also tells its pivots, and the entries not 0 that they visit."""

    idle, reads_quotients, is_exact = None, True, True

    def __init__(self, *words):
        self.name = " ".join(["gmp_bland", *words])
        self.command = [str(HERE / "out/gmp_bland"), *words]

    @staticmethod
    def is_there():
        """Builds it where that can be done and has not been."""
        program, source = HERE / "out/gmp_bland", HERE / "gmp_bland.cpp"
        if shutil.which("g++") and not (program.exists() and program.stat().st_mtime > source.stat().st_mtime):
            program.parent.mkdir(exist_ok=True)
            command = ["g++", "-std=c++17", "-O3", "-march=x86-64-v2", "-o", str(program), str(source), "-lgmp"]
            subprocess.run(command, stderr=subprocess.DEVNULL)
        return program.exists()

    def solve(self, folder, seconds):
        said, spent = run(self.command, (folder / "model.mps").read_bytes(), seconds)
        if said is None:
            return ("TIME",), None
        answer, *told = [line.split() for line in said.split("\n") if line]
        self.told = {word: int(number) for word, number in told}
        return (answer[0], *map(Fraction, answer[1:])), spent


def least(runs, solve):
    """The answer, with the least time of some runs."""
    answer, best = solve()
    for _ in range(runs - 1 if best is not None else 0):
        best = min(best, solve()[1] or best)
    return answer, best
