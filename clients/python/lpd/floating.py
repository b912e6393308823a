"""Other solvers, which are asked for a basis: what they say, and where they stopped.

They read the model under plain names, since some take blanks out of names, and others end names at a sign. Where they can be told, what
they miss limits by is at most 1e-9.
"""
from __future__ import annotations

import os
import re
import subprocess
import sys
import tempfile
from fractions import Fraction
from pathlib import Path
from typing import Callable, Dict, List, Optional, Sequence, Tuple

from .basis_file import basis_lines, read_bas
from .dialects import DIALECTS, PROFILE, with_names, without_free_rows, written
from .errors import LpdError
from .exact import BASIC, LOWER, UPPER, Basis
from .model import Model, Row
from .number_text import NotANumber, parse
from .records import dataclass, field
from .solver_names import NONE, SCIPY, is_there

Parts = Dict[str, Fraction]


class SolverMissing(LpdError):
    """There is no such solver on the path."""


@dataclass
class Claim:
    """What a solver says of a model: its words, its value, and either its basis or, of an exact one, x and y by names."""

    said: str
    value: Optional[Fraction] = None
    basis: Optional[Basis] = None
    parts: List[Tuple[str, Parts]] = field(default_factory=list)


BEGIN = "begin"  # the file of a basis to begin with


@dataclass(frozen=True)
class Solver:
    """A solver with the words that it is run with behind those that read the model, and how its files are read. With
    `has_far_sides` it says of a row that it is at the upper limit where that is the one which is not the right side. Where
    it can begin with a basis, `begins` are the words for that, in place of the others, and `lines_of` writes that basis. `quick` are
    words for a large model, by which one without an optimum may end without a basis."""

    name: str
    arguments: Tuple[str, ...]
    read: Callable[[str, Path], Claim]
    has_far_sides: bool = False
    quick: Tuple[str, ...] = ()
    begins: Tuple[str, ...] = ()
    lines_of: Callable[[Model, Basis], List[str]] = lambda model, basis: []


def content(path: Path) -> str:
    return path.read_text(encoding="latin-1") if path.exists() else ""


def value_in(pattern: str, text: str) -> Optional[Fraction]:
    found = re.search(pattern, text)
    try:
        return None if found is None else parse(found[1]).value
    except NotANumber:
        return None


def read_glpsol(said: str, folder: Path) -> Claim:
    """A solution file: s bas ROWS COLUMNS PRIMAL DUAL VALUE, and i or j NUMBER STATUS VALUE PRICE."""
    ends = {"ff": "OPTIMAL", **dict.fromkeys(("nu", "ni", "nf"), "INFEASIBLE"), "fn": "UNBOUNDED"}
    statuses = {"b": BASIC, "u": UPPER}
    basis, claim = Basis(), Claim("no solution file")
    for line in content(folder / "solution").splitlines():
        words = line.split()
        if words[:2] == ["s", "bas"]:
            claim = Claim(ends.get(words[4] + words[5], f"primal {words[4]}, dual {words[5]}"), basis=basis)
            claim.value = parse(words[6]).value if claim.said == "OPTIMAL" else None
        elif words[:1] == ["i"]:
            basis.rows[f"R{int(words[1]) - 1}"] = statuses.get(words[2], LOWER)
        elif words[:1] == ["j"]:
            basis.columns[f"C{int(words[1]) - 1}"] = statuses.get(words[2], LOWER)
    return claim


def read_coin(said: str, folder: Path) -> Claim:
    basis = read_bas(content(folder / "basis"))
    value = value_in(r"Optimal objective (\S+)", said)
    if value is not None:
        return Claim("OPTIMAL", value, basis)
    is_infeasible = re.search("(?i)primal ?infeasible|problem is infeasible", said)
    is_open = re.search("(?i)dual ?infeasible|unbounded", said)
    return Claim("INFEASIBLE" if is_infeasible else "UNBOUNDED" if is_open else "no answer", None, basis)


def read_lp_solve(said: str, folder: Path) -> Claim:
    basis = read_bas(content(folder / "basis"))
    value = value_in(r"Value of objective function: (\S+)", said)
    if value is not None:
        return Claim("OPTIMAL", value, basis)
    ends = {"infeasible": "INFEASIBLE", "unbounded": "UNBOUNDED"}
    found = re.search("problem is (infeasible|unbounded)", said)
    return Claim(ends[found[1]] if found else "no answer", None, basis)


def read_esolver(said: str, folder: Path) -> Claim:
    text = content(folder / "solution")
    status = re.search(r"status\s*=?\s*(\w+)", text)
    claim = Claim(status[1] if status else "no answer", value_in(r"Value = (\S+)", text), read_bas(content(folder / "basis")))
    part: Optional[Parts] = None
    heads: Dict[str, Optional[Parts]] = {"VARS:": {}, "PI:": {}, "REDUCED COST:": None, "SLACK:": None}
    for line in text.splitlines():
        if line.strip() in heads:
            part = heads[line.strip()]
        found = re.match(r"\s*(\w+) = (\S+)$", line)
        if found and part is not None:
            part[found[1]] = parse(found[2]).value
    if claim.said == "OPTIMAL":
        claim.parts = [("x", heads["VARS:"] or {}), ("y", heads["PI:"] or {})]
    return claim


def read_highs_basis(text: str) -> Optional[Basis]:
    """HiGHS's basis file, or the end of its solution file: for each column, and then for each row, a status, in version 2
    behind its name. Without names they are numbered as the model has them."""
    part = re.search(r"^Valid\s+# Columns \d+\s+([^#]*)# Rows \d+\s+([^#]*)", text, re.M)
    if part is None:
        return None
    statuses = {"1": BASIC, "2": UPPER}  # 0 is at the lower limit, 3 a free one at 0, 4 not basic

    def named(letter: str, words: List[str]) -> Dict[str, str]:
        if words and not words[0].isdigit():
            return {name: statuses.get(status, LOWER) for name, status in zip(words[::2], words[1::2])}
        return {f"{letter}{n}": statuses.get(status, LOWER) for n, status in enumerate(words)}

    return Basis(named("C", part[1].split()), named("R", part[2].split()))


def read_highs(said: str, folder: Path) -> Claim:
    """A solution file in the raw style: the status under Model status, Objective VALUE, and the basis at its end."""
    text = content(folder / "solution")
    status = re.search(r"^Model status\s+(\S.*)", text, re.M)
    claim = Claim(status[1].strip() if status else "no solution file", basis=read_highs_basis(text))
    if claim.said in ("Optimal", "Infeasible", "Unbounded"):
        claim.said = claim.said.upper()
    if claim.said == "OPTIMAL":
        claim.value = value_in(r"(?m)^Objective (\S+)", text)
    return claim


# ---- bases to begin with


def coin_lines(model: Model, basis: Basis) -> List[str]:
    """A basis as clp and cbc read it, which lose what a UL card says unless there are words behind its name."""
    lines, _ = basis_lines(model, basis)
    return [f"{line} _dummy_ 0.0" if line.startswith(" UL ") else line for line in lines]


def glpsol_lines(model: Model, basis: Basis) -> List[str]:
    """A basis as glpsol reads it: the solution file that it writes, of which it takes the statuses alone."""
    statuses = {BASIC: "b", UPPER: "u"}
    rows = [statuses.get(basis.rows.get(name, BASIC), "l") for name in model.rows]
    columns = [statuses.get(basis.columns.get(name, LOWER), "l") for name in model.columns]
    lines = [f"i {n} {status} 0 0" for n, status in enumerate(rows, 1)] + [f"j {n} {status} 0 0" for n, status in enumerate(columns, 1)]
    return [f"s bas {len(rows)} {len(columns)} u u 0", *lines, "e o f"]


NARROW = ("-primalTolerance", "1e-9", "-dualTolerance", "1e-9")
AGAIN = ("-basisIn", BEGIN, *NARROW, "-presolve", "off", "-perturbation", "off")
SOLVERS = {
    solver.name: solver
    for solver in (
        Solver(
            "glpsol",
            ("--nopresol", "-w", "solution"),
            read_glpsol,
            begins=("--nopresol", "--ini", BEGIN, "-w", "solution"),
            lines_of=glpsol_lines,
        ),
        Solver(
            "clp",
            (*NARROW, "-presolve", "off", "-primalsimplex", "-basisOut", "basis"),
            read_coin,
            quick=(*NARROW, "-dualsimplex", "-basisOut", "basis"),
            begins=(*AGAIN, "-dualsimplex", "-basisOut", "basis"),
            lines_of=coin_lines,
        ),
        Solver(
            "cbc",
            (*NARROW, "-presolve", "off", "-initialSolve", "-basisOut", "basis"),
            read_coin,
            begins=(*AGAIN, "-initialSolve", "-basisOut", "basis"),
            lines_of=coin_lines,
        ),
        Solver("lp_solve", ("-S3", "-wbas", "basis"), read_lp_solve, has_far_sides=True),
        Solver("esolver", ("-O", "solution", "-b", "basis"), read_esolver),
        # As HiGHS is documented; it was never run.
        Solver("highs", ("--presolve", "off", "--solver", "simplex", "--solution_file", "solution"), read_highs),
        Solver(SCIPY, (), read_coin),
    )
}


def command_of(solver: Solver, command: List[str], arguments: Sequence[str]) -> List[str]:
    """The command, with the solver's arguments before the text for esolver, whose words come first, and else behind. That of scipy is
    one of this package."""
    if solver.name == SCIPY:
        return [sys.executable, "-m", "lpd.by_scipy", *command[1:]]
    if solver.name == "esolver":
        return [command[0], *arguments, *command[1:]]
    return [*command, *arguments]


def environment() -> Dict[str, str]:
    """That of this process, in which Python finds this package."""
    paths = [str(Path(__file__).resolve().parents[1]), *filter(None, [os.environ.get("PYTHONPATH")])]
    return {**os.environ, "PYTHONPATH": os.pathsep.join(paths)}


def side_of(row: Row, status: str) -> str:
    """At which limit a row is of which a solver with far sides says this."""
    if status == BASIC:
        return BASIC
    lower, upper = row.limits()
    is_upper = (row.rhs == upper) == (status == LOWER) if lower != upper else status == UPPER
    return UPPER if is_upper else LOWER


def renamed_back(claim: Claim, rows: Dict[str, str], columns: Dict[str, str], sense: int) -> Claim:
    """The claim with the names of the model. Prices are those of the objective as it is: a certificate has e times them."""
    basis = None
    if claim.basis:
        of_columns = {columns.get(name, name): status for name, status in claim.basis.columns.items()}
        of_rows = {rows.get(name, name): status for name, status in claim.basis.rows.items()}
        alone = [columns.get(name, name) for name in claim.basis.alone]
        basis = Basis(of_columns, of_rows, alone, claim.basis.unread)
    parts: List[Tuple[str, Parts]] = []
    for letter, values in claim.parts:
        names, factor = (columns, 1) if letter == "x" else (rows, sense)
        parts.append((letter, {names[name]: factor * value for name, value in values.items() if name in names}))
    return Claim(claim.said, claim.value, basis, parts)


def with_new_names(basis: Basis, rows: Dict[str, str], columns: Dict[str, str]) -> Basis:
    """The basis with the other names, of which those that have none are left out."""
    return Basis(
        {columns[name]: status for name, status in basis.columns.items() if name in columns},
        {rows[name]: status for name, status in basis.rows.items() if name in rows},
    )


def asked_in(folder: Path, solver: Solver, command: List[str], ways: Sequence[Sequence[str]], seconds: Optional[float]) -> Claim:
    """What a solver says that runs in a folder: in the first of these ways that ends with an optimum, or in the last."""
    claim = Claim("nothing")
    for arguments in ways:
        words = command_of(solver, command, arguments)
        try:
            done = subprocess.run(words, cwd=folder, env=environment(), capture_output=True, timeout=seconds, stdin=subprocess.DEVNULL)
        except subprocess.TimeoutExpired:
            return Claim(f"nothing within {seconds} seconds")
        claim = solver.read((done.stdout + done.stderr).decode("latin-1"), folder)
        if claim.said == "OPTIMAL":
            break
    return claim


def ask(name: str, model: Model, seconds: Optional[float] = None, begin: Optional[Basis] = None) -> Claim:
    """What a solver says of the model, written with plain names, without its free rows, and with numbers rounded where it reads no
    quotients. It begins with a basis that is given, if it can. Without a solver there is a rough basis of the package's own."""
    if name == NONE:
        from .rough import rough_basis  # here, since few commands need it

        return Claim("nothing", basis=rough_basis(model, seconds))
    solver, dialect = SOLVERS[name], DIALECTS.get(name, PROFILE)
    if not is_there(name):
        raise SolverMissing(f"{name} is not {'in this Python' if name == SCIPY else 'on the path'}")
    limiting = without_free_rows(model)
    rows = {row: f"R{i}" for i, row in enumerate(limiting.rows)}
    columns = {column: f"C{j}" for j, column in enumerate(model.columns)}
    plain = with_names(limiting, {**rows, model.objective: "OBJ"}, columns)
    plain.name = "model"
    ways = [solver.quick, solver.arguments] if model.is_large and solver.quick else [solver.arguments]
    if begin is not None and solver.begins:
        ways = [solver.begins]
    with tempfile.TemporaryDirectory() as place:
        folder = Path(place)
        out = written(plain, dialect, rounds=True, path="model.mps")
        (folder / "model.mps").write_text(out.text)
        if begin is not None:
            (folder / BEGIN).write_text("".join(f"{line}\n" for line in solver.lines_of(plain, with_new_names(begin, rows, columns))))
        claim = asked_in(folder, solver, out.command, ways, seconds)
    if claim.value is not None and dialect.offset_sign == 0:
        claim.value += model.offset
    if claim.basis and solver.has_far_sides:
        known = [name for name in claim.basis.rows if name in plain.rows]
        claim.basis.rows.update({name: side_of(plain.rows[name], claim.basis.rows[name]) for name in known})
    return renamed_back(claim, {new: old for old, new in rows.items()}, {new: old for old, new in columns.items()}, model.sense)
