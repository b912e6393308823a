"""Certificates: where the programs here take them from, how long they are, and how one digit of them is changed."""
import pathlib

import solvers  # noqa: F401  (which has the way to the package of this repository)

from lpd.basis_file import read_bas
from lpd.exact import Basis
from lpd.number_text import parse

ANSWERS = ("OPTIMAL", "INFEASIBLE", "UNBOUNDED")
DIGITS = "0123456789"


def bits_of(certificate):
    """The bits of the longest numerator or denominator."""
    numbers = (parse(word).value for line in certificate for word in line.split()[2:])
    return max((max(abs(n.numerator), n.denominator).bit_length() for n in numbers), default=0)


def bytes_of(certificate):
    return sum(len(line) + 1 for line in certificate)


def longest_line(certificate):
    return max(map(len, certificate), default=0)


def with_a_digit_changed(dice, certificate):
    """The same with one digit of one number another one. So the number is another one too, or none."""
    place = dice.choice([n for n, line in enumerate(certificate) if len(line.split()) == 3])
    front, _, number = certificate[place].rpartition(" ")
    at = dice.choice([n for n, letter in enumerate(number) if letter in DIGITS])
    other = dice.choice([digit for digit in DIGITS if digit != number[at]])
    return [*certificate[:place], f"{front} {number[:at]}{other}{number[at + 1 :]}", *certificate[place + 1 :]]


def answer_of(line):
    """An answer by its words: its kind and, of an optimal one, the value."""
    word, *value = line.split()
    return word, *(parse(number).value for number in value)


def optima_of(path):
    """For each model of a table its answer: a line of names, and then of each model its parts between tabs. The part in whose name there
    is optimum is the value; where one named outcome says something else than optimal, that is the answer."""
    heads, *lines = [line.lstrip("# ").split("\t") for line in pathlib.Path(path).read_text().splitlines()]
    at = next(n for n, head in enumerate(heads) if "optimum" in head)
    outcome = heads.index("outcome") if "outcome" in heads else None
    words = {line[0]: "OPTIMAL" if outcome is None else line[outcome].upper() for line in lines}
    return {line[0]: answer_of(f"OPTIMAL {line[at]}" if words[line[0]] == "OPTIMAL" else words[line[0]]) for line in lines}


def basis_in(folder, model):
    """The basis of a model in a folder, in which names have no blanks, as clp writes them; so the names that were changed are."""
    text = (pathlib.Path(folder) / f"{model.name}.bas").read_text()
    basis = read_bas(text) or Basis()
    columns, rows = ({name.old.replace(" ", ""): name.new for name in model.names if name.kind == kind} for kind in ("column", "row"))
    of_columns = {columns.get(name, name): status for name, status in basis.columns.items()}
    of_rows = {rows.get(name, name): status for name, status in basis.rows.items()}
    return Basis(of_columns, of_rows, [columns.get(name, name) for name in basis.alone], basis.unread)


def certificate_in(folder, name):
    """The lines of a certificate in a folder, whose names are those of the converted text."""
    return (pathlib.Path(folder) / f"{name}.certificate").read_text(encoding="latin-1").splitlines()
