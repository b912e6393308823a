"""Models in the LP format of CPLEX, which many programs write and glpsol reads too: every digit of every number.

A line holds an objective (Minimize or Maximize), constraints behind Subject To, Bounds, Generals or Binaries, and End. Columns are at
least 0 where no bound says otherwise. What is no linear program is refused by name: quadratic terms, special ordered sets,
semi-continuous columns, constraints behind an indicator.
"""
from __future__ import annotations

import re
from fractions import Fraction
from typing import Dict, List, NamedTuple, NoReturn, Optional, Tuple

from .number_text import parse
from .records import dataclass, field

SECTIONS = (
    ("min", r"minimi[sz]e|minimum|min"),
    ("max", r"maximi[sz]e|maximum|max"),
    ("rows", r"subject\s+to|such\s+that|s\.t\.|st\.?"),
    ("bounds", r"bounds?"),
    ("whole", r"generals?|gen|integers?|int"),
    ("binary", r"binar(?:y|ies)|bin"),
    ("end", r"end"),
    ("foreign", r"semi-continuous|semis?|sos[12]?|sets?|lazy\s+constraints|user\s+cuts|general\s+constraints|gencons?"),
)
HEAD = [(name, re.compile(rf"\s*(?:{words})(?![^\s])(?!\s*[:<>=+*^\[-])", re.I | re.A)) for name, words in SECTIONS]
NUMBER = r"(?:\d+\.?\d*|\.\d+)(?:[eE][+-]?\d+)?"
LETTER = r"\w!\"#$%&(),.;?@`'{}|~/"
# Brackets, as some programs write them, are of a name where they follow at once.
NAME = rf"[A-Za-z!\"#$%&(),;?@_`'{{}}|~/](?:[{LETTER}]|\[[{LETTER}-]+\])*"
TOKEN = re.compile(rf"\s*(?:({NUMBER})|(<=|>=|=<|=>|<|>|=|->)|({NAME})|(\S))", re.A)
COMMA = re.compile(r"[\d.]*,\d+", re.A)  # of a decimal as it is written in many countries
OF_LP_SOLVE = re.compile(r"\s*(?:/[/*]|(?:max|min)(?:imi[sz]e)?\s*:)", re.I)
BEGINS = "a model begins with Minimize or Maximize"
LP_SOLVE = ". If this is the format of lp_solve: lp_solve -S1 -parse_only FILE -wfmps FILE.mps makes MPS of it"
RELATIONS = {"<": "<", "<=": "<", "=<": "<", ">": ">", ">=": ">", "=>": ">", "=": "="}
INFINITE = ("inf", "infinity")
ZERO = Fraction(0)


class Unfit(Exception):
    """Why a line does not fit."""

    def __init__(self, line: int, why: str) -> None:
        self.line = line
        super().__init__(f"line {line}: {why}")


class Token(NamedTuple):
    """A number, a relation, a name, or another sign."""

    kind: str
    text: str
    line: int


@dataclass
class Row:
    name: str
    entries: Dict[str, Fraction]
    lower: Optional[Fraction] = None
    upper: Optional[Fraction] = None


@dataclass
class Column:
    lower: Optional[Fraction] = ZERO
    upper: Optional[Fraction] = None
    is_whole: bool = False


@dataclass
class LpModel:
    """What a text says."""

    is_max: bool = False
    objective: str = "obj"
    costs: Dict[str, Fraction] = field(default_factory=dict)
    offset: Fraction = ZERO
    rows: List[Row] = field(default_factory=list)
    columns: Dict[str, Column] = field(default_factory=dict)

    def column(self, name: str) -> Column:
        return self.columns.setdefault(name, Column())


def tokens_of(text: str, line: int) -> List[Token]:
    found, at = [], 0
    while at < len(text.rstrip()):
        match = TOKEN.match(text, at)
        if match is None:
            break
        kind = ("number", "relation", "name", "sign")[next(n for n, part in enumerate(match.groups()) if part)]
        comma = COMMA.match(text, match.start(1)) if kind == "number" else None
        if comma:
            raise Unfit(line, f"{comma[0]} is no number: a decimal has a point, as {comma[0].replace(',', '.')}")
        if kind == "name" and has_parentheses(match[0].strip()):
            raise Unfit(line, f"{match[0].strip()}: the LP format has no parentheses around terms: multiply out, as 2 x + 2 y")
        found.append(Token(kind, match[match.lastindex or 0], line))
        at = match.end()
    return found


def has_parentheses(name: str) -> bool:
    """Whether a name has parentheses that are meant as those of a formula: some that begin it, or one without the other."""
    depth = 0
    for letter in name:
        depth += {"(": 1, ")": -1}.get(letter, 0)
        if depth < 0:
            return True
    return depth > 0 or name.startswith("(")


def sections_of(text: str) -> List[Tuple[str, List[Token]]]:
    """The sections with their tokens, in their order."""
    found: List[Tuple[str, List[Token]]] = []
    for number, line in enumerate(text.splitlines(), 1):
        bare = line.partition("\\")[0]
        head = next(((name, match) for name, head in HEAD for match in [head.match(bare)] if match), None)
        if head is not None:
            if head[0] == "foreign":
                raise Unfit(number, f"{bare.strip()}: lpd solves linear programs, which have none of that")
            found.append((head[0], []))
            bare = bare[head[1].end() :]
            if head[0] == "end":
                return found
        if not bare.strip():
            continue
        if not found:
            raise Unfit(number, BEGINS + (LP_SOLVE if OF_LP_SOLVE.match(bare) else ""))
        found[-1][1].extend(tokens_of(bare, number))
    return found


class Tokens:
    """Takes the tokens of a section one after the other."""

    def __init__(self, tokens: List[Token]) -> None:
        self.tokens, self.at = tokens, 0

    def peek(self, ahead: int = 0) -> Token:
        last = self.tokens[-1].line if self.tokens else 0
        return self.tokens[self.at + ahead] if self.at + ahead < len(self.tokens) else Token("end", "", last)

    def next(self) -> Token:
        token = self.peek()
        self.at += 1
        return token

    def unfit(self, wanted: str) -> NoReturn:
        token = self.peek()
        raise Unfit(token.line, f"{wanted} was expected, and not {token.text!r}" if token.text else f"{wanted} was expected at the end of a section")

    def label(self) -> Optional[str]:
        """The name in front of a colon."""
        if self.peek().kind == "name" and self.peek(1).text == ":":
            name = self.next().text
            self.next()
            return name
        return None

    def sign(self) -> int:
        """The product of the signs that stand here."""
        found = 1
        while self.peek().text in ("+", "-") and self.peek().kind == "sign":
            found *= -1 if self.next().text == "-" else 1
        return found

    def number(self) -> Optional[Fraction]:
        """A number with its sign; nothing where it is infinite."""
        sign = self.sign()
        token = self.peek()
        if token.kind == "name" and token.text.lower() in INFINITE:
            self.next()
            return None
        if token.kind == "name":
            raise Unfit(token.line, f"a number was expected, and not {token.text!r}: columns stand on the left side alone")
        if token.kind != "number":
            self.unfit("a number")
        return sign * parse(self.next().text).value

    def relation(self) -> str:
        if self.peek().kind != "relation" or self.peek().text not in RELATIONS:
            self.unfit("<=, >= or =")
        return RELATIONS[self.next().text]

    def sum(self) -> Tuple[Dict[str, Fraction], Fraction]:
        """The coefficients of a linear expression, of columns that may come more than once, and its constant."""
        entries: Dict[str, Fraction] = {}
        constant, is_first = ZERO, True
        while is_first and self.peek().kind in ("number", "name") or self.peek().text in ("+", "-"):
            is_first = False
            sign = self.sign()
            size = parse(self.next().text).value if self.peek().kind == "number" else Fraction(1)
            is_alone = self.tokens[self.at - 1].kind == "number"
            if self.peek().text == "*":
                self.next()
            if self.peek().kind == "name" and self.peek(1).text != ":":
                name = self.next().text
                entries[name] = entries.get(name, ZERO) + sign * size
            elif is_alone:
                constant += sign * size
            else:
                self.unfit("a column")
        if self.peek().text in ("[", "^"):
            raise Unfit(self.peek().line, "quadratic terms, which no linear program has")
        return entries, constant


def read_objective(model: LpModel, tokens: Tokens) -> None:
    model.objective = tokens.label() or model.objective
    model.costs, model.offset = tokens.sum()
    if tokens.peek().text:
        tokens.unfit("a term of the objective")
    for name in model.costs:
        model.column(name)


def read_row(model: LpModel, tokens: Tokens) -> None:
    """A constraint: a sum and a number, or a number, a sum and a number. One without a name has its line's, as with glpsol."""
    line = tokens.peek().line
    name = tokens.label() or f"r.{line}"
    if tokens.peek().kind == "name" and name == f"r.{line}" and tokens.peek(1).kind in ("number", "name"):
        if tokens.peek(1).kind == "name" and tokens.peek(2).text == ":":
            raise Unfit(line, f"the name of a constraint has no blanks, as {tokens.peek().text}_{tokens.peek(1).text}:")
        raise Unfit(line, f"the name of a constraint ends with a colon, as {tokens.peek().text}:")
    entries, left = tokens.sum()
    first = tokens.relation()
    ends: List[Tuple[str, Optional[Fraction]]] = []
    if not entries:
        ends.append(({"<": ">", ">": "<"}.get(first, first), left))
        entries, left = tokens.sum()
        first = tokens.relation() if tokens.peek().kind == "relation" else ""
    if tokens.peek().text == "->" or first == "->":
        raise Unfit(tokens.peek().line, "a constraint behind an indicator, which no linear program has")
    if first:
        ends.append((first, tokens.number()))
    must_be_next(tokens)
    row = Row(name, entries)
    for relation, end in ends:
        limit = None if end is None else end - left
        if relation in "=>":
            row.lower = limit
        if relation in "=<":
            row.upper = limit
    if any(other.name == name for other in model.rows):
        raise Unfit(tokens.peek(-1).line, f"there is already a constraint {name}")
    model.rows.append(row)
    for column in entries:
        model.column(column)


def must_be_next(tokens: Tokens) -> None:
    """Behind the last number of a constraint the next one stands, on a line of its own or with its name."""
    last, token = tokens.peek(-1), tokens.peek()
    if token.line == last.line and token.kind in ("name", "number", "sign") and not (token.kind == "name" and tokens.peek(1).text == ":"):
        raise Unfit(token.line, f"one number is on the right side of a constraint, and {token.text!r} stands behind it: columns stand on the left side alone")


def set_bound(column: Column, relation: str, number: Optional[Fraction]) -> None:
    if relation in "=>":
        column.lower = number
    if relation in "=<":
        column.upper = number


def read_bound(model: LpModel, tokens: Tokens) -> None:
    """Free, or one bound, or two around the column."""
    first: Optional[Tuple[str, Optional[Fraction]]] = None
    if tokens.peek().kind != "name" or tokens.peek().text.lower() in INFINITE:
        number = tokens.number()
        relation = tokens.relation()
        first = {"<": ">", ">": "<"}.get(relation, relation), number
    if tokens.peek().kind != "name":
        tokens.unfit("a column")
    column = model.column(tokens.next().text)
    if first:
        set_bound(column, *first)
    if tokens.peek().text.lower() == "free" and not first:
        tokens.next()
        column.lower = column.upper = None
    elif tokens.peek().kind == "relation":
        relation = tokens.relation()
        set_bound(column, relation, tokens.number())
    elif not first:
        tokens.unfit("free, or a relation")


def read_whole(model: LpModel, tokens: Tokens, is_binary: bool) -> None:
    if tokens.peek().kind != "name":
        tokens.unfit("a column")
    column = model.column(tokens.next().text)
    column.is_whole = True
    if is_binary:
        column.lower, column.upper = ZERO, Fraction(1)


def read_lp(text: str) -> LpModel:
    """The model that a text spells."""
    model, sections = LpModel(), sections_of(text)
    if not sections or sections[0][0] not in ("min", "max"):
        raise Unfit(1, BEGINS)
    model.is_max = sections[0][0] == "max"
    for name, given in sections:
        tokens = Tokens(given)
        if name in ("min", "max"):
            read_objective(model, tokens)
        while tokens.peek().kind != "end":
            if name == "rows":
                read_row(model, tokens)
            elif name == "bounds":
                read_bound(model, tokens)
            else:
                read_whole(model, tokens, name == "binary")
    return model
