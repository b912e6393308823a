"""A session of the program, or of a server: a model, its edits, its answers and their certificates."""
from __future__ import annotations

from fractions import Fraction
from types import TracebackType
from typing import TYPE_CHECKING, List, Mapping, Optional, Protocol, Sequence, Tuple, Type, Union

from .certificate import check_lines
from .errors import OutOfMemory, Unexpected, no_reply, refusal
from .model import Model, lines_of, read_lines, read_model, words_of
from .number_text import NotANumber, parse, shown
from .program import Program
from .replies import Accepted, Answer, Infeasible, Known, Loaded, Optimal, Past, Rejected, Spent, Unbounded, Verdict
from .replies import Basis, Cold, Fell, Found, Full, Publication, Published, Raced, Same, Start, Unpublished

if TYPE_CHECKING:
    from .irreducible import Irreducible
    from .ranging import Ranges
    from .wide import WideSolved

# What may be given as a number: an int, a fraction, or its text, as "0.1". A float is not, since it is seldom what it looks like.
Numeric = Union[int, Fraction, str]
MOST_DIGITS = 9  # of a count in a reply


def number_word(value: Numeric) -> str:
    if isinstance(value, float):
        raise TypeError(f"{value!r} is a float: give the number as a text or a Fraction, so that it is exact")
    return value if isinstance(value, str) else shown(Fraction(value))


def value_of(text: str) -> Fraction:
    """A number of a reply."""
    try:
        return parse(text).value
    except NotANumber:
        raise Unexpected(f"lpd replied {text[:200]!r} where a number stands") from None


def count_of(text: str) -> int:
    if not (text.isascii() and text.isdigit() and len(text) <= MOST_DIGITS):
        raise Unexpected(f"lpd replied {text[:200]!r} where a count stands")
    return int(text)


def known_of(words: Sequence[str]) -> Optional[Known]:
    if len(words) == 2 and words[0] == "OPTIMAL":
        return Optimal(value_of(words[1]))
    if list(words) == ["INFEASIBLE"]:
        return Infeasible()
    return Unbounded() if list(words) == ["UNBOUNDED"] else None


def past_of(words: Sequence[str]) -> Optional[Past]:
    return Past(words[1], value_of(words[2]), value_of(words[3])) if len(words) == 4 and words[0] == "PAST" else None


def verdict_of(words: Sequence[str]) -> Optional[Verdict]:
    known = known_of(words[1:]) if words[:1] == ["YES"] else None
    if known is not None:
        return Accepted(known)
    return Rejected(count_of(words[1])) if len(words) == 2 and words[0] == "NO" else past_of(words)


FALLS = ("SINGULAR", "UNFIT", "PAST", "SPENT")


def start_of(words: Sequence[str]) -> Optional[Start]:
    if len(words) == 2 and words[0] == "BASIS":
        return Basis(count_of(words[1]))
    if len(words) == 3 and words[0] == "FELL" and words[2] in FALLS:
        return Fell(count_of(words[1]), words[2])
    return Cold() if list(words) == ["COLD"] else None


def publication_of(words: Sequence[str]) -> Optional[Publication]:
    if len(words) == 2 and words[0] == "PUBLISHED":
        return Published(count_of(words[1]))
    if len(words) == 2 and words[0] == "RACED":
        return Raced(count_of(words[1]))
    if len(words) == 2 and words[0] == "FULL":
        return Full(count_of(words[1]))
    if list(words) == ["SAME"]:
        return Same()
    return Unpublished() if list(words) == ["NONE"] else None


def found_of(words: Sequence[str]) -> Optional[Found]:
    at = words.index("PIVOTS") if "PIVOTS" in words else len(words)
    start, publication = start_of(words[1:at]), publication_of(words[at + 2 :])
    if words[0] != "HOW" or start is None or publication is None:
        return None
    return Found(start, None if words[at + 1] == "-" else count_of(words[at + 1]), publication)


class Transport(Protocol):
    """What sessions talk over: a Program, or a Link."""

    def begin_session(self) -> List[str]:
        """The words that stand in front of each command of a new session, and of each reply to it."""

    def end_session(self, front: Sequence[str]) -> None:
        """The session with these words has ended."""

    def send(self, command: bytes) -> None:
        """Sends the lines of one command."""

    def line(self) -> str:
        """The next line of the reply."""

    def close(self) -> None:
        """Ends all sessions."""


class Session:
    """One session. Without a transport it starts a program of its own. A transport that it owns ends with it. Use it as
    a context manager, or close it."""

    def __init__(self, transport: Optional[Transport] = None, owns_transport: bool = False) -> None:
        self.owns_transport = owns_transport or transport is None
        self.transport = transport or Program()
        self.front = self.transport.begin_session()
        self.is_open = True

    def __enter__(self) -> Session:
        return self

    def __exit__(self, kind: Optional[Type[BaseException]], error: Optional[BaseException], trace: Optional[TracebackType]) -> None:
        if self.owns_transport:
            self.is_open = False
            self.transport.close()
        elif error is None:
            self.close()

    def close(self) -> None:
        """Resets the session, whose number is free again; ends a program of its own, or a connection."""
        if self.is_open:
            self.is_open = False
            try:
                self.expect("BYE", ["QUIT"])
                self.transport.end_session(self.front)
            finally:
                if self.owns_transport:
                    self.transport.close()

    # ---- models

    def load(self, text: str, fixed: bool = False) -> Loaded:
        """Holds the model that a text spells, from its first line to ENDATA."""
        body = body_of(text, fixed)
        words = self.ask(["LOAD", "FIXED" if fixed else "FREE"], body)
        if len(words) != 3 or words[0] != "LOADED":
            raise unexpected(words)
        return Loaded(count_of(words[1]), count_of(words[2]))

    def write(self, fixed: bool = False) -> str:
        """The text of the model."""
        return "".join(f"{line}\n" for line in self.lines("TEXT", ["WRITE", "FIXED" if fixed else "FREE"]))

    def add_row(self, name: str, kind: str, rhs: Numeric, range: Optional[Numeric] = None) -> None:
        self.edit("ADDROW", name, kind, number_word(rhs), *([] if range is None else [number_word(range)]))

    def delete_row(self, name: str) -> None:
        self.edit("DELROW", name)

    def add_column(self, name: str, cost: Numeric, entries: Optional[Mapping[str, Numeric]] = None) -> None:
        pairs = [word for row, value in (entries or {}).items() for word in (row, number_word(value))]
        self.edit("ADDCOL", name, number_word(cost), *pairs)

    def delete_column(self, name: str) -> None:
        self.edit("DELCOL", name)

    def set_cost(self, column: str, value: Numeric) -> None:
        self.edit("SETCOST", column, number_word(value))

    def set_coefficient(self, row: str, column: str, value: Numeric) -> None:
        self.edit("SETCOEF", row, column, number_word(value))

    def set_rhs(self, row: str, value: Numeric) -> None:
        self.edit("SETRHS", row, number_word(value))

    def set_range(self, row: str, value: Optional[Numeric]) -> None:
        self.edit("SETRANGE", row, "NONE" if value is None else number_word(value))

    def set_bounds(self, column: str, lower: Optional[Numeric], upper: Optional[Numeric]) -> None:
        """Sets both bounds; None is no bound."""
        self.edit("SETBOUND", column, "-inf" if lower is None else number_word(lower), "inf" if upper is None else number_word(upper))

    def set_objective(self, row: str) -> None:
        """Gives the objective the numbers of a free row, in place of its own: the row's coefficients as costs, and the negative of
        its right side as the offset. The objective keeps its name, and the row stays."""
        from .objective import edit

        edit(self, read_model(self.write()), row)

    def set_sense(self, maximize: bool) -> None:
        self.edit("SENSE", "MAX" if maximize else "MIN")

    # ---- answers

    def budget(self, pivots: int) -> None:
        """Each later solve makes at most so many pivots and flips."""
        self.edit("BUDGET", str(pivots))

    def solve(self) -> Answer:
        words = self.ask(["SOLVE"])
        spent = Spent(count_of(words[1])) if len(words) == 2 and words[0] == "SPENT" else None
        answer = known_of(words) or past_of(words) or spent
        if answer is None:
            raise unexpected(words)
        return answer

    def solve_checked(self, model: Optional[Model] = None) -> Tuple[Answer, List[str]]:
        """Solves, and has both checkers accept the certificate of what is answered: the program's, and the one in Python, for the
        model as it is given here, or as the program writes it. Past and Spent have no certificate."""
        answer, certificate = self.solve(), self.certificate()
        if certificate:
            for verdict in (self.check(certificate), check_lines(model or read_model(self.write()), certificate)):
                if not isinstance(verdict, Accepted) or verdict.known != answer:
                    raise Unexpected(f"a checker says {verdict} to the certificate of {answer}")
        return answer, certificate

    def solve_wide(self) -> "WideSolved":
        """The answer to the model in numbers of any width, and its certificate, which `lpd check --wide` judges. Nothing of it is
        kept: `certificate` and `how` go on speaking of the last `solve`."""
        from .wide import read_wide_solved

        return read_wide_solved(self.lines("WIDE", ["WIDE"]), "WIDE")

    def certificate(self) -> List[str]:
        """The lines of the last answer's certificate; none after Past and Spent."""
        return self.lines("CERT", ["CERT"])

    def how(self) -> Found:
        """How the last answer was found."""
        words = self.ask(["HOW"])
        found = found_of(words)
        if found is None:
            raise unexpected(words)
        return found

    def check(self, certificate: Union[str, Sequence[str]]) -> Verdict:
        """The verdict of the proved checker on a certificate for the model."""
        lines = lines_of(certificate) if isinstance(certificate, str) else list(certificate)
        end = next((n for n, line in enumerate(lines, 1) if words_of(line) == ["END"]), None)
        words = self.ask(["CHECK"], lines + ["END"] if end is None else lines[:end])
        verdict = verdict_of(words)
        if verdict is None:
            raise unexpected(words)
        return verdict

    # ---- what the program's commands of one text say of the model; those modules import this one

    def ranges(self) -> Ranges:
        """The ranges of all costs and right sides of the model, by a basis with which a program of this machine ends."""
        from .ranging import ranges

        return ranges(self.write(), path=self.path())

    def conflict(self) -> Irreducible:
        """Limits of the model that contradict each other, none of which can be left out, as a program of this machine has them."""
        from .irreducible import iis

        return iis(self.write(), path=self.path())

    def path(self) -> Optional[str]:
        """Where the program is that the session is of, if it is one of this machine."""
        return self.transport.path if isinstance(self.transport, Program) else None

    # ---- commands

    def edit(self, *words: str) -> None:
        self.expect("OK", words)

    def expect(self, reply: str, words: Sequence[str]) -> None:
        found = self.ask(words)
        if found != [reply]:
            raise unexpected(found)

    def ask(self, words: Sequence[str], body: Sequence[str] = ()) -> List[str]:
        """The words of a reply of one line."""
        for word in words:
            if not word or any(c in " \t\r\n" for c in word):
                raise ValueError(f"{word!r} is no word of a command: words are not empty, and have no blanks")
        line = " ".join([*self.front, *words])
        self.transport.send(encoded([line, *body]))
        reply = self.transport.line()
        front, replied = reply.split(" ")[: len(self.front)], reply.split(" ")[len(self.front) :]
        if front != self.front:
            raise Unexpected(f"lpd replied {reply[:200]!r} to {line!r}, which is another session's")
        if not replied:
            raise no_reply(replied, line)
        if replied == ["MEMORY"]:
            raise OutOfMemory()
        if replied[0] == "ERR":
            raise refusal(replied, line, body)
        return replied

    def lines(self, kind: str, words: Sequence[str]) -> List[str]:
        """The lines after a reply of this kind."""
        replied = self.ask(words)
        if len(replied) != 2 or replied[0] != kind:
            raise unexpected(replied)
        return [self.transport.line() for _ in range(count_of(replied[1]))]


def encoded(lines: Sequence[str]) -> bytes:
    """The lines as bytes, one for each character."""
    text = "".join(f"{line}\n" for line in lines)
    try:
        return text.encode("latin-1")
    except UnicodeEncodeError as error:
        raise ValueError(f"{text[error.start]!r} is no byte: read a file of another encoding as latin-1") from None


def connect(host: str, port: int, timeout: float = 60.0, tls: bool = False, ca: Optional[str] = None) -> Session:
    """A session of the server at this address, over a connection that ends with it. Connecting, and each reply, may take
    `timeout` seconds. With `tls` the link is encrypted, and the certificate of the other side is one that the file `ca`
    vouches for, or without it the system."""
    from .link import Link  # here, since most sessions are of a program of this machine

    return Session(Link(host, port, timeout, tls, ca), owns_transport=True)


def body_of(text: str, fixed: bool) -> List[str]:
    """The lines of a text up to ENDATA, which ends the body of LOAD. A text without one has a fault, which is raised here."""
    lines = lines_of(text)
    for n, line in enumerate(lines, 1):
        if line[:1] not in (" ", "\t") and words_of(line)[:1] == ["ENDATA"]:
            return lines[:n]
    read_lines(lines, fixed)
    raise Unexpected("a text without ENDATA was read as a model")


def unexpected(words: Sequence[str]) -> Unexpected:
    return Unexpected(f"lpd replied {' '.join(words)[:200]!r}, which is no reply to this command")
