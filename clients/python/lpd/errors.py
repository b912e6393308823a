"""What goes wrong, as exceptions that say in words what was expected, what stood there, and what to do."""
from __future__ import annotations

from fractions import Fraction
from typing import Dict, NamedTuple, Optional, Sequence, Type

from .number_text import NotANumber, Number, parse


def readable(text: str) -> str:
    """A text whose characters stand for bytes, as UTF-8 where these are that, so that people can read it."""
    try:
        return text.encode("latin-1").decode("utf-8")
    except UnicodeError:
        return text


def quoted(text: Optional[str]) -> str:
    """A line, behind the words that say what is wrong with it."""
    return "" if text is None else f": {readable(text).strip()[:120]!r}"


class LpdError(Exception):
    """Whatever goes wrong in this package. A command ends with the status `ends_with` then."""

    ends_with = 3

    def told(self) -> str:
        """What a command says then."""
        return f"lpd: {self}"


class ProgramMissing(LpdError):
    """There is no program to talk to."""


class ProgramEnded(LpdError):
    """The program ended before it replied."""

    def __init__(self, status: Optional[int], complaint: str) -> None:
        self.status, self.complaint = status, complaint
        said = f" It said: {complaint}" if complaint else ""
        super().__init__(f"lpd ended with status {status} before it replied: {STATUSES.get(status, 'a status of its own')}.{said}")


class CommandMissing(ProgramEnded):
    """The program does not know a command, which later versions of it have."""

    def __init__(self, command: str, complaint: str = "") -> None:
        super().__init__(2, complaint)
        self.command = command

    def __str__(self) -> str:
        return f"this program has no command {self.command}"


class Unreadable(LpdError):
    """A file holds no text of a model."""

    ends_with = 9


class LinkFailed(LpdError):
    """A connection to a server failed. It is closed."""


class ConnectFailed(LinkFailed):
    """There is no server at the address, or it does not answer."""


class LinkClosed(LinkFailed):
    """The connection was closed before the whole reply came."""


class LinkTimeout(LinkFailed):
    """The whole reply did not come in the time that it may take."""


class OutOfMemory(LpdError):
    """Memory ran out in a command, and the session is as it was."""

    def __init__(self) -> None:
        super().__init__("lpd ran out of memory in this command; the session is as it was before it")


class Unexpected(LpdError):
    """The program replied something that the protocol does not have here."""


class Refused(LpdError):
    """A command, a text or a certificate is refused. `reply` is the line of the protocol, from ERR on."""

    ends_with = 9
    code = 0
    hint = ""

    def __init__(self, reply: str, words: str) -> None:
        self.reply = reply
        super().__init__(f"{words}. {self.hint}" if self.hint else words)

    def told(self) -> str:
        return f"{readable(self.reply)}\n{self}"


class BadCommand(Refused):
    code = 1
    hint = "docs/PROTOCOL.md lists the commands with their words."


class BadNumber(Refused):
    code = 2
    hint = "Numbers are decimals as -1.5e3 or quotients as 2/3; a budget is digits from 1 to 1000000."


class NumberTooWide(Refused):
    code = 3
    hint = "Numerator and denominator are at most 2^127 - 1."


class NoModel(Refused):
    code = 4
    hint = "Load a model first."


class UnknownName(Refused):
    code = 5
    hint = "Names are those of the model's rows or columns, byte by byte."

    def __init__(self, reply: str, words: str, name: str) -> None:
        self.name = name
        super().__init__(reply, words)


class NameTaken(UnknownName):
    code = 6
    hint = "Rows and the objective share their names, and columns theirs: choose another, or delete the old one first."


class LimitReached(Refused):
    code = 7
    hint = "Models have at most 256 rows and 512 columns."


class TextFault(Refused):
    """A text spells no model. `line` is its first wrong line, and `fault` the number of what is wrong with it. `is_large` says whether
    a model of LARGE_ROWS and LARGE_COLUMNS would have been taken."""

    code = 8

    def __init__(self, line: int, fault: int, text: Optional[str] = None, is_large: bool = False) -> None:
        self.line, self.fault, self.text = line, fault, text
        what, self.hint = FAULTS[fault]
        if fault == TOO_MUCH:
            what = limit_passed(text, is_large)
        self.is_far = fault == TOO_WIDE and any(is_far(word) for word in (text or "").split())
        if self.is_far:
            what, self.hint = FAR
        super().__init__(f"ERR 8 MPS {line} M{fault}", f"line {line} of the model's text: {what} (fault {fault}){quoted(text)}")


class NoAnswer(Refused):
    code = 9
    hint = "Solve the model again: loading and editing discard the answer."


class TooWideForFixed(Refused):
    code = 10
    hint = "Fixed form has 8 bytes for a name and 12 for a number: write free form."

    def __init__(self, reply: str, words: str, item: str) -> None:
        self.item = item
        super().__init__(reply, words)


class LineTooLong(Refused):
    code = 11
    hint = "A line has at most 16384 bytes."


class NameRepeated(UnknownName):
    code = 12
    hint = "Give each name once."


class BadName(Refused):
    code = 13
    hint = "A name is 1 to 64 bytes from ! to ~, and no row is named 'MARKER'."


def number_in(word: str) -> Number:
    """The number that a word is, or else 0."""
    try:
        return parse(word)
    except NotANumber:
        return Number(Fraction(0), True)


def is_far(word: str) -> bool:
    """Whether a word is a number with an exponent that is read nowhere, at any width."""
    return number_in(word).is_cut


class CertificateFault(Refused):
    """A text spells no certificate. `line` is the first that does not fit, and `is_wide` says whether that is for a number past
    127 bits alone, which lpd check --wide takes, and the checker in Python with wide=True (--wide). A number whose exponent is
    past 16,384 neither takes."""

    code = 14
    hint = (
        "The first line is OPTIMAL, INFEASIBLE, UNBOUNDED or CLASH and a column; then come lines of a letter, a name and a number "
        "(x and y for OPTIMAL, y for INFEASIBLE, x and r for UNBOUNDED); the last line is END. Blank lines and comments do not fit."
    )

    def __init__(self, line: int, text: Optional[str] = None) -> None:
        self.line, self.text = line, text
        words = (text or "").split()
        found = number_in(words[2]) if len(words) == 3 and words[0] in ("x", "y", "r") else number_in("")
        self.is_wide = not found.is_narrow and not found.is_cut
        what = "does not fit"
        if found.is_cut:
            what, self.hint = "has a number whose exponent is past 16384", EXPONENTS.capitalize()
        elif self.is_wide:
            what = "has a number past 127 bits"
            self.hint = "For numbers of any width use --wide, as in lpd check --wide, and in Python wide=True."
        elif line == 1 and words[:1] == ["OPTIMAL"] or line == 2 and words[:1] in ANSWERS:
            self.hint = "This is a certificate behind an answer: drop the first line, as sed 1d does."
        told = f"line {line} of the certificate {what}{quoted(text)}"
        if text is None:
            told = "there is no certificate behind the text of the model" if line == 1 else f"the certificate ends before line {line}, without END"
        super().__init__(f"ERR 14 CERT {line}", told)


ANSWERS = (["OPTIMAL"], ["INFEASIBLE"], ["UNBOUNDED"], ["CLASH"])


class FreeRow(Refused):
    code = 16
    hint = "A free row (type N) has no limits, and so no range: delete it, and add it once more with another type."

    def __init__(self, reply: str, words: str, name: str) -> None:
        self.name = name
        super().__init__(reply, words)


class BasisFault(Refused):
    """A file spells no basis of the model. `line` is its first wrong line, and `fault` the number of what is wrong."""

    code = 17

    def __init__(self, line: int, fault: int, text: Optional[str] = None) -> None:
        self.line, self.fault, self.text = line, fault, text
        what, self.hint = BASIS_FAULTS[fault]
        super().__init__(f"ERR 17 BAS {line} B{fault}", f"line {line} of the basis file: {what} (fault {fault}){quoted(text)}")


class FaultWords(NamedTuple):
    what: str
    hint: str


TOO_WIDE, TOO_MUCH = 10, 16
LIMITS = (TOO_WIDE, TOO_MUCH)
LONGEST = 16384  # bytes of a line


def limit_passed(text: Optional[str], is_large: bool) -> str:
    """Which limit a line passes: its own length; or it names a row, which a card of ROWS does with two words, or a column."""
    if text is None:
        return FAULTS[TOO_MUCH].what
    if len(text) > LONGEST:
        return f"it has {len(text)} bytes, and a line has at most {LONGEST}"
    words = text.split()
    rows, columns = (65536, 131072) if is_large else (256, 512)
    what = f"rows, of which there are at most {rows}" if len(words) == 2 else f"columns, of which there are at most {columns}"
    return f"{words[-1] if len(words) == 2 else words[0]} is one too many of the {what}"


EXPONENTS = "with --wide too, a decimal without the zeros at its end has an exponent from -16384 to 16384."
FAR = FaultWords(
    "this number does not fit 127 bits, and its exponent is past 16384",
    f"Numerator and denominator are at most 2^127 - 1; {EXPONENTS}",
)
ORDER = "Sections come as NAME, OBJSENSE, ROWS, COLUMNS, RHS, RANGES, BOUNDS, ENDATA, each at most once."
ADJACENT = "The cards of a column are adjacent."
FAULTS: Dict[int, FaultWords] = {
    1: FaultWords("this section may not come here", ORDER),
    2: FaultWords("unknown section", ORDER + " A line that begins in column 1 is a section."),
    3: FaultWords(
        "wrong shape of a card",
        "A card has one or two pairs of a name and a number, and more of them stand on cards of their own; docs/FORMATS.md has the "
        "fields of each section's cards, in free and in fixed form.",
    ),
    4: FaultWords("unknown type of a row", "Types are N, L, G and E."),
    5: FaultWords("this row is there already", "Each row is named once, and no row is named as the objective is."),
    6: FaultWords("unknown row", "Each row that a card names has to stand in ROWS."),
    7: FaultWords("this column is there already", ADJACENT),
    8: FaultWords("this row has a number here already", "A column has one number for each row, and a set one right side and one range."),
    9: FaultWords("not a number", "Numbers are decimals as -1.5e3 or quotients as 2/3."),
    TOO_WIDE: FaultWords("this number does not fit 127 bits", "Numerator and denominator are at most 2^127 - 1."),
    11: FaultWords("unknown kind of a bound, or an infinite value that it does not take", "Kinds are UP, LO, FX, FR, MI and PL."),
    12: FaultWords("integer columns", "lpd solves linear programs: take the markers and the kinds BV, LI and UI out to solve the relaxation."),
    13: FaultWords("semi-continuous columns", "lpd solves linear programs: give the column a plain bound."),
    14: FaultWords("unknown column", "Each column that BOUNDS names has to stand in COLUMNS."),
    15: FaultWords("there is no objective", "ROWS needs a row of type N before COLUMNS."),
    16: FaultWords(
        "too many rows or columns, or too long a line",
        "A model has at most 256 rows and 512 columns, or for the commands with --wide 65536 and 131072, and a line 16384 bytes.",
    ),
    17: FaultWords("this is no name", "A name is 1 to 64 bytes from ! to ~, and no row is named 'MARKER'."),
    18: FaultWords("a range of the objective", "The objective has no range: take the card out."),
    19: FaultWords("the text ends before ENDATA", "ENDATA, from column 1 on, is the last line of a text."),
}
BASIS_FAULTS: Dict[int, FaultWords] = {
    1: FaultWords("unknown section", "A line that begins in column 1 is NAME, which comes first, or ENDATA."),
    2: FaultWords("no card of a basis", "Cards are XU and XL with a column and a row, and UL and LL with a column."),
    3: FaultWords("unknown column", "Columns are those of the model."),
    4: FaultWords("unknown row", "Rows are those of the model, without its objective."),
    5: FaultWords("this column or row has a card already", "Each has at most one card."),
    6: FaultWords("this column has no upper bound", "Take the card out: then it is at its lower bound, or at 0."),
    7: FaultWords("the file ends before ENDATA", "ENDATA, from column 1 on, is the last line of a basis file."),
}
STATUSES: Dict[Optional[int], str] = {
    0: "its input ended",
    2: "it was started with words that it does not know",
    3: "a read of its input failed",
    4: "a write of its output failed",
    5: "memory ran out",
    6: "its input ended inside a text or a certificate",
    8: "its input has more than 2^26 bytes",
}


def refusal(words: Sequence[str], line: str, body: Sequence[str] = ()) -> LpdError:
    """The exception for a reply of these words, from ERR on, to a command with this line and body."""
    try:
        return refusal_of(words, line, body)
    except (IndexError, KeyError, ValueError):
        return no_reply(words, line)


def no_reply(words: Sequence[str], line: str) -> Unexpected:
    return Unexpected(f"lpd replied {' '.join(words)[:200]!r} to {line[:200]!r}, which is no reply to this command")


def refusal_of(words: Sequence[str], line: str, body: Sequence[str]) -> LpdError:
    reply, code, last = " ".join(words), words[1], words[-1]

    def stood(number: int) -> Optional[str]:
        return body[number - 1] if number <= len(body) else None

    if code == "8":
        return TextFault(int(words[3]), int(last[1:]), stood(int(words[3])))
    if code == "17":
        return BasisFault(int(words[3]), int(last[1:]), stood(int(words[3])))
    if code == "14":
        return CertificateFault(int(last), stood(int(last)))
    named: Dict[str, Type[UnknownName]] = {"5": UnknownName, "6": NameTaken, "12": NameRepeated}
    if code in named:
        what = {"5": "there is no row or column", "6": "there is already a row or column", "12": "this name comes twice:"}[code]
        return named[code](reply, f"{what} {readable(last)!r}, in {readable(line)!r}", last)
    if code == "10":
        return TooWideForFixed(reply, f"{readable(last)!r} is too wide for fixed form", last)
    if code == "16":
        return FreeRow(reply, f"{readable(last)!r} is a free row, in {readable(line)!r}", last)
    plain: Dict[str, Type[Refused]] = {"1": BadCommand, "2": BadNumber, "3": NumberTooWide, "4": NoModel, "7": LimitReached, "9": NoAnswer}
    plain.update({"11": LineTooLong, "13": BadName})
    whats = {
        "1": "lpd does not know this command, or its words are not of it",
        "2": "a word is not a number that the command takes",
        "3": "a number does not fit 127 bits",
        "4": "the session holds no model",
        "7": f"the model already has {last} {words[-2].lower()}" if code == "7" else "",
        "9": "there is no answer",
        "11": "the line is too long",
        "13": "this is no name for a row or a column",
    }
    if code in plain:
        return plain[code](reply, f"{whats[code]}, in {readable(line)[:200]!r}")
    return no_reply(words, line)
