"""Which lines lpd may write, as docs/PROTOCOL.md has them, and replies that may stand in each other's place."""
from __future__ import annotations

import re
from pathlib import Path
from typing import List, NamedTuple, Pattern

PROTOCOL = Path(__file__).resolve().parent.parent.parent / "docs" / "PROTOCOL.md"
NUMBER = r"-?\d+(?:\.\d+|/\d+)?"
PAST = rf"PAST (?:ADD|SUB|MUL|DIV|CMP) {NUMBER} {NUMBER}"
ANSWER = rf"OPTIMAL {NUMBER}|INFEASIBLE|UNBOUNDED"
START = r"(?:COLD|BASIS \d+|FELL \d+ (?:SINGULAR|UNFIT|PAST|SPENT))"
PUBLISHED = r"(?:NONE|SAME|PUBLISHED \d+|FULL \d+|RACED \d+)"
REPLIES = [
    r"LOADED \d+ \d+", r"TEXT \d+", r"CERT \d+", r"WIDE [1-9]\d*", "OK", "BYE", "MEMORY", ANSWER, PAST, r"SPENT \d+",
    rf"HOW {START} PIVOTS (?:\d+|-) {PUBLISHED}", rf"YES (?:{ANSWER})", r"NO [1-5]",
]
# What stands behind the word of an error.
BEHIND = {5: r" [^ \t]+", 6: r" [^ \t]+", 7: r" (?:ROWS 256|COLUMNS 512)", 8: r" \d+ M\d+", 10: r" [^ \t]+", 12: r" [^ \t]+", 14: r" \d+", 16: r" [^ \t]+"}
# Lines of the commands that read a text.
OF_TEXTS = [
    ANSWER, PAST, r"SPENT \d+", rf"YES (?:{ANSWER})", r"NO [1-5]", "OPEN", "COLD", r"(?:WARM|FELL) PIVOTS \d+",
    r"FELL (?:SINGULAR|UNFIT|PAST|SPENT) PIVOTS (?:\d+|-)", r"COLD PIVOTS (?:\d+|-)", rf"RANGE (?:{NUMBER}|NONE) (?:{NUMBER}|NONE) SLOPE {NUMBER}",
]


class Unknown(Exception):
    """A line that docs/PROTOCOL.md does not know."""


class Reply(NamedTuple):
    """A session, the first line without its number, and the lines that follow it."""

    session: int
    line: bytes
    more: List[bytes]

    @property
    def word(self) -> str:
        words = self.line.decode("latin-1").split(" ")
        return " ".join(words[:2]) if words[0] in ("ERR", "YES", "PAST") else words[0]


def error_words() -> "dict[int, str]":
    """The errors of the document, each with its word."""
    found = re.findall(r"^\| `ERR (\d+) ([A-Z]+)", PROTOCOL.read_text(encoding="utf-8"), re.M)
    return {int(number): word for number, word in found}


def one_of(patterns: List[str]) -> Pattern[bytes]:
    return re.compile("|".join(f"(?:{pattern})" for pattern in patterns).encode("latin-1"), re.S)


ERRORS = [f"ERR {number} {word}{BEHIND.get(number, '')}" for number, word in error_words().items()]
KNOWN = one_of(REPLIES + ERRORS)
OF_SESSION_0 = one_of(["ERR 1 WORD", "ERR 11 LONG"])
OF_A_TEXT = one_of(OF_TEXTS + ERRORS + [r"ERR 17 BAS \d+ B[1-7]"])
NUMBERED = re.compile(rb"(0|[1-9]\d?) (.*)\Z", re.S)
FOLLOWED = re.compile(rb"(?:TEXT|CERT|WIDE) (\d+)\Z")


def replies_of(output: bytes, numbered: bool = True) -> List[Reply]:
    """The replies of an output, all of it whole."""
    if output and not output.endswith(b"\n"):
        raise Unknown(f"a line without its end: {output[-80:]!r}")
    lines, replies, at = output.split(b"\n")[:-1], [], 0
    while at < len(lines):
        reply = reply_in(lines, at, numbered)
        replies.append(reply)
        at += 1 + len(reply.more)
    return replies


def reply_in(lines: List[bytes], at: int, numbered: bool) -> Reply:
    found = NUMBERED.match(lines[at]) if numbered else None
    if numbered and not found:
        raise Unknown(f"a line without a session: {lines[at][:80]!r}")
    session, line = (int(found[1]), found[2]) if found else (1, lines[at])
    if session > 64 or not (KNOWN if session else OF_SESSION_0).fullmatch(line):
        raise Unknown(f"{lines[at][:120]!r}")
    followed = FOLLOWED.match(line)
    count = int(followed[1]) if followed else 0
    if at + 1 + count > len(lines):
        raise Unknown(f"fewer than {count} lines behind {lines[at]!r}")
    return Reply(session, line, lines[at + 1 : at + 1 + count])


ANSWERS = ("OPTIMAL", "INFEASIBLE", "UNBOUNDED")
STOPS = ("PAST", "SPENT")


def may_both_be(one: Reply, other: Reply) -> bool:
    """Whether runs with other workers and places may reply so to the same command of the same session."""
    if one == other:
        return True
    words = (one.line.split(b" ")[0].decode("latin-1"), other.line.split(b" ")[0].decode("latin-1"))
    if one.session != other.session:
        return False
    if words[0] == words[1] == "WIDE":
        first, second = one.more[0], other.more[0]
        return first == second or b"OPEN" in (first, second)
    if words[0] == words[1]:
        return words[0] in ("HOW", "CERT")
    return any(first in STOPS and second in ANSWERS for first, second in (words, words[::-1]))
