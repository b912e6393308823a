"""Whether the answers of a run are accepted by the checker in Python, with the text and the certificate around them."""
from __future__ import annotations

import sys
from pathlib import Path
from typing import Dict, List, Optional, Tuple

sys.path.insert(0, str(Path(__file__).resolve().parent.parent.parent / "clients" / "python"))

import lpd  # noqa: E402  (the package of this repository)

from replies import ANSWERS, Reply  # noqa: E402


class Untrue(Exception):
    """An answer that the checker does not accept, or beside which the text or the certificate is missing."""


def text_of(lines: List[bytes]) -> str:
    return "".join(line.decode("latin-1") + "\n" for line in lines)


class Answers:
    """The answers of sessions, one reply after the other. Each answer stands between the replies to WRITE and to CERT, or, with its
    certificate, behind the one to WRITE as the reply to WIDE."""

    def __init__(self) -> None:
        self.before: Dict[int, Reply] = {}
        self.pending: Dict[int, Tuple[bytes, List[bytes]]] = {}
        self.accepted: Dict[Tuple[bytes, bytes, bytes], bool] = {}
        self.checked = 0

    def take(self, reply: Reply) -> None:
        session, waiting = reply.session, self.pending.pop(reply.session, None)
        if waiting:
            if not reply.line.startswith(b"CERT "):
                raise Untrue(f"{waiting[0]!r} without a certificate behind it, but {reply.line[:60]!r}")
            self.check(waiting[0], waiting[1], reply.more)
        if is_answer(reply.line):
            self.pending[session] = (reply.line, self.text_before(reply))
        if reply.line.startswith(b"WIDE ") and is_answer(reply.more[0]):
            self.check(reply.more[0], self.text_before(reply), reply.more[1:], wide=True)
        self.before[session] = reply

    def text_before(self, reply: Reply) -> List[bytes]:
        text = self.before.get(reply.session)
        if text is None or not text.line.startswith(b"TEXT "):
            raise Untrue(f"{reply.line!r} without a text before it")
        return text.more

    def check(self, answer: bytes, text: List[bytes], certificate: List[bytes], wide: bool = False) -> None:
        self.checked += 1
        key = (answer, b"\n".join(text), b"\n".join(certificate))
        if key not in self.accepted:
            fault = fault_of(text_of(text), text_of(certificate), answer.decode("latin-1"), wide=wide)
            if fault:
                raise Untrue(fault)
            self.accepted[key] = True


def is_answer(line: bytes) -> bool:
    return line.split(b" ")[0].decode("latin-1") in ANSWERS


def fault_of(text: str, certificate: str, answer: str, fixed: bool = False, wide: bool = False) -> Optional[str]:
    """What is wrong with an answer by the checker in Python, if anything is."""
    try:
        verdict = lpd.check(text, certificate, fixed, wide)
    except lpd.LpdError as error:
        return f"{answer}: the checker in Python reads something else: {error}"
    return None if str(verdict) == f"YES {answer}" else f"{answer}: the checker in Python says {verdict}"
