"""The commands of the program that read one text, write one answer, and end."""
from __future__ import annotations

import subprocess
from typing import List, Optional, Sequence

from .errors import CommandMissing, ProgramEnded, ProgramMissing, Refused, Unexpected, refusal
from .exact import OutOfTime
from .model import words_of
from .program import the_program
from .replies import Answer, Open, Spent
from .session import count_of, encoded, known_of, past_of

REFUSED, BAD_WORDS = 9, 2
# Words of each command with which it refuses a text that has no model.
WORDS = {
    "basis": ["basis"],
    "basis --wide": ["basis", "--wide"],
    "check --wide": ["check", "--wide"],
    "iis": ["iis"],
    "presolve": ["presolve"],
    "range": ["range", "cost", "x"],
    "range all": ["range", "all"],
    "solve --wide": ["solve", "--wide"],
}
SWITCH = "--wide"  # which later versions of a command have
NO_MODEL = ["ENDATA"]
# What is refused in the lines behind the text: a certificate, and a basis file.
BEHIND = (["14"], ["17"])


def name_of(words: Sequence[str]) -> str:
    """The name of a command, with its switch."""
    return " ".join(words[: 2 if SWITCH in words[1:2] else 1])


def output_of(
    words: Sequence[str],
    body: Sequence[str],
    behind: Sequence[str] = (),
    path: Optional[str] = None,
    seconds: Optional[float] = None,
) -> List[str]:
    """The lines that the program writes with these words to the lines of a text, and to those behind it. What it refuses raises what
    `errors` has for it, and a command that it does not know CommandMissing. OutOfTime says that it is not done in as many seconds."""
    program = path or the_program()
    try:
        done = subprocess.run([program, *words], input=encoded([*body, *behind]), capture_output=True, timeout=seconds)
    except subprocess.TimeoutExpired:
        raise OutOfTime(f"lpd {name_of(words)} is not done in {seconds or 0:g} seconds") from None
    except OSError as error:
        raise ProgramMissing(f"{program} does not start: {error.strerror}") from None
    lines, complaint = done.stdout.decode("latin-1").split("\n")[:-1], done.stderr.decode("latin-1").strip()
    if done.returncode == REFUSED and lines:
        replied = words_of(lines[0])
        raise refusal(replied, " ".join(words), behind if replied[1:2] in BEHIND else body)
    if done.returncode == BAD_WORDS:
        raise CommandMissing(name_of(words), complaint)
    if done.returncode:
        raise ProgramEnded(done.returncode, complaint)
    return lines


def answer_in(lines: Sequence[str], at: int, command: str) -> Answer:
    """The answer that stands in a line of what a command wrote."""
    words = words_of(lines[at]) if at < len(lines) else []
    spent = Spent(count_of(words[1])) if len(words) == 2 and words[0] == "SPENT" else None
    answer = known_of(words) or past_of(words) or spent or (Open() if words == ["OPEN"] else None)
    if answer is None:
        raise unexpected_of(command, words, "an answer stands")
    return answer


def unexpected_of(command: str, words: Sequence[str], where: str) -> Unexpected:
    return Unexpected(f"lpd {command} wrote {' '.join(words)[:200]!r} where {where}")


def has_command(command: str, path: Optional[str] = None) -> bool:
    """Whether the program has one of these commands."""
    try:
        output_of(WORDS[command], NO_MODEL, path=path)
    except CommandMissing:
        return False
    except (Refused, ProgramEnded):
        return True
    return True
