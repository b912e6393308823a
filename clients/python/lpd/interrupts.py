"""Interrupts of python3 -m lpd. One that comes while Python still imports this package ends the command as a later one does."""
from __future__ import annotations

import os
import signal
import sys
from types import FrameType
from typing import List, Optional

INTERRUPTED = 130  # as a shell has it for the signal that ends other programs then
WORDS = "lpd: interrupted"
kept: List[str] = []  # the files that were written, which an interrupt leaves as they are


def words() -> str:
    """That the command ends, and what is kept of it."""
    return f"{WORDS}: {', '.join(kept)} {'is' if len(kept) == 1 else 'are'} written" if kept else WORDS


def is_command() -> bool:
    """Whether this package is what Python was told to run. While that is being found, the first argument is -m, and the words of
    the command line (which Python has from 3.10 on) name it before the arguments."""
    line: List[str] = getattr(sys, "orig_argv", [])
    return sys.argv[:1] == ["-m"] and line[-len(sys.argv) :][:1] in (["lpd"], ["-mlpd"])


def end_at_once(number: int, frame: Optional[FrameType]) -> None:
    os.write(2, f"{WORDS}\n".encode())
    os._exit(INTERRUPTED)


def raised() -> None:
    """From here on an interrupt is an exception, which the command ends with."""
    if signal.getsignal(signal.SIGINT) is end_at_once:
        signal.signal(signal.SIGINT, signal.default_int_handler)


# A shell has a command of its background ignore interrupts, and so it does here.
if is_command() and signal.getsignal(signal.SIGINT) is signal.default_int_handler:
    signal.signal(signal.SIGINT, end_at_once)
