"""lpd for people: python3 -m lpd solve, check, convert, certify, batch, plot, or theorem, each with --help.

Status: 0 an optimal value, accepted by both checkers (solve), an accepted certificate (check), a text (convert), or a table
(batch); 1 a certificate or a theorem that is not accepted; 2 wrong words, or a question that words have to answer; 3 no program, or it
ended; 9 a refused text, certificate or name; 10 infeasible; 11 unbounded; 12 past 127 bits, or no way leads to an answer; 13 the budget
or the time is spent; 14 an answer whose certificate the checker in Python alone accepts, since a number passes 127 bits (certify).
"""
from __future__ import annotations

import argparse
import os
import re
import sys
from importlib import import_module
from typing import List, NoReturn, Optional

from . import errors, interrupts, progress
from .commands.common import tell
from .number_text import NotANumber
from .version import ShowVersion

COMMANDS = ("solve", "check", "convert", "certify", "batch", "plot", "theorem")
EPILOG = __doc__.partition("\n\n")[2] if __doc__ else None
CLOSED = 141  # as a shell has it for the signal that ends other programs then


class Words(argparse.ArgumentParser):
    """Says which word is wrong, the one that was likely meant, and how help is had."""

    def error(self, message: str) -> NoReturn:
        import difflib  # here, since it is for words that are wrong

        unknown = re.search(r"unrecognized arguments: (\S+)|invalid choice: '([^']*)'", message)
        words = [] if unknown is None else difflib.get_close_matches(unknown[1] or unknown[2], self.known(), 1)
        meant = f": did you mean {words[0]}?" if words else ""
        self.exit(2, f"{self.prog}: {message}{meant}\n{self.prog} --help says which words there are.\n")

    def known(self) -> List[str]:
        """The words that stand in the usage, and for an option that follows a command those of all commands."""
        found = set(re.findall(r"--?[a-z][\w-]*|\b[a-z][\w-]+\b", self.format_usage()))
        for action in self._actions:
            if isinstance(action, argparse._SubParsersAction):
                found.update(*(each.known() for each in action.choices.values()))
        return sorted(found)


def parser(first: str = "") -> argparse.ArgumentParser:
    """The words of the command that the first word names, whose module alone is imported then, or of all commands."""
    top = Words(prog="python3 -m lpd", epilog=EPILOG, formatter_class=argparse.RawDescriptionHelpFormatter)
    commands = top.add_subparsers(dest="command", required=True)
    for name in [first] if first in COMMANDS else COMMANDS:
        import_module(f".commands.{name}", __package__).add(commands)
    top.add_argument("--version", action=ShowVersion, nargs=0, help="shows the version and the commit, and ends")
    return top


def status_of_error(error: "errors.LpdError | NotANumber | OSError") -> int:
    """Says what went wrong, and gives its status."""
    if isinstance(error, errors.LpdError):
        tell(error.told())
        return error.ends_with
    if isinstance(error, NotANumber):
        tell(f"lpd: {error} is not a number")
        return 2
    is_of_file = isinstance(error, OSError) and error.filename is not None
    tell(f"lpd: {error.filename}: {error.strerror}" if is_of_file else f"lpd: {error}")
    return 3


def main(arguments: Optional[List[str]] = None) -> int:
    try:
        interrupts.raised()
        interrupts.kept.clear()
        progress.by_command = True
        given = sys.argv[1:] if arguments is None else arguments
        words = parser(*given[:1]).parse_args(given)
        status: int = words.run(words)
        sys.stdout.flush()
        return status
    except BrokenPipeError:
        return closed()
    except KeyboardInterrupt:
        progress.clear()
        tell(interrupts.words())
        return interrupts.INTERRUPTED
    except (errors.LpdError, NotANumber, OSError) as error:
        return status_of_error(error)


def closed() -> int:
    """The status where nobody reads standard output any more, to which nothing more is written, not even at the end."""
    os.dup2(os.open(os.devnull, os.O_WRONLY), sys.stdout.fileno())
    return CLOSED


if __name__ == "__main__":
    sys.exit(main())
