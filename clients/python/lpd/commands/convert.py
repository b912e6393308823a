"""python3 -m lpd convert MODEL: other dialects of MPS into the profile, and with --to out of it for other programs."""
from __future__ import annotations

import argparse

from ..conversion import convert
from ..dialects import DIALECTS, written
from ..judging import LARGE
from ..reading import read_model_file
from ..records import replace
from .common import add_options, options_of, put, tell, tell_renames


def add(commands: "argparse._SubParsersAction[argparse.ArgumentParser]") -> None:
    converts = commands.add_parser("convert", help="turns other dialects of MPS into the profile, and the profile into other dialects")
    converts.set_defaults(run=run)
    converts.add_argument("model", help="a file of MPS text, or of the LP format (.lp) or GNU MathProg (.mod), each also with .gz, or - for standard input")
    converts.add_argument("--form", choices=["free", "fixed"], help="the form of the text (the one that fits)")
    add_options(converts)
    converts.add_argument("--to", choices=list(DIALECTS), help="writes the model as this program reads it")
    converts.add_argument("--round", action="store_true", help="with --to: rounds numbers that have no finite decimal to 17 digits")
    converts.add_argument("-o", "--output", metavar="FILE", help="where the text goes (standard output)")


def run(words: argparse.Namespace) -> int:
    found = convert(read_model_file(words.model), words.form, replace(options_of(words), large=True))
    for change in found.changes:
        tell(str(change))
    text, names = found.text, found.names
    if words.to:
        out = written(found.model, DIALECTS[words.to], words.round, words.output or "MODEL")
        for note in out.notes:
            tell(note)
        tell(f"run it as: {' '.join(out.command)}")
        text, names = out.text, names + out.names
    if found.model.is_large:
        tell(f"note: {LARGE}, so it is one for the commands with --wide")
    tell_renames(names, words.renames)
    put(text, words.output)
    return 0
