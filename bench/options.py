"""The options of the programs here."""
import argparse
import pathlib

from solvers import PROGRAM


def named(text):
    """A program with its name, by NAME=PROGRAM or PROGRAM alone."""
    name, _, program = text.rpartition("=")
    return name or pathlib.Path(program.split()[0]).name, program.split()


def read_options(head, *kinds, **defaults):
    """The options of a program with this head: --program, --write, and one for each default, of the default's type.

    Where `folder` is among the kinds, a folder of models stands before them; where `programs` is, --program takes programs
    with their names, and gives them as `programs`.
    """
    parser = argparse.ArgumentParser(description=head, formatter_class=argparse.RawDescriptionHelpFormatter)
    if "folder" in kinds:
        parser.add_argument("folder", type=pathlib.Path)
    if "programs" in kinds:
        parser.add_argument("--program", dest="programs", type=named, nargs="+", default=[named(PROGRAM)])
    else:
        parser.add_argument("--program", type=str.split, default=PROGRAM.split())
    for name, default in defaults.items():
        kind = {"action": "store_true"} if default is False else {"type": type(default), "default": default}
        parser.add_argument(f"--{name}", **kind)
    parser.add_argument("--write", type=pathlib.Path)
    options = parser.parse_args()
    if "programs" in kinds:
        options.programs = dict(options.programs)
    return options
