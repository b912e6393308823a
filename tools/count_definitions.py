#!/usr/bin/env python3
"""Counts the definitions that the contract of `lpd_top` rests on, those of its truth clause, and the crates above some of them.

    count_definitions.py              prints the numbers, each with what it is
    count_definitions.py --files      prints the files with these definitions, each behind those that it rests on: how many of
                                      its lines count, for all commands, for `run` alone, for `solve` alone, and for the truth
                                      clause
    count_definitions.py --check      compares the numbers with those in docs/TRUST.md, with a line for each that is larger
                                      than the page says; the status is 1 where one is

It reads the sources alone. From the clauses of `lpd_top` on, each name leads to what it names, by the `use` lines of the file
that it stands in: to a definition in specs/, or to a type in src/ that definitions share with the code. A definition counts
once, with all its lines but blank ones and those that hold a comment or an attribute alone. So `use` lines do not count, nor
what no definition on the way names. The truth clause is those clauses whose names begin with `truth`. For one command alone, the rows of definitions that are of another command are left out,
with all that only they name; what stands in the table of commands is not told apart.

Not counted are the definitions of the kit, the traits of the signature, and the types of the code that it names.
A name, a file or a crate that is not found is an error, with status 2.
"""
from __future__ import annotations

import re
import sys
from collections.abc import Iterable
from dataclasses import dataclass, field
from functools import cache
from pathlib import Path

from helping import helps

TOP = Path(__file__).resolve().parent.parent
CRATES = TOP / "crates"
PAGE = TOP / "docs" / "TRUST.md"
CONTRACT = ("lp_top", "lpd_top")
# The name of the clause that says that what is written is true, with which those of its further parts begin.
TRUTH = "truth"
# The types whose variants are the commands, and which of these one command is.
COMMAND_LINES = ("spec_program", "command_line")
COMMANDS = {"CommandLine", "TextCommand"}
ALONE = {"run": {"Run"}, "solve": {"Read", "Solve"}}

REMEDY = ("take away what need not be there (tools/count_definitions.py --files names the files), or raise the number on the page "
          "and say in the commit what it is for")

# What is of the kit.
KIT_PATHS = ("Rattle.std.", "Rattle.atomic_table.", "mathlib.", "lib.", "denote.", "native.", "borrow.")
USE = re.compile(r"^\s*(pub |ghost )?use ([\w.◌-]+?)(?:\.\{([^}]*)\}| as ([\w-]+));?$", re.M)
USE_BEGUN = r"^\s*(?:(?:pub |ghost )?use [\w-]+\.|ghost use )"
HEAD = re.compile(r"(?:(?:abbrev|unfoldable|pub|record|data) )+(\S+)|(\S+) : ")
RUST_ITEM = re.compile(r"^(?:pub )?(?:struct|enum) (\w+)")
RUST_USE = re.compile(r"^(?:pub )?use (\w+)(?:::(\w+))?::(?:\{([^}]*)\}|(\w+));", re.M)


class NotFound(Exception):
    """What a name or a path leads to is not there."""


@dataclass(eq=False)
class Definition:
    """One definition, or one type of the code."""

    file: File
    name: str
    lines: list[str] = field(default_factory=list)


@dataclass(frozen=True)
class Target:
    """What a name leads to: a definition, and where it names a variant of that, which one."""

    definition: Definition
    variant: str | None = None


class File:
    """A file of sources: what it defines, and what its names lead to."""

    def __init__(self, path: Path) -> None:
        if not path.is_file():
            raise NotFound(f"there is no {path.relative_to(TOP)}")
        self.path = path
        self.crate = path.relative_to(CRATES).parts[0]
        self.text = path.read_text(encoding="utf-8")
        self.definitions: dict[str, Definition] = {}

    def named_in(self, text: str) -> list[Target]:
        raise NotImplementedError

    def target(self, name: str) -> Target:
        if name not in self.definitions:
            raise NotFound(f"{self.path.relative_to(TOP)} has no {name}")
        return Target(self.definitions[name])


class Specs(File):
    """A file of specs/, or one of src/ for its lines `ghost use`."""

    def __init__(self, path: Path) -> None:
        super().__init__(path)
        self.imports: dict[str, tuple[str, str]] = {}
        self.aliases: dict[str, str] = {}
        self.shared: set[str] = set()
        self.read_uses()
        if path.suffix == ".antt":
            self.read_definitions()

    def read_uses(self) -> None:
        uses = USE.findall(self.text)
        if len(uses) != len(re.findall(USE_BEGUN, self.text, re.M)):
            raise NotFound(f"{self.path.relative_to(TOP)} has a line `use` of another form")
        for kind, origin, names, alias in uses:
            if origin.startswith(KIT_PATHS):
                continue
            if alias:
                self.aliases[alias] = origin
            for name in filter(None, re.split(r",\s*", names.strip())):
                there, _, here = name.partition(" as ")
                self.imports[here or there] = (origin, there)
                if kind == "pub ":
                    self.shared.add(here or there)

    def read_definitions(self) -> None:
        now: Definition | None = None
        before: list[str] = []
        for line in self.text.splitlines():
            if not is_counted(line, "--") or re.match(r"(pub )?use ", line):
                continue
            head = HEAD.match(line)
            if line.startswith("infix"):
                before.append(line)
            elif head:
                now = Definition(self, head[1] or head[2], [*before, line])
                before = []
                self.definitions[now.name] = now
            elif now is None:
                raise NotFound(f"{self.path.relative_to(TOP)} has a line outside of a definition: {line}")
            else:
                now.lines.append(line)
        for found in [*self.definitions.values()]:
            if " data " in f" {found.lines[0]}":
                for line in found.lines[1:]:
                    for name in re.findall(r"^ +(?:pub )?(\S+)(?: :|$)", line):
                        self.definitions.setdefault(name, found)

    def target(self, name: str) -> Target:
        if name in self.shared:
            return lead(*self.imports[name])
        return super().target(name)

    def named_in(self, text: str) -> list[Target]:
        found = []
        tokens = dict.fromkeys(re.split(r"[\s(){}\[\];,]+", text))
        for token in tokens:
            first, _, rest = token.partition(".")
            # a variable may have the name of a module, and then stands somewhere alone
            if rest and first in self.aliases and first not in tokens and f"{first}." not in tokens:
                found.append(lead(self.aliases[first], rest.split(".")[0]))
            elif rest and first in self.aliases:
                found += self.if_there(first, rest.split(".")[0])
            else:
                found += self.named(first)
        # what stands in a `do` is bound by >>=
        written = f"{text} >>=" if "do" in tokens else text
        for name in [*self.imports, *self.definitions]:
            if "◌" in name and all(piece in written for piece in name.split("◌")):
                found += self.named(name)
        return found

    def if_there(self, alias: str, name: str) -> list[Target]:
        try:
            return [lead(self.aliases[alias], name)]
        except NotFound:
            return []

    def named(self, name: str) -> list[Target]:
        if name in self.definitions:
            return [Target(self.definitions[name])]
        return [lead(*self.imports[name])] if name in self.imports else []


class Types(File):
    """A file of src/, of which the types count that definitions share with the code."""

    def __init__(self, path: Path) -> None:
        super().__init__(path)
        self.imports: dict[str, tuple[str, str]] = {}
        for crate, module, names, name in RUST_USE.findall(self.text):
            for used in filter(None, re.split(r"[,\s]+", names or name)):
                self.imports[used] = (crate, module)
        now: Definition | None = None
        for line in self.text.splitlines():
            item = RUST_ITEM.match(line)
            if item:
                now = self.definitions[item[1]] = Definition(self, item[1])
            if now and is_counted(line, "//", "#["):
                now.lines.append(line)
            if line.endswith(("}", ";")) and not line.startswith(" "):
                now = None

    def named_in(self, text: str) -> list[Target]:
        found = []
        for name in dict.fromkeys(re.findall(r"\w+", text)):
            if name in self.definitions:
                found.append(Target(self.definitions[name]))
            elif name in self.imports:
                crate, module = self.imports[name]
                crate = self.crate if crate == "crate" else crate
                if (CRATES / crate).is_dir():
                    found.append(Target(exported(crate, module, name)))
        return found


def is_counted(line: str, *comments: str) -> bool:
    return bool(line.strip()) and not line.strip().startswith(comments)


@cache
def specs(path: Path) -> Specs:
    return Specs(path)


@cache
def types(path: Path) -> Types:
    return Types(path)


def exported(crate: str, module: str, name: str) -> Definition:
    """The type with this name that a crate gives to others, or that one of its modules has."""
    folder = CRATES / crate / "src"
    if not module:
        root = types(folder / "lib.rt")
        if name in root.definitions:
            return root.definitions[name]
        if name not in root.imports:
            raise NotFound(f"{root.path.relative_to(TOP)} gives no {name}")
        module = root.imports[name][0]
    return types(folder / f"{module}.rt").target(name).definition


@cache
def lead(origin: str, name: str) -> Target:
    """What a name leads to that is brought in from this path."""
    parts = origin.split(".")
    if parts[0] != "Rattle" or parts[2:3] != ["specs"]:
        raise NotFound(f"{origin} is no path to definitions")
    crate, inner = parts[1], parts[3:]
    if inner[0] != "declared":
        return specs(CRATES / crate / "specs" / "/".join([*inner[:-1], f"{inner[-1]}.antt"])).target(name)
    shared = types(CRATES / crate / "src" / f"{inner[1]}.rt").target(inner[2]).definition
    if inner[3:] != ["TheVariants"]:
        return Target(shared)
    if not re.search(rf"^ +{name}\b", "\n".join(shared.lines), re.M):
        raise NotFound(f"{shared.name} has no variant {name}")
    return Target(shared, name)


def rows(definition: Definition) -> list[str]:
    """What a definition says first, and then each of its rows."""
    found: list[str] = []
    for line in definition.lines:
        if found and (line.startswith((" ", "}")) or found[-1].startswith("infix")):
            found[-1] += f"\n{line}"
        else:
            found.append(line)
    return found


def kept(definition: Definition, variants: set[str] | None) -> list[str]:
    """The rows of a definition that are not those of another command."""
    found = rows(definition)
    if variants is None or isinstance(definition.file, Types):
        return found
    mine = variants

    def is_of_another(row: str) -> bool:
        left = re.split(r"\s=\s", row, maxsplit=1)[0]
        named = definition.file.named_in(left)
        return any(t.variant and t.definition.name in COMMANDS and t.variant not in mine for t in named)

    return [found[0]] + [row for row in found[1:] if not is_of_another(row)]


def check_variants(variants: set[str]) -> None:
    """That the types of commands have these variants."""
    lines = [line for name in COMMANDS for line in exported(*COMMAND_LINES, name).lines]
    for variant in variants:
        if not any(re.match(rf"    {variant}\b", line) for line in lines):
            raise NotFound(f"{'::'.join(COMMAND_LINES)} has no command {variant}")


def contract(name: str) -> list[Target]:
    """What those clauses of the top call name whose own names begin so."""
    crate, function = CONTRACT
    root = specs(CRATES / crate / "src" / "lib.rt")
    signature = re.search(rf"^pub fn {function}\b.*?^{{", root.text, re.M | re.S)
    clauses = re.findall(r"(?:requires|ensures) (\w+) (\{ .*? \})$", signature[0], re.M | re.S) if signature else []
    found = [text for clause, text in clauses if clause.startswith(name)]
    if not found:
        raise NotFound(f"{root.path.relative_to(TOP)} has no contract of {function} with a clause {name}")
    return root.named_in("\n".join(found))


def reached(variants: set[str] | None = None, clause: str = "") -> dict[Definition, int]:
    """What the contract rests on, with how many of its lines count: for all commands, or for the one of these variants; by all
    clauses, or by those whose names begin so."""
    found: dict[Definition, int] = {}
    left = contract(clause)
    if variants:
        check_variants(variants)
    while left:
        definition = left.pop().definition
        if definition not in found:
            text = "\n".join(kept(definition, variants))
            found[definition] = text.count("\n") + 1
            left += definition.file.named_in(text)
    return found


def by_file(found: dict[Definition, int]) -> dict[File, int]:
    lines: dict[File, int] = {}
    for definition, count in found.items():
        lines[definition.file] = lines.get(definition.file, 0) + count
    return lines


def of_types(found: dict[Definition, int]) -> int:
    """How many of these lines are those of structs and enums, which say what there is and nothing of it."""
    return sum(count for definition, count in found.items() if isinstance(definition.file, Types))


def in_order(found: dict[Definition, int]) -> list[File]:
    """The files in which these stand, each behind those that it rests on, and else as crates.txt has their crates."""
    below: dict[File, list[File]] = {}
    for definition in found:
        names = definition.file.named_in("\n".join(definition.lines))
        below.setdefault(definition.file, []).extend(target.definition.file for target in names)
    crates = [*crates_below()]
    order: list[File] = []
    begun: set[File] = set()

    def visit(files: Iterable[File]) -> None:
        for file in sorted({*files} - begun, key=lambda file: (crates.index(file.crate), file.path)):
            if file not in begun:
                begun.add(file)
                visit(below[file])
                order.append(file)

    visit(below)
    return order


def crates_below() -> dict[str, list[str]]:
    """What each crate of the repository names in its line of crates.txt."""
    found = {}
    for line in (TOP / "crates.txt").read_text(encoding="utf-8").splitlines():
        head, colon, names = line.partition("#")[0].partition(":")
        if colon:
            found[head.split()[0]] = names.split()
    return found


def above(crate: str) -> set[str]:
    """The crates that stand on a crate, directly or not."""
    lines = crates_below()
    if crate not in lines:
        raise NotFound(f"crates.txt has no crate {crate}")
    found: set[str] = set()
    while more := {name for name, below in lines.items() if found.union([crate]).intersection(below)} - found:
        found |= more
    return found


def home_of(name: str, found: dict[Definition, int]) -> str:
    """The crate with this definition."""
    homes = {definition.file.crate for definition in found if definition.name == name}
    if len(homes) != 1:
        raise NotFound(f"there is not one definition {name} on which the contract of {CONTRACT[1]} rests")
    return homes.pop()


def numbers() -> dict[str, int]:
    """Each number, by what it is."""
    whole, truth = reached(), reached(clause=TRUTH)
    return {
        f"lines of definitions that the contract of `{CONTRACT[1]}` rests on": sum(whole.values()),
        "crates in which these lines stand": len({definition.file.crate for definition in whole}),
        "of these lines, those that `run` needs": sum(reached(ALONE["run"]).values()),
        "of these lines, those that `solve` needs": sum(reached(ALONE["solve"]).values()),
        "of these lines, those of plain types": of_types(whole),
        "lines that the truth clause rests on": sum(truth.values()),
        "of the lines of the truth clause, those of plain types": of_types(truth),
        "of the lines of the truth clause, those that `run` needs": sum(reached(ALONE["run"], TRUTH).values()),
        "of the lines of the truth clause, those that `solve` needs": sum(reached(ALONE["solve"], TRUTH).values()),
        "crates above `spec_mps`": len(above("spec_mps")),
        "crates that a change of `SolveOut`, what `solve` writes, proves anew": len(above(home_of("SolveOut", whole))) + 1,
        "crates in all": len(crates_below()),
    }


def on_page() -> dict[str, int]:
    """The numbers of the page, by what they are."""
    cells = re.findall(r"^\| (.+?) \| ([\d,]+) \|$", PAGE.read_text(encoding="utf-8"), re.M)
    return {what: int(number.replace(",", "")) for what, number in cells}


def compare() -> int:
    said, page, status = on_page(), PAGE.relative_to(TOP), 0
    for what, number in numbers().items():
        if what not in said:
            raise NotFound(f"{page} has no row '{what}'")
        if number > said[what]:
            print(f"{what}: {number:,}, and {page} says {said[what]:,}; {REMEDY}")
            status = 1
    return status


def print_files() -> None:
    whole = reached()
    counts = [by_file(whole), *(by_file(reached(variants)) for variants in ALONE.values()), by_file(reached(clause=TRUTH))]
    print(*(f"{command:>5}" for command in ["all", *ALONE, "truth"]))
    for file in in_order(whole):
        print(*(f"{lines.get(file, 0):5}" for lines in counts), file.path.relative_to(TOP))


def main() -> int:
    words = sys.argv[1:]
    try:
        if words == ["--check"]:
            return compare()
        if words == ["--files"]:
            print_files()
        elif not words:
            for what, number in numbers().items():
                print(f"{number:6,} {what}")
        else:
            print(__doc__)
            return 2
    except NotFound as missing:
        print(f"count_definitions.py: {missing}", file=sys.stderr)
        return 2
    return 0


if __name__ == "__main__":
    helps(__doc__)
    sys.exit(main())
