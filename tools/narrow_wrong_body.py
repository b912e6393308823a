#!/usr/bin/env python3
"""Writes an edit with a wrong body anew, so that it leaves out all of its crate that the wrong body does not need.

    narrow_wrong_body.py [--keep MODULE,..] [--item 'src/FILE|LINE'].. CRATE EDIT

EDIT is a file of wrong-bodies/CRATE or of crates/CRATE/must-fail. First its lines that leave something out are
dropped, so an edit can be written anew after a change of its crate. The new edit goes to standard output. Standard
error tells which modules are kept, what is left out, and how many of the functions are kept.

A module needs the modules above it, and those that it names: by `use` lines, by paths, and by methods that stand in a
module other than that of their type. It also needs what its contracts and the proofs of its functions name. What the
module of the wrong body does not need is left out:

- modules, by `#[cfg(test)]` before the highest of them, and before each `use` line that re-exports something of
  theirs;
- the files of specs/ and proofs/ that name what is left out, by a comment round the whole file (tools/edits.py).

--keep names modules that are kept all the same, as `card::words`; an edit of a definition needs it for the module
whose proof is to fail. --item leaves out one more item: the one whose first line in crates/CRATE/src/FILE begins with
LINE. The item may be a `use` line. What only that item needs is left out with it, but a file of specs/ or proofs/ that
names the item is not.

An edit finds a place by a text that stands once in the file. For each text that does not, standard error has a line,
and the status is 1. Behind a last line such as `}` put a comment `-- end of NAME`, which can then be found. This
script proves nothing. With the new edit in must-fail, tests/try_wrong_bodies --rest CRATE tries that the rest alone is
proved.
"""
from __future__ import annotations

import argparse
import re
import sys
from collections.abc import Iterable, Iterator
from dataclasses import dataclass, field
from functools import cached_property
from pathlib import Path

from edits import COMMENT_BEGINS, COMMENT_ENDS, LEFT_OUT, leaves_out, pairs_of

TOP = Path(__file__).resolve().parent.parent
# A place in a crate: `src` and the names of a module, or `specs` or `proofs` and the names of a file there.
Place = tuple[str, ...]
Needs = dict[Place, set[Place]]
ROOT: Place = ("src",)

PUBLIC = r"^(?P<public>pub(?:\([^)]*\))? )?"
MODULE = re.compile(rf"{PUBLIC}mod (\w+);$", re.M)
USE = re.compile(rf"{PUBLIC}use (?P<tree>[^;]+);", re.M)
PATH = re.compile(r"\b((?:crate|super|self)(?:::\w+)+|\w+(?:::\w+)+)")
TYPE = re.compile(r"^(?:pub(?:\([^)]*\))? )?(?:struct|enum) (\w+)", re.M)
OWNER = re.compile(r"(?:unsafe )?impl(?:<[^<>]*>)? (?P<trait>[\w:]+(?:<.*>)? for )?(?:\w+::)*(?P<type>\w+)")
METHOD = re.compile(r"    (?:pub(?:\([^)]*\))? )?(?:const )?fn (\w+)")
CALL = re.compile(r"(?:\.|::)(\w+)(?:::<[^()]*>)?\(")
FUNCTION = re.compile(r"\bfn (\w+)")
TESTS = "#[cfg(test)]\nmod "
# How long the words at the ends of a file are to be, so that it can be seen what they are of.
FIRST_LENGTH, LAST_LENGTH = 12, 8


class NotFound(Exception):
    """What was asked for is not there."""


@dataclass(frozen=True)
class Use:
    """An item `use`: its first line, whether it is public, and the paths that it brings in."""

    line: str
    is_public: bool
    paths: list[list[str]]


@dataclass(frozen=True)
class Method:
    """A method that stands in another module than its type."""

    name: str
    place: Place
    home: Place
    owner: str
    is_of_trait: bool


def split_at_commas(tree: str) -> Iterator[str]:
    """The parts of a tree of `use` between its outermost commas."""
    depth, part = 0, ""
    for letter in tree:
        depth += {"{": 1, "}": -1}.get(letter, 0)
        if letter == "," and not depth:
            yield part.strip()
            part = ""
        else:
            part += letter
    if part.strip():
        yield part.strip()


def paths_of(tree: str) -> Iterator[list[str]]:
    """The paths that a tree of `use` stands for."""
    for part in split_at_commas(" ".join(tree.split())):
        group = re.match(r"(.*?)::\{(.*)\}$", part)
        if group:
            for path in paths_of(group[2]):
                yield group[1].split("::") + (path if path != ["self"] else [])
        else:
            yield part.partition(" as ")[0].split("::")


def without_item(code: str, begin: str) -> str:
    """The code without the item whose first line begins so."""
    lines = code.split("\n")
    first = next((k for k, line in enumerate(lines) if line.startswith(begin)), None)
    if first is None:
        raise NotFound(f"no line of the file begins with '{begin}'")
    last = first
    if not lines[first].endswith((";", "}")):
        indent = len(lines[first]) - len(lines[first].lstrip())
        ends = re.compile(rf" {{{indent}}}(\}}|\S.*;)")
        last = next((k for k in range(first + 1, len(lines)) if ends.fullmatch(lines[k])), len(lines))
    return "\n".join(lines[:first] + lines[last + 1:])


def code_of(file: Path, items: Iterable[str]) -> str:
    """The code of a file without its tests, its comments, and these items."""
    code = file.read_text(encoding="utf-8").partition(TESTS)[0]
    code = "\n".join(line for line in code.splitlines() if not line.strip().startswith("//"))
    for item in items:
        code = without_item(code, item)
    return code


def is_below(place: Place, other: Place) -> bool:
    return len(place) > len(other) and place[:len(other)] == other


@dataclass
class Crate:
    """The sources of a crate: its modules, and its files of definitions and lemmas."""

    name: str
    items: dict[str, list[str]] = field(default_factory=dict)
    files: dict[Place, Path] = field(default_factory=dict)
    texts: dict[Place, str] = field(default_factory=dict)

    def __post_init__(self) -> None:
        self.folder = TOP / "crates" / self.name
        roots = [self.folder / "src" / name for name in ("lib.rt", "main.rt")]
        if not any(root.is_file() for root in roots):
            raise NotFound(f"there is no crate {self.name}")
        self.read_module(ROOT, next(root for root in roots if root.is_file()))
        self.modules = [*self.texts]
        for name in self.items:
            self.place_of(name)
        for kind in ("specs", "proofs"):
            for file in sorted((self.folder / kind).rglob("*.antt")):
                place = (kind, *file.relative_to(self.folder / kind).with_suffix("").parts)
                lines = file.read_text(encoding="utf-8").splitlines()
                self.files[place] = file
                self.texts[place] = "\n".join(line for line in lines if not line.startswith("--"))

    def read_module(self, place: Place, file: Path) -> None:
        self.files[place] = file
        self.texts[place] = code_of(file, self.items.get(str(file.relative_to(self.folder)), []))
        folder = file.parent if file.stem in ("lib", "main", "mod") else file.with_suffix("")
        for _, name in MODULE.findall(self.texts[place]):
            one, other = folder / f"{name}.rt", folder / name / "mod.rt"
            self.read_module((*place, name), one if one.is_file() else other)

    def longest(self, names: Iterable[str]) -> Place:
        """The module to which the first of these names lead, as far as they do."""
        at = ROOT
        for name in names:
            if (*at, name) not in self.modules:
                break
            at = (*at, name)
        return at

    def place_of(self, path: str) -> Place:
        """The module whose code or proofs a file has, or else the file itself."""
        place = next((place for place, file in self.files.items() if file == self.folder / path), None)
        if place is None:
            raise NotFound(f"{self.name} has no file {path}")
        return self.module_of(place) or place

    def module_of(self, place: Place) -> Place | None:
        """The module whose functions a file of proofs/ is about."""
        at = self.longest(place[1:])
        return at if place[0] == "proofs" and at != ROOT else None

    @cached_property
    def uses(self) -> dict[Place, list[Use]]:
        return {place: [*uses_of(self.texts[place])] for place in self.modules}

    def begin_of(self, base: Place, path: list[str]) -> tuple[Place, list[str]] | None:
        """Where a path begins that stands in a module, and its other names. None where it leads out of the crate."""
        if path[0] == "crate":
            return ROOT, path[1:]
        if path[0] == "self":
            return base, path[1:]
        if path[0] == "super":
            count = next((k for k, name in enumerate(path) if name != "super"), len(path))
            return base[:-count], path[count:]
        return (base, path) if (*base, path[0]) in self.modules else None

    def led_through(self, base: Place, path: list[str]) -> list[Place]:
        """The modules through which a path leads that stands in a module, also by what these re-export."""
        begin = self.begin_of(base, path)
        if begin is None:
            return []
        at, names = begin
        found = [at]
        while names and (*at, names[0]) in self.modules:
            at, names = (*at, names[0]), names[1:]
            found.append(at)
        for use in self.uses.get(at, []) if names else []:
            for other in use.paths:
                if use.is_public and other[-1] == names[0]:
                    found += [place for place in self.led_through(at, other) if place != at]
        return found

    def brought_in(self, place: Place, use: Use) -> set[Place]:
        """The modules through which the paths of a `use` lead."""
        return {other for path in use.paths for other in self.led_through(place, path)}

    def named_by_code(self, place: Place) -> set[Place]:
        """The modules that a module names, but for those below that it only re-exports."""
        found: set[Place] = set()
        for use in self.uses[place]:
            for path in use.paths:
                led = self.led_through(place, path)
                if not use.is_public or place != ROOT and not (led and is_below(led[-1], place)):
                    found.update(led)
        for written in PATH.findall(USE.sub("", self.texts[place])):
            found.update(self.led_through(place, written.split("::")))
        return found

    def named_by_proofs(self, text: str) -> set[Place]:
        """The modules, and the files of definitions and lemmas, that a text names by the paths of the checker."""
        found = set()
        for path in re.findall(rf"Rattle\.{self.name}\.([\w+«».]+\w)", text):
            names = path.split(".")
            kind, rest = (names[0], names[1:]) if names[0] in ("specs", "proofs") else ("", names)
            if kind and rest and rest[0] in ("declared", "contracts", "code"):
                kind, rest = "", rest[1:]
            at = self.longest(rest) if kind != "specs" else ROOT
            if at != ROOT:
                found.add(at)
            elif kind:
                lengths = (k for k in range(len(rest), 0, -1) if (kind, *rest[:k]) in self.files)
                found.update((kind, *rest[:k]) for k in [*lengths][:1])
        return found

    def stray_methods(self) -> Iterator[Method]:
        """The methods that stand in another module than their type."""
        homes: dict[str, Place] = {}
        for place in self.modules:
            for name in TYPE.findall(self.texts[place]):
                homes.setdefault(name, place)
        for place in self.modules:
            for method in methods_of(self.texts[place], place, homes):
                if method.home != place:
                    yield method

    def add_methods(self, needs: Needs) -> None:
        """Adds the modules with methods that a module calls, or that are proved where their type is."""
        strays = [*self.stray_methods()]
        for method in strays:
            if self.folder.joinpath("proofs", *method.home[1:], method.owner, method.name).exists():
                needs[method.home].add(method.place)
        for place in self.modules:
            called = {*CALL.findall(self.texts[place])}
            needs[place].update(it.place for it in strays if it.name in called and not it.is_of_trait)

    def needs(self) -> Needs:
        """What each place needs. A file of proofs for a module's functions is counted with the module."""
        found: Needs = {}
        for place in self.modules:
            above = {place[:k] for k in range(1, len(place))}
            found[place] = self.named_by_code(place) | above | self.named_by_proofs(self.texts[place])
        self.add_methods(found)
        of_root = {*FUNCTION.findall(self.texts[ROOT])}
        for place in self.files.keys() - self.modules:
            named, module = self.named_by_proofs(self.texts[place]), self.module_of(place)
            if module:
                found[module] |= named
            else:
                found[place] = named
                if place[0] == "proofs" and len(place) > 2 and place[1] in of_root:
                    found[ROOT] |= named
        return found


def uses_of(code: str) -> Iterator[Use]:
    for found in USE.finditer(code):
        yield Use(found[0].partition("\n")[0], bool(found["public"]), [*paths_of(found["tree"])])


def methods_of(code: str, place: Place, homes: dict[str, Place]) -> Iterator[Method]:
    """The methods in a module's code, of types of the crate."""
    owner, is_of_trait = "", False
    for line in code.splitlines():
        head, method = OWNER.match(line), METHOD.match(line)
        if head:
            owner, is_of_trait = head["type"], bool(head["trait"])
        elif line.startswith("}"):
            owner = ""
        elif method and owner in homes:
            yield Method(method[1], place, homes[owner], owner, is_of_trait)


def all_needed(begin: Iterable[Place], needs: Needs) -> set[Place]:
    """These places and all that they need."""
    found: set[Place] = set()
    left = [*begin]
    while left:
        place = left.pop()
        if place not in found:
            found.add(place)
            left += needs.get(place, ())
    return found


def broken(left_out: set[Place], needs: Needs) -> set[Place]:
    """The files of definitions and lemmas that name what is left out, or a file that does."""
    found: set[Place] = set()
    while more := {place for place in needs if place[0] != "src" and needs[place] & (left_out | found)} - found:
        found |= more
    return found


def first_words(text: str) -> str:
    """The first words of a text that stand once in it, or else its first line."""
    line = text.partition("\n")[0]
    words = line.split(" ")
    fronts = (" ".join(words[:k]) for k in range(2, len(words) + 1))
    return next((front for front in fronts if len(front) >= FIRST_LENGTH and text.count(front) == 1), line)


def last_words(text: str) -> str:
    """The last words of a text that stand once in it, or else its last line."""
    line = text.rstrip("\n").rpartition("\n")[2]
    words = line.strip().split(" ")
    ends = (" ".join(words[k:]) for k in range(len(words) - 1, -1, -1))
    return next((end for end in ends if len(end) >= LAST_LENGTH and text.count(end) == 1), line)


def comment_pairs(text: str) -> list[tuple[str, str]]:
    """The pairs of lines that make a comment of a whole file."""
    if text.rstrip("\n").count("\n") == 0:
        line = text.rstrip("\n")
        return [(line, COMMENT_BEGINS + line + COMMENT_ENDS)]
    first, last = first_words(text), last_words(text)
    return [(first, COMMENT_BEGINS + first), (last, last + COMMENT_ENDS)]


class Narrowed:
    """What an edit of a crate keeps, and the lines by which it leaves out the rest."""

    def __init__(self, crate: Crate, body: dict[str, list[tuple[str, str]]], keep: list[str]) -> None:
        self.crate, self.body = crate, body
        needs = crate.needs()
        begin = [ROOT, *(crate.place_of(file) for file in body), *(("src", *name.split("::")) for name in keep)]
        for place in begin:
            if place not in needs:
                raise NotFound(f"{crate.name} has no module {'::'.join(place[1:])}")
        self.kept = all_needed(begin, needs)
        self.left_out = {place for place in crate.modules if place not in self.kept}
        self.highest = sorted(place for place in self.left_out if place[:-1] not in self.left_out)
        self.broken = sorted(broken(self.left_out, needs))
        self.pairs: dict[str, list[tuple[str, str]]] = {}
        self.collect()

    def add(self, file: Path, pairs: Iterable[tuple[str, str]]) -> None:
        there = self.pairs.setdefault(str(file.relative_to(self.crate.folder)), [])
        there += [pair for pair in pairs if pair not in there]

    def collect(self) -> None:
        """Collects the pairs of lines that leave something out, by their files."""
        files = self.crate.files
        for place in self.highest:
            above = place[:-1]
            line = next(it[0] for it in MODULE.finditer(self.crate.texts[above]) if it[2] == place[-1])
            self.add(files[above], map(with_test, [line, *self.exports(above, {place})]))
        for place in (place for place in self.crate.modules if place in self.kept):
            self.add(files[place], map(with_test, self.exports(place, self.left_out)))
        for file, items in self.crate.items.items():
            self.add(self.crate.folder / file, map(with_test, items))
        for place in self.broken:
            self.add(files[place], comment_pairs(files[place].read_text(encoding="utf-8")))

    def exports(self, place: Place, modules: set[Place]) -> list[str]:
        """The `use` lines of a module that re-export something of these."""
        return [use.line for use in self.crate.uses[place] if self.crate.brought_in(place, use) & modules]

    def not_once(self) -> Iterator[str]:
        """The texts that do not stand once in their file."""
        for file, pairs in self.pairs.items():
            text = (self.crate.folder / file).read_text(encoding="utf-8")
            for old, _ in pairs:
                if text.count(old) != 1:
                    yield f"{file}: this stands {text.count(old)} times there: {old.strip()}"

    def edit(self) -> str:
        lines = []
        for half in (self.body, dict(sorted(self.pairs.items()))):
            for file, pairs in half.items():
                if pairs:
                    lines += [f"file: {file}"] + [f"old: {old}\nnew: {new}" for old, new in pairs]
        return "\n".join(lines) + "\n"

    def summary(self) -> Iterator[str]:
        modules = [place for place in self.crate.modules if place in self.kept]
        for what, places in (("kept", modules), ("left out", self.highest), ("comments", self.broken)):
            yield f"{what}: {' '.join(shown(place) for place in places if place != ROOT) or 'nothing'}"
        counts = {place: len(FUNCTION.findall(self.crate.texts[place])) for place in self.crate.modules}
        yield f"{sum(counts[place] for place in modules)} of {sum(counts.values())} functions are kept"


def shown(place: Place) -> str:
    return "::".join(place[1:]) if place[0] == "src" else f"{'/'.join(place)}.antt"


def with_test(line: str) -> tuple[str, str]:
    return line, LEFT_OUT + line


def wrong_body(edit: str) -> dict[str, list[tuple[str, str]]]:
    """The pairs of an edit that leave nothing out, by their files."""
    found: dict[str, list[tuple[str, str]]] = {}
    for file, old, new in pairs_of(edit):
        if not leaves_out(old, new):
            found.setdefault(file, []).append((old, new))
    return found


def main() -> int:
    options = argparse.ArgumentParser(description=__doc__, formatter_class=argparse.RawDescriptionHelpFormatter)
    options.add_argument("--keep", metavar="MODULE,..", default="")
    options.add_argument("--item", metavar="'src/FILE|LINE'", action="append", default=[])
    options.add_argument("crate", metavar="CRATE")
    options.add_argument("edit", metavar="EDIT", type=Path)
    given = options.parse_args()
    items: dict[str, list[str]] = {}
    for file, _, line in (item.partition("|") for item in given.item):
        items.setdefault(file, []).append(line)
    try:
        body = wrong_body(given.edit.read_text(encoding="utf-8"))
        narrowed = Narrowed(Crate(given.crate, items), body, [name for name in given.keep.split(",") if name])
    except (NotFound, OSError) as missing:
        print(f"narrow_wrong_body.py: {missing}", file=sys.stderr)
        return 2
    print(narrowed.edit(), end="")
    wrong = [*narrowed.not_once()]
    print(*narrowed.summary(), *wrong, sep="\n", file=sys.stderr)
    return 1 if wrong else 0


if __name__ == "__main__":
    sys.exit(main())
