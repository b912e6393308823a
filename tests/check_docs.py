#!/usr/bin/env python3
"""Checks that what the documents name is there.

    check_docs.py

Each path in backquotes in the pages at the top and in docs/ and its folders has to exist, each link has to lead to a file, and each
name in backquotes in docs/TRUST.md and docs/HACKING.md has to be a crate or stand in the sources of one. Each crate stands in one
layer of the tables in docs/ARCHITECTURE.md, and names in crates.txt only crates of its layer and of those below. The picture and
the tables there are what tools/draw_crates.py writes, docs/PROOFS.md is what tools/list_laws.py writes, and docs/lpd.1 is what
tools/make_manual.py writes. The table of the promises in docs/TRUST.md has a row for each sentence of each promise there, and each
clause that a row names is there. No sentence of a page has more words than tests/sentences.py allows, with no place left out: also
those of docs/PROOFS.md and of the tables in docs/ARCHITECTURE.md, which are made of comments in the sources. No page is more than a
tenth longer than its size below.
It prints what is missing or too long; the status is 1 where something is.
"""
import re
import sys
from pathlib import Path

TOP = Path(__file__).resolve().parent.parent
sys.path.insert(0, str(TOP / "tools"))

import draw_crates  # noqa: E402
import list_laws  # noqa: E402
import make_manual  # noqa: E402
from count_definitions import crates_below  # noqa: E402
from helping import helps  # noqa: E402
from sentences import too_long  # noqa: E402

PATH = re.compile(r"(?:crates|docs|examples|tests|tools|bin|release|completions|bench|web|coq)/[\w./-]*")
NAME = re.compile(r"[A-Za-z]\w*(?:[:-]+\w+)*")
# A clause of a function, or a part of a record, as the table of the promises names it.
CLAUSE = re.compile(r"\w+\.\w+")
# Where one sentence of a promise ends and the next begins.
BETWEEN = re.compile(r"(?<=\.) (?=[A-Z`])")
# How long pages are to be, in KiB; a tenth more is fine.
SIZES = {
    "README.md": 5,
    "docs/ALGORITHMS.md": 24,
    "docs/ARCHITECTURE.md": 12,
    "docs/CLI.md": 14,
    "docs/COMPARISON.md": 5,
    "docs/DECISIONS.md": 30,
    "docs/FORMATS.md": 18,
    "docs/GLOSSARY.md": 5,
    "docs/HACKING.md": 14,
    "docs/PERFORMANCE.md": 8,
    "docs/PROTOCOL.md": 12,
    "docs/PYTHON.md": 20,
    "docs/SERVING.md": 14,
    "docs/TRUST.md": 12,
    "docs/TUTORIAL.md": 9,
}
# What a build makes.
MADE = {"crates/lpd/out/lpd"}


def sources():
    files = [path for end in ("rt", "antt") for path in (TOP / "crates").rglob(f"*.{end}") if "out" not in path.parts]
    return "\n".join(path.read_text(encoding="utf-8") for path in files)


def prose(document):
    """The text of a document without its examples."""
    return re.sub(r"```.*?```", "", document.read_text(encoding="utf-8"), flags=re.S)


def local_links(document):
    """The links of a document that lead to files, less the names of places within these."""
    return re.findall(r"\]\(([^)#:]+)(?:#[^)]*)?\)", prose(document))


def missing_in(document, names):
    """What the document names and is not there, by the names that there are."""
    text = prose(document)
    for link in local_links(document):
        if not (document.parent / link).exists():
            yield link
    for quoted in re.findall(r"`([^`\n]+)`", text):
        if PATH.fullmatch(quoted):
            if quoted not in MADE and not (TOP / quoted).exists():
                yield quoted
        elif names and NAME.fullmatch(quoted):
            if not all(part in names for part in quoted.split("::")):
                yield quoted


def clauses_of_functions(source):
    """The named clauses of the functions of a file of code."""
    function = ""
    for line in source.splitlines():
        function = (re.findall(r"\bfn (\w+)", line) or [function])[0]
        yield from (f"{function}.{name}" for name in re.findall(r"^ +ensures (\w+) \{", line))


def parts_of_records(source):
    """The parts of the records of a file of definitions."""
    record = ""
    for line in source.splitlines():
        if line and not line.startswith(" "):
            record = (re.findall(r"^(?:pub )?record (\w+)", line) or [""])[0]
        elif record:
            yield from (f"{record}.{name}" for name in re.findall(r"^  (?:pub )?(\w+) :", line))


def clauses():
    found = set()
    for crate in (TOP / "crates").iterdir():
        for path in (crate / "src").rglob("*.rt"):
            found |= {*clauses_of_functions(path.read_text(encoding="utf-8"))}
        for path in (crate / "specs").rglob("*.antt"):
            found |= {*parts_of_records(path.read_text(encoding="utf-8"))}
    return found


def section(document, title):
    text = (TOP / document).read_text(encoding="utf-8")
    return text.partition(f"## {title}\n")[2].partition("\n## ")[0]


def numbered(document, title):
    """The numbers and the texts of a numbered list, each with what is indented below it."""
    items = re.findall(r"^(\d+)\. (.*(?:\n+ +.*)*)", section(document, title), re.M)
    return [(number, " ".join(text.split())) for number, text in items]


def unpromised():
    """Why the table of the promises is not that of the promises, or README.md has others."""
    table = section("docs/TRUST.md", "The promises, clause by clause")
    rows = re.findall(r"^\| (\d+\.\d+) \|", table, re.M)
    promises = numbered("docs/TRUST.md", "The promises, exactly")
    said = [f"{number}.{k + 1}" for number, text in promises for k in range(len(BETWEEN.split(text)))]
    for row in sorted({*rows} ^ {*said}):
        yield f"no promise has a sentence {row}" if row in rows else f"no row for the sentence {row} of the promises"
    if [number for number, _ in numbered("README.md", "What is promised")] != [number for number, _ in promises]:
        yield "README.md has more or fewer promises"
    there = clauses()
    for name in re.findall(r"`([^`\n]+)`", table):
        if CLAUSE.fullmatch(name) and name not in there and name != "a.b":
            yield f"there is no clause {name}"


def misplaced():
    """Why the layers are not those of crates.txt."""
    page = (TOP / "docs" / "ARCHITECTURE.md").read_text(encoding="utf-8")
    rows = [crates for half in draw_crates.layers(page).values() for crates in half.values()]
    layer = {crate: number for number, crates in enumerate(rows) for crate in crates}
    for crate, below in crates_below().items():
        if crate not in layer:
            yield f"no layer for {crate}"
        for name in below:
            if layer.get(name, 99) < layer.get(crate, 0):
                yield f"{crate} names {name}, of a layer above its own"


def pages():
    """All pages that people read."""
    yield from (*sorted(TOP.glob("*.md")), *sorted((TOP / "docs").rglob("*.md")), *sorted((TOP / "examples").rglob("*.md")))
    yield TOP / "clients" / "python" / "README.md"


def overlong():
    """The sentences that are too long, by their first words."""
    for page in (*pages(), TOP / "wrong-bodies" / "README.md"):
        for words, sentence in too_long(page.read_text(encoding="utf-8")):
            yield f"{page.relative_to(TOP)}: a sentence has {words} words: {sentence[:80]} .."


def oversized():
    """The pages that are longer than they are to be."""
    for page, size in SIZES.items():
        length = (TOP / page).stat().st_size
        if length > 1.1 * 1024 * size:
            yield f"{page}: it has {length:,} bytes, and is to have {size} KiB, or a tenth more"


def wrong():
    """What is wrong with the pages that are made of others, or speak of them."""
    for what in misplaced():
        yield f"docs/ARCHITECTURE.md: {what}"
    for tool in (draw_crates, list_laws, make_manual):
        yield from (f"{path.relative_to(TOP)} is not what tools/{tool.__name__}.py writes" for path in tool.outdated())
    for what in unpromised():
        yield f"docs/TRUST.md: {what}"


def main():
    names = set(re.findall(r"[\w◌-]+", sources())) | {path.name for path in (TOP / "crates").iterdir()}
    named = {TOP / "docs" / "TRUST.md", TOP / "docs" / "HACKING.md"}
    found = [
        f"{document.relative_to(TOP)}: there is no {what}"
        for document in pages()
        for what in missing_in(document, names if document in named else None)
    ]
    found += [*wrong(), *overlong(), *oversized()]
    for what in found:
        print(what)
    return 1 if found else 0


if __name__ == "__main__":
    helps(__doc__)
    sys.exit(main())
