#!/usr/bin/env python3
"""Draws the crates in their layers, and writes the tables of crates.

    draw_crates.py

It writes docs/architecture.svg and the tables in docs/ARCHITECTURE.md; tests/check_docs.py says where they are not up to date.
The layers are those of these tables, from the top: a row with a layer's name begins it, and the rows behind it without one belong
to it. So a new crate is put where it belongs, as a row with its name alone. What a crate is, is the first sentence of its
src/lib.rt (of lpd, its src/main.rt), or where that is long its first part.
"""
import re
from html import escape
from pathlib import Path

from helping import differing, helps, rewrite

TOP = Path(__file__).resolve().parent.parent
PAGE = TOP / "docs" / "ARCHITECTURE.md"
PICTURE = TOP / "docs" / "architecture.svg"
BEGIN, END = "<!-- made by tools/draw_crates.py -->\n", "<!-- end of the tables -->\n"
WIDTH, LINE, PAD, NAME = 900, 24, 8, 150
# How many characters the words on a crate have in its row.
LEAST, MOST = 30, 100


def layers(page: str) -> dict[str, dict[str, list[str]]]:
    """The crates of each layer, by the halves of the page and from the top."""
    halves: dict[str, dict[str, list[str]]] = {}
    for line in page.partition(BEGIN)[2].partition(END)[0].splitlines():
        if line.startswith("### "):
            half = halves.setdefault(line.removeprefix("### "), {})
        elif row := re.match(r"\| *([^|]*?) *\| *`(\w+)` *\|", line):
            layer = half.setdefault(row[1], []) if row[1] else layer
            layer.append(row[2])
    return halves


def first_sentence(crate: str) -> str:
    source = TOP / "crates" / crate / "src"
    head = (source / ("main.rt" if crate == "lpd" else "lib.rt")).read_text(encoding="utf-8")
    words = " ".join(line.removeprefix("//!").strip() for line in re.match(r"(?://!.*\n)+", head)[0].partition("//!\n")[0].splitlines())
    return re.split(r"(?<=[^.])\.(?: |$)", words)[0] + "."


def in_short(crate: str) -> str:
    """The first sentence on a crate; of a long one the part before a colon or a semicolon, or where that says too little, a comma."""
    sentence = first_sentence(crate).removesuffix(".")
    if len(sentence) <= MOST:
        return sentence
    part = re.split(r"[:;] ", sentence)[0]
    return part if LEAST <= len(part) <= MOST else re.match(rf"(.{{,{MOST}}})[,:;] ", sentence)[1]


def tables(halves: dict[str, dict[str, list[str]]]) -> str:
    said = []
    for half, rows in halves.items():
        said += [f"\n### {half}\n", "| Layer | Crate | What it is |", "|---|---|---|"]
        for layer, crates in rows.items():
            said += [f"| {layer if crate == crates[0] else ''} | `{crate}` | {in_short(crate)} |" for crate in crates]
    return "\n".join(said).lstrip("\n") + "\n"


def boxes(crates: list[str], left: int, right: int) -> list[list[tuple[int, str]]]:
    """Where each crate stands, by lines that are no longer than the layer."""
    lines: list[list[tuple[int, str]]] = [[]]
    at = left
    for crate in crates:
        if at + len(crate) * 8 + 2 * PAD > right:
            lines.append([])
            at = left
        lines[-1].append((at, crate))
        at += len(crate) * 8 + 3 * PAD
    return lines


def picture(halves: dict[str, dict[str, list[str]]]) -> str:
    shapes, y = [], 10
    for half, rows in halves.items():
        shapes.append(f'<text x="10" y="{y + 16}" class="half">{escape(half)}</text>')
        y += 28
        kind = "code" if half.startswith("Code") else "definitions"
        for layer, crates in rows.items():
            lines = boxes(crates, NAME + 20, WIDTH - 20)
            height = len(lines) * (LINE + PAD) + PAD
            shapes.append(f'<rect x="10" y="{y}" width="{WIDTH - 20}" height="{height}" class="layer"/>')
            shapes.append(f'<text x="20" y="{y + 24}" class="name">{escape(layer)}</text>')
            for number, line in enumerate(lines):
                top = y + PAD + number * (LINE + PAD)
                for x, crate in line:
                    width = len(crate) * 8 + 2 * PAD
                    shapes.append(f'<rect x="{x}" y="{top}" width="{width}" height="{LINE}" rx="4" class="{kind}"/>')
                    shapes.append(f'<text x="{x + width // 2}" y="{top + 16}" class="crate">{crate}</text>')
            y += height + 6
        y += 10
    style = (
        "text{font:13px sans-serif;fill:#222}.half{font-weight:bold}.crate{font:13px monospace;text-anchor:middle}"
        ".layer{fill:#f6f6f6;stroke:#ccc}.code{fill:#dbe9f6;stroke:#6a9bc3}.definitions{fill:#e5f2dc;stroke:#84b060}"
    )
    head = f'<svg xmlns="http://www.w3.org/2000/svg" viewBox="0 0 {WIDTH} {y}" width="{WIDTH}" height="{y}">'
    return "\n".join([head, f"<style>{style}</style>", *shapes, "</svg>"]) + "\n"


def outdated() -> dict[Path, str]:
    """What this writes, of the files that are otherwise."""
    page = PAGE.read_text(encoding="utf-8")
    halves = layers(page)
    before, _, rest = page.partition(BEGIN)
    made = {
        PAGE: before + BEGIN + "\n" + tables(halves) + "\n" + END + rest.partition(END)[2],
        PICTURE: picture(halves),
    }
    return differing(made)


if __name__ == "__main__":
    helps(__doc__)
    rewrite(outdated())
