#!/usr/bin/env python3
"""Lists what is proved, crate by crate, as docs/PROOFS.md.

    list_laws.py

A crate of definitions has laws: functions that do nothing, whose contracts are proved. A crate of code has public calls, whose
contracts say their exact results. Each has a row with the first sentence of its comment. tests/check_docs.py says where the page is
not up to date.
"""
import re
from pathlib import Path

from count_definitions import crates_below
from draw_crates import first_sentence, layers
from helping import differing, helps, rewrite

TOP = Path(__file__).resolve().parent.parent
PAGE = TOP / "docs" / "PROOFS.md"
ARCHITECTURE = TOP / "docs" / "ARCHITECTURE.md"
HEAD = """# What is proved

`tools/list_laws.py` makes this page of the comments in the sources. Each row is the first sentence on a contract that the prover checked. The exact statement stands behind `ensures`, in the sources of the crate. [TRUST.md](TRUST.md) says which of these to believe first, what is only tested, and what is trusted.

- A crate `spec_x` has laws. A law is a function that does nothing; its contract is the theorem.
- A crate `lp_x` has calls, its public functions. A contract says the exact result of the call. It also says when each error comes, and what holds then. Each call has no undefined behaviour, no overflow and no index out of range.
"""
CALL = re.compile(r"^((?: *///.*\n)+)((?: *#\[.*\n)*) *pub fn (\w+)([^{;]*?ensures)?", re.M)


def comment_of(lines: str) -> str:
    words = " ".join(line.strip().removeprefix("///").strip() for line in lines.splitlines())
    return re.split(r"(?<=[^.])\.(?: |$)", words)[0].strip().removesuffix(".").replace("|", "\\|") + "."


def items_of(crate: str) -> list[tuple[str, str]]:
    """The laws or public calls of a crate, by files, with the first sentence on each."""
    found = []
    for path in sorted((TOP / "crates" / crate / "src").rglob("*.rt")):
        for comment, _, name, _ in CALL.findall(path.read_text(encoding="utf-8")):
            found.append((name, comment_of(comment)))
    return found


def page() -> str:
    said = [HEAD]
    for half, rows in reversed(layers(ARCHITECTURE.read_text(encoding="utf-8")).items()):
        said.append(f"## {half}\n")
        for crate in (crate for crates in reversed(rows.values()) for crate in crates):
            if items := items_of(crate):
                kind = "Law" if crate.startswith("spec_") else "Call"
                said += [f"### {crate}\n", first_sentence(crate) + "\n", f"| {kind} | Says |", "|---|---|"]
                said += [f"| `{name}` | {sentence} |" for name, sentence in items]
                said.append("")
    return "\n".join(said).rstrip() + "\n"


def outdated() -> dict[Path, str]:
    """The page as it has to be, where it is otherwise."""
    return differing({PAGE: page()})


if __name__ == "__main__":
    helps(__doc__)
    rewrite(outdated())
