"""What scripts share that read wrong bodies: the lines of an edit, and which of these leave something out.

A wrong body of the gate may leave out what it does not need, so that the gate checks the rest of the crate alone. A
pair of lines `old: TEXT` and `new: TEXT` leaves something out where the new text is the old one with one of these:

- `#[cfg(test)] ` before the line that begins an item (`mod`, `use`, `pub fn`, `struct`, `impl`): it is left out;
- `{- ` before the first words of a file of specs/ or proofs/, and ` -}` behind its last words: it becomes a comment.
"""
from __future__ import annotations

from collections.abc import Iterator

LEFT_OUT = "#[cfg(test)] "
COMMENT_BEGINS, COMMENT_ENDS = "{- ", " -}"


def leaves_out(old: str, new: str) -> bool:
    """Whether a pair of lines leaves something out, and so is not of the wrong body."""
    begun = COMMENT_BEGINS + old
    return new in (LEFT_OUT + old, begun, old + COMMENT_ENDS, begun + COMMENT_ENDS)


def pairs_of(edit: str) -> Iterator[tuple[str, str, str]]:
    """The pairs of an edit: the file, the old text and the new one."""
    file, old = "", ""
    for line in edit.splitlines():
        word, _, text = line.partition(": ")
        if word == "file":
            file = text.strip()
        elif word == "old":
            old = text
        elif line.startswith("new:"):
            yield file, old, text
