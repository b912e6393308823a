"""What the log of a gate says: of which tree it was, what passed, and which program it made."""
from __future__ import annotations

import re
from dataclasses import dataclass
from pathlib import Path
from typing import List

from .checkout import Unfit

COUNTS = re.compile(r"^(\d+) passed, (\d+) failed$", re.M)
REFUSED = re.compile(r"must-fail edits: (\d+) refused")
SKIPPED = re.compile(r"^SKIPPED: (.*)$", re.M)
# The last line of a gate that passed: .ci/run writes it.
PASSED = re.compile(r"^the gate passed: tree ([0-9a-f]{40}), program ([0-9a-f]{64})\Z", re.M)


@dataclass(frozen=True)
class GateLog:
    """A gate that passed. `skipped` are the checks that were not made, and why."""

    tree: str
    program: str
    passed: int
    failed: int
    refused: int
    skipped: List[str]

    def sentence(self) -> str:
        return f"{self.passed} passed, {self.failed} failed; {self.refused} wrong bodies refused"


def read_gate_log(path: Path) -> GateLog:
    text = path.read_text(encoding="utf-8", errors="replace").rstrip()
    end, counts, refused = PASSED.search(text), COUNTS.findall(text), REFUSED.findall(text)
    if not end or not counts or not refused:
        raise Unfit(f"{path} is not the log of a gate that passed on a clean clone")
    passed, failed = map(int, counts[-1])
    if failed:
        raise Unfit(f"{path} counts {failed} failed")
    return GateLog(end[1], end[2], passed, failed, int(refused[-1]), SKIPPED.findall(text))
