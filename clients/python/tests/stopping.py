"""python3 -m tests.stopping SIGNAL STAGE COUNT WORDS..: the command with these words, in a process that sends itself the signal when it comes
to a stage for so many times."""
import os
import signal
import sys
from typing import Any, Callable, Dict, Tuple
from unittest import mock

from lpd import batching, certifying, tables, ways
from lpd.__main__ import main
from lpd.tables import Cells, Kept

Stage = Callable[..., Any]
# What is called at each stage, before whose call the signal comes.
STAGES: Dict[str, Tuple[Any, str]] = {
    "read": (batching, "mps_of_file"),
    "solve": (batching, "answered"),
    "check": (ways, "judged"),
    "certify": (batching, "certify"),
    "basis": (certifying, "made_exact"),
    "line": (tables, "csv_text"),
    "half": (Kept, "add"),
    "write": (os, "replace"),
}


def half_a_line(kept: Kept, cells: Cells) -> None:
    with open(kept.path, "a", encoding="utf-8") as file:
        file.write(f"{cells['model']},3,6,OPT")


def stopping(call: Stage, number: int, count: int, before: Stage = lambda *words: None) -> Stage:
    """The same, but for a signal at one of its calls."""
    calls: Dict[str, int] = {"made": 0}

    def called(*words: Any, **more: Any) -> Any:
        calls["made"] += 1
        if calls["made"] == count:
            before(*words)
            os.kill(os.getpid(), number)
        return call(*words, **more)

    return called


def run() -> int:
    name, stage, count = sys.argv[1:4]
    # What a script begins in its background ignores interrupts.
    signal.signal(signal.SIGINT, signal.default_int_handler)
    target, attribute = STAGES[stage]
    before = half_a_line if stage == "half" else lambda *words: None
    call = stopping(getattr(target, attribute), getattr(signal, name), int(count), before)
    with mock.patch.object(target, attribute, call):
        return main(sys.argv[4:])


if __name__ == "__main__":
    sys.exit(run())
