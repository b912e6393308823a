"""batch with limits: each model has a process of its own, which is ended at a limit, and whose end is that of no other model."""
import json
import os
import tempfile
import time
import unittest
from pathlib import Path
from typing import Any, Dict, List, Sequence

from lpd.program import find_program

from .commands import command
from .models import has_program
from .standing_in import program

MODELS = Path(__file__).resolve().parents[3] / "examples" / "models"
NAMES = ("diet", "orders", "transport")


def is_gone(process: int) -> bool:
    """Whether a process ends within a minute."""
    for _ in range(600):
        try:
            os.kill(process, 0)
        except ProcessLookupError:
            return True
        time.sleep(0.1)
    return False


@unittest.skipUnless(has_program(), "the program is not built")
class Apart(unittest.TestCase):
    def setUp(self) -> None:
        folder = tempfile.TemporaryDirectory()
        self.addCleanup(folder.cleanup)
        self.folder = Path(folder.name)
        self.asked = self.folder / "asked"

    def solved(self, does: str, *words: str, names: Sequence[str] = NAMES) -> List[Dict[str, Any]]:
        """The answers where the program does so for lpd solve --wide of the diet, behind a line with its number in a file."""
        text = '"$0.$$"'
        does = f'/bin/cat >{text}; if /bin/grep -q oatmeal {text}; then echo $$ >>{self.asked}; {does}; fi; exec "{find_program()}" "$@" <{text}'
        with program(does, "solve --wide"):
            said = command("batch", *(str(MODELS / f"{name}.mps") for name in names), "--json", *words)
        rows: List[Dict[str, Any]] = json.loads(said.output)
        return sorted(rows, key=lambda row: str(row["model"]))

    def test_a_limit_of_time(self) -> None:
        """What the model asked is ended too."""
        (row,) = self.solved("exec sleep 600", "--timeout", "5", names=["diet"])
        self.assertEqual((row["answer"], row["note"]), ("FAILED", "not done in 5 seconds: --timeout allows more"))
        asked = self.asked.read_text().split() if self.asked.exists() else []
        self.assertTrue(all(is_gone(int(line)) for line in asked))

    def test_a_process_that_is_ended(self) -> None:
        """It is tried once more, and fails then."""
        rows = self.solved("kill -9 $PPID; exec sleep 600", "--memory", "4096")
        self.assertEqual([row["answer"] for row in rows], ["FAILED", "INFEASIBLE", "OPTIMAL"])
        self.assertEqual(rows[0]["note"], "its process was ended 2 times: --memory allows more")
        self.assertEqual(len(self.asked.read_text().split()), 2)

    def test_one_that_is_ended_once(self) -> None:
        rows = self.solved(f"[ $(wc -l <{self.asked}) -gt 1 ] || kill -9 $PPID", "--timeout", "600")
        self.assertEqual([(row["answer"], row["note"]) for row in rows], [("OPTIMAL", ""), ("INFEASIBLE", ""), ("OPTIMAL", "")])

    def test_one_of_several_without_limits(self) -> None:
        """The models that are left have processes of their own."""
        rows = self.solved(f"[ $(wc -l <{self.asked}) -gt 1 ] || kill -9 $PPID", "--jobs", "2")
        self.assertEqual([row["answer"] for row in rows], ["OPTIMAL", "INFEASIBLE", "OPTIMAL"])


if __name__ == "__main__":
    unittest.main()
