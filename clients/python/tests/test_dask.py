"""batch by a scheduler of Dask with two workers on this machine, of which one is killed in mid-run.

LPD_STOPPED may name a folder of models in place of the examples.
"""
import csv
import importlib.util
import io
import json
import os
import shutil
import subprocess
import sys
import tempfile
import time
import unittest
from pathlib import Path
from typing import Callable, Dict, List
from unittest import mock

from .commands import command
from .models import has_program

MODELS = Path(os.environ.get("LPD_STOPPED") or Path(__file__).resolve().parents[3] / "examples" / "models")
PACKAGE = Path(__file__).resolve().parents[1]
TIMES = 2
SECONDS = 600.0


def rows_of(text: str) -> List[Dict[str, str]]:
    """The lines of a table, in the order of names and without how long each took."""
    rows = [{name: cell for name, cell in row.items() if name not in ("seconds", "exact")} for row in csv.DictReader(io.StringIO(text))]
    return sorted(rows, key=lambda row: row["model"])


def wait_until(holds: Callable[[], bool]) -> None:
    end = time.monotonic() + SECONDS
    while not holds():
        if time.monotonic() > end:
            raise TimeoutError
        time.sleep(0.05)


@unittest.skipUnless(importlib.util.find_spec("distributed"), "python3-distributed is not installed")
@unittest.skipUnless(has_program(), "the program is not built")
class Dask(unittest.TestCase):
    def setUp(self) -> None:
        folder = tempfile.TemporaryDirectory()
        self.addCleanup(folder.cleanup)
        self.folder = Path(folder.name)
        self.file = self.folder / "scheduler"
        (self.folder / "models").mkdir()
        for path in sorted(MODELS.glob("*.mps")):
            for number in range(TIMES):
                shutil.copy(path, self.folder / "models" / f"{number}{path.name}")

    def begin(self, what: str, *words: str) -> "subprocess.Popen[bytes]":
        line = [sys.executable, "-m", f"distributed.cli.dask_{what}", "--host", "127.0.0.1", "--scheduler-file", str(self.file), *words]
        environment = {**os.environ, "PYTHONPATH": str(PACKAGE)}
        process = subprocess.Popen(line, env=environment, stdout=subprocess.DEVNULL, stderr=subprocess.DEVNULL)
        self.addCleanup(process.wait)
        self.addCleanup(process.kill)
        return process

    def address(self) -> str:
        try:
            return str(json.loads(self.file.read_text())["address"])
        except (OSError, ValueError, KeyError):
            return ""

    def test_a_worker_that_is_killed(self) -> None:
        self.begin("scheduler", "--port", "0", "--no-dashboard")
        wait_until(lambda: bool(self.address()))
        workers = [self.begin("worker", "--nthreads", "1", "--no-nanny", "--no-dashboard") for _ in range(2)]
        table = self.folder / "table.csv"
        words = ["batch", str(self.folder / "models"), "--csv", "--exact"]
        line = [sys.executable, "-m", "lpd", *words, "--dask", self.address(), "--resume", str(table)]
        with subprocess.Popen(line, cwd=PACKAGE, stdout=subprocess.PIPE, stderr=subprocess.PIPE) as run:
            wait_until(lambda: run.poll() is not None or table.exists() and table.read_text().count("\n") >= 4)
            workers[0].kill()
            output, complaints = run.communicate(timeout=SECONDS)
        self.assertEqual(run.returncode, 0, complaints)
        alone = command(*words)
        self.assertEqual(len(rows_of(alone.output)), len(list(MODELS.glob("*.mps"))) * TIMES)
        self.assertEqual(rows_of(output.decode()), rows_of(alone.output))
        self.assertEqual(rows_of(table.read_text()), rows_of(alone.output))
        # The other worker goes on, with each model in a process of its own.
        limited = [*words, "--dask", self.address(), "--timeout", "600", "--memory", "4096"]
        with subprocess.Popen([sys.executable, "-m", "lpd", *limited], cwd=PACKAGE, stdout=subprocess.PIPE, stderr=subprocess.PIPE) as run:
            output, complaints = run.communicate(timeout=SECONDS)
        self.assertEqual((run.returncode, rows_of(output.decode())), (0, rows_of(alone.output)), complaints)


class WithoutDask(unittest.TestCase):
    def test_it_is_not_there(self) -> None:
        with mock.patch.dict(sys.modules, {"distributed": None}):
            said = command("batch", str(MODELS), "--dask", "tcp://127.0.0.1:1")
        self.assertEqual(said.status, 3)
        self.assertIn("--dask needs Dask (Debian's python3-distributed), here and on the workers", said.complaints)

    def test_nothing_of_it_is_imported_otherwise(self) -> None:
        code = "import sys, lpd.__main__; lpd.__main__.main(['batch', sys.argv[1], '--csv']); sys.exit('distributed' in sys.modules or 'dask' in sys.modules)"
        done = subprocess.run([sys.executable, "-c", code, str(MODELS)], cwd=PACKAGE, capture_output=True, timeout=SECONDS)
        self.assertEqual(done.returncode, 0, done.stderr)
