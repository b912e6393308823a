"""Tables of the answers to all models of a folder.

LPD_STOPPED may name a folder of models, whose runs are then stopped at each stage in place of those of three examples.
"""
import csv
import gzip
import io
import json
import os
import shutil
import signal
import subprocess
import sys
import tempfile
import threading
import time
import unittest
from pathlib import Path
from typing import Dict, List

from lpd import tables
from lpd.batching import Result, tasks_of
from lpd.figures import FRACTIONS
from lpd.tables import cells_of

from .commands import command, unwrapped
from .models import has_program

MODELS = Path(__file__).resolve().parents[3] / "examples" / "models"
PACKAGE = Path(__file__).resolve().parents[1]
NAMES = ["currency", "cycling", "departments", "diet", "orders", "plan.fixed", "teams", "transport"]
WHOLE = "ROWS\n N cost\nCOLUMNS\n M1 'MARKER' 'INTORG'\n x cost 1\n M2 'MARKER' 'INTEND'\nENDATA\n"
SETS = "NAME\nROWS\n N cost\n G a\n G b\nCOLUMNS\n x cost 2 a 1\n x b 1\nRHS\n RHS1 a 3\n RHS2 b 11\nENDATA\n"
SECONDS = 1200
# One process, some, and one for each model.
ENGINES = (["--jobs", "1"], ["--jobs", "3"], ["--jobs", "3", "--timeout", "600"])
# Stages of a run, and the call at which it is stopped there: at the second model, but where lines are written and at the end.
STOPS = [("read", "2"), ("solve", "2"), ("check", "2"), ("certify", "2"), ("basis", "2"), ("line", "3"), ("half", "2"), ("write", "2")]
COLUMNS = ["model", "rows", "columns", "answer", "value", "way", "accepted by", "pivots", "seconds", "note"]


def rows_of(text: str) -> List[Dict[str, str]]:
    """The lines of a table, but for how long each took, and for the marks of values, which a table in a file has not."""
    return [{name: cell for name, cell in row.items() if not name.endswith("seconds") and name != "exact"} for row in csv.DictReader(io.StringIO(text))]


class Tables(unittest.TestCase):
    """What needs no program."""

    def kept(self, text: str) -> tables.Kept:
        folder = tempfile.TemporaryDirectory()
        self.addCleanup(folder.cleanup)
        path = Path(folder.name) / "table.csv"
        path.write_text(text)
        return tables.Kept(str(path), COLUMNS)

    def test_a_line_that_was_cut_short(self) -> None:
        whole = "a,1,2,OPTIMAL,3,lpd solve,lpd check,4,0.1,\n"
        for cut in ("", "b", "b,1,2,OPTIMAL,3,lpd solve,lpd check,4,0.1,", "b,1,2\n", "b,,,FAILED,,,,,,why\n"):
            kept = self.kept(",".join(COLUMNS) + "\n" + whole + cut)
            self.assertEqual((list(kept.rows), kept.path.read_text()), (["a"], ",".join(COLUMNS) + "\n" + whole))

    def test_another_table(self) -> None:
        with self.assertRaisesRegex(tables.OtherTable, "a table with the columns model, rows"):
            self.kept("model,rows\n")

    def test_the_order_of_names(self) -> None:
        kept = self.kept("")
        for name in "bca":
            kept.add(cells_of(Result(name, answer="OPTIMAL", value="1/3", notes=["one, two", "three"])))
        kept.write()
        self.assertEqual([row["model"] for row in rows_of(kept.path.read_text())], ["a", "b", "c"])
        self.assertEqual(rows_of(kept.path.read_text())[0]["note"], "one, two; three")

    def test_files_of_one_name(self) -> None:
        """They are two models, each with its end, and in two folders each with its folder."""
        with tempfile.TemporaryDirectory() as folder:
            for name in ("a.mps", "a.lp", "b.mps", "c.txt"):
                (Path(folder) / name).write_text("ENDATA\n")
            (Path(folder) / "more").mkdir()
            (Path(folder) / "more" / "b.mps").write_text("ENDATA\n")
            tasks = tasks_of([folder, f"{folder}/more/b.mps"])
            self.assertEqual([task.name for task in tasks], [f"{folder}/b.mps", f"{folder}/more/b.mps", "a.lp", "a.mps"])
            self.assertEqual([task.name for task in tasks_of([f"{folder}/c.txt"])], ["c.txt"])
            self.assertEqual([task.name for task in tasks_of([f"{folder}/b.mps", f"{folder}/b.mps"])], ["b"])
            said = command("batch", f"{folder}/none")
            self.assertEqual((said.status, said.output), (3, ""))

    def test_long_values(self) -> None:
        cells = cells_of(Result("a", answer="OPTIMAL", value=f"{10**60}/3"))
        self.assertIn("~3.33333e+59", tables.Writer("text", COLUMNS, ["a"]).line(cells))
        self.assertIn(",OPTIMAL,3.33333e+59,~,", tables.Writer("csv", COLUMNS, ["a"]).line(cells))
        for style in ("text", "csv"):
            self.assertIn(f"{10**60}/3", tables.Writer(style, COLUMNS, ["a"], FRACTIONS).line(cells))
        past = cells_of(Result("a" * 99, answer="PAST", value=f"MUL {10**60} {10**60}", notes=["why " * 99]))
        lines = tables.Writer("text", COLUMNS, ["a" * 99]).line(past).splitlines()
        self.assertLessEqual(max(map(len, lines)), 120)

    def test_known_answers(self) -> None:
        known = tables.read_optima("name\toutcome\tvalue\na\toptimal\t1/2\tboth\nb\tinfeasible\t\tboth\n")
        cases = [("OPTIMAL", "0.5", "a", "same"), ("OPTIMAL", "0.6", "a", "OTHER"), ("INFEASIBLE", "", "b", "same")]
        cases += [("UNBOUNDED", "", "b", "OTHER"), ("PAST", "ADD 1 2", "a", ""), ("OPTIMAL", "1", "c", "")]
        for answer, value, name, word in cases:
            self.assertEqual(tables.against({"answer": answer, "value": value}, known.get(name)), word)

    def test_a_table_of_another_kind(self) -> None:
        """One that has numbers where outcomes stand compares with nothing."""
        with self.assertRaisesRegex(tables.NotOptima, "line 2 of the known answers has '27' behind its name, where optimal, infeasible"):
            tables.read_optima("model\trows\tcolumns\toptimum\nafiro\t27\t32\t-406659/875\n")


@unittest.skipUnless(has_program(), "the program is not built")
class Batch(unittest.TestCase):
    def test_answers(self) -> None:
        said = command("batch", str(MODELS), "--json")
        self.assertEqual(said.status, 0)
        rows = json.loads(said.output)
        self.assertEqual(list(rows[0]), [*COLUMNS, "decimals"])
        for row in rows:
            words = (MODELS / f"{row['model']}.solved").read_text().splitlines()[0].split()
            self.assertEqual([row["answer"], row["value"]], [words[0], words[1] if len(words) > 1 else ""])
            self.assertEqual((row["way"], row["accepted by"]), ("lpd solve --wide", "lpd check"))
        self.assertIn("8/8 transport\n", said.complaints)

    def test_a_table_and_csv(self) -> None:
        said = command("batch", str(MODELS), "--budget", "2")
        self.assertIn("8 models: 1 INFEASIBLE, 6 SPENT, 1 UNBOUNDED; 2 accepted by lpd check, 0 by", said.output)
        said = command("batch", str(MODELS), "--csv")
        lines = said.output.splitlines()
        self.assertEqual((lines[0], len(lines)), (",".join([*COLUMNS[:5], "exact", *COLUMNS[5:]]), 9))
        self.assertTrue(lines[4].startswith("diet,3,6,OPTIMAL,92.5,=,lpd solve --wide,lpd check,,"))

    def test_what_is_refused_and_asked(self) -> None:
        with tempfile.TemporaryDirectory() as folder:
            (Path(folder) / "a.mps").write_text(WHOLE)
            (Path(folder) / "b.MPS").write_text("ROWS\n N cost\nSOS1\n")
            (Path(folder) / "c.mps").write_text("ROWS\n N cost\nCOLUMNS\n x cost one\nENDATA\n")
            (Path(folder) / "d.mps.gz").write_bytes(gzip.compress(b"ROWS\n N cost\n\nCOLUMNS\n x cost 1 $\nENDATA\n"))
            (Path(folder) / "e.mps").write_text(SETS)
            rows = json.loads(command("batch", folder, "--json").output)
            self.assertEqual([row["answer"] for row in rows], ["ASKED", "FAILED", "ERR 8 MPS 4 M9", "OPTIMAL", "OPTIMAL"])
            self.assertEqual(rows[3]["note"], "converted: 1 change")
            said = command("batch", folder)
            self.assertIn(" --relax solves without that\n", said.output)
            self.assertIn("1 CARD OF OTHER SETS NOT READ", said.output)
            self.assertIn("; 1 WITH CARDS OF OTHER SETS NOT READ\n", unwrapped(said.output))
            self.assertLessEqual(max(map(len, said.output.splitlines())), 120)
            rows = json.loads(command("batch", folder, "--json", "--relax", "--no-bound", "none").output)
            self.assertEqual(rows[0]["answer"], "OPTIMAL")
        with tempfile.TemporaryDirectory() as folder:
            self.assertEqual(command("batch", folder).status, 3)

    def test_known_answers(self) -> None:
        with tempfile.TemporaryDirectory() as folder:
            optima = Path(folder) / "optima"
            optima.write_text("name\toutcome\toptimum\ndiet\toptimal\t185/2\norders\tinfeasible\t-\n")
            said = command("batch", str(MODELS), "--optima", str(optima))
            self.assertEqual(said.status, 0)
            self.assertIn("; 2 answers as they are known, 0 others\n", unwrapped(said.output))
            optima.write_text("name\toutcome\toptimum\ndiet\toptimal\t93\n")
            self.assertEqual(command("batch", str(MODELS), "--optima", str(optima)).status, 1)

    def test_several_at_a_time(self) -> None:
        one, two = (command("batch", str(MODELS), "--csv", "--jobs", jobs) for jobs in ("1", "3"))
        self.assertEqual((one.status, two.status), (0, 0))
        self.assertEqual(rows_of(one.output), sorted(rows_of(two.output), key=lambda row: row["model"]))

    def test_a_limit_of_memory(self) -> None:
        said = command("batch", str(MODELS / "diet.mps"), "--memory", "255")
        self.assertEqual((said.status, said.output), (2, ""))
        self.assertIn("255 is no number of megabytes, from 256 to 9999999", said.complaints)
        self.assertIn("1 OPTIMAL", command("batch", str(MODELS / "diet.mps"), "--memory", "4096").output)

    @unittest.skipUnless(shutil.which("clp"), "clp is not on the path")
    def test_certificates(self) -> None:
        said = command("batch", str(MODELS), "--with", "clp")
        self.assertIn("8 certified by lpd check, 0 by lpd check --wide, 0 by the checker in Python alone", unwrapped(said.output))


@unittest.skipUnless(has_program(), "the program is not built")
class Interrupted(unittest.TestCase):
    """A run that is stopped before its end, as its own process."""

    def setUp(self) -> None:
        # What a script begins in its background, and what that begins, ignores interrupts: a run of these tests does not.
        self.addCleanup(signal.signal, signal.SIGINT, signal.signal(signal.SIGINT, signal.default_int_handler))
        folder = tempfile.TemporaryDirectory()
        self.addCleanup(folder.cleanup)
        self.folder, self.table = Path(folder.name) / "models", Path(folder.name) / "table.csv"
        self.folder.mkdir()
        for name in NAMES:
            shutil.copy(MODELS / f"{name}.mps", self.folder)
        # The last model waits until somebody writes it.
        os.mkfifo(self.folder / "z.mps")

    def begin(self, *words: str) -> "subprocess.Popen[str]":
        """Begins a run in a group of its own, as a shell does."""
        line = [sys.executable, "-m", "lpd", "batch", str(self.folder), *words]
        run = subprocess.Popen(line, cwd=PACKAGE, stdout=subprocess.PIPE, stderr=subprocess.PIPE, text=True, start_new_session=True)
        hangs = threading.Timer(SECONDS, run.kill)
        hangs.start()
        self.addCleanup(hangs.cancel)
        return run

    def lines(self, count: int) -> None:
        """Waits until the table has so many lines."""
        end = time.monotonic() + SECONDS
        while time.monotonic() < end and (not self.table.exists() or self.table.read_text().count("\n") < count):
            time.sleep(0.05)

    def waits(self, run: "subprocess.Popen[str]") -> None:
        """Waits until all models but the last one are done: the line of progress comes when the line of the table is written."""
        for line in run.stderr or ():
            if line.startswith(f"{len(NAMES)}/"):
                return

    def interrupted(self, run: "subprocess.Popen[str]") -> str:
        """What a run still writes that is interrupted as a terminal does it: all of its group is."""
        os.killpg(run.pid, signal.SIGINT)
        output, complaints = run.communicate(timeout=SECONDS)
        self.assertEqual(run.returncode, 130, complaints)
        self.assertIn(f"lpd: interrupted: {len(NAMES)} of {len(NAMES) + 1} models are done", complaints)
        self.assertNotIn("Traceback", complaints)
        return output

    def gone_on_with(self) -> None:
        """Begins the same command again, and compares the table with that of a whole run. What is done is not read again."""
        (self.folder / "z.mps").unlink()
        for row in rows_of(self.table.read_text()):
            (self.folder / f"{row['model']}.mps").write_text("what stands here now is not read\n")
        said = command("batch", str(self.folder), "--csv", "--exact", "--resume", str(self.table))
        self.assertEqual(said.status, 0, said.complaints)
        whole = rows_of(command("batch", str(MODELS), "--csv", "--exact").output)
        self.assertEqual(rows_of(self.table.read_text()), whole)
        self.assertEqual(sorted(rows_of(said.output), key=lambda row: row["model"]), whole)

    def test_each_line_comes_as_its_model_ends(self) -> None:
        run = self.begin("--csv")
        lines = [run.stdout.readline() for _ in range(len(NAMES) + 1)] if run.stdout else []
        self.assertEqual([line.split(",")[0] for line in lines[1:]], NAMES)
        self.assertEqual(self.interrupted(run), "")

    def test_json_is_whole(self) -> None:
        run = self.begin("--json")
        self.waits(run)
        self.assertEqual([row["model"] for row in json.loads(self.interrupted(run))], NAMES)

    def test_an_interrupted_run_is_gone_on_with(self) -> None:
        # Two of three processes go on with the other models, while the third waits.
        for words in ENGINES:
            with self.subTest(words=words):
                self.setUp()
                run = self.begin(*words, "--resume", str(self.table))
                self.waits(run)
                self.interrupted(run)
                self.gone_on_with()

    def test_a_run_that_is_killed_is_gone_on_with(self) -> None:
        for words in ENGINES:
            with self.subTest(words=words):
                self.setUp()
                run = self.begin(*words, "--resume", str(self.table))
                self.lines(4)
                run.kill()
                run.communicate(timeout=SECONDS)  # until the last of its processes is gone
                self.assertGreaterEqual(len(rows_of(self.table.read_text())), 3)
                self.gone_on_with()

    def test_a_run_that_is_stopped_at_each_stage(self) -> None:
        """By an interrupt, or killed: the same command goes on to the table of a whole run."""
        folder = os.environ.get("LPD_STOPPED")
        paths = [folder] if folder else [str(MODELS / f"{name}.mps") for name in ("diet", "orders", "transport")]
        words = ["batch", *paths, "--csv", "--exact"]
        words += ["--with", "clp"] if shutil.which("clp") else []
        whole = rows_of(command(*words).output)
        for number, status in (("SIGINT", 130), ("SIGKILL", -signal.SIGKILL)):
            for stage, call in STOPS:
                if "--with" in words or stage not in ("certify", "basis"):
                    with self.subTest(signal=number, stage=stage):
                        self.table.unlink(missing_ok=True)
                        line = [sys.executable, "-m", "tests.stopping", number, stage, call, *words, "--resume", str(self.table)]
                        run = subprocess.run(line, cwd=PACKAGE, capture_output=True, text=True, timeout=SECONDS)
                        self.assertEqual(run.returncode, status, run.stderr)
                        said = command(*words, "--resume", str(self.table))
                        self.assertEqual((said.status, rows_of(self.table.read_text())), (0, whole))

    def test_a_closed_pipe(self) -> None:
        for words in (["convert", "../../examples/models/plan.fixed.mps"], ["batch", "../../examples/models", "--csv"]):
            run = subprocess.Popen([sys.executable, "-m", "lpd", *words], cwd=PACKAGE, stdout=subprocess.PIPE, stderr=subprocess.PIPE)
            if run.stdout:
                run.stdout.close()
                run.stdout = None
            complaints = run.communicate(timeout=SECONDS)[1].decode()
            self.assertEqual(run.returncode, 141)
            self.assertNotIn("Traceback", complaints)
            self.assertNotIn("Broken pipe", complaints)
