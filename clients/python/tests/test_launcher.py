"""./lpd: whether it takes the program for that of the sources, and what it says where there is none and no kit."""
import os
import shutil
import subprocess
import tempfile
import unittest
from pathlib import Path

TOP = Path(__file__).resolve().parents[3]
PROGRAM = "#!/bin/sh\n[ $# != 0 ] && echo ran \"$@\" && exit\necho lpd: bad command line >&2\nexit 2\n"


class Launcher(unittest.TestCase):
    """In a repository of two small crates, without the kit."""

    def setUp(self) -> None:
        folder = tempfile.TemporaryDirectory()
        self.addCleanup(folder.cleanup)
        self.top = Path(folder.name)
        shutil.copy(TOP / "lpd", self.top)
        shutil.copy(TOP / "VERSION", self.top)
        (self.top / "crates.txt").write_text("low:\nother:\nlpd: low\n")
        for crate in ("low", "other", "lpd"):
            (self.top / "crates" / crate / "src").mkdir(parents=True)
            (self.top / "crates" / crate / "src" / "lib.rt").write_text(f"// {crate}\n")
        self.program = self.top / "crates" / "lpd" / "out" / "lpd"

    def build(self) -> None:
        self.program.parent.mkdir()
        self.program.write_text(PROGRAM)
        self.program.chmod(0o755)

    def run_lpd(self, *words: str) -> "subprocess.CompletedProcess[str]":
        return subprocess.run([str(self.top / "lpd"), *words], env={"PATH": "/usr/bin:/bin"}, capture_output=True, text=True, timeout=300)

    def old(self, path: Path, seconds: int) -> None:
        """Sets the date of a file so many seconds back."""
        then = path.stat().st_mtime - seconds
        os.utime(path, (then, then))

    def test_help_needs_no_kit(self) -> None:
        for word in ("--help", "-h", "help"):
            said = self.run_lpd(word)
            self.assertEqual((said.returncode, said.stderr), (0, ""))
            self.assertIn("./lpd build", said.stdout)
        self.assertEqual(self.run_lpd().returncode, 2)
        said = self.run_lpd("solve")
        self.assertEqual((said.returncode, said.stderr), (126, "lpd: rt, the command of the kit, is not on the path\n"))

    def test_help_of_a_program(self) -> None:
        self.build()
        for word in ("--help", "-h", "help"):
            said = self.run_lpd(word)
            self.assertEqual((said.returncode, said.stdout, said.stderr), (0, "ran --help\n", ""))
        self.assertEqual(self.run_lpd().returncode, 2)

    def test_version_needs_no_kit(self) -> None:
        said = self.run_lpd("--version")
        version = (TOP / "VERSION").read_text(encoding="ascii").strip()
        self.assertEqual((said.returncode, said.stdout, said.stderr), (0, f"lpd {version}\n", ""))

    def test_the_content_counts_and_not_the_date(self) -> None:
        self.build()
        self.assertEqual(self.run_lpd("record").returncode, 0)
        self.assertEqual(self.run_lpd("gen", "1").stdout, "ran gen 1\n")
        for path in (self.program, self.program.with_name("sources")):
            self.old(path, 3600)
        self.assertEqual(self.run_lpd("gen", "1").stdout, "ran gen 1\n")
        source = self.top / "crates" / "low" / "src" / "lib.rt"
        source.write_text("// changed\n")
        self.old(self.program.with_name("sources"), 3600)
        self.assertEqual(self.run_lpd("gen", "1").returncode, 126)
        source.write_text("// low\n")
        self.assertEqual(self.run_lpd("gen", "1").stdout, "ran gen 1\n")
        (self.top / "crates" / "other" / "src" / "lib.rt").write_text("// changed\n")
        self.assertEqual(self.run_lpd("gen", "1").stdout, "ran gen 1\n")

    def test_without_a_record_the_date_counts(self) -> None:
        self.build()
        self.assertEqual(self.run_lpd("gen", "1").stdout, "ran gen 1\n")
        self.old(self.program, 3600)
        said = self.run_lpd("gen", "1")
        self.assertEqual(said.returncode, 126)
        self.assertIn("crates/lpd/out/lpd is there, but a source has a later date", said.stderr)
        self.assertIn("./lpd record puts that down", said.stderr)
        self.assertIn("./lpd record", self.run_lpd("--help").stderr)
        self.assertEqual(self.run_lpd("record").returncode, 0)
        self.assertEqual(self.run_lpd("gen", "1").stdout, "ran gen 1\n")

    def test_a_copy_whose_dates_are_those_of_the_copying(self) -> None:
        self.build()
        self.run_lpd("record")
        copy = self.top / "copy"
        shutil.copytree(self.top, copy, ignore=shutil.ignore_patterns("copy"), copy_function=shutil.copyfile)
        for path in (copy / "lpd", copy / "crates" / "lpd" / "out" / "lpd"):
            path.chmod(0o755)
        for path in (copy / "crates" / "lpd" / "out").iterdir():
            self.old(path, 3600)
        said = subprocess.run([str(copy / "lpd"), "gen", "1"], env={"PATH": "/usr/bin:/bin"}, capture_output=True, text=True, timeout=300)
        self.assertEqual((said.stdout, said.stderr), ("ran gen 1\n", ""))

    def test_help_of_its_own_commands(self) -> None:
        for word in ("build", "record"):
            said = self.run_lpd(word, "--help")
            self.assertEqual((said.returncode, said.stderr), (0, ""))
            self.assertIn(f"./lpd {word} ", said.stdout)

    def test_help_of_a_command_needs_no_kit(self) -> None:
        """It would take the kit minutes. Each command is named."""
        said = self.run_lpd("solve", "--help")
        self.assertEqual((said.returncode, said.stderr), (0, ""))
        for command in ("solve", "check", "basis", "presolve", "iis", "range", "gen", "run", "serve"):
            self.assertIn(f"\n### `lpd {command}", (TOP / "docs" / "CLI.md").read_text())
            self.assertRegex(said.stdout, rf"\b{command}\b")

    def test_help_says_nothing_against_a_good_program(self) -> None:
        self.build()
        self.run_lpd("record")
        for word in ("build", "record"):
            said = self.run_lpd(word, "--help")
            self.assertEqual((said.returncode, said.stderr), (0, ""))
            self.assertNotIn("No program", said.stdout)

    def test_sources_that_were_changed(self) -> None:
        self.build()
        self.run_lpd("record")
        self.old(self.program.with_name("sources"), 3600)
        (self.top / "crates" / "low" / "src" / "lib.rt").write_text("// changed\n")
        self.assertIn("was built from other sources than these", self.run_lpd("gen", "1").stderr)

    def test_a_record_of_another_program(self) -> None:
        self.build()
        self.run_lpd("record")
        self.program.write_text(PROGRAM + "# another\n")
        self.old(self.program, 3600)
        self.assertEqual(self.run_lpd("gen", "1").returncode, 126)
