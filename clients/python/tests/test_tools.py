"""The scripts that people begin by hand: their help, and what talk.py says where it is asked for what there is not."""
import os
import pty
import shutil
import socket
import subprocess
import sys
import tempfile
import unittest
from pathlib import Path
from typing import List

from .serving import HOST, Server, by_bytes, commands

TOP = Path(__file__).resolve().parents[3]
BIN = TOP / "bin"
GATE = TOP / ".ci" / "run"
# Where scripts stand that people begin by hand.
FOLDERS = ("bin", "release", "tests", "tools")


class Help(unittest.TestCase):
    def test_help(self) -> None:
        """Of each script that is begun by hand. What others import has no help."""
        scripts = [path for folder in FOLDERS for path in (TOP / folder).rglob("*") if path.is_file() and path.suffix in ("", ".py") and "__pycache__" not in path.parts]
        begun = [path for path in scripts if path.read_text().startswith("#!") and "packing" not in path.parts]
        self.assertGreater(len(begun), 20)
        for path in begun:
            with self.subTest(path.name):
                line = [sys.executable, str(path)] if "python3" in path.read_text().splitlines()[0] else [str(path)]
                said = subprocess.run([*line, "--help"], capture_output=True, text=True, timeout=300)
                self.assertEqual((said.returncode, said.stderr), (0, ""))
                self.assertIn("python3 -m lpd" if path.name == "lpd-py" else path.name, said.stdout)

    def test_the_gate_begins_at_no_word(self) -> None:
        """With nothing on the path that a gate could be made of."""
        with tempfile.TemporaryDirectory() as folder:
            Path(folder, "cat").symlink_to(shutil.which("cat") or "")
            cases = {("--help",): 0, ("-h",): 0, ("help",): 0, ("--hlep",): 2, ("",): 2, ("--help", "more"): 2}
            for words, status in cases.items():
                said = subprocess.run(["/bin/sh", str(GATE), *words], env={"PATH": folder}, capture_output=True, text=True, timeout=300)
                self.assertEqual(said.returncode, status, words)
                self.assertIn(".ci/run takes no words", said.stderr if status else said.stdout)
                self.assertEqual(said.stdout if status else said.stderr, "")


class Checker(unittest.TestCase):
    """The checker that is one file."""

    def test_it_is_as_the_package_has_it(self) -> None:
        said = subprocess.run([sys.executable, str(TOP / "tools" / "build_checker.py"), "--check"], capture_output=True, text=True, timeout=300)
        self.assertEqual((said.returncode, said.stdout), (0, ""))

    def test_alone(self) -> None:
        """Copied into an empty folder, by a Python that looks nowhere else."""
        examples = TOP / "examples"
        with tempfile.TemporaryDirectory() as folder:
            shutil.copy(BIN / "check_certificate.py", folder)
            line = [sys.executable, "-I", f"{folder}/check_certificate.py"]
            for path in sorted(examples.glob("*.mps")):
                said = subprocess.run(line, input=path.read_bytes(), capture_output=True, cwd=folder, timeout=300)
                self.assertEqual((said.returncode, said.stdout.decode()), (0, path.with_suffix(".said").read_text()))
            diet = (examples / "models" / "diet.mps").read_text() + (examples / "models" / "diet.solved").read_text()
            said = subprocess.run(line, input=diet.encode(), capture_output=True, cwd=folder, timeout=300)
            self.assertEqual((said.returncode, said.stdout.splitlines()[0]), (9, b"ERR 14 CERT 1"))
            self.assertIn(b"drop the first line", said.stderr)

    def checked(self, *words: str, stdin: str = "") -> "subprocess.CompletedProcess[str]":
        line = [sys.executable, "-I", str(BIN / "check_certificate.py"), *words]
        return subprocess.run(line, input=stdin, capture_output=True, text=True, timeout=300)

    def test_files(self) -> None:
        """A model and an answer as lpd solve prints it, where the text has no newline at its end too; or both in one file."""
        models = TOP / "examples" / "models"
        text, answer = (models / "diet.mps").read_text(), (models / "diet.solved").read_text()
        with tempfile.TemporaryDirectory() as folder:
            names = [f"{folder}/{name}" for name in ("text", "answer", "certificate", "both")]
            bare = answer.partition("\n")[2]
            for name, content in zip(names, (text.rstrip("\n"), answer, bare, text + bare)):
                Path(name).write_text(content)
            for words in (names[:2], [names[0], names[2]], names[3:]):
                self.assertEqual(self.checked(*words).stdout, "YES OPTIMAL 92.5\n")
            for claim, shown in (("OPTIMAL 92.6", "NO CLAIM"), ("OPTIMAL 185/2", "YES OPTIMAL 92.5"), ("INFEASIBLE", "NO CLAIM"), ("OPTIMAL x", "NO CLAIM")):
                Path(names[1]).write_text(f"{claim}\n{bare}")
                said = self.checked(*names[:2])
                self.assertEqual((said.returncode, said.stdout), (0, f"{shown}\n"))
            self.assertEqual(said.stderr, "the certificate is accepted and shows OPTIMAL 92.5, and the answer in front of it is OPTIMAL x\n")
            said = self.checked(names[0], f"{folder}/none")
            self.assertEqual((said.returncode, said.stderr), (3, f"{folder}/none: No such file or directory\n"))
            self.assertEqual(self.checked(*names[:3]).returncode, 2)

    def test_a_certificate_that_ends_early(self) -> None:
        text = (TOP / "examples" / "models" / "diet.mps").read_text()
        said = self.checked(stdin=text)
        self.assertEqual((said.returncode, said.stdout), (9, "ERR 14 CERT 1\n"))
        self.assertIn("there is no certificate", said.stderr)
        said = self.checked(stdin=f"{text}OPTIMAL\nx oatmeal 4\n")
        self.assertEqual((said.returncode, said.stdout), (9, "ERR 14 CERT 3\n"))
        self.assertIn("the certificate ends before line 3, without END", said.stderr)


class Talk(unittest.TestCase):
    def talk(self, script: bytes, *replies: bytes) -> "subprocess.CompletedProcess[bytes]":
        server = Server(by_bytes(*replies))
        self.addCleanup(server.join, 300)
        return subprocess.run([sys.executable, str(BIN / "talk.py"), f"{HOST}:{server.port}"], input=script, capture_output=True, timeout=300)

    def test_a_script_with_numbers(self) -> None:
        said = self.talk(b"1 SOLVE\n1 QUIT\n", b"ERR 1 WORD\n", b"ERR 1 WORD\n")
        self.assertEqual(said.stdout, b"ERR 1 WORD\nERR 1 WORD\n")
        self.assertEqual(said.stderr.count(b"a connection has one session, and its commands have no number: sed"), 1)

    def test_a_command_that_there_is_not(self) -> None:
        said = self.talk(b"SOLV\n", b"ERR 1 WORD\n")
        self.assertIn(b"docs/PROTOCOL.md describes the commands", said.stderr)

    def test_help_on_a_terminal(self) -> None:
        """It lists the commands, and goes to no server. In a script the word is sent as it is."""
        server = Server(by_bytes(b"BYE\n"))
        self.addCleanup(server.join, 300)
        above, below = pty.openpty()
        words = [sys.executable, str(BIN / "talk.py"), f"{HOST}:{server.port}"]
        with subprocess.Popen(words, stdin=below, stdout=subprocess.PIPE, stderr=subprocess.PIPE) as run:
            os.write(above, b"help\nQUIT\n")
            output, complaints = run.communicate(timeout=300)
        os.close(above)
        os.close(below)
        self.assertEqual((run.returncode, output), (0, b"BYE\n"))
        protocol = (TOP / "docs" / "PROTOCOL.md").read_text()
        for command in ("LOAD FREE", "SETRHS row value", "SETBOUND column lower upper", "QUIT"):
            self.assertIn(command.encode(), complaints)
            self.assertIn(f"`{command}`", protocol)
        self.assertEqual(self.talk(b"HELP\n", b"ERR 1 WORD\n").stdout, b"ERR 1 WORD\n")

    def test_nobody_reads(self) -> None:
        replied: List[bytes] = []

        def serve(link: socket.socket) -> None:
            for _ in commands(link):
                link.sendall(b"TEXT 1\n" + b"x" * 1000 + b"\n")
                replied.append(b"")

        server = Server(serve)
        self.addCleanup(server.join, 300)
        words = [sys.executable, str(BIN / "talk.py"), f"{HOST}:{server.port}"]
        with subprocess.Popen(words, stdin=subprocess.PIPE, stdout=subprocess.PIPE, stderr=subprocess.PIPE) as run:
            if run.stdin and run.stdout and run.stderr:
                run.stdout.close()
                run.stdin.write(b"WRITE FREE\n" * 9)
                run.stdin.close()
                self.assertEqual((run.wait(300), run.stderr.read()), (141, b""))
