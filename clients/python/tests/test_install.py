"""pip install of this folder, offline, by the setuptools that is there: what is installed, and that nothing is left here."""
import os
import shutil
import subprocess
import sys
import tempfile
import unittest
from pathlib import Path
from typing import Optional, Set

TOP = Path(__file__).resolve().parents[3]
OFFLINE = ["--no-index", "--no-build-isolation", "--no-deps", "--no-cache-dir", "--disable-pip-version-check", "--root-user-action=ignore"]
SECONDS = 1200
# Fails where a Python lacks what makes a wheel, which an older setuptools needs a package of its own for.
CAN_BUILD = "import setuptools, importlib.util as i; setuptools.Distribution().get_command_class('bdist_wheel'); assert i.find_spec('pip')"


def installer() -> Optional[str]:
    """A Python with pip and a setuptools that makes wheels."""
    for python in (sys.executable, "/usr/bin/python3"):
        if Path(python).exists() and subprocess.run([python, "-c", CAN_BUILD], capture_output=True).returncode == 0:
            return python
    return None


def files(folder: Path) -> Set[str]:
    return {str(path.relative_to(folder)) for path in folder.rglob("*")}


class Install(unittest.TestCase):
    def setUp(self) -> None:
        folder = tempfile.TemporaryDirectory()
        self.addCleanup(folder.cleanup)
        self.room = Path(folder.name)
        self.top, self.site = self.room / "top", self.room / "site"
        shutil.copytree(TOP / "clients" / "python", self.top / "clients" / "python", ignore=shutil.ignore_patterns("__pycache__"))
        (self.top / "web").mkdir()
        for name in ("VERSION", "web/check.html"):
            shutil.copy(TOP / name, self.top / name)

    def run_in_room(self, *words: str, **more: str) -> "subprocess.CompletedProcess[str]":
        environment = {**os.environ, "PYTHONDONTWRITEBYTECODE": "1", **more}
        return subprocess.run(words, cwd=self.room, env=environment, capture_output=True, text=True, timeout=SECONDS)

    def test_nothing_is_left_beside_the_sources(self) -> None:
        python = installer()
        if python is None:
            self.skipTest("no python3 with pip and a setuptools that makes wheels is there")
        before = files(self.top)
        done = self.run_in_room(python, "-m", "pip", "install", *OFFLINE, "--target", str(self.site), "./top/clients/python")
        self.assertEqual(done.returncode, 0, done.stderr)
        self.assertEqual(files(self.top), before)
        names = {path.name for path in (self.top / "clients" / "python" / "lpd").rglob("*.py")}
        self.assertEqual({path.name for path in (self.site / "lpd").rglob("*.py")}, names)
        self.assertTrue((self.site / "lpd" / "check.html").exists())
        shutil.rmtree(self.top)
        said = self.run_in_room(sys.executable, "-m", "lpd", "--version", PYTHONPATH=str(self.site))
        self.assertEqual((said.returncode, said.stdout), (0, f"lpd {(TOP / 'VERSION').read_text(encoding='ascii').strip()}\n"))
