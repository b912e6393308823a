"""Which lpd the front says that it is, as a release, in a repository and installed."""
import shutil
import subprocess
import tempfile
import unittest
from pathlib import Path
from unittest import mock

from lpd import program, version

from .commands import command


class TestVersion(unittest.TestCase):
    def setUp(self) -> None:
        place = tempfile.TemporaryDirectory()
        self.addCleanup(place.cleanup)
        self.room = Path(place.name)

    def test_of_this_repository(self) -> None:
        number = (version.REPOSITORY / "VERSION").read_text(encoding="ascii").strip()
        self.assertEqual(version.version().split()[0], number)

    def test_of_a_release(self) -> None:
        release = self.room / "RELEASE"
        release.write_text("1.2.3 abcdef\n", encoding="ascii")
        with mock.patch.object(version, "RELEASE", release):
            self.assertEqual(version.version(), "1.2.3 abcdef")
            status, said, _ = command("--version")
        self.assertEqual((status, said), (0, "lpd 1.2.3 abcdef\n"))

    @unittest.skipUnless(shutil.which("git"), "git is not on the path")
    def test_the_commit(self) -> None:
        """As git describes it, with a + where a file was changed, and by one command that takes no lock."""

        def git(*words: str) -> str:
            names = ["-c", "user.name=a", "-c", "user.email=a@b"]
            return subprocess.run(["git", *names, *words], cwd=self.room, capture_output=True, text=True, check=True).stdout.strip()

        with mock.patch.object(version, "REPOSITORY", self.room):
            self.assertEqual(version.commit(), "")
            git("init", "-q")
            self.assertEqual(version.commit(), "")
            (self.room / "VERSION").write_text("1.2.3\n", encoding="ascii")
            git("add", "VERSION")
            git("commit", "-q", "-m", "first")
            first = git("rev-parse", "HEAD")
            with mock.patch.object(subprocess, "run", wraps=subprocess.run) as run:
                self.assertEqual(version.version(), f"1.2.3 {first}")
                self.assertEqual([words[0][0][:2] for words in run.call_args_list], [["git", "--no-optional-locks"]])
            (self.room / "other").write_text("not of the repository", encoding="ascii")
            self.assertEqual(version.commit(), first)
            (self.room / "VERSION").write_text("1.2.4\n", encoding="ascii")
            self.assertEqual(version.commit(), f"{first}+")

    def test_a_repository_without_git_has_its_number(self) -> None:
        (self.room / "VERSION").write_text("1.2.3\n", encoding="ascii")
        with mock.patch.object(version, "REPOSITORY", self.room):
            self.assertEqual(version.version(), "1.2.3")


class TestHome(unittest.TestCase):
    """Where the program is looked for, and what the front says where there is none."""

    def missing(self, *files: str) -> str:
        with tempfile.TemporaryDirectory() as place:
            for name in files:
                Path(place, name).write_text("", encoding="ascii")
            with mock.patch.object(program, "REPOSITORY", Path(place)), mock.patch.dict("os.environ", {"PATH": place}, clear=True):
                with self.assertRaises(program.ProgramMissing) as caught:
                    program.find_program()
        return str(caught.exception)

    def test_in_a_repository_it_can_be_built(self) -> None:
        self.assertIn("./lpd build", self.missing("crates.txt", "VERSION"))

    def test_elsewhere_it_cannot(self) -> None:
        self.assertIn("unpack the release", self.missing("VERSION"))
        self.assertIn("install it", self.missing())


if __name__ == "__main__":
    unittest.main()
