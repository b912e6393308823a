"""The package: pyproject.toml says what it is, and the file VERSION at the top of the repository which version."""
from pathlib import Path
from tempfile import TemporaryDirectory

from setuptools import setup
from setuptools.command.build_py import build_py

TOP = Path(__file__).resolve().parents[2]


class BuildWithPage(build_py):
    """Puts the page that `solve --page` writes a result into beside the modules, as a release does."""

    def run(self) -> None:
        super().run()
        self.copy_file(str(TOP / "web" / "check.html"), str(Path(self.build_lib) / "lpd" / "check.html"))


# What setuptools writes on its way goes to a folder of its own, so that nothing of it is left beside the sources.
with TemporaryDirectory() as room:
    setup(
        version=(TOP / "VERSION").read_text(encoding="ascii").strip(),
        cmdclass={"build_py": BuildWithPage},
        options={"build": {"build_base": room}, "egg_info": {"egg_base": room}},
    )
