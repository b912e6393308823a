"""What the program needs of the system that it runs on, by its dynamic section and symbols."""
from __future__ import annotations

import re
from dataclasses import dataclass
from pathlib import Path
from typing import List

from .checkout import Unfit, run

LIBRARY = re.compile(r"^\s*NEEDED\s+(\S+)$", re.M)
VERSION = re.compile(r"\bGLIBC_(\d+(?:\.\d+)+)\b")
# The packages of Debian that have these libraries.
PACKAGES = {"libc.so.6": "libc6", "libm.so.6": "libc6", "libpthread.so.0": "libc6", "libgcc_s.so.1": "libgcc-s1"}


@dataclass(frozen=True)
class Needs:
    """The libraries that the program is linked with, and the least version of the C library that has all it calls."""

    libraries: List[str]
    glibc: str

    def sentence(self) -> str:
        return f"x86-64 Linux, glibc {self.glibc} or later ({', '.join(self.libraries)})"

    def packages(self) -> str:
        """The same as a list of Debian's packages."""
        names = sorted({PACKAGES[library] for library in self.libraries})
        return ", ".join(f"{name} (>= {self.glibc})" if name == "libc6" else name for name in names)


def needs_of(program: Path) -> Needs:
    if "x86-64" not in run("objdump", "-f", str(program)):
        raise Unfit(f"{program} is not for x86-64")
    libraries = sorted(LIBRARY.findall(run("objdump", "-p", str(program))))
    unknown = set(libraries) - PACKAGES.keys()
    versions = set(VERSION.findall(run("objdump", "-T", str(program))))
    if unknown or not versions:
        raise Unfit(f"{program} needs {', '.join(sorted(unknown)) or 'no C library'}, which a release does not expect")
    return Needs(libraries, max(versions, key=lambda text: [int(part) for part in text.split(".")]))
