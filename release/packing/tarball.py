"""The release as a tar file: the program at the top of a folder, and beside it files of the repository at their paths."""
from __future__ import annotations

import gzip
import io
import tarfile
from pathlib import Path
from typing import List

from .checkout import Checkout, Entry, committed, entries

# What of the repository goes along: the documents, the manual page, the completion, the checkers and the examples.
PLACES = [
    "README.md", "CHANGELOG.md", "CONTRIBUTING.md", "SECURITY.md", "LICENSE", "VERSION", "docs", "examples", "web", "coq",
    "completions/lpd.bash", "bin/lpd-py", "bin/talk.py", "bin/check_certificate.py",
    "clients/python/lpd", "clients/python/README.md",
]  # fmt: skip


def contents(checkout: Checkout, program: Path) -> List[Entry]:
    release = Entry("clients/python/lpd/RELEASE", f"{checkout.name}\n".encode())
    return [Entry("lpd", program.read_bytes(), runs=True), release, *entries(committed(*PLACES))]


def pack(checkout: Checkout, program: Path, into: Path) -> Path:
    top = f"lpd-{checkout.version}"
    to = into / f"{top}-x86_64-linux.tar.gz"
    plain = io.BytesIO()
    with tarfile.open(fileobj=plain, mode="w", format=tarfile.USTAR_FORMAT) as tar:
        for entry in sorted(contents(checkout, program), key=lambda entry: entry.path):
            head = tarfile.TarInfo(f"{top}/{entry.path}")
            head.size, head.mode, head.mtime = len(entry.data), entry.mode, checkout.seconds
            head.uname = head.gname = "root"
            tar.addfile(head, io.BytesIO(entry.data))
    # no name and no time of this packing stand in the file
    to.write_bytes(gzip.compress(plain.getvalue(), 9, mtime=checkout.seconds))
    return to
