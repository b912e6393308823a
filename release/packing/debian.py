"""The release as a Debian package: dpkg-deb makes it, of a folder that is laid out here."""
from __future__ import annotations

import gzip
import hashlib
import os
import re
import subprocess
import tempfile
import time
from pathlib import Path
from typing import Iterator, List

from .checkout import TOP, Checkout, Entry, Unfit, committed, entries
from .needs import needs_of

DOCUMENTS = "usr/share/doc/lpd"
MAINTAINER = "Feryqtos maintainers <maintainers@users.noreply.feryqtos.example>"
# What of the repository stands below /usr/share/doc/lpd, at the same paths: the documents, what they link to, and the examples.
PLACES = [
    "README.md", "CHANGELOG.md", "CONTRIBUTING.md", "SECURITY.md", "docs/*.md", "docs/*.png", "docs/*.svg", "web/check.html",
    "clients/python/README.md", "examples",
]  # fmt: skip
DESCRIPTION = """exact solver and server for linear programs
 lpd reads linear programs in MPS format and answers exactly, in fractions:
 an optimal value, or that the model is infeasible or unbounded. Each answer
 has a certificate that anyone can check against the text of the model, and
 lpd check does so. lpd serve has sessions over TCP, one on each link.
 .
 The program is proved to meet its contracts; docs/PROOFS.md says which."""
# Why lintian finds what it finds.
OVERRIDES = """# The program is byte for byte the one that the gate ran, whose checksum PROVENANCE names.
lpd: unstripped-binary-or-object [usr/bin/lpd]
"""


def small(text: str) -> bytes:
    """As Debian's policy has it: compressed, without a name and a time."""
    return gzip.compress(text.encode(), 9, mtime=0)


def changes(checkout: Checkout) -> str:
    """The changelog of the package: what CHANGELOG.md says of the version, one entry for each of its items."""
    text = (TOP / "CHANGELOG.md").read_text(encoding="utf-8")
    found = re.search(rf"^## {re.escape(checkout.version)}\b.*?\n(.*?)(?=^## |\Z)", text, re.M | re.S)
    if not found:
        raise Unfit(f"CHANGELOG.md says nothing of {checkout.version}")
    items = [" ".join(item.split()) for item in re.findall(r"^- (.*(?:\n  .*)*)", found[1], re.M)]
    when = time.strftime("%a, %d %b %Y %H:%M:%S +0000", time.gmtime(checkout.seconds))
    lines = [f"lpd ({checkout.version}) stable; urgency=medium", "", *(folded(item) for item in items), ""]
    return "\n".join([*lines, f" -- {MAINTAINER}  {when}", ""])


def folded(item: str) -> str:
    """An item of the changelog, in lines of at most 79 characters."""
    lines, line = [], "  *"
    for word in item.split():
        if len(line) + 1 + len(word) > 79:
            lines, line = [*lines, line], "   "
        line += f" {word}"
    return "\n".join([*lines, line])


def license_page() -> str:
    """LICENSE as Debian's machine-readable copyright."""
    title, holder, text = (TOP / "LICENSE").read_text(encoding="utf-8").split("\n\n", 2)
    body = "\n".join(f" {line}" if line else " ." for line in text.strip().splitlines())
    form = "https://www.debian.org/doc/packaging-manuals/copyright-format/1.0/"
    holder = holder.removeprefix("Copyright (c) ")
    return f"Format: {form}\nUpstream-Name: lpd\n\nFiles: *\nCopyright: {holder}\nLicense: Expat\n{body}\n"


def unit() -> bytes:
    text = (TOP / "examples" / "serve" / "lpd@.service").read_text(encoding="utf-8")
    return text.replace("/usr/local/bin/lpd", "/usr/bin/lpd").encode()


def contents(checkout: Checkout, program: Path) -> Iterator[Entry]:
    manual = (TOP / "docs" / "lpd.1").read_text(encoding="utf-8")
    yield Entry("usr/bin/lpd", program.read_bytes(), runs=True)
    yield Entry("usr/share/man/man1/lpd.1.gz", small(manual))
    yield Entry("usr/share/bash-completion/completions/lpd", (TOP / "completions" / "lpd.bash").read_bytes())
    yield Entry("lib/systemd/system/lpd@.service", unit())
    yield Entry("usr/share/lintian/overrides/lpd", OVERRIDES.encode())
    yield Entry(f"{DOCUMENTS}/copyright", license_page().encode())
    yield Entry(f"{DOCUMENTS}/changelog.gz", small(changes(checkout)))
    yield Entry(f"{DOCUMENTS}/RELEASE", f"{checkout.name}\n".encode())
    yield from entries(committed(*PLACES), f"{DOCUMENTS}/")


def control(checkout: Checkout, program: Path, files: List[Entry]) -> str:
    heads = {
        "Package": "lpd",
        "Version": checkout.version,
        "Architecture": "amd64",
        "Maintainer": MAINTAINER,
        "Installed-Size": str(sum(len(file.data) // 1024 + 1 for file in files)),
        "Depends": needs_of(program).packages(),
        "Suggests": "haproxy",
        "Section": "math",
        "Priority": "optional",
        "Description": DESCRIPTION,
    }
    return "".join(f"{name}: {value}\n" for name, value in heads.items())


def lay(files: List[Entry], room: Path) -> None:
    for file in files:
        to = room / file.path
        to.parent.mkdir(parents=True, exist_ok=True)
        to.write_bytes(file.data)
        to.chmod(file.mode)


def pack(checkout: Checkout, program: Path, into: Path) -> Path:
    files = list(contents(checkout, program))
    sums = "".join(f"{hashlib.md5(file.data).hexdigest()}  {file.path}\n" for file in files)
    told = [Entry("DEBIAN/control", control(checkout, program, files).encode()), Entry("DEBIAN/md5sums", sums.encode())]
    to = into / f"lpd_{checkout.version}_amd64.deb"
    with tempfile.TemporaryDirectory(prefix="lpd-deb-") as place:
        room = Path(place) / "lpd"
        lay([*files, *told], room)
        for folder in (room, *(path for path in room.rglob("*") if path.is_dir())):
            folder.chmod(0o755)  # whatever the umask is
        # one thread and no times of this packing: the same bytes each time
        command = ["dpkg-deb", "--root-owner-group", "-Zxz", "--threads-max=1", "--build", str(room), str(to)]
        environment = {**os.environ, "SOURCE_DATE_EPOCH": str(checkout.seconds)}
        try:
            done = subprocess.run(command, env=environment, capture_output=True, text=True)
        except FileNotFoundError:
            raise Unfit("dpkg-deb is not on the path") from None
    if done.returncode:
        raise Unfit(f"dpkg-deb: {done.stderr.strip()}")
    return to
