"""The front in Python as a wheel (PEP 427), written here, so that its bytes are the same whatever setuptools is there."""
from __future__ import annotations

import base64
import hashlib
import stat
import time
import tomllib
import zipfile
from pathlib import Path
from typing import List

from .checkout import TOP, Checkout, Entry, Unfit, committed, entries

PROJECT = TOP / "clients" / "python" / "pyproject.toml"
WHEEL = "Wheel-Version: 1.0\nGenerator: release/make_release\nRoot-Is-Purelib: true\nTag: py3-none-any\n"
# What of a project's table the wheel carries over.
CARRIED = {"name", "dynamic", "description", "requires-python", "license", "scripts"}


def metadata(project: dict, version: str) -> str:
    heads = [
        "Metadata-Version: 2.1",
        f"Name: {project['name']}",
        f"Version: {version}",
        f"Summary: {project['description']}",
        f"Requires-Python: {project['requires-python']}",
        f"License: {project['license']['text']}",
        "Description-Content-Type: text/markdown",
    ]
    readme = (PROJECT.parent / "README.md").read_text(encoding="utf-8")
    return "\n".join(heads) + "\n\n" + readme


def scripts(project: dict) -> str:
    lines = [f"{name} = {place}" for name, place in project.get("scripts", {}).items()]
    return "\n".join(["[console_scripts]", *lines, ""])


def contents(checkout: Checkout, information: str) -> List[Entry]:
    project = tomllib.loads(PROJECT.read_text(encoding="utf-8"))["project"]
    if not project.keys() <= CARRIED:
        raise Unfit(f"{PROJECT} has what the wheel would lose: {', '.join(project.keys() - CARRIED)}")
    modules = entries(committed("clients/python/lpd"), "lpd/", "clients/python/lpd/")
    # beside the modules stands the page that solve --page puts a result into
    page = entries(committed("web/check.html"), "lpd/", "web/")
    license_text = (TOP / "LICENSE").read_text(encoding="utf-8")
    told = [("LICENSE", license_text), ("METADATA", metadata(project, checkout.version)), ("WHEEL", WHEEL)]
    if project.get("scripts"):
        told.append(("entry_points.txt", scripts(project)))
    release = Entry("lpd/RELEASE", f"{checkout.name}\n".encode())
    return [*modules, *page, release, *(Entry(f"{information}/{name}", text.encode()) for name, text in told)]


def record(files: List[Entry], path: str) -> Entry:
    """The list of all files with their checksums."""
    lines = []
    for file in files:
        digest = base64.urlsafe_b64encode(hashlib.sha256(file.data).digest()).rstrip(b"=").decode()
        lines.append(f"{file.path},sha256={digest},{len(file.data)}\n")
    return Entry(path, "".join([*lines, f"{path},,\n"]).encode())


def pack(checkout: Checkout, into: Path) -> Path:
    information = f"lpd-{checkout.version}.dist-info"
    files = contents(checkout, information)
    files.append(record(files, f"{information}/RECORD"))
    to = into / f"lpd-{checkout.version}-py3-none-any.whl"
    with zipfile.ZipFile(to, "w", zipfile.ZIP_DEFLATED, compresslevel=9) as wheel:
        for file in files:
            head = zipfile.ZipInfo(file.path, time.gmtime(checkout.seconds)[:6])
            head.compress_type, head.create_system = zipfile.ZIP_DEFLATED, 3
            head.external_attr = (stat.S_IFREG | file.mode) << 16
            wheel.writestr(head, file.data)
    return to
