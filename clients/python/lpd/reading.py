"""Files of models: MPS, as it is or compressed by gzip, and what glpsol reads."""
from __future__ import annotations

import sys
from pathlib import Path

from .errors import Unreadable

MOST = 2**26  # bytes, which is what the program reads
GZIP = b"\x1f\x8b"
LP, MATHPROG = ".lp", ".mod"
ENDS = (".mps", LP, MATHPROG)
TABLES = (".csv", ".tsv", ".xls", ".xlsx", ".ods")


def unpacked(data: bytes, name: str) -> bytes:
    """What is in a file, which may be compressed."""
    if not data.startswith(GZIP):
        return data
    import gzip  # here, since few files are compressed
    import io
    import zlib

    try:
        with gzip.GzipFile(fileobj=io.BytesIO(data)) as source:
            text = source.read(MOST + 1)
    except (OSError, EOFError, zlib.error) as error:
        raise Unreadable(f"{name} is no whole gzip file: {error}") from None
    if len(text) > MOST:
        raise Unreadable(f"{name} has more than {MOST} bytes when it is unpacked")
    return text


def end_of(path: Path) -> str:
    """The end of a name that says what a file is, whether or not .gz stands behind it, or nothing."""
    name = path.name.lower()
    name = name[:-3] if name.endswith(".gz") else name
    return next((end for end in ENDS if name.endswith(end)), "")


def name_of(path: Path) -> str:
    """The file's name without that end, and without .gz behind it."""
    return path.name[: path.name.lower().rindex(end_of(path))] if end_of(path) else path.name


def is_lp(path: str) -> bool:
    """Whether a file is one that glpsol reads, by its name."""
    return end_of(Path(path)) in (LP, MATHPROG)


def mps_of_file(data: bytes, path: str) -> bytes:
    """The MPS text of a model in a file with this content."""
    if path.lower().endswith(TABLES):
        raise Unreadable(f"{path} is a table, and no text of a model: examples/python/table.py in the repository makes a model of one")
    text = unpacked(data, path)
    if not is_lp(path):
        return text
    from .lp_format import from_lp  # here, since most files are MPS

    return from_lp(text, path, end_of(Path(path)))


def read_model_file(path: str) -> bytes:
    """The MPS text of a model: of a file, or of standard input where the path is -."""
    return mps_of_file(sys.stdin.buffer.read() if path == "-" else Path(path).read_bytes(), path)
