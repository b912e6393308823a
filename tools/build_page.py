#!/usr/bin/env python3
"""Puts the page that checks certificates together from the files in web/.

    build_page.py [--check]

It writes web/check.html: web/page.html with the style, the script of the page, and the script of its worker in it, and
with the hashes of the first two in the page's security policy, so that a browser runs nothing else. With --check it
writes nothing, and the status is 1 if web/check.html is not what it would write.
"""
import base64
import hashlib
import re
import sys
from pathlib import Path

from helping import helps

WEB = Path(__file__).resolve().parent.parent / "web"
PAGE = WEB / "check.html"
# What decides, without a page: numbers, texts, and the check.
LOGIC = ["numbers", "lines", "model", "certificate", "check", "verdict"]
WORKER = [*LOGIC, "worker"]
SCRIPT = ["numbers", "lines", "elements", "tables", "plane", "pictures", "report", "page"]


def joined(names: list[str]) -> str:
    """Scripts one behind the other."""
    return "\n" + "\n".join((WEB / f"{name}.js").read_text(encoding="utf-8") for name in names)


def hash_of(text: str) -> str:
    """The hash of an element's text, as a security policy names it."""
    return f"'sha256-{base64.b64encode(hashlib.sha256(text.encode()).digest()).decode()}'"


def page() -> str:
    style = "\n" + (WEB / "page.css").read_text(encoding="utf-8")
    script, worker = joined(SCRIPT), joined(WORKER)
    if re.search("</(script|style)", style + script + worker, re.I):
        raise SystemExit("build_page.py: an element of the page would end before its text does")
    parts = {"style": style, "script": script, "worker": worker}
    parts |= {"style-hash": hash_of(style), "script-hash": hash_of(script)}
    parts["made"] = "Made by tools/build_page.py of the other files here: edit those."
    template = (WEB / "page.html").read_text(encoding="utf-8")
    return re.sub(r"\{([a-z-]+)\}", lambda place: parts[place[1]], template)


def main() -> int:
    if "--check" in sys.argv[1:]:
        return 0 if PAGE.exists() and PAGE.read_text(encoding="utf-8") == page() else 1
    PAGE.write_text(page(), encoding="utf-8")
    return 0


if __name__ == "__main__":
    helps(__doc__)
    sys.exit(main())
