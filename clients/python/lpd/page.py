"""The page that checks certificates in a browser, with a model, a certificate and a claim in it: a result that one can send.

It is web/check.html of this repository, changed in one line alone: whoever has a copy of their own can open the result with
that, and need not trust the page that was sent.
"""
from __future__ import annotations

import base64
import json
from pathlib import Path
from typing import List

from .errors import LpdError
from .replies import Answer, Infeasible, Optimal, Unbounded

# In the repository, or beside this file where the package was installed with it.
PLACES = [Path(__file__).resolve().parents[3] / "web" / "check.html", Path(__file__).with_name("check.html")]
# The line of the page that holds what it is given.
EMPTY = '<script type="application/json" id="given">{}</script>'


class NoPage(LpdError):
    """There is nothing that a page could show, or no page to show it in."""


def page() -> str:
    """The text of the page, without a result in it."""
    for place in PLACES:
        if place.exists():
            return place.read_text(encoding="utf-8")
    raise NoPage(f"there is no page to put a result into, neither {' nor '.join(map(str, PLACES))}")


def page_with(model: bytes, certificate: bytes, fixed: bool = False, claim: str = "") -> str:
    """The text of the page with these texts in it, which it checks as soon as it is opened."""
    given = {
        "model": base64.b64encode(model).decode(),
        "certificate": base64.b64encode(certificate).decode(),
        "form": "fixed" if fixed else "free",
        "claim": claim,
    }
    # A claim can hold what would end the element.
    return page().replace(EMPTY, EMPTY.replace("{}", json.dumps(given).replace("<", "\\u003c")), 1)


def write_page(path: str, model: str, certificate: List[str], answer: Answer) -> None:
    """Writes the page with a model, as the program writes it, and the certificate of its answer."""
    if not isinstance(answer, (Optimal, Infeasible, Unbounded)):
        raise NoPage(f"{answer} has no certificate, so there is nothing to put into {path}")
    lines = "".join(f"{line}\n" for line in certificate)
    Path(path).write_text(page_with(model.encode("latin-1"), lines.encode("latin-1"), claim=str(answer)), encoding="utf-8")
