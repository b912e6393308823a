"""What the command solve does and says where it solves for another row of type N than the first."""
from __future__ import annotations

import argparse
from fractions import Fraction
from typing import Dict, List, Optional

from ..certificate import matched, read_certificate
from ..figures import Style
from ..model import Model
from ..number_text import shown
from ..objective import Aim, aimed
from ..replies import Optimal
from ..ways import Answered
from .common import number_in, tell


def asked_aim(words: argparse.Namespace, text: str, model: Model) -> Optional[Aim]:
    """The model that was given another objective, where one is asked for that it does not have already."""
    if words.objective == model.objective:
        return None
    found = aimed(text, model, words.objective)
    for note in found.notes:
        tell(f"note: {note}")
    return found


def value_before(aim: Aim, found: Answered) -> Optional[Fraction]:
    """What the first objective is at the optimum, if there is one."""
    if not isinstance(found.answer, Optimal):
        return None
    return aim.value_before(matched(aim.model, read_certificate(found.certificate, wide=True))["x"])


def sentences(aim: Aim, found: Answered, style: Style, is_written: bool) -> List[str]:
    """That it is another objective, and what the certificate is for, unless that text is written beside it."""
    value = value_before(aim, found)
    first = "" if value is None else f", which is {style.word(value)} there"
    told = [f"Solved for {aim.row} in place of {aim.before.objective}{first}."]
    if found.certificate and not is_written:
        told.append(f"The certificate is for the text with {aim.row} as its objective: -o FILE writes both, and the command check takes them.")
    return told


def objective_in_json(aim: Aim, found: Answered, places: Optional[int]) -> Dict[str, object]:
    value = value_before(aim, found)
    decimals = {"value": number_in(value, places)}
    return {"row": aim.row, "in_place_of": aim.before.objective, "value": None if value is None else shown(value), "decimals": decimals}
