"""What the command solve says of an infeasible model: what contradicts what, and which change of the model is enough."""
from __future__ import annotations

import argparse
from fractions import Fraction
from typing import Dict, List, Optional, Sequence

from ..certificate import Failed, must_be_feasible
from ..dialects import PROFILE, written
from ..errors import TOO_MUCH, CommandMissing, LpdError, Refused, TextFault
from ..exact import OutOfTime
from ..figures import NEAR, Style, outward
from ..irreducible import Irreducible, Member, Side, bare, iis
from ..judging import LARGE
from ..model import Model
from ..number_text import shown
from ..remedy import Advice, Change, Remedy, advise, weights_of, without
from ..replies import Infeasible, Past
from ..report import conflict
from ..ways import Answered, Effort
from .common import number_in, print_prose, table, tell

MOST = 6  # sentences
MOST_VALUES = 6  # of a point
SECONDS, FEW = 20.0, 2.0  # for what would be enough, and for what can be left out of the whole model


def found_limits(words: argparse.Namespace, text: str, model: Model, found: Answered) -> Optional[Irreducible]:
    """The limits of an infeasible model. That they are not known is told in a line, where they are asked for or the program has no
    answer."""
    if not isinstance(found.answer, Infeasible):
        if words.iis:
            tell(f"lpd: there is no list: --iis is for an infeasible model, and the answer is {found.answer}")
        return None
    try:
        return limits_of(words, text, model, found.certificate)
    except CommandMissing as missing:
        if words.iis:
            tell(f"lpd: there is no list: {missing}")
    except (NotKnown, OutOfTime, Refused) as why:
        if not (isinstance(why, TextFault) and why.fault == TOO_MUCH):
            tell(f"note: it is not known which limits can be left out: {why}")
        elif words.iis:
            tell(f"lpd: there is no list: {LARGE}")
    return None


class NotKnown(LpdError):
    """Why `lpd iis` finds no limits."""


def limits_of(words: argparse.Namespace, text: str, model: Model, certificate: List[str]) -> Irreducible:
    """What `lpd iis` finds in the whole model, for which it has a few seconds where nobody asks for a list; or else in the limits of a
    certificate alone, whose numbers are shorter."""
    try:
        return known(iis(text, seconds=seconds_of(words, model) if words.iis else min(seconds_of(words, model), FEW)))
    except (NotKnown, OutOfTime, TextFault) as fault:
        if isinstance(fault, TextFault) and not model.is_large:
            raise
        part = bare(model, list(weights_of(model, certificate)))
        return known(iis(written(part, PROFILE).text, seconds=seconds_of(words, model)))


def seconds_of(words: argparse.Namespace, model: Model) -> float:
    return Effort(seconds=words.seconds).limit(model)


def known(found: Irreducible) -> Irreducible:
    if found.members:
        return found
    ended = found.stopped or found.answer
    raise NotKnown("lpd iis ran out of digits" if isinstance(ended, Past) else f"lpd iis ends with {ended}")


def found_advice(words: argparse.Namespace, model: Model, certificate: List[str], limits: Optional[Irreducible]) -> Optional[Advice]:
    """Which changes are enough. That it is not known is told in a line."""
    known = [certificate, *([limits.certificate] if limits else [])]
    most = min(seconds_of(words, model), SECONDS)
    try:
        return advise(model, known, most)
    except OutOfTime:
        tell(f"note: it is not known which change of the model is enough: none was found in {most:g} seconds")
        return None
    except LpdError as why:
        tell(f"note: it is not known which change of the model is enough: {why}")
        return None


# ---- in words


def print_conflicts(words: argparse.Namespace, text: str, model: Model, found: Answered, style: Style) -> None:
    """What contradicts what, what is enough, and the list where it is asked for."""
    limits = found_limits(words, text, model, found)
    if isinstance(found.answer, Infeasible) and words.show != "answer":
        print_conflict(model, found.certificate, limits, style)
        advice = found_advice(words, model, found.certificate, limits)
        if advice:
            print_advice(model, advice, style)
    if limits and words.iis:
        print_list(model, limits, style)


def print_conflict(model: Model, certificate: List[str], limits: Optional[Irreducible], style: Style) -> None:
    """What contradicts what, by as few limits as are known to."""
    print_prose(conflict(model, limits.certificate if limits else certificate).scaled().told(style.word))
    if limits and len(limits.members) > 1:
        print_prose(f"These {len(limits.members)} limits contradict each other, and no part of them does:")
        for sentence in limits.sentences(style.word)[:MOST]:
            print_prose(f"  {sentence}")
        if len(limits.members) > MOST:
            print(f"  and {len(limits.members) - MOST} more, which --iis lists")


def print_advice(model: Model, advice: Advice, style: Style) -> None:
    """The least change of one limit, and the least of all right sides where these are less, or another way."""
    single, together = advice.single, advice.together
    if single:
        print_prose(f"The least change of one right side or bound that is enough: {in_words(model, single.changes[0], style)}.")
        print_point(single, style)
        print_try(model, single, style)
    else:
        print_prose("No change of one right side or bound is enough.")
    if together is None:
        print_prose("No changes of right sides are enough, since the bounds of a column contradict each other.")
    elif single is None or together.total < single.total:
        print(f"The least changes of right sides that are enough, {style.word(together.total)} in all:")
        for change in together.changes[:MOST]:
            print_prose(f"  {in_words(model, change, style)}")
        if len(together.changes) > MOST:
            print(f"  and {len(together.changes) - MOST} more, which --iis --json lists")
        print_point(together, style)
        print_try(model, together, style)


def in_words(model: Model, change: Change, style: Style) -> str:
    """A change, as a limit that is enough: rounded, if it is, to the side on which it asks for less. A right side that is met exactly is
    shown exactly."""
    side, more = change.side, "more" if change.after > change.before else "less"
    after = outward(change.after, side.is_upper, style)
    kind = "at most" if side.is_upper else "at least"
    if is_met_exactly(model, side):
        kind, after = "equal to", style.word(change.after)
        after = after if style.shows(change.after) else f"{shown(change.after)} ({after})"
    return f"{side.name} {kind} {after} in place of {style.word(change.before)} ({style.word(change.by)} {more})"


def is_met_exactly(model: Model, side: Side) -> bool:
    limits = model.rows[side.name].limits() if side.is_row else None
    return limits is not None and limits.lower == limits.upper


def print_try(model: Model, remedy: Remedy, style: Style) -> None:
    """The words with which the command solve takes the changes, as they are told."""
    if len(remedy.changes) <= MOST:
        print_prose(f"  To try it: {' '.join(option_for(model, change, style) for change in remedy.changes)}")


def option_for(model: Model, change: Change, style: Style) -> str:
    """The option of a change, with the number that is told."""
    side, after = change.side, change.after
    if not is_met_exactly(model, side):
        after = Fraction(outward(after, side.is_upper, Style(places=style.places)).lstrip(NEAR))
    if side.is_row:
        return f"--set-rhs {side.name}={shown(model.rows[side.name].rhs + after - change.before)}"
    lower, upper = model.columns[side.name].limits()
    ends = ("-inf" if lower is None else shown(lower)), ("inf" if upper is None else shown(upper))
    return f"--set-bound {side.name}={f'{ends[0]}:{shown(after)}' if side.is_upper else f'{shown(after)}:{ends[1]}'}"


def print_point(remedy: Remedy, style: Style) -> None:
    """A point of the changed model."""
    values = [f"{name} {style.word(value)}" for name, value in remedy.point.items()]
    more = f", and {len(values) - MOST_VALUES} more that are not 0" if len(values) > MOST_VALUES else ""
    print_prose(f"  Then there is a point: {', '.join(values[:MOST_VALUES]) or 'all columns 0'}{more}.")


def is_of_the_model(model: Model, member: Member) -> bool:
    """Whether the point of a member meets all rows and bounds of the model but that one."""
    try:
        must_be_feasible(without(model, member.side), member.point)
    except Failed:
        return False
    return True


def print_list(model: Model, found: Irreducible, style: Style) -> None:
    """A table of the limits, and the points without each, where the whole model has them."""
    lines: List[Sequence[str]] = [["point", "limit that it is without", "limit", "the others allow", "off by", "at the point"]]
    for number, member in enumerate(found.members, 1):
        values = (member.limit, member.best, member.by, member.reached)
        lines.append([str(number), member.words(), *(style.cell(value) for value in values)])
    print("\n" + table(lines, style))
    kept = [is_of_the_model(model, member) for member in found.members]
    for number, member in enumerate(found.members, 1):
        if kept[number - 1]:
            print(f"\nPOINT {number}")
            for name, value in member.point.items():
                print(f"x {name} {style.cell(value)}")
    left = kept.count(False)
    if left:
        points = "1 point is left out: it meets" if left == 1 else f"{left} points are left out: each meets"
        print_prose(f"\n{points} the other limits of the list, but not all of the model.")


# ---- as JSON


def limits_in_json(model: Model, found: Optional[Irreducible], places: Optional[int]) -> Optional[Dict[str, object]]:
    if found is None:
        return None
    members: List[Dict[str, object]] = []
    for member, sentence in zip(found.members, found.sentences()):
        values: Dict[str, Fraction] = {"limit": member.limit, "moved_to": member.best, "by": member.by, "at_the_point": member.reached}
        one: Dict[str, object] = {"of": "row" if member.side.is_row else "column", "name": member.name}
        one.update({"side": "upper" if member.side.is_upper else "lower", "words": sentence})
        one.update((name, shown(value)) for name, value in values.items())
        one["decimals"] = {name: number_in(value, places) for name, value in values.items()}
        one["point"] = point_in_json(member.point) if is_of_the_model(model, member) else None
        members.append(one)
    return {"members": members, "certificate": found.certificate}


def point_in_json(point: Dict[str, Fraction]) -> Dict[str, str]:
    return {name: shown(value) for name, value in point.items()}


def advice_in_json(advice: Optional[Advice]) -> Optional[Dict[str, object]]:
    """The changes that are enough: null where they are not known."""
    if advice is None:
        return None
    return {"single": remedy_in_json(advice.single), "right_sides": remedy_in_json(advice.together)}


def remedy_in_json(remedy: Optional[Remedy]) -> Optional[Dict[str, object]]:
    if remedy is None:
        return None
    changes = []
    for change in remedy.changes:
        side = change.side
        one = {"of": "row" if side.is_row else "column", "name": side.name, "side": "upper" if side.is_upper else "lower"}
        changes.append({**one, "limit": shown(change.before), "moved_to": shown(change.after), "by": shown(change.by)})
    return {"total": shown(remedy.total), "changes": changes, "point": point_in_json(remedy.point)}
