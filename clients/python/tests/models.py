"""Random models, and whether the program is built."""
import random
from fractions import Fraction
from typing import Optional

import lpd
from lpd.certifying import BASIS, BASIS_WIDE
from lpd.model import Column, Model, Row
from lpd.once import has_command
from lpd.program import find_program


def has_program() -> bool:
    try:
        return bool(find_program())
    except lpd.ProgramMissing:
        return False


def the_basis() -> str:
    """The command that makes a basis exact: of the built program, which may be an older one."""
    return BASIS_WIDE if has_command("basis --wide") else BASIS


def some_model(dice: random.Random, rows: int = 5, columns: int = 6) -> Model:
    """A model with rows, bounds, ranges and an offset of every kind, whose numbers a float has exactly."""

    def number() -> Fraction:
        return Fraction(dice.randint(-12, 12), dice.choice([1, 1, 2, 4]))

    def upper(lower: Optional[Fraction]) -> Optional[Fraction]:
        return dice.choice([None, (lower or 0) + abs(number()), (lower or 0) + Fraction(3)])

    model = Model("made", dice.choice([1, -1]), "obj", number())
    for i in range(dice.randint(1, rows)):
        kind = dice.choice("LLGGEEN")
        model.rows[f"{dice.choice('r-$+')}{i}"] = Row(kind, number(), None if kind == "N" else dice.choice([None, None, number()]))
    for j in range(dice.randint(1, columns)):
        lower = dice.choice([Fraction(0), Fraction(0), None, number()])
        entries = {row: value for row in model.rows for value in [number()] if value and dice.random() < 0.7}
        model.columns[f"{dice.choice('x-$+')}{j}"] = Column(number(), lower, upper(lower), entries)
    model.columns["-"] = Column(Fraction(1), Fraction(1), Fraction(2), {})
    return model
