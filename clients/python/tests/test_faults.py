"""The faults of mutated texts: those that convert names, and those that the program does."""
import functools
import random
import unittest
from pathlib import Path
from typing import Callable, Optional, Tuple

import lpd

from .models import has_program

EXAMPLES = Path(__file__).resolve().parents[3] / "examples"
TEXTS = 2000
LINES = ["OBJSENSE", "    MAX", "OBJSENSE MAX", "NAME x y", "ROWS", "RHS", "RANGES", "BOUNDS", "ENDATA", "SOS", "QQ", "* c", "", " "]
LINES += [" BV b x", " UP b x 1", " R r", " x r 1e99", "\tN\tz"]
WORDS = ["", "x", "1e999", "N", "obj", "MAX", "1/0", "-inf", "UP", "BV", "SC", "FR", "é"]
Found = Optional[Tuple[int, int]]


def mutated(dice: random.Random, text: str) -> str:
    """The text with some lines gone, put elsewhere, twice there, or changed."""
    lines = text.split("\n")
    for _ in range(dice.randint(1, 3)):
        at = dice.randrange(len(lines))
        how = dice.randrange(7)
        if how == 0 and len(lines) > 1:
            del lines[at]
        elif how == 1:
            lines.insert(at, dice.choice(lines))
        elif how == 2:
            lines.insert(at, dice.choice(LINES))
        elif how == 3:
            words = lines[at].split(" ")
            words[dice.randrange(len(words))] = dice.choice(WORDS)
            lines[at] = " ".join(words)
        elif how == 4 and lines[at]:
            cut = dice.randrange(len(lines[at]))
            lines[at] = lines[at][:cut] + dice.choice(" \tX1.-/") + lines[at][cut + dice.randint(0, 1) :]
        elif how == 5:
            other = dice.randrange(len(lines))
            lines[at], lines[other] = lines[other], lines[at]
        elif how == 6:
            lines[at] = lines[at].lstrip() if dice.random() < 0.5 else f" {lines[at]}"
    return "\n".join(lines)


@functools.lru_cache(maxsize=None)
def by_convert(text: str, fixed: bool) -> "Tuple[bool, Found]":
    """Whether convert says that the text is none of a linear program, and else its fault. Two tests ask it of the same texts."""
    try:
        lpd.convert(text.encode(), "fixed" if fixed else "free", lpd.Options(relax=True, no_set="own", no_bound="none"))
    except lpd.TextFault as fault:
        return False, (fault.line, fault.fault)
    except lpd.Unconvertible:
        return True, None
    return False, None


class Faults(unittest.TestCase):
    def compare(self, fault_of: Callable[[str, bool], Found]) -> None:
        """The first fault is that of the program, but where convert reads a line of another dialect that the program does not."""
        dice, same = random.Random(45), 0
        paths = [*sorted((EXAMPLES / "models").glob("*.mps")), *sorted(EXAMPLES.glob("*.mps"))]
        for number in range(TEXTS):
            path = dice.choice(paths)
            fixed = ".fixed." in path.name
            text = mutated(dice, path.read_text())
            with self.subTest(number, model=path.name):
                program = fault_of(text, fixed)
                is_foreign, found = by_convert(text, fixed)
                if program is None:
                    self.assertIsNone(found)
                elif found is not None and not is_foreign:
                    self.assertGreaterEqual(found[0], program[0])
                    self.assertEqual(found[0] == program[0], found == program, (program, found))
                    same += found == program
        self.assertGreater(same, TEXTS // 2)

    def test_the_reader_in_python(self) -> None:
        def fault_of(text: str, fixed: bool) -> Found:
            try:
                lpd.read_model(text.encode().decode("latin-1"), fixed)
            except lpd.TextFault as fault:
                return fault.line, fault.fault
            return None

        self.compare(fault_of)

    @unittest.skipUnless(has_program(), "the program is not built")
    def test_the_program(self) -> None:
        with lpd.Session() as session:

            def fault_of(text: str, fixed: bool) -> Found:
                try:
                    session.load(text.encode().decode("latin-1"), fixed)
                except lpd.TextFault as fault:
                    return fault.line, fault.fault
                return None

            self.compare(fault_of)

    def test_a_second_section_of_the_sense(self) -> None:
        text = "OBJSENSE MAX\nOBJSENSE\n    MAX\nROWS\n N cost\nCOLUMNS\nENDATA\n"
        self.assertEqual(by_convert(text, False), (False, (2, 1)))
