"""What the front does for each card of a model: it is for this that a large one takes long."""
import sys
import unittest
from typing import Callable

from lpd.model import Model, read_model
from lpd.number_text import parse
from lpd.rounding import rounded

SOURCES, GOALS = 12, 40


def transport() -> str:
    rows = [f" L s{i}" for i in range(SOURCES)] + [f" G d{j}" for j in range(GOALS)]
    cards = [f" x{i}.{j} cost {i + 7 * j}.{i}3 s{i} 1\n x{i}.{j} d{j} 1" for i in range(SOURCES) for j in range(GOALS)]
    sides = [f" RHS s{i} 100.{i}1" for i in range(SOURCES)] + [f" RHS d{j} 5.{j}" for j in range(GOALS)]
    return "\n".join(["ROWS", " N cost", *rows, "COLUMNS", *cards, "RHS", *sides, "ENDATA", ""])


def calls_of(work: Callable[[], object]) -> int:
    """How many functions are called, of Python and of what it is written in."""
    count = 0

    def called(frame: object, event: str, argument: object) -> None:
        nonlocal count
        count += event in ("call", "c_call")

    sys.setprofile(called)
    try:
        work()
    finally:
        sys.setprofile(None)
    return count


class Costs(unittest.TestCase):
    def model_and_calls(self) -> "tuple[Model, int, str]":
        text = transport()
        parse.cache_clear()
        calls = calls_of(lambda: read_model(text))
        return read_model(text), calls, text

    def test_reading(self) -> None:
        _, calls, text = self.model_and_calls()
        self.assertLess(calls, 48 * text.count("\n"))

    def test_what_is_rounded(self) -> None:
        model, _, text = self.model_and_calls()
        self.assertLess(calls_of(lambda: rounded(model)), 12 * text.count("\n"))
        self.assertIs(rounded(model).model, model)


if __name__ == "__main__":
    unittest.main()
