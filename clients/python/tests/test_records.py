"""Classes of values: they do what those of the standard library do."""
import dataclasses
import unittest
from typing import Any, List

from lpd import records


def made(of: Any) -> List[Any]:
    """The same classes, by this or by that decorator."""

    @of.dataclass(frozen=True)
    class Point:
        x: int
        y: int = 2

        def __str__(self) -> str:
            return f"{self.x}, {self.y}"

    @of.dataclass(frozen=True)
    class Named(Point):
        name: str = ""

    @of.dataclass
    class Row:
        parts: List[int] = of.field(default_factory=list)
        line: int = of.field(default=0, compare=False)

    return [Point, Named, Row]


class Records(unittest.TestCase):
    def both(self, what: Any) -> None:
        """What is done comes to the same, or fails with the same kind of error."""
        said = []
        for of in (records, dataclasses):
            try:
                said.append(repr(what(of, *made(of))))
            except Exception as error:
                said.append(next(kind.__name__ for kind in (TypeError, AttributeError) if isinstance(error, kind)))
        self.assertEqual(said[0], said[1])

    def test_as_the_library_has_them(self) -> None:
        for what in (
            lambda of, Point, Named, Row: [Point(1), Point(1, 3), Point(y=1, x=2), Named(1, name="n"), Row(), Row([1], 2)],
            lambda of, Point, Named, Row: [str(Point(1)), Point(1) == Point(1, 2), Point(1) == Point(2), Point(1) == Named(1), Point(1) == 1],
            lambda of, Point, Named, Row: [Row([1], 2) == Row([1], 3), Row([1]) == Row([2]), Row().parts is Row().parts],
            lambda of, Point, Named, Row: {Point(1): "a", Point(2): "b"}[Point(1)],
            lambda of, Point, Named, Row: [of.replace(Named(1, 3, "n"), x=2), of.replace(Row([1], 2), parts=[])],
            lambda of, Point, Named, Row: hash(Row()),
            lambda of, Point, Named, Row: Point(),
            lambda of, Point, Named, Row: Point(1, 2, 3),
            lambda of, Point, Named, Row: Point(1, x=1),
            lambda of, Point, Named, Row: Point(1, z=1),
            lambda of, Point, Named, Row: of.replace(Point(1), z=1),
            lambda of, Point, Named, Row: setattr(Point(1), "x", 2),
            lambda of, Point, Named, Row: delattr(Point(1), "x"),
            lambda of, Point, Named, Row: setattr(Row(), "line", 2),
        ):
            self.both(what)
