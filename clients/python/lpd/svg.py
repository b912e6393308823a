"""Pictures as SVG, by hand: a plane with axes, in which points have exact coordinates."""
from __future__ import annotations

from fractions import Fraction
from typing import List, NamedTuple, Sequence, Tuple
from .figures import READABLE

Point = Tuple[Fraction, Fraction]
WIDTH, HEIGHT, LEFT, RIGHT, TOP, FOOT = 720, 480, 80, 40, 34, 50
TICKS = 5
LETTER = 7.0
# Places beside a point: across, down, and on which side of that the text stands.
BESIDE = [(8 * side, down, "start" if side > 0 else "end") for down in (-8, 16, -24, 32, -40, 48, -56, 64) for side in (1, -1)]


def escape(text: str) -> str:
    """A text as XML has it."""
    return text.replace("&", "&amp;").replace("<", "&lt;").replace(">", "&gt;")


class Box(NamedTuple):
    """What a picture shows of the plane. Neither side is empty."""

    left: Fraction
    right: Fraction
    foot: Fraction
    top: Fraction


def box_around(points: Sequence[Point], margin: Fraction = Fraction(1, 8)) -> Box:
    """The box of these points with a margin."""
    sides: List[Fraction] = []
    for along in (0, 1):
        low, high = min(point[along] for point in points), max(point[along] for point in points)
        more = (high - low) * margin or Fraction(1)
        sides += [low - more, high + more]
    return Box(*sides)


def ticks(low: Fraction, high: Fraction) -> List[Fraction]:
    """Round numbers between two others, a handful, with the same gap."""
    gap = Fraction(10) ** (len(str(int((high - low) / TICKS))) - 1) if high - low >= TICKS else Fraction(1)
    while gap * TICKS > high - low:
        gap /= 10
    gap *= next(times for times in (1, 2, 5, 10) if gap * times * (TICKS + 1) >= high - low)
    first = -(-low // gap)
    return [gap * n for n in range(first, int(high // gap) + 1)]


def label(value: Fraction) -> str:
    """A number in few signs, behind a mark."""
    return READABLE.cell(value)


class Place(NamedTuple):
    """What a text covers of the page: from left to right, and from its top to its foot."""

    left: float
    right: float
    top: float
    foot: float

    def meets(self, other: Place) -> bool:
        return self.left < other.right and other.left < self.right and self.top < other.foot and other.top < self.foot

    def is_on_page(self) -> bool:
        return 0 <= self.left and self.right <= WIDTH and 0 <= self.top and self.foot <= HEIGHT


def place_of(x: float, y: float, words: str, anchor: str) -> Place:
    """Where a text is: of twelve points, whose letters are seven wide."""
    width = LETTER * len(words)
    left = x - {"start": 0.0, "middle": width / 2, "end": width}[anchor]
    return Place(left, left + width, y - 10, y + 3)


class Picture:
    """A page to draw on. Texts beside points stand where no other text is, and are left out where there is no such place."""

    def __init__(self, box: Box, title: str) -> None:
        self.box = box
        self.taken: List[Place] = []
        start = f'<svg xmlns="http://www.w3.org/2000/svg" width="{WIDTH}" height="{HEIGHT}" viewBox="0 0 {WIDTH} {HEIGHT}" font-family="sans-serif" font-size="12">'
        self.parts = [start, f'<rect width="{WIDTH}" height="{HEIGHT}" fill="white"/>']
        self.parts.append(f'<text x="{LEFT}" y="20" font-size="14">{escape(title)}</text>')

    def place(self, point: Point) -> Tuple[float, float]:
        x = (point[0] - self.box.left) / (self.box.right - self.box.left)
        y = (point[1] - self.box.foot) / (self.box.top - self.box.foot)
        return LEFT + float(x) * (WIDTH - LEFT - RIGHT), HEIGHT - FOOT - float(y) * (HEIGHT - TOP - FOOT)

    def path(self, points: Sequence[Point]) -> str:
        return " ".join("{:.2f},{:.2f}".format(*self.place(point)) for point in points)

    def polygon(self, points: Sequence[Point], fill: str) -> None:
        self.parts.append(f'<polygon points="{self.path(points)}" fill="{fill}"/>')

    def line(self, points: Sequence[Point], stroke: str, dashes: str = "", width: float = 1.5) -> None:
        dashed = f' stroke-dasharray="{dashes}"' if dashes else ""
        self.parts.append(f'<polyline points="{self.path(points)}" fill="none" stroke="{stroke}" stroke-width="{width}"{dashed}/>')

    def bars(self, tops: Sequence[Point], stroke: str) -> None:
        """A line from the foot of the picture up to each of these points."""
        _, foot = self.place((self.box.left, self.box.foot))
        path = " ".join("M{0:.2f},{2:.2f}V{1:.2f}".format(*self.place(top), foot) for top in tops)
        self.parts.append(f'<path d="{path}" fill="none" stroke="{stroke}" stroke-width="1.2"/>')

    def arrow(self, start: Point, end: Point, stroke: str) -> None:
        """A line with a head at its end."""
        (x, y), (u, v) = self.place(start), self.place(end)
        size = max(1e-9, ((u - x) ** 2 + (v - y) ** 2) ** 0.5)
        across, down = (u - x) / size, (v - y) / size
        head = [(u - 9 * across + 4 * side * down, v - 9 * down - 4 * side * across) for side in (1, -1)]
        path = f"M{x:.2f},{y:.2f} L{u:.2f},{v:.2f} M{head[0][0]:.2f},{head[0][1]:.2f} L{u:.2f},{v:.2f} L{head[1][0]:.2f},{head[1][1]:.2f}"
        self.parts.append(f'<path d="{path}" fill="none" stroke="{stroke}" stroke-width="2"/>')

    def dot(self, point: Point, fill: str, words: str = "") -> None:
        """A mark, over which a browser shows the words."""
        x, y = self.place(point)
        title = f"><title>{escape(words)}</title></circle>" if words else "/>"
        self.parts.append(f'<circle cx="{x:.2f}" cy="{y:.2f}" r="4" fill="{fill}"{title}')

    def note(self, point: Point, words: str, fill: str = "black") -> None:
        """A text beside a point, at the first of some places that no other text meets."""
        x, y = self.place(point)
        for across, down, anchor in BESIDE:
            place = place_of(x + across, y + down, words, anchor)
            if place.is_on_page() and not any(place.meets(other) for other in self.taken):
                self.text(point, words, fill, across, down, anchor)
                return

    def text(self, point: Point, words: str, fill: str = "black", across: float = 6, down: float = -6, anchor: str = "start") -> None:
        x, y = self.place(point)
        self.taken.append(place_of(x + across, y + down, words, anchor))
        self.parts.append(f'<text x="{x + across:.2f}" y="{y + down:.2f}" fill="{fill}" text-anchor="{anchor}">{escape(words)}</text>')

    def axes(self, across: str, up: str) -> None:
        """The frame, with numbers along it and the names of both directions."""
        box = self.box
        self.line([(box.left, box.top), (box.left, box.foot), (box.right, box.foot)], "black", width=1)
        for x in ticks(box.left, box.right):
            self.text((x, box.foot), READABLE.plain(x), "dimgray", 0, 16, "middle")
        for y in ticks(box.foot, box.top):
            self.text((box.left, y), READABLE.plain(y), "dimgray", -6, 4, "end")
        self.text((box.right, box.foot), across, across=0, down=34, anchor="end")
        self.text((box.left, box.top), up, across=-6, down=-8, anchor="end")

    def svg(self) -> str:
        return "\n".join([*self.parts, "</svg>"]) + "\n"
