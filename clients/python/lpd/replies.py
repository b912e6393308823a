"""What lpd replies, as values. `str` of one is its line in the protocol, without a session's number."""
from __future__ import annotations

from fractions import Fraction
from typing import Optional, Union

from .number_text import shown
from .records import dataclass


@dataclass(frozen=True)
class Optimal:
    """Some feasible point has this value, and none has a better one."""

    value: Fraction

    def __str__(self) -> str:
        return f"OPTIMAL {shown(self.value)}"


@dataclass(frozen=True)
class Infeasible:
    """There is no feasible point."""

    def __str__(self) -> str:
        return "INFEASIBLE"


@dataclass(frozen=True)
class Unbounded:
    """Feasible points get better without limit."""

    def __str__(self) -> str:
        return "UNBOUNDED"


@dataclass(frozen=True)
class Past:
    """The first operation whose result does not fit 127 bits."""

    operation: str
    left: Fraction
    right: Fraction

    def __str__(self) -> str:
        return f"PAST {self.operation} {shown(self.left)} {shown(self.right)}"


@dataclass(frozen=True)
class Spent:
    """The budget of pivots and flips was not enough."""

    budget: int

    def __str__(self) -> str:
        return f"SPENT {self.budget}"


@dataclass(frozen=True)
class Open:
    """There is no answer, neither by the basis of a run in floating point nor in words of the width that the program has."""

    def __str__(self) -> str:
        return "OPEN"


Known = Union[Optimal, Infeasible, Unbounded]
Answer = Union[Known, Past, Spent, Open]


@dataclass(frozen=True)
class Accepted:
    """The certificate is accepted, and this is true of the model."""

    known: Known

    def __str__(self) -> str:
        return f"YES {self.known}"


@dataclass(frozen=True)
class Rejected:
    """The number of the first condition that fails, and why, where it is known."""

    condition: int
    why: Optional[str] = None

    def __str__(self) -> str:
        return f"NO {self.condition}"


Verdict = Union[Accepted, Rejected, Past]


@dataclass(frozen=True)
class Loaded:
    rows: int
    columns: int


@dataclass(frozen=True)
class Cold:
    """The solve began with the start that every model has."""

    def __str__(self) -> str:
        return "COLD"


@dataclass(frozen=True)
class Basis:
    """The solve began with the basis at this place."""

    place: int

    def __str__(self) -> str:
        return f"BASIS {self.place}"


@dataclass(frozen=True)
class Fell:
    """The basis at this place was tried and given up, and the solve began anew. The basis is SINGULAR in this model or UNFIT
    (neither primal nor dual feasible), a number was PAST 127 bits on the way from it, or the budget was SPENT on the way."""

    place: int
    why: str

    def __str__(self) -> str:
        return f"FELL {self.place} {self.why}"


Start = Union[Cold, Basis, Fell]


@dataclass(frozen=True)
class Unpublished:
    """The answer has no basis to publish."""

    def __str__(self) -> str:
        return "NONE"


@dataclass(frozen=True)
class Same:
    """The answer's basis is the one that the solve began with."""

    def __str__(self) -> str:
        return "SAME"


@dataclass(frozen=True)
class Published:
    """The answer's basis is at this place, for other sessions too."""

    place: int

    def __str__(self) -> str:
        return f"PUBLISHED {self.place}"


@dataclass(frozen=True)
class Raced:
    """Another session claimed the place first; so many are claimed."""

    claimed: int

    def __str__(self) -> str:
        return f"RACED {self.claimed}"


@dataclass(frozen=True)
class Full:
    """All places are claimed, so many."""

    claimed: int

    def __str__(self) -> str:
        return f"FULL {self.claimed}"


Publication = Union[Unpublished, Same, Published, Raced, Full]


@dataclass(frozen=True)
class Found:
    """How the last answer was found: from which start, in how many pivots and flips, and what became of its basis."""

    start: Start
    pivots: Optional[int]
    publication: Publication

    def __str__(self) -> str:
        return f"HOW {self.start} PIVOTS {'-' if self.pivots is None else self.pivots} {self.publication}"
