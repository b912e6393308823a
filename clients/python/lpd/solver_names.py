"""The names of other solvers, in the order in which they are looked for, without what it takes to ask them."""
import shutil
from importlib.util import find_spec

NONE = "none"  # no solver: a basis, where one is asked for, is one that rough steps in Python come to
SCIPY = "scipy"  # its HiGHS, where this Python has it
NAMES = ("glpsol", "clp", "cbc", "lp_solve", "esolver", "highs", SCIPY)
QUICKEST_FIRST = ("highs", "clp", "glpsol", "cbc", SCIPY, "lp_solve", "esolver")  # as they are asked for a basis of a large model
CHOICES = [*NAMES, NONE]


def is_there(name: str) -> bool:
    """Whether a solver can be asked."""
    return find_spec(SCIPY) is not None if name == SCIPY else shutil.which(name) is not None
