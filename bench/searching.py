"""The search of `lpd iis`, made here once more by sessions, since the program does not write how many solves it makes.

It begins with the limits that the certificate of the model's solve uses. Of these it leaves out each, in their order, and solves the
model of the kept ones and of those behind it, unless the limits that the last certificate used are among these. Where that has a
point the limit is kept. In the end the model of the kept limits is solved for its certificate.
"""
from lpd.certificate import matched, read_certificate
from lpd.dialects import PROFILE, written
from lpd.irreducible import Side, only
from lpd.model import ZERO
from solvers import session


class GivesUp(Exception):
    """A solve passes 127 bits, or its budget, or the time."""


def used(model, certificate):
    """The limits that a certificate uses, those of rows first."""
    found = read_certificate(certificate)
    if found.column is not None:
        return [Side(False, found.column, False), Side(False, found.column, True)]
    y = matched(model, found)["y"]
    factors = [Side(True, name, y[name] < 0) for name in model.rows if y.get(name)]
    priced = {name: model.priced(y, name) for name in model.columns}
    return factors + [Side(False, name, part > ZERO) for name, part in priced.items() if part]


class Search:
    """The limits that are found, and how many solves and pivots that takes."""

    def __init__(self, program, seconds, model):
        self.program, self.seconds, self.model = program, seconds, model
        self.solves = self.pivots = 0
        self.kept = self.found()

    def found(self):
        sides = clash = self.conflict(self.model)
        kept = []
        for at, side in enumerate(sides):
            if side not in clash:
                continue
            others = kept + sides[at + 1 :]
            few = self.conflict(only(self.model, others))
            if few:
                clash = [other for other in others if other in few]
            else:
                kept.append(side)
        self.conflict(only(self.model, kept))
        return kept

    def conflict(self, model):
        """The limits that contradict each other by the certificate of a solve, or none where there is a point."""
        text = written(model, PROFILE).text.encode("latin-1")
        lines = session(self.program, "free", text, ["SOLVE", "HOW", "CERT"], self.seconds)[0]
        answer = lines[1].split()[1] if lines else "TIME"
        if answer not in ("OPTIMAL", "UNBOUNDED", "INFEASIBLE"):
            raise GivesUp(answer)
        self.solves += 1
        self.pivots += int(lines[2].split(" PIVOTS ")[1].split()[0])
        return used(model, lines[4:]) if answer == "INFEASIBLE" else []
