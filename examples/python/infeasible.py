#!/usr/bin/env python3
"""A plan that cannot be met: which rows contradict each other, and how much more capacity it would take."""
import place

import lpd
from lpd.report import conflict

with lpd.Session() as session:
    session.load((place.MODELS / "orders.mps").read_text())
    print(session.solve())
    certificate = session.certificate()
    print(conflict(lpd.read_model(session.write()), certificate))
    print("\n".join(certificate))

    # The least overtime with which there is a plan: the one cost that is left.
    session.set_cost("make-bolts", 0)
    session.set_cost("make-screws", 0)
    session.add_column("overtime", 1, {"capacity": -1})
    answer = session.solve()
    print(f"With {answer.value} more hours there is a plan.")
