#!/usr/bin/env python3
"""A transportation problem, made row by row and column by column in a session, and solved again as demand grows."""
import place  # noqa: F401  (finds the package)

import lpd
from lpd.report import report

SUPPLY = {"seattle": 350, "san-diego": 600}
DEMAND = {"new-york": 325, "chicago": 300, "topeka": 275}
COST = {
    ("seattle", "new-york"): "0.225",
    ("seattle", "chicago"): "0.153",
    ("seattle", "topeka"): "0.162",
    ("san-diego", "new-york"): "0.225",
    ("san-diego", "chicago"): "0.162",
    ("san-diego", "topeka"): "0.126",
}


def show(session):
    """The answer, what is shipped, and what one more unit of each right side would cost."""
    print(session.solve())
    found = report(lpd.read_model(session.write()), session.certificate())
    for column in found.columns:
        if column.value:
            print(f"  {column.name:20} {column.value}")
    print("  prices: " + ", ".join(f"{row.name} {row.price}" for row in found.rows))


with lpd.Session() as session:
    session.load("ROWS\n N freight\nCOLUMNS\nENDATA\n")
    for city, most in SUPPLY.items():
        session.add_row(city, "L", most)
    for city, least in DEMAND.items():
        session.add_row(city, "G", least)
    for (start, end), cost in COST.items():
        session.add_column(f"{start}:{end}", cost, {start: 1, end: 1})
    show(session)
    session.set_rhs("chicago", 350)
    print("chicago wants 350:")
    show(session)
    session.set_rhs("chicago", 351)
    print("chicago wants 351:")
    print(session.solve())
