#!/usr/bin/env python3
"""PuLP's own blending problem, cat food of the least cost, solved exactly (needs python3-pulp)."""
import place  # noqa: F401  (finds the package)
import pulp
from lpd.pulp import LPD

COSTS = {"chicken": 0.013, "beef": 0.008, "mutton": 0.010, "rice": 0.002, "wheat": 0.005, "gel": 0.001}
SHARES = {
    "protein": {"chicken": 0.100, "beef": 0.200, "mutton": 0.150, "rice": 0.000, "wheat": 0.040, "gel": 0.000},
    "fat": {"chicken": 0.080, "beef": 0.100, "mutton": 0.110, "rice": 0.010, "wheat": 0.010, "gel": 0.000},
    "fibre": {"chicken": 0.001, "beef": 0.005, "mutton": 0.003, "rice": 0.100, "wheat": 0.150, "gel": 0.000},
    "salt": {"chicken": 0.002, "beef": 0.005, "mutton": 0.007, "rice": 0.002, "wheat": 0.008, "gel": 0.000},
}


def total(numbers, amounts):
    return pulp.lpSum(numbers[name] * amount for name, amount in amounts.items())


problem = pulp.LpProblem("whiskas", pulp.LpMinimize)
grams = pulp.LpVariable.dicts("grams", list(COSTS), lowBound=0)
problem += total(COSTS, grams), "cost"
problem += pulp.lpSum(grams.values()) == 100, "can"
problem += total(SHARES["protein"], grams) >= 8, "protein"
problem += total(SHARES["fat"], grams) >= 6, "fat"
problem += total(SHARES["fibre"], grams) <= 2, "fibre"
problem += total(SHARES["salt"], grams) <= 0.4, "salt"
problem.solve(LPD(msg=False))

print(f"{pulp.LpStatus[problem.status]}: {problem.exact.answer}")
for name, value in problem.exact.values.items():
    print(f"{name:14}  {value}")
for name, constraint in problem.constraints.items():
    print(f"{name:8} price {problem.exact.pi[name]}, slack {constraint.slack:g}")
