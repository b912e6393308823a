#!/usr/bin/env python3
"""Makes variants of the models of a folder: those without a feasible point, and those without a limit on the cost.

    variants.py FOLDER OUT [--only NAME,..] [--seconds N]

OUT/infeasible has each model with one right side moved past what its row can reach while all other rows hold; OUT/unbounded has each
with one cost along whose ray it gets better without limit. clp (coinor-clp) says what a row can reach, and finds a ray; it may take
so many seconds of the processor (60). Both are in floats, and margins are wide: what a variant is, an exact answer says. Where a
model has no ray, one column gets a twin with its numbers turned round, so that both together change no row. In each of the two
folders optima.tsv has what each variant is, as bench/wide.py --optima reads it. The variants are the same from run to run.
"""
import argparse
import math
import random
import re
import sys
import tempfile
from fractions import Fraction
from pathlib import Path

from exact import model_of
from solvers import limited, texts_of

from lpd.dialects import DIALECTS, PROFILE, with_names, written  # the package of this repository, to which solvers.py has the way
from lpd.model import FREE, ZERO, Column, Row
from lpd.records import replace

MOST_ROWS_TRIED = 12
# A ray's part is at least so much of its greatest one.
SEEN = 1e-6


def solved_by_clp(model, seconds):
    """The least cost of a model by clp, None where there is none, and the values of its columns that are not 0."""
    columns = {name: f"C{j}" for j, name in enumerate(model.columns)}
    rows = {name: f"R{i}" for i, name in enumerate(model.rows)}
    plain = replace(with_names(model, {**rows, model.objective: "OBJ"}, columns), name="model", sense=1, offset=ZERO)
    with tempfile.TemporaryDirectory() as place:
        path = Path(place) / "model.mps"
        path.write_text(written(plain, DIALECTS["clp"], rounds=True).text)
        limited(["clp", str(path), "-solve", "-solution", f"{place}/out"], b"", seconds)
        out = Path(place) / "out"
        lines = out.read_text().splitlines() if out.exists() else [""]
    value = re.match(r"Optimal - objective value\s+(\S+)", lines[0])
    if value is None:
        return None, {}
    names = list(model.columns)
    words = [line.replace("**", " ").split() for line in lines[1:]]
    return float(value[1]), {names[int(word[1][1:])]: float(word[2]) for word in words if word[1][0] == "C"}


def short(number, up):
    """A number near another one, with three digits, and not nearer to 0 in that direction."""
    if number == 0:
        return ZERO
    unit = Fraction(10) ** (math.floor(math.log10(abs(number))) - 2)
    steps = Fraction(number) / unit
    return unit * (math.ceil(steps) if up else math.floor(steps))


# ---- without a feasible point


def with_costs(model, costs):
    """The model with other costs, and no others."""
    columns = {name: replace(column, cost=costs.get(name, ZERO)) for name, column in model.columns.items()}
    return replace(model, columns=columns)


def reach(model, row, up, seconds):
    """The most, or the least, that the sum of a row can be where all others hold, None where that has no limit or no answer."""
    sign = -1 if up else 1
    costs = {name: sign * column.entries[row] for name, column in model.columns.items() if row in column.entries}
    freed = replace(model, rows={**model.rows, row: Row(FREE)})
    value, _ = solved_by_clp(with_costs(freed, costs), seconds)
    return None if value is None else sign * value


def past(model, row, up, seconds):
    """The model with the right side of a row moved past what it can reach, None where it can reach anything."""
    value = reach(model, row, up, seconds)
    if value is None or abs(value) > 1e15:
        return None
    margin = max(1, abs(value)) / 8
    found = model.rows[row]
    side = short(value + margin if up else value - margin, up)
    if found.range is not None and found.kind == "E":
        side += abs(found.range) if up else -abs(found.range)
    return replace(model, rows={**model.rows, row: replace(found, rhs=side)})


def infeasible(model, dice, seconds):
    """A variant without a feasible point: rows of which each has several entries are tried, one after the other."""
    counts = dict.fromkeys(model.rows, 0)
    for column in model.columns.values():
        for row in column.entries:
            counts[row] += 1
    rows = [name for name, row in model.rows.items() if not row.is_free() and counts[name]]
    tried = sorted(dice.sample(rows, min(len(rows), MOST_ROWS_TRIED)), key=lambda name: -min(counts[name], 4))
    for name in tried:
        for up in {"G": [True], "L": [False]}.get(model.rows[name].kind, [True, False]):
            found = past(model, name, up, seconds)
            if found is not None:
                return found
    return None


# ---- without a limit on the cost


def cone_row(row):
    """What holds of the change of a row's sum along a ray."""
    return row if row.is_free() else Row("E" if row.range is not None else row.kind)


def cone_column(column):
    """What holds of the change of a column along a ray, whose greatest part is 1. Its cost has it grow, or move where it is free."""
    lower = Fraction(0) if column.lower is not None else Fraction(-1)
    upper = Fraction(0) if column.upper is not None else Fraction(1)
    return replace(column, cost=Fraction(-1 if upper > 0 else 1 if lower < 0 else 0), lower=lower, upper=upper)


def ray_of(model, seconds):
    """A ray of the feasible points, as far as floats show, by its parts that are not 0."""
    rows = {name: cone_row(row) for name, row in model.rows.items()}
    columns = {name: cone_column(column) for name, column in model.columns.items()}
    _, values = solved_by_clp(replace(model, rows=rows, columns=columns), seconds)
    return {name: value for name, value in values.items() if abs(value) > SEEN}


def with_cost(model, name, cost):
    return replace(model, columns={**model.columns, name: replace(model.columns[name], cost=cost)})


def along(model, ray, dice):
    """The model with one cost by which the ray makes it better without limit."""
    name = dice.choice([name for name, value in ray.items() if abs(value) > 0.1 * max(map(abs, ray.values()))])
    others = sum(float(model.sense * model.columns[other].cost) * value for other, value in ray.items() if other != name)
    needed = 1 + 2 * abs(others) / abs(ray[name])
    return with_cost(model, name, short(-model.sense * math.copysign(needed, ray[name]), -model.sense * ray[name] > 0))


def twinned(model, dice):
    """The model with a twin of one column that has no upper bound: both together change no row, and make it better."""
    open_ones = [name for name, column in model.columns.items() if column.upper is None and column.entries]
    if not open_ones:
        return None
    name = dice.choice(open_ones)
    column = model.columns[name]
    twin = next(f"twin{n}" for n in range(len(model.columns) + 1) if f"twin{n}" not in model.columns)
    entries = {row: -value for row, value in column.entries.items()}
    made = Column(-column.cost - model.sense, entries=entries)
    return replace(model, columns={**model.columns, twin: made})


def unbounded(model, dice, seconds):
    ray = ray_of(model, seconds)
    return along(model, ray, dice) if ray else twinned(model, dice)


MAKERS = {"infeasible": infeasible, "unbounded": unbounded}


def main():
    options = argparse.ArgumentParser(description=__doc__, formatter_class=argparse.RawDescriptionHelpFormatter)
    options.add_argument("folder", type=Path)
    options.add_argument("out", type=Path)
    options.add_argument("--only", default="")
    options.add_argument("--seconds", type=int, default=60)
    options = options.parse_args()
    kept = {kind: [] for kind in MAKERS}
    for name, data in texts_of(options.folder):
        if options.only and name not in options.only.split(","):
            continue
        model = model_of(name, data).plain
        for kind, make in MAKERS.items():
            variant = make(model, random.Random(f"{kind} {name}"), options.seconds)
            print(f"{name}: {kind if variant else f'no {kind} variant'}", flush=True)
            if variant:
                (options.out / kind).mkdir(parents=True, exist_ok=True)
                (options.out / kind / f"{name}.mps").write_text(written(variant, PROFILE).text, encoding="latin-1")
                kept[kind].append(name)
    for kind, names in kept.items():
        if names:
            lines = [f"{name}\t{kind}\t" for name in names]
            (options.out / kind / "optima.tsv").write_text("\n".join(["name\toutcome\toptimum", *lines, ""]))
    return 0


if __name__ == "__main__":
    sys.exit(main())
