#!/usr/bin/env python3
"""Ranges beside `glpsol --ranges`: for each model of a folder, where both agree within what a float shows, and where not and why.

    ranges.py FOLDER [--program PROGRAM] [--seconds N] [--most N]

Each model is converted as `python3 -m lpd convert` does it, relaxed, and written for glpsol with plain names. Compared are the ranges
of the costs of all columns, and those of the right sides of the rows that are not basic with glpsol: for a basic row its report has
no range of the right side. glpsol prints five or six digits, so two ends are the same where they differ by less than 1 in 2,000, or
by 0.0005. Where the optimum is degenerate, which is seen in the certificate, the two may stand at different bases, and a difference is no fault of
either; the last column counts the others. A model takes at most --seconds (60) and --most (200) numbers; what is left is told.
It needs glpsol, and the program of the environment variable LPD, or --program.
"""
import argparse
import os
import re
import subprocess
import sys
import tempfile
import time
from fractions import Fraction
from pathlib import Path

TOP = Path(__file__).resolve().parent.parent
sys.path.insert(0, str(TOP / "clients" / "python"))

from lpd.certificate import matched, read_certificate  # noqa: E402  (the package of this repository)
from lpd.conversion import Options, convert  # noqa: E402
from lpd.dialects import DIALECTS, with_names, written  # noqa: E402
from lpd.errors import LpdError  # noqa: E402
from lpd.ranging import COST, RHS, Asked, Range  # noqa: E402
from lpd.reading import end_of, mps_of_file, name_of  # noqa: E402
from lpd.replies import Optimal  # noqa: E402
from lpd.ways import Effort, answered  # noqa: E402

NEAR, SMALL = 5e-4, 5e-4
INFINITE = {"-Inf": None, "+Inf": None, "Inf": None, ".": 0.0}


def number(word):
    return INFINITE[word] if word in INFINITE else float(word)


def report_of(model, folder):
    """What glpsol prints: for each row (by R and its number) and column (by C) its status and the ends of its two ranges."""
    rows = {row: f"R{i}" for i, row in enumerate(model.rows)}
    columns = {column: f"C{j}" for j, column in enumerate(model.columns)}
    plain = with_names(model, {**rows, model.objective: "OBJ"}, columns)
    plain.name = "model"
    out = written(plain, DIALECTS["glpsol"], rounds=True, path="model.mps")
    (folder / "model.mps").write_text(out.text)
    subprocess.run([*out.command, "--nopresol", "--ranges", "ranges"], cwd=folder, capture_output=True, timeout=300)
    found, name = {}, None
    for line in (folder / "ranges").read_text().splitlines() if (folder / "ranges").exists() else []:
        words = line.split()
        if len(words) > 6 and words[0].isdigit() and re.fullmatch(r"OBJ|[RC]\d+", words[1]) and words[2] in ("BS", "NL", "NU", "NF", "NS"):
            # No., name, status, activity, slack or cost, lower bound, activity range, cost range, value at break point, variable
            name, cells = words[1], words[3:]
            found[name] = {"status": words[2], "activity": [cells[3]], "cost": [cells[4]], "limiting": [cells[6:]]}
        elif name and words and name in found and len(found[name]["cost"]) == 1:
            # marginal, upper bound, activity range, cost range, value at break point, variable
            found[name]["activity"].append(words[2])
            found[name]["cost"].append(words[3])
            found[name]["limiting"].append(words[5:])
            name = None
    return found


def is_near(exact, told):
    if exact is None or told is None:
        return exact is None and told is None
    return abs(float(exact) - told) <= max(SMALL, NEAR * abs(told))


def is_degenerate(model, certificate):
    """Whether the certificate's point may belong to more than one basis, or its multipliers may: as many values and sums are strictly
    within their limits as there are rows exactly where the point has one basis, and no more reduced costs are 0."""
    given = matched(model, read_certificate(certificate, wide=True))
    x, y = given["x"], given["y"]
    parts = [(column.limits(), x.get(name, Fraction(0)), model.reduced_cost(y, name)) for name, column in model.columns.items()]
    parts += [(row.limits(), model.activity(x, name), y.get(name, Fraction(0))) for name, row in model.rows.items()]
    within = sum(value not in (limits.lower, limits.upper) for limits, value, _ in parts)
    priced = sum(bool(price) or limits.lower is not None and limits.lower == limits.upper for limits, value, price in parts)
    return within < len(model.rows), priced < len(parts) - len(model.rows)


def compared(model, text, words):
    """How many ranges are compared, how many are the same, and why others are not."""
    counts = {"compared": 0, "same": 0, "past": 0, "left": 0}
    found = answered(text, model, Effort(only_lpd=True))
    if not isinstance(found.answer, Optimal):
        return str(found.answer)[:40], counts, (False, False)
    with tempfile.TemporaryDirectory() as room:
        told = report_of(model, Path(room))
    asked, started, done = Asked(text, model, words.program), time.monotonic(), 0
    kinds = [(COST, name, f"C{j}") for j, name in enumerate(model.columns)] + [(RHS, name, f"R{i}") for i, name in enumerate(model.rows)]
    for what, name, plain in kinds:
        one = told.get(plain)
        if one is None or len(one["cost"]) != 2 or what == RHS and one["status"] == "BS":
            continue
        if done == words.most or time.monotonic() - started > words.seconds:
            counts["left"] += 1
            continue
        done += 1
        _, exact = asked.range(what, name)
        if not isinstance(exact, Range):
            counts["past"] += 1
            continue
        ends = [number(word) for word in one["cost" if what == COST else "activity"]]
        is_same = is_near(exact.low, ends[0]) and is_near(exact.high, ends[1])
        counts["compared"] += 1
        counts["same"] += is_same
        if not is_same and words.show:
            print(f"  {what} {name} {one['status']}: {exact.low} to {exact.high}, and glpsol {ends[0]} to {ends[1]}", file=sys.stderr)
    return "OPTIMAL", counts, is_degenerate(model, found.certificate)


def main():
    parser = argparse.ArgumentParser(description=__doc__, formatter_class=argparse.RawDescriptionHelpFormatter)
    parser.add_argument("folder", help="a folder of models, *.mps")
    parser.add_argument("--program", help="the program (that of $LPD, or of this repository)")
    parser.add_argument("--seconds", type=float, default=60, help="how long the ranges of a model may take (60)")
    parser.add_argument("--most", type=int, default=200, help="how many ranges of a model are compared (200)")
    parser.add_argument("--largest", type=int, default=512, help="leaves out models of more rows and columns together")
    parser.add_argument("--show", action="store_true", help="shows each range that differs, on standard error")
    words = parser.parse_args()
    if words.program:
        os.environ["LPD"] = words.program
    print("| Model | Rows | Columns | Answer | Compared | The same | Past 127 bits | Not asked | Degenerate |")
    print("|---|---|---|---|---|---|---|---|---|")
    for path in sorted(path for path in Path(words.folder).iterdir() if end_of(path)):
        try:
            whole = convert(mps_of_file(path.read_bytes(), str(path)), None, Options(relax=True, no_set="same", no_bound="none", wide=True))
        except LpdError as error:
            print(f"| {name_of(path)} | | | {str(error)[:40]} | | | | | |")
            continue
        size = len(whole.model.rows) + len(whole.model.columns)
        if size > words.largest:
            continue
        try:
            answer, counts, (primal, dual) = compared(whole.model, whole.text, words)
        except LpdError as error:
            answer, counts, (primal, dual) = str(error)[:40], {}, (False, False)
        degenerate = " and ".join(word for word, holds in (("point", primal), ("prices", dual)) if holds)
        cells = [str(counts.get(key, "")) for key in ("compared", "same", "past", "left")]
        print(f"| {name_of(path)} | {len(whole.model.rows)} | {len(whole.model.columns)} | {answer} | {' | '.join(cells)} | {degenerate} |", flush=True)


if __name__ == "__main__":
    main()
