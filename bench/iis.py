#!/usr/bin/env python3
"""Asks `lpd iis` for limits that contradict each other, in infeasible models of a folder and in made ones, and checks each answer.

    iis.py FOLDER [--program PROGRAM] [--each N] [--only WORD,..] [--seed WORD] [--seconds N] [--jobs N] [--write PAGE]

Of the folder it takes the models that `PROGRAM solve` says INFEASIBLE of. The others are those of bench/planners.py, N (25) of each
kind of 15 x 25 and 20 x 30: 8 kinds, 200 models. What their rows of demand ask for grows by tenths, in all of them at once, to the
least number of tenths at which there is no feasible point. A model in which 1,024 tenths are not enough is left out, and the next of
its kind is taken. --only takes the kinds of these sizes, as 15x25.

The client in Python judges each answer and shares nothing with the program: the certificate has to show that the limits contradict
each other in a model that has no others, and each point has to satisfy all of them but the one that it is for. Where it does not,
that is a fault. STOPPED and PAST say that a number on the way passed 127 bits, after the answer and before it.

The program does not write how many solves a search makes. So where it finds limits, bench/searching.py makes the search once more, of
which each solve is a session of its own, and counts the solves and their pivots. It has to find the same limits.

Times are of the processor, for the whole process, of one run each. One that takes more than N seconds (20) of them ends, and is counted
as TIME. --jobs runs as many models at once (1). With --write the table takes the place of what stands between the two marks of PAGE.
"""
import collections
import statistics
import sys
from concurrent.futures import ProcessPoolExecutor

from options import read_options
from page import ended, shown
from planners import KINDS, made
from searching import Search
from solvers import Model, limited, models_of

from lpd.errors import LpdError
from lpd.irreducible import read_iis, satisfies
from lpd.replies import Infeasible, Past

BEGIN, END = "<!-- measured by bench/iis.py -->", "<!-- end of the subsets -->"
SIZES = [(15, 25), (20, 30)]
LARGEST = 1024
WAYS = ("found", "STOPPED", "PAST", "TIME")
Told = collections.namedtuple("Told", "way size of_rows solves pivots spent solved faults", defaults=[[]])


def asked(options, data, form, *words):
    """The lines that a command writes to a text, and its time."""
    said, spent = limited([*options.program, *words, "--form", form], data, options.seconds)
    return said.split("\n")[:-1], spent


# ---- models without a feasible point


def tightened(text, demands, tenths):
    """The text with so many tenths more on the right sides of these rows."""

    def line(words):
        whole, point, places = words[2].partition(".")
        digits = str(int(whole + places) * (10 + tenths) // 10).rjust(3, "0")
        return f" RHS {words[1]} " + (f"{digits[:-2]}.{digits[-2:]}" if point else str(int(digits)))

    lines = text.split("\n")
    sides = range(lines.index("RHS") + 1, lines.index("ENDATA"))
    for at in sides:
        words = lines[at].split()
        lines[at] = line(words) if words[1] in demands else lines[at]
    return "\n".join(lines)


def is_infeasible(options, text):
    """What `solve` says of a model without costs; in numbers of any width where others are not enough."""
    for words in (["solve"], ["solve", "--wide"]):
        answer = asked(options, text.encode(), "free", *words)[0]
        if answer and answer[0].split()[0] in ("OPTIMAL", "INFEASIBLE"):
            return answer[0] == "INFEASIBLE"
    raise SystemExit(f"solve --wide says {answer} to a made model")


def contradicting(options, kind, at):
    """A model of this kind whose demands are the least that no point meets, or None."""
    model = made(kind, options.seed, at)
    text = model.data.decode()
    demands = {name for name, row in model.plain.rows.items() if row.kind == "G"}
    plain = "\n".join(line for line in text.split("\n") if line.split()[1:2] != ["cost"] or line.startswith(" N"))
    low, high = 0, 1
    while not is_infeasible(options, tightened(plain, demands, high)):
        low, high = high, 4 * high
        if low >= LARGEST:
            return None
    while high - low > 1:
        middle = (low + high) // 2
        low, high = (low, middle) if is_infeasible(options, tightened(plain, demands, middle)) else (middle, high)
    return Model(f"{kind}, model {at}", tightened(text, demands, high).encode(), "free")


# ---- what is told of one model


def told(options, model):
    """What `lpd iis` says to a model without a feasible point, as the client in Python judges it."""
    solved = asked(options, model.data, model.form, "solve")[1]
    lines, spent = asked(options, model.data, model.form, "iis")
    if not lines:
        return Told("TIME", 0, 0, 0, 0, spent, solved)
    try:
        found = read_iis(model.plain, lines)
    except LpdError as error:
        return Told("wrong", 0, 0, 0, 0, spent, solved, [f"{model.name}: {error}"])
    met = [member.name for member in found.members if satisfies(model.plain, member.point, member.side)]
    faults = [f"{model.name}: a point satisfies all limits, with that of {name} too" for name in met]
    if found.answer != Infeasible() and not isinstance(found.answer, Past):
        faults.append(f"{model.name}: answers {found.answer}")
    way = "PAST" if isinstance(found.answer, Past) else "STOPPED" if found.stopped else "found"
    sides = [member.side for member in found.members]
    search = Search(options.program, options.seconds, model.plain) if way == "found" else None
    if search and search.kept != sides:
        faults.append(f"{model.name}: the search by sessions finds {search.kept} in place of {sides}")
    counts = (search.solves, search.pivots) if search else (0, 0)
    return Told(way, len(sides), sum(side.is_row for side in sides), *counts, spent, solved, faults)


def of_folder(options, model):
    """What is told of a model of the folder, where it has no feasible point."""
    answer = asked(options, model.data, model.form, "solve")[0]
    return told(options, model) if answer[:1] == ["INFEASIBLE"] else None


def of_kind(options, kind, at):
    """What is told of a made model, where its demands can be so large that no point meets them."""
    model = contradicting(options, kind, at)
    return model and told(options, model)


def first(options, pool, kind, started):
    """What is told of the first models of a kind, of which some are under way."""
    found, at = [one for one in (future.result() for future in started) if one], len(started)
    while len(found) < options.each:
        more = range(at, at + options.each - len(found))
        found += [one for one in pool.map(of_kind, [options] * len(more), [kind] * len(more), more) if one]
        at = more.stop
    return found


# ---- the table


def row(words):
    return "| " + " | ".join(words) + " |"


def middle_and_largest(numbers):
    return [f"{statistics.median(numbers):g}", f"{max(numbers):g}"] if numbers else ["", ""]


def milliseconds(seconds):
    return [f"{x:,.0f}" if x >= 100 else f"{x:.1f}" for x in (f(seconds) * 1e3 for f in (statistics.median, max))] if seconds else ["", ""]


def cells(found):
    ways = collections.Counter(one.way for one in found)
    ones = [one for one in found if one.way == "found"]
    return [
        str(len(found)),
        *(str(ways[way]) for way in WAYS),
        *middle_and_largest([one.size for one in ones]),
        *middle_and_largest([one.of_rows for one in ones]),
        *middle_and_largest([one.solves for one in ones]),
        *middle_and_largest([one.pivots for one in ones]),
        *milliseconds([one.spent for one in found]),
        *milliseconds([one.solved for one in found]),
    ]


def table(options, faults):
    heads = ["Models", "Number", *WAYS, "Limits, median", "largest", "of rows, median", "largest", "Solves, median", "largest"]
    heads += ["Pivots, median", "largest", "`iis`: median, ms", "largest, ms", "`solve`: median, ms", "largest, ms"]
    yield row(heads)
    yield "|---" * len(heads) + "|"
    kinds = [kind for kind in KINDS if kind[:2] in SIZES and (not options.only or f"{kind[0]}x{kind[1]}" in options.only.split(","))]
    with ProcessPoolExecutor(options.jobs) as pool:
        folder = [pool.submit(of_folder, options, model) for model in models_of(options.folder)]
        started = {kind: [pool.submit(of_kind, options, kind, at) for at in range(options.each)] for kind in kinds}
        every = [one for one in (future.result() for future in folder) if one]
        yield row(["of the folder", *cells(every)])
        for kind, futures in started.items():
            found = first(options, pool, kind, futures)
            every += found
            yield row([f"{kind[0]} x {kind[1]}, {kind[2]} entries a column, {kind[3]}", *cells(found)])
    yield row(["all", *cells(every)])
    faults += [fault for one in every for fault in one.faults]


def main():
    options = read_options(__doc__, "folder", each=25, only="", seed="", seconds=20, jobs=1)
    faults = []
    return ended(options.write, BEGIN, END, shown(table(options, faults)), faults)


if __name__ == "__main__":
    sys.exit(main())
