#!/usr/bin/env python3
"""Solves models by `lpd solve --wide`: the 200 of planners.py, or those of a folder.

    wide.py [--folder FOLDER] [--program PROGRAM] [--only WORD,..] [--lacks WORD] [--seed WORD] [--runs N] [--seconds N]
            [--optima FILE] [--times FILE] [--write PAGE]

The certificate of each answer goes to `lpd check --wide` and to the checker in Python, which both have to say yes to it and to the
answer. esolver (Debian's qsopt-ex), where it is on the path, has to answer the same. Each of these has so many seconds of the
processor (20). --only takes the made models of these sizes, as 15x25 or 250x500, or the models of FOLDER of these names; with --lacks
point made models have no feasible point, and with --lacks limit no limit on the cost. --write then puts each between marks of its
own. FILE of --optima has the answer of each model of FOLDER, as bench/certificates.py reads it, and each has to be that. A table with
models past 256 rows or 512 columns has marks of large models, or of infeasible or unbounded ones where all are such. Where FILE of
--times has a time of esolver for a model of FOLDER, in lines of a name and seconds, that one counts, and new ones are put there: so a
run that was ended can be taken up again.

The table has a line for each kind of made models, ten of a kind, or for each model of FOLDER, whose texts are converted into the
profile where they need it: how many are answered, or how the one ends; the bits of the longest number of a certificate; and the
times, of the processor, for the whole process, in ms, the least of N runs (1): of a kind the median and the largest, of those of
solve and esolver over all ten, answered or not. The last columns have the ratio of the time of solve to that of esolver, of a kind
the geometric mean and the largest; where one of the two is not done in time, that counts with all its seconds. The sentences before
it sum it up. With --write both take the place of what stands between the two marks of PAGE.
"""
import collections
import pathlib
import statistics
import sys

from certificates import ANSWERS, answer_of, bits_of, optima_of
from exact import by_esolver, checked, kinds_of
from options import read_options
from page import ended, shown
from planners import row
from solvers import Esolver, watched

BEGIN, END = "<!-- measured by bench/wide.py -->", "<!-- end of the wide solves -->"
FOLDER_MARKS = "<!-- measured by bench/wide.py of a folder -->", "<!-- end of the folder's wide solves -->"
LARGE_MARKS = "<!-- measured by bench/wide.py of {} models -->", "<!-- end of the {} models' wide solves -->"
SIZES_MARKS = "<!-- measured by bench/wide.py of some sizes -->", "<!-- end of these sizes' wide solves -->"
LACKS_MARKS = "<!-- measured by bench/wide.py without a {} -->", "<!-- end of the wide solves without a {} -->"
MOST_ROWS, MOST_COLUMNS = 256, 512  # of a model that is not large
Found = collections.namedtuple("Found", "name is_large ended bits solve memory check esolver")


def solved(options, model):
    """The lines that `lpd solve --wide` wrote, its time and its memory. There is none where it is not done in time, or was ended by a
    fault."""
    command = [*options.program, "solve", "--wide"]
    runs = [watched(command, model.data, options.seconds) for _ in range(options.runs)]
    spent = min(ran.seconds for ran in runs)
    lines = runs[0].said.splitlines() or ["TIME" if spent > 0.95 * options.seconds else "FAILED"]
    return lines, spent, runs[0].memory


class Times:
    """Those of esolver by the names of models, which a file may keep."""

    def __init__(self, path):
        self.path = pathlib.Path(path) if path else None
        lines = self.path.read_text().splitlines() if self.path and self.path.exists() else []
        self.kept = {name: float(seconds) for name, seconds in map(str.split, lines)}

    def of(self, options, model, answer, faults):
        """The time for a model. What was kept says no answer, so none is compared then."""
        if not Esolver.is_there():
            return None
        if model.name not in self.kept or self.path is None:
            self.kept[model.name] = by_esolver(options, model, answer, faults)
            if self.path:
                with self.path.open("a") as file:
                    file.write(f"{model.name} {self.kept[model.name]:.4f}\n")
        return self.kept[model.name]


def measured(options, model, known, times, faults):
    """How the solve ends, the bits of its certificate, and the times of the solve, of the check, where there is one, and of esolver."""
    (answer, *certificate), solve, memory = solved(options, model)
    word, bits, check = answer.split()[0], None, None
    if word in ANSWERS:
        bits, check = bits_of(certificate[1:-1]), checked(options, model, answer, certificate, faults)
        if known is not None and answer_of(answer) != known:
            faults.append(f"{model.name}: {answer[:80]} is not the known answer")
    elif word not in ("OPEN", "TIME"):
        faults.append(f"{model.name}: {answer}")
    esolver = times.of(options, model, answer if word in ANSWERS else None, faults)
    is_large = len(model.plain.rows) > MOST_ROWS or len(model.plain.columns) > MOST_COLUMNS
    return Found(model.name, is_large, word, bits, solve, memory, check, esolver)


def milliseconds(time):
    return f"{time * 1e3:,.0f}" if time >= 0.1 else f"{time * 1e3:.1f}"


def ratio_of(one):
    """How many times as long as esolver the solve takes."""
    return one.solve / one.esolver if one.esolver else None


def ratios_of(found):
    """The ratios with the names of their models, of which made ones share some."""
    return [(ratio, one.name) for one in found if (ratio := ratio_of(one)) is not None]


def cells(found, is_kind):
    """How many are answered, or how the one ends, the longest number, and the times, of a kind the median and the largest."""
    yield str(sum(one.ended in ANSWERS for one in found)) if is_kind else f"`{found[0].ended}`"
    yield str(max((one.bits for one in found if one.bits is not None), default=""))
    for name in ("solve", "check", *["esolver"] * bool(Esolver.is_there())):
        times = [time for one in found if (time := getattr(one, name)) is not None]
        ends = [statistics.median(times), max(times)] if times else [None, None]
        yield from ("" if time is None else milliseconds(time) for time in ends[not is_kind :])
    ratios = [ratio for ratio, _ in ratios_of(found)]
    if Esolver.is_there():
        ends = [statistics.geometric_mean(ratios), max(ratios)] if ratios else [None, None]
        yield from ("" if ratio is None else f"{ratio:.2f}" for ratio in ends[not is_kind :])
    if not is_kind:
        yield "" if found[0].memory is None else f"{found[0].memory:,.0f}"


def beside(found):
    """How the times stand beside those of esolver."""
    times = [one.esolver for one in found if one.esolver is not None]
    yield f"`esolver` takes at most {milliseconds(statistics.median(times))} ms for half of the models, and at most {milliseconds(max(times))} ms for each."
    ratios = ratios_of(found)
    mean, (worst, name) = statistics.geometric_mean(ratio for ratio, _ in ratios), max(ratios)
    yield f"The solve takes {mean:.2f} times as long as `esolver` in the geometric mean over {len(ratios)} models, and at most {worst:.2f} times (`{name}`)."
    long = ratios_of(one for one in found if one.esolver and one.esolver >= 0.2)
    if long:
        worst, name = max(long)
        more = [f"`{name}`" for ratio, name in long if ratio > 2]
        names = f" ({', '.join(more)})" if more else ""
        yield f"On the {len(long)} models for which `esolver` takes 0.2 s or more, the solve takes at most {worst:.2f} times as long (`{name}`)."
        yield f"The solve takes more than twice as long as `esolver` on {len(more) or 'none'} of these models{names}."


def summed_up(found, seconds):
    """What the table says in short."""
    answered = [one for one in found if one.ended in ANSWERS]
    others = [("end `OPEN`", "OPEN"), (f"are not done within {seconds} s", "TIME"), ("fail", "FAILED")]
    counts = [f"{number} {words}" for words, end in others if (number := sum(one.ended == end for one in found))]
    yield f"{len(answered)} of {len(found)} models are answered" + "".join(f", {words}" for words in counts) + "."
    if answered:
        times = [one.solve for one in answered]
        yield f"Half of these take at most {milliseconds(statistics.median(times))} ms, and each at most {milliseconds(max(times))} ms."
    memories = [one.memory for one in found if one.memory is not None]
    if memories:
        yield f"The solve uses at most {max(memories):,.0f} MB."
    if Esolver.is_there():
        yield from beside(found)


def heads_of(options):
    names = ["solve --wide", "check --wide", *["esolver"] * bool(Esolver.is_there())]
    yield from (head for name in names for head in ([f"{name}, ms"] if options.folder else [f"{name}, median, ms", "largest, ms"]))
    if Esolver.is_there():
        yield from ["ratio"] if options.folder else ["ratio, mean", "largest"]
    yield from ["MB"] * bool(options.folder)


def table(options, faults, found):
    heads = list(heads_of(options))
    first = ["Model", "Rows", "Columns"] if options.folder else ["Rows x columns", "Entries a column", "Numbers"]
    yield row([*first, "Answer" if options.folder else "Answered", "Bits", *heads])
    yield "|---" * (5 + len(heads)) + "|"
    optima, times = optima_of(options.optima) if options.optima else {}, Times(options.times if options.folder else "")
    for words, models in kinds_of(options, options.lacks):
        of_kind = [measured(options, model, optima.get(model.name), times, faults) for model in models]
        found += of_kind
        yield row([*words, *cells(of_kind, not options.folder)])


def marks_of(options, found):
    if options.lacks:
        return [mark.format(options.lacks) for mark in LACKS_MARKS]
    if any(one.is_large for one in found):
        outcomes = {answer[0].lower() for answer in optima_of(options.optima).values()} if options.optima else {"optimal"}
        kind = "large" if "optimal" in outcomes else min(outcomes)
        return [mark.format(kind) for mark in LARGE_MARKS]
    return FOLDER_MARKS if options.folder else SIZES_MARKS if options.only else (BEGIN, END)


def main():
    options = read_options(__doc__, folder="", only="", lacks="", seed="", runs=1, seconds=20, optima="", times="")
    faults, found = [], []
    lines = shown(table(options, faults, found))
    short = " ".join(shown(summed_up(found, options.seconds)))
    return ended(options.write, *marks_of(options, found), [short, "", *lines], faults)


if __name__ == "__main__":
    sys.exit(main())
