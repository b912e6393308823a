#!/usr/bin/env python3
"""Certifies the models of a folder by the bases of other solvers, and writes a table of who judged each certificate.

    certify.py FOLDER [--program PROGRAM] [--with SOLVER,..] [--by WAY] [--optima FILE] [--seconds N] [--parts [--keep FILE [--kept]]]
               [--write PAGE]

Each NAME.mps is converted into the profile, solved by lpd with the largest budget, and certified as the command `certify`
of clients/python does, with each solver (glpsol and clp); WAY is one of its words for --by (lpd, python). FILE has the answer of each
model, as bench/certificates.py reads it, with which every answer is compared. Times are of the wall: of solve with both
checks, and of each certificate with the other solver and with both checks in them. With --write the table takes the
place of what stands between the two marks of PAGE.

With --parts the command is run as a person runs it, from the second run on, and nothing is solved beside it. The times are of the
processor: of the solver, of the programs of lpd, of the checker in Python, of the text, and of the whole. That of the text is of one
reading by Python, or where something in the text has to be changed of the whole conversion, as `convert` makes it; Python's own start
counts there. The memory is Python's own. Its table has marks of its own. The FILE of --keep keeps what is measured, line by line, and a
later run goes on with it. The smallest models come first. With --kept nothing is measured: the table has what FILE has, and empty cells.
"""
import argparse
import contextlib
import io
import json
import os
import pathlib
import resource
import subprocess
import sys
import tempfile

from page import ended

TOP = pathlib.Path(__file__).resolve().parent.parent
sys.path.insert(0, str(TOP / "clients" / "python"))

from lpd import certifying, conversion  # noqa: E402  (the package of this repository)
from lpd.__main__ import main as command  # noqa: E402
from lpd.batching import Work, one_by_one, tasks_of  # noqa: E402
from lpd.certifying import BASIS, BASIS_WIDE, WAYS  # noqa: E402
from lpd.judging import LPD_CHECK, LPD_CHECK_WIDE, PYTHON_ALONE  # noqa: E402
from lpd.solver_names import NONE, is_there  # noqa: E402
from lpd.tables import off_of  # noqa: E402
from lpd.ways import Effort  # noqa: E402

PARTS = ("solver", "lpd", "checker", "text", "whole")
BEGIN_PARTS, END_PARTS = "<!-- measured by bench/certify.py --parts -->", "<!-- end of the certificates by parts -->"
BEGIN, END = "<!-- measured by bench/certify.py -->", "<!-- end of the certificates -->"
LARGEST = 1_000_000
ANSWERS = ("OPTIMAL", "INFEASIBLE", "UNBOUNDED")
JUDGES = {LPD_CHECK: "`lpd check`", LPD_CHECK_WIDE: "`lpd check --wide`", PYTHON_ALONE: "the checker in Python alone"}
COMMANDS = {BASIS_WIDE: "`lpd basis --wide`", BASIS: "`lpd basis`", "": "elimination in Python"}


def row(cells):
    return "| " + " | ".join(cells) + " |"


def answers_in(path):
    """For each name its answer, by the file of them, if there is one."""
    from certificates import optima_of  # here, since what it imports is no part of the command that is measured

    return optima_of(path) if path else {}


def wrong(name, answer, optima):
    """What is wrong with an answer, by the list."""
    from certificates import answer_of

    known = optima.get(name)
    return [] if known in (None, answer_of(answer)) else [f"{name}: {answer[:80]}, and the list says another"]


def cells_of(result):
    """What a certificate is: who judged it, the exact steps, how far off the other solver was, and the time."""
    found = result.certified
    if found is None:
        return ["; ".join(result.notes), "", "", ""]
    return [found.judge, str(found.steps), off_of(found) or "", f"{result.certify_seconds:.2f}"]


def listed(counts):
    """How many there are of each, by its words, without those of which there is none."""
    return " and ".join(f"{words} {number}" for words, number in counts if number)


def accepted(solver, judges, models):
    """How many models of all have a certificate, and by whom these are accepted."""
    said = f"With {'no solver' if solver == NONE else f'the bases of `{solver}`'} {len(judges)} of {models} models have a certificate: "
    return said + listed((f"{words} accepts", judges.count(judge)) for judge, words in JUDGES.items()) + "."


def count(solver, results):
    found = [result for result in results if result.certified]
    times = sorted(result.certify_seconds for result in found)
    makers = listed((f"{words} made", sum(r.certified.command == command for r in found)) for command, words in COMMANDS.items())
    return " ".join((
        accepted(solver, [result.certified.judge for result in found], len(results)),
        f"Each took at most {times[-1]:.1f} s, and half of them at most {times[len(times) // 2]:.2f} s.",
        f"Of the {len(found)} certificates {makers}.",
        f"For {sum(result.certified.steps > 0 for result in found)} of the models exact steps had to mend the solver's basis.",
    ))


def after_convert(results):
    return [result for result in results if result.answer in ANSWERS and any(note.startswith("converted") for note in result.notes)]


def measure(options, faults):
    """The lines of the table, with the counts before it."""
    optima, by_solver = answers_in(options.optima), {}
    for solver in options.solvers:
        work = Work(effort=Effort(LARGEST, only_lpd=True, seconds=options.seconds), certifier=solver, way=options.way)
        by_solver[solver] = list(one_by_one(tasks_of(map(str, pathlib.Path(options.folder).glob("*.mps"))), work))
    first = by_solver[options.solvers[0]]
    answered = sum(result.answer in ANSWERS for result in first)
    yield f"`solve` answers {answered} of {len(first)} models, {len(after_convert(first))} of them after `convert`."
    for solver, results in by_solver.items():
        yield count(solver, results)
        for result in results:
            faults += wrong(result.name, str(result.certified.known), optima) if result.certified else [f"{result.name}: {result.notes}"]
    yield ""
    yield row(["Model", "`solve`", "s", *(head for solver in by_solver for head in (f"`{solver}`: judge", "steps", "off by", "s"))])
    yield row(["---"] * (3 + 4 * len(by_solver)))
    for at, result in enumerate(first):
        yield row([result.name, result.answer, f"{result.seconds:.2f}", *(cell for of_one in by_solver.values() for cell in cells_of(of_one[at]))])


# ---- by parts


def spent(who):
    """Seconds of the processor."""
    used = resource.getrusage(who)
    return used.ru_utime + used.ru_stime


class Clock:
    """The processor's seconds of calls, of Python's own or of the programs that it ran, by what they were for."""

    def __init__(self):
        self.seconds = {"solver": [], "checker": [], "reading": [], "conversion": []}
        self.converted = None

    def around(self, module, name, what, who):
        """From here on the calls of a function count for this."""
        call = getattr(module, name)

        def counted(*words, **more):
            start = spent(who)
            try:
                found = call(*words, **more)
            finally:
                self.seconds[what].append(spent(who) - start)
            self.converted = found if what == "conversion" else self.converted
            return found

        setattr(module, name, counted)

    def text(self):
        """The seconds of what a person does with the text before the solver has it: who has to convert it converts it, with all readings
        in that; or else it is read once."""
        is_changed = self.converted is not None and self.converted.changes
        return max(self.seconds["conversion" if is_changed else "reading"], default=0)


def measure_one(path, solver, seconds):
    """What one command says, and its parts, as JSON."""
    clock, started = Clock(), spent(resource.RUSAGE_SELF)
    is_other = solver != NONE  # or else rough steps in Python take its place
    clock.around(certifying, "ask", "solver", resource.RUSAGE_CHILDREN if is_other else resource.RUSAGE_SELF)
    clock.around(certifying, "check_lines", "checker", resource.RUSAGE_SELF)
    clock.around(conversion, "read_lines", "reading", resource.RUSAGE_SELF)
    clock.around(conversion, "convert", "conversion", resource.RUSAGE_SELF)
    said, told = io.StringIO(), io.StringIO()
    with contextlib.redirect_stdout(said), contextlib.redirect_stderr(told):
        status = command(["certify", path, "--with", solver, "--seconds", str(seconds), "--json"])
    found = json.loads(said.getvalue()) if status in (0, 10, 11) else {"answer": told.getvalue().strip(), "judge": ""}
    programs, own = spent(resource.RUSAGE_CHILDREN), spent(resource.RUSAGE_SELF)
    parts = {part: sum(clock.seconds[part]) for part in ("solver", "checker")}
    parts.update(lpd=programs - (parts["solver"] if is_other else 0), text=clock.text() + started, whole=programs + own)
    memory = resource.getrusage(resource.RUSAGE_SELF).ru_maxrss / 1024
    print(json.dumps({key: found.get(key) for key in ("answer", "judge", "off", "steps", "start", "notes")} | {"parts": parts, "memory": memory}))


def parts_of(path, solver, options):
    words = [sys.executable, __file__, options.folder, "--one", path, "--with", solver, "--seconds", str(options.seconds)]
    # Python finds its modules compiled, as it does from the second run on.
    there = {**os.environ, "PYTHONPYCACHEPREFIX": str(options.compiled)}
    there.pop("PYTHONDONTWRITEBYTECODE", None)
    return json.loads(subprocess.run(words, stdout=subprocess.PIPE, env=there, check=True).stdout)


class Kept:
    """What was measured of each solver and model: lines of JSON in a file, if there is one."""

    def __init__(self, path):
        self.path = path
        lines = path.read_text().splitlines() if path and path.exists() else []
        self.found = {(solver, name): found for solver, name, found in map(json.loads, lines)}

    def measured(self, solver, path, options):
        if (solver, path.stem) not in self.found:
            self.found[solver, path.stem] = parts_of(str(path), solver, options)
            if self.path:
                with self.path.open("a") as file:
                    print(json.dumps([solver, path.stem, self.found[solver, path.stem]]), file=file)
        return self.found[solver, path.stem]


def sum_of(found):
    return sum(seconds for part, seconds in found["parts"].items() if part != "whole")


def told_of(solver, measured):
    """How many certificates there are, by whom they are accepted, and the most of times and memory."""
    found = [one for one in measured.values() if one["judge"] in JUDGES]
    refined = sum(any("refined its basis" in note for note in one["notes"] or []) for one in found)
    most, of = max((one["parts"]["whole"] / sum_of(one), name) for name, one in measured.items() if one in found)
    return " ".join((
        accepted(solver, [one["judge"] for one in found], len(measured)),
        f"For {sum(bool(one['steps']) for one in found)} of the models exact steps had to mend the basis, and for {refined} the solver refined it.",
        f"`certify` took {sum(one['parts']['whole'] for one in found):.0f} s for all of them,",
        f"and for each model at most {most:.2f} times the sum of the parts (`{of}`).",
        f"Python had at most {max(one['memory'] for one in found):.0f} MB.",
    ))


def measure_parts(options, faults):
    paths = sorted(pathlib.Path(options.folder).glob("*.mps"))
    with tempfile.TemporaryDirectory() as options.compiled:
        by_size = sorted(paths, key=lambda path: path.stat().st_size)
        if not options.kept:
            parts_of(str(by_size[0]), options.solvers[0], options)  # which compiles, and is not kept
        measured = dict(measured_by(by_size, options))
    optima = answers_in(options.optima)
    for solver, found in measured.items():
        faults += [fault for name, one in found.items() for fault in wrong_parts(name, one, optima)]
        yield told_of(solver, found)
    yield ""
    heads = (head for solver in measured for head in (f"`{solver}`, s", "`lpd`, s", "Python's check, s", "text, s", "whole, s"))
    yield row(["Model", *heads])
    yield row(["---"] * (1 + 5 * len(measured)))
    for path in paths:
        found = [measured[solver].get(path.stem) for solver in measured]
        yield row([path.stem, *(f"{one['parts'][part]:.2f}" if one else "" for one in found for part in PARTS)])


def measured_by(paths, options):
    """For each solver what is measured of the models."""
    kept = Kept(options.keep)
    for solver in options.solvers:
        measured = {}
        for path in paths:
            if options.kept and (solver, path.stem) not in kept.found:
                continue
            found = measured[path.stem] = kept.measured(solver, path, options)
            told = f"{found['parts']['whole']:.2f} s, {found['parts']['whole'] / sum_of(found):.2f} times its parts, {found['memory']:.0f} MB"
            print(f"{path.stem} {solver}: {found['answer'][:40]}, {found['judge']}, {told}", file=sys.stderr, flush=True)
        yield solver, measured


def wrong_parts(name, found, optima):
    if found["judge"] not in (LPD_CHECK, LPD_CHECK_WIDE):
        return [f"{name}: {found['answer']}"]
    return wrong(name, found["answer"], optima)


def main():
    parser = argparse.ArgumentParser(description="Certifies the models of a folder by the bases of other solvers.")
    parser.add_argument("folder")
    parser.add_argument("--program", default=os.environ.get("LPD", str(TOP / "crates/lpd/out/lpd")))
    parser.add_argument("--with", dest="solvers", type=lambda text: text.split(","), default=["glpsol", "clp"])
    parser.add_argument("--by", dest="way", choices=WAYS)
    parser.add_argument("--optima", metavar="FILE")
    parser.add_argument("--seconds", type=float, default=60)
    parser.add_argument("--parts", action="store_true")
    parser.add_argument("--keep", type=pathlib.Path, metavar="FILE")
    parser.add_argument("--kept", action="store_true")
    parser.add_argument("--one", metavar="MODEL", help=argparse.SUPPRESS)
    parser.add_argument("--write", type=pathlib.Path, metavar="PAGE")
    options = parser.parse_args()
    os.environ["LPD"] = options.program
    if options.one:
        return measure_one(options.one, options.solvers[0], options.seconds)
    missing = [solver for solver in options.solvers if solver != NONE and not is_there(solver)]
    if missing:
        sys.exit(f"not there: {', '.join(missing)}")
    faults = []
    lines = list((measure_parts if options.parts else measure)(options, faults))
    print("\n".join(lines))
    marks = (BEGIN_PARTS, END_PARTS) if options.parts else (BEGIN, END)
    return ended(options.write, *marks, lines, faults)


if __name__ == "__main__":
    sys.exit(main())
