#!/usr/bin/env python3
"""Solves the models of a folder as they are and by a smaller one, and has the certificate checked for the text as it was given.

    presolve.py FOLDER [--program PROGRAM] [--seconds N] [--jobs N] [--write PAGE]

Each NAME.mps goes to `PROGRAM solve` and to `PROGRAM presolve`, once each, in free form where that is read and else in fixed
form. The table has the rows and columns before and after, or PLAIN and why: the smaller model ended so, and the model was solved
as it is. Both answers have to be the same. A model that only `presolve` answers is won. One that only `solve` answers is lost, which is
a fault, unless a limit of time was the reason. bin/check_certificate.py has to accept each certificate of `presolve` behind the
original text. A text that is refused in both forms stands in the table with its fault.

The program does not write pivots there. Those of `solve` are told by HOW of a session that is asked the same. For those of
`presolve` bench/reducing.py makes the smaller model once more, and a session solves it: the size and the answer have to be those that
`presolve` writes. Where a row or a column of the smaller model alone shows that there is no point it is not solved: 0 pivots.

Times are of the processor, for the whole process. A run that takes more than N seconds (20) of them ends, and its answer is TIME.
--jobs runs as many models at once (1). With --write the table takes the place of what stands between the two marks of PAGE.
"""
import sys
from concurrent.futures import ThreadPoolExecutor

from options import read_options
from page import ended, shown
from reducing import reduced
from solvers import CHECKER, Model, limited, session, texts_of

from lpd.dialects import PROFILE, written

BEGIN, END = "<!-- measured by bench/presolve.py -->", "<!-- end of the smaller models -->"
ANSWERS = ("OPTIMAL", "INFEASIBLE", "UNBOUNDED")


class Run:
    """What both commands say to one model."""

    def __init__(self, options, name, data):
        self.options, self.name, self.data = options, name, data
        for self.form in ("free", "fixed"):
            self.lines, self.after = self.ask("presolve")
            if not self.lines[0].startswith("ERR"):
                break
        self.is_read = not self.lines[0].startswith("ERR")
        self.reduction, self.presolved = self.lines[:2] if len(self.lines) > 1 else ("TIME", "TIME")
        if self.is_read:
            answer, self.before = self.ask("solve")
            self.model = Model(self.name, self.data, self.form)
            self.solved, self.size = answer[0], size_of(self.model.plain)
            self.says = self.checked() if is_known(self.presolved) else ""
            self.pivots = self.pivots_of(self.form, self.data)[1] if is_known(self.solved) else ""
            self.small = self.by_small() if self.reduction.startswith("REDUCED") else ("", self.presolved, "")

    def ask(self, command):
        said, spent = limited([*self.options.program, command, "--form", self.form], self.data, self.options.seconds)
        return said.split("\n")[:-1] or ["TIME"], spent

    def pivots_of(self, form, text):
        """The answer of a session, and its pivots."""
        lines = session(self.options.program, form, text, ["SOLVE", "HOW"], self.options.seconds)[0] or []
        return (lines[1][2:], lines[2].split(" PIVOTS ")[1].split()[0]) if len(lines) == 3 else ("TIME", "")

    def by_small(self):
        """The size of the smaller model as it is made here, its answer and its pivots."""
        small, ends = reduced(self.model.plain)
        answer = ("INFEASIBLE", "0") if ends else self.pivots_of("free", written(small, PROFILE).text.encode("latin-1"))
        return f"REDUCED {len(small.rows)} {len(small.columns)}", *answer

    def checked(self):
        text = self.data + "\n".join([*self.lines[2:], ""]).encode("latin-1")
        return limited([*CHECKER, "--form", self.form], text, 10 * self.options.seconds)[0].strip()

    def outcome(self):
        if is_known(self.solved) and is_known(self.presolved):
            return "equal" if self.solved == self.presolved else "different"
        if is_known(self.presolved):
            return "won"
        if is_known(self.solved):
            return "TIME" if self.presolved == "TIME" else "lost"
        return "neither"

    def faults(self):
        if self.outcome() in ("lost", "different"):
            yield f"{self.name}: solve says {self.solved}, and presolve {self.presolved}"
        if is_known(self.presolved) and self.says != f"YES {self.presolved}":
            yield f"{self.name}: the checker says {self.says} to the certificate of {self.presolved}"
        if self.small[0] and self.small[:2] != (self.reduction, self.presolved):
            yield f"{self.name}: presolve says {self.reduction}, {self.presolved}, and the smaller model made here {self.small}"

    def row(self):
        if not self.is_read:
            return row([self.name, *[""] * 6, f"`{self.lines[0]}`", "", "", ""])
        words = self.reduction.split()
        after = words[1:] if words[0] == "REDUCED" else [f"`{' '.join(words[:3])}`", ""]
        answer = f"`{' '.join(self.presolved.split()[:2])}`"
        front = [self.name, *map(str, self.size), self.pivots, *after, self.small[2], answer, self.outcome()]
        return row([*front, milliseconds(self.before), milliseconds(self.after)])

    def is_smaller(self):
        words = self.reduction.split()
        return words[0] == "REDUCED" and tuple(map(int, words[1:])) != self.size


def is_known(answer):
    return answer.split()[0] in ANSWERS


def size_of(plain):
    return len(plain.rows), len(plain.columns)


def milliseconds(seconds):
    number = seconds * 1e3
    return f"{number:,.0f}" if number >= 100 else f"{number:.1f}"


def row(words):
    return "| " + " | ".join(words) + " |"


def total(runs):
    """How many ended in each way, and the times of those that both commands answer."""
    read = [run for run in runs if run.is_read]
    equal = [run for run in read if run.outcome() == "equal"]
    counts = {word: sum(run.outcome() == word for run in read) for word in ("equal", "won", "lost", "TIME", "neither")}
    yield f"Outcomes of the {len(read)} models that are read: {', '.join(f'{number} {word}' for word, number in counts.items() if number)}. "
    yield f"{sum(run.is_smaller() for run in read)} have a smaller model that is answered. "
    before, after = (sum(spent) * 1e3 for spent in ([run.before for run in equal], [run.after for run in equal]))
    yield f"The {len(equal)} that both answer take {before:,.0f} ms by `solve` and {after:,.0f} ms by `presolve`, "
    pivots, fewer = (sum(map(int, counts)) for counts in ([run.pivots for run in equal], [run.small[2] for run in equal]))
    yield f"with {pivots:,} pivots and {fewer:,}."


def table(options, faults):
    heads = ["Model", "Rows", "Columns", "Pivots", "Rows after", "Columns after", "Pivots after", "Answer", "Outcome"]
    heads += ["`solve`, ms", "`presolve`, ms"]
    yield row(heads)
    yield "|---" * len(heads) + "|"
    runs = []
    with ThreadPoolExecutor(options.jobs) as pool:
        texts = dict(sorted(texts_of(options.folder), key=lambda text: len(text[1])))
        found = {name: pool.submit(Run, options, name, data) for name, data in texts.items()}
        for name in sorted(found):
            run = found[name].result()
            runs.append(run)
            faults += run.faults() if run.is_read else []
            yield run.row()
    yield ""
    yield "".join(total(runs))


def main():
    options = read_options(__doc__, "folder", seconds=20, jobs=1)
    faults = []
    return ended(options.write, BEGIN, END, shown(table(options, faults)), faults)


if __name__ == "__main__":
    sys.exit(main())
