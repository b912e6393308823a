#!/usr/bin/env python3
"""Makes the bases of a solver in floating point exact by `lpd basis --wide`: of the 200 models of planners.py, or of a folder's.

    exact.py [--folder FOLDER] [--program PROGRAM] [--solver SOLVER] [--only WORD,..] [--seed WORD] [--runs N] [--seconds N]
             [--bases FOLDER] [--certificates FOLDER] [--optima FILE] [--tampered] [--alone] [--write PAGE]

SOLVER (glpsol) is asked for a basis, as the command `certify` of clients/python asks it. The model and the basis go to `lpd basis
--wide`, and its certificate to `lpd check --wide` and to the checker in Python, which both have to say yes to it and to the value.
esolver (Debian's qsopt-ex), where it is on the path and without --alone, has to answer the same. Times are of the processor, for the
whole process, in ms, the least of N runs (1): of a kind the median and the largest. Each process has so many seconds of the processor
(60), and the other solver as many of the wall.

The table has a line for each kind of made models, ten of a kind, or for each model of FOLDER, whose texts are converted into the
profile where they need it: how many are answered, and of how many the basis is optimal as it is (`WARM PIVOTS 0`); the bits of
the longest number of a certificate; and the times. With --write it takes the place of what stands between the two marks of PAGE.

With --optima, for models as large as Netlib's, it has the bytes of the certificates and the memory of the commands too, a sum stands
before it, and it takes the place between marks of its own, of which each SOLVER that is asked has a pair. FILE has the answer of each model, as bench/certificates.py reads it, and
each answer has to be that. --only then names models. Bases are taken from NAME.bas in --bases, as clp writes them, or certificates
from NAME.certificate in --certificates, and no solver is asked. With --tampered one digit of one number of each certificate is
changed, and `lpd check --wide` has to say NO or ERR, and the checker in Python the same.
"""
import random
import resource
import statistics
import sys
import tempfile
from collections import namedtuple
from pathlib import Path

from certificates import ANSWERS, answer_of, basis_in, bits_of, bytes_of, certificate_in, longest_line, optima_of, with_a_digit_changed
from options import read_options
from page import ended, shown
from planners import EACH, chosen, made, row
from solvers import CHECKER, Esolver, Model, least, limited, run, texts_of, watched

from lpd.basis_file import basis_lines  # the package of this repository, to which solvers.py has the way
from lpd.conversion import Options, convert
from lpd.floating import ask

BEGIN, END = "<!-- measured by bench/exact.py -->", "<!-- end of the exact bases -->"
FOLDER_MARKS = "<!-- measured by bench/exact.py of a folder -->", "<!-- end of the folder's exact bases -->"
LARGE_MARKS = "<!-- measured by bench/exact.py of large models -->", "<!-- end of the large models' exact bases -->"
SOLVER_MARKS = "<!-- measured by bench/exact.py --solver {} of large models -->", "<!-- end of the large models' bases of {} -->"
MOST_CHANGES = 6
# Of a large model: its answer and how that was found, the certificate, the seconds of the solver, and what the commands ran as.
Certified = namedtuple("Certified", "answer how certificate solver basis")
Judged = namedtuple("Judged", "certified check python tampered esolver")


def children():
    spent = resource.getrusage(resource.RUSAGE_CHILDREN)
    return spent.ru_utime + spent.ru_stime


def text_with(model, lines):
    """The bytes of a model's text with lines behind it."""
    return model.data + "".join(f"{line}\n" for line in lines).encode("latin-1")


def checked(options, model, answer, certificate, faults):
    """The time of `lpd check --wide`, which has to say yes to the certificate and to the answer, as has the checker in Python."""
    text = text_with(model, certificate)
    verdict, spent = least(options.runs, lambda: limited([*options.program, "check", "--wide"], text, options.seconds))
    second = limited([*CHECKER, "--wide"], text, options.seconds)[0]
    faults += [f"{model.name}: {one or 'nothing'} to {answer}" for one in (verdict, second) if one != f"YES {answer}\n"]
    return spent


def measured(options, model, faults):
    """The answer, how it was found, the bits of its certificate, and the times of the solver, of the basis and of the check."""
    began = children()
    claim = ask(options.solver, model.plain, options.seconds)
    solver = children() - began
    lines, _ = basis_lines(model.plain, claim.basis)
    handed = text_with(model, lines)
    said, basis = least(options.runs, lambda: run([*options.program, "basis", "--wide"], handed, options.seconds))
    answer, how, *rest = [*(said or "TIME").splitlines(), ""]
    if answer.split()[0] not in ANSWERS:
        faults.append(f"{model.name}: {answer}")
        return None, how, 0, (solver, basis or options.seconds, 0)
    certificate = rest[: rest.index("END") + 1]
    check = checked(options, model, answer, certificate, faults)
    return answer, how, bits_of(certificate[1:-1]), (solver, basis, check)


def by_esolver(options, model, answer, faults):
    """The time of esolver, which has to say the same where both answer."""
    with tempfile.TemporaryDirectory() as place:
        (Path(place) / "model.mps").write_text(model.text())
        found, spent = least(options.runs, lambda: Esolver().solve(Path(place), options.seconds))
    if answer and found[0] in ANSWERS:
        if (found[0], *map(model.value, found[1:])) != answer_of(answer):
            faults.append(f"{model.name}: esolver says {str(found)[:80]}, and lpd {answer[:80]}")
    return spent or options.seconds


def cells(found, times):
    """How many are answered and warm, the longest number, and the median and the largest of each time."""
    yield str(sum(answer is not None for answer, *_ in found))
    yield str(sum(how == "WARM PIVOTS 0" for _, how, *_ in found))
    yield str(max(bits for _, _, bits, _ in found))
    for of_one in times:
        yield from (f"{time * 1e3:.1f}" for time in ([statistics.median(of_one)] * (len(of_one) > 1) + [max(of_one)]))


def has_esolver(options):
    return bool(Esolver.is_there()) and not options.alone


def line_of(options, models, faults):
    found = [measured(options, model, faults) for model in models]
    times = list(zip(*(spent for *_, spent in found)))
    if has_esolver(options):
        times.append([by_esolver(options, model, one[0], faults) for model, one in zip(models, found)])
    return list(cells(found, times)), found


def model_of(name, data):
    """A model of a folder in free form, with the names that were changed on the way."""
    found = convert(data, None, Options(large=True))
    model = Model(name, found.text.encode("latin-1"), "free")
    model.names = found.names
    return model


def kinds_of(options, lacks=""):
    """For each kind its words and its models, which may lack something; of a folder each model is a kind."""
    if not options.folder:
        for rows, columns, entries, numbers in chosen(options.only):
            kind = (rows, columns, entries, numbers)
            yield [f"{rows} x {columns}", str(entries), numbers], [made(kind, options.seed, at, lacks) for at in range(EACH)]
        return
    for name, data in texts_of(options.folder):
        if not options.only or name in options.only.split(","):
            model = model_of(name, data)
            yield [name, str(len(model.plain.rows)), str(len(model.plain.columns))], [model]


def table(options, faults):
    names = [options.solver, "basis --wide", "check --wide", *["esolver"] * has_esolver(options)]
    heads = [head for name in names for head in ([f"{name}, ms"] if options.folder else [f"{name}, median, ms", "largest, ms"])]
    first = ["Model", "Rows", "Columns"] if options.folder else ["Rows x columns", "Entries a column", "Numbers"]
    yield row([*first, "Answered", "`WARM PIVOTS 0`", "Bits", *heads])
    yield "|---" * (6 + len(heads)) + "|"
    counts = [0, 0, 0]
    for words, models in kinds_of(options):
        said, found = line_of(options, models, faults)
        counts = [counts[0] + len(found), counts[1] + int(said[0]), counts[2] + int(said[1])]
        yield row([*words, *said])
    yield ""
    yield f"Of {counts[0]} models {counts[1]} are answered. For {counts[2]} of them the basis is optimal as it is."


# ---- large models


def from_basis(options, model):
    """The certificate that `lpd basis --wide` makes of a basis, or of none where that is so."""
    began = children()
    basis = basis_in(options.bases, model) if options.bases else ask(options.solver, model.plain, options.seconds).basis
    solver = children() - began
    lines, _ = basis_lines(model.plain, basis)
    ran = watched([*options.program, "basis", "--wide"], text_with(model, lines), options.seconds)
    answer, how, *rest = [*(ran.said or "TIME").splitlines(), ""]
    certificate = rest[: rest.index("END") + 1] if "END" in rest else []
    return Certified(answer, how, certificate, None if options.bases else solver, ran)


def certified(options, model, known):
    if not options.certificates:
        return from_basis(options, model)
    return Certified(known[0], "", certificate_in(options.certificates, model.name), None, None)


def judged(options, model, found, known, faults):
    """The runs of both checkers, which have to say yes to the certificate and to the answer that is known."""
    text = text_with(model, found.certificate)
    check = watched([*options.program, "check", "--wide"], text, options.seconds)
    python = watched([*CHECKER, "--wide"], text, options.seconds)
    verdict, _, answer = check.said.rstrip("\n").partition(" ")
    if verdict != "YES" or answer_of(answer) != known or (not options.certificates and answer != found.answer):
        faults.append(f"{model.name}: {check.said[:80]!r} to {found.answer[:80]}")
    if python.said != check.said:
        faults.append(f"{model.name}: the checker in Python says {python.said[:80]!r}, and not {check.said[:80]!r}")
    return check, python


def refused(options, model, found, known, faults):
    """The words of the verdicts on the certificate with one digit changed, the last NO or ERR. Before it there is YES where what was
    changed is a certificate of the same answer, as one of another optimal point: then another digit is changed."""
    dice, words = random.Random(model.name), []
    while words[-1:] in ([], ["YES"]) and len(words) < MOST_CHANGES:
        text = text_with(model, with_a_digit_changed(dice, found.certificate))
        check, python = (limited([*program, "--wide"], text, options.seconds)[0] for program in ([*options.program, "check"], CHECKER))
        words.append((check.split() or ["nothing"])[0])
        is_right = words[-1] == "YES" and answer_of(check.partition(" ")[2]) == known or words[-1] in ("NO", "ERR")
        if not is_right or check != python:
            faults.append(f"{model.name} with a digit changed: {check[:80]!r}, and the checker in Python {python[:80]!r}")
    return words


def measured_large(options, model, known, faults):
    found = certified(options, model, known)
    if found.answer.split()[0] not in ANSWERS:
        faults.append(f"{model.name}: {found.answer[:80]}")
        return Judged(found, None, None, [], None)
    check, python = judged(options, model, found, known, faults)
    has_numbers = any(len(line.split()) == 3 for line in found.certificate)
    tampered = refused(options, model, found, known, faults) if options.tampered and has_numbers else []
    esolver = by_esolver(options, model, found.answer, faults) if has_esolver(options) and not options.certificates else None
    return Judged(found, check, python, tampered, esolver)


def number_cell(number, digits=0):
    return "" if number is None else f"{number:,.{digits}f}"


def time_cell(seconds):
    return "" if seconds is None else number_cell(seconds * 1e3, int(seconds < 0.1))


def ran_cells(ran):
    return ["", ""] if ran is None else [time_cell(ran.seconds), number_cell(ran.memory)]


def large_cells(options, model, one):
    """The cells of a large model, as `large_heads` names them."""
    found = one.certified
    yield from (model.name, str(len(model.plain.rows)), str(len(model.plain.columns)))
    yield str(sum(len(column.entries) + (column.cost != 0) for column in model.plain.columns.values()))
    yield from (number_cell(len(model.data)), number_cell(bytes_of(found.certificate)), str(bits_of(found.certificate[1:-1])))
    if not options.certificates:
        yield found.how if found.certificate else found.answer[:20]
        yield from [] if options.bases else [time_cell(found.solver)]
        yield from ran_cells(found.basis)
    yield from ran_cells(one.check)
    yield time_cell(one.python and one.python.seconds)
    yield from [", ".join(one.tampered)] * options.tampered
    yield from [time_cell(one.esolver)] * (has_esolver(options) and not options.certificates)


def large_heads(options):
    yield from ("Model", "Rows", "Columns", "Numbers", "Text, bytes", "Certificate, bytes", "Bits")
    if not options.certificates:
        yield "How"
        yield from [] if options.bases else [f"{options.solver}, ms"]
        yield from ("`basis --wide`, ms", "MB")
    yield from ("`check --wide`, ms", "MB", "Python, ms")
    yield from ["A digit changed"] * options.tampered
    yield from ["esolver, ms"] * (has_esolver(options) and not options.certificates)


def large_table(options, faults, found):
    optima = optima_of(options.optima)
    heads = list(large_heads(options))
    yield row(heads)
    yield "|---" * len(heads) + "|"
    for _, [model] in kinds_of(options):
        one = measured_large(options, model, optima[model.name], faults)
        found[model.name] = one
        yield row(list(large_cells(options, model, one)))


def listed(times):
    """The largest of times by their names, and the sum of all others."""
    first = sorted(times, key=times.get, reverse=True)[:2]
    rest = sum(times.values()) - sum(times[name] for name in first)
    return f"{sum(times.values()):.1f} s in all: " + ", ".join(f"`{name}` {times[name]:.1f}" for name in first) + f", all others {rest:.1f}"


def told_of(name, runs):
    """How long a command took, and its memory."""
    times = {model: ran.seconds for model, ran in runs.items() if ran is not None}
    memories = [ran.memory for ran in runs.values() if ran is not None and ran.memory is not None]
    if times:
        yield f"{name} takes {listed(times)}" + (f"; it uses at most {max(memories):,.0f} MB." if memories else ".")


def beside_esolver(found):
    """How the time of `basis --wide` stands beside that of esolver, where that takes 0.1 s and more."""
    ratios = {name: one.certified.basis.seconds / one.esolver for name, one in found.items() if one.esolver and one.esolver >= 0.1}
    if ratios:
        worst = max(ratios, key=ratios.get)
        mean = statistics.geometric_mean(ratios.values())
        more = sum(ratio > 1 for ratio in ratios.values())
        yield (
            f"On the {len(ratios)} models for which `esolver` takes 0.1 s or more, `basis --wide` takes {mean:.3f} times as long in the geometric "
            f"mean, and at most {ratios[worst]:.2f} times (`{worst}`). On {more} of these it takes longer than `esolver`."
        )


def summed_up(options, found):
    """What the table says in short."""
    judged_ones = {name: one for name, one in found.items() if one.check is not None}
    certificates = [one.certified.certificate for one in judged_ones.values()]
    accepted = sum(one.check.said.startswith("YES ") for one in judged_ones.values())
    yield (
        f"{accepted} of {len(found)} models have a certificate that `lpd check --wide` accepts. They have {sum(map(bytes_of, certificates)):,} bytes "
        f"in all, and the longest line {max(map(longest_line, certificates), default=0):,}."
    )
    if not options.certificates:
        as_it_is = sum(one.certified.how == "WARM PIVOTS 0" for one in found.values())
        yield f"For {as_it_is} of them the basis is optimal as it is."
        yield from told_of("`basis --wide`", {name: one.certified.basis for name, one in found.items()})
        yield from beside_esolver(judged_ones)
    yield from told_of("`check --wide`", {name: one.check for name, one in judged_ones.items()})
    yield from told_of("The checker in Python", {name: one.python for name, one in judged_ones.items()})
    if options.tampered:
        tried = [one.tampered for one in judged_ones.values() if one.tampered]
        words, right = [verdicts[-1] for verdicts in tried], sum(len(verdicts) - 1 for verdicts in tried)
        more = f" Before that, {right} changes of another digit left a certificate right." if right else ""
        yield f"With one digit of one number changed {words.count('NO')} certificates get `NO` and {words.count('ERR')} `ERR`.{more}"


def large_marks(options):
    """The marks of large models: of those whose bases, or certificates, are there, or of those whose solver is asked."""
    return LARGE_MARKS if options.bases or options.certificates else [mark.format(options.solver) for mark in SOLVER_MARKS]


def main():
    places = dict.fromkeys(("folder", "bases", "certificates", "optima"), "")
    options = read_options(__doc__, **places, solver="glpsol", only="", seed="", runs=1, seconds=60, tampered=False, alone=False)
    faults, found = [], {}
    if options.optima:
        lines = shown(large_table(options, faults, found))
        return ended(options.write, *large_marks(options), [" ".join(shown(summed_up(options, found))), "", *lines], faults)
    return ended(options.write, *(FOLDER_MARKS if options.folder else (BEGIN, END)), shown(table(options, faults)), faults)


if __name__ == "__main__":
    sys.exit(main())
