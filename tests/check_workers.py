#!/usr/bin/env python3
"""Checks that scripts of many sessions have with many workers the replies that they have with one.

    check_workers.py [--program PROGRAM] [--scripts N] [--seed N] [--workers K,..] [--fuzzer FOLDER] [--keep FOLDER]

It makes N (300) scripts and runs each with 1, 2, 4 and 16 workers. Their sessions load models of a few shapes, change
numbers, solve within budgets that are often too small, and ask for HOW, WRITE and CERT. With --fuzzer there stand among
the commands those of the random scripts that fuzz.py of FOLDER makes, with refused texts, odd lines and cut ends.

Each reply has to be the one that one worker gives, but for HOW, CERT, and an answer in place of PAST or SPENT, and so
has the status. Each certificate has to show what the session was last answered, by the checker of clients/python (that
of bin/check_certificate.py), of the text that WRITE gives in front of CERT. A script that fails is kept in FOLDER
(the one for temporary files). The last line says how many scripts passed, and what was compared in them.
"""
import argparse
import collections
import importlib
import os
import random
import re
import subprocess
import sys
import tempfile
from fractions import Fraction
from pathlib import Path
from types import SimpleNamespace

TOP = Path(__file__).resolve().parent.parent
sys.path.insert(0, str(TOP / "clients" / "python"))

import lpd  # noqa: E402  (the package of this repository)
from lpd.number_text import shown  # noqa: E402

NONE = ("PAST", "SPENT")
ANSWERS = ("OPTIMAL", "INFEASIBLE", "UNBOUNDED")
LOADS = ([b"LOAD", b"FREE"], [b"LOAD", b"FIXED"])
LONGEST = 16384
BAD_WORDS = 2


# ---- scripts: a list of commands, each with its body


def number(dice):
    return shown(Fraction(dice.randint(-9, 12), dice.choice([1, 1, 1, 2, 3])))


def text_of(shape, dice):
    """The lines of a model of a shape: the kinds of its rows, and the bounds that its columns have."""
    kinds, bounded = shape
    lines = ["NAME m", "ROWS", " N cost", *(f" {kind} r{i}" for i, kind in enumerate(kinds)), "COLUMNS"]
    for j in range(len(bounded)):
        lines.append(f" x{j} cost {number(dice)}")
        lines += [f" x{j} r{i} {number(dice)}" for i in range(len(kinds)) if dice.random() < 0.6]
    lines += ["RHS", *(f" RHS r{i} {number(dice)}" for i in range(len(kinds))), "BOUNDS"]
    lines += [f" UP BND x{j} {dice.randint(1, 20)}" for j, has_bound in enumerate(bounded) if has_bound]
    return [*lines, "ENDATA"]


def edit_of(shape, dice):
    row, column = f"r{dice.randrange(len(shape[0]))}", f"x{dice.randrange(len(shape[1]))}"
    often = [f"SETRHS {row} {number(dice)}", f"SETCOST {column} {number(dice)}"]
    seldom = [f"SETCOEF {row} {column} {number(dice)}", f"SENSE {dice.choice(['MIN', 'MAX'])}"]
    return dice.choice([*often, *often, *seldom])


def session(name, shape, dice):
    """The commands of a session."""
    yield [f"{name} LOAD FREE", *text_of(shape, dice)]
    for _ in range(dice.randint(3, 12)):
        if dice.random() < 0.5:
            yield [f"{name} BUDGET {dice.choice([1, 2, 3, 4, 5, 8, 10000])}"]
        for _ in range(dice.randint(0, 3)):
            yield [f"{name} {edit_of(shape, dice)}"]
        yield [f"{name} SOLVE"]
        yield from ([f"{name} {words}"] for words in ("HOW", "WRITE FREE", "CERT") if dice.random() < 0.8)
        if dice.random() < 0.1:
            yield [f"{name} LOAD FREE", *text_of(shape, dice)]


def made(dice):
    """The sessions of a script, each as its commands."""
    sizes = [(dice.randint(1, 7), dice.randint(1, 9)) for _ in range(3)]
    shapes = [(dice.choices("LGE", k=rows), dice.choices([True, False], k=columns)) for rows, columns in sizes]
    names = dice.sample(range(1, 65), dice.choice([2, 5, 12, 30]))
    sessions = [session(name, dice.choice(shapes), dice) for name in names]
    return [[[line.encode() for line in command] for command in commands] for commands in sessions]


def fuzzed(fuzz, dice):
    """The commands of some scripts of the fuzzer, each script's sessions under other numbers."""
    found = []
    for _ in range(dice.randint(1, 4)):
        options = SimpleNamespace(ambiguous=False, limits=False)
        blocks = fuzz.case_run(random.Random(dice.random()), 20, options)[1]
        names = dict(zip(range(1, 65), dice.sample(range(1, 65), 64)))
        found.append([moved(block.split(b"\n"), names) for block in blocks])
    return found


def moved(lines, names):
    """The lines of a block, whose command is given to the session with another number."""
    words = re.match(rb"([1-9]|[1-5]\d|6[0-4]) ", lines[0])
    if words:
        lines[0] = b"%d" % names[int(words[1])] + lines[0][len(words[0]) - 1 :]
    return lines if lines[-1] or len(lines) == 1 else lines[:-1]


def shuffled(parts, dice):
    """The commands of all parts, each part's in their order."""
    parts = [list(reversed(part)) for part in parts if part]
    while parts:
        part = dice.choice(parts)
        yield part.pop()
        parts = [part for part in parts if part]


def with_texts(commands):
    """The commands, with WRITE FREE in front of each CERT."""
    for command in commands:
        found = re.match(rb"(\d+) CERT\r?$", command[0])
        if found:
            yield [found[1] + b" WRITE FREE"]
        yield command


def script_of(fuzz, dice):
    parts = made(dice) + (fuzzed(fuzz, dice) if fuzz else [])
    return b"".join(line + b"\n" for command in with_texts(shuffled(parts, dice)) for line in command)


# ---- commands and replies


def asked(script):
    """The words of each command that has a reply, in the order of the replies, without the session."""
    lines = iter([line[:-1] if line.endswith(b"\r") else line for line in script.split(b"\n")])
    for line in lines:
        words = re.split(rb"[ \t]+", line.strip(b" \t"))
        if len(line) <= LONGEST and (words == [b""] or line.startswith(b"#")):
            continue
        is_named = len(line) <= LONGEST and re.fullmatch(rb"[1-9]|[1-5]\d|6[0-4]", words[0])
        yield words[1:] if is_named else []
        if is_named and words[1:] in LOADS:
            next((line for line in lines if re.match(rb"ENDATA(?![^ \t])", line)), None)
        elif is_named and words[1:] == [b"CHECK"]:
            next((line for line in lines if line.strip(b" \t") == b"END"), None)


def replies_of(said):
    """The replies, each as its session, its first line and the lines behind that."""
    lines = iter(said.split(b"\n")[:-1])
    for line in lines:
        name, _, words = line.partition(b" ")
        size = re.match(rb"(?:TEXT|CERT|WIDE) (\d+)$", words)
        yield name, words.decode("latin-1"), [next(lines, b"") for _ in range(int(size[1]) if size else 0)]


def may_differ(one, two):
    """Whether two first lines of replies to one command may stand for each other."""
    words = one.split()[:1] + two.split()[:1]
    if len(words) < 2 or words[0] == words[1] in ("HOW", "CERT"):
        return True
    return words[0] in NONE and words[1] in ANSWERS or words[0] in ANSWERS and words[1] in NONE


def shown_reply(reply):
    return f"{reply[0].decode('latin-1')} {reply[1][:200]}"


def differences(one, many):
    """Where the replies of two runs differ that may not."""
    if len(one) != len(many):
        yield f"{len(one)} replies, and with more workers {len(many)}"
    for at, (mine, theirs) in enumerate(zip(one, many), 1):
        same_lines = mine[1].startswith("CERT") or mine[2] == theirs[2]
        if mine[0] != theirs[0] or mine[1] != theirs[1] and not may_differ(mine[1], theirs[1]) or not same_lines:
            yield f"reply {at}: {shown_reply(mine)}, and with more workers {shown_reply(theirs)}"


def wrong_certificates(commands, replies, counts):
    """Certificates that do not show, of the text in front of them, what was answered."""
    answers, texts = {}, {}
    for command, (name, words, lines) in zip(commands, replies):
        kind = words.split()[0] if words else ""
        if command == [b"SOLVE"]:
            answers[name] = words
        elif kind == "TEXT":
            texts[name] = lines
        elif kind == "CERT" and lines:
            text = b"".join(line + b"\n" for line in texts.get(name, []) + lines).decode("latin-1")
            try:
                said = str(lpd.check(text))
            except lpd.Refused as refused:
                said = refused.reply
            counts["certificates"] += 1
            if said != f"YES {answers.get(name)}":
                yield f"session {name.decode()}: the checker says {said} to the certificate of {answers.get(name)}"


# ---- runs


def run(options, workers, script):
    """What a run replies, with its status. A program that has no workers runs as with one."""
    words = [*options.program, "run", "--places", str(options.places)]
    done = subprocess.run([*words, "--workers", str(workers)], input=script, capture_output=True)
    if done.returncode == BAD_WORDS and workers == 1:
        done = subprocess.run(words, input=script, capture_output=True)
    if done.returncode == BAD_WORDS:
        sys.exit(f"the program takes no --workers {workers}")
    return list(replies_of(done.stdout)), done.returncode


def faults_of(options, script, counts):
    """What is wrong with the runs of a script."""
    commands = list(asked(script))
    one, status = run(options, 1, script)
    counts["replies"] += len(one)
    yield from wrong_certificates(commands, one, counts)
    for workers in options.workers:
        if workers == 1:
            continue
        many, other = run(options, workers, script)
        if status != other:
            yield f"{workers} workers: status {other}, and with one worker {status}"
        yield from (f"{workers} workers: {fault}" for fault in differences(one, many))
        yield from (f"{workers} workers: {fault}" for fault in wrong_certificates(commands, many, counts))
        pairs = [(mine[1].split()[:1], theirs[1].split()[:1]) for mine, theirs in zip(one, many)]
        counts["other answers"] += sum(mine != theirs for mine, theirs in pairs)
        counts["other HOW"] += sum(mine[1] != theirs[1] and mine[1][:4] == "HOW " for mine, theirs in zip(one, many))


def main():
    options = argparse.ArgumentParser(description=__doc__, formatter_class=argparse.RawDescriptionHelpFormatter)
    options.add_argument("--program", default=os.environ.get("LPD", str(TOP / "crates/lpd/out/lpd")))
    options.add_argument("--scripts", type=int, default=300)
    options.add_argument("--seed", type=int, default=1)
    options.add_argument("--workers", type=lambda text: [int(word) for word in text.split(",")], default=[1, 2, 4, 16])
    options.add_argument("--fuzzer", type=Path)
    options.add_argument("--keep", type=Path, default=Path(tempfile.gettempdir()))
    options = options.parse_args()
    options.program = options.program.split()
    fuzz = None
    if options.fuzzer:
        sys.path.insert(0, str(options.fuzzer))
        fuzz = importlib.import_module("fuzz")
    failed, counts = 0, collections.Counter()
    for at in range(options.scripts):
        dice = random.Random(f"{options.seed}/{at}")
        script = script_of(fuzz if at % 2 else None, dice)
        options.places = dice.choice([1, 4, 256])
        faults = list(faults_of(options, script, counts))
        if faults:
            failed += 1
            kept = options.keep / f"workers_{options.seed}_{at}.lpd"
            kept.write_bytes(script)
            print(f"script {at}, {options.places} places, kept as {kept}: {len(faults)} faults, as {faults[0]}")
    told = ", ".join(f"{count:,} {what}" for what, count in sorted(counts.items()))
    print(f"{options.scripts - failed} scripts passed, {failed} failed: {told}")
    return 1 if failed else 0


if __name__ == "__main__":
    sys.exit(main())
