"""Runs of lpd on inputs, within a bound on memory, and what is checked of each."""
from __future__ import annotations

import random
import resource
import subprocess
from collections import Counter
from contextlib import contextmanager
from dataclasses import dataclass, field
from typing import Iterator, List, NamedTuple, Optional, Sequence, Tuple

from answers import Answers, Untrue, fault_of
from makers import Makers, sessions_of
from replies import ANSWERS, OF_A_TEXT, Reply, Unknown, may_both_be, replies_of

import made_models  # found by makers

# How many seconds a run may take.
SECONDS = 300
# How many bytes of addresses the program may have with one worker, and how many more with each further one.
# docs/performance/serving.md says how that comes from the limits of docs/PROTOCOL.md.
BOUND, FOR_A_WORKER = 512 << 20, 80 << 20
# How many inputs of a kind are in a batch, and how often batches of a kind come.
SIZES = {"bytes": 100, "lines": 60, "sessions": 25, "texts": 20}
OFTEN = {"bytes": 6, "lines": 8, "sessions": 5, "texts": 1}
# A model with which a session marks the end of an input, by a name that no input has.
MARKER = 64
MARK = b"%d LOAD FREE\nROWS\n N c\nCOLUMNS\nENDATA\n%d DELROW %b\n"
# What ends a body that an input has left open. Outside of one, each is answered as a line without a session.
ENDS = b"\nENDATA\nEND\n"
# So many replies at the end of a cut input are to what is not in the whole one.
AFTER_A_CUT = 3


class Ran(NamedTuple):
    status: Optional[int]
    output: bytes
    errors: bytes


class Finding(NamedTuple):
    """What is wrong, and the words and the input with which it can be seen."""

    what: str
    words: List[str]
    script: bytes


class Wrong(Exception):
    """What is wrong with a run, and the number of its input in the batch, where that is known."""

    def __init__(self, what: str, index: Optional[int] = None) -> None:
        self.index = index
        super().__init__(what)


@dataclass
class Counts:
    """What was done, and what came of it."""

    inputs: Counter[str] = field(default_factory=Counter)
    runs: int = 0
    answers: int = 0
    words: Counter[str] = field(default_factory=Counter)
    statuses: Counter[str] = field(default_factory=Counter)
    most_memory: int = 0
    processor: float = 0.0
    findings: List[Finding] = field(default_factory=list)

    def add(self, other: Counts) -> None:
        self.inputs += other.inputs
        self.runs += other.runs
        self.answers += other.answers
        self.words += other.words
        self.statuses += other.statuses
        self.most_memory = max(self.most_memory, other.most_memory)
        self.processor += other.processor
        self.findings += other.findings


@contextmanager
def bounded(size: int) -> Iterator[None]:
    """Programs that are started meanwhile have so many bytes of addresses, as by 'ulimit -v'."""
    before = resource.getrlimit(resource.RLIMIT_AS)
    resource.setrlimit(resource.RLIMIT_AS, (size, before[1]))
    try:
        yield
    finally:
        resource.setrlimit(resource.RLIMIT_AS, before)


class Program:
    """The program, whose addresses are bounded, unless it was built with checks that take more."""

    def __init__(self, path: str, is_bounded: bool, counts: Counts) -> None:
        self.path, self.is_bounded, self.counts = path, is_bounded, counts

    def run(self, words: Sequence[str], script: bytes) -> Ran:
        workers = int(words[2]) if words[1:2] == ["--workers"] else 1
        with bounded(BOUND + (workers - 1) * FOR_A_WORKER if self.is_bounded else resource.RLIM_INFINITY):
            done = subprocess.Popen([self.path, *words], stdin=subprocess.PIPE, stdout=subprocess.PIPE, stderr=subprocess.PIPE)
        try:
            output, errors = done.communicate(script, SECONDS)
        except subprocess.TimeoutExpired:
            done.kill()
            raise Wrong(f"no end within {SECONDS} seconds") from None
        self.counts.runs += 1
        self.counts.statuses[str(done.returncode)] += 1
        most = resource.getrusage(resource.RUSAGE_CHILDREN).ru_maxrss
        self.counts.most_memory = max(self.counts.most_memory, most)
        return Ran(done.returncode, output, errors)

    def replies(self, words: Sequence[str], script: bytes, *statuses: int) -> List[Reply]:
        """The replies of a script, whose status is one of these."""
        ran = self.run(words, script)
        if ran.status not in statuses:
            raise Wrong(f"status {ran.status}: {ran.errors[-200:]!r}")
        try:
            replies = replies_of(ran.output)
        except Unknown as why:
            raise Wrong(f"a line that docs/PROTOCOL.md does not know: {why}") from None
        if any(reply.line == b"MEMORY" for reply in replies):
            raise Wrong("MEMORY within the bound on memory")
        return replies


class Batch:
    """Inputs that one run of the program takes, one behind the other. Each begins with sessions as at first."""

    def __init__(self, inputs: List[bytes], nonce: str) -> None:
        self.inputs = inputs
        self.marks = [f"{nonce}-{index}".encode() for index in range(len(inputs))]
        self.used = [sessions_of(one) for one in inputs]

    def script(self, inputs: List[bytes]) -> bytes:
        parts = []
        for one, mark, used in zip(inputs, self.marks, self.used):
            resets = b"".join(b"%d QUIT\n" % session for session in used)
            parts.append(one + ENDS + MARK % (MARKER, MARKER, mark) + resets)
        return b"".join(parts)

    def parts(self, replies: List[Reply]) -> List[List[Reply]]:
        """The replies to each input."""
        parts, at = [], 0
        for index, (mark, used) in enumerate(zip(self.marks, self.used)):
            line = b"ERR 5 NAME " + mark
            end = next((n for n in range(at, len(replies)) if replies[n].line == line), None)
            if end is None or end == at:
                raise Wrong("the session that marks the end of an input does not reply", index)
            parts.append(replies[at : end - 1])
            resets = replies[end + 1 : end + 1 + len(used)]
            if resets != [Reply(session, b"BYE", []) for session in used]:
                raise Wrong("a session is not reset", index)
            at = end + 1 + len(used)
        if at != len(replies):
            raise Wrong("more replies than to the inputs")
        return parts


def check_whole(program: Program, batch: Batch) -> Tuple[List[Reply], List[List[Reply]]]:
    """All inputs as they are, and each answer by the checker in Python."""
    replies = program.replies(["run"], batch.script(batch.inputs), 0)
    parts = batch.parts(replies)
    for index, part in enumerate(parts):
        answers = Answers()
        try:
            for reply in part:
                answers.take(reply)
            if answers.pending:
                raise Untrue("an answer without a certificate behind it")
        except Untrue as why:
            raise Wrong(str(why), index) from None
        program.counts.answers += answers.checked
        program.counts.words.update(reply.word for reply in part)
    return replies, parts


def check_prefix(program: Program, dice: random.Random, batch: Batch, whole: List[Reply]) -> None:
    """The script of all inputs cut at one place: but for the last reply, to a line that was cut, a prefix."""
    script = batch.script(batch.inputs)
    replies = program.replies(["run"], script[: dice.randrange(len(script))], 0, 6)
    if replies[:-1] != whole[: max(0, len(replies) - 1)]:
        raise Wrong("the replies to a cut script are no prefix")


def check_cuts(program: Program, dice: random.Random, batch: Batch, parts: List[List[Reply]]) -> None:
    """Each input cut at a place of its own, with other workers and places: but for the last ones, the same replies."""
    cuts = [one[: dice.randrange(len(one) + 1)] for one in batch.inputs]
    words = ["run", "--workers", str(dice.choice([1, 2, 3, 16])), "--places", str(dice.choice([1, 2, 256, 1024]))]
    for index, (cut, whole) in enumerate(zip(batch.parts(program.replies(words, batch.script(cuts), 0)), parts)):
        kept = max(0, len(cut) - AFTER_A_CUT)
        if kept > len(whole) or not all(map(may_both_be, cut[:kept], whole[:kept])):
            raise Wrong(f"other replies where the input is cut, by {' '.join(words)}", index)


# ---- texts of models, each by a command of its own


def check_text(program: Program, dice: random.Random, made: made_models.Made) -> None:
    form = ["--form", "fixed"] if made.fixed else []
    command = dice.choice(["solve", "solve", "check", "check", "basis", "range", "run"])
    script = made.text + (made.certificate if command == "check" else BASIS if command == "basis" else "")
    one = [dice.choice(["cost", "rhs"]), dice.choice(["r0", "x0", "R1", "cost", "v1"])]
    what = dice.choice([one, ["all"]]) if command == "range" else []
    ran = program.run([command, *what, *([] if command == "run" else form)], script.encode("latin-1", "replace"))
    if command == "run":
        expect_status(ran, 0, 6)
        replies_of(ran.output)
        return
    expect_status(ran, 0, 9)
    lines = ran.output.decode("latin-1").split("\n")[:-1]
    if not lines or not OF_A_TEXT.fullmatch(lines[0].encode("latin-1")) or (ran.status == 9) != lines[0].startswith("ERR "):
        raise Wrong(f"{command}, with status {ran.status}: {lines[:1]!r}")
    program.counts.words[f"{command}: {lines[0].split(' ')[0]}"] += 1
    if command in ("solve", "basis") and lines[0].split(" ")[0] in ANSWERS:
        certificate = lines[1 if command == "solve" else 2 :]
        certificate = certificate[: certificate.index("END") + 1]
        check_answer(program, made, certificate, lines[0])
    elif lines[0].startswith("YES "):
        check_answer(program, made, made.certificate.removesuffix("\n").split("\n"), lines[0][4:])


BASIS = "NAME b\n UL x0\n XL x0 r0\n LL v1\nENDATA\n"


def expect_status(ran: Ran, *statuses: int) -> None:
    if ran.status not in statuses:
        raise Wrong(f"status {ran.status}: {ran.errors[-200:]!r}")


def check_answer(program: Program, made: made_models.Made, certificate: List[str], answer: str) -> None:
    program.counts.answers += 1
    end = next((n for n, line in enumerate(certificate) if line.split() == ["END"]), len(certificate))
    fault = fault_of(made.text, "\n".join([*certificate[: end + 1], ""]), answer, made.fixed)
    if fault:
        raise Wrong(fault)


# ---- batches


def kind_of(seed: str, number: int) -> str:
    dice = random.Random(f"{seed}:{number}")
    return dice.choices(list(OFTEN), list(OFTEN.values()))[0]


def processor_seconds() -> float:
    """The processor time of this process and of its children that have ended."""
    used = [resource.getrusage(who) for who in (resource.RUSAGE_SELF, resource.RUSAGE_CHILDREN)]
    return sum(one.ru_utime + one.ru_stime for one in used)


def batch_of(path: str, is_bounded: bool, seed: str, number: int) -> Counts:
    """Makes the inputs of one batch, and checks all of them."""
    began = processor_seconds()
    dice, counts = random.Random(f"{seed}:{number}"), Counts()
    kind = dice.choices(list(OFTEN), list(OFTEN.values()))[0]
    program, makers = Program(path, is_bounded, counts), Makers(dice)
    counts.inputs[kind] += SIZES[kind]
    if kind == "texts":
        texts(program, dice, counts)
    else:
        inputs = [makers.made(kind) for _ in range(SIZES[kind])]
        found = wrong_with(program, dice, inputs, f"m{number}")
        if found:
            counts.findings.append(found)
    counts.processor = processor_seconds() - began
    return counts


def texts(program: Program, dice: random.Random, counts: Counts) -> None:
    for _ in range(SIZES["texts"]):
        made = made_models.Maker(dice, dice.choice([4, 5, 8, 20, 60])).made()
        if dice.random() < 0.6:
            made = made_models.mutated(dice, made)
        try:
            check_text(program, dice, made)
        except (Wrong, Unknown, ValueError) as why:
            counts.findings.append(Finding(str(why), ["solve"], (made.text + made.certificate).encode("latin-1", "replace")))


def wrong_with(program: Program, dice: random.Random, inputs: List[bytes], nonce: str) -> Optional[Finding]:
    """What is wrong with the runs of these inputs, if anything is; with the one input in which it is, if that can be told."""
    batch = Batch(inputs, nonce)
    state = dice.getstate()
    try:
        replies, parts = check_whole(program, batch)
        check_prefix(program, dice, batch, replies)
        check_cuts(program, dice, batch, parts)
    except Wrong as why:
        alone = [inputs[why.index]] if why.index is not None else inputs
        if len(inputs) > 1:
            for one in alone:
                dice.setstate(state)
                found = wrong_with(program, dice, [one], nonce)
                if found:
                    return found
        return Finding(str(why), ["run"], batch.script(inputs) if len(inputs) > 1 else inputs[0])
    return None
