#!/usr/bin/env python3
"""Runs scripts of sessions under faults, one fault a run, and checks what the program says then.

    sweep.py PROGRAM SCRIPT ..

For each script, with the output and the status of a run without faults as the measure:

- Each request for memory is refused in turn. The run ends with status 5 and has written a prefix of the output. Or one
  command has the reply MEMORY, and all else is as if that command had not been there. Or nothing changes.
- Each read fails in turn. The run ends with status 3 and has written the replies to the commands that were read whole.
- Each write fails in turn. The run ends with status 4 and has written a prefix of the output.
- Each read and each write is interrupted in turn (EINTR), and all of them are short. Nothing changes.
- The script is cut after each of its bytes. The run ends with status 6 inside a body, and else with status 0, with the same
  replies to the commands that were left whole and one to a last line without its end, as if that had one.

It builds refuse_memory.c and disturb_io.c beside it with the C compiler, $CC or cc, in a temporary folder, and preloads
them. It prints each run that ends otherwise, and the counts last; the status is 0 where there is no such run.
"""
import os
import subprocess
import sys
import tempfile
from concurrent.futures import ThreadPoolExecutor
from pathlib import Path

HERE = Path(__file__).resolve().parent
# At most so many bytes a call, in the runs in which each call of a kind is disturbed in turn; and the smaller ones in which
# each read fails in turn as well.
PIECE, SMALL_PIECE = 96, 7
SHORT = [1, 7]
DATA_FORMS = (b"FREE", b"FIXED")


class Program:
    """The program under test, and the two libraries that are preloaded into it."""

    def __init__(self, path, room):
        self.path = path
        self.memory = self.built("refuse_memory", room)
        self.io = self.built("disturb_io", room)

    @staticmethod
    def built(name, room):
        library = os.path.join(room, name + ".so")
        words = [os.environ.get("CC", "cc"), "-O1", "-shared", "-fPIC", "-o", library, str(HERE / (name + ".c")), "-ldl"]
        subprocess.run(words, check=True)
        return library

    def run(self, script, library=None, **faults):
        """The status, the output and what went to standard error of a run under these faults."""
        settings = {"FAULT_" + name.upper(): str(value) for name, value in faults.items()}
        if library:
            settings["LD_PRELOAD"] = library
        with tempfile.TemporaryFile() as source:
            source.write(script)
            source.seek(0)
            done = subprocess.run([self.path, "run"], stdin=source, capture_output=True, env={**os.environ, **settings}, timeout=60)
        return done.returncode, done.stdout, done.stderr

    def counts(self, script, library, **faults):
        """How many calls such a run makes, as the library tells."""
        return list(map(int, self.run(script, library, count_to=2, **faults)[2].split()))


# ---- scripts and their output, command by command


def ends_text(line):
    return line[:1] not in (b" ", b"\t", b"") and line.split()[:1] == [b"ENDATA"]


def ends_certificate(line):
    return line.split() == [b"END"]


def body_end(words):
    """What ends the body of a command, if it has one."""
    if not words[0].isdigit():
        return None
    if len(words) == 3 and words[1] == b"LOAD" and words[2] in DATA_FORMS:
        return ends_text
    return ends_certificate if len(words) == 2 and words[1] == b"CHECK" else None


def parts_of(script):
    """The commands of a script, each with its body and with the lines without a reply before it; and whether it ends in a body."""
    commands, open_lines, is_end = [], b"", None
    for line in script.splitlines(keepends=True):
        open_lines += line
        words = line.split()
        if is_end:
            is_whole = is_end(line.rstrip(b"\n"))
        else:
            is_end = body_end(words) if words and line[:1] != b"#" else None
            is_whole = bool(words) and line[:1] != b"#" and not is_end
        if is_whole:
            commands.append(open_lines)
            open_lines, is_end = b"", None
    return commands, is_end is not None


def replies_of(output):
    """The replies in an output, each with the lines behind it."""
    replies, more = [], 0
    for line in output.splitlines(keepends=True):
        if more:
            replies[-1] += line
            more -= 1
            continue
        replies.append(line)
        words = line.split()
        if len(words) == 3 and words[1] in (b"TEXT", b"CERT") and words[2].isdigit():
            more = int(words[2])
    return replies


# ---- the sweep of one script


class Sweep:
    def __init__(self, program, name, script):
        self.program, self.name, self.script = program, name, script
        self.commands, _ = parts_of(script)
        self.status, self.output, _ = program.run(script)
        self.replies = replies_of(self.output)
        self.is_measure = self.status == 0 and len(self.replies) == len(self.commands)

    def cases(self):
        """Each fault, as a text with the call that tells what is wrong with its run, or None."""
        if not self.is_measure:
            yield "no fault", lambda: f"status {self.status}, {len(self.commands)} commands and {len(self.replies)} replies"
            return
        requests = self.program.counts(self.script, self.program.memory)[0]
        for n in range(1, requests + 1):
            yield f"request {n} for memory refused", lambda n=n: self.without_memory(n)
        reads, writes = self.program.counts(self.script, self.program.io, read_most=PIECE, write_most=PIECE)
        for n in range(1, reads + 1):
            yield f"read {n} failing", lambda n=n: self.failing_read(n, PIECE)
            yield f"read {n} interrupted", lambda n=n: self.unchanged(read_interrupted_at=n, read_most=PIECE)
        for n in range(1, writes + 1):
            yield f"write {n} failing", lambda n=n: self.failing_write(n)
            yield f"write {n} interrupted", lambda n=n: self.unchanged(write_interrupted_at=n, write_most=PIECE)
        for n in range(1, self.program.counts(self.script, self.program.io, read_most=SMALL_PIECE)[0] + 1):
            yield f"read {n} of {SMALL_PIECE} bytes failing", lambda n=n: self.failing_read(n, SMALL_PIECE)
        for size in range(len(self.script)):
            yield f"a cut after {size} bytes", lambda size=size: self.cut(self.script[:size])
        for most in SHORT:
            yield f"reads of {most} bytes", lambda most=most: self.unchanged(read_most=most)
            yield f"writes of {most} bytes", lambda most=most: self.unchanged(write_most=most)

    def unchanged(self, **faults):
        status, output, _ = self.program.run(self.script, self.program.io, **faults)
        if (status, output) != (self.status, self.output):
            return f"status {status}, and {'the same' if output == self.output else 'another'} output"
        return None

    def whole_within(self, size):
        """How many commands end within so many bytes."""
        whole = 0
        while whole < len(self.commands) and len(self.commands[whole]) <= size:
            size -= len(self.commands[whole])
            whole += 1
        return whole

    def failing_read(self, n, piece):
        status, output, _ = self.program.run(self.script, self.program.io, read_fails_at=n, read_most=piece)
        if status != 3:
            return f"status {status} in place of 3"
        whole = self.whole_within(piece * (n - 1))
        return None if output == b"".join(self.replies[:whole]) else f"other output than of the {whole} commands that were read"

    def failing_write(self, n):
        status, output, _ = self.program.run(self.script, self.program.io, write_fails_at=n, write_most=PIECE)
        if status != 4:
            return f"status {status} in place of 4"
        return None if self.output.startswith(output) else "no prefix of the output"

    def cut(self, script):
        commands, is_in_body = parts_of(script)
        status, output, _ = self.program.run(script)
        if status != (6 if is_in_body else 0):
            return f"status {status}, {'inside' if is_in_body else 'outside'} a body"
        replies, whole = replies_of(output), self.whole_within(len(script))
        if replies[:whole] != self.replies[:whole] or len(replies) != len(commands):
            return f"{len(replies)} replies to {len(commands)} commands, or others than to the {whole} that are whole"
        return None if self.program.run(script + b"\n")[:2] == (status, output) else "a line without an end is none"

    def without_memory(self, n):
        status, output, _ = self.program.run(self.script, self.program.memory, memory_at=n)
        if status == 5:
            return None if self.output.startswith(output) else "status 5, and no prefix of the output"
        if status != self.status:
            return f"status {status} in place of {self.status} or 5"
        return None if output == self.output else self.other_replies(replies_of(output))

    def other_replies(self, replies):
        """What is wrong with replies that differ, where they may differ by a command that had no memory."""
        refused = [k for k, reply in enumerate(replies) if reply.split()[1:] == [b"MEMORY"]]
        if len(refused) != 1 or len(replies) != len(self.commands):
            return f"another output, with {len(refused)} replies MEMORY"
        k = refused[0]
        _, rest, _ = self.program.run(b"".join(self.commands[:k] + self.commands[k + 1 :]))
        return None if replies_of(rest) == replies[:k] + replies[k + 1 :] else f"command {k + 1} had no memory, and left its session changed"


def main(words):
    if len(words) < 2:
        sys.exit(__doc__)
    runs, wrong = 0, 0
    with tempfile.TemporaryDirectory(prefix="lpd-faults-") as room, ThreadPoolExecutor(os.cpu_count()) as pool:
        program = Program(os.path.abspath(words[0]), room)
        for path in words[1:]:
            cases = list(Sweep(program, path, Path(path).read_bytes()).cases())
            for (fault, _), found in zip(cases, pool.map(lambda case: case[1](), cases)):
                runs += 1
                if found:
                    wrong += 1
                    print(f"{path}: {fault}: {found}")
    print(f"{runs} runs under a fault, {wrong} wrong")
    return 1 if wrong or not runs else 0


if __name__ == "__main__":
    if {"--help", "-h"} & {*sys.argv[1:]}:
        print(__doc__.strip())
        sys.exit(0)
    sys.exit(main(sys.argv[1:]))
