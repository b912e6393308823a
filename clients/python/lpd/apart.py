"""The result of one model by a process of its own, which may take so many seconds, and have so many bytes: one past either is ended with
the programs that it asks, and so is one whose asker is gone."""
from __future__ import annotations

import contextlib
import os
import pickle
import signal
import subprocess
import sys
import threading
from concurrent.futures import Future, ThreadPoolExecutor, as_completed
from pathlib import Path
from typing import Dict, Iterator, List, Optional, Set

from .batching import FAILED, Result, Task, Work, result_of, result_of_file

PACKAGES = str(Path(__file__).resolve().parents[1])
TRIES = 2  # for a model whose process was ended, and not by its limit of time


class Ended(Exception):
    """The process has ended without a result."""


class TimeOut(Exception):
    """The process was not done in time."""


class Apart:
    """The processes that are under way, which can be ended all at once, and then no further one begins."""

    def __init__(self) -> None:
        self.lock, self.is_over = threading.Lock(), False
        self.processes: Set["subprocess.Popen[bytes]"] = set()

    def begin(self) -> "subprocess.Popen[bytes]":
        """A process in a group of its own, which an interrupt of the terminal does not reach."""
        paths = os.pathsep.join(filter(None, [PACKAGES, os.environ.get("PYTHONPATH")]))
        with self.lock:
            if self.is_over:
                raise Ended
            process = subprocess.Popen(
                [sys.executable, "-m", __name__],
                stdin=subprocess.PIPE,
                stdout=subprocess.PIPE,
                stderr=subprocess.DEVNULL,
                env={**os.environ, "PYTHONPATH": paths},
                start_new_session=True,
            )
            self.processes.add(process)
            return process

    def end(self) -> None:
        with self.lock:
            self.is_over = True
            for process in self.processes:
                end_group(process)

    def once(self, asked: bytes, timeout: Optional[float]) -> bytes:
        """What one process writes that is asked this. Its input stays open until it is done."""
        process, is_late = self.begin(), threading.Event()

        def end() -> None:
            is_late.set()
            end_group(process)

        timer = None if timeout is None else threading.Timer(timeout, end)
        if timer:
            timer.start()
        try:
            written = exchanged(process, asked)
        finally:
            if timer:
                timer.cancel()
            with self.lock:
                self.processes.discard(process)
            end_group(process)
            process.wait()
        if is_late.is_set():
            raise TimeOut
        if not written:
            raise Ended
        return written

    def result_of(self, task: Task, work: Work, data: Optional[bytes] = None) -> Result:
        """What is found of a file, or of its content. A process that was ended is tried once more."""
        asked = pickle.dumps((task, work, data))
        try:
            for _ in range(TRIES):
                with contextlib.suppress(Ended):
                    found: Result = pickle.loads(self.once(asked, work.timeout))
                    return found
        except TimeOut:
            return Result(task.name, answer=FAILED, notes=[f"not done in {work.timeout:g} seconds: --timeout allows more"])
        more = ": --memory allows more" if work.memory is not None else ""
        return Result(task.name, answer=FAILED, notes=[f"its process was ended {TRIES} times{more}"])


def exchanged(process: "subprocess.Popen[bytes]", asked: bytes) -> bytes:
    """What a process writes when it is given this."""
    given, found = process.stdin, process.stdout
    if given is None or found is None:
        return b""
    try:
        with given, found:
            with contextlib.suppress(BrokenPipeError):
                given.write(asked)
                given.flush()
            return found.read()
    except BrokenPipeError:  # of closing what a process was given that has ended
        return b""


def end_group(process: "subprocess.Popen[bytes]") -> None:
    """Ends a process, and the programs that it runs."""
    with contextlib.suppress(ProcessLookupError, PermissionError):
        os.killpg(process.pid, signal.SIGKILL)


def by_processes_apart(tasks: List[Task], work: Work, jobs: int) -> Iterator[Result]:
    """Solves so many models at a time, each in a process of its own, so that one which is ended is the end of no other."""
    apart = Apart()
    with ThreadPoolExecutor(jobs) as pool:
        futures: Dict["Future[Result]", Task] = {pool.submit(apart.result_of, task, work): task for task in tasks}
        try:
            for future in as_completed(futures):
                yield future.result()
        except BaseException:  # an interrupt, or nobody takes the results any more
            for future in futures:
                future.cancel()
            apart.end()
            raise


def result_apart(name: str, path: str, data: bytes, work: Work) -> Result:
    """What is found of a file's content by a process of its own."""
    return Apart().result_of(Task(name, Path(path)), work, data)


# ---- within the process


def end_with_asker() -> None:
    """Ends this process and what it runs, where its input ends."""
    os.read(sys.stdin.fileno(), 1)
    os.killpg(0, signal.SIGKILL)


def limit_memory(memory: Optional[int]) -> None:
    """This process, and each that it begins, may have so many bytes."""
    if memory is not None:
        import resource  # here, since few ask for a limit

        resource.setrlimit(resource.RLIMIT_AS, (memory, memory))


def main() -> int:
    task, work, data = pickle.load(sys.stdin.buffer)
    threading.Thread(target=end_with_asker, daemon=True).start()
    limit_memory(work.memory)
    found = result_of_file(task, work) if data is None else result_of(task.name, str(task.path), data, work)
    sys.stdout.buffer.write(pickle.dumps(found))
    sys.stdout.flush()
    return 0


if __name__ == "__main__":
    sys.exit(main())
