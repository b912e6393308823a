"""The answers to many models: what is found of each, and the engines that find it, one after the other, by processes, or by Dask."""
from __future__ import annotations

import contextlib
import multiprocessing
import os
import signal
import threading
import time
from collections import Counter
from concurrent.futures import ProcessPoolExecutor, as_completed
from concurrent.futures.process import BrokenProcessPool
from importlib import import_module
from multiprocessing import connection
from pathlib import Path
from typing import Any, Callable, Dict, Iterable, Iterator, List, NamedTuple, Optional, Set, Tuple

from .certifying import Certified, NotAnswered, TooLarge, certify
from .conversion import Options, Question, convert
from .errors import LpdError, Refused
from .exact import OutOfTime
from .model import Model
from .number_text import shown
from .presolving import Size
from .reading import end_of, mps_of_file, name_of
from .records import dataclass, field, replace
from .replies import Optimal
from .ways import Effort, Unanswered, answered

FAILED = "FAILED"


@dataclass(frozen=True)
class Work:
    """What is done with each model: how it is read, how far it is solved, by which solver and way it is certified too; how many bytes a
    process of ours, and each program that it asks, may have, and how many seconds all of it may take."""

    form: Optional[str] = None
    options: Options = Options()
    effort: Effort = Effort()
    certifier: Optional[str] = None
    way: Optional[str] = None
    memory: Optional[int] = None
    timeout: Optional[float] = None

    @property
    def is_limited(self) -> bool:
        """Whether each model needs a process of its own."""
        return self.memory is not None or self.timeout is not None


@dataclass
class Result:
    """What is found of one model. `seconds` are those of all ways to the answer, `certified` is by another solver's basis, and
    `reduced` the size that lpd presolve left."""

    name: str
    rows: Optional[int] = None
    columns: Optional[int] = None
    answer: str = ""
    value: str = ""
    way: str = ""
    accepted_by: str = ""
    pivots: Optional[int] = None
    seconds: float = 0.0
    not_read: int = 0
    certified: Optional[Certified] = None
    certify_seconds: float = 0.0
    notes: List[str] = field(default_factory=list)
    reduced: Optional[Size] = None


def solve_into(result: Result, text: str, model: Model, work: Work) -> None:
    """Solves the model by whichever way there is, and puts down what is found."""
    started = time.monotonic()
    try:
        found = answered(text, model, work.effort)
        result.answer = str(found.answer).split(" ")[0]
        result.value = shown(found.answer.value) if isinstance(found.answer, Optimal) else " ".join(str(found.answer).split(" ")[1:])
        result.way, result.accepted_by, result.pivots = found.way, found.accepted_by, found.pivots
        result.reduced = found.reduced
        result.notes += found.notes
    except (OutOfTime, Unanswered) as none:
        result.answer = "PAST"
        result.notes.append(str(none))
    except Refused as refused:
        result.answer = refused.reply
        result.notes.append(str(refused))
    result.seconds = time.monotonic() - started


def certify_into(result: Result, text: str, model: Model, work: Work) -> None:
    """Certifies the model by another solver's basis, and puts down what is found, but not the certificate and the basis, which may be
    long."""
    started = time.monotonic()
    try:
        found = certify(text, work.certifier or "", work.effort.limit(model), work.way, model)
        result.certified = replace(found, certificate=[], claim=replace(found.claim, basis=None, parts=[]))
    except (NotAnswered, TooLarge, OutOfTime) as failed:
        result.notes.append(str(failed))
    result.certify_seconds = time.monotonic() - started


def result_of(name: str, path: str, data: bytes, work: Work) -> Result:
    """Solves the model of a file's content, and certifies it where that is asked. What goes wrong is told in the result."""
    result = Result(name)
    try:
        wide = convert(mps_of_file(data, path), work.form, replace(work.options, wide=True, large=True))
        result.rows, result.columns = len(wide.model.rows), len(wide.model.columns)
        result.not_read = len(wide.model.skipped)
        if wide.changes:
            result.notes.append(f"converted: {len(wide.changes)} change{'s' if len(wide.changes) > 1 else ''}")
        solve_into(result, wide.text, wide.model, work)
        if work.certifier:
            certify_into(result, wide.text, wide.model, work)
    except Question as question:
        result.answer = "ASKED"
        result.notes.append(question.asked())
    except Refused as refused:
        result.answer = refused.reply
        result.notes.append(str(refused))
    except (LpdError, OSError) as error:
        result.answer = FAILED
        result.notes.append(str(error))
    except MemoryError:
        result.answer = FAILED
        result.notes.append("Python has no memory left")
    return result


class Task(NamedTuple):
    """A file with a model, and the name of the model in a table."""

    name: str
    path: Path


def tasks_of(words: Iterable[str]) -> List[Task]:
    """The files that are named, and those of the folders that are, in the order of their names. A model is named as its file without
    the end that says what it is, or where others are named so with it, or with its folder too."""
    paths: Dict[Path, None] = {}
    for word in map(Path, words):
        paths.update(dict.fromkeys(sorted(path for path in word.iterdir() if end_of(path)) if word.is_dir() else [word]))
    names = {path: name_of(path) for path in paths}
    longer_names: List[Callable[[Path], str]] = [lambda path: path.name, str]
    for longer in longer_names:
        count = Counter(names.values())
        names = {path: longer(path) if count[name] > 1 else name for path, name in names.items()}
    return sorted(Task(name, path) for path, name in names.items())


def result_of_file(task: Task, work: Work) -> Result:
    try:
        return result_of(task.name, str(task.path), task.path.read_bytes(), work)
    except OSError as error:
        return Result(task.name, answer=FAILED, notes=[f"{task.path}: {error.strerror}"])


# ---- engines: each gives the results as they come


def one_by_one(tasks: List[Task], work: Work) -> Iterator[Result]:
    for task in tasks:
        yield result_of_file(task, work)


def begin_worker() -> None:
    """Puts a worker and the programs that it runs into a group of their own, which an interrupt of the terminal does not reach, and
    which ends when the process that began the worker does, however that ends."""
    os.setpgid(0, 0)
    threading.Thread(target=end_with_parent, daemon=True).start()


def end_with_parent() -> None:
    parent = multiprocessing.parent_process()
    if parent is not None:
        connection.wait([parent.sentinel])
        os.killpg(0, signal.SIGKILL)


def end_workers(workers: Iterable[multiprocessing.process.BaseProcess]) -> None:
    """Ends workers at once, with the programs that they run."""
    for worker in workers:
        worker.kill()  # also where it has no group of its own yet
        with contextlib.suppress(ProcessLookupError):
            if worker.pid:
                os.killpg(worker.pid, signal.SIGKILL)


def by_processes(tasks: List[Task], work: Work, jobs: int) -> Iterator[Result]:
    """Solves so many models at a time: where there are limits each in a process of its own, and else by as many processes. Where one of
    these is killed, the models that are left have processes of their own too."""
    from .apart import by_processes_apart

    if not work.is_limited:
        done: Set[Task] = set()
        yield from by_pool(tasks, work, jobs, done)
        tasks = [task for task in tasks if task not in done]
    yield from by_processes_apart(tasks, work, jobs)


def by_pool(tasks: List[Task], work: Work, jobs: int, done: Set[Task]) -> Iterator[Result]:
    """The results of so many processes, which end together where one of them is killed. The models that are done are put down."""
    others = set(multiprocessing.active_children())
    with ProcessPoolExecutor(jobs, initializer=begin_worker) as pool:
        try:
            futures = {pool.submit(result_of_file, task, work): task for task in tasks}
            for future in as_completed(futures):
                if not isinstance(future.exception(), BrokenProcessPool):
                    done.add(futures[future])
                    yield future.result()
        except BaseException:  # an interrupt, or nobody takes the results any more
            end_workers(set(multiprocessing.active_children()) - others)
            raise


def by_dask(tasks: List[Task], work: Work, address: str) -> Iterator[Result]:
    """Gives each model, with its text, to a scheduler of Dask, whose workers run a program lpd of their own; where there are limits each
    in a process of its own. The models of a worker that is lost are given to others by the scheduler."""
    from .apart import result_apart

    try:
        distributed: Any = import_module("distributed")
    except ImportError:
        raise LpdError("--dask needs Dask (Debian's python3-distributed), here and on the workers") from None
    with distributed.Client(address, timeout=30) as client:
        futures: List[Tuple[Any, Task]] = []
        asked = result_apart if work.is_limited else result_of
        for task in tasks:
            data = task.path.read_bytes()
            futures.append((client.submit(asked, task.name, str(task.path), data, work, pure=False), task))
        names = {future.key: task.name for future, task in futures}
        for future in distributed.as_completed([future for future, _ in futures]):
            error = future.exception()
            yield future.result() if error is None else Result(names[future.key], answer=FAILED, notes=[f"Dask: {error}"])
