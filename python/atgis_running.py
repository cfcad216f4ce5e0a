"""Has parts of files asked by an executor, in order and again where that failed, and keeps what was answered.

An executor is whatever has the `submit` of `concurrent.futures.Executor`. The standard library alone, Python 3.9 or
later.
"""
from __future__ import annotations

import json
import os
import sys
import time
from collections import deque
from typing import Any, Deque, Dict, Iterable, List, Optional, Set, Union

import atgis
from atgis_asking import Task, Told, ask
from atgis_parts import LIMIT, CannotCut

__all__ = ["Journal", "JournalError", "PartFailed", "Progress", "Runner"]

AHEAD = 1024                      # so many tasks wait at the executor at once
IS_TOLD, IS_LAST = (0, 1), (0, 1, 2, 6)
HEADER = {"journal of": "atgis-many", "version": 1}
SHOWN_EVERY = 0.1


class PartFailed(Exception):
    """A part got no answer though it was tried again, as where the program ends by a signal: a line and a status."""

    status = 8


class JournalError(Exception):
    """A journal can't be used: why, by a line."""


class Progress:
    """A line on a terminal that tells how much is done; nothing where the error output is none."""

    def __init__(self, is_shown: Optional[bool] = None) -> None:
        self.total = self.done = 0
        self.began, self.shown = time.monotonic(), 0.0
        self.is_shown = sys.stderr is not None and sys.stderr.isatty() if is_shown is None else is_shown

    def step(self, size: int) -> None:
        """Counts what was done."""
        self.done += size
        now = time.monotonic()
        if self.is_shown and now - self.shown > SHOWN_EVERY:
            self.shown = now
            share, taken = min(self.done / max(self.total, 1), 1), max(now - self.began, 1e-6)
            left = taken / max(share, 1e-9) - taken
            print(f"\r[{'#' * int(30 * share):30}] {100 * share:3.0f} % {self.done / taken / 1e6:6.0f} MB/s, "
                  f"{left:.0f} s left \x1b[K", end="", file=sys.stderr, flush=True)

    def clear(self) -> None:
        """Takes the line away."""
        if self.is_shown and self.shown:
            print("\r\x1b[K", end="", file=sys.stderr, flush=True)


class Journal:
    """Answers of parts that are kept in a file, so that a run that was ended goes on where it was.

    An answer is found again where the question, the bytes of the part and the file's size and time of change are the
    same. One process at a time may use a journal.
    """

    def __init__(self, path: Union[None, str, "os.PathLike[str]"]) -> None:
        self.known: Dict[str, List[Any]] = {}
        self.file: Any = None
        if path is None:
            return
        try:
            self.file = open(path, "a+", encoding="utf-8", errors="surrogateescape")
        except OSError as error:
            raise JournalError(f"{os.fspath(path)}: the journal can't be opened: {error.strerror}") from error
        self.lock(path)
        self.file.seek(0)
        end = 0
        for number, line in enumerate(self.file):
            if not line.endswith("\n"):                     # a run was ended while it wrote
                break
            self.read(path, number, line)
            end += len(line.encode("utf-8", "surrogateescape"))
        self.file.truncate(end)
        if end == 0:
            self.write(HEADER)

    def lock(self, path: Any) -> None:
        """Keeps others away from the journal, where the system can do that."""
        try:
            import fcntl
            fcntl.flock(self.file.fileno(), fcntl.LOCK_EX | fcntl.LOCK_NB)
        except ImportError:
            pass
        except OSError as error:
            raise JournalError(f"{os.fspath(path)}: another run uses this journal") from error

    def read(self, path: Any, number: int, line: str) -> None:
        """Takes one line of the journal."""
        try:
            value = json.loads(line)
            if number:
                self.known[value[0]] = value[1:]
        except (ValueError, TypeError, KeyError, IndexError):
            value = None
        if value is None or (number == 0 and value != HEADER):
            raise JournalError(f"{os.fspath(path)}: line {number + 1} is none of a journal of atgis-many")

    def write(self, value: Any) -> None:
        """Adds a line to the journal."""
        self.file.write(json.dumps(value) + "\n")
        self.file.flush()

    @staticmethod
    def key(task: Task) -> str:
        """What an answer depends on."""
        stamps = [[found.st_size, found.st_mtime_ns] for found in (os.stat(part.file) for part in task.parts)]
        parts = [[os.path.abspath(part.file), *part[1:4], part.before.hex(), part.after.hex(), *part.head]
                 for part in task.parts]
        return json.dumps([task.query, task.options, task.is_scanned, parts, stamps])

    def get(self, task: Task) -> Optional[Told]:
        """The answer that is known."""
        found = self.known.get(self.key(task)) if self.known else None
        if not found:
            return None
        status, line, text, may_leave = found
        return Told(status, line, text.encode("latin-1"), may_leave)

    def put(self, task: Task, told: Told) -> None:
        """Keeps an answer."""
        if self.file:
            self.write([self.key(task), told.status, told.line, told.text.decode("latin-1"), told.may_leave])

    def close(self) -> None:
        """Lets others use the journal."""
        if self.file:
            self.file.close()


class Runner:
    """Has tasks done by an executor, the planned ones ahead of the one that is waited for."""

    def __init__(self, executor: Any, journal: Journal, progress: Progress, tries: int) -> None:
        self.executor, self.journal, self.progress, self.tries = executor, journal, progress, tries
        self.planned: Deque[Task] = deque()
        self.running: Dict[Task, Any] = {}
        self.begun: Set[Task] = set()
        self.tag, self.count = os.urandom(8).hex(), 0

    def plan(self, tasks: Iterable[Task]) -> None:
        """Adds tasks that will be waited for in this order."""
        for task in tasks:
            self.planned.append(task)
            self.progress.total += task.size()
        self.fill()

    def fill(self) -> None:
        """Hands planned tasks to the executor, as many as may wait there."""
        while self.planned and len(self.running) < AHEAD:
            task = self.planned.popleft()
            if task not in self.begun and not is_too_large(task) and not self.journal.get(task):
                self.submit(task)

    def submit(self, task: Task) -> None:
        """Hands a task to the executor, with names that don't depend on where a worker runs.

        No two calls are equal, since Dask would answer the second by the first.
        """
        self.begun.add(task)
        self.count += 1
        parts = tuple(part._replace(file=os.path.abspath(part.file)) for part in task.parts)
        try:
            self.running[task] = self.executor.submit(ask, task._replace(parts=parts), f"{self.tag}-{self.count}")
        except RuntimeError as error:
            raise PartFailed(f"the executor takes no more work: {error or type(error).__name__}") from error

    def forget(self, task: Task) -> None:
        """Says that a planned task won't be waited for."""
        self.begun.add(task)
        future = self.running.pop(task, None)
        if future:
            future.cancel()

    def told(self, task: Task) -> Told:
        """What the program says of a task. One that a signal, memory, a disk or a machine ended is tried again."""
        if is_too_large(task):
            raise too_large(task)
        told = self.journal.get(task)
        for _ in range(0 if told else self.tries):
            if task not in self.running:
                self.submit(task)
            told = result_of(task, self.running.pop(task))
            self.fill()
            if told.status in IS_LAST:
                break
        if told.status not in IS_TOLD:
            raise failure(task, told)
        if task in self.begun:
            self.journal.put(task, told)
        self.progress.step(task.size())
        return told

    def close(self) -> None:
        """Takes back what waits at the executor."""
        for future in self.running.values():
            future.cancel()
        self.progress.clear()


def result_of(task: Task, future: Any) -> Told:
    """What came of a task, with names as they were given; also where the executor failed."""
    try:
        told = future.result()
    except Exception as error:  # Whatever an executor raises, the task may be tried again.
        return Told(-1, f"{type(error).__name__}: {error}", b"")
    for part in task.parts:
        path = os.path.abspath(part.file)
        if told.line.startswith(f"{path}: "):
            return told._replace(line=part.file + told.line[len(path):])
    return told


def is_too_large(task: Task) -> bool:
    """Whether the program would refuse a part by its size."""
    return any(part.size() > LIMIT for part in task.parts)


def too_large(task: Task) -> CannotCut:
    """That a part can't be asked, and no smaller one can be made of it."""
    part = max(task.parts, key=lambda one: one.size())
    return CannotCut(f"{part.file}: no place to cut it is found within {LIMIT} bytes behind byte {part.begin}")


def failure(task: Task, told: Told) -> Exception:
    """What is raised where a part got no answer."""
    if told.status == 6:
        return too_large(task)
    if told.status in (3, 5):
        return atgis.refusal(told.status, told.line, task.query)
    places = ", ".join(f"{part.file}: bytes {part.begin} to {part.end}" for part in task.parts)
    return PartFailed(f"{places}: {told.line or f'the program ended with status {told.status}'}")
