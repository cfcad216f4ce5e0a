"""Asks atgis about parts of files: what a worker of `atgis_many` does, on this machine or on another.

What travels to a worker is the function `ask` with a Task, and what comes back is a Told. So each machine has `atgis`
(or the environment variable ATGIS) and beside it `atgis-part` (or ATGIS_PART), sees the files at the same names, and can
import this module and `atgis_parts`.

The standard library alone, Python 3.9 or later.
"""
from __future__ import annotations

import os
import re
import subprocess
import sys
from typing import List, NamedTuple, Optional, Tuple

from atgis_parts import LIMIT, RS, Part, sentinel_place, with_feature

__all__ = ["Task", "Told", "ask"]

PIPE = 1 << 20
CHUNK = 1 << 17                   # stays in a processor's cache while it is read, changed and written
INNER_RS = b"\x01"                # what becomes of an RS within a line: as little a part of JSON as the RS itself
NO_ANSWER = -1000                 # the status where the program couldn't be run at all
SYNTAX = re.compile(r".*: (?:Syntax|Ended) at ([0-9]+)", re.DOTALL)


class Task(NamedTuple):
    """A question about a part, or about two of a join."""

    query: str
    parts: Tuple[Part, ...]
    options: Tuple[str, ...]
    program: Optional[str] = None
    is_scanned: bool = False      # whether it is also told if the array of features may end in the part

    def size(self) -> int:
        """How many bytes of files it is about."""
        return sum(part.end - part.begin for part in self.parts)


class Told(NamedTuple):
    """What the program said: its status, its line, its answer with offsets in what it got, and whether the array of
    features may end in the part."""

    status: int
    line: str
    text: bytes
    may_leave: bool = False


def ask(task: Task, _attempt: int = 0) -> Told:
    """Runs the program over the parts of a task; the number of the attempt makes two attempts two different calls."""
    program = task.program or os.environ.get("ATGIS") or "atgis"
    try:
        if len(task.parts) == 1:
            return told_of_part(program, task)
        import tempfile  # It takes long to import, and joins alone need it.
        with tempfile.TemporaryDirectory(prefix="atgis-many-") as folder:
            return told_of_two([program, *words_of(task)], task.parts, folder)
    except OSError as error:
        if error.filename in [part.file for part in task.parts]:
            return Told(3, f"{error.filename}: read failed", b"")
        return Told(NO_ANSWER, f"{error.filename or program}: {error.strerror}", b"")


def words_of(task: Task, query: Optional[str] = None) -> List[str]:
    """The words of the program that ask a task's query, or another one, but for the names of files."""
    forms = sorted({part.form for part in task.parts})
    form = ("--form", *forms) if len(forms) == 1 else ()
    return [*task.options, *form, "--", query or task.query]


def filtering(program: str, name: str) -> List[str]:
    """The program that reads files behind a filter of this name."""
    return [os.environ.get("ATGIS_PART") or f"{program}-part", name]


def told_of_part(program: str, task: Task) -> Told:
    """What the program says of one part.

    Items are read behind the filter under which no array is left unseen, unless most parts would be read twice then.
    """
    part, words = task.parts[0], words_of(task)
    if part.has_lines:
        return told_of_one([*filtering(program, "lines"), *words], part)
    if not task.is_scanned:
        return told_of_one([program, *words], part)
    if not part.seems_left:
        told = told_of_one([*filtering(program, "items"), *words], part)
        if not may_be_of_filter(part, told):
            return told
    if can_be_listed(task):
        return told_by_list([program, *words_of(task, "select")], task)
    return told_of_one([program, *words], part)._replace(may_leave=True)


def may_be_of_filter(part: Part, told: Told) -> bool:
    """Whether a fault is one of syntax among the part's own bytes: the filter makes one where the array may end."""
    found = SYNTAX.fullmatch(told.line) if told.status == 1 else None
    return bool(found) and not part.is_in_head(int(found[1])) and not part.is_behind(int(found[1]))


def can_be_listed(task: Task) -> bool:
    """Whether a list of all features answers a question, and there is room for one more feature behind the part."""
    return task.query in ("count", "select") and with_feature(task.parts[0]).size() <= LIMIT


def told_by_list(command: List[str], task: Task) -> Told:
    """The same by a list of the features of a part and of one behind it, which is among them where the part ends there."""
    part = task.parts[0]
    told = told_of_one(command, with_feature(part))
    if told.status:
        return told
    last = b"%d\n" % sentinel_place(part)
    is_listed = told.text[-len(last) - 1:] in (last, b"\n" + last)
    listed = told.text[:-len(last)] if is_listed else told.text
    text = listed if task.query == "select" else b"%d\n" % listed.count(b"\n")
    return told._replace(text=text, may_leave=not is_listed)


def told_of_one(command: List[str], part: Part) -> Told:
    """The same of one part, which is the standard input, so that no name of a file means anything else."""
    if part.is_whole:
        return answer([*command, "@in"], [], os.open(part.file, os.O_RDONLY), ("@in",), (part,))
    end, pipe = wide_pipe()
    return answer([*command, "@in"], [(part, pipe)], end, ("@in",), (part,))


def told_of_two(command: List[str], parts: Tuple[Part, ...], folder: str) -> Told:
    """The same of two parts, which go through pipes whose names tell their forms."""
    names, sent, ends = [], [], []
    for place, part in enumerate(parts):
        names.append(os.path.join(folder, f"{place}.{'wkt' if part.form == 'wkt' else 'json'}"))
        if part.is_whole:
            os.symlink(os.path.abspath(part.file), names[-1])
        else:
            end, pipe = wide_pipe()
            os.symlink(f"/dev/fd/{end}", names[-1])
            sent.append((part, pipe))
            ends.append(end)
    return answer([*command, *names], sent, None, tuple(names), parts, tuple(ends))


def answer(command: List[str], sent: List[Tuple[Part, int]], source: Optional[int], names: Tuple[str, ...],
           parts: Tuple[Part, ...], passed: Tuple[int, ...] = ()) -> Told:
    """Runs a command, sends it the parts, and reads what it writes. All ends of pipes are closed."""
    try:
        run = subprocess.Popen(command, stdin=subprocess.DEVNULL if source is None else source, stdout=subprocess.PIPE,
                               stderr=subprocess.PIPE, pass_fds=passed)
    except OSError:
        for _, pipe in sent:
            os.close(pipe)
        raise
    finally:
        for end in passed if source is None else (source,):
            os.close(end)
    with run:
        problem = None
        for part, pipe in sent:
            problem = send(part, pipe, bool(problem), len(parts) == 1) or problem
        if problem:
            run.kill()
        text, line = run.communicate()
    if problem:
        return Told(3, problem, b"")
    told = line.decode("utf-8", "surrogateescape").rstrip("\n")
    for name, part in zip(names, parts):
        told = part.file + told[len(name):] if told.startswith(f"{name}: ") else told
    return Told(run.returncode, told, text)


def send(part: Part, pipe: int, is_given_up: bool, is_filtered: bool) -> Optional[str]:
    """Writes a part into a pipe, and closes it; what is wrong where the file can't be read so far.

    Lines that no filter turns into records go into the pipe as such.
    """
    copied, before = copy, part.before
    if part.has_lines and not is_filtered:
        copied, before = copy_lines, before.replace(b"\n", RS)
    try:
        if not is_given_up:
            write(pipe, before)
            with open(part.file, "rb") as file:
                copy(file.fileno(), pipe, *part.head)
                copied(file.fileno(), pipe, part.begin, part.end)
            write(pipe, part.after)
    except BrokenPipeError:
        pass                                                # the program has ended, and its status says why
    except OSError:
        return f"{part.file}: read failed"
    finally:
        os.close(pipe)
    return None


def copy(file: int, pipe: int, begin: int, end: int) -> None:
    """Copies bytes of a file into a pipe, without bringing them here where the system can do that."""
    while begin < end:
        if sys.platform == "linux":
            count = os.sendfile(pipe, file, begin, min(1 << 30, end - begin))
        else:
            piece = os.pread(file, min(CHUNK, end - begin), begin)
            write(pipe, piece)
            count = len(piece)
        if count == 0:
            raise OSError("the file has become shorter")
        begin += count


def copy_lines(file: int, pipe: int, begin: int, end: int) -> None:
    """Copies lines into a pipe as records: each line feed becomes an RS, and no line gets any by itself."""
    while begin < end:
        piece = os.pread(file, min(CHUNK, end - begin), begin)
        if not piece:
            raise OSError("the file has become shorter")
        begin += len(piece)
        if RS in piece:
            piece = piece.replace(RS, INNER_RS)
        write(pipe, piece.replace(b"\n", RS))


def write(pipe: int, piece: bytes) -> None:
    """Writes all of a piece."""
    view = memoryview(piece)
    while view:
        view = view[os.write(pipe, view):]


def wide_pipe() -> Tuple[int, int]:
    """The ends of a pipe that holds more than usual, where the system lets it."""
    end, pipe = os.pipe()
    try:
        import fcntl
        fcntl.fcntl(pipe, getattr(fcntl, "F_SETPIPE_SZ", 1031), PIPE)
    except (ImportError, OSError):
        pass
    return end, pipe
