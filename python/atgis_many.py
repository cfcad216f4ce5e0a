"""Asks atgis questions over data of any size and number of files, on as many processors or machines as there are.

    import atgis_many

    trees = atgis_many.Dataset("trees.geojson")              one file of any size, or a list of files
    trees.count('has "kind" = "oak"')                        12345678
    trees.extent()                                           Extent(min_x=Decimal('5.8663153'), ..)
    for place in trees.select("meets box(9 47,10 48)"):      Place(file='trees.geojson', offset=5368709120), ..
    for text in trees.features("meets box(9 47,10 48)"):     the bytes of each of them
    for one, other in trees.join(atgis_many.Dataset("towns.wkt")):

A file is cut into parts, each part goes to `atgis` through a pipe, and the answers are put together. They are those of
`atgis` over the whole file, if it had no limit, and so are the faults, which are raised as `atgis.Fault`. The forms are
those of atgis, and `lines`: a GeoJSON text on each line. These options stand behind the files, by name:

    form       "geojson", "wkt", "seq" or "lines"; without it the name and the first bytes of each file tell it
    executor   anything with the `submit` of concurrent.futures, as of Dask or MPI; without it threads of this machine
    jobs       how many of these threads, each of which runs the program; one more than there are processors, since
               some run begins or ends at any time
    journal    the path of a file that keeps the answers of parts, so that a run that was ended goes on where it was
    part_size  how many bytes a part has, at about; 64 MiB
    coords, digits, program   as those of the module atgis
    progress   True or False: whether a line on the error output tells how much is done; on a terminal alone

docs/SCALE.md says how files are cut, why that is exact, and how to use many machines. The standard library alone,
Python 3.9 or later.
"""
from __future__ import annotations

import heapq
import os
import re
import subprocess
from concurrent.futures import ThreadPoolExecutor
from contextlib import contextmanager
from decimal import Decimal
from itertools import groupby
from typing import Any, Dict, Iterable, Iterator, List, NamedTuple, Optional, Sequence, Tuple, Union

import atgis
from atgis import Extent
from atgis_asking import Task, Told
from atgis_parts import LIMIT, PART, CannotCut, Data, Name, Part, as_record, cut, mapped, value_end
from atgis_running import Journal, JournalError, PartFailed, Progress, Runner
from atgis_settling import Question, Settling

__all__ = ["CannotCut", "Dataset", "JournalError", "MODULES", "PART", "PartFailed", "Place", "features_of"]

HERE = os.path.dirname(os.path.abspath(__file__))
MODULES = tuple(os.path.join(HERE, f"{name}.py") for name in ("atgis_parts", "atgis_asking"))
OPTIONS = ("coords", "digits")
WORD = re.compile(rb"[0-9]+")


class Place(NamedTuple):
    """Where a feature begins."""

    file: str
    offset: int


class Dataset:
    """One file or many, of any size, in any of the forms."""

    def __init__(self, files: Union[Name, Iterable[Name]], form: Optional[str] = None, *, executor: Any = None,
                 jobs: Optional[int] = None, journal: Optional[Name] = None, part_size: int = PART,
                 program: Optional[Name] = None, progress: Optional[bool] = None, tries: int = 3,
                 **options: Any) -> None:
        unknown = set(options) - set(OPTIONS)
        if unknown:
            raise TypeError(f"Dataset() has no option {', '.join(sorted(unknown))}")
        if form not in (None, "geojson", "wkt", "seq", "lines"):
            raise ValueError(f"there is no form {form!r}")
        self.files = [os.fspath(files)] if isinstance(files, (str, os.PathLike)) else list(map(os.fspath, files))
        self.form, self.part_size, self.journal, self.progress = form, part_size, journal, progress
        self.executor, self.jobs, self.tries = executor, jobs or processors() + 1, tries
        self.program = None if program is None else os.fspath(program)
        self.options = ("--workers=1", *(f"--{name}={options[name]}" for name in OPTIONS if options.get(name)))

    # questions

    def count(self, where: atgis.Tests = None) -> int:
        """How many features the tests hold of."""
        return sum(int(told.text) for _, told in self.told("count", where))

    def area(self, where: atgis.Tests = None) -> int:
        """Twice the area of all polygons, exactly, in squares of a unit, as `atgis.area` gives it."""
        return sum(int(told.text) for _, told in self.told("area", where))

    def extent(self, where: atgis.Tests = None) -> Optional[Extent]:
        """The extent of all positions, None where there is none."""
        return joint_extent(extent_of(told.text) for _, told in self.told("extent", where))

    def hull(self, where: atgis.Tests = None) -> List[Tuple[Decimal, Decimal]]:
        """The corners of the convex hull, which the program makes of the corners of the parts' hulls."""
        return self.joint_hull(told.text for _, told in self.told("hull", where))

    def select(self, where: atgis.Tests = None) -> Iterator[Place]:
        """Where each feature begins that the tests hold of, file by file, as they are found.

        A fault is raised behind places that stand before it in the file; a list of them all has all or nothing.
        """
        return (Place(part.file, part.place(int(line))) for part, told in self.told("select", where)
                for line in told.text.split())

    def features(self, where: atgis.Tests = None) -> Iterator[bytes]:
        """The bytes of each feature that the tests hold of, likewise: a line of Well-Known Text, or GeoJSON."""
        return (text for part, told in self.told("select", where)
                for text in features_of(part, told.text, not where))

    def counts(self, where: atgis.Tests = None) -> Dict[str, int]:
        """How many features of each file the tests hold of."""
        return dict(self.each("count", where))

    def each(self, verb: str, where: atgis.Tests = None) -> Iterator[Tuple[str, Any]]:
        """Each file with its count, area, extent or hull, in order."""
        joined = {"count": lambda texts: sum(map(int, texts)), "area": lambda texts: sum(map(int, texts)),
                  "extent": lambda texts: joint_extent(map(extent_of, texts)), "hull": self.joint_hull}[verb]
        self.check(atgis.query_text(verb, where))
        return self.each_by(verb, where, joined)

    def faults(self) -> Iterator[atgis.Fault]:
        """All faults, file by file and in order: one of each line, record or feature.

        In a collection that is no JSON the first fault of it is told, and none behind it.
        """
        with self.runner() as runner:
            for settling in self.settlings(runner, "count"):
                yield from settling.all_faults()

    def join(self, second: "Dataset", where: atgis.Tests = None) -> Iterator[Tuple[Place, Place]]:
        """The places of each pair of features that meet, in order of the first and then the second.

        The tests are of the features of this data set. Pairs come as the parts of this data set are done; a fault of
        any file is raised before the first of them.
        """
        if self.options != second.options:
            raise ValueError("the two data sets of a join have different coords or digits")
        self.check(atgis.query_text("join", where), 2)
        return self.pairs(second, where)

    def told(self, verb: str, where: atgis.Tests = None) -> Iterator[Tuple[Part, Told]]:
        """The parts in order, each with what the program said; `part.place` makes offsets of it those of the file.

        The first fault of the first file that has one is raised at the end of that file's parts.
        """
        query = atgis.query_text(verb, where)
        self.check(query)
        return self.answers(query)

    def check(self, query: str, files: int = 1) -> None:
        """Raises what is wrong with the query, for so many files, before any file is opened."""
        program = self.program or os.environ.get("ATGIS") or "atgis"
        command = [program, *self.options, "--", query, *["@w:0"] * files]
        try:
            done = subprocess.run(command, stdin=subprocess.DEVNULL, capture_output=True, check=False)
        except OSError as error:
            raise atgis.ProgramError(f"{program}: {error.strerror}", error.errno or 0) from error
        if done.returncode:
            raise atgis.refusal(done.returncode, done.stderr.decode("utf-8", "replace").rstrip("\n"), query)

    # how they are asked

    @contextmanager
    def runner(self) -> Iterator[Runner]:
        """What has the parts asked, by the given executor or by threads that end with it."""
        journal, progress = Journal(self.journal), Progress(self.progress)
        pool = None if self.executor is not None else ThreadPoolExecutor(self.jobs)
        runner = Runner(pool or self.executor, journal, progress, self.tries)
        try:
            yield runner
        finally:
            runner.close()
            if pool:
                pool.shutdown(cancel_futures=True)
            journal.close()

    def settlings(self, runner: Runner, query: str, is_last: bool = True) -> List[Settling]:
        """All files, cut into parts, with a question that is begun to be asked; whether nothing is asked behind it."""
        question = Question(query, self.options, self.program)
        found = [Settling(runner, name, self.cut(name, is_last and place == len(self.files)), question)
                 for place, name in enumerate(self.files, 1)]
        runner.plan(task for settling in found for task in settling.tasks())
        return found

    def cut(self, name: str, is_last: bool) -> List[Part]:
        """The parts of a file, which may be the last one that is asked."""
        if name == "@in" or name[:3] in ("@w:", "@g:"):
            raise CannotCut(f"{name}: it is no file on the disk, so it can't be cut; save it as one, or ask atgis")
        try:
            return cut(name, self.form, self.part_size, is_last)
        except OSError as error:
            raise atgis.ReadError(f"{name}: read failed", 3, name) from error

    def answers(self, query: str) -> Iterator[Tuple[Part, Told]]:
        """The parts of all files in order, each with what the program said."""
        with self.runner() as runner:
            for settling in self.settlings(runner, query):
                yield from settling

    def each_by(self, verb: str, where: atgis.Tests, joined: Any) -> Iterator[Tuple[str, Any]]:
        """Each file with what is made of the answers of its parts."""
        with self.runner() as runner:
            for settling in self.settlings(runner, atgis.query_text(verb, where)):
                yield settling.name, joined([told.text for _, told in settling])

    def joint_hull(self, hulls: Iterable[bytes]) -> List[Tuple[Decimal, Decimal]]:
        """The corners of the hull of some hulls that the program printed."""
        digits = {"digits": word[9:] for word in self.options if word.startswith("--digits=")}
        corners: List[bytes] = []

        def joined() -> List[Tuple[Decimal, Decimal]]:
            return atgis.hull("@in", input=b"".join(corners), form="wkt", program=self.program, workers=1, **digits)
        for text in hulls:
            corners += [b"POINT (" + line + b")\n" for line in text.splitlines() if line != b"empty"]
            if sum(map(len, corners)) > LIMIT // 4:
                corners[:] = [f"POINT ({x:f} {y:f})\n".encode() for x, y in joined()]
        return joined()

    # joins

    def pairs(self, second: "Dataset", where: atgis.Tests) -> Iterator[Tuple[Place, Place]]:
        """What `join` gives."""
        query = atgis.query_text("join", where)
        with self.runner() as runner:
            firsts = self.settlings(runner, atgis.query_text("extent", where), False)
            seconds = second.settlings(runner, "extent", False)
            refuse_forms(part.form for settling in firsts + seconds for part in settling.parts)
            ones, others = ([(part, extent_of(told.text)) for settling in some for part, told in settling]
                            for some in (firsts, seconds))
            tasks = [(one, other, Task(query, tuple(same_forms(one, other)), self.options, self.program))
                     for one, extent in ones for other, other_extent in others if meet(extent, other_extent)]
            runner.plan(task for _, _, task in tasks)
            for one, group in groupby(tasks, key=lambda each: each[0]):
                told = [(other, task, runner.told(task).text) for _, other, task in group]
                yield from merged_pairs(one, second.files, told)


def merged_pairs(one: Part, files: Sequence[str], told: List[Tuple[Part, Task, bytes]]
                 ) -> Iterator[Tuple[Place, Place]]:
    """The pairs of a part with others, in order, of what the program printed of each."""
    def pairs(other: Part, task: Task, text: bytes) -> Iterator[Tuple[int, int, int]]:
        number, numbers = files.index(other.file), (int(word.group()) for word in WORD.finditer(text))
        first, second = task.parts
        return ((first.place(a), number, second.place(b)) for a, b in zip(numbers, numbers))
    for a, number, b in heapq.merge(*(pairs(*each) for each in told)):
        yield Place(one.file, a), Place(files[number], b)


def processors() -> int:
    """How many processors this process may use."""
    return len(os.sched_getaffinity(0)) if hasattr(os, "sched_getaffinity") else os.cpu_count() or 1


def extent_of(text: bytes) -> Optional[Extent]:
    """An extent that the program printed."""
    return None if text == b"empty\n" else Extent(*map(Decimal, text.decode("ascii").split()))


def joint_extent(extents: Iterable[Optional[Extent]]) -> Optional[Extent]:
    """The extent that holds all of them."""
    sides = list(zip(*filter(None, extents)))
    return Extent(min(sides[0]), min(sides[1]), max(sides[2]), max(sides[3])) if sides else None


def meet(one: Optional[Extent], other: Optional[Extent]) -> bool:
    """Whether two extents have a point in common."""
    return bool(one and other and one.min_x <= other.max_x and other.min_x <= one.max_x
                and one.min_y <= other.max_y and other.min_y <= one.max_y)


def refuse_forms(forms: Iterable[str]) -> None:
    """Raises that a join can't be asked: `--form` of the program is of both files, and no name means a sequence."""
    if {"wkt", "seq"} <= set(forms):
        raise CannotCut("join: lines of Well-Known Text can't be joined with a text sequence or with lines of GeoJSON; "
                        "make these a FeatureCollection first, as by `atgis-show --as collection`")


def same_forms(*parts: Part) -> Tuple[Part, ...]:
    """The parts of a join; where one is of a sequence, a part of a collection is made a record of another."""
    return tuple(map(as_record, parts)) if "seq" in {part.form for part in parts} else parts


def features_of(part: Part, wanted: bytes, has_all: bool) -> Iterator[bytes]:
    """The bytes of features of a part, by what the program printed: of all features, or of some."""
    places = [part.place(int(word.group())) for word in WORD.finditer(wanted)]
    with open(part.file, "rb") as file:
        data = mapped(file)
        is_list = has_all and part.form == "geojson"
        for begin, following in zip(places, places[1:] + [part.end if part.after else None]):
            end = feature_end(part, data, begin) if following is None or not is_list else following
            yield data[begin:end].rstrip(b", \t\r\n") if is_list else data[begin:end].removesuffix(b"\r")


def feature_end(part: Part, data: Data, begin: int) -> int:
    """Where a feature ends: the line of Well-Known Text, or the JSON value."""
    if part.form == "wkt":
        end = data.find(b"\n", begin)
        return len(data) if end < 0 else end
    end = value_end(data, begin)
    return part.end if end is None else end
