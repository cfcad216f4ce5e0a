"""Makes sure what the parts of a file say, by what atgis tells of them.

A collection is cut at places that look like ends of features. What atgis tells of the parts, from the first to the
last, shows whether they are; where one isn't, the cut is made anew. docs/SCALE.md has why this is exact.

The standard library alone, Python 3.9 or later.
"""
from __future__ import annotations

import re
from typing import Iterator, List, NamedTuple, Optional, Tuple

import atgis
import atgis_parts as parts_of
from atgis_asking import Task, Told
from atgis_parts import LIMIT, CannotCut, Data, Head, Part
from atgis_running import Runner

__all__ = ["Found", "Question", "Settling"]

KINDS = ("NotUtf8", "Syntax", "Ended", "Twin", "Form", "Short", "Ring", "Scale", "Range")
TIERS = (1, 2, 2, 3, 4, 4, 4, 4, 4)
PIECE = 1 << 18                   # so many bytes are asked at once where all faults of a part are looked for


class Question(NamedTuple):
    """What is asked of each part."""

    query: str
    options: Tuple[str, ...]
    program: Optional[str]

    def of(self, part: Part, is_scanned: bool = False) -> Task:
        """The task that asks it."""
        return Task(self.query, (part,), self.options, self.program, is_scanned)


class Found(NamedTuple):
    """A fault: what orders it among others (its tier, its offset in the file, its kind), and its place in the part."""

    tier: int
    offset: int
    number: int
    inner: int

    def fault(self, name: str) -> atgis.Fault:
        """What is raised for it."""
        kind = KINDS[self.number]
        return atgis.Fault(f"{name}: {kind} at {self.offset}", 1, name, kind, self.offset)


def found_in(part: Part, told: Told) -> Optional[Found]:
    """The fault that the program tells of a part."""
    if told.status == 0:
        return None
    kind, offset = re.fullmatch(r".*: (\w+) at (\d+)", told.line, re.DOTALL).groups()
    number = KINDS.index(kind)
    return Found(TIERS[number], part.place(int(offset)), number, int(offset))


class Settling:
    """The parts of a file under one question. Iterating gives those that are sure, in order, and raises the file's
    first fault at the end."""

    def __init__(self, runner: Runner, name: str, parts: List[Part], question: Question) -> None:
        self.runner, self.name, self.parts, self.question = runner, name, parts, question
        self.first: Optional[Found] = None
        self.faulty: List[Tuple[Part, Found]] = []
        self.is_cut = bool(parts[-1].head[1])

    def tasks(self) -> List[Task]:
        """What is asked of the parts at first."""
        return [self.question.of(part, self.is_cut and bool(part.after)) for part in self.parts]

    def __iter__(self) -> Iterator[Tuple[Part, Told]]:
        yield from self.collection() if self.is_cut else self.records()
        if self.first:
            raise self.first.fault(self.name)

    def ask(self, part: Part) -> Tuple[Told, Optional[Found]]:
        """What the program says of a part, and the fault in it."""
        told = self.runner.told(self.question.of(part, self.is_cut and bool(part.after)))
        return told, found_in(part, told)

    def note(self, part: Part, found: Found) -> None:
        """Keeps a fault. Behind one that leaves no JSON value whole, none but that of the bytes themselves is sure."""
        if not self.is_cut or not self.first or self.first.tier > 2 or found.tier == 1:
            self.faulty.append((part, found))
        self.first = min(found, self.first or found)

    def records(self) -> Iterator[Tuple[Part, Told]]:
        """The same of parts each of which stands for itself."""
        for part in self.parts:
            told, found = self.ask(part)
            if found:
                self.note(part, found)
            elif not self.first:
                yield part, told

    # a collection

    def collection(self) -> Iterator[Tuple[Part, Told]]:
        """The same of a collection that was cut."""
        with open(self.name, "rb") as file:
            data = parts_of.mapped(file)
            head = parts_of.head_of(data)
            if not head or head.first != self.parts[-1].head[1]:
                raise CannotCut(f"{self.name}: the file was changed while it was read")
            self.look_at_head(head)
            if head.has_type:
                yield from self.items(data, head)
                return
            sure = list(self.items(data, head))
            is_json = not self.first or self.first.tier > 2
            if is_json and parts_of.type_behind(data, self.parts[-1].begin) != "FeatureCollection":
                sure = self.whole(len(data))
            yield from sure

    def look_at_head(self, head: Head) -> None:
        """Looks for what is wrong in the file up to its first feature."""
        part = parts_of.alone(self.name, head)
        told = self.runner.told(self.question._replace(query="count").of(part))
        found = found_in(part, told)
        if found and found.tier < 3 and not part.is_behind(found.inner):
            self.note(part, found)

    def whole(self, size: int) -> List[Tuple[Part, Told]]:
        """The same of a file that turns out to be no collection."""
        if size > LIMIT:
            raise CannotCut(f"{self.name}: it has more than {LIMIT} bytes, and its `type` isn't FeatureCollection")
        self.first, self.faulty, self.is_cut = None, [], False
        self.parts = [Part(self.name, 0, size, "geojson", is_whole=True)]
        return list(self.records())

    def items(self, data: Data, head: Head) -> Iterator[Tuple[Part, Told]]:
        """The parts of a collection from the first to the last, of which each begins rightly where it is looked at."""
        place = 0
        while place < len(self.parts):
            part = self.parts[place]
            told, found = self.ask(part)
            is_json = not self.first or self.first.tier > 2
            if is_json and part.after and self.has_left(data, part, told, found):
                self.replace(place, [parts_of.last(self.name, head, part.begin, len(data))])
                continue
            if is_json and found and found.tier == 2 and part.is_behind(found.inner):
                self.replace(place, self.cut_anew(data, head, place))
                continue
            if found:
                self.note(part, found)
            elif not self.first:
                yield part, told
            place += 1

    def replace(self, place: int, parts: List[Part]) -> None:
        """Puts other parts in the place of those from here on."""
        kept = set(parts)
        for part in self.parts[place:]:
            if part not in kept:
                self.runner.forget(self.question.of(part, bool(part.after)))
        self.parts[place:] = parts

    def has_left(self, data: Data, part: Part, told: Told, found: Optional[Found]) -> bool:
        """Whether the array of features ends within a part that isn't the last one, though its JSON is right."""
        if found and (found.tier < 3 or part.is_behind(found.inner)):
            return found.tier == 3
        if found:
            return parts_of.has_end(data, part)
        if not told.may_leave:
            return False
        other = parts_of.with_sentinel(part)
        said = found_in(other, self.runner.told(self.question._replace(query="count").of(other)))
        return said is None or (KINDS[said.number], said.inner) != ("Form", parts_of.sentinel_place(part))

    def cut_anew(self, data: Data, head: Head, place: int) -> List[Part]:
        """The parts from here on with another end of the first: that of the feature in which its last byte stands."""
        part = self.parts[place]
        found = parts_of.next_cut(data, part.begin, part.end + 1)
        if not found:
            return [parts_of.last(self.name, head, part.begin, len(data))]
        end, begin = found
        rest = [one for one in self.parts[place + 1:] if one.end > begin]
        first = part._replace(end=end)
        if len(rest) > 1:
            return [first, parts_of.inner(self.name, begin, rest[0].end, part.seems_left), *rest[1:]]
        return [first, parts_of.last(self.name, head, begin, len(data))]

    # all faults

    def all_faults(self) -> List[atgis.Fault]:
        """All faults of the file, one of each line, record or feature, in order."""
        for _ in self.collection() if self.is_cut else self.records():
            pass
        with open(self.name, "rb") as file:
            data = parts_of.mapped(file)
            found = {one for part, first in self.faulty for one in [first, *self.looked_for(data, part, first)]}
        return [one.fault(self.name) for one in sorted(found, key=lambda one: (one.offset, one.number))]

    def looked_for(self, data: Data, part: Part, first: Found) -> Iterator[Found]:
        """All faults of a part, of which one is known.

        In a collection nothing is asked behind a fault of its JSON, since nobody can say where the next feature begins.
        """
        pieces = [part] if part.form != "geojson" or first.tier > 2 else self.before(data, part, first)
        waiting = [piece for one in pieces for piece in parts_of.pieces(one, data, PIECE)]
        self.runner.plan(self.question.of(piece) for piece in waiting)
        while waiting:
            piece = waiting.pop()
            found = found_in(piece, self.runner.told(self.question.of(piece)))
            if found:
                waiting += parts_of.around_fault(piece, data, found.offset)
                yield found

    def before(self, data: Data, part: Part, first: Found) -> List[Part]:
        """What stands in a part of a collection before a fault of its JSON, as far as that is right."""
        if first.tier == 1:
            return []
        return [one for one in parts_of.around_fault(part, data, first.offset) if one.end <= first.offset]
