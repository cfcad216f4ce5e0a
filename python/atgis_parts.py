"""Cuts files of GeoJSON, text sequences, GeoJSON lines and Well-Known Text into parts that atgis can read.

`cut` gives the parts of a file. No more of the file is read for that than its head and what stands at the cuts, so the
cuts of a FeatureCollection are guesses: places that look like the end of one feature and the begin of the next.
docs/SCALE.md says how what atgis tells of the parts shows whether they are. Nothing here asks atgis.

The standard library alone, Python 3.9 or later. `atgis_many` has what is asked.
"""
from __future__ import annotations

import json
import mmap
import os
import re
import stat
from functools import lru_cache
from typing import Any, Iterator, List, NamedTuple, Optional, Tuple, Union

__all__ = [
    "CannotCut", "Head", "LIMIT", "PART", "Part", "alone", "around_fault", "as_record", "cut", "form_of", "head_of",
    "has_end", "inner", "last", "mapped", "next_cut", "pieces", "sentinel_place", "type_behind", "value_end",
    "with_feature", "with_sentinel",
]

LIMIT = 268_435_456
PART = 64 << 20
FRONT_SIZE = 1 << 16
LEAST = 16 << 20                  # no part is smaller for being one of the last
MARK = b"\xef\xbb\xbf"
FRAME = (b'{"type":"FeatureCollection","features":[', b"]}")
RS = b"\x1e"
ENDS_OF_LINES = (".geojsonl", ".geojsonseq", ".geojsons", ".ndjson", ".ndgeojson", ".jsonl", ".nljson")
PACKED = {b"\x1f\x8b": ("gzip", "gzip -dk"), b"\x28\xb5\x2f\xfd": ("zstd", "zstd -d"), b"BZh": ("bzip2", "bzip2 -dk"),
          b"\xfd7zXZ": ("xz", "xz -dk"), b"PK\x03\x04": ("zip", "unzip")}
WHAT = {"geojson": "a feature", "seq": "a record", "lines": "a line", "wkt": "a line"}
STRING = rb'"[^"\\]*(?:\\.[^"\\]*)*"'
SPACE = rb"[ \t\r\n]*"

Name = Union[str, "os.PathLike[str]"]
Data = Union[bytes, mmap.mmap]


class CannotCut(Exception):
    """A file can't be cut, or a part of it is too large for one run: why, by a line."""


class Part(NamedTuple):
    """A piece of a file, and what is put round it for the program.

    The program reads `before`, the bytes of the file's own head, the bytes from `begin` to `end`, and `after`.
    """

    file: str
    begin: int
    end: int
    form: str
    before: bytes = b""
    after: bytes = b""
    head: Tuple[int, int] = (0, 0)
    has_lines: bool = False   # the form is a sequence that is made of lines: each line feed becomes an RS
    is_whole: bool = False    # the program reads the file itself
    seems_left: bool = False  # the file's first features have what looks as if the array of features ended there

    def front(self) -> int:
        """How many bytes the program gets before those from `begin` on."""
        return len(self.before) + self.head[1] - self.head[0]

    def size(self) -> int:
        """How many bytes the program gets."""
        return self.front() + self.end - self.begin + len(self.after)

    def place(self, offset: int) -> int:
        """The offset in the file of one in what the program gets."""
        inner_offset = offset - self.front()
        if inner_offset < 0 and self.head[1]:
            return max(self.head[0] + offset - len(self.before), 0)
        return max(self.begin + inner_offset, 0)

    def is_in_head(self, offset: int) -> bool:
        """Whether an offset in what the program gets is before the bytes from `begin` on."""
        return offset < self.front()

    def is_behind(self, offset: int) -> bool:
        """Whether an offset in what the program gets is behind the bytes of the file, in what was put there."""
        return bool(self.after) and offset >= self.front() + self.end - self.begin


class Sizes(NamedTuple):
    """How many bytes parts have: so many at most, and where less and less is left a fourth of that, but no less."""

    most: int
    least: int

    def of(self, left: int) -> int:
        """How many the next part has."""
        return min(self.most, max(left // 4, self.least))


class Head(NamedTuple):
    """The front of a collection up to its first feature, and whether its `type` is there."""

    first: int
    has_type: bool

    def back(self) -> bytes:
        """What makes it a collection without features."""
        return b"]}" if self.has_type else b'],"type":"FeatureCollection"}'


SPACES = re.compile(SPACE)
TEXT = re.compile(STRING, re.DOTALL)
PLAIN = re.compile(rb'[^][{}",: \t\r\n]+')
BRACKET = re.compile(rb'[^]{}["]*(?:' + STRING + rb'[^]{}["]*)*([]{}[])', re.DOTALL)
FIRST_MEMBER = re.compile(rb"\{" + SPACE + b"(" + STRING + b")" + SPACE + b":" + SPACE + b"(" + STRING + b")?",
                          re.DOTALL)
ANY_SEPARATOR = re.compile(rb"\}" + SPACE + b"," + SPACE + rb"(?=\{)")
LEAVING = re.compile(rb"\}" + SPACE + rb"\]" + SPACE + b"," + SPACE + b'"')
LEAVING_ANY = re.compile(rb"\]" + SPACE + b"," + SPACE + b'"')


# ---- files and their forms -------------------------------------------------------------------------------------------

def mapped(file: Any) -> Data:
    """The bytes of an open file, mapped; those of an empty one can't be."""
    return mmap.mmap(file.fileno(), 0, access=mmap.ACCESS_READ) if os.fstat(file.fileno()).st_size else b""


def front_of(name: str) -> bytes:
    """The first bytes of a file, which has to be one that can be cut."""
    with open(name, "rb") as file:
        if not stat.S_ISREG(os.fstat(file.fileno()).st_mode):
            raise CannotCut(f"{name}: it is no regular file, so it can't be cut; save it as one, or send it to atgis")
        front = file.read(FRONT_SIZE)
    for begin, (packing, command) in PACKED.items():
        if front.startswith(begin):
            raise CannotCut(f"{name}: it is packed by {packing}, so it can't be cut; unpack it first, as by "
                            f"`{command}`")
    return front


def form_of(path: Name) -> str:
    """The form of a file by its name and its first bytes: wkt, seq, lines or geojson."""
    name = os.fspath(path)
    if name.endswith(".wkt"):
        return "wkt"
    front = front_of(name).removeprefix(MARK).lstrip(b" \t\r\n")
    if front.startswith(RS):
        return "seq"
    return "lines" if name.endswith(ENDS_OF_LINES) or are_lines(front) else "geojson"


def are_lines(front: bytes) -> bool:
    """Whether a file begins with a whole Feature or geometry on a line, and an object on the next."""
    line, _, rest = front.partition(b"\n")
    if rest.lstrip()[:1] != b"{":
        return False
    try:
        kind = json.loads(line).get("type")
    except (ValueError, AttributeError):
        return False
    return isinstance(kind, str) and kind != "FeatureCollection"


# ---- cutting ---------------------------------------------------------------------------------------------------------

def cut(path: Name, form: Optional[str] = None, size: int = PART, is_last: bool = False) -> List[Part]:
    """The parts of a file, in order, each of about so many bytes.

    The last parts of the last file that is asked are smaller, so that no processor has much to do when all others are
    done.
    """
    name = os.fspath(path)
    front_of(name)
    form = form or form_of(name)
    size = max(1, min(size, LIMIT // 2))
    with open(name, "rb") as file:
        total = os.fstat(file.fileno()).st_size
        if form != "lines" and total <= size:
            return [Part(name, 0, total, form, is_whole=True)]
        if total == 0:
            return [Part(name, 0, 0, "seq")]
        data = mapped(file)
        sizes = Sizes(size, LEAST if is_last else size)
        parts = cut_collection(name, data, sizes) if form == "geojson" else cut_records(name, data, form, sizes)
    for part in parts:
        if part.size() > LIMIT and form != "geojson":
            raise CannotCut(f"{name}: {WHAT[form]} at byte {part.begin} makes a part of more than {LIMIT} bytes")
    return parts


def cut_records(name: str, data: Data, form: str, sizes: Sizes, begin: int = 0, end: Optional[int] = None
                ) -> List[Part]:
    """Parts of lines, or of records, which begin behind a line feed or with an RS."""
    mark, width = (RS, 0) if form == "seq" else (b"\n", 1)
    end = len(data) if end is None else end
    begins = [begin]
    while begins[-1] + (size := sizes.of(end - begins[-1])) < end:
        found = data.find(mark, begins[-1] + size - width, end)
        if found < 0 or found + width >= end:
            break
        begins.append(found + width)
    return [record_part(name, data, form, one, other) for one, other in zip(begins, begins[1:] + [end])]


def record_part(name: str, data: Data, form: str, begin: int, end: int) -> Part:
    """A part of lines or records. A mark is skipped at the file's begin alone, so elsewhere something is before it."""
    is_marked = data[begin:begin + len(MARK)] == MARK and end - begin >= len(MARK)
    if form != "lines":
        return Part(name, begin, end, form, b"\n" if is_marked and begin else b"")
    if is_marked and begin == 0:
        return Part(name, len(MARK), end, "seq", MARK + b"\n", has_lines=True)
    return Part(name, begin, end, "seq", b"\n", has_lines=True)


def cut_collection(name: str, data: Data, sizes: Sizes) -> List[Part]:
    """Parts of a collection, at places that look like ends of features."""
    head = head_of(data)
    separator = separator_of(data, head.first) if head else None
    if not head or not separator:
        if len(data) > LIMIT:
            raise CannotCut(f"{name}: it has more than {LIMIT} bytes, and no FeatureCollection is seen at its begin")
        return [Part(name, 0, len(data), "geojson", is_whole=True)]
    parts, begin = [], head.first
    seems_left = bool(LEAVING.search(data, head.first, head.first + FRONT_SIZE))
    while begin + (size := sizes.of(len(data) - begin)) < len(data):
        found = separator.search(data, begin + size, begin + 2 * size) or ANY_SEPARATOR.search(data, begin + size)
        if not found:
            break
        parts.append(inner(name, begin, found.start() + 1, seems_left))
        begin = found.end()
    if not parts:
        return [Part(name, 0, len(data), "geojson", is_whole=True)]
    return [*parts, last(name, head, begin, len(data))]


def separator_of(data: Data, first: int) -> Optional["re.Pattern[bytes]"]:
    """What stands between two features, as guessed by how the first one begins; None where no object does."""
    found = FIRST_MEMBER.match(data, first, first + FRONT_SIZE)
    if not found:
        return ANY_SEPARATOR if data[first:first + 1] == b"{" else None
    value = re.escape(found.group(2)) if found.group(1) == b'"type"' and found.group(2) else b""
    return re.compile(rb"\}" + SPACE + b"," + SPACE + rb"(?=\{" + SPACE + re.escape(found.group(1)) + SPACE + b":"
                      + SPACE + value + b")")


def inner(name: str, begin: int, end: int, seems_left: bool = False) -> Part:
    """A part of a collection that isn't the last one, with a collection of its own round it."""
    return Part(name, begin, end, "geojson", *FRAME, seems_left=seems_left)


def last(name: str, head: Head, begin: int, end: int) -> Part:
    """The last part, which goes on to the file's end and has the file's own head before it."""
    return Part(name, begin, end, "geojson", head=(0, head.first))


def alone(name: str, head: Head) -> Part:
    """The head of a collection by itself, as one without features."""
    return Part(name, 0, head.first, "geojson", after=head.back())


# ---- parts that ask something else -----------------------------------------------------------------------------------

def with_sentinel(part: Part) -> Part:
    """The part with an item behind it that is no feature, which is a fault where it is among the features."""
    return part._replace(after=b",0" + part.after)


def with_feature(part: Part) -> Part:
    """The part with a feature behind it, which the program lists where it is among the features."""
    return part._replace(after=b',{"type":"Feature"}' + part.after)


def sentinel_place(part: Part) -> int:
    """Where either of these items stands in what the program gets."""
    return part.front() + part.end - part.begin + 1


def as_record(part: Part) -> Part:
    """A part of GeoJSON as a record of a text sequence, in which no mark may stand."""
    if part.form != "geojson":
        return part
    with open(part.file, "rb") as file:
        mark = len(MARK) if file.read(len(MARK)) == MARK else 0
    if part.head[1]:
        return part._replace(form="seq", before=RS, head=(mark, part.head[1]))
    begin = mark if part.begin == 0 and not part.before else part.begin
    return part._replace(form="seq", before=RS + part.before, begin=begin, is_whole=False)


# ---- walking over JSON -----------------------------------------------------------------------------------------------

def nested(depth: int) -> bytes:
    """A pattern for an object of at most 1,000 parts in which objects stand at most so deep."""
    text = STRING if depth == 0 else STRING + b"|" + nested(depth - 1)
    return rb'\{[^{}"]*(?:(?:' + text + rb')[^{}"]*){0,1000}\}'


@lru_cache(maxsize=None)
def plain_object() -> "re.Pattern[bytes]":
    """Such an object. Few runs look for one, and it takes long to compile."""
    return re.compile(nested(3), re.DOTALL)


@lru_cache(maxsize=None)
def plain_item() -> "re.Pattern[bytes]":
    """Such an object as an item of an array, with the comma behind it."""
    return re.compile(SPACE + nested(3) + SPACE + b",", re.DOTALL)


def skip_spaces(data: Data, at: int) -> int:
    """The place of the next byte that is no space."""
    return SPACES.match(data, at).end()


def text_of(spelled: bytes) -> Any:
    """What a JSON value says, None where it is none."""
    try:
        return json.loads(spelled, strict=False)
    except (ValueError, RecursionError):
        return None


def members(data: Data, at: int) -> Iterator[Tuple[Any, int, int]]:
    """The members of an object, from a place behind its bracket or a comma on: name, begin and end of the value.

    The end of a value is asked for when the next member is, unless its name is `features`: then there is no next one.
    """
    while True:
        key = TEXT.match(data, skip_spaces(data, at))
        colon = skip_spaces(data, key.end()) if key else 0
        if not key or data[colon:colon + 1] != b":":
            return
        begin, name = skip_spaces(data, colon + 1), text_of(key.group())
        end = begin if name == "features" else value_end(data, begin)
        if end is None:
            return
        yield name, begin, end
        at = skip_spaces(data, end)
        if name == "features" or data[at:at + 1] != b",":
            return
        at += 1


def head_of(data: Data) -> Optional[Head]:
    """Where the features of the file's collection begin; None where it isn't seen to be one."""
    at = skip_spaces(data, len(MARK) if data[:len(MARK)] == MARK else 0)
    has_type = False
    for name, begin, end in members(data, at + 1) if data[at:at + 1] == b"{" else ():
        if name == "features":
            return Head(skip_spaces(data, begin + 1), has_type) if data[begin:begin + 1] == b"[" else None
        if name == "type":
            has_type = text_of(data[begin:end]) == "FeatureCollection"
            if not has_type:
                return None
    return None


def type_behind(data: Data, at: int) -> Any:
    """The `type` of an object that stands behind its array `features`, from an item of that array on."""
    while data[at:at + 1] not in (b"]", b""):
        end = value_end(data, at, len(data))
        at = skip_spaces(data, len(data) if end is None else end)
        if data[at:at + 1] == b",":
            at = skip_spaces(data, at + 1)
    at = skip_spaces(data, at + 1)
    for name, begin, end in members(data, at + 1) if data[at:at + 1] == b"," else ():
        if name == "type":
            return text_of(data[begin:end])
    return None


def value_end(data: Data, at: int, limit: int = LIMIT) -> Optional[int]:
    """Where the value that begins here ends; the text is taken to be JSON."""
    first = data[at:at + 1]
    if first not in (b"{", b"["):
        found = (TEXT if first == b'"' else PLAIN).match(data, at)
        return found.end() if found else None
    found = plain_object().match(data, at) if first == b"{" else None
    if found:
        return found.end()
    begin, depth = at, 0
    while depth or at == begin:
        found = BRACKET.match(data, at)
        if not found or found.end() - begin > limit:
            return None
        depth += 1 if found.group(1) in b"{[" else -1
        at = found.end()
    return at


def item_end(data: Data, at: int) -> Tuple[int, Optional[int]]:
    """Where the item of an array that begins here ends, and where the next one begins, None where none does."""
    end = value_end(data, at, len(data))
    end = len(data) if end is None else end
    comma = skip_spaces(data, end)
    return end, skip_spaces(data, comma + 1) if data[comma:comma + 1] == b"," else None


def next_cut(data: Data, begin: int, least: int) -> Optional[Tuple[int, int]]:
    """The first end of a feature that is no less, and where the next one begins, from a begin that is right."""
    at, plain = begin, plain_item()
    while True:
        found = plain.match(data, at)
        while found and found.end() < least:                # passes over plain features several times faster
            at = found.end()
            found = plain.match(data, at)
        end, following = item_end(data, skip_spaces(data, at))
        if following is None:
            return None
        if end >= least and data[end - 1:end] == b"}" and data[following:following + 1] == b"{":
            return end, following
        at = following


def has_end(data: Data, part: Part) -> bool:
    """Whether the array in which a part begins ends in it, by walking over its items; its JSON has to be right."""
    if not LEAVING_ANY.search(data, part.begin, part.end):
        return False
    at: Optional[int] = part.begin
    while at is not None:
        end, at = item_end(data, at)
        if end >= part.end:
            return False
    return True


# ---- parts with faults -----------------------------------------------------------------------------------------------

def pieces(part: Part, data: Data, size: int) -> List[Part]:
    """A part whose JSON is right, or of lines or records, in pieces of about so many bytes."""
    if part.form == "geojson":
        head = head_of(data)
        return collection_pieces(part, data, head, size) if head else [part]
    form = "lines" if part.has_lines else part.form
    return cut_records(part.file, data, form, Sizes(size, size), begin_of(part), part.end)


def begin_of(part: Part) -> int:
    """Where a part begins, a mark at the file's begin included."""
    return 0 if part.before.startswith(MARK) else part.begin


def collection_pieces(part: Part, data: Data, head: Head, size: int) -> List[Part]:
    """The same of a part of a collection, by walking over its features."""
    found, begin = [], max(part.begin, head.first)
    while begin + size < part.end:
        here = next_cut(data, begin, begin + size)
        if not here or here[1] >= part.end:
            break
        found.append(inner(part.file, begin, here[0]))
        begin = here[1]
    is_last = not part.after
    return [*found, last(part.file, head, begin, part.end) if is_last else inner(part.file, begin, part.end)]


def around_fault(part: Part, data: Data, offset: int) -> List[Part]:
    """What stands in a part before and behind the line, record or feature that has a fault at this offset."""
    if part.form == "geojson":
        return around_feature(part, data, offset)
    form = "lines" if part.has_lines else part.form
    mark, width = (RS, 0) if form == "seq" else (b"\n", 1)
    first = begin_of(part)
    begin = max(data.rfind(mark, first, offset) + width, first)
    end = data.find(mark, offset, part.end)                     # a record that ends too early has its fault there
    end = part.end if end < 0 else end + width
    return [record_part(part.file, data, form, one, other) for one, other in ((first, begin), (end, part.end))
            if one < other]


def around_feature(part: Part, data: Data, offset: int) -> List[Part]:
    """The same in a collection, whose JSON is right: the features alone where the fault is in none of them."""
    head = head_of(data)
    if not head or part.end <= head.first or data[head.first:head.first + 1] != b"{":
        return []
    start = max(part.begin, head.first)
    before, at = start, start
    while at is not None and at < part.end:
        end, following = item_end(data, at)
        if at <= offset < end:
            ahead = [inner(part.file, start, before)] if start < before else []
            if following is None or following >= part.end:
                return ahead
            is_last = not part.after
            rest = last(part.file, head, following, part.end) if is_last else inner(part.file, following, part.end)
            return [*ahead, rest]
        before, at = end, following
    return [inner(part.file, start, before)] if start < before and (before < part.end or not part.after) else []
