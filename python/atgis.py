"""Asks atgis questions over GeoJSON and Well-Known Text files.

    import atgis

    atgis.count("towns.geojson")                               3
    atgis.select("towns.geojson", atgis.has("kind", "town"))   [45, 188]
    atgis.extent("lakes.wkt", atgis.meets_box(9, 47, 10, 48))  Extent(min_x=Decimal('9.0000000'), ..)
    atgis.hull("towns.geojson", atgis.has("kind", "town"))     [(Decimal('9.1750000'), Decimal('47.6600000')), ..]
    atgis.square_degrees(atgis.area("lakes.wkt"))              Decimal('0.228500000000000')
    atgis.join("towns.geojson", "lakes.wkt")                   [(45, 0), (338, 57)]
    atgis.features("towns.geojson", [45])                      [{'type': 'Feature', ..}]

Each function runs the program once and reads what it prints. A file is the name of one, `@in` for the standard input,
or the name of a made file such as `@g:1000`. Tests are a query's text behind ` where `, or a list of such texts, all of
which must hold; None and an empty text are no test. These options stand behind them, by name:

    form      "geojson", "wkt" or "seq"; without it the name of each file tells which of the first two
    coords    "round" or "exact": what is done with a coordinate that is no whole multiple of a unit
    digits    7 or 9 decimals
    blocks    1 to 4096
    workers   1 to 64
    feed      1 to 1048576: files are taken in chunks of so many bytes; not with the form "seq"
    input     bytes, or an open binary file, that the program reads under the name `@in`; without it that file is empty
    program   the path of the program; without it the one that the environment variable ATGIS names, or else `atgis` on
              PATH

Coordinates are exact decimals, as the program prints them. Python spells the zero among them `0E-7`, and `f"{x:f}"`
spells it plainly; an Extent does so by itself.

Everything that the program refuses is raised as an AtgisError: Fault, WordsError, QueryError, FilesError, ReadError,
WriteError, OutOfMemory or TooLarge; and as ProgramError where it can't be run. The module needs Python 3.9 or later,
and geopandas for `frame` alone.
"""
from __future__ import annotations

import json
import os
import re
import subprocess
from decimal import Decimal
from typing import Any, Callable, Dict, Iterable, List, NamedTuple, Optional, Sequence, Tuple, Union

__all__ = [
    "AtgisError", "Extent", "Fault", "FileError", "FilesError", "OutOfMemory", "ProgramError", "QueryError",
    "ReadError", "TooLarge", "WordsError", "WriteError", "area", "count", "extent", "features", "frame", "has", "hull",
    "in_box", "join", "meets", "meets_box", "query_text", "refusal", "select", "square_degrees",
]

LIMIT = 268_435_456
DEFAULT_SYSTEM = "OGC:CRS84"
ABSENT = object()
# A string "crs", each of its letters as it is or escaped.
CRS_NAME = re.compile(rb'"(?:c|\\u0063)(?:r|\\u0072)(?:s|\\u0073)"')
SPACES = re.compile(rb"[ \t\r\n]*")
NAMES_OF_OPTIONS = ("form", "coords", "digits", "blocks", "workers", "feed")

Name = Union[str, bytes, "os.PathLike[str]", "os.PathLike[bytes]"]
Number = Union[int, float, Decimal, str]
Tests = Union[None, str, Iterable[str]]


class AtgisError(Exception):
    """What the program says in place of an answer: its status, and the line that it wrote without the line feed."""

    def __init__(self, line: str, status: int) -> None:
        super().__init__(line)
        self.line = line
        self.status = status

    def __reduce__(self) -> Any:
        return _raised_elsewhere, (type(self), self.args, self.__dict__)


class Fault(AtgisError):
    """A file has a fault: its kind (such as `Ring`), its byte offset in the file, and the file's name."""

    def __init__(self, line: str, status: int, file: str, kind: str, offset: int) -> None:
        super().__init__(line, status)
        self.file = file
        self.kind = kind
        self.offset = offset


class WordsError(AtgisError):
    """The words are refused: an option's value, or a file's name that is no UTF-8 or begins with `@g:` or `@w:`."""


class QueryError(AtgisError):
    """The query is refused, at this byte offset in its text."""

    def __init__(self, line: str, status: int, query: str, offset: int) -> None:
        super().__init__(line, status)
        self.query = query
        self.offset = offset

    def __str__(self) -> str:
        return f"{self.line} of {self.query!r}"


class FilesError(AtgisError):
    """There are too many or too few files for the verb."""


class FileError(AtgisError):
    """A file can't be had, by its name."""

    def __init__(self, line: str, status: int, file: str) -> None:
        super().__init__(line, status)
        self.file = file


class ReadError(FileError):
    """A file could not be read: it isn't there, may not be read, or is a folder."""


class TooLarge(FileError):
    """A file has more than 268,435,456 bytes, and is one for `atgis_many`."""


class WriteError(AtgisError):
    """The program could not write its answer."""


class OutOfMemory(AtgisError):
    """There was not enough memory."""


class ProgramError(AtgisError):
    """The program isn't there, can't be started, or ended by a signal (a status below 0) or in no way of its own."""


class Extent(NamedTuple):
    """The least and greatest x and y over all positions; as a text it is the line that the program prints."""

    min_x: Decimal
    min_y: Decimal
    max_x: Decimal
    max_y: Decimal

    def __str__(self) -> str:
        return " ".join(f"{number:f}" for number in self)

    def __repr__(self) -> str:
        spelled = (f"{name}=Decimal('{number:f}')" for name, number in zip(self._fields, self))
        return f"Extent({', '.join(spelled)})"


def select(file: Name, where: Tests = None, **options: Any) -> List[int]:
    """The byte offset in the file at which each feature begins that the tests hold of, in the order of the file."""
    return [int(line) for line in _lines("select", [file], where, options)]


def count(file: Name, where: Tests = None, **options: Any) -> int:
    """How many features the tests hold of."""
    return int(_lines("count", [file], where, options)[0])


def area(file: Name, where: Tests = None, **options: Any) -> int:
    """Twice the area of all polygons, exactly, in squares of a unit.

    Such a square is 10**-14 square degrees at 7 digits, and 10**-18 at 9.
    """
    return int(_lines("area", [file], where, options)[0])


def square_degrees(doubled: int, digits: int = 7) -> Decimal:
    """Half of what `area` gives, exactly, in squares of what coordinates count: square degrees, or metres of UTM."""
    return Decimal(f"{doubled * 5}e-{2 * digits + 1}")


def extent(file: Name, where: Tests = None, **options: Any) -> Optional[Extent]:
    """The extent of all positions of the features that the tests hold of, None where there is no position."""
    line = _lines("extent", [file], where, options)[0]
    return None if line == "empty" else Extent(*map(Decimal, line.split(" ")))


def hull(file: Name, where: Tests = None, **options: Any) -> List[Tuple[Decimal, Decimal]]:
    """The corners of the convex hull of all positions, counterclockwise from the lowest.

    There are none where there is no position.
    """
    lines = _lines("hull", [file], where, options)
    return [] if lines == ["empty"] else [(Decimal(x), Decimal(y)) for x, y in (line.split(" ") for line in lines)]


def join(file: Name, second: Name, where: Tests = None, **options: Any) -> List[Tuple[int, int]]:
    """The offsets of each pair of features that meet, in both files; the tests are of the first file's features."""
    pairs = (line.split(" ") for line in _lines("join", [file, second], where, options))
    return [(int(one), int(other)) for one, other in pairs]


def in_box(min_x: Number, min_y: Number, max_x: Number, max_y: Number) -> str:
    """The test that a feature has positions, and that all of them are in the closed box."""
    return f"in {_box(min_x, min_y, max_x, max_y)}"


def meets_box(min_x: Number, min_y: Number, max_x: Number, max_y: Number) -> str:
    """The test that a feature has a point in common with the closed box."""
    return f"meets {_box(min_x, min_y, max_x, max_y)}"


def meets(geometry: Any) -> str:
    """The test that a feature has a point in common with Well-Known Text, or with an object that has it as `wkt`."""
    return f"meets {getattr(geometry, 'wkt', geometry)}"


def has(name: str, value: str) -> str:
    """The test that a feature has a text of this name and value; the name of a label in Well-Known Text is `label`."""
    return f"has {json.dumps(name)} = {json.dumps(value)}"


def features(file: Name, offsets: Iterable[int], form: Optional[str] = None) -> List[Dict[str, Any]]:
    """The features that begin at byte offsets of a file, as `select` and `join` give them, in the order of the offsets.

    A feature of a GeoJSON file is its Feature; a geometry that is the whole file is made one. A feature of Well-Known
    Text is `{"label": .., "wkt": ..}`, whose label is None where the line has none.
    """
    with open(file, "rb") as opened:
        data = opened.read()
    wanted = list(offsets)
    places = sorted(set(wanted))
    read = _line_at if _form_of(file, form) == "wkt" else _value_at
    found = {begin: read(data[begin:end]) for begin, end in zip(places, places[1:] + [len(data)])}
    return [found[offset] for offset in wanted]


def frame(
    file: Name, offsets: Optional[Iterable[int]] = None, form: Optional[str] = None, crs: Any = None
) -> Any:
    """The features at byte offsets of a file, all of them without offsets, as a GeoDataFrame whose index they are.

    Its columns are the properties of GeoJSON, or `label` of Well-Known Text. It raises ImportError where geopandas
    isn't installed.

    The coordinates are taken as they stand, and `crs` says what they are. Without it a file of GeoJSON is asked. RFC
    7946 (2016) has one system alone, longitudes and latitudes of WGS 84, which is `OGC:CRS84`, and no member `crs`; so
    this is what a file without one has. GeoJSON of 2008 names another by a member `crs` of its outermost object, as
    ogr2ogr and geopandas still write it, and then that name is taken; the member with the value null is no system.
    Where it has another form, as a link, or where the texts of a sequence name several, ValueError is raised: give
    `crs`. Well-Known Text names no system, and so its frame has none.
    """
    import geopandas
    places = list(select(file, **({"form": form} if form else {})) if offsets is None else offsets)
    read = features(file, places, form)
    system = _system(file, form) if crs is None else crs
    if _form_of(file, form) == "wkt":
        shapes = geopandas.GeoSeries.from_wkt([one["wkt"] for one in read])
        made = geopandas.GeoDataFrame({"label": [one["label"] for one in read]}, geometry=list(shapes), crs=system)
    elif read:
        made = geopandas.GeoDataFrame.from_features([_plain(one) for one in read], crs=system)
    else:
        made = geopandas.GeoDataFrame(geometry=[], crs=system)
    made.index = places
    return made


def _system(file: Name, form: Optional[str]) -> Optional[str]:
    """The coordinate system that a file names, as `frame` tells."""
    kind = _form_of(file, form)
    if kind == "wkt":
        return None
    with open(file, "rb") as opened:
        data = opened.read()
    if not CRS_NAME.search(data):
        return DEFAULT_SYSTEM
    if kind != "seq":
        return _named_system(_root_member(data, "crs", lambda: select(file, form=kind)))
    roots = [json.loads(text) for text in data.split(b"\x1e") if text.strip(b" \t\r\n\xef\xbb\xbf")]
    found = {_named_system(root.get("crs", ABSENT)) for root in roots}
    if len(found) > 1:
        raise ValueError(f"the texts of the sequence name several coordinate systems: give crs ({_listed(found)})")
    return found.pop()


def _listed(names: Iterable[Any]) -> str:
    """Names in their order, separated by commas."""
    return ", ".join(sorted(map(str, names)))


def _named_system(member: Any) -> Optional[str]:
    """The coordinate system that the value of a member `crs` names."""
    if member is ABSENT:
        return DEFAULT_SYSTEM
    if member is None:
        return None
    named = member.get("properties") if isinstance(member, dict) and member.get("type") == "name" else None
    name = named.get("name") if isinstance(named, dict) else None
    if not isinstance(name, str):
        raise ValueError(f"the file's member crs names no coordinate system: give crs ({json.dumps(member)})")
    return name


def _root_member(data: bytes, wanted: str, offsets: Callable[[], List[int]]) -> Any:
    """A member of the outermost object of GeoJSON, or ABSENT; the features are passed over by their offsets."""
    text, decoder = _Text(data), json.JSONDecoder(strict=False)
    text.expect(b"{")
    while not text.is_next(b"}"):
        name = text.value(decoder)
        text.expect(b":")
        if name == wanted:
            return text.value(decoder)
        last = offsets()[-1:] if name == "features" else []
        if last and last[0] > text.at:
            text.at = last[0]
            text.value(decoder)
            text.expect(b"]")
        else:
            text.value(decoder)
        text.is_next(b",")
    return ABSENT


class _Text:
    """A place in the bytes of a JSON text that the program has accepted."""

    def __init__(self, data: bytes) -> None:
        self.data = data
        self.at = 3 if data.startswith(b"\xef\xbb\xbf") else 0

    def is_next(self, byte: bytes) -> bool:
        """Whether a byte is the next one that is no space, which is then passed over."""
        self.at = SPACES.match(self.data, self.at).end()
        is_it = self.data.startswith(byte, self.at)
        self.at += is_it
        return is_it

    def expect(self, byte: bytes) -> None:
        """Passes over a byte."""
        if not self.is_next(byte):
            raise ValueError(f"no GeoJSON at byte {self.at}: ask the program, which tells the file's first fault")

    def value(self, decoder: json.JSONDecoder) -> Any:
        """Reads a value, of which it decodes a front as long as need be."""
        self.is_next(b" ")
        size = 1 << 16
        while True:
            piece = self.data[self.at:self.at + size].decode("utf-8", "ignore")
            try:
                found, end = decoder.raw_decode(piece)
            except ValueError:
                end = len(piece)
            if end < len(piece) or self.at + size >= len(self.data):
                break
            size *= 8
        found, end = decoder.raw_decode(piece)
        self.at += len(piece[:end].encode("utf-8"))
        return found


def _plain(feature: Dict[str, Any]) -> Dict[str, Any]:
    """A Feature with the members that may be missing."""
    return {"type": "Feature", "geometry": feature.get("geometry"), "properties": feature.get("properties") or {}}


def _form_of(file: Name, form: Optional[str]) -> str:
    """The form that is given, or else the one that the name tells."""
    return form or ("wkt" if os.fsdecode(file).endswith(".wkt") else "geojson")


def _value_at(data: bytes) -> Dict[str, Any]:
    """The Feature with which a piece of GeoJSON begins."""
    value = json.JSONDecoder().raw_decode(data.decode("utf-8"))[0]
    return value if value.get("type") == "Feature" else {"type": "Feature", "geometry": value, "properties": None}


def _line_at(data: bytes) -> Dict[str, Any]:
    """The label and the geometry of the line with which a piece of Well-Known Text begins."""
    line = data.split(b"\n", 1)[0].decode("utf-8").strip(" \t\r")
    label, end = json.JSONDecoder(strict=True).raw_decode(line) if line.startswith('"') else (None, 0)
    return {"label": label, "wkt": line[end:].strip(" \t")}


def _raised_elsewhere(kind: type, given: Tuple[Any, ...], known: Dict[str, Any]) -> AtgisError:
    """An exception that another process raised and sent here."""
    error = kind.__new__(kind, *given)
    error.__dict__.update(known)
    return error


def _box(*numbers: Number) -> str:
    """A box as a query spells it."""
    min_x, min_y, max_x, max_y = map(str, numbers)
    return f"box({min_x} {min_y},{max_x} {max_y})"


def query_text(verb: str, where: Tests = None) -> str:
    """The query's text: its verb, and the tests, all of which must hold."""
    tests = [where] if isinstance(where, str) and where else list(where or [])
    return f"{verb} where {' and '.join(tests)}" if tests else verb


def _input_bytes(source: Any) -> bytes:
    """The bytes that the program reads as its standard input; of a file no more than tell that there are too many."""
    return source.read(LIMIT + 1) if hasattr(source, "read") else bytes(source or b"")


def _lines(verb: str, files: Sequence[Name], where: Tests, options: Dict[str, Any]) -> List[str]:
    """The lines that the program prints, or what it refuses as an exception."""
    unknown = set(options) - set(NAMES_OF_OPTIONS) - {"input", "program"}
    if unknown:
        raise TypeError(f"{verb}() has no option {', '.join(sorted(unknown))}")
    query = query_text(verb, where)
    program = options.get("program") or os.environ.get("ATGIS") or "atgis"
    words = [f"--{name}={options[name]}" for name in NAMES_OF_OPTIONS if options.get(name) is not None]
    command = [os.fspath(program), *words, "--", query, *map(os.fsdecode, files)]
    try:
        done = subprocess.run(command, input=_input_bytes(options.get("input")), capture_output=True, check=False)
    except OSError as error:
        raise ProgramError(f"{program}: {error.strerror}", error.errno or 0) from error
    if done.returncode:
        raise refusal(done.returncode, done.stderr.decode("utf-8", "surrogateescape").rstrip("\n"), query)
    return done.stdout.decode("ascii").splitlines()


def refusal(status: int, line: str, query: str) -> AtgisError:
    """The exception that stands for a status and the line without its line feed, which the program gave to a query."""
    fault = re.fullmatch(r"(.*): (\w+) at (\d+)", line, re.DOTALL)
    wrong_query = re.fullmatch(r"query: at (\d+)", line)
    file = line.rsplit(": ", 1)[0]
    if status == 1 and fault:
        return Fault(line, status, fault[1], fault[2], int(fault[3]))
    if status == 2 and wrong_query:
        return QueryError(line, status, query, int(wrong_query[1]))
    if status == 2:
        return FilesError(line, status) if line.startswith("files: ") else WordsError(line, status)
    if status in (3, 6):
        return (ReadError if status == 3 else TooLarge)(line, status, file)
    if status in (4, 5):
        return (WriteError if status == 4 else OutOfMemory)(line, status)
    return ProgramError(line or f"the program ended with status {status}", status)
