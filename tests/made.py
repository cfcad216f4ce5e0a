"""Cases of tests/run whose files are made: the fronts of a file, its cuts, texts that repeat a part many times, and a circle."""
import math


def place(name, geometry):
    """A line with a feature, as a common converter writes it."""
    return f'{{ "type": "Feature", "properties": {{ "name": "{name}" }}, "geometry": {geometry} }}'


# A file in the layout of a common converter. Its object ends before its last line feed.
PLACES = "\n".join([
    "{",
    '"type": "FeatureCollection",',
    '"name": "places",',
    '"crs": { "type": "name", "properties": { "name": "urn:ogc:def:crs:OGC:1.3:CRS84" } },',
    '"features": [',
    place("Ulm", '{ "type": "Point", "coordinates": [ 9.987654321012345, 48.4 ] }') + ",",
    place("Bonn", '{ "type": "Point", "coordinates": [ 7.1, 50.733333333333334 ] }') + ",",
    place("Jena", "null"),
    "]",
    "}",
    "",
])
OFFSETS = (149, 282, 416)
DEPTH = 100_000
CORNERS = 10_000
RADIUS = 29_000_000
FEW = [["1", "1"], ["4", "64"], ["64", "4096"]]


def case(name, words, file, text, out="", told=""):
    """A case over one file: what it writes to its output, or the fault that it tells."""
    line = f"{file}: {told}\n" if told else ""
    return {"name": name, "words": [*words, file], "files": {file: text}, "out": out, "err": line,
            "status": 1 if told else 0, "pairs": []}


def front_cases():
    """Each front of the file, counted. It is whole from the end of its object on."""
    length = len(PLACES.rstrip("\n"))
    return [case(f"the first {size} bytes of a file", ["count"], "f.json", PLACES[:size],
                 *(("", f"Ended at {size}") if size < length else ("3\n",)))
            for size in range(len(PLACES) + 1)]


def cut_cases():
    """The file in two blocks that meet at each of its bytes, which spaces before and behind it bring about."""
    size = len(PLACES)
    padded = [(" " * room + PLACES, room) for room in range(size)] + [(PLACES + " " * room, 0) for room in range(size)]
    return [case("a file in two", ["--blocks=2", "select"], "f.json", text,
                 "".join(f"{room + at}\n" for at in OFFSETS))
            for text, room in padded]


def deep_cases():
    """What lies deep, what is long, and what ends too early after either."""
    collection = "GEOMETRYCOLLECTION ("
    objects = '{"a":' * DEPTH
    cases = [
        case("brackets that another closes", ["count"], "f.json", "[" * 1000 + "}", told="Syntax at 1000"),
        case("a million open brackets", ["count"], "f.json", "[" * 1_000_000, told="Ended at 1000000"),
        case("open objects", ["count"], "f.json", objects, told=f"Ended at {len(objects)}"),
        case("zeros behind the point", ["--coords=exact", "count"], "p.wkt", f"POINT (1.{'0' * 1_000_000} 2)", "1\n"),
        case("deep collections", ["count"], "p.wkt", collection * DEPTH + "POINT (1 2)" + ")" * DEPTH, "1\n"),
        case("open collections", ["count"], "p.wkt", collection * DEPTH, told=f"Ended at {len(collection) * DEPTH}"),
    ]
    return [{**one, "pairs": FEW} for one in cases]


def on_circle(index):
    """One of CORNERS positions on a circle about (0, 0), the lowest first, counterclockwise."""
    angle = 2 * math.pi * index / CORNERS - math.pi / 2
    return f"{RADIUS * math.cos(angle):.7f} {RADIUS * math.sin(angle):.7f}".replace("-0.0000000", "0.0000000")


def circle_case():
    """Positions on a circle in another order, among others inside it: each of them is a corner of the hull."""
    rows = (f"POINT ({on_circle(7919 * index % CORNERS)})\nPOINT ({index} {index})\n" for index in range(CORNERS))
    corners = "".join(f"{on_circle(index)}\n" for index in range(CORNERS))
    return {**case("corners on a circle", ["hull"], "p.wkt", "".join(rows), corners), "pairs": FEW}


def cases():
    """All cases whose files are made."""
    return front_cases() + cut_cases() + deep_cases() + [circle_case()]
