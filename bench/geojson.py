"""Queries over GeoJSON by `atgis` against a program over simdjson and a straight reader in Rust, both on one thread: 200 MB in
the layout of a common exporter, and a million squares of one unit (the text of the made file `@g:1000000`).

What the goals speak of is the processor time, user and system, of one worker and one block, against simdjson's one pass
that counts, takes extent and area, and decodes every number. Beside it stand simdjson's program for the one verb, which
passes over what the verb doesn't want, and the straight reader, whose limits its head tells; for scale `jq length` and
`ogrinfo -so -al` are run once, where they are installed. The default of four workers is compared by the clock. simdjson
chooses its first stage for the processor at hand, whose lanes may be wider than those of x86-64-v2, for which the other
programs are built.
"""
import json
import math
import random
import shutil
import sys

import lex
import measure

SIZE = 200_000_000
FEATURES = 6_000
SQUARES = 1_000_000
COLUMNS = 360
ROUNDS = 7
KINDS = "bridge church ferry forest lake mill museum park pier quarry station tower".split()
HEAD = """{
"type": "FeatureCollection",
"name": "places",
"crs": { "type": "name", "properties": { "name": "urn:ogc:def:crs:OGC:1.3:CRS84" } },
"features": [
"""
# each query, and its goals against simdjson's one pass: for now, and for later
VERBS = (("count", 3, 0.65), ("extent", None, 0.75), ("area", None, 0.75))
BOX = (0, 0, 60, 60)
ONE_PASS = "simdjson's one pass"
FOR_IT_ALONE = "simdjson for it alone"


def position(x, y):
    return f"[ {round(x, 7)!r}, {round(y, 7)!r} ]"


def line(source, x, y, positions):
    """A walk from a place."""
    walk = []
    for _ in range(positions):
        walk.append(position(x, y))
        x += source.uniform(-0.003, 0.003)
        y += source.uniform(-0.003, 0.003)
    return "[ %s ]" % ", ".join(walk)


def polygon(source, x, y, positions):
    """A ring round a place."""
    ring = []
    for n in range(positions - 1):
        angle, size = 2 * math.pi * n / (positions - 1), source.uniform(0.04, 0.05)
        ring.append(position(x + size * math.cos(angle), y + size * math.sin(angle)))
    return "[ [ %s ] ]" % ", ".join(ring + ring[:1])


def geometry(source, number):
    """Of twelve features eight are points, three lines of 50 positions, and one a polygon of 200."""
    x, y = source.uniform(-179, 179), source.uniform(-89, 89)
    if number % 12 == 11:
        kind, coordinates = "Polygon", polygon(source, x, y, 200)
    elif number % 4 == 3 or number % 12 == 5:
        kind, coordinates = "LineString", line(source, x, y, 50)
    else:
        kind, coordinates = "Point", position(x, y)
    return '{ "type": "%s", "coordinates": %s }' % (kind, coordinates)


def feature(source, number):
    properties = {
        "osm_id": source.randint(10**6, 10**10),
        "name": lex.sentence(source, source.randint(1, 4)),
        "kind": source.choice(KINDS),
        "note": lex.sentence(source, source.choice([3, 6, 12])) + source.choice(["", "\t\\", " \u20ac5", "\r\n"]),
        "height": round(source.uniform(0, 300), 2),
        "share": source.uniform(0, 1),
        "open": source.choice([True, False, None]),
        "website": "https://example.org/place/%d" % source.randint(1, 10**6),
    }
    text = json.dumps(properties, ensure_ascii=source.random() < 0.5)
    return '{ "type": "Feature", "properties": { %s }, "geometry": %s }' % (text[1:-1], geometry(source, number))


def write_places(file):
    """One block of features, again and again."""
    source = random.Random(7)
    block = ",\n".join(feature(source, number) for number in range(FEATURES))
    file.write(HEAD + block)
    for _ in range(SIZE // len(block)):
        file.write(",\n" + block)
    file.write("\n]\n}\n")


def square(number):
    row, left = divmod(number, COLUMNS)
    right, top = left + 1, row + 1
    ring = f"[{left}.5,{row}],[{right}.5,{row}],[{right}.5,{top}],[{left}.5,{top}],[{left}.5,{row}]"
    return '{"type":"Feature","properties":{"name":"g%d"},"geometry":{"type":"Polygon","coordinates":[[%s]]}}' % (number, ring)


def squares_writer(count):
    """The text of the made file of so many squares."""
    def write(file):
        file.write('{"type":"FeatureCollection","features":[')
        for number in range(count):
            file.write(("," if number else "") + "\n" + square(number))
        file.write("\n]}\n")
    return write


def ask(title, atgis, data, query, others, goals=()):
    """Runs a query by atgis and by other programs in turn; whether it meets its goals, which are against ONE_PASS, and its answer."""
    ours = [[atgis, "--workers", "1", "--blocks", "1", query, data], [atgis, query, data]]
    one, default, *runs = measure.alternate(ours + list(others.values()), ROUNDS)
    answer = one[0].printed
    measure.same(title, answer, default[0].printed)
    good = True
    for name, of in zip(others, runs):
        if name != ONE_PASS:
            measure.same(f"{title}, {name}", answer, of[0].printed)
        limits = goals if name == ONE_PASS else ()
        good = measure.tell(f"{title}, one worker, processor time against {name}", measure.cpus(one), measure.cpus(of), *limits) and good
        measure.tell(f"{title}, default, by the clock against {name}", measure.clocks(default), measure.clocks(of))
    return good, answer


def ask_verbs(name, atgis, simdjson, straight, data):
    """Asks for what one pass of simdjson's program gathers; whether the goals are met."""
    good, answers = True, b""
    for verb, *goals in VERBS:
        others = {"the straight reader": [straight, verb, data]}
        if simdjson:
            others = {ONE_PASS: [simdjson, "all", data], FOR_IT_ALONE: [simdjson, verb, data], **others}
        met, answer = ask(f"{verb} of {name}", atgis, data, verb, others, goals)
        good = met and good
        answers += answer
    if simdjson:
        measure.same(f"{name}, {ONE_PASS}", answers, measure.run([simdjson, "all", data]).printed)
    tell_scale(name, atgis, data)
    return good


def tell_scale(name, atgis, data):
    """Tells what usual tools take that answer less: how many members the text's object has, and how many features there are."""
    for tool, *words in (("jq", "length"), ("ogrinfo", "-so", "-al")):
        if shutil.which(tool) is None:
            print(f"{tool} isn't installed, so nothing is compared with it", flush=True)
            continue
        ours, theirs = measure.alternate(([atgis, "--workers", "1", "count", data], [tool, *words, data]), 1)
        measure.tell(f"count of {name}, one worker, processor time against {' '.join((tool, *words))}", measure.cpus(ours), measure.cpus(theirs))


def main():
    atgis = measure.build_atgis()
    simdjson, straight = measure.build_simdjson("geojson.cpp"), measure.build_rust("geojson.rs")
    good = True
    for name, write, key, value in FILES:
        data = measure.input_file(name, write)
        good = ask_verbs(name, atgis, simdjson, straight, data) and good
        queries = {
            "select where in box(%d %d,%d %d)" % BOX: ["in", *map(str, BOX)],
            f'select where has "{key}" = "{value}"': ["has", key, value],
        }
        for query, words in queries.items():
            others = {FOR_IT_ALONE: [simdjson, *words, data]} if simdjson else {}
            ask(f"{query} of {name}", atgis, data, query, others)
    return 0 if good else 1


FILES = (
    ("places.json", write_places, "kind", "bridge"),
    (f"g{SQUARES}.json", squares_writer(SQUARES), "name", f"g{SQUARES // 3}"),
)

if __name__ == "__main__":
    sys.exit(main())
