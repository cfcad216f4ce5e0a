"""Queries by `atgis` over GeoJSON in the style of each common writer, against one pass of the program over simdjson.

usage: bench/styles.py [--instructions] [--program PATH [--against PATH]] [--size BYTES] [STYLE ..]

Each style has the places of bench/geojson.py, 60 MB of them, in the spelling that its writer gives them, or with what
some files have beside them: heights, null geometries, wide tables. Five queries are asked with one worker in one block:
`count`, `extent`, `area`, and `count` with `has` and with a box. Told are processor times of theirs, rounds in turn: over
simdjson's one pass for count, extent and area, of `has` over `count`, of a box over `extent`, of 4,096 blocks over one,
and of a text sequence (RFC 8142) over the collection of the same features. The answers have to be those of simdjson.

With --instructions it counts instructions by callgrind over 1 MB of each style in place of times, less those over a
collection without features. Those over simdjson's then have no goal, and the blocks are as large as before.
With --against the instructions of a program are told over those of another one, for each style and query. With no
--program it builds the program.
"""
import argparse
import functools
import json
import math
import random
import sys
import textwrap
from typing import Callable, NamedTuple

import geojson
import lex
import measure

SIZE, SMALL = 60_000_000, 1_000_000
# as many bytes of features are made, which then come again and again
BLOCK = 4_000_000
BLOCKS = 4096
ROUNDS = 31
RING = 20_000
BOX = " ".join(map(str, geojson.BOX[:2])) + "," + " ".join(map(str, geojson.BOX[2:]))
QUERIES = {"count": "count", "extent": "extent", "area": "area", "has": 'count where has "kind" = "bridge"',
           "box": f"count where in box({BOX})"}
# what the one pass of simdjson's program gathers, and how much more than for `count` a query may take of it
ONE_PASS = {"count": 1, "extent": 1.1, "area": 1.1}
# a query, the one that it is told over, and the goal
TESTS = (("has", "count", 1.15), ("box", "extent", 1.1))
GOAL, GOAL_OF_MANY_MEMBERS = 0.75, 1.0
GOAL_OF_BLOCKS = GOAL_OF_SEQUENCE = 1.1
EMPTY = '{"type":"FeatureCollection","features":[]}\n'
# The words of texts beyond ASCII: of two, two, three and four bytes a character.
BEYOND = {"ru": "мельница река мост башня ворота рынок улица гавань замок причал".split(),
          "el": "μύλος ποτάμι γέφυρα πύργος πύλη αγορά δρόμος λιμάνι κάστρο".split(),
          "ja": "水車 川 橋 塔 門 市場 通り 港 城 波止場 図書館".split(), "emoji": "🌉 🏰 ⛪ 🏞️ 🛶 🌲 🏛️ 🚉".split()}


class Style(NamedTuple):
    """What a writer makes of features: the text of each, and what stands before, between and behind them.

    What makes a text takes a random source, of which each style takes the same places, and the feature's number, of which
    it makes what the style has beside them.
    """

    text: Callable
    head: str = '{"type":"FeatureCollection","features":['
    between: str = ","
    tail: str = "]}"
    goal: float = GOAL


# How values are spelled.


def compact(value):
    """Without white space, as by JSON.stringify."""
    return json.dumps(value, ensure_ascii=False, separators=(",", ":"))


def javascript(value):
    """The value with whole numbers as JavaScript has them, which knows no other kind."""
    if isinstance(value, dict):
        return {name: javascript(item) for name, item in value.items()}
    if isinstance(value, list):
        return [javascript(item) for item in value]
    return int(value) if isinstance(value, float) and value.is_integer() else value


def spaced(value):
    """With a blank inside of each bracket, as GDAL and tippecanoe write it."""
    if isinstance(value, dict):
        return "{ %s }" % ", ".join(f"{compact(name)}: {spaced(item)}" for name, item in value.items())
    if isinstance(value, list):
        return "[ %s ]" % ", ".join(map(spaced, value))
    return compact(value)


def sorted_by_name(value):
    """As json.dumps(.., sort_keys=True) has it: the geometry before the type, and the coordinates before theirs."""
    return json.dumps(value, sort_keys=True)


def indented(value):
    """As json.dumps(.., indent=2) has it two levels down: each number of a position on a line of its own."""
    return textwrap.indent(json.dumps(value, indent=2), "    ")


def with_slashes(value):
    """As PHP's json_encode writes it: each slash, and each character beyond ASCII, is an escape."""
    return json.dumps(value, separators=(",", ":")).replace("/", "\\/")


def of_rows(value):
    """As PostGIS's ST_AsGeoJSON writes a row."""
    properties = json.dumps(value["properties"], ensure_ascii=False)
    return f'{{"type": "Feature", "geometry": {compact(value["geometry"])}, "properties": {properties}}}'


def of_objects(value):
    """As PostgreSQL's json_build_object writes it, with the geometry by ST_AsGeoJSON."""
    properties = json.dumps(value["properties"], ensure_ascii=False, separators=(", ", " : "))
    return f'{{"type" : "Feature", "geometry" : {compact(value["geometry"])}, "properties" : {properties}}}'


# Features.


def place(source, number):
    """A feature of bench/geojson.py as a value."""
    return json.loads(geojson.feature(source, number))


def changed(coordinates, change):
    """Coordinates of any depth with each position changed."""
    if isinstance(coordinates[0], list):
        return [changed(item, change) for item in coordinates]
    return change(coordinates)


def with_positions(value, change):
    """The feature with each position changed."""
    shape = value["geometry"]
    return {**value, "geometry": {**shape, "coordinates": changed(shape["coordinates"], change)}}


def with_properties(value, further):
    """The feature with further properties behind its own."""
    return {**value, "properties": {**value["properties"], **further}}


def box_of(value):
    """The bbox of a feature."""
    positions = []
    with_positions(value, positions.append)
    xs, ys = zip(*positions)
    return [min(xs), min(ys), max(xs), max(ys)]


def with_id(source, number):
    """Named as geopandas names the rows of a frame."""
    return {"id": str(number), **place(source, number)}


def with_box(source, number):
    """The id and the bbox before all else."""
    value = place(source, number)
    return {"id": f"way/{10**8 + number}", "bbox": box_of(value), **value}


def with_layer(source, number):
    """The id and the layer that tippecanoe puts before the properties."""
    value = place(source, number)
    layer = {"layer": "places", "minzoom": number % 12, "maxzoom": 14}
    return {"type": "Feature", "id": number + 1, "tippecanoe": layer, **value}


def with_escapes(source, number):
    """Texts of several lines, with quotes and tabs."""
    value, more = place(source, number), random.Random(number)
    link = f'<a href="{value["properties"]["website"]}">{lex.sentence(more, 2)}</a>'
    rows = "\r\n".join(f'"{lex.sentence(more, 2)}"\t{row}' for row in range(more.randint(1, 4)))
    return with_properties(value, {"html": link, "remarks": rows, "folder": "C:\\maps\\%d" % number})


def beyond_ascii(source, number):
    """Names in four scripts."""
    more = random.Random(number)
    names = {f"name:{key}": " ".join(more.choices(words, k=more.choice([1, 2, 3, 12]))) for key, words in BEYOND.items()}
    return with_properties(place(source, number), names)


def with_nested(source, number):
    """Objects and arrays among the properties, as Overture has them."""
    more = random.Random(number)
    name = lex.sentence(more, 2)
    rules = [{"variant": "common", "language": None, "value": lex.sentence(more, 1)} for _ in range(more.randint(0, 2))]
    sources = [{"property": "", "dataset": "OpenStreetMap", "record_id": f"w{number}@{more.randint(1, 9)}", "confidence": None}]
    return with_properties(place(source, number), {
        "names": {"primary": name, "common": {"en": name, "de": name}, "rules": rules}, "sources": sources,
        "categories": {"primary": more.choice(geojson.KINDS), "alternate": more.choices(geojson.KINDS, k=2)},
        "levels": [1, 2, [3, 4]], "websites": [], "addresses": [{"freeform": name, "postcode": "%05d" % number, "country": "DE"}]})


def with_heights(source, number):
    """Positions of three numbers; a ring ends at the height at which it begins."""
    def raised(position):
        return position + [round(1500 + 1500 * math.sin(1000 * position[0]), 2)]
    return with_positions(place(source, number), raised)


def with_doubles(source, number):
    """Coordinates of as many digits as a double has, which were reprojected and never rounded."""
    return with_positions(place(source, number), lambda position: [one * 1.0000000001 for one in position])


def rarely_placed(source, number):
    """Properties prevail; a third of the features has a null geometry, and the others are points."""
    value, more = place(source, 0), random.Random(number)
    texts = {f"{name}_text": lex.sentence(more, more.choice([1, 3, 6, 12])) for name in geojson.KINDS}
    return with_properties({**value, "geometry": None if number % 3 == 0 else value["geometry"]}, texts)


def with_columns(count):
    """What makes features of so many properties, whose names differ in one digit or two, as in tables of a census."""
    def make(source, number):
        value, more = place(source, number), random.Random(number)
        names = [f"B{1001 + n // 49:05d}_{n % 49 + 1:03d}E" for n in range(count - len(value["properties"]))]
        return with_properties(value, {name: entry(more) for name in names})
    return make


def entry(source):
    """What stands in a column: mostly a number, and some are left empty."""
    kind = source.choice(["whole", "whole", "whole", "whole", "share", "share", "text", "none"])
    return {"whole": source.randint(0, 99_999), "share": round(source.uniform(0, 100), 1), "text": source.choice(geojson.KINDS),
            "none": None}[kind]


def with_exponent(source, number):
    """A feature's text with a number that has an exponent, a nested array and an escape."""
    value = with_properties(place(source, number), {"scale": 1, "tags": [["a", number], [2, [3]]], "label": "a\tb"})
    return compact(value).replace('"scale":1,', '"scale":1E0,')


def ring(source, number):
    """The text of an area of one ring as long as a coastline's."""
    x, y = source.uniform(-160, 160), source.uniform(-70, 70)
    corners, size = [], 5.0
    for n in range(RING - 1):
        size += source.uniform(-0.004, 0.004)
        angle = 2 * math.pi * n / (RING - 1)
        corners.append([round(x + size * math.cos(angle), 7), round(y + size * math.sin(angle), 7)])
    return compact([corners + corners[:1]])


def text(spell, make=place):
    """What makes the text of a feature, of what makes it and what spells it."""
    return lambda source, number: spell(make(source, number))


ROWS = '{"type": "FeatureCollection", "features": ['
TILES = '{ "type": "FeatureCollection", "properties": { "zoom": 14 }, "features": [\n'
COAST = ('{"type":"FeatureCollection","features":[{"type":"Feature","properties":{"kind":"coast"},'
         '"geometry":{"type":"MultiPolygon","coordinates":[')
STYLES = {
    "compact": Style(text(lambda value: compact(javascript(value)))),
    "python": Style(text(json.dumps), ROWS, ", "),
    "ogr2ogr": Style(text(spaced), geojson.HEAD, ",\n", "\n]\n}\n"),
    "postgis": Style(text(of_rows), '{"type" : "FeatureCollection", "features" : [', ", "),
    "json_build_object": Style(text(of_objects), '{"type" : "FeatureCollection", "features" : [', ", "),
    "sorted": Style(text(sorted_by_name), '{"features": [', ", ", '], "type": "FeatureCollection"}\n'),
    "bbox": Style(text(compact, with_box), '{"bbox":[-180.0,-90.0,180.0,90.0],"type":"FeatureCollection","features":['),
    "indent": Style(text(indented), '{\n  "type": "FeatureCollection",\n  "features": [\n', ",\n", "\n  ]\n}\n"),
    "escapes": Style(text(with_slashes, with_escapes)),
    "unicode": Style(text(compact, beyond_ascii)),
    "nested": Style(text(compact, with_nested)),
    "heights": Style(text(json.dumps, with_heights), ROWS, ", "),
    "doubles": Style(text(compact, with_doubles)),
    "nulls": Style(text(compact, rarely_placed), goal=GOAL_OF_MANY_MEMBERS),
    "wide": Style(text(compact, with_columns(45)), goal=GOAL_OF_MANY_MEMBERS),
    "members": Style(text(compact, with_columns(200)), goal=GOAL_OF_MANY_MEMBERS),
    "coast": Style(ring, COAST, ",", "]}}]}\n"),
    "exponents": Style(with_exponent),
    "geopandas": Style(text(json.dumps, with_id), ROWS, ", "),
    "tippecanoe": Style(text(spaced, with_layer), TILES, "\n,\n", "\n] }\n"),
    # told over "compact", which has the same features
    "sequence": Style(text(lambda value: compact(javascript(value))), "\x1e", "\n\x1e", "\n"),
}
# Doubles are rounded by simdjson's program as doubles, which an area shows.
WITHOUT_AREA = ("doubles",)


def writer(style, size):
    """What writes a file of about so many bytes in a style."""
    def write(file):
        source, texts, length = random.Random(7), [], 0
        while not texts or length < min(size, BLOCK):
            texts.append(style.text(source, len(texts)))
            length += len(texts[-1].encode()) + 1
        block = style.between.join(texts)
        file.write(style.head + block)
        for _ in range(round(size / length) - 1):
            file.write(style.between + block)
        file.write(style.tail)
    return write


def file_of(name, size):
    """The path of a style's file."""
    end = "geojsons" if name == "sequence" else "json"
    return measure.input_file(f"style_{name}_{size}.{end}", writer(STYLES[name], size))


# Runs.


def asked(atgis, verb, data, blocks=1):
    """The command that asks a query of a file."""
    form = ["--form", "seq"] if data.endswith(".geojsons") else []
    return [atgis, "--workers", "1", "--blocks", str(blocks), *form, QUERIES[verb], data]


def times(commands):
    """The processor times of commands, rounds in turn."""
    return [measure.cpus(of) for of in measure.alternate(commands, ROUNDS)]


def counts(commands):
    """The instructions of commands, less those over a file without features."""
    return [[measure.instructions(command) - at_least(*command[:-1])] for command in commands]


@functools.lru_cache(maxsize=None)
def at_least(*words):
    """The instructions of a command over a file without features, or without records."""
    name, content = ("nothing.geojsons", "") if "seq" in words else ("nothing.json", EMPTY)
    return measure.instructions([*words, measure.input_file(name, lambda file: file.write(content))])


def check_answers(name, atgis, simdjson, data, blocks):
    """Ends the benchmark where answers depend on the blocks, or aren't those of simdjson's program."""
    answers = {verb: measure.run(asked(atgis, verb, data)).printed for verb in QUERIES}
    for verb, answer in answers.items():
        measure.same(f"{verb} of {name} in {blocks} blocks", answer, measure.run(asked(atgis, verb, data, blocks)).printed)
    if not simdjson:
        return
    verbs = [verb for verb in ONE_PASS if verb != "area" or name not in WITHOUT_AREA]
    theirs = measure.run([simdjson, "all", data]).printed.splitlines()
    measure.same(f"{', '.join(verbs)} of {name}", [answers[verb].strip() for verb in verbs], theirs[:len(verbs)])
    for verb, words in (("has", ["has", "kind", "bridge"]), ("box", ["in", *map(str, geojson.BOX)])):
        found = measure.run([simdjson, *words, data]).printed.count(b"\n")
        measure.same(f"{verb} of {name}", answers[verb], b"%d\n" % found)


def tell_style(name, costs, unit, has_goal):
    """Tells the ratios of one style, of costs by query and blocks; whether the goals are met."""
    goal, good = STYLES[name].goal, True
    for verb in QUERIES if "pass" in costs else ():
        limit = goal * ONE_PASS[verb] if has_goal and verb in ONE_PASS else None
        good = measure.tell(f"{name}: {verb}, {unit} over {geojson.ONE_PASS}", costs[verb], costs["pass"], limit) and good
    for verb, other, limit in TESTS:
        good = measure.tell(f"{name}: {verb}, {unit} over {other}", costs[verb], costs[other], limit) and good
    for verb in QUERIES:
        title = f"{name}: {verb}, {unit} of many blocks over one"
        good = measure.tell(title, costs[verb, "blocks"], costs[verb], GOAL_OF_BLOCKS) and good
    return good


def measure_style(name, atgis, simdjson, words):
    """Measures one style; whether it meets its goals."""
    size = words.size or (SMALL if words.instructions else SIZE)
    # a power of two, since the program takes the next one
    blocks = 1 << max((BLOCKS * size // SIZE).bit_length() - 1, 0)
    data, cost = file_of(name, size), counts if words.instructions else times
    unit = "instructions" if words.instructions else "processor time"
    if name == "sequence":
        return measure_sequence(atgis, data, file_of("compact", size), cost, unit)
    check_answers(name, atgis, simdjson, data, blocks)
    commands = {verb: asked(atgis, verb, data) for verb in QUERIES}
    commands.update({(verb, "blocks"): asked(atgis, verb, data, blocks) for verb in QUERIES})
    commands.update({"pass": [simdjson, "all", data]} if simdjson else {})
    return tell_style(name, dict(zip(commands, cost(list(commands.values())))), unit, not words.instructions)


def measure_sequence(atgis, data, collection, cost, unit):
    """Measures a text sequence against the collection of the same features, which have to answer the same."""
    good = True
    for verb in QUERIES:
        commands = [asked(atgis, verb, path) for path in (data, collection)]
        measure.same(f"{verb} of a sequence", *[measure.run(command).printed for command in commands])
        good = measure.tell(f"sequence: {verb}, {unit} over the collection's", *cost(commands), GOAL_OF_SEQUENCE) and good
    return good


def compare_programs(names, words):
    """Tells the instructions of a program over those of another one, which has to answer the same."""
    ratios = {verb: [] for verb in QUERIES}
    for name in names:
        data = file_of(name, words.size or SMALL)
        for verb in QUERIES:
            commands = [asked(program, verb, data) for program in (words.program, words.against)]
            measure.same(f"{verb} of {name}", *[measure.run(command).printed for command in commands])
            ours, theirs = counts(commands)
            measure.tell(f"{name}: {verb}, instructions over those of {words.against}", ours, theirs)
            ratios[verb].append(ours[0] / theirs[0])
    for verb, of in ratios.items():
        mean = math.exp(sum(map(math.log, of)) / len(of))
        print(f"{verb} of {len(of)} styles: {min(of):.3f} to {max(of):.3f}, geometric mean {mean:.3f}")


def read_words():
    """The words of the command."""
    words = argparse.ArgumentParser(description=__doc__, formatter_class=argparse.RawDescriptionHelpFormatter)
    words.add_argument("--instructions", action="store_true")
    words.add_argument("--program")
    words.add_argument("--against")
    words.add_argument("--size", type=int)
    words.add_argument("styles", nargs="*", metavar="STYLE")
    given = words.parse_args()
    unknown = [name for name in given.styles if name not in STYLES]
    if unknown:
        words.error(f"no style is named {unknown[0]}: there are {', '.join(STYLES)}")
    if given.against and not given.program:
        words.error("--against wants a --program")
    return given


def main():
    words = read_words()
    names = words.styles or list(STYLES)
    atgis = words.program or measure.build_atgis()
    if (words.instructions or words.against) and measure.instructions([atgis, "count", "@w:1"]) is None:
        return 0
    if words.against:
        compare_programs(names, words)
        return 0
    simdjson = measure.build_simdjson("geojson.cpp")
    missed = [name for name in names if not measure_style(name, atgis, simdjson, words)]
    print(f"styles that miss a goal: {', '.join(missed) or 'none'} of {len(names)}")
    return 1 if missed else 0


if __name__ == "__main__":
    sys.exit(main())
