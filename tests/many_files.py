"""Random files of all forms for `many`, with what looks like a feature in texts, in properties and beside the features.

Each is made by a seeded generator, so a case is the same everywhere.
"""
import random

SHAPES = ("Point", "LineString", "Polygon", "MultiPoint", "GeometryCollection", "MultiPolygon")
TESTS = ("", 'has "kind" = "a"', 'has "label" = "a"', "in box(-5 -5,5 5)", "meets box(0 0,3 3)",
         "meets POLYGON ((0 0,6 0,3 6,0 0))", 'has "kind" = "b" and meets box(-2 -2,9 9)')
OPTIONS = ({}, {}, {"digits": 9}, {"coords": "exact"})
SIZES = (30, 100, 300, 300, 1000, 3000)
TRAPS = ('', '', '', ',"t":"},{\\"type\\":\\"Feature\\"}"', ',"s":"\\"},{"', ',"q":"]}"', ',"u":"ä€😀"',
         ',"e":[{"a":1}],"f":2',
         ',"n":[{"type":"Feature"},{"type":"Feature","geometry":null},{"properties":1},{"geometry":2}]',
         ',"p":{"features":[{"type":"Feature"},{"type":"Feature"}],"o":[{"type":"Feature"}]}')


def number(rng: random.Random) -> str:
    """A coordinate."""
    return rng.choice((f"{rng.uniform(-10, 10):.{rng.randrange(9)}f}", str(rng.randrange(-10, 11)),
                       f"{rng.randrange(9)}e0"))


def ring(rng: random.Random) -> list:
    """A triangle that is closed."""
    x, y, size = rng.randrange(-9, 9), rng.randrange(-9, 9), rng.randrange(1, 4)
    return [(str(x), str(y)), (str(x + size), str(y)), (str(x + size), str(y + size)), (str(x), str(y))]


def shape(rng: random.Random, depth: int = 0) -> tuple:
    """A kind of geometry and what it has: positions as tuples, in lists, or further shapes."""
    kind = rng.choice(SHAPES if depth < 2 else SHAPES[:3])
    if kind == "Point":
        return kind, (number(rng), number(rng))
    if kind in ("LineString", "MultiPoint"):
        return kind, [(number(rng), number(rng)) for _ in range(rng.randrange(2, 5))]
    if kind == "Polygon":
        return kind, [ring(rng)]
    if kind == "MultiPolygon":
        return kind, [[ring(rng)] for _ in range(rng.randrange(1, 3))]
    return kind, [shape(rng, depth + 1) for _ in range(rng.randrange(1, 4))]


def wkt_of(one: tuple) -> str:
    """A shape as Well-Known Text."""
    kind, value = one

    def text(part) -> str:
        return " ".join(part) if isinstance(part, tuple) else "(" + ",".join(map(text, part)) + ")"
    if kind == "GeometryCollection":
        return "GEOMETRYCOLLECTION (" + ",".join(map(wkt_of, value)) + ")"
    return kind.upper() + " " + ("(" + " ".join(value) + ")" if kind == "Point" else text(value))


def geometry_of(one: tuple, rng: random.Random) -> str:
    """A shape as GeoJSON, its members in any order."""
    kind, value = one

    def text(part) -> str:
        return "[" + ",".join(part if isinstance(part, tuple) else map(text, part)) + "]"
    if kind == "GeometryCollection":
        body = '"geometries":[' + ",".join(geometry_of(inner, rng) for inner in value) + "]"
    else:
        body = f'"coordinates":{text(value)}'
    members = [f'"type":"{kind}"', body]
    rng.shuffle(members)
    return "{" + ",".join(members) + "}"


def feature(rng: random.Random, order) -> str:
    """A Feature with its members in this order, and often something that looks like the end of one."""
    space = rng.choice(("", "", " "))
    geometry = "null" if rng.random() < .1 else geometry_of(shape(rng), rng)
    members = {
        "type": '"type":"Feature"', "geometry": f'"geometry":{geometry}',
        "properties": f'"properties":{{"kind":"{rng.choice("ab")}","k":{rng.randrange(99)}{rng.choice(TRAPS)}}}'}
    return "{" + space + f",{space}".join(members[name] for name in order) + space + "}"


def any_order(rng: random.Random) -> list:
    """The members of a Feature in some order."""
    return rng.sample(("type", "properties", "geometry"), 3)


def lines_of_text(rng: random.Random) -> bytes:
    """A file of Well-Known Text."""
    end = rng.choice(("\n", "\n", "\r\n"))
    lines = []
    for _ in range(rng.randrange(0, 30)):
        label = rng.choice(('', '', '"a" ', '"b"', '"ä\\n"  ', ' '))
        lines.append(rng.choice(("", " \t")) if rng.random() < .1 else label + wkt_of(shape(rng)))
    return (rng.choice(("", "", "\ufeff")) + end.join(lines) + rng.choice(("", end))).encode()


def records(rng: random.Random) -> list:
    """GeoJSON texts, and nothing in the place of some."""
    order, rows = any_order(rng), []
    for _ in range(rng.randrange(0, 25)):
        pick = rng.random()
        if pick < .1:
            rows.append("")
        elif pick < .2:
            rows.append(geometry_of(shape(rng), rng))
        elif pick < .25:
            inner = ",".join(feature(rng, order) for _ in range(rng.randrange(3)))
            rows.append('{"type":"FeatureCollection","features":[' + inner + "]}")
        else:
            rows.append(feature(rng, order))
    return rows


def sequence(rng: random.Random) -> bytes:
    """A GeoJSON text sequence."""
    end = rng.choice(("\n", "\n", "\r\n"))
    texts = "".join("\x1e" + row + rng.choice((end, "", end + end)) for row in records(rng))
    return (rng.choice(("", "", "\ufeff")) + rng.choice(("", " ")) + texts).encode()


def lines(rng: random.Random) -> bytes:
    """GeoJSON texts, one a line."""
    end = rng.choice(("\n", "\n", "\r\n"))
    return (rng.choice(("", "", "\ufeff")) + end.join(records(rng)) + rng.choice(("", end))).encode()


def collection(rng: random.Random) -> bytes:
    """A FeatureCollection, or nearly one, with members before and behind its features."""
    order = any_order(rng)
    comma = rng.choice((",", ",\n", " ,\r\n ", ", "))
    items = [feature(rng, order if rng.random() < .95 else any_order(rng)) for _ in range(rng.randrange(0, 25))]
    others = [feature(rng, order) for _ in range(rng.randrange(0, 12))]
    space = rng.choice(("", " ", "\n"))
    members = ['"type":"FeatureCollection"', f'"features":[{space}' + comma.join(items) + f"{space}]"]
    members += rng.sample((
        '"name":"x"', '"crs":{"type":"name","properties":{"name":"},{\\"type\\":\\"Feature\\""}}', '"bbox":[1,2,3,4]',
        f'"old":[{space}' + comma.join(others) + f"{space}]", '"older":[' + comma.join(others[:6]) + "]"),
        rng.randrange(4))
    if rng.random() < .04:
        members[0] = rng.choice(('"type":"Feature","geometry":null', '"x":1',
                                 '"type":"FeatureCollection","features":[]'))
    if rng.random() < .04:
        members.append(rng.choice(('"type":[' + comma.join(others) + "]", '"old":[' + comma.join(others) + "]")))
    rng.shuffle(members)
    text = "{" + space + f",{space}".join(members) + space + "}" + rng.choice(("", "\n"))
    return (rng.choice(("", "", "\ufeff")) + text).encode()


def spoiled(rng: random.Random, data: bytes) -> bytes:
    """The bytes with one to three random changes."""
    changed = bytearray(data)
    for _ in range(rng.randrange(1, 4)):
        if changed:
            spoil(rng, changed)
    return bytes(changed)


def spoil(rng: random.Random, data: bytearray) -> None:
    """Changes bytes in one way."""
    at, pick = rng.randrange(len(data)), rng.randrange(8)
    if pick == 0:
        del data[at]
    elif pick == 1:
        data[at:at] = bytes([rng.choice(b'"{}[],:\\ 1a\n\x1e\xff\xc3')])
    elif pick == 2:
        data[at] = rng.choice(b'"{}[],:\\ 1a\n\r\xff\xc3\xef\x1e')
    elif pick == 3:
        del data[at:]
    elif pick == 4:
        data[at:at + 1] = b"99999999999"
    elif pick == 5:
        data[at:at] = data[at:at + rng.randrange(1, 30)]
    elif pick == 6:
        end = data.find(b"\n", at)
        data[end + 1:end + 1] = b"\xef\xbb\xbf"
    else:
        del data[at:at + rng.randrange(1, 200)]


MAKERS = {"geojson": collection, "seq": sequence, "lines": lines, "wkt": lines_of_text}
ENDS = {"geojson": "geojson", "seq": "geojsons", "lines": "geojsonl", "wkt": "wkt"}
