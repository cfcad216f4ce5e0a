#!/usr/bin/env python3
"""What there is to say of a GeoJSON file, worked out slowly from the definitions of RFC 8259 and RFC 7946.

usage: tests/oracle.py [--coords=exact|round] [--digits=7|9] select|count|area|extent|hull FILE

It shares nothing with the program and goes another way: it makes the tree of the whole text, walks it from the root
by role, gathers all faults and takes the first; numbers are whole numbers and fractions, and every question about
shapes goes over all pairs. `told` is what tests/compare and tests/real call. Its limits are time and memory alone.
"""
import sys
from fractions import Fraction
from typing import NamedTuple

from json_tree import NUMBER, Stop, read_tree
from shapes import Shape, doubled_area, meets

sys.set_int_max_str_digits(0)

DIGITS = 7
LIMIT = 3 * 10**14
TIERS = {"NotUtf8": 1, "Syntax": 2, "Ended": 2, "Twin": 3, "Form": 4, "Short": 4, "Ring": 4, "Scale": 4, "Range": 4}
KINDS = list(TIERS)
DEPTHS = {"Point": 0, "MultiPoint": 1, "LineString": 1, "MultiLineString": 2, "Polygon": 2, "MultiPolygon": 3}


class Fault(NamedTuple):
    """A fault of the file, at an offset from its first byte."""
    kind: str
    at: int

    def rank(self):
        """Faults are told by tier, then offset, then number."""
        return TIERS[self.kind], self.at, KINDS.index(self.kind)


def twins(tree):
    """The faults of names that equal an earlier name of their object, wherever in the tree."""
    found = []
    waiting = [tree]
    while waiting:
        node = waiting.pop()
        if node.kind == "array":
            waiting.extend(node.value)
        elif node.kind == "object":
            firsts = {member.name: member.at for member in reversed(node.value)}
            found += [Fault("Twin", member.at) for member in node.value if member.at != firsts[member.name]]
            waiting.extend(member.node for member in node.value)
    return found


class Feature(NamedTuple):
    """A feature, at its first byte, with its texts as pairs of units."""
    at: int
    shape: Shape
    texts: list


def fixed(text, is_exact, digits=DIGITS):
    """A number in units of so many decimal digits, or the kind of its fault."""
    whole, part, exponent = NUMBER.fullmatch(text).groups()
    mantissa = int(whole + (part or b""))
    power = int(exponent or 0) - len(part or b"") + digits
    size = len(str(abs(mantissa))) + power
    if mantissa == 0:
        return 0
    if size > 20:
        return "Range"
    if size < -1:
        return "Scale" if is_exact else 0
    value = mantissa * Fraction(10) ** power
    rounded = round(value)
    if abs(value if is_exact else rounded) > LIMIT:
        return "Range"
    return "Scale" if is_exact and rounded != value else rounded


def name_units(name):
    """The code units of a name that is told in plain text."""
    return name.encode("utf-16-be")


def member_of(node, name):
    """The value of an object's member, or None."""
    if node.kind != "object":
        return None
    wanted = name_units(name)
    return next((member.node for member in node.value if member.name == wanted), None)


def present(node):
    """A member's value that is neither missing nor null."""
    return None if node is None or node.kind == "literal" and node.value == b"null" else node


def type_of(node):
    """The string that an object's member `type` is, or None."""
    value = member_of(node, "type")
    return value.value.decode("utf-16-be", "surrogatepass") if value and value.kind == "string" else None


def is_position(node):
    """An array of two numbers or more."""
    return node.kind == "array" and len(node.value) >= 2 and all(item.kind == "number" for item in node.value)


def is_nested(node, depth):
    """An array of arrays, and so on, of positions, as many deep."""
    if depth == 0:
        return is_position(node)
    return node.kind == "array" and all(is_nested(item, depth - 1) for item in node.value)


def has_form(node, kind):
    """Whether the coordinates are in the form of their kind; those of a polygon of many aren't empty."""
    return is_nested(node, DEPTHS[kind]) and (kind != "MultiPolygon" or all(item.value for item in node.value))


class Roles:
    """Walks a tree from its root: what a member means depends on the object that has it."""

    def __init__(self, is_exact, digits):
        self.is_exact = is_exact
        self.digits = digits
        self.faults = []

    def fault(self, kind, node):
        """Gathers a fault at a value."""
        self.faults.append(Fault(kind, node.at))

    def root(self, node):
        """The features of the whole text."""
        kind = type_of(node)
        if kind == "FeatureCollection":
            return self.collection(node)
        if kind == "Feature":
            return [self.feature(node)]
        return [Feature(node.at, self.geometry(node, Shape([], [], [])), [])]

    def collection(self, node):
        """The features of a collection."""
        items = member_of(node, "features")
        if items is None or items.kind != "array":
            self.fault("Form", node)
            return []
        others = [item for item in items.value if type_of(item) != "Feature"]
        self.faults += [Fault("Form", item.at) for item in others]
        return [self.feature(item) for item in items.value if type_of(item) == "Feature"]

    def feature(self, node):
        """A feature with its shape and texts; what is missing or null is empty."""
        shape = Shape([], [], [])
        geometry = present(member_of(node, "geometry"))
        if geometry:
            self.geometry(geometry, shape)
        return Feature(node.at, shape, self.texts(present(member_of(node, "properties"))))

    def texts(self, properties):
        """The members of the properties that are strings."""
        if properties and properties.kind != "object":
            self.fault("Form", properties)
        members = properties.value if properties and properties.kind == "object" else []
        return [(member.name, member.node.value) for member in members if member.node.kind == "string"]

    def geometry(self, node, shape):
        """Adds a geometry to the shape, and gives the shape."""
        kind = type_of(node)
        if kind == "GeometryCollection":
            self.geometries(node, shape)
        elif kind in DEPTHS:
            self.coordinates(node, kind, shape)
        else:
            self.fault("Form", node)
        return shape

    def geometries(self, node, shape):
        """Adds the members of a collection."""
        items = member_of(node, "geometries")
        if items is None or items.kind != "array":
            self.fault("Form", node)
            return
        for item in items.value:
            self.geometry(item, shape)

    def coordinates(self, node, kind, shape):
        """Adds what the coordinates of a geometry say; the empty array says nothing, whatever the kind."""
        value = member_of(node, "coordinates")
        if value is None:
            self.fault("Form", node)
        elif value.kind == "array" and not value.value:
            pass
        elif not has_form(value, kind):
            self.fault("Form", value)
        elif kind in ("Point", "MultiPoint"):
            shape.points.extend(self.position(item) for item in ([value] if kind == "Point" else value.value))
        elif kind in ("LineString", "MultiLineString"):
            shape.lines.extend(self.line(item) for item in ([value] if kind == "LineString" else value.value))
        else:
            shape.polygons.extend(self.polygon(item) for item in ([value] if kind == "Polygon" else value.value))

    def position(self, node):
        """The first two numbers of a position; further ones aren't looked at."""
        return self.number(node.value[0]), self.number(node.value[1])

    def number(self, node):
        """A number in units, or None."""
        value = fixed(node.value, self.is_exact, self.digits)
        if isinstance(value, str):
            self.fault(value, node)
            return None
        return value

    def line(self, node):
        """A line, which has two positions at least."""
        positions = [self.position(item) for item in node.value]
        if len(positions) < 2:
            self.fault("Short", node)
        return positions

    def polygon(self, node):
        """The rings of a polygon."""
        return [self.ring(item) for item in node.value]

    def ring(self, node):
        """A ring, which has four positions at least; its ends are compared where all their numbers are right."""
        positions = [self.position(item) for item in node.value]
        if len(positions) < 4 or None not in positions[0] + positions[-1] and positions[0] != positions[-1]:
            self.fault("Ring", node)
        return positions


def first(faults):
    """The fault that is told."""
    return min(faults, key=Fault.rank)


def read(data, is_exact, digits=DIGITS):
    """The features of a file, or its first fault."""
    try:
        data.decode()
    except UnicodeDecodeError as error:
        return Fault("NotUtf8", error.start)
    try:
        tree = read_tree(data)
    except Stop as stop:
        place = stop.args[0]
        return Fault("Syntax" if place < len(data) else "Ended", place)
    roles = Roles(is_exact, digits)
    features = roles.root(tree)
    faults = twins(tree) + roles.faults
    return first(faults) if faults else features


def fixed_text(value, digits):
    """A coordinate as it is printed."""
    whole, part = divmod(abs(value), 10**digits)
    return f"{'-' if value < 0 else ''}{whole}.{part:0{digits}}"


def extent_text(features, digits):
    """The extent of all positions as it is printed."""
    positions = [position for feature in features for position in feature.shape.positions()]
    if not positions:
        return "empty"
    xs, ys = zip(*positions)
    return " ".join(fixed_text(value, digits) for value in (min(xs), min(ys), max(xs), max(ys)))


def half_hull(positions):
    """The way through positions that turns left at each, without its last one."""
    way = []
    for x, y in positions:
        while len(way) > 1:
            (ax, ay), (bx, by) = way[-2:]
            if (bx - ax) * (y - ay) > (by - ay) * (x - ax):
                break
            way.pop()
        way.append((x, y))
    return way[:-1]


def hull_text(features, digits):
    """The convex hull of all positions as it is printed, from the lowest counterclockwise."""
    positions = {position for feature in features for position in feature.shape.positions()}
    rising = sorted(positions, key=lambda position: position[::-1])
    corners = half_hull(rising) + half_hull(rising[::-1]) or rising
    return "".join(f"{fixed_text(x, digits)} {fixed_text(y, digits)}\n" for x, y in corners) or "empty\n"


def answer(features, verb, digits=DIGITS):
    """What is printed of the features that a query keeps."""
    if verb == "select":
        return "".join(f"{feature.at}\n" for feature in features)
    if verb == "count":
        return f"{len(features)}\n"
    if verb == "area":
        return f"{sum(doubled_area(feature.shape) for feature in features)}\n"
    if verb == "hull":
        return hull_text(features, digits)
    return f"{extent_text(features, digits)}\n"


def joined(features, others):
    """What is printed of the pairs that meet."""
    return "".join(f"{one.at} {other.at}\n" for one in features for other in others if meets(one.shape, other.shape))


def told(data, verb, is_exact, digits=DIGITS, holds=lambda feature: True):
    """What the program has to print of a file, and its status; of a fault the kind and the offset."""
    found = read(data, is_exact, digits)
    if isinstance(found, Fault):
        return f"{found.kind} at {found.at}", 1
    return answer([feature for feature in found if holds(feature)], verb, digits), 0


def main():
    is_exact = "--coords=exact" in sys.argv
    digits = 9 if "--digits=9" in sys.argv else DIGITS
    verb, name = [word for word in sys.argv[1:] if not word.startswith("--")]
    with open(name, "rb") as file:
        text, status = told(file.read(), verb, is_exact, digits)
    sys.stdout.write(text if status == 0 else f"{name}: {text}\n")
    sys.exit(status)


if __name__ == "__main__":
    main()
