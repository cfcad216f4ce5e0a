"""Shapes of whole numbers, and the questions that a query asks of them, each answered over all pairs.

A position is a pair of whole numbers, a line or ring a list of positions, a polygon its exterior and its holes. Nothing
is rounded: where two lines cross is a fraction. tests/oracle.py makes the shapes.
"""
from fractions import Fraction
from typing import NamedTuple


class Shape(NamedTuple):
    """The points, lines and polygons of a geometry, those of its members included."""
    points: list
    lines: list
    polygons: list

    def rings(self):
        """The rings of all polygons."""
        return [ring for polygon in self.polygons for ring in polygon]

    def positions(self):
        """All positions."""
        return self.points + [position for path in self.lines + self.rings() for position in path]

    def segments(self):
        """Each point as a segment, and the pairs of neighbouring positions of lines and rings."""
        return [(point, point) for point in self.points] + [
            pair for path in self.lines + self.rings() for pair in zip(path, path[1:])]


def cross(origin, one, other):
    """Which side of the line through the first two the third lies on."""
    return (one[0] - origin[0]) * (other[1] - origin[1]) - (one[1] - origin[1]) * (other[0] - origin[0])


def is_on(point, begin, end):
    """Whether a point is on a segment."""
    inner = (begin[0] - point[0]) * (end[0] - point[0]) + (begin[1] - point[1]) * (end[1] - point[1])
    return cross(point, begin, end) == 0 and inner <= 0


def have_common_point(one, other):
    """Whether two segments meet: at an end of one, or where their lines cross within both."""
    (a, b), (c, d) = one, other
    if is_on(a, c, d) or is_on(b, c, d) or is_on(c, a, b) or is_on(d, a, b):
        return True
    turn = cross((0, 0), (b[0] - a[0], b[1] - a[1]), (d[0] - c[0], d[1] - c[1]))
    return turn != 0 and 0 <= Fraction(cross(a, c, d), turn) <= 1 and 0 <= Fraction(cross(a, c, b), turn) <= 1


def crossings(point, ring):
    """How many edges of a ring pass the point's height to its right."""
    x, y = point
    edges = [(a, b) for a, b in zip(ring, ring[1:]) if (a[1] <= y) != (b[1] <= y)]
    return sum(a[0] + Fraction((y - a[1]) * (b[0] - a[0]), b[1] - a[1]) > x for a, b in edges)


def is_on_ring(point, ring):
    """Whether a point is on an edge."""
    return any(is_on(point, a, b) for a, b in zip(ring, ring[1:]))


def is_inside(point, polygon):
    """Whether a point is in a polygon, its edges and those of its holes included."""
    exterior, *holes = polygon
    is_within = is_on_ring(point, exterior) or crossings(point, exterior) % 2 == 1
    return is_within and not any(not is_on_ring(point, hole) and crossings(point, hole) % 2 == 1 for hole in holes)


def meets(one, other):
    """Whether two shapes have a common point: of two segments, or a position of one in a polygon of the other."""
    return (any(have_common_point(a, b) for a in one.segments() for b in other.segments())
            or any(is_inside(point, polygon) for point in one.positions() for polygon in other.polygons)
            or any(is_inside(point, polygon) for point in other.positions() for polygon in one.polygons))


def is_in(shape, box):
    """Whether a shape has a position, and all of them are in the closed box."""
    positions = shape.positions()
    return bool(positions) and all(box[0] <= x <= box[2] and box[1] <= y <= box[3] for x, y in positions)


def doubled(ring):
    """Twice the area of a ring."""
    return abs(sum(a[0] * b[1] - b[0] * a[1] for a, b in zip(ring, ring[1:])))


def doubled_area(shape):
    """Twice the area of a shape's polygons, less their holes."""
    return sum(doubled(exterior) - sum(doubled(hole) for hole in holes) for exterior, *holes in shape.polygons)


def box_shape(box):
    """The polygon that stands for a box."""
    a, b, c, d = box
    return Shape([], [], [[[(a, b), (c, b), (c, d), (a, d), (a, b)]]])
