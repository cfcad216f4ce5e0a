"""Lines of Well-Known Text counted by `atgis count` against a plain loop in Rust that reads the same lines into vectors of
pairs, over 200 MB each of points, of lines of 50 positions, and of polygons of 200 positions with 15 digits; and, where its
headers are installed, against the reader of GEOS, which reads one line after another."""
import random
import sys

import measure

SIZE = 200_000_000


def number(source, limit, digits):
    return f"{source.uniform(-limit, limit):.{digits}f}"


def point(source):
    return f"POINT ({number(source, 180, 7)} {number(source, 90, 7)})"


def line(source):
    return "LINESTRING (%s)" % ",".join(f"{number(source, 180, 7)} {number(source, 90, 7)}" for _ in range(50))


def polygon(source):
    ring = [f"{number(source, 99, 13)} {number(source, 90, 13)}" for _ in range(199)]
    return "POLYGON ((%s))" % ",".join(ring + ring[:1])


def writer(feature):
    def write(file):
        source = random.Random(7)
        block = "".join(feature(source) + "\n" for _ in range(2000))
        for _ in range(SIZE // len(block)):
            file.write(block)
    return write


FEATURES = (("points", point), ("lines", line), ("polygons", polygon))

if __name__ == "__main__":
    ours = measure.build_atgis()
    theirs = measure.build_rust("wkt.rs")
    geos = measure.build_geos("geos.c")
    good = True
    for name, feature in FEATURES:
        data = measure.input_file(f"wkt_{name}.wkt", writer(feature))
        good = measure.compare(f"{name} counted", [ours, "count", data], [theirs, "count", data], 2.5) and good
        if geos:
            good = measure.compare(f"{name} counted, against GEOS", [ours, "count", data], [geos, data], 0.1, rounds=3) and good
    sys.exit(0 if good else 1)
