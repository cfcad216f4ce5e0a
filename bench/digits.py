"""Queries by `atgis` at nine digits against the same at seven, in turn: `count` and `extent` over 200 MB of points, of
lines and of polygons in Well-Known Text, and of GeoJSON like an exporter's. What is told is the processor time
of one worker. Files that are named as arguments are asked in place of these."""
import sys

import geojson
import measure
import wkt

VERBS = ("count", "extent")
GOAL = 1.1


def made_files():
    """The files that the benchmarks of each form are measured over."""
    lines = [measure.input_file(f"wkt_{name}.wkt", wkt.writer(feature)) for name, feature in wkt.FEATURES]
    return lines + [measure.input_file(name, write) for name, write, *_ in geojson.FILES[:1]]


def is_near(atgis, verb, data):
    """Whether nine digits cost at most as much more than seven as the goal says."""
    commands = [[atgis, "--workers", "1", "--digits", digits, verb, data] for digits in ("9", "7")]
    nine, seven = measure.alternate(commands)
    title = f"{verb} of {data} at nine digits, processor time"
    return measure.tell(title, measure.cpus(nine), measure.cpus(seven), GOAL)


def main():
    atgis = measure.build_atgis()
    near = [is_near(atgis, verb, data) for data in sys.argv[1:] or made_files() for verb in VERBS]
    return 0 if all(near) else 1


if __name__ == "__main__":
    sys.exit(main())
