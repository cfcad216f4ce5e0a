"""`count` over files that come in chunks (`--feed`) against the same by one worker in one block, in turn: processor time and
the most memory held over 64 MB of GeoJSON and of lines, and over 4 MB how many instructions callgrind counts.

The files are fronts of those that `geojson` and `wkt` measure.
"""
import os
import sys

import geojson
import measure
import wkt

LARGE, SMALL = 64_000_000, 4_000_000
ROUNDS = 7
# the bytes of a chunk, and the goals for instructions and for processor time
SIZES = (("65536", 1.2, 1.5), ("4096", 1.2, 1.5), ("64", 2, 2))
MEMORY = 1.6
# a file, how it is written, what stands between two features, and what ends a front of it
FILES = (
    ("places.json", geojson.write_places, ",\n", "\n]\n}\n"),
    *((f"wkt_{name}.wkt", wkt.writer(feature), "\n", "\n") for name, feature in wkt.FEATURES if name != "lines"),
)


def front_writer(whole, size, between, end):
    """The first features of a file, with about so many bytes."""
    def write(file):
        with open(whole, encoding="utf-8", newline="") as source:
            file.write(source.read(size).rpartition(between)[0] + end)
    return write


def plain(atgis, data):
    return [atgis, "--workers", "1", "--blocks", "1", "count", data]


def fed(atgis, size, data):
    return [atgis, "--feed", size, "count", data]


def compare_times(name, atgis, data):
    """Times chunks of each size against none, and tells the most memory held; whether the goals are met."""
    usual, *runs = measure.alternate([plain(atgis, data)] + [fed(atgis, size, data) for size, *_ in SIZES], ROUNDS)
    good = True
    for (size, _, goal), of in zip(SIZES, runs):
        measure.same(f"{name} in chunks of {size}", usual[0].printed, of[0].printed)
        good = measure.tell(f"{name} in chunks of {size}, processor time", measure.cpus(of), measure.cpus(usual), goal) and good
        most = measure.peak(fed(atgis, size, data))
        if most is not None:
            title = f"{name} in chunks of {size}, most memory against the file's bytes"
            good = measure.tell(title, [most], [os.path.getsize(data)], MEMORY) and good
    return good


def compare_instructions(name, atgis, data):
    """Counts the instructions of chunks of each size against those of none; whether the goals are met."""
    usual = measure.instructions(plain(atgis, data))
    if usual is None:
        return True
    good = True
    for size, goal, _ in SIZES:
        title = f"{name} in chunks of {size}, instructions"
        good = measure.tell(title, [measure.instructions(fed(atgis, size, data))], [usual], goal) and good
    return good


def main():
    atgis = measure.build_atgis()
    good = True
    for name, write, between, end in FILES:
        whole = measure.input_file(name, write)
        for size, compare in ((LARGE, compare_times), (SMALL, compare_instructions)):
            data = measure.input_file(f"{size}_of_{name}", front_writer(whole, size, between, end))
            good = compare(name, atgis, data) and good
    return 0 if good else 1


if __name__ == "__main__":
    sys.exit(main())
