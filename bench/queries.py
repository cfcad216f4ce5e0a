"""Queries over 200 MB of Well-Known Text by `atgis` against a plain loop in Rust that does the same work: the extent and the area
of all features, and the offsets of those that meet a box; and, where its headers are installed, against the reader of GEOS,
which reads one line after another and answers nothing."""
import sys

import measure
import wkt

QUERIES = (("extent", "extent"), ("area", "area"), ("select", "select where meets box(10 10,20 20)"))

if __name__ == "__main__":
    ours = measure.build_atgis()
    theirs = measure.build_rust("wkt.rs")
    geos = measure.build_geos("geos.c")
    good = True
    for name, feature in wkt.FEATURES:
        data = measure.input_file(f"wkt_{name}.wkt", wkt.writer(feature))
        for verb, query in QUERIES:
            good = measure.compare(f"{query} over {name}", [ours, query, data], [theirs, verb, data], 2.5, rounds=5) and good
            if geos:
                runs = measure.alternate(([ours, query, data], [geos, data]), rounds=3)
                good = measure.tell(f"{query} over {name}, against GEOS's reader", *map(measure.clocks, runs), 0.1) and good
    sys.exit(0 if good else 1)
