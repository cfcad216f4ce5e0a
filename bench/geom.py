"""Exact predicates: at_geom against the same in plain Rust with `i128`, over random segments, and over random
positions in rings of 10 to 10,000 edges. Hulls: at_hull against GEOS, over a million random positions that each side has
in memory; what it takes to make them is taken off."""
import sys

import measure

RINGS = [(10, 2_000_000), (100, 400_000), (1_000, 40_000), (10_000, 4_000)]

POSITIONS = 1_000_000


def compare_hulls(ours, geos):
    """Whether the hull of random positions takes no longer than GEOS's."""
    words = [["hull", str(POSITIONS)], ["positions", str(POSITIONS)]]
    made, only_made, theirs, theirs_only_made = measure.alternate([[side, *asked] for side in (ours, geos) for asked in words])
    measure.same("corners of a hull", made[0].printed, theirs[0].printed)
    times = [measure.less(measure.cpus(whole), measure.cpus(part)) for whole, part in ((made, only_made), (theirs, theirs_only_made))]
    return measure.tell("the hull of a million positions, against GEOS", *times, 1.0)


if __name__ == "__main__":
    ours = measure.build_rattle("bench_geom")
    theirs = measure.build_rust("geom.rs")
    words = ["segments", "10000000"]
    good = measure.compare("pairs of segments", [ours] + words, [theirs] + words, 1.5)
    for edges, count in RINGS:
        words = ["ring", str(count), str(edges)]
        good &= measure.compare(f"positions in a ring of {edges:,} edges", [ours] + words, [theirs] + words, 1.5)
    geos = measure.build_geos("hull.c")
    if geos:
        good &= compare_hulls(ours, geos)
    sys.exit(0 if good else 1)
