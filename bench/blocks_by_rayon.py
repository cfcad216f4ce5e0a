"""Queries over 200 MB of either form in 64 blocks: the crew against `rayon`.

Both sides read the file and its blocks by the same code. The program shares the blocks out among the workers of its crew, as many
as this machine has processors, and merges neighbours as they are done. crates/bench_blocks has `rayon` share them out, collects
all fragments, and merges them from left to right.
"""
import os
import sys

import measure
import workers

BLOCKS = "64"
GOAL = 1.05
ROUNDS = 7


def compare_runs(title, crew, by_rayon, reader, data):
    """Runs both sides in turn; whether the crew meets the goal by the clock. The processor time and what is done after reading are told too."""
    ours, theirs, reading = measure.alternate((crew, by_rayon, [reader, data]), ROUNDS)
    measure.same(title, ours[0].printed, theirs[0].printed)
    good = measure.tell(f"{title}, by the clock", measure.clocks(ours), measure.clocks(theirs), GOAL)
    after = [measure.less(measure.clocks(of), measure.clocks(reading)) for of in (ours, theirs)]
    measure.tell(f"{title}, after reading", *after)
    measure.tell(f"{title}, processor time", measure.cpus(ours), measure.cpus(theirs))
    return good


def main():
    atgis, reader = measure.build_atgis(), measure.build_c("read.c")
    bench_blocks = measure.build_rattle("bench_blocks", "count", "data/places.json", "1")
    count = str(min(os.cpu_count() or 1, 64))
    good = True
    for name, write in workers.FILES:
        data = measure.input_file(name, write)
        for query in workers.QUERIES:
            crew = [atgis, "--workers", count, "--blocks", BLOCKS, query, data]
            good = compare_runs(f"{query} of {name}", crew, [bench_blocks, query, data, BLOCKS], reader, data) and good
    return 0 if good else 1


if __name__ == "__main__":
    sys.exit(main())
