"""Queries over 200 MB of either form by one, two and four workers, and in more and fewer blocks.

What is done after the file is read is the time on the clock less that of a C program that reads the file in the same way and does
nothing with it. A goal of 0.31 is 3.2 times as fast, one of 0.45 is 2.2 times.
"""
import os
import sys

import geojson
import measure
import wkt

FILES = (("wkt_polygons.wkt", wkt.writer(wkt.polygon)), ("places.json", geojson.write_places))
QUERIES = ("count", "area", "select where meets box(0 0,60 60)")
WORKERS = (1, 2, 4)
BLOCKS = (64, 16, 256, 1024)
ROUNDS = 5
AFTER, WHOLE, PROCESSOR = 1 / 3.2, 1 / 2.2, 1.15


def compare_workers(title, atgis, reader, query, data):
    """Runs a query by each number of workers in turn; whether four meet the goals against one."""
    commands = [[atgis, "--workers", str(workers), query, data] for workers in WORKERS]
    *runs, reading = measure.alternate(commands + [[reader, data]], ROUNDS)
    measure.same(title, *(of[0].printed for of in runs))
    after = [measure.less(measure.clocks(of), measure.clocks(reading)) for of in runs]
    good = True
    for at, workers in enumerate(WORKERS[1:], start=1):
        goals = (AFTER, WHOLE, PROCESSOR) if workers == 4 else (None, None, None)
        name = f"{title}, {workers} workers against one"
        good = measure.tell(f"{name}, after reading", after[at], after[0], goals[0]) and good
        good = measure.tell(f"{name}, the whole", measure.clocks(runs[at]), measure.clocks(runs[0]), goals[1]) and good
        good = measure.tell(f"{name}, processor time", measure.cpus(runs[at]), measure.cpus(runs[0]), goals[2]) and good
    return good


def compare_blocks(title, atgis, query, data):
    """Runs a query in each number of blocks in turn, by four workers, and tells the times against those in 64."""
    usual, *runs = measure.alternate([[atgis, "--blocks", str(blocks), query, data] for blocks in BLOCKS], ROUNDS)
    for blocks, of in zip(BLOCKS[1:], runs):
        measure.same(title, usual[0].printed, of[0].printed)
        name = f"{title}, {blocks} blocks against {BLOCKS[0]}"
        measure.tell(f"{name}, by the clock", measure.clocks(of), measure.clocks(usual))
        measure.tell(f"{name}, processor time", measure.cpus(of), measure.cpus(usual))


def main():
    if os.cpu_count() < 4:
        print(f"this machine has {os.cpu_count()} processors, so four workers can't be four times as fast", flush=True)
    atgis, reader = measure.build_atgis(), measure.build_c("read.c")
    good = True
    for name, write in FILES:
        data = measure.input_file(name, write)
        for query in QUERIES:
            title = f"{query} of {name}"
            good = compare_workers(title, atgis, reader, query, data) and good
            compare_blocks(title, atgis, query, data)
    return 0 if good else 1


if __name__ == "__main__":
    sys.exit(main())
