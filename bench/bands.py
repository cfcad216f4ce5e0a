"""Points against a polygon, by what atgis keeps of it and by GEOS's prepared geometry.

In memory crates/bench_band asks its ring of the points that it makes, and so do a program over GEOS and one in Rust without
bands, which goes over the whole ring for each point as at_geom's `shapes_meet` does. Each runs once more with no
questions, and that time is taken off: what is compared is the loop of questions.

From a file `select where meets POLYGON(..)` reads a million points and tests each. The test alone is that time less the time
of `select`, which prints the other points too and so takes off a little too much. GEOS's program tells the time of its
loop over the same points, already parsed. A word of the command line holds at most 131,072 bytes, so a polygon of
100,000 segments can't be asked of a file.
"""
import math
import random
import sys

import measure

POINTS = 1_000_000
ROUNDS = 5
# the shapes that bench_band makes, and how often all of them are asked
SHAPES, TURNS = 16_384, 64
# segments, the turns of the plain way, which takes long, and the goals: against GEOS's loop, and against the plain way
RINGS = ((4, 64, None, 1.0), (100, 64, None, None), (10_000, 1, 1.0, 1 / 30), (100_000, 0, 2.0, None))
ASKED = (4, 100, 10_000)


def questions(program, turns, segments):
    """The command that asks a ring of all points so many times, and the one that only makes them."""
    return [[*program, str(count), str(segments)] for count in (turns * SHAPES, 0)]


def compare_in_memory(ours, others, segments):
    """Whether our loop of questions meets the goals against others: each a name, a program, its turns and a goal."""
    sides = [(ours, TURNS)] + [(program, turns) for _, program, turns, _ in others]
    commands = [command for program, turns in sides for command in questions(program, turns, segments)]
    runs = measure.alternate(commands, ROUNDS)
    found, one_turn = [], []
    for (_, turns), asked, made in zip(sides, runs[::2], runs[1::2]):
        found.append(int(asked[0].printed) // turns)
        one_turn.append([time / turns for time in measure.less(measure.cpus(asked), measure.cpus(made))])
    good = True
    for (name, _, _, goal), count, theirs in zip(others, found[1:], one_turn[1:]):
        title = f"points against a ring of {segments:,} segments, {name}"
        measure.same(title, found[0], count)
        good = measure.tell(title, one_turn[0], theirs, goal) and good
    return good


def write_points(file):
    source = random.Random(7)
    for _ in range(POINTS):
        file.write(f"POINT ({source.uniform(0, 10_000):.3f} {source.uniform(0, 10_000):.3f})\n")


def polygon(segments):
    """A ragged ring round the middle of the points, whose coordinates have four digits at most."""
    source = random.Random(segments)
    ring = []
    for number in range(segments):
        angle, size = 2 * math.pi * number / segments, source.uniform(4_500, 4_900)
        ring.append(f"{round(5_000 + size * math.cos(angle))} {round(5_000 + size * math.sin(angle))}")
    return "POLYGON ((%s))" % ",".join(ring + ring[:1])


def compare_selects(atgis, geos, segments, data):
    """Tells what a select of the points in a polygon costs, as a whole and for the test alone."""
    text = polygon(segments)
    queries = (f"select where meets {text}", "select")
    commands = [[atgis, "--workers", "1", "--blocks", "1", query, data] for query in queries] + ([[geos, data, text]] if geos else [])
    asked, all_of_them, *theirs = measure.alternate(commands, ROUNDS)
    title = f"select of the points in {segments:,} segments"
    measure.tell(f"{title}, against a select of all", measure.cpus(asked), measure.cpus(all_of_them))
    if theirs:
        measure.same(title, asked[0].printed, theirs[0][0].printed)
        measure.tell(f"{title}, against GEOS", measure.cpus(asked), measure.cpus(theirs[0]))
        test = measure.less(measure.cpus(asked), measure.cpus(all_of_them))
        measure.tell(f"{title}, the test alone against GEOS's loop", test, [float(run.told) for run in theirs[0]])


def main():
    ours, atgis = measure.build_rattle("bench_band"), measure.build_atgis()
    geos, plain = measure.build_geos("bands.c"), measure.build_rust("bands.rs")
    good = True
    for segments, plain_turns, of_geos, of_plain in RINGS:
        others = [("against GEOS's prepared ring", [geos, "made"], TURNS, of_geos)] if geos else []
        if plain_turns:
            others.append(("against the whole ring", [plain], plain_turns, of_plain))
        good = compare_in_memory([ours, "0"], others, segments) and good
    data = measure.input_file("bands.wkt", write_points)
    for segments in ASKED:
        compare_selects(atgis, geos, segments, data)
    return 0 if good else 1


if __name__ == "__main__":
    sys.exit(main())
