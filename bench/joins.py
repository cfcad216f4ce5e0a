"""Joins of two files by `atgis`, with reading them, against a program over GEOS on one thread that reads both as Well-Known
Text, looks up boxes in its tree, and tests prepared geometries: squares half a unit apart (the texts of the made files
`@w:N` and `@g:N`), many squares with few, a skewed pair of files, and long diagonals whose boxes all touch one
another, which is the worst case of any method by boxes. The growth of the first by ten is told too, and the most
memory held, as multiples of the bytes of both files.
"""
import os
import random
import sys

import geojson
import measure

MANY, FEW, MOST = 100_000, 1_000, 1_000_000
CROSSING, BESIDE = 1_000, 2_000
ROUNDS = 5
GROWTH = 12


def squares_writer(count, half=""):
    """The squares of a made file as lines: without a half those of `@w`, with it those of `@g`."""
    def write(file):
        for number in range(count):
            row, left = divmod(number, geojson.COLUMNS)
            file.write(rectangle(f"{left}{half}", row, f"{left + 1}{half}", row + 1))
    return write


def rectangle(left, low, right, high):
    return f"POLYGON (({left} {low},{right} {low},{right} {high},{left} {high},{left} {low}))\n"


def skewed_writer(count, seed):
    """Squares of 0.12 in a square of 1,000, half of them in a thousandth of it: a square of 31.6 in its middle."""
    def write(file):
        source = random.Random(seed)
        for number in range(count):
            low, high = (0, 10_000_000) if number % 2 else (5_000_000, 5_316_228)
            x, y = source.randrange(low, high), source.randrange(low, high)
            file.write(rectangle(*(f"{units / 10_000:.4f}" for units in (x, y, x + 1200, y + 1200))))
    return write


def diagonals_writer(count, first, step, is_falling=False):
    """Lines as long as their extent is wide, which begin `step` apart on its left side."""
    def write(file):
        for number in range(count):
            begin, end = first + number * step, first + number * step + 10_000
            if is_falling:
                begin, end = end, begin
            file.write(f"LINESTRING (0 {begin},10000 {end})\n")
    return write


def lines_of(text, names):
    """Pairs of offsets as pairs of numbers of lines: each feature begins a line, in a file of either form."""
    numbers = [{}, {}]
    for of_one, name in zip(numbers, names):
        offset = 0
        with open(name, "rb") as file:
            for number, line in enumerate(file, start=0 if name.endswith(".wkt") else -1):
                of_one[offset] = number
                offset += len(line)
    pairs = (line.split() for line in text.splitlines())
    return [(numbers[0][int(a)], numbers[1][int(b)]) for a, b in pairs]


def same_pairs(title, text, names, other, other_names):
    if lines_of(text, names) != lines_of(other, other_names):
        sys.exit(f"{title}: different pairs are printed")


def tell_peak(title, command, names):
    """Prints the most memory that a command holds, as a multiple of the bytes of the files that it reads."""
    most = measure.peak(command)
    if most is not None:
        print(f"{title}: most memory {most / sum(map(os.path.getsize, names)):.1f} times the files' bytes", flush=True)


def join(atgis, workers, names):
    return [atgis, "--workers", str(workers), "join", *names]


def compare(title, atgis, geos, names, goals):
    """Joins by four workers, by one, and by GEOS, in turn; whether the goals of four workers and of one are met."""
    texts = [name.replace(".json", ".wkt") for name in names]
    commands = [join(atgis, 4, names), join(atgis, 1, names)] + ([[geos, *texts]] if geos else [])
    four, one, *theirs = measure.alternate(commands, ROUNDS)
    measure.same(title, four[0].printed, one[0].printed)
    tell_peak(f"{title}, four workers", commands[0], names)
    if not geos:
        return True
    same_pairs(title, one[0].printed, names, theirs[0][0].printed, texts)
    tell_peak(f"{title}, GEOS", commands[2], texts)
    by_four = measure.tell(f"{title}, four workers against GEOS", measure.clocks(four), measure.clocks(theirs[0]), goals[0])
    by_one = measure.tell(f"{title}, one worker against GEOS", measure.clocks(one), measure.clocks(theirs[0]), goals[1])
    return by_four and by_one


def compare_growth(atgis, small, large):
    """Joins files and ten times larger ones of the same density, in turn; whether the time grows by no more than the goal."""
    good = True
    for workers in (4, 1):
        of_small, of_large = measure.alternate((join(atgis, workers, small), join(atgis, workers, large)), rounds=3)
        title = f"ten times the squares, {workers} worker{'s' * (workers > 1)}"
        good = measure.tell(title, measure.clocks(of_large), measure.clocks(of_small), GROWTH) and good
    tell_peak("ten times the squares, four workers", join(atgis, 4, large), large)
    return good


def squares(of_first, of_second):
    """The files of squares, the second as GeoJSON; the same squares as lines, which GEOS reads, are written beside it."""
    measure.input_file(f"g{of_second}.wkt", squares_writer(of_second, ".5"))
    first = measure.input_file(f"w{of_first}.wkt", squares_writer(of_first))
    return first, measure.input_file(f"g{of_second}.json", geojson.squares_writer(of_second))


def lines(name, first, second):
    """Two files of lines by their writers."""
    return measure.input_file(f"{name}_a.wkt", first), measure.input_file(f"{name}_b.wkt", second)


def main():
    atgis, geos = measure.build_atgis(), measure.build_geos("join.c")
    skewed = lines("skewed", skewed_writer(MANY, 7), skewed_writer(MANY, 8))
    crossing = lines("crossing", diagonals_writer(CROSSING, 0, 1), diagonals_writer(CROSSING, 0, 1, is_falling=True))
    beside = lines("beside", diagonals_writer(BESIDE, 0, 2), diagonals_writer(BESIDE, 1, 2))
    cases = (
        (f"{MANY:,} by {MANY:,} squares", squares(MANY, MANY), (0.4, 0.7)),
        (f"{MOST:,} by {FEW:,} squares", squares(MOST, FEW), (1.0, None)),
        (f"{MANY:,} by {MANY:,} skewed", skewed, (1.0, None)),
        (f"{CROSSING:,} by {CROSSING:,} crossing diagonals", crossing, (None, None)),
        (f"{BESIDE:,} by {BESIDE:,} diagonals side by side", beside, (None, None)),
    )
    good = True
    for title, names, goals in cases:
        good = compare(title, atgis, geos, names, goals) and good
    good = compare_growth(atgis, squares(MANY, MANY), squares(10 * MANY, 10 * MANY)) and good
    return 0 if good else 1


if __name__ == "__main__":
    sys.exit(main())
