"""The rows of the test of segments, and their answers by exact arithmetic, as rows of Rattle.

A pair of segments ab and cd has a common point where a + s(b - a) = c + t(d - c) has a solution with s and t from 0
to 1. That is decided here by eliminating s and then t from the equations and inequalities (Fourier and Motzkin), over
fractions. No orientation is computed, so the answers are independent of the code's way.

    python3 segment_cases.py            prints the rows of the table in src/tests.rt
"""
from fractions import Fraction

PAIRS = {
    "crossing": [((0, 0), (4, 4), (0, 4), (4, 0)), ((0, 0), (3, 1), (1, -1), (2, 2)), ((0, 0), (7, 3), (1, 3), (5, 0)),
                 ((-5, -5), (5, 6), (-5, 6), (6, -5))],
    "crossing off the units": [((0, 0), (3, 2), (1, 2), (2, 0)), ((0, 0), (1, 1), (0, 1), (1, 0))],
    "touching at an end": [((0, 0), (4, 0), (2, 0), (2, 5)), ((0, 0), (4, 0), (4, 0), (4, 5)), ((0, 0), (4, 4), (2, 2), (9, 1)),
                           ((1, 2), (3, 6), (5, 5), (2, 4))],
    "just short of touching": [((0, 0), (4, 0), (2, 1), (2, 5)), ((0, 0), (4, 4), (3, 2), (9, 1)), ((0, 0), (7, 3), (4, 2), (4, 9)),
                               ((0, 0), (4, 4), (5, 5), (9, 0))],
    "parallel": [((0, 0), (4, 4), (0, 1), (4, 5)), ((0, 0), (4, 0), (0, 1), (4, 1)), ((0, 0), (0, 4), (1, 0), (1, 4))],
    "on one line, apart": [((0, 0), (1, 1), (2, 2), (3, 3)), ((0, 0), (2, 0), (3, 0), (5, 0)), ((0, 0), (0, 2), (0, 3), (0, 9)),
                           ((6, 3), (4, 2), (2, 1), (0, 0))],
    "on one line, touching": [((0, 0), (2, 2), (2, 2), (3, 3)), ((0, 0), (0, 2), (0, 9), (0, 2)), ((5, 0), (3, 0), (3, 0), (1, 0))],
    "on one line, overlapping": [((0, 0), (2, 2), (1, 1), (3, 3)), ((0, 0), (0, 4), (0, 3), (0, 9)), ((4, 2), (0, 0), (2, 1), (6, 3))],
    "on one line, contained": [((0, 0), (9, 3), (3, 1), (6, 2)), ((3, 1), (6, 2), (9, 3), (0, 0)), ((0, 0), (2, 2), (0, 0), (2, 2))],
    "a position and a segment": [((0, 0), (2, 2), (1, 1), (1, 1)), ((1, 1), (1, 1), (0, 0), (2, 2)), ((0, 0), (2, 2), (1, 2), (1, 2)),
                                 ((0, 0), (2, 2), (3, 3), (3, 3)), ((0, 0), (0, 4), (0, 5), (0, 5)), ((0, 0), (3, 2), (1, 1), (1, 1))],
    "two positions": [((1, 1), (1, 1), (1, 1), (1, 1)), ((1, 1), (1, 1), (1, 2), (1, 2)), ((1, 1), (1, 1), (0, 0), (0, 0))],
    "boxes that overlap, apart": [((0, 0), (10, 1), (1, 1), (3, 9)), ((0, 0), (10, 10), (6, 3), (9, 8)), ((0, 5), (5, 0), (4, 4), (4, 2))],
}


def eliminate(rows):
    """The inequalities `row . unknowns <= 0` without their first unknown."""
    above, below, rest = [], [], []
    for row in rows:
        (above if row[0] > 0 else below if row[0] < 0 else rest).append(row)
    for low in below:
        for high in above:
            rest.append([l / -low[0] + h / high[0] for l, h in zip(low, high)])
    return [row[1:] for row in rest]


def have_common_point(a, b, c, d):
    """Whether s and t from 0 to 1 solve both equations: each row means row . (s, t, 1) <= 0."""
    rows = [[-1, 0, 0], [1, 0, -1], [0, -1, 0], [0, 1, -1]]
    for axis in (0, 1):
        equation = [b[axis] - a[axis], c[axis] - d[axis], a[axis] - c[axis]]
        rows += [equation, [-number for number in equation]]
    rows = [[Fraction(number) for number in row] for row in rows]
    return all(row[0] <= 0 for row in eliminate(eliminate(rows)))


if __name__ == "__main__":
    for name, pairs in PAIRS.items():
        print(f"    // {name}")
        for a, b, c, d in pairs:
            answer = str(have_common_point(a, b, c, d)).lower()
            print(f"    ([{a[0]}, {a[1]}, {b[0]}, {b[1]}, {c[0]}, {c[1]}, {d[0]}, {d[1]}], {answer}),")
