"""The crew against a crew of the same steps in plain Rust: 4,096 blocks, without work and with 10 microseconds of it in each.

With more than one worker the steps contend for the claim word and the nodes' words, most of all where the blocks have no work.
Last it prints what a cache line of its own for the claim word would change, by the plain Rust crew with and without one.
"""
import sys

import measure

GOAL = 1.5
WORKERS = (1, 2, 4)
WORK = (("no work", 600, 0), ("10 microseconds of work", 15, 5000))
ROUNDS = 11


def runs():
    """Each run's name, and its arguments: rounds, workers, turns of work in a block."""
    for name, rounds, turns in WORK:
        for workers in WORKERS:
            yield f"{name}, {workers} worker{'s' * (workers > 1)}", [str(rounds), str(workers), str(turns)]


def claim_word_apart(crew):
    """Prints the ratio of the times with the claim word in a line of its own and with it beside the first nodes' words."""
    for name, arguments in runs():
        apart, beside = measure.alternate(([crew] + arguments + ["apart"], [crew] + arguments), ROUNDS)
        measure.tell(f"claim word in a line of its own, {name}", measure.clocks(apart), measure.clocks(beside))


def main():
    ours = measure.build_rattle("bench_crew")
    theirs = measure.build_rust("crew.rs")
    within = [
        measure.compare(f"crew, {name}", [ours] + arguments, [theirs] + arguments, GOAL, rounds=ROUNDS)
        for name, arguments in runs()
    ]
    claim_word_apart(theirs)
    return 0 if all(within) else 1


if __name__ == "__main__":
    sys.exit(main())
