"""Reading numbers: at_fixed against a hand-written loop in Rust, over 20 million numbers of one to 17 digits."""
import random
import sys

import measure

COUNT = 20_000_000


def number(random_bits):
    """A number of one to 17 digits, at most 8 of them before the point, with a minus or none."""
    digits = 1 + random_bits % 17
    random_bits //= 17
    whole = 1 + random_bits % min(digits, 8)
    random_bits //= 8
    sign = "-" if random_bits % 2 else ""
    random_bits //= 2
    text = str(random_bits % 10 ** digits).rjust(digits, "0")
    lead = text[:whole].lstrip("0") or "0"
    return sign + lead + ("." + text[whole:] if whole < digits else "")


def write(file):
    source = random.Random(20)
    for _ in range(COUNT // 1000):
        file.write("".join(number(source.getrandbits(72)) + "\n" for _ in range(1000)))


if __name__ == "__main__":
    ours = measure.build_rattle("bench_fixed")
    theirs = measure.build_rust("fixed.rs")
    data = measure.input_file("fixed.txt", write)
    two = measure.compare("numbers by json_number and read_fixed", [ours, "two", data], [theirs, data], 2.0)
    one = measure.compare("numbers by leading_number", [ours, "one", data], [theirs, data], 2.0)
    sys.exit(0 if two and one else 1)
