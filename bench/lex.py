"""The stream of tokens against a plain loop with one table in Rust, over 200 MB of GeoJSON of two kinds: with many
coordinates, and with many texts. Both count the tokens by kind, three times over."""
import json
import random
import sys

import measure

SIZE = 200_000_000
WORDS = "the old mill by river bridge tower gate of saint market upper lower street north harbour castle quay".split()


def position(source):
    return f"[{source.uniform(-180, 180):.{source.randint(1, 15)}f},{source.uniform(-90, 90):.{source.randint(1, 15)}f}]"


def many_coordinates(source):
    """A feature with a polygon of some 40 positions."""
    ring = ",".join(position(source) for _ in range(40))
    return '{"type":"Feature","properties":{"id":%d},"geometry":{"type":"Polygon","coordinates":[[%s]]}}' % (source.randint(1, 10**6), ring)


def sentence(source, words):
    text = " ".join(source.choice(WORDS) for _ in range(words))
    return text + source.choice(["", "", "", " \u00fc\u00e4", ' "so"', "\n"])


def many_texts(source):
    """A feature with a point and eight texts, from a word to some 400 bytes."""
    names = {f"name:{k}": sentence(source, source.choice([1, 2, 3, 6, 12, 70])) for k in ("de", "en", "fr", "it", "nl", "pl", "es", "cs")}
    return '{"type":"Feature","properties":%s,"geometry":{"type":"Point","coordinates":%s}}' % (
        json.dumps(names, ensure_ascii=source.random() < 0.3), position(source))


def writer(feature):
    def write(file):
        source = random.Random(7)
        block = ",\n".join(feature(source) for _ in range(4000))
        file.write('{"type":"FeatureCollection","features":[\n' + block)
        for _ in range(SIZE // len(block)):
            file.write(",\n" + block)
        file.write("\n]}\n")
    return write


if __name__ == "__main__":
    ours = measure.build_rattle("bench_lex")
    theirs = measure.build_rust("lex.rs")
    good = True
    for name, feature in (("coordinates", many_coordinates), ("texts", many_texts)):
        data = measure.input_file(f"lex_{name}.json", writer(feature))
        good = measure.compare(f"tokens of many {name}", [ours, data, "3"], [theirs, data, "3"], 2.0) and good
    sys.exit(0 if good else 1)
