"""The fragments of pieces of GeoJSON under an algebra that counts values, over the two inputs of lex.py: in one block against
the stream of tokens alone, in 64 blocks that are merged against one block, and in one block against a walk by simdjson, where
its headers are installed. All count the values of the file, twice over.

Then GeoJSON as `count` reads it, at once where it can be, against the same read item by item: small squares, and features
on which each attempt to read a value at once fails, whose last members have an escape in their names."""
import sys

import geojson
import lex
import measure

FEATURES = 100_000


def in_vain(number):
    """A feature that is unusual in its last member, and so are its properties."""
    members = ",".join(f'"m{n}":{number * n % 97}' for n in range(8))
    return '{"type":"Feature","geometry":null,"properties":{%s,"nam\\u0065":"g%d"},"i\\u0064":%d}' % (members, number, number)


def write_in_vain(file):
    """So many of them."""
    file.write('{"type":"FeatureCollection","features":[')
    for number in range(FEATURES):
        file.write(("," if number else "") + "\n" + in_vain(number))
    file.write("\n]}\n")


if __name__ == "__main__":
    ours = measure.build_rattle("bench_nest", "data/point.json", "3", "2")
    simdjson = measure.build_simdjson("nest.cpp")
    good = True
    for name, feature in (("coordinates", lex.many_coordinates), ("texts", lex.many_texts)):
        data = measure.input_file(f"lex_{name}.json", lex.writer(feature))
        one = [ours, data, "1", "2"]
        good = measure.compare(f"values of many {name}, against their tokens alone", one, [ours, data, "0", "2"], 2.5) and good
        good = measure.compare(f"values of many {name} in 64 blocks, against one", [ours, data, "64", "2"], one, 1.05) and good
        if simdjson:
            good = measure.compare(f"values of many {name}, against simdjson", one, [simdjson, data, "1", "2"], 1.0) and good
    inputs = (("small squares", "squares", geojson.squares_writer(FEATURES), None), ("features, each in vain", "in_vain", write_in_vain, 1.2))
    for name, of, write, goal in inputs:
        data = measure.input_file(f"nest_{of}.json", write)
        ways = ([ours, data, "1", "3", "1", how] for how in ("at-once", "stepwise"))
        good = measure.compare(f"{name}, read at once, against item by item", *ways, goal) and good
    sys.exit(0 if good else 1)
