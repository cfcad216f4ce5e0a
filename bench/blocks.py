"""200 MB of Well-Known Text cut into 64 and into 4,096 blocks against the same file in one block."""
import sys

import measure
import wkt

GOALS = ((64, 1.1), (4096, 1.3))

if __name__ == "__main__":
    ours = measure.build_atgis()
    good = True
    for name, feature in wkt.FEATURES:
        data = measure.input_file(f"wkt_{name}.wkt", wkt.writer(feature))
        for blocks, goal in GOALS:
            cut = [ours, "--blocks", str(blocks), "count", data]
            good = measure.compare(f"{name} in {blocks} blocks", cut, [ours, "--blocks", "1", "count", data], goal) and good
    sys.exit(0 if good else 1)
