"""Queries by `atgis-many` over 2.2 GB of each form it reads, on all processors, against the program over the same parts as they
lie ready in files, one worker, as many at once as there are processors: processor time, the clock, and the memory that the whole
tree of processes holds. Then a thousand small files, and a collection in which every guessed cut is wrong.

So both sides share the processors' caches and memory with as many runs. The clock is compared with the program's processor time
over the number of processors.

usage: bench/many.py [BYTES]

With BYTES each form has so many instead. Each form is made, cut into files and taken away again, so 2.2 GB take 4.4 GB of
disk; nothing is timed before they are on it. The environment variable ATGIS names a program that is taken for the one that
would be built.
"""
import math
import os
import random
import shutil
import sys
import tempfile
import threading
import time
from concurrent.futures import ThreadPoolExecutor

import measure

sys.path.insert(0, os.path.join(measure.ROOT, "python"))
import atgis_many  # noqa: E402
import atgis_parts  # noqa: E402

SIZE = 2_200_000_000
BLOCK = 20_000
SMALL = 1_000
WRONG = 60_000_000
VERBS = ("count", "area")
ROUNDS = 11
KINDS = ("house", "garage", "church", "school", "barn")
RING = [(math.cos(k * math.pi / 5), math.sin(k * math.pi / 5)) for k in range(10)]
FEATURE = ('{ "type": "Feature", "properties": { "osm_id": "%d", "kind": "%s", "name": "Haus %d Größe", "levels": %d }, '
           '"geometry": { "type": "Polygon", "coordinates": [ [ %s ] ] } }')
HEAD = '{\n"type": "FeatureCollection",\n"name": "buildings",\n"features": [\n'
# What every guess takes for the begin of a feature: in a text, and in an array.
TRAP = ',"t":"},{ \\"type\\": \\"Feature\\"","n":[%s]' % ",".join(['{ "type": "Feature" }'] * 20)
GOALS = {"processor": 1.15, "clock": 1.3, "memory": 2, "small": 0.005, "wrong": 6}


def building(source):
    """The corners of a building of ten, and its kind."""
    x, y, size = source.uniform(6, 15), source.uniform(47.3, 55), source.uniform(0.00005, 0.0004)
    ring = [(x + size * a * source.uniform(.8, 1.2), y + size * b * source.uniform(.8, 1.2)) for a, b in RING]
    return ring + ring[:1], KINDS[int(source.random() ** 3 * 5)]


def feature(source, number):
    """A building as an exporter writes it."""
    ring, kind = building(source)
    return FEATURE % (10**9 + number, kind, number, number % 7, ", ".join(["[ %.7f, %.7f ]" % one for one in ring]))


def wkt(source, number):
    """A building as a line."""
    ring, kind = building(source)
    return '"%s" POLYGON ((%s))' % (kind, ",".join(["%.7f %.7f" % one for one in ring]))


# of each form: the end of a file's name, what is before all features, before each, behind each but the last, and behind all
FORMS = {
    "collection": ("geojson", HEAD, "", ",\n", "\n]\n}\n"), "sequence": ("geojsons", "", "\x1e", "\n", "\n"),
    "lines": ("geojsonl", "", "", "\n", "\n"), "WKT": ("wkt", "", "", "\n", "\n")}


def made(folder, form, size):
    """The path of a file of about so many bytes: the same buildings again and again."""
    end, head, before, between, tail = FORMS[form]
    source = random.Random(5)
    write = wkt if form == "WKT" else feature
    block = between.join(before + write(source, number) for number in range(BLOCK))
    path = os.path.join(folder, f"buildings.{end}")
    with open(path, "w", encoding="utf-8", newline="\n") as file:
        count = max(size // len(block.encode()), 1)
        file.write(head + block)
        for _ in range(count - 1):
            file.write(between + block)
        file.write(tail)
    return path


def ready(folder, path):
    """The parts of a file as files, as the program gets them, each with its form."""
    found = []
    with open(path, "rb") as file:
        for number, part in enumerate(atgis_parts.cut(path, is_last=True)):
            name = os.path.join(folder, f"part{number}")
            head = b""
            if part.head[1]:
                file.seek(part.head[0])
                head = file.read(part.head[1] - part.head[0])
            file.seek(part.begin)
            text = file.read(part.end - part.begin)
            with open(name, "wb") as other:
                text = part.before + head + text + part.after
                other.write(text.replace(b"\n", b"\x1e") if part.has_lines else text)
            found.append((name, part.form))
    return found


class Memory(threading.Thread):
    """The most memory that this process's children held together, without what the system keeps of files."""

    def __init__(self):
        super().__init__(daemon=True)
        self.most, self.ended = 0, threading.Event()

    def run(self):
        while not self.ended.wait(0.05):
            self.most = max(self.most, held(os.getpid()))

    def result(self):
        """Ends, and tells."""
        self.ended.set()
        self.join()
        return self.most


def held(root):
    """The bytes of memory that the processes below a process hold, and no file stands behind."""
    parents, sizes = {}, {}
    for name in filter(str.isdigit, os.listdir("/proc")):
        try:
            with open(f"/proc/{name}/status", encoding="utf-8") as file:
                lines = dict(line.rstrip("\n").split(":\t", 1) for line in file if ":\t" in line)
        except OSError:
            continue
        parents[int(name)] = int(lines["PPid"])
        sizes[int(name)] = 1024 * sum(int(lines.get(key, "0 kB").split()[0]) for key in ("RssAnon", "RssShmem"))
    below = {root}
    for _ in range(4):
        below |= {one for one, parent in parents.items() if parent in below}
    return sum(sizes[one] for one in below - {root} if one in sizes)


def runs_over(tool, atgis, verb, path, parts, jobs):
    """The command's runs with the most memory of each, and the program's processor times over the parts, so many at once."""
    ours, memory, theirs = [], [], []
    commands = [[atgis, "--workers=1", f"--form={form}", verb, name] for name, form in parts]
    for _ in range(ROUNDS):
        watch = Memory()
        watch.start()
        ours.append(measure.run([*tool, verb, path]))
        memory.append(watch.result())
        with ThreadPoolExecutor(jobs) as pool:
            each = list(pool.map(measure.run, commands))
        theirs.append(sum(one.cpu for one in each))
        measure.same(f"{verb} of {path}", ours[-1].printed, b"%d\n" % sum(int(one.printed) for one in each))
    return ours, memory, theirs


def compare_form(form, tool, atgis, size):
    """Compares all queries over one form; whether they meet the goals."""
    good, jobs = True, atgis_many.processors()
    with tempfile.TemporaryDirectory(dir=measure.DATA) as folder:
        path = made(folder, form, size)
        parts = ready(folder, path)
        os.sync()
        title = f"{os.path.getsize(path) / 1e9:.1f} GB of {form} in {len(parts)} parts"
        for verb in VERBS:
            ours, memory, theirs = runs_over(tool, atgis, verb, path, parts, jobs)
            shared = [one / jobs for one in theirs]
            good = measure.tell(f"{verb}, {title}, processor time", measure.cpus(ours), theirs, GOALS["processor"]) and good
            good = measure.tell(f"{verb}, {title}, by the clock", measure.clocks(ours), shared, GOALS["clock"]) and good
            most = max(memory) / atgis_many.PART
            is_small = most <= jobs + GOALS["memory"]
            print(f"{verb}, {title}, most memory: {most:.1f} parts at {jobs} jobs, goal {jobs + GOALS['memory']} "
                  f"{'met' if is_small else 'MISSED'}", flush=True)
            good = is_small and good
    return good


def compare_small(tool):
    """A thousand small files; whether they take as little as the goal, by the clock."""
    source = random.Random(3)
    with tempfile.TemporaryDirectory(dir=measure.DATA) as folder:
        names = [os.path.join(folder, f"{number}.wkt") for number in range(SMALL)]
        for name in names:
            with open(name, "w", encoding="utf-8") as file:
                file.write("".join(wkt(source, number) + "\n" for number in range(10)))
        os.sync()
        runs = [measure.run([*tool, "count", *names]) for _ in range(ROUNDS)]
    measure.same("small files", runs[0].printed, b"%d\n" % (10 * SMALL))
    return measure.tell(f"{SMALL:,} small files, by the clock, against {1000 * GOALS['small']:g} ms each", measure.clocks(runs),
                        [GOALS["small"] * SMALL] * ROUNDS, 1)


def compare_wrong(tool, atgis, size):
    """A collection in which every guessed cut is wrong; whether it costs as little as the goal, against the program alone."""
    source = random.Random(4)
    texts = [feature(source, number).replace('"levels"', TRAP[1:] + ', "levels"') for number in range(1_000)]
    with tempfile.TemporaryDirectory(dir=measure.DATA) as folder:
        path = os.path.join(folder, "wrong.geojson")
        with open(path, "w", encoding="utf-8") as file:
            file.write(HEAD + ",\n".join(texts * max(size // sum(map(len, texts)), 1)) + "\n]\n}\n")
        os.sync()
        ours, theirs = measure.alternate(([*tool, "--part", "4M", "count", path], [atgis, "--workers=1", "count", path]), ROUNDS)
    measure.same("wrong cuts", ours[0].printed, theirs[0].printed)
    return measure.tell("every guessed cut wrong, processor time", measure.cpus(ours), measure.cpus(theirs), GOALS["wrong"])


def keep_compiled(folder):
    """Has Python keep what it compiles of modules, as it does by itself where it may write beside them."""
    os.environ.pop("PYTHONDONTWRITEBYTECODE", None)
    os.environ["PYTHONPYCACHEPREFIX"] = folder


def main():
    size = int(sys.argv[1]) if len(sys.argv) > 1 else SIZE
    atgis = os.environ.get("ATGIS") or measure.build_atgis()
    os.environ["ATGIS"] = atgis
    os.makedirs(measure.DATA, exist_ok=True)
    if shutil.disk_usage(measure.DATA).free < 3 * size:
        sys.exit(f"there is no room for {3 * size} bytes in {measure.DATA}")
    tool = [sys.executable, os.path.join(measure.ROOT, "tools", "atgis-many")]
    begun = time.monotonic()
    with tempfile.TemporaryDirectory(dir=measure.DATA) as folder:
        keep_compiled(folder)
        good = compare_small(tool)
        good = compare_wrong(tool, atgis, min(size, WRONG)) and good
        for form in FORMS:
            good = compare_form(form, tool, atgis, size) and good
    print(f"many took {time.monotonic() - begun:.0f} s", flush=True)
    return 0 if good else 1


if __name__ == "__main__":
    sys.exit(main())
