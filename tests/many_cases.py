"""What `many` checks that isn't random: cuts that are wrong, faults by their tiers, failures, journals, the command."""
import os
import pickle
import pty
import random
import re
import signal
import subprocess
import sys
import time
import tracemalloc
from typing import Any, Callable, Dict, Iterator, List, Optional, Tuple

import many_files
from program import REPOSITORY

sys.path.insert(0, os.path.join(REPOSITORY, "python"))
import atgis  # noqa: E402
import atgis_many  # noqa: E402

TOOL = os.path.join(REPOSITORY, "tools", "atgis-many")
SIZES = (1, 30, 100, 300, 700, 1000, 3000, 100_000)
BAD = ('{"type":"Feature","geometry":{"type":"Point","coordinates":[1]}}', '{"type":"Foo"}',
       '{"type":"Feature","geometry":{"type":"Polygon","coordinates":[[[0,0],[1,0],[1,1],[0,1]]]}}',
       '{"type":"Feature","properties":{"a":1,"a":2},"geometry":null}',
       '{"type":"Feature","geometry":{"type":"LineString","coordinates":[[0,0]]}}',
       '{"type":"Feature","geometry":{"type":"Point","coordinates":[1e99,0]}}')
BAD_LINES = ("POLYGON ((0 0,1 0,1 1,0 1))", "LINESTRING (1 2)", "POINT (1 2", "PINT (1 2)", "POINT (1e99 2)", '"a"')
# A program that fails until it was called so often over a part; a call over a made file is that of the words.
FLAKY = """#!/bin/sh
case " $* " in *@w:0*) exec "$REAL" "$@";; esac
echo x >> "$STATE"
if [ "$(wc -l < "$STATE")" -le "$TIMES" ]; then cat > /dev/null; FAILURE; fi
exec "$REAL" "$@"
"""
Check = Tuple[str, Optional[str]]
Outcome = Tuple[str, str, int]


def differs(what: str, got: object, wanted: object) -> Check:
    """A check, and what is wrong with it."""
    return what, None if got == wanted else f"{got!r}, not {wanted!r}"


def put(folder: str, name: str, text: Any) -> str:
    """The path of a new file."""
    path = os.path.join(folder, name)
    with open(path, "wb") as file:
        file.write(text if isinstance(text, bytes) else text.encode())
    return path


def dataset(path: Any, size: int = 300, **options: Any) -> atgis_many.Dataset:
    """A data set in parts of a size, without a line of progress."""
    return atgis_many.Dataset(path, part_size=size, progress=False, **options)


def refused(ask: Callable[[], Any]) -> str:
    """The line of what is raised, or what is answered."""
    try:
        return f"answered {ask()!r}"
    except (atgis.AtgisError, atgis_many.CannotCut, atgis_many.PartFailed, atgis_many.JournalError) as error:
        return getattr(error, "line", str(error))


def point(number: int, more: str = "") -> str:
    """A Feature that is a point."""
    return ('{"type":"Feature","properties":{"k":%d%s},"geometry":{"type":"Point","coordinates":[%d,%d]}}'
            % (number, more, number, number))


def points(count: int, more: str = "") -> List[str]:
    """Features that are points."""
    return [point(number, more) for number in range(count)]


def collection(features: List[str], front: str = '"type":"FeatureCollection",', back: str = "") -> str:
    """A collection of features, with members before and behind them."""
    return "{" + front + '"features":[' + ",\n".join(features) + "]" + back + "}"


# ---- cuts ------------------------------------------------------------------------------------------------------------

def cut_checks(folder: str) -> Iterator[Check]:
    """Files in which what looks like the begin of a feature is none, in parts of many sizes: how many features."""
    ten, others = points(10), ",".join(points(10))
    mean = ',"t":"},{\\"type\\":\\"Feature\\"","n":[{"type":"Feature"},{"type":"Feature"},{"type":"Feature"}]'
    kind = ',"type":"FeatureCollection"'
    meant, ending = points(30, mean), points(10, ',"e":[{"a":1}],"f":[{"type":"Feature"}],"g":2')
    files = {
        "features in another member": (collection(ten, back=f',"old":[{others}]'), ten),
        "features in a member of a member": (collection(ten, back=f',"old":{{"features":[{others}]}}'), ten),
        "features in two other members": (collection(ten, back=f' , "a" : [ {others} ] , "b":[{others}],"c":1'), ten),
        "features before the features": (collection(ten, front=f'"old":[{others}],"type":"FeatureCollection",'), ten),
        "the type behind": (collection(ten, "", kind), ten),
        "the type behind, and features between": (collection(ten, "", f',"old":[{others}]{kind}'), ten),
        "a type in escapes": (collection(ten, '"t\\u0079pe":"Feature\\u0043ollection",'), ten),
        "every cut wrong": (collection(meant), meant),
        "arrays that end behind objects": (collection(ending), ending),
        "no features": (collection([]), []),
        "no features, and such in another member": (collection([], back=f',"old":[{others}]'), []),
        "one feature": (point(3), [point(3)]),
        "a feature whose member has features": (f'{{"geometry":null,"features":[{others}],"type":"Feature"}}', None),
    }
    for what, (text, features) in files.items():
        path = put(folder, "cut.json", text)
        begins, at = [0] if features is None else [], max(text.find('"features":['), 0)
        for one in features or []:
            at = text.index(one, at) + 1
            begins.append(at - 1)
        got = [dataset(path, size).count() for size in SIZES]
        yield differs(f"cuts: {what}", got, [len(begins)] * len(SIZES))
        got = [dataset(path, size).count("in box(-1 -1,99 99)") for size in SIZES]
        yield differs(f"cuts: {what}: with a test", got, [len(features or [])] * len(SIZES))
        places = [[one.offset for one in dataset(path, size).select()] for size in SIZES]
        yield differs(f"cuts: {what}: select", places, [begins] * len(SIZES))


def fault_in_cut_checks(folder: str) -> Iterator[Check]:
    """Faults of collections that are cut: where they stand is worked out from the text."""
    ten, others = points(10), ",".join(points(10))
    twice = collection(ten, back=f',"old":[{others}],"old":[]')
    kind = '"type":"FeatureCollection"'
    typed = collection(ten, "", f',"type":[{others}],{kind}')
    bare = collection(ten, "", f',"type":[{others}]')
    item = collection([*ten[:7], "0", *ten[7:]], back=f',"old":[{others}],"old":1')
    late = collection([*ten, "0"], back=f',"old":[{others}],"old":[{others}],"older":[{others}]')
    files = {
        "a name twice, behind an item that is no feature": (late, f'Twin at {late.rindex(chr(34) + "old" + chr(34))}'),
        "a name twice behind the features": (twice, f'Twin at {twice.rindex(chr(34) + "old")}'),
        "the type twice behind the features": (typed, f'Twin at {typed.rindex(kind)}'),
        "the type is an array": (bare, "Form at 0"),
        "an item that is no feature, and a name twice": (item, f'Twin at {item.rindex(chr(34) + "old")}'),
        "an item that is no feature": (collection([*ten[:7], "0", *ten[7:]]), "Form at {0}"),
        "a bracket is missing": (collection(ten)[:-1], f"Ended at {len(collection(ten)) - 1}"),
        "the head is no JSON": ("{[}" + collection(ten)[1:], "Syntax at 1"),
        "a bracket too many in the head": (collection(ten, '"type":"FeatureCollection","x":[}],'), "Syntax at 33"),
    }
    for what, (text, fault) in files.items():
        path = put(folder, "fault.json", text)
        wanted = f"{path}: {fault.format(text.find(',0,') + 1 if ',0,' in text else text.find('0' + ',' + chr(10)))}"
        got = [refused(ask) for size in SIZES for ask in (dataset(path, size).count, dataset(path, size).area)]
        yield differs(f"faults: {what}", got, [wanted] * 2 * len(SIZES))


def tier_checks(folder: str) -> Iterator[Check]:
    """A fault of each tier in an early, a middle and a late part of each form, beside one of the last tier."""
    good, last = "POINT (1 2)", "POINT (1e99 2)"
    wkt = {"NotUtf8": (b"POINT (1 2)\xff", 11), "Syntax": (b"PINT (1 2)", 1), "Ended": (b"POINT (1 2", 10),
           "Ring": (b"POLYGON ((0 0,1 1))", 9)}
    json_texts = {"NotUtf8": (b'{"type":"\xff"}', 9), "Syntax": (b'{"type":"Feature";}', 17),
                  "Twin": (b'{"type":"Feature","type":"Feature"}', 18),
                  "Form": (b'{"type":"Feature","geometry":1}', 29)}
    rows = [(form, kind, place) for form in ("wkt", "lines", "seq", "geojson")
            for kind in (wkt if form == "wkt" else json_texts) for place in (0, 15, 29)]
    for form, kind, place in rows:
        text, inner = (wkt if form == "wkt" else json_texts)[kind]
        items = [last.encode() if form == "wkt" else BAD[5].encode() if number == 20 else
                 good.encode() if form == "wkt" else point(number).encode() for number in range(30)]
        if form == "wkt":
            items = [last.encode() if number == 20 else good.encode() for number in range(30)]
        items[place] = text
        front, between, back = {"geojson": (b'{"type":"FeatureCollection","features":[', b",", b"]}"),
                                "seq": (b"\x1e", b"\n\x1e", b"\n")}.get(form, (b"", b"\n", b"\n"))
        path = put(folder, "tier", front + between.join(items) + back)
        offset = len(front + between.join(items[:place])) + (len(between) if place else 0) + inner
        if kind in ("Ring", "Form") and place > 20:             # then the other one comes first
            continue
        got = [refused(dataset(path, size, form=form).count) for size in (100, 1000)]
        yield differs(f"tiers: {kind} of {form} at {place}", got, [f"{path}: {kind} at {offset}"] * 2)


def late_check(folder: str) -> Check:
    """A fault behind byte 2^31, in a file of bytes that are stored nowhere: zeros, and lines of 2^26 of them.

    Each of these lines has a fault of the second tier, so the byte that is no UTF-8 is told first.
    """
    path, begin = os.path.join(folder, "late.wkt"), 2**31 + 12345
    with open(path, "wb") as file:
        for at in range(2**26, begin, 2**26):
            file.seek(at)
            file.write(b"\n")
        file.seek(begin)
        file.write(b"POINT (1 2)\xff\n")
    try:
        got = refused(dataset(path, 2**26, jobs=2).count)
        return differs("a fault behind 2^31", got, f"{path}: NotUtf8 at {begin + 11}")
    finally:
        os.remove(path)


def edge_checks(folder: str) -> Iterator[Check]:
    """Marks, ends of lines, and files and parts of nothing."""
    mark, line = "\ufeff", "POINT (1 2)"
    counts = {
        ("wkt", ""): 0, ("seq", ""): 0, ("lines", ""): 0, ("lines", "\n\n"): 0, ("seq", "\x1e\x1e \x1e"): 0,
        ("wkt", mark): 0, ("lines", mark): 0, ("seq", mark): 0, ("wkt", "\n" * 400 + line): 1,
        ("wkt", f"{mark}{line}\r\n{line}\r\n\r\n{line}"): 3, ("wkt", f"{line}\n" * 99): 99,
        ("lines", f"{mark}{point(1)}\r\n\n{point(2)}"): 2, ("lines", f"{point(1)}\n" * 40): 40,
        ("lines", collection(points(3)).replace("\n", " ") + f"\n{point(1)}\n"): 4,
        ("seq", f"{mark} \x1e{point(1)}\n\x1e\n\x1e{point(2)}"): 2,
        ("geojson", f"{mark} {collection(points(20))}\n"): 20}
    for (form, text), count in counts.items():
        path = put(folder, "edge", text)
        got = [dataset(path, size, form=form).count() for size in (1, 30, 300)]
        yield differs(f"edges: {form} {text[:30]!r}", got, [count] * 3)
    path = put(folder, "marks.wkt", f"{line}\n{mark}{line}\n")
    yield differs("edges: a mark at a part's begin", refused(dataset(path, 5).count), f"{path}: Syntax at 12")
    path = put(folder, "marks.geojsonl", f"{point(1)}\n{mark}{point(1)}\n")
    at = len(point(1)) + 1
    yield differs("edges: a mark in a later line", refused(dataset(path, 5).count), f"{path}: Syntax at {at}")
    path = put(folder, "rs.geojsonl", f"{point(1)}\x1e{point(1)}\n")
    yield differs("edges: an RS in a line", refused(dataset(path, 5).count), f"{path}: Syntax at {at - 1}")
    path = put(folder, "cut.geojsonl", f"{point(1)[:-1]}\n{point(1)}\n")
    yield differs("edges: a line that ends early", refused(dataset(path, 5).count), f"{path}: Ended at {at - 2}")


# ---- all faults, features, memory ------------------------------------------------------------------------------------

def faults_checks(folder: str) -> Iterator[Check]:
    """Files with features that are wrong here and there, each of which has to be told."""
    for case in range(24):
        rng = random.Random(case)
        form = ("geojson", "lines", "seq", "wkt")[case % 4]
        is_wrong = [rng.random() < .25 for _ in range(rng.randrange(1, 60))]
        texts = [rng.choice(BAD_LINES if form == "wkt" else BAD) if wrong else "POINT (1 2)" if form == "wkt" else
                 many_files.feature(rng, many_files.any_order(rng)) for wrong in is_wrong]
        front, between, back = {"geojson": ('{"type":"FeatureCollection","features":[', ",\n", "]}"),
                                "seq": ("\x1e", "\n\x1e", "\n")}.get(form, ("", "\n", "\n"))
        data = (front + between.join(texts) + back).encode()
        path = put(folder, "faults", data)
        ends, at = [], len(front)
        for text in texts:
            at += len(text.encode()) + len(between)
            ends.append(at)
        told = list(dataset(path, rng.choice((50, 300, 5000)), form=form).faults())
        found = [next(place for place, end in enumerate(ends) if one.offset < end) for one in told]
        yield differs(f"all faults: {form} {case}", found, [place for place, wrong in enumerate(is_wrong) if wrong])
        first = refused(dataset(path, form=form).count)
        is_told = first.startswith("answered") if not told else first in [one.line for one in told]
        yield f"all faults: the first of {form} {case} is among them", None if is_told else f"{first} {told}"
    text = collection([point(1), BAD[3], point(2), BAD[1], point(3) + "}", BAD[1]])
    path = put(folder, "faults", text)
    wanted = [f"{path}: Twin at {text.index(BAD[3]) + BAD[3].rindex(chr(34) + 'a')}",
              f"{path}: Form at {text.index(BAD[1])}",
              f"{path}: Syntax at {text.index(point(3)) + len(point(3))}"]
    yield differs("all faults: up to one of the JSON", [one.line for one in dataset(path, 50).faults()], wanted)


def features_checks(folder: str) -> Iterator[Check]:
    """The bytes of features, which are those that the file was made of."""
    for form in many_files.MAKERS:
        rng = random.Random(form)
        if form == "wkt":
            texts = [many_files.wkt_of(many_files.shape(rng)) for _ in range(40)]
        else:
            order = many_files.any_order(rng)
            texts = [many_files.feature(rng, order) for _ in range(40)]
        made = {"wkt": "\r\n".join(texts), "lines": "\r\n".join(texts), "geojson": collection(texts),
                "seq": "".join(f"\x1e{text} \n" for text in texts)}[form]
        path = put(folder, "features", made)
        for size in (50, 1000):
            got = [one.decode() for one in dataset(path, size, form=form).features()]
            yield differs(f"features: all of {form} by {size}", got, texts)
        test = "meets box(-5 -5,5 5)" if form == "wkt" else 'has "kind" = "a"'
        kept = {one.offset for one in dataset(path, 300, form=form).select(test)}
        keep = [text.encode() for text, offset in zip(texts, offsets(path, form)) if offset in kept]
        yield differs(f"features: some of {form}", list(dataset(path, 300, form=form).features(test)), keep)
    rows = [f'{{"type":"FeatureCollection","features":[{point(1)} , {point(2)}]}}', point(3)]
    path = put(folder, "several.geojsonl", "\n".join(rows))
    yield differs("features: several in a line", list(dataset(path).features()), [point(k).encode() for k in (1, 2, 3)])


def offsets(path: str, form: str) -> List[int]:
    """Where the features of a file begin."""
    return [one.offset for one in dataset(path, 10_000, form=form).select()]


def memory_check(folder: str) -> Check:
    """The most memory that a join of many pairs takes here: 90,000 of them, of one part of the first file."""
    one = put(folder, "one.wkt", "POLYGON ((0 0,1 0,1 1,0 1,0 0))\n" * 300)
    other = put(folder, "other.wkt", "POINT (0.5 0.5)\n" * 300)
    tracemalloc.start()
    count = sum(1 for _ in dataset(one, 1 << 20).join(dataset(other, 500)))
    most = tracemalloc.get_traced_memory()[1]
    tracemalloc.stop()
    is_small = count == 90_000 and most < 24 * count + 500_000
    return "memory of a join", None if is_small else f"{most} bytes for {count} pairs"


# ---- failures and journals -------------------------------------------------------------------------------------------

def flaky(folder: str, times: int, failure: str) -> Dict[str, str]:
    """The environment of a program that fails so many times in a way."""
    state = put(folder, "state", b"")
    path = put(folder, "flaky", FLAKY.replace("FAILURE", failure))
    os.chmod(path, 0o755)
    return {**os.environ, "REAL": os.environ["ATGIS"], "STATE": state, "TIMES": str(times), "ATGIS": path}


def command(words: List[str], env: Optional[Dict[str, str]] = None) -> Outcome:
    """What the command writes to both outputs, and its status."""
    done = subprocess.run([sys.executable, TOOL, *words], env=env, capture_output=True, check=False)
    out, err = (text.decode("utf-8", "surrogateescape") for text in (done.stdout, done.stderr))
    return out, err, done.returncode


def failure_checks(folder: str) -> Iterator[Check]:
    """Parts that fail some times, and too often."""
    path = put(folder, "fails.wkt", "POINT (1 2)\n" * 100)
    words = ["--part", "200", "--jobs", "1", "count", path]
    memory, signal = 'echo "out of memory" >&2; exit 5', "kill -9 $$"
    yield differs("failures: memory, twice", command(words, flaky(folder, 2, memory)), ("100\n", "", 0))
    yield differs("failures: a signal, twice", command(words, flaky(folder, 2, signal)), ("100\n", "", 0))
    yield differs("failures: memory, always", command(words, flaky(folder, 999, memory)), ("", "out of memory\n", 5))
    out, err, status = command(words, flaky(folder, 999, signal))
    is_told = re.fullmatch(re.escape(path) + r": bytes 0 to \d+: the program ended with status -9\n", err)
    yield "failures: a signal, always", None if (out, status) == ("", 8) and is_told else f"{(out, err, status)!r}"
    gone = {**os.environ, "ATGIS": os.path.join(folder, "none")}
    yield differs("failures: no program", command(words, gone)[2], 8)


def journal_checks(folder: str) -> Iterator[Check]:
    """A run that is ended goes on where it was, by a journal."""
    path, journal = put(folder, "journal.wkt", "POINT (1 2)\n" * 100), os.path.join(folder, "journal")
    words = ["--part", "200", "--jobs", "1", "--journal", journal, "count", path]
    late = 'n=$(wc -l < "$STATE"); [ "$n" -lt 4 ] || kill -9 $$; exec "$REAL" "$@"'
    env = flaky(folder, 999, late.replace("; exec", "; exec"))
    env["ATGIS"] = put(folder, "late", FLAKY.replace("cat > /dev/null; FAILURE", late))
    os.chmod(env["ATGIS"], 0o755)
    yield differs("journal: a run that is ended", command(words, env)[2], 8)
    env = flaky(folder, 0, "exit 9")
    yield differs("journal: it goes on", command(words, env), ("100\n", "", 0))
    with open(env["STATE"], encoding="ascii") as file:
        asked = len(file.readlines())
    yield differs("journal: three of six parts were known", asked, 3)
    with open(journal, "a", encoding="ascii") as file:
        file.write('["half a li')
    env = flaky(folder, 999, "exit 9")
    yield differs("journal: all parts are known, behind half a line", command(words, env), ("100\n", "", 0))
    put(folder, "journal.wkt", "POINT (1 2)\n" * 99 + "POINT (1\n")
    env = flaky(folder, 0, "exit 9")
    wanted = "", f"{path}: Ended at 1196\n", 1
    yield differs("journal: the file was changed", command(words, env), wanted)
    yield differs("journal: a fault is kept", command(words, flaky(folder, 999, "exit 9")), wanted)
    before = put(folder, "own", "of somebody else\n")
    out, err, status = command(["--journal", before, "count", path])
    with open(before, encoding="ascii") as file:
        kept = file.read()
    yield differs("journal: a file that is none is kept", (out, status, kept), ("", 2, "of somebody else\n"))
    with_journal = dataset(path, journal=journal)
    with with_journal.runner():
        yield differs("journal: another run uses it", command(words)[1:], (
            f"atgis-many: {journal}: another run uses this journal\n", 2))


# ---- the command -----------------------------------------------------------------------------------------------------

def command_checks(folder: str) -> Iterator[Check]:
    """What the command prints, and its statuses."""
    one = put(folder, "a.wkt", "POLYGON ((0 0,2 0,2 2,0 2,0 0))\nPOINT (5 5)\n")
    two = put(folder, "b.geojson", collection(points(3)))
    bad = put(folder, "c.wkt", "POINT (1 2)\nPOINT (1\nLINESTRING (1 2)\n")
    packed = put(folder, "d.geojson.gz", b"\x1f\x8b\x08\x00" + bytes(20))
    first, second = 40, 40 + len(point(0)) + 2
    rows = [
        (["count", one], "2\n", "", 0), (["count", one, two], "5\n", "", 0),
        (["select", one], "0\n32\n", "", 0),
        (["select where in box(0 0,1 1)", one, two], f"{two}:{first}\n{two}:{second}\n", "", 0),
        (["extent", one, two], "0.0000000 0.0000000 5.0000000 5.0000000\n", "", 0),
        (["--digits=9", "extent", one], "0.000000000 0.000000000 5.000000000 5.000000000\n", "", 0),
        (["hull", one, two],
         "0.0000000 0.0000000\n2.0000000 0.0000000\n5.0000000 5.0000000\n0.0000000 2.0000000\n", "", 0),
        (["extent where in box(7 7,8 8)", one], "empty\n", "", 0),
        (["hull where in box(7 7,8 8)", one], "empty\n", "", 0),
        (["area", one, one], "1600000000000000\n", "", 0),
        (["--each", "count", one, two], f"2\t{one}\n3\t{two}\n", "", 0),
        (["--each", "extent", two], f"0.0000000 0.0000000 2.0000000 2.0000000\t{two}\n", "", 0),
        (["join", one, two], f"0 {first}\n0 {second}\n0 {second + second - first}\n", "", 0),
        (["--features", "select where in box(0 0,1 1)", two], f"{point(0)}\n{point(1)}\n", "", 0),
        (["count", bad], "", f"{bad}: Ended at 20\n", 1), (["count", one, bad], "", f"{bad}: Ended at 20\n", 1),
        (["select", one, bad], "", f"{bad}: Ended at 20\n", 1),
        (["--faults", one, bad], f"{bad}: Ended at 20\n{bad}: Short at 32\n", "", 1), (["--faults", one], "", "", 0),
        (["counts", one], "", "query: at 5\n", 2), (["count where", one], "", "query: at 11\n", 2),
        (["join", one], "", "files: join takes two, every other verb one\n", 2),
        (["count", one + ".none"], "", f"{one}.none: read failed\n", 3),
        (["count", folder], "", f"{folder}: read failed\n", 3),
        (["count", packed], "",
         f"{packed}: it is packed by gzip, so it can't be cut; unpack it first, as by `gzip -dk`\n", 7),
        (["count", "@in"], "", "@in: it is no file on the disk, so it can't be cut; save it as one, or ask atgis\n", 7)]
    for words, out, err, status in rows:
        yield differs(f"command: {words[:2]}", command(["--part", "30", *words]), (out, err, status))
    odd = os.path.join(folder, "odd")
    os.mkdir(odd)
    for name in (b"-p.wkt", b"@w:5", b"\xff.wkt"):
        with open(os.path.join(os.fsencode(odd), name), "wb") as file:
            file.write(b"POINT (1 2)\n" * 50)
        for size in ("100", "9000"):
            got = command(["--form=wkt", "--part", size, "count", os.path.join(odd, os.fsdecode(name))])
            yield differs(f"command: a file {name!r}", got, ("50\n", "", 0))
    for words in ([], ["count"], ["--faults"], ["--part", "0", "count", one], ["--jobs", "x", "count", one],
                  ["--each", "select", one], ["--features", "count", one], ["--each", "--faults", one]):
        out, err, status = command(words)
        yield differs(f"command: {words}", (out, err.startswith("usage: atgis-many "), status), ("", True, 2))
    with open("/dev/full", "wb") as full:
        done = subprocess.run([sys.executable, TOOL, "count", one], stdout=full, stderr=subprocess.PIPE, check=False)
    yield differs("command: a full disk", (done.stderr, done.returncode), (b"output: write failed\n", 4))


def arrays_checks(folder: str) -> Iterator[Check]:
    """Features with arrays of objects, of which the filter takes each for an end, from the first on or later ones alone;
    and the same where the features do end within a part."""
    with_array = [one[:-1] + f',"tags":[{{"n":{k}}} ] ,\n"more":0}}' for k, one in enumerate(points(1_500))]
    plain = points(2_000)
    for name, texts in (("first", with_array + plain), ("later", plain + with_array)):
        for end, back in (("", ""), (" and leave", ',"old":[' + ",".join(points(900)) + "]")):
            path = put(folder, "arrays.geojson", collection(texts, back=back))
            for query in ("count", "select", "extent", "count where in box(0 0,700 700)"):
                whole = subprocess.run([os.environ["ATGIS"], query, path], stdout=subprocess.PIPE, check=True)
                yield differs(f"arrays: {query}, {name}{end}", command(["--part", "20k", query, path]),
                              (whole.stdout.decode(), "", 0))


def large_checks(folder: str) -> Iterator[Check]:
    """What the command says of parts of more than a megabyte."""
    plain = put(folder, "plain.geojson", collection(points(30_000)))
    left = put(folder, "left.geojson", collection(points(20_000), back=',"old":[' + ",".join(points(30_000)) + "]"))
    for path in (plain, left):
        for query in ("extent", 'count where meets box(7 7,99 99)', "hull"):
            got = command(["--part", "1100k", query, path])
            whole = subprocess.run([os.environ["ATGIS"], query, path], stdout=subprocess.PIPE, check=True)
            yield differs(f"command: {query} of large parts of {os.path.basename(path)}", got,
                          (whole.stdout.decode(), "", 0))
    lines = put(folder, "large.geojsonl", "\n".join(points(30_000)))
    yield differs("command: large parts of lines", command(["--part", "1100k", "count", lines]), ("30000\n", "", 0))
    bad = put(folder, "bad.geojsonl", "\n".join([*points(30_000), point(5)[:-1] + "\x1e}"]))
    line = f"{bad}: Syntax at {os.path.getsize(bad) - 2}\n"
    yield differs("command: an RS in a large part", command(["--part", "1100k", "count", bad]), ("", line, 1))


def read_all(terminal: int) -> bytes:
    """What was written to a terminal whose other end is closed, of which each read gives some."""
    told = b""
    while True:
        try:
            told += os.read(terminal, 1 << 16)
        except OSError:
            return told


def terminal_check(folder: str) -> Check:
    """That a line of progress is on a terminal, and gone at the end."""
    path = put(folder, "t.wkt", "POINT (1 2)\n" * 300)
    env = flaky(folder, 0, "")
    env["ATGIS"] = put(folder, "slow", '#!/bin/sh\nsleep 0.05; exec "$REAL" "$@"\n')
    os.chmod(env["ATGIS"], 0o755)
    ours, theirs = pty.openpty()
    done = subprocess.run([sys.executable, TOOL, "--jobs", "1", "--part", "300", "count", path], stdout=subprocess.PIPE,
                          stderr=theirs, env=env, check=False)
    os.close(theirs)
    told = read_all(ours).decode()
    os.close(ours)
    is_right = done.stdout == b"300\n" and re.search(r"\r\[#+ *\] +\d+ % +\d+ MB/s, \d+ s left", told)
    return "command: a terminal", None if is_right and told.endswith("\r\x1b[K") else repr((done.stdout, told))


def heed_interrupts() -> None:
    """Has a new process end by an interrupt, also where this one was started in the background, which heeds none."""
    signal.signal(signal.SIGINT, signal.SIG_DFL)


def interrupt_check(folder: str) -> Check:
    """That a run that is interrupted while the program works ends with its status, and says nothing."""
    env = flaky(folder, 999, "sleep 60")
    with subprocess.Popen([sys.executable, TOOL, "count", put(folder, "i.wkt", "POINT (1 2)\n")], env=env,
                          stdout=subprocess.PIPE, stderr=subprocess.PIPE, start_new_session=True,
                          preexec_fn=heed_interrupts) as run:
        end = time.monotonic() + 60
        while os.path.getsize(env["STATE"]) == 0 and time.monotonic() < end:
            time.sleep(0.05)
        os.killpg(run.pid, signal.SIGINT)
        out, err = run.communicate()
    return differs("command: an interrupt", (out, err, run.returncode), (b"", b"", 130))


def module_checks(folder: str) -> Iterator[Check]:
    """What the module raises, and that exceptions go to other processes."""
    path = put(folder, "m.wkt", "POINT (1 2)\nPOINT (1\n")
    for error in (atgis.Fault("f: Ring at 3", 1, "f", "Ring", 3), atgis.QueryError("query: at 5", 2, "q", 5),
                  atgis.OutOfMemory("out of memory", 5), atgis.ReadError("f: read failed", 3, "f")):
        copy = pickle.loads(pickle.dumps(error))
        got, wanted = ((type(one), str(one), vars(one)) for one in (copy, error))
        yield differs(f"module: {error!r} elsewhere", got, wanted)
    yield differs("module: places that stand before a fault", next(iter(dataset(path, 5).select())), (path, 0))
    head = put(folder, "h.json", collection(points(10), '"type":"FeatureCollection","x":[}],'))
    yield differs("module: no place behind a head that is no JSON",
                  refused(lambda: next(iter(dataset(head, 100).select()))), f"{head}: Syntax at 33")
    for wrong in (lambda: dataset(path, form="shp"), lambda: dataset(path, digit=9),
                  lambda: dataset(path).join(dataset(path, digits=9))):
        try:
            yield "module: an option that is none", f"{wrong()!r}"
        except (TypeError, ValueError):
            yield "module: an option that is none", None
    one, two = put(folder, "n.wkt", "POINT (1 2)\n" * 2), put(folder, "n.geojson", collection(points(3)))
    yield differs("module: counts", dataset([one, two]).counts(), {one: 2, two: 3})


def checks(folder: str) -> List[Check]:
    """All of these."""
    found: List[Check] = []
    for some in (cut_checks, fault_in_cut_checks, tier_checks, edge_checks, faults_checks, features_checks,
                 failure_checks, journal_checks, command_checks, arrays_checks, large_checks, module_checks):
        found += some(folder)
    return [*found, late_check(folder), memory_check(folder), terminal_check(folder), interrupt_check(folder)]
