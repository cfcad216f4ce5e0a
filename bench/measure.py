"""What every benchmark here shares: build both sides, check that they print the same, time them in turn.

A benchmark is a file bench/NAME.py that makes its input, builds a Rattle program (`build_rattle`, `build_atgis`) and a
baseline (`build_rust`, `build_geos`, `build_simdjson`), and calls `compare`; or `alternate`, `same` and `tell`, where more
than two commands run in turn or where a part of the time is asked for. Only ratios of what one run measured are told,
since a time alone says nothing on a machine that does other work too.
"""
import os
import re
import shutil
import statistics
import subprocess
import sys
import time
from typing import NamedTuple

BENCH = os.path.dirname(os.path.abspath(__file__))
ROOT = os.path.dirname(BENCH)
DATA = os.path.join(BENCH, "data")
OUT = os.path.join(BENCH, "out")
GNU_TIME = "/usr/bin/time"


def build_rattle(crate, *arguments):
    """Proves and builds the program crates/CRATE, and returns the path of its executable.

    The build ends with a run of it in its folder, to which the arguments are given; it has to succeed.
    """
    folder = os.path.join(ROOT, "crates", crate)
    done = subprocess.run(["rt", "run", *(["--", *arguments] if arguments else [])], cwd=folder, capture_output=True, text=True)
    path = os.path.join(folder, "out", crate)
    if done.returncode != 0 or not os.path.exists(path):
        sys.exit(f"{crate} was not built:\n{done.stdout}{done.stderr}")
    return path


def build_atgis():
    """Builds the program itself."""
    return build_rattle("atgis", "count", "data/points.wkt")


def build(command, source, libraries=()):
    """Builds bench/baselines/SOURCE by a compiler's command, and returns the path of its executable."""
    os.makedirs(OUT, exist_ok=True)
    path = os.path.join(OUT, source.replace(".", "_"))
    subprocess.run(command + [os.path.join(BENCH, "baselines", source), "-o", path, *libraries], check=True)
    return path


def build_rust(source):
    """Builds a baseline by `rustc -O`, for the processor that Rattle's programs are built for."""
    return build(["rustc", "--edition", "2021", "-O", "-C", "target-cpu=x86-64-v2"], source)


def build_c(source):
    """Builds a baseline that stands on the C library alone."""
    return build(["cc", "-O2", "-march=x86-64-v2"], source)


def build_geos(source):
    """Builds a baseline over GEOS; None where that isn't installed."""
    if is_missing("geos_c.h", "GEOS", "libgeos-dev"):
        return None
    return build(["cc", "-O2", "-march=x86-64-v2"], source, ["-lgeos_c"])


def build_simdjson(source):
    """Builds a baseline over simdjson; None where that isn't installed."""
    if is_missing("simdjson.h", "simdjson", "libsimdjson-dev"):
        return None
    return build(["g++", "-O3", "-std=c++17", "-march=x86-64-v2"], source, ["-lsimdjson"])


def is_missing(header, library, package):
    """Whether a library's header isn't there, which is then told."""
    missing = not os.path.exists(os.path.join("/usr/include", header))
    if missing:
        print(f"{library} isn't installed (Debian's {package}), so nothing is compared with it", flush=True)
    return missing


def input_file(name, write):
    """The path of an input in bench/data, which `write(file)` makes where it isn't there."""
    os.makedirs(DATA, exist_ok=True)
    path = os.path.join(DATA, name)
    if not os.path.exists(path):
        with open(path + ".part", "w", encoding="utf-8", newline="\n") as file:
            write(file)
        os.rename(path + ".part", path)
    return path


class Run(NamedTuple):
    """One run of a command: seconds on the clock, processor seconds of user and system, and what it wrote."""

    clock: float
    cpu: float
    printed: bytes
    told: bytes


def run(command):
    """Runs a command, which has to succeed."""
    begun = time.perf_counter()
    with subprocess.Popen(command, stdout=subprocess.PIPE, stderr=subprocess.PIPE) as process:
        printed = process.stdout.read()
        told = process.stderr.read()
        _, status, used = os.wait4(process.pid, 0)
        clock = time.perf_counter() - begun
        process.returncode = os.waitstatus_to_exitcode(status)
    if process.returncode != 0:
        words = " ".join(word[:100] for word in command)
        sys.exit(f"{words}: status {process.returncode}, {told.decode(errors='replace').strip()}")
    return Run(clock, used.ru_utime + used.ru_stime, printed, told)


def alternate(commands, rounds=7):
    """Runs commands in turn, round after round; the runs of each. A command has to print the same in each round."""
    runs = [[] for _ in commands]
    for _ in range(rounds):
        for of_one, command in zip(runs, commands):
            last = run(command)
            first = of_one[0] if of_one else last
            same(f"two rounds of {os.path.basename(command[0])}", first.printed, last.printed)
            of_one.append(last._replace(printed=first.printed))
    return runs


def same(title, *printed):
    """Ends the benchmark where answers differ."""
    for other in printed[1:]:
        if other != printed[0]:
            sys.exit(f"{title}: different answers are printed: {printed[0][:200]!r} and {other[:200]!r}")


def clocks(runs):
    return [run.clock for run in runs]


def cpus(runs):
    return [run.cpu for run in runs]


def less(times, others):
    """The times of rounds less those of other runs in the same rounds; never nothing, which couldn't be divided by."""
    return [max(one - other, 1e-6) for one, other in zip(times, others)]


def tell(title, ours, theirs, goal=None, later=None):
    """Prints the ratio of the medians of two lists of times, and the range of the ratios of single rounds.

    Returns whether the ratio is at most the goal, where there is one. A later goal is told beside it and decides nothing.
    """
    ratio = statistics.median(ours) / statistics.median(theirs)
    spread = [one / other for one, other in zip(ours, theirs)]
    verdicts = ""
    for name, limit in (("goal", goal), ("later goal", later)):
        if limit is not None:
            verdicts += f", {name} {limit:.3g} {'met' if ratio <= limit else 'MISSED'}"
    print(f"{title}: ratio {ratio:.2f} ({min(spread):.2f} to {max(spread):.2f}){verdicts}", flush=True)
    return goal is None or ratio <= goal


def compare(title, ours, theirs, goal=None, rounds=7):
    """Runs two commands in turn, wants them to print the same, and tells the ratio of their times on the clock.

    Returns whether the ratio is at most the goal.
    """
    runs = alternate((ours, theirs), rounds)
    same(title, runs[0][0].printed, runs[1][0].printed)
    return tell(title, clocks(runs[0]), clocks(runs[1]), goal)


def peak(command):
    """The most bytes of memory that a command holds at once; None where GNU time isn't installed.

    What `os.wait4` says of it would not do: that is never less than what this process held when it began the command.
    """
    if not os.path.exists(GNU_TIME):
        print("GNU time isn't installed (Debian's time), so no memory is told", flush=True)
        return None
    done = subprocess.run([GNU_TIME, "-f", "%M", *command], stdout=subprocess.DEVNULL, stderr=subprocess.PIPE, check=True, text=True)
    return int(done.stderr.split()[-1]) * 1024


def instructions(command):
    """How many instructions a command takes, as callgrind counts them; None where valgrind isn't installed."""
    if shutil.which("valgrind") is None:
        print("valgrind isn't installed, so no instructions are told", flush=True)
        return None
    words = ["valgrind", "--tool=callgrind", "--callgrind-out-file=/dev/null", *command]
    done = subprocess.run(words, stdout=subprocess.DEVNULL, stderr=subprocess.PIPE, check=True, text=True)
    return int(re.search(r"Collected : (\d+)", done.stderr)[1])
