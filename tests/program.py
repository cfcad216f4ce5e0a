"""The program that is tested: where it is built, and what it writes."""
import functools
import os
import shutil
import subprocess
import sys
import threading
import time
from contextlib import suppress

TESTS = os.path.dirname(os.path.abspath(__file__))
REPOSITORY = os.path.dirname(TESTS)
NOBODY = 65534
FEW, PAUSE = 9, 0.005
# The Debian packages of commands and of Python's modules, where a name differs; what has none comes by pip.
PACKAGES = {
    "awk": "mawk", "cc": "gcc", "dpkg-deb": "dpkg", "geopandas": "python3-geopandas",
    "matplotlib": "python3-matplotlib", "ogr2ogr": "gdal-bin", "ogrinfo": "gdal-bin", "pip": "python3-pip",
    "shapely": "python3-shapely", "ssh": "openssh-client", "ssh-keygen": "openssh-client",
    "sshd": "openssh-server", "tr": "coreutils", "venv": "python3-venv", "xz": "xz-utils",
    "distributed": "python3-distributed", "mpi4py": "python3-mpi4py", "mpiexec": "openmpi-bin", "mpirun": "openmpi-bin",
    "pyspark": "pip:pyspark", "spark-submit": "pip:pyspark",
}


def to_install(*names):
    """What a skipped test wants, as `(install PACKAGE ..)`, by the names of commands and modules; ./check reads it."""
    found = {PACKAGES.get(name.split(".")[0], name) for name in names}
    return f"(install {' '.join(sorted(found))})"


def built():
    """Builds the programs, and returns the path of the executable of `atgis`."""
    return [built_of(name, words) for name, words in (
        ("atgis_part", ["items", "count", "points.json"]), ("atgis", ["count", "points.wkt"]))][-1]


def built_of(name, words):
    """Builds the program of a crate, runs it over its data, and returns the path of its executable."""
    folder = os.path.join(REPOSITORY, "crates", name)
    words = [f"data/{word}" if "." in word else word for word in words]
    done = subprocess.run(["rt", "run", "--", *words], cwd=folder, capture_output=True, text=True)
    path = os.path.join(folder, "out", name)
    if done.returncode != 0 or not os.path.exists(path):
        sys.exit(f"the program was not built:\n{done.stdout}{done.stderr}")
    return path


def copied(source, folder):
    """A copy of the program in a folder, which anybody may run, and beside it one of the program for parts."""
    os.chmod(folder, 0o755)
    for place, name in ((source, "atgis"), (part_program(source), "atgis-part")):
        if os.path.exists(place):
            os.chmod(shutil.copy(place, os.path.join(folder, name)), 0o755)
    return os.path.join(folder, "atgis")


def part_program(program):
    """The program for parts of files: the one that the environment names, or that is beside this one, or that is built."""
    beside = f"{program}-part"
    built_one = os.path.join(REPOSITORY, "crates", "atgis_part", "out", "atgis_part")
    return os.environ.get("ATGIS_PART") or (beside if os.path.exists(beside) else built_one)


def written(binary, words, folder, stdin=b"", out=subprocess.PIPE, is_nobody=False, is_slow=False):
    """What the program writes to its output and its error output, and its status. Input that is slow has pauses."""
    user = {"user": NOBODY} if is_nobody else {}
    source = {"stdin": slow_pipe(stdin)} if is_slow else {"input": stdin}
    try:
        done = subprocess.run(
            [binary] + words, cwd=folder, stdout=out, stderr=subprocess.PIPE, timeout=60, **source, **user)
    except subprocess.TimeoutExpired:
        return "", "stopped after 60 seconds", -1
    finally:
        if is_slow:
            os.close(source["stdin"])
    return (done.stdout or b"").decode("latin-1"), done.stderr.decode("latin-1"), done.returncode


def slow_pipe(data):
    """A pipe to read the data from, into which a thread puts a few bytes at a time."""
    reading, writing = os.pipe()

    def write():
        with open(writing, "wb", buffering=0) as file, suppress(BrokenPipeError):
            for place in range(0, len(data), FEW):
                time.sleep(PAUSE)
                file.write(data[place:place + FEW])

    threading.Thread(target=write, daemon=True).start()
    return reading


@functools.lru_cache(maxsize=None)
def python_with(*modules):
    """The path of a Python that has these modules: this one, or else the system's; None where neither does."""
    line = "; ".join(f"import {module}" for module in modules) or "pass"
    pythons = [sys.executable, shutil.which("python3", path="/usr/bin:/usr/local/bin")]
    for python in dict.fromkeys(filter(None, pythons)):
        if subprocess.run([python, "-c", line], capture_output=True, check=False).returncode == 0:
            return python
    return None
