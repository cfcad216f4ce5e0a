"""What ./check does, in a copy that has tests and an rt of its own."""
import os
import pty
import re
import shutil
import subprocess
from typing import Iterator, List, Optional, Tuple

from program import REPOSITORY


def scripts() -> List[str]:
    """The scripts that ./check has to run, by the table of tests/README.md; `run` calls `definitions`."""
    with open(os.path.join(REPOSITORY, "tests", "README.md"), encoding="utf-8") as file:
        table = file.read().split("## What `./check` runs\n")[1].split("\n## ")[0]
    return [name for name in re.findall(r"^\| `(\w+)` \|", table, re.MULTILINE) if name != "definitions"]


SCRIPTS = scripts()
RT = """#!/bin/sh
# In place of rt: says what the gate says of three crates, two of them kept, and leaves the programs.
[ "$*" = ci ] || exit 9
for name in atgis atgis_part; do mkdir -p "crates/$name/out" && cp /bin/true "crates/$name/out/$name"; done
echo 'rt: one is kept: an earlier run on this machine proved the same files over the same libraries'
echo 'rt: two is kept: an earlier run on this machine proved the same files over the same libraries'
printf '== atgis\\nfn atgis::main: proved\\n'
if [ -z "$GATE_FAILS" ]; then
    echo 'rt: atgis proved'
    echo 'rt: ok; handles allowed: none'
    echo '3 passed, 0 failed'
else
    echo 'rt: atgis NOT PROVED'
    echo '2 passed, 1 failed'
    exit 1
fi
"""
SCRIPT = """#!/bin/sh
# In place of a script of tests/: says what it was given.
echo "$(basename "$0") $(basename "${1:-none}")"
"""
ENDS = {
    "run": "echo '10 passed, 0 failed'",
    "python": "echo 'skipped: frames (install python3-geopandas)'; echo '1 passed, 0 failed'",
    "recipes": "echo 'skipped: a block of sql'; echo 'skipped: some (install gdal-bin parallel)'; echo '4 passed, 0 failed'",
    "against": "echo 'skipped: tests/against (install python3-shapely)'; exit 0",
    "pages": '[ -z "$SCRIPT_FAILS" ] || { echo "one differs"; echo "5 passed, 2 failed"; exit 1; }; '
             "echo '7 passed, 0 failed'",
    "tools": '[ -z "$SCRIPT_BREAKS" ] || { echo "Traceback"; exit 1; }; echo "1 passed, 0 failed"',
}
PLAIN = "echo '1 passed, 0 failed'"
COUNTS = {"run": 10, "recipes": 4, "against": 0, "pages": 7}
SOURCES = ("examples_of_crates", "names", "uncited")
WANTED = "gdal-bin parallel python3-geopandas python3-shapely"
Check = Tuple[str, Optional[str]]


def write(path: str, text: str) -> None:
    """Makes a file that may be run."""
    os.makedirs(os.path.dirname(path), exist_ok=True)
    with open(path, "w", encoding="utf-8") as file:
        file.write(text)
    os.chmod(path, 0o755)


class Copy:
    """A copy of ./check and of .ci/run, with tests and an rt of its own."""

    def __init__(self, folder: str) -> None:
        self.top = os.path.join(folder, "copy")
        os.makedirs(os.path.join(self.top, "crates"))
        for name in ("setup", ".ci"):
            shutil.copytree(os.path.join(REPOSITORY, name), os.path.join(self.top, name))
        shutil.copy(os.path.join(REPOSITORY, "check"), self.top)
        with open(os.path.join(self.top, "crates.txt"), "w", encoding="utf-8") as file:
            file.write("one:\ntwo: one\natgis: two\n")
        for name in SCRIPTS:
            write(os.path.join(self.top, "tests", name), f"{SCRIPT}{ENDS.get(name, PLAIN)}\n")
        self.tools = os.path.join(folder, "path")
        write(os.path.join(self.tools, "rt"), RT)

    def run(self, *words: str, **variables: str) -> Tuple[List[str], int]:
        """The lines that a command of the copy writes, and its status."""
        env = {**os.environ, "GATE_FAILS": "", "SCRIPT_FAILS": "", "SCRIPT_BREAKS": "", **variables}
        env["PATH"] = os.pathsep.join([self.tools, os.environ["PATH"]])
        done = subprocess.run(list(words), cwd=self.top, env=env, stdout=subprocess.PIPE, stderr=subprocess.STDOUT,
                              text=True)
        return done.stdout.split("\n"), done.returncode

    def on_terminal(self, *words: str) -> str:
        """What a command of the copy writes to a terminal."""
        process, terminal = pty.fork()
        if process == 0:
            os.chdir(self.top)
            os.environ["PATH"] = os.pathsep.join([self.tools, os.environ["PATH"]])
            os.environ["GATE_FAILS"] = ""
            os.execvp(words[0], words)
        told = b""
        while True:
            try:
                piece = os.read(terminal, 65536)
            except OSError:
                piece = b""
            if not piece:
                break
            told += piece
        os.close(terminal)
        os.waitpid(process, 0)
        return told.decode("utf-8", "replace")


def differs(what: str, got: object, wanted: object) -> Check:
    """A check, and what is wrong with it."""
    return f"check: {what}", None if got == wanted else f"{got!r}, not {wanted!r}"


def ended(lines: List[str]) -> List[str]:
    """The last two lines, without the time."""
    return [line.split(", in ")[0] for line in lines[-3:-1]]


def count_of(names: List[str], more: int = 0, failed: int = 0) -> str:
    """The line of counts that these scripts have to give, with more that passed, or with failures."""
    return f"{sum(COUNTS.get(name, 1) for name in names) + more} passed, {failed} failed"


def whole(copy: Copy) -> Iterator[Check]:
    """The gate and all scripts."""
    lines, status = copy.run(".ci/run")
    yield differs("all passes", (ended(lines), status), ([count_of(SCRIPTS, 3), "./check: all is well"], 0))
    yield differs("the packages that skipped tests want", lines[-4],
                  f"./check: skipped: 4, as told above; for these are wanted: {WANTED}")
    found = [line for line in lines if "minutes on two processors" in line and "on four" in line]
    yield differs("how long it takes", len(found), 1)
    yield differs("the machine", lines[0].startswith("./check: found "), True)
    yield differs("what the gate says is there", "fn atgis::main: proved" in lines, True)
    begun = [line.rsplit("/", 1)[1] for line in lines if line.startswith("./check: script")]
    yield differs("all scripts", sorted(begun), sorted(SCRIPTS))
    yield differs("each script gets the program", {line for line in lines if line in [f"{name} none" for name in SCRIPTS]}, set())
    lines, status = copy.run("./check", GATE_FAILS="yes")
    yield differs("the gate fails", (ended(lines), status), ([count_of(SCRIPTS, 2, 1), "./check: FAILED: rt-ci"], 1))
    lines, status = copy.run("./check", SCRIPT_FAILS="yes")
    yield differs("a script fails", (ended(lines), status), ([count_of(SCRIPTS, 3 - 2, 2), "./check: FAILED: tests/pages"], 1))
    lines, status = copy.run("./check", SCRIPT_BREAKS="yes")
    yield differs("a script ends badly", (ended(lines), status),
                  ([count_of(SCRIPTS, 3 - 1, 1), "./check: FAILED: tests/tools"], 1))
    told = copy.on_terminal("./check")
    missing = [one for one in ("crate 2 of 3: two", "crate 3 of 3: atgis") if f"\r\x1b[K./check: {one}" not in told]
    yield differs("how far the gate is, on a terminal", (missing, "fn atgis::main" in told), ([], False))


def quick(copy: Copy) -> Iterator[Check]:
    """The tests of the built program alone."""
    program = os.path.join(copy.top, "crates", "atgis", "out", "atgis")
    lines, status = copy.run("./check", "quick", GATE_FAILS="yes")
    yield differs("how long quick takes", "minutes on two processors" in lines[1] and "on four" in lines[1], True)
    programs = [name for name in SCRIPTS if name not in SOURCES]
    yield differs("quick", (ended(lines), status), ([count_of(programs), "./check: all is well"], 0))
    lines, status = copy.run("./check", "quick", "/bin/false")
    yield differs("quick with a program", ([line for line in lines if line.startswith("run ")], status),
                  (["run false"], 0))
    shutil.rmtree(os.path.dirname(os.path.dirname(program)))
    lines, status = copy.run("./check", "quick")
    yield differs("quick says which program isn't there", lines[2].split(",")[0],
                  f"./check: there is no program at {program}")
    yield differs("quick without a program", (ended(lines), status),
                  (["0 passed, 1 failed", "./check: FAILED: no-program"], 1))
    for words in (["slow"], ["quick", "a", "b"], ["--help"], [""] * 2):
        yield differs(f"words {words}", copy.run("./check", *words), (["./check: usage: ./check [quick [PROGRAM]]", ""], 2))


def checks(folder: str) -> List[Check]:
    """What was checked of ./check, and what is wrong with it."""
    copy = Copy(folder)
    return [*whole(copy), *quick(copy)]
