"""The installer, run in a copy of what it installs."""
import os
import re
import shutil
import subprocess
from typing import Dict, Iterator, List, Optional, Set, Tuple

from program import REPOSITORY

COPIED = ("install", "setup", "VERSION", "crates.txt", "man", "completions", "tools", "python")
STUB = """#!/bin/sh
# In place of rt: puts a program where a build would leave it, says what rt says, and fails where it is told to.
case "$*" in
"run -- count data/points.wkt" | "run -- items count data/points.json") ;;
*) exit 9 ;;
esac
echo 'so far: 0 of 9 functions checked; the verdict comes last' >&2
echo 'fn at_text::utf::is_mark: proved' >&2
echo 'rt: at_cli: begins with what a check kept in /elsewhere' >&2
echo 'error: something is wrong' >&2
[ -z "$STUB_FAILS" ] || exit 7
mkdir -p out && cp "$STUB_PROGRAM" "out/${PWD##*/}"
"""
Check = Tuple[str, Optional[str]]


class Copy:
    """A copy of the checkout's files that the installer reads, with an rt of its own."""

    def __init__(self, program: str, folder: str) -> None:
        self.top = os.path.join(folder, "copy")
        self.program = program
        self.tools = os.path.join(folder, "path")
        for name in ("atgis", "atgis_part"):
            os.makedirs(os.path.join(self.top, "crates", name))
        os.mkdir(self.tools)
        for name in COPIED:
            source = os.path.join(REPOSITORY, name)
            if os.path.isdir(source):
                shutil.copytree(source, os.path.join(self.top, name), ignore=shutil.ignore_patterns("__pycache__"))
            elif os.path.exists(source):
                shutil.copy(source, self.top)

    def stub(self) -> None:
        """Makes the rt."""
        path = os.path.join(self.tools, "rt")
        with open(path, "w", encoding="ascii") as file:
            file.write(STUB)
        os.chmod(path, 0o755)

    def run(self, *words: str, fails: str = "", cwd: Optional[str] = None) -> Tuple[str, str, int]:
        """What the installer writes, and its status; the only rt on its PATH is the stub, where there is one."""
        names = [name for name in os.environ["PATH"].split(os.pathsep)
                 if not os.path.exists(os.path.join(name, "rt"))]
        env = {**os.environ, "PATH": os.pathsep.join([self.tools, *names, "/usr/bin", "/bin"]),
               "STUB_PROGRAM": self.program, "STUB_FAILS": fails}
        done = subprocess.run([os.path.join(self.top, "install"), *words], cwd=cwd, env=env, capture_output=True,
                              text=True)
        return done.stdout, done.stderr, done.returncode


def tree(folder: str) -> Set[str]:
    """All files and folders below a folder."""
    return {os.path.relpath(os.path.join(here, name), folder)
            for here, folders, files in os.walk(folder) for name in folders + files}


def wanted_files() -> Dict[str, str]:
    """What has to stand under PREFIX, and the file that each is of."""
    tools = [f"tools/{name}" for name in os.listdir(os.path.join(REPOSITORY, "tools"))]
    pages = [f"man/{name}.1" for name in ["atgis", "atgis-part", *(one.split("/")[1] for one in tools)]] + ["man/atgis-query.7"]
    wanted = {f"bin/{one.split('/')[1]}": one for one in tools}
    wanted.update({f"share/man/man{one[-1]}/{one.split('/')[1]}": one for one in pages})
    for name in ("atgis", "atgis-many"):
        wanted.update({f"share/bash-completion/completions/{name}": "completions/atgis.bash",
                       f"share/fish/vendor_completions.d/{name}.fish": "completions/atgis.fish"})
    wanted["share/zsh/site-functions/_atgis"] = "completions/_atgis"
    modules = [one for one in os.listdir(os.path.join(REPOSITORY, "python")) if one.endswith(".py")]
    wanted.update({f"share/atgis/python/{one}": f"python/{one}"
                   for one in [*modules, "py.typed", "pyproject.toml", "backend/wheels.py"]})
    return wanted


def read(path: str) -> bytes:
    """The bytes of a file, none where it isn't there."""
    if not os.path.isfile(path):
        return b""
    with open(path, "rb") as file:
        return file.read()


def placed(copy: Copy, prefix: str) -> Iterator[Check]:
    """Looks at each file under PREFIX."""
    version = read(os.path.join(copy.top, "VERSION")).strip()
    for name, source in wanted_files().items():
        text = read(os.path.join(copy.top, source)).replace(b"@VERSION@", version)
        is_right = os.path.isfile(os.path.join(prefix, name)) and read(os.path.join(prefix, name)) == text
        yield f"install: {name}", None if is_right else "it isn't right"
    for name in ("bin/atgis", "bin/atgis-part"):
        program = os.path.join(prefix, name)
        is_right = read(program) == read(copy.program) and os.access(program, os.X_OK)
        yield f"install: {name}", None if is_right else "it isn't the program"
    files = {name for name in tree(prefix) if os.path.isfile(os.path.join(prefix, name))}
    more = files - set(wanted_files()) - {"bin/atgis", "bin/atgis-part", "share/atgis/installed", "share/own"}
    yield "install: nothing else is put there", f"{more}" if more else None


def differs(what: str, got: object, wanted: object) -> Check:
    """A check, and what is wrong with it."""
    return what, None if got == wanted else f"{got!r}, not {wanted!r}"


def refusals(copy: Copy, prefix: str) -> Iterator[Check]:
    """What ends the installer before it puts anything in place."""
    out, err, status = copy.run(prefix)
    is_told = err.startswith("./install: there is no command rt on the PATH.\n") and "toolchain" in err
    yield "install: without rt", None if (out, status) == ("", 1) and is_told else f"{(out, err, status)!r}"
    copy.stub()
    out, err, status = copy.run(prefix, fails="yes")
    yield differs("install: rt fails", (out, err.split("\n")[-3:], status), ("", [
        "error: something is wrong",
        "./install: rt didn't prove and build the program; out/build.log has all that it said", ""], 1))
    with open(f"{prefix} is a file", "w", encoding="ascii"):
        pass
    yield differs("install: no folder", copy.run(f"{prefix} is a file"), (
        "", f"./install: nothing can be put into {prefix} is a file: name another folder, as ./install ~/.local, or do "
            "it as root\n", 1))
    for words in (["--help"], [prefix, prefix], ["--uninstall", "--uninstall"]):
        yield differs(f"install: {' '.join(words)[:20]}", copy.run(*words),
                      ("", "./install: usage: ./install [--uninstall] [PREFIX]\n", 2))
    yield differs("install: nothing to take away", copy.run("--uninstall", prefix), (
        "", f"./install: there is no list {prefix}/share/atgis/installed, so nothing is installed under {prefix}\n", 1))
    yield differs("install: nothing was put in place by these", os.path.exists(prefix), False)


def progress(err: str) -> Iterator[Check]:
    """What the installer says of the machine and of how far it is."""
    below, crates = len(order("atgis")), len(order("atgis") | order("atgis_part"))
    said = err.split("\n")
    found = re.fullmatch(r"./install: found (\d+) processors? and (\d+) GiB of memory", said[0])
    yield "install: the machine", None if found and int(found[1]) == len(os.sched_getaffinity(0)) else repr(said[0])
    yield "install: how long it takes", None if "on two processors" in said[1] and "on four" in said[1] else repr(said[1])
    wanted = [f"./install: crate 1 of {crates}: at_text", f"./install: crate {below - 1} of {crates}: at_cli"]
    yield differs("install: how far it is", [line for line in said if ": crate " in line], 2 * wanted)


def order(name: str) -> Set[str]:
    """A crate, and those of crates.txt that it stands on."""
    with open(os.path.join(REPOSITORY, "crates.txt"), encoding="utf-8") as file:
        rows = dict(re.findall(r"^(\w+)[^:#\n]*:(.*)$", file.read(), re.MULTILINE))
    found, open_ones = set(), [name]
    while open_ones:
        one = open_ones.pop()
        if one in rows and one not in found:
            found.add(one)
            open_ones += rows[one].split()
    return found


def used(prefix: str) -> Check:
    """Runs a tool that is installed and that needs the modules, of which Python keeps something beside them."""
    path = os.path.join(prefix, "a.wkt")
    with open(path, "w", encoding="ascii") as file:
        file.write("POINT (1 2)\n")
    env = {name: value for name, value in os.environ.items() if name not in ("PYTHONPATH", "PYTHONDONTWRITEBYTECODE")}
    done = subprocess.run([os.path.join(prefix, "bin", "atgis-many"), "count", path], capture_output=True, text=True,
                          env={**env, "ATGIS": os.path.join(prefix, "bin", "atgis")}, check=False)
    os.remove(path)
    return differs("install: atgis-many finds its modules", (done.stdout, done.stderr, done.returncode), ("1\n", "", 0))


def checks(program: str, folder: str) -> List[Check]:
    """What was checked of the installer, and what is wrong with it."""
    copy = Copy(program, folder)
    prefix = os.path.join(folder, "pre fix")
    found = list(refusals(copy, prefix))
    os.makedirs(os.path.join(prefix, "share"))
    with open(os.path.join(prefix, "share", "own"), "w", encoding="ascii") as file:
        file.write("of somebody else\n")
    before = tree(prefix)
    for turn in ("first", "second"):
        out, err, status = copy.run("pre fix", cwd=folder)
        last = f"./install: installed atgis {read(os.path.join(copy.top, 'VERSION')).decode().strip()} as {prefix}/bin/atgis"
        found.append(differs(f"install: the {turn} time", (out, status), (f"{last}\n", 0)))
        found += list(progress(err))
        found += placed(copy, prefix)
    for kept in ("python/__pycache__", "python/backend/__pycache__"):
        os.mkdir(os.path.join(prefix, "share", "atgis", kept))
        shutil.copy(__file__, os.path.join(prefix, "share", "atgis", kept, "atgis.cpython-311.pyc"))
    found.append(used(prefix))
    found.append(differs("install: uninstall", copy.run("--uninstall", prefix), ("", "", 0)))
    found.append(differs("install: all of it is taken away, and nothing else", tree(prefix), before))
    return found
