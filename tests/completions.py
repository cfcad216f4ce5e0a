"""The completions of completions/ in the shells that are installed."""
import os
import pty
import re
import select
import shutil
import signal
import subprocess
import time
from typing import Dict, Iterator, List, Optional, Tuple

from program import REPOSITORY

FOLDER = os.path.join(REPOSITORY, "completions")
FILES = ("lakes.wkt", "towns.geojson", "two words.wkt")

# What a line becomes by a TAB at its end, in bash and in zsh.
LINES = [
    ("atgis --fo", "atgis --form"),
    ("atgis --fe", "atgis --feed"),
    ("atgis --form=w", "atgis --form=wkt"),
    ("atgis --form g", "atgis --form geojson"),
    ("atgis --form=s", "atgis --form=seq"),
    ("atgis --coords=e", "atgis --coords=exact"),
    ("atgis --coords r", "atgis --coords round"),
    ("atgis --digits=9 --co", "atgis --digits=9 --coords"),
    ("atgis --workers 3", "atgis --workers 32"),
    ("atgis --blocks=4", "atgis --blocks=4096"),
    ("atgis --feed 4", "atgis --feed 4096"),
    ("atgis se", "atgis select"),
    ("atgis --digits 9 ext", "atgis --digits 9 extent"),
    ("atgis 'select wh", "atgis 'select where "),
    ("atgis 'select where i", "atgis 'select where in box("),
    ("atgis 'select where in ", "atgis 'select where in box("),
    ("atgis 'select where in box(0 0,1 1) ", "atgis 'select where in box(0 0,1 1) and "),
    ("atgis 'count where meets PO", "atgis 'count where meets PO"),
    ("atgis 'count where meets LIN", "atgis 'count where meets LINESTRING ("),
    ("atgis 'count where meets LINESTRING (0 0,1 1) and h", "atgis 'count where meets LINESTRING (0 0,1 1) and has \""),
    ("atgis 'count where has \"a\" ", "atgis 'count where has \"a\" = \""),
    ("atgis 'count where has \"a\" = \"b\" a", "atgis 'count where has \"a\" = \"b\" and "),
    ("atgis select la", "atgis select lakes.wkt"),
    ("atgis 'select where in box(0 0,1 1)' to", "atgis 'select where in box(0 0,1 1)' towns.geojson"),
    ("atgis join lakes.wkt to", "atgis join lakes.wkt towns.geojson"),
    ("atgis count @i", "atgis count @in"),
    ("atgis count @w", "atgis count @w:"),
    ("atgis join a b to", "atgis join a b to"),
    ("atgis-many --fo", "atgis-many --form"),
    ("atgis-many --form l", "atgis-many --form lines"),
    ("atgis-many --part 1", "atgis-many --part 1"),
    ("atgis-many --jobs=3", "atgis-many --jobs=32"),
    ("atgis-many --fea", "atgis-many --features"),
    ("atgis-many --each cou", "atgis-many --each count"),
    ("atgis-many 'select wh", "atgis-many 'select where "),
    ("atgis-many --faults la", "atgis-many --faults lakes.wkt"),
    ("atgis-many count a b c to", "atgis-many count a b c towns.geojson"),
]

# What fish lists for a line.
LISTS = [
    ("atgis --f", ["--feed", "--form"]),
    ("atgis --form ", ["geojson", "seq", "wkt"]),
    ("atgis --form=w", ["--form=wkt"]),
    ("atgis --coords ", ["exact", "round"]),
    ("atgis --digits ", ["7", "9"]),
    ("atgis --workers 3", ["32"]),
    ("atgis --blocks 4", ["4096"]),
    ("atgis --feed 4", ["4096"]),
    ("atgis ", ["area", "count", "extent", "hull", "join", "select"]),
    ("atgis --digits 9 e", ["extent"]),
    ("atgis 'select wh", ["select where has \"", "select where in box(", "select where meets "]),
    ("atgis 'select where i", ["select where in box("]),
    ("atgis 'select where in box(0 0,1 1) a",
     [f"select where in box(0 0,1 1) and {test}" for test in ("has \"", "in box(", "meets ")]),
    ("atgis 'count where has \"a\" ", ["count where has \"a\" = \""]),
    ("atgis select la", ["lakes.wkt"]),
    ("atgis join lakes.wkt to", ["towns.geojson"]),
    ("atgis count @", ["@g:", "@in", "@w:"]),
    ("atgis join a b to", []),
    ("atgis-many --f", ["--faults", "--features", "--form"]),
    ("atgis-many --form ", ["geojson", "lines", "seq", "wkt"]),
    ("atgis-many --each cou", ["count"]),
    ("atgis-many --faults la", ["lakes.wkt"]),
    ("atgis-many count a b c to", ["towns.geojson"]),
]

SETUP: Dict[str, str] = {
    "bash": """bind 'set bell-style none'; bind 'set enable-bracketed-paste off'; bind 'set show-all-if-ambiguous on'
bind 'set completion-query-items 0'; bind 'set page-completions off'
bind -x '"\\C-xd": printf "\\n<<%s>>\\n" "$READLINE_LINE"'; . FOLDER/atgis.bash; PS1=
""",
    "zsh": """fpath=(FOLDER $fpath); autoload -Uz compinit; compinit -D -u; setopt nobeep
unsetopt prompt_cr prompt_sp; PS1=; show() { print -r -- $'\\n'"<<$BUFFER>>" }; zle -N show; bindkey '^Xd' show
LISTMAX=1000
""",
}
START = {"bash": ["bash", "--norc", "--noprofile", "-i"], "zsh": ["zsh", "-f", "-i"]}


class Shell:
    """An interactive shell on a terminal of its own."""

    def __init__(self, name: str, folder: str) -> None:
        self.process, self.terminal = pty.fork()
        if self.process == 0:
            os.chdir(folder)
            os.environ.update(TERM="dumb", HISTFILE="/dev/null", HOME=folder, LC_ALL="C.UTF-8", COLUMNS="200")
            os.execvp(START[name][0], START[name])
        self.send(SETUP[name].replace("FOLDER", FOLDER) + "echo re''ady\n")
        self.until("ready\r?\n")

    def send(self, text: str) -> None:
        """Types a text."""
        os.write(self.terminal, text.encode())

    def until(self, pattern: str) -> str:
        """What the shell writes up to a pattern, or within a minute."""
        told, end = "", time.monotonic() + 60
        while not re.search(pattern, told, re.DOTALL) and time.monotonic() < end:
            if select.select([self.terminal], [], [], 0.2)[0]:
                told += os.read(self.terminal, 65536).decode("utf-8", "replace")
        return told

    def completed(self, line: str, pause: float) -> Optional[str]:
        """What a line becomes by a TAB at its end, None where the shell doesn't tell. It has so many seconds for it.

        The line is taken away then, and no more is typed before the shell tells that it is empty.
        """
        self.send(f"{line}\t")
        time.sleep(pause)
        self.send("\x18d")
        found = re.search("<<(.*?)>>", self.until("<<.*>>"), re.DOTALL)
        self.send("\x15\x18d")
        self.until("<<>>")
        return found and re.sub("[\r\n]", "", found.group(1))

    def close(self) -> None:
        """Ends the shell."""
        os.close(self.terminal)
        os.kill(self.process, signal.SIGKILL)
        os.waitpid(self.process, 0)


# How many seconds a shell has for a completion: more, where it wasn't done, since other work may be what keeps it.
PAUSES = (0.15, 0.6, 2.4)


def typed(name: str, folder: str) -> Iterator[Tuple[str, Optional[str]]]:
    """Types each line of the table into a shell."""
    shell = Shell(name, folder)
    try:
        for line, wanted in LINES:
            for pause in PAUSES:
                got = shell.completed(line, pause)
                is_right = got is not None and got.rstrip(" =") == wanted.rstrip(" ")
                if is_right:
                    break
            yield f"{name}: {line}", None if is_right else f"{got!r}, not {wanted!r}"
    finally:
        shell.close()


def listed(folder: str) -> Iterator[Tuple[str, Optional[str]]]:
    """Asks fish for what it lists."""
    for line, wanted in LISTS:
        done = subprocess.run(["fish", "--no-config", "-c", f"source {FOLDER}/atgis.fish; complete -C $argv[1]", line],
                              cwd=folder, env={**os.environ, "HOME": folder}, capture_output=True, text=True)
        got = sorted(one.split("\t")[0] for one in done.stdout.split("\n") if one)
        yield f"fish: {line}", None if got == wanted and not done.stderr else f"{got!r}, not {wanted!r} {done.stderr}"


def offered(usage: str) -> Iterator[Tuple[str, Optional[str]]]:
    """Looks for the options of the usage line, and the values that it lists, in each of the three files."""
    options = re.findall(r"\[--(\S+) (\S+)\]", usage)
    for name in sorted(os.listdir(FOLDER)):
        with open(os.path.join(FOLDER, name), encoding="utf-8") as file:
            text = file.read()
        for option, values in options:
            words = [option] + ([] if ".." in values else [values.replace("|", " ")]) + values.split("..")[1:]
            missing = [word for word in words if word not in text]
            yield f"{name} has --{option}", f"it doesn't have {missing}" if missing else None


def checks(folder: str, usage: str) -> Tuple[List[Tuple[str, Optional[str]]], List[str]]:
    """What was checked and what is wrong with it, and the shells that aren't installed."""
    for name in FILES:
        with open(os.path.join(folder, name), "w", encoding="utf-8"):
            pass
    ways = {"bash": lambda: typed("bash", folder), "zsh": lambda: typed("zsh", folder), "fish": lambda: listed(folder)}
    found = [one for name, way in ways.items() if shutil.which(name) for one in way()]
    return found + list(offered(usage)), [name for name in ways if not shutil.which(name)]
