"""The tables of small files in this folder. A table that isn't in form ends the script, with a line that says where."""
import json
import os
import re
import sys

TESTS = os.path.dirname(os.path.abspath(__file__))
MEMBERS = {"name", "note", "words", "files", "inputs", "stdin", "out", "err", "status", "folders", "unreadable",
           "out_is_full", "out_is_unread", "stdin_is_closed", "stdin_is_slow", "raw_words"}
TOLD = re.compile(r"\d+|[A-Z]\w+ at \d+")


def input_text(name):
    """The text of a file in inputs/, whose characters are its bytes."""
    with open(os.path.join(TESTS, "inputs", name), newline="", encoding="latin-1") as file:
        return file.read()


def case_of(case):
    """A case of cases.json, without its note, and with the texts of its inputs among its files."""
    wrong = sorted(set(case) - MEMBERS) + [name for name in ("name", "words") if name not in case]
    if wrong:
        sys.exit(f"tests/cases.json: {case.get('name', case)!r} has a member too many or too few: {', '.join(wrong)}")
    texts = {name: input_text(source) for name, source in case.get("inputs", {}).items()}
    rest = {name: value for name, value in case.items() if name not in ("note", "inputs")}
    return {**rest, "files": {**case.get("files", {}), **texts}}


def cases():
    """The cases of cases.json."""
    with open(os.path.join(TESTS, "cases.json"), encoding="utf-8") as file:
        return [case_of(case) for case in json.load(file)]


def rows(name):
    """The rows of a table of files: what is said of each, and its bytes as characters."""
    with open(os.path.join(TESTS, name), encoding="utf-8") as file:
        lines = [(place, line.rstrip("\n")) for place, line in enumerate(file, 1)]
    found = [(place, line.split("|", 1)) for place, line in lines if line and not line.startswith("#")]
    for place, row in found:
        if len(row) < 2 or not TOLD.fullmatch(row[0]):
            sys.exit(f"tests/{name}, line {place}: a row is a count or a fault `KIND at OFFSET`, a bar, and a text")
    found = [row for _, row in found]
    return [(told, text.encode("utf-8").decode("latin-1")) for told, text in found]


def line_rows():
    """The rows of lines.txt."""
    return rows("lines.txt")


def geojson_rows():
    """The rows of geojson.txt, with the bytes that they stand for."""
    return [(told, re.sub("%([0-9A-F]{2})", lambda found: chr(int(found[1], 16)), text))
            for told, text in rows("geojson.txt")]
