"""The tree of a JSON text (RFC 8259), or where the bytes stop being one.

Each part of the grammar has a pattern of its front beside that of the whole, so that the place at which a text can't
go on is told: it is the end of the longest prefix of the bytes that some text begins with. Each value keeps the
offset of its first byte, and strings are their UTF-16 code units, two bytes each. tests/oracle.py reads the trees.
"""
import re
import sys
from typing import NamedTuple

sys.setrecursionlimit(10_000_000)


class Node(NamedTuple):
    """A value: an object has members, an array nodes, a string units, a number or literal its text."""
    kind: str
    at: int
    value: object


class Member(NamedTuple):
    """A member of an object, at its name's opening quote."""
    name: bytes
    at: int
    node: Node


class Stop(Exception):
    """No JSON text goes on at this place with what stands there."""


MARK = b"\xef\xbb\xbf"
SPACE = re.compile(rb"[ \t\n\r]*")
CHARACTERS = rb'[^"\\\x00-\x1f]*(?:\\(?:["\\/bfnrt]|u[0-9A-Fa-f]{4})[^"\\\x00-\x1f]*)*'
STRING = re.compile(rb'"' + CHARACTERS + rb'"')
STRING_FRONT = re.compile(rb'"' + CHARACTERS + rb"(?:\\(?:u[0-9A-Fa-f]{0,3})?)?")
LITERAL = re.compile(rb"true|false|null")
LITERAL_FRONT = re.compile(rb"(?:t(?:r(?:ue?)?)?|f(?:a(?:l(?:se?)?)?)?|n(?:u(?:ll?)?)?)?")
NUMBER = re.compile(rb"(-?(?:0|[1-9][0-9]*))(?:\.([0-9]+))?(?:[eE]([+-]?[0-9]+))?")
NUMBER_FRONT = re.compile(rb"-?(?:(?:0|[1-9][0-9]*)(?:\.[0-9]*)?(?:(?<=[0-9])[eE][+-]?[0-9]*)?)?")
ESCAPE = re.compile(r'\\(?:u([0-9A-Fa-f]{4})|(["\\/bfnrt]))')
ESCAPED = {'"': '"', "\\": "\\", "/": "/", "b": "\b", "f": "\f", "n": "\n", "r": "\r", "t": "\t"}


def units(text):
    """The code units of a spelled string, a lone surrogate being one unit."""
    plain = ESCAPE.sub(lambda found: chr(int(found[1], 16)) if found[1] else ESCAPED[found[2]], text[1:-1].decode())
    return plain.encode("utf-16-be", "surrogatepass")


def pass_space(data, at):
    """The first place from `at` on that isn't blank."""
    return SPACE.match(data, at).end()


def pass_byte(data, at, byte):
    """The place behind the one byte that is due at `at`."""
    if data[at:at + 1] != byte:
        raise Stop(at)
    return at + 1


def read_text(data, at, whole, front):
    """The end of the text at `at`, or where it can't go on."""
    end = front.match(data, at).end()
    found = whole.match(data, at)
    if found is None or found.end() < end:
        raise Stop(end)
    return found.end()


def read_string(data, at):
    """The units of the string at `at`, and its end."""
    pass_byte(data, at, b'"')
    end = read_text(data, at, STRING, STRING_FRONT)
    return units(data[at:end]), end


def read_member(data, at):
    """The member whose name is due at `at`, and the place behind its value."""
    name, end = read_string(data, at)
    behind = pass_byte(data, pass_space(data, end), b":")
    node, end = read_value(data, pass_space(data, behind))
    return Member(name, at, node), end


def read_list(data, at, closer, read_item):
    """What stands between the bracket at `at` and the one that closes it, and the place behind that one."""
    items = []
    at = pass_space(data, at + 1)
    if data[at:at + 1] == closer:
        return items, at + 1
    while True:
        item, end = read_item(data, at)
        items.append(item)
        at = pass_space(data, end)
        if data[at:at + 1] == closer:
            return items, at + 1
        at = pass_space(data, pass_byte(data, at, b","))


def read_value(data, at):
    """The value at `at`, and the place behind it."""
    first = data[at:at + 1]
    if first == b"{":
        value, end = read_list(data, at, b"}", read_member)
        return Node("object", at, value), end
    if first == b"[":
        value, end = read_list(data, at, b"]", read_value)
        return Node("array", at, value), end
    if first == b'"':
        value, end = read_string(data, at)
        return Node("string", at, value), end
    is_word = first.isalpha()
    end = read_text(data, at, LITERAL if is_word else NUMBER, LITERAL_FRONT if is_word else NUMBER_FRONT)
    return Node("literal" if is_word else "number", at, data[at:end]), end


def read_tree(data):
    """The tree of the whole text; Stop tells the end of the longest prefix that some text goes on from."""
    base = len(MARK) if data.startswith(MARK) else 0
    tree, end = read_value(data, pass_space(data, base))
    end = pass_space(data, end)
    if end < len(data):
        raise Stop(end)
    return tree
