"""Random GeoJSON files, and random tests to ask of them; the same seed gives the same.

A file is made from the root by role, in the white space of some writer, and has up to 150 features. Some of its
features are plain and others odd, as many as the file's own share says. An odd one has, each at a rate of the file's own,
what few writers write: positions of three to five numbers, exponents and many digits, null and missing members, objects
of up to a hundred members whose names differ in one character, escapes in any name and value, members in any order and
others before them, nested values, odd white space. At each place something else may come with a further rate, that of
faults: a member left out, given twice or of another kind, a short line, an open ring, a number out of range. A file of
rate 0 has no fault at seven digits, but where its coordinates have more. Then some of the files get a changed byte or
two. Coordinates are small, so that shapes meet and extents touch.
"""
import json
import random
import string

from json_tree import units
from oracle import fixed
from shapes import Shape, box_shape, is_in, meets

KINDS = ["Point", "MultiPoint", "LineString", "MultiLineString", "Polygon", "MultiPolygon"]
WITHOUT_ESCAPES = ["name", "kind", "a", "b", "", "é", "😀", "type", "geometry", "coordinates", "properties", "sixteen bytes at"]
NAMES = WITHOUT_ESCAPES + ["\t\"\\/", "\ud800"]
TEXTS = NAMES + ["Feature", "\\", '"', "a text of more than sixteen bytes", "й" * 20, "x" * 70, "\u2028\x7f\x00", "],[{}:"]
PLAIN = ["0", "1", "2", "3", "4", "5", "-1", "-2", "1.5", "2.5", "0.5", "2.50", "3.0000000", "0.0000001", "1.0000001"]
EXPONENTS = ["1e0", "1E0", "10e-1", "0.2E+1", "25e-1", "0e999999", "-0", "-0.0e-5", "-200E-2", "0.00005e5", "1e-7", "3e+00"]
DIGITS = ["2." + "5" + "0" * 30, "0." + "0" * 40, "15" + "0" * 20 + "e-21", "1.2345678" + "0" * 25, "0.0000003" + "0" * 9,
          "-1.1000000000000000000"]
LARGE = ["30000000", "-3e7", "29999999.9999999", "-29999999.9999999", "3e7", "29999999.9999999000"]
BEYOND = ["2.4999999499999", "13.404953999999998", "1.00000005", "-1.00000015", "0.1234567890123456", "1e-8", "15e-8", "2.99999995",
          "2.123456789012345678901234567890", "0.99999999999999999999", "1.000000001", "-1.0000000005", "15e-10", "1e-9999999999"]
FAULTY = BEYOND + ["30000000.00000005", "30000000.0000001", "1e99", "-1E+99999999", "3.00000001e7", "300000.0000000005",
                   "-300000.000000001"]
JUNK = ["null", "true", "false", "0", "-1.5e3", '"a"', '""', "[]", "{}", "[1]", "[[1,2]]", '{"a":1}', '{"a":1,"a":2}',
        '{"type":"Feature"}', '{"type":"Point","coordinates":[1,2]}', '{"type":"FeatureCollection","features":[]}']
BYTES = [bytes([byte]) for byte in b'{}[],:"\\/ \t\r\n\x00\x1f\x7f0123456789eE.+-tfnu\x80\xbf\xc3\xe2\xed\xf0\xff']
# What stands behind an opening bracket, between items, around a colon, and before a closing bracket.
LAYOUTS = [("", ",", ":", ""), ("", ",", ":", ""), ("", ", ", ": ", ""), (" ", ", ", ": ", " "), ("", ", ", " : ", ""),
           ("\n    ", ",\n    ", ": ", "\n  "), ("\r\n\t", ",\r\n\t", ":", "\r\n")]
# What is rare in files: once in a geometry, feature or object, and at each number, text or place; and the rates of these.
RARELY = ["order", "front", "foreign", "null", "missing", "further", "wide", "nested", "respelled", "escape"]
OFTEN = ["blank", "exponent", "digits"]
RARE_RATES, OFTEN_RATES = [0, 0.1, 0.4, 0.9], [0, 0.02, 0.1, 0.5]
SHARES = [0.1, 0.8, 1, 1]
RATES = [0, 0, 0, 0.001, 0.01, 0.1]
COUNTS = [0, 1, 2, 5, 40, 100, 150]
LETTERS = string.ascii_letters + string.digits + " !#$%&'()*+,-./:;<=>?@[]^_`{|}~\"\\éß\x7fλж日€😀"
SHORT = {'"': '\\"', "\\": "\\\\", "/": "\\/", "\t": "\\t", "\n": "\\n", "\r": "\\r", "\b": "\\b", "\f": "\\f"}


class Maker:
    """Makes the texts of one file."""

    def __init__(self, seed):
        self.random = random.Random(seed)
        self.rate = self.random.choice(RATES)
        self.share = self.random.choice(SHARES)
        self.rates = {name: self.random.choice(RARE_RATES) for name in RARELY}
        self.rates.update({name: self.random.choice(OFTEN_RATES) for name in OFTEN})
        self.layout = self.random.choice(LAYOUTS)
        self.numbers = PLAIN + (LARGE if self.chance(0.15) else []) + (BEYOND if self.chance(0.2) else [])
        self.is_odd = False
        self.width = 2

    def chance(self, rate):
        """Whether something comes that does so with this rate."""
        return rate > 0 and self.random.random() < rate

    def odd(self, name):
        """Whether an oddity comes, which it does in odd features alone."""
        return self.is_odd and self.chance(self.rates[name])

    def blank(self):
        """Nothing, or some bytes of whitespace."""
        if not self.odd("blank"):
            return ""
        return "".join(self.random.choices(" \t\n\r", k=self.random.choice([1, 1, 1, 2, 2, 3, 20])))

    def string(self, text):
        """A text in quotes, with some of its characters as escapes."""
        rate = self.random.choice([0.1, 0.5, 1]) if self.odd("escape") else 0
        if rate == 0 and text.isprintable() and '"' not in text and "\\" not in text:
            return f'"{text}"'
        return f'"{"".join(self.character(character, rate) for character in text)}"'

    def character(self, character, rate):
        """A character of a string, by itself or as an escape: its letter, or those of its code units."""
        is_plain = character not in '"\\\ud800' and character >= " "
        if is_plain and not self.chance(rate):
            return character
        if character in SHORT and self.chance(0.5):
            return SHORT[character]
        pairs = character.encode("utf-16-be", "surrogatepass").hex()
        pairs = pairs.upper() if self.chance(0.5) else pairs
        return "".join(f"\\u{pairs[place:place + 4]}" for place in range(0, len(pairs), 4))

    def listed(self, brackets, items):
        """Items between brackets, in the file's layout."""
        before, between, _, behind = self.layout
        if self.is_odd and self.rates["blank"]:
            items = [f"{self.blank()}{item}{self.blank()}" for item in items]
        return brackets[0] + (before + between.join(items) + behind if items else self.blank()) + brackets[1]

    def array(self, items):
        """An array, of which items may be lost or changed."""
        if self.rate:
            items = [self.maybe(item) for item in items if not self.chance(self.rate / 2)]
        return self.listed("[]", items)

    def maybe(self, text):
        """A value, or another in its place."""
        return self.random.choice(JUNK) if self.chance(self.rate) else text

    def members(self, pairs):
        """An object of these members, as they are."""
        colon = self.layout[2]
        return self.listed("{}", [f"{self.string(name)}{self.blank()}{colon}{self.blank()}{text}" for name, text in pairs])

    def object(self, members):
        """An object by its role: its members may be in any order, lost, given twice or changed, and others added."""
        pairs = [(name, self.maybe(text)) for name, text in members if not self.chance(self.rate)]
        pairs += [(name, self.random.choice(JUNK)) for name, _ in members if self.chance(self.rate / 4)]
        if self.odd("order"):
            self.random.shuffle(pairs)
        if self.odd("foreign"):
            for number in range(self.random.choice([1, 1, 2, 5])):
                pairs.insert(self.random.randint(0, len(pairs)), (f"x{number}", self.value(3)))
        return self.members((self.front() if self.odd("front") else []) + pairs)

    def front(self):
        """Members that stand before those of an object's role."""
        box = self.listed("[]", [self.number() for _ in range(self.random.choice([4, 4, 4, 6]))])
        pairs = [("bbox", box), ("id", self.random.choice([self.string("way/1"), "17", "1E0"])), ("y", self.value(3))]
        return self.random.sample(pairs, self.random.randint(1, 3))

    def names(self):
        """What names and texts are taken from: in plain features, what needs no escape."""
        return NAMES if self.is_odd else WITHOUT_ESCAPES

    def value(self, depth):
        """Any value, of objects with names that differ."""
        if depth == 0 or self.chance(0.4):
            text = self.random.choice(TEXTS if self.chance(0.1) else self.names())
            return self.random.choice([self.number(), self.string(text), "null", "true", "[]", "{}"])
        if self.chance(0.05):
            return self.deep()
        if self.chance(0.5):
            return self.listed("[]", [self.value(depth - 1) for _ in range(self.random.randint(0, 4))])
        return self.properties(depth - 1)

    def deep(self):
        """Arrays and objects in one another."""
        text = self.value(0)
        for _ in range(self.random.choice([2, 3, 5, 20])):
            text = self.members([(self.random.choice(self.names()), text)]) if self.chance(0.4) else self.listed("[]", [text])
        return text

    def properties(self, depth):
        """An object of a few texts and other values, or of many."""
        if self.odd("wide"):
            return self.wide()
        names = self.random.sample(self.names(), self.random.randint(0, 6))
        return self.members([(name, self.value(depth if self.odd("nested") else 0)) for name in names])

    def wide(self):
        """An object of up to a hundred members, whose names differ in one character; one may be given twice."""
        stem, count = "n" * self.random.choice([0, 0, 3, 7, 15, 40]), self.random.choice([5, 9, 9, 12, 20, 40, 95])
        place = self.random.choice([0, len(stem) // 2, len(stem)])
        names = [stem[:place] + letter + stem[place:] for letter in self.random.sample(LETTERS, count)]
        names += self.random.sample(NAMES[:2], self.random.randint(0, 2))
        names += [self.random.choice(names)] if self.chance(10 * self.rate) else []
        return self.members([(name, self.value(0)) for name in names])

    def number(self):
        """A number, mostly a small one."""
        if self.chance(self.rate):
            return self.random.choice(FAULTY)
        if self.odd("exponent"):
            return self.random.choice(EXPONENTS)
        if self.odd("digits"):
            return self.random.choice(DIGITS)
        if self.chance(0.1):
            return f"{self.random.randint(-2, 4)}.{self.random.randint(0, 10**7 - 1):07d}"
        return self.random.choice(self.numbers)

    def respelled(self, number):
        """The same number in other digits."""
        if "e" in number or "E" in number:
            return number
        further = ["e0", "E+00", "e-0", "0" if "." in number else ".0", "0" * 12 if "." in number else ".000"]
        return number + self.random.choice(further)

    def numbers_of_position(self):
        """The numbers of a position, mostly two; what further ones are doesn't count."""
        count = self.width or self.random.randint(2, 5)
        further = [self.random.choice(FAULTY + PLAIN + DIGITS) for _ in range(count - 2)]
        return [self.number(), self.number()] + further

    def position(self):
        """A position."""
        return self.array(self.numbers_of_position())

    def count(self, least):
        """How many positions a line has, mostly few."""
        return self.random.randint(least, 5) + (self.random.randint(10, 50) if self.chance(0.03) else 0)

    def line(self):
        """The positions of a line."""
        return self.array([self.position() for _ in range(self.count(2) - self.chance(self.rate))])

    def ring(self):
        """The positions of a ring, closed but for some; the last may spell its numbers in another way than the first."""
        positions = [self.numbers_of_position() for _ in range(self.count(3) - self.chance(self.rate))]
        last = positions[0]
        if self.odd("respelled"):
            last = [self.respelled(number) for number in last[:2]] + self.random.choice([[], ["7"], ["1e999", "0"]])
        if self.chance(self.rate):
            last = self.numbers_of_position()
        return self.array([self.array(position) for position in positions + [last]])

    def several(self, make, least):
        """An array of a few."""
        return self.array([make() for _ in range(self.random.choice([least, least, 2, 3]))])

    def polygon(self):
        """The rings of a polygon."""
        return self.several(self.ring, 1)

    def coordinates(self, kind):
        """The coordinates of a kind; some are empty, and some of another kind."""
        kind = self.random.choice(KINDS) if self.chance(self.rate) else kind
        if self.odd("missing") and self.chance(0.2):
            return "[]"
        self.width = 2
        if self.odd("further"):
            self.width = self.random.choice([3, 3, 4, 5, None, None, None])
        return {"Point": self.position, "MultiPoint": lambda: self.several(self.position, 1), "LineString": self.line,
                "MultiLineString": lambda: self.several(self.line, 1), "Polygon": self.polygon,
                "MultiPolygon": lambda: self.several(self.polygon, 1)}[kind]()

    def geometry(self, depth=2):
        """A geometry, or a collection of some."""
        if depth > 0 and self.chance(0.06):
            items = self.listed("[]", [self.maybe(self.geometry(depth - 1)) for _ in range(self.random.randint(0, 3))])
            return self.object([("type", self.string("GeometryCollection")), ("geometries", items)])
        kind = self.random.choice(KINDS)
        return self.object([("type", self.string(kind)), ("coordinates", self.coordinates(kind))])

    def feature(self):
        """A feature, plain or odd."""
        self.is_odd = self.chance(self.share)
        members = [("type", self.string("Feature")), ("geometry", self.geometry()), ("properties", self.properties(3))]
        for number in (1, 2):
            name, _ = members[number]
            members[number] = (name, "null") if self.odd("null") else members[number]
        members = [pair for pair in members if pair[0] == "type" or not self.odd("missing")]
        if self.chance(0.3):
            members.append(members.pop(1 % len(members)))
        return self.object(members)

    def root(self, counts):
        """The value of a whole text."""
        self.is_odd = self.chance(0.5)
        if self.chance(0.05):
            return self.geometry()
        if self.chance(0.05):
            return self.feature()
        items = self.listed("[]", [self.maybe(self.feature()) for _ in range(self.random.choice(counts))])
        self.is_odd = self.chance(0.5)
        return self.object([("type", self.string("FeatureCollection")), ("features", items)])

    def file(self, counts=COUNTS):
        """The bytes of a file, of one of these counts of features."""
        data = f"{self.blank()}{self.root(counts)}{self.blank()}".encode("utf-8", "surrogatepass")
        data = b"\xef\xbb\xbf" + data if self.chance(0.1) else data
        for _ in range(self.random.randint(1, 2) if self.chance(0.15) else 0):
            data = self.changed(data)
        return data

    def changed(self, data):
        """The bytes with one of them left out, added or changed, or with their end cut off."""
        place = self.random.randint(0, len(data))
        if self.chance(0.25):
            return data[:place]
        behind = place + self.random.choice([0, 1])
        return data[:place] + (self.random.choice(BYTES) if self.chance(0.7) else b"") + data[behind:]

    def points(self, count):
        """Points of small whole numbers."""
        return [(self.random.randint(-2, 5), self.random.randint(-2, 5)) for _ in range(count)]

    def test(self, digits):
        """A test as a query spells it, and what it is of a feature whose coordinates have so many digits."""
        word = self.random.choice(["in", "meets", "meets", "has"])
        if word == "has":
            name, value = self.random.choice(NAMES), self.random.choice(TEXTS)
            pair = tuple(units(json.dumps(text).encode()) for text in (name, value))
            return f"has {self.string(name)} = {self.string(value)}", lambda feature: pair in feature.texts
        if word == "meets" and self.chance(0.6):
            text, shape = self.target(digits)
            return f"meets {text}", lambda feature: meets(feature.shape, shape)
        (a, c), (b, d) = (sorted(numbers) for numbers in zip(*self.points(2)))
        box = tuple(fixed(str(number).encode(), True, digits) for number in (a, b, c, d))
        text = f"{word} box({a} {b},{c} {d})"
        if word == "in":
            return text, lambda feature: is_in(feature.shape, box)
        return text, lambda feature: meets(feature.shape, box_shape(box))

    def target(self, digits):
        """A geometry as a query spells it, and its shape."""
        kind = self.random.choice(["POINT", "LINESTRING", "POLYGON"])
        points = self.points({"POINT": 1, "LINESTRING": 3, "POLYGON": 4}[kind])
        points += points[:1] if kind == "POLYGON" else []
        text = f"({','.join(f'{x} {y}' for x, y in points)})"
        path = [(x * 10**digits, y * 10**digits) for x, y in points]
        if kind == "POLYGON":
            return f"POLYGON ({text})", Shape([], [], [[path]])
        return f"{kind} {text}", Shape(path, [], []) if kind == "POINT" else Shape([], [path], [])
