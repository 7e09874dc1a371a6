"""A mesh on its way to a text in the form of 02, Note 3: its lines, how they are written, and what may stand in them."""

from dataclasses import dataclass, field

KIND_OF_SIZE = {1: 15, 2: 1, 3: 2, 4: 4}
MOST_DIGITS = 9

# Words that a reader may take for spaces, for line ends, for numbers or for lines of their own. Each has the bytes of one word.
ODD_WORDS = [b"-1", b"0", b"+7", b"-1e-16", b"nan", b"1\t2", b"\t", b"\0", b"1\0", b"\x0b", b"\x0c", b"\x1a", b"\x1c", b"\x85", b"\xa0", b"\xff",
             b"\xe2\x80\xa8", b"0x10", b"99999999999999999999", b"$", b"$EndNodes", b"$EndElements", b"65536", b"\"", b"//", b"#", b"," * 300]

# Names of sections to pass over: some are almost one of the three, or read like the end of one.
SECTION_NAMES = [b"PhysicalNames", b"Foo", b"EndFoo", b"End", b"EndNodes", b"EndElements", b"EndMeshFormat", b"Nodes1", b"Node", b"nodes",
                 b"Elements.", b"Element", b"MeshFormat0", b"Meshformat", b"ParametricNodes", b"Periodic", b"$", b"$Nodes", b"Nodes\t", b"\0",
                 b"\xff\xfe", b"1"]

KEYWORDS = [b"$MeshFormat", b"$EndMeshFormat", b"$Nodes", b"$EndNodes", b"$Elements", b"$EndElements"]
LINE_ENDS = [b"\n", b"\r\n"]


@dataclass
class Element:
    """An element line: the words of its number, kind, tags and nodes; a tag count replaces the right one."""

    number: bytes
    kind: bytes
    tags: list
    nodes: list
    tag_count: bytes = None

    def words(self):
        """The words of the line."""
        count = b"%d" % len(self.tags) if self.tag_count is None else self.tag_count
        return [self.number, self.kind, count, *self.tags, *self.nodes]


def line_of(number, facet):
    """The element line of a facet with two tags, as Gmsh writes it."""
    return Element(b"%d" % number, b"%d" % KIND_OF_SIZE[len(facet)], [b"1", b"3"], [b"%d" % v for v in facet])


@dataclass
class Draft:
    """A mesh on its way to a text, with room for faults: sections in bytes, counts in place of the right ones, lines in place of a labelled one."""

    nodes: list
    elements: list
    format: list = field(default_factory=lambda: [b"2.2", b"0", b"8"])
    sections: list = field(default_factory=list)
    node_count: bytes = None
    element_count: bytes = None
    in_place: dict = field(default_factory=dict)
    tail: bytes = b""
    cut: int = 0

    def lines(self):
        """The words of each line by its label; bytes are written as they are."""
        count, many = (b"%d" % len(lines) for lines in (self.nodes, self.elements))
        yield "$MeshFormat", [b"$MeshFormat"]
        yield "format", self.format
        yield "$EndMeshFormat", [b"$EndMeshFormat"]
        yield from ((("section", i), section) for i, section in enumerate(self.sections))
        yield "$Nodes", [b"$Nodes"]
        yield "node count", [count if self.node_count is None else self.node_count]
        yield from ((("node", i), words) for i, words in enumerate(self.nodes))
        yield "$EndNodes", [b"$EndNodes"]
        yield "$Elements", [b"$Elements"]
        yield "element count", [many if self.element_count is None else self.element_count]
        yield from ((("element", i), element.words()) for i, element in enumerate(self.elements))
        yield "$EndElements", [b"$EndElements"]

    def text(self, hand):
        """The text, written by a hand."""
        lines = [line for label, words in self.lines() for line in self.in_place.get(label, [words])]
        text = b"".join(line if isinstance(line, bytes) else hand.line(line) for line in lines)
        return text[:max(0, len(text) - self.cut)] + self.tail


@dataclass(frozen=True)
class Hand:
    """How a text is written: the gaps between words and the ends of lines to choose from, and how often numbers get leading zeros."""

    rng: object
    gaps: tuple = (b" ",)
    ends: tuple = (b"\n",)
    zeros: float = 0

    def line(self, words):
        """A line with its end."""
        if len(self.gaps) == 1:
            return self.gaps[0].join(words) + self.rng.choice(self.ends)
        parts = [part for word in words for part in (self.rng.choice(self.gaps), word)]
        return b"".join(parts[1:]) + self.rng.choice(self.ends)

    def digits(self, value):
        """The digits of a number, up to nine."""
        if self.rng.random() >= self.zeros:
            return b"%d" % value
        return str(value).zfill(self.rng.randint(1, MOST_DIGITS)).encode()


def word(rng, odd):
    """A word that is no number by its place: a decimal fraction, or with this chance an odd one."""
    if rng.random() < odd:
        return rng.choice(ODD_WORDS)
    return b"%.16g" % rng.uniform(-1, 1)


def looks_like_closing(name):
    """Lines inside a section that do not close it."""
    closing = b"$End" + name
    return [closing + b" ", b" " + closing, closing + b"\r\r", b"\r" + closing, closing[:-1], closing + b"x", closing + b"\0", closing + b" 1",
            closing.lower(), b"text" + closing, b"$" + closing, b"$" + name, b"$End"]


def inside(rng, name):
    """A line inside the section of this name."""
    return rng.choice([
        rng.choice(looks_like_closing(name)), rng.choice(KEYWORDS), rng.choice(KEYWORDS) + rng.choice([b" ", b"\r\r", b" 1"]),
        b"1", b'1 7 "coil"', b"", b" ", b"\r", b"  two  words  ", rng.randbytes(rng.randint(1, 30)).replace(b"\n", b"\0")])


def section(rng, name):
    """A section to pass over, in bytes."""
    end = rng.choice([(b"\n",), (b"\r\n",), tuple(LINE_ENDS)])
    lines = [b"$" + name, *(inside(rng, name) for _ in range(rng.choice([0, 0, 1, 3, 8]))), b"$End" + name]
    return b"".join(line + rng.choice(end) for line in lines)
