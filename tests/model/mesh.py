"""02, Note 3: a text in the form of MSH 2.2 ASCII, and the sheet of its cells and their faces, which is swept (Note 7)."""

import re
from dataclasses import dataclass

from model.sheet import VERTEX_LIMIT, Refused, closure, layout
from model.sweep import SHEET_TOO_LONG, swept

DONE = 0
MESH_MALFORMED = 14
ELEMENT_FAULTY = 15

# The number of nodes of each kind of element: a point, a line, a triangle, a tetrahedron.
NODES_OF_KIND = {15: 1, 1: 2, 2: 3, 4: 4}

WORDS = re.compile(rb"[^ \r\n]+(?: +[^ \r\n]+)*")
NUMBER = re.compile(rb"[0-9]{1,9}")


@dataclass(frozen=True)
class Element:
    """The kind number of an element line and its nodes, in the order of the line."""

    kind: int
    nodes: tuple

    def faulty(self, listed):
        """Whether it has another kind, another number of nodes than its kind, a node that is not listed, or a node twice."""
        right = len(self.nodes) == NODES_OF_KIND.get(self.kind)
        return not (right and listed.issuperset(self.nodes) and len(set(self.nodes)) == len(self.nodes))


@dataclass(frozen=True)
class Mesh:
    """What a text of the right form says: the listed nodes and the elements."""

    nodes: set
    elements: list


def number(word):
    """The value of a word of one to nine decimal digits."""
    if not NUMBER.fullmatch(word):
        raise Refused(MESH_MALFORMED)
    return int(word)


def node(word):
    """The value of a node number."""
    found = number(word)
    if found > VERTEX_LIMIT:
        raise Refused(MESH_MALFORMED)
    return found


class Lines:
    """The lines of a text, taken one after another. Whatever is not of the form raises Refused 14."""

    def __init__(self, text):
        *ended, rest = bytes(text).split(b"\n")
        if rest:
            raise Refused(MESH_MALFORMED)
        self.rest = iter(ended)

    def take(self):
        """The next line without its line feed, and without one carriage return before that."""
        line = next(self.rest, None)
        if line is None:
            raise Refused(MESH_MALFORMED)
        return line.removesuffix(b"\r")

    def words(self):
        """The words of the next line, with one or more spaces between them and none elsewhere."""
        line = self.take()
        if not WORDS.fullmatch(line):
            raise Refused(MESH_MALFORMED)
        return [word for word in line.split(b" ") if word]

    def words_of(self, many):
        """The words of the next line, which has so many."""
        found = self.words()
        if len(found) != many:
            raise Refused(MESH_MALFORMED)
        return found

    def expect(self, word):
        """Takes the line that is this word."""
        if self.words_of(1) != [word]:
            raise Refused(MESH_MALFORMED)

    def expect_end(self):
        """Holds that no line is left."""
        if next(self.rest, None) is not None:
            raise Refused(MESH_MALFORMED)


def read_format(lines):
    """The section that the text starts with."""
    lines.expect(b"$MeshFormat")
    version, kind, size = lines.words_of(3)
    if (version, kind) != (b"2.2", b"0"):
        raise Refused(MESH_MALFORMED)
    number(size)
    lines.expect(b"$EndMeshFormat")


def pass_sections(lines):
    """Passes over the sections before `$Nodes`, and that line."""
    while True:
        (opening,) = lines.words_of(1)
        if opening == b"$Nodes":
            return
        if not opening.startswith(b"$") or opening in (b"$", b"$MeshFormat", b"$Elements"):
            raise Refused(MESH_MALFORMED)
        closing = b"$End" + opening[1:]
        while lines.take() != closing:
            pass


def read_nodes(lines):
    """The listed nodes, from the line after `$Nodes` on."""
    listed = set()
    (count,) = lines.words_of(1)
    for _ in range(number(count)):
        first, *_ = lines.words_of(4)
        listed.add(node(first))
    lines.expect(b"$EndNodes")
    return listed


def read_element(lines):
    """The element of the next line."""
    words = lines.words()
    if len(words) < 3:
        raise Refused(MESH_MALFORMED)
    _, kind, tags = [number(word) for word in words[:3]]
    if len(words) < 3 + tags:
        raise Refused(MESH_MALFORMED)
    return Element(kind, tuple(node(word) for word in words[3 + tags:]))


def read_elements(lines):
    """The elements."""
    lines.expect(b"$Elements")
    (count,) = lines.words_of(1)
    elements = [read_element(lines) for _ in range(number(count))]
    lines.expect(b"$EndElements")
    return elements


def read_mesh(text):
    """What the text says; raises Refused 14 where it is not of the form or a node number exceeds 65535."""
    lines = Lines(text)
    read_format(lines)
    pass_sections(lines)
    mesh = Mesh(read_nodes(lines), read_elements(lines))
    lines.expect_end()
    return mesh


def facets_of(text):
    """The elements of a text as tuples of nodes; raises Refused 14 and then 15."""
    mesh = read_mesh(text)
    if any(element.faulty(mesh.nodes) for element in mesh.elements):
        raise Refused(ELEMENT_FAULTY)
    return [element.nodes for element in mesh.elements]


def sheet_within(sections, limit, room):
    """What the sweep leaves of the sheet of all cells, by dimension; raises Refused 16 where a count of all cells exceeds the limit or their sheet has
    more bytes than the room."""
    if any(len(section) > limit for section in sections):
        raise Refused(SHEET_TOO_LONG)
    if len(layout(sections)) > room:
        raise Refused(SHEET_TOO_LONG)
    return layout(swept(sections))


def import_mesh(text, limit, room):
    """The answer to a text, 0 or the refusal, and the sheet in so many bytes of room, None where it is refused."""
    try:
        return DONE, sheet_within(closure(facets_of(text)), limit, room)
    except Refused as refused:
        return refused.number, None
