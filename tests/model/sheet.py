"""The sheet of 01: its layout, refusals 1 to 7 and 18 (02, Note 7), building one and printing one."""

import struct
from dataclasses import dataclass
from itertools import combinations

HEADER_BYTES = 16
DIMENSIONS = 4
LIBRARY_COUNT_LIMIT = 256
PROGRAM_COUNT_LIMIT = 48
VERTEX_LIMIT = 65535
LOOSE_NODE = 18

# The order in which the refusals of a call on a sheet are tried.
TRIAL = (*range(1, 8), LOOSE_NODE, *range(8, 14), 17)


class Refused(Exception):
    """A refusal with its number in 01."""

    def __init__(self, number):
        super().__init__(f"refusal {number}")
        self.number = number


@dataclass(frozen=True)
class Sheet:
    """Cells by dimension: sections[p] is a tuple of tuples of p + 1 vertex numbers."""

    sections: tuple

    def count(self, p):
        """n_p, which is 0 outside the sheet's dimensions."""
        return len(self.sections[p]) if 0 <= p < DIMENSIONS else 0

    def cells(self, p):
        """The cells of dimension p in sheet order."""
        return self.sections[p] if 0 <= p < DIMENSIONS else ()


def rises(items):
    """Whether each item is less than the next; tuples compare by first vertex, then the next."""
    return all(a < b for a, b in zip(items, items[1:]))


def faces(cell):
    """The cells obtained by leaving out vertex number 0, 1, ... of the cell."""
    return [cell[:i] + cell[i + 1:] for i in range(len(cell))]


def word(vertices):
    """02, Note 2: up to four vertex numbers packed in 64 bits, the first in the highest."""
    packed = 0
    for v in vertices:
        packed = packed << 16 | v
    return packed


def section_starts(counts):
    """The required offset of each section, and after them the required length."""
    starts = [HEADER_BYTES]
    for p, count in enumerate(counts):
        starts.append(starts[-1] + 2 * (p + 1) * count)
    return starts


def longest(count_limit):
    """The length of the longest sheet within a count limit."""
    return section_starts([count_limit] * DIMENSIONS)[-1]


def read_section(data, p, count, start):
    """The cells of one section of dimension p."""
    numbers = struct.unpack_from(f"<{count * (p + 1)}H", data, start)
    return tuple(numbers[i * (p + 1):(i + 1) * (p + 1)] for i in range(count))


def face_missing(sections):
    """Whether some cell has a face that the section before does not hold."""
    for p in range(1, len(sections)):
        below = set(sections[p - 1])
        if any(face not in below for cell in sections[p] for face in faces(cell)):
            return True
    return False


def loose_vertices(sections):
    """02, Note 7: the vertices in no edge, where there is an edge."""
    used = {v for edge in sections[1] for v in edge}
    return [cell for cell in sections[0] if cell[0] not in used] if used else []


def first_tried(numbers):
    """The refusal that is told where the faults of these numbers meet."""
    return min(numbers, key=TRIAL.index)


def read_cells(data, count_limit):
    """The sheet in the bytes; raises Refused 1 to 7, each tried over the whole sheet."""
    data = bytes(data)
    if len(data) < HEADER_BYTES:
        raise Refused(1)
    fields = struct.unpack_from("<8H", data)
    counts, offsets = fields[0::2], fields[1::2]
    if any(count > count_limit for count in counts):
        raise Refused(2)
    starts = section_starts(counts)
    if any(given != required for given, required in zip(offsets, starts)):
        raise Refused(3)
    if len(data) != starts[-1]:
        raise Refused(4)
    sections = [read_section(data, p, counts[p], starts[p]) for p in range(DIMENSIONS)]
    if not all(rises(cell) for section in sections for cell in section):
        raise Refused(5)
    if not all(rises(section) for section in sections):
        raise Refused(6)
    if face_missing(sections):
        raise Refused(7)
    return Sheet(tuple(sections))


def parse(data, count_limit):
    """The accepted sheet in the bytes; raises Refused 1 to 7 and then 18."""
    sheet = read_cells(data, count_limit)
    if loose_vertices(sheet.sections):
        raise Refused(LOOSE_NODE)
    return sheet


def refusal(data, count_limit):
    """The number with which the bytes are refused, 0 where they are accepted."""
    try:
        parse(data, count_limit)
    except Refused as refused:
        return refused.number
    return 0


def layout(sections, counts=None, offsets=None):
    """The bytes of explicit sections, unchecked; counts and offsets replace the right ones."""
    counts = [len(section) for section in sections] if counts is None else counts
    offsets = section_starts(counts)[:DIMENSIONS] if offsets is None else offsets
    fields = [field & 0xFFFF for pair in zip(counts, offsets) for field in pair]
    vertices = [v for section in sections for cell in section for v in cell]
    return struct.pack(f"<8H{len(vertices)}H", *fields, *vertices)


def closure(facets):
    """The sections of all faces of the facets, sorted; ValueError for what is no facet."""
    sections = [set() for _ in range(DIMENSIONS)]
    for facet in facets:
        cell = tuple(sorted(facet))
        if not 1 <= len(cell) <= DIMENSIONS or not rises(cell):
            raise ValueError(f"a facet has 1 to {DIMENSIONS} different vertices: {facet}")
        if not 0 <= cell[0] <= cell[-1] <= VERTEX_LIMIT:
            raise ValueError(f"a vertex number lies in 0 to {VERTEX_LIMIT}: {facet}")
        for size in range(1, len(cell) + 1):
            sections[size - 1].update(combinations(cell, size))
    return [sorted(section) for section in sections]


def from_facets(facets):
    """The bytes of the sheet of all faces of the facets."""
    return layout(closure(facets))


def dump(sheet):
    """A sheet as readable lines: the counts, then the cells of each dimension."""
    counts = ", ".join(str(sheet.count(p)) for p in range(DIMENSIONS))
    lines = [f"counts {counts}"]
    for p in range(DIMENSIONS):
        lines.append(f"dimension {p}:" + (" none" if not sheet.count(p) else ""))
        lines += ["  " + "-".join(map(str, cell)) for cell in sheet.cells(p)]
    return "\n".join(lines) + "\n"
