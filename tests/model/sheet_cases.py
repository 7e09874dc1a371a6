"""Sheets for the checks 1 to 7 and 18: sound ones, each fault alone, and every two faults together."""

from dataclasses import dataclass, field
from itertools import combinations, islice
from math import comb

from model.sheet import DIMENSIONS, LOOSE_NODE, VERTEX_LIMIT, closure, first_tried, layout, section_starts

# The last cell of each section above 0 is a face of no other, so that a fault in it is the only one.
BASE_FACETS = [(1, 2, 3, 4), (2, 3, 4, 5), (6, 7, 8), (10, 11)]

# Vertices that are in no facet: before, between and after the others.
LOOSE = [(0,), (9,), (12,), (VERTEX_LIMIT,), (0, 9, 12)]


@dataclass
class Draft:
    """A sheet on its way to bytes, with room for faults in its header and its length."""

    sections: list = field(default_factory=lambda: closure(BASE_FACETS))
    offset_faults: dict = field(default_factory=dict)
    tail: int = 0
    kept_bytes: int = None

    def bytes(self):
        """The bytes: a tail of zeros below 0 bytes cuts the end, kept_bytes cuts last."""
        offsets = section_starts(map(len, self.sections))[:DIMENSIONS]
        for p, change in self.offset_faults.items():
            offsets[p] += change
        data = layout(self.sections, offsets=offsets)
        data = data[:self.tail] if self.tail < 0 else data + bytes(self.tail)
        return data[:self.kept_bytes]


def cut_header(kept):
    """Fault 1."""
    def edit(draft):
        draft.kept_bytes = kept
    return edit


def many_vertices(count):
    """Fault 2: loose vertices until there are so many."""
    def edit(draft):
        new = (v for v in range(100, 65536))
        draft.sections[0] += [(v,) for v in islice(new, count - len(draft.sections[0]))]
    return edit


def shift_offset(p, change):
    """Fault 3."""
    def edit(draft):
        draft.offset_faults[p] = change
    return edit


def change_length(change):
    """Fault 4: so many bytes more, or fewer."""
    def edit(draft):
        draft.tail = change
    return edit


def turn_cell(p):
    """Fault 5: the last cell of a section with its last two vertices exchanged."""
    def edit(draft):
        cell = draft.sections[p][-1]
        draft.sections[p][-1] = cell[:-2] + (cell[-1], cell[-2])
    return edit


def repeat_vertex(p):
    """Fault 5: the last cell of a section with its last vertex twice."""
    def edit(draft):
        cell = draft.sections[p][-1]
        draft.sections[p][-1] = cell[:-2] + (cell[-1], cell[-1])
    return edit


def exchange_cells(p):
    """Fault 6: the first two cells of a section exchanged."""
    def edit(draft):
        first, second, *rest = draft.sections[p]
        draft.sections[p] = [second, first, *rest]
    return edit


def repeat_cell(p):
    """Fault 6: the first cell of a section twice."""
    def edit(draft):
        draft.sections[p] = draft.sections[p][:1] + draft.sections[p]
    return edit


def drop_face(cell):
    """Fault 7: a face left out of its section."""
    def edit(draft):
        section = draft.sections[len(cell) - 1]
        section.remove(cell)
    return edit


def add_loose(vertices):
    """Fault 18: vertices in no edge."""
    def edit(draft):
        draft.sections[0] = sorted(draft.sections[0] + [(v,) for v in vertices])
    return edit


def faults(count_limit):
    """Every edit by name, with the number of the check that it alone fails."""
    edits = {f"{kept} bytes": (1, cut_header(kept)) for kept in (0, 1, 15)}
    edits[f"{count_limit + 1} vertices"] = (2, many_vertices(count_limit + 1))
    for p in range(DIMENSIONS):
        edits[f"offset {p} more"] = (3, shift_offset(p, 1))
        edits[f"offset {p} less"] = (3, shift_offset(p, -2))
        edits[f"cells exchanged in {p}"] = (6, exchange_cells(p))
        edits[f"cell twice in {p}"] = (6, repeat_cell(p))
    for change in (-8, -1, 1, 8):
        edits[f"length {change:+}"] = (4, change_length(change))
    for p in range(1, DIMENSIONS):
        edits[f"cell turned in {p}"] = (5, turn_cell(p))
        edits[f"vertex twice in {p}"] = (5, repeat_vertex(p))
    for cell in ((3,), (5,), (2, 4), (4, 5), (1, 3, 4), (3, 4, 5), (6, 8), (11,)):
        edits[f"face {'-'.join(map(str, cell))} missing"] = (7, drop_face(cell))
    for vertices in LOOSE:
        edits[f"vertices {', '.join(map(str, vertices))} loose"] = (LOOSE_NODE, add_loose(vertices))
    return edits


def damaged(count_limit):
    """Sheets by name with the refusal due: each fault alone, and every two of different numbers."""
    edits = faults(count_limit)
    sheets = {}
    for names in [(name,) for name in edits] + list(combinations(edits, 2)):
        numbers = [edits[name][0] for name in names]
        if len(set(numbers)) < len(numbers):
            continue
        draft = Draft()
        # Faults in cells are put in by falling number, so that each finds the cells it names.
        for name in sorted(names, key=lambda name: -edits[name][0]):
            edits[name][1](draft)
        sheets[", ".join(names)] = (draft.bytes(), first_tried(numbers))
    return sheets


def first_cells(p, count):
    """The first cells of dimension p by greatest vertex, then the next: these have few faces."""
    top = p + 1
    while comb(top, p + 1) < count:
        top += 1
    cells = sorted(combinations(range(top), p + 1), key=lambda cell: cell[::-1])
    return cells[:count]


def full_in(p, count):
    """A sheet with so many cells in dimension p and as few as can be below."""
    return layout(closure(first_cells(p, count)))


def filled(facets, p, count):
    """The facets and as many of the first cells of dimension p as give so many."""
    present = set(closure(facets)[p])
    missing = [cell for cell in first_cells(p, 2 * count) if cell not in present]
    return facets + missing[:count - len(present)]


def full(count):
    """A sheet with so many cells in each dimension, at least 48, and no loose vertex."""
    facets = filled(first_cells(3, count), 2, count)
    new = list(range(len(closure(facets)[0]), count))
    if len(new) % 2:
        new.append(0)
    return layout(closure(filled(facets + list(zip(new[0::2], new[1::2])), 1, count)))


def at_limit(count_limit):
    """Sheets by name with counts at and above a limit, with the refusal due, 0 for none."""
    sheets = {}
    for count, number in ((count_limit, 0), (count_limit + 1, 2)):
        for p in range(DIMENSIONS):
            sheets[f"{count} cells of dimension {p}"] = (full_in(p, count), number)
        sheets[f"{count} cells of each dimension"] = (full(count), number)
    return sheets


def long_tails():
    """Sound sheets followed by bytes that do not belong to them, up to very long ones."""
    sheets = {}
    for extra in (1, 2, 8, 1000, 65536, 1 << 20):
        sheets[f"48 cells of each dimension and {extra} bytes"] = (full(48) + bytes(extra), 4)
        sheets[f"no cells and {extra} bytes"] = (layout([[], [], [], []]) + bytes(extra), 4)
    return sheets


# Vertex numbers at the edges of one byte, of 15 bits and of two bytes, where words of packed vertices would be ordered wrongly or shared.
EDGE_NUMBERS = (0, 255, 256, 32767, 32768, 65535)


def at_word_edges():
    """All cells on such vertex numbers: whole, and with two neighbours exchanged, a cell twice or a cell left out, with the refusal due."""
    whole = closure(combinations(EDGE_NUMBERS, DIMENSIONS))
    sheets = {"all cells at word edges": (layout(whole), 0)}
    for p, section in enumerate(whole):
        for i, cell in enumerate(section):
            changes = {"twice": (section[:i] + [cell] + section[i:], 6), "left out": (section[:i] + section[i + 1:], 7 if p < DIMENSIONS - 1 else 0)}
            if i > 0:
                changes["first exchanged"] = (section[:i - 1] + [cell, section[i - 1]] + section[i + 1:], 6)
            for name, (changed, number) in changes.items():
                cells = whole[:p] + [changed] + whole[p + 1:]
                sheets[f"cell {'-'.join(map(str, cell))} {name}"] = (layout(cells), number)
    return sheets


def damage(rng, data):
    """The bytes of a sheet with one to three small changes anywhere."""
    data = bytearray(data)
    for _ in range(rng.randint(1, 3)):
        change = rng.choice(["byte", "step", "step", "exchange", "exchange", "cut", "insert"])
        at = rng.randrange(len(data)) if data else 0
        other = rng.randrange(0, len(data), 2) if data else 0
        if change == "byte":
            data[at:at + 1] = bytes([rng.randrange(256)])
        elif change == "step":
            data[at:at + 1] = bytes((byte + rng.choice([-1, 1])) % 256 for byte in data[at:at + 1])
        elif change == "exchange":
            data[other:other + 4] = data[other + 2:other + 4] + data[other:other + 2]
        elif change == "cut":
            del data[at:at + rng.choice([1, 2, 4])]
        else:
            data[at:at] = bytes(rng.choice([1, 2, 4]))
    return bytes(data)
