"""Reads files with generators as physical groups, and views of Gmsh, for tests."""

import re
from collections import Counter
from dataclasses import dataclass

from model.judgement import sign
from model.mesh import NODES_OF_KIND

LETTERS = {"SP": 1, "SL": 2, "ST": 3, "SS": 4}


@dataclass(frozen=True)
class Line:
    """An element line: its number, kind, tags and nodes."""

    number: int
    kind: int
    tags: tuple
    nodes: tuple


class Parts:
    """A text of lines cut at its sections: what stands before the names, the lines of the names, and so on."""

    def __init__(self, text):
        self.lines = text.splitlines(keepends=True)
        self.names = self.section("PhysicalNames")
        self.nodes = self.section("Nodes")
        self.elements = self.section("Elements")

    def section(self, name):
        """The places of the first and last line of a section, None where it is missing."""
        words = [line.strip() for line in self.lines]
        if f"${name}" not in words:
            return None
        return words.index(f"${name}"), words.index(f"$End{name}")

    def inside(self, section):
        """The lines after the count of a section; raises ValueError where the count is another."""
        if section is None:
            return []
        found = [line.strip() for line in self.lines[section[0] + 2:section[1]]]
        if self.lines[section[0] + 1].strip() != str(len(found)):
            raise ValueError(f"{len(found)} lines after the count {self.lines[section[0] + 1].strip()}")
        return found

    def ends(self):
        """The ends of its lines."""
        return {line[len(line.rstrip("\r\n")):] for line in self.lines}

    def element_lines(self):
        """The elements."""
        for line in self.inside(self.elements):
            number, kind, count, *rest = map(int, line.split())
            yield Line(number, kind, tuple(rest[:count]), tuple(rest[count:]))

    def name_lines(self):
        """The names as a dimension, a tag and a name."""
        for line in self.inside(self.names):
            found = re.fullmatch(r'([0-9]+) +([0-9]+) +"(.*)"', line)
            yield int(found[1]), int(found[2]), found[3]

    def places(self):
        """The three coordinate words of each node."""
        return {int(words[0]): tuple(words[1:]) for words in (line.split() for line in self.inside(self.nodes))}


def without_groups(text, names, elements):
    """The text with so many last lines of the names and of the elements taken away and the counts as before; a section of names that is left empty
    goes."""
    parts = Parts(text)
    lines = list(parts.lines)
    end = re.search(r"\r?\n\Z", lines[0])[0]
    first, last = parts.elements
    lines[first + 1] = f"{len(parts.inside(parts.elements)) - elements}{end}"
    del lines[last - elements:last]
    if parts.names is not None and names:
        first, last = parts.names
        lines[first + 1] = f"{last - first - 2 - names}{end}"
        del lines[last - names:last]
        if last - first - 2 == names:
            del lines[first:first + 3]
    return "".join(lines)


def chain_of(elements, cells):
    """The chain of oriented elements, None where one is no cell."""
    place = {cell: i for i, cell in enumerate(cells)}
    chain = [0] * len(cells)
    for nodes, copies in elements:
        cell = tuple(sorted(nodes))
        if cell not in place:
            return None
        chain[place[cell]] += sign(nodes) * copies
    return chain


def group_chains(parts, p, tags, cells):
    """The chain of each group of dimension p by its tag."""
    kind = next(kind for kind, count in NODES_OF_KIND.items() if count == p + 1)
    return {tag: chain_of([(line.nodes, 1) for line in parts.element_lines() if line.kind == kind and line.tags[0] == tag], cells) for tag in tags}


def views(text):
    """The views of a text: their names, each with its elements as tuples of points, and the number at each."""
    for name, inside in re.findall(r'^View "([^"]*)" \{\n(.*?)^\};$', text, re.M | re.S):
        elements = []
        for letters, words, numbers in re.findall(r"^(S[PLTS])\(([^)]*)\)\{([^}]*)\};$", inside, re.M):
            words, numbers = words.split(","), set(numbers.split(","))
            points = tuple(tuple(words[i:i + 3]) for i in range(0, len(words), 3))
            elements.append((points, int(numbers.pop()) if len(points) == LETTERS[letters] and len(numbers) == 1 else None))
        yield name, elements


def as_numbers(found):
    """The views with coordinates as numbers."""
    return [(name, [(tuple(tuple(map(float, point)) for point in points), value) for points, value in elements]) for name, elements in found]


def oriented(parts, tags):
    """The oriented elements of groups as multisets of points, coordinates as numbers."""
    places = {number: tuple(map(float, words)) for number, words in parts.places().items()}
    return {tag: Counter(tuple(places[v] for v in line.nodes) for line in parts.element_lines() if line.tags[0] == tag) for tag in tags}
