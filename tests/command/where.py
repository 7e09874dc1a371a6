"""Where a refused text or sheet has its fault, by the model: what the second line of a message is to say, without its full stop."""

from itertools import chain

from model.mesh import ELEMENT_FAULTY, MESH_MALFORMED, NODES_OF_KIND, SHEET_TOO_LONG, Lines, read_element, read_format, read_nodes
from model.sheet import DIMENSIONS, HEADER_BYTES, LOOSE_NODE, Refused, closure, faces, loose_vertices, read_section, section_starts

CELLS = [("vertex", "vertices"), ("edge", "edges"), ("triangle", "triangles"), ("tetrahedron", "tetrahedra")]
SHOWN = 60
LOOSE_SHOWN = 20
MEGABYTE = 1 << 20

# Characters that turn the direction of writing or are not seen.
UNSEEN = {0x61C, 0xFEFF, *range(0x200B, 0x2010), *range(0x2028, 0x2030), *range(0x2060, 0x2070)}


def character(data):
    """The character in UTF-8 that the bytes start with, where it is to be shown."""
    for length in range(1, 5):
        try:
            found = data[:length].decode("utf-8")
        except UnicodeDecodeError:
            continue
        return found if not (ord(found) < 32 or 127 <= ord(found) < 160 or ord(found) in UNSEEN) else None
    return None


def escaped(data, most=SHOWN):
    """Bytes as they are shown: the first so many, what a terminal would obey as \\xNN."""
    shown, at = "", 0
    while at < min(len(data), most):
        found = character(data[at:])
        shown += found or f"\\x{data[at]:02x}"
        at += len(found.encode()) if found else 1
    return shown + (" .." if most < len(data) else "")


def quoted(data):
    """A line as a message quotes it."""
    return f'"{escaped(data)}"' if len(data) <= SHOWN else f'"{escaped(data).removesuffix(" ..")}" ..'


class Fault(Exception):
    """What is said of the first line that is not of the form, apart from what is wanted."""


class Counted(Lines):
    """Lines with the number and the content of the one taken last, which say how the text ends."""

    def __init__(self, text):
        *ended, self.tail = bytes(text).split(b"\n")
        self.rest, self.number, self.last = iter(ended), 0, b""

    def take(self):
        line = next(self.rest, None)
        if line is None and self.tail:
            raise Fault(f"Line {self.number + 1} does not end in a line feed: {quoted(self.tail)}")
        if line is None:
            raise Fault(f"The text ends after line {self.number} ")
        self.number, self.last = self.number + 1, line.removesuffix(b"\r")
        return self.last

    def differs(self):
        """What is said of the line taken last."""
        return f"Line {self.number} is not of the form ", quoted(self.last) if self.last else "(an empty line)"


def pass_sections(lines):
    """Passes over the sections before `$Nodes`, and that line."""
    while True:
        (opening,) = lines.words_of(1)
        if opening == b"$Nodes":
            return
        if not opening.startswith(b"$") or opening in (b"$", b"$MeshFormat", b"$Elements"):
            raise Refused(MESH_MALFORMED)
        number = lines.number
        try:
            while lines.take() != b"$End" + opening[1:]:
                pass
        except Fault as fault:
            raise Fault(f"The section of line {number} is not closed: {quoted(opening)}") from fault


def read_elements(lines):
    """The elements, each with the number of its line and its content."""
    lines.expect(b"$Elements")
    (count,) = lines.words_of(1)
    if not count.isdigit() or len(count) > 9:
        raise Refused(MESH_MALFORMED)
    elements = [(read_element(lines), lines.number, lines.last) for _ in range(int(count))]
    lines.expect(b"$EndElements")
    return elements


def read_text(text):
    """The listed nodes and the elements with their lines; raises Fault."""
    lines = Counted(text)
    try:
        read_format(lines)
        pass_sections(lines)
        nodes = read_nodes(lines)
        elements = read_elements(lines)
    except Refused as refused:
        raise Fault(*lines.differs()) from refused
    last = next(chain((line.removesuffix(b"\r") for line in lines.rest), [lines.tail] if lines.tail else []), None)
    if last is not None:
        lines.number, lines.last = lines.number + 1, last
        raise Fault(*lines.differs())
    return nodes, elements


def fault_of(element, nodes):
    """What is said of an element's fault, None where it has none."""
    due = NODES_OF_KIND.get(element.kind)
    if due is None:
        return f"kind {element.kind} is no point (15), line (1), triangle (2) or tetrahedron (4)"
    if len(element.nodes) != due:
        return f"kind {element.kind} has {due} nodes, not {len(element.nodes)}"
    for node in element.nodes:
        if node not in nodes:
            return f"node {node} is not listed in $Nodes"
    for i, node in enumerate(element.nodes):
        if node in element.nodes[:i]:
            return f"node {node} stands in it twice"
    return None


def counts_beyond(start, counts, limit):
    """The counts beyond a limit, and the limit."""
    return start + ", ".join(f"{count} {names[1]}" for count, names in zip(counts, CELLS) if count > limit) + f", the limit is {limit}"


def first_tag(content):
    """The first tag of an element's line, None where it has none or it is no number."""
    words = [word for word in content.split(b" ") if word]
    return int(words[3]) if int(words[2]) > 0 and words[3].isdigit() and len(words[3]) <= 9 else None


def in_region(elements, region):
    """Of elements with their lines, those whose first tag is in the region and whose dimension is the highest that has the tag, or whose kind has none."""
    nodes = [NODES_OF_KIND.get(element.kind, 0) for element, _, _ in elements]
    most = {}
    for (_, _, content), count in zip(elements, nodes):
        most[first_tag(content)] = max(count, most.get(first_tag(content), 0))
    return [found for found, count in zip(elements, nodes) if first_tag(found[2]) in region and count in (0, most[first_tag(found[2])])]


def of_text(text, number, limit, region=()):
    """What is due for a text that the import refuses with this number: the parts that must stand in the line, in their order."""
    try:
        nodes, elements = read_text(text)
    except Fault as fault:
        return fault.args
    elements = in_region(elements, region) if region else elements
    if number == ELEMENT_FAULTY:
        for element, line, content in elements:
            fault = fault_of(element, nodes)
            if fault:
                return (f"Line {line}, {fault}: {quoted(content)}",)
    if number == SHEET_TOO_LONG:
        return (counts_beyond("It has ", [len(section) for section in closure(element.nodes for element, _, _ in elements)], limit),)
    raise AssertionError("the model does not refuse so")


def cell_words(sections, p, i):
    """A cell as the message names it."""
    return f"{CELLS[p][0]} {i + 1} of {len(sections[p])}, ({','.join(map(str, sections[p][i]))})"


def of_cells(sections, number):
    """What is due for the refusals 5 to 7."""
    for p, section in enumerate(sections):
        for i, cell in enumerate(section):
            if number == 5 and list(cell) != sorted(set(cell)):
                return f"See {cell_words(sections, p, i)}"
            if number == 6 and i > 0 and section[i - 1] >= cell:
                return f"See {cell_words(sections, p, i)}, which stands after {cell_words(sections, p, i - 1)}"
            for face in faces(cell) if number == 7 and p > 0 else []:
                if face not in sections[p - 1]:
                    return f"See {cell_words(sections, p, i)}, whose {CELLS[p - 1][0]} ({','.join(map(str, face))}) is missing"
    raise AssertionError("the model does not refuse so")


def of_loose(sections):
    """What is due for refusal 18."""
    loose = [str(node) for (node,) in loose_vertices(sections)]
    more = f" and {len(loose) - LOOSE_SHOWN} more" if len(loose) > LOOSE_SHOWN else ""
    return f"{len(loose)} of its {len(sections[0])} vertices {'is' if len(loose) == 1 else 'are'} in no edge: {', '.join(loose[:LOOSE_SHOWN])}{more}"


def of_sheet(data, number, limit):
    """What is due for a sheet that is refused with this number."""
    if number == 1:
        return f"It has {len(data)} bytes"
    fields = [data[i] + 256 * data[i + 1] for i in range(0, HEADER_BYTES, 2)]
    counts, starts = fields[0::2], section_starts(fields[0::2])
    if number == 2:
        return counts_beyond("Its header says ", counts, limit)
    if number == 3:
        p = next(p for p in range(DIMENSIONS) if fields[2 * p + 1] != starts[p])
        return f"The offset of the {CELLS[p][1]} is {fields[2 * p + 1]}, and {starts[p]} is due"
    if number == 4:
        length = f"more than {MEGABYTE}" if len(data) > MEGABYTE else len(data)
        return f"It has {length} bytes, and {starts[-1]} are due"
    sections = [read_section(data, p, counts[p], starts[p]) for p in range(DIMENSIONS)]
    return of_loose(sections) if number == LOOSE_NODE else of_cells(sections, number)
