"""Faults of a text in the form of 02, Note 3, by name, each with the number that it alone gives: edits of a draft."""

from itertools import product

from model.mesh_drafts import KEYWORDS, KIND_OF_SIZE, line_of, looks_like_closing
from model.sheet import DIMENSIONS, LIBRARY_COUNT_LIMIT
from model.sheet_cases import first_cells

# A node that no element uses, and one that is not listed.
UNUSED = b"77"
UNLISTED = b"30000"
OTHER_KINDS = [0, 3, 5, 6, 7, 8, 9, 10, 11, 14, 16, 21, 150, 256 + 4, 256 + 15, 65536 + 1, 999999999]

# Edits of a draft. Each is a function of the draft and a random generator.


def put(name, value):
    """Gives a field of the draft another value."""
    return lambda draft, rng: setattr(draft, name, value)


def lines_for(label, *lines):
    """Puts lines in place of one; words in place of a node or an element go to any of them."""
    def edit(draft, rng):
        draft.in_place[place_of(draft, rng, label)] = list(lines)
    return edit


def place_of(draft, rng, label):
    """The label itself, or that of any node or element."""
    if label not in ("node", "element"):
        return label
    return label, rng.randrange(len(draft.nodes if label == "node" else draft.elements))


def line_changed(label, change):
    """Puts in place of a line what a function makes of its words."""
    def edit(draft, rng):
        place = place_of(draft, rng, label)
        draft.in_place[place] = change(dict(draft.lines())[place])
    return edit


def word_changed(label, at, word):
    """Puts another word at a place of a line."""
    return line_changed(label, lambda words: [[*words[:at], word, *words[at:][1:]]])


def last_node_changed(word):
    """Puts another word in place of the last node of any element, or there where it has none."""
    return line_changed("element", lambda words: [[*words[:max(len(words) - 1, 3 + int(words[2]))], word]])


def section_put(section, at=0):
    """Puts a section, or what is none, before those of the draft or after them."""
    return lambda draft, rng: draft.sections.insert(at, section)


def kind_changed(kind):
    """Fault 15: another kind number for any element."""
    def edit(draft, rng):
        rng.choice(draft.elements).kind = b"%d" % kind
    return edit


def of_size(draft, rng, size):
    """Any element of a kind with so many nodes, or where there is none, any element."""
    return rng.choice([element for element in draft.elements if int(element.kind) == KIND_OF_SIZE[size]] or draft.elements)


def nodes_changed(size, change):
    """Gives an element of a kind with so many nodes what a function makes of them."""
    def edit(draft, rng):
        element = of_size(draft, rng, size)
        element.nodes = change(element.nodes)
    return edit


def tags_changed(change):
    """Gives any element another tag count than it has, by so many."""
    def edit(draft, rng):
        element = rng.choice(draft.elements)
        element.tag_count = b"%d" % (len(element.tags) + change)
    return edit


def node_dropped(draft, rng):
    """Fault 15: a node that an element uses is not listed."""
    used = int(rng.choice(draft.elements).nodes[0])
    draft.nodes = [words for words in draft.nodes if int(words[0]) != used]


def cells_added(p, count):
    """Fault 16: so many cells of dimension p, beside the others."""
    def edit(draft, rng):
        facets = [tuple(100 + v for v in cell) for cell in first_cells(p, count)]
        draft.nodes += [[b"%d" % v, b"0", b"0", b"0"] for v in sorted({v for facet in facets for v in facet})]
        draft.elements += [line_of(0, facet) for facet in facets]
    return edit


def keyword_faults():
    """Fault 14: each of the six lines that are one word, otherwise."""
    for word in KEYWORDS:
        label = word.decode()
        changes = {"left out": [], "twice": [[word], [word]], "after an empty line": [b"\n", [word]], "with a word more": [[word, b"1"]],
                   "in lower case": [[word.lower()]], "without its first byte": [[word[1:]]], "with a byte more": [[word + b"s"]],
                   "with a NUL": [[word + b"\0"]], "after a tab": [[b"\t" + word]], "in two words": [[b"$", word[1:]]]}
        yield from ((f"{label} {name}", lines_for(label, *lines)) for name, lines in changes.items())


def spacing_faults():
    """Fault 14: a line of every kind with spaces, tabs, carriage returns or line feeds where none may stand."""
    ways = {"after a space": (b" ", b"\n"), "after a carriage return": (b"\r", b"\n"), "before a space": (b"", b" \n"),
            "before a space and a carriage return": (b"", b" \r\n"), "before a carriage return and a space": (b"", b"\r \n"),
            "before two carriage returns": (b"", b"\r\r\n"), "before a carriage return alone": (b"", b"\r"), "without an end": (b"", b""),
            "before an empty line": (b"", b"\n\n"), "after an empty line": (b"\r\n", b"\n"), "after a line with a space": (b" \n", b"\n")}
    labels = [*(word.decode() for word in KEYWORDS), "format", "node count", "element count", "node", "element"]
    for label, (name, (head, end)) in product(labels, ways.items()):
        yield f"{label} {name}", line_changed(label, lambda words, head=head, end=end: [head + b" ".join(words) + end])
    for label in labels:
        yield f"{label} with a carriage return in its first word", line_changed(label, lambda words: [[words[0][:1] + b"\r", *words]])
        yield f"{label} with a carriage return in its last word", line_changed(label, lambda words: [[*words[:-1], b"\r" + words[-1]]])
    for label in ("format", "node", "element"):
        yield f"{label} with a tab between", line_changed(label, lambda words: [[words[0] + b"\t" + words[1], *words[2:]]])


def number_faults():
    """Fault 14: numbers that are none, or that exceed 65535 in the place of a node."""
    none = [b"-1", b"+1", b"1.0", b"x", b"1x", b"0x1", b"0000000001", b"1000000000", b"99999999999999999999", b"1\0", b"1\t", b"\xb1", b"/", b":"]
    places = [("format", 2), ("node count", 0), ("element count", 0), ("node", 0), ("element", 0), ("element", 1), ("element", 2)]
    for (label, at), word in product(places, none):
        yield f"{label} with {word!r} at {at}", word_changed(label, at, word)
    for word in none:
        yield f"element with {word!r} for its last node", last_node_changed(word)
    for word in (b"65536", b"000065536", b"65546", b"131072", b"999999999"):
        yield f"node {word.decode()} listed", word_changed("node", 0, word)
        yield f"node {word.decode()} used", last_node_changed(word)
        yield f"node {word.decode()} last of many", line_changed("element", lambda words, word=word: [[*words, b"1", b"1", b"1", word]])
        yield f"node {word.decode()} in another kind", line_changed("element", lambda words, word=word: [[b"1", b"9", b"0", b"1", word]])
    for label in ("node", "element"):
        for word in (b"999999999", b"000000000"):
            yield f"{label} count {word.decode()}", put(f"{label}_count", word)
        for change in (-1, 1):
            yield f"{label} count {change:+}", count_changed(label, change)


def count_changed(label, change):
    """Fault 14: a count that is not that of the lines."""
    def edit(draft, rng):
        setattr(draft, f"{label}_count", b"%d" % (len(draft.nodes if label == "node" else draft.elements) + change))
    return edit


def word_faults():
    """Fault 14: lines with too few or too many words, or with others than the form names."""
    for words in (b"2.1 0 8", b"2.20 0 8", b"02.2 0 8", b"2.2\0 0 8", b"2 2 0 8", b"4.1 0 8", b"2.2 1 8", b"2.2 00 8", b"2.2 -0 8", b"2.2 0 8 8",
                  b"2.2 0", b"2.2"):
        yield f"format {words!r}", lines_for("format", words.split(b" "))
    for label in ("node count", "element count"):
        yield f"{label} with a word more", line_changed(label, lambda words: [[*words, b"1"]])
        yield f"{label} left out", lines_for(label)
        yield f"{label} empty", lines_for(label, b"\n")
    for label in ("node", "element"):
        yield f"{label} left out", lines_for(label)
        yield f"{label} twice", line_changed(label, lambda words: [words, words])
    for words in (b"1", b"1 0 0", b"1 0 0 0 0", b"0.5 1 0 0"):
        yield f"node {words!r}", lines_for("node", words.split(b" "))
    for words in (b"1", b"1 2", b"1 15 1", b"1 2 3 1 2", b"1 2 999999999 1 2 3", b"1 2 4 1 2 3", b"x 3 0 1 2 3 4", b"1 3 4 1 1"):
        yield f"element {words!r}", lines_for("element", words.split(b" "))


def section_faults():
    """Fault 14: sections that may not stand there, or that are not opened and closed as they must be."""
    whole = b"$Foo\n1\n$EndFoo\n"
    openings = {"Elements": b"$Elements\n0\n$EndElements\n", "MeshFormat": b"$MeshFormat\n2.2 0 8\n$EndMeshFormat\n", "no name": b"$\n$End\n",
                "a space for a name": b"$ \n$End \n", "a name after a space": b"$ Foo\n$EndFoo\n", "no sign": b"Foo\n$EndFoo\n",
                "two names": b"$Foo 1\n$EndFoo\n", "a space after its name": b"$Foo \n$EndFoo\n", "a space before its name": b" $Foo\n$EndFoo\n",
                "two carriage returns after its name": b"$Foo\r\r\n$EndFoo\n", "a carriage return for a name": b"$\r\r\n$End\r\r\n",
                "the name of an end and that end": b"$EndFoo\n1\n$EndFoo\n", "only an end": b"$EndFoo\n", "an empty line after it": whole + b"\n",
                "a line after it": whole + b"1\n", "a space after it": whole + b" "}
    for name, section in openings.items():
        yield f"section with {name}", section_put(section)
        yield f"last section with {name}", section_put(section, 1)
    for line in looks_like_closing(b"Foo"):
        yield f"section closed by {line!r}", section_put(b"$Foo\n1\n" + line + b"\n", 1)
    for label, after in (("$MeshFormat", False), ("format", False), ("$EndMeshFormat", False), ("node count", False), ("$EndNodes", False),
                         ("$EndNodes", True), ("$Elements", True), ("element count", True), ("$EndElements", False), ("$EndElements", True)):
        place = "after" if after else "before"
        yield f"section {place} {label}", line_changed(label, lambda words, after=after: [words, whole] if after else [whole, words])


def end_faults():
    """Fault 14: texts that do not end with their last line."""
    for cut in (1, 2, 13, 30):
        yield f"{cut} bytes less", put("cut", cut)
    yield "no bytes", put("cut", 10 ** 6)
    for tail in (b"\n", b"\r\n", b"\r", b" ", b"\0", b"\x1a", b"$EndElements\n", b"$Foo\n$EndFoo\n", b"$NodeData\n$EndNodeData\n", b"1 15 0 1\n"):
        yield f"{tail!r} after the end", put("tail", tail)


def element_faults():
    """Fault 15: another kind, another number of nodes than its kind, an unlisted node, a node twice."""
    for kind in OTHER_KINDS:
        yield f"kind {kind}", kind_changed(kind)
    for size in range(1, DIMENSIONS + 1):
        yield f"no nodes in {size}", nodes_changed(size, lambda nodes: [])
        yield f"a node less in {size}", nodes_changed(size, lambda nodes: nodes[1:])
        yield f"a node more in {size}", nodes_changed(size, lambda nodes: [*nodes, UNUSED])
        yield f"100 nodes in {size}", nodes_changed(size, lambda nodes: nodes * 100)
        for at in range(size):
            yield f"unlisted node at {at} in {size}", nodes_changed(size, lambda nodes, at=at: [*nodes[:at], UNLISTED, *nodes[at + 1:]])
        for at in range(1, size):
            yield f"node {at} twice in {size}", nodes_changed(size, lambda nodes, at=at: [*nodes[:at], nodes[0], *nodes[at + 1:]])
            yield f"node {at} twice with a zero in {size}", nodes_changed(size, lambda nodes, at=at: [b"0" + nodes[at % len(nodes)], *nodes[1:]])
    yield "a tag for a node", tags_changed(-1)
    yield "a node for a tag", tags_changed(1)
    yield "node not listed", node_dropped


def faults():
    """Every edit by name, with the number that it alone gives."""
    malformed = [keyword_faults, spacing_faults, number_faults, word_faults, section_faults, end_faults]
    edits = {name: (14, edit) for family in malformed for name, edit in family()}
    edits.update({name: (15, edit) for name, edit in element_faults()})
    for p in range(DIMENSIONS):
        edits[f"{LIBRARY_COUNT_LIMIT + 1} cells of dimension {p}"] = (16, cells_added(p, LIBRARY_COUNT_LIMIT + 1))
    return edits
