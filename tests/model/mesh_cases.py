"""Texts for the import of 02, Note 3, by name, with what is due: each freedom of the form, faults alone and together, limits, long texts, points
that the sweep of Note 7 drops."""

from itertools import product

from model import loose_cases
from model.mesh_drafts import KEYWORDS, ODD_WORDS, SECTION_NAMES, Draft, Hand, line_of, looks_like_closing
from model.mesh_faults import UNUSED, faults, put
from model.sheet import DIMENSIONS, LIBRARY_COUNT_LIMIT, PROGRAM_COUNT_LIMIT
from model.sheet_cases import first_cells

# Cells of every dimension, so that a fault finds an element of the kind that it names. The point is in no edge.
BASE_FACETS = [(0, 1, 2, 3), (1, 2, 3, 4), (5, 6, 7), (8, 9), (65535,), (2, 6)]


def draft_of(facets):
    """A draft with a node that no element uses."""
    nodes = [b"%d" % v for v in sorted({v for facet in facets for v in facet})] + [UNUSED]
    return Draft([[v, b"0.5", b"-1", b"1e-3"] for v in nodes], [line_of(i + 1, facet) for i, facet in enumerate(facets)])


def base():
    """A draft with one section to pass over."""
    draft = draft_of(BASE_FACETS)
    draft.sections = [b'$PhysicalNames\n1\n2 1 "copper"\n$EndPhysicalNames\n']
    return draft


def damaged(rng):
    """Texts by name with the answer due at either limit: each fault alone, and with faults of other numbers at any place before it or after."""
    edits = faults()
    by_number = {number: [name for name in edits if edits[name][0] == number] for number in (14, 15, 16)}
    sets = [(name,) for name in edits] + list(product(by_number[15], by_number[16]))
    for name in by_number[14]:
        sets += [(name, other) for other in rng.sample(by_number[15], 3)] + [(name, rng.choice(by_number[16]))]
    texts = {}
    for names in sets:
        draft, hand = base(), Hand(rng, ends=rng.choice([(b"\n",), (b"\r\n",)]))
        # Faults are put in by falling number, so that the last keeps what makes it one.
        for name in sorted(names, key=lambda name: -edits[name][0]):
            edits[name][1](draft, rng)
        texts[", ".join(names)] = draft.text(hand), min(edits[name][0] for name in names)
    return texts


# Freedoms of the form. Each leaves the cells of the draft as they are.


def all_numbers(digits):
    """Writes every number, tags aside, with so many digits at least."""
    def edit(draft, rng):
        draft.format[2] = draft.format[2].zfill(digits)
        draft.node_count, draft.element_count = (b"%d" % len(lines) for lines in (draft.nodes, draft.elements))
        draft.node_count, draft.element_count = draft.node_count.zfill(digits), draft.element_count.zfill(digits)
        for words in draft.nodes:
            words[0] = words[0].zfill(digits)
        for line in draft.elements:
            line.number, line.kind, line.tag_count = line.number.zfill(digits), line.kind.zfill(digits), (b"%d" % len(line.tags)).zfill(digits)
            line.nodes = [word.zfill(digits) for word in line.nodes]
    return edit


def words_put(word):
    """A word for every coordinate and every tag."""
    def edit(draft, rng):
        for words in draft.nodes:
            words[1:] = [word] * 3
        for line in draft.elements:
            line.tags = [word] * len(line.tags)
    return edit


def every_element(change):
    """Changes every element."""
    def edit(draft, rng):
        for line in draft.elements:
            change(line)
    return edit


def lists_changed(nodes=lambda lines: lines, elements=lambda lines: lines):
    """Other lists of lines."""
    def edit(draft, rng):
        draft.nodes, draft.elements = nodes(draft.nodes), elements(draft.elements)
    return edit


def line_freedoms():
    """Numbers, tags, and lines in any order and repeated."""
    for digits in (2, 6, 9):
        yield f"{digits} digits", all_numbers(digits)
    for word in (b"0", b"4", b"999999999", b"000000000"):
        yield f"format number {word.decode()}", put("format", [b"2.2", b"0", word])
        yield f"element numbers {word.decode()}", every_element(lambda line, word=word: setattr(line, "number", word))
    for word in ODD_WORDS:
        yield f"words {word[:20]!r}", words_put(word)
    for tags in (0, 1, 3, 4, 200):
        yield f"{tags} tags", every_element(lambda line, tags=tags: setattr(line, "tags", [b"-1"] * tags))
    yield "no tags by 000", every_element(lambda line: (setattr(line, "tags", []), setattr(line, "tag_count", b"000")))
    yield "nodes twice", lists_changed(nodes=lambda lines: lines + lines[::-1])
    yield "nodes not in order", lists_changed(nodes=lambda lines: lines[::-1])
    yield "nodes that no element uses", lists_changed(nodes=lambda lines: lines + [[b"%d" % v, b"0", b"0", b"0"] for v in range(20000, 20300)])
    yield "elements not in order", lists_changed(elements=lambda lines: lines[::-1])
    yield "elements 60 times", lists_changed(elements=lambda lines: lines * 60)
    yield "elements turned", every_element(lambda line: line.nodes.reverse())
    faces = [line_of(9, cell) for cell in ((3,), (2, 0), (7, 5), (4, 2, 1), (0, 2, 3))]
    yield "faces beside elements", lists_changed(elements=lambda lines: faces + lines)


def section_freedoms():
    """Sections to pass over, with what reads like an end of them or of others inside."""
    yield "no section", put("sections", [])
    for name in SECTION_NAMES:
        for end in (b"\n", b"\r\n"):
            opening, closing = b"$" + name + end, b"$End" + name + end
            within = b"".join(line + end for line in [*looks_like_closing(name), *KEYWORDS, b"", b" ", b"\r"])
            empty, whole = opening + closing, opening + within + closing
            yield f"section {name!r} with {end!r}", put("sections", [whole])
            yield f"empty section {name!r} with {end!r}", put("sections", [empty])
            yield f"section {name!r} with {end!r} thrice", put("sections", [whole, empty, opening + b"\n" + closing])
    yield "40 sections", put("sections", [b"$A%d\n$A%d\n$EndA%d\n" % (i, i + 1, i) for i in range(40)])
    yield "sections that hold sections", put("sections", [b"$A\n$B\n$EndB\n$EndA\n", b"$B\n$A\n$EndA\n$EndB\n", b"$EndA\n$EndA\n$EndEndA\n"])


def free(rng):
    """Texts by name with the cells of BASE_FACETS: each freedom, written by several hands."""
    hands = {"": Hand(rng), ", CRLF": Hand(rng, ends=(b"\r\n",)), ", both line ends": Hand(rng, ends=(b"\n", b"\r\n")),
             ", wide gaps": Hand(rng, gaps=(b" ", b"  ", b" " * 30))}
    texts = {}
    for name, edit in [("as Gmsh writes", lambda draft, rng: None), *line_freedoms(), *section_freedoms()]:
        for way, hand in hands.items():
            draft = base()
            edit(draft, rng)
            texts[name + way] = draft.text(hand)
    return texts


def at_limit(rng):
    """Texts by name with their facets: no cells, as many cells as a limit allows and one more, also with points that the sweep drops, each element
    once and several times."""
    facets = {"no elements": [], "a triangle and a point": [(1, 2, 3), (4,)], "two points": [(1,), (2,)]}
    for limit in (PROGRAM_COUNT_LIMIT, LIBRARY_COUNT_LIMIT):
        facets.update({**loose_cases.at_limit(limit), **loose_cases.above_limit(limit)})
    for count, p in product((47, 48, 49, 255, 256, 257), range(DIMENSIONS)):
        facets[f"{count} cells of dimension {p}"] = first_cells(p, count)
    facets["300 equal elements"] = [(1, 2, 3)] * 300
    facets["300 elements of 24 orders"] = [tuple(rng.sample(range(4), 4)) for _ in range(300)]
    texts = {name: (draft_of(cells).text(Hand(rng)), cells) for name, cells in facets.items()}
    texts["no nodes and no elements"] = Draft([], []).text(Hand(rng)), []
    for name, cells in list(facets.items())[1:]:
        again = [tuple(rng.sample(cell, len(cell))) for cell in cells * 2]
        rng.shuffle(again)
        texts[f"{name}, again"] = draft_of(again).text(Hand(rng)), cells
    return texts


def grid(side, count):
    """So many triangles of a square grid with this many nodes on a side, over and over where it has fewer."""
    cells = [(x + side * y, x + 1 + side * y, x + side * (y + 1)) for x, y in product(range(side - 1), repeat=2)]
    return [cells[i % len(cells)] for i in range(count)]


def large_draft(facets):
    """A draft with 20,000 nodes."""
    return Draft([[b"%d" % v, b"0.1234567890123456", b"-1e-16", b"0"] for v in range(20000)], [line_of(i, facet) for i, facet in enumerate(facets)])


def with_section(content):
    """A draft with a section of these lines to pass over."""
    draft = draft_of(BASE_FACETS)
    draft.sections = [b"$Foo\n" + content + b"$EndFoo\n"]
    return draft


def long_lines():
    """Drafts by name with the answer due: lines of some 500,000 bytes."""
    tags, nodes, word = draft_of(BASE_FACETS), draft_of(BASE_FACETS), draft_of(BASE_FACETS)
    tags.elements[0].tags = [b"-1"] * 170000
    nodes.elements[0].nodes = [b"1"] * 250000
    word.nodes[0][1] = b"1" * 500000
    return {"170,000 tags": (tags, 0), "250,000 nodes in an element": (nodes, 15), "a word of 500,000 bytes": (word, 0)}


def large(rng):
    """Texts of some 500,000 to 1,500,000 bytes by name, with the answer due at either limit: time is to grow as their length."""
    drafts = {"elements over and over": (large_draft(grid(3, 20000)), 0), "a large mesh": (large_draft(grid(140, 20000)), 16), **long_lines()}
    unlisted, more = large_draft(grid(3, 20000)), large_draft(grid(140, 20000))
    unlisted.elements[-1].nodes[-1] = b"20000"
    more.tail = b" "
    drafts.update({"an unlisted node at the end": (unlisted, 15), "a space after the end": (more, 14)})
    drafts["a long section"] = with_section(b"".join(line + b"\n" for line in looks_like_closing(b"Foo") * 6000)), 0
    drafts["a section of one line"] = with_section(b"$EndFoo " * 100000 + b"\n"), 0
    drafts["a section that is not closed"] = with_section(b"$EndFoo \n" * 100000 + b"$"), 14
    sections = draft_of(BASE_FACETS)
    sections.sections = [b"$A%d\n$EndA%d\n" % (i, i) for i in range(40000)]
    drafts["40,000 sections"] = sections, 0
    return {name: (draft.text(Hand(rng)), due) for name, (draft, due) in drafts.items()}
