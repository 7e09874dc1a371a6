"""Random texts in the form of 02, Note 3, with every freedom that it leaves, with faults and with damage; seeded."""

from itertools import combinations

from model import loose_cases, meshes, random_meshes, sheet_cases
from model.mesh_drafts import KIND_OF_SIZE, MOST_DIGITS, SECTION_NAMES, Draft, Element, Hand, section, word
from model.mesh_faults import faults
from model.sheet import LIBRARY_COUNT_LIMIT, PROGRAM_COUNT_LIMIT, VERTEX_LIMIT


def any_hand(rng):
    """As Gmsh writes, or with any of the freedoms."""
    gaps = rng.choice([(b" ",), (b" ",), (b" ", b" ", b"  "), (b" ", b"   ", b" " * 40)])
    ends = rng.choice([(b"\n",), (b"\n",), (b"\r\n",), (b"\n", b"\r\n")])
    return Hand(rng, gaps, ends, rng.choice([0, 0, 0.1, 0.7, 1]))


def numbered(rng, facets):
    """The facets on other node numbers: from 1 on as Gmsh counts, up to 65535, with 0 among them, or anywhere."""
    vertices = sorted({v for facet in facets for v in facet})
    way = rng.randrange(4)
    if way == 3 or not vertices:
        return random_meshes.renumbered(rng, facets)
    first = [1, 0, VERTEX_LIMIT + 1 - len(vertices)][way]
    image = {v: first + i for i, v in enumerate(vertices)}
    return [tuple(image[v] for v in facet) for facet in facets]


def repeated(rng, facets):
    """The facets as elements: some again, some faces beside them, all in any order of lines and of nodes."""
    more = [rng.choice(facets) for _ in range(rng.choice([0, 0, 1, 5]))] if facets else []
    for facet in rng.sample(facets, min(len(facets), rng.choice([0, 0, 2]))):
        more += combinations(facet, rng.randint(1, len(facet)))
    elements = [tuple(rng.sample(facet, len(facet))) for facet in [*facets, *more]]
    rng.shuffle(elements)
    return elements


def node_lines(rng, hand, used, odd):
    """Lines for the nodes, in any order: those that are used, some twice, and some others."""
    numbers = [*used, *rng.sample(used, min(len(used), rng.choice([0, 0, 0, 2])))]
    numbers += [rng.choice([0, 1, VERTEX_LIMIT, rng.randint(0, VERTEX_LIMIT)]) for _ in range(rng.choice([0, 0, 1, 4]))]
    if rng.random() < 0.7:
        rng.shuffle(numbers)
    return [[hand.digits(v), word(rng, odd), word(rng, odd), word(rng, odd)] for v in numbers]


def element_number(rng, place):
    """The number of an element: its place, or now and then any number of nine digits."""
    return place + 1 if rng.random() < 0.9 else rng.choice([0, 1, 65536, 10 ** MOST_DIGITS - 1])


def element_lines(rng, hand, facets, odd):
    """Lines for the elements."""
    many = rng.choice([(2,), (2,), (0, 1, 2, 3), (2, 2, 7, 30)])
    lines = []
    for i, facet in enumerate(facets):
        tags = [word(rng, odd) if rng.random() < odd else b"%d" % rng.randint(1, 9) for _ in range(rng.choice(many))]
        kind = hand.digits(KIND_OF_SIZE[len(facet)])
        lines.append(Element(hand.digits(element_number(rng, i)), kind, tags, [hand.digits(v) for v in facet]))
    return lines


def draft_of(rng, hand, facets):
    """A draft of a text whose cells are the facets and their faces."""
    odd = rng.choice([0, 0, 0.05, 0.6])
    used = sorted({v for facet in facets for v in facet})
    draft = Draft(node_lines(rng, hand, used, odd), element_lines(rng, hand, repeated(rng, facets), odd))
    draft.format[2] = hand.digits(rng.choice([8, 8, 8, 0, 4, 10 ** MOST_DIGITS - 1]))
    draft.sections = [section(rng, rng.choice(SECTION_NAMES)) for _ in range(rng.choice([0, 0, 0, 1, 1, 2, 4]))]
    if hand.zeros:
        draft.node_count, draft.element_count = hand.digits(len(draft.nodes)), hand.digits(len(draft.elements))
    return draft


def near_limit(rng):
    """Cells of one dimension, as many as a limit allows or one more, with as few cells below as can be, or vertices of which some are loose."""
    limit = rng.choice([PROGRAM_COUNT_LIMIT] * 5 + [LIBRARY_COUNT_LIMIT] * 2)
    if rng.random() < 0.3:
        made = rng.choice([loose_cases.at_limit, loose_cases.above_limit])(limit)
        return rng.choice(list(made.values()))
    return sheet_cases.first_cells(rng.randrange(4), limit + rng.choice([0, 1]))


def beyond(rng):
    """A mesh with more cells than the library's limit."""
    return rng.choice([lambda: meshes.plate(12, 12), lambda: meshes.box(3, 3, 2), lambda: meshes.torus_grid(10, 9)])()


def any_facets(rng):
    """The facets of a mesh: most are small, some near a limit or beyond."""
    chance = rng.random()
    if chance < 0.88:
        facets = rng.choice(random_meshes.STYLES)(rng)
        return random_meshes.loosened(rng, facets) if rng.random() < 0.2 else facets
    if chance < 0.95:
        return near_limit(rng)
    return rng.choice(list(meshes.sized().values())) if chance < 0.985 else beyond(rng)


def faulty(rng, draft, edits):
    """Puts in a fault that alone gives 14 or 15, or both, one of them before the other."""
    chosen = [rng.choice(edits[number]) for number in rng.choice([(14,), (15,), (15,), (15, 14)])]
    for edit in chosen if draft.elements else []:
        edit(draft, rng)


def byte_damaged(rng, text):
    """The text with a byte changed, put in or left out, or cut there."""
    at = rng.randrange(len(text) + 1)
    new = rng.choice([b" ", b"\n", b"\r", b"\t", b"\0", b"$", b"-", b".", b"%d" % rng.randrange(10), b"%d" % rng.randrange(10), rng.randbytes(1)])
    return rng.choice([text[:at] + new + text[at + 1:], text[:at] + new + text[at:], text[:at] + text[at + 1:], text[:at] + text[at + 1:],
                       text[:at] + text[at + rng.randint(1, 40):], text[:at] if rng.random() < 0.5 else text[at:]])


def line_damaged(rng, text):
    """The text with a line left out, twice, exchanged with the next or put elsewhere."""
    lines = text.splitlines(keepends=True) or [b""]
    at, to = rng.randrange(len(lines)), rng.randrange(len(lines))
    line = lines[at]
    change = rng.randrange(4)
    if change == 0:
        del lines[at]
    elif change == 1:
        lines.insert(at, line)
    elif change == 2:
        lines[at:at + 2] = lines[at:at + 2][::-1]
    else:
        lines.insert(to, lines.pop(at))
    return b"".join(lines)


def digit_changed(rng, text):
    """The text with another digit somewhere in place of one, which often leaves the form as it is."""
    places = [at for at, byte in enumerate(text) if byte in b"0123456789"]
    if not places:
        return text
    at = rng.choice(places)
    return text[:at] + b"%d" % rng.randrange(10) + text[at + 1:]


def random_texts(rng, count):
    """So many texts, each with the facets of its mesh, or None where it was damaged or a fault was put in."""
    edits = {number: [edit for told, edit in faults().values() if told == number] for number in (14, 15)}
    for _ in range(count):
        hand, facets = any_hand(rng), numbered(rng, any_facets(rng))
        draft = draft_of(rng, hand, facets)
        way = rng.choice(["sound"] * 10 + ["faulty"] * 7 + ["digit"] * 4 + ["byte"] * 3 + ["line"] * 2)
        if way == "faulty":
            faulty(rng, draft, edits)
        text = draft.text(hand)
        if way in ("digit", "byte", "line"):
            damage = {"digit": digit_changed, "byte": byte_damaged, "line": line_damaged}[way]
            for _ in range(rng.choice([1, 1, 1, 2])):
                text = damage(rng, text)
        yield text, facets if way == "sound" else None
