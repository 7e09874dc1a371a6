"""Texts with physical groups for `fildwuk surface`: random ones, of which many bound, and named ones with what is said of them."""

from pathlib import Path

from compare_judge import TRIANGLE
from model import homology, meshes
from model.judge_cases import HEAD, Case, Element, random_case, spread, write
from model.judgement import Group
from model.matrices import apply, boundary
from model.sheet import LIBRARY_COUNT_LIMIT, closure, from_facets, parse

DISC_TEXT = Path("examples/ring_and_disc.msh").read_text(encoding="ascii")


def regions():
    """Regions for cycles that bound, each with the dimension of these."""
    ring = meshes.box(3, 3, 1, left_out=[(1, 1, 0)])
    both = meshes.disjoint_union(meshes.projective_plane(), meshes.plate(2, 2))
    flat = [meshes.plate(4, 3), meshes.torus_grid(4, 4), meshes.klein_bottle(4, 4), meshes.moore_space(6), both, meshes.tower(4),
            meshes.box(2, 1, 1), ring, meshes.air_round_a_ring()]
    solid = [meshes.box(2, 2, 1), meshes.suspension(meshes.projective_plane()), meshes.suspension(meshes.klein_bottle()), meshes.air_round_a_ring()]
    return [(1, facets) for facets in flat] + [(2, facets) for facets in solid]


def bounding(rng, data, p):
    """A chain of dimension p that bounds: cells of the next dimension with coefficients, and at times an order times its generator."""
    sheet, report = parse(data, LIBRARY_COUNT_LIMIT), homology.report(data, p)
    surface = [rng.choice([0, 0, 0, 1, -1, 2, -3]) if rng.random() < 0.4 else 0 for _ in range(sheet.count(p + 1))]
    chain = apply(boundary(sheet, p + 1), surface)
    for order, generator in zip(report.orders, report.generators):
        if rng.random() < 0.5:
            chain = [a + order * b for a, b in zip(chain, generator)]
    return chain, sheet.cells(p)


def bounding_case(rng, p, facets):
    """A text with groups that bound on the region of these facets; one group may be too large or empty."""
    facets = [tuple(v + 1 for v in facet) for facet in facets]
    data = from_facets(facets)
    families = [spread(rng, *bounding(rng, data, p)) for _ in range(rng.randint(1, 3))]
    if rng.random() < 0.15:
        families.append(16 * [tuple(parse(data, LIBRARY_COUNT_LIMIT).cells(p)[0])])
    tags = rng.sample(range(10, 60), len(families))
    elements = [Element(3, facet) for facet in facets] + [Element(tag, nodes) for tag, family in zip(tags, families) for nodes in family]
    names = [(p, tag, f"curve {tag}") for tag in tags if rng.random() < 0.5]
    text = write(rng, range(1, max(map(max, facets)) + 1), elements, names)
    by_region = rng.random() < 0.5
    told = {tag: name for _, tag, name in names}
    present = [tag for tag, family in zip(tags, families) if family or tag in told]
    groups = [Group(tag, told.get(tag), tuple((e.nodes, e.line) for e in elements if e.tag == tag)) for tag in sorted(present)]
    words = ["--dimension", str(p)] if p != 1 else []
    return Case(text, words + (["--region", "3"] if by_region else []), facets, p, groups, [3] if by_region else [])


def cases(rng, count):
    """Random cases that the command takes: those of judge, twice as many where groups bound, and two near the limit of 256 cells."""
    large = meshes.sized()
    made = [bounding_case(rng, 1, large["klein 9x9"]), bounding_case(rng, 2, large["box 4x2x2"])]
    while len(made) < count:
        case = random_case(rng) if len(made) % 3 == 0 else bounding_case(rng, *rng.choice(regions()))
        if case.dimension < 3 and all(len(section) <= 256 for section in closure(case.region)):
            made.append(case)
    return made


def with_loops(facets, *loops, own=()):
    """A text of the facets, with physical curves of the tags 9 and on, closed walks on their vertices, and facets with tags of their own. No three of its
    points are on a line."""
    kinds = {2: 1, 3: 2, 4: 4}
    curves = [(9 + k, edge) for k, loop in enumerate(loops) for edge in zip(loop, [*loop[1:], loop[0]])]
    found = [*((0, facet) for facet in facets), *curves, *own]
    nodes = [f"{v + 1} {v} {v * v / 100} {v % 7}" for v in range(1 + max(v for _, facet in found for v in facet))]
    elements = [" ".join(map(str, [i + 1, kinds[len(facet)], 2, tag, tag + 1, *(v + 1 for v in facet)])) for i, (tag, facet) in enumerate(found)]
    lines = [*HEAD, "$Nodes", len(nodes), *nodes, "$EndNodes", "$Elements", len(elements), *elements, "$EndElements"]
    return "".join(f"{line}\n" for line in lines)


def solid():
    """A box with the faces of two of its tetrahedra as one physical surface."""
    facets = meshes.box(2, 1, 1)
    faces = [face for a, b, c, d in facets[:2] for face in ((b, c, d), (c, a, d), (a, b, d), (b, a, c))]
    return with_loops(facets, own=[(9, face) for face in faces])


def closed_at_the_end(floors):
    """A doubling tower closed at its last triple: its first loop bounds, with the coefficient 2 to the number of floors at the end."""
    return [*meshes.open_tower(floors), (3 * floors, 3 * floors + 1, 3 * floors + 2)]


# A doubling tower of 20 floors that is closed at both ends, with its vertices counted from the last: the report and the coordinates of dimension 1 are
# done, and the reduction that finds surfaces goes too wide, since every closed surface has the coefficient 2 to the power 20.
CLOSED = [tuple(sorted(62 - v for v in facet)) for facet in [*closed_at_the_end(20), (0, 1, 2)]]
BESIDE = [(63, 64), (63, 65), (64, 65)]
FILLED = "1 2 2 5 1 1 2 3\n"
TRIP = [(1, 2), (2, 3), (3, 1)]


def copies(*edges):
    """A filled triangle with these lines as group 9."""
    lines = [f"{i + 2} 1 2 9 1 {a} {b}\n" for i, (a, b) in enumerate(edges)]
    return TRIANGLE.format(1 + len(edges), FILLED + "".join(lines))


# A line, and a point of group 9 in no edge.
WIRE = TRIANGLE.format(2, "1 1 2 5 1 1 2\n2 15 2 9 1 3\n")

# Named cases: the text, the words after the file, the status, and what stands in the output and in the messages.
NAMED = [
    ("once round", copies(*TRIP), [], 0, "group 9, 3 lines: bounds +1 (1,2,3)\n", ""),
    ("backwards", copies(*[(b, a) for a, b in TRIP]), [], 0, "group 9, 3 lines: bounds -1 (1,2,3)\n", ""),
    ("15 times", copies(*15 * TRIP), [], 0, "group 9, 45 lines: bounds +15 (1,2,3)\n", ""),
    ("16 times", copies(*16 * TRIP), [], 1, "group 9, 48 lines: no surface is looked for: its coefficient 16 at (1,2) is beyond 15\n", ""),
    ("16 times a line that is open", copies(*16 * TRIP[:1]), ["--json"], 1, '"verdict": "large", "refusal": 11, "number": 16, "cell": [1, 2]}', ""),
    ("lines that cancel", copies((1, 2), (2, 1)), [], 0, "group 9, 2 lines: bounds 0\n", ""),
    ("open", copies(*TRIP[:2]), [], 1, "group 9, 2 lines: no surface, no cycle: its boundary has -1 at (1)\n", ""),
    ("a line that is no edge", copies((1, 1)), [], 1, "no surface, not in the region: the line in line 13 of the file is no edge of it\n"
     "the region is all elements but those of the groups taken: name the groups by their tags, or the region by --region\n", ""),
    ("a line that is no edge, named", copies((1, 1)), ["9"], 1, "but those of the groups taken: name the region by --region\n", ""),
    ("no such tag", copies(*TRIP), ["8"], 2, "", "no group of lines has the tag 8; the tags are 9\n"),
    ("a tag of another dimension", copies(*TRIP), ["5"], 2, "", "no group of lines has the tag 5; the tags are 9\n"),
    ("no groups", TRIANGLE.format(1, FILLED), [], 1, "region: 3 vertices, 3 edges, 1 triangle, ", "fildwuk: the file has no physical group of lines\n"),
    ("no such region", copies(*TRIP), ["--region", "6"], 2, "", "no element has the physical tag 6"),
    ("a point", TRIANGLE.format(2, FILLED + "2 15 2 9 1 1\n"), ["--dimension", "0"], 1, "group 9, 1 point: no surface, free; coordinates 1\n", ""),
    ("a point in no edge", WIRE, ["--dimension", "0"], 1, "group 9, 1 point: no surface, not in the region: the point in line 13 of the file is no vertex of it\n",
     ""),
    ("a point in no edge, in the region", WIRE, ["5"], 1, "region: 1 vertex, 0 edges, 0 triangles, 0 tetrahedra; no free loops\ngroup 5, 1 line: no surface, "
     "not in the region", ""),
    ("a node that is dropped", WIRE, ["9", "--region", "5", "9", "--dimension", "0"], 1, "region: 2 vertices, 1 edge, 0 triangles, 0 tetrahedra; 1 free "
     "component\n1 node in no edge is dropped: 3\ngroup 9, 1 point: no surface, not in the region", ""),
    ("tetrahedra", copies(*TRIP), ["--dimension", "3"], 2, "", "0, 1 or 2 is wanted after --dimension"),
    ("dimension 4", copies(*TRIP), ["--dimension", "4"], 1, "", "refused with 8: the dimension exceeds 3."),
    ("plain", copies(*TRIP), ["--plain"], 2, "", "fildwuk: there is no option --plain (fildwuk surface --help)\n"),
    ("malformed", "$MeshFormat\n", [], 1, "", "refused with 14"),
    ("malformed, as an object", "$MeshFormat\n", ["--json"], 1, '"refusal": 14, ', "refused with 14"),
    ("faulty element", TRIANGLE.format(2, "1 1 2 9 1 1 2\n2 2 2 5 1 1 2 2\n"), [], 1, "", "Line 13, node 2 stands in it twice"),
    ("too many cells", with_loops([(0, i, i + 1) for i in range(1, 300)], [0, 1, 2]), [], 1, "", "It has 301 vertices, 599 edges, 299 triangles, the limit"),
    ("too wide as a whole", with_loops(meshes.tower(20), [0, 1, 2]), [], 1, "", "dimension 1, is refused with 13"),
    ("too wide for a surface", with_loops(CLOSED, [62, 61, 60]), [], 1, "bounds, but its surface is not found: the reduction that finds it makes an entry "
     "beyond 1048575 (refusal 13)\na part of the region that has the group", ""),
    ("too wide, as an object", with_loops(CLOSED, [62, 61, 60]), ["--json"], 1, '"verdict": "bounds", "refusal": 13, "coordinates": [], "order": 1}', ""),
    ("a part that has the group", with_loops(CLOSED, [62, 61, 60], own=[(2, (60, 61, 62))]), ["--region", "2"], 0, "bounds -1 (61,62,63)\n", ""),
    ("too wide and free", with_loops(CLOSED + BESIDE, [63, 64, 65]), ["--json"], 1, '"verdict": "free", "refusal": 13, "coordinates": [1], ', ""),
    ("many groups", TRIANGLE.format(1002, FILLED + "".join(f"{i} 1 2 {i} 1 1 2\n" for i in range(10, 1011))), [], 1, "",
     "1001 groups are more than are taken at once, which are 1000: name their tags\n"),
    ("a tag of two dimensions", with_loops([(0, 1, 2, 3)], [0, 1, 2], own=[(9, (0, 1, 2))]), ["--region", "0"], 0, "9, 3 lines: bounds +1 (1,2,3)\n", ""),
]

# Cases whose files cannot be written: the text, what is said, and the kinds of files.
REFUSED = [
    ("coefficient 1024", with_loops(closed_at_the_end(10), [0, 1, 2]), "the surface of group 9 has the coefficient 1024 at (31,32,33): more than 1000",
     ("groups", "view")),
    ("names that are no list", DISC_TEXT.replace('2 2 "disc"', "2 2 disc"), "$PhysicalNames", ("groups",)),
    ("tag that is no number", DISC_TEXT.replace("11 2 2 2 1000 ", "11 2 2 2 x "), "a tag of line 51 is no number", ("groups",)),
    ("great tag", DISC_TEXT.replace("11 2 2 2 1000 ", "11 2 2 999999999 1000 "), "tags are too great", ("groups",)),
    ("great element number", DISC_TEXT.replace("11 2 2 2 1000 ", "999999999 2 2 2 1000 "), "element numbers are too great", ("groups",)),
    ("coordinate that is a command", DISC_TEXT.replace("25 0 0 1\n", "25 0 0;Exit 1\n"), 'a coordinate of node 25 is no plain number: "0;Exit"', ("view",)),
]
