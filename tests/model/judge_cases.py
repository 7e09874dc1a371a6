"""Random mesh texts with physical groups, for the command judge."""

from dataclasses import dataclass, field
from functools import lru_cache
from itertools import permutations

from model import homology, meshes
from model.judgement import Group, sign
from model.matrices import boundary, transpose
from model.mesh import NODES_OF_KIND
from model.sheet import LIBRARY_COUNT_LIMIT, parse
from model.sweep import swept_from_facets

KIND_OF_NODES = {count: kind for kind, count in NODES_OF_KIND.items()}
HEAD = ["$MeshFormat", "2.2 0 8", "$EndMeshFormat"]


def hollow(facets, *places):
    """The facets without those at the places."""
    return [facet for i, facet in enumerate(facets) if i not in places]


@lru_cache(maxsize=1)
def regions():
    """Regions for each dimension that is judged."""
    plane, ring = meshes.projective_plane(), meshes.hollow_triangle()
    return {
        0: [meshes.disjoint_union(ring, plane, [(0,)]), meshes.plate(2, 1)],
        1: [meshes.torus(), meshes.klein_bottle(), plane, meshes.moore_space(3), meshes.moore_space(4), meshes.disjoint_union(plane, plane, ring),
            meshes.disjoint_union(meshes.torus(), meshes.moore_space(6), ring), meshes.wound([[2, 0, 4], [0, 6, 0]]), meshes.wound([[3, -3, 0]]),
            hollow(meshes.plate(4, 3), 2, 7, 13, 20), meshes.disjoint_union(ring, ring, ring, ring, ring), meshes.box(2, 1, 1),
            meshes.air_round_a_ring(), [(i, j) for i in range(5) for j in range(i)], meshes.disjoint_union(meshes.klein_bottle(), meshes.torus())],
        2: [meshes.torus(), plane, meshes.suspension(plane), meshes.disjoint_union(meshes.sphere(2), meshes.suspension(plane), meshes.torus()),
            meshes.disjoint_union(*[meshes.sphere(2)] * 4), meshes.air_round_a_ring(), meshes.suspension(meshes.klein_bottle())],
        3: [meshes.sphere(3), meshes.disjoint_union(meshes.sphere(3), meshes.sphere(3))],
    }


@dataclass
class Element:
    """An element line: its physical tag and its nodes in order; the number of its line once it is written."""

    tag: int
    nodes: tuple
    line: int = 0


@dataclass
class Case:
    """A text with the words after the file's name, the facets of the region and its tags, the dimension, the groups that are judged, and
    those that are left out as part of the region."""

    text: str
    words: list
    region: list
    dimension: int
    groups: list = field(default_factory=list)
    tags: list = field(default_factory=list)
    left_out: list = field(default_factory=list)


def spread(rng, chain, cells):
    """The elements of a chain: copies with nodes in any order of the right sign, and now and then two that cancel. A point has no sign."""
    found = []
    for cell, number in zip(cells, chain):
        if len(cell) > 1 and rng.random() < 0.02:
            found += [cell, (cell[1], cell[0], *cell[2:])]
        orders = [order for order in permutations(cell) if len(cell) == 1 or sign(order) * number > 0]
        found += [rng.choice(orders) for _ in range(abs(number))]
    return found


def combine(rng, facets, p):
    """A random cycle of dimension p: a combination of the generators, or of none, plus boundaries."""
    data = swept_from_facets(facets)
    sheet, report = parse(data, LIBRARY_COUNT_LIMIT), homology.report(data, p)
    chain = [0] * sheet.count(p)
    few = rng.choice([0, 1, 1, 1, 2, 3])
    for generator in rng.sample(report.generators, min(few, len(report.generators))):
        factor = rng.choice([1, 1, 1, -1, -1, 2, -2, 3])
        chain = [a + factor * b for a, b in zip(chain, generator)]
    above = transpose(boundary(sheet, p + 1), sheet.count(p + 1)) if p < 3 else []
    for row in rng.sample(above, min(rng.choice([0, 0, 1, 3]), len(above))):
        factor = rng.choice([1, -1, 2])
        chain = [a + factor * b for a, b in zip(chain, row)]
    return chain, sheet.cells(p)


def make_elements(rng, facets, p):
    """The elements of a group: mostly a cycle, now and then with one missing, one too many or one that is no cell."""
    elements = spread(rng, *combine(rng, facets, p))
    spoil = rng.random()
    if spoil < 0.06 and elements:
        elements.pop(rng.randrange(len(elements)))
    elif spoil < 0.12:
        facet = rng.choice([facet for facet in facets if len(facet) > p] or [tuple(range(1, p + 2))])
        elements.append(tuple(rng.sample(facet, p + 1)))
    elif spoil < 0.16:
        last = max(v for facet in facets for v in facet)
        elements.insert(rng.randrange(len(elements) + 1), tuple(range(last - p, last + 1))[::-1])
    rng.shuffle(elements)
    return elements


def good_family(rng, facets, p):
    """The elements of groups that are a basis of the free cycles, up to twisted parts and boundaries."""
    data = swept_from_facets(facets)
    sheet, report = parse(data, LIBRARY_COUNT_LIMIT), homology.report(data, p)
    t = len(report.orders)
    rows = [list(generator) for generator in report.generators[t:]]
    for _ in range(2 * len(rows)):
        i, j = rng.randrange(len(rows)), rng.randrange(len(rows))
        factor = rng.choice([1, -1])
        if i != j:
            rows[i] = [a + factor * b for a, b in zip(rows[i], rows[j])]
    for row in rows:
        for generator in report.generators[:t]:
            if rng.random() < 0.5:
                row[:] = [a + b for a, b in zip(row, generator)]
    return [spread(rng, row, sheet.cells(p)) for row in rows]


def write(rng, nodes, elements, names):
    """The text of a file; the elements get the numbers of their lines."""
    lines = list(HEAD)
    if names or rng.random() < 0.3:
        lines += ["$PhysicalNames", str(len(names)), *(f'{p} {tag} "{name}"' for p, tag, name in names), "$EndPhysicalNames"]
    lines += ["$Nodes", str(len(nodes)), *(f"{v} {v % 3} {v // 3} {v * v}" for v in nodes), "$EndNodes", "$Elements", str(len(elements))]
    for i, element in enumerate(elements):
        lines.append(" ".join(map(str, [i + 1, KIND_OF_NODES[len(element.nodes)], 2, element.tag, 1, *element.nodes])))
        element.line = len(lines)
    lines.append("$EndElements")
    return "".join(f"{line}\n" for line in lines)


def random_case(rng):
    """A text with groups on one of the regions."""
    p = rng.choice([1, 1, 1, 1, 2, 2, 0, 3])
    facets = [tuple(v + 1 for v in facet) for facet in rng.choice(regions()[p])]
    families = good_family(rng, facets, p) if rng.random() < 0.3 else [make_elements(rng, facets, p) for _ in range(rng.randint(0, 5))]
    tags = rng.sample(range(10, 60), len(families) + 1)
    named = rng.random() < 0.5
    flat, own = any(len(facet) == p + 1 for facet in facets), rng.choice([0, 3, 4])
    if families and own and all(len(facet) > p + 1 for facet in facets) and rng.random() < 0.3:
        tags[0] = own
    elements = [Element(own, facet) for facet in facets]
    top = max(v for facet in facets for v in facet)
    by_region = own != 0 and (rng.random() < 0.4 or (flat and not named))
    if by_region:
        elements.append(Element(7, tuple(range(top + 1, top + (4 if p == 3 else 5)))))
    for tag, family in zip(tags, families):
        elements += [Element(tag, nodes) for nodes in family]
    if rng.random() < 0.5:
        rng.shuffle(elements)
    names = [(p, tag, f"loop {tag}") for tag in tags[:-1] if rng.random() < 0.6]
    with_empty = rng.random() < 0.2
    if with_empty:
        names.append((p, tags[-1], "nothing"))
    text = write(rng, range(1, top + 5), elements, names)
    return choose(rng, Case(text, [], [], p), elements, names, tags[:-1] + [tags[-1]] * with_empty, own, named, by_region)


def choose(rng, case, elements, names, tags, own, named, by_region):
    """The case with words that name some groups, or none, and the region or none."""
    p = case.dimension
    there = [tag for tag in tags if any(e.tag == tag for e in elements) or any(tag == name[1] for name in names)]
    judged = rng.sample(there, rng.randint(1, len(there))) if named and there else sorted(there)
    most = max(len(e.nodes) for e in elements if e.tag == own)
    if not (named and there) and own and own not in judged and any(e.tag == own and len(e.nodes) == p + 1 for e in elements):
        if by_region and most == p + 1:
            case.left_out = [{"tag": own, "name": None}]
        else:
            judged = sorted([*judged, own])
    case.words = list(map(str, judged)) if named and there else []
    case.words += ["--dimension", str(p)] if p != 1 or rng.random() < 0.1 else []
    case.tags = [own] if by_region else []
    case.words += ["--region", str(own)] if by_region else []
    inside = [e for e in elements if (e.tag == own and len(e.nodes) == most if by_region else e.tag not in judged or len(e.nodes) != p + 1)]
    case.region = [e.nodes for e in inside]
    told = {tag: name for q, tag, name in names if q == p}
    for tag in judged:
        group = tuple((e.nodes, e.line) for e in elements if e.tag == tag and len(e.nodes) == p + 1)
        case.groups.append(Group(tag, told.get(tag), group))
    return case
