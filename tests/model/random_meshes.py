"""Seeded random complexes: scattered cells, dense skeletons, glued and joined known complexes."""

from itertools import combinations

from model import meshes
from model.sheet import VERTEX_LIMIT, closure


def scattered(rng):
    """Facets of mixed dimension on few vertices."""
    vertices = range(rng.randint(1, 9))
    sizes = [min(rng.randint(1, 4), len(vertices)) for _ in range(rng.randint(0, 12))]
    return [tuple(rng.sample(vertices, size)) for size in sizes]


def dense(rng):
    """All edges and some triangles; torsion is common near the density chosen here."""
    vertices = rng.randint(5, 8)
    triangles = list(combinations(range(vertices), 3))
    kept = rng.randint(vertices, min(len(triangles), vertices * (vertices - 1) // 2 + 4))
    return list(combinations(range(vertices), 2)) + rng.sample(triangles, kept)


def solid(rng):
    """Tetrahedra on few vertices."""
    cells = list(combinations(range(rng.randint(5, 8)), 4))
    return rng.sample(cells, rng.randint(1, min(len(cells), 14)))


def part(rng):
    """One of the known complexes with torsion or loops."""
    return rng.choice([
        meshes.projective_plane, meshes.klein_bottle, meshes.torus, meshes.moebius_band,
        lambda: meshes.moore_space(rng.randint(2, 5)), lambda: meshes.tower(rng.randint(1, 3)),
        lambda: meshes.sphere(rng.randint(0, 3)), meshes.hollow_triangle,
        lambda: meshes.suspension(meshes.projective_plane()), meshes.air_round_a_ring])()


def glued(rng):
    """A known complex with some vertices made one, which folds cells or closes loops."""
    facets = part(rng)
    vertices = sorted({v for facet in facets for v in facet})
    image = {v: v for v in vertices}
    for _ in range(rng.randint(1, 3)):
        image[rng.choice(vertices)] = rng.choice(vertices)
    return [tuple(sorted({image[v] for v in facet})) for facet in facets] + scattered(rng)[:2]


def wound(rng):
    """Discs wound up to four times either way round one or two triangles."""
    triangles = rng.randint(1, 2)
    windings = [[rng.randint(-4, 4) for _ in range(triangles)] for _ in range(rng.randint(1, 3))]
    return meshes.wound([numbers for numbers in windings if sum(map(abs, numbers)) > 1] or [[2]])


def joined(rng):
    """Two known complexes beside each other, at times with an edge between."""
    facets = meshes.disjoint_union(part(rng), part(rng))
    last = meshes.vertex_count(facets) - 1
    return facets + ([(0, last)] if rng.random() < 0.5 else [])


def renumbered(rng, facets):
    """The facets with other vertex numbers, anywhere in 0 to 65535."""
    vertices = sorted({v for facet in facets for v in facet})
    numbers = rng.sample(range(VERTEX_LIMIT + 1), len(vertices))
    image = dict(zip(vertices, numbers))
    return [tuple(image[v] for v in facet) for facet in facets]


def swept(facets):
    """The facets without the points that no other facet has, where one has an edge."""
    used = {v for facet in facets if len(facet) > 1 for v in facet}
    return [facet for facet in facets if len(facet) > 1 or facet[0] in used] if used else facets


def loosened(rng, facets):
    """The facets and one to four more points, before, beside or after their vertices or anywhere."""
    used = {v for facet in facets for v in facet}
    near = {v + step for v in used for step in (-256, -1, 1, 256)} | {0, VERTEX_LIMIT, rng.randint(0, VERTEX_LIMIT)}
    free = sorted(v for v in near - used if 0 <= v <= VERTEX_LIMIT)
    return facets + [(v,) for v in rng.sample(free, min(len(free), rng.randint(1, 4)))]


STYLES = [scattered, dense, solid, glued, glued, joined, joined]


def within(facets, count_limit):
    """Whether the complex of the facets has at most so many cells in each dimension."""
    return max(map(len, closure(facets))) <= count_limit


def complex_of(rng, count_limit):
    """The facets of a random complex without loose nodes and with at most so many cells in each dimension."""
    while True:
        facets = renumbered(rng, swept(rng.choice(STYLES)(rng)))
        if within(facets, count_limit):
            return facets


def loose_complex_of(rng, count_limit):
    """The same with loose nodes beside at least one edge."""
    while True:
        facets = loosened(rng, complex_of(rng, count_limit))
        if max(map(len, facets)) > 1 and within(facets, count_limit):
            return facets
