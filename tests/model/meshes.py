"""Facet lists of complexes whose homology is known, and of meshes of a given size."""

from itertools import combinations, permutations, product

AIR_ROUND_A_RING = [
    (0, 1, 4, 6), (0, 1, 4, 9), (0, 1, 8, 9), (0, 2, 8, 9), (1, 2, 4, 6), (2, 3, 4, 5),
    (2, 3, 4, 8), (2, 3, 5, 6), (2, 3, 6, 8), (2, 4, 5, 6), (2, 6, 8, 9), (3, 4, 5, 10),
    (3, 4, 6, 8), (3, 4, 6, 10), (3, 5, 6, 7), (3, 6, 7, 10), (4, 5, 6, 10), (5, 6, 7, 10)]

PROJECTIVE_PLANE = [
    (0, 1, 3), (0, 1, 5), (0, 2, 3), (0, 2, 4), (0, 4, 5),
    (1, 2, 4), (1, 2, 5), (1, 3, 4), (2, 3, 5), (3, 4, 5)]


def hollow_triangle():
    return [(0, 1), (0, 2), (1, 2)]


def filled_triangle():
    return [(0, 1, 2)]


def sphere(dimension):
    """The boundary of a simplex with dimension + 2 vertices; dimension is 0 to 3."""
    return list(combinations(range(dimension + 2), dimension + 1))


def tower(floors):
    """The doubling tower of 01; vertex i of the triple Aj has number 3j + i."""
    facets = [(0, 1, 2)]
    for j in range(1, floors + 1):
        a0, a1, a2, b0, b1, b2 = range(3 * j - 3, 3 * j + 3)
        facets += [(a0, b0, b1), (a0, b1, b2), (a1, b2, b0), (a1, b0, b1), (a2, b1, b2),
                   (a2, b2, b0), (a0, a1, b2), (a1, a2, b1), (a2, a0, b0)]
    return facets


def open_tower(floors):
    """The doubling tower without its triangle: one free loop and no orders.

    The loop on A0 is 2 ** floors times that on the last triple, so that from 20 floors on the
    reduction goes too wide.
    """
    return tower(floors)[1:]


def closed_tower(floors):
    """The doubling tower with a triangle at both ends: one cavity, in which the last triangle is taken 2 ** floors times."""
    facets = tower(floors)
    last = vertex_count(facets) - 1
    return facets + [(last - 2, last - 1, last)]


def turned(facets):
    """The facets with their vertices numbered from the other end."""
    last = vertex_count(facets) - 1
    return [tuple(last - v for v in facet) for facet in facets]


def torus():
    """Moebius' torus with 7 vertices."""
    return [tuple((i + step) % 7 for step in steps)
            for i in range(7) for steps in ((0, 1, 3), (0, 2, 3))]


def glued_plate(width, height, twisted):
    """A rectangle with opposite sides glued, one pair with a twist if asked: torus or Klein bottle.

    Width and height are at least 3.
    """
    def vertex(x, y):
        if y == height:
            x, y = (-x if twisted else x), 0
        return width * y + x % width

    facets = []
    for x, y in product(range(width), range(height)):
        here, right, up = vertex(x, y), vertex(x + 1, y), vertex(x, y + 1)
        corner = vertex(x + 1, y + 1)
        facets += [(here, right, corner), (here, up, corner)]
    return facets


def torus_grid(width, height):
    """A torus with width × height vertices, three times as many edges, twice as many triangles."""
    return glued_plate(width, height, False)


def klein_bottle(width=3, height=3):
    return glued_plate(width, height, True)


def projective_plane():
    """The projective plane with 6 vertices."""
    return list(PROJECTIVE_PLANE)


def moebius_band():
    """The band of 5 triangles on 5 vertices."""
    return [(i, (i + 1) % 5, (i + 2) % 5) for i in range(5)]


def disc(rim, first):
    """A disc whose rim is a closed walk of at least six edges; its other vertices count from first.

    A ring of these vertices, each beside at most two edges of the rim, keeps the edges apart.
    """
    edges = len(rim)
    ring = (edges + 1) // 2
    facets = []
    for i in range(ring):
        here, following = first + i, first + (i + 1) % ring
        end = min(2 * i + 2, edges)
        facets += [(rim[at], rim[(at + 1) % edges], here) for at in range(2 * i, end)]
        facets.append((rim[end % edges], here, following))
    return facets + [(first, first + i, first + i + 1) for i in range(1, ring - 1)]


def moore_space(order):
    """A disc whose rim runs `order` times round a triangle, order at least 2: torsion `order`."""
    return disc([0, 1, 2] * order, 3)


def wound(windings):
    """Triangles without inside that share vertex 0, and discs whose rims run round them.

    Rim i runs windings[i][j] times, at least two in all, round triangle j, backwards where negative.
    """
    loops = [(0, 2 * j + 1, 2 * j + 2) for j in range(len(windings[0]))]
    facets = [side for loop in loops for side in combinations(loop, 2)]
    for numbers in windings:
        rim = []
        for (base, a, b), number in zip(loops, numbers):
            rim += abs(number) * ([base, a, b] if number > 0 else [base, b, a])
        facets += disc(rim, vertex_count(facets))
    return facets


def vertex_count(facets):
    """The least number above every vertex number."""
    return max((v for facet in facets for v in facet), default=-1) + 1


def disjoint_union(*parts):
    """The parts beside each other, later ones renumbered."""
    facets = []
    for part in parts:
        shift = vertex_count(facets)
        facets += [tuple(v + shift for v in facet) for facet in part]
    return facets


def suspension(facets):
    """Both cones over a complex: torsion moves up by one dimension."""
    top = vertex_count(facets)
    return [facet + (apex,) for facet in facets for apex in (top, top + 1)]


def air_round_a_ring():
    """A ball less a solid ring: one component, one loop, one cavity."""
    return list(AIR_ROUND_A_RING)


def plate(width, height):
    """A flat rectangle of width × height squares, each cut into two triangles."""
    facets = []
    for x, y in product(range(width), range(height)):
        here = y * (width + 1) + x
        up = here + width + 1
        facets += [(here, here + 1, up + 1), (here, up, up + 1)]
    return facets


def box(width, depth, height, left_out=()):
    """Cubes cut into six tetrahedra each; the cubes at the places left out are missing."""
    def vertex(point):
        return (point[2] * (depth + 1) + point[1]) * (width + 1) + point[0]

    facets = []
    for cube in product(range(width), range(depth), range(height)):
        if cube in left_out:
            continue
        for axes in permutations(range(3)):
            point, path = list(cube), [vertex(cube)]
            for axis in axes:
                point[axis] += 1
                path.append(vertex(point))
            facets.append(tuple(path))
    return facets


def sized():
    """Meshes near the limits of 48 and 256 cells in a dimension, by name."""
    return {
        "plate 3x4": plate(3, 4), "box 2x1x1": box(2, 1, 1), "torus 4x4": torus_grid(4, 4),
        "klein 4x4": klein_bottle(4, 4), "moore 6": moore_space(6), "tower 3": tower(3),
        "air round a ring": air_round_a_ring(),
        "plate 8x9": plate(8, 9), "box 4x2x2": box(4, 2, 2), "torus 9x9": torus_grid(9, 9),
        "klein 9x9": klein_bottle(9, 9), "moore 33": moore_space(33), "tower 20": tower(20),
        "ring 3x3x1": box(3, 3, 1, left_out=[(1, 1, 0)]),
    }


def known():
    """Complexes by name with their homology: for dimensions 0 to 3 a free rank and orders."""
    none = (0, [])
    return {
        "no cells": ([], [none, none, none, none]),
        "one vertex": ([(0,)], [(1, []), none, none, none]),
        "edge": ([(0, 1)], [(1, []), none, none, none]),
        "hollow triangle": (hollow_triangle(), [(1, []), (1, []), none, none]),
        "filled triangle": (filled_triangle(), [(1, []), none, none, none]),
        "sphere 0": (sphere(0), [(2, []), none, none, none]),
        "sphere 2": (sphere(2), [(1, []), none, (1, []), none]),
        "sphere 3": (sphere(3), [(1, []), none, none, (1, [])]),
        "torus": (torus(), [(1, []), (2, []), (1, []), none]),
        "torus 3x4": (torus_grid(3, 4), [(1, []), (2, []), (1, []), none]),
        "klein bottle": (klein_bottle(), [(1, []), (1, [2]), none, none]),
        "projective plane": (projective_plane(), [(1, []), (0, [2]), none, none]),
        "moebius band": (moebius_band(), [(1, []), (1, []), none, none]),
        "moore 3": (moore_space(3), [(1, []), (0, [3]), none, none]),
        "moore 4": (moore_space(4), [(1, []), (0, [4]), none, none]),
        "orders 2 and 3": (disjoint_union(projective_plane(), moore_space(3)),
                           [(2, []), (0, [6]), none, none]),
        "orders 2 and 2": (disjoint_union(projective_plane(), projective_plane()),
                           [(2, []), (0, [2, 2]), none, none]),
        "suspended projective plane": (suspension(projective_plane()),
                                       [(1, []), none, (0, [2]), none]),
        "suspended moore 3": (suspension(moore_space(3)), [(1, []), none, (0, [3]), none]),
        "air round a ring": (air_round_a_ring(), [(1, []), (1, []), (1, []), none]),
        "plate": (plate(3, 4), [(1, []), none, none, none]),
        "box": (box(2, 1, 1), [(1, []), none, none, none]),
        "ring of cubes": (box(3, 3, 1, left_out=[(1, 1, 0)]), [(1, []), (1, []), none, none]),
        "tower 1": (tower(1), [(1, []), (0, [2]), none, none]),
        "tower 3": (tower(3), [(1, []), (0, [8]), none, none]),
        "open tower 3": (open_tower(3), [(1, []), (1, []), none, none]),
    }
