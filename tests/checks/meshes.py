"""Checks of the meshes that other checks start from."""

import unittest
from itertools import combinations

from checks.common import random_sheets
from model import meshes
from model.sheet import closure, from_facets, parse


class Meshes(unittest.TestCase):
    def test_surfaces_have_two_triangles_at_each_edge(self):
        surfaces = [meshes.torus(), meshes.torus_grid(4, 4), meshes.klein_bottle(),
                    meshes.klein_bottle(4, 4), meshes.projective_plane(), meshes.sphere(2)]
        for facets in surfaces:
            edges = [edge for facet in facets for edge in combinations(sorted(facet), 2)]
            self.assertEqual(len(set(map(frozenset, facets))), len(facets))
            self.assertTrue(all(edges.count(edge) == 2 for edge in edges))

    def test_counts(self):
        air = parse(from_facets(meshes.air_round_a_ring()), 48)
        self.assertEqual([air.count(p) for p in range(4)], [11, 37, 45, 18])
        for facets in meshes.sized().values():
            self.assertLessEqual(max(map(len, closure(facets))), 256)

    def test_seeds_fix_random_complexes(self):
        self.assertEqual(random_sheets(10, 20), random_sheets(10, 20))
        self.assertNotEqual(random_sheets(10, 20), random_sheets(11, 20))
