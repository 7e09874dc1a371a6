"""Checks of the import of 02, Note 3: its form, its refusals and their order, the sheet that it writes, which is swept (Note 7)."""

import random
import unittest
from itertools import product

from checks.common import FILLED, HOLLOW
from model import mesh_cases, mesh_texts, random_meshes
from model.mesh import import_mesh
from model.sheet import DIMENSIONS, from_facets, longest, refusal

ROOM = longest(256)
HOLLOW_TEXT = (b"$MeshFormat\n2.2 0 8\n$EndMeshFormat\n$Nodes\n3\n0 0 0 0\n1 1 0 0\n2 0 1 0\n$EndNodes\n"
               b"$Elements\n3\n1 1 2 0 1 0 1\n2 1 2 0 1 1 2\n3 1 2 0 1 2 0\n$EndElements\n")
POINTS_TEXT = (b"$MeshFormat\n2.2 0 8\n$EndMeshFormat\n$Nodes\n5\n0 0 0 0\n1 1 0 0\n2 0 1 0\n3 1 1 0\n4 2 2 0\n$EndNodes\n"
               b"$Elements\n3\n1 15 2 0 1 3\n2 2 2 0 1 0 1 2\n3 15 2 0 1 1\n$EndElements\n")
NO_CELLS = b"$MeshFormat\n2.2 0 8\n$EndMeshFormat\n$Nodes\n0\n$EndNodes\n$Elements\n0\n$EndElements\n"


def swept_sheet(facets):
    """The sheet of the facets without the points that no other facet has, where one has an edge."""
    return from_facets(random_meshes.swept(facets))


class Imports(unittest.TestCase):
    def told(self, text, limit=48):
        return import_mesh(text, limit, ROOM)[0]

    def test_hollow_triangle_gives_the_bytes_of_01(self):
        self.assertEqual(import_mesh(HOLLOW_TEXT, 48, 34), (0, HOLLOW))
        self.assertEqual(import_mesh(HOLLOW_TEXT, 48, 33), (16, None))
        self.assertEqual(import_mesh(HOLLOW_TEXT.replace(b"\n", b"\r\n"), 48, 34), (0, HOLLOW))

    def test_no_cells(self):
        self.assertEqual(import_mesh(NO_CELLS, 48, 16), (0, from_facets([])))
        self.assertEqual(import_mesh(NO_CELLS, 48, 15), (16, None))
        for length in range(len(NO_CELLS)):
            self.assertEqual(self.told(NO_CELLS[:length]), 14)

    def test_a_point_beside_a_triangle_is_dropped(self):
        # The point on node 3 is in no edge; that on node 1 is a corner. Node 4 is in no element.
        self.assertEqual(import_mesh(POINTS_TEXT, 48, ROOM), (0, FILLED))
        self.assertEqual(import_mesh(POINTS_TEXT.replace(b"2 2 2 0 1 0 1 2", b"2 15 2 0 1 0"), 48, ROOM), (0, from_facets([(0,), (1,), (3,)])))

    def test_16_is_about_the_sheet_before_the_sweep(self):
        whole = from_facets([(0, 1, 2), (3,)])
        self.assertEqual((len(whole), len(FILLED)), (42, 40))
        for room, due in ((40, (16, None)), (41, (16, None)), (42, (0, FILLED)), (43, (0, FILLED))):
            self.assertEqual(import_mesh(POINTS_TEXT, 48, room), due)
        for limit, due in ((3, (16, None)), (4, (0, FILLED))):
            self.assertEqual(import_mesh(POINTS_TEXT, limit, ROOM), due)

    def test_every_freedom(self):
        *cells, loose, edge = mesh_cases.BASE_FACETS
        self.assertEqual(loose, (65535,))
        whole, due = from_facets(mesh_cases.BASE_FACETS), from_facets([*cells, edge])
        for name, text in mesh_cases.free(random.Random(1)).items():
            self.assertEqual(import_mesh(text, 48, len(whole)), (0, due), name)
            self.assertEqual(import_mesh(text, 48, len(due)), (16, None), name)

    def test_every_fault_and_two_together(self):
        for name, (text, due) in mesh_cases.damaged(random.Random(1)).items():
            self.assertEqual({self.told(text, limit) for limit in (48, 256)}, {due}, name)

    def test_large_texts(self):
        for name, (text, due) in mesh_cases.large(random.Random(1)).items():
            self.assertEqual(self.told(text), due, name)

    def test_no_room_comes_after_the_other_refusals(self):
        for text, due in ((HOLLOW_TEXT, 16), (HOLLOW_TEXT + b" ", 14), (HOLLOW_TEXT.replace(b"2 0\n$E", b"2 3\n$E"), 15)):
            self.assertEqual(import_mesh(text, 48, 0), (due, None))

    def test_counts_at_the_limits(self):
        texts = mesh_cases.at_limit(random.Random(1))
        for (name, (text, facets)), limit in product(texts.items(), (48, 256)):
            over = refusal(from_facets(facets), limit) == 2
            self.assertEqual(import_mesh(text, limit, ROOM), (16, None) if over else (0, swept_sheet(facets)), name)
        for count, p in product((48, 49, 256, 257), range(DIMENSIONS)):
            text = texts[f"{count} cells of dimension {p}"][0]
            self.assertEqual([self.told(text, limit) for limit in (48, 256)], [16 * (count > 48), 16 * (count > 256)])

    def test_random_texts(self):
        seen, dropped = set(), 0
        for text, facets in mesh_texts.random_texts(random.Random(2), 1000):
            number, sheet = import_mesh(text, 256, ROOM)
            seen.add(number)
            if facets is not None:
                over = refusal(from_facets(facets), 256) == 2
                self.assertEqual((number, sheet), (16, None) if over else (0, swept_sheet(facets)))
                dropped += not over and sheet != from_facets(facets)
        self.assertEqual(seen, {0, 14, 15, 16})
        self.assertGreater(dropped, 50)

    def test_seeds_fix_random_texts(self):
        self.assertEqual(*(list(mesh_texts.random_texts(random.Random(3), 50)) for _ in range(2)))
