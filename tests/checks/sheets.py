"""Checks of the sheet: its bytes, refusals 1 to 7 and 18, the boundary matrices."""

import struct
import unittest
from itertools import product

from checks.common import EDGE, HOLLOW, random_sheets
from model import loose_cases, sheet_cases
from model.matrices import boundary, multiply
from model.sheet import closure, dump, from_facets, layout, parse, refusal, word


class Sheets(unittest.TestCase):
    def test_hollow_triangle_has_the_bytes_of_01(self):
        self.assertEqual(struct.unpack_from("<8H", HOLLOW), (3, 16, 3, 22, 0, 34, 0, 34))
        self.assertEqual(struct.unpack_from("<9H", HOLLOW, 16), (0, 1, 2, 0, 1, 0, 2, 1, 2))
        self.assertEqual(len(HOLLOW), 34)

    def test_starred_refusals(self):
        self.assertEqual(refusal(HOLLOW[:15], 256), 1)
        self.assertEqual(refusal(layout([[(0,)], [(0, 1)], [], []]), 256), 7)
        self.assertEqual(refusal(layout([[(0,), (1,)], [(1, 0)], [], []]), 256), 5)

    def test_every_fault_and_every_two(self):
        for limit in (48, 256):
            cases = {**sheet_cases.damaged(limit), **sheet_cases.at_limit(limit), **loose_cases.sheets(limit)}
            for name, (data, due) in cases.items():
                self.assertEqual(refusal(data, limit), due, (name, limit))

    def test_limits_are_told_apart(self):
        for count, answers in ((48, (0, 0)), (49, (2, 0)), (256, (2, 0)), (257, (2, 2))):
            data = sheet_cases.full(count)
            self.assertEqual((refusal(data, 48), refusal(data, 256)), answers, count)

    def test_long_tails(self):
        for name, (data, due) in sheet_cases.long_tails().items():
            self.assertEqual(refusal(data, 48), due, name)

    def test_fields_have_their_low_byte_first(self):
        self.assertEqual(refusal(layout([[(255,), (256,)], [], [], []]), 48), 0)
        self.assertEqual(refusal(layout([[(1,), (256,)], [(1, 256)], [], []]), 48), 0)
        self.assertEqual(refusal(layout([[(256,), (1,)], [], [], []]), 48), 6)

    def test_cells_compare_by_first_vertex_then_the_next(self):
        vertices = [(v,) for v in range(4)]
        self.assertEqual(refusal(layout([vertices, [(0, 3), (1, 2)], [], []]), 48), 0)
        self.assertEqual(refusal(layout([vertices, [(1, 2), (0, 3)], [], []]), 48), 6)
        self.assertEqual(refusal(layout([vertices, [(0, 3), (0, 2)], [], []]), 48), 6)

    def test_cells_at_word_edges(self):
        for name, (data, due) in sheet_cases.at_word_edges().items():
            self.assertEqual(refusal(data, 48), due, name)

    def test_words_are_ordered_as_lists_of_one_length_and_shared_by_equal_ones(self):
        numbers = [*sheet_cases.EDGE_NUMBERS, 1, 2]
        for length in range(1, 5):
            lists = sorted(product(numbers, repeat=length))
            words = [word(vertices) for vertices in lists]
            self.assertTrue(all(a < b for a, b in zip(words, words[1:])), length)
            self.assertLess(words[-1], 1 << 64)

    def test_sheets_read_back(self):
        for data in random_sheets(1, 100):
            sheet = parse(data, 48)
            self.assertEqual(layout(sheet.sections), data)
            facets = [cell for section in sheet.sections for cell in section]
            self.assertEqual(from_facets(facets), data)

    def test_no_facets_of_wrong_shape(self):
        for facet in ((), (1, 1), (0, 1, 2, 3, 4), (65536,), (-1,)):
            self.assertRaises(ValueError, closure, [facet])

    def test_dump_is_readable(self):
        text = dump(parse(EDGE, 48))
        self.assertEqual(text, "counts 2, 1, 0, 0\ndimension 0:\n  0\n  1\ndimension 1:\n"
                               "  0-1\ndimension 2: none\ndimension 3: none\n")


class Boundaries(unittest.TestCase):
    def test_signs(self):
        sheet = parse(from_facets([(0, 1, 2, 3)]), 48)
        self.assertEqual(boundary(sheet, 1)[0], [-1, -1, -1, 0, 0, 0])
        self.assertEqual([row[0] for row in boundary(sheet, 2)], [1, -1, 0, 1, 0, 0])
        self.assertEqual(boundary(sheet, 3), [[-1], [1], [-1], [1]])

    def test_sides(self):
        sheet = parse(HOLLOW, 48)
        self.assertEqual(boundary(sheet, 0), [])
        self.assertEqual(boundary(sheet, 2), [[], [], []])
        self.assertEqual(boundary(sheet, 4), [])

    def test_boundary_of_a_boundary_is_zero(self):
        for data in random_sheets(2, 60):
            sheet = parse(data, 48)
            for p in range(1, 4):
                twice = multiply(boundary(sheet, p), boundary(sheet, p + 1), sheet.count(p + 1))
                self.assertFalse(any(map(any, twice)))
