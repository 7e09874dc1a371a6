"""Checks of Note 7 in 02: refusal 18, and the sweep call."""

import struct
import unittest

from checks.common import EDGE, HOLLOW, answer, random_sheets
from model import calls, loose_cases, sheet_cases
from model.homology import coordinate_lists, coordinates, report
from model.meshes import known
from model.sheet import Sheet, first_tried, from_facets, layout, loose_vertices, parse, read_cells, refusal
from model.surface import surface
from model.sweep import sweep

TWO_VERTICES = from_facets([(0,), (1,)])
EDGE_AND_VERTEX = from_facets([(0, 1), (2,)])
MOST = 10 ** 6


class LooseNodes(unittest.TestCase):
    def told(self, data, p=0):
        """The answers of every call on a sheet in a dimension, each with slices that are long enough."""
        return [answer(report, data, p), answer(coordinates, data, p, []), answer(coordinate_lists, data, p, 0, []), answer(surface, data, p, [])]

    def test_two_vertices_and_no_edge_are_accepted(self):
        self.assertEqual((refusal(TWO_VERTICES, 48), refusal(TWO_VERTICES, 256)), (0, 0))
        self.assertEqual(report(TWO_VERTICES, 0).rank, 2)
        self.assertEqual(calls.program_output(TWO_VERTICES).splitlines()[0], "H 0 2 0")

    def test_an_edge_and_a_vertex_are_refused_in_every_call_and_in_the_program(self):
        for p in (0, 1, 2, 3, 4, 2 ** 32 - 1):
            self.assertEqual(self.told(EDGE_AND_VERTEX, p), [18] * 4)
        self.assertEqual(calls.program_output(EDGE_AND_VERTEX), "R 18\n")
        self.assertEqual(calls.host_report(EDGE_AND_VERTEX, 0, b"\xaa" * 9), (18, b"\xaa" * 9))
        self.assertEqual(calls.library_report(EDGE_AND_VERTEX, 0, [9] * 3, [5] * 4), (18, [9] * 3, [5] * 4))

    def test_7_and_18_in_one_sheet_give_7(self):
        data = layout([[(0,), (5,)], [(0, 1)], [], []])
        self.assertEqual(self.told(data, 4), [7] * 4)
        self.assertEqual(calls.program_output(data), "R 7\n")
        self.assertEqual(answer(sweep, data, 48, MOST), 7)

    def test_18_and_a_dimension_above_3_give_18(self):
        self.assertEqual(self.told(EDGE, 4), [8] * 4)
        self.assertEqual(self.told(EDGE_AND_VERTEX, 4), [18] * 4)

    def test_loose_vertices_are_those_of_no_cell_above_them(self):
        for data in random_sheets(22, 60) + random_sheets(22, 60, loose=True):
            sheet = read_cells(data, 48)
            used = {v for p in (1, 2, 3) for cell in sheet.cells(p) for v in cell}
            due = [(v,) for v, in sheet.cells(0) if used and v not in used]
            self.assertEqual(loose_vertices(sheet.sections), due)
            self.assertEqual(refusal(data, 48), 18 if due else 0)

    def test_known_complexes_have_no_loose_nodes(self):
        for name, (facets, _) in known().items():
            self.assertEqual(refusal(from_facets(facets), 256), 0, name)


class Sweeps(unittest.TestCase):
    def test_an_edge_and_a_vertex_byte_for_byte(self):
        self.assertEqual(struct.unpack("<13H", EDGE_AND_VERTEX), (3, 16, 1, 22, 0, 26, 0, 26, 0, 1, 2, 0, 1))
        due = struct.pack("<12H", 2, 16, 1, 20, 0, 24, 0, 24, 0, 1, 0, 1)
        self.assertEqual(sweep(EDGE_AND_VERTEX, 48, 24), due)
        self.assertEqual(due, EDGE)

    def test_slices(self):
        for limit in (48, 256):
            for length in range(30):
                lent = bytes(range(100, 100 + length))
                after = EDGE + lent[24:] if length >= 24 else lent
                self.assertEqual(calls.sweep_call(EDGE_AND_VERTEX, lent, limit), (0 if length >= 24 else 16, after))
        self.assertEqual(calls.sweep_call(from_facets([]), b"", 48), (16, b""))
        self.assertEqual(calls.sweep_call(b"", b"", 48), (1, b""))

    def test_a_vertex_before_and_one_between_is_dropped(self):
        self.assertEqual(sweep(from_facets([(5, 9), (2,)]), 48, MOST), from_facets([(5, 9)]))
        self.assertEqual(sweep(from_facets([(2, 9), (5,)]), 48, MOST), from_facets([(2, 9)]))

    def test_1_to_7_are_told_and_18_is_not(self):
        for limit in (48, 256):
            cases = {**sheet_cases.damaged(limit), **sheet_cases.at_limit(limit), **loose_cases.sheets(limit)}
            seen = set()
            for name, (data, due) in cases.items():
                seen.add(due)
                self.assertEqual(answer(sweep, data, limit, MOST), 0 if due == 18 else due, name)
                self.assertEqual(answer(sweep, data, limit, 0), 16 if due in (0, 18) else due, name)
            self.assertEqual(seen, {*range(8), 18})

    def test_what_is_written_is_accepted_and_has_the_other_cells(self):
        for limit in (48, 256):
            for name, (data, due) in loose_cases.sheets(limit).items():
                if due in (0, 18):
                    self.check_sweep(data, limit, name)
        for data in random_sheets(23, 100) + random_sheets(24, 100, loose=True):
            self.check_sweep(data, 48, "")

    def check_sweep(self, data, limit, name):
        swept = sweep(data, limit, len(data))
        before, after = read_cells(data, limit), parse(swept, limit)
        used = {v for edge in before.cells(1) for v in edge}
        kept = tuple(cell for cell in before.cells(0) if not used or cell[0] in used)
        self.assertEqual(after, Sheet((kept, *before.sections[1:])), name)
        self.assertEqual(swept == data, refusal(data, limit) == 0, name)
        self.assertEqual(sweep(swept, limit, len(swept)), swept, name)

    def test_several_vertices_are_dropped(self):
        loose = from_facets([(0, 1), (0, 2), (1, 2), (3,), (65535,)])
        self.assertEqual(sweep(loose, 48, MOST), HOLLOW)

    def test_a_sheet_above_the_limit_is_refused_though_the_sweep_would_bring_it_below(self):
        for limit in (48, 256):
            data, = [from_facets(facets) for facets in loose_cases.above_limit(limit).values()]
            self.assertEqual(answer(sweep, data, limit, MOST), 2)
            self.assertEqual([len(section) for section in read_cells(sweep(data, limit + 1, MOST), limit).sections], [limit, limit - 1, 0, 0])


class OrderOfTrial(unittest.TestCase):
    def test_first_tried(self):
        self.assertEqual([first_tried(pair) for pair in ((7, 18), (18, 8), (1, 18), (13, 17), (18, 17))], [7, 18, 1, 13, 18])
