"""Checks of the calls on lent slices and bytes, and of the printed text."""

import struct
import unittest

from checks.common import HOLLOW
from model import calls, meshes, sheet_cases
from model.sheet import from_facets


class Calls(unittest.TestCase):
    def test_library_slices(self):
        done = calls.library_report(HOLLOW, 1, [9] * 15, [5] * 30)
        self.assertEqual(done, (0, [1, 0, 1, -1, 1] + [9] * 10, [0] * 30))
        refused = calls.library_report(HOLLOW, 1, [9] * 13, [5] * 30)
        self.assertEqual(refused, (9, [9] * 13, [5] * 30))
        done = calls.library_coordinates(HOLLOW, 1, [2, -2, 2], [9] * 4, [5] * 27)
        self.assertEqual(done, (0, [2, 9, 9, 9], [0] * 27))
        refused = calls.library_coordinates(HOLLOW, 1, [1, 0, 0], [9] * 4, [5] * 27)
        self.assertEqual(refused, (12, [9] * 4, [5] * 27))

    def test_too_wide_clears_the_work_slice(self):
        data, lent, work = from_facets(meshes.tower(1)), [9] * 300, [5] * 700
        for number, lent_after, work_after in (
                calls.library_report(data, 1, lent, work, limit=1),
                calls.library_coordinates(data, 1, [0] * 15, lent, work, limit=1)):
            self.assertEqual((number, set(lent_after), set(work_after)), (13, {9}, {0}))

    def test_host_report_bytes(self):
        numbers = struct.pack("<5q", 1, 0, 1, -1, 1)
        for extra in (0, 7, 9):
            lent = b"\xaa" * (14 * 8 + extra)
            self.assertEqual(calls.host_report(HOLLOW, 1, lent), (0, numbers + lent[40:]))
        for length in (0, 14 * 8 - 1):
            lent = b"\xaa" * length
            self.assertEqual(calls.host_report(HOLLOW, 1, lent), (9, lent))
        self.assertEqual(calls.host_report(sheet_cases.full_in(0, 49), 0, b""), (2, b""))

    def test_host_coordinate_bytes(self):
        chain, lent = struct.pack("<3i", -1, 1, -1), b"\xaa" * 31
        due = struct.pack("<q", -1) + lent[8:]
        self.assertEqual(calls.host_coordinates(HOLLOW, 1, chain, lent), (0, due))
        self.assertEqual(calls.host_coordinates(HOLLOW, 1, chain, lent[:23]), (9, lent[:23]))
        for wrong in (chain[:-1], chain + b"\0", chain + bytes(4), b""):
            self.assertEqual(calls.host_coordinates(HOLLOW, 1, wrong, lent), (10, lent))
        self.assertEqual(calls.host_coordinates(HOLLOW, 2, b"\0", b""), (10, b""))
        self.assertEqual(calls.host_coordinates(HOLLOW, 2, b"", b""), (0, b""))

    def test_program_text(self):
        self.assertEqual(calls.program_output(HOLLOW), "H 0 1 0\nG 0 0 1\nH 1 1 0\nG 1 -1 1\n"
                                                       "H 2 0 0\nH 3 0 0\n")
        self.assertEqual(calls.program_output(b""), "R 1\n")
        self.assertEqual(calls.program_output(sheet_cases.full_in(0, 49)), "R 2\n")
        text = calls.program_output(from_facets(meshes.tower(3)), limit=7)
        self.assertEqual([line.split()[0] for line in text.splitlines()], ["H", "G", "R", "R", "H"])
        self.assertIn("\nR 13\n", text)
        text = calls.program_output(from_facets(meshes.known()["orders 2 and 3"][0]))
        self.assertIn("\nH 1 0 1 6\n", text)
