"""Checks of the peak of Note 4 and of its bits."""

import unittest

from checks.common import EDGE, FILLED, HOLLOW, answer, random_sheets
from model import calls, headroom, meshes
from model.homology import classes, report
from model.matrices import identity
from model.peak_cases import CASES
from model.reduction import TooWide, reduce
from model.sheet import from_facets, parse

# The place of an entry that is too wide, as the reduction names it.
PLACES = {
    "first matrix": "matrix", "V": "column follower", "inverse of V": "inverse of the column follower",
    "second matrix": "matrix", "Q": "row follower", "G": "inverse of the row follower",
}


def some_sheets():
    """Random sheets, known complexes and those where one matrix alone holds the peak."""
    named = [facets for facets, _ in meshes.known().values()] + [facets for _, facets in CASES.values()]
    return random_sheets(11, 40) + [from_facets(facets) for facets in named]


class Headroom(unittest.TestCase):
    def test_starred(self):
        for data, peaks in ((from_facets([]), [0, 0, 0, 0]), (from_facets([(0,)]), [1, 0, 0, 0]),
                            (EDGE, [1, 1, 0, 0]), (HOLLOW, [1, 1, 0, 0]), (FILLED, [1, 1, 1, 0])):
            self.assertEqual([report(data, p).peak for p in range(4)], peaks)

    def test_bits(self):
        numbers = (0, 1, 2, 3, 4, 7, 8, 524287, 524288, 1048575)
        self.assertEqual([headroom.bits(n) for n in numbers], [0, 1, 2, 2, 3, 3, 4, 19, 20, 20])

    def test_entries_worked_by_hand(self):
        done = reduce([[2], [-3]], 2, 1, row=identity(2), row_inverse=identity(2))
        self.assertEqual([headroom.whole(done.held[name]) for name in ("matrix", "row", "row_inverse")],
                         [(-3, 2), (-3, 2), (-3, 2)])
        done = reduce([[1, 5], [3, -2]], 2, 2, column=identity(2), column_inverse=identity(2))
        self.assertEqual(headroom.whole(done.held["matrix"]), (-17, 17))
        self.assertEqual(done.matrix, [[1, 0], [0, 17]])
        self.assertEqual(headroom.whole(done.held["column"]), (-5, 1))
        self.assertEqual(headroom.whole(done.held["column_inverse"]), (0, 5))

    def test_none_without_cells(self):
        for data in some_sheets():
            sheet = parse(data, 256)
            for p in range(4):
                self.assertEqual(report(data, p).peak == 0, sheet.count(p) == 0)

    def test_peak_is_the_least_limit_that_is_not_too_wide(self):
        towers = [from_facets(meshes.tower(floors)) for floors in range(1, 7)]
        for data in some_sheets() + towers:
            for p in range(4):
                peak = report(data, p).peak
                if peak > 1:
                    self.assertEqual(answer(report, data, p, limit=peak), 0)
                    self.assertEqual(answer(report, data, p, limit=peak - 1), 13)

    def test_reports_stay_within_the_peak(self):
        for data in some_sheets():
            for p in range(4):
                found = report(data, p)
                numbers = found.orders + [x for generator in found.generators for x in generator]
                self.assertLessEqual(max(map(abs, numbers), default=0), found.peak)

    def test_each_matrix_alone_can_hold_the_peak(self):
        self.assertEqual({held.matrix for held in CASES}, set(PLACES))
        for held, (p, facets) in CASES.items():
            sheet = parse(from_facets(facets), 256)
            found = classes(sheet, p)
            self.assertEqual(headroom.holding(found.first, found.second), held)
            with self.assertRaises(TooWide) as wide:
                classes(sheet, p, headroom.peak(found.first, found.second) - 1)
            self.assertEqual(wide.exception.where, PLACES[held.matrix])

    def test_refused_calls_carry_nothing(self):
        done = calls.library_headroom(HOLLOW, 1, [9] * 14, [5] * 27, 77, 88)
        self.assertEqual(done, (0, [1, 0, 1, -1, 1] + [9] * 9, [0] * 27, 1, 1))
        refused = calls.library_headroom(HOLLOW, 1, [9] * 13, [5] * 27, 77, 88)
        self.assertEqual(refused, (9, [9] * 13, [5] * 27, 77, 88))
        wide = calls.library_headroom(from_facets(meshes.tower(1)), 1, [9] * 300, [5] * 700, 77, 88, limit=1)
        self.assertEqual(wide, (13, [9] * 300, [0] * 700, 77, 88))
