"""Checks of the surface call: Note 6 in 02."""

import random
import struct
import unittest
from collections import Counter
from itertools import combinations

from checks.bounding import BoundingChains
from checks.common import EDGE, FILLED, HOLLOW, answer, random_sheets
from checks.homology import RefusalOrder
from model import calls, headroom, homology, meshes, sheet_cases, surface_chains
from model.homology import Classes, coordinates, report
from model.list_cases import times
from model.matrices import apply, boundary, identity
from model.reduction import ENTRY_LIMIT, TooWide, reduce
from model.sheet import PROGRAM_COUNT_LIMIT, TRIAL, first_tried, from_facets, parse, refusal
from model.surface import bounded_surface, surface, surface_slots, work_slots
from model.surface_cases import LOOP, with_faults
from model.wide_surfaces import CASES

SOLID = from_facets([(0, 1, 2, 3)])
PLANE = from_facets(meshes.projective_plane())


def known_sheets():
    """The complexes within 48 cells whose homology is known."""
    sheets = [from_facets(facets) for facets, _ in meshes.known().values()]
    return [data for data in sheets if refusal(data, PROGRAM_COUNT_LIMIT) == 0]


def largest_tracked(found):
    """The largest absolute value that the tracked columns have held."""
    return headroom.largest(headroom.whole(found.second.held["column"]))


class Surfaces(unittest.TestCase):
    def test_triangles(self):
        self.assertEqual(surface(FILLED, 1, LOOP), [1])
        self.assertEqual(surface(FILLED, 1, times(-15, LOOP)), [-15])
        self.assertEqual(surface(FILLED, 1, [0, 0, 0]), [0])
        self.assertEqual(answer(surface, HOLLOW, 1, LOOP), 17)
        self.assertEqual(surface(HOLLOW, 1, [0, 0, 0]), [])
        self.assertEqual(answer(surface, FILLED, 1, [1, 0, 0]), 12)

    def test_the_loop_of_a_projective_plane_bounds_when_run_twice(self):
        loop, = report(PLANE, 1).generators
        for times_run in range(-6, 7):
            chain = times(times_run, loop)
            self.assertEqual(answer(surface, PLANE, 1, chain), 17 if times_run % 2 else 0)
            if times_run % 2 == 0:
                found = surface(PLANE, 1, chain)
                self.assertEqual({abs(x) for x in found}, {abs(times_run) // 2})
                self.assertEqual(apply(boundary(parse(PLANE, 48), 2), found), chain)

    def test_dimension_0(self):
        self.assertEqual(surface(EDGE, 0, [-1, 1]), [1])
        self.assertEqual(surface(EDGE, 0, [7, -7]), [-7])
        self.assertEqual(answer(surface, EDGE, 0, [1, 0]), 17)
        self.assertEqual(answer(surface, EDGE, 0, [4, 3]), 17)
        apart = from_facets([(0, 1), (2, 3)])
        self.assertEqual(surface(apart, 0, [-1, 1, 2, -2]), [1, -2])
        self.assertEqual(answer(surface, apart, 0, [-1, 0, 1, 0]), 17)

    def test_pivots_worked_by_hand(self):
        # Q is -1 0 0, -1 -1 0, 1 1 1, the tracked columns are 1 0 0, -1 1 0, 1 -1 1, and both pivots are 1.
        self.assertEqual(surface(HOLLOW, 0, [-1, 1, 0]), [1, 0, 0])
        self.assertEqual(surface(HOLLOW, 0, [-1, 0, 1]), [0, 1, 0])
        self.assertEqual(surface(HOLLOW, 0, [0, -1, 1]), [-1, 1, 0])
        self.assertEqual(answer(surface, HOLLOW, 0, [0, 0, 1]), 17)

    def test_a_pivot_above_1_worked_by_hand(self):
        # The row transform is 1 1, 3 2, the column transform -1 3, 1 -2, and the pivots are 1 and 6.
        second = reduce([[2, 0], [0, 3]], 2, 2, row=identity(2), column=identity(2))
        found = Classes(second.row, [], second.diagonal(), None, second)
        for chain, due in (([2, 3], [1, 1]), ([-4, 0], [-2, 0]), ([0, 3], [0, 1]), ([0, 0], [0, 0])):
            self.assertEqual(bounded_surface(found, chain), due)
        for chain in ([1, 0], [0, 1], [2, 1], [3, 3]):
            self.assertEqual(answer(bounded_surface, found, chain), 17)

    def test_dimensions_2_and_3(self):
        shell = [1, -1, 1, -1]
        self.assertEqual(surface(SOLID, 2, shell), [-1])
        self.assertEqual(answer(surface, from_facets(meshes.sphere(2)), 2, shell), 17)
        self.assertEqual(answer(surface, SOLID, 3, [1]), 12)
        self.assertEqual(surface(SOLID, 3, [0]), [])
        self.assertEqual(answer(surface, from_facets(meshes.sphere(3)), 3, [1, -1, 1, -1, 1]), 17)
        self.assertEqual(surface(from_facets(meshes.sphere(3)), 3, [0] * 5), [])
        twisted = from_facets(meshes.suspension(meshes.projective_plane()))
        shell, = report(twisted, 2).generators
        self.assertEqual([answer(surface, twisted, 2, times(k, shell)) for k in (1, 2, 3)], [17, 0, 17])
        self.assertEqual(surface(from_facets([]), 1, []), [])

    def test_coefficient_limit(self):
        for value in (15, -15, 16, -16, 17, 32767):
            chain = times(value, LOOP)
            self.assertEqual(answer(surface, FILLED, 1, chain), 0 if abs(value) <= 15 else 11)
            self.assertEqual(answer(surface, HOLLOW, 1, chain), 17 if abs(value) <= 15 else 11)
            self.assertEqual(coordinates(HOLLOW, 1, chain), [value])
        for value in (32768, -32768, 2 ** 31 - 1, -2 ** 31):
            self.assertEqual(answer(surface, FILLED, 1, times(value, LOOP)), 11)
            self.assertEqual(answer(coordinates, FILLED, 1, times(value, LOOP)), 11)
        self.assertEqual(answer(surface, EDGE, 0, [16, 0]), 11)

    def test_the_boundary_is_the_chain_and_17_where_there_is_none(self):
        rng, seen = random.Random(16), Counter()
        for data in random_sheets(16, 60) + known_sheets():
            sheet = parse(data, 256)
            for p in range(4):
                bounding = BoundingChains(sheet, p)
                for chain in surface_chains.Cycles(rng, data, p, 256).cycles(8):
                    numbers = coordinates(data, p, chain)
                    self.assertEqual(answer(surface, data, p, chain), 0 if bounding.holds(chain) else 17)
                    self.assertEqual(any(numbers), not bounding.holds(chain))
                    if not any(numbers):
                        self.check_boundary(sheet, p, surface(data, p, chain), chain)
                    seen[(p, *sorted(surface_chains.causes(report(data, p), numbers)))] += any(chain)
        due = [*((p, "free") for p in range(4)), (1, "twisted"), (2, "twisted"), (1, "free", "twisted")]
        self.assertTrue(all(seen[kind] for kind in due), seen)
        self.assertGreater(seen[0,] + seen[1,] + seen[2,], 300)

    def check_boundary(self, sheet, p, found, chain):
        self.assertEqual(len(found), sheet.count(p + 1))
        self.assertEqual(apply(boundary(sheet, p + 1), found), chain)


class TrackedColumns(unittest.TestCase):
    """13 takes in the tracked columns of the second reduction."""

    def test_the_least_limit_that_is_not_too_wide(self):
        rng, alone, before = random.Random(18), 0, 0
        towers = [from_facets(meshes.turned(meshes.closed_tower(floors))) for floors in (1, 2, 3)]
        for data in random_sheets(18, 30) + known_sheets() + towers:
            for p in range(4):
                found = homology.classes(parse(data, 256), p, tracked=True)
                peak, tracked = headroom.peak(found.first, found.second), largest_tracked(found)
                most = max(peak, tracked)
                for chain in surface_chains.Cycles(rng, data, p, 256).cycles(8 if most > 1 else 0):
                    due = 17 if any(coordinates(data, p, chain)) else 0
                    self.assertEqual(answer(surface, data, p, chain, limit=most), due)
                    self.assertEqual(answer(surface, data, p, chain, limit=most - 1), 13)
                    self.assertEqual(answer(coordinates, data, p, chain, limit=most - 1), 13 if peak == most else 0)
                    alone += tracked > peak
                    before += due == 17
        self.assertGreater(alone, 5)
        self.assertGreater(before, 20)

    def test_tracked_columns_alone_go_too_wide(self):
        for p, facets in CASES.values():
            data = from_facets(facets)
            # The larger ones take longer than all other checks here; tests/compare_surfaces.py has them too.
            if parse(data, 256).count(p) > 150:
                continue
            cycles = surface_chains.Cycles(random.Random(21), data, p, 256).cycles(8)
            self.assertTrue(any(any(coordinates(data, p, chain)) for chain in cycles))
            self.assertEqual({answer(surface, data, p, chain) for chain in cycles}, {13})
            with self.assertRaises(TooWide) as wide:
                homology.classes(parse(data, 256), p, tracked=True)
            self.assertEqual(wide.exception.where, "column follower")

    def test_tracked_columns_change_nothing_else(self):
        for data in random_sheets(20, 20):
            for p in range(4):
                plain, tracked = [homology.classes(parse(data, 256), p, tracked=each) for each in (False, True)]
                self.assertEqual((plain.rows, plain.generators, plain.kinds), (tracked.rows, tracked.generators, tracked.kinds))
                self.assertEqual(headroom.peak(plain.first, plain.second), headroom.peak(tracked.first, tracked.second))


class SurfaceSlices(unittest.TestCase):
    def test_lengths_of_check_9(self):
        sheet = parse(FILLED, 48)
        self.assertEqual([surface_slots(sheet, p) for p in range(4)], [3, 1, 0, 0])
        self.assertEqual([work_slots(sheet, p) for p in range(4)], [36, 28, 5, 0])
        for slots, work, due in ((1, 28, 0), (0, 28, 9), (1, 27, 9), (2, 40, 0)):
            self.assertEqual(answer(surface, FILLED, 1, LOOP, surface_length=slots, work_length=work), due)

    def test_library_slices(self):
        done = calls.library_surface(FILLED, 1, times(3, LOOP), [9] * 4, [5] * 30)
        self.assertEqual(done, (0, [3, 9, 9, 9], [0] * 30))
        self.assertEqual(calls.library_surface(HOLLOW, 1, LOOP, [9] * 4, [5] * 30), (17, [9] * 4, [0] * 30))
        self.assertEqual(calls.library_surface(HOLLOW, 1, [0, 0, 0], [], [5] * 27), (0, [], [0] * 27))
        for chain, slots, work, due in ((LOOP, 0, 28, 9), (LOOP, 1, 27, 9), (LOOP[:2], 1, 28, 10), (times(16, LOOP), 1, 28, 11),
                                        ([1, 0, 0], 1, 28, 12)):
            found = calls.library_surface(FILLED, 1, chain, [9] * slots, [5] * work)
            self.assertEqual(found, (due, [9] * slots, [5] * work))
        wide = calls.library_surface(PLANE, 1, [0] * 15, [9] * 12, [5] * 800, limit=1)
        self.assertEqual(wide, (13, [9] * 12, [0] * 800))

    def test_host_bytes(self):
        chain, lent = struct.pack("<3i", -2, 2, -2), b"\xaa" * 31
        due = struct.pack("<q", -2) + lent[8:]
        self.assertEqual(calls.host_surface(FILLED, 1, chain, lent), (0, due))
        self.assertEqual(calls.host_surface(FILLED, 1, chain, lent[:8]), (0, due[:8]))
        self.assertEqual(calls.host_surface(FILLED, 1, chain, lent[:7]), (9, lent[:7]))
        self.assertEqual(calls.host_surface(HOLLOW, 1, chain, lent), (17, lent))
        for wrong in (chain[:-1], chain + b"\0", chain + bytes(4), b""):
            self.assertEqual(calls.host_surface(FILLED, 1, wrong, lent), (10, lent))
        self.assertEqual(calls.host_surface(sheet_cases.full_in(0, 49), 0, b"", b""), (2, b""))


class SurfaceRefusalOrder(RefusalOrder):
    """The faults of the coordinate call with the coefficient limit of the surface call, and 17."""

    call = staticmethod(surface)
    numbers = TRIAL

    def setting(self, numbers):
        case = with_faults(sorted(numbers - {13}), 256)
        return {"data": case.data, "p": case.p, "chain": case.chain, "limit": 0 if 13 in numbers else ENTRY_LIMIT,
                "surface_length": case.slots, "work_length": case.work}

    def test_all_faults_after_8_together(self):
        later = TRIAL[TRIAL.index(8) + 1:]
        for many in range(1, len(later) + 1):
            for numbers in combinations(later, many):
                self.assertEqual(answer(self.call, **self.setting(set(numbers))), first_tried(numbers), numbers)

    def test_each_slice_alone_is_told_before_what_is_later(self):
        for later in ((), (10,), (11,), (12,), (13,), (17,)):
            choices = self.setting(set(later))
            for short in ("surface_length", "work_length"):
                self.assertEqual(answer(surface, **{**choices, short: choices[short] - 1}), 9)
