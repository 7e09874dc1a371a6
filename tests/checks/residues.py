"""Checks of the coordinates of an order: Note 5 in 02."""

import random
import struct
import unittest
from collections import Counter
from itertools import combinations, product

from checks.bounding import BoundingChains
from checks.common import answer, residue
from model import calls, list_cases, meshes, residue_cases
from model.homology import COEFFICIENT_LIMIT, coordinate, coordinate_lists, coordinates, report
from model.reduction import ENTRY_LIMIT
from model.sheet import LIBRARY_COUNT_LIMIT, PROGRAM_COUNT_LIMIT, from_facets, parse, refusal

# The largest value of a row times a chain: as many products as cells, each within both limits.
LARGEST = LIBRARY_COUNT_LIMIT * ENTRY_LIMIT * COEFFICIENT_LIMIT


def less(cycle, numbers, generators):
    """The cycle less the numbers times the generators."""
    for c, generator in zip(numbers, generators):
        cycle = list_cases.plus(cycle, list_cases.times(-c, generator))
    return cycle


class Residues(unittest.TestCase):
    def test_range_of_every_order(self):
        for order in range(2, 65):
            found = {value: coordinate(order, value) for value in range(-3 * order, 3 * order + 1)}
            for value, c in found.items():
                self.assertTrue(-order < 2 * c <= order and (value - c) % order == 0, (order, value))
                self.assertEqual(c, residue(value, order))
            self.assertEqual(len(set(found.values())), order)

    def test_values_of_note_5(self):
        for order, due in ((2, {0, 1}), (3, {-1, 0, 1}), (4, {-1, 0, 1, 2}), (5, {-2, -1, 0, 1, 2}),
                           (6, {-2, -1, 0, 1, 2, 3}), (8, {-3, -2, -1, 0, 1, 2, 3, 4})):
            self.assertEqual({coordinate(order, value) for value in range(-20, 20)}, due)
        for order in (2, 4, 6, 8, 1024, 2 ** 19, ENTRY_LIMIT - 1):
            self.assertEqual(coordinate(order, order // 2), order // 2)
            self.assertEqual(coordinate(order, -order // 2), order // 2)
            self.assertEqual(coordinate(order, order // 2 + 1), 1 - order // 2)

    def test_the_largest_values(self):
        for order in (2, 3, 2 ** 19, ENTRY_LIMIT - 1, ENTRY_LIMIT):
            for value in (LARGEST, -LARGEST, LARGEST - order // 2, order // 2 - LARGEST):
                c = coordinate(order, value)
                self.assertTrue(-order < 2 * c <= order and (value - c) % order == 0, (order, value))

    def test_equal_exactly_when_congruent(self):
        for order in range(2, 13):
            for a, b in combinations(range(-2 * order, 2 * order + 1), 2):
                same = coordinate(order, a) == coordinate(order, b)
                self.assertEqual(same, (a - b) % order == 0, (order, a, b))

    def test_readings_of_01_and_of_note_5(self):
        for order in range(2, 40):
            for value in range(-2 * order, 2 * order):
                old, new = value % order, coordinate(order, value)
                self.assertEqual(old, new if new >= 0 else new + order)
                self.assertEqual(new, old if 2 * old <= order else old - order)
            self.assertEqual(order == 2, all(coordinate(order, old) == old for old in range(order)))

    def test_free_rows_are_kept(self):
        for value in (0, 1, -1, 7, LARGEST, -LARGEST):
            self.assertEqual(coordinate(0, value), value)


class TwistedLoops(unittest.TestCase):
    def test_a_loop_run_backwards(self):
        for order, back in ((2, 1), (3, -1), (4, -1), (5, -1), (6, -1)):
            data = from_facets(meshes.moore_space(order))
            loop, = report(data, 1).generators
            self.assertEqual(coordinates(data, 1, loop), [1])
            self.assertEqual(coordinates(data, 1, list_cases.times(-1, loop)), [back])
            turns = [coordinates(data, 1, list_cases.times(k, loop)) for k in range(order)]
            self.assertEqual(turns, [[k if 2 * k <= order else k - order] for k in range(order)])

    def test_cases_have_the_coordinates_due(self):
        for case in residue_cases.small():
            found = report(case.data, case.p)
            places = {f"generator {i}": [i] for i in range(len(case.orders))}
            places["all generators"] = range(len(found.generators))
            orders = found.orders + [0] * found.rank
            for name, cycle in case.cycles.items():
                k, generator = name.split(" times ")
                due = [int(k) if i in places[generator] else 0 for i in range(len(orders))]
                due = [residue(x, d) if d else x for x, d in zip(due, orders)]
                self.assertEqual(coordinates(case.data, case.p, cycle), due, (case.name, name))

    def test_cases_are_within_their_limits(self):
        for case in residue_cases.small():
            self.assertEqual(refusal(case.data, PROGRAM_COUNT_LIMIT), 0, case.name)
            largest = max(list_cases.size(cycle) for cycle in case.cycles.values())
            self.assertEqual(largest, COEFFICIENT_LIMIT, case.name)
        tower = residue_cases.tower(5)
        for name, cycle in tower.cycles.items():
            self.assertEqual(answer(coordinates, tower.data, tower.p, cycle), 0, name)

    def test_lists_and_bytes_hold_the_same(self):
        for case in residue_cases.small():
            each, joined = list(case.cycles.values()), list_cases.joined(case.cycles.values())
            found = coordinate_lists(case.data, case.p, len(each), joined)
            self.assertEqual(found.lists, [coordinates(case.data, case.p, cycle) for cycle in each])
            given, lent = struct.pack(f"<{len(joined)}i", *joined), bytes(8 * len(joined))
            number, written = calls.host_coordinate_lists(case.data, case.p, len(each), given, lent)
            slots = struct.unpack(f"<{len(joined)}q", written)
            self.assertEqual((number, {at: slots[at] for at in found.slots()}), (0, found.slots()))

    def test_a_loop_run_backwards_in_bytes(self):
        data = from_facets(meshes.moore_space(3))
        loop, = report(data, 1).generators
        back = struct.pack(f"<{len(loop)}i", *list_cases.times(-1, loop))
        number, written = calls.host_coordinates(data, 1, back, b"\0" * 8 * len(loop))
        self.assertEqual((number, written[:16]), (0, b"\xff" * 8 + b"\0" * 8))

    def test_equality_of_lists_decides_classes(self):
        rng, seen = random.Random(14), set()
        for case in residue_cases.small():
            bounding = BoundingChains(parse(case.data, PROGRAM_COUNT_LIMIT), case.p)
            generators = report(case.data, case.p).generators
            chains = list_cases.Chains(rng, case.data, case.p, PROGRAM_COUNT_LIMIT)
            cycles = rng.sample(list(case.cycles.values()), 8) + chains.cycles(6)
            lists = [coordinates(case.data, case.p, cycle) for cycle in cycles]
            for (a, x), (b, y) in combinations(zip(lists, cycles), 2):
                bounds = bounding.holds(list_cases.plus(x, list_cases.times(-1, y)))
                self.assertEqual(a == b, bounds, case.name)
                seen.add(bounds)
            for numbers, cycle in zip(lists, cycles):
                self.assertTrue(bounding.holds(less(cycle, numbers, generators)), case.name)
        self.assertEqual(seen, {False, True})

    def test_no_other_residues_leave_a_boundary(self):
        for case in residue_cases.small():
            bounding = BoundingChains(parse(case.data, PROGRAM_COUNT_LIMIT), case.p)
            generators = report(case.data, case.p).generators
            ranges = [[c for c in range(-d, d + 1) if -d < 2 * c <= d] for d in case.orders]
            for cycle in list(case.cycles.values())[::9]:
                numbers = coordinates(case.data, case.p, cycle)
                free = numbers[len(case.orders):]
                left = [each for each in product(*ranges)
                        if bounding.holds(less(cycle, [*each, *free], generators))]
                self.assertEqual(left, [tuple(numbers[:len(case.orders)])], case.name)

    def test_every_coordinate_is_met(self):
        met = Counter()
        for case in [*residue_cases.small(), residue_cases.tower(5)]:
            lists = coordinate_lists(case.data, case.p, len(case.cycles),
                                     list_cases.joined(case.cycles.values())).lists
            met.update((kind, order, c) for numbers in lists for order, c in zip(case.orders, numbers)
                       for kind in "CL")
        self.assertEqual(residue_cases.never_met(met, [32]), [])
        self.assertTrue(all(residue_cases.in_range(order, c) for _, order, c in met))
        for lost in (("C", 5, -2), ("L", 6, 3), ("L", 32, -15), ("C", 32, 16)):
            self.assertEqual(residue_cases.never_met(met - Counter({lost: met[lost]}), [32]), [lost])
