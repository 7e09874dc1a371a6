"""Checks of reports and coordinates, and of the order of refusals 1 to 13 and 18."""

import random
import unittest
from itertools import combinations

from checks.common import EDGE, FILLED, HOLLOW, answer, random_sheets, residue
from model import meshes, sheet_cases
from model.homology import classes, coordinates, report, report_slots, work_slots
from model.matrices import apply, boundary, identity, is_cycle
from model.reduction import ENTRY_LIMIT, TooWide
from model.sheet import LOOSE_NODE, TRIAL, first_tried, from_facets, parse


class Reports(unittest.TestCase):
    def test_starred(self):
        empty, vertex = from_facets([]), from_facets([(0,)])
        for p in range(4):
            self.assertEqual(report(empty, p).numbers(), [0, 0])
        self.assertEqual(report(vertex, 0).numbers(), [1, 0, 1])
        self.assertEqual(report(EDGE, 0).numbers(), [1, 0, 0, 1])
        self.assertEqual(report(HOLLOW, 1).numbers(), [1, 0, 1, -1, 1])
        self.assertEqual(report(FILLED, 1).numbers(), [0, 0])
        self.assertEqual(answer(report, HOLLOW, 4), 8)

    def test_known_homology(self):
        for name, (facets, groups) in meshes.known().items():
            data = from_facets(facets)
            found = [report(data, p) for p in range(4)]
            self.assertEqual([(each.rank, each.orders) for each in found], groups, name)

    def test_towers_at_the_limit(self):
        self.assertEqual(report(from_facets(meshes.tower(1)), 1).orders, [2])
        self.assertEqual(report(from_facets(meshes.tower(3)), 1).orders, [8])
        tall = from_facets(meshes.tower(20))
        counts = [parse(tall, 256).count(p) for p in range(4)]
        self.assertEqual(counts, [63, 243, 181, 0])
        self.assertEqual(answer(report, tall, 1), 13)
        self.assertEqual(report(tall, 1, limit=2 * ENTRY_LIMIT).orders, [1 << 20])

    def test_the_product_is_held_against_the_limit(self):
        with self.assertRaises(TooWide) as wide:
            classes(parse(EDGE, 48), 0, limit=0)
        self.assertEqual(wide.exception.where, "product")

    def test_alternating_sums_agree(self):
        for data in random_sheets(5, 60):
            sheet = parse(data, 48)
            cells = sum((-1) ** p * sheet.count(p) for p in range(4))
            self.assertEqual(cells, sum((-1) ** p * report(data, p).rank for p in range(4)))

    def test_generators_are_cycles_and_orders_divide(self):
        for data in random_sheets(6, 60):
            sheet = parse(data, 48)
            for p in range(4):
                found = report(data, p)
                self.assertEqual(len(found.generators), found.rank + len(found.orders))
                self.assertTrue(all(is_cycle(sheet, p, chain) for chain in found.generators))
                self.assertTrue(all(d > 1 for d in found.orders))
                pairs = zip(found.orders, found.orders[1:])
                self.assertTrue(all(b % a == 0 for a, b in pairs))


class Coordinates(unittest.TestCase):
    def test_starred(self):
        self.assertEqual(coordinates(EDGE, 0, [4, 3]), [7])
        self.assertEqual(coordinates(HOLLOW, 1, [-1, 1, -1]), [-1])
        self.assertEqual(coordinates(FILLED, 1, [1, -1, 1]), [])
        self.assertEqual(answer(coordinates, HOLLOW, 1, [1, 0, 0]), 12)
        self.assertEqual(answer(coordinates, HOLLOW, 4, []), 8)

    def test_coefficient_limit(self):
        for value, number in ((32767, 0), (-32767, 0), (32768, 11), (-32768, 11)):
            self.assertEqual(answer(coordinates, HOLLOW, 1, [value, -value, value]), number)
        self.assertEqual(coordinates(EDGE, 0, [32767, 32767]), [65534])

    def test_generators_have_unit_lists(self):
        for data in random_sheets(7, 40) + [from_facets(f) for f, _ in meshes.known().values()]:
            for p in range(4):
                found = report(data, p).generators
                lists = [coordinates(data, p, chain) for chain in found]
                self.assertEqual(lists, identity(len(found)))

    def test_boundaries_have_zeros(self):
        rng = random.Random(8)
        for data in random_sheets(8, 40):
            sheet = parse(data, 48)
            for p in range(4):
                above = [rng.randint(-9, 9) for _ in range(sheet.count(p + 1))]
                chain = apply(boundary(sheet, p + 1), above)
                self.assertFalse(any(coordinates(data, p, chain)))

    def test_combinations_have_sums_nearest_zero(self):
        rng = random.Random(9)
        for data in random_sheets(9, 40):
            sheet = parse(data, 48)
            for p in range(4):
                found = report(data, p)
                factors = [rng.randint(-5, 5) for _ in found.generators]
                above = [rng.randint(-2, 2) for _ in range(sheet.count(p + 1))]
                chain = apply(boundary(sheet, p + 1), above)
                for factor, generator in zip(factors, found.generators):
                    chain = [x + factor * y for x, y in zip(chain, generator)]
                orders = found.orders + [0] * found.rank
                due = [residue(x, d) if d else x for x, d in zip(factors, orders)]
                self.assertEqual(coordinates(data, p, chain), due)


class RefusalOrder(unittest.TestCase):
    """Each refusal of the coordinate call alone, and every two: the one that is tried first is told."""

    call = staticmethod(coordinates)
    numbers = TRIAL[:-1]

    def setting(self, numbers):
        draft = sheet_cases.Draft()
        faults = {number: edit for number, edit in sheet_cases.faults(256).values()}
        for number in sorted(numbers, reverse=True):
            if number in faults:
                faults[number](draft)
        edges = len(sheet_cases.Draft().sections[1])
        chain = [0] * edges
        if 12 in numbers:
            chain[0] = 1
        if 11 in numbers:
            chain[1] = -32768
        if 10 in numbers:
            chain.append(0)
        return {"data": draft.bytes(), "p": 4 if 8 in numbers else 1, "chain": chain,
                "limit": 0 if 13 in numbers else ENTRY_LIMIT,
                "coordinate_length": edges - 1 if 9 in numbers else edges}

    def test_alone_and_in_pairs(self):
        for number in self.numbers:
            self.assertEqual(answer(self.call, **self.setting({number})), number)
        for pair in combinations(self.numbers, 2):
            self.assertEqual(answer(self.call, **self.setting(set(pair))), first_tried(pair), pair)

    def test_18_is_told_after_7_and_before_8(self):
        told = [answer(self.call, **self.setting({LOOSE_NODE, number})) for number in self.numbers]
        self.assertEqual(told, [*range(1, 8), *[LOOSE_NODE] * (len(self.numbers) - 7)])

    def test_nothing_is_refused_without_a_fault(self):
        self.assertEqual(answer(self.call, **self.setting(set())), 0)


class SlicesOfCheck9(unittest.TestCase):
    def test_lengths(self):
        sheet = parse(HOLLOW, 48)
        self.assertEqual([report_slots(sheet, p) for p in range(4)], [14, 14, 2, 2])
        self.assertEqual([work_slots(sheet, p) for p in range(4)], [27, 27, 0, 0])
        for report_length, work_length, due in ((14, 27, 0), (13, 27, 9), (14, 26, 9)):
            number = answer(report, HOLLOW, 1, report_length=report_length, work_length=work_length)
            self.assertEqual(number, due)
        for length, work_length, due in ((3, 27, 0), (2, 27, 9), (3, 26, 9)):
            number = answer(coordinates, HOLLOW, 1, [0, 0, 0], coordinate_length=length,
                            work_length=work_length)
            self.assertEqual(number, due)
