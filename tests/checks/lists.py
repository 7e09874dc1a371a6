"""Checks of the call for many chains: Note 1 in 02."""

import random
import struct
import unittest
from itertools import product

from checks.common import EDGE, FILLED, HOLLOW, answer, random_sheets
from checks.homology import RefusalOrder
from model import calls, list_cases, meshes
from model.homology import coordinate_lists, coordinates, work_slots
from model.sheet import TRIAL, from_facets, parse

LOOP, BACK, OPEN = [1, -1, 1], [-2, 2, -2], [1, 0, 0]
WIDE, WIDE_OPEN = [32768, -32768, 32768], [-32768, 0, 0]


class Lists(unittest.TestCase):
    def told(self, *chains, data=HOLLOW, p=1):
        """The answer to a call for these chains."""
        return answer(coordinate_lists, data, p, len(chains), list_cases.joined(chains))

    def test_values_of_01(self):
        found = coordinate_lists(HOLLOW, 1, 3, [-1, 1, -1, 0, 0, 0, 2, -2, 2])
        self.assertEqual((found.apart, found.lists), (3, [[-1], [0], [2]]))
        found = coordinate_lists(EDGE, 0, 2, [4, 3, 0, -1])
        self.assertEqual((found.apart, found.lists), (2, [[7], [-1]]))
        found = coordinate_lists(FILLED, 1, 2, [1, -1, 1, 0, 0, 0])
        self.assertEqual((found.apart, found.lists), (3, [[], []]))

    def test_lists_are_those_of_single_calls(self):
        rng = random.Random(12)
        for data in random_sheets(12, 40) + [from_facets(f) for f, _ in meshes.known().values()]:
            for p in range(4):
                chains = list_cases.Chains(rng, data, p, 256).cycles(rng.randint(0, 5))
                found = coordinate_lists(data, p, len(chains), list_cases.joined(chains))
                due = [coordinates(data, p, chain) for chain in chains]
                self.assertEqual(found.lists, due if found.apart else [])

    def test_the_first_faulty_chain_decides(self):
        self.assertEqual(self.told(LOOP, BACK), 0)
        self.assertEqual(self.told(OPEN, WIDE), 12)
        self.assertEqual(self.told(WIDE, OPEN), 11)
        self.assertEqual(self.told(WIDE_OPEN), 11)
        self.assertEqual(self.told(LOOP, WIDE_OPEN, OPEN), 11)
        self.assertEqual(self.told(LOOP, OPEN, WIDE_OPEN), 12)
        self.assertEqual(self.told(LOOP, BACK, OPEN), 12)
        self.assertEqual(self.told([1, 2], [1, 32768], [1, 2], data=EDGE, p=0), 11)

    def test_no_cells_take_any_number(self):
        for number in (0, 1, 2 ** 32 - 1, 2 ** 64 - 1):
            self.assertEqual(coordinate_lists(HOLLOW, 2, number, [], coordinate_length=0).lists, [])
            self.assertEqual(answer(coordinate_lists, HOLLOW, 2, number, [0]), 10)
            self.assertEqual(answer(coordinate_lists, HOLLOW, 2, number, None), 10)

    def test_products_do_not_wrap(self):
        third = pow(3, -1, 2 ** 64)
        self.assertEqual(3 * third % 2 ** 64, 1)
        for number in (third, 2 ** 61, 2 ** 63, 2 ** 64 - 1):
            for slots, due in ((1, 9), (3 * number - 1, 9), (3 * number, 10)):
                told = answer(coordinate_lists, HOLLOW, 1, number, [0], coordinate_length=slots)
                self.assertEqual(told, due)
        four = from_facets(meshes.sphere(2))
        self.assertEqual(answer(coordinate_lists, four, 0, 2 ** 62, [], coordinate_length=0), 9)
        self.assertEqual(answer(coordinate_lists, four, 0, 2 ** 62, []), 10)

    def test_cases_have_the_answers_due(self):
        rng = random.Random(13)
        seen = set()
        for data in random_sheets(13, 12) + [HOLLOW, from_facets([])]:
            for p in range(4):
                for case in list_cases.cases(rng, data, p, 256, 64, 15):
                    told = answer(coordinate_lists, data, p, case.number, case.chains,
                                  coordinate_length=case.slots)
                    self.assertEqual(told, case.due, case.name)
                    seen.add((told, case.number == 0, parse(data, 256).count(p) == 0))
        due = {(told, False, False) for told in (0, 9, 10, 11, 12)}
        due |= {(told, True, False) for told in (0, 10)}
        due |= {(told, none, True) for told in (0, 10) for none in (False, True)}
        self.assertEqual(seen, due)

    def test_wrapping_numbers_wrap(self):
        for n, bits in product((1, 2, 3, 8, 15, 48, 256), (32, 64)):
            pairs = list(list_cases.wrapping_numbers(n, bits))
            for number, rest in pairs:
                powers = [2 ** power for power in range(29, bits + 1)]
                self.assertTrue(any(number * n % power == rest < number * n for power in powers))
            words = [number for number, rest in pairs
                     if number < 2 ** bits and number * n % 2 ** bits == rest]
            self.assertEqual(bool(words), n > 1, (n, bits))

    def test_lengths_of_check_9(self):
        work = work_slots(parse(HOLLOW, 48), 1)
        for slots, room, due in ((6, work, 0), (5, work, 9), (3, work, 9), (6, work - 1, 9)):
            told = answer(coordinate_lists, HOLLOW, 1, 2, [0] * 6, coordinate_length=slots,
                          work_length=room)
            self.assertEqual(told, due)
        told = [answer(coordinate_lists, HOLLOW, 1, 0, [], coordinate_length=0, work_length=room)
                for room in (work, work - 1)]
        self.assertEqual(told, [0, 9])


class ListSlices(unittest.TestCase):
    def test_library_slices(self):
        chains = [*LOOP, *BACK]
        done = calls.library_coordinate_lists(HOLLOW, 1, 2, chains, [9] * 8, [5] * 30)
        self.assertEqual(done, (0, [1, 9, 9, -2, 9, 9, 9, 9], [0] * 30))
        done = calls.library_coordinate_lists(EDGE, 0, 2, [4, 3, 1, 1], [9] * 4, [5] * 10)
        self.assertEqual(done, (0, [7, 9, 2, 9], [0] * 10))
        for number, chains, slots, due in ((2, chains, 5, 9), (2, LOOP, 6, 10), (1, chains, 6, 10),
                                           (2, LOOP + WIDE, 6, 11), (2, LOOP + OPEN, 6, 12)):
            found = calls.library_coordinate_lists(HOLLOW, 1, number, chains, [9] * slots, [5] * 30)
            self.assertEqual(found, (due, [9] * slots, [5] * 30))

    def test_no_chains_write_nothing(self):
        done = calls.library_coordinate_lists(HOLLOW, 1, 0, [], [9] * 4, [5] * 27)
        self.assertEqual(done, (0, [9] * 4, [0] * 27))
        refused = calls.library_coordinate_lists(HOLLOW, 1, 0, [0] * 3, [9] * 4, [5] * 27)
        self.assertEqual(refused, (10, [9] * 4, [5] * 27))

    def test_too_wide_clears_the_work_slice(self):
        data = from_facets(meshes.tower(1))
        for number in (0, 2):
            chains = [0] * 15 * number
            found = calls.library_coordinate_lists(data, 1, number, chains, [9] * 40, [5] * 700,
                                                   limit=1)
            self.assertEqual(found, (13, [9] * 40, [0] * 700))

    def test_host_bytes(self):
        chains, lent = struct.pack("<6i", *LOOP, *BACK), bytes(range(100, 157))
        due = struct.pack("<q", 1) + lent[8:24] + struct.pack("<q", -2) + lent[32:]
        self.assertEqual(calls.host_coordinate_lists(HOLLOW, 1, 2, chains, lent), (0, due))
        short = lent[:47]
        self.assertEqual(calls.host_coordinate_lists(HOLLOW, 1, 2, chains, short), (9, short))
        for wrong in (chains[:-1], chains + b"\0", chains[:12], chains + bytes(12), b""):
            self.assertEqual(calls.host_coordinate_lists(HOLLOW, 1, 2, wrong, lent), (10, lent))
        self.assertEqual(calls.host_coordinate_lists(HOLLOW, 2, 2 ** 32 - 1, b"", b""), (0, b""))
        self.assertEqual(calls.host_coordinate_lists(HOLLOW, 2, 2 ** 32 - 1, b"\0", b""), (10, b""))


class ListRefusalOrder(RefusalOrder):
    """The same faults, those of a chain in the second of three chains."""

    call = staticmethod(coordinate_lists)

    def setting(self, numbers):
        choices = super().setting(numbers)
        chain = choices.pop("chain")
        slots = choices.pop("coordinate_length")
        zeros = [0] * len(super().setting(set())["chain"])
        return {**choices, "number": 3, "chains": [*zeros, *chain, *zeros],
                "coordinate_length": 2 * len(zeros) + slots}


class NoChainsRefusalOrder(RefusalOrder):
    """With no chains 1 to 10, 13 and 18 apply; check 9 wants the work slice alone."""

    call = staticmethod(coordinate_lists)
    numbers = tuple(number for number in TRIAL[:-1] if number not in (11, 12))

    def setting(self, numbers):
        choices = super().setting(numbers)
        edges = len(super().setting(set())["chain"])
        del choices["chain"]
        work = work_slots(parse(super().setting(set())["data"], 256), 1)
        return {**choices, "number": 0, "chains": [0] * edges if 10 in numbers else [],
                "coordinate_length": 0, "work_length": work - 1 if 9 in numbers else work}
