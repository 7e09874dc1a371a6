#!/usr/bin/env python3
"""Compares the peak of the library's report call and its bits with the model: the starred sheets of 01, doubling towers, sheets where one matrix
alone holds the peak, those of tests/compare_library.py, known complexes and random ones.

Each dimension of an accepted sheet is asked for with slices of the lengths that check 9 wants, and with others. The call is held to its answer, its
peak, its bits and both slices; after a refusal the peak and the bits must be as they were lent."""

import argparse
import random
import struct
from array import array
from collections import Counter
from dataclasses import dataclass
from pathlib import Path

from compare_library import CHANGES, EXACT, SLOT, WORK_SLOT, lengths, sheets_to_compare
from drivers import Expected, count_differing
from make_sheets import random_sheets
from model import headroom, homology, meshes
from model.calls import library_headroom
from model.peak_cases import CASES
from model.sheet import DIMENSIONS, LIBRARY_COUNT_LIMIT, LOOSE_NODE, from_facets, layout, parse, refusal

DRIVER = Path("target/host/headroom_driver")
PEAK_SLOT, BITS_SLOT = struct.unpack("<QI", b"\xa5" * 12)
DONE = 0
ANSWERS = [*range(10), 13, LOOSE_NODE]
MOST_BITS = 20


@dataclass(frozen=True)
class Call:
    """A call on a sheet, by its name, and what the model has it answer and leave."""

    name: str
    data: bytes
    p: int
    report_slots: int
    work_slots: int

    def due(self):
        """The answer, both slices, the peak and its bits."""
        return library_headroom(self.data, self.p, [SLOT] * self.report_slots, [WORK_SLOT] * self.work_slots, PEAK_SLOT, BITS_SLOT)

    def expected(self, due):
        """The request, and what the driver is to write."""
        number, report, work, peak, bits = due
        head = struct.pack("<4I", len(self.data), self.p, self.report_slots, self.work_slots)
        written = struct.pack("<IQI", number, peak, bits) + array("q", report).tobytes() + array("i", work).tobytes()
        title = f"{self.name}, dimension {self.p}" + (f", peak {peak} of {bits} bits" if number == DONE else "")
        return Expected(title, head + self.data, number, written)


def starred():
    """The starred sheets of 01, by name."""
    edge = [[(0,), (1,)], [(0, 1)], [], []]
    facets = {"no cells": [], "one vertex": [(0,)], "edge": [(0, 1)], "hollow triangle": meshes.hollow_triangle(),
              "filled triangle": meshes.filled_triangle()}
    refused = {"15 bytes": layout(edge)[:15], "edge without vertex 1": layout([[(0,)], *edge[1:]]),
               "edge written 1, 0": layout([edge[0], [(1, 0)], [], []])}
    return {**{name: from_facets(cells) for name, cells in facets.items()}, **refused}


def case_name(held):
    """The name of a way to hold the peak."""
    return f"{held.matrix} alone, {'at the end' if held.at_end else 'on the way'}"


def sheets():
    """Every sheet by name."""
    named = {name: facets for name, (facets, _) in meshes.known().items()}
    towers = {f"tower {floors}": meshes.tower(floors) for floors in range(1, 21)}
    cases = {case_name(held): facets for held, (_, facets) in CASES.items()}
    return {**starred(), **{name: from_facets(facets) for name, facets in {**cases, **towers, **named}.items()},
            **sheets_to_compare(random.Random(5)), **random_sheets(random.Random(6), 150)}


def wrong_cases():
    """The names of the stored sheets whose peak is not held as it should be, by the model."""
    wrong = []
    for held, (p, facets) in CASES.items():
        found = homology.classes(parse(from_facets(facets), LIBRARY_COUNT_LIMIT), p)
        if headroom.holding(found.first, found.second) != held:
            wrong.append(case_name(held))
    return wrong


def calls(rng, name, data):
    """The calls to make on a sheet."""
    accepted = refusal(data, LIBRARY_COUNT_LIMIT) == 0
    for p in range(DIMENSIONS + 1) if accepted else [rng.randrange(DIMENSIONS + 1)]:
        for change in (EXACT, rng.choice(CHANGES)):
            yield Call(name, data, p, *lengths(data, p, homology.report_slots, change))


def compare(driver, name, data, rng):
    """How many calls on a sheet differ, and how often each answer and each number of bits is due."""
    made = [(call, call.due()) for call in calls(rng, name, data)]
    told = Counter(("answer", due[0]) for _, due in made)
    told.update(("bits", due[4]) for _, due in made if due[0] == DONE)
    return count_differing(driver, [call.expected(due) for call, due in made]), told


def missing(told):
    """The answers and the numbers of bits that were never due."""
    wanted = [("answer", number) for number in ANSWERS] + [("bits", bits) for bits in range(MOST_BITS + 1)]
    return [each for each in wanted if not told[each]]


def summary(told, kind):
    """How often each number of a kind was due."""
    return ", ".join(f"{each[1]} in {told[each]} calls" for each in sorted(told) if each[0] == kind)


def main():
    """Exits with 1 where a call differs, where a stored sheet's peak is held otherwise, or where an answer or a number of bits was never due."""
    parser = argparse.ArgumentParser(description=__doc__, formatter_class=argparse.RawDescriptionHelpFormatter)
    parser.add_argument("--driver", type=Path, default=DRIVER, metavar="FILE", help="the built driver (target/host/headroom_driver)")
    parser.add_argument("--sheet", metavar="NAME", help="one sheet alone")
    options = parser.parse_args()
    rng, chosen = random.Random(7), sheets()
    if options.sheet:
        chosen = {options.sheet: chosen[options.sheet]}
    wrong, told = 0, Counter()
    for name, data in chosen.items():
        differing, due = compare(options.driver, name, data, rng)
        wrong += differing
        told.update(due)
    faults = wrong_cases()
    unseen = [] if options.sheet else missing(told)
    print(f"answers: {summary(told, 'answer')}")
    print(f"bits: {summary(told, 'bits')}")
    print(f"{len(CASES)} sheets where one matrix alone holds the peak, {len(faults)} where it does not")
    print(f"{len(chosen)} sheets, {sum(told['answer', number] for number in ANSWERS)} calls, {wrong} differ")
    if faults:
        print("does not hold:", faults)
    if unseen:
        print("never due:", unseen)
    raise SystemExit(1 if wrong or faults or unseen else 0)


if __name__ == "__main__":
    main()
