#!/usr/bin/env python3
"""Compares the library's calls, at its count limit of 256, with the model: meshes near the limit, doubling towers, random and damaged sheets, and
every residue.

Each call is lent slices of the lengths that check 9 wants, some longer and some too short, and is held to its answer, its output and its work slice.
"""

import argparse
import random
import struct
from array import array
from collections import Counter
from dataclasses import dataclass
from pathlib import Path

from drivers import Expected, count_differing
from make_sheets import fault_sheets
from model import homology, list_cases, meshes, random_meshes, residue_cases, sheet_cases
from model.calls import library_coordinate_lists, library_coordinates, library_report, library_surface
from model.matrices import apply, boundary
from model.sheet import DIMENSIONS, LIBRARY_COUNT_LIMIT, LOOSE_NODE, PROGRAM_COUNT_LIMIT, TRIAL, Refused, from_facets, parse, refusal

DRIVER = Path("target/host/library_driver")
# The byte that the slices are lent with.
FILL = 0xa5
SLOT = struct.unpack("<q", bytes([FILL] * 8))[0]
WORK_SLOT = struct.unpack("<i", bytes([FILL] * 4))[0]
NUMBER_BITS = 64

# Changes of the lengths that check 9 wants, for the output and the work slice.
EXACT = (0, 0)
CHANGES = [(3, 5), (-1, 0), (0, -1)]

# The cases of coordinate lists that are tried on a sheet with more than 48 cells in a dimension, besides lists of cycles.
CASES_OF_LARGE_SHEETS = 20

# The floors of the doubling tower with the largest order within the entry limit.
FLOORS = 19


@dataclass(frozen=True)
class Call:
    """A call: R, C, L or S for the report, the coordinates, the coordinate lists or the surface, and what it is lent besides the sheet."""

    kind: str
    p: int
    chains: list
    output: int
    work: int
    number: int = 1
    name: str = ""
    fill: int = FILL

    def request(self, data):
        """The bytes for the driver."""
        head = struct.pack("<2IQ4I", len(data), self.p, self.number, len(self.chains), self.output, self.work, self.fill)
        return self.kind.encode() + head + data + array("i", self.chains).tobytes()

    def due(self, data):
        """The model's answer, and both slices after the call."""
        slot, work_slot = struct.unpack("<qi", bytes([self.fill] * 12))
        lent, room = [slot] * self.output, [work_slot] * self.work
        if self.kind == "R":
            return library_report(data, self.p, lent, room)
        if self.kind == "C":
            return library_coordinates(data, self.p, self.chains, lent, room)
        if self.kind == "S":
            return library_surface(data, self.p, self.chains, lent, room)
        return library_coordinate_lists(data, self.p, self.number, self.chains, lent, room)

    def expected(self, name, data):
        """The call with what the driver is to write, by the model."""
        number, lent, room = self.due(data)
        written = struct.pack("<I", number) + array("q", lent).tobytes() + array("i", room).tobytes()
        return Expected(f"{name}, {self.kind} in dimension {self.p} {self.name}".strip(), self.request(data), number, written)


def sheets_to_compare(rng):
    """Sheets by name."""
    sheets = {f"tower {floors}": from_facets(meshes.tower(floors)) for floors in (1, 3, 10, 19, 20)}
    sheets["open tower 20"] = from_facets(meshes.open_tower(20))
    sheets["256 cells of each dimension"] = sheet_cases.full(LIBRARY_COUNT_LIMIT)
    sheets.update({name: from_facets(facets) for name, facets in meshes.sized().items()})
    sheets.update({name: data for name, data in list(fault_sheets().items())[::9]})
    sheets.update({f"random {i}": from_facets(random_meshes.complex_of(rng, PROGRAM_COUNT_LIMIT)) for i in range(10)})
    sheets.update({f"random {i} with loose nodes": from_facets(random_meshes.loose_complex_of(rng, LIBRARY_COUNT_LIMIT)) for i in range(5)})
    return sheets


def cycles(rng, data, sheet, p):
    """Cycles of dimension p: zero, a boundary, and combinations of two generators with a boundary."""
    above = [rng.choice([0, 0, 0, -1, 1]) for _ in range(sheet.count(p + 1))]
    bounding = apply(boundary(sheet, p + 1), above)
    yield [0] * sheet.count(p)
    yield bounding
    try:
        generators = homology.report(data, p).generators
    except Refused:
        return
    for chosen in rng.sample(generators, min(2, len(generators))):
        factor = rng.choice([-3, -1, 1, 2, 40])
        yield [x + factor * y for x, y in zip(bounding, chosen)]


def chains(rng, data, sheet, p):
    """Chains of dimension p: cycles, and chains for refusals 10, 11 and 12."""
    yield from cycles(rng, data, sheet, p)
    n = sheet.count(p)
    yield [0] * (n + 1)
    if n:
        yield [rng.choice([32768, -32768])] + [0] * (n - 1)
        yield [0] * (n - 1) + [32767]


def lengths(data, p, slots_of, change):
    """The lengths of the output and the work slice that check 9 wants, changed by so many slots; without a dimension, some."""
    if refusal(data, LIBRARY_COUNT_LIMIT) or p >= DIMENSIONS:
        return 7, 9
    sheet = parse(data, LIBRARY_COUNT_LIMIT)
    return max(0, slots_of(sheet, p) + change[0]), max(0, homology.work_slots(sheet, p) + change[1])


def coordinate_slots(sheet, p):
    """The coordinate slice that check 9 asks for."""
    return sheet.count(p)


def calls(rng, data):
    """The reports and coordinates to ask for on a sheet."""
    accepted = refusal(data, LIBRARY_COUNT_LIMIT) == 0
    for p in range(DIMENSIONS + 1) if accepted else [rng.randrange(DIMENSIONS + 1)]:
        tried = list(chains(rng, data, parse(data, LIBRARY_COUNT_LIMIT), p)) if accepted and p < DIMENSIONS else [[]]
        for change in (EXACT, rng.choice(CHANGES)):
            yield Call("R", p, [], *lengths(data, p, homology.report_slots, change))
            yield Call("C", p, tried[0], *lengths(data, p, coordinate_slots, change))
        for chain in tried[1:]:
            yield Call("C", p, chain, *lengths(data, p, coordinate_slots, EXACT))


def list_call(case, p, work, change=EXACT):
    """The call of a case, with the slices changed by so many slots."""
    return Call("L", p, case.chains, max(0, case.slots + change[0]), max(0, work + change[1]), case.number, case.name)


def list_cases_of(rng, data, p, large):
    """Every case of coordinate lists, or on a large sheet the cycles and some of the others."""
    cases = list_cases.cases(rng, data, p, LIBRARY_COUNT_LIMIT, NUMBER_BITS, 12 if large else rng.randint(20, 60))
    sound = [case for case in cases if case.due == 0]
    others = [case for case in cases if case.due != 0]
    return sound + rng.sample(others, min(CASES_OF_LARGE_SHEETS, len(others))) if large else cases


def list_calls(rng, data):
    """Coordinate lists of an accepted sheet: the cases, and lists of cycles with longer slices and with slices too short."""
    sheet = parse(data, LIBRARY_COUNT_LIMIT)
    for p in range(DIMENSIONS):
        work = homology.work_slots(sheet, p)
        cases = list_cases_of(rng, data, p, max(map(sheet.count, range(DIMENSIONS))) > PROGRAM_COUNT_LIMIT)
        yield from (list_call(case, p, work) for case in cases)
        yield from (list_call(case, p, work, change) for case in cases[:3] for change in CHANGES)


def list_calls_anywhere(rng, p):
    """Coordinate lists of no chains and of some, also of very many, whatever the sheet."""
    for number in (0, rng.choice([1, 2, 3]), rng.choice(list_cases.large_numbers(NUMBER_BITS))):
        coefficients = rng.choice([0, number if number < 4 else 1])
        yield Call("L", p, [0] * coefficients, rng.choice([0, 1, 6]), rng.choice([0, 9]), number)


def residue_calls(case):
    """The coordinates of the cycles of a case, by single calls and as lists in one call."""
    work = homology.work_slots(parse(case.data, LIBRARY_COUNT_LIMIT), case.p)
    for name, cycle in case.cycles.items():
        yield Call("C", case.p, cycle, len(cycle), work, name=name)
    joined = list_cases.joined(case.cycles.values())
    yield Call("L", case.p, joined, len(joined), work, len(case.cycles), "all these cycles")


def all_calls(rng, list_rng, data):
    """Every call to make on a sheet."""
    yield from calls(rng, data)
    yield from list_calls_anywhere(list_rng, list_rng.choice([*range(DIMENSIONS + 1), 2 ** 32 - 1]))
    if refusal(data, LIBRARY_COUNT_LIMIT) == 0:
        yield from list_calls(list_rng, data)


def count_told(made):
    """How many calls of each kind have each answer due."""
    told = Counter((call.kind, expected.number) for call, expected in made)
    told.update(("L of no chains", expected.number) for call, expected in made if call.kind == "L" and call.number == 0)
    return told


def missing(told):
    """The answers that were never due."""
    on_sheets = [*range(9), LOOSE_NODE, 9, 13]
    wanted = {"R": on_sheets, "C": [*on_sheets, 10, 11, 12], "L": [*on_sheets, 10, 11, 12], "L of no chains": [*on_sheets, 10]}
    return [(kind, number) for kind, numbers in wanted.items() for number in numbers if not told[kind, number]]


def main():
    """Exits with 1 where an answer differs, or where a kind of answer or a residue was never due."""
    parser = argparse.ArgumentParser(description=__doc__, formatter_class=argparse.RawDescriptionHelpFormatter)
    parser.add_argument("--driver", type=Path, default=DRIVER, metavar="FILE", help="the built driver (target/host/library_driver)")
    parser.add_argument("--sheet", metavar="NAME", help="one sheet alone, without the cases of residues")
    options = parser.parse_args()
    rng, list_rng = random.Random(4), random.Random(5)
    sheets = sheets_to_compare(list_rng)
    if options.sheet:
        sheets = {options.sheet: sheets[options.sheet]}
    made, met = residue_cases.with_due([] if options.sheet else [*residue_cases.small(), residue_cases.tower(FLOORS)], residue_calls)
    wrong, told = count_differing(options.driver, [expected for _, expected in made]), count_told(made)
    for name, data in sheets.items():
        made = [(call, call.expected(name, data)) for call in all_calls(rng, list_rng, data)]
        told.update(count_told(made))
        wrong += count_differing(options.driver, [expected for _, expected in made])
    for kind in dict.fromkeys(kind for kind, _ in told):
        print(f"{kind}: " + ", ".join(f"{told[kind, n]} answered {n}" for n in (0, *TRIAL) if told[kind, n]))
    for line in residue_cases.ranges(met):
        print(line)
    print(f"{len(sheets)} sheets, {sum(told[kind, n] for kind in 'RCL' for n in (0, *TRIAL))} calls, {wrong} differ")
    lost = [] if options.sheet else missing(told) + residue_cases.never_met(met, [2 ** FLOORS])
    if lost:
        print("never due:", lost)
    raise SystemExit(1 if wrong or lost else 0)


if __name__ == "__main__":
    main()
