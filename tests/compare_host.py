#!/usr/bin/env python3
"""Compares the host calls, through the C driver, with the model on sound and damaged sheets, chains and output lengths, and on every residue."""

import argparse
import random
import struct
from collections import Counter
from dataclasses import dataclass
from pathlib import Path

from drivers import Expected, count_differing
from make_sheets import fault_sheets, known_sheets, random_sheets
from model import homology, list_cases, residue_cases
from model.calls import host_coordinate_lists, host_coordinates, host_report, host_surface
from model.sheet import LOOSE_NODE, PROGRAM_COUNT_LIMIT, TRIAL, Refused, refusal

DRIVER = Path("target/host/driver")
ROOM = 8 * (2 + 48 + 48 * 48)
NUMBER_BITS = 32


@dataclass(frozen=True)
class Call:
    """A call: R, C, L or S for the report, the coordinates, the coordinate lists or the surface, and what it is lent besides the sheet."""

    kind: str
    p: int
    chains: bytes
    lent: bytes
    number: int = 1
    name: str = ""

    def request(self, data):
        """The bytes for the driver."""
        head = struct.pack("<5I", len(data), self.p, self.number, len(self.chains), len(self.lent))
        return self.kind.encode() + head + data + self.chains + self.lent

    def due(self, data):
        """The model's answer and output."""
        if self.kind == "R":
            return host_report(data, self.p, self.lent)
        if self.kind == "C":
            return host_coordinates(data, self.p, self.chains, self.lent)
        if self.kind == "S":
            return host_surface(data, self.p, self.chains, self.lent)
        return host_coordinate_lists(data, self.p, self.number, self.chains, self.lent)

    def expected(self, name, data):
        """The call with what the driver is to write, by the model."""
        number, output = self.due(data)
        title = f"{name}, {self.kind} in dimension {self.p} {self.name}"
        return Expected(title.strip(), self.request(data), number, struct.pack("<I", number) + output)


def pattern(rng, length):
    """So many bytes to lend as an output."""
    return rng.randbytes(length)


def lent_bytes(rng, slots):
    """Output bytes of about so many slots, filled with a pattern, sometimes with an incomplete number at the end."""
    length = rng.choice([ROOM, 8 * slots, 8 * slots + rng.randrange(8), max(0, 8 * slots - 1)])
    return pattern(rng, min(length, ROOM + 8))


def packed(chain):
    """The bytes of coefficients."""
    return struct.pack(f"<{len(chain)}i", *chain)


def cycles(rng, data, p):
    """Chains of the dimension: combinations of generators, and chains with single coefficients."""
    try:
        found = homology.report(data, p, PROGRAM_COUNT_LIMIT)
    except Refused:
        return [[1], []]
    n = len(homology_columns(data, p))
    chains = [[0] * n, [rng.randrange(-2, 3) for _ in range(n)], [32768] + [0] * (n - 1) if n else []]
    for generator in found.generators[:3]:
        factor = rng.choice([1, -1, 2, 7])
        chains.append([factor * x for x in generator])
    return chains


def homology_columns(data, p):
    """A list as long as the section of dimension p."""
    return [0] * (data[4 * p] + 256 * data[4 * p + 1]) if p < 4 else []


def calls(rng, data):
    """The reports and coordinates to ask for on one sheet."""
    p = rng.choice([0, 1, 1, 1, 2, 3, 4, 7])
    n = len(homology_columns(data, p)) if len(data) > 15 else 0
    yield Call("R", p, b"", lent_bytes(rng, 2 + n + n * n if n <= 48 else 3))
    for chain in cycles(rng, data, p):
        incomplete = b"\1" if rng.randrange(12) == 0 else b""
        yield Call("C", p, packed(chain) + incomplete, lent_bytes(rng, n))


def list_call(rng, p, case):
    """The call of a case, with bytes past the slots that check 9 counts."""
    spare = 0 if case.due == 9 else rng.choice([0, 0, 8, 24])
    lent = pattern(rng, 8 * case.slots + spare + rng.choice([0, 0, rng.randrange(8)]))
    return Call("L", p, packed(case.chains), lent, case.number, case.name)


def calls_a_byte_off(rng, p, case):
    """The case with a byte more or less in its chains or its output."""
    chains, lent, name = packed(case.chains), pattern(rng, 8 * case.slots), f"{case.name}, a byte off"
    yield Call("L", p, chains + b"\0", lent, case.number, name)
    yield Call("L", p, chains, lent + b"\0", case.number, name)
    if chains:
        yield Call("L", p, chains[:-1], lent, case.number, name)
        yield Call("L", p, chains, lent[:-1], case.number, name)


def list_calls(rng, data):
    """Coordinate lists of two dimensions of an accepted sheet: every case, and sound ones a byte off."""
    for p in (1, rng.choice([0, 2, 3])):
        cases = list_cases.cases(rng, data, p, PROGRAM_COUNT_LIMIT, NUMBER_BITS, rng.randint(20, 60))
        yield from (list_call(rng, p, case) for case in cases)
        for case in [case for case in cases if case.due == 0][:4]:
            yield from calls_a_byte_off(rng, p, case)


def list_calls_anywhere(rng, p):
    """Coordinate lists of no chains and of some, also of very many, whatever the sheet."""
    for number in (0, rng.choice([1, 2, 3]), rng.choice(list_cases.large_numbers(NUMBER_BITS))):
        coefficients = rng.choice([0, number if number < 4 else 1])
        yield Call("L", p, packed([0] * coefficients), pattern(rng, rng.choice([0, 8, 50])), number)


def residue_calls(case):
    """The coordinates of the cycles of a case, by single calls and as lists in one call."""
    for name, cycle in case.cycles.items():
        yield Call("C", case.p, packed(cycle), b"\xa5" * 8 * len(cycle), name=name)
    chains = list_cases.joined(case.cycles.values())
    yield Call("L", case.p, packed(chains), b"\xa5" * 8 * len(chains), len(case.cycles), "all these cycles")


def all_calls(rng, list_rng, sheets, with_lists):
    """Every call with what is due; the sheets with these names get every case of coordinate lists."""
    for name, data in sheets.items():
        made = list(calls(rng, data)) + list(list_calls_anywhere(list_rng, list_rng.choice([0, 1, 2, 3, 4, 2 ** 32 - 1])))
        if name in with_lists and refusal(data, PROGRAM_COUNT_LIMIT) == 0:
            made += list_calls(list_rng, data)
        yield from ((call, call.expected(name, data)) for call in made)


def missing(told):
    """The answers that were never due; with no chains the output cannot be too short for the lists."""
    on_sheets = [*range(9), LOOSE_NODE]
    wanted = {"R": [*on_sheets, 9], "C": [*on_sheets, *range(9, 13)], "L": [*on_sheets, *range(9, 13)], "L of no chains": [*on_sheets, 10]}
    return [(kind, number) for kind, numbers in wanted.items() for number in numbers if not told[kind, number]]


def count_told(made):
    """How many calls of each kind have each answer due."""
    told = Counter((call.kind, expected.number) for call, expected in made)
    told.update(("L of no chains", expected.number) for call, expected in made if call.kind == "L" and call.number == 0)
    return told


def main():
    """Exits with 1 where an answer or an output differs, or where a kind of answer or a residue was never due."""
    parser = argparse.ArgumentParser(description=__doc__)
    parser.add_argument("--driver", type=Path, default=DRIVER, metavar="FILE", help="the built driver (target/host/driver)")
    parser.add_argument("--random", type=int, default=300, metavar="N", help="random sheets, each also in a damaged copy (300)")
    parser.add_argument("--lists", type=int, default=40, metavar="N", help="random sheets with every case of coordinate lists (40)")
    parser.add_argument("--seed", type=int, default=5, help="seed (5)")
    options = parser.parse_args()
    rng, list_rng = random.Random(options.seed), random.Random(options.seed + 1)
    known = known_sheets()
    sheets = {**known, **fault_sheets(), **random_sheets(rng, options.random)}
    with_lists = {*known, *(f"random {i}" for i in range(options.lists))}
    made, met = residue_cases.with_due(residue_cases.small(), residue_calls)
    made += all_calls(rng, list_rng, sheets, with_lists)
    told = count_told(made)
    wrong = count_differing(options.driver, [expected for _, expected in made])
    for kind in dict.fromkeys(kind for kind, _ in told):
        print(f"{kind}: " + ", ".join(f"{told[kind, number]} answered {number}" for number in (0, *TRIAL) if told[kind, number]))
    for line in residue_cases.ranges(met):
        print(line)
    print(f"{len(made)} calls, {wrong} differ")
    lost = missing(told) + residue_cases.never_met(met)
    if lost:
        print("never due:", lost)
    raise SystemExit(1 if wrong or lost else 0)


if __name__ == "__main__":
    main()
