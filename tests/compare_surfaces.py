#!/usr/bin/env python3
"""Compares the surface calls of the host and of the library, through the C drivers, with the model: known complexes, random and damaged sheets, every
two faults, meshes near 256 cells, and sheets where the tracked columns alone go too wide, for which the coordinates of the same chains are asked too.

Chains are cycles of every kind and faulty ones, slices have the lengths that check 9 wants and others, and hold many things before the call."""

import argparse
import random
from collections import Counter
from pathlib import Path

import compare_host
import compare_library
from compare_host import packed
from drivers import count_differing
from make_sheets import fault_sheets, known_sheets, random_sheets
from model import homology, meshes, sheet_cases, surface_cases
from model.calls import BOUNDS_NOTHING, DONE, TOO_WIDE
from model.sheet import DIMENSIONS, LIBRARY_COUNT_LIMIT, LOOSE_NODE, PROGRAM_COUNT_LIMIT, from_facets, parse, refusal
from model.surface_chains import FREE, TWISTED, Cycles, causes
from model.wide_surfaces import CASES

# The bytes that the slices of the library's calls are lent with.
FILLS = [0, 1, 0x7f, 0x80, compare_library.FILL, 0xff]

# Of the sheets that are refused, every so many is taken.
EVERY = 4

# A sheet where every surface is refused with 13 and the coordinates of the same chains are done.
ALONE = f"{TOO_WIDE} on a sheet with coordinates"


def host_call(rng, case):
    """The call of the host: a chain that at times ends in an incomplete number, and an output that may."""
    chain = packed(case.chain) + rng.choice([b""] * 15 + [b"\1"])
    return compare_host.Call("S", case.p, chain, rng.randbytes(8 * case.slots + rng.choice([0, 0, rng.randrange(8)])), name=case.name)


def library_call(rng, case):
    """The call of the library."""
    return compare_library.Call("S", case.p, case.chain, case.slots, case.work, name=case.name, fill=rng.choice(FILLS))


class Side:
    """The calls of the host or of the library: how they are made, the driver, the count limit, and how often each kind of answer was due."""

    def __init__(self, name, driver, call, count_limit, rng):
        self.name, self.driver, self.call, self.count_limit, self.rng = name, driver, call, count_limit, rng
        self.told, self.wrong = Counter(), 0

    def kinds(self, case, number):
        """The answer, for 17 with each cause."""
        if number != BOUNDS_NOTHING:
            return [number]
        found, numbers = homology.report(case.data, case.p), homology.coordinates(case.data, case.p, case.chain)
        return [f"{number}, {cause}" for cause in causes(found, numbers)]

    def compare(self, cases):
        """Makes the calls, counts those that differ, and gives the answers due."""
        made = [(case, self.call(self.rng, case).expected(self.name, case.data)) for case in cases]
        for case, expected in made:
            self.told.update(self.kinds(case, expected.number))
        self.wrong += count_differing(self.driver, [expected for _, expected in made])
        return [expected.number for _, expected in made]

    def compare_alone(self, cases):
        """The same with the coordinates of the same chains; counts a sheet where these are done and all surfaces refused with 13."""
        calls = [compare_library.Call("C", case.p, case.chain, len(case.chain), case.work, name=case.name) for case in cases]
        made = [call.expected(self.name, case.data) for call, case in zip(calls, cases)]
        self.wrong += count_differing(self.driver, made)
        answers = {(expected.number, number) for expected, number in zip(made, self.compare(cases))}
        self.told[ALONE] += answers == {(DONE, TOO_WIDE)}

    def missing(self, wanted):
        """The kinds of answer that were never due."""
        return [(self.name, kind) for kind in wanted if not self.told[kind]]


def small_cases(rng, name, data):
    """Every dimension of an accepted sheet within 48 cells."""
    return [case for p in range(DIMENSIONS) for case in surface_cases.of_dimension(rng, name, data, p, PROGRAM_COUNT_LIMIT, 6)]


def refused_cases(rng, sheets, count_limit):
    """A call for every so many of the sheets that are refused at a limit."""
    refused = [(name, data) for name, data in sheets.items() if refusal(data, count_limit)]
    return [surface_cases.of_refused(rng, name, data) for name, data in refused[::EVERY]]


def large_cases(rng):
    """Dimensions of sheets beyond 48 cells, each by itself: every kind of case, or boundaries and faulty chains alone."""
    ring, (title, (dimension, wide)) = meshes.sized()["ring 3x3x1"], next(iter(CASES.items()))
    for name, facets, p in (("ring 3x3x1", ring, 1), ("ring 3x3x1", ring, 2), ("tower 10", meshes.tower(10), 1), (title, wide, dimension)):
        yield surface_cases.of_dimension(rng, name, from_facets(facets), p, LIBRARY_COUNT_LIMIT, 6)
    for name, data, p in (("closed tower 16, turned", from_facets(meshes.turned(meshes.closed_tower(16))), 1),
                          ("tower 20", from_facets(meshes.tower(20)), 2), ("256 cells of each dimension", sheet_cases.full(LIBRARY_COUNT_LIMIT), 0)):
        made = Cycles(rng, data, p, LIBRARY_COUNT_LIMIT)
        chains = [made.bounding() for _ in range(4)] + [made.largest(chain) for chain in made.boundaries[-2:]] + made.faulty()
        yield surface_cases.of_chains(name, data, made.sheet, p, chains)


def wide_cases(rng):
    """Cycles on each sheet where the tracked columns alone go too wide."""
    for name, (p, facets) in CASES.items():
        data = from_facets(facets)
        made = Cycles(rng, data, p, LIBRARY_COUNT_LIMIT)
        yield surface_cases.of_chains(name, data, parse(data, LIBRARY_COUNT_LIMIT), p, [made.bounding(), [0] * made.n, made.simple()])


def compare_both(host, library, options):
    """The sheets that both kinds of call are asked about."""
    rng = random.Random(options.seed)
    sheets = {**known_sheets(), **random_sheets(rng, options.random)}
    for side in (host, library):
        side.compare(surface_cases.of_faults(side.count_limit) + surface_cases.of_coefficients() + surface_cases.beyond_the_top())
        side.compare(refused_cases(rng, {**fault_sheets(), **sheets}, side.count_limit))
    for name, data in sheets.items():
        if refusal(data, PROGRAM_COUNT_LIMIT) == 0:
            cases = small_cases(rng, name, data)
            host.compare(cases)
            library.compare(cases)


def main():
    """Exits with 1 where an answer, an output or a work slice differs, or where a kind of answer was never due."""
    parser = argparse.ArgumentParser(description=__doc__, formatter_class=argparse.RawDescriptionHelpFormatter)
    parser.add_argument("--drivers", type=Path, default=Path("target/host"), metavar="FOLDER", help="where the built drivers are (target/host)")
    parser.add_argument("--random", type=int, default=30, metavar="N", help="random sheets, each also in a damaged copy (30)")
    parser.add_argument("--seed", type=int, default=6, help="seed (6)")
    options = parser.parse_args()
    rng = random.Random(options.seed)
    host = Side("host", options.drivers / "driver", host_call, PROGRAM_COUNT_LIMIT, rng)
    library = Side("library", options.drivers / "library_driver", library_call, LIBRARY_COUNT_LIMIT, rng)
    compare_both(host, library, options)
    for cases in large_cases(rng):
        library.compare(cases)
    for cases in wide_cases(rng):
        library.compare_alone(cases)
    wanted = [*range(DONE, TOO_WIDE), LOOSE_NODE, *(f"{BOUNDS_NOTHING}, {cause}" for cause in (FREE, TWISTED))]
    lost = host.missing(wanted) + library.missing([*wanted, TOO_WIDE])
    lost += [] if library.told[ALONE] == len(CASES) else [ALONE]
    for side in (host, library):
        print(f"{side.name}: " + "; ".join(f"{many} answered {kind}" for kind, many in sorted(side.told.items(), key=lambda pair: str(pair[0]))))
        print(f"{side.name}: {side.wrong} calls differ")
    if lost:
        print("never due:", lost)
    raise SystemExit(1 if host.wrong or library.wrong or lost else 0)


if __name__ == "__main__":
    main()
