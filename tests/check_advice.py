#!/usr/bin/env python3
"""Tries what the header and docs/SOLVER.md say of refusal 13, of large coefficients and of orders, by the shared library."""

import argparse
import ctypes
import random
import sys
from pathlib import Path

from model import meshes
from model.sheet import LIBRARY_COUNT_LIMIT, from_facets, parse
from model.wide_surfaces import CASES

LIBRARY = Path("target/lib/libfildwuk.so")
COEFFICIENT_EXCEEDS = 11
TOO_WIDE = 13
NUMBERINGS = 20


class Calls:
    """The library's calls by the shared library, each with slices of the slots that it asks for."""

    def __init__(self, path):
        self.library = ctypes.CDLL(str(path.resolve()))

    def call(self, name, sheet, p, *slices, more=0):
        """The answer of a call on a sheet, with the work slice behind the other slices, and so many slots more in it than a report asks for."""
        cells = parse(sheet, LIBRARY_COUNT_LIMIT)
        n, beside = cells.count(p), max(cells.count(p - 1), cells.count(p + 1))
        work = (ctypes.c_int32 * (n * (2 * n + beside) + more))()
        lent = [x for part in (*slices, work) for x in (part, ctypes.c_size_t(len(part)))]
        return getattr(self.library, name)(sheet, ctypes.c_size_t(len(sheet)), p, *lent)

    def report(self, facets, p):
        """The answer, the free rank, the orders and the generators of a dimension."""
        sheet = from_facets(facets)
        n = parse(sheet, LIBRARY_COUNT_LIMIT).count(p)
        numbers = (ctypes.c_int64 * (2 + n + n * n))()
        answer = self.call("fildwuk_library_report", sheet, p, numbers)
        b, t = numbers[0], numbers[1]
        generators = [numbers[2 + t + j * n:2 + t + (j + 1) * n] for j in range(t + b)]
        return answer, b, numbers[2:2 + t], generators

    def coordinates(self, facets, p, chain):
        """The answer, and the slots of the coordinates of a chain."""
        slots = (ctypes.c_int64 * len(chain))()
        answer = self.call("fildwuk_library_coordinates", from_facets(facets), p, (ctypes.c_int32 * len(chain))(*chain), slots)
        return answer, list(slots)


    def surface(self, facets, p, chain):
        """The answer of the surface call for a chain."""
        sheet = from_facets(facets)
        above = parse(sheet, LIBRARY_COUNT_LIMIT).count(p + 1)
        slots = (ctypes.c_int64 * above)()
        return self.call("fildwuk_library_surface", sheet, p, (ctypes.c_int32 * len(chain))(*chain), slots, more=above * above)


def renumbered(rng, facets):
    """The mesh with its nodes numbered otherwise."""
    numbers = list(range(meshes.vertex_count(facets)))
    rng.shuffle(numbers)
    return [tuple(numbers[v] for v in facet) for facet in facets]


def too_wide(calls, rng):
    """13 in one sheet: apart, in another dimension and under other numberings, done; an order beyond the limit, never."""
    tower, moore = meshes.tower(10), meshes.moore_space(5)
    both = meshes.disjoint_union(tower, moore)
    others = [calls.report(renumbered(rng, both), 1) for _ in range(NUMBERINGS)]
    wide = meshes.tower(20)
    return {
        "refused in one sheet": calls.report(both, 1)[0] == TOO_WIDE,
        "done apart": [calls.report(part, 1)[:3] for part in (tower, moore)] == [(0, 0, [1024]), (0, 0, [5])],
        "another dimension is done": calls.report(both, 2)[:3] == (0, 0, []),
        "done under another numbering": any(other[0] == 0 for other in others),
        "the same rank and orders then": all(other[1:3] == (0, [5120]) for other in others if other[0] == 0),
        "refused under every numbering where an order exceeds the limit":
            all(calls.report(renumbered(rng, wide), 1)[0] == TOO_WIDE for _ in range(NUMBERINGS)),
    }


def too_wide_surfaces(calls, rng):
    """13 in the surface call alone: report and coordinates are done; under other numberings the surface is too."""
    p, facets = next(iter(CASES.values()))
    zeros = [0] * parse(from_facets(facets), LIBRARY_COUNT_LIMIT).count(p)
    return {
        "a surface is refused": calls.surface(facets, p, zeros) == TOO_WIDE,
        "report and coordinates are done there": calls.report(facets, p)[0] == calls.coordinates(facets, p, zeros)[0] == 0,
        "a surface is done under another numbering": any(calls.surface(renumbered(rng, facets), p, zeros) == 0 for _ in range(NUMBERINGS)),
    }


def large_coefficients(calls):
    """A cavity with a coefficient of 32,768, whose coordinates are refused, and one with half of it, which has 1 at its own place."""
    facts = {}
    for floors, due in ((14, 0), (15, COEFFICIENT_EXCEEDS)):
        tower = meshes.closed_tower(floors)
        answer, b, orders, (cavity,) = calls.report(tower, 2)
        number, slots = calls.coordinates(tower, 2, cavity)
        facts[f"cavity of {floors} floors"] = (answer, b, orders, max(map(abs, cavity))) == (0, 1, [], 2 ** floors)
        facts[f"its coordinates are answered with {due}"] = number == due and slots[0] == (1 if due == 0 else 0)
    return facts


def orders(calls):
    """Twists of order 2 and 3 read as one order 6."""
    both = meshes.disjoint_union(meshes.projective_plane(), meshes.moore_space(3))
    return {"twists of 2 and 3 are one order 6": calls.report(both, 1)[1:3] == (0, [6])}


def main():
    parser = argparse.ArgumentParser(description=__doc__)
    parser.add_argument("--library", type=Path, default=LIBRARY)
    calls = Calls(parser.parse_args().library)
    rng = random.Random(3)
    facts = {**too_wide(calls, rng), **too_wide_surfaces(calls, rng), **large_coefficients(calls), **orders(calls)}
    for name, held in facts.items():
        print(f"{'held' if held else 'NOT HELD'}: {name}")
    return 0 if all(facts.values()) else 1


if __name__ == "__main__":
    sys.exit(main())
