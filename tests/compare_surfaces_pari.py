#!/usr/bin/env python3
"""Compares the surfaces of the model (Note 6 in 02) with the computer algebra system PARI/GP.

PARI tells by Hermite forms whether a cycle is a whole combination of the columns of the boundary matrix of the next dimension, by ranks whether it is
one with fractions, and multiplies that matrix with the answer. The cells and matrices are those of tests/compare_pari.py, not the model's.
The command gp must be installed (Debian package pari-gp).
"""

import argparse
import random
from collections import Counter
from dataclasses import dataclass

from compare_pari import GP_PRELUDE, TOP, boundary_of, cells_of, columns_matrix, run_gp
from model import meshes, random_meshes, surface_chains
from model.calls import BOUNDS_NOTHING, DONE
from model.sheet import LIBRARY_COUNT_LIMIT, PROGRAM_COUNT_LIMIT, Refused, from_facets
from model.surface import surface

PRELUDE = GP_PRELUDE + """\
surfaces(D, Z, S) = my(H = mathnf(D), r = matrank(D)); print(concat(vector(#Z, j, \
[mathnf(concat(D, Z[,j])) == H, matrank(concat(D, Z[,j])) == r, D * S[,j] == Z[,j]])));
"""
CYCLES = 9
MOST_CELLS = 2 * PROGRAM_COUNT_LIMIT
BOUNDING, TWISTED, FREE = "bounding", "twisted", "free"


@dataclass(frozen=True)
class Answered:
    """A cycle with the model's answer and surface, no coefficients where it is refused."""

    chain: list
    number: int
    surface: list


def answered(data, p, chain):
    """The model's answer for a cycle."""
    try:
        return Answered(chain, DONE, surface(data, p, chain))
    except Refused as refused:
        return Answered(chain, refused.number, [])


def question(cells, p, made):
    """What PARI is asked of the cycles of one dimension; a cycle without a surface has zeros for it."""
    above = len(cells[p + 1])
    surfaces = [each.surface or [0] * above for each in made]
    return f"surfaces({boundary_of(cells, p + 1)}, {columns_matrix(len(cells[p]), [each.chain for each in made])}, {columns_matrix(above, surfaces)})"


def kind_of(whole, fractions):
    """What PARI says of a cycle that is, or is not, a combination with whole numbers and with fractions."""
    return BOUNDING if whole else TWISTED if fractions else FREE


def fault(each, kind, right):
    """What PARI says otherwise about one cycle, None where it agrees."""
    due = DONE if kind == BOUNDING else BOUNDS_NOTHING
    if each.number != due:
        return f"{each.chain} is answered {each.number}, for PARI it is {kind}"
    return None if due == BOUNDS_NOTHING or right else f"{each.chain} is not the boundary of {each.surface}, says PARI"


def sheets_to_compare(options):
    """Facets by name: known complexes, towers, and random ones, every third wound round triangles."""
    named = {name: facets for name, (facets, _) in meshes.known().items()}
    named.update({f"tower {floors}": meshes.tower(floors) for floors in (2, 4, 6)})
    named.update({f"closed tower {floors}": meshes.closed_tower(floors) for floors in (2, 5)})
    rng = random.Random(options.seed)
    for i in range(options.count):
        wound = random_meshes.renumbered(rng, random_meshes.wound(rng))
        named[f"random {i}"] = random_meshes.complex_of(rng, PROGRAM_COUNT_LIMIT) if i % 3 else wound
    return {name: facets for name, facets in named.items() if max(map(len, cells_of(facets).values())) <= MOST_CELLS}


def compare(named, rng):
    """The faults, and how many cycles of each kind PARI found in each dimension."""
    asked = []
    for name, facets in named.items():
        cells, data = cells_of(facets), from_facets(facets)
        for p in range(TOP + 1):
            chains = surface_chains.Cycles(rng, data, p, LIBRARY_COUNT_LIMIT).cycles(CYCLES) if cells[p] else []
            if chains:
                asked.append((f"{name}, dimension {p}", p, cells, [answered(data, p, chain) for chain in chains]))
    told = run_gp([question(cells, p, made) for _, p, cells, made in asked], PRELUDE)
    faults, seen = [], Counter()
    for (name, p, cells, made), numbers in zip(asked, told):
        for each, (whole, fractions, right) in zip(made, zip(*[iter(numbers)] * 3), strict=True):
            kind = kind_of(whole, fractions)
            # Where the next dimension has no cells, PARI has no product.
            wrong = fault(each, kind, right if cells[p + 1] else not any(each.chain))
            faults += [f"{name}: {wrong}"] if wrong else []
            seen[p, kind] += any(each.chain)
    return faults, seen


def missing(seen):
    """The kinds that were not met, apart from zeros: in dimension 3 nothing else bounds, and twisted cycles are of dimensions 1 and 2."""
    wanted = [(p, kind) for p in range(TOP) for kind in (BOUNDING, FREE)] + [(TOP, FREE), (1, TWISTED), (2, TWISTED)]
    return [each for each in wanted if not seen[each]]


def main():
    """Exits with 1 where the model and PARI differ, or where a kind of cycle was not met."""
    parser = argparse.ArgumentParser(description=__doc__, formatter_class=argparse.RawDescriptionHelpFormatter)
    parser.add_argument("--count", type=int, default=50, help="random complexes (50)")
    parser.add_argument("--seed", type=int, default=1, help="seed of what is random (1)")
    options = parser.parse_args()
    named = sheets_to_compare(options)
    faults, seen = compare(named, random.Random(options.seed))
    for p in range(TOP + 1):
        print(f"dimension {p}: " + ", ".join(f"{seen[p, kind]} {kind}" for kind in (BOUNDING, TWISTED, FREE)))
    print(f"{len(named)} sheets, {sum(seen.values())} cycles other than zeros")
    lost = missing(seen)
    if lost:
        print("never met:", lost)
    print("\n".join(faults) if faults else "all agree with PARI/GP")
    raise SystemExit(1 if faults or lost else 0)


if __name__ == "__main__":
    main()
