#!/usr/bin/env python3
"""Finds the sheets of tests/model/wide_surfaces.py and writes them to FILE, which takes some ten seconds.

In these sheets the tracked columns of Note 6 in 02 alone go too wide: the coordinates of every cycle of the dimension are done, its surface is
refused with 13. They are unions of doubling towers and Moore spaces, with orders that have no common divisor, and a tower with a triangle at both
ends, with their vertices in a random order that is made from its number. Where one order in thousands serves, it was found by a copy of the
algorithm in C, which is not kept: the search starts at its number."""

import argparse
import random
from dataclasses import dataclass
from pathlib import Path
from textwrap import fill

from model import headroom, homology, meshes, random_meshes
from model.reduction import TooWide
from model.sheet import Sheet, closure

DIMENSION = 1
# A limit that no entry of these reductions reaches, to tell how wide the tracked columns go.
NO_LIMIT = 2 ** 62

HEADER = '''\
"""Sheets where the tracked columns of Note 6 in 02 alone go too wide, found and written by

    python3 tests/find_wide_surfaces.py tests/model/wide_surfaces.py

For each complex: the dimension and the facets. The comment tells the number of the order of its vertices, the cells of each dimension, the peak of
Note 4, which is within the limit, and the largest absolute value that the tracked columns would hold without one."""

CASES = {
'''


@dataclass(frozen=True)
class Shape:
    """A complex by name, and the number of the first order of its vertices that is tried."""

    name: str
    facets: list
    first: int


SHAPES = [
    Shape("tower of 6 floors, Moore spaces of orders 5 and 3",
          meshes.disjoint_union(meshes.tower(6), meshes.moore_space(5), meshes.moore_space(3)), 70631),
    Shape("tower of 8 floors, Moore space of order 7", meshes.disjoint_union(meshes.tower(8), meshes.moore_space(7)), 4139),
    Shape("tower of 20 floors with a triangle at both ends", meshes.closed_tower(20), 399),
]


def ordered(facets, number):
    """The facets with their vertices, numbered from 0, in the order of this number."""
    facets = random_meshes.renumbered(random.Random(number), facets)
    vertices = sorted({v for facet in facets for v in facet})
    return sorted(tuple(sorted(map(vertices.index, facet))) for facet in facets)


def widths(facets):
    """The peak and the width of the tracked columns, where these alone go too wide; else None."""
    sheet = Sheet(tuple(map(tuple, closure(facets))))
    try:
        plain = homology.classes(sheet, DIMENSION)
        homology.classes(sheet, DIMENSION, tracked=True)
    except TooWide as wide:
        if wide.where != "column follower":
            return None
        tracked = homology.classes(sheet, DIMENSION, NO_LIMIT, tracked=True)
        return headroom.peak(plain.first, plain.second), headroom.largest(headroom.whole(tracked.second.held["column"]))
    return None


def find(shape, tries):
    """The lines of the case of the first order that serves; None where none does."""
    for number in range(shape.first, shape.first + tries):
        facets = ordered(shape.facets, number)
        found = widths(facets)
        if found:
            return entry(shape.name, number, facets, *found)
    return None


def entry(name, number, facets, peak, width):
    """The lines of a case; no line ends within a facet."""
    cells = ", ".join(str(len(section)) for section in closure(facets))
    unbroken = ", ".join(str(facet).replace(" ", "_") for facet in facets)
    lines = fill(unbroken, 146, initial_indent=" " * 8, subsequent_indent=" " * 8).replace("_", " ")
    return f'    # order {number}; cells {cells}; peak {peak}, tracked columns {width}\n    "{name}": ({DIMENSION}, [\n{lines}]),\n'


def main():
    """Writes FILE; exits with 1 where no order of a complex serves."""
    parser = argparse.ArgumentParser(description=__doc__, formatter_class=argparse.RawDescriptionHelpFormatter)
    parser.add_argument("file", type=Path, metavar="FILE")
    parser.add_argument("--tries", type=int, default=1, metavar="N", help="orders of the vertices to try for each complex (1)")
    options = parser.parse_args()
    entries = [find(shape, options.tries) for shape in SHAPES]
    print(f"{sum(map(bool, entries))} of {len(entries)} sheets found")
    if not all(entries):
        raise SystemExit(1)
    options.file.write_text(HEADER + "".join(entries) + "}\n", encoding="utf-8")


if __name__ == "__main__":
    main()
