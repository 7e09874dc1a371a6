#!/usr/bin/env python3
"""Finds the sheets of tests/model/peak_cases.py and writes them to FILE, which takes two to three minutes.

For each matrix of the two reductions two sheets are sought: one where it alone holds the peak of Note 4, on the way only and by negative entries
alone, and one where it alone holds the peak, at its end too and by positive entries alone. Of a row of random complexes, each made from its number,
one with the fewest cells is taken, and facets are left out as long as the wish holds. The product, which is the second matrix at its start, is only
counted."""

import argparse
import random
from pathlib import Path
from textwrap import fill

from model import headroom, homology, random_meshes
from model.headroom import Holding
from model.reduction import TooWide
from model.sheet import DIMENSIONS, Sheet, closure, loose_vertices

STYLES = [random_meshes.wound, random_meshes.dense, random_meshes.glued]
MATRICES = ["first matrix", "V", "inverse of V", "second matrix", "Q", "G"]
MOST_CELLS = 110

HEADER = '''\
"""Sheets where one matrix of the two reductions alone holds the peak of Note 4 in 02, found and written by

    python3 tests/find_peaks.py tests/model/peak_cases.py

For each way to hold the peak: the dimension and the facets. The comment tells the largest absolute value of each matrix. No sheet was found where the
product, which is the second matrix at its start, holds a larger value than all else."""

from model.headroom import Holding

CASES = {
'''


def wishes():
    """The ways of holding the peak that are sought."""
    return [wish for matrix in MATRICES for wish in (Holding(matrix, False, True, False), Holding(matrix, True, False, True))]


def complex_of_number(number):
    """The facets of a random complex without loose nodes and with its vertices in any order."""
    rng = random.Random(number)
    facets = random_meshes.swept(random_meshes.renumbered(rng, STYLES[number % len(STYLES)](rng)))
    return sorted({tuple(sorted(facet)) for facet in facets})


def classes(facets, p):
    """Both reductions of dimension p of the sheet of the facets; None where they go too wide or have no matrix to reduce, or there is a loose node."""
    sheet = Sheet(tuple(map(tuple, closure(facets))))
    if loose_vertices(sheet.sections) or sheet.count(p) == 0 or max(map(sheet.count, range(DIMENSIONS))) > MOST_CELLS:
        return None
    try:
        return homology.classes(sheet, p)
    except TooWide:
        return None


def holding(facets, p):
    """How the peak of dimension p is held; None where several matrices hold it."""
    found = classes(facets, p)
    return found and headroom.holding(found.first, found.second)


def cell_count(facets):
    """The cells of all dimensions."""
    return sum(map(len, closure(facets)))


def find(tries):
    """A smallest complex for each wish, with its dimension, and how many complexes have a product that alone holds the peak."""
    found, products = {}, 0
    for number in range(tries):
        facets = complex_of_number(number)
        for p in range(1, DIMENSIONS):
            held = holding(facets, p)
            products += held is not None and held.matrix == "product"
            if held in wishes() and (held not in found or cell_count(facets) < cell_count(found[held][1])):
                found[held] = p, facets
    return found, products


def shrunk(wish, p, facets):
    """The facets without those that the wish does not need, their vertices numbered from 0."""
    for facet in list(facets):
        fewer = [other for other in facets if other != facet]
        if holding(fewer, p) == wish:
            facets = fewer
    vertices = sorted({v for facet in facets for v in facet})
    return sorted(tuple(sorted(map(vertices.index, facet))) for facet in facets)


def entry(wish, p, facets):
    """The lines of a case; no line ends within a facet."""
    found = classes(facets, p)
    sizes = ", ".join(f"{name} {headroom.largest(ends)}" for name, ends in headroom.spans(found.first, found.second).items())
    unbroken = ", ".join(str(facet).replace(" ", "_") for facet in facets)
    cells = fill(unbroken, 146, initial_indent=" " * 8, subsequent_indent=" " * 8).replace("_", " ")
    way = f'"{wish.matrix}", at_end={wish.at_end}, negative={wish.negative}, positive={wish.positive}'
    return f"    # {sizes}\n    Holding({way}): ({p}, [\n{cells}]),\n"


def main():
    """Writes FILE; exits with 1 where no complex meets a wish."""
    parser = argparse.ArgumentParser(description=__doc__, formatter_class=argparse.RawDescriptionHelpFormatter)
    parser.add_argument("file", type=Path, metavar="FILE")
    parser.add_argument("--tries", type=int, default=3000, metavar="N", help="complexes to go through (3000)")
    options = parser.parse_args()
    found, products = find(options.tries)
    print(f"{len(found)} of {len(wishes())} wishes met; a product alone holds the peak {products} times")
    if len(found) < len(wishes()):
        raise SystemExit(1)
    entries = [entry(wish, found[wish][0], shrunk(wish, *found[wish])) for wish in wishes()]
    options.file.write_text(HEADER + "".join(entries) + "}\n", encoding="utf-8")


if __name__ == "__main__":
    main()
