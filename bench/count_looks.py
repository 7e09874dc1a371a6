#!/usr/bin/env python3
"""Counts the cells that check 7 looks at for each face: by the search of crate cells, which starts where that for the same face of the last cell ended,
and by halving alone. The proved code has no counters; the search stands here a second time."""

import argparse
import sys
from pathlib import Path

sys.path.insert(0, str(Path(__file__).resolve().parent.parent / "tests"))
from model.sheet import DIMENSIONS, LIBRARY_COUNT_LIMIT, faces, parse  # noqa: E402


def looks_from(start, place, many):
    """The cells that the search looks at before it comes to the place: it goes away from its start by growing steps, then halves."""
    low, high, here, step, looks = 0, many, start, 0, 1
    while here != place:
        if place < here:
            high = here
        else:
            low = here + 1
        step = min(2 * step + 1, (high - low + 1) // 2)
        here = high - step if place < here else low + step - 1
        looks += 1
    return looks


def looks_by_halving(place, many):
    """The cells that a search by halving looks at."""
    low, high, looks = 0, many, 1
    while (low + high) // 2 != place:
        if place < (low + high) // 2:
            high = (low + high) // 2
        else:
            low = (low + high) // 2 + 1
        looks += 1
    return looks


def count(sheet):
    """How many faces there are, and how many cells each search looks at for them."""
    number, looks, halving = 0, 0, 0
    for p in range(1, DIMENSIONS):
        places = {cell: place for place, cell in enumerate(sheet.cells(p - 1))}
        last = [0] * (p + 1)
        for cell in sheet.cells(p):
            for j, face in enumerate(faces(cell)):
                number += 1
                looks += looks_from(last[j], places[face], len(places))
                halving += looks_by_halving(places[face], len(places))
                last[j] = places[face]
    return number, looks, halving


def main():
    """Prints a line for each sheet."""
    parser = argparse.ArgumentParser(description=__doc__)
    parser.add_argument("sheets", nargs="+", metavar="FILE.sheet", type=Path)
    print(f"{'sheet':18} {'faces':>6} {'looks a face':>12} {'by halving':>10}")
    for path in parser.parse_args().sheets:
        number, looks, halving = count(parse(path.read_bytes(), LIBRARY_COUNT_LIMIT))
        print(f"{path.stem:18} {number:6} {looks / number:12.2f} {halving / number:10.2f}")


if __name__ == "__main__":
    main()
