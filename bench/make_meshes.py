#!/usr/bin/env python3
"""Writes the sheets of the benchmark: the sized meshes of tests/model/meshes.py, and others so that each of four families has about 60, 120 and 250
cells in its busiest dimension. Meshes with many loops stand in a folder of their own, for bench/lists.c, and so do sheets with as many cells in every
dimension, for bench/reading.c."""

import argparse
import re
import sys
from itertools import product
from pathlib import Path

sys.path.insert(0, str(Path(__file__).resolve().parent.parent / "tests"))
from model import meshes, sheet_cases  # noqa: E402
from model.sheet import LIBRARY_COUNT_LIMIT, PROGRAM_COUNT_LIMIT, from_facets  # noqa: E402


def between():
    """The meshes of about 60 and 120 cells, by name; those of about 250 are among the sized ones."""
    return {
        "plate 4x4": meshes.plate(4, 4), "plate 6x6": meshes.plate(6, 6),
        "torus 4x5": meshes.torus_grid(4, 5), "torus 5x8": meshes.torus_grid(5, 8),
        "box 2x2x1": meshes.box(2, 2, 1), "box 2x2x2": meshes.box(2, 2, 2),
        "moore 8": meshes.moore_space(8), "moore 16": meshes.moore_space(16),
    }


def chequered(width, height):
    """A plate without every second square, height odd: a loop round each that is left out inside."""
    return [facet for i, facet in enumerate(meshes.plate(width, height)) if i % 4 < 2]


def lattice(width, height):
    """The sides of width × height squares, a graph with as many loops."""
    def corner(x, y):
        return y * (width + 1) + x

    across = [(corner(x, y), corner(x + 1, y)) for x, y in product(range(width), range(height + 1))]
    return across + [(corner(x, y), corner(x, y + 1)) for x, y in product(range(width + 1), range(height))]


def many_loops():
    """Meshes of up to 48 and 250 edges with 16 to 110 loops, by name."""
    return {"chequered 11x9": chequered(11, 9), "lattice 4x4": lattice(4, 4), "lattice 10x11": lattice(10, 11)}


def write(folder, sheets):
    """Writes FOLDER/NAME.sheet for each sheet."""
    folder.mkdir(parents=True, exist_ok=True)
    for name, data in sheets.items():
        (folder / (re.sub(r"[^a-z0-9]+", "-", name.lower()) + ".sheet")).write_bytes(data)


def sheets_of(facets_by_name):
    """The sheet of each mesh."""
    return {name: from_facets(facets) for name, facets in facets_by_name.items()}


def full():
    """Sheets with as many cells in every dimension, by name: as many as the host calls take, and as the library's calls take."""
    return {f"full {count}": sheet_cases.full(count) for count in (PROGRAM_COUNT_LIMIT, LIBRARY_COUNT_LIMIT)}


def main():
    """Writes the sheets to FOLDER, those with many loops to FOLDER/loops, those with as many cells in every dimension to FOLDER/full."""
    parser = argparse.ArgumentParser(description=__doc__)
    parser.add_argument("folder", metavar="FOLDER", type=Path)
    folder = parser.parse_args().folder
    write(folder, sheets_of({**meshes.sized(), **between()}))
    write(folder / "loops", sheets_of(many_loops()))
    write(folder / "full", full())


if __name__ == "__main__":
    main()
