#!/usr/bin/env python3
"""Writes the texts of bench/import.c, of some 50 MB each: a large mesh, with every element in several groups, as Gmsh writes it; a small mesh whose
elements stand there over and over, which is imported; and a small mesh after a long section that is passed over."""

import argparse
import random
from itertools import cycle, islice, permutations, product
from pathlib import Path

MEGABYTES = 50
SIDE = 40  # nodes on an edge of the large mesh, 64,000 in all

# A ring of 18 tetrahedra, examples/copper_ring.msh, which is within 48 cells in every dimension.
RING = [(2, 1, 4, 8), (5, 6, 8, 2), (5, 2, 8, 1), (2, 4, 3, 7), (8, 6, 7, 2), (8, 2, 7, 4), (6, 5, 8, 12), (9, 10, 12, 6), (9, 6, 12, 5),
        (6, 8, 7, 11), (12, 10, 11, 6), (12, 6, 11, 8), (10, 9, 12, 4), (1, 2, 4, 10), (1, 10, 4, 9), (10, 12, 11, 3), (4, 2, 3, 10), (4, 10, 3, 12)]


def node_lines(count):
    """So many nodes, with coordinates in 16 digits."""
    rng = random.Random(1)
    return [f"{i} {rng.random():.16g} {rng.uniform(-1, 1):.16g} {rng.random():.16g}\n" for i in range(1, count + 1)]


def tetrahedra():
    """The tetrahedra of a cube of nodes, six for each small cube."""
    step = (1, SIDE, SIDE * SIDE)
    for x, y, z in product(range(SIDE - 1), repeat=3):
        corner = 1 + x + SIDE * y + SIDE * SIDE * z
        for a, b, _ in permutations(step):
            yield corner, corner + a, corner + a + b, corner + sum(step)


def element_lines(facets, size):
    """Element lines until they have so many bytes: every facet in group 1, then in group 2, up to 4, and again."""
    lines, written = [], 0
    grouped = ((group, facet) for group in cycle(range(1, 5)) for facet in facets)
    for number, (group, facet) in enumerate(grouped, 1):
        lines.append(f"{number} 4 2 {group} 1 {' '.join(map(str, facet))}\n")
        written += len(lines[-1])
        if written >= size:
            return lines


def text(nodes, elements, sections=""):
    """The whole text."""
    return (f"$MeshFormat\n2.2 0 8\n$EndMeshFormat\n{sections}$Nodes\n{len(nodes)}\n{''.join(nodes)}$EndNodes\n"
            f"$Elements\n{len(elements)}\n{''.join(elements)}$EndElements\n")


def texts(size):
    """The texts by name, of about so many bytes each."""
    nodes = node_lines(SIDE ** 3)
    left = size - sum(map(len, nodes))
    yield "large_mesh", text(nodes, element_lines(list(tetrahedra()), left))
    yield "repeated", text(nodes, element_lines(RING, left))
    lines = islice(cycle(nodes), size * len(nodes) // sum(map(len, nodes)))
    yield "passed_over", text(nodes[:12], element_lines(RING, 100), f"$Comments\n{''.join(lines)}$EndComments\n")


def main():
    """Writes FOLDER/NAME.msh for each text."""
    parser = argparse.ArgumentParser(description=__doc__)
    parser.add_argument("folder", metavar="FOLDER", type=Path)
    parser.add_argument("--megabytes", type=int, default=MEGABYTES, metavar="N", help=f"the length of a text ({MEGABYTES})")
    options = parser.parse_args()
    options.folder.mkdir(parents=True, exist_ok=True)
    for name, content in texts(1000000 * options.megabytes):
        (options.folder / f"{name}.msh").write_text(content, encoding="ascii")


if __name__ == "__main__":
    main()
