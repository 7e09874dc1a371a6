#!/usr/bin/env python3
"""Writes the data of the crates projective_plane and moore_space: sheets with one loop of finite order.

The sheet, what its two reductions of dimension 1 leave, its report, the coordinates of its
generator and of multiples of it, the surface that such a multiple bounds, and the lines that
the program prints are the model's.
"""

import argparse
from dataclasses import dataclass
from pathlib import Path

from make_reduction_examples import Case, numbers, table
from model import homology
from model.calls import BOUNDS_NOTHING, DONE, library_surface, program_output
from model.matrices import apply, boundary, identity, multiply, transpose
from model.meshes import moore_space, tower
from model.reduction import ENTRY_LIMIT
from model.sheet import LIBRARY_COUNT_LIMIT, closure, from_facets, parse
from model.surface import work_slots

DIMENSION = 1
SECTIONS = ("vertices", "edges", "triangles", "tetrahedra")
HEADER = """\
-- Written by tests/make_torsion_examples.py: the numbers are those of the Python model of document 01, tests/model.
use Rattle.std.specs.Prelude.{List, [], ◌∷◌, ℕ, ℤ, pos, neg_ℤ}
use Rattle.complexes.specs.Complex.{Sections}
use Rattle.reduction_steps.specs.State.{State}

abbrev minus : ℕ → ℤ
minus n = neg_ℤ (pos n)
"""


@dataclass(frozen=True)
class Multiple:
    """A multiple of the loop: its name, what it is, the factor and the coordinate that it must have."""

    name: str
    text: str
    factor: int
    coordinate: int


@dataclass(frozen=True)
class Example:
    """A sheet, what it is, the file of its data, the loop with its multiples, and the one of them whose surface is asked for."""

    file: str
    text: str
    facets: list
    chains: list
    bounding: Multiple = None


LOOP = Multiple("loop", "the generator, a loop", 1, 1)
TWICE = Multiple("twice", "twice the loop", 2, 0)
EXAMPLES = [
    Example("projective_plane/specs/Plane.antt",
            'The doubling tower with one floor of document 01, "Sheets to try": a projective plane', tower(1),
            [LOOP, TWICE, Multiple("backwards", "the loop run backwards", -1, 1)], TWICE),
    Example("moore_space/specs/Space.antt",
            "A disc whose rim runs three times round a triangle: a Moore space of order 3", moore_space(3),
            [LOOP, Multiple("twice", "twice the loop", 2, -1),
             Multiple("thrice", "three times the loop", 3, 0),
             Multiple("backwards", "the loop run backwards", -1, -1)]),
]


def bytes_of(data):
    """Bytes as a list of numbers."""
    return " ∷ ".join([str(byte) for byte in data] + ["[]"])


def cells_of(section):
    """The cells of a section as a list."""
    return " ∷ ".join([f"({bytes_of(cell)})" for cell in section] + ["[]"])


def sections(cells):
    """Sections as lists of cells."""
    parts = [f"({cells_of(section)})" if section else "[]" for section in cells]
    return "\n    ∷ ".join(parts + ["[]"])


def tall(rows):
    """Rows as a list of lists, a line for each."""
    indent = "\n" + 10 * " "
    return indent + f"{indent}∷ ".join([f"({numbers(row)})" for row in rows] + ["[]"])


def definition(about, name, kind, value):
    """A definition with its comment."""
    return f"\n-- {about}\nabbrev pub {name} : {kind}\n{name} =\n    {value}\n"


def peak_of(sheet, tracked=()):
    """The largest absolute value that an entry of the two reductions has had, those of the columns tracked in the second included."""
    n, above = sheet.count(DIMENSION), sheet.count(DIMENSION + 1)
    first = Case("the first", sheet.count(DIMENSION - 1), n, boundary(sheet, DIMENSION), ENTRY_LIMIT,
                 {"column": identity(n), "column_inverse": identity(n)})
    made = first.outcome()
    q = made.column_inverse[made.rank:]
    g = [row[made.rank:] for row in made.column]
    second = Case("the second", n - made.rank, above, multiply(q, boundary(sheet, DIMENSION + 1), above),
                  ENTRY_LIMIT, {"row": q, "row_inverse": g, **{name: identity(above) for name in tracked}})
    return max(first.peak(), second.peak())


def state(found, columns, peak):
    """The state that the second reduction leaves: a diagonal, the rows of Q, the columns of G, the peak."""
    matrix = [[kind if i == j else 0 for j in range(columns)] for i, kind in enumerate(found.kinds)]
    absent = table([[] for _ in range(columns)])
    return ("record {\n"
            f"      matrix ={tall(matrix)};\n"
            f"      row_follower ={tall(found.rows)};\n"
            f"      row_inverse ={tall(found.generators)};\n"
            f"      column_follower = {absent};\n"
            f"      column_inverse = {absent};\n"
            f"      peak = {peak};\n"
            "    }")


def times(factor, chain):
    """A multiple of a chain."""
    return [factor * x for x in chain]


def printed(data, generators):
    """The lines that the program prints for the dimension."""
    lines = program_output(data).splitlines(keepends=True)
    first = next(i for i, line in enumerate(lines) if line.startswith(f"H {DIMENSION} "))
    return "".join(lines[first:first + 1 + len(generators)])


def counted(sheet):
    """How many cells of each dimension there are."""
    counts = [sheet.count(p) for p in range(len(SECTIONS))]
    return ", ".join(f"{count} {name}" for count, name in zip(counts, SECTIONS) if count)


def chains(example, data, loop):
    """The loop and its multiples, each checked for its coordinate."""
    for one in example.chains:
        chain = times(one.factor, loop)
        assert homology.coordinates(data, DIMENSION, chain) == [one.coordinate], one.text
        yield definition(one.text, one.name, "List ℤ", numbers(chain))


def surfaces(example, data, loop):
    """What the second reduction leaves where its columns are tracked, and the surface that a multiple of the loop bounds."""
    if example.bounding is None:
        return
    sheet = parse(data, LIBRARY_COUNT_LIMIT)
    above = sheet.count(DIMENSION + 1)
    lent, work = [0] * above, [0] * work_slots(sheet, DIMENSION)
    chain = times(example.bounding.factor, loop)
    number, surface, _ = library_surface(data, DIMENSION, chain, lent, work)
    assert number == DONE and apply(boundary(sheet, DIMENSION + 1), surface) == chain, example.text
    assert library_surface(data, DIMENSION, loop, lent, work)[0] == BOUNDS_NOTHING, example.text
    found = homology.classes(sheet, DIMENSION, tracked=True)
    yield definition("what it leaves where the transform of its columns is kept", "tracked", "State", "record {\n"
                     "      matrix = left.matrix;\n"
                     "      row_follower = left.row_follower;\n"
                     "      row_inverse = left.row_inverse;\n"
                     f"      column_follower ={tall(transpose(found.second.column, above))};\n"
                     "      column_inverse = left.column_inverse;\n"
                     f"      peak = {peak_of(sheet, ('column',))};\n"
                     "    }")
    yield definition(f"the surface that {example.bounding.text} bounds", "surface", "List ℤ", numbers(surface))


def content(example):
    """The text of a file."""
    data = from_facets(example.facets)
    sheet = parse(data, LIBRARY_COUNT_LIMIT)
    found = homology.classes(sheet, DIMENSION)
    report = homology.report(data, DIMENSION)
    left = state(found, sheet.count(DIMENSION + 1), peak_of(sheet))
    text = printed(data, report.generators)
    return f"-- {example.text}. Its sheet, and what dimension 1 comes to.\n" + HEADER + "".join([
        definition(counted(sheet), "cells", "Sections", sections(closure(example.facets))),
        definition("their sheet", "sheet", "List ℕ", bytes_of(data)),
        definition("what the second reduction leaves", "left", "State", left),
        definition("b, t, the orders and the generator", "report", "List ℤ", numbers(report.numbers())),
        *chains(example, data, report.generators[0]),
        *surfaces(example, data, report.generators[0]),
        definition(", then ".join(text.splitlines()), "text", "List ℕ", bytes_of(text.encode())),
    ])


def main():
    parser = argparse.ArgumentParser(description=__doc__.splitlines()[0])
    parser.add_argument("crates", type=Path, metavar="CRATES", help="the folder of the crates")
    crates = parser.parse_args().crates
    for example in EXAMPLES:
        (crates / example.file).write_text(content(example), encoding="utf-8")


if __name__ == "__main__":
    main()
