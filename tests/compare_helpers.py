#!/usr/bin/env python3
"""Compares the helpers of include/fildwuk.h, through a C driver, with the model: counts, cells and places of sheets, numbers and coefficients in bytes.

The text of each answer is held to start its line in the table of docs/FORMAT.md.
"""

import argparse
import random
import re
import struct
import subprocess
import sys
from itertools import combinations
from pathlib import Path

from make_sheets import known_sheets
from model import random_meshes, sheet_cases
from model.sheet import DIMENSIONS, LIBRARY_COUNT_LIMIT, VERTEX_LIMIT, from_facets, parse

DRIVER = Path("target/host/helpers")
FORMAT = Path("docs/FORMAT.md")
ANSWERS = 19
NO_ANSWER = "no answer of this release"
EDGES_OF_NUMBERS = [0, 1, -1, 127, 128, 255, 256, -128, -129, 32767, -32767]
RANDOM_SHEETS = 60
RANDOM_NUMBERS = 200


def sound_sheets(rng):
    """Sound sheets by name, with their cells."""
    made = {**sheet_cases.at_limit(LIBRARY_COUNT_LIMIT), **sheet_cases.at_word_edges()}
    sheets = {**known_sheets(), **{name: data for name, (data, number) in made.items() if number == 0}}
    for i in range(RANDOM_SHEETS):
        sheets[f"random {i}"] = from_facets(random_meshes.complex_of(rng, LIBRARY_COUNT_LIMIT))
    sheets["no cells"] = from_facets([])
    return {name: (data, parse(data, LIBRARY_COUNT_LIMIT)) for name, data in sheets.items()}


def sheet_line(data, sheet):
    """The length, the counts from dimension -1 to 4, and all cells."""
    counts = "".join(f" {sheet.count(p)}" for p in range(-1, DIMENSIONS + 1))
    cells = "".join(";" + "".join(f" {v}" for v in cell) for p in range(DIMENSIONS) for cell in sheet.cells(p))
    return f"{len(data)};{counts}{cells}"


def near(rng, cell):
    """The cell with one vertex moved by one, where it still is a cell of rising vertices in range."""
    place, step = rng.randrange(len(cell)), rng.choice([-1, 1])
    moved = cell[:place] + (cell[place] + step,) + cell[place + 1:]
    rising = all(a < b for a, b in combinations(moved, 2))
    return [moved] if rising and 0 <= moved[place] <= VERTEX_LIMIT else []


def probes(rng, sheet):
    """Cells to look for, by dimension: all of the sheet, some near them, and random ones."""
    for p in range(DIMENSIONS):
        cells = sheet.cells(p)
        for cell in cells:
            yield p, cell
            yield from ((p, other) for other in near(rng, cell))
        vertices = sorted({v for cell in sheet.cells(0) for v in cell} | {0, 1, 2, 3, VERTEX_LIMIT})
        for _ in range(10):
            yield p, tuple(sorted(rng.sample(vertices, p + 1)))
    yield DIMENSIONS, (0, 1, 2, 3)


def place_line(sheet, p, cell):
    """The cell's place, for an edge also by its nodes both ways."""
    cells = sheet.cells(p)
    place = f" {cells.index(cell)}" if cell in cells else " none"
    return place * (3 if p == 1 else 1)


def numbers(rng, letter, width, bits):
    """Requests for numbers in bytes, with the lines due."""
    most = 2 ** (bits - 1)
    chosen = EDGES_OF_NUMBERS + [most - 1, -most, 1 - most] + [rng.randrange(-most, most) for _ in range(RANDOM_NUMBERS)]
    for number in chosen:
        yield letter.encode() + number.to_bytes(width, "little", signed=True), f" {number}" * 2


def answers():
    """Requests for the texts of answers, with the texts due: what starts the line of docs/FORMAT.md, up to a colon or its end."""
    told = dict(re.findall(r"^\| (\d+) \| ([^|:]*?)(?::[^|]*)? \|$", FORMAT.read_text(), re.M))
    due = ["done"] + [told.get(str(n), "a line that docs/FORMAT.md lacks") for n in range(1, ANSWERS)]
    due += [NO_ANSWER]
    for number, text in enumerate(due):
        yield b"A" + struct.pack("<I", number), text
    yield b"A" + struct.pack("<I", 2 ** 32 - 1), NO_ANSWER


def all_requests(rng):
    """Every request with the line due."""
    for data, sheet in sound_sheets(rng).values():
        yield b"S" + struct.pack("<I", len(data)) + data, sheet_line(data, sheet)
        for p, cell in probes(rng, sheet):
            vertices = (cell + (0, 0, 0))[:DIMENSIONS]
            yield b"P" + struct.pack("<I4H", p, *vertices), place_line(sheet, p, cell)
    yield from numbers(rng, "N", 8, 64)
    yield from numbers(rng, "K", 4, 32)
    yield from answers()


def main():
    parser = argparse.ArgumentParser(description=__doc__)
    parser.add_argument("--driver", type=Path, default=DRIVER)
    parser.add_argument("--seed", type=int, default=1)
    options = parser.parse_args()
    made = list(all_requests(random.Random(options.seed)))
    run = subprocess.run([options.driver], input=b"".join(request for request, _ in made), capture_output=True, check=False)
    found = run.stdout.decode().splitlines()
    wrong = [(due, line) for (_, due), line in zip(made, found) if due != line]
    for due, line in wrong[:5]:
        print(f"due:   {due[:200]}\nfound: {line[:200]}")
    print(f"{len(made)} requests, {len(found)} lines, {len(wrong)} differ, status {run.returncode}")
    return 1 if wrong or run.returncode or len(found) != len(made) else 0


if __name__ == "__main__":
    sys.exit(main())
