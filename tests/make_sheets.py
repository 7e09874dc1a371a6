#!/usr/bin/env python3
"""Writes sound and damaged sheets, with what documents 01 and 02 answer to each, by the model."""

import argparse
import random
import re
from pathlib import Path

from model import loose_cases, meshes, random_meshes, sheet_cases
from model.calls import program_output
from model.sheet import LIBRARY_COUNT_LIMIT, PROGRAM_COUNT_LIMIT, from_facets, refusal

FORMATS = """\
files written to FOLDER:
  NAME.sheet     the bytes
  expected.txt   a line for each: NAME, its refusal at 48 cells in a dimension and its
                 refusal at 256, 0 where it is accepted
  NAME.out       with --outputs, what the program prints for it"""

# For every so many random sheets there is one with loose nodes.
LOOSE_EVERY = 5


def known_sheets():
    """The complexes with known homology and the meshes near the limits."""
    named = {name: facets for name, (facets, _) in meshes.known().items()}
    return {name: from_facets(facets) for name, facets in {**meshes.sized(), **named}.items()}


def fault_sheets():
    """The sheets for checks 1 to 7 and 18 at both limits; stops if the model differs from what is due."""
    sheets = {}
    for limit in (PROGRAM_COUNT_LIMIT, LIBRARY_COUNT_LIMIT):
        cases = {**sheet_cases.damaged(limit), **sheet_cases.at_limit(limit), **loose_cases.sheets(limit)}
        for name, (data, due) in {**cases, **sheet_cases.long_tails(), **sheet_cases.at_word_edges()}.items():
            if refusal(data, limit) != due:
                raise SystemExit(f"{name}: refusal {due} is due at {limit} cells")
            sheets[name] = data
    return sheets


def random_sheets(rng, count):
    """So many random accepted sheets within 48 cells, some with loose nodes beside them, and a damaged copy of each."""
    sheets = {}
    for i in range(count):
        sheets[f"random {i}"] = from_facets(random_meshes.complex_of(rng, PROGRAM_COUNT_LIMIT))
        if i % LOOSE_EVERY == 0:
            sheets[f"random {i} with loose nodes"] = from_facets(random_meshes.loose_complex_of(rng, PROGRAM_COUNT_LIMIT))
    return {**sheets, **{f"{name} damaged": sheet_cases.damage(rng, data) for name, data in sheets.items()}}


def file_name(name):
    """The name with everything but letters, digits and signs turned into dashes."""
    return re.sub(r"[^a-z0-9+-]+", "-", name.lower())


def write(folder, sheets, outputs):
    """Writes the sheets, the expected refusals and, if asked, the program's output."""
    lines = []
    for name, data in sheets.items():
        stem = file_name(name)
        (folder / f"{stem}.sheet").write_bytes(data)
        answers = [refusal(data, limit) for limit in (PROGRAM_COUNT_LIMIT, LIBRARY_COUNT_LIMIT)]
        lines.append(f"{stem} {answers[0]} {answers[1]}\n")
        if outputs:
            (folder / f"{stem}.out").write_text(program_output(data), encoding="ascii")
    if len({line.split()[0] for line in lines}) < len(lines):
        raise SystemExit("two sheets have one name")
    (folder / "expected.txt").write_text("".join(lines), encoding="ascii")


def main():
    parser = argparse.ArgumentParser(description=__doc__, epilog=FORMATS,
                                     formatter_class=argparse.RawDescriptionHelpFormatter)
    parser.add_argument("folder", type=Path, metavar="FOLDER", help="made if it does not exist")
    parser.add_argument("--random", type=int, default=200, metavar="N",
                        help="random accepted sheets, each also in a damaged copy (200)")
    parser.add_argument("--seed", type=int, default=1, help="seed of the random sheets (1)")
    parser.add_argument("--outputs", action="store_true", help="write the program's output too")
    options = parser.parse_args()
    options.folder.mkdir(parents=True, exist_ok=True)
    rng = random.Random(options.seed)
    sheets = {**known_sheets(), **fault_sheets(), **random_sheets(rng, options.random)}
    write(options.folder, sheets, options.outputs)
    print(f"{len(sheets)} sheets")


if __name__ == "__main__":
    main()
