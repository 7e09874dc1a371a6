#!/usr/bin/env python3
"""Writes matrices and what document 01's reduction makes of them, by the model."""

import argparse
import random
from pathlib import Path

from model import matrix_cases
from model.matrix_cases import COMPANIONS

FORMATS = """\
files written to FOLDER:
  inputs.txt        two lines for each matrix: rows, columns, entry limit and
                    companions; then the entries row by row
  outcomes.txt      for each matrix `D` and the rank, then `M` and the entries left,
                    then one line for each companion asked for, in this order:
                    `R` row follower, `r` its inverse, `C` column follower, `c` its
                    inverse; or the single line `T` where it goes too wide
  names.txt         one name for each matrix
  small_inputs.txt, small_outcomes.txt, small_names.txt
                    the same at limits below that of 01
companions are the sum of 1 row follower, 2 its inverse, 4 column follower, 8 its
inverse; each starts as the identity."""
MARKS = dict(zip(COMPANIONS, "RrCc"))
SMALL_LIMITS = (1, 2, 3, 5, 9, 20, 100)


def line(fields):
    """The fields with one space between and a line feed after."""
    return " ".join(map(str, fields)) + "\n"


def entries(matrix):
    """The entries row by row."""
    return [x for row in matrix for x in row]


def input_text(case):
    """The two lines that give a matrix."""
    head = line([case.rows, case.cols, case.limit, case.companions])
    return head + line(entries(case.matrix))


def outcome_text(case):
    """The lines that tell what becomes of a matrix."""
    reduced = case.outcome()
    if reduced is None:
        return "T\n"
    text = line(["D", reduced.rank]) + line(["M", *entries(reduced.matrix)])
    for name in case.asked():
        text += line([MARKS[name], *entries(getattr(reduced, name))])
    return text


def write(folder, prefix, cases):
    """Writes the three files of a list of cases."""
    for name, text_of in (("inputs", input_text), ("outcomes", outcome_text),
                          ("names", lambda case: case.name + "\n")):
        path = folder / f"{prefix}{name}.txt"
        path.write_text("".join(map(text_of, cases)), encoding="ascii")


def main():
    parser = argparse.ArgumentParser(description=__doc__, epilog=FORMATS,
                                     formatter_class=argparse.RawDescriptionHelpFormatter)
    parser.add_argument("folder", type=Path, metavar="FOLDER", help="made if it does not exist")
    parser.add_argument("--count", type=int, default=1000, help="random matrices (1000)")
    parser.add_argument("--seed", type=int, default=1, help="seed of the random matrices (1)")
    options = parser.parse_args()
    options.folder.mkdir(parents=True, exist_ok=True)
    rng = random.Random(options.seed)
    cases = matrix_cases.named() + matrix_cases.random_cases(rng, options.count)
    small = matrix_cases.named_small() + matrix_cases.random_cases(
        rng, options.count, SMALL_LIMITS)
    write(options.folder, "", cases)
    write(options.folder, "small_", small)
    print(f"{len(cases)} matrices at the limit of 01, {len(small)} at small limits")


if __name__ == "__main__":
    main()
