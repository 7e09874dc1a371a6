#!/usr/bin/env python3
"""Writes the input of crate reduction_cases and the output due, by the model: the matrices of make_matrices.py at the entry limit of 01."""

import argparse
import random
from pathlib import Path

from make_matrices import entries, outcome_text
from model.matrix_cases import named, random_cases


def packed(case):
    """One byte each for rows, columns and companions, then the entries row by row, four bytes each."""
    head = bytes([case.rows, case.cols, case.companions])
    return head + b"".join(x.to_bytes(4, "little", signed=True) for x in entries(case.matrix))


def main():
    """Writes FOLDER/stdin and FOLDER/stdout."""
    parser = argparse.ArgumentParser(description=__doc__)
    parser.add_argument("folder", metavar="FOLDER", type=Path, help="crates/reduction_cases")
    parser.add_argument("--count", type=int, default=1000, help="random matrices (1000)")
    parser.add_argument("--seed", type=int, default=1, help="seed of the random matrices (1)")
    options = parser.parse_args()
    cases = named() + random_cases(random.Random(options.seed), options.count)
    data = b"".join(map(packed, cases))
    (options.folder / "stdin").write_bytes(data)
    (options.folder / "stdout").write_text("".join(map(outcome_text, cases)), encoding="ascii")
    print(f"{len(cases)} matrices, {len(data)} bytes")


if __name__ == "__main__":
    main()
