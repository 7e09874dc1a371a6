#!/usr/bin/env python3
"""Checks that the comparisons of the host calls and of the library's calls with the model tell every fault of tests/host/faulty_residues.c.

Only the cases of residues are compared: some call must differ with each fault, and none without one.
"""

import contextlib
import io
import os
from pathlib import Path

import compare_host
import compare_library
from drivers import count_differing
from model import residue_cases

DRIVERS = Path("target/host")
FAULTS = ["answers 0 to d - 1", "answers 0 to d - 1 in lists", "answers 0 to d - 1 in single calls", "answers -d/2 for d/2",
          "answers -(d + 1)/2 for (d - 1)/2", "answers -1 for order 2"]
FAULTS_OF_LARGE_ORDERS = ["answers 0 to d - 1 for orders above 8"]

# A tower with an order above 8.
FLOORS = 10


def count_untold(name, cases, calls_of, faults):
    """How many of the faults no call tells, and one more where a call differs without a fault; says how many calls differ."""
    calls = [expected for _, expected in residue_cases.with_due(cases, calls_of)[0]]
    untold = 0
    for fault in ["none", *faults]:
        os.environ["FAULT"] = fault
        with contextlib.redirect_stdout(io.StringIO()):
            differing = count_differing(DRIVERS / f"faulty_residues_{name}", calls)
        told = differing > 0
        untold += told == (fault == "none")
        print(f"{'told' if told else 'not told'}: a call of {name} with fault: {fault}; {differing} of {len(calls)} calls differ")
    return untold


def main():
    """Exits with 1 where a fault is not told, or one is where there is none."""
    small = residue_cases.small()
    untold = count_untold("driver", small, compare_host.residue_calls, FAULTS)
    untold += count_untold("library_driver", [*small, residue_cases.tower(FLOORS)], compare_library.residue_calls,
                           FAULTS + FAULTS_OF_LARGE_ORDERS)
    raise SystemExit(1 if untold else 0)


if __name__ == "__main__":
    main()
