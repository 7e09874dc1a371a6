#!/usr/bin/env python3
"""Checks that the comparison of the sweep calls with the model tells every fault of tests/host/faulty_sweep.c.

Some of the cases of tests/compare_sweep.py are compared, by the host call and by the library's: some call must differ with each fault, and none
without one.
"""

import argparse
import contextlib
import io
import os
import random
from pathlib import Path

from compare_sweep import LIMITS, expected
from drivers import count_differing
from model import loose_cases, sheet_cases
from model.sweep_cases import rooms

DRIVER = Path("target/host/faulty_sweep_driver")

FAULTS = ["keeps loose nodes", "drops the first loose node alone", "drops the last vertex", "keeps the last vertex", "keeps the first vertex",
          "drops what no edge starts with", "drops what no edge ends with", "compares the low bytes alone", "compares the high bytes alone",
          "drops vertices of a sheet without edges", "drops what no triangle has", "keeps the old count", "keeps the old offsets",
          "leaves out the last cell", "writes a byte past the sheet", "clears the rest of the slice", "writes another sheet the second time",
          "tells 18", "asks for the room of the given sheet", "asks for a byte more", "takes a byte less", "takes a cell less than the limit",
          "tells 16 before 1 to 7", "lets 4 pass", "lets 5 pass", "lets 6 pass", "lets 7 pass", "writes and refuses with 7",
          "writes and refuses with 16", "reads the slice", "answers another number the second time", "reads past the sheet", "reads before the sheet",
          "writes to the sheet", "reads past the slice", "writes past the slice", "writes before the slice", "takes long", "the report never tells 18",
          "the report tells 18 without edges", "the report tells 18 before 7"]
FAULTS_OF_HOST = ["takes a cell more than the limit", "counts what is left"]


def calls(kind, limit):
    """Calls on sheets with each fault alone, with a missing face and a loose node, with loose nodes and without edges."""
    rng, edits = random.Random(13), sheet_cases.faults(limit)
    damaged = {name: case for name, case in sheet_cases.damaged(limit).items() if name in edits or name.startswith("face 5 missing, ")}
    sheets = {**damaged, **sheet_cases.at_limit(limit), **loose_cases.sheets(limit)}
    return [expected(name, data, kind, rng.randbytes(room)) for name, (data, _) in sheets.items() for room in rooms(rng, data, limit)]


def count_untold(driver, kind, made, faults):
    """How many of the faults no call tells, and one more where a call differs without a fault; says how many calls differ."""
    untold = 0
    for fault in ["none", *faults]:
        os.environ["FAULT"] = fault
        with contextlib.redirect_stdout(io.StringIO()):
            differing = count_differing(driver, made)
        told = differing > 0
        untold += told == (fault == "none")
        print(f"{'told' if told else 'not told'}: a call {kind} with fault: {fault}; {differing} of {len(made)} calls differ")
    return untold


def main():
    """Exits with 1 where a fault is not told, or one is where there is none."""
    parser = argparse.ArgumentParser(description=__doc__, formatter_class=argparse.RawDescriptionHelpFormatter)
    parser.add_argument("--driver", type=Path, default=DRIVER, metavar="FILE", help="the built driver (target/host/faulty_sweep_driver)")
    driver = parser.parse_args().driver
    untold = sum(count_untold(driver, kind, calls(kind, limit), FAULTS + (FAULTS_OF_HOST if kind == "H" else [])) for kind, limit in LIMITS.items())
    raise SystemExit(1 if untold else 0)


if __name__ == "__main__":
    main()
