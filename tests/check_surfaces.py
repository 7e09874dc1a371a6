#!/usr/bin/env python3
"""Checks that the comparisons of the surface calls with the model tell every fault of tests/host/faulty_surfaces.c.

Some of the cases of tests/compare_surfaces.py are compared: some call must differ with each fault, and none without one.
"""

import argparse
import contextlib
import io
import os
import random
from pathlib import Path

from compare_surfaces import host_call, library_call
from drivers import count_differing
from model import meshes, surface_cases
from model.sheet import LIBRARY_COUNT_LIMIT, PROGRAM_COUNT_LIMIT, from_facets, parse
from model.surface_chains import Cycles
from model.wide_surfaces import CASES

FAULTS = ["takes coefficients up to 32767", "takes 16", "refuses 15", "refuses -15", "tells 12 before 11", "tells 10 before 9",
          "asks for a slot for each cell of the chain", "lets twisted cycles pass", "lets free cycles pass", "writes a surface and answers 17",
          "writes the slot past the surface", "leaves out the last coefficient", "answers the surface the other way round", "answers another surface"]
FAULTS_OF_HOST = ["takes an incomplete coefficient", "takes an incomplete slot"]
FAULTS_OF_LIBRARY = ["tells 17 before 13", "keeps the tracked columns out of the limit", "asks for the work slots of the coordinates",
                     "leaves the work slice after 17", "leaves the work slice after 13", "clears the work slice after an early refusal",
                     "leaves the tracked columns in the work slice", "clears no more of the work slice than it uses", "reads the work slice",
                     "reads past the sheet", "reads past the chain", "writes to the chain", "writes past the lent surface",
                     "writes before the lent surface", "writes past the work slice", "writes before the work slice"]


def small_cases(rng, count_limit):
    """Every two faults, coefficients about the limit, and known complexes with free and twisted loops and with several surfaces for one loop."""
    made = surface_cases.of_faults(count_limit) + surface_cases.of_coefficients()
    for name in ("filled triangle", "torus", "klein bottle", "projective plane", "moore 3", "sphere 2"):
        made += surface_cases.of_dimension(rng, name, from_facets(meshes.known()[name][0]), 1, count_limit, 12)
    return made


def wide_cases(rng):
    """Cycles on the smallest sheet where the tracked columns alone go too wide."""
    name, (p, facets) = next(iter(CASES.items()))
    data = from_facets(facets)
    made = Cycles(rng, data, p, LIBRARY_COUNT_LIMIT)
    return surface_cases.of_chains(name, data, parse(data, LIBRARY_COUNT_LIMIT), p, [made.bounding(), *(made.simple() for _ in range(4))])


def count_untold(driver, calls, faults):
    """How many of the faults no call tells, and one more where a call differs without a fault; says how many calls differ."""
    untold = 0
    for fault in ["none", *faults]:
        os.environ["FAULT"] = fault
        with contextlib.redirect_stdout(io.StringIO()):
            differing = count_differing(driver, calls)
        told = differing > 0
        untold += told == (fault == "none")
        print(f"{'told' if told else 'not told'}: a call of {driver.name} with fault: {fault}; {differing} of {len(calls)} calls differ")
    return untold


def main():
    """Exits with 1 where a fault is not told, or one is where there is none."""
    parser = argparse.ArgumentParser(description=__doc__)
    parser.add_argument("--drivers", type=Path, default=Path("target/host"), metavar="FOLDER", help="where the built drivers are (target/host)")
    drivers, rng = parser.parse_args().drivers, random.Random(7)
    host = [host_call(rng, case).expected(case.name, case.data) for case in small_cases(rng, PROGRAM_COUNT_LIMIT)]
    cases = small_cases(rng, LIBRARY_COUNT_LIMIT) + wide_cases(rng)
    library = [library_call(rng, case).expected(case.name, case.data) for case in cases]
    untold = count_untold(drivers / "faulty_surfaces_driver", host, FAULTS + FAULTS_OF_HOST)
    untold += count_untold(drivers / "faulty_surfaces_library_driver", library, FAULTS + FAULTS_OF_LIBRARY)
    raise SystemExit(1 if untold else 0)


if __name__ == "__main__":
    main()
