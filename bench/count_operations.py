#!/usr/bin/env python3
"""Counts, by the independent model, the operations of all four reports of a sheet and the depth of recursion of a stage.

The proved code has no counters; it makes the same operations, and calls itself once for each of the steps a, c and d of a stage."""

import argparse
import sys
from collections import Counter
from pathlib import Path

sys.path.insert(0, str(Path(__file__).resolve().parent.parent / "tests"))
from model import homology, reduction  # noqa: E402
from model.sheet import DIMENSIONS, Refused  # noqa: E402


def counted_run(totals):
    """A run of the model's reduction that adds its tally to totals and keeps the greatest depth."""

    def run(self):
        step, stage, depth = self.step_a, 0, 0
        while step is not None:
            if self.stage != stage:
                stage, depth = self.stage, 0
            depth += step.__name__ in ("step_a", "step_c", "step_d")
            totals["depth"] = max(totals["depth"], depth)
            step = step()
        for name, number in self.tally.items():
            totals["idle" if name.endswith("of 0") else "returns" if name.startswith("return") else "operations"] += number

    return run


def main():
    """Prints a line for each sheet."""
    parser = argparse.ArgumentParser(description=__doc__)
    parser.add_argument("sheets", nargs="+", metavar="FILE.sheet", type=Path)
    print(f"{'sheet':18} {'operations':>10} {'quotient 0':>10} {'returns':>8} {'depth':>6}")
    for path in parser.parse_args().sheets:
        totals = Counter()
        reduction.Reduction.run = counted_run(totals)
        for p in range(DIMENSIONS):
            try:
                homology.report(path.read_bytes(), p)
            except Refused:
                pass
        print(f"{path.stem:18} {totals['operations']:10} {totals['idle']:10} {totals['returns']:8} {totals['depth']:6}")


if __name__ == "__main__":
    main()
