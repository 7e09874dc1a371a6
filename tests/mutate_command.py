#!/usr/bin/env python3
"""Runs every command of fildwuk on 100,000 mutated mesh texts and sheets, in process and built with sanitizers (tests/host/command_mutations.c)."""

import argparse
import random
import subprocess
import tempfile
from pathlib import Path

from compare_gmsh import due_answers, stored
from make_sheets import random_sheets
from model import meshes, sheet_cases
from model.sheet import PROGRAM_COUNT_LIMIT, from_facets

DRIVER = Path("target/host/command_mutations")
LONGEST = 4000


def inputs(rng):
    """The texts and sheets to mutate, by name: small ones, so that a change matters and a run is short."""
    found = {f"{line.name}.msh": stored(line.name) for line in due_answers()}
    found.update((path.name, path.read_bytes()) for path in Path("tests/meshes").glob("*_loops.msh"))
    found.update({name: data for name, data in random_sheets(rng, 3).items()})
    found.update({name: from_facets(facets) for name, facets in (("plane", meshes.projective_plane()), ("bottle", meshes.klein_bottle()))})
    found.update({f"loose {i}": from_facets([*facets, (0,), (300,), (9999,)]) for i, facets in enumerate(([(1, 2)], meshes.projective_plane()))})
    found.update({name: data for name, (data, _) in list(sheet_cases.damaged(PROGRAM_COUNT_LIMIT).items())[::40]})
    return {name: data for name, data in found.items() if len(data) <= LONGEST}


def main():
    """Exits with 1 where a run fails, or where an answer of the import or of the sweep was never due."""
    parser = argparse.ArgumentParser(description=__doc__, formatter_class=argparse.RawDescriptionHelpFormatter)
    parser.add_argument("--driver", type=Path, default=DRIVER, metavar="FILE", help="the built driver (target/host/command_mutations)")
    parser.add_argument("--count", type=int, default=100000, metavar="N", help="mutated texts and sheets (100000)")
    parser.add_argument("--seed", type=int, default=1, help="seed of the mutations (1)")
    options = parser.parse_args()
    with tempfile.TemporaryDirectory() as folder:
        names = []
        for i, data in enumerate(inputs(random.Random(options.seed)).values()):
            names.append(Path(folder) / str(i))
            names[-1].write_bytes(data)
        ran = subprocess.run([options.driver.resolve(), str(options.count), str(options.seed), *names], cwd=folder, capture_output=True, text=True,
                             check=False)
        text = Path(folder) / "failed_text"
        failed = text.read_bytes() if text.exists() else b""
    print(ran.stdout + ran.stderr[-3000:], end="")
    if failed:
        print(f"the text: {failed!r}")
    raise SystemExit(1 if ran.returncode != 0 or " 0 " in ran.stdout else 0)


if __name__ == "__main__":
    main()
