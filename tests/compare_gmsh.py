#!/usr/bin/env python3
"""Compares the import of files that Gmsh wrote with tests/meshes/expected.txt and with the model: the stored files, damaged copies of them and, where
Gmsh is installed, files that it writes anew.
"""

import argparse
import random
import shutil
import subprocess
import tempfile
from dataclasses import dataclass
from pathlib import Path

from compare_import import DRIVER, LIMITS, expected, read
from drivers import count_differing
from model.mesh import import_mesh
from model.mesh_texts import byte_damaged, digit_changed, line_damaged
from model.sheet import longest, parse

ROOT = Path(__file__).resolve().parent.parent
MESHES = ROOT / "tests/meshes"
EXAMPLES = ROOT / "examples"
COPIES = 40


@dataclass(frozen=True)
class Due:
    """What is due for a file: the answers at 48 and 256 cells, and the counts of its sheet, none where it is refused at both."""

    name: str
    answers: tuple
    counts: tuple

    def holds(self, text):
        """Whether the model answers so."""
        found = [import_mesh(text, limit, longest(limit)) for limit in LIMITS.values()]
        sheets = [sheet for _, sheet in found if sheet is not None]
        counts = {tuple(map(parse(sheet, max(LIMITS.values())).count, range(4))) for sheet in sheets}
        return tuple(number for number, _ in found) == self.answers and counts == ({self.counts} if sheets else set())


def due_answers():
    """The lines of expected.txt; what follows the numbers says why."""
    for line in (MESHES / "expected.txt").read_text(encoding="ascii").splitlines():
        if not line.startswith("#"):
            name, *words = line.split()
            size = 6 if "0" in words[:2] else 2
            numbers = tuple(map(int, words[:size]))
            yield Due(name, numbers[:2], numbers[2:])


def stored(name):
    """The stored text of this name."""
    folder = MESHES if (MESHES / f"{name}.msh").exists() else EXAMPLES
    return (folder / f"{name}.msh").read_bytes()


def damaged(rng, texts):
    """Copies of the texts by name with a change or two."""
    for name, text in texts.items():
        for i in range(COPIES):
            changed = rng.choice([byte_damaged, digit_changed, digit_changed, line_damaged])(rng, text)
            yield f"{name}, damaged copy {i}", changed


def count_wrong(driver, texts):
    """How many calls on the texts differ from the model's."""
    rng = random.Random(6)
    made = []
    for name, text in texts.items():
        reading = read(text)
        made += [expected(rng, name, text, reading, kind)[0] for kind in LIMITS for _ in range(3)]
    return count_differing(driver, made)


def fresh():
    """The texts that Gmsh writes now, by name; none where it is not installed."""
    if shutil.which("gmsh") is None:
        print("Gmsh is not installed: the stored files alone")
        return {}
    with tempfile.TemporaryDirectory() as folder:
        subprocess.run(["bash", MESHES / "make", folder], check=True, capture_output=True)
        return {path.stem: path.read_bytes() for path in sorted(Path(folder).glob("*.msh"))}


def main():
    """Exits with 1 where an answer is not the due one or differs from the model's."""
    parser = argparse.ArgumentParser(description=__doc__, formatter_class=argparse.RawDescriptionHelpFormatter)
    parser.add_argument("--driver", type=Path, default=DRIVER, metavar="FILE", help="the built driver (target/host/import_driver)")
    options = parser.parse_args()
    due = list(due_answers())
    unnamed = {path.stem for path in MESHES.glob("*.msh")} - {line.name for line in due}
    texts = {line.name: stored(line.name) for line in due}
    new = fresh()
    wrong = [f"{kind}{line.name}" for kind, found in (("", texts), ("new ", new)) for line in due if found and not line.holds(found[line.name])]
    copies = dict(damaged(random.Random(7), texts))
    differ = count_wrong(options.driver, {**texts, **{f"{name}, new": text for name, text in new.items()}, **copies})
    for name in [*wrong, *unnamed]:
        print(f"{name}: not as expected.txt has it")
    print(f"{len(texts)} stored files, {len(new)} new ones, {len(copies)} damaged copies, {differ + len(wrong) + len(unnamed)} differ")
    raise SystemExit(1 if wrong or unnamed or differ else 0)


if __name__ == "__main__":
    main()
