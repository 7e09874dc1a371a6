#!/usr/bin/env python3
"""Runs the examples of the pages as they are printed.

A line of a page that starts with four spaces and `$ ` is a command, and the lines with
four spaces after it are what it writes, messages included. The commands of a page run
one after another in one shell, in a folder with the meshes of examples/ and tests/meshes/,
where fildwuk is the command built with sanitizers.
"""

import argparse
import os
import shutil
import subprocess
import sys
import tempfile
from pathlib import Path

ROOT = Path(__file__).resolve().parent.parent
COMMAND = ROOT / "target/host/fildwuk"
PAGES = ["docs/GMSH.md", "docs/COMMAND.md", "docs/SOLVER.md"]
MARK = "== the next command =="


def examples(page):
    """The commands of a page, each with what is printed after it."""
    found = []
    for line in page.splitlines():
        if line.startswith("    $ "):
            found.append((line[6:], []))
        elif found and line.startswith("    "):
            found[-1][1].append(line[4:])
        elif found and line and found[-1][1] is not None:
            found.append((None, []))
    return [(command, "".join(f"{line}\n" for line in lines)) for command, lines in found if command is not None]


def prepare(folder, command):
    """Fills the folder with the meshes and the command."""
    for source in [*(ROOT / "tests/meshes").glob("*.msh"), *(ROOT / "tests/meshes").glob("*.geo"), *(ROOT / "examples").iterdir()]:
        shutil.copy(source, folder)
    (folder / "bin").mkdir()
    (folder / "bin/fildwuk").symlink_to(command)


def run(folder, commands):
    """What each of the commands writes, in one shell."""
    script = "".join(f"echo '{MARK}' >&2; (exit $status)\n{command}\nstatus=$?\n" for command in commands)
    path = f"{folder / 'bin'}:{os.environ['PATH']}"
    done = subprocess.run(["bash", "-c", f"exec 2>&1\nstatus=0\n{script}"], cwd=folder, env={**os.environ, "PATH": path}, capture_output=True, text=True,
                          timeout=120, check=False)
    return done.stdout.split(f"{MARK}\n")[1:]


def main():
    parser = argparse.ArgumentParser(description=__doc__, formatter_class=argparse.RawDescriptionHelpFormatter)
    parser.add_argument("--command", type=Path, default=COMMAND)
    command = parser.parse_args().command.resolve()
    total = wrong = 0
    for page in PAGES:
        with tempfile.TemporaryDirectory() as name:
            prepare(Path(name), command)
            found = examples((ROOT / page).read_text(encoding="utf-8"))
            for (line, due), written in zip(found, run(Path(name), [line for line, _ in found]), strict=True):
                if written != due:
                    wrong += 1
                    print(f"{page}: $ {line}\nwrites\n{written}not\n{due}")
        total += len(found)
        wrong += not found
    print(f"{total} examples of {len(PAGES)} pages, {wrong} differ")
    return 1 if wrong else 0


if __name__ == "__main__":
    sys.exit(main())
