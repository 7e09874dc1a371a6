#!/usr/bin/env python3
"""Holds the pages, headers and the manual of an installed tree to point only at files of the tree, and runs the examples of the pages as they are
printed, those with Gmsh where it is installed. The manual has every command and option that the command's help has.

Usage: check_pages.py PREFIX
"""

import os
import re
import shutil
import subprocess
import sys
import tempfile
from pathlib import Path

# The name of a file with one of the endings that the sources have, and a path in one of their folders.
NAMED = re.compile(r"(?<![\w<$./*-])(?:[\w.-]+/)*[\w-]+\.(?:md|c|h|py|antt|rt|txt|msh|geo|sheet|a|so|pc|cmake|(?<=[a-z]\.)1)\b(?!>)")
FOLDERS = ("crates", "tests", "bench", "tools", "docs", "examples", "target", "package", "include")
IN_FOLDERS = re.compile(rf"(?<![\w/])(?:{'|'.join(FOLDERS)})/[\w./-]*\w")

# Names of files that the reader has or makes.
OTHERS = {"solver.c", "FILE.msh", "FILE.sheet", "OUT.msh", "NEW.msh", "ring.msh", "ring.geo", "ring.sheet", "plane.geo", "plane_and_loops.msh", "loops.msh",
          "same_tag.msh", "OLD.sheet", "NEW.sheet", "old.sheet", "new.sheet", "again.sheet", "quarter.sheet", "quarter.msh"}


# A mesh without loops, and what the first program of PYTHON.md prints of it.
TRIANGLE = ("$MeshFormat\n2.2 0 8\n$EndMeshFormat\n$Nodes\n3\n1 0 0 0\n2 1 0 0\n3 0 1 0\n$EndNodes\n"
            "$Elements\n1\n1 2 2 1 1 1 2 3\n$EndElements\n")
NO_LOOPS = "0 free, orders [], peak 1, which needs 1 of 20 bits\nthe rim of triangle (1, 2, 3) bounds {(1, 2, 3): 1}\n"


def code(page):
    """The text of a page that may name files: what is in backquotes, and indented lines."""
    inside = re.findall(r"`([^`\n]+)`", page)
    return "\n".join(inside + re.findall(r"^    .*$", page, re.M))


def is_there(prefix, folder, place):
    """Whether a file that a text names is in the tree: beside it, from the prefix, a page, an example, or a header or a library by its name."""
    pages_folder = prefix / "share/doc/fildwuk"
    around = [folder, prefix, pages_folder, pages_folder / "examples", prefix / "include", prefix / "lib"]
    return place in OTHERS or any((beside / place).is_file() for beside in around)


def missing(prefix, path):
    """The files that a page, a header or a manual names and the tree lacks."""
    text = path.read_text()
    words = code(text) if path.suffix == ".md" else text
    named = set(NAMED.findall(words)) | set(IN_FOLDERS.findall(words))
    return sorted(place for place in named if not is_there(prefix, path.parent, place))


def pages(prefix):
    """All texts of the tree."""
    found = [*prefix.glob("share/doc/**/*.md"), *prefix.glob("share/doc/**/*.c"), *prefix.glob("include/*.h"), *prefix.glob("share/man/*/*")]
    assert len(found) >= 10, found
    return found


def hollow_triangle(prefix):
    """What FORMAT.md prints for the bytes of its first table, and what the program prints."""
    page = (prefix / "share/doc/fildwuk/FORMAT.md").read_text()
    table = page[page.index("The hollow triangle (vertices"):page.index("## The mesh text")]
    sheet = bytes.fromhex("".join(re.findall(r"`([0-9a-f ]+)`", table)))
    due = re.search(r"The hollow triangle above .*?\n\n((?:    .*\n)+)", page)[1].replace("    ", "")
    run = subprocess.run([prefix / "bin/homology"], input=sheet, capture_output=True, check=True)
    return due, run.stdout.decode()


def python_page(prefix):
    """What PYTHON.md prints for its programs, and what they print in the folder of the examples, with the libraries and programs of the tree; the first
    one also on a mesh without loops."""
    page = (prefix / "share/doc/fildwuk/PYTHON.md").read_text()
    shown = re.findall(r"```python\n(.*?)```\n\nprints\n\n```\n(.*?)```", page, re.S)
    assert len(shown) == page.count("```python") == 3
    world = {**os.environ, "LD_LIBRARY_PATH": str(prefix / "lib"), "PATH": f"{prefix / 'bin'}:{os.environ['PATH']}"}
    runs = [subprocess.run([sys.executable, "-c", program], cwd=prefix / "share/doc/fildwuk/examples", capture_output=True, text=True, check=False,
                           env=world) for program, _ in shown]
    with tempfile.TemporaryDirectory() as room:
        (Path(room) / "copper_ring.msh").write_text(TRIANGLE, encoding="ascii")
        runs.append(subprocess.run([sys.executable, "-c", shown[0][0]], cwd=room, capture_output=True, text=True, check=False, env=world))
    return "".join(due for _, due in shown) + NO_LOOPS, "".join(run.stdout + run.stderr for run in runs)


def block(page, before):
    """The indented lines that follow these words on a page."""
    return re.search(re.escape(before) + r"\n\n((?:    .*\n)+)", page)[1].replace("    ", "", 1).replace("\n    ", "\n")


def gmsh_page(prefix):
    """What GMSH.md shows of Gmsh and of Fildwuk, and what both say when its lines are run in the folder of the examples."""
    page = (prefix / "share/doc/fildwuk/GMSH.md").read_text()
    due = block(page, "says, among other lines,") + block(page, "and Fildwuk")
    with tempfile.TemporaryDirectory() as room:
        shutil.copy(prefix / "share/doc/fildwuk/examples/projective_plane.msh", room)
        world = {**os.environ, "PATH": f"{prefix / 'bin'}:{os.environ['PATH']}"}
        run = subprocess.run(["bash", "-c", block(page, "In the folder of `examples/projective_plane.msh`")], cwd=room, capture_output=True, text=True,
                             check=False, env=world)
    lines = [line for line in run.stdout.splitlines(keepends=True) if re.match(r"(Info +: H_\d = |[HGR] )", line)]
    return due, "".join(lines)


def options_of(prefix, *words):
    """The options that the command tells of itself, or of one of its commands."""
    run = subprocess.run([prefix / "bin/fildwuk", *words, "--help"], capture_output=True, text=True, check=True)
    return set(re.findall(r"(?<![\w-])--?[a-z]+", run.stdout))


def manual(prefix):
    """The commands and options that the command tells in its help and the pages installed, and those of them that the manual has."""
    text = (prefix / "share/man/man1/fildwuk.1").read_text().replace("\\-", "-")
    shown = subprocess.run([prefix / "bin/fildwuk", "--help"], capture_output=True, text=True, check=True).stdout
    commands = re.findall(r"^  (\w+) ", shown, re.M)
    assert len(commands) >= 3
    told = sorted({*commands, *options_of(prefix), *(option for name in commands for option in options_of(prefix, name))})
    told += sorted(f"share/doc/fildwuk/{path.name}" for path in (prefix / "share/doc/fildwuk").glob("*.md"))
    return "".join(f"{word}\n" for word in told), "".join(f"{word}\n" for word in told if re.search(rf"(?<![\w-]){word}\b", text))


def manual_examples(prefix):
    """The lines of the manual's examples with status 0, and the same with the status of each when they are run in the folder of the examples."""
    text = (prefix / "share/man/man1/fildwuk.1").read_text().replace("\\-", "-")
    lines = re.search(r"\.SH EXAMPLES\n.*?\.nf\n(.*?)\.fi", text, re.S)[1].splitlines()
    assert len(lines) >= 4
    with tempfile.TemporaryDirectory() as room:
        folder = shutil.copytree(prefix / "share/doc/fildwuk/examples", Path(room) / "examples")
        world = {**os.environ, "PATH": f"{prefix / 'bin'}:{os.environ['PATH']}"}
        found = [subprocess.run(["bash", "-c", line], cwd=folder, capture_output=True, check=False, env=world).returncode for line in lines]
    return "".join(f"{line}: 0\n" for line in lines), "".join(f"{line}: {status}\n" for line, status in zip(lines, found))


def main():
    prefix = Path(sys.argv[1]).resolve()
    wrong = 0
    for path in pages(prefix):
        for place in missing(prefix, path):
            wrong += 1
            print(f"{path.relative_to(prefix)} names {place}, which is not installed")
    examples = {"FORMAT.md": hollow_triangle, "PYTHON.md": python_page, "fildwuk.1": manual, "the manual's examples": manual_examples}
    if shutil.which("gmsh"):
        examples["GMSH.md"] = gmsh_page
    for name, example in examples.items():
        due, found = example(prefix)
        if due != found:
            wrong += 1
            print(f"{name}, due:\n{due}found:\n{found}")
    print(f"{len(pages(prefix))} texts, examples of {', '.join(examples)}: {wrong} faults")
    return 1 if wrong else 0


if __name__ == "__main__":
    sys.exit(main())
