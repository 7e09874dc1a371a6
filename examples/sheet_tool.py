#!/usr/bin/env python3
"""Writes a sheet from a list of facets, or prints a sheet in readable form.

A list of facets has one facet in a line: one to four vertex numbers, 0 to 65535,
with spaces or dashes between. Empty lines and what follows a # are passed over.
All faces of the facets go into the sheet, and none need to be listed.
"""

import argparse
import re
import sys
from pathlib import Path

sys.dont_write_bytecode = True
sys.path.insert(0, str(Path(__file__).resolve().parent.parent / "tests"))

from model import sheet  # noqa: E402  (the path is set above)

REFUSALS = {
    1: "it has fewer than 16 bytes", 2: "a count exceeds the limit",
    3: "an offset differs from the one required", 4: "the length differs from the one required",
    5: "in some cell the vertices do not rise strictly",
    6: "in some section the cells do not rise strictly", 7: "a face is missing",
    18: "it has an edge, and a vertex in no edge",
}


def read_facets(text):
    """The facets in a text; ValueError for a line that is none."""
    facets = []
    for number, line in enumerate(text.splitlines(), 1):
        words = re.split(r"[\s-]+", line.split("#")[0].strip())
        if words == [""]:
            continue
        if not all(re.fullmatch(r"[0-9]+", word) for word in words):
            raise ValueError(f"line {number} is no list of vertex numbers: {line}")
        facets.append(tuple(map(int, words)))
    return facets


def write(options):
    """Writes the sheet of a list of facets and prints its counts."""
    sections = sheet.closure(read_facets(options.facets.read_text(encoding="utf-8")))
    counts = [len(section) for section in sections]
    if max(counts) > sheet.LIBRARY_COUNT_LIMIT:
        raise ValueError(f"counts {counts} exceed {sheet.LIBRARY_COUNT_LIMIT}")
    options.sheet.write_bytes(sheet.layout(sections))
    print("counts", ", ".join(map(str, counts)))
    if sheet.loose_vertices(sections):
        print("it is refused with 18: it has an edge, and a vertex in no edge, which `fildwuk sweep` drops")
    if max(counts) > sheet.PROGRAM_COUNT_LIMIT:
        print(f"the program and the host calls take {sheet.PROGRAM_COUNT_LIMIT} in a dimension, "
              f"the library {sheet.LIBRARY_COUNT_LIMIT}")


def show(options):
    """Prints a sheet, or why it is refused."""
    data = options.sheet.read_bytes()
    number = sheet.refusal(data, options.limit)
    if number:
        raise ValueError(f"refused with {number}: {REFUSALS[number]}")
    print(sheet.dump(sheet.parse(data, options.limit)), end="")


def main():
    parser = argparse.ArgumentParser(description=__doc__,
                                     formatter_class=argparse.RawDescriptionHelpFormatter)
    commands = parser.add_subparsers(required=True, metavar="COMMAND")
    writer = commands.add_parser("write", help="write a sheet from a list of facets")
    writer.add_argument("facets", type=Path, metavar="FACETS.txt")
    writer.add_argument("sheet", type=Path, metavar="OUT.sheet")
    writer.set_defaults(run=write)
    shower = commands.add_parser("show", help="print a sheet in readable form")
    shower.add_argument("sheet", type=Path, metavar="FILE.sheet")
    shower.add_argument("--limit", type=int, default=sheet.LIBRARY_COUNT_LIMIT,
                        help="cells allowed in a dimension (256, the library's limit)")
    shower.set_defaults(run=show)
    options = parser.parse_args()
    try:
        options.run(options)
    except (OSError, ValueError) as fault:
        sys.exit(f"{parser.prog}: {fault}")


if __name__ == "__main__":
    main()
