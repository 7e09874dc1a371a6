#!/usr/bin/env python3
"""Writes the input of crate sheet_cases and the output due, by the model: the sheets of checks 1 to 7 and 18 at both limits."""

import argparse
from pathlib import Path

from make_sheets import fault_sheets
from model.sheet import LIBRARY_COUNT_LIMIT, PROGRAM_COUNT_LIMIT, refusal


def main():
    """Writes FOLDER/stdin and FOLDER/stdout."""
    parser = argparse.ArgumentParser(description=__doc__)
    parser.add_argument("folder", metavar="FOLDER", type=Path, help="crates/sheet_cases")
    folder = parser.parse_args().folder
    sheets = [data for data in fault_sheets().values() if len(data) < 65536]
    packed = b"".join(len(data).to_bytes(2, "little") + data for data in sheets)
    lines = [f"{refusal(data, LIBRARY_COUNT_LIMIT)} {refusal(data, PROGRAM_COUNT_LIMIT)}\n" for data in sheets]
    (folder / "stdin").write_bytes(packed)
    (folder / "stdout").write_text("".join(lines))
    print(f"{len(sheets)} sheets, {len(packed)} bytes")


if __name__ == "__main__":
    main()
