#!/usr/bin/env python3
"""Compares the built program with the model, byte for byte, on sound and damaged sheets and on input that is cut short or long."""

import argparse
import random
import subprocess
from pathlib import Path

from make_sheets import fault_sheets, known_sheets, random_sheets
from model.calls import program_output
from model.sheet import LOOSE_NODE, PROGRAM_COUNT_LIMIT, longest, refusal

PROGRAM = Path("target/bin/homology")
INPUT_ROOM = longest(PROGRAM_COUNT_LIMIT) + 1
SPREAD = 12


def by_refusal(sheets):
    """The names of the sheets by the number of their refusal, 0 for accepted ones."""
    names = {number: [] for number in (*range(8), LOOSE_NODE)}
    for name, data in sheets.items():
        names[refusal(data, PROGRAM_COUNT_LIMIT)].append(name)
    return names


def odd_inputs(sheets):
    """Empty input, a long one, and a spread of sheets of every kind, each cut short and with much behind it."""
    odd = {"empty": b"", "a byte": b"\0", "a megabyte of zeros": bytes(1 << 20)}
    for names in by_refusal(sheets).values():
        for name in names[:: max(1, len(names) // SPREAD)][:SPREAD]:
            data = sheets[name]
            odd[f"{name}, cut"] = data[: len(data) // 2]
            odd[f"{name}, and a tail"] = data + bytes(5000)
    return odd


def summary(sheets):
    """How many inputs of each kind were run; stops where a kind has none."""
    counts = {"accepted" if number == 0 else f"refused {number}": len(names) for number, names in by_refusal(sheets).items()}
    counts[f"longer than {INPUT_ROOM} bytes"] = sum(len(data) > INPUT_ROOM for data in sheets.values())
    if not all(counts.values()):
        raise SystemExit(f"a kind of input is missing: {counts}")
    return ", ".join(f"{count} {name}" for name, count in counts.items())


def differs(program, data):
    """What the program prints, where it is not what the model prints."""
    run = subprocess.run([program], input=data, capture_output=True, check=False)
    due = program_output(data).encode("ascii")
    return None if run.stdout == due and run.returncode == 0 else (run.returncode, run.stdout[:200], due[:200])


def main():
    """Exits with 1 where an output differs."""
    parser = argparse.ArgumentParser(description=__doc__)
    parser.add_argument("--program", type=Path, default=PROGRAM, metavar="FILE", help="the built program (target/bin/homology)")
    parser.add_argument("--random", type=int, default=700, metavar="N", help="random sheets, each also in a damaged copy (700)")
    parser.add_argument("--seed", type=int, default=3, help="seed of the random sheets (3)")
    options = parser.parse_args()
    rng = random.Random(options.seed)
    sheets = {**known_sheets(), **fault_sheets(), **random_sheets(rng, options.random)}
    sheets.update(odd_inputs(sheets))
    wrong = 0
    for name, data in sheets.items():
        found = differs(options.program, data)
        if found:
            wrong += 1
            print(f"{name}: status {found[0]}, printed {found[1]!r}, due {found[2]!r}")
    print(f"{len(sheets)} inputs ({summary(sheets)}), {wrong} differ")
    raise SystemExit(1 if wrong else 0)


if __name__ == "__main__":
    main()
