#!/usr/bin/env python3
"""Compares the sweep calls of the host and of the library, and whether the report refuses the same sheets with 18, through a C driver with the model.

The sheets are the stored ones, known complexes, each fault of 1 to 7 alone, with another and beside loose nodes, sheets that fill the limits, random
complexes with and without loose nodes, damaged copies of them, and what the sweep leaves of all these. The slices have every length at which the
answer changes, and others, and hold many things before the call."""

import argparse
import random
import struct
from collections import Counter
from functools import lru_cache
from pathlib import Path

from drivers import Expected, count_differing
from make_sheets import fault_sheets, known_sheets, random_sheets
from model import random_meshes
from model.calls import DONE, sweep_call
from model.sheet import LIBRARY_COUNT_LIMIT, LOOSE_NODE, PROGRAM_COUNT_LIMIT, from_facets, refusal
from model.sweep import SHEET_TOO_LONG
from model.sweep_cases import rooms, swept_sheet

DRIVER = Path("target/host/sweep_driver")
ROOT = Path(__file__).resolve().parent.parent
STORED = [*sorted((ROOT / "examples").glob("*.sheet")), ROOT / "crates/homology/stdin"]
DIMENSION_EXCEEDS_TOP = 8

# The limit of each call: H for that of the host, L for the library's.
LIMITS = {"H": PROGRAM_COUNT_LIMIT, "L": LIBRARY_COUNT_LIMIT}

# What is done, and what is refused.
UNCHANGED, DROPPED, NO_EDGES = "unchanged", "without loose nodes", "unchanged, without edges"
IN_FEWER, FILLS, A_BYTE_SHORT = "into fewer bytes than it has", "with as many cells as the limit", f"{SHEET_TOO_LONG} by a byte"
BESIDE = "beside a loose node"
NUMBERS = [*range(1, 8), SHEET_TOO_LONG]
WANTED = [UNCHANGED, DROPPED, NO_EDGES, IN_FEWER, FILLS, A_BYTE_SHORT, *NUMBERS, *(f"{number} {BESIDE}" for number in range(1, 8))]


def sheets(seed, count):
    """The sheets by name."""
    rng = random.Random(seed)
    loose = {f"random loose {i}": from_facets(random_meshes.loose_complex_of(rng, LIBRARY_COUNT_LIMIT)) for i in range(count)}
    named = {**known_sheets(), **fault_sheets(), **random_sheets(rng, count), **loose, **{path.name: path.read_bytes() for path in STORED}}
    swept = {f"{name}, swept": swept_sheet(data, LIBRARY_COUNT_LIMIT) for name, data in named.items()}
    return {**named, **{name: data for name, data in swept.items() if data is not None}}


def request(kind, data, lent):
    """The bytes for the driver."""
    return kind.encode() + struct.pack("<2I", len(data), len(lent)) + data + lent


@lru_cache(maxsize=4)
def refused(data, limit):
    """The refusal of a sheet, 0 where it is accepted, kept for further calls on the sheet."""
    return refusal(data, limit)


def expected(name, data, kind, lent):
    """A call with what the driver is to write, by the model."""
    number, left = sweep_call(data, lent, LIMITS[kind])
    report = refused(data, LIMITS[kind]) or DIMENSION_EXCEEDS_TOP
    return Expected(f"{name}, {kind} into {len(lent)} bytes", request(kind, data, lent), number, struct.pack("<2I", number, report) + left)


def kinds_of_done(data, kind, room):
    """What is done with a sheet."""
    counts = struct.unpack_from("<8H", data)[::2]
    yield DROPPED if swept_sheet(data, LIMITS[kind]) != data else UNCHANGED if counts[1] else NO_EDGES
    if room < len(data):
        yield IN_FEWER
    if LIMITS[kind] in counts:
        yield FILLS


def kinds(name, data, kind, number, room):
    """The kinds of case that a call is of."""
    if number == DONE:
        yield from kinds_of_done(data, kind, room)
        return
    yield number
    if "loose" in name and number != SHEET_TOO_LONG:
        yield f"{number} {BESIDE}"
    if number == SHEET_TOO_LONG and room == len(swept_sheet(data, LIMITS[kind])) - 1:
        yield A_BYTE_SHORT


def calls(rng, named):
    """The calls on the sheets, and how often each kind of case is among them for each call."""
    made, told = [], Counter()
    for name, data in named.items():
        for kind, limit in LIMITS.items():
            for room in rooms(rng, data, limit):
                call = expected(name, data, kind, rng.randbytes(room))
                made.append(call)
                told.update((kind, each) for each in kinds(name, data, kind, call.number, room))
                told[kind, f"report {refused(data, limit)}"] += 1
    return made, told


def main():
    """Exits with 1 where a call differs, or where a kind of case was never met."""
    parser = argparse.ArgumentParser(description=__doc__, formatter_class=argparse.RawDescriptionHelpFormatter)
    parser.add_argument("--driver", type=Path, default=DRIVER, metavar="FILE", help="the built driver (target/host/sweep_driver)")
    parser.add_argument("--random", type=int, default=100, metavar="N", help="random sheets with and without loose nodes (100)")
    parser.add_argument("--seed", type=int, default=12, help="seed (12)")
    options = parser.parse_args()
    named = sheets(options.seed, options.random)
    made, told = calls(random.Random(options.seed), named)
    wrong = count_differing(options.driver, made)
    wanted = [*WANTED, *(f"report {number}" for number in (0, *range(1, 8), LOOSE_NODE))]
    for kind in LIMITS:
        print(f"{kind}: " + ", ".join(f"{told[kind, each]} {each}" for each in wanted))
    lost = [(kind, each) for kind in LIMITS for each in wanted if not told[kind, each]]
    print(f"{len(named)} sheets, {len(made)} calls, {wrong} differ")
    if lost:
        print("never due:", lost)
    raise SystemExit(1 if wrong or lost else 0)


if __name__ == "__main__":
    main()
