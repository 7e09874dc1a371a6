#!/usr/bin/env python3
"""Compares the import of meshes, by the host call and by the library's call, with the model, into slices of many lengths.

The texts have every freedom of the form of 02, Note 3, every fault and many two together, counts at the limits, loose nodes that the sweep of Note 7
drops, 18,000 more made at random, some of them damaged, and some of a million bytes. A call is held to its number, to the sheet, to what it leaves
in its slice, and to its time.
"""

import argparse
import random
import struct
from collections import Counter
from dataclasses import dataclass
from itertools import islice
from pathlib import Path

from drivers import Expected, count_differing
from model import mesh, mesh_cases, mesh_texts
from model.sheet import LIBRARY_COUNT_LIMIT, PROGRAM_COUNT_LIMIT, Refused, closure, layout, longest, parse
from model.sweep import swept

DRIVER = Path("target/host/import_driver")
BATCH = 2000

# The limit of each call: H for that of the host, L for the library's.
LIMITS = {"H": PROGRAM_COUNT_LIMIT, "L": LIBRARY_COUNT_LIMIT}

# The answers to each call. Each must be due once for so many random texts at least. 16 is also told where the sheet as swept would be within the limit,
# or fit the slice.
DONE, DROPPED, COUNT, SLICE = "done", "done with loose nodes dropped", "16 by a count", "16 by the slice"
COUNT_ALONE, SLICE_ALONE = "16 by a count before the sweep alone", "16 by the slice before the sweep alone"
ANSWERS = {DONE: 100, DROPPED: 100, "14": 100, "15": 100, COUNT: 100, COUNT_ALONE: 1000, SLICE: 100, SLICE_ALONE: 100}


@dataclass(frozen=True)
class Read:
    """What the model reads in a text: the sections of all cells, or None and the number 14 or 15."""

    sections: list
    number: int = 0

    def within(self, limit, room):
        """The answer into so many bytes, and the sheet, or None."""
        if self.sections is None:
            return self.number, None
        try:
            return mesh.DONE, mesh.sheet_within(self.sections, limit, room)
        except Refused as refused:
            return refused.number, None

    def sheet(self, limit):
        """The sheet in a slice that is long enough, or None."""
        return self.within(limit, longest(limit))[1]

    def told(self, limit, room):
        """The answer into so many bytes in words, with what decides it."""
        if self.sections is None:
            return str(self.number)
        kept = swept(self.sections)
        if max(map(len, self.sections)) > limit:
            return COUNT if max(map(len, kept)) > limit else COUNT_ALONE
        if len(layout(self.sections)) > room:
            return SLICE if len(layout(kept)) > room else SLICE_ALONE
        return DONE if kept == self.sections else DROPPED


def subsets(facets):
    """The nonempty subsets of the facets' vertex sets, without those of one vertex that are in no larger one, where there is a larger one."""
    chosen = [[v for i, v in enumerate(facet) if bits >> i & 1] for facet in facets for bits in range(1, 1 << len(facet))]
    large = {frozenset(subset) for subset in chosen if len(subset) > 1}
    used = frozenset().union(*large)
    return large | {frozenset(subset) for subset in chosen if len(subset) == 1 and (not large or used.issuperset(subset))}


def hold_sheet(sheet, limit, facets):
    """Stops where a sheet of the model is refused, or its cells are not those subsets of the facets."""
    cells = [frozenset(cell) for section in parse(sheet, limit).sections for cell in section]
    if len(set(cells)) < len(cells) or set(cells) != subsets(facets):
        raise SystemExit("the model's sheet has other cells than the text")


def read(text, facets=None):
    """What the model reads, with its sheet held to the facets, where they are known from how the text was made, or to those that it reads."""
    try:
        found = mesh.facets_of(text)
    except Refused as refused:
        if facets is not None:
            raise SystemExit(f"the model refuses a sound text with {refused.number}: {text!r}") from refused
        return Read(None, refused.number)
    reading = Read(closure(found))
    sheet = reading.sheet(LIBRARY_COUNT_LIMIT)
    if sheet is not None:
        hold_sheet(sheet, LIBRARY_COUNT_LIMIT, found if facets is None else facets)
    return reading


def room(rng, sheet, whole, limit):
    """The length of a slice to lend: about that of the sheet before or after the sweep, where there is one."""
    if sheet is None:
        return rng.choice([0, 16, rng.randrange(longest(limit)), longest(limit), longest(limit) + 5])
    m, n = len(sheet), len(whole)
    return rng.choice([n, n, n, n + 1, n + rng.randrange(60), max(n, longest(limit)), n - 1, n - 1, m, m - 1, rng.randrange(n), 0])


def expected(rng, name, text, reading, kind):
    """A call with what the driver is to write, by the model, and what it is refused for."""
    limit = LIMITS[kind]
    sheet = reading.sheet(limit)
    lent = rng.randbytes(room(rng, sheet, sheet and layout(reading.sections), limit))
    number, found = reading.within(limit, len(lent))
    left = lent if found is None else found + lent[len(found):]
    request = kind.encode() + struct.pack("<2I", len(text), len(lent)) + text + lent
    return Expected(f"{name}, {kind} into {len(lent)} bytes", request, number, struct.pack("<I", number) + left), reading.told(limit, len(lent))


def named_texts():
    """Texts by name with their facets, None where they are not known."""
    rng = random.Random(1)
    yield from ((name, text, mesh_cases.BASE_FACETS) for name, text in mesh_cases.free(rng).items())
    yield from ((name, text, facets) for name, (text, facets) in mesh_cases.at_limit(rng).items())
    yield from ((name, text, None) for name, (text, _) in mesh_cases.damaged(rng).items())
    yield from ((name, text, None) for name, (text, _) in mesh_cases.large(rng).items())


def all_texts(seed, count):
    """The texts by name, and so many random ones."""
    yield from named_texts()
    found = mesh_texts.random_texts(random.Random(seed), count)
    yield from ((f"random text {i}", text, facets) for i, (text, facets) in enumerate(found))


def compare(driver, texts, seed):
    """How many texts there are, how many calls differ, and how often each answer is due for each call."""
    rng = random.Random(seed)
    number, wrong, told = 0, 0, Counter()
    while batch := list(islice(texts, BATCH)):
        made = []
        for name, text, facets in batch:
            reading = read(text, facets)
            for kind in LIMITS:
                call, answer = expected(rng, name, text, reading, kind)
                made.append(call)
                told[kind, answer] += 1
        number += len(batch)
        wrong += count_differing(driver, made)
    return number, wrong, told


def main():
    """Exits with 1 where a call differs, or where a kind of answer was due too seldom."""
    parser = argparse.ArgumentParser(description=__doc__, formatter_class=argparse.RawDescriptionHelpFormatter)
    parser.add_argument("--driver", type=Path, default=DRIVER, metavar="FILE", help="the built driver (target/host/import_driver)")
    parser.add_argument("--random", type=int, default=18000, metavar="N", help="random texts (18000)")
    parser.add_argument("--seed", type=int, default=8, help="seed of the random texts (8)")
    parser.add_argument("--text", metavar="NAME", help="one text alone, which is also shown")
    options = parser.parse_args()
    texts = all_texts(options.seed, options.random)
    if options.text:
        chosen = [found for found in texts if found[0] == options.text]
        print(*(text for _, text, _ in chosen), sep="\n")
        texts = iter(chosen)
    number, wrong, told = compare(options.driver, texts, options.seed)
    for kind in LIMITS:
        print(f"{kind}: " + ", ".join(f"{told[kind, answer]} answered {answer}" for answer in ANSWERS))
    print(f"{number} texts, {sum(told.values())} calls, {wrong} differ")
    seldom = [(kind, answer) for kind in LIMITS for answer, share in ANSWERS.items() if told[kind, answer] < max(1, options.random // share)]
    if seldom and not options.text:
        print("due too seldom:", seldom)
    raise SystemExit(1 if wrong or (seldom and not options.text) else 0)


if __name__ == "__main__":
    main()
