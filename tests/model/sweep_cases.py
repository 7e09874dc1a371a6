"""Calls for the sweep of Note 7 in 02: a sheet and the lengths of the slices to lend."""

from functools import lru_cache

from model.sheet import HEADER_BYTES, Refused, longest
from model.sweep import sweep

# Enough for every sheet.
ROOM = 10 ** 6


@lru_cache(maxsize=4)
def swept_sheet(data, limit):
    """The sheet that the sweep writes where it has room; None where the sheet is refused. Kept for further calls on the sheet."""
    try:
        return sweep(data, limit, ROOM)
    except Refused:
        return None


def rooms(rng, data, limit):
    """Lengths of slices: none, about a header, about the sheet that is written and about the one that is given, and longer."""
    swept = swept_sheet(data, limit)
    if swept is None:
        return [0, rng.choice([1, HEADER_BYTES, rng.randrange(longest(limit))]), longest(limit)]
    about = {length + step for length in (len(swept), len(data)) for step in (-1, 0, 1)}
    return sorted(about | {0, HEADER_BYTES - 1, HEADER_BYTES, rng.randrange(len(swept)), len(data) + rng.randrange(2, 60)})
