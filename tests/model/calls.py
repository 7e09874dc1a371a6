"""What the calls and the program leave behind: lent slices, lent bytes, printed text."""

import struct

from model import homology, surface
from model.headroom import bits
from model.reduction import ENTRY_LIMIT
from model.sheet import DIMENSIONS, LIBRARY_COUNT_LIMIT, PROGRAM_COUNT_LIMIT, Refused, refusal
from model.sweep import sweep

DONE = 0
TOO_WIDE = 13
BOUNDS_NOTHING = 17
COEFFICIENT_BYTES = 4
NUMBER_BYTES = 8


def overwrite(lent, numbers):
    """The lent slice with its first slots written and the others untouched."""
    return list(numbers) + list(lent[len(numbers):])


def cleared(work, answer):
    """The work slice after a call: zeros after done, after 13 and after 17, which is tried later, else untouched."""
    return [0] * len(work) if answer in (DONE, TOO_WIDE, BOUNDS_NOTHING) else list(work)


def library_report(data, p, lent, work, count_limit=LIBRARY_COUNT_LIMIT, limit=ENTRY_LIMIT):
    """The report call: its answer (0 or the refusal), and both slices after it."""
    try:
        numbers = homology.report(data, p, count_limit, limit, len(lent), len(work)).numbers()
    except Refused as refused:
        return refused.number, list(lent), cleared(work, refused.number)
    return DONE, overwrite(lent, numbers), cleared(work, DONE)


def library_headroom(data, p, lent, work, peak, needed, count_limit=LIBRARY_COUNT_LIMIT, limit=ENTRY_LIMIT):
    """The report call with its peak: what library_report gives, then the peak and its bits.

    After a refusal these two are as they were lent.
    """
    number, lent_after, work_after = library_report(data, p, lent, work, count_limit, limit)
    if number == DONE:
        peak = homology.report(data, p, count_limit, limit).peak
        needed = bits(peak)
    return number, lent_after, work_after, peak, needed


def library_coordinates(data, p, chain, lent, work,
                        count_limit=LIBRARY_COUNT_LIMIT, limit=ENTRY_LIMIT):
    """The coordinate call: its answer (0 or the refusal), and both slices after it."""
    try:
        numbers = homology.coordinates(data, p, chain, count_limit, limit, len(lent), len(work))
    except Refused as refused:
        return refused.number, list(lent), cleared(work, refused.number)
    return DONE, overwrite(lent, numbers), cleared(work, DONE)


def library_coordinate_lists(data, p, number, chains, lent, work,
                             count_limit=LIBRARY_COUNT_LIMIT, limit=ENTRY_LIMIT):
    """The call for many chains: its answer (0 or the refusal), and both slices after it."""
    try:
        found = homology.coordinate_lists(data, p, number, chains, count_limit, limit,
                                          len(lent), len(work))
    except Refused as refused:
        return refused.number, list(lent), cleared(work, refused.number)
    after = list(lent)
    for slot, coordinate in found.slots().items():
        after[slot] = coordinate
    return DONE, after, cleared(work, DONE)


def library_surface(data, p, chain, lent, work, count_limit=LIBRARY_COUNT_LIMIT, limit=ENTRY_LIMIT):
    """The surface call: its answer (0 or the refusal), and both slices after it."""
    try:
        numbers = surface.surface(data, p, chain, count_limit, limit, len(lent), len(work))
    except Refused as refused:
        return refused.number, list(lent), cleared(work, refused.number)
    return DONE, overwrite(lent, numbers), cleared(work, DONE)


def written(lent, numbers):
    """The lent bytes with the numbers at their start, 8 bytes each, low byte first."""
    return struct.pack(f"<{len(numbers)}q", *numbers) + bytes(lent[NUMBER_BYTES * len(numbers):])


def host_report(data, p, lent):
    """The report call of the host: its answer and the lent bytes after it."""
    try:
        numbers = homology.report(data, p, PROGRAM_COUNT_LIMIT,
                                  report_length=len(lent) // NUMBER_BYTES).numbers()
    except Refused as refused:
        return refused.number, bytes(lent)
    return DONE, written(lent, numbers)


def coefficients(chain_bytes):
    """The coefficients in the bytes of a chain or of several, None where the last is incomplete."""
    if len(chain_bytes) % COEFFICIENT_BYTES:
        return None
    return list(struct.unpack(f"<{len(chain_bytes) // COEFFICIENT_BYTES}i", chain_bytes))


def host_coordinates(data, p, chain_bytes, lent):
    """The coordinate call of the host: its answer and the lent bytes after it."""
    try:
        numbers = homology.coordinates(data, p, coefficients(chain_bytes), PROGRAM_COUNT_LIMIT,
                                       coordinate_length=len(lent) // NUMBER_BYTES)
    except Refused as refused:
        return refused.number, bytes(lent)
    return DONE, written(lent, numbers)


def host_coordinate_lists(data, p, number, chains_bytes, lent):
    """The call of the host for many chains: its answer and the lent bytes after it."""
    try:
        found = homology.coordinate_lists(data, p, number, coefficients(chains_bytes),
                                          PROGRAM_COUNT_LIMIT,
                                          coordinate_length=len(lent) // NUMBER_BYTES)
    except Refused as refused:
        return refused.number, bytes(lent)
    after = bytearray(lent)
    for slot, coordinate in found.slots().items():
        struct.pack_into("<q", after, NUMBER_BYTES * slot, coordinate)
    return DONE, bytes(after)


def host_surface(data, p, chain_bytes, lent):
    """The surface call of the host: its answer and the lent bytes after it."""
    try:
        numbers = surface.surface(data, p, coefficients(chain_bytes), PROGRAM_COUNT_LIMIT,
                                  surface_length=len(lent) // NUMBER_BYTES)
    except Refused as refused:
        return refused.number, bytes(lent)
    return DONE, written(lent, numbers)


def sweep_call(data, lent, count_limit):
    """The sweep call of the host or of the library: its answer and the lent bytes after it."""
    try:
        sheet = sweep(data, count_limit, len(lent))
    except Refused as refused:
        return refused.number, bytes(lent)
    return DONE, sheet + bytes(lent[len(sheet):])


def dimension_lines(data, p, count_limit, limit):
    """The lines that the program prints for one dimension of an accepted sheet."""
    try:
        found = homology.report(data, p, count_limit, limit)
    except Refused as refused:
        return [["R", refused.number]]
    head = ["H", p, found.rank, len(found.orders), *found.orders]
    return [head] + [["G", *generator] for generator in found.generators]


def program_output(data, count_limit=PROGRAM_COUNT_LIMIT, limit=ENTRY_LIMIT):
    """The text that the program prints for the bytes on its standard input."""
    number = refusal(data, count_limit)
    if number:
        lines = [["R", number]]
    else:
        lines = [line for p in range(DIMENSIONS)
                 for line in dimension_lines(data, p, count_limit, limit)]
    return "".join(" ".join(map(str, line)) + "\n" for line in lines)
