"""Note 6 of 02: the surface that a cycle bounds, a chain of the next dimension whose boundary is the cycle.

Refusals 1 to 7, 18, 8 to 13 and 17 are tried in this order. A slice length that is not given is long enough. Refusals are raised as Refused.
"""

from model import homology
from model.homology import FREE, admit, check_cycle, reduced, shorter
from model.matrices import apply
from model.reduction import ENTRY_LIMIT
from model.sheet import LIBRARY_COUNT_LIMIT, Refused

COEFFICIENT_LIMIT = 15


def surface_slots(sheet, p):
    """The answer slice that check 9 asks for."""
    return sheet.count(p + 1)


def work_slots(sheet, p):
    """The work slice that check 9 asks for: with room for the tracked columns."""
    return homology.work_slots(sheet, p) + sheet.count(p + 1) ** 2


def factors(found, chain):
    """What each pivot takes of its tracked column: its row of Q times the chain, over the pivot; raises Refused 17."""
    made = []
    for kind, value in zip(found.kinds, apply(found.rows, chain)):
        if value % kind if kind != FREE else value:
            raise Refused(17)
        if kind != FREE:
            made.append(value // kind)
    return made


def bounded_surface(found, chain):
    """The sum over the pivots of the tracked column times its factor."""
    pivots = found.second.rank
    return apply([row[:pivots] for row in found.second.column], factors(found, chain))


def surface(data, p, chain, count_limit=LIBRARY_COUNT_LIMIT, limit=ENTRY_LIMIT, surface_length=None, work_length=None):
    """The surface of a chain of dimension p; None is a chain of no whole length."""
    sheet = admit(data, p, count_limit)
    if shorter(surface_length, surface_slots(sheet, p)) or shorter(work_length, work_slots(sheet, p)):
        raise Refused(9)
    check_cycle(sheet, p, chain, COEFFICIENT_LIMIT)
    return bounded_surface(reduced(sheet, p, limit, tracked=True), chain)
