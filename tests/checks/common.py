"""Sheets and helpers that several checks use."""

import random

from model import meshes, random_meshes
from model.sheet import Refused, from_facets

EDGE = from_facets([(0, 1)])
HOLLOW = from_facets(meshes.hollow_triangle())
FILLED = from_facets(meshes.filled_triangle())


def answer(call, *arguments, **choices):
    """The number with which a call is refused, 0 for done."""
    try:
        call(*arguments, **choices)
    except Refused as refused:
        return refused.number
    return 0


def random_sheets(seed, count, count_limit=48, loose=False):
    """So many seeded random sheets, each with loose nodes or none."""
    rng = random.Random(seed)
    complex_of = random_meshes.loose_complex_of if loose else random_meshes.complex_of
    return [from_facets(complex_of(rng, count_limit)) for _ in range(count)]


def residue(value, order):
    """02, Note 5: the only number above -order/2 and up to order/2 that differs from the value by a multiple of the order."""
    only, = [c for c in range(-order, order + 1) if -order < 2 * c <= order and (value - c) % order == 0]
    return only
