"""Calls for Note 6 in 02: chains and slices of every kind on accepted sheets, refused sheets, and every two faults together."""

from dataclasses import dataclass
from itertools import combinations

from model import meshes, sheet_cases
from model.list_cases import times
from model.sheet import DIMENSIONS, PROGRAM_COUNT_LIMIT, TRIAL, Sheet, closure, from_facets, parse
from model.surface import COEFFICIENT_LIMIT, surface_slots, work_slots
from model.surface_chains import Cycles

LOOP = [1, -1, 1]

# Slots more, or fewer, than check 9 wants, for the surface and the work slice.
EXACT = (0, 0)
CHANGES = [(2, 0), (0, 9), (3, 5), (-1, 0), (0, -1), (-1, -1)]

# A sheet where every fault can be alone; its last three edges are a loop that bounds nothing.
FACETS = [*sheet_cases.BASE_FACETS, *combinations((20, 21, 22), 2)]
FAULTS = tuple(number for number in TRIAL if number != 13)


@dataclass(frozen=True)
class Case:
    """A call: a sheet, a dimension, a chain, and the slots lent for the surface and for the work; a host call is not lent the latter."""

    name: str
    data: bytes
    p: int
    chain: list
    slots: int
    work: int


def lent(sheet, p, change):
    """The slots that check 9 wants, changed by so many."""
    return max(0, surface_slots(sheet, p) + change[0]), max(0, work_slots(sheet, p) + change[1])


def other_lengths(chain):
    """The chain with a coefficient more or fewer, with none, and twice."""
    return [other for other in (chain[:-1], [*chain, 0], [], chain + chain) if len(other) != len(chain)]


def of_chains(name, data, sheet, p, chains):
    """The chains with slices of the lengths due."""
    return [Case(name, data, p, chain, *lent(sheet, p, EXACT)) for chain in chains]


def of_dimension(rng, name, data, p, count_limit, most):
    """Up to so many cycles, faulty chains, chains of other lengths, and a cycle with every change of the slices."""
    made = Cycles(rng, data, p, count_limit)
    cycles = made.cycles(most)
    chosen = rng.choice(cycles)
    changed = [Case(name, data, p, chosen, *lent(made.sheet, p, change)) for change in CHANGES]
    return of_chains(name, data, made.sheet, p, [*cycles, *made.faulty(), *other_lengths(chosen)]) + changed


def of_refused(rng, name, data):
    """A call on a sheet that is refused, whatever the rest."""
    return Case(name, data, rng.randrange(DIMENSIONS + 1), [0] * rng.randrange(5), rng.randrange(5), rng.randrange(20))


def beyond_the_top():
    """Dimensions above 3, also the largest, with the slices of dimension 1 and with none."""
    data = from_facets(meshes.filled_triangle())
    slices = lent(parse(data, PROGRAM_COUNT_LIMIT), 1, EXACT)
    return [Case("filled triangle", data, p, chain, *each) for p in (DIMENSIONS, DIMENSIONS + 1, 2 ** 31, 2 ** 32 - 1)
            for chain, each in ((LOOP, slices), ([], (0, 0)))]


def of_coefficients():
    """The loop of a filled and of a hollow triangle, one vertex of an edge and both, up to 17 times either way."""
    made = []
    for name, facets, p, chain in (("filled triangle", meshes.filled_triangle(), 1, LOOP), ("hollow triangle", meshes.hollow_triangle(), 1, LOOP),
                                   ("edge", [(0, 1)], 0, [1, 0]), ("edge", [(0, 1)], 0, [1, -1])):
        data = from_facets(facets)
        chains = [times(factor, chain) for factor in range(-17, 18)]
        made += of_chains(name, data, parse(data, PROGRAM_COUNT_LIMIT), p, chains)
    return made


def with_faults(numbers, count_limit):
    """A call in dimension 1 with the faults of these numbers and no other; that of 9 is in both slices."""
    sections = closure(FACETS)
    sheet = Sheet(tuple(map(tuple, sections)))
    edges, draft = sheet.count(1), sheet_cases.Draft(sections)
    faults = {number: edit for number, edit in sheet_cases.faults(count_limit).values()}
    for number in sorted(set(numbers) & set(faults), reverse=True):
        faults[number](draft)
    chain = [0] * edges
    chain[edges - 3:] = LOOP if 17 in numbers else [0, 0, 0]
    chain[0] = 1 if 12 in numbers else 0
    chain[1] = -COEFFICIENT_LIMIT - 1 if 11 in numbers else 0
    chain += [0] if 10 in numbers else []
    slices = lent(sheet, 1, (-1, -1) if 9 in numbers else EXACT)
    return Case(f"faults {', '.join(map(str, numbers)) or 'none'}", draft.bytes(), 4 if 8 in numbers else 1, chain, *slices)


def of_faults(count_limit):
    """Each fault alone, every two together, and none."""
    chosen = [(), *combinations(FAULTS, 1), *combinations(FAULTS, 2)]
    return [with_faults(numbers, count_limit) for numbers in chosen]
