"""Cases for Note 5 in 02: cycles with every coordinate of small orders, and with both ends of the range of a large one."""

import struct
from collections import Counter
from dataclasses import dataclass

from model import homology, meshes
from model.homology import COEFFICIENT_LIMIT
from model.list_cases import plus, size, times
from model.sheet import LIBRARY_COUNT_LIMIT, from_facets, parse

# The orders of which every coordinate is met.
ORDERS = (2, 3, 4, 5, 6, 8)


@dataclass(frozen=True)
class Case:
    """Cycles of one dimension of a sheet, by name, and the orders there."""

    name: str
    data: bytes
    p: int
    orders: list
    cycles: dict

    def coordinates(self, number, written):
        """Pairs of an order and a coordinate in so many lists; written are an answer of 4 bytes and the lists."""
        cells = parse(self.data, LIBRARY_COUNT_LIMIT).count(self.p)
        slots = struct.unpack_from(f"<{number * cells}q", written, 4)
        return [(order, slots[start + i]) for start in range(0, len(slots), cells)
                for i, order in enumerate(self.orders)]


def in_range(order, coordinate):
    """Whether a coordinate lies above -order/2 and up to order/2."""
    return -order < 2 * coordinate <= order


def factors(order, most):
    """Two periods of the order either way from 0, and the first and the last of -most to most."""
    last = range(most - order + 1, most + 1)
    return [*range(-2 * order, 2 * order + 1), *last, *(-k for k in last)]


def multiples(name, facets, p):
    """Multiples of the generator of each order and, where there are several generators, of their sum."""
    data = from_facets(facets)
    found = homology.report(data, p)
    loops = {f"generator {i}": found.generators[i] for i in range(len(found.orders))}
    if len(found.generators) > 1:
        loops["all generators"] = [sum(coefficients) for coefficients in zip(*found.generators)]
    cycles = {f"{k} times {title}": times(k, loop) for title, loop in loops.items()
              for k in factors(max(found.orders), COEFFICIENT_LIMIT // size(loop))}
    return Case(name, data, p, found.orders, cycles)


def small():
    """Cases within 48 cells in each dimension."""
    spaces = {f"order {order}": meshes.moore_space(order) for order in ORDERS if order < 8}
    spaces["order 8"] = meshes.tower(3)
    spaces["orders 2 and 4"] = meshes.wound([[2, 0], [0, 4]])
    spaces["order 3 and a free loop"] = meshes.wound([[3, 0]])
    surface = multiples("order 2 in dimension 2", meshes.suspension(meshes.projective_plane()), 2)
    return [multiples(name, facets, 1) for name, facets in spaces.items()] + [surface]


def floor_loop(sheet, j):
    """The loop round the triple Aj of a tower; the loop round A(j + 1), taken twice, is in its class."""
    a = 3 * j
    signs = {(a, a + 1): 1, (a, a + 2): -1, (a + 1, a + 2): 1}
    return [signs.get(edge, 0) for edge in sheet.cells(1)]


def times_last(k, loops):
    """A cycle in the class of k times the last loop of a tower, by the binary digits of k; k is at least 0."""
    chain = [0] * len(loops[0])
    for power, loop in enumerate(reversed(loops)):
        chain = plus(chain, times(k >> power & 1, loop))
    return chain


def tower(floors):
    """Cycles about 0, half the order and the order, and loops as often as the coefficients allow."""
    data = from_facets(meshes.tower(floors))
    sheet, order = parse(data, LIBRARY_COUNT_LIMIT), 2 ** floors
    loops = [floor_loop(sheet, j) for j in range(floors + 1)]
    cycles = {f"{k} times the last loop": times_last(k, loops)
              for k in (0, 1, *(about + step for about in (order // 2, order) for step in (-1, 0, 1)))}
    cycles |= {f"{COEFFICIENT_LIMIT} times loop {j}": times(COEFFICIENT_LIMIT, loops[j]) for j in (0, 1, 2, floors)}
    back = {f"{name}, backwards": times(-1, cycle) for name, cycle in cycles.items()}
    return Case(f"order {order}", data, 1, [order], cycles | back)


def with_due(cases, calls_of):
    """The calls on the cases with what is due, and how often which kind leaves which coordinate of which order."""
    made, met = [], Counter()
    for case in cases:
        for call in calls_of(case):
            expected = call.expected(case.name, case.data)
            made.append((call, expected))
            if expected.number == 0:
                met.update((call.kind, *pair) for pair in case.coordinates(call.number, expected.written))
    return made, met


def ranges(met):
    """A line for each kind of call: the least and the largest coordinate met of each order."""
    for kind in sorted({kind for kind, _, _ in met}):
        found = {}
        for order, coordinate in sorted(pair for other, *pair in met if other == kind):
            found.setdefault(order, []).append(coordinate)
        said = [f"order {order}: {min(each)} to {max(each)}" for order, each in found.items()]
        yield f"coordinates of {kind}, " + "; ".join(said)


def never_met(met, large=()):
    """What was never met: a coordinate of a small order, an end of the range of a large one."""
    wanted = [(order, c) for order in ORDERS for c in range(-order, order + 1) if in_range(order, c)]
    wanted += [(order, c) for order in large for c in (order // 2 - order + 1, order // 2)]
    return [(kind, *pair) for kind in "CL" for pair in wanted if not met[(kind, *pair)]]
