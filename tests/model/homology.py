"""The report and the coordinates of 01, the coordinate lists of Note 1 in 02, the peak of Note 4 and the residues of Note 5.

Refusals 1 to 7, 18 and 8 to 13 are tried in this order. A slice length that is
not given is long enough. Refusals are raised as Refused.
"""

from dataclasses import dataclass
from functools import lru_cache

from model import headroom
from model.matrices import apply, boundary, identity, is_cycle, multiply
from model.reduction import ENTRY_LIMIT, Held, Reduced, TooWide, reduce
from model.sheet import DIMENSIONS, LIBRARY_COUNT_LIMIT, Refused, parse

COEFFICIENT_LIMIT = 32767
FREE = 0


@dataclass(frozen=True)
class Classes:
    """The end of both reductions: rows of Q, columns of G, and the kind of each.

    A kind is the pivot of the row, 1 or an order above 1, or FREE.
    """

    rows: list
    generators: list
    kinds: list
    first: Reduced
    second: Reduced

    def places(self):
        """The places of the orders, then those of the free rows."""
        orders = [i for i, kind in enumerate(self.kinds) if kind > 1]
        return orders + [i for i, kind in enumerate(self.kinds) if kind == FREE]


@dataclass(frozen=True)
class Report:
    """The free rank, the orders, the generators of the orders and then the free ones, and the peak."""

    rank: int
    orders: list
    generators: list
    peak: int

    def numbers(self):
        """The report as the numbers that the call writes."""
        coefficients = [x for generator in self.generators for x in generator]
        return [self.rank, len(self.orders), *self.orders, *coefficients]


def classes(sheet, p, limit=ENTRY_LIMIT, tracked=False):
    """Both reductions of dimension p, the columns of the second tracked where asked (02, Note 6); raises TooWide."""
    n, above = sheet.count(p), sheet.count(p + 1)
    first = reduce(boundary(sheet, p), sheet.count(p - 1), n, limit,
                   column=identity(n), column_inverse=identity(n))
    r = first.rank
    g = [row[r:] for row in first.column]
    q = first.column_inverse[r:]
    product = multiply(q, boundary(sheet, p + 1), above)
    Held("product", limit, []).write([x for row in product for x in row])
    second = reduce(product, n - r, above, limit, row=q, row_inverse=g, column=identity(above) if tracked else None)
    kinds = second.diagonal() + [FREE] * (n - r - second.rank)
    columns = [[row[j] for row in second.row_inverse] for j in range(n - r)]
    return Classes(second.row, columns, kinds, first, second)


def work_slots(sheet, p):
    """The work slice that check 9 asks for."""
    n = sheet.count(p)
    return n * (2 * n + max(sheet.count(p - 1), sheet.count(p + 1)))


def report_slots(sheet, p):
    """The report slice that check 9 asks for."""
    n = sheet.count(p)
    return 2 + n + n * n


def shorter(length, needed):
    """Whether a slice of a given length, None where it is long enough, is too short."""
    return length is not None and length < needed


def admit(data, p, count_limit):
    """The accepted sheet in the bytes; raises Refused 1 to 7, 18 and 8."""
    sheet = parse(data, count_limit)
    if p >= DIMENSIONS:
        raise Refused(8)
    return sheet


@lru_cache(maxsize=16)
def outcome(sheet, p, limit, tracked):
    """Both reductions of dimension p or what was too wide, kept for further calls on the sheet."""
    try:
        return classes(sheet, p, limit, tracked)
    except TooWide as wide:
        return wide


def reduced(sheet, p, limit, tracked=False):
    """Both reductions of dimension p, the columns of the second tracked where asked; raises Refused 13."""
    found = outcome(sheet, p, limit, tracked)
    if isinstance(found, TooWide):
        raise Refused(13) from found
    return found


def report(data, p, count_limit=LIBRARY_COUNT_LIMIT, limit=ENTRY_LIMIT,
           report_length=None, work_length=None):
    """The report on dimension p of the sheet in the bytes."""
    sheet = admit(data, p, count_limit)
    if shorter(report_length, report_slots(sheet, p)) or shorter(work_length, work_slots(sheet, p)):
        raise Refused(9)
    found = reduced(sheet, p, limit)
    orders = [kind for kind in found.kinds if kind > 1]
    generators = [found.generators[i] for i in found.places()]
    return Report(found.kinds.count(FREE), orders, generators, headroom.peak(found.first, found.second))


def nearest_zero(value, order):
    """02, Note 5: the value modulo the order, above -order/2 and up to order/2."""
    residue = value % order
    return residue - order if 2 * residue > order else residue


def coordinate(kind, value):
    """The coordinate of a row with this value: modulo an order, as it is where free."""
    return value if kind == FREE else nearest_zero(value, kind)


def coordinate_list(found, chain):
    """The coordinates of a cycle, in the report's order."""
    values = apply(found.rows, chain)
    return [coordinate(found.kinds[i], values[i]) for i in found.places()]


def check_cycle(sheet, p, chain, coefficient_limit):
    """Raises Refused 10 to 12 for a chain of dimension p that is no cycle within the limit; None is a chain of no whole length."""
    if chain is None or len(chain) != sheet.count(p):
        raise Refused(10)
    if any(abs(x) > coefficient_limit for x in chain):
        raise Refused(11)
    if not is_cycle(sheet, p, chain):
        raise Refused(12)


def coordinates(data, p, chain, count_limit=LIBRARY_COUNT_LIMIT, limit=ENTRY_LIMIT,
                coordinate_length=None, work_length=None):
    """The coordinates of a chain of dimension p; None is a chain of no whole length."""
    sheet = admit(data, p, count_limit)
    if shorter(coordinate_length, sheet.count(p)) or shorter(work_length, work_slots(sheet, p)):
        raise Refused(9)
    check_cycle(sheet, p, chain, COEFFICIENT_LIMIT)
    return coordinate_list(reduced(sheet, p, limit), chain)


@dataclass(frozen=True)
class CoordinateLists:
    """Coordinate lists, each of which starts so many slots after the one before."""

    apart: int
    lists: list

    def slots(self):
        """The number in each slot that is written."""
        return {i * self.apart + j: number
                for i, numbers in enumerate(self.lists) for j, number in enumerate(numbers)}


def parted(chains, n):
    """The chains of n coefficients that stand one after another; where n is 0, none has any."""
    return [chains[start:start + n] for start in range(0, len(chains), n)] if n else []


def first_fault(matrix, chains):
    """11 or 12 as the first faulty chain has it, 0 where none is faulty."""
    for chain in chains:
        if max(map(abs, chain)) > COEFFICIENT_LIMIT:
            return 11
        if any(apply(matrix, chain)):
            return 12
    return 0


def coordinate_lists(data, p, number, chains, count_limit=LIBRARY_COUNT_LIMIT, limit=ENTRY_LIMIT,
                     coordinate_length=None, work_length=None):
    """The lists of so many chains of dimension p; None are chains of no whole length."""
    sheet = admit(data, p, count_limit)
    n = sheet.count(p)
    if shorter(coordinate_length, number * n) or shorter(work_length, work_slots(sheet, p)):
        raise Refused(9)
    if chains is None or len(chains) != number * n:
        raise Refused(10)
    each = parted(chains, n)
    fault = first_fault(boundary(sheet, p), each)
    if fault:
        raise Refused(fault)
    found = reduced(sheet, p, limit)
    return CoordinateLists(n, [coordinate_list(found, chain) for chain in each])
