"""Chains for the surface call of Note 6 in 02: cycles that bound, cycles that bound nothing, and faulty ones."""

from functools import cached_property

from model import homology
from model.list_cases import plus, size, times
from model.matrices import boundary, transpose
from model.reduction import ENTRY_LIMIT
from model.sheet import Refused, parse
from model.surface import COEFFICIENT_LIMIT

# Coefficients just beyond the limit, at the limit of the coordinates and beyond it, and the least and the largest of 32 bits.
BEYOND = [COEFFICIENT_LIMIT + 1, -COEFFICIENT_LIMIT - 1, homology.COEFFICIENT_LIMIT, -homology.COEFFICIENT_LIMIT,
          homology.COEFFICIENT_LIMIT + 1, 2 ** 31 - 1, -2 ** 31]

# The most boundaries that a cycle is made of.
TERMS = 12

# Why a cycle bounds nothing.
FREE, TWISTED = "free", "twisted"


def causes(found, numbers):
    """Why a cycle with these coordinates bounds nothing, by the report of its dimension; none where it bounds."""
    split = len(found.orders)
    return {cause for cause, part in ((TWISTED, numbers[:split]), (FREE, numbers[split:])) if any(part)}


class Cycles:
    """Makes chains of one dimension of an accepted sheet, with coefficients within the limit."""

    def __init__(self, rng, data, p, count_limit):
        self.rng, self.data, self.p = rng, data, p
        self.sheet = parse(data, count_limit)
        self.n = self.sheet.count(p)
        self.boundaries = list(zip(*boundary(self.sheet, p + 1)))

    @cached_property
    def generators(self):
        """The reported generators, each with its order, 1 where it is free; none where the report is refused."""
        try:
            found = homology.report(self.data, self.p)
        except Refused:
            return []
        return list(zip(found.orders + [1] * found.rank, found.generators))

    @cached_property
    def basis(self):
        """The columns of V from the rank on, of which every cycle is a whole combination; none where the report is refused."""
        try:
            first = homology.reduced(self.sheet, self.p, ENTRY_LIMIT).first
        except Refused:
            return []
        return transpose(first.column, self.n)[first.rank:]

    def within(self, chain):
        """The chain, or zeros where a coefficient is beyond the limit."""
        return chain if size(chain) <= COEFFICIENT_LIMIT else [0] * self.n

    def largest(self, chain):
        """The largest multiple of a chain within the limit, one way or the other."""
        return times(self.rng.choice([-1, 1]) * (COEFFICIENT_LIMIT // size(chain)), chain) if size(chain) else chain

    def at_times_largest(self, chain):
        """A chain within the limit, one time in four as large as that allows."""
        chain = self.within(chain)
        return self.largest(chain) if self.rng.randrange(4) == 0 else chain

    def bounding(self):
        """A few boundaries of cells."""
        chain = [0] * self.n
        for cell in self.rng.sample(self.boundaries, self.rng.randint(0, min(TERMS, len(self.boundaries)))):
            chain = plus(chain, times(self.rng.choice([-2, -1, 1, 1]), cell))
        return self.at_times_largest(chain)

    def simple(self):
        """A cycle of the basis; zeros where there is none."""
        return self.at_times_largest(self.rng.choice(self.basis or [[0] * self.n]))

    def multiples(self):
        """Each generator once, as often as the limit allows, and as often as its order, each also with boundaries."""
        for order, generator in self.generators:
            for factor in {1, -1, order, -order, COEFFICIENT_LIMIT // max(1, size(generator))}:
                chain = self.within(times(factor, generator))
                yield chain
                yield self.within(plus(chain, self.bounding()))

    def mixed(self):
        """A few generators of every kind together."""
        chain = self.bounding()
        for _, generator in self.generators:
            chain = plus(chain, times(self.rng.randint(-2, 2), generator))
        return self.within(chain)

    def cycles(self, most):
        """Zeros, boundaries and cycles of every kind, no two alike, so many at most."""
        multiples, simple = list(self.multiples()), [self.simple() for _ in range(4)]
        made = [[0] * self.n, self.bounding(), self.mixed(), *simple, *self.rng.sample(multiples, len(multiples)), self.mixed(), self.bounding()]
        return [chain for i, chain in enumerate(made) if chain not in made[:i]][:most]

    def wide_cycles(self):
        """The boundary of a cell as often as it first exceeds the limit, where there is one."""
        return [times(self.rng.choice([-1, 1]) * (COEFFICIENT_LIMIT + 1), self.rng.choice(self.boundaries))] if self.boundaries else []

    def faulty(self):
        """Chains with refusal 11, with 12 and with both faults, where the dimension has them."""
        if self.n == 0:
            return []
        beyond, opened = self.bounding(), self.bounding()
        beyond[self.rng.randrange(self.n)] = self.rng.choice(BEYOND)
        at = self.rng.randrange(self.n)
        opened[at] += 1 if opened[at] < 0 else -1
        return [beyond, opened, *self.wide_cycles()]
