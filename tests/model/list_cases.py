"""Cases for the call of Note 1 in 02: lists of cycles, faults in every place, wrong lengths.

Also numbers of chains whose product with n_p is large, and small modulo a power of 2.
"""

from dataclasses import dataclass
from itertools import combinations, permutations
from math import gcd

from model import homology
from model.homology import COEFFICIENT_LIMIT
from model.matrices import boundary
from model.sheet import Refused, parse

# Coefficients just beyond the limit, and the least and the largest of 32 bits.
BEYOND = [COEFFICIENT_LIMIT + 1, -COEFFICIENT_LIMIT - 1, 2 ** 31 - 1, -2 ** 31]

# The most boundaries, and the most generators, that a cycle is made of.
TERMS = 12


@dataclass(frozen=True)
class Case:
    """A number, coefficients, coordinate slots, and the answer due where nothing is too wide."""

    name: str
    number: int
    chains: list
    slots: int
    due: int


def size(chain):
    """The largest absolute value of a coefficient."""
    return max(map(abs, chain), default=0)


def times(factor, chain):
    return [factor * x for x in chain]


def plus(chain, other):
    return [x + y for x, y in zip(chain, other)]


def joined(chains):
    """The coefficients of the chains one after another."""
    return [x for chain in chains for x in chain]


def generators(data, p, count_limit):
    """The generators in the report, none where it is refused."""
    try:
        return homology.report(data, p, count_limit).generators
    except Refused:
        return []


class Chains:
    """Makes chains of one dimension of an accepted sheet: cycles and faulty ones."""

    def __init__(self, rng, data, p, count_limit):
        sheet = parse(data, count_limit)
        self.rng, self.p, self.n = rng, p, sheet.count(p)
        self.boundaries = list(zip(*boundary(sheet, p + 1)))
        self.generators = generators(data, p, count_limit)

    def some(self, known):
        """A few of the known chains."""
        return self.rng.sample(known, self.rng.randint(0, min(TERMS, len(known))))

    def cycle(self):
        """A few boundaries and multiples of generators, at times as large as the limit allows."""
        chain = [0] * self.n
        for bounding in self.some(self.boundaries):
            chain = plus(chain, times(self.rng.choice([-1, 1]), bounding))
        for generator in self.some(self.generators):
            chain = plus(chain, times(self.rng.randint(-9, 9), generator))
        if size(chain) > COEFFICIENT_LIMIT:
            return [0] * self.n
        enlarged = size(chain) and self.rng.randrange(4) == 0
        return times(COEFFICIENT_LIMIT // size(chain), chain) if enlarged else chain

    def cycles(self, number):
        return [self.cycle() for _ in range(number)]

    def open(self):
        """A chain within the limit that is no cycle, in a dimension above 0: a cycle and a cell."""
        chain, at = self.cycle(), self.rng.randrange(self.n)
        chain[at] += 1 if chain[at] < 0 else -1
        return chain

    def wide(self):
        """A chain with a coefficient beyond the limit, and no cycle in a dimension above 0."""
        chain = self.cycle()
        chain[self.rng.randrange(self.n)] = self.rng.choice(BEYOND)
        return chain

    def wide_cycle(self):
        """A cycle with a coefficient beyond the limit; zeros where they are the only cycle known."""
        known = [chain for chain in [*self.boundaries, *self.generators] if any(chain)]
        if not known:
            return [0] * self.n
        chain = self.rng.choice(known)
        return times(COEFFICIENT_LIMIT // size(chain) + 1, chain)

    def faults(self):
        """A maker of each kind of faulty chain that the dimension has, with the number due."""
        if self.n == 0:
            return {}
        if self.p == 0:
            return {"11": (self.wide, 11)}
        makers = {"12": (self.open, 12), "11 and 12": (self.wide, 11)}
        if any(self.wide_cycle()):
            makers["11"] = (self.wide_cycle, 11)
        return makers

    def case(self, name, chains, due):
        """The case of these chains with the slots that check 9 wants."""
        return Case(name, len(chains), joined(chains), len(chains) * self.n, due)


def sound(chains, numbers):
    """Cycles alone."""
    return [chains.case(f"{number} cycles", chains.cycles(number), 0) for number in numbers]


def one_fault(chains, number, places=None):
    """Each fault in each of the places, all where none are given."""
    cases = []
    for at in range(number) if places is None else places:
        for name, (maker, due) in chains.faults().items():
            each = chains.cycles(number)
            each[at] = maker()
            cases.append(chains.case(f"{name} in chain {at} of {number}", each, due))
    return cases


def two_faults(chains, number):
    """Every two faults of different kinds in every two places; the first decides."""
    cases = []
    for first, second in combinations(range(number), 2):
        for (name, (maker, due)), (later, (other, _)) in permutations(chains.faults().items(), 2):
            each = chains.cycles(number)
            each[first], each[second] = maker(), other()
            title = f"{name} in chain {first}, {later} in chain {second} of {number}"
            cases.append(chains.case(title, each, due))
    return cases


def wrong_lengths(chains, number):
    """Coefficients other than the number times n_p, in cycles and after a faulty chain."""
    n, cases = chains.n, []
    makers = [chains.cycle] + [maker for maker, _ in chains.faults().values()]
    for length in sorted({0, number * n - n, number * n - 1, number * n + 1, number * n + n}):
        if 0 <= length != number * n:
            coefficients = joined([chains.rng.choice(makers)()] + chains.cycles(number + 1))
            given = (coefficients + [0])[:length]
            title = f"{length} coefficients for {number} chains of {n}"
            cases.append(Case(title, number, given, number * n, 10))
    return cases


def too_short(chains, number):
    """Fewer slots than the number times n_p, also where another check would fail later."""
    wanted = number * chains.n
    given = [joined(chains.cycles(number)), BEYOND[:1] * wanted, [0] * (wanted + 1)]
    return [Case(f"{slots} slots for {number} lists of {chains.n}", number, coefficients, slots, 9)
            for slots in sorted({wanted - 1, wanted - chains.n, chains.n, 0}) if 0 <= slots < wanted
            for coefficients in given]


def wrapping_numbers(n, bits):
    """Numbers whose product with n is, modulo a power of 2, that of few chains; and this product.

    The powers are those of words of 32 and of so many bits, and those with up to 3 bits less, as a
    coefficient has 4 bytes and a coordinate 8.
    """
    for power in sorted({29, 30, 31, 32, bits - 3, bits - 2, bits - 1, bits}):
        step = 2 ** power // gcd(2 ** power, n)
        yield from ((few + step, few * n) for few in (0, 1, 3))
        if n % 2 and n > 1:
            yield pow(n, -1, 2 ** power), 1


def large_numbers(bits):
    """The largest number of so many bits, and powers of 2 with their neighbours."""
    powers = [2 ** power for power in (bits // 2, bits - 4, bits - 3, bits - 2, bits - 1)]
    return [2 ** bits - 1] + [power + step for power in powers for step in (-1, 0, 1)]


def many_chains(chains, bits):
    """Numbers far beyond the slots."""
    n, cases = chains.n, []
    pairs = list(wrapping_numbers(n, bits)) + [(number, n) for number in large_numbers(bits)]
    for number, length in pairs:
        if number < 2 ** bits and number * n > length:
            coefficients = (joined(chains.cycles(length // n)) + [0] * n)[:length]
            title = f"{number} chains of {n} with {length} coefficients"
            cases.append(Case(title, number, coefficients, length, 9))
    return cases


def no_cells(bits):
    """Any number of chains where n_p is 0: done with no coefficients, else 10."""
    cases = []
    for number in [0, 1, 2, 3, *large_numbers(bits)]:
        cases += [Case(f"{number} chains of 0 cells, {length} coefficients", number, [0] * length,
                       slots, 10 if length else 0)
                  for length in (0, 1) for slots in (0, 2)]
    return cases


def cases(rng, data, p, count_limit, bits, most):
    """All cases for a dimension of an accepted sheet, with lists of up to so many chains."""
    chains = Chains(rng, data, p, count_limit)
    if chains.n == 0:
        return no_cells(bits)
    numbers = [0, 1, 2, 3, rng.randint(4, 12), most]
    made = sound(chains, numbers) + one_fault(chains, 1) + one_fault(chains, 3)
    made += two_faults(chains, 3) + one_fault(chains, rng.randint(4, 7))
    made += one_fault(chains, most, [most - 1])
    for number in (0, 1, 2, rng.randint(3, 9)):
        made += wrong_lengths(chains, number) + too_short(chains, number)
    return made + many_chains(chains, bits)
