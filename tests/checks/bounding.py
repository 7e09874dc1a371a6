"""Which chains are boundaries, told without the reduction of 01."""

from model import list_cases
from model.matrices import boundary


class BoundingChains:
    """The whole combinations of the boundaries of cells, by Euclid's steps alone.

    Of those with the first nonzero coefficient at a place, one is kept whose coefficient there
    divides that of every other.
    """

    def __init__(self, sheet, p):
        self.kept = {}
        for column in zip(*boundary(sheet, p + 1)):
            self.take(list(column))

    def take(self, chain):
        """Adds a chain to the combinations."""
        while any(chain):
            at = next(i for i, x in enumerate(chain) if x)
            if at not in self.kept:
                self.kept[at] = chain
                return
            other = self.kept[at]
            if abs(chain[at]) < abs(other[at]):
                self.kept[at], chain, other = chain, other, chain
            chain = list_cases.plus(chain, list_cases.times(-(chain[at] // other[at]), other))

    def holds(self, chain):
        """Whether a chain is one of them."""
        for at in range(len(chain)):
            if chain[at] and (at not in self.kept or chain[at] % self.kept[at][at]):
                return False
            if chain[at]:
                factor = chain[at] // self.kept[at][at]
                chain = list_cases.plus(chain, list_cases.times(-factor, self.kept[at]))
        return True
