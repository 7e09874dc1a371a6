"""Matrices for the reduction: named ones that tell a mistake, and seeded random ones."""

from dataclasses import dataclass

from model.matrices import identity
from model.reduction import ENTRY_LIMIT, TooWide, reduce

COMPANIONS = ("row", "row_inverse", "column", "column_inverse")
ALL = 15
SMALL_LIMIT = 9


@dataclass(frozen=True)
class Case:
    """A matrix, its limit, and its companions: bit i of `companions` asks for COMPANIONS[i]."""

    name: str
    rows: int
    cols: int
    matrix: list
    limit: int = ENTRY_LIMIT
    companions: int = ALL

    def asked(self):
        """The names of the companions asked for."""
        return [name for i, name in enumerate(COMPANIONS) if self.companions >> i & 1]

    def starts(self):
        """The companions asked for as they start, each an identity."""
        return {name: identity(self.rows if name.startswith("row") else self.cols)
                for name in self.asked()}

    def outcome(self):
        """The finished reduction, or None where it goes too wide."""
        try:
            return reduce(self.matrix, self.rows, self.cols, self.limit, **self.starts())
        except TooWide:
            return None


def case(name, matrix, **choices):
    """A case with at least one row."""
    return Case(name, len(matrix), len(matrix[0]), matrix, **choices)


# Each goes too wide in the one companion alone, at the entry limit of 01 and at 9.
WIDE_AT_LIMIT = {
    "row": [[-957, -1972], [96, 0], [1153, -714], [0, -1389]],
    "row_inverse": [[1688, 1289], [0, -617], [-769, -540], [1577, 1517]],
    "column": [[-1831, 64, 0], [0, -557, -1908]],
    "column_inverse": [[437, 0, 853], [836, -449, 0]],
}
WIDE_AT_SMALL = {
    "row": [[9], [6], [-7]],
    "row_inverse": [[-5], [0], [6], [-6]],
    "column": [[-1, 9, 7, 0], [0, -7, 0, -6]],
    "column_inverse": [[9, -9, 5, -6]],
}

# Each is beyond the limit for a moment in the one place, and within it at the end.
BRIEFLY_WIDE = {
    ENTRY_LIMIT: {
        "matrix": [[3278, -3237], [0, -11524], [-24374, 26315], [-19722, -27068]],
        "row": [[0, 1445], [1872, -1055], [-1866, -1362]],
    },
    SMALL_LIMIT: {
        "matrix": [[-4, -4], [5, 3], [0, -4]],
        "row": [[3, 2, -9], [0, 0, 1], [6, 6, 3]],
        "row_inverse": [[-9], [9], [2]],
        "column": [[5, 0, 2, -3], [-5, -4, -1, -2]],
        "column_inverse": [[4, 9, -9, 0], [0, 0, -8, 0]],
    },
}


def shapes():
    """Matrices with a side of 0, zero matrices, and single entries."""
    return [
        Case("no rows and no columns", 0, 0, []), Case("no rows", 0, 3, []),
        Case("no columns", 3, 0, [[], [], []]), case("zeros", [[0, 0, 0], [0, 0, 0]]),
        case("one entry", [[5]]), case("one negative entry", [[-5]]),
    ]


def steps():
    """Matrices on which a mistake in one step of 01 shows."""
    return [
        case("2, 3 to 1, 6", [[2, 0], [0, 3]]),
        case("step e twice in one stage", [[6, 0, 0], [0, 10, 0], [0, 0, 15]]),
        case("step e in two stages", [[2, 0, 0, 0], [0, 3, 0, 0], [0, 0, 4, 0], [0, 0, 0, 9]]),
        case("step e takes the first row", [[4, 0, 0], [0, 6, 0], [0, 0, 5]]),
        case("step e goes on with d", [[-4, 3], [-2, 2]]),
        case("quotient rounded down, rows", [[2], [-3]]),
        case("quotient rounded down, columns", [[2, -3]]),
        case("quotient rounded down", [[3, -7, 5], [-8, 4, -5], [7, -7, 10]]),
        case("remainders in the row pass", [[12, 5], [18, 7], [-30, 11]]),
        case("remainders in the column pass", [[12, 18, -30], [5, 7, 11]]),
        case("ties to the lowest row, then column", [[0, 3, -2], [2, -2, 4], [-2, 2, 6]]),
        case("negative pivot", [[-1, 2], [2, -4]]),
        case("swaps of rows and columns", [[4, 6, 8], [6, 9, 1], [8, 2, 6]]),
    ]


def neighbours(pivots):
    """Neighbouring Fibonacci numbers, the larger first, for which a stage tries so many pivots."""
    small, large = 1, 2
    for _ in range(pivots - 1):
        small, large = large, small + large
    return large, small


def returns():
    """Matrices with many returns to step a within a stage, some near 8, 16 and 24 pivots."""
    a, b = neighbours(28)
    mixed = [[35, 83, -66, -69], [-61, -12, -43, -18], [-9, 51, 57, -31]]
    cases = [case(f"{n} pivots in a stage", [list(neighbours(n))])
             for n in (7, 8, 9, 16, 17, 24, 25)]
    return cases + [
        case("27 returns from d in a stage", [[a, b]]),
        case("27 returns from c in a stage", [[a], [b]]),
        case("27 returns in a stage, no companions", [[b, a]], companions=0),
        case("26 returns in a stage, negative entries", [[-b, a, 0], [0, 0, 0]]),
        case("27 returns from d in each of two stages", [[a, b, 0, 0], [0, 0, a, b]]),
        case("27 returns from c in each of two stages", [[a, 0], [b, 0], [0, a], [0, b]]),
        case("13 returns in a stage, the first after e", [[987, 0], [0, 610]]),
        case("18 returns in a stage, three rows", mixed, companions=0),
        case("too wide after 14 returns", [[1597, 0], [0, 987]]),
    ]


def limits():
    """Matrices that reach the limit of 01 exactly, and that pass it by one."""
    top = ENTRY_LIMIT
    return [
        case("at the limit in the matrix", [[1, 1], [-1, top - 1]]),
        case("above the limit in the matrix", [[1, 1], [-1, top]]),
        case("at the negative limit in the matrix", [[1, 1], [1, 1 - top]]),
        case("below the negative limit in the matrix", [[1, 1], [1, -top]]),
        case("at the limit in the row follower", [[1, 0], [1023, 1], [0, 1025]]),
        case("above the limit in the row follower", [[1, 0], [1024, 1], [0, 1024]]),
        case("at the limit in the column follower", [[1, 1023, 0], [0, 1, 1025]]),
        case("above the limit in the column follower", [[1, 1024, 0], [0, 1, 1024]]),
        case("entries at the limit", [[top, -top], [-top, top]]),
    ]


def companion_cases(matrices, limit):
    """Each matrix with the companion that goes too wide, without it, and with none."""
    cases = []
    for i, name in enumerate(COMPANIONS):
        for asked in (1 << i, ALL - (1 << i), 0, ALL):
            cases.append(case(f"too wide in {name} alone, companions {asked}", matrices[name],
                              limit=limit, companions=asked))
    return cases


def briefly_wide(limit):
    """The cases that are beyond a limit for a moment, with the companion concerned or none."""
    return [case(f"too wide for a moment in {name}", matrix, limit=limit,
                 companions=1 << COMPANIONS.index(name) if name in COMPANIONS else 0)
            for name, matrix in BRIEFLY_WIDE[limit].items()]


def named():
    """The named cases at the entry limit of 01."""
    return (shapes() + steps() + returns() + limits() + companion_cases(WIDE_AT_LIMIT, ENTRY_LIMIT)
            + briefly_wide(ENTRY_LIMIT))


def named_small():
    """The named cases at a small limit."""
    return companion_cases(WIDE_AT_SMALL, SMALL_LIMIT) + briefly_wide(SMALL_LIMIT)


def random_matrix(rng, rows, cols, size):
    """Entries up to `size` either way, with zeros among them or rows that depend on others."""
    zeros = rng.choice([0.0, 0.3, 0.7])
    matrix = [[0 if rng.random() < zeros else rng.randint(-size, size) for _ in range(cols)]
              for _ in range(rows)]
    if rows > 1 and rng.random() < 0.2:
        i, k = rng.sample(range(rows), 2)
        sign = rng.choice([-1, 1])
        matrix[i] = [sign * x for x in matrix[k]]
    return matrix


def random_case(rng, number, limit):
    """A random matrix of up to 6 rows and 6 columns with random companions."""
    rows, cols = rng.randint(0, 6), rng.randint(0, 6)
    size = min(limit, rng.choice([1, 3, 12, 100, 2000, limit]))
    companions = rng.choice([ALL, ALL, 3, 12, rng.randint(0, ALL)])
    matrix = random_matrix(rng, rows, cols, size)
    return Case(f"random {number}", rows, cols, matrix, limit, companions)


def random_cases(rng, count, limits_to_use=(ENTRY_LIMIT,)):
    """So many random cases, each with one of the limits."""
    return [random_case(rng, i, rng.choice(limits_to_use)) for i in range(count)]
