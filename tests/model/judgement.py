"""Physical groups held to the homology of a region: what `fildwuk judge --json` is to say.

Chains, cycles and coordinates are those of the model of 01. Rank, index and relations
are found over the rational numbers and by Smith's form of small matrices.
"""

from dataclasses import dataclass
from fractions import Fraction
from math import gcd, lcm

from model import homology
from model.matrices import apply, boundary
from model.sheet import LIBRARY_COUNT_LIMIT, parse
from model.sweep import swept_from_facets

COEFFICIENT_LIMIT = 32767
BASIS, NO_BASIS = True, False


@dataclass(frozen=True)
class Group:
    """A physical group: its tag, its name or None, and its elements as tuples of nodes in the order of the file, each with its line's number."""

    tag: int
    name: str
    elements: tuple


def sign(nodes):
    """1 where the nodes are an even permutation of the rising ones, -1 where they are an odd one."""
    inversions = sum(a > b for i, a in enumerate(nodes) for b in nodes[i + 1:])
    return -1 if inversions % 2 else 1


def first_beyond(cells, numbers, limit):
    """The first cell with a number beyond the limit either way, None where there is none."""
    return next(({"number": x, "cell": list(cell)} for cell, x in zip(cells, numbers) if abs(x) > limit), None)


def chain_of(sheet, p, group):
    """The chain of a group, and the line of the first element that is no cell."""
    place = {cell: i for i, cell in enumerate(sheet.cells(p))}
    chain, outside = [0] * len(place), None
    for nodes, line in group.elements:
        cell = tuple(sorted(nodes))
        if cell in place:
            chain[place[cell]] += sign(nodes)
        elif outside is None:
            outside = line
    return chain, outside


def opened(sheet, p, group):
    """The chain of a group, and what is said of it where it is no cycle."""
    chain, outside = chain_of(sheet, p, group)
    if outside is not None:
        return chain, {"verdict": "outside", "line": outside}
    large = first_beyond(sheet.cells(p), chain, COEFFICIENT_LIMIT)
    if large is not None:
        return chain, {"verdict": "large", **large}
    left = first_beyond(sheet.cells(p - 1), apply(boundary(sheet, p), chain), 0)
    return chain, None if left is None else {"verdict": "open", **left}


def rank_of(rows):
    """The rank over the rational numbers."""
    rows, rank = [list(map(Fraction, row)) for row in rows], 0
    for c in range(len(rows[0]) if rows else 0):
        at = next((i for i in range(rank, len(rows)) if rows[i][c]), None)
        if at is None:
            continue
        rows[rank], rows[at] = rows[at], rows[rank]
        for i in range(rank + 1, len(rows)):
            factor = rows[i][c] / rows[rank][c]
            rows[i] = [a - factor * b for a, b in zip(rows[i], rows[rank])]
        rank += 1
    return rank


def smith_product(rows):
    """The product of the nonzero numbers of Smith's form."""
    rows, product = [list(row) for row in rows if any(row)], 1
    while rows:
        least, i, j = min((abs(x), i, j) for i, row in enumerate(rows) for j, x in enumerate(row) if x)
        pivot = rows[i]
        for k, row in enumerate(rows):
            if k != i:
                rows[k] = [a - row[j] // pivot[j] * b for a, b in zip(row, pivot)]
        for c in range(len(pivot)):
            if c != j:
                factor = pivot[c] // pivot[j]
                for row in rows:
                    row[c] -= factor * row[j]
        if not any(row[j] for k, row in enumerate(rows) if k != i) and not any(x for c, x in enumerate(rows[i]) if c != j):
            product *= least
            rows[i][j] = 0
        rows = [row for row in rows if any(row)]
    return product


def relation(rows, independent, i):
    """The relation of row i to the independent ones before it, with no common divisor and positive at i; rows[i] is a combination of them."""
    used = [j for j in range(i) if independent[j]]
    system = [[Fraction(rows[j][c]) for j in used] + [Fraction(rows[i][c])] for c in range(len(rows[i]))]
    for at in range(len(used)):
        pivot = next(k for k in range(at, len(system)) if system[k][at])
        system[at], system[pivot] = system[pivot], system[at]
        system[at] = [x / system[at][at] for x in system[at]]
        for k, row in enumerate(system):
            if k != at:
                system[k] = [a - row[at] * b for a, b in zip(row, system[at])]
    found = {j: -system[at][-1] for at, j in enumerate(used)}
    found[i] = Fraction(1)
    scale = lcm(*(x.denominator for x in found.values()))
    whole = {j: int(x * scale) for j, x in found.items()}
    common = gcd(*whole.values())
    return [(whole[j] // common, j) for j in sorted(whole) if whole[j]]


def times_of(row, of):
    """The nonzero whole number that times the second gives the first, None where there is none."""
    at = next((c for c, x in enumerate(of) if x), None)
    if at is None or row[at] == 0 or row[at] % of[at] or row != [row[at] // of[at] * x for x in of]:
        return None
    return row[at] // of[at]


def said_of_cycle(orders, numbers):
    """What is said of a cycle by its coordinates alone."""
    residues, free = numbers[:len(orders)], numbers[len(orders):]
    order = lcm(1, *(d // gcd(r, d) for r, d in zip(residues, orders)))
    verdict = "free" if any(free) else "twisted" if order > 1 else "bounds"
    divisor = gcd(*free)
    divides = {"divides": all(r % gcd(divisor, d) == 0 for r, d in zip(residues, orders))} if verdict == "free" else {}
    return {"verdict": verdict, "coordinates": numbers, "order": order, "divisor": divisor, **divides}


def add_multiples(groups, orders, said):
    """Adds which group each free one is a multiple of."""
    t = len(orders)
    free = [i for i, one in enumerate(said) if one["verdict"] == "free"]
    for i in free:
        for j in free:
            own, other = said[i]["coordinates"], said[j]["coordinates"]
            times = times_of(own[t:], other[t:]) if i != j else None
            if times is None or (j > i and abs(times) == 1):
                continue
            exactly = all((times * b - a) % d == 0 for a, b, d in zip(own, other, orders))
            said[i].update(times=times, of=groups[j].tag, exactly=exactly)
            break


def judge(region, p, groups, tags):
    """What is said of the groups on the region with these facets and the tags of --region."""
    data = swept_from_facets(region)
    sheet = parse(data, LIBRARY_COUNT_LIMIT)
    report = homology.report(data, p)
    chains = [opened(sheet, p, group) for group in groups]
    cycles = [chain for chain, fault in chains if fault is None]
    lists = iter(homology.coordinate_lists(data, p, len(cycles), [x for chain in cycles for x in chain]).lists if sheet.count(p) else [[] for _ in cycles])
    said = [fault if fault is not None else said_of_cycle(report.orders, next(lists)) for _, fault in chains]
    add_multiples(groups, report.orders, said)
    rows = [one["coordinates"][len(report.orders):] if "coordinates" in one else [0] * report.rank for one in said]
    ranks = [rank_of(rows[:i]) for i in range(len(rows) + 1)]
    independent = [after > before for before, after in zip(ranks, ranks[1:])]
    relations = [[[x, groups[j].tag] for x, j in relation(rows, independent, i)]
                 for i, one in enumerate(said) if "coordinates" in one and not independent[i]]
    index = smith_product(rows)
    basis = len(cycles) == len(groups) == report.rank == ranks[-1] and index == 1
    return {
        "region": tags, "refusal": 0, "counts": [sheet.count(q) for q in range(4)], "dimension": p, "free": report.rank, "orders": report.orders,
        "groups": [{"tag": group.tag, "name": group.name, "elements": len(group.elements), "cycle": "coordinates" in one, **one}
                   for group, one in zip(groups, said)],
        "rank": ranks[-1], "index": index, "relations": relations, "basis": BASIS if basis else NO_BASIS,
    }
