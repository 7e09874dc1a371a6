#!/usr/bin/env python3
"""Compares the whole-number arithmetic of tools/lattice.c with PARI/GP on random matrices, in a build with sanitizers.

PARI gives the rank of every first few rows, and Smith's form of all of them, whose
product is the index. A relation is held to its definition: it gives zero, has no
common divisor, and needs nothing but independent rows before the dependent one. What
is refused is beyond what 128 bits hold; matrices with small numbers never are.
The command gp must be installed (Debian package pari-gp).
"""

import argparse
import random
import subprocess
import sys
from dataclasses import dataclass
from math import gcd, lcm
from pathlib import Path

from compare_pari import gp_matrix, run_gp

ROOT = Path(__file__).resolve().parent.parent
DRIVER = ROOT / "target/host/lattice_driver"
WIDEST = 2**127 - 1
BUILD = ["gcc", "-std=c11", "-O1", "-g", "-Wall", "-Wextra", "-Wpedantic", "-Wconversion", "-Werror", "-fsanitize=address,undefined",
         "-fno-sanitize-recover=all", "-Itools", "-o", str(DRIVER), "tests/host/lattice_driver.c", "tools/lattice.c"]


@dataclass(frozen=True)
class Case:
    """A matrix by its rows, and whether its numbers are small, so that no refusal is due."""

    rows: list
    width: int
    small: bool


def random_matrix(rng):
    """A matrix of a random shape: sparse, dense, of low rank, near a basis, or with large numbers."""
    number, width = rng.randint(0, 9), rng.randint(0, 9)
    kind = rng.choice(["sparse", "dense", "low", "basis", "large"])
    if kind in ("sparse", "dense", "large"):
        most = {"sparse": 1, "dense": 9, "large": 2**rng.randint(20, 43)}[kind]
        chance = 0.4 if kind == "sparse" else 0.9
        rows = [[rng.randint(-most, most) * (rng.random() < chance) for _ in range(width)] for _ in range(number)]
        return Case(rows, width, kind != "large")
    if kind == "basis":
        return Case(near_basis(rng, width), width, True)
    few = [[rng.randint(-3, 3) for _ in range(width)] for _ in range(rng.randint(0, 3))]
    return Case([combination(rng, few, width) for _ in range(number)], width, True)


def combination(rng, rows, width):
    """A small combination of the rows."""
    factors = [rng.randint(-3, 3) for _ in rows]
    return [sum(f * row[c] for f, row in zip(factors, rows)) for c in range(width)]


def near_basis(rng, width):
    """The rows of a matrix of determinant 1 or -1, now and then with one row spoiled, one more or one less."""
    rows = [[int(i == j) for j in range(width)] for i in range(width)]
    for _ in range(2 * width):
        i, j = rng.randrange(width), rng.randrange(width)
        if i != j:
            factor = rng.randint(-2, 2)
            rows[i] = [a + factor * b for a, b in zip(rows[i], rows[j])]
    spoil = rng.randint(0, 3)
    if rows and spoil == 1:
        rows[0] = [rng.choice([2, 3, 5]) * a for a in rows[0]]
    if rows and spoil == 2:
        rows.append(combination(rng, rows, width))
    if rows and spoil == 3:
        rows.pop()
    return rows


def random_orders(rng):
    """Orders and rows of residues."""
    width = rng.randint(0, 5)
    orders = [rng.randint(1, rng.choice([12, 1048575])) for _ in range(width)]
    return [orders] + [[rng.randint(-d // 2 + 1, d // 2) for d in orders] for _ in range(3)]


def ask(matrices):
    """The driver's line of numbers for each matrix; a width below 0 asks for orders."""
    lines = [" ".join(map(str, [len(rows), width, *(x for row in rows for x in row)])) for rows, width in matrices]
    done = subprocess.run([DRIVER], input="\n".join(lines) + "\n", text=True, capture_output=True, check=True)
    return [list(map(int, line.split())) for line in done.stdout.splitlines()]


def pari_answers(cases):
    """For each case the ranks of its first rows and the numbers of Smith's form that are not 0."""
    questions = []
    for case in cases:
        n = len(case.rows)
        questions += [f"print([matrank({gp_matrix(i, case.width, case.rows[:i])})])" for i in range(1, n + 1)]
        questions.append(f"smith({gp_matrix(n, case.width, case.rows)})" if n and case.width else "print([])")
    answers = iter(run_gp(questions))
    return [([next(answers)[0] for _ in case.rows], next(answers)) for case in cases]


def relation_fault(case, independent, i, relation):
    """What is wrong with the relation of row i, None where it is right."""
    sums = [sum(a * row[c] for a, row in zip(relation, case.rows)) for c in range(case.width)]
    if independent[i]:
        return "a relation of an independent row" if any(relation) else None
    if any(sums) or relation[i] <= 0 or gcd(*relation) != 1:
        return "no relation"
    if any(a and (j > i or (j < i and not independent[j])) for j, a in enumerate(relation)):
        return "a relation with other rows"
    return None


def multiple(row, of):
    """The number that times the second gives the first, 0 where there is none."""
    at = next((c for c, x in enumerate(of) if x), None)
    if at is None or row[at] == 0 or row[at] % of[at]:
        return 0
    times = row[at] // of[at]
    return times if row == [times * x for x in of] else 0


def fault(case, found, ranks, smith):
    """What is wrong with the driver's line on a case, None where nothing is; and whether something was refused."""
    n = len(case.rows)
    due_rows = [gcd(*row) for row in case.rows] + [multiple(a, b) for a in case.rows for b in case.rows]
    index = 1
    for factor in smith:
        index *= factor
    answer, *rest = found
    if answer == 1:
        return ("refused" if case.small else "contents" if rest != due_rows else None), True
    independent = [int(after > before) for before, after in zip([0, *ranks], ranks)]
    if rest[:2 + n] != [len(smith), index, *independent] or index > WIDEST:
        return "rank, index or independence", False
    told, *rest = rest[2 + n:]
    if told == 1:
        return ("relations refused" if case.small else "contents" if rest != due_rows else None), True
    relations = [rest[i * n:(i + 1) * n] for i in range(n)]
    faults = [relation_fault(case, independent, i, relation) for i, relation in enumerate(relations)]
    faults.append("contents or multiples" if rest[n * n:] != due_rows else None)
    return next(filter(None, faults), None), False


def orders_due(rows):
    """The order of each row of residues."""
    orders, *residues = rows
    return [lcm(1, *(d // gcd(r, d) for r, d in zip(row, orders))) for row in residues]


def main():
    options = argparse.ArgumentParser(description=__doc__, formatter_class=argparse.RawDescriptionHelpFormatter)
    options.add_argument("--count", type=int, default=3000)
    options.add_argument("--seed", type=int, default=26)
    chosen = options.parse_args()
    rng = random.Random(chosen.seed)
    DRIVER.parent.mkdir(parents=True, exist_ok=True)
    subprocess.run(BUILD, cwd=ROOT, check=True)
    cases = [random_matrix(rng) for _ in range(chosen.count)]
    wrong = refused = bases = 0
    for case, found, (ranks, smith) in zip(cases, ask([(c.rows, c.width) for c in cases]), pari_answers(cases), strict=True):
        what, was_refused = fault(case, found, ranks, smith)
        refused += was_refused
        bases += len(case.rows) == case.width == len(smith) and set(smith) <= {1}
        if what is not None:
            wrong += 1
            print(f"{what}: {case.rows}")
    asked = [rows for rows in (random_orders(rng) for _ in range(chosen.count)) if rows[0]]
    for rows, found in zip(asked, ask([(rows, -len(rows[0])) for rows in asked]), strict=True):
        if found != orders_due(rows):
            wrong += 1
            print(f"orders: {rows}")
    print(f"{len(cases)} matrices ({bases} bases, {refused} refused as too wide) and {len(asked)} lists of residues, {wrong} differ from PARI/GP")
    return 1 if wrong or not bases or not refused else 0


if __name__ == "__main__":
    sys.exit(main())
