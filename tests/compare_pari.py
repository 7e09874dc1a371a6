#!/usr/bin/env python3
"""Compares ranks, orders and generators with the computer algebra system PARI/GP.

PARI's Smith forms of the boundary matrices alone give ranks and orders: the cells and
matrices are built here, not by the model. PARI also checks the reported generators:
with the boundaries they span the cycles, and each of finite order times its order is
a boundary. Whether a dimension is refused with 13 is settled by the entries that the
reduction of document 01 makes, which PARI does not know: the model's reduction tells it,
and PARI that no dimension with an invariant factor beyond the limit is reported.
The command gp must be installed (Debian package pari-gp).
"""

import argparse
import random
import shutil
import subprocess
import sys
from dataclasses import dataclass
from functools import partial
from itertools import combinations

from model import homology, matrix_cases, meshes, random_meshes
from model.calls import TOO_WIDE
from model.sheet import LIBRARY_COUNT_LIMIT, PROGRAM_COUNT_LIMIT, Refused, from_facets

TOP = 3
LATTICE_CELLS = 64
GP_PRELUDE = """\
M(r, c, v) = matrix(r, c, i, j, v[(i - 1) * c + j]);
smith(A) = print(vecsort(select(x -> x, matsnf(A))));
spans(A, D, G, E) = print([mathnf(concat(D, G)) == mathnf(matkerint(A)), \
mathnf(concat(D, E)) == mathnf(D)]);
"""


@dataclass(frozen=True)
class Answer:
    """What is reported of one dimension; rank is None where it is refused with 13."""

    rank: int = None
    orders: tuple = ()
    generators: tuple = ()


def cells_of(facets):
    """The cells by dimension, -1 and 4 included, as sorted lists of sorted tuples."""
    cells = {p: set() for p in range(-1, TOP + 2)}
    for facet in facets:
        for size in range(1, len(facet) + 1):
            cells[size - 1].update(tuple(sorted(part)) for part in combinations(facet, size))
    return {p: sorted(part) for p, part in cells.items()}


def boundary_of(cells, p):
    """Rows, columns and entries row by row of the boundary matrix of dimension p."""
    rows, columns = cells[p - 1], cells[p]
    entries = [[0] * len(columns) for _ in rows]
    place = {cell: i for i, cell in enumerate(rows)}
    for j, cell in enumerate(columns if rows else []):
        for i, vertex in enumerate(cell):
            entries[place[tuple(v for v in cell if v != vertex)]][j] = (-1) ** i
    return gp_matrix(len(rows), len(columns), entries)


def gp_matrix(rows, columns, entries):
    """A matrix in PARI's words."""
    flat = ",".join(str(x) for row in entries for x in row)
    return f"M({rows}, {columns}, [{flat}])"


def columns_matrix(rows, columns):
    """A list of columns as a matrix in PARI's words."""
    return gp_matrix(rows, len(columns), [[column[i] for column in columns] for i in range(rows)])


def run_gp(questions, prelude=GP_PRELUDE):
    """The numbers in the line that PARI prints for each question."""
    if shutil.which("gp") is None:
        sys.exit("gp is not installed (Debian package pari-gp)")
    script = prelude + "\n".join(questions) + "\n"
    done = subprocess.run(["gp", "-q", "-f", "-s", "256M"], input=script, text=True,
                          capture_output=True, check=True)
    lines = done.stdout.splitlines()
    if done.stderr.strip() or len(lines) != len(questions):
        sys.exit(f"gp answered {len(lines)} of {len(questions)} questions: {done.stderr}")
    return [[int(word) for word in line.strip("[]").split(",") if word.strip()] for line in lines]


def model_answers(data):
    """The four answers of the model at the library's limit."""
    answers = []
    for p in range(TOP + 1):
        try:
            found = homology.report(data, p)
            answers.append(Answer(found.rank, tuple(found.orders), tuple(found.generators)))
        except Refused as refused:
            if refused.number != TOO_WIDE:
                raise
            answers.append(Answer())
    return answers


def program_answers(program, data):
    """The four answers that a built program prints for a sheet."""
    done = subprocess.run([program], input=data, capture_output=True, check=True)
    answers = []
    for line in done.stdout.decode("ascii").splitlines():
        mark, *numbers = line.split()
        numbers = [int(number) for number in numbers]
        if mark == "G":
            last = answers[-1]
            answers[-1] = Answer(last.rank, last.orders, last.generators + (numbers,))
        elif mark == "H":
            answers.append(Answer(numbers[1], tuple(numbers[3:])))
        elif numbers == [TOO_WIDE]:
            answers.append(Answer())
        else:
            sys.exit(f"a sheet that is accepted is answered with {line}")
    return answers


def sheet_questions(cells, answers):
    """The Smith forms of dimensions 1 to 3, then the checks of generators, with their keys."""
    asked = {("smith", p): f"smith({boundary_of(cells, p)})" for p in range(1, TOP + 1)}
    for p, answer in enumerate(answers):
        n = len(cells[p])
        if answer.rank is None or not 0 < n <= LATTICE_CELLS:
            continue
        multiples = [[d * x for x in chain] for d, chain in zip(answer.orders, answer.generators)]
        asked[("spans", p)] = (
            f"spans({boundary_of(cells, p)}, {boundary_of(cells, p + 1)}, "
            f"{columns_matrix(n, answer.generators)}, {columns_matrix(n, multiples)})")
    return asked


def factors_of(told):
    """The invariant factors of the boundary matrices of dimensions 0 to 4, by PARI."""
    return {0: [], TOP + 1: [], **{p: told["smith", p] for p in range(1, TOP + 1)}}


def factor_beyond(factors, p):
    """Whether an invariant factor in the reductions of dimension p lies beyond the limit."""
    return max(factors[p] + factors[p + 1], default=0) > homology.ENTRY_LIMIT


def sheet_faults(name, cells, answers, due, told):
    """What PARI, whose answers `told` has by key, or the model, as to 13, say otherwise about one sheet."""
    if len(answers) != TOP + 1:
        return [f"{name}: {len(answers)} dimensions are answered"]
    faults = []
    factors = factors_of(told)
    for p, answer in enumerate(answers):
        orders = tuple(d for d in factors[p + 1] if d > 1)
        rank = len(cells[p]) - len(factors[p]) - len(factors[p + 1])
        if (answer.rank is None) != (due[p].rank is None):
            faults.append(f"{name}, dimension {p}: {answer}, the model has {due[p]}")
        elif answer.rank is None:
            continue
        elif factor_beyond(factors, p):
            faults.append(f"{name}, dimension {p}: {answer}, PARI has a factor beyond the limit")
        elif (answer.rank, answer.orders) != (rank, orders):
            faults.append(f"{name}, dimension {p}: {answer.rank} {answer.orders}, "
                          f"PARI has {rank} {orders}")
        elif told.get(("spans", p), [1, 1]) != [1, 1]:
            faults.append(f"{name}, dimension {p}: generators fail, PARI says {told['spans', p]}")
    return faults


def compare_sheets(named, answers_of):
    """Faults found on the sheets, and a line that says what was compared."""
    facts = []
    for name, facets in named.items():
        data = from_facets(facets)
        due = model_answers(data)
        answers = due if answers_of is model_answers else answers_of(data)
        facts.append((name, cells_of(facets), answers, due))
    asked = [(i, key, question) for i, (_, cells, answers, _) in enumerate(facts)
             for key, question in sheet_questions(cells, answers).items()]
    told = [{} for _ in facts]
    for (i, key, _), line in zip(asked, run_gp([question for _, _, question in asked])):
        told[i][key] = line
    faults = [fault for fact, lines in zip(facts, told) for fault in sheet_faults(*fact, lines)]
    every = [(answer, factor_beyond(factors_of(lines), p))
             for (_, _, answers, _), lines in zip(facts, told) for p, answer in enumerate(answers)]
    twisted = sum(1 for answer, _ in every if answer.orders)
    wide = [beyond for answer, beyond in every if answer.rank is None]
    spans = sum(1 for _, key, _ in asked if key[0] == "spans")
    return faults, (f"{len(facts)} sheets: {len(every)} dimensions, {twisted} with orders, "
                    f"{len(wide)} too wide ({wide.count(False)} of them with no invariant factor "
                    f"beyond the limit), generators checked in {spans}")


def compare_matrices(cases):
    """Faults found in diagonals, and a line that says what was compared."""
    done = [(case, case.outcome()) for case in cases]
    done = [(case, outcome) for case, outcome in done if outcome is not None]
    told = run_gp([f"smith({gp_matrix(case.rows, case.cols, case.matrix)})" for case, _ in done])
    faults = [f"matrix {case.name}: {outcome.diagonal()}, PARI has {divisors}"
              for (case, outcome), divisors in zip(done, told) if outcome.diagonal() != divisors]
    return faults, f"{len(done)} diagonals of {len(cases)} matrices, the others too wide"


def sheets_to_compare(options):
    """Facets by name: the sheets of 01 and other known ones, towers, random ones."""
    named = {name: facets for name, (facets, _) in meshes.known().items()}
    named.update({f"tower {floors}": meshes.tower(floors) for floors in (1, 2, 3, 4, 8, 19, 20)})
    named["open tower 20"] = meshes.open_tower(20)
    named.update({name: facets for name, facets in meshes.sized().items()
                  if options.large or max(map(len, cells_of(facets).values())) <= LATTICE_CELLS})
    rng = random.Random(options.seed)
    for i in range(options.count):
        limit = PROGRAM_COUNT_LIMIT if options.program or i % 4 else 2 * PROGRAM_COUNT_LIMIT
        named[f"random {i}"] = random_meshes.complex_of(rng, limit)
    limit = PROGRAM_COUNT_LIMIT if options.program else LIBRARY_COUNT_LIMIT
    return {name: facets for name, facets in named.items()
            if max(map(len, cells_of(facets).values())) <= limit}


def main():
    parser = argparse.ArgumentParser(description=__doc__,
                                     formatter_class=argparse.RawDescriptionHelpFormatter)
    parser.add_argument("--count", type=int, default=500, help="random complexes (500)")
    parser.add_argument("--seed", type=int, default=1, help="seed of what is random (1)")
    parser.add_argument("--matrices", type=int, default=1000, help="random matrices (1000)")
    parser.add_argument("--large", action="store_true", help="also the meshes near 256 cells")
    parser.add_argument("--program", metavar="FILE",
                        help="compare this built program instead of the model, within 48 cells")
    options = parser.parse_args()
    answers_of = partial(program_answers, options.program) if options.program else model_answers
    faults, summary = compare_sheets(sheets_to_compare(options), answers_of)
    print(summary)
    if not options.program:
        rng = random.Random(options.seed)
        cases = matrix_cases.named() + matrix_cases.random_cases(rng, options.matrices)
        more, summary = compare_matrices(cases)
        faults += more
        print(summary)
    print("\n".join(faults) if faults else "all agree with PARI/GP")
    sys.exit(1 if faults else 0)


if __name__ == "__main__":
    main()
