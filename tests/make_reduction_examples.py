#!/usr/bin/env python3
"""Writes the tables of the crate reduction_examples: matrices and what the model makes of them.

First it checks that each finished outcome is right by itself (the transforms are inverse
to each other and give the diagonal), and that each mistake named with a case changes the
outcome of that case. The mistaken outcomes make the edits that the crate must refuse. The
peak of Note 4 in 02 is taken here, from the tables that stand after each operation.
"""

import argparse
from dataclasses import dataclass, field
from pathlib import Path
from textwrap import indent

from model.matrices import identity, multiply, transpose
from model.matrix_cases import COMPANIONS, WIDE_AT_SMALL
from model.reduction import Followers, Reduction, TooWide, copy_columns, copy_rows, reduce

FIELDS = dict(zip(COMPANIONS, ("row_follower", "row_inverse", "column_follower", "column_inverse")))
SPOKEN = dict(zip(COMPANIONS, ("row follower", "inverse of the row follower",
                               "column follower", "inverse of the column follower")))
NOTED = ["matrix"] + list(SPOKEN.values())
ROWS, COLUMNS = COMPANIONS[:2], COMPANIONS[2:]
BY_ROWS = ("row", "column_inverse")
NO_LIMIT = 10 ** 30


@dataclass
class Case:
    """A matrix with its companions as they start, the limit, what goes too wide, what alone
    holds the peak, and the mistakes that change its outcome."""

    text: str
    rows: int
    cols: int
    matrix: list
    limit: int = 1000
    starts: dict = field(default_factory=dict)
    wide_in: str = None
    peak_in: str = None
    told: tuple = ()

    def outcome(self, limit=None):
        """The finished reduction, or the name of what goes too wide."""
        try:
            return reduce(self.matrix, self.rows, self.cols, limit or self.limit, **self.starts)
        except TooWide as wide:
            return wide.where

    def lines(self, name):
        """The number of lines of a companion."""
        return self.rows if name in ROWS else self.cols

    def length(self, name):
        """The length of a line of a companion, 0 where it is absent."""
        start = self.starts.get(name, [])
        if name in BY_ROWS:
            return len(start[0]) if start else 0
        return len(start)

    def from_identities(self):
        """Whether the companions that are there start as identities."""
        return all(start == identity(self.lines(name)) for name, start in self.starts.items())

    def all_identities(self):
        """Whether all four companions are there and start as identities."""
        return self.from_identities() and len(self.starts) == len(COMPANIONS)

    def work(self, kind, limit):
        """A reduction of a kind that is ready to run."""
        start = {name: self.starts.get(name) for name in COMPANIONS}
        on_rows = Followers("row", limit, copy_rows(start["row"]),
                            copy_columns(start["row_inverse"], self.rows))
        on_columns = Followers("column", limit, copy_columns(start["column"], self.cols),
                               copy_rows(start["column_inverse"]))
        return kind(copy_rows(self.matrix), self.rows, self.cols, limit, on_rows, on_columns)

    def noted(self):
        """The largest absolute value in the matrix and in each companion, at the start and
        after each operation."""
        work = self.work(Noting, self.limit)
        work.run()
        return work.noted

    def start_peak(self):
        """The largest absolute value of an entry at the start."""
        return max(self.noted()[0])

    def peak(self):
        """The largest absolute value that an entry has had."""
        return max(map(max, self.noted()))


def case(text, matrix, names=(), **choices):
    """A case with at least one row whose companions start as identities."""
    rows, cols = len(matrix), len(matrix[0])
    starts = {name: identity(rows if name in ROWS else cols) for name in names}
    return Case(text, rows, cols, matrix, starts=starts, **choices)


# ---- the peak

def tables(work):
    """The matrix and the companions' lines as they stand; an absent companion is None."""
    return [work.matrix, work.on_rows.lines, work.on_rows.inverse,
            work.on_columns.lines, work.on_columns.inverse]


def largest(lines):
    """The largest absolute value of an entry, 0 where there is none."""
    return max((abs(x) for line in lines or [] for x in line), default=0)


class Noting(Reduction):
    """Notes the largest absolute value in each table at the start and after each operation."""

    def __init__(self, *given):
        super().__init__(*given)
        self.noted = [[largest(lines) for lines in tables(self)]]


def noting(name):
    """An operation after which the entries are noted."""
    def operation(self, *given):
        getattr(Reduction, name)(self, *given)
        self.noted.append([largest(lines) for lines in tables(self)])
    return operation


for operation_name in ("swap_rows", "swap_columns", "negate_row", "subtract_row", "subtract_column"):
    setattr(Noting, operation_name, noting(operation_name))


# ---- the cases

def steps():
    """Cases that tell a mistake in one step of 01."""
    return [
        case("2 and 3 on the diagonal end as 1 and 6", [[2, 0], [0, 3]], COMPANIONS,
             told=("no step e",)),
        case("step e twice in one stage", [[6, 0, 0], [0, 10, 0], [0, 0, 15]], COMPANIONS,
             told=("no step e",)),
        case("step e takes the first row with an entry that the pivot does not divide",
             [[4, 0, 0], [0, 6, 0], [0, 0, 5]], COMPANIONS, told=("step e takes the last row",)),
        case("step e returns to d", [[-4, 3], [-2, 2]], ROWS, told=("step e returns to a",)),
        case("quotients rounded down in the row pass", [[2], [-3]], ROWS, told=("truncation",)),
        case("quotients rounded down in the column pass", [[2, -3]], COLUMNS, told=("truncation",)),
        case("quotients rounded down in both passes", [[3, -7, 5], [-8, 4, -5], [7, -7, 10]],
             COMPANIONS, told=("truncation", "passes left early")),
        case("the row pass goes on behind a remainder", [[5], [7], [9]], ROWS,
             told=("passes left early",)),
        case("the column pass goes on behind a remainder", [[5, 7, 9]], COLUMNS,
             told=("passes left early",)),
        case("ties go to the lowest row, then to the lowest column",
             [[0, 3, -2], [2, -2, 4], [-2, 2, 6]], COMPANIONS,
             told=("ties to the last", "ties to the lowest column", "least entry, not least size")),
        case("a negative pivot, and rank 1", [[-1, 2], [2, -4]], COMPANIONS, told=("no negation",)),
        case("swaps of rows and of columns, and returns from c, d and e",
             [[4, 6, 8], [6, 9, 1], [8, 2, 6]], COMPANIONS,
             told=("no step e", "no negation")),
    ]


def shapes():
    """Zeros, no rows, no columns, and companions that are not square."""
    return [
        case("zeros", [[0, 0, 0], [0, 0, 0]], COMPANIONS),
        Case("no rows", 0, 3, [], starts={"row": [], "row_inverse": [], "column": identity(3),
                                          "column_inverse": identity(3)}),
        Case("no columns", 3, 0, [[], [], []], starts={
            "row": identity(3), "row_inverse": identity(3), "column": [], "column_inverse": []}),
        Case("companions that are not square", 2, 2, [[4, 6], [-6, 3]], starts={
            "row": [[1, 0, -1], [2, 1, 0]], "row_inverse": [[1, 0], [-2, 1], [0, 3]],
            "column": [[1, 2]], "column_inverse": [[0, 1, 5, 0], [3, -2, 0, 0]]}),
    ]


def limits():
    """Cases at the limit and beyond it, in the matrix and in each companion alone."""
    made = [
        case("at the limit", [[1, 1], [-1, 19]], limit=20),
        case("beyond the limit in the matrix", [[1, 1], [-1, 20]], limit=20, wide_in="matrix"),
        case("at the limit below 0", [[1, 1], [1, -19]], limit=20),
        case("beyond the limit below 0", [[1, 1], [1, -20]], limit=20, wide_in="matrix"),
        case("beyond the limit on the way alone", [[1, 15], [-1, 10], [0, 1]], limit=20,
             wide_in="matrix", told=("limit held at the end alone",)),
    ]
    for name, matrix in WIDE_AT_SMALL.items():
        others = [other for other in COMPANIONS if other != name]
        made.append(case(f"beyond the limit in the {SPOKEN[name]}", matrix, [name], limit=9,
                         wide_in=SPOKEN[name]))
        made.append(case("the same matrix with the other companions", matrix, others, limit=9))
    return made


def peaks():
    """Cases in which the matrix or one companion alone holds the peak."""
    made = [case("the matrix holds the peak, on the way alone", [[1, 15], [-1, 10], [0, 1]],
                 peak_in="matrix")]
    for name, matrix in WIDE_AT_SMALL.items():
        made.append(case(f"the {SPOKEN[name]} holds the peak", matrix, COMPANIONS,
                         peak_in=SPOKEN[name]))
    return made


# ---- mistakes

def truncated(a, b):
    """The quotient rounded towards zero."""
    return abs(a) // abs(b) * (1 if (a < 0) == (b < 0) else -1)


class Truncation(Reduction):
    """Quotients rounded towards zero."""

    def subtract_row(self, i, k, quotient):
        if k == self.stage:
            quotient = truncated(self.matrix[i][k], self.matrix[k][k])
        super().subtract_row(i, k, quotient)

    def subtract_column(self, j, k, quotient):
        super().subtract_column(j, k, truncated(self.matrix[k][j], self.matrix[k][k]))


class LeftEarly(Reduction):
    """A pass ends at the first remainder."""

    def step_c(self):
        k = self.stage
        for i in range(k + 1, self.rows):
            self.subtract_row(i, k, self.matrix[i][k] // self.matrix[k][k])
            if self.matrix[i][k]:
                return self.step_a
        return self.step_d

    def step_d(self):
        k = self.stage
        for j in range(k + 1, self.cols):
            self.subtract_column(j, k, self.matrix[k][j] // self.matrix[k][k])
            if self.matrix[k][j]:
                return self.step_a
        return self.step_e


class NoStepE(Reduction):
    """A stage ends whatever lies beyond it."""

    def step_e(self):
        self.stage += 1
        return self.step_a


class LastRow(Reduction):
    """Step e takes the last row that it could take."""

    def step_e(self):
        k = self.stage
        for i in reversed(range(k + 1, self.rows)):
            if any(x % self.matrix[k][k] for x in self.matrix[i][k + 1:]):
                self.subtract_row(k, i, -1)
                return self.step_d
        self.stage += 1
        return self.step_a


class ReturnToA(Reduction):
    """Step e returns to a."""

    def step_e(self):
        super().step_e()
        return self.step_a


class NoNegation(Reduction):
    """Negative pivots stay."""

    def negate_row(self, k):
        pass


def least_by(key):
    """A reduction whose pivot is the nonzero entry that is least by another key."""
    class Other(Reduction):
        def least_entry(self):
            places = [(i, j) for i in range(self.stage, self.rows)
                      for j in range(self.stage, self.cols) if self.matrix[i][j]]
            return min(places, key=lambda p: key(self.matrix[p[0]][p[1]], *p), default=None)
    return Other


MISTAKES = {
    "truncation": Truncation,
    "passes left early": LeftEarly,
    "no step e": NoStepE,
    "step e takes the last row": LastRow,
    "step e returns to a": ReturnToA,
    "no negation": NoNegation,
    "ties to the last": least_by(lambda x, i, j: (abs(x), -i, -j)),
    "ties to the lowest column": least_by(lambda x, i, j: (abs(x), j, i)),
    "least entry, not least size": least_by(lambda x, i, j: (x, i, j)),
    "limit held at the end alone": Reduction,
}


def left_by(kind, one, limit):
    """The matrix and the companions' lines that a kind of reduction leaves, or None."""
    work = one.work(kind, limit)
    try:
        work.run()
    except TooWide:
        return None
    return tables(work)


def mistaken(mistake, one):
    """What a mistaken reduction leaves, or None where an entry lies beyond the limit."""
    at_end = mistake == "limit held at the end alone"
    left = left_by(MISTAKES[mistake], one, NO_LIMIT if at_end else one.limit)
    entries = [x for lines in left or [] for line in lines or [] for x in line]
    return left if all(abs(x) <= one.limit for x in entries) else None


# ---- checks

def check(one):
    """The outcome is right by itself, and the mistakes change it."""
    for mistake in one.told:
        assert mistaken(mistake, one) != left_by(Reduction, one, one.limit), (one.text, mistake)
    outcome = one.outcome()
    if one.wide_in is not None:
        assert outcome == one.wide_in, (one.text, outcome)
        return
    if one.peak_in is not None:
        alone = [max(column) for column in zip(*one.noted())]
        held = alone.pop(NOTED.index(one.peak_in))
        assert held > max(alone) and held > one.start_peak(), one.text
        if one.text.endswith("on the way alone"):
            assert held > max(one.noted()[-1]), one.text
    diagonal = outcome.diagonal()
    assert all(a > 0 for a in diagonal) and all(b % a == 0 for a, b in zip(diagonal, diagonal[1:]))
    assert outcome.matrix == [[diagonal[i] if i == j < outcome.rank else 0 for j in range(one.cols)]
                              for i in range(one.rows)], one.text
    if one.all_identities():
        made = multiply(multiply(outcome.row, one.matrix, one.cols), outcome.column, one.cols)
        assert made == outcome.matrix, one.text
        for left, right in ((outcome.row, outcome.row_inverse),
                            (outcome.column, outcome.column_inverse)):
            assert multiply(left, right, len(right)) == identity(len(right)), one.text
    if one.text.startswith("step e twice"):
        assert outcome.tally["return from e"] == 2
    if one.text.startswith("swaps"):
        assert all(outcome.tally[f"return from {letter}"] for letter in "cde")


# ---- the text

EDITS = {
    "two_and_three_left": ("2 and 3 on the diagonal end as 1 and 6", "no step e"),
    "rounded_towards_zero_in_rows": ("quotients rounded down in the row pass", "truncation"),
    "rounded_towards_zero_in_columns": ("quotients rounded down in the column pass", "truncation"),
    "ties_to_the_lowest_column": ("ties go to the lowest row, then to the lowest column",
                                  "ties to the lowest column"),
    "step_e_returns_to_a": ("step e returns to d", "step e returns to a"),
    "row_pass_left_early": ("the row pass goes on behind a remainder", "passes left early"),
}
WRITTEN_BY = ("Written by tests/make_reduction_examples.py: the expected outcomes are those of the Python "
              "model of document 01, tests/model/reduction.py.")
IMPORTS = """\
use Rattle.std.specs.Prelude.{List, [], ◌∷◌, pos}
use Rattle.reduction_steps.specs.Step.{%s}
"""
WIDTH = 150
FORMS = ["minus", "with_all", "with_rows", "with_columns", "alone", "from_identities", "bare"]


def header(about, text):
    """The top of a file of cases: the imports that its text needs."""
    forms = ", ".join(["Case"] + [name for name in FORMS if f"{name} " in text])
    ends = ", ".join(["done"] + ["wide"] * ("wide\n" in text))
    return (f"-- {about}\n-- {WRITTEN_BY}\n{IMPORTS % ends}"
            f"use Rattle.reduction_examples.specs.Case.{{{forms}}}\n\n")


def numbers(row):
    """Whole numbers as a list."""
    return " ∷ ".join([f"pos {x}" if x >= 0 else f"minus {-x}" for x in row] + ["[]"])


def table(rows):
    """Rows as a list of lists."""
    lines = [numbers(row) for row in rows]
    return " ∷ ".join([text if text == "[]" else f"({text})" for text in lines] + ["[]"])


def lines_of(one, name, values):
    """The lines of a companion, which stand by rows or by columns."""
    if values is None:
        return [[] for _ in range(one.lines(name))]
    return values if name in BY_ROWS else transpose(values, one.lines(name))


def field_lines(matrix, lines):
    """The fields of a state from the lines of its companions."""
    return [f"matrix = {table(matrix)};"] + [f"{FIELDS[name]} = {table(lines[name])};"
                                             for name in COMPANIONS]


def fields(one, matrix, companions):
    """The fields of a state, each a line."""
    lines = {name: lines_of(one, name, companions.get(name)) for name in COMPANIONS}
    return field_lines(matrix, lines)


def state(one, matrix, companions, peak):
    """A state in full, or by the short form for a matrix alone."""
    if not one.starts:
        return f"bare {one.rows} {one.cols} ({table(matrix)}) {peak}"
    parts = "".join(f"  {part}\n" for part in fields(one, matrix, companions) + [f"peak = {peak};"])
    return "record {\n" + parts + "}"


SHORT = {(): "alone", ROWS: "with_rows", COLUMNS: "with_columns", COMPANIONS: "with_all"}


def sizes(one):
    """The sizes, by a short form where there is one."""
    short = SHORT.get(tuple(name for name in COMPANIONS if name in one.starts))
    if short and one.from_identities():
        return f"{short} {one.rows} {one.cols}"
    parts = [f"rows = {one.rows}", f"columns = {one.cols}"]
    parts += [f"{FIELDS[name]} = {one.length(name)}" for name in COMPANIONS]
    return "record { " + "; ".join(parts) + " }"


def expected(one):
    """The outcome."""
    outcome = one.outcome()
    if one.wide_in is not None:
        return "wide"
    left = {name: getattr(outcome, name) for name in one.starts}
    text = state(one, outcome.matrix, left, one.peak())
    return f"done {outcome.rank} ({text})"


def record(one):
    """A case, as a record where its companions do not start as identities."""
    if one.from_identities():
        told = expected(one)
        told = told if told == "wide" else f"({told})"
        parts = [f"from_identities {one.limit} ({sizes(one)})", f"({table(one.matrix)})", told]
        wide = len(" ".join(parts).split("\n")[0]) > WIDTH
        return ("\n" if wide else " ").join(parts)
    parts = [f"limit = {one.limit};", f"sizes = {sizes(one)};",
             f"start = {state(one, one.matrix, one.starts, one.start_peak())};", f"expected = {expected(one)};"]
    return "record {\n" + indent("\n".join(parts), "  ") + "\n}"


def group(name, cases):
    """A list of cases, each with its comment."""
    text = f"abbrev pub {name} : List Case\n{name} =\n"
    for i, one in enumerate(cases):
        check(one)
        body = ("∷ " if i else "") + record(one)
        text += indent(f"-- {one.text}\n{body}\n", "    ")
    return text + "    ∷ []\n"


def edit(file, text, one, mistake):
    """The edit that puts the mistaken outcome of a case for the expected one."""
    outcome = one.outcome()
    right = fields(one, outcome.matrix, {name: getattr(outcome, name) for name in one.starts})
    matrix, *followers = mistaken(mistake, one)
    lines = {name: lines_of(one, name, None) if left is None else left
             for name, left in zip(COMPANIONS, followers)}
    wrong = field_lines(matrix, lines)
    pairs = [f"old: {a}\nnew: {b}\n" for a, b in zip(right, wrong) if a != b]
    assert pairs and all(text.count(a) == 1 for a, b in zip(right, wrong) if a != b), one.text
    return f"# {one.text}; mistake: {mistake}\nfile: specs/{file}\n" + "".join(pairs)


def main():
    parser = argparse.ArgumentParser(description=__doc__.splitlines()[0])
    parser.add_argument("crate", type=Path, metavar="CRATE", help="the folder of the crate")
    crate = parser.parse_args().crate
    step_text = group("steps", steps()) + "\n" + group("shapes", shapes())
    step_text = header("Cases for the steps a to e of document 01, and for the shapes of a matrix.",
                       step_text) + step_text
    (crate / "specs" / "StepCases.antt").write_text(step_text, encoding="utf-8")
    limit_text = group("limits", limits())
    limit_text = header("Cases at the entry limit and beyond it, in the matrix and in each companion "
                        "alone.", limit_text) + limit_text
    (crate / "specs" / "LimitCases.antt").write_text(limit_text, encoding="utf-8")
    peak_text = group("peaks", peaks())
    peak_text = header("Cases in which the matrix or one companion alone holds the peak of document 02, "
                       "Note 4.", peak_text) + peak_text
    (crate / "specs" / "PeakCases.antt").write_text(peak_text, encoding="utf-8")
    by_text = {one.text: one for one in steps()}
    for name, (case_text, mistake) in EDITS.items():
        text = edit("StepCases.antt", step_text, by_text[case_text], mistake)
        (crate / "must-fail" / f"{name}.edit").write_text(text, encoding="utf-8")


if __name__ == "__main__":
    main()
