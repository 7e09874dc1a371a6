"""The reduction of 01, steps a to e, with its companions and its entry limit.

Every operation of the text is done, those with quotient 0 included, and every
entry that an operation writes is held against the limit. The least and the
greatest entry that the matrix and each companion has held are kept, for Note 4
of 02.
"""

from collections import Counter
from dataclasses import dataclass

from model.matrices import transpose

ENTRY_LIMIT = 1048575


class TooWide(Exception):
    """An operation wrote an entry beyond the limit, in the matrix or in the named companion."""

    def __init__(self, where):
        super().__init__(f"too wide in the {where}")
        self.where = where


def span(entries):
    """The least and the greatest of 0 and the entries."""
    return min(min(entries, default=0), 0), max(max(entries, default=0), 0)


class Held:
    """What a matrix has held: the span of its entries at the start and of those written since."""

    def __init__(self, name, limit, lines):
        self.name, self.limit = name, limit
        self.start = span([x for line in lines or [] for x in line])
        self.written = (0, 0)

    def write(self, entries):
        """Takes in entries that an operation wrote; raises TooWide where one is beyond the limit."""
        lowest, highest = span(entries)
        if highest > self.limit or lowest < -self.limit:
            raise TooWide(self.name)
        self.written = min(self.written[0], lowest), max(self.written[1], highest)


@dataclass
class Reduced:
    """A finished reduction; a companion that was not asked for is None, and has held nothing."""

    rank: int
    matrix: list
    row: list
    row_inverse: list
    column: list
    column_inverse: list
    held: dict
    tally: Counter

    def diagonal(self):
        """The pivots, rank of them."""
        return [self.matrix[i][i] for i in range(self.rank)]


class Followers:
    """Lines (rows or columns) that follow operations, and lines that follow their inverses."""

    def __init__(self, side, limit, lines, inverse):
        self.lines, self.inverse = lines, inverse
        self.held = Held(f"{side} follower", limit, lines)
        self.inverse_held = Held(f"inverse of the {side} follower", limit, inverse)

    def present(self):
        """The companions that were asked for, with what they have held."""
        both = ((self.lines, self.held), (self.inverse, self.inverse_held))
        return [(lines, held) for lines, held in both if lines is not None]

    def swap(self, i, k):
        """Lines i and k change places; this is its own inverse."""
        for lines, held in self.present():
            lines[i], lines[k] = lines[k], lines[i]
            held.write(lines[i] + lines[k])

    def negate(self, k):
        """Line k changes sign; this is its own inverse."""
        for lines, held in self.present():
            lines[k] = [-x for x in lines[k]]
            held.write(lines[k])

    def subtract(self, i, k, quotient):
        """Line i loses quotient times line k; inversely line k gains quotient times line i."""
        if self.lines is not None:
            less(self.lines, i, k, quotient)
            self.held.write(self.lines[i])
        if self.inverse is not None:
            less(self.inverse, k, i, -quotient)
            self.inverse_held.write(self.inverse[k])


def less(lines, i, k, quotient):
    """Line i less quotient times line k."""
    lines[i] = [x - quotient * y for x, y in zip(lines[i], lines[k])]


class Reduction:
    """The state of a reduction: the matrix, the stage k and the companions."""

    def __init__(self, matrix, rows, cols, limit, on_rows, on_columns):
        self.matrix, self.rows, self.cols = matrix, rows, cols
        self.held = Held("matrix", limit, matrix)
        self.on_rows, self.on_columns = on_rows, on_columns
        self.stage, self.place = 0, None
        self.tally = Counter()

    def swap_rows(self, i, k):
        self.tally["row swap"] += 1
        self.matrix[i], self.matrix[k] = self.matrix[k], self.matrix[i]
        self.held.write(self.matrix[i] + self.matrix[k])
        self.on_rows.swap(i, k)

    def swap_columns(self, j, k):
        self.tally["column swap"] += 1
        for row in self.matrix:
            row[j], row[k] = row[k], row[j]
        self.held.write([row[at] for at in (j, k) for row in self.matrix])
        self.on_columns.swap(j, k)

    def negate_row(self, k):
        self.tally["row negation"] += 1
        self.matrix[k] = [-x for x in self.matrix[k]]
        self.held.write(self.matrix[k])
        self.on_rows.negate(k)

    def subtract_row(self, i, k, quotient):
        """Row i less quotient times row k."""
        self.tally["row subtraction" if quotient else "row subtraction of 0"] += 1
        less(self.matrix, i, k, quotient)
        self.held.write(self.matrix[i])
        self.on_rows.subtract(i, k, quotient)

    def subtract_column(self, j, k, quotient):
        """Column j less quotient times column k."""
        self.tally["column subtraction" if quotient else "column subtraction of 0"] += 1
        for row in self.matrix:
            row[j] -= quotient * row[k]
        self.held.write([row[j] for row in self.matrix])
        self.on_columns.subtract(j, k, quotient)

    def least_entry(self):
        """The place of the nonzero entry of least absolute value from stage k on, or None.

        Ties go to the lowest row, then the lowest column.
        """
        k, best = self.stage, None
        for i in range(k, self.rows):
            for j in range(k, self.cols):
                size = abs(self.matrix[i][j])
                if size and (best is None or size < best[0]):
                    best = (size, i, j)
        return best and best[1:]

    def step_a(self):
        """Choose the pivot, or end."""
        self.place = self.least_entry()
        return None if self.place is None else self.step_b

    def step_b(self):
        """Swap the pivot to (k, k) and make it positive."""
        k = self.stage
        self.swap_rows(self.place[0], k)
        self.swap_columns(self.place[1], k)
        if self.matrix[k][k] < 0:
            self.negate_row(k)
        return self.step_c

    def step_c(self):
        """The row pass; // rounds towards minus infinity."""
        k = self.stage
        for i in range(k + 1, self.rows):
            self.subtract_row(i, k, self.matrix[i][k] // self.matrix[k][k])
        if any(self.matrix[i][k] for i in range(k + 1, self.rows)):
            self.tally["return from c"] += 1
            return self.step_a
        return self.step_d

    def step_d(self):
        """The column pass."""
        k = self.stage
        for j in range(k + 1, self.cols):
            self.subtract_column(j, k, self.matrix[k][j] // self.matrix[k][k])
        if any(self.matrix[k][k + 1:]):
            self.tally["return from d"] += 1
            return self.step_a
        return self.step_e

    def step_e(self):
        """Bring a row with an entry that the pivot does not divide to row k, or end the stage."""
        k = self.stage
        for i in range(k + 1, self.rows):
            if any(x % self.matrix[k][k] for x in self.matrix[i][k + 1:]):
                self.tally["return from e"] += 1
                self.subtract_row(k, i, -1)
                return self.step_d
        self.stage += 1
        return self.step_a

    def run(self):
        """Works until no pivot is left; the stage is then the rank."""
        step = self.step_a
        while step is not None:
            step = step()


def copy_rows(matrix):
    """The lines of a companion that takes row operations, or None."""
    return None if matrix is None else [list(row) for row in matrix]


def copy_columns(matrix, columns):
    """The lines of a companion that takes column operations, or None."""
    return None if matrix is None else transpose(matrix, columns)


def reduce(matrix, rows, cols, limit=ENTRY_LIMIT,
           row=None, row_inverse=None, column=None, column_inverse=None):
    """Reduces a matrix with the given numbers of rows and columns; raises TooWide.

    Row operations go to the rows of `row`, their inverses to the columns of
    `row_inverse`; column operations to the columns of `column`, their inverses
    to the rows of `column_inverse`. Each of the four may be left out.
    """
    on_rows = Followers("row", limit, copy_rows(row), copy_columns(row_inverse, rows))
    on_columns = Followers("column", limit, copy_columns(column, cols), copy_rows(column_inverse))
    work = Reduction(copy_rows(matrix), rows, cols, limit, on_rows, on_columns)
    work.run()
    held = {"matrix": work.held, "row": on_rows.held, "row_inverse": on_rows.inverse_held,
            "column": on_columns.held, "column_inverse": on_columns.inverse_held}
    return Reduced(
        work.stage, work.matrix,
        on_rows.lines, row_inverse and transpose(on_rows.inverse, len(row_inverse)),
        column and transpose(on_columns.lines, len(column)), on_columns.inverse,
        held, work.tally)
