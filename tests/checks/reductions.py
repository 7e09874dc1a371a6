"""Checks of the reduction: steps a to e, the companions, the entry limit."""

import random
import unittest

from model import matrix_cases
from model.matrices import identity, multiply
from model.reduction import ENTRY_LIMIT, reduce


class Reductions(unittest.TestCase):
    def reduced(self, matrix, **choices):
        return matrix_cases.case("", matrix, **choices).outcome()

    def test_outcomes_worked_by_hand(self):
        done = self.reduced([[2, 0], [0, 3]])
        self.assertEqual((done.rank, done.matrix), (2, [[1, 0], [0, 6]]))
        self.assertEqual((done.row, done.row_inverse), ([[1, 1], [3, 2]], [[-2, 1], [3, -1]]))
        self.assertEqual((done.column, done.column_inverse), ([[-1, 3], [1, -2]], [[2, 3], [1, 1]]))
        done = self.reduced([[2], [-3]])
        self.assertEqual((done.matrix, done.row), ([[1], [0]], [[2, 1], [-3, -2]]))
        self.assertEqual(done.row_inverse, [[2, 1], [-3, -2]])
        done = self.reduced([[-4, 3], [-2, 2]])
        self.assertEqual((done.matrix, done.row), ([[1, 0], [0, 2]], [[1, -3], [2, -5]]))
        self.assertEqual(done.column, [[2, -3], [1, -2]])

    def test_ties_go_to_the_lowest_row_then_column(self):
        done = self.reduced([[0, 2, 0], [1, 0, -1], [1, 0, 0]])
        self.assertEqual(done.row[0], [0, 1, 0])
        self.assertEqual([row[0] for row in done.column], [1, 0, 0])

    def test_step_e_takes_the_first_row(self):
        done = reduce([[2, 0, 0], [0, 3, 0], [0, 0, 5]], 3, 3, row=identity(3))
        self.assertEqual(done.row[0], [1, 1, 0])

    def test_step_e_is_reached_twice(self):
        case = next(case for case in matrix_cases.steps() if "twice" in case.name)
        self.assertEqual(case.outcome().tally["return from e"], 2)

    def test_sides_of_no_length_keep_companions(self):
        done = reduce([], 0, 3, column=identity(3), column_inverse=identity(3))
        self.assertEqual((done.rank, done.column), (0, identity(3)))
        done = reduce([[], []], 2, 0, row=identity(2), row_inverse=identity(2))
        self.assertEqual((done.rank, done.matrix, done.row), (0, [[], []], identity(2)))

    def test_outcomes_are_smith_forms_with_inverse_companions(self):
        rng = random.Random(3)
        finished = 0
        for case in matrix_cases.random_cases(rng, 400, (ENTRY_LIMIT, 20)):
            done = case.outcome()
            if case.companions == matrix_cases.ALL and done is not None:
                finished += 1
                self.check_record(case, done)
        self.assertGreater(finished, 50)

    def check_record(self, case, done):
        rows, cols = case.rows, case.cols
        left = multiply(done.row, case.matrix, cols)
        self.assertEqual(multiply(left, done.column, cols), done.matrix)
        self.assertEqual(multiply(done.row, done.row_inverse, rows), identity(rows))
        self.assertEqual(multiply(done.column, done.column_inverse, cols), identity(cols))
        diagonal = done.diagonal()
        self.assertTrue(all(d > 0 for d in diagonal))
        self.assertTrue(all(b % a == 0 for a, b in zip(diagonal, diagonal[1:])))
        rest = [x for i, row in enumerate(done.matrix) for j, x in enumerate(row)
                if i != j or i >= done.rank]
        self.assertFalse(any(rest))

    def test_the_limit_is_exact(self):
        for case in matrix_cases.limits():
            over = case.name.startswith(("above", "below"))
            self.assertEqual(case.outcome() is None, over, case.name)

    def test_each_companion_alone_can_be_too_wide(self):
        for cases in (matrix_cases.named(), matrix_cases.named_small()):
            wide = [case for case in cases if "alone" in case.name]
            self.assertEqual(len(wide), 16)
            for case in wide:
                culprit = case.name.split()[3]
                self.assertEqual(case.outcome() is None, culprit in case.asked(), case.name)

    def test_a_moment_beyond_the_limit_is_too_wide(self):
        for limit in (ENTRY_LIMIT, matrix_cases.SMALL_LIMIT):
            for case in matrix_cases.briefly_wide(limit):
                self.assertIsNone(case.outcome(), case.name)
                free = reduce(case.matrix, case.rows, case.cols, limit ** 4, **case.starts())
                place = case.asked()[0] if case.asked() else "matrix"
                sizes = [abs(x) for row in getattr(free, place) for x in row]
                self.assertLessEqual(max(sizes), limit, case.name)

    def test_companions_do_not_change_the_matrix(self):
        for case in matrix_cases.random_cases(random.Random(4), 200):
            done = case.outcome()
            if done is not None:
                bare = reduce(case.matrix, case.rows, case.cols)
                self.assertEqual((bare.rank, bare.matrix), (done.rank, done.matrix))
