"""Sheets where one matrix of the two reductions alone holds the peak of Note 4 in 02, found and written by

    python3 tests/find_peaks.py tests/model/peak_cases.py

For each way to hold the peak: the dimension and the facets. The comment tells the largest absolute value of each matrix. No sheet was found where the
product, which is the second matrix at its start, holds a larger value than all else."""

from model.headroom import Holding

CASES = {
    # first matrix 2, V 1, inverse of V 1, product 0, second matrix 0, Q 0, G 0
    Holding("first matrix", at_end=False, negative=True, positive=False): (2, [
        (0, 1, 2), (0, 1, 5), (0, 2, 3), (0, 3, 4), (0, 4, 5), (1, 2, 4), (1, 2, 5), (1, 3, 4), (1, 3, 5)]),
    # first matrix 9, V 8, inverse of V 3, product 0, second matrix 0, Q 0, G 0
    Holding("first matrix", at_end=True, negative=False, positive=True): (2, [
        (0, 7, 8), (0, 7, 9), (0, 8, 12), (0, 9, 12), (1, 7, 8), (1, 7, 12), (1, 8, 10), (1, 10, 14), (1, 12, 14), (2, 3, 6), (2, 3, 11),
        (2, 4, 8), (2, 4, 11), (2, 6, 15), (2, 8, 15), (3, 4, 8), (3, 4, 13), (3, 6, 13), (3, 8, 11), (4, 5, 8), (4, 5, 15), (4, 11, 13),
        (4, 11, 15), (5, 6, 7), (5, 6, 15), (5, 7, 8), (6, 7, 10), (6, 8, 10), (6, 8, 13), (7, 8, 14), (7, 9, 10), (7, 10, 12), (7, 10, 14),
        (8, 9, 10), (8, 9, 14), (8, 10, 12), (8, 11, 13), (8, 11, 15), (9, 12, 14)]),
    # first matrix 1, V 2, inverse of V 1, product 0, second matrix 0, Q 0, G 0
    Holding("V", at_end=False, negative=True, positive=False): (2, [
        (0, 1, 4), (0, 1, 5), (0, 2, 4), (0, 2, 6), (0, 2, 7), (0, 3, 5), (0, 3, 6), (0, 4, 5), (0, 6, 7), (1, 2, 3), (1, 2, 5), (1, 3, 4),
        (1, 3, 5), (2, 3, 7), (2, 4, 5)]),
    # first matrix 1, V 2, inverse of V 1, product 0, second matrix 0, Q 0, G 0
    Holding("V", at_end=True, negative=False, positive=True): (2, [
        (0, 1, 2), (0, 1, 3), (0, 1, 6), (0, 2, 4), (0, 2, 5), (0, 3, 4), (0, 3, 6), (0, 5, 6), (1, 2, 4), (1, 2, 5), (1, 3, 5), (1, 4, 6),
        (3, 4, 5)]),
    # first matrix 3, V 3, inverse of V 4, product 0, second matrix 0, Q 2, G 3
    Holding("inverse of V", at_end=False, negative=True, positive=False): (2, [
        (0, 1, 3), (0, 1, 4), (0, 1, 5), (0, 1, 11), (0, 1, 12), (0, 1, 13), (0, 1, 14), (0, 1, 15), (0, 2, 8), (0, 2, 15), (0, 3, 8), (0, 4, 6),
        (0, 5, 7), (0, 6, 8), (0, 7, 8), (0, 8, 9), (0, 8, 10), (0, 8, 12), (0, 8, 13), (0, 9, 11), (0, 10, 14), (1, 2, 3), (1, 2, 8), (1, 4, 8),
        (1, 5, 8), (1, 6, 8), (1, 6, 14), (1, 7, 8), (1, 7, 11), (1, 8, 9), (1, 8, 10), (1, 8, 15), (1, 9, 13), (1, 10, 12), (2, 3, 15),
        (3, 8, 15), (4, 6, 10), (4, 8, 12), (4, 10, 12), (5, 7, 9), (5, 8, 13), (5, 9, 13), (6, 10, 14), (7, 9, 11)]),
    # first matrix 5, V 6, inverse of V 9, product 0, second matrix 0, Q 2, G 6
    Holding("inverse of V", at_end=True, negative=False, positive=True): (2, [
        (0, 2, 7), (0, 2, 9), (0, 5, 6), (0, 5, 7), (0, 6, 18), (0, 9, 18), (1, 2, 21), (1, 2, 23), (1, 4, 19), (1, 4, 23), (1, 19, 21),
        (2, 3, 13), (2, 3, 23), (2, 4, 6), (2, 4, 11), (2, 4, 14), (2, 4, 17), (2, 4, 19), (2, 4, 21), (2, 4, 22), (2, 4, 24), (2, 5, 10),
        (2, 5, 23), (2, 6, 18), (2, 7, 18), (2, 8, 23), (2, 8, 24), (2, 9, 10), (2, 9, 13), (2, 9, 16), (2, 9, 20), (2, 11, 18), (2, 12, 22),
        (2, 12, 23), (2, 14, 23), (2, 15, 16), (2, 15, 18), (2, 17, 23), (2, 18, 20), (2, 19, 23), (3, 4, 14), (3, 4, 23), (3, 11, 12),
        (3, 11, 16), (3, 12, 22), (3, 13, 20), (3, 14, 22), (3, 15, 16), (3, 15, 20), (4, 5, 17), (4, 5, 23), (4, 6, 8), (4, 8, 23), (4, 11, 12),
        (4, 12, 23), (4, 21, 23), (4, 22, 23), (4, 23, 24), (5, 6, 8), (5, 7, 10), (5, 8, 24), (5, 17, 24), (7, 9, 10), (7, 9, 18), (9, 13, 18),
        (9, 15, 18), (9, 15, 20), (9, 16, 18), (11, 16, 18), (13, 18, 20), (14, 22, 23), (17, 23, 24), (19, 21, 23)]),
    # first matrix 1, V 1, inverse of V 1, product 1, second matrix 2, Q 1, G 1
    Holding("second matrix", at_end=False, negative=True, positive=False): (1, [
        (0, 1, 2), (0, 1, 3), (0, 2, 5), (0, 3, 4, 6), (1, 2, 6), (1, 3, 5), (1, 5, 6), (2, 3, 5), (2, 3, 6), (3, 5, 6)]),
    # first matrix 1, V 1, inverse of V 1, product 1, second matrix 2, Q 1, G 1
    Holding("second matrix", at_end=True, negative=False, positive=True): (1, [
        (0, 1, 2), (0, 1, 5), (0, 2, 4), (0, 3, 4), (0, 3, 5), (1, 2, 3), (1, 3, 4), (1, 4, 5), (2, 3, 5), (2, 4, 5)]),
    # first matrix 1, V 1, inverse of V 1, product 1, second matrix 2, Q 4, G 2
    Holding("Q", at_end=False, negative=True, positive=False): (1, [
        (0, 1, 10), (0, 1, 16), (0, 3, 18), (0, 4, 8), (0, 4, 17), (0, 6, 8), (0, 6, 10), (0, 7, 16), (0, 10, 11), (0, 10, 14), (0, 10, 22),
        (0, 12, 16), (0, 16, 19), (0, 16, 22), (0, 17, 18), (0, 18, 20), (0, 18, 23), (0, 19, 21), (1, 13, 15), (2, 9, 18), (3, 5, 13),
        (4, 8, 18), (4, 17, 20), (4, 18, 20), (5, 10, 12), (5, 10, 16), (5, 12, 13), (6, 8, 21), (6, 10, 16), (6, 16, 22), (6, 21, 22),
        (8, 17, 18), (8, 17, 21), (10, 14, 16), (10, 16, 19), (10, 19, 22), (12, 13, 14), (12, 14, 16), (17, 20, 21), (19, 21, 22)]),
    # first matrix 1, V 1, inverse of V 1, product 1, second matrix 1, Q 2, G 1
    Holding("Q", at_end=True, negative=False, positive=True): (1, [
        (0, 2, 5), (0, 7, 9), (0, 8), (1, 2, 6), (1, 4, 6), (2, 3, 8), (2, 5, 7), (2, 7, 8), (3, 5, 6), (3, 5, 8), (5, 6, 7)]),
    # first matrix 1, V 1, inverse of V 1, product 1, second matrix 1, Q 1, G 2
    Holding("G", at_end=False, negative=True, positive=False): (1, [
        (0, 2, 3), (0, 2, 4), (0, 2, 5), (0, 3, 8), (0, 4, 5), (1, 2, 4), (1, 3, 4), (1, 6, 8), (2, 4, 6), (2, 6, 7)]),
    # first matrix 1, V 1, inverse of V 1, product 1, second matrix 1, Q 1, G 2
    Holding("G", at_end=True, negative=False, positive=True): (1, [
        (0, 1, 3), (0, 1, 6), (0, 2, 3), (0, 4, 5), (0, 7), (1, 2, 4), (1, 2, 6), (1, 3, 6), (1, 3, 7), (1, 4, 7), (2, 3, 6), (2, 4, 7)]),
}
