"""Whole-number matrices as lists of rows, and the boundary matrices of 01."""

from model.sheet import faces


def identity(size):
    """The identity matrix."""
    return [[int(i == j) for j in range(size)] for i in range(size)]


def transpose(matrix, columns):
    """The transpose; the number of columns is told, as a matrix may have no rows."""
    return [[row[j] for row in matrix] for j in range(columns)]


def apply(matrix, vector):
    """The matrix times a vector."""
    return [sum(a * x for a, x in zip(row, vector)) for row in matrix]


def multiply(left, right, columns):
    """left times right; the number of columns of right is told, as it may have no rows."""
    product = []
    for row in left:
        total = [0] * columns
        for factor, other in zip(row, right):
            if factor:
                total = [x + factor * y for x, y in zip(total, other)]
        product.append(total)
    return product


def boundary(sheet, p):
    """The boundary matrix of dimension p: n_(p-1) rows and n_p columns."""
    place = {cell: i for i, cell in enumerate(sheet.cells(p - 1))}
    matrix = [[0] * sheet.count(p) for _ in place]
    if p > 0:
        for j, cell in enumerate(sheet.cells(p)):
            for i, face in enumerate(faces(cell)):
                matrix[place[face]][j] = 1 if i % 2 == 0 else -1
    return matrix


def is_cycle(sheet, p, chain):
    """Whether the chain of dimension p has no nonzero entry in its boundary."""
    return not any(apply(boundary(sheet, p), chain))
