"""Note 4 of 02: the largest absolute value that any matrix of both reductions of a dimension has held, and its bits."""

from dataclasses import dataclass

from model.reduction import span


def whole(held):
    """The span of a matrix from its start on."""
    return span([*held.start, *held.written])


def spans(first, second):
    """The least and the greatest entry that each matrix of the two reductions has held, by its name.

    The product is the second matrix at its start.
    """
    return {
        "first matrix": whole(first.held["matrix"]),
        "V": whole(first.held["column"]),
        "inverse of V": whole(first.held["column_inverse"]),
        "product": second.held["matrix"].start,
        "second matrix": second.held["matrix"].written,
        "Q": whole(second.held["row"]),
        "G": whole(second.held["row_inverse"]),
    }


def spans_left(first, second):
    """The least and the greatest entry that each of them holds at its end, by its name."""
    left = {
        "first matrix": first.matrix, "V": first.column, "inverse of V": first.column_inverse,
        "second matrix": second.matrix, "Q": second.row, "G": second.row_inverse,
    }
    return {name: span([x for row in matrix for x in row]) for name, matrix in left.items()}


def largest(ends):
    """The largest absolute value of a span."""
    return max(-ends[0], ends[1])


def peak(first, second):
    """The largest absolute value over both reductions, starting matrices included."""
    return max(map(largest, spans(first, second).values()))


def bits(number):
    """The bits that a number of at least 0 needs, 0 for 0."""
    return number.bit_length()


@dataclass(frozen=True)
class Holding:
    """Which matrix alone has held the peak, whether a matrix holds it at its end, and with which signs."""

    matrix: str
    at_end: bool
    negative: bool
    positive: bool


def holding(first, second):
    """How the peak was held; None where several matrices have held it."""
    top, held = peak(first, second), spans(first, second)
    holders = [name for name, ends in held.items() if largest(ends) == top]
    if len(holders) > 1:
        return None
    lowest, highest = held[holders[0]]
    at_end = max(map(largest, spans_left(first, second).values())) == top
    return Holding(holders[0], at_end, lowest == -top, highest == top)
