"""Sheets for Note 7 of 02: with loose nodes in every place, at the limits, and without edges, where no vertex is loose."""

from model.sheet import LOOSE_NODE, closure, layout
from model.sheet_cases import EDGE_NUMBERS, first_cells

TRIANGLE = (10, 20, 30)


def path(vertices):
    """The edges from each vertex to the next."""
    return list(zip(vertices, vertices[1:]))


def points(vertices):
    """Each vertex as a facet."""
    return [(v,) for v in vertices]


def without_edges(limit):
    """Vertices alone, up to as many as a limit allows."""
    made = {f"{count} vertices and no edge": points(range(count)) for count in (1, 2, 3, limit)}
    return {**made, "vertices at word edges and no edge": points(EDGE_NUMBERS)}


def beside_cells():
    """Loose vertices before, between and after the vertices of cells of every dimension."""
    made = {"edge and a loose vertex": [(0, 1), (2,)]}
    for size in (2, 3, 4):
        cell = tuple(10 * (i + 1) for i in range(size))
        for v in range(5, 10 * size + 10, 10):
            made[f"a cell of {size} vertices and vertex {v}"] = [cell, (v,)]
        made[f"a cell of {size} vertices and others round all"] = [cell, *points(range(5, 10 * size + 10, 10))]
    for at, v in enumerate(EDGE_NUMBERS):
        others = EDGE_NUMBERS[:at] + EDGE_NUMBERS[at + 1:]
        made[f"a path at word edges and vertex {v}"] = [*path(others), (v,)]
    return made


def at_limit(limit):
    """As many vertices as a limit allows, of which one, all but two or all but three are loose, as facets."""
    last = limit - 1
    return {f"path of {last} vertices and a loose one before": [*path(range(1, limit)), (0,)],
            f"path of {last} vertices and a loose one after": [*path(range(last)), (last,)],
            f"edge and {limit - 2} loose vertices": [(7, last), *points(range(limit))],
            f"triangle and {limit - 3} loose vertices": [TRIANGLE, *points(range(limit))],
            f"{limit} edges and loose vertices": [*first_cells(1, limit), *points(range(limit))]}


def above_limit(limit):
    """A vertex more than a limit allows, which the sweep would drop, as facets."""
    return {f"path of {limit} vertices and a loose one": [*path(range(limit)), (limit,)]}


def sheets(limit):
    """Sheets by name with the refusal due at the limit."""
    due = [(without_edges(limit), 0), (beside_cells(), LOOSE_NODE), (at_limit(limit), LOOSE_NODE), (above_limit(limit), 2)]
    return {name: (layout(closure(facets)), number) for named, number in due for name, facets in named.items()}
