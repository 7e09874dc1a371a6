"""02, Note 7: a sheet without its loose nodes, the vertices in no edge where there is an edge."""

from model.sheet import Refused, closure, layout, loose_vertices, read_cells

SHEET_TOO_LONG = 16


def swept(sections):
    """The cells that stay, by dimension."""
    dropped = set(loose_vertices(sections))
    vertices, *others = sections
    return [[cell for cell in vertices if cell not in dropped], *map(list, others)]


def swept_from_facets(facets):
    """The bytes of the sheet of all faces of the facets, without loose nodes."""
    return layout(swept(closure(facets)))


def sweep(data, count_limit, room):
    """The sheet that the sweep call writes into so many bytes of room; raises Refused 1 to 7 and then 16."""
    sheet = layout(swept(read_cells(data, count_limit).sections))
    if len(sheet) > room:
        raise Refused(SHEET_TOO_LONG)
    return sheet
