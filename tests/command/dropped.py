"""The nodes that an import drops, by the model, and what the command says of them."""

from model.sheet import closure, loose_vertices


def dropped(facets):
    """The nodes of the facets that are in no edge, where there is an edge."""
    return [node for (node,) in loose_vertices(closure(facets))]


def said_of_dropped(nodes):
    """What the command says of these nodes."""
    if not nodes:
        return "no node is dropped"
    return f"{len(nodes)} {'node' if len(nodes) == 1 else 'nodes'} in no edge {'is' if len(nodes) == 1 else 'are'} dropped: {', '.join(map(str, nodes))}"
