"""What the command tells in words and in JSON, read back as the numbers of a report."""

import json
import re
from dataclasses import dataclass

KINDS = [("component", "components"), ("loop", "loops"), ("cavity", "cavities"), ("closed volume", "closed volumes")]
CELLS = [("vertex", "vertices"), ("edge", "edges"), ("triangle", "triangles"), ("tetrahedron", "tetrahedra")]
TERM = re.compile(r"([+-]\d+) \((\d+(?:,\d+)*)\)")
HEADROOM = re.compile(r"  headroom: peak (\d+), (\d+) of 20 bits")


@dataclass(frozen=True)
class Dimension:
    """A dimension as it was told: the refusal, 0 for none, and what the report has. The peak and its bits are None where they are not told."""

    dimension: int
    refusal: int
    rank: int = 0
    orders: tuple = ()
    generators: tuple = ()
    peak: int = None
    bits: int = None


def number_of(count, names):
    """A count with its noun."""
    return f"{count} {names[0] if count == 1 else names[1]}"


def chain_of(words):
    """A chain in words as a tuple of pairs of a cell and its coefficient."""
    terms = [(tuple(map(int, cell.split(","))), int(coefficient)) for coefficient, cell in TERM.findall(words)]
    again = " ".join(f"{coefficient:+} ({','.join(map(str, cell))})" for cell, coefficient in terms)
    if again != words:
        raise ValueError(f"not a chain: {words}")
    return tuple(terms)


def totals(p, rank, orders):
    """The line that a dimension starts with."""
    parts = [number_of(rank, tuple(f"free {name}" for name in KINDS[p]))] if rank else []
    if orders:
        parts.append(number_of(len(orders), tuple(f"twisted {name}" for name in KINDS[p])) + " of order " + ", ".join(map(str, orders)))
    return f"Dimension {p}: {', '.join(parts) or 'no ' + KINDS[p][1]}."


def head(name, counts):
    """The first line of a report."""
    return f"{name}: {', '.join(number_of(count, names) for count, names in zip(counts, CELLS))}."


def from_words(lines, p, orders):
    """The dimension that stands at the start of the lines, and how many lines it takes. Whatever differs from the words due raises ValueError."""
    if re.fullmatch(rf"Dimension {p}: refused with \d+\.", lines[0]):
        return Dimension(p, int(lines[0].rsplit(" ", 1)[1][:-1])), 1
    generators, at = [], 1
    while at < len(lines) and re.match(rf"  (free|twisted) {KINDS[p][0]} ", lines[at]):
        start, chain = lines[at].split(": ", 1)
        place = len(generators)
        due = f"twisted {KINDS[p][0]} {place + 1}, order {orders[place]}" if place < len(orders) else f"free {KINDS[p][0]} {place - len(orders) + 1}"
        if start != f"  {due}":
            raise ValueError(f"{start!r} for {due!r}")
        generators.append(chain_of(chain))
        at += 1
    rank = len(generators) - len(orders)
    if lines[0] != totals(p, rank, orders):
        raise ValueError(f"{lines[0]!r} for {totals(p, rank, orders)!r}")
    told = HEADROOM.fullmatch(lines[at]) if at < len(lines) else None
    numbers = tuple(map(int, told.groups())) if told else (None, None)
    return Dimension(p, 0, rank, tuple(orders), tuple(generators), *numbers), at + (1 if told else 0)


def from_json(found):
    """A dimension of the object."""
    if found["refusal"]:
        return Dimension(found["dimension"], found["refusal"])
    orders = tuple(found["orders"])
    if [generator["order"] for generator in found["generators"]] != [*orders, *[0] * found["free"]]:
        raise ValueError("the orders of the generators differ")
    chains = tuple(tuple((tuple(cell), coefficient) for coefficient, cell in generator["chain"]) for generator in found["generators"])
    return Dimension(found["dimension"], 0, found["free"], orders, chains, found.get("peak"), found.get("bits"))


def object_of(output):
    """The one JSON object of an output, which ends in a line feed and has no name twice."""
    def once(pairs):
        if len({name for name, _ in pairs}) != len(pairs):
            raise ValueError("a name stands twice")
        return dict(pairs)
    text = output.decode("utf-8")
    if not text.endswith("}\n"):
        raise ValueError("no object that ends a line")
    return json.loads(text, object_pairs_hook=once)
