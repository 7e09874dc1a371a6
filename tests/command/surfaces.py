"""What `fildwuk surface` is to say of the groups of a case: the object of --json but for the surfaces, which are held to their boundary, and the words."""

from command.dropped import dropped, said_of_dropped
from command.told import CELLS, KINDS, number_of
from model import homology
from model.judgement import chain_of, first_beyond, opened, said_of_cycle
from model.matrices import apply, boundary
from model.sheet import LIBRARY_COUNT_LIMIT, parse
from model.sweep import swept_from_facets

COEFFICIENT_LIMIT = 15
ELEMENTS = [("point", "points"), ("line", "lines"), ("triangle", "triangles"), ("tetrahedron", "tetrahedra")]

# What the proved call answers to a group of each kind, where its reduction does not go too wide.
ANSWERS = {"outside": None, "large": 11, "open": 12, "bounds": 0, "twisted": 17, "free": 17}


def said_of(data, sheet, p, orders, group):
    """What is said of a group besides its surface."""
    chain, fault = opened(sheet, p, group)
    large = first_beyond(sheet.cells(p), chain, COEFFICIENT_LIMIT)
    if large is not None and (fault is None or fault["verdict"] != "outside"):
        fault = {"verdict": "large", **large}
    if fault is None:
        found = said_of_cycle(orders, homology.coordinates(data, p, chain))
        fault = {name: found[name] for name in ("verdict", "coordinates", "order")}
    return {"tag": group.tag, "name": group.name, "elements": len(group.elements), "cycle": "coordinates" in fault, "verdict": fault.pop("verdict"),
            "refusal": None, **fault}


def due_object(case):
    """The object that is due for a case, without surfaces, with the names in their order."""
    data, p = swept_from_facets(case.region), case.dimension
    sheet, report = parse(data, LIBRARY_COUNT_LIMIT), homology.report(data, p)
    groups = [said_of(data, sheet, p, report.orders, group) for group in case.groups]
    for group in groups:
        group["refusal"] = ANSWERS[group["verdict"]]
    return {"limit": 256, "region": case.tags, "refusal": 0, "counts": [sheet.count(q) for q in range(4)], "dropped": dropped(case.region), "dimension": p,
            "free": report.rank, "orders": report.orders, "groups": groups, "left_out": case.left_out}


def surface_fault(case, group, surface):
    """What is wrong with a surface as pairs of a coefficient and a cell, None where its boundary is the chain of the group exactly."""
    sheet, p = parse(swept_from_facets(case.region), LIBRARY_COUNT_LIMIT), case.dimension
    place = {cell: i for i, cell in enumerate(sheet.cells(p + 1))}
    cells = [tuple(cell) for _, cell in surface]
    if cells != sorted(set(cells)) or not all(cell in place for cell in cells) or not all(coefficient for coefficient, _ in surface):
        return "cells of the surface"
    chain = [0] * len(place)
    for coefficient, cell in surface:
        chain[place[tuple(cell)]] = coefficient
    return None if apply(boundary(sheet, p + 1), chain) == chain_of(sheet, p, group)[0] else "another boundary"


def in_words(surface):
    """A chain of pairs as words."""
    return " ".join(f"{coefficient:+} ({','.join(map(str, cell))})" for coefficient, cell in surface) or "0"


def group_words(p, orders, group):
    """What the line on a group of the object says after its elements."""
    if group["refusal"] == 0:
        return f"bounds {in_words(group['surface']['chain'])}"
    if group["verdict"] == "outside":
        return f"no surface, not in the region: the {ELEMENTS[p][0]} in line {group['line']} of the file is no {CELLS[p][0]} of it"
    if not group["cycle"]:
        at = f"{group['number']} at ({','.join(map(str, group['cell']))})"
        large = group["verdict"] == "large"
        return f"no surface is looked for: its coefficient {at} is beyond 15" if large else f"no surface, no cycle: its boundary has {at}"
    if group["verdict"] == "bounds":
        return "bounds, but its surface is not found: the reduction that finds it makes an entry beyond 1048575 (refusal 13)"
    numbers = [*(f"{x} mod {d}" for x, d in zip(group["coordinates"], orders)), *map(str, group["coordinates"][len(orders):])]
    kind = "free" if group["verdict"] == "free" else f"twisted of order {group['order']}: {group['order']} times it bounds"
    return f"no surface, {kind}; coordinates {', '.join(numbers)}"


def written_words(p, group):
    """The line on the group or view that a surface is written as, None where it is not."""
    surface = group.get("surface", {})
    if "name" not in surface:
        return None
    elements = sum(abs(coefficient) for coefficient, _ in surface["chain"])
    start = f'group {surface["tag"]}' if "tag" in surface else "view"
    return f'  {start} "{surface["name"]}": surface of group {group["tag"]}, {number_of(elements, ELEMENTS[p + 1])}'


def hints(found, named):
    """The lines that say what helps."""
    verdicts = [group["verdict"] for group in found["groups"]]
    if "outside" in verdicts and not found["region"]:
        yield f"the region is all elements but those of the groups taken: name {'' if named else 'the groups by their tags, or '}the region by --region"
    if any(group["verdict"] == "bounds" and group["refusal"] for group in found["groups"]):
        yield "a part of the region that has the group (--region TAG), or another numbering of the nodes, may stay within 1048575"


def due_words(found, named, exported):
    """The words that say what an object says; `named` where tags stand after the file, `exported` where files are written."""
    p, orders = found["dimension"], found["orders"]
    counts = ", ".join(number_of(count, names) for count, names in zip(found["counts"], CELLS))
    free = number_of(found["free"], tuple(f"free {name}" for name in KINDS[p])) if found["free"] else f"no free {KINDS[p][1]}"
    twisted = f", {number_of(len(orders), tuple(f'twisted {name}' for name in KINDS[p]))} of order {', '.join(map(str, orders))}" if orders else ""
    lines = [f"region: {counts}; {free}{twisted}", *([said_of_dropped(found["dropped"])] if found["dropped"] else [])]
    for group in found["groups"]:
        name = "" if group["name"] is None else f' "{group["name"]}"'
        lines.append(f"group {group['tag']}{name}, {number_of(group['elements'], ELEMENTS[p])}: {group_words(p, orders, group)}")
        lines += filter(None, [written_words(p, group)])
    lines += [f"group {group['tag']}: left out, it is part of the region" for group in found["left_out"]]
    if exported and not any("surface" in group for group in found["groups"]):
        lines.append("no surface, and so no group and no view")
    return "".join(f"{line}\n" for line in [*lines, *hints(found, named)])
