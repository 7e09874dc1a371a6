#!/usr/bin/env python3
"""Holds the table of crate starred to the items of documents 01 and 02 that it is for, and the table of sheets in crate sheet_format to both documents.

Each item stands here by its words, with the calls that settle it. A call has its sheet, its dimension, what is asked, and the lengths of the slices lent
for the answer and for work; what is due is the model's. Every call here must stand in the table with that answer, and every case of the table here, so
that a case that is left out, changed or added is told. The table must be all case lists of the crate joined.
"""

from model import calls, homology
from model.headroom import bits, largest, peak, whole
from model.sheet import LIBRARY_COUNT_LIMIT, LOOSE_NODE, PROGRAM_COUNT_LIMIT, from_facets, layout, parse, refusal
from tables import CRATES, Tables

NO_CELLS = from_facets([])
ONE_VERTEX = from_facets([(7,)])
EDGE = from_facets([(0, 1)])
HOLLOW = from_facets([(0, 1), (0, 2), (1, 2)])
FILLED = from_facets([(0, 1, 2)])
TETRAHEDRON = from_facets([(0, 1, 2, 3)])
FIFTEEN = NO_CELLS[:15]
WITHOUT_VERTEX = layout([[(0,)], [(0, 1)], [], []])
REVERSED = layout([[(0,), (1,)], [(1, 0)], [], []])
TWO_VERTICES = from_facets([(3,), (5,)])
EDGE_AND_NODE = from_facets([(0, 2), (1,)])
EDGE_AND_NODE_SWEPT = from_facets([(0, 2)])
WITHOUT_VERTEX_LOOSE_NODE = layout([[(0,), (2,)], [(0, 1)], [], []])

REPORT = ("report",)
BACKWARDS, TWICE, OPEN, WIDE = [-1, 1, -1], [2, -2, 2], [1, 0, 0], [32768, 0, 0]
FIFTEEN_TIMES, SIXTEEN_TIMES = [15, -15, 15], [16, -16, 16]


def chain(*coefficients):
    """The coordinates of one chain are asked."""
    return ("coordinates", list(coefficients))


def many(number, coefficients=()):
    """The lists of so many chains are asked."""
    return ("lists", number, list(coefficients))


def surface(*coefficients):
    """The surface that a chain bounds is asked."""
    return ("surface", list(coefficients))


def back(coefficients):
    """A chain run backwards."""
    return [-x for x in coefficients]


# Document 01, "Sheets to try": the words of each starred item; its calls; and what the words say of each, a refusal or the numbers written.
STARRED = [
    ("No cells: b = 0, t = 0 in every dimension.",
     [((NO_CELLS, p, REPORT, 2, 0), [0, 0]) for p in range(4)] + [((NO_CELLS, p, REPORT, 5, 3), [0, 0]) for p in range(4)]
     + [((NO_CELLS, p, chain(), 3, 3), []) for p in range(4)]),
    ("One vertex, dimension 0: report 1, 0, 1.", [((ONE_VERTEX, 0, REPORT, 4, 2), [1, 0, 1])]),
    ("Edge 01, dimension 0: report 1, 0, 0, 1; chain (4, 3) has coordinate 7.",
     [((EDGE, 0, REPORT, 8, 10), [1, 0, 0, 1]), ((EDGE, 0, chain(4, 3), 2, 10), [7])]),
    ("Hollow triangle, dimension 1: report 1, 0, 1, -1, 1; chain (-1, 1, -1) has coordinate -1.",
     [((HOLLOW, 1, REPORT, 14, 27), [1, 0, 1, -1, 1]), ((HOLLOW, 1, chain(-1, 1, -1), 3, 27), [-1])]),
    ("Filled triangle, dimension 1: report 0, 0; the chain (1, -1, 1) has the empty list.",
     [((FILLED, 1, REPORT, 14, 27), [0, 0]), ((FILLED, 1, chain(1, -1, 1), 3, 27), [])]),
    ("Hollow triangle, chain (1, 0, 0): 12. Dimension 4: 8.",
     [((HOLLOW, 1, chain(1, 0, 0), 3, 27), 12), ((HOLLOW, 4, REPORT, 14, 27), 8), ((HOLLOW, 4, chain(-1, 1, -1), 3, 27), 8)]),
    ("15 bytes: 1. The edge sheet without vertex 1: 7. Edge written 1, 0: 5.",
     [((FIFTEEN, 0, REPORT, 8, 10), 1), ((FIFTEEN, 0, chain(4, 3), 2, 10), 1),
      ((WITHOUT_VERTEX, 0, REPORT, 8, 10), 7), ((WITHOUT_VERTEX, 0, chain(4), 2, 10), 7),
      ((REVERSED, 0, REPORT, 8, 10), 5), ((REVERSED, 0, chain(4, 3), 2, 10), 5)]),
]
# Other sentences of documents 01 and 02 that the table has calls for.
BESIDE = [
    ("H 0 1 0 .. H 3 0 0 of the hollow triangle", [(HOLLOW, 0, REPORT, 14, 27), (HOLLOW, 2, REPORT, 2, 0), (HOLLOW, 3, REPORT, 2, 0)]),
    ("Coefficient 32,767 passes check 11 and 32,768 does not",
     [(EDGE, 0, chain(32767, -32767), 2, 10), (EDGE, 0, chain(4, 32768), 2, 10), (EDGE, 0, chain(-32768, 3), 2, 10)]),
    ("The refusals, tried in this order",
     [(WITHOUT_VERTEX, 4, REPORT, 8, 10), (WITHOUT_VERTEX, 0, chain(), 0, 1), (HOLLOW, 4, REPORT, 1, 27), (HOLLOW, 4, chain(32768), 3, 27),
      (EDGE, 0, chain(4), 1, 10), (EDGE, 0, chain(32768), 2, 10), (HOLLOW, 1, chain(32768, 0, 0), 3, 27)]),
    ("The report slice is shorter than 2 + n_p + n_p × n_p, or the coordinate slice than n_p, or the work slice than ..",
     [(EDGE, 0, REPORT, 7, 10), (EDGE, 0, chain(4, 3), 1, 10), (EDGE, 0, REPORT, 8, 9), (EDGE, 0, chain(4, 3), 2, 9), (HOLLOW, 1, REPORT, 14, 26)]),
    ("The chain's length is not n_p", [(EDGE, 0, chain(4), 2, 10), (EDGE, 0, chain(4, 3, 0), 2, 10)]),
    ("write their coordinate lists one after another, n_p slots apart",
     [(HOLLOW, 1, many(2, BACKWARDS + TWICE), 8, 27), (EDGE, 0, many(3, [4, 3, 0, 0, -1, 0]), 6, 10), (FILLED, 1, many(2, BACKWARDS + TWICE), 6, 27)]),
    ("With no chains, 1 to 10 and 13 still apply",
     [(HOLLOW, 1, many(0), 2, 27), (WITHOUT_VERTEX, 0, many(0), 0, 10), (HOLLOW, 4, many(0), 0, 27), (HOLLOW, 1, many(0), 0, 26),
      (HOLLOW, 1, many(0, [0]), 0, 27)]),
    ("Check 10 wants that number times n_p coefficients",
     [(HOLLOW, 2, many(9), 2, 3), (HOLLOW, 2, many(9, [1]), 2, 3), (HOLLOW, 1, many(2, BACKWARDS), 6, 27), (HOLLOW, 1, many(1, BACKWARDS + TWICE), 6, 27)]),
    ("Check 9 wants n_p slots for each chain",
     [(HOLLOW, 1, many(2, BACKWARDS + TWICE), 5, 27), (HOLLOW, 1, many(2**64 - 1), 6, 27), (HOLLOW, 1, many((2**64 + 2) // 3, [0, 0]), 2, 27)]),
    ("The first faulty chain decides between 11 and 12",
     [(HOLLOW, 1, many(2, OPEN + WIDE), 6, 27), (HOLLOW, 1, many(2, WIDE + OPEN), 6, 27), (HOLLOW, 1, many(2, TWICE + OPEN), 6, 27)]),
    ("The answer sums, over the pivots, the tracked column times its row of Q times the chain, over the pivot",
     [(FILLED, 1, surface(1, -1, 1), 3, 30), (EDGE, 0, surface(-1, 1), 2, 11), (EDGE, 0, surface(7, -7), 1, 12)]
     + [(HOLLOW, 1, surface(0, 0, 0), slots, 27) for slots in (2, 0)] + [(FILLED, 3, surface(), 2, 3)]
     + [(TETRAHEDRON, 2, surface(-1, 1, -1, 1), 2, 57), (TETRAHEDRON, 3, surface(0), 2, 6)] + [(NO_CELLS, p, surface(), 2, 3) for p in range(4)]),
    ("Coefficients lie within 15 either way here; check 11 uses that limit in this call",
     [(FILLED, 1, surface(*times), 1, 28) for times in (FIFTEEN_TIMES, back(FIFTEEN_TIMES), SIXTEEN_TIMES, back(SIXTEEN_TIMES), [0, 0, -16])]
     + [(FILLED, 1, chain(*times), 3, 27) for times in (FIFTEEN_TIMES, SIXTEEN_TIMES)]),
    ("Check 9 wants n_(p+1) answer slots .. and n_(p+1) × n_(p+1) more work slots",
     [(FILLED, 1, surface(1, -1, 1), 0, 28), (FILLED, 1, surface(1, -1, 1), 1, 27), (EDGE, 0, surface(1), 2, 10)]),
    ("17, after 13, told exactly when the cycle bounds no chain with whole coefficients",
     [(HOLLOW, 1, surface(1, -1, 1), 2, 28), (HOLLOW, 1, surface(*back(FIFTEEN_TIMES)), 0, 27), (EDGE, 0, surface(1, 0), 2, 11),
      (EDGE, 0, surface(1, 1), 2, 11), (ONE_VERTEX, 0, surface(-1), 1, 2)]),
    ("The refusals before it, in the surface call",
     [(FIFTEEN, 0, surface(-1, 1), 1, 11), (REVERSED, 0, surface(-1, 1), 1, 11), (WITHOUT_VERTEX, 0, surface(1), 1, 11),
      (FILLED, 4, surface(1, -1, 1), 1, 28), (FILLED, 4, surface(1, -1, 1), 0, 27), (FILLED, 1, surface(1, -1), 1, 28),
      (FILLED, 1, surface(1, -1, 1, 0), 1, 28), (FILLED, 1, surface(16), 1, 28), (FILLED, 1, surface(*OPEN), 1, 28), (HOLLOW, 1, surface(*OPEN), 2, 27),
      (TETRAHEDRON, 3, surface(1), 2, 6)]),
    ("Sheets with no edges keep their acceptance", [(TWO_VERTICES, 0, REPORT, 8, 8)]),
    ("18, after 7 and before 8, for such a sheet",
     [(EDGE_AND_NODE, 0, REPORT, 14, 21), (EDGE_AND_NODE, 4, REPORT, 14, 21), (EDGE_AND_NODE, 0, chain(4, 3, 2), 3, 21), (EDGE_AND_NODE, 0, many(0), 0, 21),
      (EDGE_AND_NODE, 0, surface(-1, 0, 1), 1, 22), (WITHOUT_VERTEX_LOOSE_NODE, 4, REPORT, 8, 10)]),
]
# The sheets of the starred items and of Note 7 in 02, as crate sheet_format has them in its table.
SHEETS = [NO_CELLS, ONE_VERTEX, EDGE, HOLLOW, FILLED, FIFTEEN, REVERSED, WITHOUT_VERTEX, TWO_VERTICES, EDGE_AND_NODE, EDGE_AND_NODE_SWEPT,
          WITHOUT_VERTEX_LOOSE_NODE]


def due(call):
    """What a call is to answer and to leave, in the form of the table."""
    data, p, asked, slots, work_slots = call
    lent, work = [9] * slots, [9] * work_slots
    if asked == REPORT:
        number, after, work = calls.library_report(data, p, lent, work)
    elif asked[0] == "coordinates":
        number, after, work = calls.library_coordinates(data, p, asked[1], lent, work)
    elif asked[0] == "surface":
        number, after, work = calls.library_surface(data, p, asked[1], lent, work)
    else:
        number, after, work = calls.library_coordinate_lists(data, p, asked[1], asked[2], lent, work)
    if number:
        return {"answer": ("refused", number), "output": after, "work": work}
    found = homology.classes(parse(data, LIBRARY_COUNT_LIMIT), p, tracked=asked[0] == "surface")
    top = max(peak(found.first, found.second), largest(whole(found.second.held["column"])))
    counts = {"free": found.kinds.count(homology.FREE), "torsion": sum(kind > 1 for kind in found.kinds), "peak": top, "bits": bits(top)}
    return {"answer": ("done", counts), "output": after, "work": work}


def said(expected, words_say):
    """Whether an answer is the one that the words of 01 give: a refusal, or the numbers written with the other slots untouched."""
    if isinstance(words_say, int):
        return expected["answer"] == ("refused", words_say)
    size = len(words_say)
    return expected["answer"][0] == "done" and expected["output"][:size] == words_say and set(expected["output"][size:]) <= {9}


def as_call(case):
    """A case's call in the form used here; slots lent otherwise than as nines are no call here."""
    call = case["call"]
    if set(call["output"] + call["work"]) - {9}:
        return None
    return (bytes(call["sheet"]), call["dimension"], call["request"], len(call["output"]), len(call["work"]))


def case_faults(table):
    """What differs between the cases of the table and the items."""
    found = [(as_call(case), case["expected"]) for case in table]
    listed = []
    for words, pairs in STARRED + [(words, [(call, None) for call in some]) for words, some in BESIDE]:
        for call, words_say in pairs:
            listed.append(call)
            if words_say is not None and not said(due(call), words_say):
                yield f"the model does not give what 01 says: {words}"
            if (call, due(call)) not in found:
                yield f"no such case in the table: {words} (dimension {call[1]}, {call[2]}, {call[3]} and {call[4]} slots)"
    for place, (call, _) in enumerate(found):
        if call not in listed:
            yield f"case {place} of the table is for no item here"
    if len(found) != len(listed):
        yield f"the table has {len(found)} cases, the items {len(listed)}"


def join_faults():
    """The case lists of the crate that the table does not join, each once."""
    joined = [token for token in Tables.of("starred", "Starred").own["cases"][1] if token not in ("(", ")", "++")]
    lists = []
    for file in sorted((CRATES / "starred/specs").glob("*Cases.antt")):
        lines = file.read_text(encoding="utf-8").split("\n")
        lists += [line.split(" : ")[0].split()[-1] for line in lines if line.endswith(" : List Case")]
    if sorted(joined) != sorted(lists):
        yield f"the table joins {', '.join(joined)}; the case lists are {', '.join(lists)}"
    theorem = (CRATES / "starred/specs/Starred.antt").read_text(encoding="utf-8")
    if "\npub starred-sheets-and-calls : T (every good cases)\n" not in theorem:
        yield "starred-sheets-and-calls is not about every case of the table"


def sheet_faults():
    """What differs between the table of sheets and document 01."""
    lines = Tables.of("sheet_format", "Starred").value("table")
    held = [(bytes(line["bytes"]), line["number"]) for line in lines]
    for data in SHEETS:
        if (data, refusal(data, LIBRARY_COUNT_LIMIT)) not in held:
            yield f"a starred sheet of {len(data)} bytes is not in the table of sheets"
    for place, (data, number) in enumerate(held):
        if {number} != {refusal(data, limit) for limit in (LIBRARY_COUNT_LIMIT, PROGRAM_COUNT_LIMIT)}:
            yield f"line {place} of the table of sheets has another number than the model gives"
    if not {*range(8), LOOSE_NODE} <= {number for _, number in held}:
        yield "a number of 1 to 7, or 18, is not in the table of sheets"


def main():
    """Exits with 1 where something differs."""
    table = Tables.of("starred", "Starred").value("cases")
    faults = list(case_faults(table)) + list(join_faults()) + list(sheet_faults())
    for fault in faults:
        print(fault)
    print(f"{len(table)} cases for {len(STARRED)} starred items and {len(BESIDE)} sentences beside them, {len(faults)} faults")
    raise SystemExit(1 if faults else 0)


if __name__ == "__main__":
    main()
