#!/usr/bin/env python3
"""Holds `fildwuk report` to the model and to the program: on sheets and mesh texts, sound and damaged, on regions, at both limits, as plain lines, which
are those of the program byte for byte, as JSON and in words. Runs in process, built with sanitizers."""

import argparse
import random
import subprocess
from pathlib import Path

from command.dropped import dropped, said_of_dropped
from command.runs import DONE, DRIVER, REFUSED, in_process, is_mesh
from command.told import Dimension, from_json, from_words, head, object_of
from command.where import Fault, fault_of, first_tag, in_region, read_text
from compare_gmsh import due_answers, stored
from make_sheets import fault_sheets, known_sheets, random_sheets
from model import homology, mesh_cases, mesh_texts, meshes
from model.calls import dimension_lines
from model.headroom import bits
from model.mesh import ELEMENT_FAULTY, import_mesh, sheet_within
from model.reduction import ENTRY_LIMIT
from model.sheet import DIMENSIONS, LIBRARY_COUNT_LIMIT, PROGRAM_COUNT_LIMIT, Refused, closure, from_facets, longest, parse, refusal

PROGRAM = Path("target/bin/homology")
LIMITS = {"library": LIBRARY_COUNT_LIMIT, "host": PROGRAM_COUNT_LIMIT}
NAME = "a file"
QUICK = 100

# A sheet with an order beyond the entry limit: dimension 1 is refused with 13.
TOO_WIDE = from_facets(meshes.tower(20))

# A triangle and its side, points in no edge, one of them twice, and a point of the triangle.
POINTS = b"".join([b"$MeshFormat\n2.2 0 8\n$EndMeshFormat\n$Nodes\n6\n", *(b"%d 0 0 0\n" % node for node in (1, 2, 3, 4, 7, 9)), b"$EndNodes\n$Elements\n6\n"
                   b"1 2 2 1 1 1 2 3\n2 15 2 5 1 9\n3 15 2 5 1 7\n4 15 2 5 2 9\n5 15 2 6 1 1\n6 1 2 8 1 1 2\n$EndElements\n"])
POINTS_DROPPED = {(): [7, 9], (1,): [], (5,): [], (5, 8): [7, 9], (6, 8): [], (1, 5, 6): [7, 9]}


def sheet_of(data, limit, region):
    """The answer of the import to a mesh text, 0 for a sheet, and the sheet."""
    if not is_mesh(data):
        return 0, data
    return region_of(data, limit, region) if region else import_mesh(data, limit, longest(limit))


def region_of(text, limit, region):
    """The same of the elements of the region, of a text of the form."""
    nodes, elements = read_text(text)
    chosen = [element for element, _, _ in in_region(elements, region)]
    if any(fault_of(element, nodes) for element in chosen):
        return ELEMENT_FAULTY, None
    try:
        return 0, sheet_within(closure(element.nodes for element in chosen), limit, longest(limit))
    except Refused as refused:
        return refused.number, None


def dropped_of(data, region):
    """The nodes that the import of an input drops: none of a sheet."""
    if not is_mesh(data):
        return []
    elements = read_text(data)[1]
    return dropped(element.nodes for element, _, _ in (in_region(elements, region) if region else elements))


def tags_of(text):
    """The physical tags of a text, none where it is not of the form."""
    try:
        return sorted({first_tag(content) for _, _, content in read_text(text)[1]} - {None})
    except Fault:
        return []


def due_dimension(data, p, name):
    """What is due of a dimension of an accepted sheet."""
    sheet = parse(data, LIMITS[name])
    try:
        report = homology.report(data, p, LIMITS[name])
    except Refused as refused:
        return Dimension(p, refused.number)
    chains = tuple(tuple((cell, x) for cell, x in zip(sheet.cells(p), generator) if x) for generator in report.generators)
    headroom = (report.peak, bits(report.peak)) if name == "library" else (None, None)
    return Dimension(p, 0, report.rank, tuple(report.orders), chains, *headroom)


def due_plain(data, dimensions, limit):
    """The lines due of these dimensions, whatever the sheet."""
    number = refusal(data, limit)
    if number:
        return f"R {number}\n"
    lines = [line for p in dimensions for line in dimension_lines(data, p, limit, ENTRY_LIMIT)]
    return "".join(" ".join(map(str, line)) + "\n" for line in lines)


class Case:
    """An input under a limit, the dimensions to report on, and the tags of a region, none for all elements."""

    def __init__(self, name, data, limit, dimension=None, region=()):
        self.name, self.data, self.limit, self.region = name, data, limit, list(region)
        self.dimensions = range(DIMENSIONS) if dimension is None else [dimension]
        chosen = [] if dimension is None else ["--dimension", str(dimension)]
        self.words = ["report", NAME, "--limit", limit, *chosen, *(["--region", *map(str, region)] if region else [])]

    def requests(self):
        """The runs as plain lines, as JSON and in words."""
        return [([*self.words, "--plain"], self.data), ([*self.words, "--json"], self.data), (self.words, self.data)]

    def told(self):
        """The refusal of the input as a whole, 0 for none, and its sheet."""
        number, sheet = sheet_of(self.data, LIMITS[self.limit], self.region)
        return number or refusal(sheet, LIMITS[self.limit]), sheet

    def dropped(self):
        """The nodes that are dropped of an input that is not refused."""
        return dropped_of(self.data, self.region)

    def wrong(self, plain, as_json, words):
        """What differs from what is due, in the three runs."""
        number, sheet = self.told()
        if number:
            return list(self.wrong_refusal(number, plain, as_json, words))
        due = [due_dimension(sheet, p, self.limit) for p in self.dimensions]
        status = REFUSED if any(found.refusal for found in due) else DONE
        faults = [name for name, ran in (("plain", plain), ("JSON", as_json), ("words", words)) if ran.status != status]
        said = f"fildwuk: {said_of_dropped(self.dropped())}." if self.dropped() else None
        faults += ["dropped nodes of plain lines"] if [line for line in plain.lines() if "dropped" in line] != [said] * bool(said) else []
        if plain.output != due_plain(sheet, self.dimensions, LIMITS[self.limit]).encode():
            faults.append("plain lines")
        return faults + self.wrong_json(sheet, due, as_json) + self.wrong_words(sheet, due, words)

    def wrong_refusal(self, number, plain, as_json, words):
        """What differs where the input as a whole is refused."""
        if (plain.status, as_json.status, words.status) != (REFUSED,) * 3:
            yield "status of a refusal"
        if plain.output != b"R %d\n" % number or words.output != b"":
            yield "output of a refusal"
        if any(f"{NAME} is refused with {number}: " not in ran.lines()[0] for ran in (plain, as_json, words)):
            yield "message of a refusal"
        found = object_of(as_json.output)
        names = {"fildwuk", "limit", "region", "refusal", "meaning", "where"}
        if (found["refusal"], found["limit"]) != (number, LIMITS[self.limit]) or set(found) != names:
            yield "object of a refusal"

    def wrong_json(self, sheet, due, ran):
        """What differs in the object."""
        found, counts = object_of(ran.output), [parse(sheet, LIMITS[self.limit]).count(p) for p in range(DIMENSIONS)]
        if set(found) != {"fildwuk", "limit", "region", "refusal", "counts", "dropped", "dimensions"}:
            return ["names of the object"]
        right = (found["limit"], found["region"], found["refusal"], found["counts"]) == (LIMITS[self.limit], self.region, 0, counts)
        right = right and found["dropped"] == self.dropped()
        same = [from_json(part) for part in found["dimensions"]] == due
        return ([] if right else ["head of the object"]) + ([] if same else ["dimensions of the object"])

    def wrong_words(self, sheet, due, ran):
        """What differs in the words."""
        lines = ran.output.decode("ascii").splitlines()
        counts = [parse(sheet, LIMITS[self.limit]).count(p) for p in range(DIMENSIONS)]
        if lines[0] != head(NAME + (f", region {' '.join(map(str, self.region))}" if self.region else ""), counts):
            return ["first line"]
        at = 1
        if self.dropped():
            if lines[1] != said_of_dropped(self.dropped()) + ".":
                return ["dropped nodes"]
            at = 2
        for part in due:
            found, taken = from_words(lines[at:], part.dimension, part.orders)
            if found != part:
                return [f"words of dimension {part.dimension}"]
            at += taken
        return [] if at == len(lines) else ["lines after the last dimension"]


def quick(data):
    """Whether the model reduces a sheet quickly, or not at all."""
    return refusal(data, LIBRARY_COUNT_LIMIT) or max(parse(data, LIBRARY_COUNT_LIMIT).count(p) for p in range(DIMENSIONS)) <= QUICK


def sheets(rng, count):
    """Sheets by name: known ones, damaged ones, random ones."""
    found = {**known_sheets(), "tower 1": from_facets(meshes.tower(1))}
    found.update(list(fault_sheets().items())[::3])
    found.update(random_sheets(rng, count))
    found.update({"no bytes": b"", "a byte": b"\0", "zeros": bytes(70000)})
    found.update({f"{count} vertices": from_facets([(v,) for v in range(count)]) for count in (35, 36, 37)})
    return {name: data for name, data in found.items() if quick(data)}


def texts(rng, count):
    """Mesh texts by name: stored ones, and random ones, sound and damaged."""
    found = {line.name: stored(line.name) for line in due_answers()}
    found.update((name, text) for name, (text, _) in rng.sample(list(mesh_cases.damaged(rng).items()), 60))
    found.update((f"random text {i}", text) for i, (text, _) in enumerate(mesh_texts.random_texts(rng, count)))
    return {name: text for name, text in found.items() if is_mesh(text)}


def cases(rng, inputs):
    """The cases of the inputs: both limits, and one dimension alone under one of them."""
    for name, data in inputs.items():
        for limit in LIMITS:
            yield Case(name, data, limit)
        yield Case(name, data, rng.choice(list(LIMITS)), rng.randrange(DIMENSIONS))
        tags = tags_of(data) if is_mesh(data) else []
        if tags:
            yield Case(name, data, "library", region=rng.sample(tags, rng.randint(1, min(3, len(tags)))))
    yield from (Case("points", POINTS, limit, region=region) for region in POINTS_DROPPED for limit in LIMITS)
    yield Case("tower 20", TOO_WIDE, "library", 1)


def count_beside_program(sheets_tried, driver, program):
    """How many sheets have other plain lines than the program's under the host limit, or under the library's where the program does not say 2."""
    ran = in_process(((["report", "--plain", "--limit", limit], data) for data in sheets_tried.values() for limit in ("host", "library")), driver)
    wrong = 0
    for i, (name, data) in enumerate(sheets_tried.items()):
        printed = subprocess.run([program], input=data, capture_output=True, check=False).stdout
        if ran[2 * i].output != printed or (printed != b"R 2\n" and ran[2 * i + 1].output != printed):
            wrong += 1
            print(f"{name}: the program prints {printed[:100]!r}")
    return wrong


def main():
    """Exits with 1 where something differs."""
    parser = argparse.ArgumentParser(description=__doc__, formatter_class=argparse.RawDescriptionHelpFormatter)
    parser.add_argument("--driver", type=Path, default=DRIVER, metavar="FILE", help="the built driver (target/host/command_driver)")
    parser.add_argument("--program", type=Path, default=PROGRAM, metavar="FILE", help="the built program (target/bin/homology)")
    parser.add_argument("--random", type=int, default=60, metavar="N", help="random sheets, each also in a damaged copy, and random texts (60)")
    options = parser.parse_args()
    rng = random.Random(7)
    tried = sheets(rng, options.random)
    made = list(cases(rng, {**tried, **texts(rng, options.random)}))
    ran = in_process((request for case in made for request in case.requests()), options.driver)
    wrong, told = 0, {13} if b"R 13" in ran[-3].output else set()
    for i, case in enumerate(made):
        told.add(case.told()[0])
        faults = case.wrong(*ran[3 * i:3 * i + 3])
        wrong += bool(faults)
        for fault in faults:
            print(f"{case.name}, limit {case.limit}, dimensions {list(case.dimensions)}, region {case.region}: {fault}")
    wrong += count_beside_program(tried, options.driver, options.program)
    lost = {0, 1, 2, 3, 4, 5, 6, 7, 13, 14, 15, 16, 18} - told
    lost |= {region for region, nodes in POINTS_DROPPED.items() if dropped_of(POINTS, region) != nodes}
    regions = sum(bool(case.region) for case in made)
    print(f"{len(made)} cases, {regions} with a region, {len(tried)} sheets beside the program, {wrong} differ" + (f", never due: {lost}" if lost else ""))
    raise SystemExit(1 if wrong or lost else 0)


if __name__ == "__main__":
    main()
