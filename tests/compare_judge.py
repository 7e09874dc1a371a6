#!/usr/bin/env python3
"""Compares `fildwuk judge` with the model: random combinations of generators on meshes with free and twisted loops and cavities, and named faults.

The words and the status are held to the object that --json writes, which is held to
the model.
"""

import argparse
import json
import random
import subprocess
import sys
import tempfile
from collections import Counter
from itertools import combinations
from pathlib import Path

from command.dropped import dropped, said_of_dropped
from model.judge_cases import random_case
from model.judgement import judge
from model.sheet import closure

ROOT = Path(__file__).resolve().parent.parent
COMMAND = ROOT / "target/host/fildwuk"
KINDS = ("a basis", "index", "dependent", "multiple", "multiple up to a twisted part", "divisible", "divisible up to a twisted part", "outside", "open",
         "bounds", "twisted", "free", "left out", "no groups", "dropped", "a tag of the region in another dimension")
MESHES = ROOT / "tests/meshes"


def run(command, words, text=""):
    """The status, output and messages of the command judge."""
    done = subprocess.run([command, "judge", *words], input=text, text=True, capture_output=True, check=False)
    return done.returncode, done.stdout, done.stderr


def too_many(facets):
    """Whether the region has more cells than are taken."""
    return any(len(section) > 256 for section in closure(facets))


def multiple_due(group, thing):
    """The words on what a group is a multiple of, none where it is none."""
    if "times" in group:
        times = {1: "the same as", -1: "the opposite of"}.get(group["times"], f"{group['times']} times")
        return f"free, {times} group {group['of']}{'' if group['exactly'] else ' up to a twisted part'}"
    if group.get("divisor", 0) > 1:
        end = "" if group["divides"] else " up to a twisted part"
        return f"free, {group['divisor']} times a {thing}{end}"
    return ""


def words_fault(status, words, found):
    """What is wrong with the words, None where they say what the object says."""
    lines = words.splitlines()
    basis = [line for line in lines if line.startswith("together: a basis")]
    thing = ["component", "loop", "cavity", "closed volume"][found["dimension"]]
    if status != (0 if found["basis"] else 1) or len(basis) != found["basis"]:
        return "status or basis"
    if found["dropped"] and lines.pop(1) != said_of_dropped(found["dropped"]):
        return "dropped"
    for group, line in zip(found["groups"], lines[1:]):
        said = {"outside": "not in the region", "large": "not judged", "open": "no cycle", "bounds": "bounds", "free": "free",
                "twisted": f"twisted of order {group.get('order')}"}[group["verdict"]]
        name = "" if group["name"] is None else f' "{group["name"]}"'
        if not line.startswith(f"group {group['tag']}{name}, {group['elements']} ") or said not in line:
            return "verdict"
        if multiple_due(group, thing) not in line:
            return "multiple"
    left_out = [line for line in lines if line.endswith(": left out, it is part of the region")]
    if [line.split(":")[0] for line in left_out] != [f"group {group['tag']}" for group in found["left_out"]]:
        return "left out"
    if not found["basis"] and found["index"] > 1 and f"  they have index {found['index']} " not in words:
        return "index"
    if found["rank"] < found["free"] and f"  they have rank {found['rank']}, " not in words:
        return "rank"
    return None


def fault_of(command, case):
    """What is wrong with the command on a case, None where nothing is, and what is due."""
    due = {**judge(case.region, case.dimension, case.groups, case.tags), "left_out": case.left_out, "dropped": dropped(case.region)}
    status, output, messages = run(command, ["-", *case.words, "--json"], case.text)
    if not case.groups:
        right = messages.startswith("fildwuk: the file has no physical group of ")
        if not right or not messages.endswith(f": {case.left_out[0]['tag']}\n" if case.left_out else ("s\n", "a\n")):
            return messages, due
    try:
        found = json.loads(output)
    except ValueError:
        return f"status {status}, no object", due
    differ = [key for key, value in due.items() if found.get(key) != value]
    if differ or status != (0 if due["basis"] else 1):
        return f"status {status}, other {', '.join(differ)}", due
    again, words, messages = run(command, ["-", *case.words], case.text)
    fault = words_fault(again, words, found)
    return (f"words: {fault}" if fault else "messages" if messages and case.groups else None), due


def compare_random(command, count, seed):
    """How many random cases differ, and how often each kind came."""
    rng, wrong, met = random.Random(seed), 0, Counter()
    for i in range(count):
        case = random_case(rng)
        if too_many(case.region):
            continue
        fault, due = fault_of(command, case)
        met["cases"] += 1
        met["a basis"] += due["basis"]
        met["left out"] += bool(due["left_out"] and due["groups"])
        met["dropped"] += bool(due["dropped"])
        met["no groups"] += not due["groups"]
        met["a tag of the region in another dimension"] += any(group["tag"] in case.tags for group in due["groups"])
        met["index"] += due["index"] > 1
        met["dependent"] += bool(due["relations"])
        for group in due["groups"]:
            met[group["verdict"]] += 1
            met["multiple"] += "times" in group
            met["multiple up to a twisted part"] += not group.get("exactly", True)
            met["divisible"] += group.get("divisor", 0) > 1 and "times" not in group
            met["divisible up to a twisted part"] += group.get("divisor", 0) > 1 and not group["divides"] and "times" not in group
        if fault:
            wrong += 1
            print(f"case {i}: {fault}; words {case.words}")
    return wrong, met


LARGE = "".join(f"{i + 2} 1 2 9 1 1 2\n" for i in range(32768))
TRIANGLE = "$MeshFormat\n2.2 0 8\n$EndMeshFormat\n$Nodes\n3\n1 0 0 0\n2 1 0 0\n3 0 1 0\n$EndNodes\n$Elements\n{}\n{}$EndElements\n"
NAMED = TRIANGLE.replace("$Nodes", '$PhysicalNames\n2\n1 4 "x"\n2 5 "y"\n$EndPhysicalNames\n$Nodes', 1)
# A line, and a point of group 9 in no edge.
WIRE = TRIANGLE.format(2, "1 1 2 5 1 1 2\n2 15 2 9 1 3\n")
FAULTS = [
    ("unknown tag", TRIANGLE.format(1, "1 2 2 5 1 1 2 3\n"), ["8"], 2, "", "no group of lines has the tag 8"),
    ("tag of another dimension", TRIANGLE.format(1, "1 2 2 5 1 1 2 3\n"), ["5"], 2, "", "no group of lines has the tag 5"),
    ("no groups, no loops", TRIANGLE.format(1, "1 2 2 5 1 1 2 3\n"), [], 0, "together: a basis of the free loops, of which there are none",
     "fildwuk: the file has no physical group of lines\n"),
    ("no groups, a loop", TRIANGLE.format(3, "1 1 2 0 1 1 2\n2 1 2 0 1 2 3\n3 1 2 0 1 1 3\n"), [], 1, "rank 0, the free loops have rank 1",
     "the file has no physical group of lines\n"),
    ("no groups named", TRIANGLE.format(1, "1 2 2 5 1 1 2 3\n"), ["5"], 2, "", "has the tag 5; the file has no physical group of lines\n"),
    ("tags there are", NAMED.format(2, "1 2 2 5 1 1 2 3\n2 1 2 9 1 1 2\n"), ["5"], 2, "", 'no group of lines has the tag 5; the tags are 4 "x", 9\n'),
    ("a tag of two dimensions", TRIANGLE.format(2, "1 2 2 1 1 1 2 3\n2 1 2 1 1 1 2\n"), ["--region", "1"], 1, "group 1, 1 line: no cycle", ""),
    ("a stray wire is no region", TRIANGLE.format(3, "1 2 2 1 1 1 2 3\n2 1 2 1 1 1 2\n3 1 2 2 1 1 2\n"), ["2", "--region", "1"], 1,
     "region: 3 vertices, 3 edges, 1 triangle, ", ""),
    ("a wire left out", TRIANGLE.format(2, "1 1 2 1 1 1 2\n2 1 2 2 1 1 2\n"), ["--region", "1"], 1, "group 1: left out, it is part of the region\n", ""),
    ("line with one node twice", TRIANGLE.format(2, "1 2 2 5 1 1 2 3\n2 1 2 9 1 1 1\n"), [], 1, "the line in line 13 of the file is no edge", ""),
    ("line of three nodes", TRIANGLE.format(2, "1 2 2 5 1 1 2 3\n2 1 2 9 1 1 2 3\n"), [], 1, "the line in line 13 of the file is no edge", ""),
    ("a point in no edge", WIRE, ["--dimension", "0"], 1, "group 9, 1 point: not in the region: the point in line 13 of the file is no vertex of it\n", ""),
    ("a point in no edge, in a region of points", WIRE, ["5"], 1, "region: 1 vertex, 0 edges, 0 triangles, 0 tetrahedra; no free loops\ngroup 5, ", ""),
    ("a node that is dropped", WIRE, ["9", "--region", "5", "9", "--dimension", "0"], 1, "region: 2 vertices, 1 edge, 0 triangles, 0 tetrahedra; 1 free "
     "component\n1 node in no edge is dropped: 3\ngroup 9, 1 point: not in the region", ""),
    ("a group of points without a line", WIRE, ["9", "--region", "9", "--dimension", "0"], 0, "group 9, 1 point: free; coordinates 1\n", ""),
    ("line alone", TRIANGLE.format(1, "1 1 2 9 1 1 2\n"), [], 1, "name the groups by their tags, or the region by --region\n", ""),
    ("line alone, named", TRIANGLE.format(1, "1 1 2 9 1 1 2\n"), ["9"], 1, "taken: name the region by --region\n", ""),
    ("line alone, region named", TRIANGLE.format(1, "1 1 2 9 1 1 2\n"), ["9", "--region", "9"], 1, "no cycle: its boundary has -1 at (1)", ""),
    ("large coefficient", TRIANGLE.format(32769, "1 2 2 5 1 1 2 3\n" + LARGE), [], 1, "its coefficient 32768 at (1,2) is beyond 32767", ""),
    ("malformed", "$MeshFormat\n", [], 1, "", "refused with 14"),
    ("faulty element", TRIANGLE.format(2, "1 1 2 9 1 1 2\n2 2 2 5 1 1 2 2\n"), [], 1, "", "refused with 15"),
    ("unknown region", TRIANGLE.format(2, "1 2 2 5 1 1 2 3\n2 1 2 9 1 1 2\n"), ["--region", "6"], 2, "", "no element has the physical tag 6"),
    ("dimension 4", TRIANGLE.format(1, "1 2 2 5 1 1 2 3\n"), ["--dimension", "4"], 1, "", "refused with 8: the dimension exceeds 3."),
    ("plain", TRIANGLE.format(1, "1 2 2 5 1 1 2 3\n"), ["--plain"], 2, "", "--plain"),
    ("many groups", TRIANGLE.format(1002, "1 2 2 5 1 1 2 3\n" + "".join(f"{i} 1 2 {i} 1 1 2\n" for i in range(10, 1011))), [], 1, "",
     "1001 groups are more than are taken at once"),
]


def tangled(rng, vertices, groups):
    """A text of all edges on the vertices, and groups that each run a few times round five triangles: numbers beyond 128 bits."""
    lines = [(0, edge) for edge in combinations(range(1, vertices + 1), 2)]
    for tag in range(10, 10 + groups):
        for _ in range(5):
            a, b, c = rng.sample(range(1, vertices + 1), 3)
            lines += [(tag, edge) for edge in [(a, b), (b, c), (c, a)] * rng.choice([1, 1, 2, 3])]
    nodes = "".join(f"{v} {v} 0 0\n" for v in range(1, vertices + 1))
    elements = "".join(f"{i + 1} 1 2 {tag} 1 {a} {b}\n" for i, (tag, (a, b)) in enumerate(lines))
    return f"$MeshFormat\n2.2 0 8\n$EndMeshFormat\n$Nodes\n{vertices}\n{nodes}$EndNodes\n$Elements\n{len(lines)}\n{elements}$EndElements\n"


def faults():
    """The named faults, with those whose numbers are too wide."""
    rng = random.Random(3)
    yield from FAULTS
    yield "not settled", tangled(rng, 20, 171), [], 1, "together: not settled whether a basis of the free loops\n  their numbers exceed 128 bits", ""
    yield "too many", tangled(rng, 20, 180), [], 1, "together: no basis of the free loops\n  they are 180, and a basis of the free loops has 171\n", ""
    yield "not settled, as an object", tangled(rng, 20, 171), ["--json"], 1, '"rank": null, "index": null, "relations": null, "basis": null}', ""


def compare_faults(command):
    """How many named faults are told otherwise."""
    wrong = 0
    for name, text, words, status, said, told in faults():
        found = run(command, ["-", *words], text)
        if found[0] != status or said not in found[1] or told not in found[2] or (told == "") != (found[2] == ""):
            wrong += 1
            print(f"{name}: status {found[0]}, {found[1]!r}, {found[2]!r}")
    return wrong


GMSH = [
    ("copper_ring_loops", [], 0, "together: a basis of the free loops\n"),
    ("ring_in_air_loops", ["--region", "2"], 0, "together: a basis of the free loops\n"),
    ("ring_in_air_loops", ["--region", "2", "--dimension", "2"], 0, "together: a basis of the free cavities\n"),
    ("projective_plane_loops", [], 1, "  group 3 is twisted: it has no free part\n"),
    ("projective_plane_loops", ["4", "--dimension", "2"], 1, "no cycle: its boundary has"),
    ("klein_bottle_loops", [], 1, " is twisted: it has no free part\n"),
]


def compare_gmsh(command, folder):
    """How many of Gmsh's own loops, in a folder of files, are judged otherwise."""
    wrong = 0
    for name, words, status, said in GMSH:
        found = run(command, [Path(folder) / f"{name}.msh", *words])
        if found[0] != status or said not in found[1] or found[2]:
            wrong += 1
            print(f"{name} of {folder}: status {found[0]}, {found[1]}{found[2]}")
    return wrong


def main():
    parser = argparse.ArgumentParser(description=__doc__, formatter_class=argparse.RawDescriptionHelpFormatter)
    parser.add_argument("--command", type=Path, default=COMMAND)
    parser.add_argument("--count", type=int, default=250)
    parser.add_argument("--seed", type=int, default=9)
    options = parser.parse_args()
    wrong, met = compare_random(options.command, options.count, options.seed)
    unmet = [kind for kind in KINDS if not met[kind]]
    wrong += compare_faults(options.command) + compare_gmsh(options.command, MESHES)
    with tempfile.TemporaryDirectory() as folder:
        subprocess.run(["bash", MESHES / "make", folder], check=True, capture_output=True)
        wrong += compare_gmsh(options.command, folder)
    print(", ".join(f"{number} {kind}" for kind, number in met.items()))
    print(f"{len(list(faults()))} named faults, {2 * len(GMSH)} judgements of Gmsh's own loops, {wrong} differ; kinds that did not come: {unmet}")
    return 1 if wrong or unmet else 0


if __name__ == "__main__":
    sys.exit(main())
