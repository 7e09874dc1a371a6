#!/usr/bin/env python3
"""Compares the files of `fildwuk report --groups` and `--view` with the model, and gives them to Gmsh and GetDP.

Each file is read again: the mesh stands in it byte for byte, the groups are the
model's generators with new tags, and it imports to the same sheet. Gmsh reads both
without a word and saves the same oriented elements; GetDP integrates over the loops.
"""

import argparse
import json
import subprocess
import sys
import tempfile
from dataclasses import dataclass
from itertools import product
from pathlib import Path

from model import homology, meshes
from model.group_files import Parts, as_numbers, chain_of, group_chains, oriented, views, without_groups
from model.mesh import import_mesh
from model.sheet import LIBRARY_COUNT_LIMIT, Refused, from_facets, longest, parse

ROOT = Path(__file__).resolve().parent.parent
COMMAND = ROOT / "target/host/fildwuk"
MESHES = ROOT / "tests/meshes"


def capped(floors, mirrored=False):
    """A doubling tower closed at both ends: one cavity with the coefficient 2 to the number of floors, of one sign or the other."""
    facets = meshes.tower(floors) + [(3 * floors, 3 * floors + 1, 3 * floors + 2)]
    exchanged = {3 * floors: 3 * floors + 1, 3 * floors + 1: 3 * floors}
    return [tuple(sorted(exchanged.get(v, v) for v in facet)) for facet in facets] if mirrored else facets


def text_of(facets, end="\n"):
    """A mesh text of facets, without names."""
    kinds = {1: 15, 2: 1, 3: 2, 4: 4}
    last = max(v for facet in facets for v in facet) + 1
    nodes = [f"{v} {v}.5 -{v}e-3 {v % 7}" for v in range(1, last + 1)]
    elements = [" ".join(map(str, [i + 1, kinds[len(facet)], 2, 0, 1, *(v + 1 for v in facet)])) for i, facet in enumerate(facets)]
    lines = ["$MeshFormat", "2.2 0 8", "$EndMeshFormat", "$Nodes", len(nodes), *nodes, "$EndNodes", "$Elements", len(elements), *elements, "$EndElements"]
    return "".join(f"{line}{end}" for line in lines)


def texts():
    """Mesh texts by name with the tags of a region: the stored meshes that are taken, and surfaces with twisted loops."""
    found = {}
    for path in [*sorted(MESHES.glob("*.msh")), ROOT / "examples/copper_ring.msh"]:
        data = path.read_bytes()
        if import_mesh(data, LIBRARY_COUNT_LIMIT, longest(LIBRARY_COUNT_LIMIT))[0] == 0:
            found[path.stem] = (data.decode("ascii"), None)
    found["ring_in_air"] = ((MESHES / "ring_in_air.msh").read_text(encoding="ascii"), 2)
    found["moore 3"] = (text_of(meshes.moore_space(3)), None)
    found["wound"] = (text_of(meshes.wound([[2, 0, 4], [0, 6, 0]]), "\r\n"), None)
    found["tower of 9 floors"] = (text_of(capped(9)), None)
    found["mirrored tower of 9 floors"] = (text_of(capped(9, True)), None)
    found["a name of no element"] = (RING.replace("1\n3 1 ", '2\n1 40 "none"\n3 1 '), None)
    found["sphere 3"] = (text_of(meshes.sphere(3)), None)
    return found


def run(command, *words, text=None):
    """The status, output and messages of the command."""
    done = subprocess.run([command, *map(str, words)], input=text, capture_output=True, check=False)
    return done.returncode, done.stdout.decode(), done.stderr.decode()


@dataclass(frozen=True)
class Made:
    """A mesh text with the files that the command made of it for dimension p."""

    text: str
    region: int
    p: int
    groups: str
    view: str
    said: str


def facets_of(made):
    """The elements of the region."""
    return [line.nodes for line in Parts(made.text).element_lines() if made.region in (None, line.tags[0])]


def due_name(made, report, k):
    """The name of generator k."""
    t = len(report.orders)
    place = f"{{{made.region or 0}}}"
    return f"T_{made.p}{place}{k + 1} order {report.orders[k]}" if k < t else f"H_{made.p}{place}{k - t + 1}"


def group_fault(made):
    """What is wrong with the groups, None where nothing is."""
    data = from_facets(facets_of(made))
    sheet, report = parse(data, LIBRARY_COUNT_LIMIT), homology.report(data, made.p)
    before, after = Parts(made.text), Parts(made.groups)
    total = sum(abs(x) for generator in report.generators for x in generator)
    if before.ends() != after.ends():
        return "other line ends"
    if without_groups(made.groups, len(report.generators), total) != made.text:
        return "the mesh is not there byte for byte"
    old = {tag for _, tag, _ in before.name_lines()} | {line.tags[0] for line in before.element_lines() if line.tags}
    names = list(after.name_lines())[len(list(before.name_lines())):]
    tags = [tag for _, tag, _ in names]
    if tags != list(range(max(old, default=0) + 1, max(old, default=0) + 1 + len(names))):
        return f"tags {tags}"
    if [(p, name) for p, _, name in names] != [(made.p, due_name(made, report, k)) for k in range(len(names))]:
        return f"names {names}"
    if list(group_chains(after, made.p, tags, sheet.cells(made.p)).values()) != [list(g) for g in report.generators]:
        return "other chains"
    numbers = [line.number for line in after.element_lines()]
    if len(set(numbers)) != len(numbers) and len({line.number for line in before.element_lines()}) == len(list(before.element_lines())):
        return "element numbers twice"
    entities = {line.tags[1] for line in after.element_lines() if line.tags[0] in tags}
    if entities != {1000000 + tag for tag in tags}:
        return f"elementary tags {entities}"
    told = [f'  group {tag} "{name}": ' for _, tag, name in names] or ["  no generator, and so no group and no view\n"]
    lines = [line for line in made.said.splitlines(True) if line.startswith(("  group ", "  view ", "  no generator"))]
    return None if len(lines) == len(told) and all(map(str.startswith, lines, told)) else "not told"


def view_fault(made):
    """What is wrong with the views, None where nothing is."""
    data = from_facets(facets_of(made))
    sheet, report = parse(data, LIBRARY_COUNT_LIMIT), homology.report(data, made.p)
    numbers = {}
    for number, words in Parts(made.text).places().items():
        numbers.setdefault(words, []).append(number)
    found = list(views(made.view))
    if [name for name, _ in found] != [due_name(made, report, k) for k in range(len(report.generators))]:
        return "names of views"
    if any(len(same) > 1 for same in numbers.values()):
        return None
    chains = [chain_of([(tuple(numbers[point][0] for point in points), value) for points, value in elements], sheet.cells(made.p)) for _, elements in found]
    return None if chains == [list(g) for g in report.generators] else "other views"


def told_fault(command, folder, made):
    """What is wrong with the names that are told with a view alone, and with tags and names in JSON; None where nothing is."""
    words = ["report", folder / "source.msh", *(["--region", made.region] if made.region else []), "--dimension", made.p]
    report = homology.report(from_facets(facets_of(made)), made.p)
    names = [due_name(made, report, k) for k in range(len(report.generators))]
    said = run(command, *words, "--view", folder / "alone.pos")[1]
    told = [f'  view "{name}": ' for name in names] or ["  no generator, and so no group and no view\n"]
    lines = [line for line in said.splitlines(True) if line.startswith(("  group ", "  view ", "  no generator"))]
    if len(lines) != len(told) or not all(map(str.startswith, lines, told)):
        return "views not told"
    tags = [tag for _, tag, name in Parts(made.groups).name_lines()][len(list(Parts(made.text).name_lines())):]
    for kind, due in (("groups", tags), ("view", [None] * len(names))):
        found = json.loads(run(command, *words, "--json", f"--{kind}", folder / "alone")[1])["dimensions"][0]["generators"]
        if [(one.get("tag"), one["name"]) for one in found] != list(zip(due, names)):
            return f"JSON of {kind}"
    return None


def make(command, folder, text, region, p):
    """The files of a text for dimension p; raises ValueError where the command fails."""
    source, groups, view = folder / "source.msh", folder / "groups.msh", folder / "view.pos"
    source.write_bytes(text.encode())
    words = ["--region", region] if region else []
    status, said, messages = run(command, "report", source, *words, "--dimension", p, "--groups", groups, "--view", view)
    if status or messages:
        raise ValueError(f"status {status}, {messages}")
    return Made(text, region, p, groups.read_bytes().decode(), view.read_bytes().decode(), said)


def sheet_fault(command, folder, made):
    """Whether the file with groups imports to another sheet, and whether its free groups are judged to be no basis."""
    words = ["--region", made.region] if made.region else []
    names = Parts(made.groups).name_lines()
    new = {tag for _, tag, name in names} - {tag for _, tag, _ in Parts(made.text).name_lines()}
    free = [tag for _, tag, name in Parts(made.groups).name_lines() if tag in new and name.startswith("H_")]
    if made.region is None:
        sheets = [run_bytes(command, "import", folder / name) for name in ("source.msh", "groups.msh")]
        if sheets[0] != sheets[1] or not sheets[0]:
            return "another sheet"
    status, said, messages = run(command, "judge", folder / "groups.msh", *free, *words, "--dimension", made.p) if free else (0, "", "")
    return f"judged {status}: {said}{messages}" if status else None


def run_bytes(command, *words):
    """The output of the command as bytes."""
    return subprocess.run([command, *map(str, words)], capture_output=True, check=True).stdout


def compare_files(command, folder):
    """How many files differ, of how many."""
    wrong = made_total = 0
    for (name, (text, region)), p in product(texts().items(), range(4)):
        try:
            made = make(command, folder, text, region, p)
            fault = group_fault(made) or view_fault(made) or sheet_fault(command, folder, made) or told_fault(command, folder, made)
        except (ValueError, Refused) as error:
            fault = str(error)
        made_total += 1
        if fault:
            wrong += 1
            print(f"{name}, dimension {p}: {fault}")
    return wrong, made_total


RING = (ROOT / "examples/copper_ring.msh").read_text(encoding="ascii")
FAULTS = [
    ("coefficient -1024", text_of(capped(10)), ["--dimension", "2"], 1, "coefficient", ("groups", "view")),
    ("coefficient 1024", text_of(capped(10, True)), ["--dimension", "2"], 1, "coefficient", ("groups", "view")),
    ("names that are no list", RING.replace('3 1 "copper ring"', "3 1 copper"), [], 1, "$PhysicalNames", ("groups",)),
    ("physical tag that is no number", RING.replace("1 4 2 1 1 2 1 4 8", "1 4 2 a 1 2 1 4 8"), [], 1, "a tag of line 25 is no number", ("groups",)),
    ("elementary tag that is no number", RING.replace("1 4 2 1 1 2 1 4 8", "1 4 2 1 b 2 1 4 8"), [], 1, "a tag of line 25 is no number", ("groups",)),
    ("great tag", RING.replace("1 4 2 1 1 2 1 4 8", "1 4 2 999999999 1 2 1 4 8"), [], 1, "tags are too great", ("groups",)),
    ("great elementary tag", RING.replace("1 4 2 1 1 2 1 4 8", "1 4 2 1 999999999 2 1 4 8"), [], 1, "tags are too great", ("groups",)),
    ("great element number", RING.replace("1 4 2 1 1 2 1 4 8", "999999999 4 2 1 1 2 1 4 8"), [], 1, "element numbers are too great", ("groups",)),
    *((f"coordinate {word}", RING.replace("1 2 0 0\n", f"1 2 {word} 0\n"), [], 1, "is no plain number", ("view",))
      for word in ("0;Exit", "x", "nan", "inf", "1e", "0x10", "1.2.3", "-", "1e5;", ".", "Exp(1)", "1" * 101)),
]


def compare_faults(command, folder):
    """How many refused files are told otherwise, written, or spoil what stood there."""
    wrong = 0
    for name, text, words, status, told, kinds in FAULTS:
        (folder / "fault.msh").write_text(text, encoding="ascii")
        for kind in kinds:
            kept = folder / "kept"
            kept.write_text("kept", encoding="ascii")
            found = run(command, "report", folder / "fault.msh", *words, f"--{kind}", kept)
            if found[0] != status or told not in found[2] or kept.read_text(encoding="ascii") != "kept":
                wrong += 1
                print(f"{name}, {kind}: status {found[0]}, {found[2]!r}")
    return wrong


def compare_misuse(command, folder):
    """How many wrong uses are not refused with 2."""
    mesh, sheet = folder / "ring.msh", folder / "ring.sheet"
    mesh.write_text(RING, encoding="ascii")
    sheet.write_bytes(run_bytes(command, "import", mesh))
    uses = [[mesh, "--groups", mesh], [mesh, "--view", mesh], [mesh, "--groups", folder / "a", "--view", folder / "a"], [sheet, "--groups", folder / "a"],
            [mesh, "--groups", folder / "no" / "folder"]]
    wrong = [words for words in uses if run(command, "report", *words)[0] != 2]
    for words in wrong:
        print(f"{words}: not refused with 2")
    return len(wrong) + (mesh.read_text(encoding="ascii") != RING)


def area(edges):
    """The areas that a loop bounds in the three coordinate planes."""
    return [sum(copies * (a[i] * b[j] - a[j] * b[i]) / 2 for (a, b), copies in edges.items()) for i, j in ((1, 2), (2, 0), (0, 1))]


PRO = """\
Group { Loop = Region[TAG]; }
Jacobian { { Name Line; Case { { Region All; Jacobian Lin; } } } }
Integration { { Name Gauss; Case { { Type Gauss; Case { { GeoElement Line; NumberOfPoints 4; } } } } } }
FunctionSpace { { Name S; Type Form0; BasisFunction { { Name s; NameOfCoef c; Function BF_Node; Support Loop; Entity NodesOf[All]; } } } }
Formulation { { Name F; Type FemEquation; Quantity { { Name u; Type Local; NameOfSpace S; } }
  Equation { Integral { [ Dof{u}, {u} ]; In Loop; Jacobian Line; Integration Gauss; } } } }
Resolution { { Name R; System { { Name A; NameOfFormulation F; } } Operation { Generate[A]; Solve[A]; } } }
PostProcessing { { Name P; NameOfFormulation F; Quantity {
  { Name a0; Value { Integral { [ Vector[0, -Z[], Y[]] * Tangent[] / 2 ]; In Loop; Jacobian Line; Integration Gauss; } } }
  { Name a1; Value { Integral { [ Vector[Z[], 0, -X[]] * Tangent[] / 2 ]; In Loop; Jacobian Line; Integration Gauss; } } }
  { Name a2; Value { Integral { [ Vector[-Y[], X[], 0] * Tangent[] / 2 ]; In Loop; Jacobian Line; Integration Gauss; } } } } } }
PostOperation { { Name O; NameOfPostProcessing P; Operation { Print[ a0[Loop], OnGlobal, Format Table, File "a0" ];
  Print[ a1[Loop], OnGlobal, Format Table, File "a1" ]; Print[ a2[Loop], OnGlobal, Format Table, File "a2" ]; } } }
"""


def getdp_fault(folder, made, tag):
    """What is wrong with GetDP's integrals over a loop, None where they are the areas that it bounds."""
    (folder / "loop.pro").write_text(PRO.replace("TAG", str(tag)), encoding="ascii")
    done = subprocess.run(["getdp", "loop.pro", "-msh", "groups.msh", "-solve", "R", "-pos", "O", "-v", "2"], cwd=folder, capture_output=True, text=True, check=False)
    if done.returncode or done.stdout.strip() or done.stderr.strip():
        return f"GetDP says {done.stdout}{done.stderr}"
    found = [float((folder / f"a{i}").read_text(encoding="ascii").split()[1]) for i in range(3)]
    due = area(oriented(Parts(made.groups), [tag])[tag])
    return None if all(abs(a - b) < 1e-12 * max(1, abs(b)) for a, b in zip(found, due)) else f"GetDP finds areas {found}, due are {due}"


def gmsh(folder, *words):
    """What Gmsh prints of warnings and errors."""
    done = subprocess.run(["gmsh", *words, "-v", "2"], cwd=folder, capture_output=True, text=True, check=False)
    return f"{done.stdout}{done.stderr}".strip() or (f"status {done.returncode}" if done.returncode else "")


def gmsh_fault(folder, made, tags):
    """What is wrong with what Gmsh reads and saves of both files, None where nothing is."""
    (folder / "views.geo").write_text('Merge "view.pos";\nFor i In {0:PostProcessing.NbViews - 1}\nSave View[i] Sprintf("saved%g.pos", i);\nEndFor\n', encoding="ascii")
    said = gmsh(folder, "groups.msh", "-save", "-format", "msh22", "-o", "saved.msh") or gmsh(folder, "views.geo", "-0", "-o", "none.msh")
    if said:
        return f"Gmsh says {said}"
    saved = Parts((folder / "saved.msh").read_text(encoding="ascii"))
    if oriented(saved, tags) != oriented(Parts(made.groups), tags):
        return "Gmsh saves other elements"
    again = [view for i in range(len(tags)) for view in views((folder / f"saved{i}.pos").read_text(encoding="ascii"))]
    return None if as_numbers(again) == as_numbers(views(made.view)) else "Gmsh saves other views"


def compare_outside(command, folder):
    """How many of the files Gmsh or GetDP reads otherwise, of how many."""
    cases = [(RING, None, 1), ((MESHES / "ring_in_air.msh").read_text(encoding="ascii"), 2, 1), ((MESHES / "klein_bottle.msh").read_text(encoding="ascii"), None, 1),
             (text_of(capped(9)), None, 2)]
    wrong = 0
    for text, region, p in cases:
        made = make(command, folder, text, region, p)
        old = {line.tags[0] for line in Parts(text).element_lines()}
        tags = sorted({line.tags[0] for line in Parts(made.groups).element_lines()} - old)
        faults = [gmsh_fault(folder, made, tags), *(getdp_fault(folder, made, tag) for tag in tags if p == 1)]
        for fault in filter(None, faults):
            wrong += 1
            print(fault)
    return wrong, len(cases)


def main():
    parser = argparse.ArgumentParser(description=__doc__, formatter_class=argparse.RawDescriptionHelpFormatter)
    parser.add_argument("--command", type=Path, default=COMMAND)
    command = parser.parse_args().command.resolve()
    with tempfile.TemporaryDirectory() as name:
        folder = Path(name)
        wrong, total = compare_files(command, folder)
        refused = compare_faults(command, folder) + compare_misuse(command, folder)
        outside, files = compare_outside(command, folder)
    print(f"{total} files with groups and views, {wrong} differ from the model; {len(FAULTS)} refused, {refused} told otherwise; "
          f"{files} given to Gmsh and GetDP, {outside} read otherwise")
    return 1 if wrong or refused or outside else 0


if __name__ == "__main__":
    sys.exit(main())
