#!/usr/bin/env python3
"""Compares `fildwuk surface` with the model: on random meshes with physical groups, of which many bound, on named cases, and what Gmsh and GetDP make of
its files.

The boundary of every surface that is told is found again from the mesh, and is the
group's chain exactly; where none is told, that is held to the model's coordinates.
The words, the groups and the views are held to the object that --json writes. Gmsh
saves a file with groups again, and in what it saves the surfaces bound the curves;
GetDP finds the area of each surface that its curve bounds. Built with sanitizers.
"""

import argparse
import random
import subprocess
import sys
import tempfile
from collections import Counter
from pathlib import Path

from command.runs import COMMAND, DRIVER, in_process
from command.surface_cases import DISC_TEXT, NAMED, REFUSED, cases, closed_at_the_end, copies, solid, with_loops
from command.surfaces import due_object, due_words, surface_fault
from command.told import object_of
from compare_groups import Made, area, gmsh_fault
from model.group_files import Parts, chain_of, group_chains, oriented, views, without_groups
from model.judgement import sign
from model.sheet import LIBRARY_COUNT_LIMIT, parse
from model.sweep import swept_from_facets

ROOT = Path(__file__).resolve().parent.parent
MESHES = ROOT / "tests/meshes"
KINDS = ("outside", "large", "open", "bounds", "twisted", "free", "left out", "no groups", "all bound", "coefficients beyond 1", "opposite copies")
NAME = "a file"
NO_NAMES = "$PhysicalNames\n0\n$EndPhysicalNames\n"


def object_fault(case, due, ran):
    """What is wrong with the object, None where nothing is."""
    found = object_of(ran.output)
    if not case.groups and not ran.errors.startswith(b"fildwuk: the file has no physical group of "):
        return f"messages {ran.errors}"
    for group, source in zip(found["groups"], case.groups):
        surface = group.pop("surface", None)
        if (surface is not None) != (group["refusal"] == 0):
            return "a surface"
        fault = surface_fault(case, source, surface["chain"]) if surface else None
        if fault:
            return f"{fault} of group {group['tag']}"
    differ = [name for name, value in due.items() if found.get(name) != value]
    if differ or list(found)[1:] != list(due) or any(list(one) != list(other) for one, other in zip(found["groups"], due["groups"])):
        return f"other names or values: {', '.join(differ)}"
    return None if ran.status == (0 if case.groups and all(group["refusal"] == 0 for group in found["groups"]) else 1) else f"status {ran.status}"


def due_name(case, tag):
    """The name of the surface of a group."""
    return f"S_{case.dimension + 1}{{{case.tags[0] if case.tags else 0}}}{tag}"


def files_fault(case, found, groups, view):
    """What is wrong with the files of --groups and --view, whose surfaces the object tells; None where nothing is."""
    sheet, p = parse(swept_from_facets(case.region), LIBRARY_COUNT_LIMIT), case.dimension
    before, after = Parts(case.text), Parts(groups)
    surfaces = [(group["tag"], group["surface"]) for group in found["groups"] if "surface" in group]
    total = sum(abs(coefficient) for _, surface in surfaces for coefficient, _ in surface["chain"])
    if without_groups(groups, len(surfaces), total) != (case.text.replace(NO_NAMES, "") if surfaces else case.text):
        return "the mesh is not there byte for byte"
    old = [tag for _, tag, _ in before.name_lines()] + [line.tags[0] for line in before.element_lines()]
    due = [(p + 1, max(old) + 1 + k, due_name(case, tag)) for k, (tag, _) in enumerate(surfaces)]
    told = [(p + 1, surface["tag"], surface["name"]) for _, surface in surfaces]
    if list(after.name_lines())[len(list(before.name_lines())):] != due or told != due:
        return "tags and names"
    if any(line.tags[1] != 1000000 + line.tags[0] for line in after.element_lines() if line.tags[0] in [tag for _, tag, _ in due]):
        return "elementary tags"
    cells = sheet.cells(p + 1)
    chains = list(group_chains(after, p + 1, [tag for _, tag, _ in due], cells).values())
    if chains != [[{tuple(of): x for x, of in surface["chain"]}.get(cell, 0) for cell in cells] for _, surface in surfaces]:
        return "other elements"
    numbers = {words: number for number, words in before.places().items()}
    shown = [(name, chain_of([([numbers[point] for point in points], value) for points, value in found], cells)) for name, found in views(view)]
    return None if shown == [(name, chain) for (_, _, name), chain in zip(due, chains)] else "other views"


def count_met(met, case, due, found):
    """Counts what kinds a case has."""
    met["cases"] += 1
    met["left out"] += bool(due["left_out"])
    met["no groups"] += not due["groups"]
    met["all bound"] += bool(due["groups"]) and all(group["refusal"] == 0 for group in due["groups"])
    for group, source in zip(found["groups"], case.groups):
        met[group["verdict"]] += 1
        met["coefficients beyond 1"] += any(abs(x) > 1 for x, _ in group.get("surface", {}).get("chain", []))
        lines = {nodes for nodes, _ in source.elements if len(nodes) == 2}
        met["opposite copies"] += any((b, a) in lines for a, b in lines)


def requests_of(case, files):
    """The runs of a case: as an object and in words, without files and with them."""
    words, text = ["surface", NAME, *case.words], case.text.encode()
    return [([*words, *asked, *form], text) for asked in ([], ["--groups", f"{files}.msh", "--view", f"{files}.pos"]) for form in (["--json"], [])]


def case_faults(case, due, files, runs):
    """What is wrong with the runs of a case."""
    told, words, exported, both = runs
    if len({ran.status for ran in runs}) > 1 or (words.errors and case.groups):
        return [f"statuses {[ran.status for ran in runs]}, {words.errors}"]
    found, plain, named = object_of(exported.output), object_of(told.output), bool(case.words) and case.words[0].isdigit()
    groups, view = (Path(f"{files}.{end}").read_text(encoding="ascii") for end in ("msh", "pos"))
    return [object_fault(case, due, told), files_fault(case, found, groups, view), words.output.decode() != due_words(plain, named, False) and "words",
            both.output.decode() != due_words(found, named, True) and "words with files"]


def compare_random(driver, folder, count, seed):
    """How many random cases differ, and how often each kind came."""
    made, wrong, met = cases(random.Random(seed), count), 0, Counter()
    runs = in_process([request for i, case in enumerate(made) for request in requests_of(case, folder / str(i))], driver)
    for i, case in enumerate(made):
        due, own = due_object(case), runs[4 * i:4 * i + 4]
        try:
            faults = list(filter(None, case_faults(case, due, folder / str(i), own)))
            count_met(met, case, due, object_of(own[2].output))
        except (ValueError, OSError) as error:
            faults = [f"{error}: {own[0]}"[:300]]
        for fault in faults:
            wrong += 1
            print(f"case {i}: {fault}; words {case.words}")
    return wrong, met


def compare_named(driver):
    """How many named cases are told otherwise."""
    wrong = 0
    for (name, _, _, *due), ran in zip(NAMED, in_process([(["surface", NAME, *words], text.encode()) for _, text, words, *_ in NAMED], driver)):
        status, said, told = due
        errors = ran.errors.decode()
        if ran.status != status or said not in ran.output.decode() or told not in errors or (told == "") != (errors == ""):
            wrong += 1
            print(f"{name}: {ran}")
    return wrong


def compare_refused(command, folder):
    """How many files that cannot be written are told otherwise, or spoil what stood there; outputs that are the input or one file are refused with 2."""
    wrong, source, kept = 0, folder / "refused.msh", folder / "kept"
    uses = [(name, text, [f"--{kind}", kept], 1, told) for name, text, told, kinds in REFUSED for kind in kinds]
    uses += [(name, DISC_TEXT, words, 2, told) for name, words, told in (
        ("the input", ["--groups", source], "it is the input"), ("one file", ["--groups", kept, "--view", kept], "the same file"),
        ("a folder", ["--view", folder], "Is a directory"), ("standard output", ["--groups", "-"], "a file is wanted"))]
    for name, text, words, status, told in uses:
        source.write_text(text, encoding="ascii")
        kept.write_text("kept", encoding="ascii")
        ran = subprocess.run([command, "surface", source, *words], capture_output=True, text=True, check=False)
        spoiled = kept.read_text(encoding="ascii") != "kept" or source.read_text(encoding="ascii") != text
        if ran.returncode != status or told not in ran.stderr or spoiled:
            wrong += 1
            print(f"{name}: status {ran.returncode}, {ran.stderr!r}")
    return wrong, len(uses)


def by_points(elements):
    """Oriented elements as a chain on their points: the points in rising order, each with its number of copies."""
    found = Counter()
    for points, number in elements.items():
        found[tuple(sorted(points))] += sign(points) * number
    return {points: number for points, number in found.items() if number}


def boundary_of(elements):
    """The boundary of such a chain."""
    found = Counter()
    for points, number in by_points(elements).items():
        for i in range(len(points)):
            found[points[:i] + points[i + 1:]] += number if i % 2 == 0 else -number
    return {points: number for points, number in found.items() if number}


PRO = """\
Group { Surface = Region[TAG]; }
Jacobian { { Name Sur; Case { { Region All; Jacobian Sur; } } } }
Integration { { Name Gauss; Case { { Type Gauss; Case { { GeoElement Triangle; NumberOfPoints 3; } } } } } }
FunctionSpace { { Name S; Type Form0; BasisFunction { { Name s; NameOfCoef c; Function BF_Node; Support Surface; Entity NodesOf[All]; } } } }
Formulation { { Name F; Type FemEquation; Quantity { { Name u; Type Local; NameOfSpace S; } }
  Equation { Integral { [ Dof{u}, {u} ]; In Surface; Jacobian Sur; Integration Gauss; } } } }
Resolution { { Name R; System { { Name A; NameOfFormulation F; } } Operation { Generate[A]; Solve[A]; } } }
PostProcessing { { Name P; NameOfFormulation F; Quantity {
  { Name a0; Value { Integral { [ Vector[1, 0, 0] * Normal[] ]; In Surface; Jacobian Sur; Integration Gauss; } } }
  { Name a1; Value { Integral { [ Vector[0, 1, 0] * Normal[] ]; In Surface; Jacobian Sur; Integration Gauss; } } }
  { Name a2; Value { Integral { [ Vector[0, 0, 1] * Normal[] ]; In Surface; Jacobian Sur; Integration Gauss; } } } } } }
PostOperation { { Name O; NameOfPostProcessing P; Operation { Print[ a0[Surface], OnGlobal, Format Table, File "a0" ];
  Print[ a1[Surface], OnGlobal, Format Table, File "a1" ]; Print[ a2[Surface], OnGlobal, Format Table, File "a2" ]; } } }
"""


def getdp_fault(folder, curve, tag):
    """What is wrong with the fluxes of constant fields that GetDP finds through a surface, None where they are the areas that its curve bounds."""
    (folder / "surface.pro").write_text(PRO.replace("TAG", str(tag)), encoding="ascii")
    words = ["getdp", "surface.pro", "-msh", "groups.msh", "-solve", "R", "-pos", "O", "-v", "2"]
    done = subprocess.run(words, cwd=folder, capture_output=True, text=True, check=False)
    if done.returncode or done.stdout.strip() or done.stderr.strip():
        return f"GetDP says {done.stdout}{done.stderr}"
    found, due = [float((folder / f"a{i}").read_text(encoding="ascii").split()[1]) for i in range(3)], area(curve)
    return None if all(abs(a - b) < 1e-9 * max(1, abs(b)) for a, b in zip(found, due)) else f"GetDP finds areas {found}, due are {due}"


def outside_faults(command, folder, text, p):
    """What is wrong with what Gmsh and GetDP make of the files of a text whose groups all bound."""
    source, groups, view = folder / "source.msh", folder / "groups.msh", folder / "view.pos"
    source.write_text(text, encoding="ascii")
    words = [command, "surface", source, "--dimension", str(p), "--groups", groups, "--view", view, "--json"]
    done = subprocess.run(words, capture_output=True, check=False)
    if done.returncode or done.stderr:
        return [f"status {done.returncode}, {done.stderr.decode()}"]
    pairs = [(group["tag"], group["surface"]["tag"]) for group in object_of(done.stdout)["groups"]]
    made = Made(text, None, p + 1, groups.read_text(encoding="ascii"), view.read_text(encoding="ascii"), "")
    faults = [gmsh_fault(folder, made, [tag for _, tag in pairs])]
    parts = Parts((folder / "saved.msh").read_text(encoding="ascii"))
    kept = oriented(parts, {tag for pair in pairs for tag in pair})
    faults += [f"Gmsh saves surface {tag} with another boundary than group {curve}" for curve, tag in pairs if boundary_of(kept[tag]) != by_points(kept[curve])]
    return faults + [getdp_fault(folder, kept[curve], tag) for curve, tag in pairs if p == 1 and kept[tag]]


def compare_outside(command, folder):
    """How many texts Gmsh or GetDP read otherwise, of how many."""
    plate, tower = (MESHES / "groups.msh").read_text(encoding="ascii"), with_loops(closed_at_the_end(9), [0, 1, 2], [27, 29, 28])
    texts = {"the ring and its disc": (DISC_TEXT, 1), "a plate with its hole filled": (plate, 1), "a tower of 9 floors": (tower, 1),
             "lines that cancel": (copies((1, 2), (2, 1)), 1), "tetrahedra": (solid(), 2)}
    wrong = 0
    for name, (text, p) in texts.items():
        for fault in filter(None, outside_faults(command, folder, text, p)):
            wrong += 1
            print(f"{name}: {fault[:300]}")
    return wrong, len(texts)


def main():
    parser = argparse.ArgumentParser(description=__doc__, formatter_class=argparse.RawDescriptionHelpFormatter)
    parser.add_argument("--command", type=Path, default=COMMAND)
    parser.add_argument("--driver", type=Path, default=DRIVER)
    parser.add_argument("--count", type=int, default=150)
    parser.add_argument("--seed", type=int, default=6)
    options = parser.parse_args()
    with tempfile.TemporaryDirectory() as name:
        folder = Path(name)
        wrong, met = compare_random(options.driver, folder, options.count, options.seed)
        named = compare_named(options.driver)
        refused, uses = compare_refused(options.command.resolve(), folder)
        outside, texts = compare_outside(options.command.resolve(), folder)
    unmet = [kind for kind in KINDS if not met[kind]]
    print(", ".join(f"{number} {kind}" for kind, number in met.items()))
    print(f"{wrong} differ from the model; {len(NAMED)} named cases, {named} told otherwise; {uses} files refused, {refused} otherwise; "
          f"{texts} given to Gmsh and GetDP, {outside} read otherwise; kinds that did not come: {unmet}")
    return 1 if wrong or named or refused or outside or unmet else 0


if __name__ == "__main__":
    sys.exit(main())
