#!/usr/bin/env python3
"""Holds what fildwuk says of a refusal to the model: where the fault stands, on texts and sheets with planted faults and on damaged ones, what helps,
and the same in JSON. Runs in process, built with sanitizers."""

import argparse
import random
import re
from collections import Counter
from pathlib import Path

from command.runs import DONE, DRIVER, FAILED, REFUSED, in_process, is_mesh
from command.told import object_of
from command.where import of_sheet, of_text, quoted
from compare_gmsh import damaged, due_answers, stored
from compare_groups import text_of
from make_sheets import fault_sheets, random_sheets
from model import mesh_cases, mesh_texts, meshes
from model.mesh import import_mesh
from model.sheet import LIBRARY_COUNT_LIMIT, PROGRAM_COUNT_LIMIT, from_facets, longest, refusal

LIMITS = {"library": LIBRARY_COUNT_LIMIT, "host": PROGRAM_COUNT_LIMIT}
SAVE = "`gmsh FILE -save -format msh22 -o NEW.msh` writes it as MSH 2.2 ASCII"
RING = Path("examples/copper_ring.msh").read_bytes()
GROUPS = Path("tests/meshes/groups.msh").read_bytes()

SCRIPT = "It is a script of Gmsh: `gmsh -3 FILE -format msh22 -o NEW.msh` meshes it"
TEXT = "It is text; a mesh starts with $MeshFormat and nothing before it"

# A sheet with an order beyond the entry limit.
TOO_WIDE = from_facets(meshes.tower(20))

# The line that helps, by the first bytes of an input.
STARTS = {
    b"\x1f\x8b\x08": "It is compressed by gzip: `gunzip` unpacks it",
    b"BZh91AY": "It is compressed by bzip2: `bunzip2` unpacks it",
    b"\xfd7zXZ\0": "It is compressed by xz: `unxz` unpacks it",
    b"PK\x03\x04": "It is a zip archive: `unzip` unpacks it",
    b"\xef\xbb\xbf$MeshFormat\n": "It starts with a byte order mark: `sed -i '1s/^...//'` in the locale C takes it away",
    b"\xff\xfe$\0": "It is text in UTF-16: `iconv -f UTF-16 -t ASCII` turns it into ASCII",
    b"\xfe\xff\0$": "It is text in UTF-16: `iconv -f UTF-16 -t ASCII` turns it into ASCII",
    b"solid Created by Gmsh\n": f"It is STL: {SAVE}",
    b"# vtk DataFile Version 2.0\n": f"It is VTK: {SAVE}",
    b"$NOD\n8\n": f"It is MSH 1: {SAVE}",
    b"$NOD\r\n8\r\n": f"It is MSH 1: {SAVE}",
    b"    -1\n  2411\n": f"It is UNV: {SAVE}",
    b"SetFactory(\"OpenCASCADE\");\n": SCRIPT,
    b"// a ring\nlc = 0.1;\nPoint(1) = {0, 0, 0, lc};\n": SCRIPT,
    b"Merge \"ring.step\";\n": SCRIPT,
    b"lc = 1;\r\nPoint (1) = {0, 0, 0};\r\n": SCRIPT,
    b"*Heading\n ring\n*NODE\n1, 0, 0, 0\n": TEXT,
    b"MeshVersionFormatted 2\nDimension 3\n": TEXT,
    b"\n" + RING: TEXT, b" $MeshFormat\n4.1 0 8\n": TEXT, b"x" + RING: TEXT, b"solidarity": TEXT, b"x": TEXT, b"Sp\xc3\xbcle\n": TEXT,
    b"x" * 256 + b"\0": TEXT,
    b"$MeshFormat\n4.1 0 8\n": f"It is MSH 4.1: {SAVE}",
    b"$MeshFormat\r\n4 0 8\r\n": f"It is MSH 4: {SAVE}",
    b"$MeshFormat\n4.1 1 8\n": f"It is MSH 4.1: {SAVE}",
    b"$MeshFormat\n2 0 8\n": f"It is MSH 2: {SAVE}",
    b"$MeshFormat\n2.1 0 8\n": f"It is MSH 2.1: {SAVE}",
    b"$MeshFormat\n2.2 1 8\n": f"It is a binary file: {SAVE}",
    b"$MeshFormat\n2.2 0 8\n$ParametricNodes\n": f"It has parametric coordinates: {SAVE} without them",
    RING + b"$Periodic\n": f"It has periodic sides: {SAVE} without them",
    RING.replace(b"\n", b"\r\n") + b"$Periodic\r\n": f"It has periodic sides: {SAVE} without them",
}

# Inputs that look a little like those, of which nothing is said.
QUIET = [b"\x1f", b"x\0", b"\x7f", b"x" * 255 + b"\x1b", b"$MeshFormat", b"$MeshFormat\n", b"$MeshFormat\n4.1 0 8", b"$MeshFormat\n\n",
         b"$MeshFormat \n4.1 0 8\n",
         b"$MeshFormat\n4.1\x1b[2J 0 8\n", b"$MeshFormat\n2.20 0 8\n", b"$MeshFormat\n4.1 2 8\n", b"$MeshFormat\n2.2 2 8\n", b"$NOD",
         b"$MeshFormat\n2.2 0 8\n$Nodes\n$ParametricNodes\n", RING + b"$NodeData\n", RING[:-1], RING.replace(b"\n1 4 2", b"\n1 4 x", 1)]

# Bytes that are shown or not: letters of two to four bytes, control characters in UTF-8, letters that are written too long or cut, surrogates, beyond the
# last character, and characters that turn the direction or are not seen.
ODD = [b"\xc3\xbc", b"\xe4\xb8\xad", b"\xf0\x9f\x98\x80", b"\xf4\x8f\xbf\xbd", b"\xc2\x9b", b"\xc2\x80", b"\xc2\xa0", b"\xc0\x80", b"\xc1\xbf",
       b"\xe0\x80\x9b", b"\xe0\x9f\xbf", b"\xf0\x80\x80\x9b", b"\xf0\x8f\xbf\xbf", b"\xc3", b"\xe4\xb8", b"\xf0\x9f\x98", b"\xed\xa0\x80", b"\xed\x9f\xbf",
       b"\xee\x80\x80", b"\xf4\x90\x80\x80", b"\xf5\x80\x80\x80", b"\xe2\x80\xae", b"\xe2\x80\x8b", b"\xe2\x80\x90", b"\xe2\x81\xa6", b"\xe2\x80\xa8",
       b"\xd8\x9c", b"\xef\xbb\xbf", b"\x7f", b"\x1b[2J", b"\\x1b"]

FIRST_ORDER = "Elements are points, lines, triangles and tetrahedra of first order: mesh without Recombine and Mesh.ElementOrder"
COARSER = "Mesh more coarsely (`gmsh -clscale 30`, or -clmin with a length), or take a part (--region TAG)"
NOT_HOST = "Without --limit host the limit is 256"
SWEEP = "`fildwuk sweep OLD.sheet -o NEW.sheet` writes it without loose nodes"


def is_text(data):
    """Whether an input is text and no mesh."""
    return data != b"" and not is_mesh(data) and all(byte >= 32 and byte != 127 or byte in b"\t\r\n" for byte in data[:256])


def due_help(data, number, limit, parts):
    """The last line of a message, None where there is none. The stored and the damaged inputs are of no other format, but for those that start so."""
    if number == 15:
        return FIRST_ORDER if " is no point (15), " in parts[0] else None
    if number in (2, 16) and limit == "host" and not is_text(data):
        return NOT_HOST
    if number == 16:
        return COARSER
    if number == 18:
        return SWEEP
    if number in (1, 2, 3, 4, 14):
        plain = data.replace(b"\r\n", b"\n")
        other = re.match(rb"\$MeshFormat\n *(2|2\.0|2\.1|3|3\.0|4|4\.0|4\.1) +[01](?: [^\n]*)?\n", plain)
        if other:
            return f"It is MSH {other[1].decode()}: {SAVE}"
        if plain.startswith(b"$MeshFormat\n2.2 0 ") and b"\n$ParametricNodes" in plain and b"\n$Nodes" not in plain:
            return f"It has parametric coordinates: {SAVE} without them"
        if plain.startswith(b"$MeshFormat\n2.2 0 ") and b"$EndElements\n$Periodic" in plain:
            return f"It has periodic sides: {SAVE} without them"
        if re.match(rb"\$MeshFormat\n2\.2 +1[ \n]", plain):
            return f"It is a binary file: {SAVE}"
        return next((said for start, said in STARTS.items() if plain.startswith(start) and said != TEXT), TEXT if is_text(data) else None)
    return None


def agrees(parts, line):
    """Whether a line has the parts due: alone, or with what is wanted between them."""
    if len(parts) == 2:
        return re.fullmatch(re.escape(parts[0]) + r"\(wanted: [^()]+\): " + re.escape(parts[1]), line) is not None
    if parts[0].startswith("The text ends"):
        return re.fullmatch(re.escape(parts[0]) + r"\(wanted: [^()]+\)", line) is not None
    return line == parts[0]


def wrong(name, data, limit, region, ran, as_json):
    """What differs from what is due for a refused input."""
    lines, mesh = ran.lines(), is_mesh(data)
    number = object_of(as_json.output)["refusal"]
    parts = of_text(data, number, LIMITS[limit], region) if mesh else (of_sheet(data, number, LIMITS[limit]),)
    if is_text(data) and number == 2:
        told = object_of(as_json.output)["where"]
        return None if ran.status == REFUSED and lines[1:] == [due_help(data, 2, limit, parts) + "."] and told is None else f"{lines[1:]}, a text"
    if ran.status != REFUSED or not lines[0].startswith(f"fildwuk: standard input is refused with {number}: "):
        return "head"
    if len(lines) < 2 or not lines[1].endswith(".") or not agrees(parts, lines[1][:-1]):
        return f"{lines[1:2]}, due {parts}"
    if object_of(as_json.output)["where"] != lines[1][:-1]:
        return "where in JSON"
    said = due_help(data, number, limit, parts)
    if lines[2:] != ([] if said is None else [said + "."]):
        return f"{lines[2:]}, due {said}"
    return None


def refused_inputs(rng):
    """Inputs by name with a limit, a region and the refusal due; those that are accepted are left out."""
    texts = {name: text for name, (text, _) in mesh_cases.damaged(rng).items()}
    texts.update((f"random {i}", text) for i, (text, _) in enumerate(mesh_texts.random_texts(rng, 600)))
    kept = {line.name: stored(line.name) for line in due_answers()}
    texts.update(kept)
    texts.update(rng.sample(list(damaged(rng, kept)), 300))
    texts.update({**fault_sheets(), **random_sheets(rng, 100), **loose_sheets(), "no bytes": b"", "15 bytes": bytes(15), "zeros": bytes(70000)})
    for name, data in texts.items():
        for limit, most in LIMITS.items():
            number = import_mesh(data, most, longest(most))[0] if is_mesh(data) else refusal(data, most)
            if number:
                yield name, data, limit, (), number


def loose_sheets():
    """Sheets with loose nodes by name: one, as many as are named and one more, at both ends of the numbers, and as many as a limit allows."""
    edge = [(1000, 2000)]
    cases = {f"{count} loose nodes": [*edge, *((3 * v + 1,) for v in range(count))] for count in (1, 2, 20, 21, 46, 254)}
    cases["a loose node between"] = [(1, 3), (2,)]
    cases["loose nodes at both ends"] = [*meshes.projective_plane(), (65535,), (300,)]
    cases["loose nodes and a tetrahedron"] = [(1, 2, 3, 4), (0,), (9,)]
    return {name: from_facets(facets) for name, facets in cases.items()}


def regions(rng):
    """Texts with elements of two tags, faults in one of them, with the region and the refusal due."""
    ring, large = [(1, 2, 3), (1, 2, 4), (1, 3, 4)], [(2 * i, 2 * i + 1, 2 * i + 2) for i in range(140)]
    sound, faulty = [b"2 2 7 0", ring], [b"2 2 8 0", [(1, 2, 9999)]]
    for name, first, second, region, number in (
            ("a fault in the region", sound, faulty, (8,), 15), ("a fault in both", faulty, faulty, (7, 8), 15),
            ("faults in the region and outside", [b"2 2 7 0", [(1, 2, 9998)] * 9], faulty, (8,), 15),
            ("a fault outside", sound, faulty, (7,), 0), ("too many in the region", sound, [b"2 2 8 0", large], (8,), 16),
            ("too many outside", sound, [b"2 2 8 0", large], (7,), 0), ("too many in both", [b"2 2 7 0", large], [b"2 2 8 0", ring], (7, 8), 16)):
        lines = [(tags, cell) for tags, cells in (first, second) for cell in cells]
        rng.shuffle(lines)
        nodes = range(300)
        text = b"$MeshFormat\n2.2 0 8\n$EndMeshFormat\n$Nodes\n%d\n" % len(nodes) + b"".join(b"%d 0 0 0\n" % node for node in nodes)
        text += b"$EndNodes\n$Elements\n%d\n" % len(lines)
        text += b"".join(b"%d %s %s\n" % (i + 1, tags, b" ".join(b"%d" % v for v in cell)) for i, (tags, cell) in enumerate(lines)) + b"$EndElements\n"
        tags = {7 if first[0].startswith(b"2 2 7") else 8, 8}
        yield name, text, "library", tuple(tag for tag in region if tag in tags), number


def check_where(rng, driver):
    """Yields what differs in where a refusal stands and what helps, by name."""
    made = [*refused_inputs(rng), *regions(rng)]
    asked = []
    for _, data, limit, region, _ in made:
        words = ["report", "--limit", limit, *(["--region", *map(str, region)] if region else [])]
        asked += [(words, data), ([*words, "--json"], data)]
    ran = in_process(asked, driver)
    told = Counter(number for *_, number in made)
    for i, (name, data, limit, region, number) in enumerate(made):
        plain, as_json = ran[2 * i:2 * i + 2]
        if number == 0:
            fault = None if plain.status == DONE else "not done"
        else:
            fault = wrong(name, data, limit, region, plain, as_json) if object_of(as_json.output)["refusal"] == number else "another number"
        yield f"{name}, limit {limit}", fault
    for number in (1, 2, 3, 4, 5, 6, 7, 14, 15, 16, 18):
        yield f"{told[number]} refusals with {number}", None if told[number] else "never due"


def check_hints(driver):
    """Yields what differs in what is said of other formats, by the start of the input."""
    inputs = [*STARTS, *QUIET]
    ran = in_process([(["import"], data) for data in inputs] + [(["report"], data) for data in inputs], driver)
    for i, found in enumerate(ran):
        data, command = inputs[i % len(inputs)], "import" if i < len(inputs) else "report"
        said = STARTS.get(data)
        lines = found.lines()
        right = found.status == REFUSED and (said + "." in lines if said else not any(line.startswith(("It is ", "It starts ")) for line in lines))
        yield f"{command} of {data[:20]!r} of {len(data)} bytes", None if right else lines


def check_regions(driver):
    """Yields what differs in what is said of tags, by name."""
    cases = {
        "a tag that is missing": (["report", "--region", "7", "17"], GROUPS, FAILED,
                                  'fildwuk: no element has the physical tag 17; the tags are 1 "wall", 7 "air, outside", 8 "coil $Nodes", 9 "all"'),
        "odd names": (["report", "--region", "17"], GROUPS.replace(b'7 "air', b"7 air").replace(b'8 "coil $Nodes"', b'8  "coil"  ').replace(
            b'9 "all"', b'9 "'), FAILED, 'fildwuk: no element has the physical tag 17; the tags are 1 "wall", 7, 8 "coil", 9'),
        "no tags": (["import", "--region", "1"], RING.replace(b"4 2 1", b"4 2 x"), FAILED, "fildwuk: no element has the physical tag 1"),
        "a text that is not of the form": (["import", "--region", "99"], GROUPS[:-2], REFUSED, None),
        "a word that is no tag": (["report", "-", "--region", "air"], GROUPS, FAILED, 'fildwuk: physical tags are wanted after --region, numbers, not air; '
                                  'the tags are 1 "wall", 7 "air, outside", 8 "coil $Nodes", 9 "all"'),
        "a word that is no tag, judged": (["judge", "-", "--region", "air", "--json"], GROUPS, FAILED, 'fildwuk: physical tags are wanted after --region, '
                                          'numbers, not air; the tags are 1 "wall", 7 "air, outside", 8 "coil $Nodes", 9 "all"'),
        "a word that is no tag of a faulty text": (["import", "-", "--region", "\x1b"], GROUPS[:-2], FAILED,
                                                   "fildwuk: physical tags are wanted after --region, numbers, not \\x1b"),
        "a sheet and a word": (["report", "-", "--region", "air"], bytes(16), FAILED,
                               "fildwuk: --region is for a mesh, and the input is a sheet, which has no tags"),
        "a sheet": (["report", "--region", "1"], bytes(16), FAILED, "fildwuk: --region is for a mesh, and the input is a sheet, which has no tags"),
    }
    ran = in_process([(words, data) for words, data, _, _ in cases.values()], driver)
    for (name, (_, _, status, said)), found in zip(cases.items(), ran):
        right = " is refused with 14: " in found.lines()[0] if said is None else found.lines() == [said]
        yield name, None if found.status == status and right and found.output == b"" else found


def check_escapes(rng, driver):
    """Yields what differs in how odd bytes of a line are shown: control characters, what is no UTF-8, and long lines."""
    lines = [bytes([byte]) for byte in range(256) if byte not in b"\n\r"] + ODD
    lines += [b"".join(rng.choice([b"a", *ODD]) for _ in range(rng.randint(1, 40))) for _ in range(300)]
    ran = in_process([(["import"], b"$MeshFormat\n" + line + b"\n") for line in lines], driver)
    for line, found in zip(lines, ran):
        due = f"Line 2 is not of the form (wanted: 2.2 0 and a number): {quoted(line)}."
        yield f"the line {line!r}", None if found.lines()[1:2] == [due] else found.lines()


def check_too_wide(driver):
    """Yields what differs in what is said of 13, in words and in the other forms, by name."""
    head = "fildwuk: standard input, dimension 1, is refused with 13: the reduction makes an entry beyond 1048575."
    advice = "Parts that do not touch, asked for apart, or another numbering of the nodes may stay within it."
    forms = {"words": [], "plain": ["--plain"], "JSON": ["--json"]}
    ran = in_process([(["report", "--dimension", "1", *words], TOO_WIDE) for words in forms.values()], driver)
    for name, found in zip(forms, ran):
        yield f"13 in {name}", None if found.status == REFUSED and found.lines() == [head, advice] else found
    (all_dimensions,) = in_process([(["report", "--plain"], TOO_WIDE)], driver)
    starts = [line[:4] for line in all_dimensions.output.decode().splitlines() if not line.startswith("G")]
    yield "13 in some dimensions", None if all_dimensions.status == REFUSED and starts == ["H 0 ", "R 13", "R 13", "H 3 "] else all_dimensions
    mesh = text_of(meshes.tower(20)).encode()
    (of_mesh,) = in_process([(["report", "--dimension", "1"], mesh)], driver)
    yield "13 of a mesh", None if of_mesh.lines() == [head, advice.replace("apart,", "apart (--region TAG),")] else of_mesh
    yield "13 told in words", None if ran[0].output.endswith(b".\nDimension 1: refused with 13.\n") else ran[0].output
    yield "13 told in JSON", None if object_of(ran[2].output)["dimensions"] == [{"dimension": 1, "refusal": 13}] else ran[2].output


def main():
    """Exits with 1 where something differs."""
    parser = argparse.ArgumentParser(description=__doc__, formatter_class=argparse.RawDescriptionHelpFormatter)
    parser.add_argument("--driver", type=Path, default=DRIVER, metavar="FILE", help="the built driver (target/host/command_driver)")
    options = parser.parse_args()
    found = [*check_where(random.Random(12), options.driver), *check_hints(options.driver), *check_regions(options.driver),
             *check_too_wide(options.driver), *check_escapes(random.Random(13), options.driver)]
    faults = [(name, fault) for name, fault in found if fault is not None]
    for name, fault in faults[:40]:
        print(f"not as due: {name}: {fault}")
    print(f"{len(found)} cases, {len(faults)} differ")
    raise SystemExit(1 if faults else 0)


if __name__ == "__main__":
    main()
