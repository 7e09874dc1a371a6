#!/usr/bin/env python3
"""Checks, by the model, the example sheets, the output of crate homology and the outputs that the documents show."""

import sys
from pathlib import Path

from model import meshes
from model.calls import program_output
from model.mesh import facets_of, import_mesh
from model.sheet import PROGRAM_COUNT_LIMIT, from_facets, refusal
from model.sweep import sweep

ROOT = Path(__file__).resolve().parent.parent
sys.dont_write_bytecode = True
sys.path.insert(0, str(ROOT / "examples"))
import write_msh  # noqa: E402  (the path is set above)
from sheet_tool import read_facets  # noqa: E402


def shown(document, text):
    """Whether a document has the text as an indented block."""
    return "".join(f"    {line}\n" for line in text.splitlines()) in (ROOT / document).read_text(encoding="utf-8")


def facts():
    """What must hold, by name."""
    for name in ("air_ring", "twisted_sector"):
        facets = read_facets((ROOT / f"examples/{name}.txt").read_text(encoding="utf-8"))
        yield f"examples/{name}.sheet holds the facets of {name}.txt", (ROOT / f"examples/{name}.sheet").read_bytes() == from_facets(facets)
    homology = ROOT / "crates/homology"
    yield "crates/homology/stdout", (homology / "stdout").read_text(encoding="ascii") == program_output((homology / "stdin").read_bytes())
    number, sheet = import_mesh((ROOT / "examples/copper_ring.msh").read_bytes(), PROGRAM_COUNT_LIMIT, 976)
    yield "README.md, the copper ring", number == 0 and shown("README.md", program_output(sheet))
    air = program_output((ROOT / "examples/air_ring.sheet").read_bytes())
    yield "README.md, the air round a ring", "\nH 1 1 0\n" in air and "\nH 2 1 0\n" in air
    yield "README.md, the twisted sector", "\nH 1 1 1 2\n" in program_output((ROOT / "examples/twisted_sector.sheet").read_bytes())
    yield "docs/FORMAT.md, the hollow triangle", shown("docs/FORMAT.md", program_output(from_facets(meshes.hollow_triangle())))
    text, old = (ROOT / "examples/quarter_ring.msh").read_bytes(), (ROOT / "examples/old_quarter_ring.sheet").read_bytes()
    yield "examples/old_quarter_ring.sheet", old == from_facets(facets_of(text)) and refusal(old, PROGRAM_COUNT_LIMIT) == 18
    yield "examples/quarter_ring.msh", import_mesh(text, PROGRAM_COUNT_LIMIT, 976) == (0, sweep(old, PROGRAM_COUNT_LIMIT, 976))
    plane = write_msh.text(meshes.projective_plane())
    yield "examples/projective_plane.msh", (ROOT / "examples/projective_plane.msh").read_text(encoding="ascii") == plane
    yield "docs/GMSH.md, the projective plane", shown("docs/GMSH.md", program_output(from_facets(meshes.projective_plane())))


def main():
    """Exits with 1 where a fact fails."""
    found = dict(facts())
    for name, holds in found.items():
        if not holds:
            print(f"not what the model gives: {name}")
    print(f"{len(found)} stored examples, {list(found.values()).count(False)} differ")
    raise SystemExit(0 if all(found.values()) else 1)


if __name__ == "__main__":
    main()
