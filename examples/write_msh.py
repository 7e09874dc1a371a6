#!/usr/bin/env python3
"""Writes a closed surface of a few triangles as a MSH 2.2 file, for Gmsh. The nodes' places carry no meaning."""

import argparse
import sys
from pathlib import Path

sys.path.insert(0, str(Path(__file__).resolve().parent.parent / "tests"))
from model import meshes  # noqa: E402


def text(triangles):
    """The MSH file of the triangles, all in physical group 1."""
    vertices = sorted({v for triangle in triangles for v in triangle})
    place = {v: i + 1 for i, v in enumerate(vertices)}
    nodes = [f"{place[v]} {place[v] % 3} {place[v] // 3} {place[v] * place[v]}" for v in vertices]
    elements = [f"{i + 1} 2 2 1 1 {' '.join(str(place[v]) for v in triangle)}" for i, triangle in enumerate(triangles)]
    parts = ["$MeshFormat", "2.2 0 8", "$EndMeshFormat", "$Nodes", len(nodes), *nodes, "$EndNodes", "$Elements", len(elements), *elements, "$EndElements"]
    return "".join(f"{part}\n" for part in parts)


SURFACES = {"projective_plane": meshes.projective_plane, "klein_bottle": meshes.klein_bottle}


def main():
    """Writes the six-vertex projective plane to FILE, or another surface."""
    parser = argparse.ArgumentParser(description=__doc__)
    parser.add_argument("file", metavar="FILE", type=Path)
    parser.add_argument("surface", metavar="SURFACE", nargs="?", choices=SURFACES, default="projective_plane", help=", ".join(SURFACES))
    options = parser.parse_args()
    options.file.write_text(text(SURFACES[options.surface]()), encoding="ascii")


if __name__ == "__main__":
    main()
