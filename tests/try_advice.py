#!/usr/bin/env python3
"""Follows the advice that fildwuk gives in its messages: what a refused input was told is run, with Gmsh, the unpackers and the command itself, and
the mesh or sheet that comes of it is accepted. Advice that was found not to help stays without help."""

import argparse
import bz2
import gzip
import lzma
import re
import subprocess
import tempfile
import zipfile
from pathlib import Path

from command.runs import COMMAND

MESHES = Path("tests/meshes").resolve()
RING = Path("examples/copper_ring.msh").read_bytes()
FINE_BOX = b'SetFactory("OpenCASCADE");\nBox(1) = {0, 0, 0, 1, 1, 1};\n'
PLATE = (MESHES / "plate.geo").read_bytes()
LOOSE = Path("examples/old_quarter_ring.sheet").read_bytes()
COARSE = ["-clscale", "30"]


class Room:
    """A folder to follow advice in."""

    def __init__(self, command, folder):
        self.command, self.folder = command, Path(folder)

    def file(self, data, name="FILE"):
        """The name of a file with these bytes."""
        (self.folder / name).write_bytes(data)
        return name

    def run(self, *words):
        """A run of the command: its status and its messages."""
        ran = subprocess.run([self.command, *words], cwd=self.folder, capture_output=True, text=True, check=False)
        return ran.returncode, ran.stderr

    def shell(self, line):
        """A line of the shell."""
        subprocess.run(["bash", "-c", line], cwd=self.folder, capture_output=True, timeout=60, check=True)

    def gmsh(self, geometry, *words, name="NEW.msh"):
        """The mesh that Gmsh makes of a geometry."""
        self.file(geometry, "of.geo")
        self.shell(f"gmsh of.geo {' '.join(words)} -o {name}")
        return (self.folder / name).read_bytes()

    def advised(self, data, name="FILE"):
        """What stands between quotes in the advice on an input that import refuses."""
        (self.folder / "NEW.msh").unlink(missing_ok=True)
        status, said = self.run("import", self.file(data, name), "-o", "/dev/null")
        found = re.search(r"^It .*`(.*)`", said, re.MULTILINE)
        return found[1] if status == 1 and found else None

    def accepted(self):
        """Whether import takes NEW.msh."""
        return self.run("import", "NEW.msh", "-o", "/dev/null")[0] == 0


def saves(room, data, name="FILE.msh"):
    """Whether what is advised on a file of this name, a line with FILE and NEW.msh, makes a mesh that is taken. Gmsh goes by the name's ending."""
    line = room.advised(data, name)
    if line is None or "FILE" not in line or "NEW.msh" not in line:
        return False
    room.shell(line.replace("FILE", name))
    return room.accepted()


def filters(room, data):
    """Whether what is advised on an input makes of it a mesh that is taken: as a filter, in place, or by a file that it unpacks."""
    line = room.advised(data)
    if line is None:
        return False
    if line.startswith("sed"):
        room.shell(f"LC_ALL=C {line} FILE && mv FILE NEW.msh")
    elif line == "unzip":
        room.shell("unzip FILE")
    else:
        room.shell(f"{line} <FILE >NEW.msh")
    return room.accepted()


def zipped(room):
    """The ring in an archive, as NEW.msh."""
    with zipfile.ZipFile(room.folder / "ring.zip", "w") as archive:
        archive.writestr("NEW.msh", RING)
    return (room.folder / "ring.zip").read_bytes()


def format_facts(room):
    """Whether the advice on other formats helps, by name."""
    for name in ("plate_format_4.1", "plate_format_1", "plate_binary", "plate_parametric", "periodic"):
        yield name, saves(room, (MESHES / f"{name}.msh").read_bytes())
    for form in ("stl", "vtk", "unv", "msh41", "msh40", "msh2 -bin"):
        yield f"a plate as {form}", saves(room, room.gmsh(PLATE, "-2", "-format", form, name="other"), f"FILE.{form[:3]}")
    yield "a script", saves(room, FINE_BOX + b"Mesh.CharacteristicLengthFactor = 30;\n", "FILE.geo")
    yield "gzip", filters(room, gzip.compress(RING))
    yield "bzip2", filters(room, bz2.compress(RING))
    yield "xz", filters(room, lzma.compress(RING))
    yield "zip", filters(room, zipped(room))
    yield "a byte order mark", filters(room, b"\xef\xbb\xbf" + RING)
    yield "UTF-16, low byte first", filters(room, b"\xff\xfe" + RING.decode("ascii").encode("utf-16-le"))
    yield "UTF-16, high byte first", filters(room, b"\xfe\xff" + RING.decode("ascii").encode("utf-16-be"))


def answer(room, data):
    """The refusal of a mesh, 0 where it is taken, and the messages."""
    status, said = room.run("import", room.file(data), "-o", "/dev/null")
    found = re.search(r" is refused with (\d+): ", said)
    return (int(found[1]) if status == 1 else 0 if status == 0 else None), said


def coarser_facts(room):
    """Whether the advice on 16 helps, by name, and what does not help is not advised."""
    number, said = answer(room, room.gmsh(FINE_BOX, "-3", "-format", "msh22"))
    yield "a fine box is refused with 16", number == 16 and "(`gmsh -clscale 30`, or -clmin with a length)" in said and "clmax" not in said
    yield "-clscale 30", answer(room, room.gmsh(FINE_BOX, "-3", "-format", "msh22", *COARSE))[0] == 0
    yield "-clmin with a length", answer(room, room.gmsh(FINE_BOX, "-3", "-format", "msh22", "-clmin", "5"))[0] == 0
    yield "-clmax does not help", answer(room, room.gmsh(FINE_BOX, "-3", "-format", "msh22", "-clmax", "5"))[0] == 16
    ring = (MESHES / "ring_in_air.msh").read_bytes()
    number, said = answer(room, ring)
    yield "a part", number == 16 and "(--region TAG)" in said and room.run("import", room.file(ring), "--region", "2", "-o", "/dev/null")[0] == 0


def element_facts(room):
    """Whether the advice on 15 helps, by name."""
    for name, line in (("Mesh.ElementOrder", b"Mesh.ElementOrder = 2;\n"), ("Recombine", b"Recombine Surface{:};\n")):
        number, said = answer(room, room.gmsh(FINE_BOX + line, "-2", "-format", "msh22", *COARSE))
        yield f"with {name}", number == 15 and name in said
        yield f"without {name}", answer(room, room.gmsh(FINE_BOX, "-2", "-format", "msh22", *COARSE))[0] == 0


def sheet_facts(room):
    """Whether the advice on a sheet with loose nodes, and on a mesh that is to be swept, helps, by name."""
    for name, words, data, made in (("18", ["report", "OLD.sheet"], LOOSE, "NEW.sheet"), ("a mesh that is to be swept", ["sweep", "FILE.msh"], RING, "FILE.sheet")):
        status, said = room.run(*words[:1], room.file(data, words[1]))
        line = re.search(r"`fildwuk (.*)`", said)
        yield f"{name} is refused with advice", status == 1 and line is not None and not (room.folder / made).exists()
        room.shell(f"{room.command} {line[1]}")
        yield f"the advice on {name}", room.run("report", made)[0] == 0


def main():
    """Exits with 1 where advice does not help."""
    parser = argparse.ArgumentParser(description=__doc__, formatter_class=argparse.RawDescriptionHelpFormatter)
    parser.add_argument("--command", type=Path, default=COMMAND, metavar="FILE", help="the command built with sanitizers (target/host/fildwuk)")
    options = parser.parse_args()
    with tempfile.TemporaryDirectory() as folder:
        room = Room(options.command.resolve(), folder)
        found = dict([*format_facts(room), *coarser_facts(room), *element_facts(room), *sheet_facts(room)])
    for name, helps in found.items():
        if not helps:
            print(f"not as due: {name}")
    print(f"{len(found)} cases, {list(found.values()).count(False)} differ")
    raise SystemExit(0 if all(found.values()) else 1)


if __name__ == "__main__":
    main()
