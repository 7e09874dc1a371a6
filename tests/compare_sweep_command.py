#!/usr/bin/env python3
"""Holds `fildwuk sweep` to the model: on sheets with loose nodes and without, on damaged ones and on texts, at both limits, as bytes, in words and as JSON,
in process. As a process: files, pipes, terminals, full disks, and outputs that are the input. Built with sanitizers."""

import argparse
import os
import random
import signal
import tempfile
from collections import Counter
from pathlib import Path

from check_command import OLD, Command, broken_pipe, failed, in_pieces, limited_file, misused, on_terminal
from command.dropped import said_of_dropped
from command.runs import COMMAND, DONE, DRIVER, FAILED, REFUSED, Ran, in_process
from command.told import object_of
from command.where import of_sheet
from make_sheets import fault_sheets, known_sheets, random_sheets
from model.sheet import LIBRARY_COUNT_LIMIT, PROGRAM_COUNT_LIMIT, Refused, layout, longest, loose_vertices, read_cells
from model.sweep import sweep

PROGRAM = Path("target/bin/homology").resolve()
RING = Path("examples/copper_ring.msh").resolve()
QUARTER = Path("examples/old_quarter_ring.sheet").resolve()
AIR = Path("examples/air_ring.sheet").read_bytes()
LIMITS = {"library": LIBRARY_COUNT_LIMIT, "host": PROGRAM_COUNT_LIMIT}
IS_MESH = "It is a mesh: `fildwuk import FILE.msh -o FILE.sheet` writes its sheet, which has no loose nodes."
NAMES = ["fildwuk", "limit", "region", "refusal", "counts", "dropped", "length"]


def with_loose(data, *nodes):
    """A sheet with these vertices added."""
    vertices, *others = read_cells(data, LIBRARY_COUNT_LIMIT).sections
    return layout([sorted([*vertices, *((node,) for node in nodes)]), *others])


# The air round a ring with loose nodes at both ends, and without: longer than a full disk takes in these tests.
LOOSE = with_loose(AIR, 500, 65535)


class Case:
    """A sheet, or what is no sheet, under a limit, and what is due: the answer, the sheet that is written, and the nodes that are dropped."""

    def __init__(self, name, data, limit):
        self.name, self.data, self.limit, self.sheet, self.dropped = name, data, limit, b"", []
        try:
            self.sheet, self.number = sweep(data, LIMITS[limit], longest(LIMITS[limit])), 0
            self.dropped = [node for (node,) in loose_vertices(read_cells(data, LIMITS[limit]).sections)]
        except Refused as refused:
            self.number = refused.number

    def requests(self, file):
        """The runs to standard output, to a file, and to a file with an object."""
        words = ["sweep", "-", "--limit", self.limit]
        return [(words, self.data), ([*words, "-o", f"{file}.words"], self.data), ([*words, "-o", f"{file}.json", "--json"], self.data)]

    def wrong(self, file, runs):
        """What differs from what is due."""
        files = [Path(f"{file}.words"), Path(f"{file}.json")]
        return self.wrong_refusal(files, *runs) if self.number else self.wrong_sheet(files, *runs)

    def wrong_refusal(self, files, bytes_run, words, as_json):
        """The same of a sheet that is refused."""
        found = object_of(as_json.output)
        if {ran.status for ran in (bytes_run, words, as_json)} != {REFUSED} or bytes_run.output + words.output or any(file.exists() for file in files):
            yield "status of a refusal, or something written"
        if bytes_run.errors != words.errors or not bytes_run.lines()[0].startswith(f"fildwuk: standard input is refused with {self.number}: "):
            yield "message of a refusal"
        if (found["refusal"], found["limit"]) != (self.number, LIMITS[self.limit]):
            yield "object of a refusal"
        if self.data.startswith(b"$MeshFormat"):
            if bytes_run.lines()[1:] != [IS_MESH] or found["where"] is not None:
                yield "what is said of a mesh"
        elif bytes_run.lines()[1] != of_sheet(self.data, self.number, LIMITS[self.limit]) + "." or found["where"] + "." != bytes_run.lines()[1]:
            yield "where"

    def wrong_sheet(self, files, bytes_run, words, as_json):
        """The same of a sheet that is swept."""
        found, said = object_of(as_json.output), f"standard input: {said_of_dropped(self.dropped)}.\n"
        if {ran.status for ran in (bytes_run, words, as_json)} != {DONE}:
            yield "status"
        if bytes_run.output != self.sheet or any(file.read_bytes() != self.sheet for file in files):
            yield "the sheet"
        if bytes_run.errors.decode() != (f"fildwuk: {said}" if self.dropped else "") or words.errors + as_json.errors:
            yield "messages"
        if words.output.decode() != said:
            yield "words"
        counts = [int.from_bytes(self.sheet[at:at + 2], "little") for at in (0, 4, 8, 12)]
        if list(found) != NAMES or list(found.values())[1:] != [LIMITS[self.limit], [], 0, counts, self.dropped, len(self.sheet)]:
            yield "the object"


def inputs(rng):
    """The inputs by name."""
    found = {**known_sheets(), **random_sheets(rng, 100), "no bytes": b"", "zeros": bytes(70000), "a mesh": RING.read_bytes(), "LOOSE": LOOSE, "AIR": AIR}
    found.update((name, data) for i, (name, data) in enumerate(fault_sheets().items()) if i % 5 == 0 or "loose" in name)
    found["a sheet that starts as a mesh"] = b"$\1" + bytes(30)
    return found


def compare_model(driver, folder):
    """Yields what differs from the model, by name."""
    made = [Case(name, data, limit) for name, data in inputs(random.Random(17)).items() for limit in LIMITS]
    ran = in_process([request for i, case in enumerate(made) for request in case.requests(folder / str(i))], driver)
    for i, case in enumerate(made):
        yield f"{case.name}, limit {case.limit}", not list(case.wrong(folder / str(i), ran[3 * i:3 * i + 3]))
    met = Counter(case.number for case in made)
    met["with nodes dropped"] = sum(bool(case.dropped) for case in made)
    met["with an edge and no node dropped"] = sum(not case.number and case.sheet == case.data and case.data[4:6] != b"\0\0" for case in made)
    for kind in (*range(8), "with nodes dropped", "with an edge and no node dropped"):
        yield f"{met[kind]} cases of {kind}", met[kind] > 0


def dropped(ran, sheet, nodes, name="standard input"):
    """Whether a run wrote this sheet to standard output and named these nodes in its messages."""
    return ran == Ran(DONE, sheet, f"fildwuk: {name}: {said_of_dropped(nodes)}.\n".encode())


def stream_facts(command):
    """What must hold of streams, by name."""
    command.file(LOOSE, "old.sheet")
    yield "a file to standard output", dropped(command.run("sweep", "old.sheet"), AIR, [500, 65535], "old.sheet")
    yield "standard input", dropped(command.run("sweep", input=LOOSE), AIR, [500, 65535])
    yield "both by dashes", dropped(command.run("sweep", "-", "-o", "-", input=LOOSE), AIR, [500, 65535])
    yield "in pieces", dropped(in_pieces(command, LOOSE, "sweep"), AIR, [500, 65535])
    yield "nothing to drop", command.run("sweep", input=AIR) == Ran(DONE, AIR, b"")
    ran = command.run("sweep", "old.sheet", "-o", "new.sheet")
    yield "a file to a file", ran == Ran(DONE, b"old.sheet: 2 nodes in no edge are dropped: 500, 65535.\n", b"")
    yield "the sheet in the file", (command.folder / "new.sheet").read_bytes() == AIR
    yield "through a pipe to the program", command.shell(f'"$0" sweep {QUARTER} 2>/dev/null | {PROGRAM}').output.startswith(b"H 0 1 0\nG 0 0 0 0 0 1\nH 1 ")
    yield "through a pipe to report", b"\nDimension 0: 1 free component.\n" in command.shell(f'"$0" sweep {QUARTER} 2>/dev/null | "$0"').output
    yield "endless input", b" is refused with 3: " in command.shell('"$0" sweep </dev/zero').errors
    yield "closed input", failed(command.shell('"$0" sweep <&-'), b"cannot read standard input: Bad file descriptor")
    yield "missing file", failed(command.run("sweep", "none.sheet", "-o", "x.sheet"), b"cannot read none.sheet: No such file")
    for place in ("/dev/full", "&-"):
        yield f"output {place}", failed(command.shell(f'"$0" sweep {command.file(AIR, "air.sheet")} >{place}'), b"cannot write standard output: ")
    status, said = on_terminal(command, "sweep", str(QUARTER))
    yield "no sheet for a terminal", status == FAILED and said.startswith(b"fildwuk: a sheet is no text for a terminal: ") and b"\0" not in said
    status, said = on_terminal(command, "sweep", "-o", "/dev/null", typed=b"no sheet at all\n")
    yield "waits for a sheet", status == REFUSED and b"fildwuk: waiting for a sheet on the terminal" in said and b"is refused with 2" in said


def file_facts(command):
    """What must hold of files, by name."""
    old, kept = command.file(LOOSE, "old.sheet"), command.file(OLD, "kept.sheet")
    os.link(old, command.folder / "hard.sheet")
    (command.folder / "soft.sheet").symlink_to("old.sheet")
    before = command.names()
    for name in ("old.sheet", "./old.sheet", "hard.sheet", "soft.sheet"):
        yield f"output {name}", failed(command.run("sweep", "old.sheet", "-o", name), b"cannot write %s: it is the input" % name.encode())
        yield f"output {name} from standard input", failed(command.shell(f'"$0" sweep -o {name} <old.sheet'), b": it is the input\n")
    for name in ("kept.sheet", "new.sheet"):
        ran = command.run("sweep", "old.sheet", "-o", name, preexec_fn=limited_file)
        yield f"full disk, {name}", failed(ran, b"cannot write %s: File too large" % name.encode())
        ran = command.run("sweep", "old.sheet", "-o", name, "--json", preexec_fn=limited_file)
        yield f"full disk, {name}, as an object", failed(ran, b"cannot write %s: File too large" % name.encode())
        refused = command.run("sweep", command.file(LOOSE[:-1], "cut.sheet"), "-o", name)
        yield f"refused, {name}", refused.status == REFUSED and b" is refused with 4: " in refused.errors and refused.output == b""
        (command.folder / "cut.sheet").unlink()
    yield "full device", failed(command.run("sweep", "old.sheet", "-o", "/dev/full"), b"cannot write /dev/full: No space left")
    yield "missing folder", failed(command.run("sweep", "old.sheet", "-o", "none/a.sheet"), b"cannot write none/a.sheet: No such file")
    yield "a folder", failed(command.run("sweep", "old.sheet", "-o", "."), b"cannot write .: Is a directory")
    for words in (["--json"], ["--json", "-o", "-"]):
        yield f"an object beside the sheet, {words}", misused(command.run("sweep", "old.sheet", *words), b"standard output has the sheet: ")
    yield "all files are as they were", old.read_bytes() == LOOSE and kept.read_bytes() == OLD and command.names() == before
    yield "pipe that nobody reads", broken_pipe(command, "sweep", command.file(AIR, "air.sheet"))
    ran = command.shell(f'"$0" sweep {QUARTER} | true; exit "${{PIPESTATUS[0]}}"')
    yield "pipe that nobody reads, by its signal", ran.status in (0, 128 + signal.SIGPIPE)


def main():
    """Exits with 1 where something differs."""
    parser = argparse.ArgumentParser(description=__doc__, formatter_class=argparse.RawDescriptionHelpFormatter)
    parser.add_argument("--driver", type=Path, default=DRIVER, metavar="FILE", help="the built driver (target/host/command_driver)")
    parser.add_argument("--command", type=Path, default=COMMAND, metavar="FILE", help="the command built with sanitizers (target/host/fildwuk)")
    options = parser.parse_args()
    found = {}
    with tempfile.TemporaryDirectory() as folder:
        found.update(compare_model(options.driver, Path(folder)))
    for facts in (stream_facts, file_facts):
        with tempfile.TemporaryDirectory() as folder:
            found.update(facts(Command(options.command.resolve(), folder)))
    for name, holds in found.items():
        if not holds:
            print(f"not as due: {name}")
    print(f"{len(found)} cases, {list(found.values()).count(False)} differ")
    raise SystemExit(0 if all(found.values()) else 1)


if __name__ == "__main__":
    main()
