#!/usr/bin/env python3
"""Compares the built program with the model where its input comes in pieces and its output is taken in pieces.

A piece of input is written only when the program has taken the one before: a program that reads once sees the first
piece alone. The output goes to a pipe of one page. Whenever the pipe is full the program is stopped and continued,
which ends its write after what the pipe took: a program that writes once loses the rest.
"""

import argparse
import fcntl
import os
import random
import signal
import struct
import subprocess
import tempfile
import termios
import time
from collections import Counter
from pathlib import Path

from model import meshes, sheet_cases
from model.calls import program_output
from model.sheet import LOOSE_NODE, PROGRAM_COUNT_LIMIT, from_facets, longest, refusal

PROGRAM = Path("target/bin/homology")
PIPE_BYTES = 4096
INPUT_ROOM = longest(PROGRAM_COUNT_LIMIT) + 1
SECONDS = 60


def waiting(pipe):
    """The bytes in a pipe that nobody has taken."""
    return struct.unpack("i", fcntl.ioctl(pipe, termios.FIONREAD, bytes(4)))[0]


def wait_until(met):
    """Waits until the condition is met."""
    end = time.monotonic() + SECONDS
    while not met():
        if time.monotonic() > end:
            raise SystemExit("the program neither goes on nor ends")
        time.sleep(0.0002)


def feed(process, pipe, pieces, pause):
    """Writes the pieces, each when the one before is taken, some after a pause, until the program ends."""
    for i, piece in enumerate(pieces):
        try:
            os.write(pipe, piece)
        except BrokenPipeError:
            return
        wait_until(lambda: waiting(pipe) == 0 or process.poll() is not None)
        if i % 16 == 0:
            time.sleep(pause)


def fed(program, pieces, pause):
    """The status and the output of the program on input in pieces."""
    source, pipe = os.pipe()
    with tempfile.TemporaryFile() as output:
        process = subprocess.Popen([program], stdin=source, stdout=output)
        os.close(source)
        feed(process, pipe, pieces, pause)
        os.close(pipe)
        status = process.wait(SECONDS)
        output.seek(0)
        return status, output.read()


def interrupt(process):
    """Stops the program, which ends a write that waits, and continues it."""
    os.kill(process.pid, signal.SIGSTOP)
    state = Path(f"/proc/{process.pid}/stat")
    wait_until(lambda: state.read_text().rsplit(")", 1)[1].split()[0] in "TZ")
    os.kill(process.pid, signal.SIGCONT)


def taken(rng, program, data):
    """The status, the output and the pieces in which it was taken from a pipe of one page."""
    pipe, sink = os.pipe()
    room = fcntl.fcntl(sink, fcntl.F_SETPIPE_SZ, PIPE_BYTES)
    with tempfile.TemporaryFile() as source:
        source.write(data)
        source.seek(0)
        process = subprocess.Popen([program], stdin=source, stdout=sink)
    os.close(sink)
    pieces = []
    while True:
        wait_until(lambda: waiting(pipe) == room or process.poll() is not None)
        if process.poll() is None:
            interrupt(process)
        left = waiting(pipe)
        if not left:
            break
        while left:
            pieces.append(os.read(pipe, rng.randint(1, 1500)))
            left -= len(pieces[-1])
    os.close(pipe)
    return process.wait(SECONDS), b"".join(pieces), len(pieces)


def cut(data, size):
    """The bytes in pieces of a size."""
    return [data[i:i + size] for i in range(0, len(data), size)]


def ways(data):
    """The ways to cut an input: single bytes, a few at a time, and in two, with a pause after some pieces."""
    yield cut(data, 1), 0.0005
    yield cut(data, 7), 0.002
    for at in (1, 15, 16, len(data) // 2, len(data) - 1):
        yield [piece for piece in (data[:at], data[at:]) if piece], 0.01


def inputs():
    """Sheets by name: accepted ones, one for each refusal, and input at and beyond what the program reads."""
    full = sheet_cases.full(PROGRAM_COUNT_LIMIT)
    named = {name: from_facets(facets) for name, facets in meshes.sized().items()}
    named.update({"hollow triangle": from_facets(meshes.hollow_triangle()), "48 cells of each dimension": full,
                  "48 vertices": sheet_cases.full_in(0, PROGRAM_COUNT_LIMIT)})
    named.update({f"48 cells of each dimension and {n} bytes": full + bytes(n) for n in (1, 2, 5000)})
    first = {}
    for name, (data, number) in sheet_cases.damaged(PROGRAM_COUNT_LIMIT).items():
        if len(data) > 1:
            first.setdefault(number, (name, data))
    return {**named, **dict(first.values())}


def differs(name, found, due):
    """Whether the status or the output is not the due one, which is then said."""
    status, output = found
    if status == 0 and output == due:
        return False
    print(f"{name}: status {status}, {len(output)} bytes {output[:60]!r}, due {len(due)} bytes {due[:60]!r}")
    return True


def main():
    """Exits with 1 where an output differs."""
    parser = argparse.ArgumentParser(description=__doc__, formatter_class=argparse.RawDescriptionHelpFormatter)
    parser.add_argument("--program", type=Path, default=PROGRAM, metavar="FILE", help="the built program (target/bin/homology)")
    options = parser.parse_args()
    rng = random.Random(2)
    seen, wrong = Counter(), 0
    for name, data in inputs().items():
        due = program_output(data).encode("ascii")
        for pieces, pause in ways(data):
            wrong += differs(f"{name}, in {len(pieces)} pieces", fed(options.program, pieces, pause), due)
            seen["inputs"] += 1
        status, output, pieces = taken(rng, options.program, data)
        wrong += differs(f"{name}, output in {pieces} pieces", (status, output), due)
        seen["longer than the program reads"] += len(data) > INPUT_ROOM
        seen["output longer than the pipe"] += len(due) > PIPE_BYTES
        seen[f"refusal {refusal(data, PROGRAM_COUNT_LIMIT)}"] += 1
    print(", ".join(f"{name}: {seen[name]}" for name in sorted(seen)) + f"; {wrong} differ")
    kinds = [f"refusal {n}" for n in (*range(8), LOOSE_NODE)] + ["longer than the program reads", "output longer than the pipe"]
    raise SystemExit(1 if wrong or not all(seen[kind] for kind in kinds) else 0)


if __name__ == "__main__":
    main()
