#!/usr/bin/env python3
"""Holds the built program to docs/FORMAT.md, "Input and output of the program": input in pieces, without end or unreadable, output unwritable."""

import argparse
import os
import subprocess
import time
from pathlib import Path

PROGRAM = Path("target/bin/homology")
SHEET = Path("examples/air_ring.sheet")
NO_INPUT = b"homology: cannot read standard input\n"
NO_OUTPUT = b"homology: cannot write standard output\n"


def through_shell(program, redirections, ignored=""):
    """Status, standard output and standard error of the program under the shell's redirections."""
    run = subprocess.run(["sh", "-c", f"{ignored}exec {program} {redirections}"], capture_output=True, check=False)
    return run.returncode, run.stdout, run.stderr


def from_pipe(program, pieces, blocking, close):
    """The same, with the pieces in a pipe, which is closed first where `close` says so."""
    reading, writing = os.pipe()
    os.set_blocking(reading, blocking)
    for piece in pieces:
        os.write(writing, piece)
    if close:
        os.close(writing)
    run = subprocess.run([program], stdin=reading, capture_output=True, check=False)
    os.close(reading)
    if not close:
        os.close(writing)
    return run.returncode, run.stdout, run.stderr


def in_pieces(program, data, size):
    """The same, with the data fed slowly in pieces of that size."""
    with subprocess.Popen([program], stdin=subprocess.PIPE, stdout=subprocess.PIPE, stderr=subprocess.PIPE) as run:
        for start in range(0, len(data), size):
            run.stdin.write(data[start : start + size])
            run.stdin.flush()
            time.sleep(0.01)
        out, err = run.communicate()
        return run.returncode, out, err


def unread_pipe(program, ignored):
    """The same, with a pipe that nobody reads as output."""
    reading, writing = os.pipe()
    os.close(reading)
    run = subprocess.run(["sh", "-c", f"{ignored}exec {program} <{SHEET}"], stdout=writing, stderr=subprocess.PIPE, check=False)
    os.close(writing)
    return run.returncode, b"", run.stderr


def cases(program):
    """Each case with what happened and what is due."""
    data = SHEET.read_bytes()
    text = subprocess.run([program], input=data, capture_output=True, check=True).stdout
    yield "in pieces", in_pieces(program, data, 100), (0, text, b"")
    yield "empty", through_shell(program, "</dev/null"), (0, b"R 1\n", b"")
    yield "without end", through_shell(program, "</dev/zero"), (0, b"R 3\n", b"")
    yield "closed input", through_shell(program, "<&-"), (0, b"", NO_INPUT)
    yield "directory", through_shell(program, "<."), (0, b"", NO_INPUT)
    yield "input for writing only", through_shell(program, "0>/dev/null"), (0, b"", NO_INPUT)
    yield "non-blocking, nothing yet", from_pipe(program, [], False, False), (0, b"", NO_INPUT)
    yield "non-blocking, a part", from_pipe(program, [data[:100]], False, False), (0, b"", NO_INPUT)
    yield "non-blocking, whole", from_pipe(program, [data], False, True), (0, text, b"")
    yield "full output", through_shell(program, f"<{SHEET} >/dev/full"), (0, b"", NO_OUTPUT)
    yield "closed output", through_shell(program, f"<{SHEET} >&-"), (0, b"", NO_OUTPUT)
    yield "unread pipe", unread_pipe(program, ""), (0, b"", NO_OUTPUT)
    yield "unread pipe, signal ignored", unread_pipe(program, 'trap "" PIPE; '), (0, b"", NO_OUTPUT)


def main():
    """Exits with 1 where a case differs."""
    parser = argparse.ArgumentParser(description=__doc__)
    parser.add_argument("--program", type=Path, default=PROGRAM, metavar="FILE", help="the built program (target/bin/homology)")
    program = parser.parse_args().program.resolve()
    total = wrong = 0
    for name, found, due in cases(program):
        total += 1
        if found != due:
            wrong += 1
            print(f"{name}: found {found!r}, due {due!r}")
    print(f"{total} cases, {wrong} differ")
    raise SystemExit(1 if wrong else 0)


if __name__ == "__main__":
    main()
