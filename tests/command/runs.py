"""Runs of commands of fildwuk: in process, by the driver of tests/host/command_driver.c."""

import struct
import subprocess
from dataclasses import dataclass
from pathlib import Path

DRIVER = Path("target/host/command_driver")
COMMAND = Path("target/host/fildwuk")
DONE, REFUSED, FAILED = 0, 1, 2


@dataclass(frozen=True)
class Ran:
    """What a run left: the exit status, standard output, and the messages."""

    status: int
    output: bytes
    errors: bytes

    def lines(self):
        """The lines of the messages."""
        return self.errors.decode("utf-8").splitlines()


def is_mesh(data):
    """Whether the command is to read an input as a mesh: a sheet with 36 vertices starts with a dollar sign too, and then a zero."""
    return data[:1] == b"$" and data[1:2] != b"\0"


def counted(data):
    """The bytes with their length before them."""
    return struct.pack("<I", len(data)) + data


def request(words, text):
    """The request for a run with these words, the command first, on a text."""
    return struct.pack("<I", len(words)) + b"".join(counted(word.encode()) for word in words) + counted(text)


def taken(data, at):
    """The bytes whose length stands at a place, and the place after them."""
    (length,) = struct.unpack_from("<I", data, at)
    return data[at + 4:at + 4 + length], at + 4 + length


def in_process(requests, driver=DRIVER):
    """The runs of pairs of words and text, in one process."""
    requests = list(requests)
    run = subprocess.run([driver], input=b"".join(request(words, text) for words, text in requests), capture_output=True, check=False)
    found, at = [], 0
    while at < len(run.stdout):
        (status,) = struct.unpack_from("<I", run.stdout, at)
        output, at = taken(run.stdout, at + 4)
        errors, at = taken(run.stdout, at)
        found.append(Ran(status, output, errors))
    if run.returncode != 0 or len(found) != len(requests):
        raise SystemExit(f"the driver ended with status {run.returncode} after {len(found)} of {len(requests)} runs:\n{run.stderr.decode()[-2000:]}")
    return found
