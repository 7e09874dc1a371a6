"""Runs a C driver of tests/host on calls, and compares what it writes with what is due."""

import struct
import subprocess
from dataclasses import dataclass


@dataclass(frozen=True)
class Expected:
    """A call by name: the request, the answer due, and all that the driver is to write."""

    name: str
    request: bytes
    number: int
    written: bytes


def ended(call, status):
    """What is said of a driver that ended before it wrote what is due for a call."""
    return f"{call.name}: the driver ended with status {status}, {call.number} due"


def differs(call, found):
    """What is said of a call with another answer or other slices."""
    number = struct.unpack("<I", found[:4])[0]
    told = f"answered {number}" if number != call.number else f"answered {number}, but left other slices"
    return f"{call.name}: {told}, {call.number} due"


def count_differing(driver, calls):
    """How many calls a driver answers otherwise, or one where it fails; prints which."""
    run = subprocess.run([driver], input=b"".join(call.request for call in calls),
                         capture_output=True, check=False)
    at = wrong = 0
    for call in calls:
        found = run.stdout[at:at + len(call.written)]
        at += len(found)
        if len(found) < len(call.written):
            print(ended(call, run.returncode))
            return wrong + 1
        if found != call.written:
            wrong += 1
            print(differs(call, found))
    return wrong if run.returncode == 0 and at == len(run.stdout) else max(wrong, 1)
