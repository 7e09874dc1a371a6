#!/usr/bin/env python3
"""The stack of the reduction does not grow with the returns to step a within a stage.

The program reduction_cases needs as much stack for 27 returns as for 8, and within two pages as
much as for none.
"""

import argparse
import subprocess
from pathlib import Path

from make_matrices import outcome_text
from model.matrix_cases import case, neighbours
from pack_matrices import packed

PROGRAM = Path(__file__).resolve().parent.parent / "target/bin/reduction_cases"
PAGE = 4
MOST = 1024
LIMITED = 'ulimit -s "$1" && exec "$0"'
FIXED = ["setarch", "-R"]


def fixed_addresses():
    """Whether a program may run without random addresses, which take up to two pages of stack."""
    try:
        return subprocess.run([*FIXED, "true"], check=False).returncode == 0
    except FileNotFoundError:
        return False


class Stack:
    """The stack that a program needs."""

    def __init__(self, program):
        self.program = program
        self.fixed = fixed_addresses()

    def suffices(self, matrix, kib):
        """Whether the outcome is the model's; with random addresses, in one of 40 runs."""
        shell = ["sh", "-c", LIMITED, str(self.program), str(kib)]
        command = FIXED + shell if self.fixed else shell
        for _ in range(1 if self.fixed else 40):
            ran = subprocess.run(command, input=packed(matrix), env={"PATH": "/usr/bin:/bin"},
                                 stdout=subprocess.PIPE, stderr=subprocess.DEVNULL, check=False)
            if ran.returncode == 0 and ran.stdout.decode() == outcome_text(matrix):
                return True
        return False

    def least(self, matrix):
        """The least number of KiB, in pages, that suffices."""
        if not self.suffices(matrix, MOST):
            raise SystemExit(f"{self.program} fails on the matrix with {matrix.name}")
        low, high = 0, MOST // PAGE
        while high - low > 1:
            middle = (low + high) // 2
            if self.suffices(matrix, middle * PAGE):
                high = middle
            else:
                low = middle
        return high * PAGE


def main():
    """Prints the figures; fails where more returns take more stack."""
    parser = argparse.ArgumentParser(description=__doc__)
    parser.add_argument("--program", type=Path, default=PROGRAM, help=str(PROGRAM.name))
    stack = Stack(parser.parse_args().program.resolve())
    none = stack.least(case("no return", [[1, 0], [0, 1]]))
    few = stack.least(case("8 returns", [list(neighbours(9))]))
    many = stack.least(case("27 returns", [list(neighbours(28))]))
    print(f"least ulimit -s: {none} KiB with no return, {few} with 8 returns, {many} with 27")
    spread = 0 if stack.fixed else PAGE
    if many > few + spread or many > none + 2 * PAGE + spread:
        raise SystemExit("the stack grows with the returns")


if __name__ == "__main__":
    main()
