#!/usr/bin/env python3
"""Runs each test of the archive's tables with each of its allocations refused in turn, and looks for an answer that changes.

Arguments: the program of the tests of tables and the compiler of C. A test whose allocation is refused has to pass, or to end by the
fault of a call, and never by an answer that it didn't want. The last line is 'N passed, M failed'."""
import sys

from lib import counting, programs, tests

FAULTS = ["error: Memory", "error: Store"]
MODULES = ["tables"]


def comparisons(program: str, compiler: str) -> counting.Comparisons:
    for test in tests.names_of(program, MODULES):
        for number, run in programs.runs_without_memory(compiler, [program, test], b""):
            end = tests.end_of(run, FAULTS)
            wanted = end if end in [*FAULTS, "passed"] else "passed"
            yield f"{test}, allocation {number} refused", end, wanted


if __name__ == "__main__":
    sys.exit(counting.count(comparisons(*sys.argv[1:])))
