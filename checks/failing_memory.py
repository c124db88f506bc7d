#!/usr/bin/env python3
"""Runs the program with each of its allocations refused in turn, and looks for an answer that changes.

Arguments: the program and the compiler of C. A run whose allocation is refused has to print M1's line alone, with
status 3, or the undisturbed answer whole; where the reader of the command line is out of memory, that counts as arguments that
name no job, with status 2 and nothing on standard output. The last line is 'N passed, M failed'."""
import sys

from lib import counting, programs
from lib.office_rows import ACTIVITY_DATA, BOTH, DAY

NO_MEMORY = ("M1 no memory\n", 3)
NO_JOB = ("", 2)
RUNS = [
    (["dump"], ACTIVITY_DATA),
    (["dump"], b"\0\0\0\2" + ACTIVITY_DATA[4:]),
    (["dump"], b""),
    (["holder"], DAY),
    (["card", "both"], DAY),
    (["card", "both"], BOTH),
    (["card", "whole"], DAY),
    (["migrate", "/no/archive.db"], b""),
    (["check", "/no/archive.db"], b""),
    (["carry", "/no/archive.db", "/no/new.db", "2024-03-04"], b""),
    (["carry", "/no/archive.db", "/no/new.db", "2024-02-30"], b""),
    ([], b""),
    (["help"], b""),
]


def comparisons(program: str, compiler: str) -> counting.Comparisons:
    for words, given in RUNS:
        undisturbed = programs.answer([program, *words], given)
        for number, told in programs.answers_without_memory(compiler, [program, *words], given):
            wanted = told if told in (NO_MEMORY, NO_JOB) else undisturbed
            yield f"{words} on {given.hex()}, allocation {number} refused", told, wanted


if __name__ == "__main__":
    sys.exit(counting.count(comparisons(*sys.argv[1:])))
