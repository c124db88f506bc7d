#!/usr/bin/env python3
"""Runs `tacho dump` on every single-byte change of one value, and on it with every pair of pointers into its buffer, and compares it with
the slow reader; of the pairs, which are read at all is a worked row.

Argument: the program. The last line is 'N passed, M failed'."""
import itertools
import multiprocessing
import struct
import sys

from lib import counting, programs
from lib.office_rows import ACTIVITY_DATA
from slow import slow_reader

PROCESSES = 2
BUFFER = len(ACTIVITY_DATA) - 4

# The pairs of pointers at which the value is read, and how many spans it gives there. Where both point at a record whose length is 0,
# there is none.
READ = {(0, 20): 4, (20, 0): 5, (0, 0): 3, (20, 20): 1, **{(place, place): 0 for place in (5, 10, 28, 29, 30, 34, 35)}}


def changes(value):
    for place in range(len(value)):
        for byte in range(256):
            if byte != value[place]:
                yield f"byte {place} changed to {byte:02x}", value[:place] + bytes([byte]) + value[place + 1 :]


def pointed(value):
    """The value with each pair of pointers into its buffer."""
    for pair in itertools.product(range(BUFFER), repeat=2):
        yield pair, struct.pack(">HH", *pair) + value[4:]


def of_change(question):
    """The comparison of a changed value."""
    program, name, value = question
    return name, programs.answer([program, "dump"], value), slow_reader.dump(value)


def comparisons(program: str) -> counting.Comparisons:
    questions = [(program, name, value) for name, value in changes(ACTIVITY_DATA)]
    questions += [(program, pair, value) for pair, value in pointed(ACTIVITY_DATA)]
    read = {}
    with multiprocessing.Pool(PROCESSES) as pool:
        for name, told, wanted in pool.imap(of_change, questions, chunksize=100):
            yield f"pointers {name}" if isinstance(name, tuple) else name, told, wanted
            if isinstance(name, tuple) and told[1] == 0:
                read[name] = told[0].count("\n")
        pool.close()
        pool.join()
    yield "the pairs of pointers that are read, and their spans", read, READ


if __name__ == "__main__":
    sys.exit(counting.count(comparisons(*sys.argv[1:])))
