#!/usr/bin/env python3
"""Runs `tacho holder` and the card's spans on a small card file of both generations, on every cut of it, and on it with
each byte changed to a few other values, and compares them with the slow reader.

Arguments: the programs `tacho` and `tool_rows`. The last line is 'N passed, M failed'."""
import multiprocessing
import re
import sys

from lib import counting, programs
from slow import slow_reader

PROCESSES = 2
IDENTIFICATION = "0520000011" "0d44313233343536373839303132333030"
FIRST = "0504000028" "00000014" "0000001465e50f0000010064000011e019fe23fc" "0014001065e6608000020000000011e0"
SIGNATURE = "0504010001" "ff"
SECOND = "0504020016" "00000000" "0000001265eba68000010000600071e06258"
FILE = bytes.fromhex(IDENTIFICATION + FIRST + SIGNATURE + SECOND)

# What a byte is changed to: limits of the fields, and parts of identifiers and lengths.
VALUES = [0x00, 0x01, 0x02, 0x04, 0x05, 0x0C, 0x14, 0x20, 0x7F, 0x80, 0xFF]

CODES = {
    "Truncated": "C1 truncated block at {}",
    "Twice": "C2 block {:04x} {:02x} twice",
    "NoIdentification": "C3 no identification",
    "ShortIdentification": "C4 identification too short",
    "TwoCards": "C5 two cards",
    "NoActivity": "C6 no activity data",
    "ShortActivity": "C7 activity data too short",
    "Pointer": "C8 pointer out of the buffer",
    "RecordLength": "C9 record length at {}",
    "Chain": "C10 chain broken at {}",
    "DayRange": "C11 day out of range at {}",
    "WordMinute": "C12 word minute at {}",
    "WordOrder": "C13 word order at {}",
}


def line_of(told):
    """What was printed, with a fault as its line."""
    name = re.match(r"\w+", told)
    numbers = [int(number) for number in re.findall(r"\d+", told)]
    if name and name.group() == "SelfContradiction":
        return f"C14 file contradicts itself at {slow_reader.minute_text(numbers[0])}\n"
    if name and name.group() in CODES:
        return CODES[name.group()].format(*numbers) + "\n"
    return told


def changes(byte):
    """The values that a byte is changed to: those above, the next one, and the one with another bit."""
    return sorted({*VALUES, (byte + 1) % 256, byte ^ 0x40} - {byte})


def files():
    for length in range(len(FILE) + 1):
        yield f"cut to {length}", FILE[:length]
    for place, byte in enumerate(FILE):
        for value in changes(byte):
            yield f"byte {place} changed to {value:02x}", FILE[:place] + bytes([value]) + FILE[place + 1 :]


def of_file(question):
    """The comparisons of a file."""
    tacho, rows, name, file = question
    found = [(f"{name}: holder", programs.answer([tacho, "holder"], file), slow_reader.holder(file))]
    for part in ("both", "first", "second"):
        told, status = programs.answer([rows, part], file)
        found.append((f"{name}: {part}", (line_of(told), status), (slow_reader.spans(file, part), 0)))
    return found


def comparisons(tacho: str, rows: str) -> counting.Comparisons:
    with multiprocessing.Pool(PROCESSES) as pool:
        for found in pool.imap(of_file, [(tacho, rows, name, file) for name, file in files()], chunksize=20):
            yield from found
        pool.close()
        pool.join()


if __name__ == "__main__":
    sys.exit(counting.count(comparisons(*sys.argv[1:])))
