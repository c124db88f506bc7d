#!/usr/bin/env python3
"""Runs each command with a stack of 192 KB, on the example of a year and on short ones, and requests to a server, and compares what they
print with the slow office and the slow server: a program that needs more stack crashes.

Argument: the program. The last line is 'N passed, M failed'."""
import os
import random
import shlex
import subprocess
import sys
import tempfile

from lib import counting
from lib.counting import Comparisons
from lib.files import TOP, read
from lib.office import CHANGES, READINGS, WITH_DAY, Desk, readings_of_all
from lib.office_rows import MORNING
from lib.server import ENDED, OFFICE, Serving, asking, posting
from slow import slow_server

KILOBYTES = 192
EXAMPLES = os.path.join(TOP, "examples")
WITHOUT_ARCHIVE = [(["dump"], "driver-year.0504"), (["holder"], "driver-year.ddd"), (["card", "both"], "driver-year.ddd")]
NEW = "new.db"


def with_small_stack(program: str, folder: str) -> str:
    """A script that runs the program with the small stack, and its path."""
    path = os.path.join(folder, "small")
    with open(path, "w", encoding="utf-8") as file:
        file.write(f'#!/bin/sh\nulimit -s {KILOBYTES} && exec {shlex.quote(os.path.abspath(program))} "$@"\n')
    os.chmod(path, 0o755)
    return path


def of_short(program: str, folder: str) -> Comparisons:
    """The comparisons of each command at a small archive."""
    desk = Desk(program, folder)
    desk.prepare(WITH_DAY)
    for words in [line.split(" ") for line in READINGS]:
        yield f"{words}", *desk.both(words)
    for words, given in CHANGES:
        yield f"{words}", *desk.both(words, given)
    yield "carry", *desk.both(["carry", NEW, "2024-03-05"])
    yield desk.tables("the archive")


def of_year(program: str, folder: str) -> Comparisons:
    """The comparisons of the example of a year: of the card file alone, and of all readings at an archive that has it."""
    for words, name in WITHOUT_ARCHIVE:
        run = subprocess.run([program, *words], input=read(os.path.join(EXAMPLES, name)), capture_output=True)
        yield f"{words} of a year", (run.returncode, run.stderr, len(run.stdout) > 0), (0, b"", True)
    desk = Desk(program, folder)
    card = read(os.path.join(EXAMPLES, "driver-year.ddd"))
    desk.prepare([(["register"], read(os.path.join(EXAMPLES, "driver.csv"))), (["import", "both"], card)])
    for words in readings_of_all(desk.office, random.Random(0)):
        yield f"{words} of a year", *desk.both(words)


def of_server(program: str, folder: str) -> Comparisons:
    """The comparisons of a server: a reading, a change, a card file, and the page."""
    desk = Desk(program, folder)
    desk.prepare(WITH_DAY)
    server = slow_server.Server(desk.office, OFFICE)
    requests = [asking("GET /drivers/17/why/2024-03", OFFICE), posting("/drivers/17/entries", OFFICE, MORNING)]
    requests += [asking("GET /forecast/2024-03-05/12:00", OFFICE), asking("GET /drivers/17/handover/2024-03-01/2024-04-01", OFFICE)]
    with Serving(program, desk.path, OFFICE, len(requests) + 1, listens=True) as serving:
        for request in requests:
            yield f"{request[:40]!r}", serving.ask([request], False), server.reply(request)
        page = serving.ask([asking("GET /office/", None)], False)
        yield "the page", page[:15], b"HTTP/1.1 200 OK"
        yield "the end of the server", serving.end(), ENDED


def comparisons(program: str) -> Comparisons:
    """All comparisons."""
    for part in (of_short, of_year, of_server):
        with tempfile.TemporaryDirectory() as folder:
            yield from part(with_small_stack(program, folder), folder)


if __name__ == "__main__":
    sys.exit(counting.count(comparisons(*sys.argv[1:])))
