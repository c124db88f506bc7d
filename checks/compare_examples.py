#!/usr/bin/env python3
"""Runs the program on the examples, and compares what it prints with the slow reader, and with the files next to them; runs the tour, and
compares what it shows with what lies beside it; draws the chart that README.md shows, and compares it with docs/chart.svg; and serves the
example of an office, asks for what its start page needs, and ends it.

Arguments: the program and the folder of the examples. The last line is 'N passed, M failed'. With the folder alone, it draws that chart
with the slow office instead, and prints it: `checks/compare_examples.py examples > docs/chart.svg`."""
import contextlib
import csv
import datetime
import http.client
import os
import re
import shutil
import signal
import subprocess
import sys
import tempfile
from collections.abc import Iterator

from inputs import working_lives
from lib import counting, programs
from lib.files import DOCS, read
from slow import slow_office, slow_reader

# By the ending of an example: what is asked of it, the slow reading, and the ending of what has to be printed.
QUESTIONS = {".0504": ("dump", slow_reader.dump, ".spans"), ".ddd": ("holder", slow_reader.holder, ".holder")}

# Examples whose output is long, and isn't kept next to them.
ALONE = ["largest.0504"]

# The commands that draw the chart of README.md in a new archive: their words without the archive, and the example that each one reads.
CHART = [
    ("register", [], "driver.csv"),
    ("import", ["both"], "driver-year.ddd"),
    ("enter", ["17"], "entries.csv"),
    ("base", ["17", "2024-01-01"], None),
    ("chart", ["17", "2024-02"], None),
]


# What the example of an office prints: where its pages are, and the keys.
SHOWN = re.compile(r"the office: +http://127\.0\.0\.1:(\d+)/office/ +key (\S+)\n.+: +http://127\.0\.0\.1:\1/driver/ +key (\S+)\n.*\n")
LINES = 3
SECONDS = 30  # within which it ends


def input_of(folder: str, example: str | None) -> bytes:
    """The input of a command."""
    return read(os.path.join(folder, example)) if example else b""


def chart_of(program: str, folder: str) -> tuple[str, int]:
    """The chart that the program draws, and its status."""
    with tempfile.TemporaryDirectory() as work:
        path = os.path.join(work, "archive.db")
        told = programs.answer([program, "init", path], b"")
        for command, others, example in CHART:
            told = programs.answer([program, command, path, *others], input_of(folder, example))
        return told


def slow_chart_of(folder: str) -> bytes:
    """The chart that the slow office draws."""
    office = slow_office.Office()
    told = b""
    for command, others, example in CHART:
        told, _ = office.answer([command, *others], input_of(folder, example))
    return told


@contextlib.contextmanager
def office_of(program: str, folder: str, work: str) -> Iterator[tuple[subprocess.Popen[str], str]]:
    """The example of an office, which makes its files in a folder, and what it prints."""
    words = [os.path.join(folder, "office"), program]
    with subprocess.Popen(words, stdout=subprocess.PIPE, text=True, env={**os.environ, "TMPDIR": work}) as office:
        try:
            assert office.stdout is not None
            yield office, "".join(office.stdout.readline() for _ in range(LINES))
        finally:
            office.terminate()


def reply_to(port: int, key: str, path: str) -> tuple[int, str]:
    """The status and the body of the reply to a request."""
    connection = http.client.HTTPConnection("127.0.0.1", port, timeout=SECONDS)
    connection.request("GET", path, headers={"x-key": key})
    reply = connection.getresponse()
    body = reply.read().decode()
    connection.close()
    return reply.status, body


def last_days(standing: str) -> dict[int, str]:
    """For each driver of a standing the day of the last minute that is held, or nothing."""
    return {int(row["driver"]): row["held"][:10] for row in csv.DictReader(standing.splitlines())}


def of_archive(program: str, work: str) -> counting.Comparison:
    """The comparison of what `check` says of a copy of the archive that is served. Nothing changes it meanwhile."""
    [folder] = os.listdir(work)
    with tempfile.TemporaryDirectory() as other:
        copy = shutil.copytree(os.path.join(work, folder), os.path.join(other, "copy"))
        return "the office: its archive", programs.answer([program, "check", os.path.join(copy, "archive.db")], b""), ("sound\n", 0)


def of_office(program: str, folder: str) -> counting.Comparisons:
    """The comparisons of the example of an office: what it prints, its drivers, the requests of its start page, and its end."""
    today = datetime.datetime.now(datetime.timezone.utc).date()
    days = {driver.number: str(today - datetime.timedelta(1 + driver.age)) if driver.has_file else "" for driver in working_lives.DRIVERS}
    with tempfile.TemporaryDirectory() as work:
        with office_of(program, folder, work) as (office, shown):
            found = SHOWN.fullmatch(shown)
            yield "the office: what it prints", found is not None or shown, True
            if found is None:
                return
            port, key, driver = int(found[1]), found[2], found[3]
            month = f"{today:%Y-%m}"
            status, standing = reply_to(port, key, f"/standing/{month}")
            yield "the office: the last days", (status, last_days(standing)), (200, days)
            for path in ["/version", "/drivers", f"/overview/{month}", f"/incidents/{month}", f"/forecast/{today}/06:00"]:
                yield f"the office: {path}", reply_to(port, key, path)[0], 200
            yield "the office: a driver", reply_to(port, driver, "/me/stretches")[0], 200
            yield of_archive(program, work)
            office.send_signal(signal.SIGINT)
            yield "the office: its end", office.wait(SECONDS), 0
        yield "the office: what it leaves", os.listdir(work), []


def comparisons(program: str, folder: str) -> counting.Comparisons:
    """The comparisons of all examples, of the tour, of the chart, and of the office."""
    for name in sorted(os.listdir(folder)):
        stem, ending = os.path.splitext(name)
        if ending not in QUESTIONS:
            continue
        word, slow, beside = QUESTIONS[ending]
        given = read(os.path.join(folder, name))
        told = programs.answer([program, word], given)
        yield f"{word} of {name}", told, slow(given)
        if name not in ALONE:
            yield f"{word} of {name}, and {stem}{beside}", told, (read(os.path.join(folder, stem + beside)).decode(), 0)
    told, status = programs.answer([os.path.join(folder, "tour"), program], b"")
    yield "the tour", told.splitlines() + [status], read(os.path.join(folder, "tour.expected")).decode().splitlines() + [0]
    told, status = chart_of(program, folder)
    yield "the chart of README.md", told.splitlines() + [status], read(os.path.join(DOCS, "chart.svg")).decode().splitlines() + [0]
    yield from of_office(os.path.abspath(program), folder)


def main(*arguments: str) -> int:
    """Compares, or prints the slow office's chart. Returns the status."""
    if len(arguments) == 1:
        sys.stdout.buffer.write(slow_chart_of(*arguments))
        return 0
    return counting.count(comparisons(*arguments))


if __name__ == "__main__":
    sys.exit(main(*sys.argv[1:]))
