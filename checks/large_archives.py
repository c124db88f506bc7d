#!/usr/bin/env python3
"""Compares readings of archives that are larger than those of other checks with the slow office: a driver with 65,537 entries and as many
rows of what is held, a driver with 256 card files, and 101 drivers with names of 64 bytes. This shows a limit below these sizes, which no
contract can refuse. SQLite writes the rows into an archive that the program has made. Argument: the program. The last line is 'N passed, M
failed'."""
import contextlib
import itertools
import os
import sqlite3
import sys
from collections.abc import Iterable, Iterator, Sequence
from tempfile import TemporaryDirectory

from inputs import random_cards
from lib import counting, old_archive, pools
from lib.files import write
from lib.office import Desk
from slow import slow_archive, slow_reader

ROWS, FILES, DRIVERS, NAME = 65_537, 256, 101, 64
PROCESSES = 3
DAY = 1440
MONDAY = 19_723  # 2024-01-01
REST, DRIVE = slow_reader.ACTIVITIES.index("rest"), slow_reader.ACTIVITIES.index("drive")
TABLES = ["drivers", "entry_rows", "held"]  # those to which rows are written


def new_driver(number: int, name: bytes, hours: Iterable[tuple[int, int, int]]) -> slow_archive.Driver:
    """A driver with entries, each with a start, a past and an activity."""
    driver = slow_archive.Driver(number, b"\x0dD%013d" % number, f"driver-key-{number}", MONDAY, name)
    driver.entries += [slow_archive.Entry(*one, "Eva Lund", "card lost") for one in hours]
    return driver


def spans_of(minutes: Iterable[tuple[int, int, int]]) -> Iterator[tuple[int, int, int, int]]:
    """The rows of spans that give these minutes, each with its driver and its mark, in order."""
    for driver, own in itertools.groupby(minutes, lambda row: row[0]):
        yield from ((driver, start, past, mark) for start, past, mark in slow_reader.runs((minute, mark) for _, minute, mark in own))


def desk_with(program: str, folder: str, drivers: Iterable[slow_archive.Driver]) -> Desk:
    """An archive with these drivers, and the slow office beside it."""
    desk = Desk(program, folder)
    desk.prepare([])
    desk.office.archive.drivers.update({driver.number: driver for driver in drivers})
    rows = desk.office.archive.tables()
    rows["held"] = [*spans_of(rows["held"])]
    with contextlib.closing(sqlite3.connect(desk.path)) as store, store:
        for table in TABLES:
            old_archive.insert(store, table, rows[table])
    old_archive.put_sums(desk.path)
    return desk


def of_readings(desk: Desk, lines: Sequence[str]) -> counting.Comparisons:
    """The comparisons of readings with what the slow office expects."""
    for line in lines:
        told, wanted = desk.both(line.split(" "))
        yield line, [told[1:], *told[0].splitlines()], [wanted[1:], *wanted[0].splitlines()]


def hours_of_weeks() -> Iterator[tuple[int, int, int]]:
    """The hours of a year: on weekdays from 6 to 18, work and availability by turns, for a minute each, and rest in between."""
    past = DAY * MONDAY
    for day in range(MONDAY, MONDAY + 364):
        if (day - MONDAY) % 7 < 5:
            yield past, DAY * day + 360, REST
            past = DAY * day + 1080
            yield from ((minute, minute + 1, 1 + minute % 2) for minute in range(DAY * day + 360, past))


def of_rows(program: str) -> counting.Comparisons:
    """The comparisons of a driver with many entries and rows. The last row is driving for five hours: a breach that only it shows."""
    hours = [*itertools.islice(hours_of_weeks(), ROWS - 1)]
    past = hours[-1][1]
    with TemporaryDirectory() as folder:
        desk = desk_with(program, folder, [new_driver(17, b"Anna Berg", [*hours, (past, past + 300, DRIVE)])])
        yield from of_readings(desk, ["breaches 17", "stretches 17", "form 17", "entries 17", "check"])


def of_files(program: str) -> counting.Comparisons:
    """The comparisons of a driver with many card files, which one command imports. Each has an hour of another day."""
    words = [random_cards.word(0, 0, REST, 0), random_cards.word(1, 0, REST, 60)]
    with TemporaryDirectory() as folder:
        driver = new_driver(17, b"Anna Berg", [])
        desk = desk_with(program, folder, [driver])
        files = {}
        for number in range(FILES):
            activity = random_cards.activity_data([random_cards.record(MONDAY + number, words)], 0, 20)
            blocks = [(random_cards.IDENTIFICATION, driver.holder + b"00"), (random_cards.ACTIVITY, activity)]
            path = os.path.join(folder, f"{number:03}.ddd")
            files[path] = b"".join(random_cards.block(identifier, 0, value) for identifier, value in blocks)
            write(path, files[path])
        wanted = desk.office.import_files("both", [*files.items()])
        yield "import", desk.run(["import", "both", *files]), (*wanted, b"")
        yield from of_readings(desk, ["files 17", "drivers 17", f"file 17 {FILES}", "check"])


def of_drivers(program: str) -> counting.Comparisons:
    """The comparisons of many drivers with long names. Each has a breach: driving for five hours."""
    start = DAY * MONDAY
    hours = [(start, start + 480, REST), (start + 480, start + 780, DRIVE), (start + 780, start + DAY, REST)]
    with TemporaryDirectory() as folder:
        drivers = [new_driver(number, (b"Driver %d " % number).ljust(NAME, b"x"), hours) for number in range(1, DRIVERS + 1)]
        desk = desk_with(program, folder, drivers)
        months = [f"{reading} 2024-01" for reading in ("overview", "incidents", "standing")]
        yield from of_readings(desk, ["drivers", *months, "forecast 2024-01-02 06:00", "check"])


def comparisons(program: str) -> counting.Comparisons:
    program = os.path.abspath(program)
    yield from pools.of_questions([(one, program) for one in (of_rows, of_files, of_drivers)], PROCESSES)


if __name__ == "__main__":
    sys.exit(counting.count(comparisons(*sys.argv[1:])))
