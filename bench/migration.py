"""Measures `migrate` on archives of schema 1, without the opening, and compares it with stock SQLite, which does the same by
`INSERT .. SELECT` in one transaction (stock.py).

An archive has some drivers with the same number of entries each: a quarter of an hour every half hour. SQLite itself writes it, with
checksums of its pages. Our program is a new process for each migration. The cost of its start and of the opening is measured by `drivers`,
which is refused once the archive is open (S13), and subtracted. Stock SQLite is a running program that has the archive open; only the time
of the command counts. Both write their log into the file. Each time is the least of some rounds, in which the two take turns, each with a
new copy, and each ratio is the median of the rounds' ratios. After each round both files have to have the same tables."""
import os
import shutil
import sys

import cards
from archive import DONE, STOCK, Program, content
from lib import old_archive
from measuring import Rounds, less, only, output_of, processor_time
from stock import BASE

ROUNDS = 10
FIRST = 21_039_840  # 2010-01-02 00:00, the start of the first entry
ARCHIVES = {(50, 1_000): (50, 1_000), (1, 1_000): (1, 1_000), (1, 10_000): (1, 1_000)}  # each with the one that its growth is relative to


def rows_of(drivers: int, entries: int) -> old_archive.Rows:
    """The rows of an archive of schema 1 with this many drivers and this many entries for each."""
    spans = [(FIRST + 30 * number, FIRST + 30 * number + 15, number % len(cards.ACTIVITIES)) for number in range(entries)]
    people = range(1, drivers + 1)
    return {
        "meta": [(1, 1)],
        "drivers": [(driver, b"D%014d" % driver, f"key-of-{driver:04}", BASE, f"Driver {driver}", 0, entries) for driver in people],
        "downloads": [],
        "card_spans": [],
        "entries": [(driver, number, *span, 0) for driver in people for number, span in enumerate(spans, 1)],
        "held": [(driver, *span) for driver in people for span in spans],
    }


def copied(path: str, side: str) -> str:
    """Copies an archive for a side, without a log, and returns the path of the copy."""
    made = f"{path}-{side}"
    shutil.copyfile(path, made)
    if os.path.exists(made + "-wal"):
        os.remove(made + "-wal")
    return made


def ours(program: str, path: str) -> dict[str, float]:
    """The time of the program's opening, and that of a migration together with the opening, in milliseconds."""
    made = copied(path, "tacho")
    opening, whole = processor_time([program, "drivers", made]), processor_time([program, "migrate", made])
    if output_of([program, "migrate", made])[0] != b"migrated\n":
        sys.exit(f"{made} wasn't migrated")
    return {"opening": opening, "whole": whole}


def theirs(path: str) -> dict[str, float]:
    """The time of stock SQLite, which has the archive open, in milliseconds."""
    running = Program([*STOCK, "archive", copied(path, "stock")])
    taken = running.time_of("migrate -", "migrated\n" + DONE)
    running.end()
    return {"opening": 0, "whole": taken}


def compare(path: str) -> None:
    """Exits unless the two files have the same tables."""
    if content(f"{path}-tacho") != content(f"{path}-stock"):
        sys.exit(f"the tables of the two archives differ: {path}")


def times_of(program: str, path: str) -> Rounds:
    """The times of both sides at an archive."""
    return Rounds({"tacho": lambda: ours(program, path), "stock": lambda: theirs(path)}, ROUNDS, lambda: compare(path))


def migrations(folder: str, program: str) -> None:
    """Measures the migration of each archive, and prints a table."""
    print(f"migrate without the opening, and stock SQLite: processor time in ms, the least of {ROUNDS} rounds; then the growth from one")
    print("driver with 1,000 entries, which may be at most 12 for 10,000 entries")
    print(f"{'drivers':>8} {'entries':>8} {'megabytes':>10} {'open':>8} {'tacho':>8} {'stock':>8} {'ratio':>6} {'tacho':>7} {'stock':>7}")
    found: dict[tuple[int, int], list[float]] = {}
    for drivers, entries in ARCHIVES:
        path = os.path.join(folder, f"{drivers}-{entries}.db")
        old_archive.make(path, rows_of(drivers, entries))
        size = os.path.getsize(path) / 1e6
        times, cost = times_of(program, path), less("whole", "opening")
        both = found[drivers, entries] = [times.least(side, cost) for side in ("tacho", "stock")]
        grown = " ".join(f"{now / before:7.2f}" for now, before in zip(both, found[ARCHIVES[drivers, entries]]))
        taken = f"{times.least('tacho', only('opening')):8.1f} {both[0]:8.1f} {both[1]:8.1f} {times.ratio('tacho', 'stock', cost):6.2f}"
        print(f"{drivers:8} {entries:8} {size:10.1f} {taken} {grown}", flush=True)
