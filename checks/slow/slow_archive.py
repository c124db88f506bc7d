"""A slow archive of drivers, written from the definitions and not from the program: a driver has a list of downloads and a list
of entries, and the minutes that the driver holds, each with its mark, are found from these. `docs/TABLES.md` says what the tables are.

Each command is a call. A refusal is its code, S6 with the minute, and S11 with the line of the file's fault; after it nothing has
changed."""
import functools
from collections import namedtuple
from collections.abc import Iterable, Sequence
from typing import Any

from slow import slow_reader

PARTS = ["both", "first", "second"]
MOST = 1_000_000

Marks = dict[int, slow_reader.Mark]

Download = namedtuple("Download", "part file marks")


class Entry:
    """Hours of one activity that were entered by hand: the minutes from start to before past, who entered them, and why."""

    def __init__(self, start: int, past: int, activity: int, author: str, note: str) -> None:
        self.start = start
        self.past = past
        self.mark = slow_reader.ACTIVITIES[activity], "single"
        self.author = author
        self.note = note
        self.is_withdrawn = False

    def marks(self) -> Marks:
        """What it gives: the mark of each of its minutes, or nothing if it was withdrawn."""
        return {} if self.is_withdrawn else dict.fromkeys(range(self.start, self.past), self.mark)


class Refusal(Exception):
    """Why a command does nothing."""


class Driver:
    """A driver, with downloads and entries, each in the order of their numbers."""

    def __init__(self, number: int, holder: bytes, key: str, base: int, name: bytes) -> None:
        self.number = number
        self.holder = holder
        self.key = key
        self.base = base
        self.name = name
        self.downloads: list[Download] = []
        self.entries: list[Entry] = []

    def held(self) -> Marks:
        """The mark of each minute that the driver holds: what downloads give, and entries that aren't withdrawn."""
        held: Marks = {}
        for given in [download.marks for download in self.downloads] + [entry.marks() for entry in self.entries]:
            held.update(given)
        return held

    def check(self, marks: Marks) -> None:
        """Refuses marks that contradict what the driver holds, for the least minute: S6."""
        held = self.held()
        contradicted = [minute for minute, mark in marks.items() if held.get(minute, mark) != mark]
        if contradicted:
            raise Refusal(f"S6 {min(contradicted)}")

    def gives(self, minute: int, mark: slow_reader.Mark) -> bool:
        """Whether a download gives the minute this mark."""
        return any(download.marks.get(minute) == mark for download in self.downloads)

    def take(self, part: str, file: bytes, marks: Marks) -> str:
        """Takes a file, unless downloads give all its minutes already, and reports what was done."""
        if all(self.gives(minute, mark) for minute, mark in marks.items()):
            return f"repeated driver {self.number}"
        self.check(marks)
        if len(self.downloads) == MOST:
            raise Refusal("S14")
        self.downloads.append(Download(part, file, marks))
        return f"added driver {self.number} number {len(self.downloads)}"

    def enter(self, batch: Sequence[Entry]) -> int:
        """Takes all entries of a batch, or none, and gives the number of the first: S6, S14. No two of them have a minute in
        common."""
        for entry in sorted(batch, key=lambda entry: entry.start):
            self.check(entry.marks())
        if len(self.entries) + len(batch) > MOST:
            raise Refusal("S14")
        first = len(self.entries) + 1
        self.entries.extend(batch)
        return first

    def withdraw(self, first: int, last: int) -> None:
        """Withdraws all entries from one number to another, or none: S7, S8 for the least number of which that can't be done."""
        for number in range(first, last + 1):
            if not 1 <= number <= len(self.entries):
                raise Refusal("S7")
            if self.entries[number - 1].is_withdrawn:
                raise Refusal("S8")
        for entry in self.entries[first - 1 : last]:
            entry.is_withdrawn = True


def mark_number(mark: slow_reader.Mark) -> int:
    """The number of a mark: 0 rest, 1 available, 2 work, 3 drive, and 4 more with a second driver."""
    activity, crew = mark
    return slow_reader.ACTIVITIES.index(activity) + 4 * (crew == "crew")


def check_monday(day: int) -> None:
    """Refuses a day that isn't a Monday: S9. Day 4 was one."""
    if day % 7 != 4:
        raise Refusal("S9")


@functools.lru_cache(maxsize=10_000)
def content(part: str, file: bytes) -> tuple[bytes, Marks]:
    """The holder and the marks that a part of a file gives: S11."""
    try:
        _, holder = slow_reader.card_file(file)
        return holder, slow_reader.map_of(slow_reader.pairs_of_file(file, part))
    except slow_reader.Fault as fault:
        raise Refusal(f"S11 {fault}") from fault


class Archive:
    """Drivers by their numbers."""

    def __init__(self) -> None:
        self.drivers: dict[int, Driver] = {}

    def driver(self, number: int) -> Driver:
        """The driver with a number: S4."""
        if number not in self.drivers:
            raise Refusal("S4")
        return self.drivers[number]

    def owner(self, holder: bytes) -> Driver:
        """The driver whose card has a holder: S4."""
        for driver in self.drivers.values():
            if driver.holder == holder:
                return driver
        raise Refusal("S4")

    def register(self, driver: Driver) -> None:
        """Adds a driver: S1, S2, S3, S9."""
        if driver.number in self.drivers:
            raise Refusal("S1")
        if any(other.key == driver.key for other in self.drivers.values()):
            raise Refusal("S2")
        if any(other.holder == driver.holder for other in self.drivers.values()):
            raise Refusal("S3")
        check_monday(driver.base)
        self.drivers[driver.number] = driver

    def import_file(self, caller: int | None, part: str, file: bytes) -> str:
        """The import of a file by a driver with a number, or by the office, which has none: S11 before all; then S4, S5, S6, S14."""
        holder, marks = content(part, file)
        driver = self.owner(holder) if caller is None else self.driver(caller)
        if driver.holder != holder:
            raise Refusal("S5")
        return driver.take(part, file, marks)

    def enter(self, number: int, lines: Iterable[tuple[int, int, int, str, str]]) -> int:
        """The entry of lines of hours, each a start, a past, the number of an activity, an author and a note: S4, S6, S14."""
        return self.driver(number).enter([Entry(*line) for line in lines])

    def withdraw(self, number: int, first: int, last: int) -> None:
        """Withdraws all entries from one number to another, or none: S4, S7, S8."""
        self.driver(number).withdraw(first, last)

    def rebase(self, number: int, base: int) -> None:
        """Sets another base: S4, S9."""
        driver = self.driver(number)
        check_monday(base)
        driver.base = base

    def rekey(self, number: int, key: str) -> None:
        """Sets another key: S2 if another driver has it, S4."""
        if any(other.key == key and other.number != number for other in self.drivers.values()):
            raise Refusal("S2")
        self.driver(number).key = key

    def rename(self, number: int, name: bytes) -> None:
        """Sets another name, which other drivers may have: S4."""
        self.driver(number).name = name

    def download(self, number: int, download: int) -> bytes:
        """The bytes of a file: S4, S10."""
        downloads = self.driver(number).downloads
        if not 1 <= download <= len(downloads):
            raise Refusal("S10")
        return downloads[download - 1].file

    def tables(self) -> dict[str, list[tuple[Any, ...]]]:
        """The rows of each table, in order; of spans the minutes, each with its driver and its mark."""
        drivers = sorted(self.drivers.values(), key=lambda driver: driver.number)
        return {
            "meta": [(1, 2)],
            "drivers": [
                (d.number, d.holder, d.key, d.base, d.name.decode(), len(d.downloads), len(d.entries)) for d in drivers
            ],
            "downloads": [
                (driver.number, number, PARTS.index(download.part), download.file)
                for driver in drivers
                for number, download in enumerate(driver.downloads, 1)
            ],
            "entry_rows": [
                (d.number, number, e.start, e.past, mark_number(e.mark), int(e.is_withdrawn), e.author, e.note)
                for d in drivers
                for number, e in enumerate(d.entries, 1)
            ],
            "card_spans": sorted(
                {
                    (driver.number, minute, mark_number(mark))
                    for driver in drivers
                    for download in driver.downloads
                    for minute, mark in download.marks.items()
                }
            ),
            "held": sorted((d.number, minute, mark_number(mark)) for d in drivers for minute, mark in d.held().items()),
        }
