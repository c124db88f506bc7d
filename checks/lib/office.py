"""The program at an archive in a folder, and a slow office beside it."""
import copy
import os
import random
import subprocess
from collections.abc import Callable, Iterable, Sequence
from typing import IO, Any, Protocol

from lib import office_rows
from lib.advice import without_any
from lib.archive import of_tables
from lib.counting import Comparison, Comparisons
from lib.files import lying_at, write
from lib.programs import Told, told_by
from slow import slow_archive, slow_office, slow_reader
from slow.slow_office import Command

LAST_DAY = slow_reader.READ_DAYS.stop - 1
CREATED = (b"created\n", 0, b"")
STORE_FAILED = (b"S12 store failed\n", 3, b"")

READINGS = [
    "spans 17 2024-03",
    "gaps 17 2024-03",
    "sheet 17 2024-03",
    "chart 17 2024-03",
    "breaches 17",
    "why 17 2024-03",
    "owed 17",
    "ahead 17 2024-03-05 12:00",
    "entries 17",
    "file 17 1",
    "files 17",
    "handover 17 2024-03-01 2024-04-01",
    "drivers",
    "check",
    "stretches 17",
    "debts 17",
    "forecast 2024-03-05 12:00",
    "standing 2024-03",
    "overview 2024-03",
    "incidents 2024-03",
    "form 17",
    "form 17 2024-03-05",
]
COMMANDS = ["register", "import both", "enter 17", "withdraw 17 1", "withdraw 17 1 2", "base 17 2024-03-11", "key 17", "name 17", *READINGS]
COMMANDS += ["carry new.db 2024-03-05"]

# What comes after the path of a new archive in the names of the files that may not be there when it is made.
ENDINGS = ["", "-wal", ".part", ".part-wal"]


class HasWords(Protocol):
    """What makes a command line."""

    def words(self, words: Sequence[str]) -> list[str]:
        """The command line that has these arguments."""


class Desk:
    """The program at an archive in a folder, and the slow office beside it."""

    def __init__(self, program: str, folder: str) -> None:
        self.program = program
        self.path = os.path.join(folder, "archive.db")
        self.office = slow_office.Office()

    def beside(self, name: str) -> str:
        """The path of a new archive that `carry` makes in the archive's folder."""
        return os.path.join(os.path.dirname(self.path), name)

    def words(self, words: Sequence[str]) -> list[str]:
        """The command line that has these arguments, without the path. That of a new archive is relative to the archive's folder."""
        name, *others = words
        if name == "carry" and others:
            others[0] = self.beside(others[0])
        return [self.program, name, self.path, *others]

    def carried_to(self, name: str) -> "Desk":
        """The program at a new archive that `carry` has made, and the slow office of it."""
        desk = Desk(self.program, os.path.dirname(self.path))
        desk.path, desk.office = self.beside(name), self.office.made[name]
        return desk

    def run(self, words: Sequence[str], given: bytes = b"", **others: Any) -> Told:
        """What a command prints, its status, and what it prints on standard error."""
        return told_by(self.words(words), given, **others)

    def both(self, words: Sequence[str], given: bytes = b"") -> tuple[Told, Told]:
        """The same, and what the slow office expects."""
        text, status = self.office.answer(words, given)
        return self.run(words, given), (text, status, b"")

    def tables(self, name: str) -> Comparison:
        """The comparison of the file's tables with those that it has to have."""
        return of_tables(name, self.path, self.office.archive)

    def prepare(self, lines: Iterable[Command]) -> None:
        """Makes the archive and gives it some commands that have to be done."""
        for words, given in [(["init"], b""), *lines]:
            _, status, _ = self.run(words, given)
            if status:
                raise RuntimeError(f"{words} has the status {status}")
            if words != ["init"]:
                self.office.answer(words, given)


WITH_ANNA: list[Command] = [(["register"], office_rows.ANNA)]
WITH_DAY: list[Command] = [*WITH_ANNA, (["import", "both"], office_rows.DAY), (["enter", "17"], office_rows.FREE_DAYS)]

CHANGES: list[Command] = [
    (["register"], office_rows.BERT),
    (["import", "both"], office_rows.SATURDAY),
    (["enter", "17"], office_rows.MORNING),
    (["withdraw", "17", "1"], b""),
    (["base", "17", "2024-03-11"], b""),
    (["key", "17"], b"anna-key-2\n"),
    (["name", "17"], b"Anna Lind\n"),
    (["withdraw", "17", "2", "2"], b""),
]


def name_of(words: Iterable[object]) -> str:
    """The arguments of a command line in one."""
    return " ".join(map(str, words))


def copy_of(office: slow_office.Office) -> slow_office.Office:
    """A copy of a slow office: what is done at the one doesn't change the other."""
    made = slow_office.Office()
    for number, driver in office.archive.drivers.items():
        other = copy.copy(driver)
        other.downloads = [*driver.downloads]
        other.entries = [copy.copy(entry) for entry in driver.entries]
        made.archive.drivers[number] = other
    made.made = {name: copy_of(other) for name, other in office.made.items()}
    return made


# Readings


def readings_of(driver: slow_archive.Driver, chance: random.Random) -> list[list[str]]:
    """Readings of a driver: those of all that they hold, those of the months in which it begins and ends and of the month of their base,
    each of their card files and the number after it, forecasts and handovers."""
    held, base = driver.held(), 1440 * driver.base
    first, last = min(held, default=base), max(held, default=base)
    months = sorted({slow_reader.minute_text(minute)[:7] for minute in (first, last, base)})
    words = [f"{word} {{}}" for word in ["drivers", "entries", "files", "breaches", "owed", "stretches", "debts", "form"]]
    words += [f"{word} {{}} {month}" for word in ["spans", "gaps", "sheet", "why", "chart"] for month in months]
    words += [f"file {{}} {number}" for number in range(1, len(driver.downloads) + 2)]
    words += [f"ahead {{}} {slow_reader.minute_text(min(last + 1, 1440 * LAST_DAY))}"]
    day = chance.randrange(first // 1440, last // 1440 + 1)
    for start, past in [(day, day + 1), (first // 1440, first // 1440 + 7), (day, day + 366)]:
        dates = [slow_reader.minute_text(1440 * min(one, LAST_DAY))[:10] for one in (start, past)]
        words += [f"handover {{}} {' '.join(dates)}"]
    return [one.format(driver.number).split(" ") for one in words]


def readings_of_all(office: slow_office.Office, chance: random.Random) -> list[list[str]]:
    """Readings of all drivers of an office, and those of each of them."""
    drivers = office.archive.drivers.values()
    ends = [max(driver.held(), default=1440 * driver.base) for driver in drivers] or [1440 * LAST_DAY]
    month = slow_reader.minute_text(chance.choice(ends))[:7]
    found = [["drivers"], ["check"], ["standing", month], ["overview", month], ["incidents", month]]
    return found + [words for driver in drivers for words in readings_of(driver, chance)]


# Files


def make_text(path: str) -> None:
    """Makes a file that is a text, and no archive."""
    write(path, b"driver,holder,key,base,name\n" * 400)


def of_refused_file(
    desk: Desk, name: str, make: Callable[[str], None], commands: Iterable[str], wanted: Told = STORE_FAILED,
) -> Comparisons:
    """The comparisons of commands on a path where no archive can be opened: what lies there stays as it is."""
    make(desk.path)
    for words in commands:
        before = lying_at(desk.path)
        yield f"{name}: {words}", desk.run(words.split()), wanted
        yield f"{name}: {words}: what lies there", lying_at(desk.path), before


# Devices


def run_to(desk: HasWords, words: Sequence[str], given: bytes, output: IO[bytes] | int) -> tuple[int, bytes]:
    """The status of a command whose standard output is a file that is open, and what it prints on standard error."""
    line = desk.words(words)
    made = subprocess.run(line, input=given, stdout=output, stderr=subprocess.PIPE)
    return made.returncode, without_any(line, made.stderr)


def to_full(desk: HasWords, words: Sequence[str], given: bytes) -> tuple[int, bytes]:
    """A run to a device that is full."""
    with open("/dev/full", "wb") as output:
        return run_to(desk, words, given, output)


def to_nobody(desk: HasWords, words: Sequence[str], given: bytes) -> tuple[int, bytes]:
    """A run to a pipe that nobody reads."""
    source, target = os.pipe()
    os.close(source)
    try:
        return run_to(desk, words, given, target)
    finally:
        os.close(target)
