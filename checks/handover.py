#!/usr/bin/env python3
"""Compares what the program hands over, tar files, with what other programs make and read of them, and with what is known of the archive.

Python's library has to make the same bytes of the members. It, GNU tar and bsdtar (if it is installed) have to list and unpack just them.
The lengths and digests in contents.txt have to be right. The card files have to give in the period all that those of the driver give, by
the slow reader, and each something that the newer ones don't. The other lines have to be those of `drivers`, `entries` and `gaps`. The
archives are that of examples/ and random ones; and one with the longest card files, where the memory is measured. Argument: the program.
The last line is 'N passed, M failed'."""
import datetime
import hashlib
import os
import random
import re
import subprocess
import sys
import tempfile

from inputs import random_cards, random_commands
from inputs.random_commands import date_text, driver_csv, hours_csv
from lib import counting, office_rows, pools, seeds, tars
from lib.files import EXAMPLES, read, write
from lib.programs import name_and_version, told_by
from slow import slow_archive, slow_office, slow_reader

SEEDS = seeds.tried(12)
PROCESSES = 4
IMPORTS = 14  # of a random archive
PERIODS = 2  # of one, besides a month and a day
FIRST_DAY, LAST_DAY = slow_reader.READ_DAYS.start, slow_reader.READ_DAYS.stop - 1
DRIVER = "17"
TEXTS = ["entries.txt", "contents.txt"]  # the last members

# The longest card files: how many, and their length; and how much more memory, in bytes, the program may take to hand them over than to
# list them.
LONGEST_FILES, LONGEST = 120, slow_office.INPUT_LIMIT
MORE_MEMORY = 64 * 2**20

# Runs a command with its output in a file, and prints the most memory that it had, in KiB, and its status. A process that is small itself
# does so, since the memory that a process has before it starts a program counts as that program's.
MEASURING = """
import os, sys
target = os.open(sys.argv[1], os.O_WRONLY | os.O_CREAT | os.O_TRUNC, 0o600)
_, status, used = os.wait4(os.posix_spawn(sys.argv[2], sys.argv[2:], os.environ, file_actions=[(os.POSIX_SPAWN_DUP2, target, 1)]), 0)
print(used.ru_maxrss, os.waitstatus_to_exitcode(status))
"""


class Archive:
    """An archive of a driver: what is known of the card files that the program has taken."""

    def __init__(self, program: str, folder: str, holder: bytes, base: int = 19_786) -> None:
        self.program = program
        self.folder = folder
        self.path = os.path.join(folder, "archive.db")
        self.holder = holder
        self.files: list[tuple[bytes, slow_archive.Marks]] = []  # the bytes of each, and the mark of each minute that it gives
        self.told("init")
        self.told("register", given=driver_csv(int(DRIVER), holder, "anna-key-1", base, b"Anna Berg"))

    def told(self, *words: str, given: bytes = b"") -> bytes:
        """What the program prints for a command."""
        name, *others = words
        return told_by([self.program, name, self.path, *others], given)[0]

    def take(self, part: str, file: bytes) -> None:
        """Imports a card file, if it is one and agrees with what was taken."""
        if self.told("import", part, given=file).startswith(b"added "):
            self.files.append((file, slow_reader.map_of(slow_reader.pairs_of_file(file, part))))

    def pairs(self, number: int, period: range) -> set[slow_reader.Pair]:
        """What the card file with a number gives of a period."""
        return {(minute, mark) for minute, mark in self.files[number - 1][1].items() if minute in period}


def minute_of(text: str) -> int:
    """The minute of a text."""
    since = datetime.datetime.strptime(text, "%Y-%m-%d %H:%M") - datetime.datetime(1970, 1, 1)
    return 1440 * since.days + since.seconds // 60


# What is known of a handover, by other commands and by the files that were imported


def of_covering(name: str, archive: Archive, period: range, numbers: list[int]) -> counting.Comparisons:
    """The comparisons of the card files that were taken: what they give, all together and each beside the newer ones."""
    whole: set[slow_reader.Pair] = set().union(*(archive.pairs(number, period) for number in range(1, len(archive.files) + 1)))
    given: set[slow_reader.Pair] = set()
    needed = []
    for number in numbers:
        pairs = archive.pairs(number, period)
        needed += [number] if pairs - given else []
        given |= pairs
    yield f"{name}: the order of the card files", numbers, sorted(numbers, reverse=True)
    yield f"{name}: the card files that give something more than the newer ones", needed, numbers
    yield f"{name}: all that the card files give", given == whole, True


def file_names(archive: Archive, numbers: list[int]) -> list[str]:
    """The names of card files by their numbers."""
    card = re.sub("[^A-Za-z0-9]", "_", archive.holder[1:].decode("latin-1"))
    names = []
    for number in numbers:
        _, marks = archive.files[number - 1]
        first, last = [date_text(minute // 1440).replace("-", "") for minute in (min(marks), max(marks))]
        names.append(f"{number}-{card}-{first}-{last}.ddd")
    return names


def entries_in(archive: Archive, period: range) -> str:
    """The lines of `entries` that have a minute of a period."""
    lines = archive.told("entries", DRIVER).decode().splitlines(keepends=True)
    spans = [re.match(r"\d+ (.{16}) (.{16}) ", line) for line in lines]
    return "".join(line for line, span in zip(lines, spans)
                   if span and max(minute_of(span[1]), period.start) < min(minute_of(span[2]), period.stop))


def of_contents(name: str, archive: Archive, dates: list[str], members: list[tars.Member]) -> counting.Comparisons:
    """The comparisons of contents.txt: its head, the lines of the members before it, and of a month the gaps."""
    lines = dict(members)["contents.txt"].decode().splitlines(keepends=True)
    head = f"DRIVER {archive.told('drivers', DRIVER).decode()}FROM {dates[0]} PAST {dates[1]}\nPROGRAM {name_and_version()}\n"
    listed = [f"FILE {one} {len(content)} {hashlib.sha256(content).hexdigest()}\n" for one, content in members[:-1]]
    yield f"{name}: contents.txt", lines[: 3 + len(listed)], [*head.splitlines(keepends=True), *listed]
    gaps = lines[3 + len(listed) :]
    yield f"{name}: the rest of contents.txt", [line for line in gaps if not re.fullmatch("NOT HELD .{16} .{16}\n", line)], []
    if dates[0].endswith("-01") and dates[1] == date_after_month(dates[0]):
        told = archive.told("gaps", DRIVER, dates[0][:7]).decode()
        yield f"{name}: what isn't held, and `gaps`", "".join(line.removeprefix("NOT HELD ") for line in gaps), told


def date_after_month(date: str) -> str:
    """The first day of the month after the one that begins with a day."""
    return (datetime.date.fromisoformat(date) + datetime.timedelta(days=31)).replace(day=1).isoformat()


# What other programs make and read of it


def of_readers(name: str, given: bytes, members: list[tars.Member]) -> counting.Comparisons:
    """The comparisons of a tar file with what other programs list and unpack."""
    with tempfile.TemporaryDirectory() as folder:
        path = os.path.join(folder, "handover.tar")
        write(path, given)
        for reader in tars.present():
            yield f"{name}: listed by {reader.name}", tars.listed_by(reader, path), tars.wanted_list(reader, members)
            yield f"{name}: unpacked by {reader.name}", tars.unpacked_by(reader, path), sorted(members)


def of_handover(name: str, archive: Archive, dates: list[str]) -> counting.Comparisons:
    """The comparisons of what is handed over of a period."""
    name = f"{name}, {' '.join(dates)}"
    told = told_by([archive.program, "handover", archive.path, DRIVER, *dates])
    yield f"{name}: the status", told[1:], (0, b"")
    members = tars.members_of(told[0])
    yield f"{name}: the last members", [member for member, _ in members[-2:]], TEXTS
    if [member for member, _ in members[-2:]] != TEXTS:
        return
    yield f"{name}: the bytes, and those by Python", told[0] == tars.tar_of(members), True
    numbers = [int(found[1]) if (found := re.match(r"(\d+)-", member)) else 0 for member, _ in members[:-2]]
    unknown = [number for number in numbers if not 1 <= number <= len(archive.files)]
    yield f"{name}: the numbers of the card files", unknown, []
    if unknown:
        return
    period = range(1440 * slow_office.day_of(dates[0]), 1440 * slow_office.day_of(dates[1]))
    yield f"{name}: the names", [member for member, _ in members], [*file_names(archive, numbers), *TEXTS]
    yield f"{name}: the card files", [content for _, content in members[:-2]], [archive.files[number - 1][0] for number in numbers]
    yield f"{name}: the entries", dict(members)["entries.txt"].decode(), entries_in(archive, period)
    yield from of_covering(name, archive, period, numbers)
    yield from of_contents(name, archive, dates, members)
    yield from of_readers(name, told[0], members)


# Archives


def of_example(program: str) -> counting.Comparisons:
    """The comparisons of the example of a year: of a month, of a day, of the year, and of a year before it."""
    with tempfile.TemporaryDirectory() as folder:
        file = read(os.path.join(EXAMPLES, "driver-year.ddd"))
        _, holder = slow_reader.card_file(file)
        archive = Archive(program, folder, holder)
        archive.take("both", file)
        archive.told("enter", DRIVER, given=read(os.path.join(EXAMPLES, "entries.csv")))
        yield "the example: its card file", len(archive.files), 1
        for period in ["2024-02-01 2024-03-01", "2024-03-04 2024-03-05", "2024-01-01 2025-01-01", "2022-01-01 2023-01-01"]:
            yield from of_handover("the example", archive, period.split(" "))


def periods_of(chance: random.Random, days: list[int]) -> list[list[str]]:
    """Some periods near days: a month, a day, and periods that begin and end at any of them or beside them."""
    month = date_text(chance.choice(days))[:8] + "01"
    day = min(chance.choice(days), LAST_DAY - 1)
    found = [[date_text(day), date_text(day + 1)]]
    if FIRST_DAY <= slow_office.day_number(datetime.date.fromisoformat(month)) and date_after_month(month) < date_text(LAST_DAY):
        found.append([month, date_after_month(month)])
    for _ in range(PERIODS):
        first = max(FIRST_DAY, min(chance.choice(days) + chance.choice([-1, 0, 0]), LAST_DAY - 1))
        found.append([date_text(first), date_text(min(first + chance.choice([1, 2, 3, 5, 366]), LAST_DAY))])
    return found


def of_seed(program: str, seed: int) -> counting.Comparisons:
    """The comparisons of a random archive: the files of a card, whole or in part and of one generation or both, and hours between."""
    chance = random.Random(f"handover {seed}")
    with tempfile.TemporaryDirectory() as folder:
        holder = b"\x0d" + bytes(chance.choice(b"AZaz09@[`{/:-_. \xe4\x00\xff") for _ in range(14))
        archive, card = Archive(program, folder, holder), random_cards.Card(chance, holder)
        days = [day for day, _ in card.days]
        for _ in range(IMPORTS):
            archive.take(chance.choice(["both", "both", "first", "second"]), card.file())
            if chance.random() < 0.4:
                start = 1440 * chance.choice(days) + chance.choice([-30, 0, chance.randrange(1440)])
                hours = [(start, start + chance.choice(random_commands.LENGTHS), chance.choice(slow_reader.ACTIVITIES))]
                archive.told("enter", DRIVER, given=hours_csv(hours))
            if chance.random() < 0.1:
                archive.told("withdraw", DRIVER, "1")
        for dates in periods_of(chance, days):
            yield from of_handover(f"seed {seed}", archive, dates)


# Memory


def longest_file(day: int) -> bytes:
    """A card file of the greatest length: rest on a day and up to noon on the next, and then blocks which aren't read."""
    records = [random_cards.record(day, [random_cards.word(0, 0, 0, 0)]),
               random_cards.record(day + 1, [random_cards.word(0, 0, 0, 0), random_cards.word(0, 0, 2, 720)])]
    file = bytes.fromhex(office_rows.CARD) + random_cards.block(0x0504, 0, random_cards.activity_data(records, 0, 0))
    while len(file) < LONGEST:
        left = LONGEST - len(file) - 5
        file += random_cards.block(0x0501, 0, bytes(min(left, 65_535) if left <= 65_535 or left > 65_545 else 60_000))
    return file


def measured(archive: Archive, *words: str) -> tuple[int, int, bytes]:
    """The most memory that a command has, in bytes, its status, and what it prints."""
    name, *others = words
    path = os.path.join(archive.folder, "output")
    line = [sys.executable, "-I", "-S", "-c", MEASURING, path, archive.program, name, archive.path, *others]
    run = subprocess.run(line, stdin=subprocess.DEVNULL, capture_output=True, check=True)
    most, status = run.stdout.split()
    return 1024 * int(most), int(status), read(path)


def of_memory(program: str) -> counting.Comparisons:
    """The comparisons of the memory that it takes to hand over the longest card files with the memory that it takes to list them."""
    with tempfile.TemporaryDirectory() as folder:
        archive, first = Archive(program, folder, bytes.fromhex(office_rows.HOLDER)), 19_723  # 2024-01-01
        cards = os.path.join(folder, "cards")
        os.mkdir(cards)
        for number in range(LONGEST_FILES):
            write(os.path.join(cards, f"{number:03}.ddd"), longest_file(first + number))
        told = archive.told("import", "both", cards)
        yield "the longest files are imported", told.splitlines()[-1:], [b"%d added, 0 repeated, 0 refused" % LONGEST_FILES]
        before, listed, _ = measured(archive, "files", DRIVER)
        most, status, given = measured(archive, "handover", DRIVER, date_text(first), date_text(first + LONGEST_FILES + 1))
        print(f"measured: {LONGEST_FILES} card files of {LONGEST:,} bytes: files takes {before / 2**20:.1f} MB of memory, handover "
              f"{most / 2**20:.1f} MB for {len(given) / 2**20:.1f} MB", flush=True)
        yield "the longest files: the statuses", (listed, status), (0, 0)
        names = [f"{number}-D1234567890123-" for number in range(LONGEST_FILES, 0, -1)]
        members = tars.members_of(given)
        yield "the longest files: their names", [name[: len(front)] for (name, _), front in zip(members, names)], names
        yield "the longest files: their bytes", [len(content) for _, content in members[:-2]], [LONGEST] * LONGEST_FILES
        yield "the longest files: the bytes, and those by Python", given == tars.tar_of(members), True
        yield f"memory: {most - before:,} bytes more are at most {MORE_MEMORY:,}", most - before <= MORE_MEMORY, True


def comparisons(program: str) -> counting.Comparisons:
    program = os.path.abspath(program)
    for reader in tars.READERS:
        if reader not in tars.present():
            print(f"left out: tar files by {reader.name}: apt install {reader.package}", flush=True)
    questions = [(of_memory, program), (of_example, program), *[(of_seed, program, seed) for seed in range(SEEDS)]]
    yield from pools.of_questions(questions, PROCESSES)


if __name__ == "__main__":
    sys.exit(counting.count(comparisons(*sys.argv[1:])))
