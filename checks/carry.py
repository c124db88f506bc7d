#!/usr/bin/env python3
"""Compares what `carry` puts into a new archive with what is known of the old one.

The old archives are twelve drivers over two years, with the example of a year among them, and random ones near both ends of a day, each
carried at several days. Which drivers, card files and hours have to be there is known by `drivers`, `files` and `entries` at the old
archive, and of card files by the slow reader too. From the day on the spans have to be the same, and of weeks that begin at least eight
weeks after it the breaches. Each driver's key has to answer as before, and the new archive to be sound, by `check` and by stock SQLite;
carried once more at the same day it has to answer the same. The two files of the old archive have to keep their bytes. At last the
processor time of `carry` is measured beside that of importing the card files that it takes. Argument: the program. The last line is
'N passed, M failed'."""
import contextlib
import datetime
import functools
import hashlib
import os
import random
import re
import resource
import sqlite3
import subprocess
import sys
import tempfile
from collections.abc import Iterable, Sequence
from typing import Any, NamedTuple

from inputs import random_cards, random_commands
from inputs.random_commands import date_text, driver_csv, hours_csv, rows_csv
from lib import counting, files, old_archive, pools, seeds
from lib.files import EXAMPLES
from lib.programs import told_by
from lib.server import ENDED, OFFICE, Serving, asking
from slow import slow_csv, slow_office, slow_reader

SEEDS = seeds.tried(12)
PROCESSES = 2
IMPORTS = 8  # of a random archive
FIRST_DAY, LAST_DAY = slow_reader.READ_DAYS.start, slow_reader.READ_DAYS.stop - 1
WEEKS = 104  # of the drivers over two years
FIRST_MONDAY = 19_002  # 2022-01-10
LATER = 56  # days after which the weeks begin whose breaches are compared
OF_DRIVER = ["files", "entries", "stretches"]  # what is read of each driver
SOME, MONTHS = 3, 2  # drivers of whom more is compared, and months of them besides that of the day and the last

# The drivers whose card files are carried while the time is measured, how many weekly ones each has, and the week from which on.
MEASURED_DRIVERS = seeds.tried(50)
MEASURED_WEEKS, MEASURED_FROM = 156, 104


class Owner(NamedTuple):
    """A driver of an archive: their number, holder, key and name."""
    number: int
    holder: bytes
    key: str
    name: bytes


def owner(number: int, holder: bytes | None = None) -> Owner:
    """A driver by their number."""
    return Owner(number, holder or b"\x0dC" + f"{number:013}".encode(), f"key-of-{number:06}", f"Driver {number}".encode())


def path_of(words: Sequence[str]) -> str:
    """The path of the request of a reading."""
    name, *others = words
    if name in ("drivers", "overview", "incidents"):
        return "/".join(["", *words])
    return "/".join(["/drivers", others[0], {"file": "files"}.get(name, name), *others[1:]])


class Archive:
    """An archive: what the program prints for commands at it, each asked once, since nothing changes it any more when it is read."""

    def __init__(self, program: str, path: str) -> None:
        self.program = program
        self.path = path
        self.asked: dict[tuple[str, ...], bytes] = {}

    def run(self, *words: str, given: bytes = b"") -> tuple[bytes, int, bytes]:
        """What the program prints for a command, its status, and what it prints on standard error but for a sentence."""
        name, *others = words
        return told_by([self.program, name, self.path, *others], given)

    def do(self, *words: str, given: bytes = b"") -> str:
        """What the program prints for a command that has to be done."""
        text, status, errors = self.run(*words, given=given)
        if status or errors:
            raise RuntimeError(f"{words} has the status {status}: {text!r} {errors!r}")
        return text.decode()

    def ask(self, readings: Iterable[tuple[str, ...]]) -> None:
        """Asks for readings by requests to a server, since each command would open the archive once more."""
        wanted = [*dict.fromkeys(words for words in readings if words not in self.asked)]
        if not wanted:
            return
        with Serving(self.program, self.path, OFFICE, len(wanted)) as serving:
            for words in wanted:
                reply = serving.ask([asking(f"GET {path_of(words)}", OFFICE)], False)
                self.asked[words] = reply.partition(b"\r\n\r\n")[2] if isinstance(reply, bytes) else reply.encode()
            serving.end()

    def told(self, *words: str) -> bytes:
        """What the program prints for a reading, or answers to its request."""
        if words not in self.asked:
            self.asked[words] = self.run(*words)[0]
        return self.asked[words]

    def lines(self, *words: str) -> list[str]:
        """The lines that the program prints for a reading."""
        return self.told(*words).decode().splitlines()

    def register(self, one: Owner, base: int) -> None:
        """Makes a driver known."""
        self.do("register", given=driver_csv(one.number, one.holder, one.key, base, one.name))

    def numbers(self) -> list[str]:
        """The numbers of the drivers."""
        return [line.split(" ")[0] for line in self.lines("drivers")]

    def digests(self) -> list[str]:
        """The digests of the file and of its log, if that has a commit."""
        file, log = files.both_of(self.path)
        return [hashlib.sha256(given or b"").hexdigest() for given in (file, log)]


# What has to be in a new archive, by what the old one lists


def minute_text(day: int) -> str:
    """The text of a day's first minute: texts of minutes are in the order of time."""
    return f"{date_text(day)} 00:00"


def kept_files(old: Archive, number: str, day: int) -> list[str]:
    """The lines of a driver's card files that are carried, with their new numbers: those whose last minute isn't before the day."""
    rows = [re.fullmatch(r"\d+ (\w+ \d+ .{16} (.{16}) \w{64})", line) for line in old.lines("files", number)]
    kept = [row[1] for row in rows if row and row[2] > minute_text(day)]
    return [f"{place} {line}" for place, line in enumerate(kept, 1)]


def kept_numbers(old: Archive, number: str, day: int) -> list[str]:
    """Their numbers in the old archive."""
    return [line.split(" ")[0] for line in old.lines("files", number) if " ".join(line.split(" ")[5:7]) > minute_text(day)]


def kept_entries(old: Archive, number: str, day: int) -> list[str]:
    """The lines of a driver's entries that are carried, with their new numbers."""
    rows = [re.fullmatch(r'\d+ (.{16} (.{16}) \w+ (\w+) ".*" ".*")', line) for line in old.lines("entries", number)]
    kept = [row[1] for row in rows if row and row[3] == "kept" and row[2] > minute_text(day)]
    return [f"{place} {line}" for place, line in enumerate(kept, 1)]


def monday_text(day: int) -> str:
    """The date of the Monday of a day's week, by Python's own calendar."""
    date = slow_office.EPOCH + datetime.timedelta(days=day)
    return (date - datetime.timedelta(days=date.weekday())).isoformat()


def carried_line(old: Archive, line: str, day: int) -> str | None:
    """The line of a driver in the new archive, by that of the old one, or nothing if they are left out."""
    number, holder, base, file_count, entry_count, name = line.split(" ", 5)
    counts = [len(kept_files(old, number, day)), len(kept_entries(old, number, day))]
    if counts == [0, 0] and (file_count, entry_count) != ("0", "0"):
        return None
    return " ".join([number, holder, max(base, monday_text(day)), *map(str, counts), name])


# What they hold, and their breaches


def months_from(day: int, until: str) -> list[str]:
    """The months from that of a day on to one of the texts of months, at the most 120."""
    year, month = map(int, date_text(day)[:7].split("-"))
    found = []
    while len(found) < 120 and f"{year:04}-{month:02}" <= until:
        found.append(f"{year:04}-{month:02}")
        year, month = (year, month + 1) if month < 12 else (year + 1, 1)
    return found


def spans_from(archive: Archive, number: str, month: str, day: int) -> list[str]:
    """The spans of a month, cut at the first minute of a day."""
    rows, start = [], minute_text(day)
    for line in archive.lines("spans", number, month)[1:]:
        first, past, mark = line.split(",", 2)
        if past > start:
            rows.append(f"{max(first, start)},{past},{mark}")
    return rows


def copied(path: str, folder: str) -> sqlite3.Connection:
    """A connection of stock SQLite to a copy of an archive's file and log, so that both stay as they are."""
    return sqlite3.connect(files.copied(path, folder))


def held_from(path: str, day: int) -> dict[str, list[list[int]]]:
    """What each driver holds from a day on, as stock SQLite reads it: start, past and mark of each maximal span."""
    found: dict[str, list[list[int]]] = {}
    with tempfile.TemporaryDirectory() as folder, contextlib.closing(copied(path, folder)) as store:
        for driver, start, past, mark in store.execute("select driver, start, past, mark from held order by driver, start"):
            spans, first = found.setdefault(str(driver), []), max(start, 1440 * day)
            if first < past and spans and spans[-1][1:] == [first, mark]:
                spans[-1][1] = past
            elif first < past:
                spans.append([first, past, mark])
    return {driver: spans for driver, spans in found.items() if spans}


def kept_rows(path: str) -> list[list[tuple[object, ...]]]:
    """The rows of drivers, card files and entries, as stock SQLite reads them."""
    with tempfile.TemporaryDirectory() as folder, contextlib.closing(copied(path, folder)) as store:
        return [sorted(store.execute(f"select * from {table}")) for table in ("drivers", "downloads", "entry_rows")]


def last_month(archive: Archive, number: str) -> str:
    """The last month in which a card file or hours give something, or nothing."""
    pasts = [line.split(" ")[5] for line in archive.lines("files", number)]
    pasts += [line.split(" ")[3] for line in archive.lines("entries", number)]
    return max(pasts, default="")[:7]


def breaches_from(archive: Archive, number: str, day: int) -> list[str]:
    """The lines of breaches that are at or after the first minute of a day, and since such a minute."""
    found = [(re.search("at (.{16}) since (.{16}) amount", line), line) for line in archive.lines("stretches", number)]
    return [line for times, line in found if times and min(times[1], times[2]) >= minute_text(day)]


def later_monday(day: int) -> int:
    """The first Monday of a week that begins at least eight weeks after a day."""
    return day + LATER + (4 - day - LATER) % 7


# The comparisons of a new archive


def of_driver(name: str, old: Archive, new: Archive, number: str, day: int) -> counting.Comparisons:
    """The comparisons of a driver who is carried."""
    yield f"{name}: files", new.lines("files", number), kept_files(old, number, day)
    yield f"{name}: entries", new.lines("entries", number), kept_entries(old, number, day)
    monday = later_monday(day)
    yield f"{name}: breaches from {date_text(monday)} on", breaches_from(new, number, monday), breaches_from(old, number, monday)


class Some(NamedTuple):
    """What is compared of some drivers alone, since it takes longer: card files, each by the driver, the new number and the old one, and
    months of spans."""
    files: list[tuple[str, str, str]]
    months: list[tuple[str, str]]


def some_of(old: Archive, numbers: Iterable[str], day: int, chance: random.Random) -> Some:
    """Two card files of each of some drivers, and the month of the day, the last one, and others."""
    found = Some([], [])
    for number in numbers:
        kept = [*enumerate(kept_numbers(old, number, day), 1)]
        found.files.extend((number, str(place), before) for place, before in chance.sample(kept, min(2, len(kept))))
        months = months_from(day, last_month(old, number))
        chosen = {*months[:1], *months[-1:], *chance.sample(months, min(MONTHS, len(months)))}
        found.months.extend((number, month) for month in sorted(chosen))
    return found


def of_some(name: str, old: Archive, new: Archive, some: Some, day: int) -> counting.Comparisons:
    """The comparisons of these."""
    old.ask([*[("spans", *one) for one in some.months], *[("file", number, before) for number, _, before in some.files]])
    for number, place, before in some.files:
        text = new.told("file", number, place)
        yield f"{name}, driver {number}: file {place}", text, old.told("file", number, before)
        digest = new.lines("files", number)[int(place) - 1].split(" ")[-1]
        yield f"{name}, driver {number}: file {place}: its digest", hashlib.sha256(text).hexdigest(), digest
    for number, month in some.months:
        yield f"{name}, driver {number}: spans {month}", spans_from(new, number, month, day), spans_from(old, number, month, day)


def replies(archive: Archive, asked: Sequence[tuple[Owner, str]], listens: bool) -> list[bytes]:
    """The replies to requests for paths with drivers' keys, by the program as a server, and how that ended."""
    with Serving(archive.program, archive.path, OFFICE, len(asked), listens=listens) as serving:
        found = [serving.ask([asking(f"GET {path}", one.key)], False) for one, path in asked]
        return [reply if isinstance(reply, bytes) else reply.encode() for reply in found] + [repr(serving.end()).encode()]


def of_keys(name: str, old: Archive, new: Archive, owners: Sequence[Owner], day: int) -> counting.Comparisons:
    """The comparisons of what each driver is answered with their key: what they hold of a month after the day, if there is one, as at the
    old archive, and their own line. Those who are left out have no key any more."""
    later = months_from(day + 31, "2099-12")
    month = later[0] if later else "2099-12"
    carried = {*new.numbers()}
    known = [one for one in owners if str(one.number) in carried]
    spans = [(one, f"/me/spans/{month}") for one in owners]
    lines = [(one, "/me/driver") for one in known]
    before, after = replies(old, spans, day % 2 == 0), replies(new, [*spans, *lines], day % 2 == 1)
    for (one, _), was, now in zip(spans, before, after):
        wanted = was if one in known else b"HTTP/1.1 403 Forbidden\r\n"
        has_all = one in known and later
        told = (now, wanted) if has_all else (now.partition(b"\r\n")[0], wanted.partition(b"\r\n")[0])
        yield f"{name}: what driver {one.number} is answered", *told
    own = [reply.partition(b"\r\n\r\n")[2].decode() for reply in after[len(spans) : -1]]
    yield f"{name}: the lines of drivers", sorted(own), sorted(f"{line}\n" for line in new.lines("drivers"))
    yield f"{name}: the ends of the servers", [before[-1], after[-1]], [repr(ENDED).encode()] * 2


def of_sqlite(name: str, path: str, counts: Sequence[int]) -> counting.Comparisons:
    """The comparisons of what stock SQLite says of a copy of a file: it is whole, and has so many drivers, card files and entries."""
    with tempfile.TemporaryDirectory() as folder, contextlib.closing(copied(path, folder)) as store:
        yield f"{name}: integrity", store.execute("pragma integrity_check").fetchall(), [("ok",)]
        yield f"{name}: foreign keys", store.execute("pragma foreign_key_check").fetchall(), []
        found = [store.execute(f"select count(*) from {table}").fetchone()[0] for table in ("drivers", "downloads", "entry_rows")]
        yield f"{name}: rows", found, list(counts)
        yield f"{name}: entries that are withdrawn", store.execute("select count(*) from entry_rows where withdrawn").fetchone(), (0,)


def readings_of_all(day: int) -> list[tuple[str, ...]]:
    """Readings of all drivers."""
    month = date_text(min(day + 40, LAST_DAY))[:7]
    return [("drivers",), ("overview", month), ("incidents", month)]


def of_once_more(name: str, old: Archive, path: str, day: int) -> counting.Comparisons:
    """The comparisons of a new archive that is carried once more at the same day: all drivers are, and all answers are the same."""
    count = len(old.numbers())
    told = old.run("carry", path, date_text(day))
    yield f"{name}: once more", told, (f"carried {count} of {count} drivers\n".encode(), 0, b"")
    if told[1] == 0:
        new = Archive(old.program, path)
        new.ask(readings_of_all(day))
        for words in readings_of_all(day):
            yield f"{name}: once more, {' '.join(words)}", new.lines(*words), old.lines(*words)
        yield f"{name}: once more, rows", kept_rows(path), kept_rows(old.path)
        yield f"{name}: once more, what is held", held_from(path, 0) == held_from(old.path, 0), True


def of_day(name: str, old: Archive, owners: Sequence[Owner], day: int, chance: random.Random) -> counting.Comparisons:
    """The comparisons of an archive that is carried over at a day."""
    name, folder = f"{name}, {date_text(day)}", os.path.dirname(old.path)
    path = os.path.join(folder, f"new-{day}.db")
    old.ask((word, number) for number in old.numbers() for word in OF_DRIVER)
    wanted = [line for line in (carried_line(old, one, day) for one in old.lines("drivers")) if line]
    log = os.path.basename(old.path) + "-wal"
    before = old.digests(), {*os.listdir(folder)} - {log}
    told = old.run("carry", path, date_text(day))
    yield f"{name}: carry", told, (f"carried {len(wanted)} of {len(old.numbers())} drivers\n".encode(), 0, b"")
    yield f"{name}: the old archive's digests", old.digests(), before[0]
    yield f"{name}: the files", sorted({*os.listdir(folder)} - {log}), sorted([*before[1], os.path.basename(path)])
    if told[1]:
        return
    yield f"{name}: the mode", oct(os.stat(path).st_mode), oct(0o100600)
    new, numbers = Archive(old.program, path), [line.split(" ")[0] for line in wanted]
    some = some_of(old, chance.sample(numbers, min(SOME, len(numbers))), day, chance)
    readings = [*[(word, number) for number in numbers for word in OF_DRIVER], *[("spans", *one) for one in some.months]]
    new.ask([*readings_of_all(day), *readings, *[("file", number, place) for number, place, _ in some.files]])
    yield f"{name}: drivers", new.lines("drivers"), wanted
    yield f"{name}: check", new.run("check"), (b"sound\n", 0, b"")
    counts = [line.split(" ", 5)[3:5] for line in wanted]
    yield from of_sqlite(name, path, [len(wanted), *(sum(int(count[place]) for count in counts) for place in (0, 1))])
    yield f"{name}: what is held from the day on", held_from(path, day) == held_from(old.path, day), True
    for number in numbers:
        yield from of_driver(f"{name}, driver {number}", old, new, number, day)
    yield from of_some(name, old, new, some, day)
    yield from of_keys(name, old, new, owners, day)
    yield from of_once_more(name, new, f"{path}.again", day)
    yield f"{name}: the old archive's digests after all", old.digests()[0], before[0][0]


# Twelve drivers over two years

Words = list[tuple[int, int, int]]  # of a day: whether there is a second driver, an activity, and the minute from which it lasts


def words_of_day(chance: random.Random, weekday: int) -> Words:
    """What a driver does on a day: they rest, or drive for some hours with a break, which is left out at times; a few days are long."""
    if weekday == 6 and chance.random() < 0.97 or weekday == 5 and chance.random() < 0.7:
        return [(0, 0, 0)]
    start = chance.choice([240, 300, 360, 420])
    driven = start + chance.choice([10, 15, 30])
    paused = driven + chance.choice([200, 240, 270, 280])
    begun = paused + chance.choice([45, 45, 45, 60, 20])
    ended = begun + chance.choice([120, 240, 270, 330])
    crew = int(chance.random() < 0.02)
    return [(0, 0, 0), (0, 2, start), (crew, 3, driven), (0, 0, paused), (crew, 3, begun), (0, 2, ended), (0, 0, ended + 20)]


class Life:
    """What a driver does on each day of some weeks, and the card files that are read meanwhile."""

    def __init__(self, chance: random.Random, monday: int, weeks: int) -> None:
        self.chance = chance
        self.days = {monday + place: words_of_day(chance, place % 7) for place in range(7 * weeks)}

    @functools.lru_cache(maxsize=100)
    def record(self, day: int) -> bytes:
        """The record of a whole day."""
        return random_cards.record(day, [random_cards.word(0, *one) for one in self.days[day]])

    def file(self, holder: bytes, day: int, minute: int, days: int, kind: int = 0) -> bytes:
        """The card file that is read at a minute of a day: the days before it, as many as the card has, and that day up to the minute."""
        records = [self.record(one) for one in range(day - days + 1, day) if one in self.days]
        words = [random_cards.word(0, *one) for one in self.days[day] if one[2] < minute]
        records.append(random_cards.record(day, [*words, random_cards.word(0, 0, 2, minute)]))
        data = random_cards.activity_data(records, self.chance.randrange(500), 40)
        return random_cards.block(0x0520, kind, holder + b"00") + random_cards.block(0x0504, kind, data)


def rest_csv(start: int, past: int, author: bytes, note: bytes) -> bytes:
    """The text of CSV with a rest of some days."""
    return rows_csv(slow_csv.SIGNED_HEAD, [*random_commands.fields_of(1440 * start, 1440 * past, "rest"), author, note])


def fill(archive: Archive, chance: random.Random) -> list[Owner]:
    """Makes an archive of twelve drivers over two years: eight with card files of every fourth week, of whom one has left after a year,
    one came in the last, and one was away for two months, for which hours are entered; the example of a year; and others with hours alone,
    with hours that were withdrawn, and with nothing. The hours are entered first, since each command opens the archive."""
    owners = [owner(100 + number) for number in range(11)]
    example = owner(17, slow_reader.card_file(files.read(os.path.join(EXAMPLES, "driver-year.ddd")))[1])
    archive.do("init")
    for place, one in enumerate([*owners, example]):
        archive.register(one, FIRST_MONDAY + 7 * chance.choice([0, 0, place, 100]))
    archive.do("enter", "17", given=files.read(os.path.join(EXAMPLES, "entries.csv")))
    away = FIRST_MONDAY + 7 * 41
    archive.do("enter", "103", given=rest_csv(away, away + 30, "Zo\u00eb".encode(), b"away"))
    archive.do("enter", "103", given=rest_csv(away + 30, away + 40, b"Eva Lund", b""))
    archive.do("withdraw", "103", "2")
    archive.do("enter", "103", given=rest_csv(away + 30, away + 44, b"Eva Lund", b"longer"))
    days = range(FIRST_MONDAY, FIRST_MONDAY + 7 * WEEKS, 30)
    for given in [days[::2], days[1::2]]:
        archive.do("enter", "108", given=hours_csv((1440 * day, 1440 * (day + 20), "rest") for day in given))
    archive.do("enter", "109", given=rest_csv(FIRST_MONDAY + 500, FIRST_MONDAY + 600, b"office", b""))
    archive.do("withdraw", "109", "1")
    cards = os.path.join(os.path.dirname(archive.path), "cards")
    os.mkdir(cards)
    weeks = {1: range(4, 53, 4), 2: range(80, WEEKS, 4), 3: [*range(4, 40, 4), *range(56, WEEKS, 4)]}
    for place, one in enumerate(owners[:8]):
        life = Life(chance, FIRST_MONDAY, WEEKS)
        for number, week in enumerate(weeks.get(place, range(4, WEEKS, 4))):
            day = FIRST_MONDAY + 7 * week + chance.randrange(5)
            given = life.file(one.holder, min(day, FIRST_MONDAY + 7 * WEEKS - 1), chance.randrange(1, 1440), 36, kind=2 * (place % 2))
            files.write(os.path.join(cards, f"{place}-{number:03}.ddd"), given)
    archive.do("import", "both", cards)
    for file in os.listdir(cards):
        os.remove(os.path.join(cards, file))
    os.rmdir(cards)
    archive.do("import", "both", given=files.read(os.path.join(EXAMPLES, "driver-year.ddd")))
    return [*owners, example]


# Days at which these are carried: one amid the hours of the driver who was away, the first, a Monday after the driver who left, one near
# the end, and the last that is read.
DAYS = [FIRST_MONDAY + 7 * 42 + 2, FIRST_MONDAY, FIRST_MONDAY + 7 * 60, FIRST_MONDAY + 7 * WEEKS - 30, LAST_DAY]


def of_years(program: str, days: Sequence[int]) -> counting.Comparisons:
    """The comparisons of the twelve drivers, carried at some days."""
    chance = random.Random("carry years")
    with tempfile.TemporaryDirectory() as folder:
        archive = Archive(program, os.path.join(folder, "archive.db"))
        owners = fill(archive, chance)
        for day in days:
            yield from of_day("years", archive, owners, day, chance)


# Random archives


class Taken(NamedTuple):
    """A card file that was imported: the part by which it was, its bytes, and the minutes that it gives, by the slow reader."""
    part: str
    file: bytes
    minutes: list[int]


def of_known(name: str, archive: Archive, taken: Sequence[Taken], number: str, day: int) -> counting.Comparisons:
    """The comparison of the card files that are listed with those that have to be carried, by what they give."""
    kept = [one for one in taken if one.minutes[-1] >= 1440 * day]
    wanted = [
        f"{place} {one.part} {len(one.file)} {slow_reader.minute_text(one.minutes[0])} {slow_reader.minute_text(one.minutes[-1] + 1)} "
        f"{hashlib.sha256(one.file).hexdigest()}" for place, one in enumerate(kept, 1)
    ]
    listed = archive.lines("files", number) if number in archive.numbers() else []
    yield f"{name}, {date_text(day)}, driver {number}: the card files by the slow reader", listed, wanted


def filled(archive: Archive, cards: Iterable[tuple[Owner, random_cards.Card]], chance: random.Random) -> dict[str, list[Taken]]:
    """Gives an archive files of cards, by parts, with hours between of which some are withdrawn. Answers what was taken of each driver."""
    taken: dict[str, list[Taken]] = {}
    for one, card in cards:
        number = str(one.number)
        taken[number] = []
        for _ in range(IMPORTS):
            part, file = chance.choice(["both", "both", "first", "second"]), card.file()
            if archive.run("import", part, given=file)[0].startswith(b"added "):
                marks = slow_reader.map_of(slow_reader.pairs_of_file(file, part))
                taken[number].append(Taken(part, file, sorted(marks)))
            if chance.random() < 0.4:
                start = 1440 * chance.choice(card.days)[0] + chance.choice([-30, 0, chance.randrange(1440)])
                hours = [(start, start + chance.choice(random_commands.LENGTHS), chance.choice(slow_reader.ACTIVITIES))]
                archive.run("enter", number, given=hours_csv(hours))
            if chance.random() < 0.2:
                archive.run("withdraw", number, "1")
    return taken


def of_seed(program: str, seed: int) -> counting.Comparisons:
    """The comparisons of a random archive of three drivers, carried at days near those of their cards."""
    chance = random.Random(f"carry {seed}")
    with tempfile.TemporaryDirectory() as folder:
        archive = Archive(program, os.path.join(folder, "archive.db"))
        archive.do("init")
        owners = [owner(number, holder) for number, holder in zip(random_commands.NUMBERS, random_cards.HOLDERS)]
        for one in owners:
            archive.register(one, chance.choice(random_commands.BASES))
        cards = [(one, random_cards.Card(chance, one.holder)) for one in owners]
        taken = filled(archive, cards, chance)
        days = [day for _, card in cards for day, _ in card.days]
        for day in {max(FIRST_DAY, min(chance.choice(days) + chance.choice([0, 0, 1]), LAST_DAY)) for _ in range(3)}:
            yield from of_day(f"seed {seed}", archive, owners, day, chance)
            new = Archive(program, os.path.join(folder, f"new-{day}.db"))
            for number, known in taken.items():
                yield from of_known(f"seed {seed}", new, known, number, day)


# Time


def seconds_of(words: Sequence[str], given: bytes = b"") -> tuple[float, bytes]:
    """The processor time that a program takes, in seconds, and what it prints."""
    before = resource.getrusage(resource.RUSAGE_CHILDREN)
    text = subprocess.run(words, input=given, stdout=subprocess.PIPE).stdout
    after = resource.getrusage(resource.RUSAGE_CHILDREN)
    return after.ru_utime + after.ru_stime - before.ru_utime - before.ru_stime, text


def spans_of(life: Life, number: int, past: int) -> list[tuple[int, int, int, int]]:
    """The rows of what a driver does before a minute: driver, start, past and mark."""
    starts = [(1440 * day + minute, activity + 4 * crew) for day, words in life.days.items() for crew, activity, minute in words]
    return [(number, start, min(end, past), mark) for (start, mark), (end, _) in zip(starts, [*starts[1:], (past, 0)]) if start < past]


def measured_rows(cards: dict[int, list[bytes]], lives: dict[int, Life], past: int) -> old_archive.Rows:
    """The rows of an archive of schema 1 with the card files of some drivers, who are known up to a minute."""
    spans = [row for number, life in lives.items() for row in spans_of(life, number, past)]
    drivers = [(one.number, one.holder, one.key, FIRST_MONDAY, one.name.decode(), len(cards[one.number]), 0) for one in map(owner, lives)]
    downloads = [(number, place, 0, file) for number, given in cards.items() for place, file in enumerate(given, 1)]
    return {"meta": [(1, 1)], "drivers": drivers, "downloads": downloads, "card_spans": spans, "entries": [], "held": spans}


def of_time(program: str) -> counting.Comparisons:
    """The time of `carry`, which is printed and not judged, beside that of the imports of the card files that it takes, in one command. The
    archive is one that stock SQLite has made and `migrate` has brought to schema 2, since to import all its files would take longer."""
    chance, weeks = random.Random("carry time"), range(1, MEASURED_WEEKS + 1)
    lives = {number: Life(chance, FIRST_MONDAY, MEASURED_WEEKS + 1) for number in range(1, MEASURED_DRIVERS + 1)}
    cards = {number: [life.file(owner(number).holder, FIRST_MONDAY + 7 * week, 300, 28) for week in weeks]
             for number, life in lives.items()}
    with tempfile.TemporaryDirectory() as folder:
        old, other = Archive(program, os.path.join(folder, "archive.db")), Archive(program, os.path.join(folder, "other.db"))
        old_archive.make(old.path, measured_rows(cards, lives, 1440 * (FIRST_MONDAY + 7 * weeks[-1]) + 300))
        old.do("migrate")
        other.do("init")
        for number in lives:
            other.register(owner(number), FIRST_MONDAY)
        taken = os.path.join(folder, "taken")
        os.mkdir(taken)
        for number, given in cards.items():
            for week, file in zip(weeks, given):
                if week >= MEASURED_FROM:
                    files.write(os.path.join(taken, f"{number:03}-{week:03}.ddd"), file)
        count, path = len(os.listdir(taken)), os.path.join(folder, "new.db")
        carrying, text = seconds_of([program, "carry", old.path, path, date_text(FIRST_MONDAY + 7 * MEASURED_FROM)])
        importing, told = seconds_of([program, "import", other.path, "both", taken])
        yield "time: carry", text, f"carried {len(lives)} of {len(lives)} drivers\n".encode()
        yield "time: import", told.splitlines()[-1:], [b"%d added, 0 repeated, 0 refused" % count]
        yield "time: card files", kept_rows(path)[1] == kept_rows(other.path)[1], True
        size = os.stat(old.path).st_size / 2**20
        print(f"measured: {len(lives)} drivers with {len(weeks)} weekly card files each, {size:.0f} MB: carry takes {carrying:.2f} s of "
              f"processor time for {count} of them, and their import into a new archive {importing:.2f} s", flush=True)


# All


def comparisons(program: str) -> counting.Comparisons:
    program = os.path.abspath(program)
    days = DAYS[: seeds.tried(len(DAYS))]
    questions: list[Sequence[Any]] = [(of_time, program)]
    questions += [(of_years, program, some) for some in (days[::2], days[1::2]) if some]
    questions += [(of_seed, program, seed) for seed in range(SEEDS)]
    yield from pools.of_questions(questions, PROCESSES)


if __name__ == "__main__":
    sys.exit(counting.count(comparisons(*sys.argv[1:])))
