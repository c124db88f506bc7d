"""Random commands of the office, from a seed: three drivers and their cards, files of these, whole or in part, and hours that agree
with what is held, or touch it, or contradict it, some of them with an author and a note, or with faults in their rows. A command is its
arguments, without the archive's path, and its input."""
import datetime
import random
from collections.abc import Callable, Iterable, Sequence
from typing import Any

from inputs import random_cards
from slow import slow_csv, slow_office, slow_reader
from slow.slow_office import Command
from slow.slow_rules import Span

Columns = tuple[int, bytes, str, int, bytes]  # of a driver: number, holder, key, base and name

COMMANDS = 40

NUMBERS = [17, 18, 999_999]
KEYS = ["anna-key-1", "bert-key-2", "Key3" * 16]
NAMES = [b"Anna Berg", "Zo\u00eb".encode(), b"B" * 64]
OTHER_NAMES = [b"Anna Lind", b" ", "\u00f6".encode() * 32, b"a'b;c"]
BASES = [19_786, 19_793, 10_959, 47_478]
BAD_NUMBERS = [0, 1_000_000]
OTHER_KEYS = ["anna-key-2", "k" * 8]
BAD_KEYS = ["short-1", "under_score", "k" * 65]
BAD_NAMES = [b"", b"Berg, Anna", b'Anna "A"', b"Anna\x7f", b"n" * 65]
OTHER_BASES = [19_787, 19_792, 10_958, 47_482, 0]
LENGTHS = [1, 2, 30, 60, 300, 1440, 2880]
MINUTES = range(1440 * slow_reader.READ_DAYS.start, 1440 * slow_reader.READ_DAYS.stop)

# Authors and notes at their limits, and beyond them; two bytes are a letter `\u00f6`, and one of them alone is none.
AUTHORS = [b"office", b"Eva Lund", "Zo\u00eb".encode(), b"a", b"a'b;c", b" ", 64 * b"a", 32 * "\u00f6".encode()]
NOTES = [b"", b"", b"day off", "l\u00e4kare".encode(), b" ", 200 * b"n", 100 * "\u00f6".encode(), 50 * "\U0001f69a".encode()]
BAD_TEXTS = [b"a, b", b"a,", b'"', b'Eva "E"', b"a\n", b"a\r\nb", b"\ta", b"a\0b", b"\x1f", b"a\x7f", b"\x80", b"\xff", b"Zo\xc3"]
BAD_AUTHORS = [b"", 65 * b"a", 63 * b"a" + "\u00f6".encode(), 63 * b"a" + b"\xc3", 33 * "\u00f6".encode(), 200 * b"n", *BAD_TEXTS]
BAD_NOTES = [201 * b"n", 199 * b"n" + "\u00f6".encode(), 199 * b"n" + b"\xc3", 101 * "\u00f6".encode(), *BAD_TEXTS]

# What replaces a time or an activity.
BAD_TIMES = ["", "2024-03-04", "2024-03-04T00:00", "2024-3-4 00:00", " 2024-03-04 00:00", "2024-03-04 00:00:00", "04.03.2024 00:00"]
BAD_TIMES += ["2023-02-29 00:00", "2024-13-01 00:00", "2024-03-04 24:00", "2024-03-04 00:60", "2000-01-02 23:59", "2100-01-01 00:00"]
BAD_WORDS = ["crew", "ferry", "out", "derogation", "", "Rest", "rest ", "lunch", "Crew", "driving", "\u00f6"]

# The months in which the cards have their days, and the readings of all that a driver holds in them.
MONTHS = ["2000-01", "2024-03", "2099-12"]
TIMELINE = [*[("spans", month) for month in MONTHS], ("sheet", MONTHS[1])]


# Texts of CSV


def date_text(day: int) -> str:
    """The date of a day's number."""
    return (slow_office.EPOCH + datetime.timedelta(days=day)).isoformat()


def field(text: bytes) -> bytes:
    """A field of CSV, in quotes if it needs them."""
    needs_quotes = any(byte in text for byte in b',"\r\n')
    return b'"' + text.replace(b'"', b'""') + b'"' if needs_quotes else text


def rows_csv(*rows: Iterable[bytes]) -> bytes:
    """The text of CSV with rows of fields."""
    return b"".join(b",".join(map(field, row)) + b"\n" for row in rows)


def driver_csv(number: int, holder: bytes, key: str, base: int, name: bytes) -> bytes:
    """The text of CSV with a driver."""
    columns = [str(number).encode(), holder.hex().encode(), key.encode(), date_text(base).encode(), name]
    return rows_csv(slow_csv.DRIVER_HEAD, columns)


def fields_of(start: int, past: int, activity: str) -> list[bytes]:
    """The fields of hours."""
    return [text.encode() for text in (slow_reader.minute_text(start), slow_reader.minute_text(past), activity)]


def hours_csv(spans: Iterable[Span]) -> bytes:
    """The text of CSV with hours: a start, a past and an activity each."""
    return rows_csv(slow_csv.ENTRIES_HEAD, *[fields_of(*span) for span in spans])


def rows_of(chance: random.Random, spans: Iterable[Span]) -> list[list[bytes]]:
    """The head and the rows of hours: half of them have authors and notes."""
    rows = [fields_of(*span) for span in spans]
    if chance.random() < 0.5:
        return [[*slow_csv.ENTRIES_HEAD], *rows]
    return [[*slow_csv.SIGNED_HEAD], *[[*row, chance.choice(AUTHORS), chance.choice(NOTES)] for row in rows]]


def spoil_hours(chance: random.Random, rows: list[list[bytes]]) -> None:
    """Puts a fault into a row of hours, mostly into its author or note if it has them. A row that lacks fields stays as it is."""
    row = chance.choice(rows)
    if len(row) < 3:
        return
    kind = chance.choice([*range(7), *[7, 8] * 5 * (len(row) == 5)])
    if kind == 0:
        row.append(b"")
    elif kind == 1:
        row.pop()
    elif kind == 2:
        row[chance.randrange(2)] = chance.choice(BAD_TIMES).encode()
    elif kind == 3:
        row[0] = slow_reader.minute_text(chance.choice(MINUTES)).encode()
    elif kind == 4:
        row[2:3] = [chance.choice(BAD_WORDS).encode()]
    elif kind == 5:
        row[:2] = [row[0], row[0]]
    elif kind == 6:
        row[0] = b"2000-01-03 00:00"
    elif kind == 7:
        row[3] = chance.choice(BAD_AUTHORS)
    else:
        row[4] = chance.choice(BAD_NOTES)


# Commands


class Commands:
    """Commands of a seed, on a few drivers and their cards, and on what these hold after the commands before."""

    def __init__(self, seed: int | str) -> None:
        self.chance = random.Random(seed)
        self.cards = [random_cards.Card(self.chance, holder) for holder in random_cards.HOLDERS]
        self.imports: list[Command] = []
        self.office = slow_office.Office()
        self.drivers = self.office.archive.drivers

    def one_of(self, usual: Sequence[Any], others: Sequence[Any] = ()) -> Any:
        """A usual value, or rarely another one."""
        return self.chance.choice(others if others and self.chance.random() < 0.05 else usual)

    def columns(self, number: int, holder: bytes, key: str, name: bytes) -> Columns:
        """The columns of a driver, from any base."""
        return number, holder, key, self.one_of(BASES, OTHER_BASES), name

    def register(self) -> Command:
        """A driver, who may have what another has, or a column out of its limits."""
        number, key = self.one_of(NUMBERS, BAD_NUMBERS), self.one_of(KEYS, BAD_KEYS)
        columns = self.columns(number, self.one_of(self.cards).holder, key, self.one_of(NAMES, BAD_NAMES))
        return ["register"], driver_csv(*columns)

    def first_drivers(self) -> list[Columns]:
        """The columns of all drivers, or of all but one of them."""
        holders = [card.holder for card in self.cards]
        drivers = [self.columns(*given) for given in zip(NUMBERS, holders, KEYS, NAMES)]
        return self.chance.sample(drivers, self.one_of([3, 3, 3, 2]))

    def registrations(self) -> list[Command]:
        """The registrations of these."""
        return [(["register"], driver_csv(*columns)) for columns in self.first_drivers()]

    def import_new(self) -> Command:
        """The import of a new file by the office or by a driver, mostly the one whose card it is."""
        place = self.chance.randrange(len(self.cards))
        caller = self.one_of(["office", "office", NUMBERS[place]], [*NUMBERS, 16])
        part = self.one_of(["both"] * 8 + ["first", "second"])
        words = ["import", part] if caller == "office" else ["own", str(caller), part]
        self.imports.append((words, self.cards[place].file()))
        return self.imports[-1]

    def import_again(self) -> Command:
        """An import that there was before, if there was one."""
        return self.one_of(self.imports) if self.imports else self.import_new()

    def rebase(self) -> Command:
        """Another base, not always a Monday."""
        return ["base", str(self.one_of(NUMBERS, [1, 16])), date_text(self.one_of(BASES, OTHER_BASES))], b""

    def rekey(self) -> Command:
        """Another key, which another driver may have, or a text that is none."""
        key, end = self.one_of([*KEYS, *OTHER_KEYS], BAD_KEYS), self.one_of(["", "\n", "\r\n"], ["\r", "\n\n", " "])
        return ["key", str(self.one_of(NUMBERS, [1, 16]))], f"{key}{end}".encode()

    def rename(self) -> Command:
        """Another name, which another driver may have, or a text that is none."""
        name, end = self.one_of([*NAMES, *OTHER_NAMES], BAD_NAMES), self.one_of([b"", b"\n", b"\r\n"], [b"\r", b"\n\n", b","])
        return ["name", str(self.one_of(NUMBERS, [1, 16]))], name + end

    def download(self) -> Command:
        """A file that is there or not."""
        return ["file", str(self.one_of(NUMBERS, [16])), str(1 + self.chance.randrange(4))], b""

    def handover(self) -> Command:
        """What is handed over of a period near a card's days, or of days that are no period."""
        first = self.chance.choice(self.chance.choice(self.cards).days)[0] + self.chance.choice([-2, -1, 0, 0, 0, 1])
        past = first + self.one_of([1, 1, 2, 3, 5, 31, 366], [-1, 0, 367])
        return ["handover", str(self.one_of(NUMBERS, [1, 16])), date_text(first), date_text(past)], b""

    def driver(self) -> tuple[int, list[list[Any]]]:
        """A driver's number, and what the driver holds: start, past and mark of each run of minutes."""
        number = self.one_of(NUMBERS, [1, 16])
        driver = self.drivers.get(number)
        return number, slow_reader.runs(driver.held().items()) if driver else []

    def start(self, runs: Sequence[list[Any]]) -> int:
        """A minute from which hours are: one where held minutes begin or end, or close to it, or any of a card's days."""
        if runs and self.chance.random() < 0.8:
            return self.chance.choice(self.chance.choice(runs)[:2]) + self.one_of([-30, -1, 0, 0, 0, 1, 30])
        return 1440 * self.chance.choice(self.chance.choice(self.cards).days)[0] + self.chance.randrange(1440)

    def activity(self, runs: Sequence[list[Any]], start: int, past: int) -> str:
        """An activity: mostly one that a held minute has among these, or beside them, if there is any."""
        near = [mark for a, b, mark in runs if a <= past and b >= start]
        if near and self.chance.random() < 0.9:
            return self.chance.choice(near)[0]
        return slow_reader.ACTIVITIES[self.chance.randrange(4)]

    def hours(self, runs: Sequence[list[Any]], start: int, past: int) -> Span:
        """Hours within some minutes, which may end where others of what is held begin or end."""
        ends = [end for run in runs for end in run[:2] if start < end <= past]
        if ends and self.chance.random() < 0.5:
            past = self.chance.choice(ends)
        return start, past, self.activity(runs, start, past)

    def batch(self, spans: Sequence[Span]) -> bytes:
        """The text of a batch of hours, at times with faults in its rows."""
        rows = rows_of(self.chance, spans)
        count = self.chance.choice([1, 1, 2, 3]) if spans and self.chance.random() < 0.25 else 0
        for _ in range(count):
            spoil_hours(self.chance, rows[1:])
        return rows_csv(*rows)

    def enter(self) -> Command:
        """A batch of hours, or of none: lines that agree with what the driver holds, or touch it, or contradict it."""
        number, runs = self.driver()
        starts = sorted({self.start(runs) for _ in range(self.one_of([1, 1, 2, 3, 4], [0]))})
        spans = [
            self.hours(runs, start, min(start + self.chance.choice(LENGTHS), limit))
            for start, limit in zip(starts, [*starts[1:], MINUTES[-1]])
            if start in MINUTES and start < limit
        ]
        return ["enter", str(number)], self.batch(spans)

    def withdraw(self) -> Command:
        """A withdrawal of an entry that is kept or withdrawn, or of one that there isn't, or of a range of entries."""
        drivers = [driver for driver in self.drivers.values() if driver.entries]
        if not drivers or self.chance.random() < 0.1:
            number, entry = self.one_of(NUMBERS, [1, 16]), 1 + self.chance.randrange(4)
        else:
            driver = self.chance.choice(drivers)
            number, entry = driver.number, self.chance.randrange(1, len(driver.entries) + 1)
        last = entry + self.one_of([0, 0, 1, 1, 2, 5], [-1, 1_000])
        ends = [str(last)] if self.chance.random() < 0.4 else []
        return ["withdraw", str(number), str(entry), *ends], b""

    def entries(self) -> Command:
        """A driver's entries."""
        return ["entries", str(self.one_of(NUMBERS, [1, 16]))], b""

    def timeline(self) -> list[Command]:
        """A driver's timeline: several commands."""
        number = str(self.one_of(NUMBERS, [1, 16]))
        return [([word, number, month], b"") for word, month in TIMELINE]

    def all(self) -> list[Command]:
        """The commands: some drivers first, and then anything."""
        kinds: list[Callable[[], Any]] = [self.import_new] * 7 + [self.enter] * 7 + [self.withdraw] * 4
        kinds += [self.import_again, self.timeline, self.entries, self.download, self.handover, self.handover, self.rebase]
        kinds += [self.rekey, self.rename, self.register]
        commands = self.registrations()
        for command in commands:
            self.office.answer(*command)
        for _ in range(COMMANDS - len(commands)):
            kind = self.chance.choice(kinds)
            if kind == self.timeline:
                commands += kind()
            else:
                commands.append(kind())
                self.office.answer(*commands[-1])
        return commands
