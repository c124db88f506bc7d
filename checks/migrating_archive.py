#!/usr/bin/env python3
"""Gives the program archives of schema 1, each of which every command but `migrate` has to refuse, has them migrated to schema 2, and
compares each row with that of the old file and all answers after that with a slow office. A migration is also ended at many moments:
what is left has to be the old archive or the new one, and the next migration ends it.

SQLite itself writes the old archives (lib/old_archive.py), and reads the new ones: worked ones, that of examples/archive-schema-1.sql, and
what random command lines have left, with thousands of entries in some. Arguments: the program and, for longer lists of commands at
archives that were migrated, `tool_script`. The last line is 'N passed, M failed'."""
import contextlib
import datetime
import multiprocessing
import os
import random
import socket
import sqlite3
import subprocess
import sys
import tempfile
import time
from typing import Any

from inputs import random_commands
from lib import counting, files, killing, office_lines, office_rows, old_archive, pools, programs
from lib.advice import without_any
from lib.archive import MIGRATED_TABLES, of_tables, rows_at, rows_of, sound
from lib.files import EXAMPLES
from lib.office import CHANGES, COMMANDS, STORE_FAILED, WITH_ANNA, Desk, of_refused_file, to_full, to_nobody
from lib.office_rows import DAY_OFF, DAY_OFF_LINE, FREE_LINE, LONG_NOTE, NO_AUTHOR, SATURDAY, done, refused
from lib.script import answers, wanted_of
from lib.server import BAD_KEY, HOST, OFFICE, free_port
from slow import slow_archive, slow_office

SEEDS = 60
SCRIPT_SEEDS = 40
PROCESSES = 2
KILLS, ROUNDS = 200, 8  # 200 in all, in 8 lists
SECONDS = 60
EXAMPLE = os.path.join(EXAMPLES, "archive-schema-1.sql")
NEW = "new.db"  # in whose place `carry` makes none of an old archive
OLD = (b"S13 old archive\n", 1, b"")
MIGRATED = (b"migrated\n", 0, b"")

# What is refused before its arguments and its input are looked at.
BAD_COMMANDS = ["import whole", "enter 017", "withdraw 17 0", "withdraw 17 2 1", "base 17 2024-02-30", "name 017", "form 17 2024-02-30"]
BAD_COMMANDS += ["sheet 17 2024-13", "breaches 18", "file 17 2", "handover 17 2024-03-01 2024-03-01"]

# The readings of all drivers.
OF_ALL = [["drivers"], ["forecast", "2024-03-05", "12:00"], ["standing", "2024-03"]]

# In the archive of one driver, before it is migrated and after that.
ENTERED = [(["enter", "17"], office_rows.FREE_DAYS), (["withdraw", "17", "1"], b"")]

FIRST = [*WITH_ANNA, *ENTERED, (["import", "both"], SATURDAY)]
HELD = "2024-03-09 00:00,2024-03-09 08:00,rest,single\n2024-03-09 08:00,2024-03-09 10:00,work,single\n"

ROWS = [
    done("migrate", "migrated\n"),
    done("entries 17", FREE_LINE),
    done("spans 17 2024-03", f"start,past,activity,manning\n{HELD}"),
    done("file 17 1", SATURDAY),
    done("drivers", f"17 {office_rows.HOLDER} 2024-03-04 1 1 Anna Berg\n"),
    refused("withdraw 17 1", "S8 already withdrawn"),
    refused("enter 17", "E10 bad author in row 2", NO_AUTHOR),
    refused("enter 17", "E10 bad note in row 2", LONG_NOTE),
    done("enter 17", "entered 2 to 2\n", DAY_OFF),
    done("entries 17", FREE_LINE + DAY_OFF_LINE),
    done("migrate", "migrated\n"),
    done("entries 17", FREE_LINE + DAY_OFF_LINE),
]


# An old archive


class OldDesk(Desk):
    """The program at an archive of schema 1 in a folder, beside a slow office."""

    def __init__(self, program, folder, office, make=old_archive.make, chance=None):
        super().__init__(program, folder)
        self.office = office
        self.rows = old_archive.rows_of(office.archive, chance)
        make(self.path, self.rows)
        self.whole = files.content(self.path)

    def restore(self):
        """Makes the file what it was, without a log."""
        with contextlib.suppress(FileNotFoundError):
            os.remove(self.path + "-wal")
        files.write(self.path, self.whole)

    def old(self):
        """What SQLite finds in the file before it is migrated."""
        return rows_of(sound(old_archive.TABLES, self.rows))

    def new(self):
        """What it has to find in it after that: each row as it was, and each entry by the office, without a note."""
        entries = [(*row, "office", "") for row in self.rows["entries"]]
        rows = {**self.rows, "meta": [(1, 2)], "entries": [], "entry_rows": entries}
        return rows_of(sound(MIGRATED_TABLES, rows))

    def carried(self, name):
        """The comparisons of a migration, and of another one after it, which changes nothing."""
        yield f"{name}: migrate", self.run(["migrate"]), MIGRATED
        yield f"{name}: its rows", rows_of(rows_at(self.path)), self.new()
        before = files.lying_at(self.path)
        yield f"{name}: migrate once more", self.run(["migrate"]), MIGRATED
        yield f"{name}: what lies there then", files.lying_at(self.path), before

    def renewed(self, name: str, date: str) -> counting.Comparisons:
        """The comparisons of a new archive of what is needed from a day on, which has the tables that `init` makes, and of a reading of all
        drivers. The old archive stays as it is."""
        before = files.both_of(self.path)
        yield f"{name}: carry from {date}", *self.both(["carry", f"{date}.db", date])
        yield f"{name}: carry from {date}: the old archive", files.both_of(self.path) == before, True
        new = self.carried_to(f"{date}.db")
        yield new.tables(f"{name}: carry from {date}")
        yield f"{name}: carry from {date}: drivers", *new.both(["drivers"])
        yield f"{name}: carry from {date}: check", new.run(["check"]), (b"sound\n", 0, b"")

    def tables(self, name):
        """The comparison of the tables of the file, which was migrated, with those that it has to have."""
        return of_tables(name, self.path, self.office.archive, is_migrated=True)


def make_plain(path, rows):
    """Makes the file of an archive as SQLite does by itself, without sums."""
    old_archive.make(path, rows, has_sums=False)


def example():
    """The text of the example."""
    with open(EXAMPLE, encoding="utf-8") as file:
        return file.read()


def make_by_text(path, _):
    """Makes the file of the example by its text."""
    with contextlib.closing(sqlite3.connect(path)) as store, store:
        store.executescript(example())


# Before it is migrated


def ended(words):
    """What a program prints, but for a sentence on its archive, or that it didn't end."""
    try:
        text, status, errors = programs.told_by(words, timeout=SECONDS)
        return text, status, without_any(words, errors)
    except subprocess.TimeoutExpired as fault:
        return repr(fault)


def of_serve(desk, name):
    """The comparisons of `serve` at an old archive: it ends before it takes its port, and after a look at its key."""
    with socket.create_server((HOST, 0)) as other:
        taken = str(other.getsockname()[1])
        for key, port, wanted in [
            (OFFICE, str(free_port()), OLD),
            (OFFICE, taken, OLD),
            ("short-1", taken, (*BAD_KEY, b"")),
        ]:
            yield f"{name}: serve {key} {port}", ended(desk.words(["serve", key, port, "1"])), wanted


def of_old(desk, name):
    """The comparisons of each command at an old archive: it is refused, and what lies there stays as it is."""
    before = files.lying_at(desk.path)
    yield from of_refused_file(desk, name, lambda path: None, [*COMMANDS, *BAD_COMMANDS], OLD)
    yield from of_refused_file(desk, name, lambda path: None, ["init"])
    for date, line in [("2024-3-4", b"Z1 not of the shape\n"), ("2024-02-30", b"Z2 no such date\n"), ("2100-01-01", b"Z3 out of range\n")]:
        yield f"{name}: carry from {date}", desk.run(["carry", NEW, date]), (line, 1, b"")
    for words, given in CHANGES:
        yield f"{name}: {words} with an input", desk.run(words, given), OLD
    for words in [["register"], ["enter", "17"]]:
        yield f"{name}: {words} waits for nobody", programs.unasked(desk.words(words)), OLD[:2]
    yield from of_serve(desk, name)
    yield f"{name}: too many arguments", desk.run(["migrate", "17"])[:2], (b"", 2)
    yield f"{name}: what lies there after all", files.lying_at(desk.path), before
    yield f"{name}: its rows after all", rows_of(rows_at(desk.path)), desk.old()


# Worked archives


def of_rows(program, name, make):
    """The comparisons of the worked rows, and of the slow office with what they say."""
    with tempfile.TemporaryDirectory() as folder:
        desk = OldDesk(program, folder, old_archive.office_after(FIRST), make)
        yield from of_old(desk, name)
        for number, row in enumerate(ROWS, 1):
            wanted = row.text, row.status, b""
            told, slow = desk.both(row.words, row.given)
            yield f"{name}, row {number}: {row.words}", told, wanted
            yield f"{name}, row {number}: {row.words}, by the slow office", slow, wanted
        yield desk.tables(name)


def of_worked(program, name):
    """The comparisons of a worked row's archive at its end, as schema 1 has it: migrated, each of its rows is there, and what is
    asked then is answered as by the slow office."""
    office = slow_office.Office()
    for words, given in [(["register"], office_rows.ANNA), *[(row.words, row.given) for row in office_rows.ROWS[name]]]:
        office.answer(words, given)
    old_archive.forget_signs(office.archive)
    with tempfile.TemporaryDirectory() as folder:
        desk = OldDesk(program, folder, office)
        yield from desk.carried(name)
        for number in office.archive.drivers:
            for words in readings_of(number, ["2024-03"]):
                yield f"{name}: {words}", *desk.both(words)
        for words in OF_ALL:
            yield f"{name}: {words}", *desk.both(words)
        yield desk.tables(name)


def readings_of(driver, months):
    """The readings of a driver: the arguments of each."""
    words = [f"{word} {{}} {month}" for word in ["spans", "gaps", "sheet", "chart", "why"] for month in months]
    words += [f"ahead {{}} {months[-1]}-05 12:00", f"form {{}} {months[-1]}-05"]
    words += [f"handover {{}} {months[-1]}-04 {months[-1]}-12"]
    words += ["breaches {}", "owed {}", "entries {}", "files {}", "file {} 1", "file {} 2", "withdraw {} 1", "withdraw {} 1 2"]
    return [text.format(driver).split(" ") for text in words]


def of_example(program, name, make):
    """The comparisons of the example: migrated, each driver's readings are as by the slow office."""
    with tempfile.TemporaryDirectory() as folder:
        desk = OldDesk(program, folder, old_archive.office_after(old_archive.EXAMPLE), make)
        yield from of_old(desk, name)
        yield from desk.carried(name)
        for words in [*OF_ALL, *readings_of(17, ["2024-03"]), *readings_of(18, ["2024-02", "2024-03"]), *readings_of(19, ["2024-03"])]:
            yield f"{name}: {words}", *desk.both(words)
        for words, given in [(["enter", "18"], DAY_OFF), (["enter", "17"], NO_AUTHOR), (["entries", "18"], b"")]:
            yield f"{name}: {words}", *desk.both(words, given)
        yield desk.tables(name)
        for date in ["2024-03-04", "2024-03-06", "2024-03-12"]:
            yield from desk.renewed(name, date)


def of_text():
    """The comparisons of the example's text: it is what `old_archive.py` prints, and SQLite makes these rows of it."""
    rows = old_archive.example_rows()
    yield "the text of the example", example().splitlines(), old_archive.text_of(rows).splitlines()
    with tempfile.TemporaryDirectory() as folder:
        path = os.path.join(folder, "archive.db")
        make_by_text(path, rows)
        wanted = rows_of(sound(old_archive.TABLES, rows))
        yield "the rows of the example", rows_of(rows_at(path)), wanted


# Devices


def of_devices(program):
    """The comparisons of outputs that can't be written, after which the archive is migrated, and of an input that nobody writes."""
    for name, run in [("a full device", to_full), ("a closed pipe", to_nobody)]:
        with tempfile.TemporaryDirectory() as folder:
            desk = OldDesk(program, folder, old_archive.office_after(FIRST))
            yield f"{name}: a command at an old archive", run(desk, ["drivers"], b""), (3, b"")
            yield f"{name}: migrate", run(desk, ["migrate"], b""), (3, b"")
            yield desk.tables(f"{name}: migrate")
    with tempfile.TemporaryDirectory() as folder:
        desk = OldDesk(program, folder, old_archive.office_after(FIRST))
        yield "migrate waits for nobody", programs.unasked(desk.words(["migrate"])), MIGRATED[:2]
        yield desk.tables("migrate without an input")


def of_damage(program):
    """The comparisons of a migration of a file with a bit changed in each of its pages: it is refused, and the file stays as it is."""
    with tempfile.TemporaryDirectory() as folder:
        desk = OldDesk(program, folder, old_archive.office_after(old_archive.EXAMPLE))
        for number in range(len(desk.whole) // files.PAGE):
            bad = bytearray(desk.whole)
            bad[number * files.PAGE + 100 + 37 * number] ^= 1 << number % 8
            desk.restore()
            files.write(desk.path, bad)
            yield f"migrate with a bit of page {number} changed", desk.run(["migrate"]), STORE_FAILED
            yield f"migrate with a bit of page {number} changed: the file", files.content(desk.path), bytes(bad)
        desk.restore()
        yield from desk.carried("after the bits are back")


# Random archives


def add_entries(chance, driver, count):
    """Gives a driver of a slow archive more entries, from 2010 on, one after the other, of which some are withdrawn."""
    start = 1440 * slow_office.day_number(datetime.date(2010, 1, 4))
    for _ in range(count):
        start += chance.choice([0, 0, 30])
        entry = slow_archive.Entry(start, start + 15, chance.randrange(4), "office", "")
        entry.is_withdrawn = chance.random() < 0.1
        driver.entries.append(entry)
        start += 15


def office_of(chance, lines, count):
    """The slow office after some lines, without authors and notes, with more entries of one driver, and fewer of the others."""
    office = slow_office.Office()
    for line in lines:
        office.answer(*line)
    old_archive.forget_signs(office.archive)
    for place, driver in enumerate(office.archive.drivers.values()):
        add_entries(chance, driver, count >> 2 * place)
    return office


def of_seed(program, seed):
    """The comparisons of what random command lines have left, refused and then migrated, and of more lines at it. With some seeds
    nothing was there but the tables."""
    lines, chance = office_lines.Lines(seed).lines(), random.Random(seed)
    begun = seed % 4 * office_lines.LINES // 4
    office = office_of(chance, lines[:begun], 3_000 if seed % 6 == 3 else 0)
    name = f"seed {seed}"
    with tempfile.TemporaryDirectory() as folder:
        desk = OldDesk(program, folder, office, make_plain if seed % 5 == 4 else old_archive.make, chance)
        words, given = chance.choice(lines)
        yield f"{name}: {words} before", desk.run(words, given), MIGRATED if words == ["migrate"] else OLD
        yield from desk.carried(name)
        for number, (words, given) in enumerate(lines[begun:], begun + 1):
            yield f"{name}, line {number}: {words}", *desk.both(words, given)
        yield desk.tables(name)


def of_script(program, script, seed):
    """The comparisons of random commands to `tool_script` at what commands before have left, migrated by the program."""
    commands, chance = random_commands.Commands(seed).all(), random.Random(seed)
    half = len(commands) // 2
    name = f"seed {seed} by the script"
    with tempfile.TemporaryDirectory() as folder:
        desk = OldDesk(program, folder, office_of(chance, commands[:half], 0), chance=chance)
        yield from desk.carried(name)
        wanted = wanted_of(desk.office, commands[half:])
        yield name, answers([script, "archive", desk.path], folder, commands[half:]), wanted
        yield desk.tables(name)


# Migrations that are ended


def running_at(desk):
    """A migration that runs."""
    return subprocess.Popen(desk.words(["migrate"]), stdin=subprocess.DEVNULL, stdout=subprocess.DEVNULL, stderr=subprocess.DEVNULL)


def measured(desk):
    """How long a migration takes that nobody ends, in seconds, and how often it changes its files."""
    with running_at(desk) as running:
        start = time.monotonic()
        count = killing.watch(running, desk.path, sys.maxsize)
        return time.monotonic() - start, count


def kill(desk, chance, seconds, count):
    """Ends a migration at a random moment."""
    with running_at(desk) as running:
        killing.wait(running, desk.path, chance, seconds, count)
        killing.end(running)


def left(desk, folder):
    """What an end has left, by SQLite over a copy of the file and its log: the old archive, or the new one, or what it is."""
    found = rows_of(rows_at(files.copied(desk.path, folder)))
    return "old" if found == desk.old() else "new" if found == desk.new() else found


def of_kills(program, number):
    """The comparisons of migrations of an archive with many entries, each of which is ended at a random moment."""
    chance = random.Random(number)
    office = office_of(chance, office_lines.Lines(3 * number + 1).lines()[:15], 4_000)
    with tempfile.TemporaryDirectory() as folder, tempfile.TemporaryDirectory() as aside:
        desk = OldDesk(program, folder, office, make_plain if number % 4 == 3 else old_archive.make, chance)
        seconds, count = measured(desk)
        listed = office.answer(["drivers"])
        for place in range(KILLS // ROUNDS):
            name = f"end {place} of list {number}"
            desk.restore()
            kill(desk, chance, seconds, count)
            kind = left(desk, aside)
            yield f"{name}: what is left", kind, kind if kind in ("old", "new") else "old or new"
            yield f"{name}: what the program says", desk.run(["drivers"]), OLD if kind == "old" else (*listed, b"")
            yield f"{name}: migrate once more", desk.run(["migrate"]), MIGRATED
            yield f"{name}: its rows", rows_of(rows_at(desk.path)), desk.new()


# All


def comparisons(program: str, script: str | None = None) -> counting.Comparisons:
    program = os.path.abspath(program)
    questions: list[tuple[Any, ...]] = [(of_text,), (of_devices, program), (of_damage, program)]
    questions += [(of_rows, program, "one driver", old_archive.make), (of_rows, program, "one driver, without sums", make_plain)]
    questions += [(of_example, program, "the example", old_archive.make), (of_example, program, "the example's text", make_by_text)]
    questions += [(of_worked, program, name) for name in office_rows.ROWS]
    questions += [(of_seed, program, seed) for seed in range(SEEDS)]
    questions += [(of_script, program, os.path.abspath(script), seed) for seed in range(SCRIPT_SEEDS) if script]
    kills = [(of_kills, program, number) for number in range(ROUNDS)]
    kinds = set()
    with multiprocessing.Pool(PROCESSES) as pool:
        for found in pool.imap(pools.of_question, questions + kills):
            yield from found
            kinds.update(told for name, told, _ in found if name.endswith(": what is left") and isinstance(told, str))
        pool.close()
        pool.join()
    yield "what ends have left", sorted(kinds), ["new", "old"]


if __name__ == "__main__":
    sys.exit(counting.count(comparisons(*sys.argv[1:])))
