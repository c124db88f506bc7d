#!/usr/bin/env python3
"""Gives an archive in a file random commands, and compares what it prints of each and the status with the slow office, and with those of
the archive in memory; then it reads the file's tables by SQLite itself.

The file is closed after half of the commands, and opened again for the others. Argument: the program `tool_script`.
The last line is 'N passed, M failed'."""
import datetime
import multiprocessing
import os
import sys
import tempfile

from inputs import random_cards, random_commands
from lib import counting, office_rows, seeds
from lib.office_rows import (
    ADDED, ANNA, BOTH, BREACH, DAY, DAY_OFF, DAY_OFF_LINE, EXAMINED, FREE_DAYS, FREE_LINE, LONG_NOTE, NO_AUTHOR, NOON, NOTHING,
    OTHER_DAY, SATURDAY, SPANS, bert, done, hours, refused,
)
from lib.script import answers, of_commands, wanted_of
from slow import slow_office

SEEDS = seeds.tried(160)
PROCESSES = 2


# Worked rows: commands, and what they print.

REST = "2024-03-04 00:00,2024-03-04 08:00,rest"
WORK = "2024-03-04 08:00,2024-03-04 08:30,work"
DRIVE = "2024-03-04 08:30,2024-03-04 17:00,drive"
NIGHT = "2024-03-05 00:00,2024-03-05 08:00,rest"
EVENING = "2024-03-04 17:01,2024-03-05 08:00,rest"
NEXT_DRIVE = "2024-03-05 08:00,2024-03-05 18:00,drive"
NEXT_BREACH = "B1 Art 7 at 2024-03-05 12:30 since 2024-03-05 08:00 amount 330\n"
SPAN_HEAD = "start,past,activity,manning\n"
MORNING = f"{SPAN_HEAD}{REST},single\n{WORK},single\n"
LONG_DRIVE = "2024-03-04 08:30,2024-03-04 18:00,drive,single\n"
LONG_NIGHT = "2024-03-04 23:00,2024-03-05 08:00,rest,single\n"
REFUSED_DAY = "S6 contradiction at 2024-03-04 08:00"
FILE_SPANS = done("spans 17 2024-03", SPANS)
FILE_MORNING = done("spans 17 2024-03", MORNING)
NO_SPANS = done("spans 17 2024-03", SPAN_HEAD)
NO_SECOND = refused("file 17 2", "S10 unknown download")
REPEATED = "repeated driver 17\n"
OTHER_HOLDER = random_cards.HOLDERS[1].hex()

# In an archive that has Anna.
ROWS = {
    "a day": [ADDED, FILE_SPANS, done("file 17 1", DAY), NO_SECOND],
    "no records": [done("import both", REPEATED, NOTHING), NO_SPANS, refused("file 17 1", "S10 unknown download")],
    "a morning, and its day": [
        done("import both", "added driver 17 number 1\n", NOON),
        FILE_MORNING,
        done("import both", "added driver 17 number 2\n", DAY),
        FILE_SPANS,
        done("import both", REPEATED, NOON),
        done("file 17 2", DAY),
        refused("file 17 3", "S10 unknown download"),
    ],
    "another day": [ADDED, refused("own 17 both", REFUSED_DAY, OTHER_DAY), FILE_SPANS, NO_SECOND],
    "two generations": [
        refused("import both", "C14 file contradicts itself at 2024-03-04 08:00", BOTH),
        NO_SPANS,
        done("import first", "added driver 17 number 1\n", BOTH),
        refused("own 17 second", REFUSED_DAY, BOTH),
        FILE_SPANS,
    ],
    "a driver's own imports": [
        done("own 17 both", "added driver 17 number 1\n", NOON),
        done("own 17 first", "added driver 17 number 2\n", BOTH),
        done("own 17 both", REPEATED, DAY),
        refused("own 17 second", "C6 no activity data", DAY),
        refused("own 18 both", "S4 unknown driver", DAY),
        FILE_SPANS,
    ],
    "registrations": [
        refused("register", "S1 driver taken", ANNA),
        refused("register", "S2 key taken", bert("anna-key-1")),
        refused("register", "S3 holder taken", bert("bert-key-1")),
        refused("register", "S9 not a Monday", bert("bert-key-1", OTHER_HOLDER)),
        refused("register", "E9 bad value for key", bert("bert_key_1", OTHER_HOLDER)),
        done("register", "registered 18\n", bert("bert-key-1", OTHER_HOLDER, "2024-03-04")),
        refused("own 18 both", "S5 not your card", DAY),
        refused("own 19 both", "S4 unknown driver", DAY),
        ADDED,
        done("base 18 2024-03-11", "base 2024-03-11\n"),
        refused("base 17 2024-03-05", "S9 not a Monday"),
        refused("base 19 2024-03-05", "S4 unknown driver"),
    ],
    "hours that give way to a file": [
        done("enter 17", "entered 1 to 1\n", FREE_DAYS),
        refused("import both", "S6 contradiction at 2024-03-09 08:00", SATURDAY),
        done("withdraw 17 1", "withdrawn 1\n"),
        done("import both", "added driver 17 number 1\n", SATURDAY),
        done(
            "spans 17 2024-03",
            f"{SPAN_HEAD}2024-03-09 00:00,2024-03-09 08:00,rest,single\n2024-03-09 08:00,2024-03-09 10:00,work,single\n",
        ),
        refused("withdraw 17 1", "S8 already withdrawn"),
        done("entries 17", FREE_LINE),
        done("enter 17", "entered 2 to 2\n", DAY_OFF),
        done("entries 17", FREE_LINE + DAY_OFF_LINE),
        refused("enter 17", "E10 bad author in row 2", NO_AUTHOR),
        refused("enter 17", "E10 bad note in row 2", LONG_NOTE),
    ],
    "entries that overlap": [
        done("enter 17", "entered 1 to 1\n", hours("2024-03-04 00:00,2024-03-04 12:00,rest")),
        done("enter 17", "entered 2 to 2\n", hours("2024-03-04 06:00,2024-03-04 18:00,rest")),
        done("withdraw 17 1", "withdrawn 1\n"),
        done("spans 17 2024-03", f"{SPAN_HEAD}2024-03-04 06:00,2024-03-04 18:00,rest,single\n"),
        done(
            "entries 17",
            '1 2024-03-04 00:00 2024-03-04 12:00 rest withdrawn "office" ""\n'
            '2 2024-03-04 06:00 2024-03-04 18:00 rest kept "office" ""\n',
        ),
    ],
    "a file of entered hours": [
        done("enter 17", "entered 1 to 4\n", hours(REST, WORK, DRIVE, NIGHT)),
        FILE_SPANS,
        ADDED,
        *[done(f"withdraw 17 {number}", f"withdrawn {number}\n") for number in [1, 2, 3, 4]],
        FILE_SPANS,
        done("import both", REPEATED, DAY),
    ],
    "no hours": [
        done("enter 17", "entered none\n", hours()),
        done("enter 17", "entered 1 to 2\n", hours(REST, WORK)),
        done("enter 17", "entered none\n", hours()),
        FILE_MORNING,
        refused("enter 18", "S4 unknown driver", hours()),
    ],
    "a batch that contradicts": [
        ADDED,
        refused(
            "enter 17",
            "S6 contradiction at 2024-03-05 07:00",
            hours("2024-03-04 17:00,2024-03-04 18:00,work", "2024-03-05 07:00,2024-03-05 09:00,drive"),
        ),
        FILE_SPANS,
        done("entries 17", ""),
        done("enter 17", "entered 1 to 1\n", hours("2024-03-04 00:00,2024-03-04 05:00,rest")),
    ],
    "hours that agree": [
        ADDED,
        done(
            "enter 17",
            "entered 1 to 3\n",
            hours(
                "2024-03-04 06:00,2024-03-04 07:00,rest",
                "2024-03-04 16:30,2024-03-04 18:00,drive",
                "2024-03-04 23:00,2024-03-05 00:00,rest",
            ),
        ),
        done("spans 17 2024-03", f"{MORNING}{LONG_DRIVE}{LONG_NIGHT}"),
        done("withdraw 17 1", "withdrawn 1\n"),
        done("withdraw 17 3", "withdrawn 3\n"),
        done("spans 17 2024-03", f"{MORNING}{LONG_DRIVE}{NIGHT},single\n"),
        done("withdraw 17 2", "withdrawn 2\n"),
        FILE_SPANS,
    ],
    "spans after the horizon": [
        done("enter 17", "entered 1 to 3\n", hours(REST, WORK, DRIVE)),
        done("breaches 17", BREACH + EXAMINED),
        done("enter 17", "entered 4 to 5\n", hours(EVENING, NEXT_DRIVE)),
        done("breaches 17", BREACH + EXAMINED),
        done("owed 17", EXAMINED),
        done("enter 17", "entered 6 to 6\n", hours("2024-03-04 17:00,2024-03-04 17:01,rest")),
        done("breaches 17", f"{BREACH}{NEXT_BREACH}EXAMINED TO 2024-03-05 18:00 unknown\n"),
    ],
    "unknown entries": [
        refused("withdraw 17 1", "S7 unknown entry"),
        refused("withdraw 17 1000000", "S7 unknown entry"),
        refused("enter 18", "S4 unknown driver", hours(REST)),
        refused("withdraw 18 1", "S4 unknown driver"),
        refused("entries 18", "S4 unknown driver"),
        done("enter 17", "entered 1 to 1\n", hours(REST)),
        refused("withdraw 17 2", "S7 unknown entry"),
    ],
    **{name: office_rows.ROWS[name] for name in ["names", "ranges of entries", "ranges that are none", "a range beside a file"]},
    **{name: office_rows.ROWS[name] for name in ["a form to a day", "a form to a day by the base", "a form to the last day"]},
    **{name: office_rows.ROWS[name] for name in ["a handover", "files that cover a period", "a file for one minute", "a file by its parts"]},
    **{name: office_rows.ROWS[name] for name in ["entries of a period", "files and entries of a period", "a holder of other signs"]},
}

# In an archive that has Anna and 3,000 entries of a day each, without a gap, from 3 January 2000 on: work and rest in turn.
DAYS = [str(datetime.date(2000, 1, 3) + datetime.timedelta(days=place)) for place in range(3001)]

FULL_DAYS = [(a, b, "rest" if place % 2 else "work") for place, (a, b) in enumerate(zip(DAYS, DAYS[1:]))]
FULL_ROWS = [f"{a} 00:00,{b} 00:00,{activity}" for a, b, activity in FULL_DAYS]
FULL_ENTRIES = [f'{n} {a} 00:00 {b} 00:00 {activity} kept "office" ""\n' for n, (a, b, activity) in enumerate(FULL_DAYS, 1)]
LATE_BASE = "2008-02-11"  # a Monday, 39 days before the last entry ends
LATE_ENTRIES = 60
LAST_ENTRY = FREE_LINE.replace("1", "3001", 1)

ROWS_AFTER_ENTRIES = {
    "another day": ROWS["another day"],
    "two generations": ROWS["two generations"],
    "hours that give way to a file": [
        done("enter 17", "entered 3001 to 3001\n", FREE_DAYS),
        refused("import both", "S6 contradiction at 2024-03-09 08:00", SATURDAY),
        done("withdraw 17 3001", "withdrawn 3001\n"),
        done("import both", "added driver 17 number 1\n", SATURDAY),
        refused("withdraw 17 3001", "S8 already withdrawn"),
        done("entries 17", "".join([*FULL_ENTRIES, LAST_ENTRY])),
    ],
    "a range": [
        refused("withdraw 17 1 3001", "S7 unknown entry"),
        done("withdraw 17 101 3000", "withdrawn 101 to 3000\n"),
        refused("withdraw 17 1 3001", "S8 already withdrawn"),
        done("entries 17", "".join([*FULL_ENTRIES[:100], *(line.replace("kept", "withdrawn") for line in FULL_ENTRIES[100:])])),
        done("gaps 17 2000-04", f"{DAYS[100]} 00:00 2000-05-01 00:00\n"),
        done("withdraw 17 1 100", "withdrawn 1 to 100\n"),
        done("gaps 17 2000-04", "2000-04-01 00:00 2000-05-01 00:00\n"),
        ADDED,
    ],
}


# Comparisons


def of_rows(program):
    """The comparisons of the worked rows, and of the slow office with what they say."""
    for name, rows in ROWS.items():
        rows = [done("register", "registered 17\n", ANNA), *rows]
        commands = [(row.words, row.given) for row in rows]
        wanted = [(b"", 0), *[(row.text, row.status) for row in rows], (b"", 0)]
        yield f"{name}, by the slow office", wanted_of(slow_office.Office(), commands), wanted
        yield from of_commands(program, name, commands)


def told_of(program, name, rows):
    """The comparisons of rows with what the program answers, at an archive in a file and in memory."""
    commands = [(row.words, row.given) for row in rows]
    wanted = [(b"", 0), *[(row.text, row.status) for row in rows], (b"", 0)]
    with tempfile.TemporaryDirectory() as folder:
        path = os.path.join(folder, "archive.db")
        yield f"{name}, on a file", answers([program, "archive", path], folder, commands), wanted
        yield f"{name}, in memory", answers([program, "shelf"], folder, commands), wanted


def of_many_entries(program):
    """The comparisons of an archive with 3,000 entries: it answers the worked rows as one without them does, and a base near their end
    as the slow office with the last of them."""
    entered = done("enter 17", "entered 1 to 3000\n", hours(*FULL_ROWS))
    for name, rows in ROWS_AFTER_ENTRIES.items():
        rows = [done("register", "registered 17\n", ANNA), entered, *rows]
        yield from told_of(program, f"{name}, after 3,000 entries", rows)
    anna, office = ANNA.replace(b"2024-03-04", LATE_BASE.encode()), slow_office.Office()
    office.answer(["register"], anna)
    office.answer(["enter", "17"], hours(*FULL_ROWS[-LATE_ENTRIES:]))
    texts = {word: office.answer([word, "17"], b"")[0] for word in ["breaches", "owed"]}
    rows = [done("register", "registered 17\n", anna), entered, *[done(f"{word} 17", text) for word, text in texts.items()]]
    yield from told_of(program, "a base near the end of 3,000 entries", rows)


def of_seed(question):
    """The comparisons of a seed's commands."""
    program, seed = question
    return list(of_commands(program, f"seed {seed}", random_commands.Commands(seed).all()))


def comparisons(program: str) -> counting.Comparisons:
    yield from of_rows(program)
    yield from of_many_entries(program)
    with multiprocessing.Pool(PROCESSES) as pool:
        for found in pool.imap(of_seed, [(program, seed) for seed in range(SEEDS)], chunksize=4):
            yield from found
        pool.close()
        pool.join()


if __name__ == "__main__":
    sys.exit(counting.count(comparisons(*sys.argv[1:])))
