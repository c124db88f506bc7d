#!/usr/bin/env python3
"""Runs the program's commands on archives in files, each as a process of its own, and compares what it prints and its status
with worked rows and with a slow office; and gives it bad arguments, bad files, bad devices, and files of which a bit has changed.

Standard error has to be empty but where the arguments name no command. Argument: the program. The last line is 'N passed, M failed'."""
import contextlib
import hashlib
import itertools
import os
import pathlib
import random
import re
import shutil
import socket
import sqlite3
import subprocess
import sys
import tempfile
import threading
import time
from collections.abc import Iterable, Sequence
from typing import Any

from inputs import random_cards
from inputs.random_commands import hours_csv
from lib import advice, charts, counting, office_lines, office_rows, old_archive, pools, programs, rules, seeds
from lib.advice import without_advice, without_known
from lib.archive import of_tables
from lib.commands import COMMANDS as TABLE
from lib.files import TOP, content, log_of, read, write
from lib.office import (
    CHANGES, COMMANDS, ENDINGS, READINGS, STORE_FAILED, WITH_ANNA, WITH_DAY, Desk, make_text, name_of, of_refused_file, readings_of_all,
    to_full, to_nobody,
)
from lib.server import HOST, NO_PORT, OFFICE, SECONDS, Serving, free_port, posting
from slow import slow_archive, slow_office, slow_reader

SEEDS = seeds.tried(80)
CARRY_SEEDS = seeds.tried(16)
READINGS_OF_NEW = 16  # of the readings of each new archive

# The worked rows that are tried at a new archive too. They have all commands but `key`, which the rows of CARRIES have.
ROWS_OF_NEW = [
    "a day", "arguments", "a second driver", "a range beside a file", "a week of quarters", "a report after each change", "a forecast",
    "how a second driver stands", "how all drivers stand", "what all drivers owe", "all limits", "two Mondays",
    "a form to a day by the base", "a handover", "a file by both its parts", "files and entries of a period",
]
PROCESSES = 2
BITS = 40
FREE_BYTES = range(72, 92)  # of a file of SQLite: no version of it reads them
DEVICE_FAILED = (b"X2 device failed\n", 3, b"")
OPENING = ["migrate", *COMMANDS]

# Arguments that name no command; PATH becomes the archive's path.
NO_COMMANDS = [
    [],
    [""],
    ["help", "weigh"],
    ["help", "sheet", "chart"],
    ["weigh", "--help"],
    ["version", "--version"],
    ["Init", "PATH"],
    ["line", "PATH", "17"],
    ["init"],
    ["init", "PATH", "17"],
    ["migrate"],
    ["migrate", "PATH", "17"],
    ["migrate", "PATH", "--all"],
    ["check"],
    ["check", "PATH", "17"],
    ["carry"],
    ["carry", "PATH"],
    ["carry", "PATH", "PATH.new"],
    ["carry", "PATH", "PATH.new", "2024-03-04", "17"],
    ["carry", "PATH", "PATH.new", "2024-03-04", "--all"],
    ["carry", "--since", "2024-03-04", "PATH", "PATH.new"],
    ["register"],
    ["register", "PATH", "17"],
    ["import", "PATH"],
    ["import", "PATH", "both", "--all"],
    ["import", "PATH", "both", "a.ddd", "--all"],
    ["import", "PATH", "both", "PATH.folder"],
    ["enter", "PATH"],
    ["enter", "PATH", "17", "17"],
    ["withdraw", "PATH", "17"],
    ["withdraw", "PATH", "17", "1", "2", "3"],
    ["base", "PATH", "17"],
    ["base", "PATH", "17", "2024-03-11", "1"],
    ["key", "PATH"],
    ["key", "PATH", "17", "anna-key-2"],
    ["name", "PATH"],
    ["name", "PATH", "17", "Anna Lind"],
    ["spans", "PATH", "17"],
    ["spans", "PATH", "17", "2024-03", "2024-04"],
    ["gaps", "PATH", "17"],
    ["gaps", "PATH", "17", "2024-03", "2024-04"],
    ["sheet", "PATH", "17"],
    ["sheet", "PATH", "17", "2024-03", "2024-04"],
    ["breaches", "PATH"],
    ["breaches", "PATH", "17", "2024-03"],
    ["owed", "PATH"],
    ["owed", "PATH", "17", "2024-03"],
    ["ahead", "PATH", "17", "2024-03-05"],
    ["ahead", "PATH", "17", "2024-03-05 12:00"],
    ["ahead", "PATH", "17", "2024-03-05", "12:00", "1"],
    ["entries", "PATH"],
    ["entries", "PATH", "17", "1"],
    ["file", "PATH", "17"],
    ["file", "PATH", "17", "1", "1"],
    ["handover", "PATH"],
    ["handover", "PATH", "17"],
    ["handover", "PATH", "17", "2024-03-01"],
    ["handover", "PATH", "17", "2024-03-01", "2024-04-01", "1"],
    ["drivers"],
    ["drivers", "PATH", "17", "18"],
    ["stretches", "PATH"],
    ["stretches", "PATH", "17", "2024-03"],
    ["debts", "PATH"],
    ["debts", "PATH", "17", "2024-03"],
    ["forecast", "PATH"],
    ["forecast", "PATH", "2024-03-05"],
    ["forecast", "PATH", "2024-03-05 12:00"],
    ["forecast", "PATH", "2024-03-05", "12:00", "17"],
    ["standing", "PATH"],
    ["standing", "PATH", "2024-03", "17"],
    ["overview", "PATH"],
    ["overview", "PATH", "2024-03", "17"],
    ["incidents", "PATH"],
    ["incidents", "PATH", "2024-03", "17"],
    ["form", "PATH"],
    ["form", "PATH", "17", "2024-03-11", "17"],
    ["card"],
    ["card", "both", "17"],
    ["version", "PATH"],
    ["listen", "PATH", "8017"],
    ["listen", "PATH", "office-key-1", "8017", "1"],
    ["breaches", "PATH", "--all", "17"],
    ["breaches", "PATH", b"\xff"],
]

# Arguments that ask for help.
HELPS = [["help"], ["--help"], ["-h"], ["help", "sheet"], ["sheet", "--help"], ["sheet", "-h", "PATH"]]

FULL = pathlib.Path("/dev/full")


# Worked rows


def of_rows(program, name):
    """The comparisons of worked rows, and of the slow office with what they say."""
    with tempfile.TemporaryDirectory() as folder:
        desk = Desk(program, folder)
        yield f"{name}: init", desk.run(["init"]), (b"created\n", 0, b"")
        rows = [office_rows.done("register", "registered 17\n", office_rows.ANNA), *office_rows.ROWS[name]]
        for number, row in enumerate(rows, 1):
            wanted = row.text, row.status, b""
            told, slow = desk.both(row.words, row.given)
            yield f"{name}, row {number}: {name_of(row.words)}", told, wanted
            yield f"{name}, row {number}: {name_of(row.words)}, by the slow office", slow, wanted
        yield desk.tables(name)


def of_rows_at(desk: Desk, name: str, rows: Iterable[office_rows.Row]) -> counting.Comparisons:
    """The comparisons of worked rows at an archive that is there, and of the slow office with what they say, and of the tables then."""
    for number, row in enumerate(rows, 1):
        wanted = row.text, row.status, b""
        told, slow = desk.both(row.words, row.given)
        yield f"{name}, row {number}: {name_of(row.words)}", told, wanted
        yield f"{name}, row {number}: {name_of(row.words)}, by the slow office", slow, wanted
    yield desk.tables(name)


def of_carry(program: str, name: str, carry: office_rows.Carry) -> counting.Comparisons:
    """The comparisons of worked rows at an archive, of the new one that is carried over from it, and of rows at that. The files of the old
    archive stay as they are."""
    with tempfile.TemporaryDirectory() as folder:
        desk = Desk(program, folder)
        desk.prepare(WITH_ANNA)
        yield from of_rows_at(desk, f"{name}, before", carry.before)
        before = contents_of(desk)
        told, slow = desk.both(["carry", "new.db", carry.date])
        yield f"{name}: carry", told, (carry.text.encode(), 0, b"")
        yield f"{name}: carry, by the slow office", slow, (carry.text.encode(), 0, b"")
        after = contents_of(desk)
        yield f"{name}: the files", sorted(after), sorted([*before, "new.db"])
        yield f"{name}: the old archive", {one: after.get(one) for one in before} == before, True
        yield f"{name}: the mode", oct(os.stat(desk.beside("new.db")).st_mode), oct(0o100600)
        yield from of_rows_at(desk.carried_to("new.db"), f"{name}, after", carry.after)
        yield desk.tables(f"{name}, the old archive")


def of_rows_carried(program: str, name: str) -> counting.Comparisons:
    """The comparisons of worked rows at a new archive: that of a driver without card files and hours, or with the card file of the first
    row. It has all that the old one has."""
    rows = office_rows.ROWS[name]
    count = int(rows[0] == office_rows.ADDED)
    yield from of_carry(program, f"{name}, carried", office_rows.Carry(
        rows[:count], f"2024-03-0{4 + count}", "carried 1 of 1 drivers\n", rows[count:]))


def example_lines(number, row):
    """The lines that register a driver and enter what a worked example of the rules has for them."""
    holder = office_rows.HOLDER[:-6] + f"{number:06}"
    driver = f"{office_rows.DRIVER_HEAD}{number},{holder},example-{number},2024-03-04,Example {number}\n"
    spans = rules.joined(row.busy, rules.BASE, row.horizon)
    return driver.encode(), hours_csv(spans), len(spans)


def of_examples(program):
    """The comparisons of the worked examples of the rules, of a driver each."""
    with tempfile.TemporaryDirectory() as folder:
        desk = Desk(program, folder)
        desk.prepare([])
        for number, row in enumerate(rules.ROWS, 1):
            driver, hours, count = example_lines(number, row)
            entered = f"entered 1 to {count}\n" if count else "entered none\n"
            breaches = slow_office.breaches_text(row.horizon, "Unknown", row.breaches)
            owed = slow_office.owed_text(row.horizon, "Unknown", row.debts)
            yield row.name, desk.run(["register"], driver), (f"registered {number}\n".encode(), 0, b"")
            yield row.name, desk.run(["enter", str(number)], hours), (entered.encode(), 0, b"")
            yield f"{row.name}: breaches", desk.run(["breaches", str(number)]), (breaches.encode(), 0, b"")
            yield f"{row.name}: owed", desk.run(["owed", str(number)]), (owed.encode(), 0, b"")
        yield from of_month_ends(desk)


def of_month_ends(desk):
    """The comparisons of a breach at a month's first minute: it is in that month's sheet, and not in the one before."""
    place = next(place for place, row in enumerate(rules.ROWS) if row.name == "a debt is overdue")
    row, number = rules.ROWS[place], str(place + 1)
    line = slow_office.breaches_text(row.horizon, "Unknown", row.breaches).encode()
    horizon = slow_office.horizon_text(row.horizon, "Unknown").encode()
    for month, wanted in [("2024-03", horizon), ("2024-04", line)]:
        told, status, errors = desk.run(["sheet", number, month])
        end = told[told.index(b"TOTAL") :].split(b"\n", 1)[1] if b"TOTAL" in told else told
        yield f"a breach at a month's end, {month}", (end, status, errors), (wanted, 0, b"")


# Arguments


def of_arguments(program):
    """The comparisons of arguments that name no command: nothing on standard output, and something on standard error."""
    with tempfile.TemporaryDirectory() as folder:
        desk = Desk(program, folder)
        desk.prepare(WITH_DAY)
        os.mkdir(f"{desk.path}.folder")
        for words in NO_COMMANDS:
            given = [word if isinstance(word, bytes) else word.replace("PATH", desk.path) for word in words]
            text, status, errors = programs.told_by([program, *given])
            has_usage = all(isinstance(word, str) for word in words)
            yield f"arguments {words}", (text, status, errors.startswith(b"tacho: "), b"\nusage: tacho" in errors), (b"", 2, True, has_usage)
        yield desk.tables("after arguments that name no command")
        left = [name for name in files_in(folder) if name != "archive.db-wal"]
        yield "after arguments that name no command: the files", left, ["archive.db", "archive.db.folder"]
        for words in HELPS:
            text, status, errors = programs.told_by([program, *words])
            yield f"arguments {words}", (b"\n\nUsage: tacho " in text, status, errors), (True, 0, b"")
            yield f"arguments {words} to a full device", subprocess.run(
                [program, *words], stdout=FULL.open("wb"), stderr=subprocess.PIPE).returncode, 3
        for words in [["--version"], ["-V"]]:
            yield f"arguments {words}", programs.told_by([program, *words]), (programs.version_lines(), 0, b"")


# For each kind of argument of a task a good text, a bad one, and the fault of the bad one, which no other kind has for it.
KINDS = {
    "driver": ("17", "0", b"N1 bad number\n"),
    "number": ("2", "2024-03", b"N1 bad number\n"),
    "last": ("2", "1", b"N2 wrong order\n"),
    "part": ("both", "1", b"P1 bad part\n"),
    "date": ("2024-03-04", "2024-02-30", b"Z2 no such date\n"),
    "from": ("2024-03-04", "2024-02-30", b"Z2 no such date\n"),
    "past": ("2024-03-05", "2024-03-04", b"Z4 period\n"),
    "month": ("2024-03", "2024-13", b"Z2 no such date\n"),
    "time": ("12:00", "24:00", b"Z2 no such date\n"),
}


def of_kinds(program):
    """The comparisons of bad arguments: each is read as its name in the table of commands says, from left to right."""
    with tempfile.TemporaryDirectory() as folder:
        desk = Desk(program, folder)
        desk.prepare(WITH_DAY)
        for command in TABLE.values():
            first, *names = [name.strip("[]") for name in command.arguments] or [""]
            if first != "archive" or not KINDS.keys() >= set(names):
                continue
            kinds = [KINDS[name] for name in names]
            for place, (_, _, fault) in enumerate(kinds):
                words = [command.name, *(good for good, _, _ in kinds[:place]), *(bad for _, bad, _ in kinds[place:])]
                yield f"bad arguments: {name_of(words)}", desk.run(words), (fault, 1, b"")
        yield desk.tables("after bad arguments")


# Files


def make_database(path, rows):
    """Makes a database that is no archive."""
    with contextlib.closing(sqlite3.connect(path)) as store:
        store.execute("create table meta (id integer primary key, version integer not null) strict")
        store.executemany("insert into meta values (?, ?)", rows)
        store.commit()


def make_other(path):
    """Makes a database without a table `meta`."""
    with contextlib.closing(sqlite3.connect(path)) as store:
        store.execute("create table entries (driver integer not null) strict")
        store.commit()


FILES = {
    "no file": (lambda path: None, OPENING),
    "a text": (make_text, ["init", *OPENING]),
    "a folder": (os.mkdir, ["init", *OPENING]),
    "a later schema": (lambda path: make_database(path, [(1, 3)]), ["init", *OPENING]),
    "no version": (lambda path: make_database(path, []), ["init", *OPENING]),
    "another database": (make_other, ["init", *OPENING]),
}


def of_files(program):
    """The comparisons of files that are no archives."""
    for name, (make, commands) in FILES.items():
        with tempfile.TemporaryDirectory() as folder:
            yield from of_refused_file(Desk(program, folder), name, make, commands)
    with tempfile.TemporaryDirectory() as folder:
        desk = Desk(program, folder)
        desk.path = os.path.join(folder, "none", "archive.db")
        yield "no folder: init", desk.run(["init"]), STORE_FAILED
        yield "no folder: the folder above", os.listdir(folder), []
    with tempfile.TemporaryDirectory() as folder:
        desk = Desk(program, folder)
        desk.prepare(WITH_DAY)
        yield from of_refused_file(desk, "an archive that is there", lambda path: None, ["init"])
        yield desk.tables("an archive that is there")


def of_rights(program):
    """The comparisons of an archive that the user may not open, and of a folder in which they may make none."""
    someone = {"user": "nobody", "group": "nogroup", "extra_groups": []} if os.geteuid() == 0 else {}
    with tempfile.TemporaryDirectory() as folder:
        os.chmod(folder, 0o755)
        desk = Desk(shutil.copy(program, os.path.join(folder, "program")), folder)
        desk.prepare(WITH_DAY)
        os.chmod(desk.path, 0)
        for words in OPENING:
            yield f"a file without rights: {words}", desk.run(words.split(), **someone), STORE_FAILED
        os.chmod(desk.path, 0o600)
        yield desk.tables("a file without rights")
        desk.path = os.path.join(folder, "new.db")
        os.chmod(folder, 0o555)
        yield "a folder without rights: init", desk.run(["init"], **someone), STORE_FAILED
        yield "a folder without rights: the file", os.path.exists(desk.path), False
        os.chmod(folder, 0o755)


# New archives that can't be made

NEW = "new.db"
NOT_SHAPED = "dates are written as 2024-03-04, months as 2024-03, times as 09:00"
OUT_OF_RANGE = next(iter(advice.sentences()["Z3"]))
TAKEN = "it is there already, or a file with this name and -wal, .part or .part-wal after it; nothing was changed"
IN_USE = "probably another program has it open (is the service running? then ask it by a request); or it is damaged, or its disk is full"
NOT_MADE = "it cannot be made: its folder does not exist or may not be written, or its disk is full"
DATES = {
    "Z1 not of the shape": (["2024-3-5", "2024-03", "2024-03-05 00:00", "", "5.3.2024", "2024-03-05 ", "x"], NOT_SHAPED),
    "Z2 no such date": (["2024-02-30", "2023-02-29", "2024-13-01", "2100-02-29", "1999-02-30"], NOT_SHAPED),
    "Z3 out of range": (["2000-01-02", "1999-12-31", "2100-01-01"], OUT_OF_RANGE),
}


def files_in(folder: str) -> list[str]:
    """The names of all that is in a folder."""
    return sorted(os.listdir(folder))


def contents_of(desk: Desk) -> dict[str, tuple[int, str]]:
    """All that is in an archive's folder, by its name: its kind and mode, and the digest of a file, or whither a link leads. Of the
    archive's own log only if it has a commit."""
    folder, found = os.path.dirname(desk.path), {}
    for name in os.listdir(folder):
        path = os.path.join(folder, name)
        if path != desk.path + "-wal" or log_of(desk.path):
            there = os.readlink(path) if os.path.islink(path) else hashlib.sha256(content(path) or b"").hexdigest()
            found[name] = os.lstat(path).st_mode, there
    return found


def told_whole(words: Sequence[str], **others: Any) -> programs.Told:
    """What a program prints, its status, and all that it prints on standard error."""
    made = subprocess.run(words, input=b"", capture_output=True, **others)
    return made.stdout, made.returncode, made.stderr


def fault_of(line: str, status: int, path: str, sentence: str) -> programs.Told:
    """What is printed after a fault, with the sentence for a person on a path."""
    return f"{line}\n".encode(), status, f"tacho: {path}: {sentence}\n".encode()


def of_refused_carry(desk: Desk, name: str, new: str, date: str, wanted: programs.Told, **others: Any) -> counting.Comparisons:
    """The comparisons of a new archive that isn't made: what is printed, and that all that is there stays as it is."""
    before = contents_of(desk)
    yield f"carry, {name}", told_whole([desk.program, "carry", desk.path, new, date], **others), wanted
    yield f"carry, {name}: what is there", contents_of(desk), before


def make_taken(path: str, kind: str) -> None:
    """Makes something at a path: a file, an empty one, a folder, a link to nothing, a link to a file, or a pipe."""
    made = {"file": lambda: write(path, b"kept"), "empty": lambda: write(path, b""), "folder": lambda: os.mkdir(path),
            "link": lambda: os.symlink("nowhere", path), "link to itself": lambda: os.symlink(os.path.basename(path), path),
            "pipe": lambda: os.mkfifo(path)}
    made[kind]()


def remove_taken(path: str) -> None:
    """Removes it."""
    if os.path.isdir(path) and not os.path.islink(path):
        os.rmdir(path)
    else:
        os.remove(path)


OLD_FAULTS = {
    "no archive": (lambda path: None, "S12 store failed", 3, "there is no such file; tacho init makes an archive"),
    "a text": (make_text, "S12 store failed", 3, "it is not an archive"),
    "a folder": (os.mkdir, "S12 store failed", 3, "it is not a file"),
    "an archive of schema 1": (lambda path: old_archive.make(path, old_archive.example_rows()), "S13 old archive", 1,
                               "the archive is of an earlier version: make a backup, then tacho migrate"),
}


def of_carry_faults(program: str) -> counting.Comparisons:
    """The comparisons of the faults of `carry` and their order: the date is read first, then the old archive, then the new one."""
    for name, (make, line, status, sentence) in OLD_FAULTS.items():
        for taken in [None, "file"]:
            with tempfile.TemporaryDirectory() as folder:
                desk = Desk(program, folder)
                make(desk.path)
                new = desk.beside(NEW)
                if taken:
                    make_taken(new, taken)
                name = f"{name}, beside a file" if taken else name
                yield from of_refused_carry(desk, name, new, "2024-03-05", fault_of(line, status, desk.path, sentence))
                yield from of_refused_carry(desk, f"{name}, no folder", desk.beside("none/new.db"), "2024-03-05",
                                            fault_of(line, status, desk.path, sentence))
                for fault, (dates, said) in DATES.items():
                    yield from of_refused_carry(desk, f"{name}, {dates[0]}", new, dates[0], fault_of(fault, 1, desk.path, said))
    with tempfile.TemporaryDirectory() as folder:
        desk = Desk(program, folder)
        desk.prepare(WITH_DAY)
        new = desk.beside(NEW)
        for fault, (dates, said) in DATES.items():
            for date in dates:
                yield from of_refused_carry(desk, f"a bad date, {date!r}", new, date, fault_of(fault, 1, desk.path, said))
        for ending in ENDINGS:
            for kind in ["file", "empty", "folder", "link", "link to itself", "pipe"]:
                make_taken(new + ending, kind)
                name = f"{kind} at NEW{ending}"
                yield from of_refused_carry(desk, name, new, "2024-03-05", fault_of("S12 store failed", 3, new, TAKEN))
                no_date = fault_of("Z2 no such date", 1, desk.path, NOT_SHAPED)
                yield from of_refused_carry(desk, f"{name}, a bad date", new, "2024-02-30", no_date)
                remove_taken(new + ending)
        for path in [desk.path, desk.path + "-wal", folder, f"{folder}/", f"{folder}/."]:
            yield from of_refused_carry(desk, f"to {path}", path, "2024-03-05", fault_of("S12 store failed", 3, path, TAKEN))
        long = "n" * 250
        for path in [desk.beside("none/new.db"), f"{desk.path}/new.db", desk.beside("none/"), desk.beside(long), desk.beside("n" * 256), "",
                     "/proc/new.db"]:
            yield from of_refused_carry(desk, f"to {path}", path, "2024-03-05", fault_of("S12 store failed", 3, path, NOT_MADE), cwd=folder)
        yield desk.tables("after archives that weren't made")
        yield "carry then", *desk.both(["carry", NEW, "2024-03-05"])
        yield from of_refused_carry(desk, "once more", new, "2024-03-05", fault_of("S12 store failed", 3, new, TAKEN))


# Names that end lines for some programs, turn the direction of writing, pile up signs, are markup, or are a formula of a spreadsheet.
ODD_NAMES = ["Ann\u2028Berg\u2029", "Ann\u0085Berg", "\u202eAnna\u202d \u2066Berg\u2069", f"{31 * chr(0x301)}e", "<b>Anna</b> & 'Co'",
             "]]></title><script>", "=1+1", "\ufeffAnna\ufffe\uffff"]


def of_odd_names(program: str) -> counting.Comparisons:
    """The comparisons of all that prints a driver's name. The chart is XML too, with the name in its title."""
    for name in ODD_NAMES:
        with tempfile.TemporaryDirectory() as folder:
            desk = Desk(program, folder)
            row = f"17,{office_rows.HOLDER},anna-key-1,2024-03-04,{name}\n"
            desk.prepare([(["register"], (office_rows.DRIVER_HEAD + row).encode()), *WITH_DAY[1:]])
            for words in [line.split(" ") for line in READINGS]:
                yield f"{name!r}: {words}", *desk.both(words)
            title = charts.lines_of(desk.run(["chart", "17", "2024-03"])[0]).split(", 2024-03\n")[0]
            yield f"{name!r}: the title of the chart", title, "17 " + re.sub("[\ufffe\uffff]", "\ufffd", name)


def of_names_that_meet(program: str) -> counting.Comparisons:
    """The comparisons of a new archive one of whose four files would be the old archive."""
    for ending in ENDINGS[1:]:
        with tempfile.TemporaryDirectory() as folder:
            desk = Desk(program, folder)
            desk.path = desk.beside(NEW + ending)
            desk.prepare(WITH_DAY)
            new = desk.beside(NEW)
            yield from of_refused_carry(desk, f"from NEW{ending}", new, "2024-03-05", fault_of("S12 store failed", 3, new, TAKEN))
            yield desk.tables(f"carry from NEW{ending}")


def of_carry_rights(program: str) -> counting.Comparisons:
    """The comparisons of a folder in which the user may make no file, of an old archive that they may not open, and of the mode of the new
    archive, whatever the user's mask is."""
    someone = {"user": "nobody", "group": "nogroup", "extra_groups": []} if os.geteuid() == 0 else {}
    with tempfile.TemporaryDirectory() as folder:
        os.chmod(folder, 0o755)
        desk = Desk(shutil.copy(program, os.path.join(folder, "program")), folder)
        desk.prepare(WITH_DAY)
        for mask in [0o000, 0o022, 0o077]:
            new = f"new-{mask:o}.db"
            yield f"carry with the mask {mask:o}", desk.run(["carry", new, "2024-03-05"], umask=mask), (b"carried 1 of 1 drivers\n", 0, b"")
            yield f"carry with the mask {mask:o}: the mode", oct(os.stat(desk.beside(new)).st_mode), oct(0o100600)
        for name in [desk.path, desk.path + "-wal"]:
            os.chmod(name, 0o666)
            if someone:
                shutil.chown(name, someone["user"], someone["group"])
        os.chmod(folder, 0o555)
        new = desk.beside(NEW)
        not_made = fault_of("S12 store failed", 3, new, NOT_MADE)
        yield from of_refused_carry(desk, "in a folder without rights", new, "2024-03-05", not_made, **someone)
        os.chmod(folder, 0o777)
        os.chmod(desk.path, 0)
        yield from of_refused_carry(desk, "of an archive without rights", new, "2024-03-05", fault_of(
            "S12 store failed", 3, desk.path, "you have no permission to read and write it"), **someone)
        os.chmod(folder, 0o755)
        os.chmod(desk.path, 0o600)
        yield desk.tables("an archive without rights")


def of_carry_devices(program: str) -> counting.Comparisons:
    """The comparisons of a new archive whose line can't be written: it is made. `carry` has no input, and paths may be relative."""
    for name, run in [("a full device", to_full), ("a closed pipe", to_nobody)]:
        with tempfile.TemporaryDirectory() as folder:
            desk = Desk(program, folder)
            desk.prepare(WITH_DAY)
            desk.office.answer(["carry", NEW, "2024-03-05"])
            yield f"carry to {name}", run(desk, ["carry", NEW, "2024-03-05"], b""), (3, b"")
            yield desk.carried_to(NEW).tables(f"carry to {name}")
            yield f"carry to {name}: the files", files_in(folder), ["archive.db", "archive.db-wal", NEW]
    with tempfile.TemporaryDirectory() as folder:
        desk = Desk(program, folder)
        desk.prepare(WITH_DAY)
        text, status = desk.office.answer(["carry", NEW, "2024-03-05"])
        yield "carry waits for nobody", programs.unasked(desk.words(["carry", NEW, "2024-03-05"])), (text, status)
        yield desk.carried_to(NEW).tables("carry without an input")
        for words in [["archive.db", "other.db", "2024-03-05"], ["./archive.db", "./another.db", "2024-03-05"]]:
            yield f"carry {name_of(words)}", told_whole([program, "carry", *words], cwd=folder), (text, status, b"")
            yield of_tables(f"carry {name_of(words)}", desk.beside(words[1]), desk.office.made[NEW].archive)
        os.mkdir(desk.beside("folder"))
        os.symlink("folder", desk.beside("link"))
        for new in ["folder/new.db", "link/other.db", "-", "a name", "\u00f6"]:
            words = ["--", "archive.db", new, "2024-03-05"]
            yield f"carry to {new}", told_whole([program, "carry", *words], cwd=folder), (text, status, b"")
            yield of_tables(f"carry to {new}", desk.beside(new), desk.office.made[NEW].archive)


def of_log(program: str) -> counting.Comparisons:
    """The comparisons of an archive whose last commands are in its log alone, as a crash leaves them: they are carried, and neither file
    changes. What another program has open isn't carried."""
    with tempfile.TemporaryDirectory() as folder:
        desk = Desk(program, folder)
        desk.prepare(WITH_DAY)
        with Serving(program, desk.path, OFFICE, 3) as serving:
            for given in [office_rows.MORNING, office_rows.DAY_OFF]:
                desk.office.answer(["enter", "17"], given)
                serving.ask([posting("/drivers/17/entries", OFFICE, given)], False)
            path = os.path.join(folder, "copy")
            os.mkdir(path)
            for ending in ["", "-wal"]:
                shutil.copy(desk.path + ending, os.path.join(path, "archive.db" + ending))
            in_use = fault_of("S12 store failed", 3, desk.path, IN_USE)
            yield from of_refused_carry(desk, "of an archive that is served", desk.beside(NEW), "2024-03-05", in_use)
        copy = Desk(program, path)
        copy.office = desk.office
        before = contents_of(copy)
        yield "a log: whether it has a commit", log_of(copy.path) != b"", True
        for date in ["2024-03-05", "2024-03-11", "2024-03-12"]:
            yield f"a log: carry from {date}", *copy.both(["carry", f"{date}.db", date])
            after = contents_of(copy)
            yield f"a log: carry from {date}: the old archive", {one: after.get(one) for one in before} == before, True
            yield copy.carried_to(f"{date}.db").tables(f"a log: carry from {date}")
        yield copy.tables("a log")  # after which there is none: SQLite has copied it into the file
        before = contents_of(copy)
        yield "without a log: carry", *copy.both(["carry", NEW, "2024-03-12"])
        yield "without a log: the old archive", {one: contents_of(copy).get(one) for one in before} == before, True


def of_nobody(program: str) -> counting.Comparisons:
    """The comparisons of an archive without drivers."""
    with tempfile.TemporaryDirectory() as folder:
        desk = Desk(program, folder)
        desk.prepare([])
        yield "carry nobody", desk.run(["carry", NEW, "2024-03-04"]), (b"carried 0 of 0 drivers\n", 0, b"")
        desk.office.answer(["carry", NEW, "2024-03-04"])
        yield desk.carried_to(NEW).tables("carry nobody")
        yield from of_rows_at(desk.carried_to(NEW), "carry nobody", office_rows.NO_ANNA)


# Devices

WITH_HOURS = [WITH_DAY[0], WITH_DAY[1], (["enter", "17"], office_rows.MORNING)]


def of_outputs(program):
    """The comparisons of outputs that can't be written: the command has acted."""
    for name, run in [("a full device", to_full), ("a closed pipe", to_nobody)]:
        with tempfile.TemporaryDirectory() as folder:
            desk = Desk(program, folder)
            yield f"{name}: init", run(desk, ["init"], b""), (3, b"")
            for words, given in WITH_HOURS + CHANGES[:2] + CHANGES[3:]:
                desk.office.answer(words, given)
                yield f"{name}: {name_of(words)}", run(desk, words, given), (3, b"")
            yield desk.tables(name)
            for words in [*READINGS, "breaches 18", "breaches 017"]:
                text, _ = desk.office.answer(words.split())
                yield f"{name}: {words}", run(desk, words.split(), b""), (3 if text else 0, b"")
            yield desk.tables(f"{name}, after readings")


# Keys by their lengths. Others may guess those of fewer than 20 characters.
KEYS = ["k" * length for length in (8, 19, 20, 64)]


def warned_by(desk: Desk, words: Sequence[str], given: bytes) -> tuple[str, bytes]:
    """What a command prints, and all that it prints on standard error."""
    run = subprocess.run(desk.words(words), input=given, capture_output=True)
    return run.stdout.decode(errors="backslashreplace"), run.stderr


def of_short_keys(program: str) -> counting.Comparisons:
    """The comparisons of the sentences after a driver was given a key: there is one exactly if the key is short."""
    for key in KEYS:
        with tempfile.TemporaryDirectory() as folder:
            desk = Desk(program, folder)
            desk.prepare([(["register"], office_rows.BERT)])
            given = office_rows.ANNA.replace(b"anna-key-1", key.encode())
            warning = advice.lines_on(desk.path.encode(), [advice.SHORT_KEY])[0] if len(key) < 20 else b""
            yield f"register with a key of {len(key)}", warned_by(desk, ["register"], given), ("registered 17\n", warning)
            desk.office.answer(["register"], given)
            for words, line in [("key 18", key.encode() + b"\n"), ("register", given), ("key 19", b"another-key"), ("key 18", b"short")]:
                refused = desk.both(words.split(), line)
                yield f"{words} is refused, beside a key of {len(key)}", *refused
            other = key[:-1].encode() + b"x"
            yield f"a key of {len(key)}", warned_by(desk, ["key", "18"], other), ("key 18\n", warning)
            desk.office.answer(["key", "18"], other)
            yield f"a name beside a key of {len(key)}", *desk.both(["name", "18"], b"Bert Lund")
            yield desk.tables(f"a key of {len(key)}")


def of_inputs(program):
    """The comparisons of an input that can't be read, since it is a folder: nothing changes."""
    with tempfile.TemporaryDirectory() as folder:
        desk = Desk(program, folder)
        desk.prepare(WITH_DAY)
        for words in ["register", "import both", "enter 17", "key 17", "name 17"]:
            source = os.open(folder, os.O_RDONLY)
            made = subprocess.run(desk.words(words.split()), stdin=source, capture_output=True)
            os.close(source)
            errors = without_advice(made.args, made.stdout, made.returncode, made.stderr)
            yield f"a folder as input: {words}", (made.stdout, made.returncode, errors), DEVICE_FAILED
        yield desk.tables("a folder as input")


# Several card files

# The files of a folder, some of which its name stands for.
FOLDER = {
    "b.ddd": office_rows.DAY, "C.DDD": office_rows.DAY, "d.c1b": office_rows.OTHER_DAY, "e.TgD": office_rows.DAY[:30],
    "f.esm": office_rows.SATURDAY, "g\n\x7f.ddd": b"", "h.ddd": bytes(slow_office.INPUT_LIMIT + 1), "i.ddd.bak": office_rows.SATURDAY,
    "j.txt": b"", "ddd": b"", ".ddd": office_rows.SATURDAY, "k/l.ddd": office_rows.SATURDAY, "m.ddd/n.ddd": office_rows.SATURDAY,
}
MEANT = ["C.DDD", ".ddd", "b.ddd", "d.c1b", "e.TgD", "f.esm", "g\n\x7f.ddd", "h.ddd"]


def of_folders(program):
    """The comparisons of imports of several files: names, folders, parts, refusals, files that can't be read, and devices that fail."""
    with tempfile.TemporaryDirectory() as folder:
        desk, cards = Desk(program, folder), os.path.join(folder, "cards")
        for name, given in FOLDER.items():
            os.makedirs(os.path.dirname(os.path.join(cards, name)), exist_ok=True)
            write(os.path.join(cards, name), given)
        meant = [os.path.join(cards, name) for name in sorted(MEANT, key=str.encode)]
        desk.prepare(WITH_ANNA)
        none = os.path.join(folder, "none.ddd")
        lists = [[meant[0]], [cards], [f"{cards}/"], [none, meant[1]], [meant[2], cards, meant[2]], [os.path.join(cards, "j.txt")]]
        for part, names in [("whole", lists[0]), *itertools.product(["first", "both"], lists)]:
            files = [meant if name.rstrip("/") == cards else [name] for name in names]
            named = [(name, content(name)) for name in itertools.chain(*files)]
            wanted = (*desk.office.import_files(part, named), b"")
            yield f"files by {part}: {names}", desk.run(["import", part, *names]), wanted
            yield desk.tables(f"files by {part}: {names}")
        lost = Desk(program, os.path.join(folder, "lost"))
        yield "files for no archive", lost.run(["import", "both", cards]), STORE_FAILED
    for name, run in [("a full device", to_full), ("a closed pipe", to_nobody)]:
        with tempfile.TemporaryDirectory() as folder:
            desk = Desk(program, folder)
            desk.prepare(WITH_ANNA)
            for number, given in enumerate([office_rows.DAY, office_rows.SATURDAY]):
                write(os.path.join(folder, f"{number}.ddd"), given)
            yield f"files to {name}", run(desk, ["import", "both", folder], b""), (3, b"")
            desk.office.answer(["import", "both"], office_rows.DAY)
            yield desk.tables(f"files to {name}: no file after the first line")


# At a terminal

READS = b"tacho: reading standard input; end it with Ctrl-D\n"


def at_terminal(line, typed=None):
    """What a command prints on standard output, and on standard error, which is a terminal; so is its input, where something is typed."""
    (keyboard, keys), (screen, shown) = os.openpty(), os.openpty()
    if typed is not None:
        os.write(keyboard, typed + b"\x04")
    made = subprocess.run(line, stdin=subprocess.DEVNULL if typed is None else keys, stdout=subprocess.PIPE, stderr=shown)
    os.close(shown)
    errors = b""
    with contextlib.suppress(OSError):  # at the end of what is there
        while piece := os.read(screen, 1000):
            errors += piece
    for descriptor in (keyboard, keys, screen):
        os.close(descriptor)
    return made.stdout, errors.replace(b"\r\n", b"\n")


def of_terminals(program):
    """The comparisons of commands at a terminal: they say that they wait for input, and that they open a large file."""
    with tempfile.TemporaryDirectory() as folder:
        desk = Desk(program, folder)
        desk.prepare(WITH_ANNA)
        for words, typed in [("drivers", b""), ("key 17", b"anna-key-3\n"), ("breaches 17", b"")]:
            text, _ = desk.office.answer(words.split(), typed)
            shown, errors = at_terminal(desk.words(words.split()), typed)
            left = without_known(desk.path.encode(), [advice.SHORT_KEY] if typed else [], errors)
            yield f"at a terminal: {words}", (shown, left), (text, READS if typed else b"")
        yield "at a terminal: key from elsewhere", READS in at_terminal(desk.words(["key", "17"]))[1], False
        yield desk.tables("at a terminal")
        large = os.path.join(folder, "large.db")
        for length, said in [(19_999_999, b""), (25_000_000, b"tacho: opening %b, 25 MB\n" % large.encode())]:
            with open(large, "wb") as file:
                file.truncate(length)
            text, errors = at_terminal([program, "drivers", large])
            yield f"at a terminal: an archive of {length} bytes", (text, without_known(large.encode(), ["it is not an archive"], errors)), \
                (STORE_FAILED[0], said)


def knock(port):
    """Makes a connection to a server once it listens, and ends it."""
    last = time.monotonic() + SECONDS
    while time.monotonic() < last:
        with contextlib.suppress(ConnectionRefusedError), socket.create_connection((HOST, port), SECONDS):
            return
        time.sleep(0.01)


def of_servers(program):
    """The comparisons of servers of one connection at a terminal: `listen` says where the office's page is, once it listens."""
    with tempfile.TemporaryDirectory() as folder:
        desk = Desk(program, folder)
        desk.prepare(WITH_ANNA)
        for name, words, typed in [("listen", [], OFFICE.encode()), ("serve", [OFFICE], None)]:
            port = free_port()
            address = b"tacho: http://127.0.0.1:%d/office/\n" % port
            client = threading.Thread(target=knock, args=(port,))
            client.start()
            found = at_terminal([program, name, desk.path, *words, str(port), "1"], typed and typed + b"\n")
            client.join()
            yield f"at a terminal: {name}", found, (b"", READS + address if typed else b"")
        with socket.create_server((HOST, free_port())) as server:
            line = [program, "listen", desk.path, str(server.getsockname()[1]), "1"]
            text, errors = at_terminal(line, OFFICE.encode() + b"\n")
            yield "at a terminal: a port that is taken", (text, b"/office/" in errors), (NO_PORT[0], False)


def of_sentences():
    """The comparisons of the sentences for a person in the code with those of docs/FORMATS.md."""
    sources = [os.path.join(TOP, "crates", *path) for path in (("tacho", "src", "advice.rt"), ("tacho_disk", "src", "cause.rt"))]
    texts = {text for path in sources for text in re.findall(r'"((?:[^"\\]|\\.)*)"', read(path).decode())}
    found = {text for text in texts if " " in text and not re.search(r"[\\{}]", text)}
    yield "the sentences in docs/FORMATS.md", sorted(advice.all_sentences()), sorted(found)
    formats = " ".join(read(os.path.join(TOP, "docs", "FORMATS.md")).decode().split())
    for name, text in (("short keys", advice.SHORT_KEY), ("the office's key", advice.OFFICE_KEY)):
        yield f"the sentence on {name}", text in formats, True


# Cards

CARDS = 300


def of_cards(program):
    """The comparisons of card files without an archive: a file of each seed by a part, and arguments and files that are refused."""
    for seed in range(CARDS):
        chance = random.Random(seed)
        part = chance.choice(slow_archive.PARTS)
        file = random_cards.Card(chance, random_cards.HOLDERS[0]).file()
        text, status = slow_reader.card(file, part)
        yield f"card of seed {seed} by {part}", programs.told_by([program, "card", part], file), (text.encode(), status, b"")
    for part, file, wanted in office_rows.CARDS:
        yield f"card {part} of {len(file)} bytes", programs.told_by([program, "card", part], file), (*wanted, b"")
    for name, run, wanted in [("a full device", to_full, (3, b"")), ("a closed pipe", to_nobody, (3, b""))]:
        yield f"card to {name}", run(Words(program), ["card", "both"], office_rows.DAY), wanted
    yield "card of a bad part waits for nobody", programs.unasked([program, "card", "whole"]), (b"P1 bad part\n", 1)


class Words:
    """A program without an archive, in the place of a desk."""

    def __init__(self, program):
        self.program = program

    def words(self, words):
        return [self.program, *words]


# Bits

DAY_HOURS = [(0, 30, "work"), (30, 270, "drive"), (270, 315, "rest"), (315, 555, "drive"), (555, 1440, "rest")]


def many_hours(days):
    """The text of CSV with the same hours on each of some days, from 4 March 2024, 06:00."""
    first = rules.BASE + 360
    hours = [(first + 1440 * day + start, first + 1440 * day + past, what) for day in range(days) for start, past, what in DAY_HOURS]
    return hours_csv([(rules.BASE, first, "rest"), *hours])


def places(length):
    """The places in a file at which a bit is changed: some of its head, and some spread over all of it."""
    return [100 * number // BITS for number in range(0, BITS, 2)] + [(length - 1) * number // BITS for number in range(1, BITS + 1, 2)]


def of_bits(program):
    """The comparisons of files with one bit changed: the archive isn't opened, and the file stays as it is. In bytes that no
    version of SQLite reads the change may stay unseen."""
    with tempfile.TemporaryDirectory() as folder:
        desk = Desk(program, folder)
        desk.prepare([*WITH_ANNA, (["enter", "17"], many_hours(60))])
        told, right = desk.both(["breaches", "17"])
        yield "before a bit is changed", told, right
        whole = content(desk.path)
        for number, place in enumerate(places(len(whole))):
            bad = bytearray(whole)
            bad[place] ^= 1 << number % 8
            write(desk.path, bytes(bad))
            told = desk.run(["breaches", "17"])
            wanted = right if told == right and place in FREE_BYTES else STORE_FAILED
            yield f"bit {number % 8} of byte {place} changed", told, wanted
            yield f"bit {number % 8} of byte {place} changed: the file", wanted == right or content(desk.path) == bytes(bad), True
        write(desk.path, whole)
        yield desk.tables("after the bits are back")


# Random lines


def of_seed(program, seed):
    """The comparisons of a seed's lines, with the tables in between."""
    with tempfile.TemporaryDirectory() as folder:
        desk = Desk(program, folder)
        desk.prepare([])
        for number, (words, given) in enumerate(office_lines.Lines(seed).lines(), 1):
            name = f"seed {seed}, line {number}: {name_of(words)}"
            yield name, *desk.both(words, given)
            if number % 10 == 0:
                yield desk.tables(name)


def of_carry_seed(program: str, seed: int) -> counting.Comparisons:
    """The comparisons of a seed's lines with `carry` among them. Each new archive is read, and the lines that follow are given to the last
    of them too."""
    chance = random.Random(f"carry {seed}")
    with tempfile.TemporaryDirectory() as folder:
        desk = Desk(program, folder)
        desk.prepare([])
        new: Desk | None = None
        for number, (words, given) in enumerate(office_lines.CarryLines(seed).lines(), 1):
            name = f"carry, seed {seed}, line {number}: {name_of(words)}"
            before = contents_of(desk)
            told, wanted = desk.both(words, given)
            yield name, told, wanted
            if words[0] == "carry" and wanted[1] == 0:
                after = contents_of(desk)
                yield f"{name}: the files", sorted(after), sorted([*before, words[1]])
                yield f"{name}: the files before", {one: after.get(one) for one in before} == before, True
                if new is not None:
                    yield new.tables(f"{name}: the new archive before it")
                new = desk.carried_to(words[1])
                yield new.tables(name)
                readings = readings_of_all(new.office, chance)
                for reading in chance.sample(readings, min(READINGS_OF_NEW, len(readings))):
                    yield f"{name}, then {name_of(reading)}", *new.both(reading)
            elif words[0] == "carry":
                yield f"{name}: the files", contents_of(desk), before
            elif new is not None:
                yield f"{name}, at the new archive", *new.both(words, given)
        yield desk.tables(f"carry, seed {seed}")
        if new is not None:
            yield new.tables(f"carry, seed {seed}, the new archive")


# All


def comparisons(program: str) -> counting.Comparisons:
    program = os.path.abspath(program)
    questions: list[tuple[Any, ...]] = [(of_rows, program, name) for name in office_rows.ROWS]
    questions += [(part, program) for part in [
        of_examples, of_arguments, of_kinds, of_files, of_folders, of_terminals, of_servers, of_rights, of_outputs, of_short_keys,
        of_inputs, of_cards, of_bits]]
    questions += [(of_carry, program, name, carry) for name, carry in office_rows.CARRIES.items()]
    questions += [(of_rows_carried, program, name) for name in ROWS_OF_NEW]
    questions += [(part, program) for part in [
        of_carry_faults, of_odd_names, of_names_that_meet, of_carry_rights, of_carry_devices, of_log, of_nobody]]
    questions += [(of_sentences,)]
    questions += [(of_seed, program, seed) for seed in range(SEEDS)]
    questions += [(of_carry_seed, program, seed) for seed in range(CARRY_SEEDS)]
    yield from pools.of_questions(questions, PROCESSES)


if __name__ == "__main__":
    sys.exit(counting.count(comparisons(*sys.argv[1:])))
