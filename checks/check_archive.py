#!/usr/bin/env python3
"""Changes archives by stock SQLite, with the sum of each page made right again or with the change in the log alone, and compares what
`check` prints of them with worked lines and with a slow check: each row and column of each table, and rows of random archives. Archives as
commands and a server leave them, new and migrated ones have to be sound. What isn't a database of these tables is refused (S12).

`check` has to leave the file as it is. Argument: the program. The last line is 'N passed, M failed'."""
import contextlib
import datetime
import os
import random
import sqlite3
import sys
import tempfile
from collections.abc import Callable, Iterator, Sequence
from typing import Any

from inputs.random_commands import Commands
from lib import counting, old_archive, pools, seeds
from lib.archive import rows_at
from lib.files import content, copied, write
from lib.office import CREATED, STORE_FAILED, Desk
from lib.office_rows import (
    ANNA, BERT, BOTH, CREW_DAY, DAY, DAY_OFF, DRIVEN, FREE_DAYS, MORNING, NOON, OTHER_CARD, OTHER_DAY, SATURDAY,
)
from lib.programs import Told, unasked
from lib.server import OFFICE, Serving, posting
from slow import slow_check
from slow.slow_check import SOUND, TABLES
from slow.slow_office import Command

Step = tuple[str, Sequence[object]]  # a statement of SQL, and the values in it
Change = Sequence[Step]

SEEDS = seeds.tried(24)
CHANGES = 20  # of an archive of a seed
PROCESSES = 2
HUGE = (1 << 63) - 1
ANSWERS = [SOUND, "S12 store failed\n", *(f"unsound {table}\n" for table in TABLES)]  # all of which have to come

# What archives were given before their rows are changed. What isn't here is the example of schema 1, which is migrated.
DAYS = "days and hours"
MIGRATED = "a migrated archive"
ARCHIVES: dict[str, list[Command]] = {
    "a driver": [(["register"], ANNA)],
    "a day": [(["register"], ANNA), (["register"], BERT), (["import", "both"], DAY), (["enter", "18"], FREE_DAYS)],
    DAYS: [
        (["register"], ANNA), (["import", "both"], NOON), (["import", "first"], BOTH), (["import", "both"], SATURDAY),
        (["enter", "17"], MORNING), (["enter", "17"], DAY_OFF), (["withdraw", "17", "2"], b""), (["register"], BERT),
        (["enter", "18"], FREE_DAYS), (["withdraw", "18", "1"], b""), (["enter", "18"], FREE_DAYS),
    ],
    "a second driver": [(["register"], ANNA), (["import", "both"], CREW_DAY)],
}

# Worked changes of `days and hours`, and what `check` prints then. There 17 has three card files (Monday to 08:30; Monday, 4 March and
# Tuesday to 08:00, by the first generation; Saturday), entries of Tuesday morning (1, and 2, which is withdrawn) and of the next Monday
# (3); 18 has two entries of the same two days, of which the first is withdrawn.
MONDAY_DRIVEN = "start = minute('2024-03-04 08:30')"
MORNING_DRIVEN = "17, minute('2024-03-05 08:30'), minute('2024-03-05 12:00'), 3"
OF_SATURDAY = "driver = 17 and start between minute('2024-03-09 00:00') and minute('2024-03-10 00:00')"
WITHDRAWN = "where driver = 17 and number = 2"
WORKED: list[tuple[str, str]] = [
    ("update drivers set name = 'Carla', secret = '12345678' where driver = 17", SOUND),
    ("update drivers set name = '' where driver = 17", "unsound 17 drivers\n"),
    (f"update drivers set name = '{'x' * 64}' where driver = 17", SOUND),
    (f"update drivers set name = '{'x' * 65}' where driver = 17", "unsound 17 drivers\n"),
    (f"update drivers set name = '{'ß' * 32}' where driver = 17", SOUND),
    (f"update drivers set name = '{'ß' * 32}x' where driver = 17", "unsound 17 drivers\n"),
    ("update drivers set name = 'Anna' || char(10) || '99 00 2024-03-04 9 9 Nobody' where driver = 17", "unsound 17 drivers\n"),
    ("update drivers set name = 'Berg, Anna' where driver = 17", "unsound 17 drivers\n"),
    ("update drivers set name = 'Anna \"A\" Berg' where driver = 17", "unsound 17 drivers\n"),
    ("update drivers set name = 'Anna' || char(127) where driver = 18", "unsound 18 drivers\n"),
    ("update drivers set name = cast(x'416e6eff' as text) where driver = 18", "unsound 18 drivers\n"),
    ("update drivers set name = cast(x'eda080' as text) where driver = 18", "unsound 18 drivers\n"),
    ("update drivers set secret = '1234567' where driver = 17", "unsound 17 drivers\n"),
    (f"update drivers set secret = '{'k' * 64}' where driver = 17", SOUND),
    (f"update drivers set secret = '{'k' * 65}' where driver = 17", "unsound 17 drivers\n"),
    ("update drivers set secret = 'anna_key_0001' where driver = 17", "unsound 17 drivers\n"),
    ("update drivers set secret = cast(x'6b6b6b6b6b6b6b6bff' as text) where driver = 17", "unsound 17 drivers\n"),
    ("update drivers set holder = x'' where driver = 18", "unsound 18 drivers\n"),
    ("update drivers set holder = substr(holder, 1, 14) where driver = 18", "unsound 18 drivers\n"),
    ("update drivers set holder = zeroblob(16) where driver = 18", "unsound 18 drivers\n"),
    ("update drivers set base = base + 1", "unsound 17 drivers\n"),
    ("update drivers set base = base - 1 where driver = 18", "unsound 18 drivers\n"),
    ("update drivers set base = 10959 where driver = 18", SOUND),  # 2000-01-03
    ("update drivers set base = 10952 where driver = 18", "unsound 18 drivers\n"),
    ("update drivers set base = 47478 where driver = 18", SOUND),  # 2099-12-28
    ("update drivers set base = 47485 where driver = 18", "unsound 18 drivers\n"),
    ("update drivers set base = 60000 where driver = 18", "unsound 18 drivers\n"),
    ("update drivers set base = -1 where driver = 18", "unsound 18 drivers\n"),
    ("update drivers set downloads = -1 where driver = 18", "unsound 18 drivers\n"),
    ("update drivers set entries = -1 where driver = 17", "unsound 17 drivers\n"),
    ("insert into drivers values (5, x'00', 'k', 0, '', 0, 0)", "unsound 5 drivers\n"),
    *((f"insert into drivers values ({number}, zeroblob(15), 'carl-key-0001', 19786, 'Carl', {downloads}, {entries})", line)
      for number, downloads, entries, line in [
        (5, 0, 0, SOUND), (1, 0, 0, SOUND), (999_999, 0, 0, SOUND), (0, 0, 0, "unsound 0 drivers\n"), (-5, 0, 0, "unsound -5 drivers\n"),
        (1_000_000, 0, 0, "unsound 1000000 drivers\n"), (HUGE, 0, 0, f"unsound {HUGE} drivers\n"), (5, 1, 1, "unsound 5 downloads\n"),
        (5, 1_000_000, 0, "unsound 5 downloads\n"), (5, 1_000_001, 0, "unsound 5 drivers\n"), (5, HUGE, 0, "unsound 5 drivers\n"),
        (5, 0, 1, "unsound 5 entry_rows\n"), (5, 0, 1_000_000, "unsound 5 entry_rows\n"), (5, 0, 1_000_001, "unsound 5 drivers\n")]),
    ("update drivers set downloads = 2 where driver = 17", "unsound 17 downloads\n"),
    ("update drivers set downloads = 4 where driver = 17", "unsound 17 downloads\n"),
    ("update downloads set number = 4 where number = 3", "unsound 17 downloads\n"),
    ("update downloads set number = number - 1", "unsound 17 downloads\n"),
    ("update downloads set part = 0 where number = 2", "unsound 17 downloads\n"),
    ("update downloads set part = 2 where number = 3", "unsound 17 downloads\n"),
    ("update downloads set part = 3 where number = 3", "unsound 17 downloads\n"),
    ("update downloads set part = -1 where number = 3", "unsound 17 downloads\n"),
    ("update downloads set part = 1 where number = 3", SOUND),
    ("update downloads set file = x'' where number = 3", "unsound 17 downloads\n"),
    (f"update downloads set file = x'{OTHER_CARD.hex()}' where number = 2", "unsound 17 downloads\n"),
    (f"update downloads set file = x'{OTHER_DAY.hex()}' where number = 2", "unsound 17 downloads\n"),
    (f"update downloads set file = x'{DAY.hex()}' where number = 3", "unsound 17 card_spans\n"),
    ("update downloads set number = 9 where number = 1; update downloads set number = 1 where number = 2;"
     "update downloads set number = 2 where number = 9", SOUND),
    ("delete from downloads where number = 3", "unsound 17 downloads\n"),
    ("delete from downloads where number = 1; update downloads set number = number - 1; update drivers set downloads = 2 where driver = 17",
     SOUND),
    ("delete from downloads where number = 3; update drivers set downloads = 2 where driver = 17", "unsound 17 card_spans\n"),
    (f"delete from downloads where number = 3; update drivers set downloads = 2 where driver = 17; delete from card_spans where {OF_SATURDAY}",
     "unsound 17 held\n"),
    (f"delete from downloads where number = 3; update drivers set downloads = 2 where driver = 17; delete from card_spans where {OF_SATURDAY};"
     f"delete from held where {OF_SATURDAY}", SOUND),
    (f"update card_spans set past = past - 1 where {MONDAY_DRIVEN}", "unsound 17 card_spans\n"),
    (f"update card_spans set past = past + 1 where {MONDAY_DRIVEN}", "unsound 17 card_spans\n"),
    (f"update card_spans set mark = 7 where {MONDAY_DRIVEN}", "unsound 17 card_spans\n"),
    (f"update card_spans set mark = 11 where {MONDAY_DRIVEN}", "unsound 17 card_spans\n"),
    (f"update card_spans set mark = -1 where {MONDAY_DRIVEN}", "unsound 17 card_spans\n"),
    (f"insert into card_spans select driver, start + 60, past, mark from card_spans where {MONDAY_DRIVEN};"
     f"update card_spans set past = start + 60 where {MONDAY_DRIVEN}", SOUND),
    (f"insert into card_spans select driver, start + 60, past, mark from card_spans where {MONDAY_DRIVEN};"
     f"update card_spans set past = start + 61 where {MONDAY_DRIVEN}", "unsound 17 card_spans\n"),
    (f"insert into card_spans select driver, start + 60, past - 60, mark from card_spans where {MONDAY_DRIVEN}", "unsound 17 card_spans\n"),
    ("insert into card_spans values (17, 1, 1, 0)", "unsound 17 card_spans\n"),
    ("insert into card_spans values (17, 3, 1, 0)", "unsound 17 card_spans\n"),
    ("insert into card_spans values (17, -1, 0, 0)", "unsound 17 card_spans\n"),
    ("insert into card_spans values (18, 1, 2, 0)", "unsound 18 card_spans\n"),
    ("delete from card_spans", "unsound 17 card_spans\n"),
    ("update card_spans set driver = 18", "unsound 17 card_spans\n"),
    ("update drivers set entries = 2 where driver = 17", "unsound 17 entry_rows\n"),
    ("update drivers set entries = 4 where driver = 17", "unsound 17 entry_rows\n"),
    ("update entry_rows set number = 4 where driver = 17 and number = 2", "unsound 17 entry_rows\n"),
    ("update entry_rows set number = 9 where driver = 17 and number = 1; update entry_rows set number = 1 where driver = 17 and number = 3;"
     "update entry_rows set number = 3 where number = 9", SOUND),
    ("update entry_rows set author = 'x', note = '' where driver = 17", SOUND),
    (f"update entry_rows set author = '{'x' * 64}', note = '{'y' * 200}' where driver = 17", SOUND),
    ("update entry_rows set author = '' where driver = 17 and number = 3", "unsound 17 entry_rows\n"),
    (f"update entry_rows set author = '{'x' * 65}' {WITHDRAWN}", "unsound 17 entry_rows\n"),
    (f"update entry_rows set author = 'a,b' {WITHDRAWN}", "unsound 17 entry_rows\n"),
    (f"update entry_rows set author = cast(x'ff' as text) {WITHDRAWN}", "unsound 17 entry_rows\n"),
    (f"update entry_rows set note = '{'y' * 201}' {WITHDRAWN}", "unsound 17 entry_rows\n"),
    (f"update entry_rows set note = 'a\"b' || char(10) || 'c' {WITHDRAWN}", "unsound 17 entry_rows\n"),
    (f"update entry_rows set note = cast(x'c3' as text) {WITHDRAWN}", "unsound 17 entry_rows\n"),
    *((f"update entry_rows set start = {start}, past = {past} {WITHDRAWN}", line) for start, past, line in [
        (15_780_960, 15_780_961, SOUND), (15_780_959, 15_780_961, "unsound 17 entry_rows\n"),  # 2000-01-03 00:00
        (68_374_079, 68_374_080, SOUND), (68_374_079, 68_374_081, "unsound 17 entry_rows\n"),  # 2100-01-01 00:00
        (28_000_000, 28_527_040, SOUND), (28_000_000, 28_527_041, "unsound 17 entry_rows\n"),
        (28_000_000, 9_000_000_000_000, "unsound 17 entry_rows\n"), (HUGE - 1, HUGE, "unsound 17 entry_rows\n")]),
    ("update entry_rows set past = 70000000 where driver = 18; update held set past = 70000000 where driver = 18", "unsound 18 entry_rows\n"),
    ("update entry_rows set mark = 4 where number = 3", "unsound 17 entry_rows\n"),
    ("update entry_rows set mark = 4 where driver = 17 and number = 2", "unsound 17 entry_rows\n"),
    ("update entry_rows set mark = -1 where number = 3", "unsound 17 entry_rows\n"),
    ("update entry_rows set mark = 2 where number = 3", "unsound 17 held\n"),
    ("update entry_rows set past = start where number = 3", "unsound 17 entry_rows\n"),
    ("update entry_rows set past = start where driver = 17 and number = 2", "unsound 17 entry_rows\n"),
    ("update entry_rows set past = start - 1 where driver = 18 and number = 1", "unsound 18 entry_rows\n"),
    ("update entry_rows set start = -1 where driver = 17 and number = 2", "unsound 17 entry_rows\n"),
    ("update entry_rows set past = past + 1 where driver = 17 and number = 2", SOUND),
    ("update entry_rows set past = past + 1 where driver = 17 and number = 1", "unsound 17 held\n"),
    ("update entry_rows set start = minute('2024-03-05 07:59') where driver = 17 and number = 1", "unsound 17 entry_rows\n"),
    ("update entry_rows set start = minute('2024-03-05 07:59') where driver = 17 and number = 2", SOUND),
    ("update entry_rows set withdrawn = 0 where driver = 17", "unsound 17 held\n"),
    (f"update entry_rows set withdrawn = 0 where driver = 17; insert into held values ({MORNING_DRIVEN})", SOUND),
    ("update entry_rows set withdrawn = 1 where driver = 17 and number = 1", "unsound 17 held\n"),
    ("update entry_rows set withdrawn = 1 where driver = 17 and number = 1; delete from held where start = minute('2024-03-05 08:00')", SOUND),
    ("update entry_rows set withdrawn = 0 where driver = 18", SOUND),
    ("update entry_rows set withdrawn = 1 where driver = 18", "unsound 18 held\n"),
    ("update entry_rows set withdrawn = 0 where driver = 18; update entry_rows set mark = 1 where driver = 18 and number = 1",
     "unsound 18 entry_rows\n"),
    (f"update held set past = past - 1 where {MONDAY_DRIVEN}", "unsound 17 held\n"),
    (f"update held set mark = 7 where {MONDAY_DRIVEN}", "unsound 17 held\n"),
    (f"update held set mark = 8 where {MONDAY_DRIVEN}", "unsound 17 held\n"),
    (f"insert into held select driver, start + 60, past, mark from held where {MONDAY_DRIVEN};"
     f"update held set past = start + 60 where {MONDAY_DRIVEN}", SOUND),
    (f"insert into held select driver, start + 60, past, mark from held where {MONDAY_DRIVEN}", "unsound 17 held\n"),
    ("insert into held values (17, 1, 1, 0)", "unsound 17 held\n"),
    (f"insert into held values (17, {HUGE - 1}, {HUGE}, 0)", "unsound 17 held\n"),
    (f"insert into held values ({MORNING_DRIVEN})", "unsound 17 held\n"),
    ("delete from held where driver = 18", "unsound 18 held\n"),
    ("delete from held", "unsound 17 held\n"),
    # Of two drivers the lower one, and of two tables the first. A driver without card files may hold what cards don't give.
    ("update held set past = past + 1", "unsound 17 held\n"),
    ("update held set past = past + 1; update drivers set base = -1 where driver = 18", "unsound 17 held\n"),
    ("update held set past = past + 1; insert into drivers values (16, zeroblob(15), 'carl-key-0001', 19786, 'Carl', 0, 1)",
     "unsound 16 entry_rows\n"),
    ("update held set past = past + 1; delete from card_spans", "unsound 17 card_spans\n"),
    ("update drivers set entries = 0; delete from card_spans", "unsound 17 card_spans\n"),
    ("update drivers set entries = 0, base = -1; delete from card_spans", "unsound 17 drivers\n"),
    ("update drivers set driver = 1 where driver = 18; update entry_rows set driver = 1 where driver = 18;"
     "update held set driver = 1 where driver = 18", SOUND),
    ("update drivers set driver = 1 where driver = 18; update entry_rows set driver = 1 where driver = 18;"
     "update held set driver = 1, past = past + 1 where driver = 18; delete from card_spans", "unsound 1 held\n"),
]

# Worked changes after which a file is no archive's. The first ones are of rows whose driver has none.
REFUSED = [
    "insert into downloads values (99, 1, 0, x'')",
    "insert into card_spans values (99, 1, 2, 0)",
    "insert into entry_rows values (99, 1, 1, 2, 0, 0, 'office', '')",
    "insert into held values (99, 1, 2, 0)",
    "update held set driver = 99 where driver = 18",
    "update drivers set driver = 99 where driver = 18",
    "delete from drivers where driver = 18",
    "update entry_rows set withdrawn = 2 where driver = 18",
    "delete from meta",
    "update meta set id = 2",
    "update meta set version = 3",
    "insert into meta values (2, 2)",
    "insert into meta values (0, 1)",
]
UNTYPED = ["update held set mark = 'rest'", "update held set mark = 1.5", "update held set mark = null", "update held set mark = x'00'"]


# Changes


def minute(text: str) -> int:
    """The number of a minute."""
    moment = datetime.datetime.fromisoformat(text) - datetime.datetime(1970, 1, 1)
    return moment // datetime.timedelta(minutes=1)


def worked(statements: str) -> Change:
    """The change by some statements."""
    return [(statement, []) for statement in statements.split(";")]


def others_of(value: object) -> list[object]:
    """Values that are put in the place of a value of a row."""
    if isinstance(value, int):
        return [value + 1, value - 1, value + 4, 0, -1, HUGE]
    if isinstance(value, bytes):
        return [b"", value[:-1], value + b"\0", DAY]
    return ["", f"{value}x"]


def added(table: str, row: Sequence[object]) -> Step:
    """The step that adds a row."""
    return f"insert into {table} values ({', '.join('?' for _ in row)})", row


def with_other(row: Sequence[object], place: int, other: object) -> list[object]:
    """A row with another value in a place."""
    return [*row[:place], other, *row[place + 1 :]]


def changes_of(table: str, columns: Sequence[str], row: Sequence[Any]) -> Iterator[Change]:
    """The changes of a row: it is removed; a column gets another value; another row is added, which differs in one column or in two; of
    spans it is divided, with and without a minute in both parts, and an empty row is added; of drivers another one is added."""
    where = " and ".join(f"{name} is ?" for name in columns)
    yield [(f"delete from {table} where {where}", row)]
    for place, name in enumerate(columns):
        for other in others_of(row[place]):
            yield [(f"update {table} set {name} = ? where {where}", [other, *row])]
            yield [added(table, with_other(row, place, other))]
            if table != "drivers":
                yield [added(table, with_other(with_other(row, 1, row[1] + 100), place, other))]
    if table in ("card_spans", "held"):
        driver, start, past, mark = row
        middle = (start + past) // 2
        for second in (middle, middle - 1):
            yield [(f"update {table} set past = ? where {where}", [middle, *row]), added(table, (driver, second, past, mark))]
        yield [added(table, (driver, past + 100, past + 100, mark))]
    if table == "drivers":
        number, holder, key, *others = row
        yield [added(table, (number + 100, holder[:-1] + b"\0", key + "x", *others))]


def rows_in(path: str) -> dict[str, list[tuple[Any, ...]]]:
    """The rows of each table of a file, by SQLite."""
    with contextlib.closing(sqlite3.connect(path)) as store:
        store.text_factory = lambda data: data.decode(errors="surrogateescape")
        return {table: store.execute(f"select * from {table}").fetchall() for table in TABLES}


def is_current(path: str) -> bool:
    """Whether `meta` has its one row, of version 2, and the table of schema 1, if it is there, has no rows."""
    with contextlib.closing(sqlite3.connect(path)) as store:
        tables = [name for name, in store.execute("select name from sqlite_schema where type = 'table'")]
        return store.execute("select * from meta").fetchall() == [(1, 2)] and not (
            "entries" in tables and store.execute("select * from entries").fetchall())


def columns_of(path: str, table: str) -> list[str]:
    """The names of a table's columns."""
    with contextlib.closing(sqlite3.connect(path)) as store:
        return [name for _, name, *_ in store.execute(f"pragma table_info({table})")]


def do(store: sqlite3.Connection, change: Change) -> bool:
    """Makes a change in one transaction. False if SQLite refuses it, which it does where a row has the key of another one."""
    store.create_function("minute", 1, minute)
    for setting in ["foreign_keys = off", "ignore_check_constraints = on", "wal_autocheckpoint = 0", "synchronous = off"]:
        store.execute(f"pragma {setting}")
    try:
        with store:
            for statement, values in change:
                store.execute(statement, values)
    except (sqlite3.IntegrityError, OverflowError):
        return False
    return True


def forget_log(path: str) -> None:
    """Removes the log of a file."""
    for ending in ("-wal", "-shm"):
        with contextlib.suppress(FileNotFoundError):
            os.remove(path + ending)


def change_file(path: str, change: Change) -> bool:
    """Changes a file and leaves it without a log and with right sums. False if SQLite refuses the change."""
    with contextlib.closing(sqlite3.connect(path)) as store:
        is_done = do(store, change)
        store.execute("pragma wal_checkpoint(truncate)")
    forget_log(path)
    old_archive.put_sums(path)
    return is_done


def change_log(path: str, change: Change) -> bool:
    """Changes an archive in its log alone, as a program leaves it that is ended. False if SQLite refuses the change."""
    whole = content(path)
    assert whole is not None
    with contextlib.closing(sqlite3.connect(path)) as store:
        is_done = do(store, change)
        log = content(path + "-wal")
    forget_log(path)
    write(path, whole)
    write(path + "-wal", log or b"")
    return is_done


def change_untyped(path: str, change: Change) -> bool:
    """Changes a file whose tables have no types and may have empty columns meanwhile."""
    with contextlib.closing(sqlite3.connect(path)) as store, store:
        made = store.execute("select name, sql from sqlite_schema where type = 'table'").fetchall()
        store.execute("pragma writable_schema = on")
        store.execute("update sqlite_schema set sql = replace(replace(replace(sql, ' STRICT', ''), ' NOT NULL', ''), ' INTEGER', ' ')"
                      " where type = 'table' and name in ('held', 'card_spans')")
    is_done = change_file(path, change)
    with contextlib.closing(sqlite3.connect(path)) as store, store:
        store.execute("pragma writable_schema = on")
        store.executemany("update sqlite_schema set sql = ?2 where name = ?1", made)
    return change_file(path, []) and is_done


# Archives


class Changed(Desk):
    """The program at an archive whose rows are changed, and then are as they were."""

    def __init__(self, program: str, folder: str) -> None:
        super().__init__(program, folder)
        self.folder = folder
        self.whole = b""

    def make(self, name: str) -> None:
        """Makes an archive."""
        if name in ARCHIVES:
            self.prepare(ARCHIVES[name])
        else:
            old_archive.make(self.path, old_archive.example_rows())
            self.run(["migrate"])

    def keep(self) -> None:
        """Keeps the file as it is, with its log written into it."""
        change_file(self.path, [])
        self.whole = content(self.path) or b""

    def restore(self) -> None:
        """Makes the file what it was."""
        forget_log(self.path)
        write(self.path, self.whole)

    def wanted(self) -> Told:
        """What `check` has to print: by the slow check, if SQLite finds nothing wrong."""
        path = copied(self.path, self.folder)
        found = rows_at(path)
        if found.get("integrity_check") != [("ok",)] or found["foreign_key_check"] or not is_current(path):
            return STORE_FAILED
        line = slow_check.line_of(rows_in(path))
        return line.encode(), int(line != SOUND), b""

    def of_check(self, name: str) -> counting.Comparison:
        """The comparison of a check of a file without a log with the slow check: the file stays as it is."""
        before, wanted = content(self.path), self.wanted()
        told = self.run(["check"])
        return name, (told, content(self.path) == before), (wanted, True)

    def of_logged(self, name: str) -> counting.Comparisons:
        """The comparisons of a check of a file with a log, and of another one, with the slow check: the tables stay as they are."""
        before, wanted = rows_at(copied(self.path, self.folder)), self.wanted()
        for place in ["", ", once more"]:
            yield f"{name}, in the log{place}", self.run(["check"]), wanted
        if wanted != STORE_FAILED:
            yield f"{name}, in the log: the tables", rows_at(copied(self.path, self.folder)), before


def name_of(name: str, change: Change) -> str:
    """The name of a change of an archive."""
    return f"{name}: {change!r}"[:240]


def of_worked(program: str, change: Callable[[str, Change], bool], is_logged: bool) -> counting.Comparisons:
    """The comparisons of the worked changes, and of the slow check with what they say."""
    with tempfile.TemporaryDirectory() as folder:
        desk = Changed(program, folder)
        desk.make(DAYS)
        desk.keep()
        lines = [*WORKED, *((statements, STORE_FAILED[0].decode()) for statements in REFUSED)]
        for statements, line in lines:
            desk.restore()
            name = f"worked: {statements}"[:240]
            yield f"{name}: whether it was done", change(desk.path, worked(statements)), True
            yield f"{name}: by the slow check", desk.wanted()[0], line.encode()
            yield from desk.of_logged(name) if is_logged else [desk.of_check(name)]


def of_untyped(program: str) -> counting.Comparisons:
    """The comparisons of values that a column can't have."""
    with tempfile.TemporaryDirectory() as folder:
        desk = Changed(program, folder)
        desk.make(DAYS)
        desk.keep()
        for statements in UNTYPED:
            desk.restore()
            yield f"{statements}: whether it was done", change_untyped(desk.path, worked(statements)), True
            yield statements, desk.run(["check"]), STORE_FAILED
        desk.restore()
        change_untyped(desk.path, [])
        yield desk.of_check("tables that had no types meanwhile")


def of_changes(program: str, name: str, table: str) -> counting.Comparisons:
    """The comparisons of an archive, after each change of each row of a table."""
    with tempfile.TemporaryDirectory() as folder:
        desk = Changed(program, folder)
        desk.make(name)
        desk.keep()
        yield f"{name}: check", desk.run(["check"]), (SOUND.encode(), 0, b"")
        columns = columns_of(desk.path, table)
        for row in rows_in(desk.path)[table]:
            for change in changes_of(table, columns, row):
                desk.restore()
                if change_file(desk.path, change):
                    yield desk.of_check(name_of(name, change))


# Random archives


def change_in(chance: random.Random, path: str) -> Change:
    """A change of a row of an archive."""
    rows = rows_in(path)
    table = chance.choice([table for table in TABLES if rows[table]])
    return chance.choice([*changes_of(table, columns_of(path, table), chance.choice(rows[table]))])


def of_seed(program: str, seed: int) -> counting.Comparisons:
    """The comparisons of an archive during the random commands of a seed, and then after some changes of its rows, every other time in the
    log alone."""
    chance, name = random.Random(seed), f"seed {seed}"
    with tempfile.TemporaryDirectory() as folder:
        desk = Changed(program, folder)
        desk.prepare([])
        for number, (words, given) in enumerate(Commands(seed).all(), 1):
            if words[0] != "own":
                desk.run(words, given)
            if number % 10 == 0:
                yield f"{name}, after {number} commands", desk.run(["check"]), (SOUND.encode(), 0, b"")
        desk.keep()
        yield f"{name}: by the slow check", desk.wanted()[0], SOUND.encode()
        for place in range(CHANGES):
            desk.restore()
            change = [step for _ in range(chance.choice([1, 1, 2, 3])) for step in change_in(chance, desk.path)]
            is_logged = place % 2 == 1
            if (change_log if is_logged else change_file)(desk.path, change):
                yield from desk.of_logged(name_of(name, change)) if is_logged else [desk.of_check(name_of(name, change))]


# Sound archives


def of_others(program: str) -> counting.Comparisons:
    """The comparisons of a new archive, of one that is migrated, and of one that a server has left whose log isn't written back."""
    sound = SOUND.encode(), 0, b""
    with tempfile.TemporaryDirectory() as folder:
        desk = Desk(program, folder)
        yield "no file: check", desk.run(["check"]), STORE_FAILED
        yield "init", desk.run(["init"]), CREATED
        yield "a new archive: check", desk.run(["check"]), sound
        yield "check waits for nobody", unasked(desk.words(["check"])), sound[:2]
        desk.path = os.path.join(folder, "old.db")
        old_archive.make(desk.path, old_archive.example_rows())
        yield "an old archive: check", desk.run(["check"]), (b"S13 old archive\n", 1, b"")
        yield "its migration", desk.run(["migrate"]), (b"migrated\n", 0, b"")
        yield "a migrated archive: check", desk.run(["check"]), sound
        change_file(desk.path, [("insert into entries values (17, 9, 0, 1, 0, 0)", [])])
        yield "a migrated archive with a row of schema 1: check", desk.run(["check"]), STORE_FAILED
        desk.path = os.path.join(folder, "served.db")
        desk.prepare(ARCHIVES["a driver"])
        with Serving(program, desk.path, OFFICE, 2) as serving:
            told = serving.ask([posting("/drivers/17/entries", OFFICE, DRIVEN)], False)
            yield "a server", told[:12], b"HTTP/1.1 201"
        yield "a server that is ended: whether it has left a log", os.path.getsize(desk.path + "-wal") > 4096, True
        yield "a server that is ended: check", desk.run(["check"]), sound
        yield "a server that is ended: entries", desk.run(["entries", "17"])[0].count(b"\n"), 2


# All


def answer_of(told: object) -> str:
    """What `check` has printed, without the number of a driver, or nothing of another comparison."""
    while isinstance(told, tuple) and told:
        told = told[0]
    words = told.decode().split(" ") if isinstance(told, bytes) else []
    return f"unsound {words[2]}" if words[:1] == ["unsound"] else " ".join(words)


def comparisons(program: str) -> counting.Comparisons:
    program = os.path.abspath(program)
    questions: list[tuple[Any, ...]] = [(of_worked, program, change_file, False), (of_worked, program, change_log, True)]
    questions += [(of_changes, program, name, table) for name in [*ARCHIVES, MIGRATED] for table in TABLES]
    questions += [(of_untyped, program), (of_others, program), *[(of_seed, program, seed) for seed in range(SEEDS)]]
    came = set()
    for name, told, wanted in pools.of_questions(questions, PROCESSES):
        came.add(answer_of(told))
        yield name, told, wanted
    yield "answers that didn't come", [answer for answer in ANSWERS if answer not in came], []


if __name__ == "__main__":
    sys.exit(counting.count(comparisons(*sys.argv[1:])))
