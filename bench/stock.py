#!/usr/bin/env python3
"""Does with stock SQLite what an archive does with its tables: the same tables and statements, and each command in one transaction.

It takes the arguments and commands of the program tool_script, and gives the same answers. Next to the file that a command reads lies a
file with the rows that an archive keeps of it. So this program reads no card and no text, and decides nothing: what is measured is SQLite.
A line that has a file but no archive is no command; it loads the rows of the file."""
import functools
import json
import os
import sqlite3
import sys
from collections.abc import Callable, Iterable
from typing import Any

BASE = 10_959  # 2000-01-03, the day number of each driver's base
with open(os.path.join(os.path.dirname(os.path.abspath(__file__)), "tables.sql"), encoding="utf-8") as file:
    TABLES = [" ".join(text.split()) for text in file.read().split(";") if text.strip()]
# The statements that migrate an archive of schema 1.
MIGRATE = [
    *[text for text in TABLES if " entry_rows " in text],
    "INSERT INTO entry_rows (driver, number, start, past, mark, withdrawn, author, note)"
    " SELECT driver, number, start, past, mark, withdrawn, 'office', '' FROM entries",
    "DELETE FROM entries",
    "UPDATE meta SET version = 2 WHERE id = 1",
]
DRIVER = "SELECT driver, holder, base, name, downloads, entries FROM drivers WHERE driver = ?1"
BEFORE = "SELECT start, past, mark FROM {} WHERE driver = ?1 AND start < ?2 ORDER BY start DESC LIMIT 1"
BEGUN = "SELECT start, past, mark FROM {} WHERE driver = ?1 AND ?2 <= start AND start < ?3 ORDER BY start"
KEPT_NEAR = (
    "SELECT start, past, mark FROM entry_rows WHERE driver = ?1 AND withdrawn = 0 AND start < ?3 AND ?2 < past ORDER BY start"
)
ADD = "INSERT INTO {} (driver, start, past, mark) VALUES (?1, ?2, ?3, ?4)"


def opened(path: str | None) -> sqlite3.Connection:
    """Opens the archive in a file, or in memory if there is no path. Makes the tables if there are none. The settings are those of the
    archive's SQLite, as far as stock SQLite has them."""
    connection = sqlite3.connect(path or ":memory:", isolation_level=None)
    connection.execute("PRAGMA foreign_keys = ON")
    if path:
        connection.execute("PRAGMA locking_mode = EXCLUSIVE")
        connection.execute("PRAGMA journal_mode = WAL").fetchone()
        connection.execute("PRAGMA synchronous = FULL")
        connection.execute("PRAGMA cache_size = 2000")
    if not first(connection, "SELECT name FROM sqlite_schema"):
        do_all(connection, TABLES)
    return connection


def do_all(connection: sqlite3.Connection, texts: Iterable[str]) -> None:
    """Runs statements in one transaction."""
    connection.execute("BEGIN")
    for text in texts:
        connection.execute(text)
    connection.execute("COMMIT")


class Given:
    """The input of a command: the bytes of its file, and what an archive keeps of it."""

    def __init__(self, path: str) -> None:
        with open(path, "rb") as file:
            self.file = file.read()
        with open(path + ".rows", encoding="utf-8") as file_of_rows:
            self.rows = json.load(file_of_rows)
        self.spans = [tuple(span) for span in self.rows.get("spans", [])]
        self.of_driver = [(self.rows.get("driver"), *span) for span in self.spans]
        self.holder = bytes.fromhex(self.rows.get("holder", ""))

    def range_of(self, driver: int) -> tuple[int, int, int]:
        """The driver, the first minute of the spans, and the minute after their last."""
        return driver, self.spans[0][0], self.spans[-1][1]


# The input at a path. Each file is read only once.
given_at = functools.lru_cache(maxsize=None)(Given)


def first(connection: sqlite3.Connection, text: str, *values: Any) -> Any:
    """The first row of a statement's result, or None."""
    return connection.execute(text, values).fetchone()


def first_start(connection: sqlite3.Connection, table: str, driver: int, start: int, past: int) -> int:
    """The minute from which the rows near a range begin: the start of the row that holds `start`, else `start` itself."""
    before = first(connection, BEFORE.format(table), driver, start)
    return before[0] if before and before[0] < past and start < before[1] else start


def rows_near(connection: sqlite3.Connection, table: str, driver: int, start: int, past: int) -> list[tuple[int, int, int]]:
    """The rows that share a minute with a range: start, past and mark."""
    begin = first_start(connection, table, driver, start, past)
    return connection.execute(BEGUN.format(table), (driver, begin, past)).fetchall()


def register(connection: sqlite3.Connection, given: Given) -> str:
    """Adds a driver."""
    driver, key = given.rows["driver"], given.rows["key"]
    connection.execute("BEGIN")
    taken = [
        first(connection, DRIVER, driver),
        first(connection, "SELECT driver FROM drivers WHERE secret = ?1", key),
        first(connection, "SELECT driver FROM drivers WHERE holder = ?1", given.holder),
    ]
    if any(taken):
        raise ValueError("the driver, their key or their holder is already in the archive")
    connection.execute(
        "INSERT INTO drivers (driver, holder, secret, base, name, downloads, entries) VALUES (?1, ?2, ?3, ?4, ?5, 0, 0)",
        (driver, given.holder, key, BASE, "Anna Berg"),
    )
    connection.execute("COMMIT")
    return f"registered {driver}"


def import_card(connection: sqlite3.Connection, given: Given, _: str) -> str:
    """Adds a download and its spans."""
    connection.execute("BEGIN")
    (driver,) = first(connection, "SELECT driver FROM drivers WHERE holder = ?1", given.holder)
    number = first(connection, DRIVER, driver)[4] + 1
    # Both tables are read, as by the archive, even if the first has rows.
    if any([rows_near(connection, table, *given.range_of(driver)) for table in ("card_spans", "held")]):
        raise ValueError("the archive already has spans near those of the card")
    connection.execute("UPDATE drivers SET downloads = ?2 WHERE driver = ?1", (driver, number))
    connection.execute("INSERT INTO downloads (driver, number, part, file) VALUES (?1, ?2, ?3, ?4)", (driver, number, 0, given.file))
    connection.executemany(ADD.format("card_spans"), given.of_driver)
    connection.executemany(ADD.format("held"), given.of_driver)
    connection.execute("COMMIT")
    return f"added driver {driver} number {number}"


def enter(connection: sqlite3.Connection, given: Given, argument: str) -> str:
    """Adds entries and their spans."""
    driver = int(argument)
    connection.execute("BEGIN")
    number = first(connection, DRIVER, driver)[5] + 1
    if rows_near(connection, "held", *given.range_of(driver)):
        raise ValueError("the archive already has spans near the hours")
    last = number - 1 + len(given.spans)
    connection.execute("UPDATE drivers SET entries = ?2 WHERE driver = ?1", (driver, last))
    connection.executemany(
        "INSERT INTO entry_rows (driver, number, start, past, mark, withdrawn, author, note) VALUES (?1, ?2, ?3, ?4, ?5, 0, ?6, ?7)",
        [(driver, place, *span, "office", "") for place, span in enumerate(given.spans, number)],
    )
    connection.executemany(ADD.format("held"), [(driver, *span) for span in given.spans])
    connection.execute("COMMIT")
    return f"entered {number} to {last}"


def withdraw(connection: sqlite3.Connection, _: None, *arguments: str) -> str:
    """Marks an entry as withdrawn, and removes its span, which no card and no other entry gives."""
    driver, number = key = tuple(map(int, arguments))
    connection.execute("BEGIN")
    first(connection, DRIVER, driver)
    text = "SELECT number, start, past, mark, withdrawn, author, note FROM entry_rows WHERE driver = ?1 AND number = ?2"
    _, start, past, mark, *_ = first(connection, text, *key)
    connection.execute("UPDATE entry_rows SET withdrawn = 1 WHERE driver = ?1 AND number = ?2", key)
    cards = rows_near(connection, "card_spans", driver, start, past)
    others = connection.execute(KEPT_NEAR, (driver, start, past)).fetchall()
    if cards or others or rows_near(connection, "held", driver, start, past) != [(start, past, mark)]:
        raise ValueError("the archive has other spans near the entry")
    begin = first_start(connection, "held", driver, start, past)
    connection.execute("DELETE FROM held WHERE driver = ?1 AND ?2 <= start AND start < ?3", (driver, begin, past))
    connection.execute("COMMIT")
    return f"withdrawn {number}"


def migrate(connection: sqlite3.Connection, _: None) -> str:
    """Migrates an archive of schema 1, and writes the log into the file."""
    do_all(connection, MIGRATE)
    connection.execute("PRAGMA wal_checkpoint(TRUNCATE)").fetchone()
    return "migrated"


def settings(connection: sqlite3.Connection) -> str:
    """The settings that matter for the measurements, with SQLite's names."""
    names = ["journal_mode", "synchronous", "locking_mode", "cache_size", "page_size", "foreign_keys", "wal_autocheckpoint"]
    return ", ".join(f"{name} {first(connection, f'PRAGMA {name}')[0]}" for name in names)


COMMANDS: dict[str, Callable[..., str]] = {
    "register": register, "import": import_card, "enter": enter, "withdraw": withdraw, "migrate": migrate,
}


def answer(connection: sqlite3.Connection, line: str) -> str:
    """Runs the command of a line. Returns its answer: a text, and the line with its status."""
    command, _, path = line.partition(" < ")
    name, *arguments = command.split()
    given = given_at(path) if path else None
    if name == "settings":
        return f"{settings(connection)}\nstatus 0"
    if not arguments:
        return "status 2"
    if arguments[1:] == ["0"]:
        return "N1 bad number\nstatus 1"
    return f"{COMMANDS[name](connection, given, *arguments[1:])}\nstatus 0"


def main(_: str, path: str | None = None) -> None:
    """Answers the lines of standard input. Arguments: `archive` and the path of a file, or `memory` alone."""
    connection = opened(path)
    print("status 0", flush=True)
    for line in iter(sys.stdin.readline, ""):
        print(answer(connection, line.rstrip("\n")), flush=True)
    if path:
        connection.execute("PRAGMA wal_checkpoint(TRUNCATE)").fetchone()
    connection.close()


if __name__ == "__main__":
    main(*sys.argv[1:])
