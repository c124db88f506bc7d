"""The tables of an archive's file: what SQLite finds in them, and what it has to find there."""
import contextlib
import functools
import os
import re
import sqlite3
from collections.abc import Iterable, Mapping, Sequence
from typing import Any

from lib.counting import Comparison
from lib.files import DOCS
from slow.slow_archive import Archive
from slow.slow_office import Office

Found = dict[str, list[Any]]  # the rows of tables, the statements that made them, and what SQLite says of them, by a name each


def documented() -> dict[str, str]:
    """The statements by which the tables of both schemas are made, as the document shows them, by the names of the tables."""
    with open(os.path.join(DOCS, "TABLES.md"), encoding="utf-8") as document:
        found = re.findall(r"^    (CREATE TABLE (\w+) .*\n(?:      .*\n)*)", document.read(), re.MULTILINE)
    return {name: " ".join(statement.split()) for statement, name in found}


MADE = documented()

# The tables of schema 2 as `init` makes them, and as `migrate` leaves them, each in its order.
TABLES = ["meta", "drivers", "downloads", "card_spans", "entry_rows", "held"]
MIGRATED_TABLES = ["meta", "drivers", "downloads", "card_spans", "entries", "held", "entry_rows"]


# What SQLite finds


def minutes_of(rows: Iterable[tuple[int, int, int, int]]) -> list[tuple[int, int, int]]:
    """The minutes of rows of spans, each with its driver and its mark, as often as rows have it; of a row that has none, -1."""
    return sorted((driver, minute, mark) for driver, a, b, mark in rows for minute in range(a, b) or [-1])


def read(store: sqlite3.Connection) -> Found:
    """The tables of a store, the statements that made them, and what SQLite says of all."""
    made = store.execute("select name, sql from sqlite_schema where type = 'table' order by rowid").fetchall()
    found = {name: sorted(store.execute(f"select * from {name}")) for name, _ in made}
    for question in ["integrity_check", "foreign_key_check"]:
        found[question] = store.execute(f"pragma {question}").fetchall()
    return {**found, "statements": [statement for _, statement in made]}


def rows_at(path: str) -> Found:
    """The tables of a file as SQLite reads them, or why it doesn't."""
    with contextlib.closing(sqlite3.connect(path)) as store:
        store.text_factory = lambda data: data.decode(errors="surrogateescape")
        try:
            return read(store)
        except sqlite3.Error as fault:
            return {"fault": [str(fault)]}


def tables(path: str) -> Found:
    """The same, with minutes in the place of spans."""
    found = rows_at(path)
    return {**found, **{name: minutes_of(found.get(name, [])) for name in ["card_spans", "held"]}}


def rows_of(found: Found) -> list[Any]:
    """The rows of tables in one list, those of each after its name."""
    return [row for name in sorted(found) for row in [name, *found[name]]]


# What it has to find


def sound(names: Sequence[str], rows: Mapping[str, Iterable[Any]]) -> Found:
    """What SQLite has to find in a file that has these tables, in this order, with these rows."""
    found = {name: sorted(rows[name]) for name in names}
    return {**found, "statements": [MADE[name] for name in names], "integrity_check": [("ok",)], "foreign_key_check": []}


def wanted_tables(archive: Archive, is_migrated: bool) -> Found:
    """What SQLite has to find in the file of an archive that `init` has made, or that was migrated from schema 1."""
    return sound(MIGRATED_TABLES if is_migrated else TABLES, {"entries": [], **archive.tables()})


@functools.lru_cache(maxsize=8)
def rows_of_office(office: Office | None) -> list[Any]:
    """What SQLite has to find in the file of an archive in the state of a slow office, which isn't changed after that, or of none."""
    if office is None:
        return rows_of({**sound([], {}), "card_spans": [], "held": []})
    return rows_of(wanted_tables(office.archive, False))


def of_tables(name: str, path: str, archive: Archive, is_migrated: bool = False) -> Comparison:
    """The comparison of a file's tables with those that it has to have."""
    return f"{name}: tables", rows_of(tables(path)), rows_of(wanted_tables(archive, is_migrated))
