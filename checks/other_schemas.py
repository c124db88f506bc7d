#!/usr/bin/env python3
"""Writes archives anew by stock SQLite with other definitions of their tables, and expects that each command refuses them (S12) and leaves
the file as it is: a rule that is missing or is another, columns or tables in another order, a table, an index, a view or a trigger more.
What has the definitions of an archive, as made, as migrated or of schema 1, has to open as before; so has what is left of a file when an
index that was added is removed from the text that `sqlite3` makes of it, as docs/TABLES.md says. Argument: the program. The last line is
'N passed, M failed'."""
import contextlib
import os
import shutil
import socket
import sqlite3
import subprocess
import sys
import tempfile
from collections.abc import Callable, Sequence

from lib import counting, old_archive
from lib.archive import rows_at
from lib.counting import Comparisons
from lib.files import EXAMPLES, log_of, lying_at
from lib.office import STORE_FAILED, WITH_DAY, Command, Desk, copy_of
from lib.office_rows import ANNA, BERT, SATURDAY

Statements = list[str]

SOUND = (b"sound\n", 0, b"")
WAYS: list[Command] = [
    (["check"], b""), (["drivers"], b""), (["register"], ANNA), (["migrate"], b""), (["carry", "new.db", "2024-03-04"], b""),
]
KEY = "office-key-of-20-chars"
MORE = "CREATE INDEX more ON held(past);"
QUESTIONS = [["check"], ["drivers"], ["spans", "17", "2024-03"], ["entries", "17"], ["breaches", "17"], ["files", "17"]]


# Other definitions


def put(old: str, new: str, table: str = "") -> Callable[[Statements], Statements]:
    """Puts a text in the place of another one, in the statement of one table or of all. It has to be there."""
    def change(statements: Statements) -> Statements:
        changed = [text.replace(old, new) if table in text else text for text in statements]
        if changed == statements:
            raise RuntimeError(f"{old!r} isn't there")
        return changed
    return change


def add(statement: str) -> Callable[[Statements], Statements]:
    """Adds a statement at the end."""
    return lambda statements: [*statements, statement]


def exchanged(statements: Statements) -> Statements:
    """Exchanges the columns `name` and `secret` of the drivers."""
    columns = "secret TEXT NOT NULL UNIQUE", "name TEXT NOT NULL"
    return [text.replace(columns[0], "?").replace(columns[1], columns[0]).replace("?", columns[1]) for text in statements]


DRIVERS, HELD, DOWNLOADS = "TABLE drivers", "TABLE held", "TABLE downloads"
TO_DRIVER = " REFERENCES drivers(driver)"

# Changes of the statements that make the tables, which any archive has.
OTHERS: dict[str, Callable[[Statements], Statements]] = {
    "tables in another order": sorted,
    "the last table first": lambda statements: [statements[0], statements[-1], *statements[1:-1]],
    "a table more": add("CREATE TABLE more (a INTEGER) STRICT"),
    "an index more": add("CREATE INDEX more ON held(past)"),
    "a unique index more": add("CREATE UNIQUE INDEX more ON drivers(name)"),
    "a view more": add("CREATE VIEW more AS SELECT 1"),
    "a trigger more": add("CREATE TRIGGER more AFTER INSERT ON held BEGIN DELETE FROM held; END"),
    "a column more": put(", entries INTEGER NOT NULL)", ", entries INTEGER NOT NULL, more INTEGER)"),
    "columns exchanged": exchanged,
    "a column of another name": put("mark INTEGER", "marks INTEGER", HELD),
    "a column of another type": put("holder BLOB", "holder ANY"),
    "a column that may be NULL": put("base INTEGER NOT NULL", "base INTEGER"),
    "a column with a default": put("name TEXT NOT NULL", "name TEXT NOT NULL DEFAULT 'x'"),
    "a column of another collation": put("secret TEXT", "secret TEXT COLLATE NOCASE"),
    "no UNIQUE": put(" UNIQUE", ""),
    "no UNIQUE of the keys": put("secret TEXT NOT NULL UNIQUE", "secret TEXT NOT NULL"),
    "a UNIQUE more": put("name TEXT NOT NULL", "name TEXT NOT NULL UNIQUE"),
    "no REFERENCES": put(TO_DRIVER, ""),
    "no REFERENCES of one table": put(TO_DRIVER, "", DOWNLOADS),
    "REFERENCES with an action": put(TO_DRIVER, f"{TO_DRIVER} ON DELETE CASCADE", HELD),
    "REFERENCES that wait": put(TO_DRIVER, f"{TO_DRIVER} DEFERRABLE INITIALLY DEFERRED", HELD),
    "no CHECK": put(" CHECK (withdrawn IN (0, 1))", ""),
    "another CHECK": put("withdrawn IN (0, 1)", "withdrawn IN (0, 1, 2)"),
    "a CHECK more": put("mark INTEGER NOT NULL", "mark INTEGER NOT NULL CHECK (mark < 8)", HELD),
    "no key": put(", PRIMARY KEY (driver, start)", "", HELD),
    "another key": put("PRIMARY KEY (driver, start)", "PRIMARY KEY (driver, past)", HELD),
    "no STRICT": put(" STRICT", ""),
    "one table without STRICT": put(" STRICT", "", HELD),
    "WITHOUT ROWID": put(" STRICT", " STRICT, WITHOUT ROWID", HELD),
    "AUTOINCREMENT": put("id INTEGER PRIMARY KEY", "id INTEGER PRIMARY KEY AUTOINCREMENT"),
}


# Files


def statements_at(path: str) -> Statements:
    """The statements that make the tables of a file."""
    return [str(text) for text in rows_at(path)["statements"]]


def written(path: str, source: str, statements: Sequence[str]) -> None:
    """Makes a file by these statements, and copies the rows of another file to it."""
    with contextlib.closing(sqlite3.connect(path)) as store, store:
        store.execute("attach ? as source", [source])
        tables = [name for name, in store.execute("select name from source.sqlite_schema where type = 'table' order by rowid")]
        made = [text for text in statements if text.startswith("CREATE TABLE")]
        for text in made:
            store.execute(text)
        for table in tables:
            there = [row[1] for row in store.execute(f"pragma main.table_info({table})")]
            columns = [row[1] for row in store.execute(f"pragma source.table_info({table})")]
            both = ", ".join(name for name in columns if name in there)
            if len(columns) <= len(there) and set(columns) <= set(there):
                store.execute(f"insert into main.{table} ({both}) select {both} from source.{table}")
        for text in statements:
            if text not in made:
                store.execute(text)
    os.chmod(path, 0o600)


def sources(program: str, folder: str) -> list[tuple[str, Desk]]:
    """An archive as made and one as migrated, with the slow offices of what they have, and one of schema 1."""
    made = Desk(program, os.path.join(folder, "made"))
    migrated = Desk(program, os.path.join(folder, "migrated"))
    old = Desk(program, os.path.join(folder, "old"))
    for desk in (made, migrated, old):
        os.mkdir(os.path.dirname(desk.path))
    made.prepare([*WITH_DAY, (["register"], BERT)])
    for desk in (migrated, old):
        with open(os.path.join(EXAMPLES, "archive-schema-1.sql"), encoding="utf-8") as text, \
                contextlib.closing(sqlite3.connect(desk.path)) as store, store:
            store.executescript(text.read())
        os.chmod(desk.path, 0o600)
        desk.office = old_archive.office_after(old_archive.EXAMPLE)
    migrated.run(["migrate"])
    return [("made", made), ("migrated", migrated), ("schema 1", old)]


# Comparisons


def of_other(program: str, name: str, source: str, statements: Sequence[str], port: str) -> Comparisons:
    """The comparisons of a file with other definitions, which no command takes. The port is taken: a service that begins would be X2."""
    with tempfile.TemporaryDirectory() as folder:
        desk = Desk(program, folder)
        written(desk.path, source, statements)
        before = lying_at(desk.path)
        for words, given in [*WAYS, (["serve", KEY, port, "1"], b""), (["listen", port, "1"], f"{KEY}\n".encode())]:
            yield f"{name}: {words[0]}", desk.run(words, given)[:2], STORE_FAILED[:2]
            yield f"{name}: {words[0]}: what is there", (lying_at(desk.path), log_of(desk.path)), (before, b"")


def of_same(program: str, name: str, source: Desk, make: Callable[[str], None]) -> Comparisons:
    """The comparisons of a file with the definitions of an archive: it is read and written as the one of which it was made."""
    with tempfile.TemporaryDirectory() as folder:
        desk = Desk(program, folder)
        desk.office = copy_of(source.office)
        make(desk.path)
        os.chmod(desk.path, 0o600)
        if name.startswith("schema 1"):
            yield f"{name}: drivers", desk.run(["drivers"]), (b"S13 old archive\n", 1, b"")
            yield f"{name}: migrate", desk.run(["migrate"])[1:], (0, b"")
        for words in QUESTIONS:
            yield f"{name}: {' '.join(words)}", *desk.both(words)
        yield f"{name}: import", *desk.both(["import", "both"], SATURDAY)
        yield f"{name}: check at the end", desk.run(["check"]), SOUND


def taken_back(path: str, source: str) -> None:
    """Makes a file of another one to which an index was added, by the text that `sqlite3` makes of it, without the index."""
    with tempfile.TemporaryDirectory() as folder:
        changed = os.path.join(folder, "changed.db")
        written(changed, source, [*statements_at(source), MORE])
        text = subprocess.run(["sqlite3", changed, ".dump"], capture_output=True, check=True, text=True).stdout
        if text.count(MORE) != 1:
            raise RuntimeError("the text has no statement of the index")
        subprocess.run(["sqlite3", path], input=text.replace(MORE, ""), check=True, text=True)


def comparisons(program: str) -> Comparisons:
    """All comparisons."""
    program = os.path.abspath(program)
    has_shell = shutil.which("sqlite3") is not None
    if not has_shell:
        print("left out: a file without what was added: apt install sqlite3")
    with tempfile.TemporaryDirectory() as folder, socket.create_server(("127.0.0.1", 0)) as taken:
        port = str(taken.getsockname()[1])
        for kind, source in sources(program, folder):
            statements = statements_at(source.path)

            def anew(path: str, source: Desk = source, statements: Statements = statements) -> None:
                written(path, source.path, statements)

            def without(path: str, source: Desk = source) -> None:
                taken_back(path, source.path)

            yield from of_same(program, f"{kind}, written anew", source, anew)
            if has_shell:
                yield from of_same(program, f"{kind}, without what was added", source, without)
            for name, change in OTHERS.items():
                yield from of_other(program, f"{kind}, {name}", source.path, change(statements), port)


if __name__ == "__main__":
    sys.exit(counting.count(comparisons(*sys.argv[1:])))
