"""Makes archives of schema 1, as the product made them before hours had an author and a note: SQLite itself writes the rows of a slow
archive into a file, and each page gets the sum at its end that the product's own files have. `python3 -m lib.old_archive` in checks/
prints the text of examples/archive-schema-1.sql."""
import contextlib
import itertools
import random
import sqlite3
import struct
from collections.abc import Iterable, Iterator, Sequence
from typing import Any

from lib import office_rows
from lib.archive import MADE
from lib.files import PAGE
from slow import slow_csv, slow_office, slow_reader
from slow.slow_archive import Archive
from slow.slow_office import Command

Rows = dict[str, list[tuple[Any, ...]]]  # by the names of the tables

TABLES = ["meta", "drivers", "downloads", "card_spans", "entries", "held"]

# How many bytes are left at the end of each page, and where the first page says so, and where that has its cells begin, of which there
# are none.
SUM = 8
LEFT_PLACE, CELLS_PLACE = 20, 105

# In which column a row has its start, with its past and its mark after it.
SPAN_PLACES = {"card_spans": 1, "entries": 2, "held": 1}

# What the example was given.
BERT_HOURS = office_rows.HOURS_HEAD + b"2024-03-05 06:00,2024-03-05 14:00,work\n2024-03-05 14:00,2024-03-06 06:00,rest\n"
EXAMPLE: list[Command] = [
    (["register"], office_rows.ANNA),
    (["import", "both"], office_rows.DAY),
    (["enter", "17"], office_rows.FREE_DAYS),
    (["withdraw", "17", "1"], b""),
    (["enter", "17"], office_rows.MORNING),
    (["register"], office_rows.BERT),
    (["enter", "18"], BERT_HOURS),
    (["withdraw", "18", "2"], b""),
]
HEAD = """\
-- An archive of schema 1, of two drivers: what docs/TABLES.md says of its tables, as a text.
--
--     sqlite3 old.db < examples/archive-schema-1.sql
--
-- makes a file of it, which `tacho migrate old.db` brings to schema 2. Driver 17 has a card file of two days, and three entries
-- of which the first was withdrawn; driver 18 has no card file, and two entries of which the second was withdrawn.
"""


# What is in an archive


def forget_signs(archive: Archive) -> None:
    """Takes away who entered the hours of a slow archive, and why: in schema 1 nobody said so."""
    for driver in archive.drivers.values():
        for entry in driver.entries:
            entry.author, entry.note = slow_csv.OFFICE.decode(), ""


def office_after(commands: Iterable[Command]) -> slow_office.Office:
    """The slow office after commands, each of which has to be done, without authors and notes."""
    office = slow_office.Office()
    for words, given in commands:
        told, status = office.answer(words, given)
        if status:
            raise RuntimeError(f"{words} is refused: {told}")
    forget_signs(office.archive)
    return office


def cut(chance: random.Random | None, start: int, past: int) -> list[tuple[int, int]]:
    """The parts of a run of minutes: sometimes two, and else one."""
    place = chance.randrange(start, past) if chance and chance.random() < 0.3 else start
    return [(start, past)] if place == start else [(start, place), (place, past)]


def span_rows(chance: random.Random | None, minutes: Iterable[tuple[int, int, int]]) -> Iterator[tuple[int, int, int, int]]:
    """Rows of spans for minutes, each with its driver and its mark. Two that touch may have one mark, as the product leaves them."""
    for driver, group in itertools.groupby(minutes, key=lambda row: row[0]):
        for start, past, mark in slow_reader.runs((minute, mark) for _, minute, mark in group):
            yield from ((driver, *part, mark) for part in cut(chance, start, past))


def rows_of(archive: Archive, chance: random.Random | None = None) -> Rows:
    """The rows of each table of schema 1 for a slow archive; of spans some are cut at random."""
    found = archive.tables()
    entries = [row[:-2] for row in found.pop("entry_rows")]
    spans: Rows = {name: [*span_rows(chance, found[name])] for name in ["card_spans", "held"]}
    return {**found, **spans, "meta": [(1, 1)], "entries": entries}


def example_rows() -> Rows:
    """The rows of the example."""
    return rows_of(office_after(EXAMPLE).archive)


# Files


def leave_room(path: str) -> None:
    """Makes a file of SQLite without tables, in each page of which the last bytes are left for a sum."""
    with contextlib.closing(sqlite3.connect(path)) as store:
        store.execute(f"pragma page_size = {PAGE}")
        store.execute("pragma journal_mode = wal")
        store.execute("pragma user_version = 1")
        store.execute("pragma user_version = 0")
    with open(path, "r+b") as file:
        file.seek(LEFT_PLACE)
        file.write(bytes([SUM]))
        file.seek(CELLS_PLACE)
        file.write((PAGE - SUM).to_bytes(2, "big"))


def sum_of(page: bytes) -> bytes:
    """The sum of the bytes of a page, as SQLite's extension cksumvfs has it: of pairs of words, each added to with the other."""
    words = struct.unpack(f"<{len(page) // 4}I", page)
    one = other = 0
    for first, second in zip(words[::2], words[1::2]):
        one = one + first + other & 0xFFFF_FFFF
        other = other + second + one & 0xFFFF_FFFF
    return struct.pack("<2I", one, other)


def put_sums(path: str) -> None:
    """Writes the sum of each page of a file at its end."""
    with open(path, "rb") as file:
        pages = iter(lambda: file.read(PAGE)[:-SUM], b"")
        summed = b"".join(page + sum_of(page) for page in pages)
    with open(path, "wb") as file:
        file.write(summed)


def insert(store: sqlite3.Connection, name: str, rows: Sequence[tuple[Any, ...]]) -> None:
    """Writes rows of a table."""
    if rows:
        store.executemany(f"INSERT INTO {name} VALUES ({', '.join('?' for _ in rows[0])})", rows)


def make(path: str, rows: Rows, has_sums: bool = True) -> None:
    """Makes a file of schema 1 with these rows, as the product's are, or without sums and a log, as SQLite makes one by itself."""
    if has_sums:
        leave_room(path)
    with contextlib.closing(sqlite3.connect(path)) as store, store:
        for name in TABLES:
            store.execute(MADE[name])
            insert(store, name, rows[name])
    if has_sums:
        put_sums(path)


# The example


def literal(value: object) -> str:
    """A value as SQL writes it."""
    if isinstance(value, bytes):
        return f"X'{value.hex()}'"
    return f"'{value}'" if isinstance(value, str) else str(value)


def remark(name: str, row: Sequence[Any]) -> str:
    """A row's start, past and mark, if it has them."""
    if name not in SPAN_PLACES:
        return ""
    start, past, mark = row[SPAN_PLACES[name] :][:3]
    return f" -- {slow_reader.minute_text(start)} {slow_reader.minute_text(past)} {slow_reader.ACTIVITIES[mark]}"


def table_text(name: str, rows: Iterable[Sequence[Any]]) -> str:
    """The text of SQL that makes a table and its rows."""
    lines = [f"INSERT INTO {name} VALUES ({', '.join(map(literal, row))});{remark(name, row)}\n" for row in rows]
    return "".join([f"\n{MADE[name]};\n", *lines])


def text_of(rows: Rows) -> str:
    """The text of SQL that makes an archive of schema 1 with these rows."""
    return HEAD + "".join(table_text(name, rows[name]) for name in TABLES)


if __name__ == "__main__":
    print(text_of(example_rows()), end="")
