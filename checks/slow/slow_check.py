"""A slow check of an archive's tables, written from the definition and not from the program: whether some state within its limits has these
rows, and otherwise the first driver, by number, and the first of that driver's tables whose rows no such state has beside those of the tables
before it. docs/TABLES.md, 'The check', says what a state's rows are. A text that isn't UTF-8 has a surrogate for each byte that is wrong.

All columns have their types, and each row has its driver in `drivers`: what is otherwise is no database of these tables. Spans may begin
and end at any number, so what they give is found between the places where some span begins or ends."""
import datetime
import re
from collections.abc import Iterable, Mapping, Sequence
from typing import Any

from slow import slow_archive, slow_reader

Row = tuple[Any, ...]
Rows = Mapping[str, Sequence[Row]]  # the rows of each table, by its name
Span = tuple[int, int, slow_reader.Mark]  # a start, a past and a mark

TABLES = ["drivers", "downloads", "card_spans", "entry_rows", "held"]
MARKS = [(activity, manning) for manning in ("single", "crew") for activity in slow_reader.ACTIVITIES]
SOUND = "sound\n"

# Limits
HOLDER_BYTES = 15
NUMBERS = range(1, 1_000_000)  # of a driver
MOST = 1_000_000  # downloads, and entries, of a driver
FIRST_DAY = datetime.date(2000, 1, 3)
LAST_DAY = datetime.date(2099, 12, 31)
YEAR = 366 * 1440  # the most minutes of an entry
EPOCH = datetime.date(1970, 1, 1)


class Unsound(Exception):
    """The table, as the first argument, whose rows no state has."""


# Spans


def pieces(spans: Sequence[Span]) -> list[tuple[int, int, frozenset[slow_reader.Mark]]]:
    """What spans give: maximal ranges, each with its marks, of which there is more than one where spans contradict."""
    places = sorted({place for start, past, _ in spans for place in (start, past)})
    found: list[tuple[int, int, frozenset[slow_reader.Mark]]] = []
    for start, past in zip(places, places[1:]):
        marks = frozenset(mark for a, b, mark in spans if a <= start and past <= b)
        if marks and found and found[-1][1:] == (start, marks):
            found[-1] = found[-1][0], past, marks
        elif marks:
            found.append((start, past, marks))
    return found


def agree(spans: Sequence[Span]) -> bool:
    """Whether spans give no minute two marks."""
    return all(len(marks) == 1 for _, _, marks in pieces(spans))


def are_disjoint(spans: Iterable[Span]) -> bool:
    """Whether no span is empty, and no minute is in two of them."""
    ordered = sorted((start, past) for start, past, _ in spans)
    return all(start < past for start, past in ordered) and all(a[1] <= b[0] for a, b in zip(ordered, ordered[1:]))


# The rows of a driver


def are_natural(values: Iterable[int]) -> bool:
    """Whether none of these numbers is below 0."""
    return all(value >= 0 for value in values)


def are_numbered(rows: Sequence[Row], count: int) -> bool:
    """Whether rows have the numbers from 1 to a count, one each."""
    return len(rows) == count and sorted(row[1] for row in rows) == [*range(1, count + 1)]


def is_text(text: str, least: int, most: int) -> bool:
    """Whether a text is UTF-8 of so many bytes, without control characters, commas and double quotes."""
    try:
        data = text.encode()
    except UnicodeEncodeError:
        return False
    return least <= len(data) <= most and not re.search("[\\x00-\\x1f\\x7f,\"]", text)


def is_name(text: str) -> bool:
    """Whether a text is a driver's name, or an author."""
    return is_text(text, 1, 64)


def is_base(number: int) -> bool:
    """Whether the day with this number is a Monday of the years that are read."""
    days = range((FIRST_DAY - EPOCH).days, (LAST_DAY - EPOCH).days + 1)
    return number in days and (EPOCH + datetime.timedelta(days=number)).weekday() == 0


def is_driver(row: Row) -> bool:
    """Whether a driver's own columns are within their limits."""
    number, holder, key, base, name, downloads, entries = row
    return (number in NUMBERS and len(holder) == HOLDER_BYTES and re.fullmatch("[A-Za-z0-9-]{8,64}", key) is not None and is_base(base)
            and is_name(name) and 0 <= downloads <= MOST and 0 <= entries <= MOST)


def spans_of_file(holder: bytes, part: int, file: bytes) -> list[Span]:
    """What a part of a card file gives."""
    if part not in range(len(slow_archive.PARTS)):
        raise Unsound("downloads")
    try:
        own, marks = slow_archive.content(slow_archive.PARTS[part], file)
    except slow_archive.Refusal as refusal:
        raise Unsound("downloads") from refusal
    if own != holder:
        raise Unsound("downloads")
    return [(start, past, mark) for start, past, mark in slow_reader.runs(marks.items())]


def given_by(holder: bytes, rows: Sequence[Row], count: int) -> list[Span]:
    """What the downloads of a driver with this holder give."""
    if not are_numbered(rows, count):
        raise Unsound("downloads")
    given = [span for _, _, part, file in rows for span in spans_of_file(holder, part, file)]
    if not agree(given):
        raise Unsound("downloads")
    return given


def is_entry(row: Row) -> bool:
    """Whether an entry, withdrawn or not, is within its limits."""
    _, _, start, past, mark, withdrawn, author, note = row
    first = (FIRST_DAY - EPOCH).days * 1440
    end = ((LAST_DAY - EPOCH).days + 1) * 1440
    return (first <= start < past <= end and past - start <= YEAR and mark in range(len(slow_reader.ACTIVITIES)) and withdrawn in (0, 1)
            and is_name(author) and is_text(note, 0, 200))


def held_by(rows: Sequence[Row], count: int, given: list[Span]) -> list[Span]:
    """What the entries of a driver that aren't withdrawn give, together with what the downloads give."""
    if not are_numbered(rows, count) or not all(is_entry(row) for row in rows):
        raise Unsound("entry_rows")
    held = given + [(start, past, MARKS[mark]) for _, _, start, past, mark, withdrawn, *_ in rows if not withdrawn]
    if not agree(held):
        raise Unsound("entry_rows")
    return held


def keep(rows: Sequence[Row], spans: Sequence[Span]) -> bool:
    """Whether rows of spans are disjoint, and give exactly what spans give."""
    if not all(are_natural(row) and row[3] < len(MARKS) for row in rows):
        return False
    kept = [(start, past, MARKS[mark]) for _, start, past, mark in rows]
    return are_disjoint(kept) and pieces(kept) == pieces(spans)


def judge(driver: Row, rows: Rows) -> None:
    """Raises `Unsound` with the first table that no state within its limits has beside those before it. The rows are those of one driver."""
    _, holder, *_, downloads, entries = driver
    if not is_driver(driver):
        raise Unsound("drivers")
    given = given_by(holder, rows["downloads"], downloads)
    if not keep(rows["card_spans"], given):
        raise Unsound("card_spans")
    held = held_by(rows["entry_rows"], entries, given)
    if not keep(rows["held"], held):
        raise Unsound("held")


# All


def line_of(rows: Rows) -> str:
    """What `check` prints of an archive with these rows."""
    for driver in sorted(rows["drivers"]):
        try:
            judge(driver, {table: [row for row in rows[table] if row[0] == driver[0]] for table in TABLES})
        except Unsound as unsound:
            return f"unsound {driver[0]} {unsound}\n"
    return SOUND
