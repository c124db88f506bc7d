"""A slow reader of the CSV that an office sends, written from the definitions and not from the program. `docs/FORMATS.md`
says the rules.

A field is taken whole by one pattern: a quoted part in front, where two quotes mean one and which goes to the end of the
text where nothing closes it, and then all bytes before the next comma or end of line, a quote among them as it is."""
import re
from datetime import date

from slow import slow_reader
from slow.slow_reader import Fault

MARK = b"\xef\xbb\xbf"
FIELD = re.compile(rb'(?:"((?:[^"]|"")*)(?:"|\Z))?([^,\r\n]*)')
LINE_ENDS = (b"\r", b"\n")

ENTRIES_HEAD = [b"start", b"past", b"activity"]
SIGNED_HEAD = [*ENTRIES_HEAD, b"author", b"note"]
OFFICE = b"office"  # the author where the head has no column for one
DRIVER_HEAD = [b"driver", b"holder", b"key", b"base", b"name"]
LEFT_OUT = ["crew", "ferry", "out", "derogation"]
LONGEST = 366 * 1440


# Records


def record_from(text: bytes, place: int) -> tuple[list[bytes], int]:
    """The fields of the record at a place, and the place after them."""
    fields: list[bytes] = []
    while True:
        found = FIELD.match(text, place)
        assert found is not None  # the pattern matches no byte too
        fields.append((found[1] or b"").replace(b'""', b'"') + found[2])
        place = found.end()
        if text[place : place + 1] != b",":
            return fields, place
        place += 1


def records(text: bytes) -> list[list[bytes]]:
    """The records of a text, without one byte order mark before them. Between two of them is one end of line or more, so a line
    without a byte is none."""
    text = text.removeprefix(MARK)
    found: list[list[bytes]] = []
    place = 0
    while place < len(text):
        if text[place : place + 1] in LINE_ENDS:
            place += 1
        else:
            fields, place = record_from(text, place)
            found.append(fields)
    return found


# Values


def day_of(text: bytes) -> int | None:
    """The day of a text `YYYY-MM-DD` from 2000-01-03 to 2099-12-31, as a number, or nothing."""
    if not re.fullmatch(rb"[0-9]{4}-[0-9]{2}-[0-9]{2}", text):
        return None
    try:
        day = date.fromisoformat(text.decode())
    except ValueError:
        return None
    number = (day - date(1970, 1, 1)).days
    return number if number in slow_reader.READ_DAYS else None


def minute_of(text: bytes) -> int | None:
    """The minute of a text `YYYY-MM-DD HH:MM`, as a number, or nothing."""
    time = re.fullmatch(rb"(.{10}) ([01][0-9]|2[0-3]):([0-5][0-9])", text, re.DOTALL)
    if time is None:
        return None
    day = day_of(time[1])
    return None if day is None else 1440 * day + 60 * int(time[2]) + int(time[3])


def is_text(pattern: bytes, text: bytes) -> bool:
    """Whether the whole of a text matches a pattern."""
    return re.fullmatch(pattern, text) is not None


def is_plain(text: bytes) -> bool:
    """Whether these are bytes of UTF-8 without controls, commas and double quotes."""
    try:
        text.decode()
    except UnicodeDecodeError:
        return False
    return is_text(rb'[^\x00-\x1f\x7f,"]*', text)


def is_name(text: bytes) -> bool:
    """Whether these may be the name of a driver or of an author."""
    return is_plain(text) and 1 <= len(text) <= 64


def is_note(text: bytes) -> bool:
    """Whether these may be a note."""
    return is_plain(text) and len(text) <= 200


COLUMNS = {
    "driver": lambda text: is_text(rb"[1-9][0-9]{0,5}", text),
    "holder": lambda text: is_text(rb"[0-9a-f]{30}", text),
    "key": lambda text: is_text(rb"[0-9A-Za-z-]{8,64}", text),
    "base": lambda text: day_of(text) is not None,
    "name": is_name,
}


# What is read


def rows_of(text: bytes, *heads: list[bytes]) -> list[list[bytes]]:
    """The rows: the first is one of these heads."""
    rows = records(text)
    if not rows or rows[0] not in heads:
        raise Fault("E1 wrong head")
    return rows


def worked_of(number: int, fields: list[bytes], before: int) -> tuple[int, int, str]:
    """The start, the past and the activity of a row whose row before ends at a minute."""
    start, past = minute_of(fields[0]), minute_of(fields[1])
    activity = fields[2].decode(errors="replace")
    if start is None or past is None:
        raise Fault(f"E3 bad time in row {number}")
    if start >= past or start < before:
        raise Fault(f"E4 wrong order in row {number}")
    if activity in LEFT_OUT:
        raise Fault(f"E5 left out in row {number}: {activity}")
    if activity not in slow_reader.ACTIVITIES:
        raise Fault(f"E6 no such activity in row {number}")
    if past - start > LONGEST:
        raise Fault(f"E7 too long in row {number}")
    return start, past, activity


def entry_of(number: int, fields: list[bytes], count: int, before: int) -> tuple[int, int, str, str, str]:
    """The start, the past, the activity, the author and the note of a row which has to have a count of fields, and whose row before ends
    at a minute."""
    if len(fields) != count:
        raise Fault(f"E2 wrong fields in row {number}")
    worked = worked_of(number, fields, before)
    author, note = fields[3:] or [OFFICE, b""]
    if not is_name(author):
        raise Fault(f"E10 bad author in row {number}")
    if not is_note(note):
        raise Fault(f"E10 bad note in row {number}")
    return *worked, author.decode(), note.decode()


def entries_of(text: bytes) -> list[tuple[int, int, str, str, str]]:
    """The hours that a text enters, by either of the two heads."""
    head, *rows = rows_of(text, ENTRIES_HEAD, SIGNED_HEAD)
    found: list[tuple[int, int, str, str, str]] = []
    for number, fields in enumerate(rows, 2):
        found.append(entry_of(number, fields, len(head), found[-1][1] if found else 0))
    return found


def driver_of(text: bytes) -> list[bytes]:
    """The columns of the driver that a text registers."""
    _, *rows = rows_of(text, DRIVER_HEAD)
    if not rows or len(rows[0]) != 5:
        raise Fault("E2 wrong fields in row 2")
    for (name, is_good), value in zip(COLUMNS.items(), rows[0]):
        if not is_good(value):
            raise Fault(f"E9 bad value for {name}")
    if len(rows) > 1:
        raise Fault("E2 wrong fields in row 3")
    return rows[0]


# What is printed


def entries(text: bytes) -> str:
    """The lines of the hours that a text enters, or that of its first fault."""


    def lines():
        return "".join(f'{start} {past} {what} "{author}" "{note}"\n' for start, past, what, author, note in entries_of(text))

    return slow_reader.answer(lines)[0]


def driver(text: bytes) -> str:
    """The line of the driver that a text registers, or that of its first fault."""

    def line():
        number, holder, key, base, name = driver_of(text)
        return f"{number.decode()} {holder.decode()} {key.decode()} {day_of(base)} {name.decode()}\n"

    return slow_reader.answer(line)[0]
