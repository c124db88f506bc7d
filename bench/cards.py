"""Makes card files of other years and other holders from one card file, and the rows that an archive keeps of them.

A year has 364 days here, so that each day keeps its weekday."""
import os
import sys
from collections.abc import Callable, Iterable

TOP = os.path.dirname(os.path.dirname(os.path.abspath(__file__)))
sys.path.insert(0, os.path.join(TOP, "checks"))
from slow.slow_reader import ACTIVITIES, blocks_of, card_file, number, pairs_of_file, runs  # noqa: E402

Row = tuple[int, int, int]  # start, past and mark of a span

YEAR = 364
ACTIVITY_DATA, IDENTIFICATION = 0x0504, 0x0520
DATA = (0, 2)  # the types of blocks that contain data, of the first or the second generation, and not a signature


def read(*names: str) -> bytes:
    """The bytes of a file of the repository."""
    with open(os.path.join(TOP, *names), "rb") as file:
        return file.read()


def holder_of(file: bytes) -> bytes:
    """The holder of a card file."""
    return card_file(file)[1]


def with_values(file: bytes, identifier: int, change: Callable[[bytes], bytes]) -> bytes:
    """A card file in which each value of an elementary file's data is changed. `change` has to keep the value's length."""
    made = b""
    for name, kind, value in blocks_of(file):
        value = change(value) if name == identifier and kind in DATA else value
        made += name.to_bytes(2, "big") + bytes([kind]) + len(value).to_bytes(2, "big") + value
    return made


def of_holder(file: bytes, driver: int) -> bytes:
    """The card file with another holder: its identification contains the driver's number."""
    return with_values(file, IDENTIFICATION, lambda value: value[:1] + b"D%013d" % driver + value[15:])


def records_of(value: bytes) -> list[tuple[int, int]]:
    """The records of activity data, from the oldest on: the place in the ring, and the day number."""
    place, newest, ring = number(value, 0), number(value, 2), value[4:]
    records = []
    while True:
        records.append((place, (number(ring, place + 4) * 65_536 + number(ring, place + 6)) // 86_400))
        if place == newest:
            return records
        place = (place + number(ring, place + 2)) % len(ring)


def with_number(value: bytes, place: int, changed: int) -> bytes:
    """Activity data with another two-byte number at a place of the ring."""
    made, size = bytearray(value), len(value) - 4
    made[4 + place % size], made[4 + (place + 1) % size] = divmod(changed, 256)
    return bytes(made)


def last_year(value: bytes) -> bytes:
    """Activity data without the records that are older than its last year."""
    records = records_of(value)
    oldest = next(place for place, day in records if day > records[-1][1] - YEAR)
    return oldest.to_bytes(2, "big") + value[2:]


def moved(value: bytes, days: int) -> bytes:
    """Activity data whose records are this many days later."""
    for place, day in records_of(value):
        high, low = divmod(86_400 * (day + days), 65_536)
        value = with_number(with_number(value, place + 4, high), place + 6, low)
    return value


def year_of(file: bytes) -> bytes:
    """The card file with only the records of its last year."""
    return with_values(file, ACTIVITY_DATA, last_year)


def days_later(file: bytes, days: int) -> bytes:
    """The card file with all records this many days later, or earlier if the number is negative."""
    return with_values(file, ACTIVITY_DATA, lambda value: moved(value, days))


def years_later(file: bytes, years: int) -> bytes:
    """The card file with all records this many years later, or earlier if the number is negative."""
    return days_later(file, YEAR * years)


def mark_number(mark: tuple[str, str]) -> int:
    """The number by which an archive stores a mark."""
    activity, crew = mark
    return ACTIVITIES.index(activity) + (4 if crew == "crew" else 0)


def rows_of(file: bytes) -> list[Row]:
    """The rows that an archive keeps of a card file."""
    return [(start, past, mark_number(mark)) for start, past, mark in runs(pairs_of_file(file, "both"))]


def rows_later(rows: Iterable[Row], years: int) -> list[Row]:
    """The rows of the card file that is this many years later."""
    minutes = 1440 * YEAR * years
    return [(start + minutes, past + minutes, mark) for start, past, mark in rows]
