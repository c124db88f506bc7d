"""Conformance cases of CSV: hours that are entered, and drivers. docs/FORMATS.md says what is read."""
import itertools
from collections.abc import Iterator

from lib.vector_sets import Made, pieces_of
from slow.slow_csv import DRIVER_HEAD, ENTRIES_HEAD, LEFT_OUT, SIGNED_HEAD
from slow.slow_reader import ACTIVITIES

HEAD = b",".join(ENTRIES_HEAD) + b"\n"
SIGNED = b",".join(SIGNED_HEAD) + b"\n"
COLUMNS = b",".join(DRIVER_HEAD) + b"\n"
REST = b"2024-03-04 00:00,2024-03-04 12:00,rest\n"
WORK = b"2024-03-04 12:00,2024-03-04 13:00,work\n"
HOLDER = "0d4431323334353637383930313233"
ANNA = ["17", HOLDER, "anna-key-1", "2024-03-04", "Anna Berg"]
MARK = b"\xef\xbb\xbf"


def hours(rule: str, what: str, claim: str, text: bytes) -> Made:
    """A case with hours."""
    return Made("hours", f"{rule}: {what}.", rule, claim, {"of": "hours", "csv": pieces_of(text)})


def driver(rule: str, what: str, claim: str, text: bytes) -> Made:
    """A case with a driver."""
    return Made("driver", f"{rule}: {what}.", rule, claim, {"of": "driver", "csv": pieces_of(text)})


def heads() -> Iterator[Made]:
    """Heads that are one, and that aren't."""
    for text, what in (
        (b"", "an empty text has no head"), (b"\n", "a text of one end of line has no head"), (b"start,past\n", "the head lacks a column"),
        (b"start,past,activity,\n", "the head has a fourth column without a name"),
        (b"start, past,activity\n", "a blank is part of a column's name"),
        (b"Start,past,activity\n", "a column's name has a capital"), (b"start;past;activity\n", "the columns are separated by semicolons"),
        (b"past,start,activity\n", "two columns are exchanged"), (MARK + MARK + HEAD, "a second byte order mark is part of the first name"),
        (b"\n" + MARK + HEAD, "a byte order mark after an end of line is part of the first name"),
        (b"start,past,activity,author\n", "the longer head lacks its last column"),
        (COLUMNS, "the head is that of a driver"), (b" " + HEAD, "a blank comes before the first name"),
        (MARK, "a byte order mark alone has no head"),
        (b"start\tpast\tactivity\n", "the columns are separated by tabs"), (b"\xff\xfes\0t\0", "the text is UTF-16"),
    ):
        yield hours("E1", what, "fault E1", text)
    for text, what in (
        (HEAD, "a head alone enters nothing"), (HEAD[:-1], "a head without an end of line enters nothing"),
        (SIGNED, "the longer head alone enters nothing"),
        (MARK + HEAD + REST, "one byte order mark is skipped"),
        (MARK + SIGNED[:-1], "one byte order mark before the longer head is skipped"),
        (b'"start","past","activity"\n' + REST, "quotes around names are no part of them"),
        (b"\r\n\n\r" + HEAD + REST, "empty lines before the head are no records"),
        (b'"start",past,"activity"\r' + REST, "some names are quoted, and the line ends in CR"),
    ):
        yield hours("CSV", what, "read", text)


def records() -> Iterator[Made]:
    """Ends of lines, and quotes."""
    text = HEAD + REST + WORK
    for end, name in ((b"\n", "LF"), (b"\r", "CR"), (b"\r\n", "CR LF"), (b"\n\r", "LF CR"), (b"\n\n", "two LF"),
                      (b"\r\n\r\n", "two CR LF")):
        yield hours("CSV", f"lines end in {name}, and an empty line is no record", "read", text.replace(b"\n", end))
        yield hours("CSV", f"lines end in {name} but for the last, which has no end", "read", text.replace(b"\n", end).rstrip(b"\r\n"))
    fields = REST[:-1].split(b",")
    for quoted in itertools.product((False, True), repeat=3):
        row = b",".join(b'"' + field + b'"' if is_quoted else field for field, is_quoted in zip(fields, quoted))
        yield hours("CSV", f"fields in quotes are the same fields: {', '.join('quoted' if is_quoted else 'plain' for is_quoted in quoted)}",
                    "read", HEAD + row)
    for field, what, claim in (
        (b'"re"st', "what follows the closing quote belongs to the field", "read"),
        (b'""rest', "an empty quoted part comes before the text", "read"),
        (b'"rest', "a field whose quote isn't closed goes to the end of the text", "read"),
        (b're"st', "a quote later in a field is a byte like any other", "fault E6"),
        (b'rest"', "a quote at the end of a field is a byte like any other", "fault E6"),
        (b'"rest""', "two quotes in a quoted field mean one", "fault E6"),
        (b'"rest" ', "a blank after the closing quote belongs to the field", "fault E6"),
        (b' "rest"', "a blank before a quote makes it a byte like any other", "fault E6"),
        (b'"re""st"', "two quotes in the middle mean one", "fault E6"),
        (b'"rest\n"', "an end of line in quotes is part of the field", "fault E6"),
        (b'"rest,"', "a comma in quotes is part of the field", "fault E6"),
    ):
        rule = "CSV" if claim == "read" else "E6"
        yield hours(rule, what, claim, HEAD + REST.replace(b"rest\n", field))
    for row, what in (
        (b" \n", "a line with a blank is a record of one field"),
        (b'""\n', "a line with two quotes is a record of one empty field"),
        (b",\n", "a line with a comma has two fields"),
        (b",,,\n", "a line with three commas has four fields"),
        (REST[:-1] + b",\n", "a comma at the end makes a fourth field"),
        (b"2024-03-04 00:00,2024-03-04 12:00\n", "the activity is missing"),
        (b'"' + REST, "a quote that isn't closed makes one field of the row"),
        (REST[:-1] + b",a,b\n", "the row has the fields of the longer head"),
    ):
        yield hours("E2", what, "fault E2", HEAD + row)
        yield hours("E2", f"in the third row, after a good one, {what}", "fault E2", HEAD + REST + b"\n" + row)
    yield hours("E2", "under the longer head a row has only the first three fields", "fault E2", SIGNED + REST)
    yield hours("E2", "under the longer head a row has a sixth field", "fault E2", SIGNED + REST[:-1] + b",a,b,c\n")


def times() -> Iterator[Made]:
    """Times at their limits."""
    good = "2024-03-04 12:00"
    for text, what in (
        ("2024-03-04", "a day alone"), ("2024-03-04 24:00", "24:00"), ("2024-03-04 12:60", "minute 60"),
        ("2024-03-04 25:00", "hour 25"), ("2024-02-30 12:00", "30 February"),
        ("2023-02-29 12:00", "29 February of a year that has none"), ("2024-13-01 12:00", "month 13"),
        ("2024-00-01 12:00", "month 0"), ("2024-03-00 12:00", "day 0"),
        ("2024-3-4 12:00", "month and day of one digit"), ("2024-03-04T12:00", "a T between day and time"),
        ("2024-03-04  12:00", "two blanks"), ("2024-03-04 12:00:00", "seconds"),
        ("2024-03-04 9:00", "an hour of one digit"), (" 2024-03-04 12:00", "a blank before"),
        ("2024-03-04 12:00 ", "a blank after"), ("04/03/2024 12:00", "the order of day, month and year"),
        ("2024-03-04 12.00", "a full stop between hour and minute"),
        ("2000-01-02 12:00", "the day before the first that is read"),
        ("2100-01-01 00:00", "the day after the last that is read"), ("", "nothing"),
        ("2024-03-04 1\u0662:00", "a digit of another alphabet"), ("+024-03-04 12:00", "a sign"),
        ("2024-W10-1 12:00", "a week and its day"),
    ):
        yield hours("E3", f"a start with {what}", "fault E3", HEAD + f"{text},2099-12-31 23:59,rest\n".encode())
        if text not in ("2000-01-02 12:00",):
            yield hours("E3", f"a past with {what}", "fault E3", HEAD + f"{good},{text},rest\n".encode())
    for start, past, what in (
        ("2000-01-03 00:00", "2000-01-03 00:01", "the first minute that is read"),
        ("2099-12-31 23:58", "2099-12-31 23:59", "the last past that can be written"),
        ("2024-02-29 23:59", "2024-03-01 00:00", "the last minute of a leap day"), ("2024-03-04 00:00", "2024-03-04 00:01", "one minute"),
        ("2000-02-29 00:00", "2000-02-29 12:00", "29 February of 2000, a leap year"),
    ):
        yield hours("CSV", f"{what} is entered", "read", HEAD + f"{start},{past},rest\n".encode())


def orders() -> Iterator[Made]:
    """Rows in order, and rows that aren't; long ones."""
    for start, past, is_good in (("12:00", "12:01", True), ("12:00", "12:00", False), ("12:01", "12:00", False)):
        text = HEAD + f"2024-03-04 {start},2024-03-04 {past},rest\n".encode()
        yield hours("CSV" if is_good else "E4", f"a row from {start} to {past}", "read" if is_good else "fault E4", text)
    for start, is_good in (("11:59", False), ("12:00", True), ("12:01", True)):
        text = HEAD + REST + f"2024-03-04 {start},2024-03-04 13:00,work\n".encode()
        yield hours("CSV" if is_good else "E4", f"a row ends at 12:00, and the next starts at {start}", "read" if is_good else "fault E4",
                    text)
    for past, is_good in (("2024-12-31 23:59", True), ("2025-01-01 00:00", True), ("2025-01-01 00:01", False)):
        text = HEAD + f"2024-01-01 00:00,{past},rest\n".encode()
        yield hours("CSV" if is_good else "E7", f"a row from 2024-01-01 00:00 to {past}, where it may have 527,040 minutes",
                    "read" if is_good else "fault E7", text)
    yield hours("E4", "a row starts before the past of the row before, and after that of the first", "fault E4",
                HEAD + REST + WORK + b"2024-03-04 12:30,2024-03-04 14:00,rest\n")
    yield hours("CSV", "two rows of one activity that touch stay two", "read", HEAD + REST + WORK.replace(b"work", b"rest"))


def activities() -> Iterator[Made]:
    """Activities that can be entered, that are left out, and others."""
    for name in ACTIVITIES:
        yield hours("CSV", f"the activity {name} can be entered", "read", HEAD + REST.replace(b"rest", name.encode()))
    for name in LEFT_OUT:
        yield hours("E5", f"the activity {name} can't be entered", "fault E5", HEAD + REST.replace(b"rest", name.encode()))
    for name in ("Rest", "REST", "rest ", " rest", "", "break", "driving", "single", "rests", "res", "0"):
        yield hours("E6", f"the activity '{name}' isn't one", "fault E6", HEAD + REST.replace(b"rest", name.encode()))
    yield hours("E6", "the activity isn't UTF-8", "fault E6", HEAD + REST.replace(b"rest", b"\xff"))


def authors() -> Iterator[Made]:
    """Authors and notes at their limits."""

    def signed(author: bytes, note: bytes) -> bytes:
        return SIGNED + REST[:-1] + b"," + author + b"," + note + b"\n"

    o = "\u00f6".encode()
    for author, what, is_good in (
        (b"b", "of one byte", True), (64 * b"a", "of 64 bytes", True), (65 * b"a", "of 65 bytes", False),
        (32 * o, "of 32 letters with 64 bytes", True),
        (32 * o + b"a", "of 33 letters with 65 bytes", False), (b"", "of no byte", False), (b" ", "of a blank", True),
        (b"a\tb", "with a tab", False), (b"a\x1fb", "with byte 31", False),
        (b"a\x7fb", "with byte 127", False), (b"a\xc2\x80b", "with U+0080", True),
        (b"a\xffb", "that isn't UTF-8", False), (b'"a,b"', "with a comma", False),
        (b'"a""b"', "with a double quote", False),
        (b"a\xc3", "that ends within a letter", False), (b"'a;b'", "with a semicolon and single quotes", True),
    ):
        yield hours("CSV" if is_good else "E10", f"an author {what}", "read" if is_good else "fault E10", signed(author, b"note"))
    for note, what, is_good in (
        (b"", "of no byte", True), (200 * b"n", "of 200 bytes", True), (201 * b"n", "of 201 bytes", False),
        (100 * o, "of 100 letters with 200 bytes", True),
        (100 * o + b"n", "of 101 letters with 201 bytes", False), (b"a\x1f", "with byte 31", False),
        (b"a\x7f", "with byte 127", False), (b'"a,b"', "with a comma", False),
        (b'"a\r\nb"', "with an end of line", False), (b"\0", "of byte 0", False), (b"\x80", "that isn't UTF-8", False),
        (b'"a b"', "in quotes", True),
    ):
        yield hours("CSV" if is_good else "E10", f"a note {what}", "read" if is_good else "fault E10", signed(b"Eva Lund", note))


FAULTY = {
    "E2": b"2024-03-04 00:00,2024-03-04 12:00\n", "E3": b"2024-03-04,2024-03-04 12:00,rest,a,b\n",
    "E4": b"2024-03-04 12:00,2024-03-04 12:00,rest,a,b\n",
    "E5": b"2024-03-04 00:00,2024-03-04 12:00,crew,a,b\n", "E6": b"2024-03-04 00:00,2024-03-04 12:00,lunch,a,b\n",
    "E7": b"2024-01-01 00:00,2025-01-01 00:01,rest,a,b\n",
    "E10": b"2024-03-04 00:00,2024-03-04 12:00,rest,,b\n",
}


def first_faults() -> Iterator[Made]:
    """Two faults, of which the first is reported."""
    for one, other in itertools.permutations(FAULTY, 2):
        if (int(one[1:]) + int(other[1:])) % 2:
            yield hours(one, f"row 2 has {one} and row 3 {other}: the earlier row is reported", f"fault {one}",
                        SIGNED + FAULTY[one] + FAULTY[other])
    same_row = [
        ("E3", "E4", b"2024-03-04 12:00,2024-03-03 24:00,rest,a,b\n"),
        ("E3", "E5", b"2024-03-04,2024-03-05 00:00,crew,a,b\n"),
        ("E4", "E5", b"2024-03-04 12:00,2024-03-04 12:00,crew,a,b\n"),
        ("E4", "E6", b"2024-03-04 12:00,2024-03-04 11:00,lunch,a,b\n"),
        ("E5", "E7", b"2024-01-01 00:00,2025-01-01 00:01,ferry,a,b\n"),
        ("E6", "E7", b"2024-01-01 00:00,2025-01-01 00:01,lunch,a,b\n"),
        ("E7", "E10", b"2024-01-01 00:00,2025-01-01 00:01,rest,,b\n"), ("E2", "E3", b"2024-03-04,2024-03-05,rest,a\n"),
        ("E6", "E10", b"2024-03-04 00:00,2024-03-04 12:00,lunch,,b\n"),
    ]
    for one, other, row in same_row:
        yield hours(one, f"a row has {one} and {other}: the lesser number is reported", f"fault {one}", SIGNED + row)
    yield hours("E10", "a row has a bad author and a bad note: the author is reported", "fault E10",
                SIGNED + REST[:-1] + b",," + 201 * b"n" + b"\n")


def of_anna(column: int, value: str | bytes, after: bytes = b"") -> bytes:
    """The text of a driver with another value in one column."""
    fields: list[bytes] = [field.encode() for field in ANNA]
    fields[column] = value if isinstance(value, bytes) else value.encode()
    return COLUMNS + b",".join(fields) + b"\n" + after


def drivers() -> Iterator[Made]:
    """Drivers by each of their columns."""
    good: list[tuple[int, str | bytes, str]] = [
        (0, "1", "the number 1"), (0, "999999", "the number 999999"), (1, "0" * 30, "a holder of zeros"),
        (1, "f" * 30, "a holder of the digit f"), (2, "k" * 8, "a key of 8 letters"),
        (2, "k" * 64, "a key of 64 letters"), (2, "-" * 8, "a key of hyphens"), (2, "Key-0019", "a key with a capital"),
        (3, "2000-01-03", "the base 2000-01-03"), (3, "2099-12-28", "the base 2099-12-28"),
        (4, "a", "a name of one byte"), (4, "a" * 64, "a name of 64 bytes"),
        (4, 32 * "\u00c5", "a name of 32 letters with 64 bytes"), (4, '"Anna Berg"', "a name in quotes"),
        (4, " ", "a name of a blank"),
    ]
    for column, value, what in good:
        yield driver("CSV", f"{what} is within its limits", "read", of_anna(column, value))
    bad: list[tuple[int, str | bytes, str]] = [
        (0, "0", "the number 0"), (0, "1000000", "the number 1000000"), (0, "017", "a number with a zero in front"),
        (0, "+17", "a number with a sign"), (0, "", "no number"), (0, "17 ", "a blank after the number"),
        (0, "1e1", "a number with a letter"), (1, "0" * 29, "a holder of 29 digits"),
        (1, "0" * 31, "a holder of 31 digits"), (1, HOLDER.upper(), "a holder with a capital"),
        (1, "g" * 30, "a holder with the letter g"),
        (2, "k" * 7, "a key of 7 letters"), (2, "k" * 65, "a key of 65 letters"),
        (2, "anna_key_1", "a key with an underscore"), (2, "anna key 1", "a key with blanks"),
        (2, "\u00e5" * 8, "a key with other letters"),
        (3, "2024-02-30", "the base 30 February"), (3, "2000-01-02", "the base 2000-01-02"),
        (3, "2100-01-04", "the base 2100-01-04"), (3, "2024-3-4", "a base of another shape"),
        (3, "2024-03-04 00:00", "a base with a time"),
        (4, "", "no name"), (4, "a" * 65, "a name of 65 bytes"),
        (4, 33 * "\u00c5", "a name of 33 letters with 66 bytes"), (4, '"Berg, Anna"', "a name with a comma"),
        (4, '"a""b"', "a name with a double quote"),
        (4, '"a\nb"', "a name with an end of line"), (4, b"\xff", "a name that isn't UTF-8"), (4, "a\x7f", "a name with byte 127"),
    ]
    for column, value, what in bad:
        yield driver("E9", f"{what} is out of the limits of the column {DRIVER_HEAD[column].decode()}", "fault E9", of_anna(column, value))
    for date in ("2024-03-03", "2024-03-05", "2024-03-10"):
        yield driver("S9", f"the base {date} isn't a Monday", "fault S9", of_anna(3, date))
    for column, other in ((0, 1), (1, 2), (2, 3), (3, 4), (0, 4)):
        fields = list(ANNA)
        fields[column] = fields[other] = "?" if 4 not in (column, other) else '"?,"'
        yield driver("E9", f"two columns are wrong, and the leftmost, {DRIVER_HEAD[column].decode()}, is reported", "fault E9",
                     COLUMNS + ",".join(fields).encode())


def driver_rows() -> Iterator[Made]:
    """Heads and rows of a driver."""
    row = ",".join(ANNA).encode() + b"\n"
    for text, what in ((b"", "an empty text"), (b"driver,holder,key,base\n", "a head that lacks a column"),
                       (HEAD + REST, "the head of hours"), (COLUMNS.replace(b"name", b"Name") + row, "a name with a capital"),
                       (row, "no head")):
        yield driver("E1", f"{what} isn't the head of a driver", "fault E1", text)
    for text, what in ((COLUMNS, "there is no row 2"), (COLUMNS + row[:-11] + b"\n", "row 2 has four fields"),
                       (COLUMNS + row[:-1] + b",\n", "row 2 has six fields"), (COLUMNS + row + row, "there is a row 3"),
                       (COLUMNS + row + b" \n", "row 3 is a blank")):
        yield driver("E2", what, "fault E2", text)
    for third, what in ((b"0" + row, "is wrong too"), (row[3:], "lacks a field")):
        yield driver("E2", f"row 2 is a driver, and row 3 {what}", "fault E2", COLUMNS + row + third)
    for text, what in ((COLUMNS + row + b"\n\r\n", "empty lines after row 2 are no rows"),
                       (MARK + COLUMNS + row, "a byte order mark is skipped"),
                       (COLUMNS.replace(b"\n", b"\r\n") + b"\r\n" + row[:-1], "an empty line before row 2 is none")):
        yield driver("CSV", what, "read", text)
    yield driver("E9", "row 2 is wrong, and there is a row 3: E9 comes before E2 of row 3", "fault E9", of_anna(0, "0", row))


def last_fields() -> Iterator[Made]:
    """Texts that end in two double quotes."""
    for text, what in ((HEAD + b'""', "under a head alone"), (HEAD + REST + b'""', "after a row"),
                       (HEAD + REST + b'\r\n""', "after an empty line")):
        yield hours("E2", f'a text ends in two double quotes, {what}: a record of one empty field', "fault E2", text)
    yield hours("E6", "a text ends in two double quotes in the place of the activity", "fault E6", HEAD + REST.replace(b"rest\n", b'""'))
    yield hours("CSV", "a text ends in two double quotes in the place of the note", "read", SIGNED + REST[:-1] + b',Eva,""')
    yield hours("E2", "a text ends in two double quotes and a comma", "fault E2", HEAD + REST[:-1] + b',""')
    yield driver("E2", "a text ends in two double quotes in the place of row 2", "fault E2", COLUMNS + b'""')
    yield driver("E2", "a text ends in two double quotes in the place of row 3", "fault E2", COLUMNS + ",".join(ANNA).encode() + b'\n""')


LONG_MONTHS = (1, 3, 5, 7, 8, 10, 12)


def calendar() -> Iterator[Made]:
    """The last days of each month, and leap days."""
    for month in range(1, 13):
        last = 31 if month in LONG_MONTHS else 30 if month != 2 else 28
        yield hours("CSV", f"the last minute of month {month} of 2023 is entered", "read",
                    HEAD + f"2023-{month:02}-{last} 23:59,2024-01-01 00:00,rest\n".encode())
        for day in range(last + 1, 33):
            yield hours("E3", f"a start with day {day} of month {month} of 2023", "fault E3",
                        HEAD + f"2023-{month:02}-{day} 00:00,2024-01-01 00:00,rest\n".encode())
    for year in (2004, 2028, 2096):
        yield hours("CSV", f"29 February of {year}, a leap year, is entered", "read",
                    HEAD + f"{year}-02-29 00:00,{year}-03-01 00:00,rest\n".encode())
        yield driver("S9", f"the base is 29 February of {year}, a leap year, and isn't a Monday", "fault S9", of_anna(3, f"{year}-02-29"))
    for year in (2026, 2027, 2098):
        yield hours("E3", f"29 February of {year}, which isn't a leap year", "fault E3",
                    HEAD + f"{year}-02-29 00:00,{year}-03-01 00:00,rest\n".encode())
    yield driver("CSV", "the base is 29 February of 2044, a Monday", "read", of_anna(3, "2044-02-29"))
    for date in ("2024-04-31", "2024-06-31", "2024-09-31", "2024-11-31", "2025-02-29"):
        yield driver("E9", f"the base {date} isn't in the calendar", "fault E9", of_anna(3, date))


NO_TEXTS = [
    (b"\xed\xa0\x80", "a surrogate, ed a0 80"), (b"\xed\xbf\xbf", "a surrogate, ed bf bf"), (b"\xc0\x80", "two bytes for U+0000"),
    (b"\xe0\x80\xaf", "three bytes for a slash"), (b"\xf4\x90\x80\x80", "four bytes beyond U+10FFFF"),
    (b"\xf8\x88\x80\x80\x80", "five bytes"), (b"\xe2\x82", "two bytes of three"), (b"\xf0\x9f\x9a", "three bytes of four"),
]
TEXTS = [
    ("\ud7ff", "U+D7FF"), ("\ue000", "U+E000"), ("\U0010ffff", "U+10FFFF"), ("\u0800", "U+0800"), ("\u00a0", "U+00A0"),
    ("\ufeff", "U+FEFF"),
]


def letters() -> Iterator[Made]:
    """Blanks around texts, and letters at the limits of UTF-8."""
    def signed(author: bytes, note: bytes) -> bytes:
        return SIGNED + REST[:-1] + b"," + author + b"," + note + b"\n"

    for author, note, what in (
        (b"Eva", b" ill ", "around a note"), (b" Eva ", b"ill", "around an author"), (b"Eva", b"  ", "alone in a note"),
        (b'" Eva "', b'" ill "', "around both, in quotes"), (b"Eva", b" ill", "before a note"), (b"Eva", b"ill ", "after one"),
    ):
        yield hours("CSV", f"blanks {what} are a part of it", "read", signed(author, note))
    yield driver("CSV", "blanks around a name are a part of it", "read", of_anna(4, "  Anna Berg "))
    for wrong, what in NO_TEXTS:
        yield hours("E10", f"a note with {what}, isn't UTF-8", "fault E10", signed(b"Eva", b"a" + wrong))
        yield driver("E9", f"a name with {what}, isn't UTF-8", "fault E9", of_anna(4, b"a" + wrong))
    for text, what in TEXTS:
        yield hours("CSV", f"a note of {what} is one", "read", signed(b"Eva", text.encode()))
    for byte in (b"\x1f", b"\x7f"):
        yield hours("E10", f"an author that ends in byte {byte[0]}", "fault E10", signed(b"Eva" + byte, b""))


def key_letters() -> Iterator[Made]:
    """The first and the last letters and digits that a key may have, and those beside them."""
    for letter in "AZaz09-":
        yield driver("CSV", f"a key with '{letter}' is within its limits", "read", of_anna(2, f"anna{letter}key1"))
    for letter in "@[`{/:._ ":
        yield driver("E9", f"a key with '{letter}' is out of the limits of the column key", "fault E9", of_anna(2, f"anna{letter}key1"))


def all_leap_days() -> Iterator[Made]:
    """The leap days of all years that are read, the last day of each month, and the day 0 of each."""
    leap_days = "".join(f"{year}-02-29 00:00,{year}-02-29 00:01,rest\n" for year in range(2000, 2100, 4))
    yield hours("CSV", "29 February of each leap year from 2000 to 2096 is entered", "read", HEAD + leap_days.encode())
    for month in (1, 2, 12):
        yield hours("E3", f"a start with day 0 of month {month}", "fault E3",
                    HEAD + f"2024-{month:02}-00 00:00,2025-01-01 00:00,rest\n".encode())
    for text, what in (("2024-03-04 00:00Z", "a Z"), ("2024/03/04 00:00", "slashes"), ("2024.03.04 00:00", "full stops"),
                       ("2024-03-04 00:00+00:00", "an offset"), ('"2024-03-04 00:00\n"', "an end of line in quotes"),
                       ("20240304 00:00", "no hyphens"), ("2024-03-04 0000", "no colon"), ("2024-03-04\t00:00", "a tab"),
                       ("24-03-04 00:00", "a year of two digits"), ("12024-03-04 00:00", "a year of five digits")):
        yield hours("E3", f"a start with {what}", "fault E3", HEAD + f"{text},2024-03-05 00:00,rest\n".encode())


def other_dialects() -> Iterator[Made]:
    """What some readers of CSV skip, or take for something else."""
    rows = HEAD + REST
    for text, what in ((b"sep=,\n" + rows, "a line names the separator"), (b"\xfe\xff" + rows, "two bytes mark UTF-16"),
                       (b'"' + MARK + b'start",past,activity\n' + REST, "a byte order mark is in the first name's quotes"),
                       (b"# hours\n" + rows, "a line that begins with # comes before the head"), (REST, "a row comes without a head")):
        yield hours("E1", what, "fault E1", text)
    for text, what in ((rows + b"\x1a", "byte 26 comes at the end"), (rows + b"# end\n", "a line that begins with # is a record"),
                       (rows + b"\x0b", "byte 11 at the end is a record of one field"), (rows + b"\0", "byte 0 comes at the end"),
                       (rows + "\u2028".encode(), "U+2028 at the end is a record of one field")):
        yield hours("E2", what, "fault E2", text)
    yield hours("E3", "the head comes twice, and the second is a row", "fault E3", HEAD + HEAD + REST)
    yield hours("E3", "the head comes again after a row", "fault E3", HEAD + REST + HEAD)
    for name in ("CREW", "Ferry", "crew ", "outs"):
        yield hours("E6", f"the activity '{name}' isn't one, not even one that can't be entered", "fault E6",
                    HEAD + REST.replace(b"rest", name.encode()))
    for activity, more, other in (("crew", "13:00", "E5"), ("lunch", "13:00", "E6"), ("rest", "", "E7")):
        past = f"2024-03-04 {more}" if more else "2025-03-05 12:00"
        yield hours("E4", f"a row starts before the past of the row before, and has {other}: E4 comes first", "fault E4",
                    HEAD + REST + f"2024-03-04 11:59,{past},{activity}\n".encode())


def many_rows() -> Iterator[Made]:
    """Texts of many rows: the row that is named is counted from the head, and empty lines don't count."""
    def rows(count: int, minutes: int = 1) -> bytes:
        return b"".join(f"2024-03-04 {m // 60:02}:{m % 60:02},2024-03-04 {(m + 1) // 60:02}:{(m + 1) % 60:02},rest\n".encode()
                        for m in range(0, count * minutes, minutes))

    for count in (9, 30):
        yield hours("E6", f"row {count + 2} has an activity that isn't one, after {count} good rows", "fault E6",
                    HEAD + rows(count) + b"2024-03-05 00:00,2024-03-05 00:01,lunch\n")
    yield hours("E2", "row 3 has one field, after a hundred empty lines", "fault E2", HEAD + REST + b"\n" * 100 + b"a\n")
    yield hours("CSV", "twelve rows are entered", "read", HEAD + rows(12, 2))
    yield hours("E6", "an end of line in quotes doesn't begin a row: row 3 is named", "fault E6",
                SIGNED + REST[:-1] + b",Eva,note\n" + b'2024-03-05 00:00,2024-03-05 00:01,"a\nb\n",Eva,note\n')


ODD_TEXT = "=<b>&amp;\\;|'`\u2028\u202e\u200b\ufffd\U0001f69ae\u0301"


def odd_texts() -> Iterator[Made]:
    """Each control, and letters that some programs refuse or change."""
    for byte in (0, 8, 9, 10, 11, 12, 13, 27, 28):
        quoted = b'"a' + bytes([byte]) + b'b"'
        yield hours("E10", f"a note with byte {byte}, in quotes", "fault E10", SIGNED + REST[:-1] + b",Eva," + quoted + b"\n")
    for byte in (9, 13):
        yield driver("E9", f"a name with byte {byte}, in quotes", "fault E9", of_anna(4, b'"a' + bytes([byte]) + b'b"'))
    what = "signs of markup, of formulas, of direction, and a letter with an accent of its own are taken as they are"
    yield hours("CSV", f"an author and a note: {what}", "read", SIGNED + REST[:-1] + f",{ODD_TEXT},{ODD_TEXT}\n".encode())
    yield driver("CSV", f"a name: {what}", "read", of_anna(4, ODD_TEXT))
    for key, what in (("12345678", "digits alone"), ("-anna-key", "a hyphen first"), ("anna-key-", "a hyphen last"),
                      ("ANNAKEY1", "capitals")):
        yield driver("CSV", f"a key of {what} is within its limits", "read", of_anna(2, key))
    for column, value in enumerate(ANNA):
        yield driver("E9", f"an end of line in quotes after the {DRIVER_HEAD[column].decode()} is a part of it", "fault E9",
                     of_anna(column, f'"{value}\n"'))


# Cases of both kinds, by the names of their generators.
LATER = {
    "last-field": last_fields, "calendar": calendar, "letters": letters, "key": key_letters, "leap-day": all_leap_days,
    "dialect": other_dialects, "many-rows": many_rows, "odd": odd_texts,
}


def texts() -> list[Made]:
    """All cases of CSV."""
    makers = [heads, records, times, orders, activities, authors, first_faults, drivers, driver_rows]
    later = [one._replace(generator=name) for name, maker in LATER.items() for one in maker()]
    return [one for maker in makers for one in maker()] + later
