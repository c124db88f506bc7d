"""Worked rows of the office: in an archive that has Anna, what each command prints for an input, and its status."""
import datetime
import hashlib
from collections import namedtuple
from collections.abc import Iterable, Sequence

from inputs import random_cards
from inputs.random_commands import hours_csv
from lib import rules
from lib.programs import name_and_version
from lib.tars import tar_of
from slow.slow_rules import Span

HOLDER = "0d4431323334353637383930313233"
DRIVER_HEAD = "driver,holder,key,base,name\n"
ANNA = f"{DRIVER_HEAD}17,{HOLDER},anna-key-1,2024-03-04,Anna Berg\n".encode()
BERT = f"{DRIVER_HEAD}18,{HOLDER[:-1]}4,bert-key-1,2024-02-05,Bert\n".encode()

CARD = "0520000011" + HOLDER + "3030"
VALUE = "00000014" "0000001465e50f0000010064000011e019fe23fc" "0014001065e6608000020000000011e0"
OTHER_VALUE = "00000014" "0000001465e50f0000010064000011ea1a0823f2" "0014001065e6608000020000080011e0"
ACTIVITY_DATA = bytes.fromhex(VALUE)
DAY = bytes.fromhex(CARD + "0504000028" + VALUE)
OTHER_DAY = bytes.fromhex(CARD + "0504000028" + OTHER_VALUE)
CREW_DAY = bytes.fromhex(CARD + "0504000028" + VALUE.replace("19fe", "59fe"))
BOTH = DAY + bytes.fromhex("0504020028" + OTHER_VALUE)
OTHER_CARD = bytes.fromhex(CARD.replace(HOLDER, HOLDER[:-1] + "9") + "0504000028" + VALUE)
NOON = bytes.fromhex(CARD + "0504000016" "00000000" "0000001265e50f0000010000000011e019fe")
SATURDAY = bytes.fromhex(CARD + "0504000016" "00000000" "0000001265eba68000010000600071e06258")
NOTHING = bytes.fromhex(CARD + "0504000010" + "00" * 16)

LIMIT = 262_144
TOO_LARGE = bytes(LIMIT + 1)
LARGEST_DAY = DAY + 3 * (bytes.fromhex("050100ffff") + bytes(65_535))
LARGEST_DAY += bytes.fromhex("050100") + (LIMIT - len(LARGEST_DAY) - 5).to_bytes(2, "big") + bytes(LIMIT - len(LARGEST_DAY) - 5)

HOURS_HEAD = b"start,past,activity\n"
SIGNED_HEAD = b"start,past,activity,author,note\n"
FREE_DAYS = HOURS_HEAD + b"2024-03-09 00:00,2024-03-11 00:00,rest\n"
MORNING = HOURS_HEAD + b"2024-03-05 08:00,2024-03-05 08:30,work\n2024-03-05 08:30,2024-03-05 12:00,drive\n"
DRIVEN = HOURS_HEAD + b"2024-03-04 08:00,2024-03-04 08:30,work\n2024-03-04 08:30,2024-03-04 17:00,drive\n"
LARGEST_HOURS = FREE_DAYS + b"\n" * (LIMIT - len(FREE_DAYS))
DAY_OFF = SIGNED_HEAD + b"2024-03-11 00:00,2024-03-12 00:00,rest,Eva Lund,day off\n"
NO_AUTHOR = DAY_OFF.replace(b"Eva Lund", b"")
LONG_NOTE = DAY_OFF.replace(b"day off", 201 * b"n")

# What is no line with a key.
NO_KEYS = [b"", b"\n", b"\r\n", 7 * b"k", 65 * b"k", b"anna_key_4", b"anna-key-4 ", b" anna-key-4", b"anna-key-4\r", b"anna-key-4\n\n"]
NO_KEYS += [b"anna-key-4\n\r", b"\xef\xbb\xbfanna-key-4", b"anna-key-4\0", "anna-k\u00ebys".encode(), b"anna-key-4\nbert-key-4\n"]

# What is no line with a name, and what is one: one letter, as many bytes as there may be, and a byte order mark, which is a part of it.
NO_NAMES = [b"", b"\n", b"\r\n", b"Lind, Anna", b'Anna "Lind"', b"Anna\tLind", b"Anna\0", b"Anna\x1f", b"Anna\x7f", b"Anna\r", b"Anna\n\n"]
NO_NAMES += [b"Anna\n\r", b"Anna\nLind\n", 65 * b"n", 63 * b"n" + "\u00f6".encode(), b"Zo\xc3\n", b"\xff", b"\xed\xa0\x80", b"\xc0\xaf"]
LINES_WITH_NAMES = {
    "n": "n\n", " ": " \r\n", 64 * "n": f"{64 * 'n'}\r\n", 32 * "\u00f6": 32 * "\u00f6", 16 * "\U0001f69a": f"{16 * chr(0x1f69a)}\n",
    "Anna 'A'; <&>": "Anna 'A'; <&>\n", "\ufeffAnna\u0085": "\ufeffAnna\u0085\n",
}

HEAD = "DATE       DAY   REST  AVAIL   WORK  DRIVE   CREW   NONE\n"
BREACH = "B1 Art 7 at 2024-03-04 13:00 since 2024-03-04 08:30 amount 240\n"
EXAMINED = "EXAMINED TO 2024-03-04 17:00 unknown\n"
UNEXAMINED = "EXAMINED TO 2024-03-04 00:00 unknown\n"
NONE = "   0:00   0:00   0:00   0:00   0:00  24:00\n"

LENGTHS = {"2023-02": 28, "2024-02": 29, "2024-03": 31, "2024-04": 30}
FROM_MONDAY = ["Mon", "Tue", "Wed", "Thu", "Fri", "Sat", "Sun"]
FROM_WEDNESDAY = FROM_MONDAY[2:] + FROM_MONDAY[:2]
FROM_THURSDAY = FROM_MONDAY[3:] + FROM_MONDAY[:3]
FROM_FRIDAY = FROM_MONDAY[4:] + FROM_MONDAY[:4]

FREE_LINE = '1 2024-03-09 00:00 2024-03-11 00:00 rest withdrawn "office" ""\n'
DAY_OFF_LINE = '2 2024-03-11 00:00 2024-03-12 00:00 rest kept "Eva Lund" "day off"\n'

Row = namedtuple("Row", "words given text status")


def row(words: str, text: str | bytes, given: bytes, status: int) -> Row:
    """A row whose arguments are separated by blanks."""
    text = text if isinstance(text, bytes) else text.encode()
    return Row(words.split(" "), given, text, status)


def done(words: str, text: str | bytes, given: bytes = b"") -> Row:
    """A command that is done."""
    return row(words, text, given, 0)


def refused(words: str, line: str, given: bytes = b"") -> Row:
    """A command that is refused."""
    return row(words, f"{line}\n", given, 1)


def hours(*rows: str, head: bytes = HOURS_HEAD) -> bytes:
    """The text of CSV with rows of hours."""
    return head + "".join(f"{row}\n" for row in rows).encode()


def example(name: str) -> bytes:
    """The hours of a worked example of the rules."""
    row = next(row for row in rules.ROWS if row.name == name)
    return hours_csv(rules.joined(row.busy, rules.BASE, row.horizon))


def later(weeks: int, busy: Iterable[Span]) -> list[Span]:
    """The same a number of weeks later."""
    return [(start + 10_080 * weeks, past + 10_080 * weeks, activity) for start, past, activity in busy]


def rested(busy: Iterable[Span], weeks: int = 0) -> bytes:
    """Hours with rest between, from 4 March 2024 or a number of weeks later on."""
    spans = later(weeks, busy)
    return hours_csv(rules.joined(spans, rules.BASE + 10_080 * weeks, max(past for _, past, _ in spans)))


def bert(key: str, holder: str = HOLDER, base: str = "2024-03-05") -> bytes:
    """The text of CSV with another driver."""
    return f"driver,holder,key,base,name\n18,{holder},{key},{base},Bert\n".encode()


def rests(*standings: str, first: int = 1) -> str:
    """The lines of entries of rest on a day each, from 9 March on, by whether each is kept or withdrawn, and the number of the first."""
    return "".join(
        f'{first + place} 2024-03-{9 + place:02} 00:00 2024-03-{10 + place:02} 00:00 rest {standing} "office" ""\n'
        for place, standing in enumerate(standings)
    )


def anna(name: str) -> str:
    """The line of Anna, who has nothing, by another name."""
    return f"17 {HOLDER} 2024-03-04 0 0 {name}\n"


def data_of(kind: int, *days: str) -> bytes:
    """The block of a generation's activity data with some days: a date each, and then times and activities. As on a card, the last word of
    the last day gives nothing yet."""
    records = []
    for text in days:
        date, *words = text.split(" ")
        times = [60 * int(time[:2]) + int(time[3:]) for time in words[::2]]
        activities = [["rest", "available", "work", "drive"].index(activity) for activity in words[1::2]]
        day = datetime.date.fromisoformat(date).toordinal() - datetime.date(1970, 1, 1).toordinal()
        records.append(random_cards.record(day, [random_cards.word(0, 0, *word) for word in zip(activities, times)]))
    return random_cards.block(0x0504, kind, random_cards.activity_data(records, 0, 0))


def card_of(*blocks: bytes, holder: str = HOLDER) -> bytes:
    """A card file with some blocks of activity data."""
    return bytes.fromhex(CARD.replace(HOLDER, holder)) + b"".join(blocks)


def handed(period: str, driver: str, files: Iterable[tuple[str, bytes]], entries: str = "", gaps: Iterable[str] = ()) -> bytes:
    """What is handed over: card files by their names, lines of entries, and what names the period, the driver, these and the gaps."""
    first, past = period.split(" ")
    members = [*files, ("entries.txt", entries.encode())]
    listed = "".join(f"FILE {name} {len(content)} {hashlib.sha256(content).hexdigest()}\n" for name, content in members)
    head = f"DRIVER {driver}FROM {first} PAST {past}\nPROGRAM {name_and_version()}\n"
    return tar_of([*members, ("contents.txt", (head + listed + "".join(f"NOT HELD {gap}\n" for gap in gaps)).encode())])


def with_counts(files: int, entries: int) -> str:
    """The line of Anna, who has so many card files and entries."""
    return f"17 {HOLDER} 2024-03-04 {files} {entries} Anna Berg\n"


def days(month: str, weekdays: Sequence[str], first: int = 1) -> str:
    """The lines of days of which nothing is held, up to the month's last; its first day is the first of the days of the week."""
    return "".join(f"{month}-{day:02} {weekdays[(day - 1) % 7]}{NONE}" for day in range(first, LENGTHS[month] + 1))


MARCH = (
    f"DRIVER 17 Anna Berg\nMONTH 2024-03\n{HEAD}"
    f"2024-03-01 Fri{NONE}2024-03-02 Sat{NONE}2024-03-03 Sun{NONE}"
    "2024-03-04 Mon   8:00   0:00   0:30   8:30   0:00   7:00\n"
    "2024-03-05 Tue   8:00   0:00   0:00   0:00   0:00  16:00\n"
    + days("2024-03", FROM_FRIDAY, 6)
    + "TOTAL           16:00   0:00   0:30   8:30   0:00 719:00\n"
    + BREACH
    + EXAMINED
)
CREWED = "EXAMINED TO 2024-03-04 08:30 crew\n"
CREW_MARCH = MARCH.replace("8:30   0:00   7:00\n", "0:00   8:30   7:00\n").replace("8:30   0:00 719", "0:00   8:30 719")
CREW_MARCH = CREW_MARCH.replace(BREACH + EXAMINED, CREWED)
APRIL = (
    f"DRIVER 17 Anna Berg\nMONTH 2024-04\n{HEAD}"
    + days("2024-04", FROM_MONDAY)
    + f"TOTAL            0:00   0:00   0:00   0:00   0:00 720:00\n{EXAMINED}"
)
LEAP = (
    f"DRIVER 17 Anna Berg\nMONTH 2024-02\n{HEAD}"
    + days("2024-02", FROM_THURSDAY)
    + f"TOTAL            0:00   0:00   0:00   0:00   0:00 696:00\n{EXAMINED}"
)
SHORTEST = (
    f"DRIVER 17 Anna Berg\nMONTH 2023-02\n{HEAD}"
    + days("2023-02", FROM_WEDNESDAY)
    + f"TOTAL            0:00   0:00   0:00   0:00   0:00 672:00\n{EXAMINED}"
)
SPANS = (
    "start,past,activity,manning\n"
    "2024-03-04 00:00,2024-03-04 08:00,rest,single\n"
    "2024-03-04 08:00,2024-03-04 08:30,work,single\n"
    "2024-03-04 08:30,2024-03-04 17:00,drive,single\n"
    "2024-03-05 00:00,2024-03-05 08:00,rest,single\n"
)
GAPS = "2024-03-01 00:00 2024-03-04 00:00\n2024-03-04 17:00 2024-03-05 00:00\n2024-03-05 08:00 2024-04-01 00:00\n"

ADDED = done("import both", "added driver 17 number 1\n", DAY)

OVERVIEW_HEAD = "driver,name,rest,available,work,drive,crew,none,examined,B1,B2,B3,B4,B5,B6,B7,B8,B9,B10\n"
INCIDENT_HEAD = "driver,name,kind,article,moment,since,amount\n"
TWO_MONDAYS = HOURS_HEAD + b"2024-03-04 00:00,2024-03-04 08:00,rest\n" + DRIVEN.removeprefix(HOURS_HEAD)
TWO_MONDAYS += b"2024-03-11 00:00,2024-03-11 07:00,rest\n2024-03-11 07:00,2024-03-11 11:00,drive\n"
UNSEEN = "NOT EXAMINED 2024-03-04 17:00 2024-03-11 00:00\n"
SECOND = "FROM 2024-03-11\nEXAMINED TO 2024-03-11 11:00 unknown\n"

AHEAD = (
    "FROM 2024-03-04\nEXAMINED TO 2024-03-05 08:00 unknown\nSTART 2024-03-05 09:00\nREST SINCE 2024-03-04 17:00\n"
    "DAY SINCE 2024-03-05 09:00\nREDUCED 0\nEXTENDED 0\nDRIVEN 2024-02-26 0:00\nDRIVEN 2024-03-04 8:30\n"
    "B1 Art 7 until 2024-03-05 13:30 left 4:30\nB2 Art 8(2) until 2024-03-06 00:00 left 15:00\n"
    "B4 Art 6(1) until 2024-03-05 19:00 left 10:00\nB6 Art 6(2) until 2024-03-07 08:30 left 47:30\n"
    "B7 Art 6(3) until 2024-03-08 18:30 left 81:30\nB8 Art 8(6) until 2024-03-10 08:00 left 119:00\n"
    "B9 Art 8(6) until 2024-03-17 23:59 left 302:59\n"
)
NOTHING_AHEAD = (
    "FROM 2024-03-04\nEXAMINED TO 2024-03-04 00:00 unknown\nSTART 2024-03-09 08:00\nREST SINCE -\n"
    "DAY SINCE 2024-03-09 08:00\nREDUCED 0\nEXTENDED 0\nDRIVEN 2024-02-26 0:00\nDRIVEN 2024-03-04 0:00\n"
    "B1 Art 7 until 2024-03-09 12:30 left 4:30\nB2 Art 8(2) until 2024-03-09 23:00 left 15:00\n"
    "B4 Art 6(1) until 2024-03-09 18:00 left 10:00\nB8 Art 8(6) until 2024-03-15 08:00 left 144:00\n"
    "B9 Art 8(6) until 2024-03-17 23:59 left 207:59\n"
)

STANDING_HEAD = "driver,name,files,held,horizon,cause,gaps,unknown,first,last_month,breaches,debts,owes,by\n"
FORECAST_HEAD = "driver,name,from,held,start,B1,B2,B3,B4,B5,B6,B7,B8,B9,reduced,extended,before,week\n"
CARL = f"{DRIVER_HEAD}9,{HOLDER[:-1]}9,carl-key-1,2024-03-04,Carl Ek\n".encode()
REST_OF_DAY = HOURS_HEAD + b"2024-03-04 17:00,2024-03-05 00:00,rest\n"

# How Anna, Bert and Carl stand who have nothing, and Anna with a day: a gap of seven hours, and a breach in March.
STANDING_ANNA = "17,Anna Berg,0,,2024-03-04 00:00,unknown,0,0,,0,0,0,0,\n"
STANDING_BERT = "18,Bert,0,,2024-02-05 00:00,unknown,0,0,,0,0,0,0,\n"
STANDING_CARL = "9,Carl Ek,0,,2024-03-04 00:00,unknown,0,0,,0,0,0,0,\n"
STANDING_DAY = "17,Anna Berg,1,2024-03-05 08:00,2024-03-04 17:00,unknown,1,420,2024-03-04 17:00,{},{},0,0,\n"

# Arguments of `forecast` that are no minute, and those of a day or a time that isn't there.
NO_MINUTES = ["2024-3-5 12:00", "2024-03-05 9:00", "2024-02-30 9:00", "2024-03-05 12.00", "2024-03-05 2024-03-05", "12:00 2024-03-05"]
NO_MINUTES += ["17 12:00"]
NOT_THERE = ["2024-02-30 12:00", "2024-03-05 24:00", "2024-03-05 12:60", "2100-02-30 12:00"]

# Two days with breaks of 45 minutes, of 541 minutes of driving and 15 hours each, a day of 15 hours of work, and reduced rests after them.
THREE_LONG_DAYS = [
    *rules.drive([4, 5], "06:00-10:30", "11:15-15:45", "16:30-16:31"), *rules.work([4, 5], "16:31-21:00"), *rules.work([6], "06:00-21:00"),
]
NIGHT = HOURS_HEAD + b"2024-03-06 21:00,2024-03-07 06:00,rest\n"

# Rest on three days, and the quarters of a week, which are as many entries.
THREE_DAYS = hours(*[f"2024-03-{day:02} 00:00,2024-03-{day + 1:02} 00:00,rest" for day in (9, 10, 11)])
QUARTERS = hours_csv([(rules.BASE + 15 * place, rules.BASE + 15 * place + 15, "rest") for place in range(672)])

# The rows of a form: of the gap on a day, of the gap after it, and of that as far as 6 March.
FIRST_GAP = b"2024-03-04 17:00,2024-03-05 00:00,,,\n"
SECOND_GAP = b"2024-03-05 08:00,2024-03-09 00:00,,,\n"
CUT_GAP = b"2024-03-05 08:00,2024-03-06 00:00,,,\n"

# The rows of a form from 6 January 2020 on, each of 366 days, and of the days that are left.
YEARS = [
    b"2020-01-06 00:00,2021-01-06 00:00,,,\n", b"2021-01-06 00:00,2022-01-07 00:00,,,\n", b"2022-01-07 00:00,2023-01-08 00:00,,,\n",
    b"2023-01-08 00:00,2024-01-09 00:00,,,\n", b"2024-01-09 00:00,2024-03-04 00:00,,,\n",
]

# A Monday up to 08:00; the same up to Tuesday, 07:00; and Tuesday and Wednesday up to 05:00, from a card that has no Monday any more.
MONDAY = card_of(data_of(0, "2024-03-04 00:00 rest 06:00 work 08:00 drive"))
TO_TUESDAY = card_of(data_of(0, "2024-03-04 00:00 rest 06:00 work 08:00 drive 10:00 rest", "2024-03-05 00:00 rest 07:00 work"))
TO_WEDNESDAY = card_of(data_of(0, "2024-03-05 00:00 rest 07:00 work 09:00 rest", "2024-03-06 00:00 rest 05:00 work"))

# Monday's rest from its second minute on, and work after it.
SECOND_MINUTE = card_of(data_of(0, "2024-03-04 00:01 rest 08:00 work 09:00 rest"))
WHOLE_REST = card_of(data_of(0, "2024-03-04 00:00 rest 08:00 work"))

# A Monday by the first generation, and a Tuesday by the second.
GENERATIONS = card_of(data_of(0, "2024-03-04 00:00 rest 06:00 work"), data_of(2, "2024-03-05 00:00 rest 07:00 work"))

# A holder of whom only five bytes are letters or digits, and who has a Monday.
SIGNS = "0d442fc3a420002d2e5f7e417a3039"
SIGNED_CARD = card_of(data_of(0, "2024-03-04 00:00 rest 06:00 work"), holder=SIGNS)

# What is handed over of March: of Anna, who has nothing, and who has a day.
MARCH_DAYS = "2024-03-01 2024-04-01"
DAY_NAME = "1-D1234567890123-20240304-20240305.ddd"
DAY_GAPS = GAPS.splitlines()

# The names of the files of three days, by their numbers.
OF_THREE_DAYS = {
    2: ("2-D1234567890123-20240304-20240305.ddd", TO_TUESDAY),
    3: ("3-D1234567890123-20240305-20240306.ddd", TO_WEDNESDAY),
}

# Two days, and the lines of entries: two with a minute of these days each, an hour on the first of them, and days around.
DAYS_9_10 = "2024-03-09 2024-03-11"
EDGES = [
    '3 2024-03-08 12:00 2024-03-09 00:01 rest kept "office" ""\n',
    '4 2024-03-10 23:59 2024-03-11 00:01 rest kept "office" ""\n',
]
AT_NOON = '5 2024-03-09 12:00 2024-03-09 13:00 work {} "Zo\u00eb" "by hand; \'late\'"\n'
AROUND = '6 2024-03-01 00:00 2024-03-20 00:00 rest kept "office" ""\n'

TO_LAST_MONTH = 3_954  # weeks from 4 March 2024 to 14 December 2099

# A breach on Monday, 5 February, and two on 4 March, whose minutes before aren't held.
TWO_MONTHS = hours(
    "2024-02-05 00:00,2024-02-05 06:00,rest", "2024-02-05 06:00,2024-02-05 10:31,drive",
    "2024-03-04 00:00,2024-03-04 06:00,rest", "2024-03-04 06:00,2024-03-04 10:32,drive",
    "2024-03-04 10:32,2024-03-04 11:17,rest", "2024-03-04 11:17,2024-03-04 15:48,drive",
)

ROWS = {
    "a day": [
        ADDED,
        done("import both", "repeated driver 17\n", DAY),
        done("breaches 17", BREACH + EXAMINED),
        done("owed 17", EXAMINED),
        done("spans 17 2024-03", SPANS),
        done("gaps 17 2024-03", GAPS),
        done("sheet 17 2024-03", MARCH),
        done("sheet 17 2024-04", APRIL),
        done("sheet 17 2024-02", LEAP),
        done("sheet 17 2023-02", SHORTEST),
        done("spans 17 2024-04", "start,past,activity,manning\n"),
        done("gaps 17 2024-04", "2024-04-01 00:00 2024-05-01 00:00\n"),
        done("entries 17", ""),
        done("file 17 1", DAY),
        refused("file 17 2", "S10 unknown download"),
    ],
    "arguments": [
        refused("import whole", "P1 bad part", DAY),
        refused("import Both", "P1 bad part", DAY),
        refused("import whole", "P1 bad part", TOO_LARGE),
        refused("breaches 017", "N1 bad number"),
        refused("breaches 0", "N1 bad number"),
        refused("breaches 1000000", "N1 bad number"),
        refused("breaches 4294967313", "N1 bad number"),
        refused("breaches +17", "N1 bad number"),
        refused("breaches ", "N1 bad number"),
        refused("enter 017", "N1 bad number", TOO_LARGE),
        refused("enter 017", "N1 bad number", b"nothing"),
        refused("withdraw 17 01", "N1 bad number"),
        refused("withdraw 17 1000001", "N1 bad number"),
        refused("withdraw 17 1000000", "S7 unknown entry"),
        refused("withdraw 18 0", "N1 bad number"),
        refused("file 17 0", "N1 bad number"),
        refused("file 17 1000000", "S10 unknown download"),
        refused("sheet 17 2024-13", "Z2 no such date"),
        refused("gaps 17 2024-00", "Z2 no such date"),
        refused("spans 17 2024-3", "Z1 not of the shape"),
        refused("spans 17 1999-12", "Z3 out of range"),
        refused("sheet 17 2100-01", "Z3 out of range"),
        refused("sheet 17 2100-13", "Z2 no such date"),
        refused("sheet 017 2024-13", "N1 bad number"),
        refused("base 017 2024-13-01", "N1 bad number"),
        refused("base 17 2024-02-30", "Z2 no such date"),
        refused("base 17 2000-01-02", "Z3 out of range"),
        refused("base 17 11.3.2024", "Z1 not of the shape"),
        refused("base 17 2024-03-12", "S9 not a Monday"),
        refused("base 18 2024-03-12", "S4 unknown driver"),
        refused("sheet 18 2024-13", "Z2 no such date"),
        refused("ahead 017 2024-02-30 24:00", "N1 bad number"),
        refused("ahead 18 2024-03-05 24:00", "Z2 no such date"),
        refused("ahead 17 2024-03-05 12:60", "Z2 no such date"),
        refused("ahead 17 2024-02-30 12:00", "Z2 no such date"),
        refused("ahead 17 2100-02-30 12:00", "Z2 no such date"),
        refused("ahead 17 2024-02-30 9:00", "Z1 not of the shape"),
        refused("ahead 17 2024-3-5 12:00", "Z1 not of the shape"),
        refused("ahead 17 2024-03-05 12.00", "Z1 not of the shape"),
        refused("ahead 17 2024-03-05 2024-03-05", "Z1 not of the shape"),
        refused("ahead 17 12:00 2024-03-05", "Z1 not of the shape"),
        refused("ahead 17 2000-01-02 23:59", "Z3 out of range"),
        refused("ahead 17 2100-01-01 00:00", "Z3 out of range"),
        refused("ahead 18 2099-12-31 23:59", "S4 unknown driver"),
        refused("ahead 17 2099-12-31 23:59", "Z3 out of range"),
        refused("ahead 17 2099-10-29 13:00", "Z3 out of range"),
        *[refused(f"{word} 18", "S4 unknown driver") for word in ["breaches", "owed", "entries", "files"]],
        *[refused(f"{word} 18 2024-03", "S4 unknown driver") for word in ["spans", "gaps", "sheet", "chart", "why"]],
        *[refused(f"{word} 18 1", "S4 unknown driver") for word in ["withdraw", "file"]],
        refused("enter 18", "S4 unknown driver", FREE_DAYS),
    ],
    "inputs": [
        refused("register", "X1 too large", TOO_LARGE),
        refused("import both", "X1 too large", TOO_LARGE),
        refused("enter 17", "X1 too large", TOO_LARGE),
        refused("enter 18", "X1 too large", TOO_LARGE),
        refused("register", "E1 wrong head"),
        refused("register", "E9 bad value for driver", ANNA.replace(b"17,", b"017,")),
        refused("register", "E2 wrong fields in row 3", BERT + BERT.splitlines(keepends=True)[1]),
        refused("register", "S1 driver taken", ANNA),
        refused("register", "S2 key taken", BERT.replace(b"bert", b"anna")),
        refused("register", "S3 holder taken", BERT.replace(HOLDER[:-1].encode() + b"4", HOLDER.encode())),
        refused("register", "S9 not a Monday", BERT.replace(b"2024-02-05", b"2024-02-06")),
        refused("enter 17", "E1 wrong head"),
        refused("enter 17", "E5 left out in row 2: crew", FREE_DAYS.replace(b"rest", b"crew")),
        refused("enter 18", "E6 no such activity in row 2", FREE_DAYS.replace(b"rest", b"Rest")),
        refused("import both", "C3 no identification"),
        refused("import both", "C1 truncated block at 22", DAY[:-1]),
        refused("import second", "C6 no activity data", DAY),
        refused("import both", "C14 file contradicts itself at 2024-03-04 08:00", BOTH),
        refused("import both", "S4 unknown driver", OTHER_CARD),
        done("import both", "repeated driver 17\n", NOTHING),
        done("import both", "added driver 17 number 1\n", LARGEST_DAY),
        done("file 17 1", LARGEST_DAY),
        done("enter 17", "entered 1 to 1\n", LARGEST_HOURS),
        refused("enter 17", "X1 too large", LARGEST_HOURS + b"\n"),
        done("import both", "repeated driver 17\n", DAY),
        refused("import both", "S6 contradiction at 2024-03-04 08:00", OTHER_DAY),
        done("register", "registered 18\n", BERT),
        done("breaches 18", "EXAMINED TO 2024-02-05 00:00 unknown\n"),
    ],
    "keys": [
        done("key 17", "key 17\n", b"anna-key-1\n"),
        done("key 17", "key 17\n", b"anna-key-2"),
        done("key 17", "key 17\n", b"anna-key-3\r\n"),
        done("key 17", "key 17\n", 8 * b"k"),
        done("key 17", "key 17\n", 64 * b"k" + b"\r\n"),
        *[refused("key 17", "E9 bad value for key", text) for text in NO_KEYS],
        refused("key 18", "E9 bad value for key", b"anna_key_4"),
        refused("key 17", "X1 too large", TOO_LARGE),
        refused("key 18", "X1 too large", TOO_LARGE),
        *[refused(f"key {number}", "N1 bad number", TOO_LARGE) for number in ["017", "0", "1000000", "+17", ""]],
        refused("key 18", "S2 key taken", 64 * b"k"),
        refused("key 18", "S4 unknown driver", b"anna-key-1"),
        done("register", "registered 18\n", BERT),
        refused("key 17", "S2 key taken", b"bert-key-1\n"),
        refused("key 18", "S2 key taken", 64 * b"k" + b"\n"),
        done("key 18", "key 18\n", b"bert-key-1\n"),
        done("key 18", "key 18\n", b"anna-key-1\n"),
        done("key 17", "key 17\n", b"bert-key-1\n"),
        done("drivers", f"17 {HOLDER} 2024-03-04 0 0 Anna Berg\n18 {HOLDER[:-1]}4 2024-02-05 0 0 Bert\n"),
    ],
    "names": [
        done("name 17", "name 17\n", b"Anna Lind\r\n"),
        done("drivers 17", anna("Anna Lind")),
        done("name 17", "name 17\n", b"Anna Lind"),
        *[
            one
            for name, text in LINES_WITH_NAMES.items()
            for one in [done("name 17", "name 17\n", text.encode()), done("drivers", anna(name))]
        ],
        done("name 17", "name 17\n", b"Anna Lind\n"),
        *[refused("name 17", "E9 bad value for name", text) for text in NO_NAMES],
        refused("name 18", "E9 bad value for name", b"Lind, Anna"),
        refused("name 17", "X1 too large", TOO_LARGE),
        refused("name 18", "X1 too large", TOO_LARGE),
        refused("name 17", "E9 bad value for name", 64 * b"n" + b"\n" * (LIMIT - 64)),
        *[refused(f"name {number}", "N1 bad number", TOO_LARGE) for number in ["017", "0", "1000000", "+17", ""]],
        refused("name 18", "S4 unknown driver", b"Anna Lind\n"),
        done("drivers 17", anna("Anna Lind")),
        done("register", "registered 18\n", BERT),
        done("name 18", "name 18\n", b"Anna Lind\n"),
        done("drivers", f"{anna('Anna Lind')}18 {HOLDER[:-1]}4 2024-02-05 0 0 Anna Lind\n"),
        done("name 18", "name 18\n", b"Bert\n"),
        ADDED,
        done("sheet 17 2024-03", MARCH.replace("Anna Berg", "Anna Lind")),
        done("standing 2024-03", STANDING_HEAD + STANDING_DAY.format(0, 1).replace("Anna Berg", "Anna Lind") + STANDING_BERT),
        done("breaches 17", BREACH + EXAMINED),
        done("file 17 1", DAY),
    ],
    "a second driver": [
        done("import both", "added driver 17 number 1\n", CREW_DAY),
        done("breaches 17", CREWED),
        done("owed 17", CREWED),
        done("sheet 17 2024-03", CREW_MARCH),
        done("spans 17 2024-03", SPANS.replace("drive,single", "drive,crew")),
        done("gaps 17 2024-03", GAPS),
        refused("enter 17", "S6 contradiction at 2024-03-04 08:30", DRIVEN),
        refused("withdraw 17 1", "S7 unknown entry"),
    ],
    "entered hours": [
        ADDED,
        done("enter 17", "entered none\n", HOURS_HEAD),
        done("enter 17", "entered 1 to 1\n", FREE_DAYS),
        refused("import both", "S6 contradiction at 2024-03-09 08:00", SATURDAY),
        done("withdraw 17 1", "withdrawn 1\n"),
        done("import both", "added driver 17 number 2\n", SATURDAY),
        refused("withdraw 17 1", "S8 already withdrawn"),
        refused("withdraw 17 2", "S7 unknown entry"),
        done("entries 17", FREE_LINE),
        done("file 17 2", SATURDAY),
        refused("enter 17", "S6 contradiction at 2024-03-09 08:00", FREE_DAYS),
        done("enter 17", "entered 2 to 3\n", MORNING),
        done(
            "entries 17",
            FREE_LINE + '2 2024-03-05 08:00 2024-03-05 08:30 work kept "office" ""\n'
            '3 2024-03-05 08:30 2024-03-05 12:00 drive kept "office" ""\n',
        ),
    ],
    "ranges of entries": [
        refused("withdraw 17 1 2", "S7 unknown entry"),
        done("enter 17", "entered 1 to 3\n", THREE_DAYS),
        *[refused(f"withdraw 17 {numbers}", "S7 unknown entry") for numbers in ["1 4", "3 4", "4 4", "4 5", "1 1000000", "4 1000000"]],
        done("entries 17", rests("kept", "kept", "kept")),
        done("withdraw 17 2 2", "withdrawn 2 to 2\n"),
        *[refused(f"withdraw 17 {numbers}", "S8 already withdrawn") for numbers in ["1 3", "1 2", "2 3", "2 2", "1 4", "2 1000000", "2"]],
        *[refused(f"withdraw 17 {numbers}", "S7 unknown entry") for numbers in ["3 4", "3 1000000", "4 1000000"]],
        done("entries 17", rests("kept", "withdrawn", "kept")),
        done(
            "spans 17 2024-03",
            "start,past,activity,manning\n2024-03-09 00:00,2024-03-10 00:00,rest,single\n2024-03-11 00:00,2024-03-12 00:00,rest,single\n",
        ),
        done("withdraw 17 1 1", "withdrawn 1 to 1\n"),
        done("withdraw 17 3", "withdrawn 3\n"),
        refused("withdraw 17 1 3", "S8 already withdrawn"),
        done("enter 17", "entered 4 to 6\n", THREE_DAYS),
        done("withdraw 17 4 6", "withdrawn 4 to 6\n"),
        done("entries 17", rests("withdrawn", "withdrawn", "withdrawn") + rests("withdrawn", "withdrawn", "withdrawn", first=4)),
        done("spans 17 2024-03", "start,past,activity,manning\n"),
        done("import both", "added driver 17 number 1\n", SATURDAY),
    ],
    "ranges that are none": [
        done("enter 17", "entered 1 to 3\n", THREE_DAYS),
        *[refused(f"withdraw {numbers}", "N2 wrong order") for numbers in ["17 2 1", "17 10 9", "17 1000000 1", "18 2 1", "999999 3 2"]],
        *[
            refused(f"withdraw {numbers}", "N1 bad number")
            for numbers in [
                "17 0 1", "17 01 1", "17 1000001 1", "17 2 0", "17 2 01", "17 2 +1", "17 1 1000001", "17 1 x", "17 1 2.", "17  2",
                "017 2 1", "0 1 2", " 1 2", "18 2 0", "18 0 1",
            ]
        ],
        *[refused(f"withdraw {numbers}", "S4 unknown driver") for numbers in ["18 1 1", "18 1 2", "18 9 10", "18 1 "]],
        refused("withdraw 17 9 10", "S7 unknown entry"),
        refused("withdraw 17 4 ", "S7 unknown entry"),
        done("entries 17", rests("kept", "kept", "kept")),
        done("withdraw 17 1 ", "withdrawn 1\n"),
        refused("withdraw 17 1 ", "S8 already withdrawn"),
        done("withdraw 17 2 3", "withdrawn 2 to 3\n"),
    ],
    "a range beside a file": [
        ADDED,
        done("enter 17", "entered 1 to 2\n", DRIVEN),
        done("enter 17", "entered 3 to 3\n", REST_OF_DAY),
        done("enter 17", "entered 4 to 4\n", FREE_DAYS),
        done("enter 17", "entered 5 to 5\n", FREE_DAYS),
        done("withdraw 17 1 4", "withdrawn 1 to 4\n"),
        done("spans 17 2024-03", f"{SPANS}2024-03-09 00:00,2024-03-11 00:00,rest,single\n"),
        done("breaches 17", BREACH + EXAMINED),
        refused("withdraw 17 4 5", "S8 already withdrawn"),
        done("withdraw 17 5 5", "withdrawn 5 to 5\n"),
        done("spans 17 2024-03", SPANS),
        done("import both", "added driver 17 number 2\n", SATURDAY),
    ],
    "a week of quarters": [
        done("enter 17", "entered 1 to 672\n", QUARTERS),
        refused("withdraw 17 1 673", "S7 unknown entry"),
        done("spans 17 2024-03", "start,past,activity,manning\n2024-03-04 00:00,2024-03-11 00:00,rest,single\n"),
        done("withdraw 17 1 672", "withdrawn 1 to 672\n"),
        done("spans 17 2024-03", "start,past,activity,manning\n"),
        refused("withdraw 17 1 672", "S8 already withdrawn"),
        done("drivers", f"17 {HOLDER} 2024-03-04 0 672 Anna Berg\n"),
    ],
    "who entered hours, and why": [
        ADDED,
        done("enter 17", "entered none\n", SIGNED_HEAD),
        done("enter 17", "entered 1 to 1\n", FREE_DAYS),
        done("withdraw 17 1", "withdrawn 1\n"),
        done("enter 17", "entered 2 to 2\n", DAY_OFF),
        done("entries 17", FREE_LINE + DAY_OFF_LINE),
        refused("enter 17", "E10 bad author in row 2", NO_AUTHOR),
        refused("enter 17", "E10 bad author in row 2", DAY_OFF.replace(b"Eva Lund", 65 * b"a")),
        refused("enter 17", "E10 bad author in row 2", DAY_OFF.replace(b"Eva Lund", 63 * b"a" + b"\xc3")),
        refused("enter 17", "E10 bad author in row 2", DAY_OFF.replace(b"Eva Lund", b'"Lund, Eva"')),
        refused("enter 17", "E10 bad author in row 2", DAY_OFF.replace(b"Eva Lund", b'"Eva ""E"" Lund"')),
        refused("enter 17", "E10 bad author in row 2", DAY_OFF.replace(b"Eva Lund", b"Eva\x1fLund")),
        refused("enter 17", "E10 bad author in row 2", LONG_NOTE.replace(b"Eva Lund", b"Eva\x7f")),
        refused("enter 17", "E10 bad note in row 2", LONG_NOTE),
        refused("enter 17", "E10 bad note in row 2", DAY_OFF.replace(b"day off", 199 * b"n" + b"\xc3")),
        refused("enter 17", "E10 bad note in row 2", DAY_OFF.replace(b"day off", b'"day, off"')),
        refused("enter 17", "E2 wrong fields in row 2", SIGNED_HEAD + FREE_DAYS.splitlines(keepends=True)[1]),
        refused("enter 17", "E2 wrong fields in row 2", HOURS_HEAD + DAY_OFF.splitlines(keepends=True)[1]),
        refused("enter 17", "E7 too long in row 2", NO_AUTHOR.replace(b"2024-03-12", b"2025-03-13")),
        refused("enter 17", "E6 no such activity in row 2", NO_AUTHOR.replace(b"rest", b"Rest")),
        refused("enter 17", "E10 bad author in row 2", NO_AUTHOR + b"2024-03-11,,,,\n"),
        refused("enter 17", "E4 wrong order in row 3", DAY_OFF + NO_AUTHOR.splitlines(keepends=True)[1]),
        refused("enter 18", "E10 bad author in row 2", NO_AUTHOR),
        refused("enter 18", "S4 unknown driver", DAY_OFF),
        refused("enter 17", "E10 bad note in row 2", LONG_NOTE.replace(b"rest", b"work")),
        refused("enter 17", "S6 contradiction at 2024-03-11 00:00", DAY_OFF.replace(b"rest", b"work")),
        done("enter 17", "entered 3 to 3\n", DAY_OFF.replace(b"Eva Lund", 64 * b"a").replace(b"day off", 200 * b"n")),
        done("enter 17", "entered 4 to 4\n", DAY_OFF.replace(b"Eva Lund", 32 * b"\xc3\xb6").replace(b"day off", b"")),
        done("withdraw 17 2", "withdrawn 2\n"),
        done(
            "entries 17",
            FREE_LINE
            + DAY_OFF_LINE.replace("kept", "withdrawn")
            + f'3 2024-03-11 00:00 2024-03-12 00:00 rest kept "{64 * "a"}" "{200 * "n"}"\n'
            + f'4 2024-03-11 00:00 2024-03-12 00:00 rest kept "{32 * chr(246)}" ""\n',
        ),
    ],
    "a report after each change": [
        done("breaches 17", UNEXAMINED),
        ADDED,
        done("breaches 17", BREACH + EXAMINED),
        done("enter 17", "entered 1 to 1\n", HOURS_HEAD + b"2024-03-04 17:00,2024-03-05 00:00,rest\n"),
        done("breaches 17", BREACH + "EXAMINED TO 2024-03-05 08:00 unknown\n"),
        done("enter 17", "entered 2 to 3\n", MORNING),
        done("owed 17", "EXAMINED TO 2024-03-05 12:00 unknown\n"),
        done("withdraw 17 2", "withdrawn 2\n"),
        done("breaches 17", BREACH + "EXAMINED TO 2024-03-05 08:00 unknown\n"),
        done("base 17 2024-03-11", "base 2024-03-11\n"),
        done("breaches 17", "EXAMINED TO 2024-03-11 00:00 unknown\n"),
        done("owed 17", "EXAMINED TO 2024-03-11 00:00 unknown\n"),
        done("base 17 2024-03-04", "base 2024-03-04\n"),
        done("withdraw 17 1", "withdrawn 1\n"),
        done("breaches 17", BREACH + EXAMINED),
        done("sheet 17 2024-04", APRIL),
    ],
    "a forecast": [
        done("ahead 17 2024-03-09 08:00", NOTHING_AHEAD),
        ADDED,
        done("ahead 17 2024-03-05 09:00", f"FROM 2024-03-04\n{EXAMINED}NOT EXAMINED 2024-03-04 17:00 2024-03-05 08:00\n"),
        done("ahead 17 2099-12-31 23:59", f"FROM 2024-03-04\n{EXAMINED}NOT EXAMINED 2024-03-04 17:00 2024-03-05 08:00\n"),
        done("enter 17", "entered 1 to 1\n", HOURS_HEAD + b"2024-03-04 17:00,2024-03-05 00:00,rest\n"),
        done("ahead 17 2024-03-05 09:00", AHEAD),
        refused("ahead 17 2099-12-31 23:59", "Z3 out of range"),
        refused("ahead 18 2024-03-05 09:00", "S4 unknown driver"),
        done("withdraw 17 1", "withdrawn 1\n"),
        done("base 17 2024-03-11", "base 2024-03-11\n"),
        done(
            "ahead 17 2024-03-05 09:00",
            "FROM 2024-03-11\nEXAMINED TO 2024-03-11 00:00 unknown\nSTART 2024-03-11 00:00\nREST SINCE -\n"
            "DAY SINCE 2024-03-11 00:00\nREDUCED 0\nEXTENDED 0\nDRIVEN 2024-03-04 0:00\nDRIVEN 2024-03-11 0:00\n"
            "B1 Art 7 until 2024-03-11 04:30 left 4:30\nB2 Art 8(2) until 2024-03-11 15:00 left 15:00\n"
            "B4 Art 6(1) until 2024-03-11 10:00 left 10:00\nB6 Art 6(2) until 2024-03-13 08:00 left 56:00\n"
            "B7 Art 6(3) until 2024-03-14 18:00 left 90:00\nB8 Art 8(6) until 2024-03-17 00:00 left 144:00\n"
            "B9 Art 8(6) until 2024-03-18 00:00 left 168:00\n",
        ),
    ],
    "how all drivers stand": [
        done("standing 2024-03", STANDING_HEAD + STANDING_ANNA),
        ADDED,
        done("standing 2024-02", STANDING_HEAD + STANDING_DAY.format(0, 0)),
        done("standing 2024-03", STANDING_HEAD + STANDING_DAY.format(0, 1)),
        done("standing 2024-04", STANDING_HEAD + STANDING_DAY.format(1, 0)),
        done("standing 2024-05", STANDING_HEAD + STANDING_DAY.format(0, 0)),
        done("standing 2000-01", STANDING_HEAD + STANDING_DAY.format(0, 0)),
        done("standing 2099-12", STANDING_HEAD + STANDING_DAY.format(0, 0)),
        done("register", "registered 18\n", BERT),
        done("register", "registered 9\n", CARL),
        done("standing 2024-03", STANDING_HEAD + STANDING_CARL + STANDING_DAY.format(0, 1) + STANDING_BERT),
        done("enter 17", "entered 1 to 1\n", FREE_DAYS),
        done(
            "standing 2024-03",
            f"{STANDING_HEAD}{STANDING_CARL}"
            f"17,Anna Berg,1,2024-03-11 00:00,2024-03-04 17:00,unknown,2,5700,2024-03-04 17:00,0,1,0,0,\n{STANDING_BERT}",
        ),
        done("base 17 2024-03-11", "base 2024-03-11\n"),
        done("standing 2024-03", f"{STANDING_HEAD}{STANDING_CARL}17,Anna Berg,1,,2024-03-11 00:00,unknown,0,0,,0,0,0,0,\n{STANDING_BERT}"),
        done("base 17 2024-02-26", "base 2024-02-26\n"),
        done(
            "standing 2024-04",
            f"{STANDING_HEAD}{STANDING_CARL}"
            f"17,Anna Berg,1,2024-03-11 00:00,2024-03-04 17:00,unknown,3,15780,2024-02-26 00:00,1,0,0,0,\n{STANDING_BERT}",
        ),
        refused("standing 2024-3", "Z1 not of the shape"),
        refused("standing 2024-03-05", "Z1 not of the shape"),
        refused("standing 17", "Z1 not of the shape"),
        refused("standing 2024-00", "Z2 no such date"),
        refused("standing 2100-13", "Z2 no such date"),
        refused("standing 1999-12", "Z3 out of range"),
        refused("standing 2100-01", "Z3 out of range"),
    ],
    "how a second driver stands": [
        done("import both", "added driver 17 number 1\n", CREW_DAY),
        done("standing 2024-03", f"{STANDING_HEAD}17,Anna Berg,1,2024-03-05 08:00,2024-03-04 08:30,crew,1,420,2024-03-04 17:00,0,0,0,0,\n"),
        done("forecast 2024-03-05 09:00", f"{FORECAST_HEAD}17,Anna Berg,2024-03-04,2024-03-05 08:00{14 * ','}\n"),
    ],
    "breaches of two months": [
        done("base 17 2024-02-05", "base 2024-02-05\n"),
        done("enter 17", "entered 1 to 6\n", TWO_MONTHS),
        *[
            done(
                f"standing {month}",
                f"{STANDING_HEAD}17,Anna Berg,0,2024-03-04 15:48,2024-03-04 15:48,unknown,1,39689,2024-02-05 10:31,{counts},0,0,\n",
            )
            for month, counts in [("2024-01", "0,0"), ("2024-02", "0,1"), ("2024-03", "1,2"), ("2024-04", "2,0"), ("2024-05", "0,0")]
        ],
        done("base 17 2023-12-25", "base 2023-12-25\n"),
        done("withdraw 17 1", "withdrawn 1\n"),
        done("enter 17", "entered 7 to 8\n", hours("2023-12-25 00:00,2023-12-25 06:00,rest", "2023-12-25 06:00,2023-12-25 10:31,drive")),
        *[
            done(
                f"standing {month}",
                f"{STANDING_HEAD}17,Anna Berg,0,2024-03-04 15:48,2024-03-04 15:48,unknown,2,99898,2023-12-25 10:31,{counts},0,0,\n",
            )
            for month, counts in [("2023-12", "0,1"), ("2024-01", "1,0"), ("2024-02", "0,0"), ("2024-03", "0,2")]
        ],
    ],
    "the first months": [
        done("base 17 2000-01-03", "base 2000-01-03\n"),
        done("enter 17", "entered 1 to 2\n", hours("2000-01-03 00:00,2000-01-03 06:00,rest", "2000-01-03 06:00,2000-01-03 10:31,drive")),
        *[
            done(f"standing {month}", f"{STANDING_HEAD}17,Anna Berg,0,2000-01-03 10:31,2000-01-03 10:31,unknown,0,0,,{counts},0,0,\n")
            for month, counts in [("2000-01", "0,1"), ("2000-02", "1,0")]
        ],
    ],
    "what all drivers owe": [
        done("enter 17", "entered 1 to 52\n", example("a debt is due in a minute")),
        *[
            done(
                f"standing {month}",
                f"{STANDING_HEAD}17,Anna Berg,0,2024-03-31 23:59,2024-03-31 23:59,unknown,0,0,,0,0,1,1260,2024-04-01 00:00\n",
            )
            for month in ["2024-03", "2024-04"]
        ],
        done("enter 17", "entered 53 to 53\n", hours("2024-03-31 23:59,2024-04-01 00:00,work")),
        *[
            done(f"standing {month}", f"{STANDING_HEAD}17,Anna Berg,0,2024-04-01 00:00,2024-04-01 00:00,unknown,0,0,,{counts},0,0,\n")
            for month, counts in [("2024-03", "0,0"), ("2024-04", "0,1"), ("2024-05", "1,0")]
        ],
    ],
    "two weeks that owe": [
        done("enter 17", "entered 1 to 30\n", rested([*rules.SHORT_WEEK, *later(1, rules.SHORT_WEEK), *rules.work([18], "06:00-07:00")])),
        done(
            "standing 2024-03",
            f"{STANDING_HEAD}17,Anna Berg,0,2024-03-18 07:00,2024-03-18 07:00,unknown,0,0,,0,0,2,2520,2024-04-01 00:00\n",
        ),
        done("enter 17", "entered 31 to 31\n", hours("2024-03-25 00:00,2024-03-25 06:00,rest")),
        done(
            "standing 2024-03",
            f"{STANDING_HEAD}17,Anna Berg,0,2024-03-25 06:00,2024-03-25 06:00,unknown,1,9660,2024-03-18 07:00,0,0,0,0,\n",
        ),
    ],
    "what is owed after 2099": [
        done("base 17 2099-12-14", "base 2099-12-14\n"),
        done("enter 17", "entered 1 to 16\n", rested([*rules.SHORT_WEEK, *rules.work([11], "06:00-07:00")], TO_LAST_MONTH)),
        done(
            "standing 2099-12",
            f"{STANDING_HEAD}17,Anna Berg,0,2099-12-21 07:00,2099-12-21 07:00,unknown,0,0,,0,0,1,1260,2100-01-11 00:00\n",
        ),
        done("forecast 2099-12-31 23:59", f"{FORECAST_HEAD}17,Anna Berg,2099-12-14,2099-12-21 07:00{14 * ','}\n"),
    ],
    "the forecast for all drivers": [
        done(
            "forecast 2024-03-09 08:00",
            f"{FORECAST_HEAD}17,Anna Berg,2024-03-04,,2024-03-09 08:00,2024-03-09 12:30,2024-03-09 23:00,,2024-03-09 18:00,,,,"
            "2024-03-15 08:00,2024-03-17 23:59,0,0,0,0\n",
        ),
        ADDED,
        *[
            done(f"forecast {minute}", f"{FORECAST_HEAD}17,Anna Berg,2024-03-04,2024-03-05 08:00{14 * ','}\n")
            for minute in ["2000-01-03 00:00", "2024-03-05 09:00", "2099-12-31 23:59"]
        ],
        done("enter 17", "entered 1 to 1\n", REST_OF_DAY),
        done("register", "registered 18\n", BERT),
        done("register", "registered 9\n", CARL),
        done(
            "forecast 2024-03-05 09:00",
            f"{FORECAST_HEAD}9,Carl Ek,2024-03-04,,2024-03-05 09:00,2024-03-05 13:30,2024-03-06 00:00,,2024-03-05 19:00,,2024-03-07 17:00,"
            "2024-03-09 03:00,2024-03-11 09:00,2024-03-17 23:59,0,0,0,0\n"
            "17,Anna Berg,2024-03-04,2024-03-05 08:00,2024-03-05 09:00,2024-03-05 13:30,2024-03-06 00:00,,2024-03-05 19:00,,"
            "2024-03-07 08:30,2024-03-08 18:30,2024-03-10 08:00,2024-03-17 23:59,0,0,0,510\n"
            "18,Bert,2024-02-05,,2024-03-05 09:00,2024-03-05 13:30,2024-03-06 00:00,,2024-03-05 19:00,,2024-03-07 17:00,"
            "2024-03-09 03:00,2024-03-11 09:00,2024-03-17 23:59,0,0,0,0\n",
        ),
        done(
            "forecast 2099-10-29 13:00",
            f"{FORECAST_HEAD}9,Carl Ek,2024-03-04,{14 * ','}\n17,Anna Berg,2024-03-04,2024-03-05 08:00{14 * ','}\n"
            f"18,Bert,2024-02-05,{14 * ','}\n",
        ),
        *[refused(f"forecast {minute}", "Z1 not of the shape") for minute in NO_MINUTES],
        *[refused(f"forecast {minute}", "Z2 no such date") for minute in NOT_THERE],
        *[refused(f"forecast {minute}", "Z3 out of range") for minute in ["2000-01-02 23:59", "2100-01-01 00:00"]],
    ],
    "all limits": [
        done("enter 17", "entered 1 to 16\n", rested(THREE_LONG_DAYS)),
        done("enter 17", "entered 17 to 17\n", NIGHT),
        done(
            "forecast 2024-03-07 06:00",
            f"{FORECAST_HEAD}17,Anna Berg,2024-03-04,2024-03-07 06:00,2024-03-07 06:00,2024-03-07 10:30,2024-03-07 21:00,2024-03-07 19:00,"
            "2024-03-07 16:00,2024-03-07 15:00,2024-03-08 19:58,2024-03-10 05:58,2024-03-10 06:00,2024-03-17 23:59,3,2,0,1082\n",
        ),
        done(
            "forecast 2024-03-11 06:00",
            f"{FORECAST_HEAD}17,Anna Berg,2024-03-04,2024-03-07 06:00,2024-03-11 06:00,2024-03-11 10:30,2024-03-11 21:00,,"
            "2024-03-11 16:00,,2024-03-13 14:00,2024-03-14 05:58,2024-03-17 06:00,2024-03-24 23:59,0,0,1082,0\n",
        ),
    ],
    "the last forecasts": [
        done("base 17 2024-03-11", "base 2024-03-11\n"),
        done(
            "forecast 2024-03-05 09:00",
            f"{FORECAST_HEAD}17,Anna Berg,2024-03-11,,2024-03-11 00:00,2024-03-11 04:30,2024-03-11 15:00,,2024-03-11 10:00,,"
            "2024-03-13 08:00,2024-03-14 18:00,2024-03-17 00:00,2024-03-18 00:00,0,0,0,0\n",
        ),
        done("base 17 2099-10-26", "base 2099-10-26\n"),
        done(
            "forecast 2099-10-29 12:59",
            f"{FORECAST_HEAD}17,Anna Berg,2099-10-26,,2099-10-29 12:59,2099-10-29 17:29,2099-10-30 03:59,,2099-10-29 22:59,,"
            "2099-10-31 20:59,,2099-11-04 12:59,2099-11-08 23:59,0,0,0,0\n",
        ),
        done("forecast 2099-10-29 13:00", f"{FORECAST_HEAD}17,Anna Berg,2099-10-26,{14 * ','}\n"),
        done("standing 2099-10", f"{STANDING_HEAD}17,Anna Berg,0,,2099-10-26 00:00,unknown,0,0,,0,0,0,0,\n"),
    ],
    "two Mondays": [
        done("stretches 17", f"FROM 2024-03-04\n{UNEXAMINED}"),
        done("form 17", SIGNED_HEAD),
        done("enter 17", "entered 1 to 5\n", TWO_MONDAYS),
        done("stretches 17", f"FROM 2024-03-04\n{BREACH}{EXAMINED}{UNSEEN}{SECOND}"),
        done("debts 17", f"FROM 2024-03-04\n{EXAMINED}{UNSEEN}{SECOND}"),
        done("overview 2024-03", f"{OVERVIEW_HEAD}17,Anna Berg,900,0,30,750,0,42960,1680,1,0,0,0,0,0,0,0,0,0\n"),
        done("incidents 2024-03", f"{INCIDENT_HEAD}17,Anna Berg,B1,Art 7,2024-03-04 13:00,2024-03-04 08:30,240\n"),
        done("form 17", SIGNED_HEAD + b"2024-03-04 17:00,2024-03-11 00:00,,,\n"),
        done("overview 2024-02", f"{OVERVIEW_HEAD}17,Anna Berg,0,0,0,0,0,41760,0,0,0,0,0,0,0,0,0,0,0\n"),
        done("incidents 2024-02", INCIDENT_HEAD),
        refused("enter 17", "E6 no such activity in row 2", SIGNED_HEAD + b"2024-03-04 17:00,2024-03-11 00:00,,,\n"),
        refused("enter 17", "E10 bad author in row 2", SIGNED_HEAD + b"2024-03-04 17:00,2024-03-11 00:00,rest,,\n"),
        done("enter 17", "entered 6 to 6\n", SIGNED_HEAD + b"2024-03-04 17:00,2024-03-11 00:00,rest,Eva Lund,\n"),
        done("form 17", SIGNED_HEAD),
        done("stretches 17", f"FROM 2024-03-04\n{BREACH}EXAMINED TO 2024-03-11 11:00 unknown\n"),
        refused("stretches 017", "N1 bad number"),
        refused("debts 1000000", "N1 bad number"),
        refused("form 0", "N1 bad number"),
        refused("stretches 18", "S4 unknown driver"),
        refused("debts 18", "S4 unknown driver"),
        refused("form 18", "S4 unknown driver"),
        refused("overview 2024-3", "Z1 not of the shape"),
        refused("overview 2024-13", "Z2 no such date"),
        refused("incidents 1999-12", "Z3 out of range"),
    ],
    "a form to a day": [
        *[done(f"form 17 {date}", SIGNED_HEAD) for date in ["2000-01-03", "2024-03-04", "2024-03-05", "2099-12-31"]],
        ADDED,
        done("enter 17", "entered 1 to 1\n", FREE_DAYS),
        *[done(f"form 17{date}", SIGNED_HEAD + FIRST_GAP + SECOND_GAP) for date in ["", " "]],
        *[done(f"form 17 {date}", SIGNED_HEAD) for date in ["2000-01-03", "2024-03-03", "2024-03-04"]],
        done("form 17 2024-03-05", SIGNED_HEAD + FIRST_GAP),
        done("form 17 2024-03-06", SIGNED_HEAD + FIRST_GAP + CUT_GAP),
        *[
            done(f"form 17 {date}", SIGNED_HEAD + FIRST_GAP + SECOND_GAP)
            for date in ["2024-03-09", "2024-03-10", "2024-03-11", "2024-03-12", "2099-12-31"]
        ],
        done("enter 17", "entered 2 to 3\n", (SIGNED_HEAD + FIRST_GAP + CUT_GAP).replace(b",,,", b",rest,Eva Lund,")),
        done("form 17 2024-03-06", SIGNED_HEAD),
        done("form 17 2024-03-07", SIGNED_HEAD + b"2024-03-06 00:00,2024-03-07 00:00,,,\n"),
        done("form 17", SIGNED_HEAD + b"2024-03-06 00:00,2024-03-09 00:00,,,\n"),
        done("withdraw 17 2 3", "withdrawn 2 to 3\n"),
        done("form 17 2024-03-06", SIGNED_HEAD + FIRST_GAP + CUT_GAP),
        *[refused(f"form 17 {date}", "Z1 not of the shape") for date in ["2024-03", "2024-3-4", "2024-03-04T12:00", "17", "x"]],
        *[refused(f"form 17 {date}", "Z2 no such date") for date in ["2024-02-30", "2023-02-29", "2100-02-30", "2024-13-01"]],
        *[refused(f"form 17 {date}", "Z3 out of range") for date in ["2000-01-02", "1999-12-31", "2100-01-01"]],
        refused("form 017 2024-02-30", "N1 bad number"),
        refused("form  2024-02-30", "N1 bad number"),
        refused("form 18 2024-02-30", "Z2 no such date"),
        *[refused(f"form 18{date}", "S4 unknown driver") for date in [" 2024-03-05", " "]],
    ],
    "a form to a day by the base": [
        ADDED,
        done("enter 17", "entered 1 to 1\n", FREE_DAYS),
        done("base 17 2024-03-11", "base 2024-03-11\n"),
        *[done(f"form 17 {date}", SIGNED_HEAD) for date in ["2024-03-06", "2024-03-11", "2024-03-12", "2024-03-20"]],
        done("base 17 2020-01-06", "base 2020-01-06\n"),
        *[done(f"form 17 {date}", SIGNED_HEAD) for date in ["2020-01-05", "2020-01-06"]],
        done("form 17 2020-01-07", SIGNED_HEAD + b"2020-01-06 00:00,2020-01-07 00:00,,,\n"),
        done("form 17 2021-01-05", SIGNED_HEAD + b"2020-01-06 00:00,2021-01-05 00:00,,,\n"),
        done("form 17 2021-01-06", SIGNED_HEAD + YEARS[0]),
        done("form 17 2021-01-07", SIGNED_HEAD + YEARS[0] + b"2021-01-06 00:00,2021-01-07 00:00,,,\n"),
        done("form 17 2024-03-04", SIGNED_HEAD + b"".join(YEARS)),
        done("form 17 2024-03-06", SIGNED_HEAD + b"".join(YEARS) + FIRST_GAP + CUT_GAP),
        done("form 17", SIGNED_HEAD + b"".join(YEARS) + FIRST_GAP + SECOND_GAP),
    ],
    "a form to the last day": [
        done("base 17 2099-12-28", "base 2099-12-28\n"),
        done("enter 17", "entered 1 to 1\n", hours("2099-12-31 23:58,2099-12-31 23:59,rest")),
        done("form 17", SIGNED_HEAD + b"2099-12-28 00:00,2099-12-31 23:58,,,\n"),
        done("form 17 2099-12-31", SIGNED_HEAD + b"2099-12-28 00:00,2099-12-31 00:00,,,\n"),
        done("form 17 2099-12-30", SIGNED_HEAD + b"2099-12-28 00:00,2099-12-30 00:00,,,\n"),
    ],
    "a handover": [
        done(f"handover 17 {MARCH_DAYS}", handed(MARCH_DAYS, anna("Anna Berg"), [], gaps=["2024-03-01 00:00 2024-04-01 00:00"])),
        ADDED,
        done(f"handover 17 {MARCH_DAYS}", handed(MARCH_DAYS, with_counts(1, 0), [(DAY_NAME, DAY)], gaps=DAY_GAPS)),
        *[
            done(f"handover 17 {period}", handed(period, with_counts(1, 0), [(DAY_NAME, DAY)], gaps=gaps))
            for period, gaps in {
                "2024-03-04 2024-03-05": ["2024-03-04 17:00 2024-03-05 00:00"],
                "2024-03-05 2024-03-06": ["2024-03-05 08:00 2024-03-06 00:00"],
                "2024-03-04 2024-03-06": ["2024-03-04 17:00 2024-03-05 00:00", "2024-03-05 08:00 2024-03-06 00:00"],
                "2024-03-03 2024-03-05": ["2024-03-03 00:00 2024-03-04 00:00", "2024-03-04 17:00 2024-03-05 00:00"],
                "2024-01-01 2025-01-01": ["2024-01-01 00:00 2024-03-04 00:00", DAY_GAPS[1], "2024-03-05 08:00 2025-01-01 00:00"],
                "2023-03-05 2024-03-05": ["2023-03-05 00:00 2024-03-04 00:00", "2024-03-04 17:00 2024-03-05 00:00"],
            }.items()
        ],
        *[
            done(f"handover 17 {period}", handed(period, with_counts(1, 0), [], gaps=[gap]))
            for period, gap in {
                "2024-03-01 2024-03-04": "2024-03-01 00:00 2024-03-04 00:00",
                "2024-03-06 2024-03-07": "2024-03-06 00:00 2024-03-07 00:00",
                "2000-01-03 2000-01-04": "2000-01-03 00:00 2000-01-04 00:00",
                "2099-12-30 2099-12-31": "2099-12-30 00:00 2099-12-31 00:00",
                "2022-12-31 2024-01-01": "2022-12-31 00:00 2024-01-01 00:00",
            }.items()
        ],
        done("name 17", "name 17\n", "Zo\u00eb A".encode()),
        done("base 17 2024-03-11", "base 2024-03-11\n"),
        done(
            f"handover 17 {MARCH_DAYS}",
            handed(MARCH_DAYS, f"17 {HOLDER} 2024-03-11 1 0 Zo\u00eb A\n", [(DAY_NAME, DAY)], gaps=DAY_GAPS),
        ),
        done("file 17 1", DAY),
    ],
    "periods that are none": [
        *[refused(f"handover {number} 2024-3-1 x", "N1 bad number") for number in ["017", "0", "1000000", "+17", ""]],
        *[
            refused(f"handover 17 {period}", "Z1 not of the shape")
            for period in [
                "2024-3-1 2024-02-30", "2024-03 2024-04-01", "2024-03-01T00:00 2024-04-01", " 2024-04-01", "x 2100-01-01",
                "2024-03-01 2024-4-1", "2024-03-01 2024-04", "2024-03-01 ", "2024-04-01 2024-3-1", "2024-03-01 2024-04-01T00:00",
            ]
        ],
        *[
            refused(f"handover 17 {period}", "Z2 no such date")
            for period in [
                "2024-02-30 2024-3-1", "2023-02-29 2024-01-01", "2100-02-30 1999-12-31", "2024-03-01 2024-03-32", "2024-03-01 2100-02-29",
            ]
        ],
        *[
            refused(f"handover 17 {period}", "Z3 out of range")
            for period in [
                "2000-01-02 2024-02-30", "2000-01-02 2000-01-03", "2100-01-01 2024-3-1", "2024-03-01 2100-01-01", "2099-12-31 2100-01-01",
                "2024-03-01 2000-01-02", "1999-12-31 1999-12-31",
            ]
        ],
        *[
            refused(f"handover {number} {period}", "Z4 period")
            for number in [17, 18]
            for period in [
                "2024-03-01 2024-03-01", "2024-03-02 2024-03-01", "2024-01-01 2025-01-02", "2023-01-01 2024-01-03", "2099-12-31 2099-12-31",
                "2000-01-03 2099-12-31", "2099-12-31 2000-01-03", "2022-12-31 2024-01-02",
            ]
        ],
        *[
            refused(f"handover 18 {period}", "S4 unknown driver")
            for period in [MARCH_DAYS, "2024-01-01 2025-01-01", "2099-12-30 2099-12-31"]
        ],
        done(f"handover 17 {MARCH_DAYS}", handed(MARCH_DAYS, anna("Anna Berg"), [], gaps=["2024-03-01 00:00 2024-04-01 00:00"])),
    ],
    "files that cover a period": [
        done("import both", "added driver 17 number 1\n", MONDAY),
        done("import both", "added driver 17 number 2\n", TO_TUESDAY),
        done("import both", "added driver 17 number 3\n", TO_WEDNESDAY),
        *[
            done(f"handover 17 {period}", handed(period, with_counts(3, 0), [OF_THREE_DAYS[number] for number in numbers], gaps=gaps))
            for period, numbers, gaps in [
                ("2024-03-04 2024-03-07", [3, 2], ["2024-03-06 05:00 2024-03-07 00:00"]),
                ("2024-03-04 2024-03-06", [3, 2], []),
                ("2024-03-04 2024-03-05", [2], []),
                ("2024-03-05 2024-03-06", [3], []),
                ("2024-03-05 2024-03-07", [3], ["2024-03-06 05:00 2024-03-07 00:00"]),
                ("2024-03-06 2024-03-08", [3], ["2024-03-06 05:00 2024-03-08 00:00"]),
                ("2024-03-07 2024-03-08", [], ["2024-03-07 00:00 2024-03-08 00:00"]),
            ]
        ],
        done("import both", "repeated driver 17\n", MONDAY),
        done("import both", "added driver 17 number 4\n", SATURDAY),
        done(
            "handover 17 2024-03-03 2024-03-10",
            handed(
                "2024-03-03 2024-03-10", with_counts(4, 0),
                [("4-D1234567890123-20240309-20240309.ddd", SATURDAY), OF_THREE_DAYS[3], OF_THREE_DAYS[2]],
                gaps=["2024-03-03 00:00 2024-03-04 00:00", "2024-03-06 05:00 2024-03-09 00:00", "2024-03-09 10:00 2024-03-10 00:00"],
            ),
        ),
    ],
    "a file for one minute": [
        done("import both", "added driver 17 number 1\n", WHOLE_REST),
        done("import both", "added driver 17 number 2\n", SECOND_MINUTE),
        *[
            done(
                f"handover 17 {period}",
                handed(
                    period, with_counts(2, 0),
                    [("2-D1234567890123-20240304-20240304.ddd", SECOND_MINUTE), ("1-D1234567890123-20240304-20240304.ddd", WHOLE_REST)],
                    gaps=gaps,
                ),
            )
            for period, gaps in {
                "2024-03-04 2024-03-05": ["2024-03-04 09:00 2024-03-05 00:00"],
                "2024-03-03 2024-03-06": ["2024-03-03 00:00 2024-03-04 00:00", "2024-03-04 09:00 2024-03-06 00:00"],
            }.items()
        ],
    ],
    "a file by its parts": [
        done("import first", "added driver 17 number 1\n", GENERATIONS),
        done(
            "handover 17 2024-03-04 2024-03-06",
            handed(
                "2024-03-04 2024-03-06", with_counts(1, 0), [("1-D1234567890123-20240304-20240304.ddd", GENERATIONS)],
                gaps=["2024-03-04 06:00 2024-03-06 00:00"],
            ),
        ),
        done(
            "handover 17 2024-03-05 2024-03-06",
            handed("2024-03-05 2024-03-06", with_counts(1, 0), [], gaps=["2024-03-05 00:00 2024-03-06 00:00"]),
        ),
        done("import second", "added driver 17 number 2\n", GENERATIONS),
        done(
            "handover 17 2024-03-04 2024-03-06",
            handed(
                "2024-03-04 2024-03-06", with_counts(2, 0),
                [("2-D1234567890123-20240305-20240305.ddd", GENERATIONS), ("1-D1234567890123-20240304-20240304.ddd", GENERATIONS)],
                gaps=["2024-03-04 06:00 2024-03-05 00:00", "2024-03-05 07:00 2024-03-06 00:00"],
            ),
        ),
        done("import both", "repeated driver 17\n", GENERATIONS),
        done(
            "handover 17 2024-03-04 2024-03-05",
            handed(
                "2024-03-04 2024-03-05", with_counts(2, 0), [("1-D1234567890123-20240304-20240304.ddd", GENERATIONS)],
                gaps=["2024-03-04 06:00 2024-03-05 00:00"],
            ),
        ),
    ],
    "a file by both its parts": [
        done("import second", "added driver 17 number 1\n", GENERATIONS),
        done("import both", "added driver 17 number 2\n", GENERATIONS),
        *[
            done(
                f"handover 17 {period}",
                handed(period, with_counts(2, 0), [("2-D1234567890123-20240304-20240305.ddd", GENERATIONS)], gaps=gaps),
            )
            for period, gaps in {
                "2024-03-04 2024-03-06": ["2024-03-04 06:00 2024-03-05 00:00", "2024-03-05 07:00 2024-03-06 00:00"],
                "2024-03-05 2024-03-06": ["2024-03-05 07:00 2024-03-06 00:00"],
            }.items()
        ],
    ],
    "entries of a period": [
        done("enter 17", "entered 1 to 2\n", hours("2024-03-07 00:00,2024-03-09 00:00,rest", "2024-03-11 00:00,2024-03-12 00:00,rest")),
        done(f"handover 17 {DAYS_9_10}", handed(DAYS_9_10, with_counts(0, 2), [], gaps=["2024-03-09 00:00 2024-03-11 00:00"])),
        done("enter 17", "entered 3 to 4\n", hours("2024-03-08 12:00,2024-03-09 00:01,rest", "2024-03-10 23:59,2024-03-11 00:01,rest")),
        done(
            f"handover 17 {DAYS_9_10}",
            handed(DAYS_9_10, with_counts(0, 4), [], "".join(EDGES), ["2024-03-09 00:01 2024-03-10 23:59"]),
        ),
        done("enter 17", "entered 5 to 5\n", hours("2024-03-09 12:00,2024-03-09 13:00,work,Zo\u00eb,by hand; 'late'", head=SIGNED_HEAD)),
        done(
            f"handover 17 {DAYS_9_10}",
            handed(
                DAYS_9_10, with_counts(0, 5), [], "".join([*EDGES, AT_NOON.format("kept")]),
                ["2024-03-09 00:01 2024-03-09 12:00", "2024-03-09 13:00 2024-03-10 23:59"],
            ),
        ),
        done("withdraw 17 5", "withdrawn 5\n"),
        done(
            f"handover 17 {DAYS_9_10}",
            handed(DAYS_9_10, with_counts(0, 5), [], "".join([*EDGES, AT_NOON.format("withdrawn")]), ["2024-03-09 00:01 2024-03-10 23:59"]),
        ),
        done("enter 17", "entered 6 to 6\n", hours("2024-03-01 00:00,2024-03-20 00:00,rest")),
        done("withdraw 17 3 4", "withdrawn 3 to 4\n"),
        done(
            f"handover 17 {DAYS_9_10}",
            handed(
                DAYS_9_10, with_counts(0, 6), [],
                "".join([*(line.replace("kept", "withdrawn") for line in EDGES), AT_NOON.format("withdrawn"), AROUND]),
            ),
        ),
        done("withdraw 17 1 2", "withdrawn 1 to 2\n"),
        done("withdraw 17 6 6", "withdrawn 6 to 6\n"),
        done(
            "handover 17 2024-03-12 2024-03-13",
            handed(
                "2024-03-12 2024-03-13", with_counts(0, 6), [], AROUND.replace("kept", "withdrawn"), ["2024-03-12 00:00 2024-03-13 00:00"],
            ),
        ),
        done(
            "handover 17 2024-03-20 2024-03-21",
            handed("2024-03-20 2024-03-21", with_counts(0, 6), [], gaps=["2024-03-20 00:00 2024-03-21 00:00"]),
        ),
    ],
    "files and entries of a period": [
        ADDED,
        done("enter 17", "entered 1 to 2\n", DRIVEN),
        done("enter 17", "entered 3 to 3\n", REST_OF_DAY),
        done(
            "handover 17 2024-03-04 2024-03-06",
            handed(
                "2024-03-04 2024-03-06", with_counts(1, 3), [(DAY_NAME, DAY)],
                '1 2024-03-04 08:00 2024-03-04 08:30 work kept "office" ""\n'
                '2 2024-03-04 08:30 2024-03-04 17:00 drive kept "office" ""\n'
                '3 2024-03-04 17:00 2024-03-05 00:00 rest kept "office" ""\n',
                ["2024-03-05 08:00 2024-03-06 00:00"],
            ),
        ),
        done("withdraw 17 2 3", "withdrawn 2 to 3\n"),
        done(
            "handover 17 2024-03-04 2024-03-05",
            handed(
                "2024-03-04 2024-03-05", with_counts(1, 3), [(DAY_NAME, DAY)],
                '1 2024-03-04 08:00 2024-03-04 08:30 work kept "office" ""\n'
                '2 2024-03-04 08:30 2024-03-04 17:00 drive withdrawn "office" ""\n'
                '3 2024-03-04 17:00 2024-03-05 00:00 rest withdrawn "office" ""\n',
                ["2024-03-04 17:00 2024-03-05 00:00"],
            ),
        ),
    ],
    "a holder of other signs": [
        done("register", "registered 18\n", bert("bert-key-1", SIGNS, "2024-03-04")),
        done("import both", "added driver 18 number 1\n", SIGNED_CARD),
        done("import both", "added driver 17 number 1\n", MONDAY),
        done(
            "handover 18 2024-03-04 2024-03-05",
            handed(
                "2024-03-04 2024-03-05", f"18 {SIGNS} 2024-03-04 1 0 Bert\n", [("1-D_________Az09-20240304-20240304.ddd", SIGNED_CARD)],
                gaps=["2024-03-04 06:00 2024-03-05 00:00"],
            ),
        ),
        done(
            "handover 17 2024-03-04 2024-03-05",
            handed(
                "2024-03-04 2024-03-05", with_counts(1, 0), [("1-D1234567890123-20240304-20240304.ddd", MONDAY)],
                gaps=["2024-03-04 08:00 2024-03-05 00:00"],
            ),
        ),
    ],
    "a handover of the largest file": [
        done("import both", "added driver 17 number 1\n", LARGEST_DAY),
        done(f"handover 17 {MARCH_DAYS}", handed(MARCH_DAYS, with_counts(1, 0), [(DAY_NAME, LARGEST_DAY)], gaps=DAY_GAPS)),
    ],
}

# What is carried. Of each: commands at the archive, the day from which it is carried over, the line, and rows at the new archive.
Carry = namedtuple("Carry", "before date text after")

# A card file that ends where 5 March begins, and one that goes on for a minute; and hours that do so.
TO_MIDNIGHT = card_of(data_of(0, "2024-03-04 00:00 rest 08:00 work", "2024-03-05 00:00 rest"))
BEYOND_MIDNIGHT = card_of(data_of(0, "2024-03-04 00:00 rest 08:00 work", "2024-03-05 00:00 rest 00:01 work"))
HOURS_TO_MIDNIGHT = hours("2024-03-03 12:00,2024-03-05 00:00,rest")
HOURS_BEYOND = hours("2024-03-04 08:00,2024-03-05 00:01,rest")
BEYOND_SPANS = (
    "start,past,activity,manning\n"
    "2024-03-04 00:00,2024-03-04 08:00,rest,single\n"
    "2024-03-04 08:00,2024-03-05 00:00,work,single\n"
    "2024-03-05 00:00,2024-03-05 00:01,rest,single\n"
)
OF_SECOND = "2024-03-05 00:00 2024-03-05 07:00"
OF_BOTH = "2024-03-04 00:00 2024-03-05 07:00"
WEDNESDAY_NAME = "1-D1234567890123-20240305-20240306.ddd"
FOUR_FILES = [
    done("import both", "added driver 17 number 1\n", MONDAY),
    done("import both", "added driver 17 number 2\n", TO_TUESDAY),
    done("import both", "added driver 17 number 3\n", TO_WEDNESDAY),
    done("import both", "added driver 17 number 4\n", SATURDAY),
]
NO_ANNA = [
    done("drivers", ""), *[refused(f"{word} 17", "S4 unknown driver") for word in ["drivers", "files", "entries", "breaches", "form"]],
    done("check", "sound\n"), done("standing 2024-03", STANDING_HEAD), done("register", "registered 17\n", ANNA),
]


def listed(number: int, part: str, file: bytes, minutes: str) -> str:
    """The line of a card file: its number, part, length, first minute and the one after its last, and digest."""
    return f"{number} {part} {len(file)} {minutes} {hashlib.sha256(file).hexdigest()}\n"


def of_base(base: str, date: str, wanted: str) -> Carry:
    """A driver with a base and nothing else, carried over from a day on, and the base that they then have."""
    return Carry([done(f"base 17 {base}", f"base {base}\n")], date, "carried 1 of 1 drivers\n",
                 [done("drivers", f"17 {HOLDER} {wanted} 0 0 Anna Berg\n"), done("breaches 17", f"EXAMINED TO {wanted} 00:00 unknown\n")])


CARRIES = {
    "a driver who has had nothing": Carry(
        [], "2024-03-04", "carried 1 of 1 drivers\n",
        [
            done("drivers", anna("Anna Berg")), done("files 17", ""), done("entries 17", ""), done("breaches 17", UNEXAMINED),
            done("check", "sound\n"), done("migrate", "migrated\n"), done("form 17", SIGNED_HEAD),
            refused("register", "S1 driver taken", ANNA), refused("register", "S2 key taken", BERT.replace(b"bert-key", b"anna-key")),
            refused("register", "S3 holder taken", BERT.replace(HOLDER[:-1].encode() + b"4", HOLDER.encode())),
            refused("file 17 1", "S10 unknown download"), refused("withdraw 17 1", "S7 unknown entry"),
            done("import both", "added driver 17 number 1\n", DAY), done("enter 17", "entered 1 to 1\n", FREE_DAYS),
        ],
    ),
    "a file that ends where the day begins": Carry(
        [done("import both", "added driver 17 number 1\n", TO_MIDNIGHT)], "2024-03-05", "carried 0 of 1 drivers\n",
        [*NO_ANNA, done("import both", "added driver 17 number 1\n", TO_MIDNIGHT)],
    ),
    "a file that gives the first minute of the day": Carry(
        [done("import both", "added driver 17 number 1\n", BEYOND_MIDNIGHT)], "2024-03-05", "carried 1 of 1 drivers\n",
        [
            done("drivers", with_counts(1, 0)), done("files 17", listed(1, "both", BEYOND_MIDNIGHT, "2024-03-04 00:00 2024-03-05 00:01")),
            done("file 17 1", BEYOND_MIDNIGHT), refused("file 17 2", "S10 unknown download"), done("spans 17 2024-03", BEYOND_SPANS),
            done("import both", "repeated driver 17\n", BEYOND_MIDNIGHT), done("import both", "repeated driver 17\n", TO_MIDNIGHT),
        ],
    ),
    "a file that ends on the day before": Carry(
        [done("import both", "added driver 17 number 1\n", BEYOND_MIDNIGHT)], "2024-03-06", "carried 0 of 1 drivers\n", NO_ANNA,
    ),
    "a file on the first day": Carry(
        [done("import both", "added driver 17 number 1\n", BEYOND_MIDNIGHT)], "2024-03-04", "carried 1 of 1 drivers\n",
        [done("drivers", with_counts(1, 0)), done("spans 17 2024-03", BEYOND_SPANS)],
    ),
    "hours that end where the day begins": Carry(
        [done("enter 17", "entered 1 to 1\n", HOURS_TO_MIDNIGHT)], "2024-03-05", "carried 0 of 1 drivers\n", NO_ANNA,
    ),
    "hours that end a minute after it": Carry(
        [done("enter 17", "entered 1 to 1\n", HOURS_TO_MIDNIGHT), done("enter 17", "entered 2 to 2\n", HOURS_BEYOND)],
        "2024-03-05", "carried 1 of 1 drivers\n",
        [
            done("drivers", with_counts(0, 1)),
            done("entries 17", '1 2024-03-04 08:00 2024-03-05 00:01 rest kept "office" ""\n'),
            done("spans 17 2024-03", "start,past,activity,manning\n2024-03-04 08:00,2024-03-05 00:01,rest,single\n"),
            done("withdraw 17 1", "withdrawn 1\n"), refused("withdraw 17 2", "S7 unknown entry"),
            done("enter 17", "entered 2 to 2\n", HOURS_TO_MIDNIGHT),
        ],
    ),
    "hours that are withdrawn": Carry(
        [done("enter 17", "entered 1 to 3\n", THREE_DAYS), done("withdraw 17 2", "withdrawn 2\n")],
        "2024-03-09", "carried 1 of 1 drivers\n",
        [
            done("drivers", with_counts(0, 2)),
            done("entries 17",
                 '1 2024-03-09 00:00 2024-03-10 00:00 rest kept "office" ""\n2 2024-03-11 00:00 2024-03-12 00:00 rest kept "office" ""\n'),
            done("gaps 17 2024-03",
                 "2024-03-01 00:00 2024-03-09 00:00\n2024-03-10 00:00 2024-03-11 00:00\n2024-03-12 00:00 2024-04-01 00:00\n"),
            done("enter 17", "entered 3 to 3\n", hours("2024-03-10 00:00,2024-03-11 00:00,work")),
        ],
    ),
    "all hours are withdrawn": Carry(
        [done("enter 17", "entered 1 to 1\n", FREE_DAYS), done("withdraw 17 1", "withdrawn 1\n")],
        "2024-03-04", "carried 0 of 1 drivers\n", NO_ANNA,
    ),
    "a file beside withdrawn hours": Carry(
        [ADDED, done("enter 17", "entered 1 to 1\n", FREE_DAYS), done("withdraw 17 1", "withdrawn 1\n")],
        "2024-03-05", "carried 1 of 1 drivers\n",
        [done("drivers", with_counts(1, 0)), done("entries 17", ""), done("spans 17 2024-03", SPANS)],
    ),
    "authors and notes": Carry(
        [
            done("enter 17", "entered 1 to 2\n", MORNING), done("enter 17", "entered 3 to 3\n", DAY_OFF),
            done("enter 17", "entered 4 to 4\n", DAY_OFF.replace(b"Eva Lund", "Zo\u00eb".encode()).replace(b"day off", b"a'b;c")),
        ],
        "2024-03-11", "carried 1 of 1 drivers\n",
        [
            done("drivers", f"17 {HOLDER} 2024-03-11 0 2 Anna Berg\n"),
            done("entries 17",
                 DAY_OFF_LINE.replace("2 ", "1 ", 1) + DAY_OFF_LINE.replace("Eva Lund", "Zo\u00eb").replace("day off", "a'b;c")),
        ],
    ),
    "batches in another order than their days": Carry(
        [
            done("enter 17", "entered 1 to 1\n", hours("2024-03-11 00:00,2024-03-12 00:00,rest")),
            done("enter 17", "entered 2 to 3\n", hours("2024-03-09 00:00,2024-03-10 00:00,rest", "2024-03-10 00:00,2024-03-11 00:00,work")),
            done("enter 17", "entered 4 to 4\n", hours("2024-03-11 00:00,2024-03-12 00:00,rest")),
        ],
        "2024-03-10", "carried 1 of 1 drivers\n",
        [
            done("drivers", with_counts(0, 3)),
            done("entries 17",
                 '1 2024-03-11 00:00 2024-03-12 00:00 rest kept "office" ""\n2 2024-03-10 00:00 2024-03-11 00:00 work kept "office" ""\n'
                 '3 2024-03-11 00:00 2024-03-12 00:00 rest kept "office" ""\n'),
            done("withdraw 17 1 3", "withdrawn 1 to 3\n"), refused("withdraw 17 4", "S7 unknown entry"),
            done("enter 17", "entered 4 to 4\n", FREE_DAYS),
        ],
    ),
    "a file by its parts": Carry(
        [done("import first", "added driver 17 number 1\n", GENERATIONS), done("import second", "added driver 17 number 2\n", GENERATIONS)],
        "2024-03-05", "carried 1 of 1 drivers\n",
        [
            done("files 17", listed(1, "second", GENERATIONS, OF_SECOND)), done("file 17 1", GENERATIONS),
            done("spans 17 2024-03", "start,past,activity,manning\n2024-03-05 00:00,2024-03-05 07:00,rest,single\n"),
            done("import second", "repeated driver 17\n", GENERATIONS), done("import first", "added driver 17 number 2\n", GENERATIONS),
            done("import both", "repeated driver 17\n", GENERATIONS),
        ],
    ),
    "a file by its first part": Carry(
        [done("import first", "added driver 17 number 1\n", GENERATIONS)], "2024-03-05", "carried 0 of 1 drivers\n", NO_ANNA,
    ),
    "a file by one part and by both": Carry(
        [done("import second", "added driver 17 number 1\n", GENERATIONS), done("import both", "added driver 17 number 2\n", GENERATIONS)],
        "2024-03-05", "carried 1 of 1 drivers\n",
        [done("files 17", listed(1, "second", GENERATIONS, OF_SECOND) + listed(2, "both", GENERATIONS, OF_BOTH))],
    ),
    "numbers that begin at 1 again": Carry(
        FOUR_FILES, "2024-03-06", "carried 1 of 1 drivers\n",
        [
            done("drivers", with_counts(2, 0)),
            done("files 17", listed(1, "both", TO_WEDNESDAY, "2024-03-05 00:00 2024-03-06 05:00")
                 + listed(2, "both", SATURDAY, "2024-03-09 00:00 2024-03-09 10:00")),
            done("file 17 1", TO_WEDNESDAY), done("file 17 2", SATURDAY), refused("file 17 3", "S10 unknown download"),
            done("handover 17 2024-03-06 2024-03-07",
                 handed("2024-03-06 2024-03-07", with_counts(2, 0), [(WEDNESDAY_NAME, TO_WEDNESDAY)],
                        gaps=["2024-03-06 05:00 2024-03-07 00:00"])),
            done("import both", "added driver 17 number 3\n", MONDAY), done("import both", "added driver 17 number 4\n", TO_TUESDAY),
        ],
    ),
    "files from the middle of the week on": Carry(
        FOUR_FILES, "2024-03-05", "carried 1 of 1 drivers\n",
        [
            done("drivers", with_counts(3, 0)), done("file 17 1", TO_TUESDAY), done("file 17 2", TO_WEDNESDAY), done("file 17 3", SATURDAY),
            done("import both", "repeated driver 17\n", MONDAY),
        ],
    ),
    "a base before the day's week": of_base("2020-01-06", "2024-03-13", "2024-03-11"),
    "a base in the day's week": of_base("2024-03-11", "2024-03-17", "2024-03-11"),
    "a base before a day that is a Monday": of_base("2024-03-11", "2024-03-18", "2024-03-18"),
    "a base before a day that is a Sunday": of_base("2024-02-26", "2024-03-10", "2024-03-04"),
    "a base after the day": of_base("2024-03-18", "2024-03-13", "2024-03-18"),
    "a base long after the day": of_base("2099-12-28", "2000-01-03", "2099-12-28"),
    "the first day": of_base("2000-01-03", "2000-01-03", "2000-01-03"),
    "the last day": of_base("2000-01-03", "2099-12-31", "2099-12-28"),
    "drivers who are carried and others": Carry(
        [
            done("register", "registered 18\n", BERT), done("register", "registered 9\n", CARL), ADDED,
            done("enter 9", "entered 1 to 1\n", hours("2024-03-04 08:00,2024-03-04 09:00,work")),
        ],
        "2024-03-05", "carried 2 of 3 drivers\n",
        [
            done("drivers", f"{with_counts(1, 0)}18 {HOLDER[:-1]}4 2024-03-04 0 0 Bert\n"), done("breaches 17", BREACH + EXAMINED),
            refused("entries 9", "S4 unknown driver"), refused("import both", "S4 unknown driver", OTHER_CARD),
            refused("key 17", "S2 key taken", b"bert-key-1\n"), done("key 17", "key 17\n", b"carl-key-1\n"),
            refused("register", "S2 key taken", CARL), done("key 17", "key 17\n", b"anna-key-1\n"),
            done("register", "registered 9\n", CARL),
            done("import both", "added driver 9 number 1\n", OTHER_CARD), done("name 18", "name 18\n", b"Bert Holm\n"),
            done("base 18 2024-02-05", "base 2024-02-05\n"),
        ],
    ),
    "a driver with another key and name": Carry(
        [ADDED, done("key 17", "key 17\n", b"anna-key-2\n"), done("name 17", "name 17\n", "Zo\u00eb A".encode())],
        "2024-03-04", "carried 1 of 1 drivers\n",
        [
            done("drivers", f"17 {HOLDER} 2024-03-04 1 0 Zo\u00eb A\n"), done("register", "registered 18\n", BERT),
            refused("key 18", "S2 key taken", b"anna-key-2\n"), done("key 18", "key 18\n", b"anna-key-1\n"),
        ],
    ),
    "the largest file": Carry(
        [done("import both", "added driver 17 number 1\n", LARGEST_DAY)], "2024-03-05", "carried 1 of 1 drivers\n",
        [done("file 17 1", LARGEST_DAY), done("breaches 17", BREACH + EXAMINED)],
    ),
}

# What `card` prints of a part and a file, and its status.
OF_DAY = "".join(f"{line}\n" for line in SPANS.replace(",", " ").splitlines()[1:]).encode()
CARDS = [
    ("both", DAY, (OF_DAY, 0)),
    ("first", DAY, (OF_DAY, 0)),
    ("second", DAY, (b"C6 no activity data\n", 1)),
    ("first", BOTH, (OF_DAY, 0)),
    ("both", BOTH, (b"C14 file contradicts itself at 2024-03-04 08:00\n", 1)),
    ("both", NOTHING, (b"", 0)),
    ("both", b"", (b"C3 no identification\n", 1)),
    ("both", LARGEST_DAY, (OF_DAY, 0)),
    ("both", TOO_LARGE, (b"X1 too large\n", 1)),
    ("whole", TOO_LARGE, (b"P1 bad part\n", 1)),
    ("Both", DAY, (b"P1 bad part\n", 1)),
    ("", DAY, (b"P1 bad part\n", 1)),
]
