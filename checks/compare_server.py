#!/usr/bin/env python3
"""Starts the program as a server on archives in files, gives it requests over connections of their own, and compares each reply, byte
for byte, with worked rows and with a slow server; and then the archive's tables, read by SQLite itself.

The requests are worked rows, the examples of docs/FORMATS.md, each route by the client of Python's library, and random lists. A client
keeps its own end open until the reply has come whole, and ends its half before only where the server has to wait for that. Argument: the
program; with '--slow' in its place the slow server is compared with the rows, and no program is started.
The last line is 'N passed, M failed'."""
import contextlib
import hashlib
import http.client
import io
import os
import re
import shlex
import socket
import struct
import subprocess
import sys
import tempfile
from collections import namedtuple
from typing import Any

from inputs import random_requests
from lib import counting, pools, programs, seeds
from lib.archive import of_tables, rows_at
from lib.files import DOCS, copied
from lib import advice
from lib.advice import without_any
from lib.office import WITH_ANNA, Desk
from lib.programs import version_lines
from lib.office_rows import (
    ANNA, BERT, BREACH, CARD, CUT_GAP, DAY, DAY_NAME, DAY_OFF, DAY_OFF_LINE, EXAMINED, FIRST_GAP, FORECAST_HEAD, FREE_DAYS, FREE_LINE, GAPS,
    HOLDER, HOURS_HEAD, INCIDENT_HEAD, LARGEST_DAY, LARGEST_HOURS, LIMIT, LONG_NOTE, MARCH, NO_AUTHOR, NO_NAMES, OVERVIEW_HEAD, SATURDAY,
    SECOND_GAP, SIGNED_HEAD, SPANS, STANDING_BERT, STANDING_HEAD, THREE_DAYS, UNSEEN, anna, handed, rests, with_counts,
)
from lib.server import (
    ADDED, BAD, BAD_KEY, BAD_NUMBER, BREACHES, COUNTED, CSV, DRIVER, ENDED, FORBIDDEN, HOST, LARGE_HEAD, NO_DATE, NO_LENGTH, NO_PERIOD,
    NO_PORT, NOT_FOUND, OFFICE, OTHER_METHOD, OWN, REPEATED, STORED, SVG, TAR, TEXT, TOO_LARGE, Serving, asked_of, asking, free_port, line,
    of_asked, one_of, posting, sent, server_after, told,
)
from slow import slow_server

SEEDS = seeds.tried(80)
SLOW_SEEDS = 40
PROCESSES = 2

# Worked rows: what is asked, and the replies of which one is right.

Row = namedtuple("Row", "name request replies")


def row(first, key, reply, *fields, body=b""):
    """A row whose name is its first line."""
    return Row(" ".join([first, key or "without a key", *fields]), asking(first, key, *fields, body=body), [reply])


def posted(path, key, body, reply, *fields):
    """A row with a body."""
    return Row(" ".join(["POST", path, key, *fields]), posting(path, key, body, *fields), [reply])


def raw(name, request, *replies):
    """A row of bytes."""
    return Row(name, request, list(replies))


SAME_HOLDER = BERT.replace(HOLDER[:-1].encode() + b"4", HOLDER.encode())
FERRY = FREE_DAYS.replace(b"rest", b"ferry")
OTHER_HOLDER = bytes.fromhex(CARD.replace(HOLDER, HOLDER[:-2] + "34") + "0504000010" + "00" * 16)
FIRST = b"GET /me/breaches HTTP/1.1\r\nx-key: anna-key-1\r\n"
WITH_DAY = posted("/cards/both", OFFICE, DAY, ADDED)


def fields(count):
    """The bytes of a head with a count of fields, but for the empty line at its end."""
    return FIRST + (count - 1) * b"a: b\r\n"


def padded(length, end=b"\r\n\r\n"):
    """The bytes of a head of a length."""
    return FIRST + b"x-pad:" + (length - len(FIRST) - 6 - len(end)) * b"p" + end


# What can be read of Anna, who has a file, an entry, a breach and gaps, and of Bert, who has nothing: each end of a path, and the text
# there.

WITH_ENTRY = [*WITH_ANNA, (["import", "both"], DAY), (["enter", "17"], FREE_DAYS)]
WITH_BOTH = [*WITH_ENTRY, (["register"], BERT)]
OTHER_DRIVER = "bert-key-1"
ZOE = "Zo\u00eb"
MONTH = "2024-03"


def chart_of(number):
    """The chart of a driver's month, which is too long for a row: that of the slow office."""
    text, _ = server_after(WITH_BOTH).office.answer(["chart", number, MONTH])
    return text


SHOWN = "  break - 2024-03-04 08:00 -\n  drive 2024-03-04 08:30 2024-03-04 17:00 8:30 8:30\n  break 2024-03-04 17:00 - -\n"
FORECAST = (
    "FROM 2024-02-05\nEXAMINED TO 2024-02-05 00:00 unknown\nSTART 2024-03-05 12:00\nREST SINCE -\nDAY SINCE 2024-03-05 12:00\n"
    "REDUCED 0\nEXTENDED 0\nDRIVEN 2024-02-26 0:00\nDRIVEN 2024-03-04 0:00\n"
    "B1 Art 7 until 2024-03-05 16:30 left 4:30\nB2 Art 8(2) until 2024-03-06 03:00 left 15:00\n"
    "B4 Art 6(1) until 2024-03-05 22:00 left 10:00\nB6 Art 6(2) until 2024-03-07 20:00 left 56:00\n"
    "B7 Art 6(3) until 2024-03-09 06:00 left 90:00\nB8 Art 8(6) until 2024-03-11 12:00 left 144:00\n"
    "B9 Art 8(6) until 2024-03-17 23:59 left 299:59\n"
)
MINUTE = "2024-03-05/12:00"
DATE = "2024-03-06"
PERIOD = "2024-03-04/2024-03-12"
DAYS_OF_PERIOD = PERIOD.replace("/", " ")
FREE_KEPT = FREE_LINE.replace("withdrawn", "kept")
NOT_HELD = ["2024-03-04 17:00 2024-03-05 00:00", "2024-03-05 08:00 2024-03-09 00:00", "2024-03-11 00:00 2024-03-12 00:00"]
BERT_LINE = f"18 {HOLDER[:-1]}4 2024-02-05 0 0 Bert\n"
OF_ANNA = {
    "stretches": f"FROM 2024-03-04\n{BREACH}{EXAMINED}{UNSEEN}",
    "debts": f"FROM 2024-03-04\n{EXAMINED}{UNSEEN}",
    "files": f"1 both 67 2024-03-04 00:00 2024-03-05 08:00 {hashlib.sha256(DAY).hexdigest()}\n",
    "form": SIGNED_HEAD + FIRST_GAP + SECOND_GAP,
    f"form/{DATE}": SIGNED_HEAD + FIRST_GAP + CUT_GAP,
    f"handover/{PERIOD}": handed(DAYS_OF_PERIOD, with_counts(1, 1), [(DAY_NAME, DAY)], FREE_KEPT, NOT_HELD),
    f"why/{MONTH}": BREACH + SHOWN,
    f"ahead/{MINUTE}": f"FROM 2024-03-04\n{EXAMINED}{UNSEEN}",
    f"chart/{MONTH}": chart_of("17"),
}
NOTHING_EXAMINED = "FROM 2024-02-05\nEXAMINED TO 2024-02-05 00:00 unknown\n"
OF_BERT = {
    "stretches": NOTHING_EXAMINED,
    "debts": NOTHING_EXAMINED,
    "files": "",
    "form": SIGNED_HEAD,
    f"form/{DATE}": SIGNED_HEAD,
    f"handover/{PERIOD}": handed(DAYS_OF_PERIOD, BERT_LINE, [], gaps=["2024-03-04 00:00 2024-03-12 00:00"]),
    f"why/{MONTH}": "",
    f"ahead/{MINUTE}": FORECAST,
    f"chart/{MONTH}": chart_of("18"),
}
WITH_NUMBER = [f"/drivers/17/{end}" for end in OF_ANNA]
WITHOUT_NUMBER = [f"/me/{end}" for end in OF_ANNA]

# What can be read of all drivers: each path, the text where there is no driver, Anna's line, and Bert's.
OF_ALL = {
    "/drivers": ("", with_counts(1, 1), BERT_LINE),
    f"/forecast/{MINUTE}": (
        FORECAST_HEAD,
        f"17,Anna Berg,2024-03-04,2024-03-11 00:00{14 * ','}\n",
        "18,Bert,2024-02-05,,2024-03-05 12:00,2024-03-05 16:30,2024-03-06 03:00,,2024-03-05 22:00,,2024-03-07 20:00,2024-03-09 06:00,"
        "2024-03-11 12:00,2024-03-17 23:59,0,0,0,0\n",
    ),
    f"/standing/{MONTH}": (
        STANDING_HEAD,
        "17,Anna Berg,1,2024-03-11 00:00,2024-03-04 17:00,unknown,2,5700,2024-03-04 17:00,0,1,0,0,\n",
        STANDING_BERT,
    ),
    f"/overview/{MONTH}": (
        OVERVIEW_HEAD,
        "17,Anna Berg,3840,0,30,510,0,40260,1020,1,0,0,0,0,0,0,0,0,0\n",
        "18,Bert,0,0,0,0,0,44640,0,0,0,0,0,0,0,0,0,0,0\n",
    ),
    f"/incidents/{MONTH}": (INCIDENT_HEAD, "17,Anna Berg,B1,Art 7,2024-03-04 13:00,2024-03-04 08:30,240\n", ""),
}
FOR_OFFICE = [*OF_ALL, *WITH_NUMBER]

# The types of what isn't TEXT, by a part of its path.
TYPES = {
    "/files/": STORED, "/handover/": TAR, "/chart/": SVG, "/form": CSV, "/forecast/": CSV, "/standing/": CSV, "/overview/": CSV,
    "/incidents/": CSV,
}


def type_of(path):
    """The type of what can be read at a path."""
    return next((kind for part, kind in TYPES.items() if part in path), TEXT)


def read(path, key, text):
    """A row of a text that can be read at a path."""
    body = text if isinstance(text, bytes) else text.encode()
    return row(f"GET {path}", key, told("200 OK", len(body), body, type_of(path)))


def bad_months(path, key):
    """The rows of a path's end with arguments that are no month, in the place of one."""
    faults = {"2024-3": "Z1 not of the shape", "2024-13": "Z2 no such date", "1999-12": "Z3 out of range", "2100-01": "Z3 out of range"}
    return [row(f"GET {path.replace(MONTH, text)}", key, line("400 Bad Request", len(fault) + 1, fault)) for text, fault in faults.items()]


# By the end of a path: the fault of a day.
BAD_DATES = {
    MONTH: "Z1 not of the shape", "2024-3-6": "Z1 not of the shape", "2024-03-06?all": "Z1 not of the shape", "17": "Z1 not of the shape",
    "2024-02-30": "Z2 no such date", "2100-02-30": "Z2 no such date", "2000-01-02": "Z3 out of range", "2100-01-01": "Z3 out of range",
}

# What follows `handover` in a path that isn't one, and by the end of a path the fault of a period.
NO_PERIODS = ["", "/", "/2024-03-04", "/2024-03-04/", "//2024-03-05", f"/{PERIOD}/", f"/{PERIOD}/17", "/2024/03/04", "/2024-03"]
BAD_PERIODS = {
    "2024-3-4/2024-02-30": "Z1 not of the shape", "2024-03/2024-04": "Z1 not of the shape", f"{PERIOD}?all": "Z1 not of the shape",
    "2024-03-04/12:00": "Z1 not of the shape", "2024-04-01/2024-3-1": "Z1 not of the shape", "2024-02-30/2024-3-4": "Z2 no such date",
    "2024-03-04/2024-02-30": "Z2 no such date", "2000-01-02/2024-02-30": "Z3 out of range", "2024-03-04/2100-01-01": "Z3 out of range",
    "2024-03-04/2000-01-02": "Z3 out of range", "2024-03-04/2024-03-04": "Z4 period", "2024-03-05/2024-03-04": "Z4 period",
    "2024-01-01/2025-01-02": "Z4 period", "2000-01-03/2099-12-31": "Z4 period",
}

# A forecast that goes past 2099.
NO_FORECAST = f"17,Anna Berg,2024-03-04,2024-03-11 00:00{14 * ','}\n18,Bert,2024-02-05,{14 * ','}\n"

# What follows `ahead` or `forecast` in a path that isn't one.
NO_MINUTES = ["", "/", "/2024-03-05", "/2024-03-05/", "//12:00", "/2024-03-05/12:00/", "/2024-03-05/12/00", "/2024/03/05/12:00"]

# By the end of a path: the fault of a minute.
BAD_MINUTES = {
    "2024-3-5/12:00": "Z1 not of the shape", "2024-03-05/9:00": "Z1 not of the shape", "2024-03-05/1200": "Z1 not of the shape",
    "2024-02-30/9:00": "Z1 not of the shape", "2024-03-05/12:00:00": "Z1 not of the shape", "2024-03-05/12%3A00": "Z1 not of the shape",
    "12:00/2024-03-05": "Z1 not of the shape", "2024-02-30/12:00": "Z2 no such date", "2024-03-05/24:00": "Z2 no such date",
    "2024-03-05/12:60": "Z2 no such date", "2100-02-30/12:00": "Z2 no such date", "2000-01-02/23:59": "Z3 out of range",
    "2100-01-01/00:00": "Z3 out of range",
}


def bad_minutes(path, key):
    """The rows of a path with arguments after it that are no minute."""
    return [row(f"GET {path}/{end}", key, line("400 Bad Request", len(fault) + 1, fault)) for end, fault in BAD_MINUTES.items()]


# In the archives of these rows there is no driver; in the others there is Anna.
WITHOUT_DRIVERS = "no driver"

ROWS = {
    WITHOUT_DRIVERS: [
        row("GET /drivers", OFFICE, told("200 OK", 0, "")),
        *[read(path, OFFICE, head) for path, (head, *_) in OF_ALL.items()],
        row("GET /drivers/17/stretches", OFFICE, line("404 Not Found", 18, "S4 unknown driver")),
        row("GET /drivers", DRIVER, FORBIDDEN),
    ],
    "who may read what": [
        WITH_DAY,
        posted("/drivers/17/entries", OFFICE, FREE_DAYS, line("201 Created", 15, "entered 1 to 1")),
        *[read(path, OFFICE, head + anna) for path, (head, anna, _) in OF_ALL.items()],
        posted("/drivers", OFFICE, BERT, line("201 Created", 14, "registered 18")),
        *[read(path, OFFICE, head + anna + bert) for path, (head, anna, bert) in OF_ALL.items()],
        *[read(f"/forecast/{minute}", OFFICE, FORECAST_HEAD + NO_FORECAST) for minute in ["2099-10-29/13:00", "2099-12-31/23:59"]],
        *[read(f"/drivers/17/{end}", OFFICE, text) for end, text in OF_ANNA.items()],
        *[read(f"/drivers/18/{end}", OFFICE, text) for end, text in OF_BERT.items()],
        *[read(f"/me/{end}", DRIVER, text) for end, text in OF_ANNA.items()],
        *[read(f"/me/{end}", OTHER_DRIVER, text) for end, text in OF_BERT.items()],
        *[row(f"GET {path}", key, FORBIDDEN) for path in WITHOUT_NUMBER for key in [OFFICE, "anna-key-2", None]],
        *[row(f"GET {path}", key, FORBIDDEN) for path in FOR_OFFICE for key in [DRIVER, OTHER_DRIVER, "anna-key-2", None]],
        *[row(f"GET {path}", OFFICE, FORBIDDEN, f"x-key: {DRIVER}") for path in [*FOR_OFFICE, *WITHOUT_NUMBER]],
    ],
    "another key": [
        row("GET /drivers/17/key", OFFICE, OTHER_METHOD),
        row("POST /drivers/17/key", OFFICE, NO_LENGTH),
        posted("/drivers/17/key", DRIVER, b"anna-key-2\n", FORBIDDEN),
        posted("/me/key", DRIVER, b"anna-key-2\n", NOT_FOUND),
        posted("/drivers/017/key", OFFICE, b"bad", BAD_NUMBER),
        posted("/drivers/17/key", OFFICE, b"bad", line("422 Unprocessable Entity", 21, "E9 bad value for key")),
        posted("/drivers/17/key", OFFICE, OFFICE.encode(), line("409 Conflict", 13, "S2 key taken")),
        posted("/drivers/18/key", OFFICE, f"{OFFICE}\r\n".encode(), line("409 Conflict", 13, "S2 key taken")),
        posted("/drivers/18/key", OFFICE, b"anna-key-2", line("404 Not Found", 18, "S4 unknown driver")),
        posted("/drivers/17/key", OFFICE, b"anna-key-2\n", line("200 OK", 7, "key 17")),
        row("GET /me/owed", DRIVER, FORBIDDEN),
        row("GET /me/entries", "anna-key-2", told("200 OK", 0, "")),
        posted("/drivers/17/key", OFFICE, DRIVER.encode(), line("200 OK", 7, "key 17")),
    ],
    "another name": [
        row("GET /drivers/17/name", OFFICE, OTHER_METHOD),
        row("POST /drivers/17/name", OFFICE, NO_LENGTH),
        row("POST /drivers/17/name", OFFICE, TOO_LARGE, f"{COUNTED}262145"),
        posted("/drivers/17/name", DRIVER, b"Anna Lind\n", FORBIDDEN),
        posted("/me/name", DRIVER, b"Anna Lind\n", NOT_FOUND),
        posted("/drivers/17/name/", OFFICE, b"Anna Lind\n", NOT_FOUND),
        posted("/drivers/017/name", OFFICE, b"Lind, Anna", BAD_NUMBER),
        *[posted("/drivers/17/name", OFFICE, text, line("422 Unprocessable Entity", 22, "E9 bad value for name")) for text in NO_NAMES],
        posted("/drivers/18/name", OFFICE, b"Lind, Anna", line("422 Unprocessable Entity", 22, "E9 bad value for name")),
        posted("/drivers/18/name", OFFICE, b"Anna Lind", line("404 Not Found", 18, "S4 unknown driver")),
        read("/me/driver", DRIVER, anna("Anna Berg")),
        posted("/drivers/17/name", OFFICE, f"{ZOE}\r\n".encode(), line("200 OK", 8, "name 17")),
        read("/me/driver", DRIVER, anna(ZOE)),
        posted("/drivers", OFFICE, BERT, line("201 Created", 14, "registered 18")),
        posted("/drivers/18/name", OFFICE, ZOE.encode(), line("200 OK", 8, "name 18")),
        read("/drivers", OFFICE, f"{anna(ZOE)}18 {HOLDER[:-1]}4 2024-02-05 0 0 {ZOE}\n"),
        posted("/drivers/17/name", OFFICE, b"Anna Berg", line("200 OK", 8, "name 17")),
    ],
    "ranges of entries": [
        posted("/drivers/17/entries", OFFICE, THREE_DAYS, line("201 Created", 15, "entered 1 to 3")),
        *[row(f"POST /drivers/17/withdraw/{end}", OFFICE, NOT_FOUND) for end in ["", "1/", "/1", "1/2/", "1/2/3"]],
        row("GET /drivers/17/withdraw/1/2", OFFICE, OTHER_METHOD),
        row("POST /drivers/17/withdraw/2/1", DRIVER, FORBIDDEN),
        row("POST /me/withdraw/1/2", DRIVER, NOT_FOUND),
        *[row(f"POST /drivers/{end}", OFFICE, line("400 Bad Request", 15, "N2 wrong order"))
          for end in ["17/withdraw/2/1", "17/withdraw/10/9", "18/withdraw/1000000/1"]],
        *[row(f"POST /drivers/{end}", OFFICE, BAD_NUMBER)
          for end in ["017/withdraw/2/1", "17/withdraw/0/1", "17/withdraw/2/0", "17/withdraw/2/01", "17/withdraw/1/1000001",
                      "18/withdraw/1/x"]],
        row("POST /drivers/18/withdraw/1/2", OFFICE, line("404 Not Found", 18, "S4 unknown driver")),
        row("POST /drivers/17/withdraw/2/4", OFFICE, line("404 Not Found", 17, "S7 unknown entry")),
        row("POST /drivers/17/withdraw/1/2", OFFICE, BAD, f"{COUNTED}1", body=b"\n"),
        row("POST /drivers/17/withdraw/2/2", OFFICE, line("200 OK", 17, "withdrawn 2 to 2")),
        row("POST /drivers/17/withdraw/1/4", OFFICE, line("409 Conflict", 21, "S8 already withdrawn")),
        read("/me/entries", DRIVER, rests("kept", "withdrawn", "kept")),
        row("POST /drivers/17/withdraw/3/3", OFFICE, line("200 OK", 17, "withdrawn 3 to 3"), f"{COUNTED}0"),
        row("POST /drivers/17/withdraw/1/3", OFFICE, line("409 Conflict", 21, "S8 already withdrawn")),
        read("/drivers/17/entries", OFFICE, rests("kept", "withdrawn", "withdrawn")),
        posted("/drivers/17/entries", OFFICE, THREE_DAYS, line("201 Created", 15, "entered 4 to 6")),
        row("POST /drivers/17/withdraw/4/6", OFFICE, line("200 OK", 17, "withdrawn 4 to 6")),
        read("/me/entries", DRIVER, rests("kept", "withdrawn", "withdrawn") + rests("withdrawn", "withdrawn", "withdrawn", first=4)),
    ],
    "the line of a driver": [
        WITH_DAY,
        posted("/drivers", OFFICE, BERT, line("201 Created", 14, "registered 18")),
        *[read(path, key, f"17 {HOLDER} 2024-03-04 1 0 Anna Berg\n") for path, key in (("/drivers/17", OFFICE), ("/me/driver", DRIVER))],
        read("/drivers/18", OFFICE, f"18 {HOLDER[:-1]}4 2024-02-05 0 0 Bert\n"),
        *[row(f"GET {path}", key, FORBIDDEN) for path, key in (("/drivers/17", DRIVER), ("/drivers/18", DRIVER), ("/me/driver", OFFICE))],
        row("GET /drivers/19", OFFICE, line("404 Not Found", 18, "S4 unknown driver")),
        row("GET /drivers/017", OFFICE, BAD_NUMBER),
        row("POST /drivers/17", OFFICE, OTHER_METHOD),
        row("GET /me/drivers", DRIVER, NOT_FOUND),
    ],
    "the version": [
        *[read(path, key, version_lines()) for path, key in (("/version", OFFICE), ("/me/version", DRIVER))],
        *[row(f"GET {path}", key, FORBIDDEN) for path, key in (("/version", DRIVER), ("/me/version", OFFICE), ("/version", None))],
        row("POST /version", OFFICE, OTHER_METHOD),
        row("GET /version/1", OFFICE, NOT_FOUND),
    ],
    "other methods of what can be read": [
        WITH_DAY,
        *[row(f"{method} {path}", OFFICE, OTHER_METHOD) for path in FOR_OFFICE for method in ["HEAD", "PUT", "get"]],
        *[row(f"POST {path}", OFFICE, OTHER_METHOD) for path in FOR_OFFICE if path != "/drivers"],
        *[row(f"{method} {path}", DRIVER, OTHER_METHOD) for path in WITHOUT_NUMBER for method in ["POST", "HEAD", "DELETE"]],
        *[row(f"POST {path}", OFFICE, OTHER_METHOD) for path in WITHOUT_NUMBER],
        *[row(f"POST {path}", DRIVER, OTHER_METHOD) for path in WITH_NUMBER],
        read("/drivers", OFFICE, f"17 {HOLDER} 2024-03-04 1 0 Anna Berg\n"),
    ],
    "paths near what can be read": [
        *[row(f"GET {path}/", OFFICE, NOT_FOUND) for path in [*FOR_OFFICE, *WITHOUT_NUMBER]],
        *[row(f"GET {path}?all", OFFICE, NOT_FOUND) for path in FOR_OFFICE if not path.endswith((MONTH, MINUTE, DATE, PERIOD))],
        *[row(f"GET {path.removesuffix(MONTH)}", OFFICE, NOT_FOUND) for path in FOR_OFFICE if path.endswith(MONTH)],
        *[row(f"GET {path.removesuffix(f'/{MONTH}')}", DRIVER, NOT_FOUND)
          for path in [*FOR_OFFICE, *WITHOUT_NUMBER] if path.endswith(MONTH)],
        *[row(f"GET {path}{end}", key, NOT_FOUND)
          for path, key in (("/drivers/17/ahead", OFFICE), ("/me/ahead", DRIVER), ("/forecast", OFFICE)) for end in NO_MINUTES],
        *[row(f"GET {path}{end}", key, NOT_FOUND)
          for path, key in (("/drivers/17/handover", OFFICE), ("/me/handover", DRIVER)) for end in NO_PERIODS],
        row(f"GET /handover/{PERIOD}", OFFICE, NOT_FOUND),
        *[row(f"GET {path.replace('17', '')}", OFFICE, NOT_FOUND) for path in WITH_NUMBER],
        *[row(f"GET /me{path}", DRIVER, NOT_FOUND) for path in OF_ALL],
        *[row(f"GET /drivers/17{path}", OFFICE, NOT_FOUND) for path in OF_ALL],
        *[row(f"GET {path}/{MONTH}", OFFICE, NOT_FOUND)
          for path in ["/drivers/17/stretches", f"/drivers/17/form/{DATE}", "/me/debts", f"/me/form/{DATE}"]],
        row("GET /me/files/1/1", DRIVER, NOT_FOUND),
        row("GET /Overview/2024-03", OFFICE, NOT_FOUND),
    ],
    "words of what can be read": [
        WITH_DAY,
        *[row(f"GET {path.replace('17', text)}", OFFICE, BAD_NUMBER) for path in WITH_NUMBER for text in ["017", "0", "1000000", "%31%37"]],
        *[row(f"GET {path.replace('17', '18')}", OFFICE, line("404 Not Found", 18, "S4 unknown driver")) for path in WITH_NUMBER],
        *[bad for path in FOR_OFFICE if path.endswith(MONTH) for bad in bad_months(path, OFFICE)],
        *[bad for path in WITHOUT_NUMBER if path.endswith(MONTH) for bad in bad_months(path, DRIVER)],
        *[row(f"GET /{who}/form/{text}", key, line("400 Bad Request", len(fault) + 1, fault))
          for who, key in (("drivers/17", OFFICE), ("me", DRIVER)) for text, fault in BAD_DATES.items()],
        row("GET /drivers/0/form/2024-02-30", OFFICE, BAD_NUMBER),
        row("GET /drivers/18/form/2024-02-30", OFFICE, NO_DATE),
        row("GET /drivers/18/form/2024-02-30", DRIVER, FORBIDDEN),
        *[row(f"GET /{who}/handover/{text}", key, line("400 Bad Request", len(fault) + 1, fault))
          for who, key in (("drivers/17", OFFICE), ("me", DRIVER)) for text, fault in BAD_PERIODS.items()],
        row("GET /drivers/0/handover/2024-02-30/2024-3-1", OFFICE, BAD_NUMBER),
        row("GET /drivers/18/handover/2024-02-30/2024-03-01", OFFICE, NO_DATE),
        row("GET /drivers/18/handover/2024-03-05/2024-03-04", OFFICE, NO_PERIOD),
        row("GET /drivers/18/handover/2024-03-05/2024-03-04", DRIVER, FORBIDDEN),
        *bad_minutes("/drivers/17/ahead", OFFICE),
        *bad_minutes("/me/ahead", DRIVER),
        *bad_minutes("/forecast", OFFICE),
        *[row(f"GET /{path}", DRIVER, FORBIDDEN) for path in ["forecast/2024-03-05/24:00", "standing/2024-13"]],
        row("GET /forecast/2024-03-05/12:00?all", OFFICE, line("400 Bad Request", 20, "Z1 not of the shape")),
        row("GET /drivers/0/ahead/2024-02-30/9:00", OFFICE, BAD_NUMBER),
        row("GET /drivers/18/ahead/2024-02-30/12:00", OFFICE, NO_DATE),
        row("GET /drivers/18/ahead/2099-12-31/23:59", OFFICE, line("404 Not Found", 18, "S4 unknown driver")),
        row("GET /drivers/18/ahead/2024-03-05/24:00", DRIVER, FORBIDDEN),
        row("GET /me/ahead/2024-03-05/12:00?all", DRIVER, line("400 Bad Request", 20, "Z1 not of the shape")),
        *[row(f"GET /drivers/0/{word}/2024-13", OFFICE, BAD_NUMBER) for word in ["why", "chart"]],
        *[row(f"GET /drivers/18/{word}/2024-13", OFFICE, NO_DATE) for word in ["why", "chart"]],
        *[row(f"GET /drivers/18/{word}/2024-13", DRIVER, FORBIDDEN) for word in ["why", "chart"]],
    ],
    "a file twice": [
        posted("/cards/both", OFFICE, DAY, ADDED),
        posted("/cards/both", OFFICE, DAY, REPEATED),
    ],
    "refusals": [
        posted("/me/cards/both", DRIVER, OTHER_HOLDER, line("403 Forbidden", 17, "S5 not your card")),
        row("GET /nothing", OFFICE, NOT_FOUND),
        row("DELETE /drivers", OFFICE, OTHER_METHOD),
        row("GET /me/breaches", OFFICE, FORBIDDEN),
        row("POST /drivers", OFFICE, NO_LENGTH),
        row("POST /drivers", OFFICE, TOO_LARGE, f"{COUNTED}262145"),
        row("GET /drivers/017/breaches", OFFICE, BAD_NUMBER),
        row("GET /me/breaches", None, FORBIDDEN),
        row("GET /nothing", None, FORBIDDEN),
        row("BREW /", None, FORBIDDEN),
    ],
    "a driver's own breaches": [
        WITH_DAY,
        raw(
            "whole",
            OWN,
            b"HTTP/1.1 200 OK\r\ncontent-type: text/plain; charset=utf-8\r\ncontent-length: 100\r\nconnection: close\r\n\r\n"
            b"B1 Art 7 at 2024-03-04 13:00 since 2024-03-04 08:30 amount 240\nEXAMINED TO 2024-03-04 17:00 unknown\n",
        ),
        row("GET /drivers/17/breaches", DRIVER, FORBIDDEN),
        row("GET /drivers/17/breaches", OFFICE, BREACHES),
        row("GET /me/breaches", "anna-key-2", FORBIDDEN),
        row("GET /drivers/17/breaches", "anna-key-2", FORBIDDEN),
        *[raw(f"cut after {place} bytes", OWN[:place], BAD) for place in range(len(OWN))],
    ],
    "heads": [
        WITH_DAY,
        raw("empty lines before it", b"\r\n\n\r\n" + OWN, BREACHES),
        raw("another request after it", OWN + OWN, BREACHES),
        raw("lines that end in LF", OWN.replace(b"\r", b""), BREACHES),
        raw("an older version", OWN.replace(b"1.1", b"1.0"), BREACHES),
        raw("a later version", OWN.replace(b"1.1", b"1.2"), BAD),
        raw("a later version, cut", b"GET /me/breaches HTTP/2", BAD),
        raw("a name in capitals", OWN.replace(b"x-key", b"X-KEY"), BREACHES),
        raw("a method in small letters", OWN.replace(b"GET", b"get"), OTHER_METHOD),
        raw("no blank before a value", OWN.replace(b"x-key: ", b"x-key:"), BREACHES),
        raw("blanks and tabs around a value", OWN.replace(b"x-key: anna-key-1", b"x-key:\t anna-key-1 \t "), BREACHES),
        raw("a blank before a colon", OWN.replace(b"x-key:", b"x-key :"), BAD),
        raw("a blank before a name", OWN.replace(b"x-key:", b" x-key:"), BAD),
        raw("no name", OWN.replace(b"x-key:", b":"), BAD),
        raw("a line without a colon", OWN.replace(b"x-key:", b"x-key"), BAD),
        raw("two blanks in the first line", OWN.replace(b"GET ", b"GET  "), BAD),
        raw("a blank before the first line", b" " + OWN, BAD),
        raw("a CR without a LF", OWN.replace(b"1\r\n\r\n", b"1\r\r\n"), BAD),
        raw("a zero in a value", OWN.replace(b"anna", b"an\0a"), BAD),
        raw("a byte 127 in a value", OWN.replace(b"anna", b"an\x7fa"), BAD),
        raw("a byte 255 in a value", OWN.replace(b"anna", b"an\xffa"), FORBIDDEN),
        raw("a byte 255 in a name", OWN.replace(b"x-key", b"x-ke\xff"), BAD),
        raw("a path that isn't UTF-8", OWN.replace(b"breaches", b"breaches\xff"), BAD),
        raw("a path of another alphabet", OWN.replace(b"breaches", "пробег".encode()), NOT_FOUND),
        raw("no path", OWN.replace(b"/me/breaches ", b""), BAD),
        raw("another text", b"EHLO localhost\r\n", BAD),
        raw("nothing", b"", BAD),
    ],
    "limits of heads": [
        WITH_DAY,
        raw("8,192 bytes", padded(8_192), BREACHES),
        raw("8,193 bytes", padded(8_193), LARGE_HEAD),
        raw("8,192 bytes of a value without an end", padded(8_192, b""), LARGE_HEAD),
        raw("8,191 bytes of a value without an end", padded(8_191, b""), BAD),
        raw("a value that goes on", padded(60_000, b""), LARGE_HEAD),
        raw("a zero in the last byte", padded(8_192, b"\0"), BAD),
        raw("a zero after the last byte", padded(8_193, b"\0"), LARGE_HEAD),
        raw("8,192 bytes of empty lines", 4_096 * b"\r\n", LARGE_HEAD),
        raw("empty lines before a head", 4_000 * b"\r\n" + OWN, BREACHES),
        raw("more empty lines before a head", 4_073 * b"\r\n" + OWN, LARGE_HEAD),
        raw("8,192 bytes of a target", b"GET /" + 8_187 * b"a", LARGE_HEAD),
        raw("8,192 bytes of a target in the middle of a letter", b"GET /" + 8_186 * b"a" + b"\xc3", LARGE_HEAD),
        raw("8,192 bytes of a target that isn't UTF-8", b"GET /\xff" + 8_186 * b"a", LARGE_HEAD, BAD),
        raw("8,191 bytes of a target that isn't UTF-8", b"GET /\xff" + 8_185 * b"a", BAD),
        raw("32 fields", fields(32) + b"\r\n", BREACHES),
        raw("33 fields", fields(33) + b"\r\n", LARGE_HEAD),
        raw("34 fields and more bytes", fields(34) + b"\r\n\0", LARGE_HEAD),
        raw("33 fields of 8,193 bytes", fields(32) + b"x-pad:" + 9_000 * b"p" + b"\r\n\r\n", LARGE_HEAD),
        raw("33 fields without an end", fields(33), LARGE_HEAD, BAD),
        raw("33 fields and a wrong byte", fields(33) + b"\0", LARGE_HEAD, BAD),
        raw("32 fields without an end", fields(32), BAD),
        raw("32 fields and a wrong byte", fields(32) + b"\0", BAD),
        raw("the 33rd field cut", fields(32) + b"a: b", BAD),
    ],
    "keys": [
        row("GET /me/owed", DRIVER, FORBIDDEN, f"x-key: {DRIVER}"),
        row("GET /me/owed", OFFICE, FORBIDDEN, f"x-key: {DRIVER}"),
        row("GET /drivers/17/owed", OFFICE, FORBIDDEN, f"x-key: {DRIVER}"),
        row("GET /drivers/17/owed", OFFICE, FORBIDDEN, f"X-KEY: {OFFICE}"),
        row("GET /drivers/17/owed", None, FORBIDDEN, f"x_key: {OFFICE}"),
        row("GET /drivers/17/owed", f'"{OFFICE}"', FORBIDDEN),
        row("GET /drivers/17/owed", OFFICE.upper(), FORBIDDEN),
        row("GET /drivers/17/owed", f"{OFFICE}1", FORBIDDEN),
        row("GET /drivers/17/owed", OFFICE[:-1], FORBIDDEN),
        row("GET /drivers/17/owed", f"{OFFICE},{DRIVER}", FORBIDDEN),
        row("GET /drivers/17/owed", "", FORBIDDEN),
        row("GET /drivers/17/owed", OFFICE, line("200 OK", 37, "EXAMINED TO 2024-03-04 00:00 unknown"), f"x-key2: {DRIVER}"),
        posted("/drivers", OFFICE, BERT.replace(b"bert-key-1", OFFICE.encode()), line("201 Created", 14, "registered 18")),
        row("GET /me/owed", OFFICE, FORBIDDEN),
        row("GET /drivers/18/owed", OFFICE, line("200 OK", 37, "EXAMINED TO 2024-02-05 00:00 unknown")),
    ],
    "paths and methods": [
        *[row(f"GET {path}", OFFICE, NOT_FOUND) for path in ["/", "*", "/me", "/drivers/", "/drivers/17/", "//drivers"]],
        row("GET /drivers//breaches", OFFICE, NOT_FOUND),
        row("GET /drivers/17/sheet/", OFFICE, NOT_FOUND),
        row("GET /drivers/17/breaches/", OFFICE, NOT_FOUND),
        row("GET /drivers/17/breaches?all", OFFICE, NOT_FOUND),
        row("GET /drivers/17/Breaches", OFFICE, NOT_FOUND),
        row("GET http://127.0.0.1/drivers/17/breaches", OFFICE, NOT_FOUND),
        row("GET /drivers/17?/breaches", OFFICE, BAD_NUMBER),
        row("GET /drivers/%31%37/breaches", OFFICE, BAD_NUMBER),
        row("GET /drivers/17/sheet/2024/03", OFFICE, NOT_FOUND),
        row("GET /nothing", DRIVER, NOT_FOUND),
        row("DELETE /drivers", DRIVER, OTHER_METHOD),
        row("PUT /drivers", DRIVER, OTHER_METHOD),
        row("HEAD /me/owed", DRIVER, OTHER_METHOD),
        row("POST /me/owed", OFFICE, OTHER_METHOD),
        row("POST /me/entries", DRIVER, OTHER_METHOD, f"{COUNTED}0"),
        row("GET /me/cards/both", DRIVER, OTHER_METHOD),
        row("PUT /me/cards/both", OFFICE, OTHER_METHOD),
        row("POST /me/withdraw/1", DRIVER, NOT_FOUND),
        row("POST /me/base/2024-03-11", DRIVER, NOT_FOUND),
        posted("/me/cards/both", OFFICE, DAY, FORBIDDEN),
        posted("/cards/both", DRIVER, DAY, FORBIDDEN),
        posted("/drivers/17/entries", DRIVER, FREE_DAYS, FORBIDDEN),
        posted("/drivers", DRIVER, BERT, FORBIDDEN),
        row("GET /drivers/18/owed", DRIVER, FORBIDDEN),
        row("GET /drivers/017/owed", DRIVER, FORBIDDEN),
    ],
    "bodies": [
        row("POST /drivers", OFFICE, BAD, "transfer-encoding: chunked"),
        row("POST /drivers", OFFICE, BAD, "Transfer-Encoding:", f"{COUNTED}262145"),
        posted("/drivers/17/withdraw/1", OFFICE, b"", BAD, "transfer-encoding: identity"),
        row("GET /me/entries", DRIVER, told("200 OK", 0, ""), "transfer-encoding: chunked"),
        row("GET /me/entries", DRIVER, told("200 OK", 0, ""), f"{COUNTED}many", f"{COUNTED}262145"),
        row("POST /drivers/17/entries", OFFICE, NO_LENGTH, body=FREE_DAYS),
        row("POST /drivers", OFFICE, BAD, f"{COUNTED}262145", f"{COUNTED}262145"),
        posted("/drivers", OFFICE, BERT, BAD, f"{COUNTED}{len(BERT)}"),
        *[
            row("POST /drivers", OFFICE, BAD, COUNTED + text, body=BERT)
            for text in ["", "+9", "-1", "9.0", "0x9", "9 9", "9,9", "0000000000009", "9999999999999", "\u0669"]
        ],
        row("POST /drivers", OFFICE, TOO_LARGE, f"{COUNTED}999999999999"),
        row("POST /drivers", OFFICE, line("422 Unprocessable Entity", 14, "E1 wrong head"), f"{COUNTED}000000000000"),
        row("POST /drivers", OFFICE, line("422 Unprocessable Entity", 14, "E1 wrong head"), f"{COUNTED}26", body=BERT),
        row("POST /drivers", OFFICE, line("422 Unprocessable Entity", 25, "E2 wrong fields in row 2"), f"{COUNTED}27", body=BERT),
        row("POST /drivers", OFFICE, line("201 Created", 14, "registered 18"), f"{COUNTED}{len(BERT):012}", body=BERT + b"\n19"),
        row("POST /drivers/17/base/2024-03-11", OFFICE, line("200 OK", 16, "base 2024-03-11")),
        row("POST /drivers/17/base/2024-03-04", OFFICE, line("200 OK", 16, "base 2024-03-04"), f"{COUNTED}0"),
        row("POST /drivers/17/base/2024-03-04", OFFICE, BAD, f"{COUNTED}1", body=b"\n"),
        row("POST /drivers/17/base/2024-03-04", OFFICE, BAD, f"{COUNTED}1"),
        row("POST /drivers/17/base/2024-03-04", OFFICE, TOO_LARGE, f"{COUNTED}262145"),
        row("POST /drivers/17/withdraw/1", OFFICE, line("404 Not Found", 17, "S7 unknown entry"), body=b"more"),
        raw("a body that lacks a byte", posting("/cards/both", OFFICE, DAY)[:-1], BAD),
        raw("no body", posting("/cards/both", OFFICE, DAY)[: -len(DAY)], BAD),
        raw("the longest body without a byte", posting("/cards/both", OFFICE, LARGEST_DAY)[:-1], BAD),
        posted("/cards/both", OFFICE, LARGEST_DAY, ADDED),
        posted("/cards/both", OFFICE, DAY, REPEATED),
        row("GET /me/files/1", DRIVER, told("200 OK", LIMIT, LARGEST_DAY, STORED)),
        posted("/drivers/17/entries", OFFICE, LARGEST_HOURS, line("201 Created", 15, "entered 1 to 1")),
        posted("/drivers/17/entries", OFFICE, LARGEST_HOURS + b"\n", TOO_LARGE),
    ],
    "words of a path": [
        posted("/drivers/017/entries", OFFICE, b"nothing", BAD_NUMBER),
        raw("a number, of a body that is cut", posting("/drivers/017/entries", OFFICE, FREE_DAYS)[:-1], BAD),
        posted("/cards/whole", OFFICE, b"nothing", line("400 Bad Request", 12, "P1 bad part")),
        posted("/me/cards/Both", DRIVER, DAY, line("400 Bad Request", 12, "P1 bad part")),
        row("GET /drivers/0/sheet/2024-13", OFFICE, BAD_NUMBER),
        row("GET /drivers/17/sheet/2024-13", OFFICE, NO_DATE),
        row("GET /me/sheet/2024-3", DRIVER, line("400 Bad Request", 20, "Z1 not of the shape")),
        row("GET /me/gaps/2100-01", DRIVER, line("400 Bad Request", 16, "Z3 out of range")),
        row("GET /drivers/18/sheet/2024-13", OFFICE, NO_DATE),
        row("GET /drivers/18/sheet/2024-03", OFFICE, line("404 Not Found", 18, "S4 unknown driver")),
        row("GET /drivers/1000000/owed", OFFICE, BAD_NUMBER),
        row(f"GET /drivers/{5_000 * '1'}/owed", OFFICE, BAD_NUMBER),
        row("GET /me/files/1000001", DRIVER, BAD_NUMBER),
        row("GET /me/files/1", DRIVER, line("404 Not Found", 21, "S10 unknown download")),
        row("POST /drivers/17/withdraw/0", OFFICE, BAD_NUMBER),
        row("POST /drivers/17/base/2024-02-30", OFFICE, NO_DATE),
        row("POST /drivers/17/base/2024-03-05", OFFICE, line("422 Unprocessable Entity", 16, "S9 not a Monday")),
    ],
    "lines of refusals": [
        posted("/drivers", OFFICE, b"", line("422 Unprocessable Entity", 14, "E1 wrong head")),
        posted("/drivers", OFFICE, ANNA, line("409 Conflict", 16, "S1 driver taken")),
        posted("/drivers", OFFICE, BERT.replace(b"bert", b"anna"), line("409 Conflict", 13, "S2 key taken")),
        posted("/drivers", OFFICE, SAME_HOLDER, line("409 Conflict", 16, "S3 holder taken")),
        posted("/drivers", OFFICE, BERT.replace(b"02-05", b"02-06"), line("422 Unprocessable Entity", 16, "S9 not a Monday")),
        posted("/drivers", OFFICE, BERT.replace(b"18,", b"018,"), line("422 Unprocessable Entity", 24, "E9 bad value for driver")),
        posted("/drivers/18/entries", OFFICE, b"", line("422 Unprocessable Entity", 14, "E1 wrong head")),
        posted("/drivers/18/entries", OFFICE, FREE_DAYS, line("404 Not Found", 18, "S4 unknown driver")),
        posted("/drivers/17/entries", OFFICE, FERRY, line("422 Unprocessable Entity", 28, "E5 left out in row 2: ferry")),
        posted("/drivers/18/entries", OFFICE, NO_AUTHOR, line("422 Unprocessable Entity", 24, "E10 bad author in row 2")),
        posted("/drivers/17/entries", OFFICE, LONG_NOTE, line("422 Unprocessable Entity", 22, "E10 bad note in row 2")),
        posted("/drivers/17/entries", OFFICE, HOURS_HEAD, line("200 OK", 13, "entered none")),
        posted("/drivers/17/entries", OFFICE, SIGNED_HEAD, line("200 OK", 13, "entered none")),
        posted("/drivers/17/entries", OFFICE, FREE_DAYS, line("201 Created", 15, "entered 1 to 1")),
        posted("/cards/both", OFFICE, b"", line("422 Unprocessable Entity", 21, "C3 no identification")),
        posted("/cards/both", OFFICE, DAY[:-1], line("422 Unprocessable Entity", 25, "C1 truncated block at 22")),
        posted("/cards/both", OFFICE, OTHER_HOLDER, line("404 Not Found", 18, "S4 unknown driver")),
        posted("/me/cards/both", DRIVER, SATURDAY, line("409 Conflict", 37, "S6 contradiction at 2024-03-09 08:00")),
        row("POST /drivers/17/withdraw/1", OFFICE, line("200 OK", 12, "withdrawn 1")),
        row("POST /drivers/17/withdraw/1", OFFICE, line("409 Conflict", 21, "S8 already withdrawn")),
        posted("/drivers/17/entries", OFFICE, DAY_OFF, line("201 Created", 15, "entered 2 to 2")),
        row("GET /me/entries", DRIVER, told("200 OK", 130, FREE_LINE + DAY_OFF_LINE)),
        posted("/me/cards/both", DRIVER, SATURDAY, ADDED),
        posted("/me/cards/both", DRIVER, SATURDAY, REPEATED),
    ],
}


# Each route once, by the client of Python's library: method, path, key and body, and the status, the phrase and the body of the reply.

OF_ONE = {
    "spans/2024-03": SPANS,
    "gaps/2024-03": GAPS,
    "sheet/2024-03": MARCH,
    "breaches": BREACH + EXAMINED,
    "owed": EXAMINED,
    "entries": FREE_LINE,
}

LIBRARY = [
    *[("GET", path, OFFICE, None, 200, "OK", head) for path, (head, *_) in OF_ALL.items()],
    ("POST", "/drivers", OFFICE, ANNA, 201, "Created", "registered 17\n"),
    ("POST", "/cards/both", OFFICE, DAY, 201, "Created", "added driver 17 number 1\n"),
    ("POST", "/drivers/17/entries", OFFICE, FREE_DAYS, 201, "Created", "entered 1 to 1\n"),
    *[("GET", path, OFFICE, None, 200, "OK", head + anna) for path, (head, anna, _) in OF_ALL.items()],
    *[("GET", f"/drivers/17/{end}", OFFICE, None, 200, "OK", text) for end, text in OF_ANNA.items()],
    *[("GET", f"/me/{end}", DRIVER, None, 200, "OK", text) for end, text in OF_ANNA.items()],
    ("POST", "/drivers/17/withdraw/1", OFFICE, None, 200, "OK", "withdrawn 1\n"),
    ("POST", "/drivers/17/withdraw/1/1", OFFICE, None, 409, "Conflict", "S8 already withdrawn\n"),
    ("POST", "/drivers/17/key", OFFICE, DRIVER.encode(), 200, "OK", "key 17\n"),
    ("POST", "/drivers/17/name", OFFICE, b"Anna Berg\n", 200, "OK", "name 17\n"),
    ("POST", "/drivers/17/base/2024-03-04", OFFICE, None, 200, "OK", "base 2024-03-04\n"),
    *[("GET", f"/drivers/17/{path}", OFFICE, None, 200, "OK", text) for path, text in OF_ONE.items()],
    *[("GET", f"/me/{path}", DRIVER, None, 200, "OK", text) for path, text in OF_ONE.items()],
    ("GET", "/drivers/17/files/1", OFFICE, None, 200, "OK", DAY),
    ("GET", "/me/files/1", DRIVER, None, 200, "OK", DAY),
    ("POST", "/me/cards/both", DRIVER, DAY, 200, "OK", "repeated driver 17\n"),
    ("GET", "/me/entries", "anna-key-2", None, 403, "Forbidden", "forbidden\n"),
]


class SlowSocket:
    """A connection at whose other end is the slow server, or whatever gives a reply to a request."""

    def __init__(self, reply):
        self.reply = reply
        self.sent = b""

    def sendall(self, given):
        """Takes bytes of the request."""
        self.sent += given

    def makefile(self, _):
        """The reply to what was sent."""
        return io.BytesIO(self.reply(self.sent))

    def close(self):
        """Does nothing."""


def understood(response):
    """What the library has understood of a reply."""
    return response.status, response.reason, response.getheaders(), response.read()


def by_library(connect, method, path, key, body):
    """What the library understands of the reply to a request over a connection, or why there was none."""
    client = http.client.HTTPConnection(HOST)
    with contextlib.closing(client):
        try:
            client.sock = connect()
            client.request(method, path, body, {"X-Key": key})
            return understood(client.getresponse())
        except (OSError, http.client.HTTPException) as fault:
            return repr(fault)


def wanted_by_library(path, status, phrase, text):
    """What it has to understand."""
    body = text if isinstance(text, bytes) else text.encode()
    return status, phrase, [("content-type", type_of(path)), ("content-length", str(len(body))), ("connection", "close")], body


# Comparisons


def of_rows(program, name):
    """The comparisons of worked rows, and of the slow server with what they say."""
    rows, before = ROWS[name], [] if name == WITHOUT_DRIVERS else WITH_ANNA
    server = server_after(before)
    asked = asked_of(server, [(row.name, row.request) for row in rows])
    for row, one in zip(rows, asked):
        yield f"{name}: {row.name}, by the slow server", one.replies, row.replies
    if program:
        right = [one._replace(replies=row.replies) for row, one in zip(rows, asked)]
        yield from of_asked(program, name, before, right, server)


def of_readings(program):
    """The comparisons of an archive's tables after each GET of the office, of a driver and of nobody with those before all."""
    paths = [(path, OFFICE) for path in [*FOR_OFFICE, *(f"/drivers/17/{end}" for end in [*OF_ONE, "files/1"])]]
    paths += [(f"/me/{end}", key) for end in [*OF_ANNA, *OF_ONE, "files/1"] for key in [DRIVER, OTHER_DRIVER, "anna-key-2"]]
    with tempfile.TemporaryDirectory() as folder:
        desk = Desk(program, folder)
        desk.prepare(WITH_BOTH)
        aside, server = os.path.join(folder, "aside"), server_after(WITH_BOTH)
        os.mkdir(aside)
        before = rows_at(copied(desk.path, aside))
        with Serving(program, desk.path, OFFICE, len(paths)) as serving:
            for path, key in paths:
                request = asking(f"GET {path}", key)
                yield f"GET {path} with {key}", serving.ask([request], False), server.reply(request)
                yield f"GET {path} with {key}: the tables", rows_at(copied(desk.path, aside)), before
            yield "after each GET: the end", serving.end(), ENDED
        yield of_tables("after each GET", desk.path, server.office.archive)


def of_library(program):
    """The comparisons of each route by the library's client."""
    server = server_after([])
    for method, path, key, body, *wanted in LIBRARY:
        told = by_library(lambda: SlowSocket(server.reply), method, path, key, body)
        yield f"{method} {path} by the library, by the slow server", told, wanted_by_library(path, *wanted)
    if program:
        with tempfile.TemporaryDirectory() as folder:
            desk = Desk(program, folder)
            desk.prepare([])
            with Serving(program, desk.path, OFFICE, len(LIBRARY)) as serving:
                for method, path, key, body, *wanted in LIBRARY:
                    told = by_library(serving.connection, method, path, key, body)
                    yield f"{method} {path} by the library", told, wanted_by_library(path, *wanted)
                yield "by the library: the end", serving.end(), ENDED
            yield of_tables("by the library", desk.path, server.office.archive)


# The examples of the document

DOCUMENT = os.path.join(DOCS, "FORMATS.md")
EXAMPLE = re.compile(r"^    \$ (curl .*)\n((?:    (?!\$ ).*\n|\n(?=    (?!\$ )))*)", re.MULTILINE)
EXAMPLES = 22  # at the least
FILES = {"@anna.csv": ANNA, "@anna.ddd": DAY, "@hours.csv": FREE_DAYS}
BY_CURL = ["host: 127.0.0.1:8017", "user-agent: curl/8", "accept: */*"]
BODY_BY_CURL = "content-type: application/x-www-form-urlencoded"


def examples():
    """The lines with `curl` of the document, and what each prints."""
    with open(DOCUMENT, encoding="utf-8") as document:
        return [(found[1], re.sub("^    ", "", found[2], flags=re.MULTILINE)) for found in EXAMPLE.finditer(document.read())]


def request_by_curl(words):
    """The bytes of the request that `curl` makes of its arguments, and whether it shows the head of the reply, or nothing of it."""
    fields, method, body, shown, address = [*BY_CURL], None, None, "body", None
    words = iter(words)
    for word in words:
        if word == "-H":
            fields.append(next(words))
        elif word == "-X":
            method = next(words)
        elif word == "--data-binary":
            body = FILES[next(words)]
        elif word == "-i":
            shown = "all"
        elif word == "-o":
            shown, _ = "nothing", next(words)
        else:
            address = word
    path = address.removeprefix("http://127.0.0.1:8017")
    if body is not None:
        fields += [f"content-length: {len(body)}", BODY_BY_CURL]
    method = method or ("GET" if body is None else "POST")
    head = "\r\n".join([f"{method} {path} HTTP/1.1", *fields, "", ""])
    return head.encode() + (body or b""), shown


def shown_of(reply, shown):
    """What `curl` shows of a reply."""
    if shown == "nothing":
        return ""
    text = reply.decode().replace("\r", "")
    return text if shown == "all" else text.split("\n\n", 1)[1]


def as_shown(text, printed):
    """A text, with two dots for lines that the document leaves out."""
    front, dots, back = printed.partition("..\n")
    if dots and text.startswith(front) and text.endswith(back):
        return printed
    return text


def of_document(program):
    """The comparisons of the document's examples, one after the other."""
    server = server_after([])
    found = [(command, printed, *request_by_curl(shlex.split(command)[1:])) for command, printed in examples()]
    asked = asked_of(server, [(command, request) for command, _, request, _ in found])
    for (command, printed, _, shown), one in zip(found, asked):
        yield command, as_shown(shown_of(one.replies[0], shown), printed), printed
    yield "examples of the document", len(found) >= EXAMPLES, True
    if program:
        yield from of_asked(program, "the document", [], asked, server)


# Random lists


def of_seed(program, seed):
    """The comparisons of a seed's requests."""
    made = random_requests.Requests(seed)
    named = [(f"request {number}: {request[:80]!r}", request) for number, request in enumerate(made.requests(), 1)]
    server = server_after([], made.office_key)
    yield from of_asked(program, f"seed {seed}", [], asked_of(server, named), server)


def gist(archive):
    """What a refusal and a reading leave as it was."""
    drivers = archive.drivers.values()
    return [(d.number, d.base, len(d.downloads), [entry.is_withdrawn for entry in d.entries]) for d in drivers]


def again(reply):
    """A reply that the library has understood, written once more."""
    response = http.client.HTTPResponse(SlowSocket(lambda _: reply))
    response.begin()
    status, phrase, fields, body = understood(response)
    lines = [f"HTTP/1.1 {status} {phrase}", *[f"{name}: {value}" for name, value in fields], "", ""]
    return "\r\n".join(lines).encode() + body


def route_of(server, request):
    """The method and the form of a path that a request asks for, if its head passes the checks."""
    with contextlib.suppress(slow_server.NotOne, slow_server.Refused):
        head = slow_server.head_of(request)
        server.asked(head)
        return head.method.decode(), slow_server.form_of(head.target.decode())[0]
    return None


def of_variety():
    """The comparisons of random requests by the slow server alone: the library understands each reply, a refusal or a reading changes
    nothing, each status but 503 comes, and each route is served."""
    statuses, routes = set(), set()
    for seed in range(SLOW_SEEDS):
        made = random_requests.Requests(seed)
        server = server_after([], made.office_key)
        for number, request in enumerate(made.requests(), 1):
            route, before = route_of(server, request), gist(server.office.archive)
            for reply in server.replies(request):
                status = int(reply.split(b" ")[1])
                statuses.add(status)
                routes.update([route] if status < 300 else [])
                yield f"seed {seed}, request {number}: the reply", again(reply), reply
                if status >= 400 or route and route[0] == "GET":
                    yield f"seed {seed}, request {number}: the archive", gist(server.office.archive), before
    yield "statuses", sorted(statuses), sorted({*slow_server.STATUSES} - {503})
    yield "routes", sorted(routes), sorted((method, form) for form, by in slow_server.ROUTES.items() for method in by)


# Clients that leave, pieces, and arguments


def leave(serving, request, is_broken):
    """Sends bytes over a connection and leaves it without a look at the reply: at once if it is to be broken."""
    with contextlib.suppress(OSError), serving.connection() as connection:
        sent(connection, [request])
        if is_broken:
            connection.setsockopt(socket.SOL_SOCKET, socket.SO_LINGER, struct.pack("ii", 1, 0))


def of_leaving(program):
    """The comparisons of an archive whose clients leave before a reply has come: the next one is served. Whether a file of one who
    left was taken can't be seen, so that it is sent again."""
    file = posting("/cards/both", OFFICE, DAY)
    left = [b"", OWN[:20], OWN, asking("GET /drivers/17/sheet/2024-03", OFFICE), asking("GET /drivers/17/chart/2024-03", OFFICE)]
    left += [file[:-1], padded(60_000, b""), file]
    questions = [(request, is_broken) for request in left for is_broken in (False, True)]
    server = server_after([*WITH_ANNA, (["import", "both"], DAY)])
    with tempfile.TemporaryDirectory() as folder:
        desk = Desk(program, folder)
        desk.prepare(WITH_ANNA)
        with Serving(program, desk.path, OFFICE, 2 * len(questions) + 2) as serving:
            for number, (request, is_broken) in enumerate(questions):
                leave(serving, request, is_broken)
                told = serving.ask([asking("GET /nothing", OFFICE)], False)
                yield f"after client {number} has left", told, NOT_FOUND
            yield one_of("a file after clients have left", serving.ask([file], False), [ADDED, REPEATED])
            yield "after clients have left", serving.ask([OWN], False), BREACHES
            yield "after clients have left: the end", serving.end(), ENDED
        yield of_tables("after clients have left", desk.path, server.office.archive)


def of_pieces(program):
    """The comparisons of requests that come byte by byte."""
    rows = [WITH_DAY, raw("a driver's own breaches", OWN, BREACHES), raw("33 fields", fields(33) + b"\r\n", LARGE_HEAD)]
    with tempfile.TemporaryDirectory() as folder:
        desk = Desk(program, folder)
        desk.prepare(WITH_ANNA)
        with Serving(program, desk.path, OFFICE, len(rows)) as serving:
            for row in rows:
                told = serving.ask([bytes([byte]) for byte in row.request], False)
                yield one_of(f"byte by byte: {row.name}", told, row.replies)
            yield "byte by byte: the end", serving.end(), ENDED


# Arguments of `serve`, with PATH for an archive, PORT for a free port and TAKEN for one on which another listens: what is printed, and the
# status. The key is looked at first, then the archive is opened, and then the port.
NO_STORE = (b"S12 store failed\n", 3)
USAGE = (b"", 2)

WORDS = [
    *[(["PATH", key, "PORT", "1"], BAD_KEY) for key in ["short-1", "under_score", 65 * "k", "", "office key 1", "office-key-\u00e4"]],
    (["NONE", "short-1", "TAKEN", "1"], BAD_KEY),
    (["NONE", OFFICE, "TAKEN", "1"], NO_STORE),
    (["PATH", OFFICE, "TAKEN", "1"], NO_PORT),
    *[(["PATH", OFFICE, port, "1"], USAGE) for port in ["0", "65536", "port", "", "-1", "8017.0"]],
    *[(["PATH", OFFICE, "PORT", count], USAGE) for count in ["0", "1000001", "many", "", "-1"]],
    (["PATH", "short-1", "0", "1"], USAGE),
    (["PATH", OFFICE, "PORT"], USAGE),
    (["PATH", OFFICE, "PORT", "1", "1"], USAGE),
    (["PATH"], USAGE),
    ([], USAGE),
]


def of_arguments(program):
    """The comparisons of arguments with which no server begins: all but a text of usage stands on standard output, and where that is full,
    the status is 3."""
    with tempfile.TemporaryDirectory() as folder, socket.create_server((HOST, 0)) as other, open("/dev/full", "wb") as full:
        desk = Desk(program, folder)
        desk.prepare(WITH_ANNA)
        taken = str(other.getsockname()[1])
        for words, (text, status) in WORDS:
            named = {"PATH": desk.path, "NONE": f"{desk.path}.none", "PORT": str(free_port()), "TAKEN": taken}
            given = [program, "serve", *[named.get(word, word) for word in words]]
            told, code, errors = programs.told_by(given)
            errors = without_any(given, errors)
            yield f"serve {words}", (told, code, bool(errors)), (text, status, status == 2)
            code = subprocess.run(given, stdin=subprocess.DEVNULL, stdout=full, stderr=subprocess.DEVNULL).returncode
            yield f"serve {words}, to a full device", code, 2 if status == 2 else 3
        yield desk.tables("after arguments with which no server begins")


# Arguments of `listen` and its input, with which no server begins. The input is looked at first.
LARGE_KEY = (b"X1 too large\n", 1)
TAKEN_KEY = (b"S2 key taken\n", 1)

LISTENED = [
    *[(["PATH", "PORT", "1"], given, BAD_KEY) for given in [b"", b"\n", b"short-1\n", b"under_score", f"{OFFICE}\n\n".encode(), 65 * b"k"]],
    (["NONE", "TAKEN", "1"], b"short-1\n", BAD_KEY),
    (["NONE", "TAKEN", "1"], (LIMIT + 1) * b"k", LARGE_KEY),
    (["NONE", "TAKEN", "1"], OFFICE.encode(), NO_STORE),
    (["PATH", "TAKEN", "1"], f"{OFFICE}\r\n".encode(), NO_PORT),
    (["NONE", "PORT", "1"], DRIVER.encode(), NO_STORE),
    (["PATH", "PORT", "1"], DRIVER.encode(), TAKEN_KEY),
    (["PATH", "TAKEN", "1"], f"{DRIVER}\n".encode(), TAKEN_KEY),
    *[(["PATH", port, "1"], OFFICE.encode(), USAGE) for port in ["0", "65536", "port", ""]],
    *[(["PATH", "PORT", count], OFFICE.encode(), USAGE) for count in ["0", "1000001", "many", ""]],
    (["PATH", OFFICE, "PORT", "1"], b"", USAGE),
    (["PATH", "PORT"], OFFICE.encode(), USAGE),
]


def of_unlistened(program):
    """The comparisons of arguments and inputs of `listen` with which no server begins."""
    with tempfile.TemporaryDirectory() as folder, socket.create_server((HOST, 0)) as other:
        desk = Desk(program, folder)
        desk.prepare(WITH_ANNA)
        named = {"PATH": desk.path, "NONE": f"{desk.path}.none", "PORT": str(free_port()), "TAKEN": str(other.getsockname()[1])}
        for words, given, (text, status) in LISTENED:
            line = [program, "listen", *[named.get(word, word) for word in words]]
            told, code, errors = programs.told_by(line, given)
            errors = without_any(line, errors)
            yield f"listen {words} with {given[:20]!r}", (told, code, bool(errors)), (text, status, status == 2)
        source = os.open(folder, os.O_RDONLY)
        made = subprocess.run([program, "listen", desk.path, named["PORT"], "1"], stdin=source, capture_output=True)
        os.close(source)
        yield "listen with a folder as input", (made.stdout, made.returncode, made.stderr), (*NO_PORT, b"")
        yield desk.tables("after inputs with which nobody listens")


# What `serve` prints on standard error, after the archive's path, if a driver has the office's key.
SHARED_KEY = advice.OFFICE_KEY


def of_shared_key(program):
    """The comparisons of a server whose office has a driver's key: it serves, and says so on standard error."""
    request = asking("GET /drivers/17/entries", DRIVER)
    with tempfile.TemporaryDirectory() as folder:
        desk = Desk(program, folder)
        desk.prepare(WITH_ANNA)
        with Serving(program, desk.path, DRIVER, 1) as serving:
            yield "a shared key: the reply", serving.ask([request], False).startswith(b"HTTP/1.1 200 OK\r\n"), True
            yield "a shared key: the end", serving.end(), (b"", 0, f"tacho: {desk.path}: {SHARED_KEY}\n".encode())


def of_listening(program):
    """The comparisons of a server that was given its key as its input."""
    requests = [asking("GET /drivers/17/entries", key) for key in [OFFICE, DRIVER, "office-key-2", f"{OFFICE}1", OFFICE[:-1]]]
    requests += [posting("/cards/both", OFFICE, DAY), OWN, asking("GET /me/breaches", OFFICE)]
    for end in ("", "\n", "\r\n"):
        with tempfile.TemporaryDirectory() as folder:
            desk = Desk(program, folder)
            desk.prepare(WITH_ANNA)
            server = server_after(WITH_ANNA)
            with Serving(program, desk.path, f"{OFFICE}{end}", len(requests), listens=True) as serving:
                for request in requests:
                    yield f"a listener, with {end!r}: {request[:40]!r}", serving.ask([request], False), server.reply(request)
                yield f"a listener, with {end!r}: the end", serving.end(), ENDED


# All


def comparisons(program: str) -> counting.Comparisons:
    started = None if program == "--slow" else os.path.abspath(program)
    questions: list[tuple[Any, ...]] = [(of_rows, started, name) for name in ROWS]
    questions += [(of_library, started), (of_document, started), (of_variety,)]
    if started:
        parts = [of_readings, of_leaving, of_pieces, of_arguments, of_unlistened, of_shared_key, of_listening]
        questions += [(part, started) for part in parts]
        questions += [(of_seed, started, seed) for seed in range(SEEDS)]
    yield from pools.of_questions(questions, PROCESSES)


if __name__ == "__main__":
    sys.exit(counting.count(comparisons(*sys.argv[1:])))
