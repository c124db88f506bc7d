"""An office's archive of some drivers, the program as its service, and a proxy before it that can be told to fail."""
import contextlib
import http.client
import http.server
import os
import select
import threading
from collections.abc import Iterable, Sequence
from typing import Any

from inputs import hard_timelines
from inputs.random_cards import ACTIVITY, IDENTIFICATION, activity_data, block, record, word
from lib import browser, rules
from lib.driver_month import DAY
from lib.driver_month import minutes_of as minute_of
from lib.programs import told_by
from lib.server import OFFICE, Serving, free_port

MOST_CONNECTIONS = 1_000_000


# A proxy that fails

class Pages:
    """A proxy between the browser and the program, from which the pages come. It can be told to fail."""

    def __init__(self, port: int) -> None:
        self.behind = port
        self.port = free_port()
        # What happens to the next requests whose method and path begin with a text: a way to fail, and how often.
        self.faults: list[list[Any]] = []
        self.asked: list[str] = []  # what was asked for, but page files
        pages = self

        class Handler(http.server.BaseHTTPRequestHandler):
            """One request of a browser."""
            protocol_version = "HTTP/1.1"

            def log_message(self, *_: object) -> None:
                """Says nothing."""

            def answer(self) -> None:
                """Answers a request."""
                pages.answer(self)

            do_GET = do_POST = answer

        self.server = http.server.ThreadingHTTPServer(("127.0.0.1", self.port), Handler)
        self.server.daemon_threads = True
        threading.Thread(target=self.server.serve_forever, daemon=True).start()

    def __enter__(self) -> "Pages":
        return self

    def __exit__(self, *_: object) -> None:
        self.server.shutdown()
        self.server.server_close()

    def fail(self, begin: str, way: Any, count: int = 1) -> None:
        """Lets the next requests fail: `before` and `after` break the connection before or after the program got it; a status, a
        type and a body are a reply of another server; a function changes the bytes of the program's reply; `never` gives none."""
        self.faults.append([begin, way, count])

    def fault_of(self, request: str) -> Any:
        """How a request is to fail, or None."""
        for fault in self.faults:
            if request.startswith(fault[0]) and fault[2] > 0:
                fault[2] -= 1
                return fault[1]
        return None

    def answer(self, handler: http.server.BaseHTTPRequestHandler) -> None:
        """Answers a request with the program's reply, unless it is to fail."""
        body = handler.rfile.read(int(handler.headers.get("content-length") or 0))
        request = f"{handler.command} {handler.path}"
        handler.close_connection = True
        if not handler.path.startswith(("/office/", "/shared/")):
            self.asked.append(request)
        way = self.fault_of(request)
        if way == "before":
            return
        if way == "never":
            select.select([handler.connection], [], [], browser.SECONDS)  # until the browser closes it
            return
        if isinstance(way, tuple):
            self.reply(handler, way[0], {"content-type": way[1]}, way[2])
            return
        connection = http.client.HTTPConnection("127.0.0.1", self.behind, timeout=60)
        with contextlib.closing(connection):
            fields = {name: value for name, value in handler.headers.items() if name.lower() in ("x-key", "content-length")}
            connection.request(handler.command, handler.path, body or None, fields)
            told = connection.getresponse()
            text = told.read()
        if way != "after":
            self.reply(handler, told.status, dict(told.getheaders()), way(text) if callable(way) else text)

    def reply(self, handler: http.server.BaseHTTPRequestHandler, status: int, fields: dict[str, str], text: bytes) -> None:
        """Sends a reply."""
        handler.send_response_only(status)
        for name, value in {**fields, "content-length": str(len(text)), "connection": "close"}.items():
            handler.send_header(name, value)
        handler.end_headers()
        with contextlib.suppress(OSError):
            handler.wfile.write(text)


# Cards

KINDS = ["rest", "available", "work", "drive"]
Span = tuple[int, int, str]  # a start, a past, and an activity, or `crew`, which is driving with a second driver


def identification(holder: str, name: str) -> bytes:
    """The identification of a card: its holder, and the driver's name."""
    first, last = name.split(" ", 1)
    texts = [bytes([1]) + part.encode("latin1").ljust(35) for part in (last, first)]
    return bytes.fromhex(holder) + b"00" + bytes(36) + bytes(12) + texts[0] + texts[1] + bytes(6)


def card(holder: str, name: str, spans: Sequence[Span]) -> bytes:
    """A card file with spans. Between them the card is out, and what the driver did is unknown. The last word of the last day gives nothing
    yet, so there is one more."""
    first, last = spans[0][0] // DAY, (spans[-1][1] - 1) // DAY
    records = []
    for day in range(first, last + 1):
        words, place = [], day * DAY
        for start, past, activity in [one for one in spans if one[0] < (day + 1) * DAY and one[1] > day * DAY]:
            if start > place:
                words.append(word(1, 0, 0, place - day * DAY))
            kind = (0, 1, 3) if activity == "crew" else (0, 0, KINDS.index(activity))
            words.append(word(*kind, max(start, day * DAY) - day * DAY))
            place = past
        if place < (day + 1) * DAY:
            words.append(word(1, 0, 0, place - day * DAY))
        records.append(record(day, words or [word(1, 0, 0, 0)]))
    if spans[-1][1] % DAY == 0:
        records.append(record(last + 1, [word(1, 0, 0, 0)]))
    return block(IDENTIFICATION, 0, identification(holder, name)) + block(ACTIVITY, 0, activity_data(records, 0, 0))


def holder_of(number: int) -> str:
    """The holder of a driver's card."""
    return "0d" + f"D{number:013}".encode().hex()


def key_of(number: int) -> str:
    """The key of a driver, where the office chooses it."""
    return f"driver-{number}-key"


def timeline(seed: int) -> list[Span]:
    """The spans of a driver at the limits of the rules, moved to 30 September 2024."""
    spans, base, past = hard_timelines.timeline(seed, 5)
    moved = minute_of("2024-09-30 00:00") - base
    return [(start + moved, min(end, past) + moved, activity) for start, end, activity in rules.joined(spans, base, past)]


def without(spans: Iterable[Span], start: str, past: str) -> list[Span]:
    """Spans without the minutes of a range."""
    first, last = minute_of(start), minute_of(past)
    kept = [(one[0], min(one[1], first), one[2]) for one in spans if one[0] < first]
    return kept + [(max(one[0], last), one[1], one[2]) for one in spans if one[1] > last]


def plainly(start: str, past: str) -> list[Span]:
    """Days of a driver who keeps all limits, with rest on Saturdays and Sundays."""
    spans: list[Span] = []
    for day in range(minute_of(f"{start} 00:00") // DAY, minute_of(f"{past} 00:00") // DAY):
        at = day * DAY
        if (day + 3) % 7 > 4:
            spans.append((at, at + DAY, "rest"))
        else:
            spans += [(at, at + 360, "rest"), (at + 360, at + 380, "work"), (at + 380, at + 620, "drive"), (at + 620, at + 665, "rest"),
                      (at + 665, at + 800, "drive"), (at + 800, at + 810, "available"), (at + 810, at + DAY, "rest")]
    return spans


MARKUP = "<img src=x onerror=alert(1)>"
COMBINED = "e" + "\u0301" * 31
SEPARATED = "Ann\u2028Berg\u0085 \u2029"
TURNED = "\u2069\u202eBert Falk\u2066"
BOTH_NIGHTS = 17
CHANGED, WRONG, ABSENT, LATE, SOON, GONE, UNKNOWN = 11, 12, 14, 15, 18, 21, 30

# Each driver: number, name, base, and the spans of each card file.
DRIVERS: list[tuple[int, str, str, list[list[Span]]]] = [
    (CHANGED, MARKUP, "2024-09-30", [timeline(42)]),
    (WRONG, SEPARATED, "2024-09-30", [without(timeline(47), "2024-10-16 07:13", "2024-10-18 22:41")]),
    (13, COMBINED, "2024-09-30", [timeline(12)]),
    (ABSENT, TURNED, "2024-09-30", []),
    (LATE, "Paul Richter", "2024-08-26", [plainly("2024-08-26", "2024-10-03")]),
    (SOON, "Karin Schöne", "2024-09-02", [plainly("2024-09-02", "2024-10-10")]),
    (BOTH_NIGHTS, "Eva Lund", "2024-03-25", [without(plainly("2024-03-25", "2024-11-04"), "2024-03-30 20:00", "2024-03-31 09:00")]),
    (GONE, "Ilie Popescu", "2024-05-06", [plainly("2024-05-06", "2024-06-08")]),
    (22, "Sofia Rossi", "2024-10-07", [[*plainly("2024-10-07", "2024-10-30"),
        (minute_of("2024-10-30 00:00"), minute_of("2024-10-30 05:00"), "crew"),
                                        *plainly("2024-10-31", "2024-11-04")]]),
]
# A driver who isn't in the CSV file.
LATER = (UNKNOWN, "Jörg Müller", "2024-10-21", [plainly("2024-10-21", "2024-11-04")])


# The program

class Site:
    """An empty archive, the program as its service, and the pages before it."""

    def __init__(self, program: str, folder: str) -> None:
        self.folder = folder
        self.path = os.path.join(folder, "archive.db")
        told_by([program, "init", self.path])
        self.serving = Serving(program, self.path, OFFICE, MOST_CONNECTIONS, listens=True)
        with self.serving.connection():
            pass
        self.pages = Pages(self.serving.port)
        self.address = f"http://127.0.0.1:{self.pages.port}/office/"

    def __enter__(self) -> "Site":
        return self

    def __exit__(self, *_: object) -> None:
        self.pages.__exit__()
        self.serving.__exit__()

    def direct(self, page: str) -> str:
        """The address of a page at the program itself."""
        return f"http://127.0.0.1:{self.serving.port}/{page}/"

    def ask(self, path: str, key: str = OFFICE, posted: bytes | None = None) -> tuple[int, bytes]:
        """The status and body of the program's own reply."""
        connection = http.client.HTTPConnection("127.0.0.1", self.serving.port, timeout=60)
        with contextlib.closing(connection):
            connection.request("GET" if posted is None else "POST", path, posted, {"x-key": key})
            reply = connection.getresponse()
            return reply.status, reply.read()

    def fill(self) -> list[int]:
        """Registers all drivers, and imports their card files. Returns the statuses of the replies."""
        bodies = [("/drivers", f"driver,holder,key,base,name\n{number},{holder_of(number)},{key_of(number)},{base},{name}\n".encode())
                  for number, name, base, _ in [*DRIVERS, LATER]]
        bodies += [("/cards/both", card(holder_of(number), "Some Body", spans)) for number, _, _, files in [*DRIVERS, LATER]
                   for spans in files]
        return [self.ask(path, posted=body)[0] for path, body in bodies]

    def text(self, path: str, key: str = OFFICE) -> str:
        """The text of a reading."""
        status, body = self.ask(path, key)
        assert status == 200, (path, status, body)
        return body.decode()

    def rows(self, path: str) -> list[dict[str, str]]:
        """The rows of a reading in CSV."""
        head, *rows = self.text(path).split("\n")[:-1]
        return [dict(zip(head.split(","), row.split(","), strict=True)) for row in rows]
