"""A slow server over an office, written from the definitions and not from the program: the whole reply to the bytes of one request.
`docs/FORMATS.md` says what a request is, and in which order it is checked.

A head is read a byte at a time, by the grammar of the Rust crate httparse as it is without options. Where bytes have no head, that
grammar doesn't always say whether more of them are expected or none would help; then more than one reply is right."""
import codecs
import re
from collections import namedtuple
from collections.abc import Container

from slow.slow_office import INPUT_LIMIT, Office

HEAD_LIMIT = 8_192
FIELD_LIMIT = 32

TEXT = "text/plain; charset=utf-8"

# By the command: the type of what it tells, where that isn't TEXT.
TYPES = {
    "file": "application/octet-stream",
    "handover": "application/x-tar",
    "chart": "image/svg+xml",
    "form": "text/csv; charset=utf-8",
    "forecast": "text/csv; charset=utf-8",
    "standing": "text/csv; charset=utf-8",
    "overview": "text/csv; charset=utf-8",
    "incidents": "text/csv; charset=utf-8",
}

# By the status: its phrase, and the body of a reply that names no fault.
STATUSES = {
    200: ("OK", b""),
    201: ("Created", b""),
    400: ("Bad Request", b"bad request\n"),
    403: ("Forbidden", b"forbidden\n"),
    404: ("Not Found", b"not found\n"),
    405: ("Method Not Allowed", b"method not allowed\n"),
    409: ("Conflict", b""),
    411: ("Length Required", b"length required\n"),
    413: ("Payload Too Large", b"too large\n"),
    422: ("Unprocessable Entity", b""),
    431: ("Request Header Fields Too Large", b"head too large\n"),
    503: ("Service Unavailable", b"unavailable\n"),
}

# By the code of a fault, or by its first letter: the status of the reply that has its line.
FAULTS = {
    "N": 400,
    "P": 400,
    "Z": 400,
    "C": 422,
    "E": 422,
    "S1": 409,
    "S2": 409,
    "S3": 409,
    "S4": 404,
    "S5": 403,
    "S6": 409,
    "S7": 404,
    "S8": 409,
    "S9": 422,
    "S10": 404,
    "S14": 409,
}

# By a path and a method: the command of the slow office. Its arguments are in braces.
OFFICE_ROUTES = {
    "/drivers": {"POST": "register", "GET": "drivers"},
    "/drivers/{n}": {"GET": "drivers"},
    "/cards/{part}": {"POST": "import"},
    "/drivers/{n}/entries": {"POST": "enter", "GET": "entries"},
    "/drivers/{n}/withdraw/{k}": {"POST": "withdraw"},
    "/drivers/{n}/withdraw/{first}/{last}": {"POST": "withdraw"},
    "/drivers/{n}/base/{date}": {"POST": "base"},
    "/drivers/{n}/spans/{month}": {"GET": "spans"},
    "/drivers/{n}/gaps/{month}": {"GET": "gaps"},
    "/drivers/{n}/sheet/{month}": {"GET": "sheet"},
    "/drivers/{n}/breaches": {"GET": "breaches"},
    "/drivers/{n}/owed": {"GET": "owed"},
    "/drivers/{n}/files/{k}": {"GET": "file"},
    "/drivers/{n}/stretches": {"GET": "stretches"},
    "/drivers/{n}/debts": {"GET": "debts"},
    "/drivers/{n}/files": {"GET": "files"},
    "/drivers/{n}/handover/{from}/{past}": {"GET": "handover"},
    "/drivers/{n}/form": {"GET": "form"},
    "/drivers/{n}/form/{date}": {"GET": "form"},
    "/drivers/{n}/why/{month}": {"GET": "why"},
    "/drivers/{n}/chart/{month}": {"GET": "chart"},
    "/drivers/{n}/ahead/{date}/{time}": {"GET": "ahead"},
    "/forecast/{date}/{time}": {"GET": "forecast"},
    "/standing/{month}": {"GET": "standing"},
    "/overview/{month}": {"GET": "overview"},
    "/incidents/{month}": {"GET": "incidents"},
    "/version": {"GET": "version"},
    "/drivers/{n}/key": {"POST": "key"},
    "/drivers/{n}/name": {"POST": "name"},
}
# The same of a driver, whose number is the command's first argument.
DRIVER_ROUTES = {
    "/me/cards/{part}": {"POST": "own"},
    "/me/entries": {"GET": "entries"},
    "/me/spans/{month}": {"GET": "spans"},
    "/me/gaps/{month}": {"GET": "gaps"},
    "/me/sheet/{month}": {"GET": "sheet"},
    "/me/breaches": {"GET": "breaches"},
    "/me/owed": {"GET": "owed"},
    "/me/files/{k}": {"GET": "file"},
    "/me/stretches": {"GET": "stretches"},
    "/me/debts": {"GET": "debts"},
    "/me/files": {"GET": "files"},
    "/me/handover/{from}/{past}": {"GET": "handover"},
    "/me/form": {"GET": "form"},
    "/me/form/{date}": {"GET": "form"},
    "/me/why/{month}": {"GET": "why"},
    "/me/chart/{month}": {"GET": "chart"},
    "/me/ahead/{date}/{time}": {"GET": "ahead"},
    "/me/version": {"GET": "version"},
    "/me/driver": {"GET": "drivers"},
}
ROUTES = {**OFFICE_ROUTES, **DRIVER_ROUTES}
ADDING = ["register", "import", "own", "enter"]
WITH_INPUT = [*ADDING, "key", "name"]


# Heads

TOKEN_BYTES = b"ABCDEFGHIJKLMNOPQRSTUVWXYZabcdefghijklmnopqrstuvwxyz0123456789!#$%&'*+-.^_`|~"
TARGET_BYTES = bytes([*range(0x21, 0x7F), *range(0x80, 0x100)])
VALUE_BYTES = b"\t " + TARGET_BYTES
LINE_END_BYTES = b"\r\n"


class Head(namedtuple("Head", "method target fields length")):
    """The head of a request: its fields are pairs of a name and a value, and its length is that of all its bytes."""

    def values(self, name: bytes) -> list[bytes]:
        """The values of the fields with a name, in whatever case."""
        return [value for found, value in self.fields if found.lower() == name]


class NoHead(Exception):
    """There is no head: either other bytes after these may make one, or none can; or a reader may say the one or the other."""

    def __init__(self, is_open: bool, is_refused: bool) -> None:
        super().__init__()
        self.is_open = is_open
        self.is_refused = is_refused


class HeadReader:
    """Reads a head from the front of some bytes."""

    def __init__(self, given: bytes) -> None:
        self.given = given
        self.place = 0
        self.fields: list[tuple[bytes, bytes]] = []

    def next(self) -> int:
        """The next byte, which isn't taken yet."""
        if self.place == len(self.given):
            raise NoHead(True, False)
        return self.given[self.place]

    def take(self, wanted: Container[int]) -> None:
        """Takes the next byte, which has to be one of those that are wanted."""
        if self.next() not in wanted:
            raise NoHead(False, True)
        self.place += 1

    def run(self, wanted: Container[int]) -> bytes:
        """Takes the next bytes, up to the first that isn't wanted."""
        start = self.place
        while self.next() in wanted:
            self.place += 1
        return self.given[start : self.place]

    def word(self, wanted: Container[int]) -> bytes:
        """Takes such bytes, one at least."""
        self.take(wanted)
        return self.given[self.place - 1 : self.place] + self.run(wanted)

    def line_end(self) -> None:
        """Takes CR LF, or LF."""
        if self.next() in b"\r":
            self.take(b"\r")
        self.take(b"\n")

    def target(self) -> bytes:
        """Takes the bytes of a target. They have to be UTF-8; where they don't end, a reader may look at that or not."""
        start = self.place
        try:
            target = self.word(TARGET_BYTES)
        except NoHead as fault:
            may_go_on = is_text_so_far(self.given[start : self.place])
            raise NoHead(fault.is_open, fault.is_refused or not may_go_on) from fault
        if not is_text(target):
            raise NoHead(False, True)
        return target

    def field(self) -> None:
        """Takes the line of a field. Blanks and tabs around its value don't belong to it."""
        name = self.word(TOKEN_BYTES)
        self.take(b":")
        value = self.run(VALUE_BYTES)
        self.line_end()
        self.fields.append((name, value.strip(b" \t")))

    def head(self) -> Head:
        """Takes a head, and empty lines before it."""
        while self.next() in LINE_END_BYTES:
            self.line_end()
        method = self.word(TOKEN_BYTES)
        self.take(b" ")
        target = self.target()
        for byte in b" HTTP/1.":
            self.take([byte])
        self.take(b"01")
        self.line_end()
        while self.next() not in LINE_END_BYTES:
            self.field()
        self.line_end()
        return Head(method, target, self.fields, self.place)


def is_text(given: bytes) -> bool:
    """Whether these bytes are UTF-8."""
    try:
        given.decode()
    except UnicodeDecodeError:
        return False
    return True


def is_text_so_far(given: bytes) -> bool:
    """Whether other bytes after these can make them UTF-8."""
    try:
        codecs.getincrementaldecoder("utf-8")().decode(given)
    except UnicodeDecodeError:
        return False
    return True


class NotOne(Exception):
    """The statuses of which one comes, since there is no head within the limits; and whether more bytes could have made one."""

    def __init__(self, statuses: list[int], is_open: bool) -> None:
        super().__init__()
        self.statuses = statuses
        self.is_open = is_open


def head_of(given: bytes) -> Head:
    """The head at the front of an input: 400 where the input ends before or no other bytes make one of it, and 431 where it is larger
    than its limits."""
    reader = HeadReader(given[:HEAD_LIMIT])
    try:
        head = reader.head()
    except NoHead as fault:
        is_full = len(given) >= HEAD_LIMIT
        too_large = fault.is_open and is_full or len(reader.fields) > FIELD_LIMIT
        bad = fault.is_open and not is_full or fault.is_refused
        raise NotOne([431] * too_large + [400] * bad, fault.is_open and not is_full) from fault
    if len(head.fields) > FIELD_LIMIT:
        raise NotOne([431], False)
    return head


# Checks


class Refused(Exception):
    """The status of a request that fails a check."""

    def __init__(self, status: int) -> None:
        super().__init__()
        self.status = status


def words_in(path: str, form: str) -> list[str] | None:
    """The parts of a path for which its form has braces, or None if it isn't of that form. No part is empty."""
    parts, names = path.split("/"), form.split("/")
    is_word = [name.startswith("{") for name in names]
    if len(parts) != len(names) or not all(part if word else part == name for part, name, word in zip(parts, names, is_word)):
        return None
    return [part for part, word in zip(parts, is_word) if word]


def form_of(path: str) -> tuple[str, list[str]]:
    """The form of a path, and what it has in the places of braces: 404."""
    for form in ROUTES:
        words = words_in(path, form)
        if words is not None:
            return form, words
    raise Refused(404)


def body_length(head: Head, command: str) -> int:
    """How many bytes of a body are read: 400, 411, 413. If a command has no input, there is none, and no length has to be given."""
    if head.method == b"GET":
        return 0
    if head.values(b"transfer-encoding"):
        raise Refused(400)
    lengths = head.values(b"content-length")
    if not lengths and command in WITH_INPUT:
        raise Refused(411)
    if lengths and (len(lengths) > 1 or not re.fullmatch(b"[0-9]{1,12}", lengths[0])):
        raise Refused(400)
    length = int(lengths[0]) if lengths else 0
    if length > INPUT_LIMIT:
        raise Refused(413)
    if length and command not in WITH_INPUT:
        raise Refused(400)
    return length


# Replies


def reply_of(status: int, body: bytes, kind: str = TEXT) -> bytes:
    """The bytes of a reply."""
    phrase, _ = STATUSES[status]
    head = [f"HTTP/1.1 {status} {phrase}", f"content-type: {kind}", f"content-length: {len(body)}", "connection: close", "", ""]
    return "\r\n".join(head).encode() + body


def reply_without_line(status: int) -> bytes:
    """The reply of a status that names no fault."""
    _, body = STATUSES[status]
    return reply_of(status, body)


def reply_to_done(command: str, told: bytes) -> bytes:
    """The reply to a command that was done."""
    is_added = command in ADDING and not told.startswith((b"repeated ", b"entered none"))
    return reply_of(201 if is_added else 200, told, TYPES.get(command, TEXT))


def reply_to_fault(line: bytes) -> bytes:
    """The reply to a fault with a line."""
    code = line.decode().split(" ")[0]
    return reply_of(FAULTS[code if code in FAULTS else code[0]], line)


class Server:
    """Replies to requests over an office, which has a key, as each of its drivers has one."""

    def __init__(self, office: Office, office_key: str) -> None:
        self.office = office
        self.office_key = office_key.encode()

    def caller(self, head: Head) -> int | None:
        """Who asks: a driver's number, or nothing for the office; 403."""
        keys = head.values(b"x-key")
        if keys == [self.office_key]:
            return None
        for driver in self.office.archive.drivers.values():
            if keys == [driver.key.encode()]:
                return driver.number
        raise Refused(403)

    def command(self, head: Head) -> list[str]:
        """The command that a head asks for, with its arguments: 403, 404, 405, 403."""
        caller = self.caller(head)
        form, words = form_of(head.target.decode())
        command = ROUTES[form].get(head.method.decode())
        if command is None:
            raise Refused(405)
        if form not in (OFFICE_ROUTES if caller is None else DRIVER_ROUTES):
            raise Refused(403)
        return [command, *words] if caller is None else [command, str(caller), *words]

    def asked(self, head: Head) -> tuple[list[str], int]:
        """The command that a head asks for, with its arguments, and how many bytes of a body are read."""
        words = self.command(head)
        return words, body_length(head, words[0])

    def reply_to(self, head: Head, rest: bytes) -> bytes:
        """The reply to a head with the bytes after it."""
        try:
            words, length = self.asked(head)
        except Refused as refused:
            return reply_without_line(refused.status)
        if len(rest) < length:
            return reply_without_line(400)
        told, status = self.office.answer(words, rest[:length], self.office_key.decode())
        return reply_to_fault(told) if status else reply_to_done(words[0], told)

    def replies(self, given: bytes) -> list[bytes]:
        """The replies of which one is right. If there are several, none of them changes anything."""
        try:
            head = head_of(given)
        except NotOne as fault:
            return [reply_without_line(status) for status in fault.statuses]
        return [self.reply_to(head, given[head.length :])]

    def reply(self, given: bytes) -> bytes:
        """The one reply that is right."""
        (told,) = self.replies(given)
        return told

    def waits(self, given: bytes) -> bool:
        """Whether a reply may wait for more bytes than these, or for their end."""
        try:
            head = head_of(given)
            _, length = self.asked(head)
        except NotOne as fault:
            return fault.is_open
        except Refused:
            return False
        return len(given) - head.length < length
