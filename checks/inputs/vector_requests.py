"""Conformance cases of HTTP: requests to a server over an archive of no drivers, one after the other, each on its own connection.
docs/FORMATS.md, 'Requests and replies', says what a request is, and in which order it is checked."""
import itertools
from collections.abc import Iterable, Iterator

from inputs import random_cards
from lib.office_rows import (
    ANNA, BERT, CARD, DAY, DAY_OFF, FREE_DAYS, HOLDER, HOURS_HEAD, LONG_NOTE, NO_AUTHOR, NOTHING, SATURDAY, SIGNED_HEAD, THREE_DAYS,
)
from lib.server import DRIVER, OFFICE, OWN, asking, posting
from lib.vector_sets import Made, pieces_of

ADD_ANNA = posting("/drivers", OFFICE, ANNA)
ADD_BERT = posting("/drivers", OFFICE, BERT)
ADD_DAY = posting("/cards/both", OFFICE, DAY)
ADD_HOURS = posting("/drivers/17/entries", OFFICE, FREE_DAYS)
SAME_HOLDER = BERT.replace(HOLDER[:-1].encode() + b"4", HOLDER.encode())
OTHER_HOLDER = bytes.fromhex(CARD.replace(HOLDER, HOLDER[:-2] + "34") + "0504000010" + "00" * 16)
OTHER_DRIVER = "bert-key-1"
KEY = f"{OFFICE}\n".encode()
LENGTH = "content-length: "
WITH_DAY = [ADD_ANNA, ADD_DAY]

# What else can be read of a driver, and what of all.
OF_ONE = ("stretches", "debts", "files", "form", "why/2024-03", "chart/2024-03")
OF_ALL = ("/drivers", "/overview/2024-03", "/incidents/2024-03")


def made(generator: str, status: int, what: str, requests: Iterable[bytes]) -> Made:
    """A case with requests, of whose last reply it tells the status."""
    given = {"requests": [pieces_of(request) for request in requests]}
    return Made(generator, f"HTTP {status}: {what}.", f"{status}", f"status {status}", given)


def fields(count: int) -> bytes:
    """The bytes of a head with a count of fields, but for the empty line at its end."""
    return OWN[:-2] + (count - 1) * b"a: b\r\n"


def padded(length: int, end: bytes = b"\r\n\r\n") -> bytes:
    """The bytes of a head of a length."""
    return OWN[:-2] + b"x-pad:" + (length - len(OWN) + 2 - 6 - len(end)) * b"p" + end


def heads() -> Iterator[Made]:
    """Heads that are one, and that aren't."""
    rows = [
        (200, "a whole request by a driver", OWN), (200, "empty lines before the head", b"\r\n\n\r\n" + OWN),
        (200, "another request after it has no effect", OWN + OWN),
        (200, "lines that end in LF", OWN.replace(b"\r", b"")),
        (200, "the version HTTP/1.0", OWN.replace(b"1.1", b"1.0")),
        (400, "the version HTTP/1.2", OWN.replace(b"1.1", b"1.2")),
        (400, "the version HTTP/2", b"GET /me/breaches HTTP/2\r\n\r\n"),
        (200, "a field's name in capitals", OWN.replace(b"x-key", b"X-KEY")),
        (405, "a method in small letters", OWN.replace(b"GET", b"get")),
        (200, "no blank before a value", OWN.replace(b"x-key: ", b"x-key:")),
        (200, "blanks and tabs around a value", OWN.replace(b"x-key: anna-key-1", b"x-key:\t anna-key-1 \t ")),
        (400, "a blank before a colon", OWN.replace(b"x-key:", b"x-key :")),
        (400, "a blank before a name", OWN.replace(b"x-key:", b" x-key:")),
        (400, "a field without a name", OWN.replace(b"x-key:", b":")),
        (400, "a field without a colon", OWN.replace(b"x-key:", b"x-key")),
        (400, "two blanks in the first line", OWN.replace(b"GET ", b"GET  ")),
        (400, "a blank before the first line", b" " + OWN),
        (400, "a CR without a LF", OWN.replace(b"1\r\n\r\n", b"1\r\r\n")),
        (400, "byte 0 in a value", OWN.replace(b"anna", b"an\0a")),
        (400, "byte 127 in a value", OWN.replace(b"anna", b"an\x7fa")),
        (403, "byte 255 in the key, which is then another one", OWN.replace(b"anna", b"an\xffa")),
        (400, "byte 255 in a name", OWN.replace(b"x-key", b"x-ke\xff")),
        (400, "a path that isn't UTF-8", OWN.replace(b"breaches", b"breaches\xff")),
        (404, "a path of another alphabet", OWN.replace(b"breaches", "\u043f\u0440\u043e\u0431\u0435\u0433".encode())),
        (400, "no path", OWN.replace(b"/me/breaches ", b"")), (400, "a text that isn't HTTP", b"EHLO localhost\r\n"),
        (400, "no byte at all", b""),
    ]
    for status, what, request in rows:
        yield made("head", status, what, [*WITH_DAY, request])
    for place in (1, 3, 4, 5, 15, 16, 24, 25, 26, 27, 32, 45, len(OWN) - 2, len(OWN) - 1):
        yield made("head", 400, f"the input ends after {place} bytes of the head", [ADD_ANNA, OWN[:place]])


def limits() -> Iterator[Made]:
    """Heads of 8,192 bytes and of 32 fields, and a byte or a field more."""
    rows = [
        (200, "a head of 8,192 bytes", padded(8_192)), (431, "a head of 8,193 bytes", padded(8_193)),
        (431, "8,192 bytes of a value without an end", padded(8_192, b"")),
        (400, "8,191 bytes of a value without an end", padded(8_191, b"")),
        (400, "byte 0 in byte 8,192", padded(8_192, b"\0")), (431, "byte 0 in byte 8,193", padded(8_193, b"\0")),
        (431, "8,192 bytes of empty lines", 8_192 * b"\n"),
        (200, "8,000 bytes of empty lines before a head", 8_000 * b"\n" + OWN),
        (431, "8,192 bytes of a path", b"GET /" + 8_187 * b"a"),
        (400, "8,191 bytes of a path", b"GET /" + 8_186 * b"a"), (200, "32 fields", fields(32) + b"\r\n"),
        (431, "33 fields", fields(33) + b"\r\n"), (431, "34 fields and more bytes", fields(34) + b"\r\n\0"),
        (400, "32 fields without an end", fields(32)), (400, "32 fields and a wrong byte", fields(32) + b"\0"),
        (400, "the 33rd field is cut", fields(32) + b"a: b"),
    ]
    for status, what, request in rows:
        yield made("limit", status, what, [*WITH_DAY, request])


def keys() -> Iterator[Made]:
    """Who asks."""
    path = "GET /drivers/17/owed"
    rows = [
        (200, "the office's key", asking(path, OFFICE)), (200, "the driver's key", asking("GET /me/owed", DRIVER)),
        (403, "no key", asking(path, None)), (403, "no key, for a path that isn't there", asking("GET /nothing", None)),
        (403, "no key, with a method that isn't there", asking("BREW /", None)),
        (403, "the driver's key twice", asking("GET /me/owed", DRIVER, f"x-key: {DRIVER}")),
        (403, "the office's key and the driver's", asking(path, OFFICE, f"x-key: {DRIVER}")),
        (403, "the office's key twice, once in capitals", asking(path, OFFICE, f"X-KEY: {OFFICE}")),
        (403, "a key in another field", asking(path, None, f"x_key: {OFFICE}")),
        (403, "a key in quotes", asking(path, f'"{OFFICE}"')), (403, "a key in capitals", asking(path, OFFICE.upper())),
        (403, "a key with a digit more", asking(path, f"{OFFICE}1")),
        (403, "a key with a digit less", asking(path, OFFICE[:-1])),
        (403, "two keys in one value", asking(path, f"{OFFICE},{DRIVER}")), (403, "an empty key", asking(path, "")),
        (403, "a driver's key for an office's path", asking(path, DRIVER)),
        (403, "the office's key for a driver's path", asking("GET /me/owed", OFFICE)),
        (403, "an unknown driver's key", asking("GET /me/owed", "anna-key-2")),
        (200, "another field beside the key", asking(path, OFFICE, f"x-key2: {DRIVER}")),
    ]
    for status, what, request in rows:
        yield made("key", status, what, [ADD_ANNA, request])
    both = posting("/drivers", OFFICE, BERT.replace(b"bert-key-1", OFFICE.encode()))
    yield made("key", 403, "a driver has the office's key, and who has it is the office", [both, asking("GET /me/owed", OFFICE)])


def paths() -> Iterator[Made]:
    """Paths, methods and rights."""
    for path in ("/", "*", "/me/", "/drivers/", "/drivers/17/", "//drivers", "/drivers//breaches", "/drivers/17/sheet/",
                 "/drivers/17/breaches/", "/drivers/17/breaches?all", "/drivers/17/Breaches", "http://127.0.0.1/drivers/17/breaches",
                 "/drivers/17/sheet/2024/03", "/cards/both/both", "/nothing"):
        yield made("path", 404, f"the path '{path}' isn't one", [ADD_ANNA, asking(f"GET {path}", OFFICE)])
    for method, path, key in (
        ("DELETE", "/drivers", OFFICE), ("PUT", "/drivers", OFFICE), ("PUT", "/cards/both", OFFICE),
        ("HEAD", "/me/owed", DRIVER), ("POST", "/me/owed", DRIVER), ("POST", "/me/entries", DRIVER),
        ("GET", "/me/cards/both", DRIVER),
        ("GET", "/drivers/17/withdraw/1", OFFICE), ("GET", "/drivers/17/base/2024-03-04", OFFICE), ("GET", "/drivers/17/key", OFFICE),
        ("POST", "/version", OFFICE), ("POST", "/me/version", DRIVER),
        ("POST", "/drivers/17/spans/2024-03", OFFICE), ("OPTIONS", "/drivers/17/entries", OFFICE),
        ("DELETE", "/drivers", DRIVER),
    ):
        yield made("path", 405, f"the path '{path}' hasn't the method {method}", [ADD_ANNA, asking(f"{method} {path}", key)])
    for path, body in (("/cards/both", DAY), ("/drivers/17/entries", FREE_DAYS), ("/drivers", BERT), ("/drivers/17/withdraw/1", b""),
                       ("/drivers/17/base/2024-03-04", b""), ("/drivers/17/key", b"anna-key-2")):
        yield made("path", 403, f"a driver may not POST to '{path}'", [ADD_ANNA, posting(path, DRIVER, body)])
    yield made("path", 403, "the office may not POST to '/me/cards/both'", [ADD_ANNA, posting("/me/cards/both", OFFICE, DAY)])
    for path in ("/me/withdraw/1", "/me/base/2024-03-11", "/me/key"):
        yield made("path", 404, f"a driver has no path '{path}'", [ADD_ANNA, posting(path, DRIVER, b"")])
    for path in (*OF_ALL, *(f"/drivers/17/{what}" for what in OF_ONE)):
        yield made("path", 403, f"a driver may not GET '{path}'", [ADD_ANNA, asking(f"GET {path}", DRIVER)])
    for what in OF_ONE:
        yield made("path", 403, f"the office may not GET '/me/{what}'", [ADD_ANNA, asking(f"GET /me/{what}", OFFICE)])
    for method, path, key in (
        ("HEAD", "/drivers", OFFICE), ("POST", "/drivers/17/stretches", OFFICE), ("PUT", "/drivers/17/debts", OFFICE),
        ("POST", "/drivers/17/files", OFFICE), ("HEAD", "/drivers/17/form", OFFICE), ("POST", "/drivers/17/why/2024-03", DRIVER),
        ("HEAD", "/drivers/17/chart/2024-03", OFFICE), ("POST", "/overview/2024-03", OFFICE), ("HEAD", "/incidents/2024-03", OFFICE),
        ("HEAD", "/me/stretches", DRIVER), ("POST", "/me/debts", DRIVER), ("POST", "/me/files", DRIVER), ("POST", "/me/form", OFFICE),
        ("HEAD", "/me/why/2024-03", DRIVER), ("POST", "/me/chart/2024-03", DRIVER),
    ):
        yield made("path", 405, f"the path '{path}' hasn't the method {method}", [ADD_ANNA, asking(f"{method} {path}", key)])
    for path in ("/drivers/17/files/", "/drivers/17/form/2024/03", "/drivers/17/why", "/drivers/17/chart/", "/overview", "/incidents/",
                 "/overview/2024-03/17"):
        yield made("path", 404, f"the path '{path}' isn't one", [ADD_ANNA, asking(f"GET {path}", OFFICE)])
    for path in ("/me/overview/2024-03", "/me/incidents/2024-03", "/me/stretches/2024-03", "/me/why"):
        yield made("path", 404, f"a driver has no path '{path}'", [ADD_ANNA, asking(f"GET {path}", DRIVER)])


def bodies() -> Iterator[Made]:
    """Lengths of a body, and bodies."""
    drivers = "POST /drivers"
    rows = [
        (400, "a transfer-encoding", asking(drivers, OFFICE, "transfer-encoding: chunked")),
        (400, "an empty transfer-encoding comes before a length that is too large",
         asking(drivers, OFFICE, "Transfer-Encoding:", f"{LENGTH}262145")),
        (400, "a transfer-encoding where no body is expected", posting("/drivers/17/withdraw/1", OFFICE, b"",
                                                                           "transfer-encoding: identity")),
        (200, "a GET with a transfer-encoding", asking("GET /me/entries", DRIVER, "transfer-encoding: chunked")),
        (200, "a GET with wrong lengths", asking("GET /me/entries", DRIVER, f"{LENGTH}many", f"{LENGTH}262145")),
        (411, "a body without a length", asking("POST /drivers/17/entries", OFFICE, body=FREE_DAYS)),
        (411, "a key without a length", asking("POST /drivers/17/key", OFFICE, body=b"anna-key-2")),
        (400, "two lengths", asking(drivers, OFFICE, f"{LENGTH}262145", f"{LENGTH}262145")),
        (400, "the right length twice", posting("/drivers", OFFICE, BERT, f"{LENGTH}{len(BERT)}")),
        (413, "a length of 262,145", asking(drivers, OFFICE, f"{LENGTH}262145")),
        (413, "a length of twelve digits", asking(drivers, OFFICE, f"{LENGTH}999999999999")),
        (400, "a length of thirteen digits", asking(drivers, OFFICE, f"{LENGTH}0000000000009", body=BERT)),
        (400, "a length of 262,144, and no body", asking(drivers, OFFICE, f"{LENGTH}262144")),
        (201, "bytes after the body have no effect", asking(drivers, OFFICE, f"{LENGTH}{len(BERT):012}", body=BERT + b"\n19")),
        (200, "no length where no body is expected", asking("POST /drivers/17/base/2024-03-11", OFFICE)),
        (200, "the length 0 where no body is expected", asking("POST /drivers/17/base/2024-03-11", OFFICE, f"{LENGTH}0")),
        (400, "the length 1 where no body is expected", asking("POST /drivers/17/base/2024-03-11", OFFICE, f"{LENGTH}1", body=b"\n")),
        (413, "the length 262,145 where no body is expected", asking("POST /drivers/17/base/2024-03-11", OFFICE, f"{LENGTH}262145")),
        (404, "bytes without a length where no body is expected", asking("POST /drivers/17/withdraw/1", OFFICE, body=b"more")),
        (400, "a body that lacks a byte", posting("/cards/both", OFFICE, DAY)[:-1]),
        (400, "no byte of the body", posting("/cards/both", OFFICE, DAY)[: -len(DAY)]),
        (422, "the length 0 of a driver", asking(drivers, OFFICE, f"{LENGTH}0")),
        (422, "a length that ends with the head of CSV", asking(drivers, OFFICE, f"{LENGTH}27", body=BERT)),
        (201, "262,144 bytes", posting("/drivers/17/entries", OFFICE, FREE_DAYS + b"\n" * (262_144 - len(FREE_DAYS)))),
        (413, "262,145 bytes", posting("/drivers/17/entries", OFFICE, FREE_DAYS + b"\n" * (262_145 - len(FREE_DAYS)))),
    ]
    for status, what, request in rows:
        yield made("body", status, what, [ADD_ANNA, request])
    for text in ("", "+9", "-1", "9.0", "0x9", "9 9", "9,9", "\u0669"):
        yield made("body", 400, f"the length '{text}'", [ADD_ANNA, asking(drivers, OFFICE, LENGTH + text, body=BERT)])


def arguments() -> Iterator[Made]:
    """What stands in a path."""
    rows = [
        (400, "a number with a zero in front, before what is wrong with the body", posting("/drivers/017/entries", OFFICE, b"nothing")),
        (400, "a number of 1000000", asking("GET /drivers/1000000/owed", OFFICE)),
        (400, "the number 0", asking("GET /drivers/0/owed", OFFICE)),
        (400, "digits in percent signs", asking("GET /drivers/%31%37/breaches", OFFICE)),
        (400, "a question mark after the number", asking("GET /drivers/17?/breaches", OFFICE)),
        (400, "an unknown part", posting("/cards/whole", OFFICE, b"nothing")),
        (400, "a part with a capital", posting("/me/cards/Both", DRIVER, DAY)),
        (400, "a wrong number before a wrong month", asking("GET /drivers/0/sheet/2024-13", OFFICE)),
        (400, "month 13", asking("GET /drivers/17/sheet/2024-13", OFFICE)),
        (400, "a month of another shape", asking("GET /me/sheet/2024-3", DRIVER)),
        (400, "a month of 2100", asking("GET /me/gaps/2100-01", DRIVER)),
        (400, "a wrong month before an unknown driver", asking("GET /drivers/18/sheet/2024-13", OFFICE)),
        (404, "an unknown driver", asking("GET /drivers/18/sheet/2024-03", OFFICE)),
        (400, "a download's number of 1000001", asking("GET /me/files/1000001", DRIVER)),
        (404, "an unknown download", asking("GET /me/files/1", DRIVER)),
        (404, "the largest number of a download", asking("GET /me/files/1000000", DRIVER)),
        (400, "an entry's number 0", asking("POST /drivers/17/withdraw/0", OFFICE)),
        (400, "30 February", asking("POST /drivers/17/base/2024-02-30", OFFICE)),
        (422, "a base that isn't a Monday", asking("POST /drivers/17/base/2024-03-05", OFFICE)),
        (400, "a base before the days that are read", asking("POST /drivers/17/base/1999-12-27", OFFICE)),
        (404, "the largest number of a driver", asking("GET /drivers/999999/owed", OFFICE)),
        *((400, f"a number with a zero in front, and then '{what}'", asking(f"GET /drivers/017/{what}", OFFICE)) for what in OF_ONE),
        *((404, f"an unknown driver, and then '{what}'", asking(f"GET /drivers/18/{what}", OFFICE)) for what in OF_ONE),
        (400, "month 13 of evidence, of an unknown driver", asking("GET /drivers/18/why/2024-13", OFFICE)),
        (400, "a chart's month of another shape", asking("GET /me/chart/2024-3", DRIVER)),
        (400, "evidence of a month of 2100", asking("GET /me/why/2100-01", DRIVER)),
        (400, "month 0 of all drivers", asking("GET /overview/2024-00", OFFICE)),
        (400, "a month of all drivers of another shape", asking("GET /incidents/2024", OFFICE)),
        (400, "a month of all drivers of 1999", asking("GET /incidents/1999-12", OFFICE)),
    ]
    for status, what, request in rows:
        yield made("argument", status, what, [ADD_ANNA, request])


def refusals() -> Iterator[Made]:
    """Refusals of the archive, each with its line."""
    rows = [
        (409, "a driver's number is taken (S1)", [ADD_ANNA, ADD_ANNA]),
        (409, "a driver's key is taken (S2)", [ADD_ANNA, posting("/drivers", OFFICE, BERT.replace(b"bert", b"anna"))]),
        (409, "a driver's card is taken (S3)", [ADD_ANNA, posting("/drivers", OFFICE, SAME_HOLDER)]),
        (422, "a new driver's base isn't a Monday (S9)", [posting("/drivers", OFFICE, BERT.replace(b"02-05", b"02-06"))]),
        (422, "a driver's number has a zero in front (E9)", [posting("/drivers", OFFICE, BERT.replace(b"18,", b"018,"))]),
        (422, "hours have no head (E1), before the driver is looked for", [ADD_ANNA, posting("/drivers/18/entries", OFFICE, b"")]),
        (404, "hours of an unknown driver (S4)", [ADD_ANNA, posting("/drivers/18/entries", OFFICE, FREE_DAYS)]),
        (422, "hours on a ferry (E5)", [ADD_ANNA, posting("/drivers/17/entries", OFFICE, FREE_DAYS.replace(b"rest", b"ferry"))]),
        (422, "hours without an author (E10)", [ADD_ANNA, posting("/drivers/17/entries", OFFICE, NO_AUTHOR)]),
        (422, "hours with a long note (E10)", [ADD_ANNA, posting("/drivers/17/entries", OFFICE, LONG_NOTE)]),
        (422, "a card file without an identification (C3)", [ADD_ANNA, posting("/cards/both", OFFICE, b"")]),
        (422, "a card file that is cut (C1)", [ADD_ANNA, posting("/cards/both", OFFICE, DAY[:-1])]),
        (404, "a card file of an unknown holder (S4)", [ADD_ANNA, posting("/cards/both", OFFICE, OTHER_HOLDER)]),
        (403, "a driver sends another one's card file (S5)", [ADD_ANNA, posting("/me/cards/both", DRIVER, OTHER_HOLDER)]),
        (409, "a card file contradicts entered hours (S6)", [ADD_ANNA, ADD_HOURS, posting("/me/cards/both", DRIVER, SATURDAY)]),
        (422, "a key that is too short (E9), before the driver is looked for", [ADD_ANNA, posting("/drivers/18/key", OFFICE, b"anna\n")]),
        (400, "a key for a number with a zero in front, before what is wrong with the key",
         [ADD_ANNA, posting("/drivers/017/key", OFFICE, b"")]),
        (409, "a driver's key becomes the office's (S2), before the driver is looked for",
         [ADD_ANNA, posting("/drivers/18/key", OFFICE, KEY)]),
        (409, "a driver's key becomes another driver's (S2)", [ADD_ANNA, ADD_BERT, posting("/drivers/17/key", OFFICE, b"bert-key-1")]),
        (404, "a key for an unknown driver (S4)", [ADD_ANNA, posting("/drivers/18/key", OFFICE, b"anna-key-2")]),
        (404, "an unknown entry is withdrawn (S7)", [ADD_ANNA, asking("POST /drivers/17/withdraw/1", OFFICE)]),
        (409, "an entry is withdrawn twice (S8)", [ADD_ANNA, ADD_HOURS, *[asking("POST /drivers/17/withdraw/1", OFFICE)] * 2]),
    ]
    for status, what, requests in rows:
        yield made("refusal", status, what, requests)


def done() -> Iterator[Made]:
    """Requests that are done, and what they give."""
    yield made("done", 201, "a driver is registered", [ADD_ANNA])
    changed = [ADD_ANNA, posting("/drivers/17/key", OFFICE, b"anna-key-2\r\n")]
    yield made("done", 200, "a driver gets another key", changed)
    yield made("done", 200, "a driver asks by their new key", [*changed, asking("GET /me/owed", "anna-key-2")])
    yield made("done", 403, "a driver asks by the key that they had", [*changed, asking("GET /me/owed", DRIVER)])
    yield made("done", 201, "a card file is added by the office", WITH_DAY)
    yield made("done", 201, "a card file is added by the driver", [ADD_ANNA, posting("/me/cards/both", DRIVER, DAY)])
    yield made("done", 200, "the same card file is repeated", [*WITH_DAY, ADD_DAY])
    yield made("done", 201, "hours are entered", [ADD_ANNA, ADD_HOURS])
    for head in (HOURS_HEAD, SIGNED_HEAD):
        yield made("done", 200, f"a head of {head.count(b',') + 1} columns alone enters none",
                   [ADD_ANNA, posting("/drivers/17/entries", OFFICE, head)])
    yield made("done", 200, "an entry is withdrawn", [ADD_ANNA, ADD_HOURS, asking("POST /drivers/17/withdraw/1", OFFICE)])
    yield made("done", 201, "a card file is taken that contradicted an entry before that was withdrawn",
               [ADD_ANNA, ADD_HOURS, asking("POST /drivers/17/withdraw/1", OFFICE), posting("/me/cards/both", DRIVER, SATURDAY)])
    whole = [*WITH_DAY, ADD_HOURS, posting("/drivers/17/entries", OFFICE, DAY_OFF)]
    for (who, key), what in itertools.product((("/drivers/17", OFFICE), ("/me", DRIVER)),
                                              ("spans/2024-03", "gaps/2024-03", "sheet/2024-03", "breaches", "owed", "entries", "files/1")):
        yield made("done", 200, f"'{what}' is asked for by {'the office' if key == OFFICE else 'the driver'}",
                   [*whole, asking(f"GET {who}/{what}", key)])
    for (who, key), what in itertools.product((("/drivers/17", OFFICE), ("/me", DRIVER)), OF_ONE):
        yield made("done", 200, f"'{what}' is asked for by {'the office' if key == OFFICE else 'the driver'}",
                   [*whole, asking(f"GET {who}/{what}", key)])
    for path in OF_ALL:
        yield made("done", 200, f"'{path}' is asked for of two drivers", [*whole, ADD_BERT, asking(f"GET {path}", OFFICE)])
        yield made("done", 200, f"'{path}' is asked for where there is no driver", [asking(f"GET {path}", OFFICE)])
    for what in OF_ONE:
        yield made("done", 200, f"'{what}' is asked for by a driver who has nothing, beside one who has something",
                   [*whole, ADD_BERT, asking(f"GET /me/{what}", OTHER_DRIVER)])
    for path, key in (("/drivers/17", OFFICE), ("/drivers/18", OFFICE), ("/me/driver", DRIVER), ("/me/driver", OTHER_DRIVER)):
        yield made("done", 200, f"the line of a driver of two is asked for at '{path}'", [*whole, ADD_BERT, asking(f"GET {path}", key)])


def single_bytes() -> Iterator[Made]:
    """Bytes at the ends of those that a method, a path, a name and a value may have."""
    for path, status in (("!", 404), ("~", 404), ("\x7f", 400), ("\u0100", 404), ("\x1f", 400)):
        yield made("byte", status, f"a path ends in the byte {path.encode()[-1]}", [ADD_ANNA, asking(f"GET /{path}", OFFICE)])
    for method, status in (("!#$%&'*+-.^_`|~", 405), ("G(T", 400), ("G/T", 400), ("G@T", 400), ("G[T", 400), ("G{T", 400), ("G:T", 400)):
        yield made("byte", status, f"the method is '{method}'", [ADD_ANNA, asking(f"{method} /me/owed", DRIVER)])
    for name, status in (("!#$%&'*+-.^_`|~09azAZ", 200), ("a(", 400), ("a/", 400), ("a@", 400), ("a[", 400), ("a{", 400), ("a\x7f", 400)):
        yield made("byte", status, f"a field has the name '{name}'".replace("\x7f", "byte 127"),
                   [ADD_ANNA, asking("GET /me/owed", DRIVER, f"{name}: 1")])
    good, bad = [b"\t", b" ", b"!", b"~", b"\x80", b"\xff"], [b"\x08", b"\x1f", b"\x7f", b"\x0b"]
    for value, status in [*((one, 200) for one in good), *((one, 400) for one in bad)]:
        head = asking("GET /me/owed", DRIVER)[:-2] + b"a: b" + value + b"c\r\n\r\n"
        yield made("byte", status, f"a value has the byte {value[0]}", [ADD_ANNA, head])
    for key in ("\u00a0", "\x0c"):
        head = OWN.replace(b"anna-key-1", key.encode("latin-1") + b"anna-key-1")
        yield made("byte", 403 if key == "\u00a0" else 400, f"the byte {ord(key)} stands before the key", [ADD_ANNA, head])


def forecasts() -> Iterator[Made]:
    """The forecast, whose path has a date and a time."""
    minute = "ahead/2024-03-05/12:00"
    for who, key, whose in (("/drivers/17", OFFICE, "the office"), ("/me", DRIVER, "the driver")):
        request = asking(f"GET {who}/{minute}", key)
        yield made("done", 200, f"'{minute}' is asked for by {whose}, and minutes after the horizon are held", [*WITH_DAY, request])
        yield made("done", 200, f"'{minute}' is asked for by {whose} of a driver who has nothing", [ADD_ANNA, request])
    yield made("path", 403, f"a driver may not GET '/drivers/17/{minute}'", [ADD_ANNA, asking(f"GET /drivers/17/{minute}", DRIVER)])
    yield made("path", 403, f"the office may not GET '/me/{minute}'", [ADD_ANNA, asking(f"GET /me/{minute}", OFFICE)])
    yield made("path", 405, f"the path '/me/{minute}' hasn't the method POST", [ADD_ANNA, asking(f"POST /me/{minute}", DRIVER)])
    for path in ("/drivers/17/ahead", "/drivers/17/ahead/2024-03-05", "/drivers/17/ahead/2024-03-05/", f"/drivers/17/{minute}/"):
        yield made("path", 404, f"the path '{path}' isn't one", [ADD_ANNA, asking(f"GET {path}", OFFICE)])
    for number, end, status, what in (
        ("017", "2024-02-30/24:00", 400, "a number with a zero in front, before a wrong minute"),
        ("18", "2024-02-30/12:00", 400, "30 February, before an unknown driver"),
        ("18", "2024-03-05/12:00", 404, "an unknown driver's forecast"),
        ("17", "2024-02-30/9:00", 400, "a time of another shape, beside 30 February"), ("17", "2024-03-05/24:00", 400, "hour 24"),
        ("17", "2024-03-05/12:60", 400, "minute 60 of an hour"), ("17", "2024-03-05/12%3A00", 400, "a colon in a percent sign"),
        ("17", "2100-01-01/00:00", 400, "a minute of 2100"), ("17", "2099-12-31/23:59", 400, "a forecast that goes past 2099"),
    ):
        yield made("argument", status, what, [ADD_ANNA, asking(f"GET /drivers/{number}/ahead/{end}", OFFICE)])


def of_all_drivers() -> Iterator[Made]:
    """How all drivers stand, and the forecast for all: the office alone asks for them."""
    for path in ("/standing/2024-03", "/forecast/2024-03-05/12:00"):
        asked = asking(f"GET {path}", OFFICE)
        yield made("done", 200, f"'{path}' is asked for of two drivers", [*WITH_DAY, ADD_BERT, asked])
        yield made("done", 200, f"'{path}' is asked for where there is no driver", [asked])
        yield made("path", 403, f"a driver may not GET '{path}'", [ADD_ANNA, asking(f"GET {path}", DRIVER)])
        yield made("path", 404, f"a driver has no path '/me{path}'", [ADD_ANNA, asking(f"GET /me{path}", DRIVER)])
        yield made("path", 404, f"the path '/drivers/17{path}' isn't one", [ADD_ANNA, asking(f"GET /drivers/17{path}", OFFICE)])
        yield made("path", 405, f"the path '{path}' hasn't the method POST", [ADD_ANNA, asking(f"POST {path}", OFFICE)])
    for path in ("/standing", "/standing/", "/standing/2024-03/17", "/forecast", "/forecast/2024-03-05", "/forecast/2024-03-05/12:00/"):
        yield made("path", 404, f"the path '{path}' isn't one", [ADD_ANNA, asking(f"GET {path}", OFFICE)])
    for end, status, what in (
        ("standing/2024-3", 400, "a month of all drivers of another shape, of how they stand"),
        ("standing/2024-13", 400, "month 13 of how all drivers stand"), ("standing/1999-12", 400, "how all drivers stand in 1999"),
        ("standing/2000-01", 200, "how all drivers stand in the first month, which has none before it"),
        ("forecast/2024-02-30/9:00", 400, "a time of another shape, beside 30 February, of all drivers"),
        ("forecast/2024-02-30/12:00", 400, "30 February, of all drivers"),
        ("forecast/2024-03-05/24:00", 400, "hour 24, of all drivers"), ("forecast/2024-03-05/12:60", 400, "minute 60, of all drivers"),
        ("forecast/2024-03-05/12%3A00", 400, "a colon in a percent sign, of all drivers"),
        ("forecast/2100-01-01/00:00", 400, "a minute of 2100, of all drivers"),
    ):
        yield made("argument", status, what, [ADD_ANNA, asking(f"GET /{end}", OFFICE)])
    for time, what in (("12:59", "the last forecast for all drivers that doesn't go past 2099"),
                       ("13:00", "a forecast for all drivers that goes past 2099")):
        at_end = [asking("POST /drivers/17/base/2099-10-26", OFFICE), asking(f"GET /forecast/2099-10-29/{time}", OFFICE)]
        yield made("argument", 200, what, [ADD_ANNA, *at_end])


def ranges() -> Iterator[Made]:
    """Withdrawals of a range of entries, of which a driver has three: the office alone asks for them."""
    entered = [ADD_ANNA, posting("/drivers/17/entries", OFFICE, THREE_DAYS)]

    def withdrawn(end: str, key: str = OFFICE, *fields: str, body: bytes = b"") -> bytes:
        return asking(f"POST /drivers/{end}", key, *fields, body=body)

    all_three, second = withdrawn("17/withdraw/1/3"), withdrawn("17/withdraw/2")
    entries = asking("GET /drivers/17/entries", OFFICE)
    yield made("range", 200, "three entries are withdrawn", [*entered, all_three])
    yield made("range", 200, "the entries are listed after all three were withdrawn", [*entered, all_three, entries])
    yield made("range", 200, "a range of one entry is withdrawn", [*entered, withdrawn("17/withdraw/2/2")])
    yield made("range", 200, "two ranges that touch are withdrawn", [*entered, withdrawn("17/withdraw/1/2"), withdrawn("17/withdraw/3/3")])
    yield made("range", 200, "hours that contradict entries are withdrawn with them, so that a card file is taken",
               [*entered, withdrawn("17/withdraw/1/1"), posting("/me/cards/both", DRIVER, SATURDAY), entries])
    yield made("range", 409, "three entries are withdrawn, of which one is withdrawn already (S8)", [*entered, second, all_three])
    yield made("range", 200, "no entry was withdrawn by a range that was refused", [*entered, second, all_three, entries])
    yield made("range", 404, "a range goes past the last entry (S7)", [*entered, withdrawn("17/withdraw/2/4")])
    yield made("range", 200, "no entry was withdrawn by a range that went past the last", [*entered, withdrawn("17/withdraw/2/4"), entries])
    yield made("range", 404, "a range begins after the last entry (S7)", [*entered, withdrawn("17/withdraw/4/1000000")])
    yield made("range", 409, "a range has an entry withdrawn already, and goes past the last after it: the least number says why (S8)",
               [*entered, second, withdrawn("17/withdraw/1/4")])
    for end, what in (("17/withdraw/2/1", "a range ends before it begins"), ("17/withdraw/10/9", "a range from 10 to 9, as numbers"),
                      ("18/withdraw/2/1", "a range ends before it begins, before an unknown driver")):
        yield made("range", 400, f"{what} (N2)", [*entered, withdrawn(end)])
    for end, what in (("017/withdraw/2/1", "a driver's number has a zero in front"), ("17/withdraw/0/1", "a range begins at 0"),
                      ("17/withdraw/2/0", "a range ends at 0"), ("17/withdraw/2/01", "the last number of a range has a zero in front"),
                      ("17/withdraw/1/1000001", "a range ends at 1000001"), ("18/withdraw/2/x", "a range ends at no number")):
        yield made("range", 400, f"{what} (N1)", [*entered, withdrawn(end)])
    yield made("range", 404, "a range of an unknown driver (S4)", [*entered, withdrawn("18/withdraw/1/2")])
    yield made("range", 403, "a driver may not withdraw a range", [*entered, withdrawn("17/withdraw/1/2", DRIVER)])
    yield made("range", 404, "a driver has no path for a range", [*entered, asking("POST /me/withdraw/1/2", DRIVER)])
    yield made("range", 405, "a range is asked for by GET", [*entered, asking("GET /drivers/17/withdraw/1/2", OFFICE)])
    for end in ("1/", "/1", "1/2/", "1/2/3"):
        yield made("range", 404, f"the path '/drivers/17/withdraw/{end}' isn't one", [*entered, withdrawn(f"17/withdraw/{end}")])
    yield made("range", 400, "the length 1 of a range", [*entered, withdrawn("17/withdraw/1/2", OFFICE, f"{LENGTH}1", body=b"\n")])


def names() -> Iterator[Made]:
    """Another name of a driver: the office alone gives it."""
    def named(name: bytes, number: str = "17", key: str = OFFICE) -> bytes:
        return posting(f"/drivers/{number}/name", key, name)

    listed = asking("GET /drivers", OFFICE)
    for name, what in (
        (b"Anna Lind", "a name"), (b"Anna Lind\n", "a name with LF after it"), (b"Anna Lind\r\n", "a name with CR LF after it"),
        (b"n", "a name of one byte"), (64 * b"n" + b"\r\n", "a name of 64 bytes, and CR LF"),
        (16 * "\U0001f69a".encode(), "a name of 16 letters of four bytes"), (b" ", "a name of one blank"),
    ):
        yield made("name", 200, f"{what} is given, and listed", [ADD_ANNA, named(name), listed])
    yield made("name", 200, "a driver gets another name", [ADD_ANNA, named(b"Anna Lind")])
    yield made("name", 200, "a driver gets the name of another one", [ADD_ANNA, ADD_BERT, named(b"Anna Berg", "18"), listed])
    yield made("name", 200, "a sheet has the new name", [*WITH_DAY, named(b"Anna Lind"), asking("GET /me/sheet/2024-03", DRIVER)])
    for name, what in (
        (b"", "no byte"), (b"\n", "LF alone"), (b"Lind, Anna", "a comma"), (b'Anna "Lind"', "double quotes"), (b"Anna\tLind", "a tab"),
        (b"Anna\x7f", "byte 127"), (b"Anna\r", "CR alone at the end"), (b"Anna\n\n", "two ends of a line"), (b"Anna\nLind", "two lines"),
        (65 * b"n", "65 bytes"), (b"Anna\xc3", "a letter that is cut"),
    ):
        yield made("name", 422, f"a name with {what} (E9)" if name else "no name (E9)", [ADD_ANNA, named(name)])
    yield made("name", 422, "a name with a comma (E9), before the driver is looked for", [ADD_ANNA, named(b"Lind, Anna", "18")])
    yield made("name", 400, "a name for a number with a zero in front (N1), before what is wrong with the name",
               [ADD_ANNA, named(b"", "017")])
    yield made("name", 404, "a name for an unknown driver (S4)", [ADD_ANNA, named(b"Anna Lind", "18")])
    yield made("name", 403, "a driver may not give a name", [ADD_ANNA, named(b"Anna Lind", "17", DRIVER)])
    yield made("name", 404, "a driver has no path '/me/name'", [ADD_ANNA, posting("/me/name", DRIVER, b"Anna Lind")])
    yield made("name", 405, "a name is asked for by GET", [ADD_ANNA, asking("GET /drivers/17/name", OFFICE)])
    yield made("name", 411, "a name without a length", [ADD_ANNA, asking("POST /drivers/17/name", OFFICE, body=b"Anna Lind")])
    yield made("name", 413, "a name of 262,145 bytes", [ADD_ANNA, asking("POST /drivers/17/name", OFFICE, f"{LENGTH}262145")])


def forms() -> Iterator[Made]:
    """The form for gaps before a day."""
    whole = [*WITH_DAY, ADD_HOURS]
    for who, key, whose in (("/drivers/17", OFFICE, "the office"), ("/me", DRIVER, "the driver")):
        for date, what in (
            ("2024-03-04", "the base"), ("2024-03-05", "the end of the first gap"), ("2024-03-06", "a day in the second gap"),
            ("2024-03-12", "a day after all that is held"), ("2000-01-03", "the first day that is read"),
        ):
            yield made("form", 200, f"the form as far as {what} is asked for by {whose}", [*whole, asking(f"GET {who}/form/{date}", key)])
    yield made("form", 200, "the form to a day of a driver who has nothing", [ADD_ANNA, asking("GET /me/form/2024-03-06", DRIVER)])
    years = [*WITH_DAY, asking("POST /drivers/17/base/2020-01-06", OFFICE)]
    for date, what in (("2021-01-06", "366 days"), ("2021-01-07", "367 days, in two rows")):
        yield made("form", 200, f"the form of {what}", [*years, asking(f"GET /drivers/17/form/{date}", OFFICE)])
    for number, date, status, what in (
        ("17", "2024-03", 400, "a month for a day (Z1)"), ("17", "2024-3-6", 400, "a day of another shape (Z1)"),
        ("17", "2024-02-30", 400, "30 February (Z2)"), ("17", "2000-01-02", 400, "a day before those that are read (Z3)"),
        ("17", "2100-01-01", 400, "a day of 2100 (Z3)"),
        ("017", "2024-02-30", 400, "a number with a zero in front (N1), before a wrong day"),
        ("18", "2024-02-30", 400, "30 February (Z2), before an unknown driver"), ("18", "2024-03-06", 404, "an unknown driver (S4)"),
    ):
        yield made("form", status, f"{what}, of a form", [ADD_ANNA, asking(f"GET /drivers/{number}/form/{date}", OFFICE)])
    path = "form/2024-03-06"
    yield made("form", 403, f"a driver may not GET '/drivers/17/{path}'", [ADD_ANNA, asking(f"GET /drivers/17/{path}", DRIVER)])
    yield made("form", 403, f"the office may not GET '/me/{path}'", [ADD_ANNA, asking(f"GET /me/{path}", OFFICE)])
    yield made("form", 405, f"the path '/me/{path}' hasn't the method POST", [ADD_ANNA, asking(f"POST /me/{path}", DRIVER)])
    for end in ("form/", f"{path}/", f"{path}/12:00"):
        yield made("form", 404, f"the path '/me/{end}' isn't one", [ADD_ANNA, asking(f"GET /me/{end}", DRIVER)])


def handovers() -> Iterator[Made]:
    """What is handed over of a period: a tar file, by the office and by the driver. It names the version of this program."""
    month, path = "2024-03-01/2024-04-01", "handover/2024-03-04/2024-03-06"
    whole = [*WITH_DAY, ADD_HOURS]
    for who, key, whose in (("/drivers/17", OFFICE, "the office"), ("/me", DRIVER, "the driver")):
        yield made("handover", 200, f"a card file, an entry and the gaps of a month are handed over to {whose}",
                   [*whole, asking(f"GET {who}/handover/{month}", key)])
    yield made("handover", 200, "a period of which nothing is held is handed over",
               [*whole, asking("GET /me/handover/2024-03-06/2024-03-09", DRIVER)])
    for number, period, status, what in (
        ("17", "2024-3-4/2024-02-30", 400, "a first day of another shape (Z1), before a second that isn't there"),
        ("17", "2024-02-30/2024-3-4", 400, "a first day that isn't there (Z2), before a second of another shape"),
        ("17", "2000-01-02/2024-02-30", 400, "a first day before those that are read (Z3), before a second that isn't there"),
        ("17", "2024-03-04/2024-3-6", 400, "a second day of another shape (Z1)"),
        ("17", "2024-03-04/2024-02-30", 400, "a second day that isn't there (Z2), and would be before the first"),
        ("17", "2024-03-04/2100-01-01", 400, "a second day of 2100 (Z3), before a period that is too long"),
        ("17", "2024-03-04/2024-03-04", 400, "a period of no day (Z4)"), ("17", "2024-01-01/2025-01-02", 400, "a period of 367 days (Z4)"),
        ("17", "2024-03-05/2024-03-04", 400, "a period that ends before it begins (Z4)"),
        ("017", "2024-02-30/2024-3-4", 400, "a number with a zero in front (N1), before wrong days"),
        ("18", "2024-03-05/2024-03-04", 400, "a period that ends before it begins (Z4), before an unknown driver"),
        ("18", "2024-01-01/2025-01-01", 404, "an unknown driver (S4), and a period of 366 days"),
    ):
        yield made("handover", status, f"{what}, of a handover", [ADD_ANNA, asking(f"GET /drivers/{number}/handover/{period}", OFFICE)])
    yield made("handover", 403, f"a driver may not GET '/drivers/17/{path}'", [ADD_ANNA, asking(f"GET /drivers/17/{path}", DRIVER)])
    yield made("handover", 403, f"the office may not GET '/me/{path}'", [ADD_ANNA, asking(f"GET /me/{path}", OFFICE)])
    yield made("handover", 405, f"the path '/me/{path}' hasn't the method POST", [ADD_ANNA, asking(f"POST /me/{path}", DRIVER)])
    for end in ("handover/2024-03-04", f"{path}/", f"{path}/12:00"):
        yield made("handover", 404, f"the path '/me/{end}' isn't one", [ADD_ANNA, asking(f"GET /me/{end}", DRIVER)])


def versions() -> Iterator[Made]:
    """Other versions of HTTP, of three digits and more."""
    for version in ("2.0", "3.0", "0.9", "1.11", "1.", "1.1 ", "01.1", "11.1"):
        yield made("version", 400, f"the version HTTP/{version}", [*WITH_DAY, OWN.replace(b"HTTP/1.1", f"HTTP/{version}".encode())])


UNREAD = ("host: a", "Host: b", "expect: 100-continue", "upgrade: h2c", "connection: upgrade, keep-alive", "range: bytes=0-1",
          "if-none-match: *", "accept: image/png", "accept-encoding: gzip", "cookie: x-key=1", "x-http-method-override: DELETE",
          "content-encoding: gzip", "content-type: application/json", "te: trailers", "x-forwarded-for: 10.0.0.1", "empty:")


def strict_heads() -> Iterator[Made]:
    """What other servers read, skip or refuse."""
    yield made("strict", 200, f"{len(UNREAD)} fields that aren't read, of a GET", [asking("GET /drivers", OFFICE, *UNREAD)])
    yield made("strict", 201, f"{len(UNREAD)} fields that aren't read, of a POST",
               [asking("POST /drivers", OFFICE, *UNREAD, f"{LENGTH}{len(BERT)}", body=BERT)])
    for path in ("/drivers/17/owed#all", "/drivers/./17/owed", "drivers", "\\drivers", "http://localhost/drivers", "/me/../drivers"):
        yield made("strict", 404, f"the path '{path}' isn't one", [asking(f"GET {path}", OFFICE)])
    yield made("strict", 400, "a blank within a path", [asking("GET /drivers/ 17/owed", OFFICE)])
    for number in ("+17", "17a", "\u0661\u0667", "1\u0667"):
        yield made("strict", 400, f"the driver's number '{number}' (N1)", [asking(f"GET /drivers/{number}/owed", OFFICE)])
    for month in ("2024-\u0660\u0663", "202403"):
        yield made("strict", 400, f"the month '{month}' (Z1)", [asking(f"GET /drivers/17/gaps/{month}", OFFICE)])
    for date in ("2024-03-0\u0664", "2024-W10-1"):
        yield made("strict", 400, f"the day '{date}' (Z1)", [asking(f"POST /drivers/17/base/{date}", OFFICE)])
    yield made("strict", 400, "a time with a digit of another alphabet (Z1)", [asking("GET /forecast/2024-03-04/0\u0664:00", OFFICE)])
    for old, new, what in (
        (b"x-key: anna-key-1\r\n", b"x-key: anna-key-1\r\n more\r\n", "a field's line that goes on in the next"),
        (b"HTTP/1.1", b"http/1.1", "the version in small letters"), (b" HTTP/1.1", b"  HTTP/1.1", "two blanks before the version"),
        (b"GET ", b"GET\t", "a tab after the method"), (b" HTTP/1.1", b"\tHTTP/1.1", "a tab before the version"),
    ):
        yield made("strict", 400, what, [OWN.replace(old, new)])
    own = "GET /me/owed"
    for request, what in (
        (asking(own, DRIVER.upper()), "a driver's key in capitals"),
        (asking(own, None, f"authorization: Bearer {DRIVER}"), "a driver's key in the field authorization"),
        (asking("GET /version", DRIVER), "a driver may not GET '/version'"),
        (asking("GET /me/version", OFFICE), "the office may not GET '/me/version'"),
        (asking("GET /me/driver", OFFICE), "the office may not GET '/me/driver'"),
    ):
        yield made("strict", 403, what, [ADD_ANNA, request])
    size = len(BERT)
    for length, status in ((f"{size // 10} {size % 10}", 400), (f"{size},{size}", 400), (f"{2**32 + size}", 413), (f"{2**31 + size}", 413)):
        yield made("strict", status, f"the length '{length}'", [asking("POST /drivers", OFFICE, LENGTH + length, body=BERT)])
    row = b"2024-03-04 00:00,2024-03-05 00:00,rest\n"
    thousand = HOURS_HEAD + b"\n" * (1_000 - len(HOURS_HEAD + row)) + row
    yield made("strict", 201, "the length '01000' is a thousand",
               [ADD_ANNA, asking("POST /drivers/17/entries", OFFICE, f"{LENGTH}01000", body=thousand)])


def body_first() -> Iterator[Made]:
    """What is wrong with the length of a body, beside what is wrong with an argument in the path."""
    for path in ("/drivers/017/entries", "/drivers/0/key", "/drivers/1000000/name", "/cards/whole"):
        yield made("body-first", 411, f"no length, beside the wrong argument in '{path}'", [ADD_ANNA, asking(f"POST {path}", OFFICE)])
        yield made("body-first", 413, f"a length of 262,145, beside the wrong argument in '{path}'",
                   [ADD_ANNA, asking(f"POST {path}", OFFICE, f"{LENGTH}262145")])
        yield made("body-first", 400, f"a length of letters, beside the wrong argument in '{path}'",
                   [ADD_ANNA, asking(f"POST {path}", OFFICE, f"{LENGTH}many")])
        yield made("body-first", 400, f"a body that lacks a byte, beside the wrong argument in '{path}'",
                   [ADD_ANNA, asking(f"POST {path}", OFFICE, f"{LENGTH}2", body=b"1")])
    for path in ("/drivers/017/withdraw/1", "/drivers/17/base/2100-02-30", "/drivers/17/withdraw/2/1"):
        yield made("body-first", 413, f"a length of 262,145, beside the wrong argument in '{path}', which has no body",
                   [ADD_ANNA, asking(f"POST {path}", OFFICE, f"{LENGTH}262145")])


def dates() -> Iterator[Made]:
    """Dates that aren't in the calendar, of years that aren't read, and the first and the last months."""
    for date, what in (("2100-02-30", "Z2"), ("2100-02-29", "Z2"), ("1999-02-29", "Z2"), ("2100-13-01", "Z2"), ("0000-00-00", "Z2"),
                       ("2100-01-01", "Z3"), ("2000-01-02", "Z3"), ("1999-12-31", "Z3"), ("2100-3-1", "Z1"), ("2100-02-3", "Z1")):
        yield made("date", 400, f"the base {date} ({what})", [ADD_ANNA, asking(f"POST /drivers/17/base/{date}", OFFICE)])
        yield made("date", 400, f"the form as far as {date} ({what})", [ADD_ANNA, asking(f"GET /me/form/{date}", DRIVER)])
    for minute in ("2100-02-30/12:00", "2100-01-01/24:00", "1999-12-31/23:60"):
        yield made("date", 400, f"a forecast from {minute} on (Z2, before Z3)", [ADD_ANNA, asking(f"GET /me/ahead/{minute}", DRIVER)])
    for day in ("2024-03-03", "2024-03-09", "2024-03-10"):
        yield made("date", 422, f"the base {day}, which isn't a Monday (S9)", [ADD_ANNA, asking(f"POST /drivers/17/base/{day}", OFFICE)])
    for month, what in (("2100-13", "Z2"), ("1999-00", "Z2"), ("2100-01", "Z3"), ("1999-12", "Z3")):
        yield made("date", 400, f"the gaps of {month} ({what})", [ADD_ANNA, asking(f"GET /me/gaps/{month}", DRIVER)])
    at_end = [ADD_ANNA, posting("/drivers/17/entries", OFFICE, HOURS_HEAD + b"2099-12-01 00:00,2099-12-31 23:59,rest\n")]
    for month in ("2000-01", "2099-12"):
        for what in ("gaps", "spans", "sheet"):
            yield made("date", 200, f"'{what}' of {month}, the {'first' if month < '2001' else 'last'} month that is read",
                       [*at_end, asking(f"GET /drivers/17/{what}/{month}", OFFICE)])
    ends = {"2024-04": 30, "2024-06": 30, "2024-09": 30, "2024-11": 30, "2024-12": 31, "2023-02": 28, "2028-02": 29}
    for month, last in ends.items():
        yield made("date", 200, f"the gaps of {month}, which has {last} days", [ADD_ANNA, asking(f"GET /me/gaps/{month}", DRIVER)])
        after = f"{month}-{last + 1}"
        yield made("date", 400, f"the base {after} (Z2)", [ADD_ANNA, asking(f"POST /drivers/17/base/{after}", OFFICE)])


def other_driver(number: str, holder: str, key: str, base: str) -> bytes:
    """The request that registers a driver with these columns."""
    return posting("/drivers", OFFICE, f"driver,holder,key,base,name\n{number},{holder},{key},{base},Carl\n".encode())


TAKEN = {"S1": "the number", "S2": "the key", "S3": "the card", "S9": "a base that isn't a Monday"}


def registrations() -> Iterator[Made]:
    """Registrations with several faults, of which the least is reported."""
    for count in (2, 3, 4):
        for faults in itertools.combinations(TAKEN, count):
            for taken_by, more in (("another driver", []), ("two other drivers", [ADD_BERT])):
                number, key, holder = "17", "anna-key-1", HOLDER
                if more:  # the last of these that is taken is Bert's
                    key = "bert-key-1"
                    holder = f"{HOLDER[:-1]}4"
                request = other_driver(
                    number if "S1" in faults else "19", holder if "S3" in faults else f"{HOLDER[:-1]}5",
                    key if "S2" in faults else "carl-key-1", "2024-03-05" if "S9" in faults else "2024-03-04")
                what = " and ".join(TAKEN[fault] for fault in faults)
                status = 422 if faults[0] == "S9" else 409
                yield made("registration", status, f"a driver has {what}, taken by {taken_by}: {faults[0]} comes first",
                           [ADD_ANNA, *more, request])


ENTER = "/drivers/17/entries"


def hours_of(*rows: str) -> bytes:
    """The request that enters rows of hours."""
    return posting(ENTER, OFFICE, HOURS_HEAD + "".join(f"{row}\n" for row in rows).encode())


def card_of(*records_of: tuple[int, list[int]]) -> bytes:
    """A card file of Anna with records of days, each with its words, and one more without words."""
    last, _ = records_of[-1]
    records = [random_cards.record(day, words) for day, words in records_of]
    value = random_cards.activity_data([*records, random_cards.record(last + 1, [])], 0, 0)
    return bytes.fromhex(CARD) + random_cards.block(random_cards.ACTIVITY, 0, value)


MONDAY = 19_786  # 2024-03-04
CREW = random_cards.word(0, 1, 3, 480)


def held_minutes() -> Iterator[Made]:
    """What contradicts, and what is added or repeated."""
    rest = hours_of("2024-03-04 00:00,2024-03-05 00:00,rest")
    for row, minute in (("2024-03-04 06:00,2024-03-04 07:00,work", "06:00"), ("2024-03-04 23:59,2024-03-05 07:00,drive", "23:59"),
                        ("2024-03-03 12:00,2024-03-04 00:01,available", "00:00")):
        yield made("held", 409, f"entered hours contradict entered hours at {minute} (S6)", [ADD_ANNA, rest, hours_of(row)])
    yield made("held", 201, "entered hours touch entered hours", [ADD_ANNA, rest, hours_of("2024-03-05 00:00,2024-03-05 07:00,drive")])
    yield made("held", 201, "the same hours are entered twice", [ADD_ANNA, rest, rest])
    yield made("held", 409, "entered hours contradict a card file (S6)", [*WITH_DAY, hours_of("2024-03-04 07:00,2024-03-04 09:00,rest")])
    yield made("held", 409, "the second row contradicts entered hours (S6), and nothing of the first is entered",
               [ADD_ANNA, rest, hours_of("2024-03-03 00:00,2024-03-03 01:00,work", "2024-03-04 00:00,2024-03-04 01:00,work")])
    yield made("held", 200, "after a refusal nothing of its hours is held",
               [ADD_ANNA, rest, hours_of("2024-03-03 00:00,2024-03-03 01:00,work", "2024-03-04 00:00,2024-03-04 01:00,work"),
                asking("GET /drivers/17/spans/2024-03", OFFICE)])
    day = [random_cards.word(0, 0, 0, 0)]
    whole = posting("/cards/both", OFFICE, card_of((MONDAY, day)))
    yield made("held", 201, "a card file of which all minutes were entered by hand, but none downloaded, is added", [ADD_ANNA, rest, whole])
    yield made("held", 201, "a card file of which half the minutes were downloaded, and the others entered by hand, is added",
               [ADD_ANNA, hours_of("2024-03-05 00:00,2024-03-06 00:00,rest"), whole,
                posting("/cards/both", OFFICE, card_of((MONDAY, day), (MONDAY + 1, day)))])
    part = posting("/cards/both", OFFICE, card_of((MONDAY, [random_cards.word(0, 0, 0, 300)])))
    yield made("held", 200, "another card file, all of whose minutes were downloaded, is repeated", [ADD_ANNA, whole, part])
    yield made("held", 200, "another card file, whose minutes two others gave together, is repeated",
               [ADD_ANNA, whole, posting("/cards/both", OFFICE, card_of((MONDAY + 1, day))),
                posting("/me/cards/first", DRIVER, card_of((MONDAY, day), (MONDAY + 1, day)))])
    yield made("held", 201, "another card file with one minute more is added",
               [ADD_ANNA, part, posting("/cards/both", OFFICE, card_of((MONDAY, [random_cards.word(0, 0, 0, 299)])))])
    other_day, crew_day = ([random_cards.word(0, crew, 2 - 2 * crew, 0)] for crew in (0, 1))
    for words_of, what in ((other_day, "in all its minutes"), (crew_day, "in the driving status alone"),
                           ([random_cards.word(0, 0, 0, 0), random_cards.word(0, 0, 2, 1439)], "in its last minute")):
        yield made("held", 409, f"a card file contradicts another one {what} (S6)",
                   [ADD_ANNA, whole, posting("/cards/both", OFFICE, card_of((MONDAY, words_of)))])
    yield made("held", 409, "entered hours contradict a card file in the driving status alone (S6)",
               [ADD_ANNA, posting("/cards/both", OFFICE, card_of((MONDAY, crew_day))), hours_of("2024-03-04 06:00,2024-03-04 07:00,rest")])
    yield made("held", 409, "two rows contradict entered hours (S6): the least minute of both is named",
               [ADD_ANNA, rest, hours_of("2024-03-04 06:00,2024-03-04 07:00,work", "2024-03-04 08:00,2024-03-04 09:00,work")])
    empty = posting("/cards/both", OFFICE, NOTHING)
    yield made("held", 200, "a card file without records is repeated, though it is the first", [ADD_ANNA, empty])
    yield made("held", 200, "a card file without records isn't listed", [ADD_ANNA, empty, asking("GET /me/files", DRIVER)])
    yield made("held", 200, "a card file that is repeated isn't listed", [ADD_ANNA, whole, part, asking("GET /me/files", DRIVER)])


OWING = ["2024-03-04 00:00,2024-03-04 06:00,rest", "2024-03-04 06:00,2024-03-04 07:00,work", "2024-03-04 07:00,2024-03-05 13:00,rest"]


def reports() -> Iterator[Made]:
    """What is printed of debts, of months, and of entries."""
    for past, what in (("2024-04-01 00:00", "is the horizon: it is late"),
                       ("2024-03-31 23:59", "is a minute after the horizon: it is open"),
                       ("2024-04-01 00:01", "is a minute before the horizon: it is late")):
        owing = [ADD_ANNA, hours_of(*OWING, f"2024-03-05 13:00,{past},work")]
        for path in ("owed", "debts", "breaches"):
            yield made("report", 200, f"'{path}' of a debt whose deadline {what}", [*owing, asking(f"GET /me/{path}", DRIVER)])
    paid = hours_of(*OWING, "2024-03-05 13:00,2024-03-12 00:00,work", "2024-03-12 00:00,2024-03-14 21:00,rest",
                    "2024-03-14 21:00,2024-03-14 22:00,work")
    yield made("report", 200, "'owed' of a debt that is paid", [ADD_ANNA, paid, asking("GET /me/owed", DRIVER)])
    over = [ADD_ANNA, hours_of("2024-03-04 00:00,2024-03-31 00:00,rest", "2024-03-31 00:00,2024-03-31 18:00,work",
                               "2024-03-31 18:00,2024-04-01 12:00,drive", "2024-04-01 12:00,2024-04-02 12:00,rest")]
    at_midnight = [ADD_ANNA, hours_of("2024-03-04 00:00,2024-03-31 19:30,rest", "2024-03-31 19:30,2024-04-01 02:00,drive",
                                      "2024-04-01 02:00,2024-04-02 12:00,rest")]
    for month in ("2024-03", "2024-04", "2024-05"):
        for what in ("sheet", "why"):
            told = f"'{what}' of {month}, where a breach stands in the month of its moment, and one of these is in March"
            yield made("report", 200, told, [*over, asking(f"GET /drivers/17/{what}/{month}", OFFICE)])
        yield made("report", 200, f"the sheet of {month}, where a breach has its moment on 1 April at 00:00",
                   [*at_midnight, asking(f"GET /drivers/17/sheet/{month}", OFFICE)])
    crew = [ADD_ANNA, posting("/cards/both", OFFICE, card_of((MONDAY, [random_cards.word(0, 1, kind, 300 * kind) for kind in range(4)])))]
    for what in ("sheet/2024-03", "spans/2024-03", "breaches", "stretches"):
        yield made("report", 200, f"'{what}' of a day with a second driver", [*crew, asking(f"GET /drivers/17/{what}", OFFICE)])
    yield made("report", 200, "'sheet' of a day whose driving has a second driver from 08:00 on",
               [ADD_ANNA, posting("/cards/both", OFFICE, card_of((MONDAY, [random_cards.word(0, 0, 3, 0), CREW]))),
                asking("GET /drivers/17/sheet/2024-03", OFFICE)])
    months = [ADD_ANNA, hours_of("2024-02-28 12:00,2024-04-02 00:00,rest")]
    for month in ("2024-01", "2024-02", "2024-03", "2024-04", "2024-05"):
        for what in ("spans", "gaps"):
            yield made("report", 200, f"'{what}' of {month}, cut at the month's ends, of rest from February to April",
                       [*months, asking(f"GET /me/{what}/{month}", DRIVER)])
    again = hours_of("2024-03-04 00:00,2024-03-05 00:00,work")
    yield made("held", 201, "after an entry was withdrawn others are entered in its place, and get the next number",
               [ADD_ANNA, hours_of("2024-03-04 00:00,2024-03-05 00:00,rest"),
                asking("POST /drivers/17/withdraw/1", OFFICE, f"{LENGTH}0"), again])
    two = [ADD_ANNA, hours_of("2024-03-04 00:00,2024-03-05 00:00,rest", "2024-03-05 00:00,2024-03-06 00:00,rest")]
    for number in (1, 2):
        gone = asking(f"POST /drivers/17/withdraw/{number}", OFFICE, f"{LENGTH}0")
        for what in ("entries", "spans/2024-03", "gaps/2024-03"):
            yield made("report", 200, f"'{what}' of two entries, of which number {number} was withdrawn",
                       [*two, gone, asking(f"GET /drivers/17/{what}", OFFICE)])


def requests() -> list[Made]:
    """All cases of requests."""
    makers = (
        heads, limits, keys, paths, bodies, arguments, refusals, done, single_bytes, forecasts, of_all_drivers, ranges, names, forms,
        handovers, versions, strict_heads, body_first, dates, registrations, held_minutes, reports,
    )
    return [one for maker in makers for one in maker()]
