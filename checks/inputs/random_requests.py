"""Random requests from a seed, by the office, by drivers and by nobody: commands and readings over what the requests before have left,
as they should be, and with other methods, paths, keys, lengths, fields or bytes, some of them at the limits of a head and of a body."""
from collections.abc import Callable, Sequence

from inputs import random_cards, random_commands
from lib import commands, office_lines
from slow import slow_office, slow_server
from slow.slow_office import Command

Field = tuple[str, str]  # name and value

REQUESTS = 40
OFFICE_KEY = "office-key-1"
UNKNOWN_KEYS = ["carl-key-1", "", "office-key-", "office-key-11", "OFFICE-KEY-1", "office-key-1, anna-key-1", '"office-key-1"']

# By the name of a command: the office's paths, and a driver's. A driver's import has a name of its own.
PATHS = {name: command.office for name, command in commands.REQUESTS.items()} | {"own": [""]}
OWN_PATHS = {name: command.driver for name, command in commands.REQUESTS.items()} | {"own": commands.REQUESTS["import"].driver}
OWN = ["own", *(name for name, command in commands.REQUESTS.items() if command.method == "GET" and command.driver)]
POSTED = ["own", *(name for name, command in commands.REQUESTS.items() if command.method == "POST")]
WITH_INPUT = ["own", *(name for name, command in commands.REQUESTS.items() if command.input)]

METHODS = ["GET", "POST", "PUT", "DELETE", "HEAD", "get", "Post", "PATCH", "OPTIONS", "G", "GET!"]
OTHER_PATHS = [
    "/",
    "*",
    "/nothing",
    "/Drivers",
    "/drivers/",
    "/drivers/17/17",
    "/drivers//breaches",
    "/drivers/17/breaches/",
    "/drivers/17/breaches?month=2024-03",
    "/drivers/%31%37/breaches",
    "/drivers/17/sheet/2024-03/",
    "/drivers/17/sheet/2024/03",
    "/drivers/" + 5_000 * "1" + "/breaches",
    "/drivers/\u0661\u0667/breaches",
    "/drivers/{n}/breaches",
    "//drivers",
    "/cards/",
    "/cards/both/both",
    "/me",
    "/me/",
    "/me/breaches/17",
    "/me/withdraw/1",
    "/me/withdraw/1/2",
    "/drivers/17/withdraw/1/2/3",
    "/drivers/17/withdraw/1/",
    "/me/name",
    "/drivers/17/name/Anna",
    "/me/cards/b\u00f6th",
    "/drivers/17/files/",
    "/drivers/17/why",
    "/drivers/17/ahead/2024-03-05",
    "/me/ahead/2024-03-05/12:00/",
    "/drivers/17/form/2024-03",
    "/drivers/17/form/2024-03-11/12:00",
    "/me/form/",
    "/drivers/17/handover/2024-03-04",
    "/me/handover/2024-03-04/2024-03-05/",
    "/handover/2024-03-04/2024-03-05",
    "/overview",
    "/overview/2024-03/17",
    "/incidents/",
    "/forecast/2024-03-05",
    "/me/forecast/2024-03-05/12:00",
    "/standing",
    "/me/standing/2024-03",
    "/me/chart/",
    "/me/drivers",
    "/me/overview/2024-03",
    "/version/2",
    "/me/version/",
    "/drivers/17/version",
    "http://127.0.0.1/me/breaches",
]
# Lengths that a request gives; '{}' is the body's own.
LENGTHS = ["00{}", "{:012}", "{:013}", "+{}", "-{}", "{},{}", "{} {}", "{}.0", "0x{:x}", "", "0", "1", "262144", "262145", "999999999999"]
OTHER_FIELDS = [
    ("host", "127.0.0.1:8017"),
    ("user-agent", "curl/8"),
    ("accept", "*/*"),
    ("connection", "keep-alive"),
    ("expect", "100-continue"),
    ("content-type", "text/csv"),
    ("x-keys", "office-key-1"),
    ("x-key-", "office-key-1"),
    ("content-length-", "1"),
    ("x-name", "Zo\u00eb\tBerg"),
    ("!#$%&'*+-.^_`|~", ""),
]
CODINGS = ["chunked", "identity", ""]
HEAD_LENGTHS = [slow_server.HEAD_LIMIT + more for more in (-1, 0, 1, 900)]
COUNTS = [slow_server.FIELD_LIMIT + more for more in (-1, 0, 1, 2)]
CUT_TARGETS = [b"GET /", b"GET /\xff", b"GET /\xc3\xa4", b"GET /\xe2\x82"]
LONGEST_BLOCK = 65_535


class Parts:
    """The parts of a request."""

    def __init__(self, method: str, target: str, fields: list[Field], body: bytes) -> None:
        self.before = b""
        self.method = method
        self.target = target
        self.version = "HTTP/1.1"
        self.fields = fields
        self.body = body
        self.after = b""
        self.end = "\r\n"

    def without(self, name: str) -> list[Field]:
        """The fields but for those of a name."""
        return [field for field in self.fields if field[0].lower() != name]

    def head(self) -> bytes:
        """The bytes of the head."""
        lines = [f"{self.method} {self.target} {self.version}", *[f"{name}:{value}" for name, value in self.fields], "", ""]
        return self.before + self.end.join(lines).encode()

    def written(self) -> bytes:
        """All bytes."""
        return self.head() + self.body + self.after


def with_parts(paths: Sequence[str], count: int) -> str:
    """The path that has a count of parts in braces, or none."""
    return next((path for path in paths if path.count("{") == count), "")


def padded_file(file: bytes, length: int) -> bytes:
    """A card file of a length, with blocks after it that are not read."""
    while length - len(file) > 5:
        missing = length - len(file)
        size = missing - 5 if missing <= LONGEST_BLOCK else LONGEST_BLOCK - 10
        file += random_cards.block(0x0501, 0, bytes(size))
    return file


class Requests(office_lines.Lines):
    """Requests of a seed."""

    def __init__(self, seed: int) -> None:
        super().__init__(seed)
        # The office may have a key that a driver has too.
        self.office_key = random_commands.KEYS[1] if seed % 5 == 4 else OFFICE_KEY
        self.server = slow_server.Server(self.office, self.office_key)

    def import_new(self) -> Command:
        """The import of a new file by the office or by a driver."""
        return random_commands.Commands.import_new(self)

    def reading(self) -> Command:
        """A reading that has a path: `check` and `migrate` are the command line's alone. Often enough the version, the line of a driver,
        and a file that is there."""
        if self.chance.random() < 0.05:
            return ["version"], b""
        if self.chance.random() < 0.05:
            return ["drivers", str(self.number())], b""
        if self.chance.random() < 0.05:
            kept = [driver.number for driver in self.drivers.values() if driver.downloads]
            return ["file", str(self.chance.choice(kept or [17])), "1"], b""
        words, given = super().reading()
        return (words, given) if words[0] in PATHS else self.reading()

    def spoiled(self, words: list[str], given: bytes) -> Command:
        """The same with another argument, or with another input."""
        if words[0] == "own":
            return ["own", words[1], self.chance.choice(office_lines.BAD_PARTS)], given
        return super().spoiled(words, given)

    # A request as it should be

    def any_key(self) -> str:
        """The key of a driver, or one that a driver may have."""
        return self.chance.choice([driver.key for driver in self.drivers.values()] or random_commands.KEYS)

    def key_of(self, number: str) -> str:
        """The key of the driver with a number, if there is one, or else any."""
        keys = [driver.key for driver in self.drivers.values() if str(driver.number) == number]
        return keys[0] if keys else self.any_key()

    def parts(self, words: Sequence[str], given: bytes) -> Parts:
        """The parts of the request that asks for a command: of some readings of a driver that by them."""
        command, *others = words
        is_input = command in WITH_INPUT
        is_own = command == "own" or command in OWN and self.chance.random() < 0.4
        path = with_parts(PATHS[command], len(others))
        driver, *ends = others if command == "own" or "{driver}" in path else ["", *others]
        if is_own:
            path = with_parts(OWN_PATHS[command], len(ends))
        for end in ends:
            path = path.replace("{word}" if "{word}" in path else "{next}", end, 1)
        fields = [("x-key", (self.key_of(others[0]) if others else self.any_key()) if is_own else self.office_key)]
        if is_input or command in POSTED and self.chance.random() < 0.5:
            fields.append(("content-length", str(len(given))))
        method = "POST" if command in POSTED else "GET"
        return Parts(method, path.replace("{driver}", driver), fields, given if is_input else b"")

    def dressed(self, name: str) -> str:
        """The name of a field in any case."""
        return self.chance.choice([name, name.title(), name.upper(), name.swapcase(), "".join(map(self.in_case, name))])

    def in_case(self, letter: str) -> str:
        """A letter in any case."""
        return self.chance.choice([letter.lower(), letter.upper()])

    def dress(self, parts: Parts) -> None:
        """Writes a request in another way that means the same."""
        parts.fields += self.chance.sample(OTHER_FIELDS, self.chance.choice([0, 0, 1, 3, 5]))
        self.chance.shuffle(parts.fields)
        blanks = ["", " ", " ", " ", "\t", " \t  "]
        parts.fields = [
            (self.dressed(name), self.chance.choice(blanks) + value + self.chance.choice(["", "", *blanks]))
            for name, value in parts.fields
        ]
        parts.version = self.chance.choice(["HTTP/1.1", "HTTP/1.1", "HTTP/1.0"])
        parts.end = self.chance.choice(["\r\n", "\r\n", "\n"])
        parts.before = self.chance.choice([b"", b"", b"", b"\r\n", b"\n\r\n"])
        if self.chance.random() < 0.2:
            parts.after = self.chance.choice([b"\r\n", b"\0", b"GET /me/owed HTTP/1.1\r\n\r\n", bytes(1_000)])

    # Requests that aren't

    def other_method(self, parts: Parts) -> None:
        """Another method."""
        parts.method = self.chance.choice(METHODS)

    def other_path(self, parts: Parts) -> None:
        """Another path, or one of another caller."""
        parts.target = self.chance.choice([*OTHER_PATHS, parts.target.replace("/drivers/17", "/me"), *slow_server.ROUTES])

    def other_key(self, parts: Parts) -> None:
        """Another caller, or none, or more than one."""
        keys = [self.office_key, self.any_key(), self.any_key(), self.chance.choice(UNKNOWN_KEYS)]
        count = self.chance.choice([0, 1, 1, 1, 1, 2])
        parts.fields = parts.without("x-key") + [("x-key", key) for key in self.chance.sample(keys, count)]

    def same_key_twice(self, parts: Parts) -> None:
        """The key, twice."""
        parts.fields += [field for field in parts.fields if field[0] == "x-key"]

    def other_length(self, parts: Parts) -> None:
        """Another length of the body, or none, or more than one."""
        length = len(parts.body)
        near = [str(max(length + more, 0)) for more in (-1, 1)] + [str(length // 2), str(length)]
        lengths = [self.chance.choice([*near, *[text.format(length, length) for text in LENGTHS]]) for _ in range(2)]
        lengths = lengths[: self.chance.choice([0, 1, 1, 1, 2])]
        parts.fields = parts.without("content-length") + [("content-length", text) for text in lengths]

    def coded(self, parts: Parts) -> None:
        """A coding of the body."""
        parts.fields.append(("transfer-encoding", self.chance.choice(CODINGS)))

    def short_body(self, parts: Parts) -> None:
        """A body that ends too soon."""
        parts.body = parts.body[: self.chance.randrange(len(parts.body) + 1)]

    def many_fields(self, parts: Parts) -> None:
        """About as many fields as a head may have."""
        missing = self.chance.choice(COUNTS) - len(parts.fields)
        parts.fields = [("a", "b")] * missing + parts.fields

    def long_head(self, parts: Parts) -> None:
        """A head of about as many bytes as it may have."""
        parts.fields.append(("x-pad", ""))
        missing = self.chance.choice(HEAD_LENGTHS) - len(parts.head())
        parts.fields[-1] = ("x-pad", max(missing, 0) * "p")

    def large_body(self, parts: Parts) -> None:
        """A body of about as many bytes as it may have."""
        limit = slow_office.INPUT_LIMIT + self.chance.choice([0, 1])
        body = parts.body or b"\n"
        parts.body = padded_file(body, limit) if "/cards/" in parts.target else body + (limit - len(body)) * b"\n"
        parts.fields = parts.without("content-length") + [("content-length", str(len(parts.body)))]

    def change(self, parts: Parts) -> None:
        """Does one of these, a large body less often than others."""
        kinds: list[Callable[[Parts], None]] = [self.other_method, self.other_path, self.other_key, self.other_key]
        kinds += [self.same_key_twice, self.other_length]
        kinds += [self.other_length, self.coded, self.short_body, self.many_fields, self.long_head]
        self.chance.choice(kinds * 2 + [self.large_body])(parts)

    # Bytes

    def cut(self, given: bytes) -> bytes:
        """The same, cut off in its head, perhaps where there are as many fields as there may be, or no more than a target."""
        if self.chance.random() < 0.2:
            return self.chance.choice(CUT_TARGETS) + self.chance.choice([0, 9_000]) * b"a"
        return given[: self.chance.randrange(given.index(b"\n") + 30)]

    def with_other_byte(self, given: bytes) -> bytes:
        """The same with another byte in the head, or with one more."""
        place = self.chance.randrange(min(len(given), 200))
        byte = bytes([self.chance.choice([0, 9, 10, 13, 32, 58, 127, 128, 255, self.chance.randrange(256)])])
        return given[:place] + byte + given[place + self.chance.choice([0, 1, 1]) :]

    def request(self, words: Sequence[str], given: bytes) -> bytes:
        """The bytes of a request that asks for a command, or nearly so."""
        parts = self.parts(words, given)
        if self.chance.random() < 0.3:
            self.change(parts)
        self.dress(parts)
        made = parts.written()
        kind = self.chance.random()
        if kind < 0.05:
            return self.cut(made)
        return self.with_other_byte(made) if kind < 0.12 else made

    def requests(self) -> list[bytes]:
        """The requests: some drivers first, then weeks of one of them, and then anything."""
        made = [self.parts(*line).written() for line in [*self.registrations(), self.weeks()]]
        for request in made:
            self.server.replies(request)
        while len(made) < REQUESTS:
            made.append(self.request(*self.line()))
            self.server.replies(made[-1])
        return made
