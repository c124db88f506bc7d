"""The program as a server on an archive: requests and replies as bytes, connections, and a slow server beside it."""
import contextlib
import functools
import itertools
import os
import pathlib
import random
import socket
import subprocess
import tempfile
import time
from collections import namedtuple
from collections.abc import Iterable, Sequence

from lib.advice import without_sentence
from lib.archive import of_tables
from lib.counting import Comparison, Comparisons
from lib.office import Desk
from lib.office_rows import BREACH, EXAMINED
from lib.programs import Told
from slow import slow_office, slow_server
from slow.slow_office import Command

HOST = "127.0.0.1"
FIRST_PORT, LAST_PORT = 12_000, 32_000  # below those that the system gives to clients
BLOCK = 100  # ports that a process has for itself
NUMBERS = itertools.count()
SECONDS = 30
OFFICE = "office-key-1"
DRIVER = "anna-key-1"
TEXT = "text/plain; charset=utf-8"
STORED = "application/octet-stream"
CSV = "text/csv; charset=utf-8"
SVG = "image/svg+xml"
TAR = "application/x-tar"


# Replies


def told(status: str, length: int, body: bytes | str, kind: str = TEXT) -> bytes:
    """A reply: its status and phrase, the length that its head gives, and its body."""
    head = f"HTTP/1.1 {status}\r\ncontent-type: {kind}\r\ncontent-length: {length}\r\nconnection: close\r\n\r\n"
    return head.encode() + (body if isinstance(body, bytes) else body.encode())


def line(status: str, length: int, text: str) -> bytes:
    """A reply of one line."""
    return told(status, length, f"{text}\n")


BAD = line("400 Bad Request", 12, "bad request")
FORBIDDEN = line("403 Forbidden", 10, "forbidden")
NOT_FOUND = line("404 Not Found", 10, "not found")
OTHER_METHOD = line("405 Method Not Allowed", 19, "method not allowed")
NO_LENGTH = line("411 Length Required", 16, "length required")
TOO_LARGE = line("413 Payload Too Large", 10, "too large")
LARGE_HEAD = line("431 Request Header Fields Too Large", 15, "head too large")
UNAVAILABLE = line("503 Service Unavailable", 12, "unavailable")
BAD_NUMBER = line("400 Bad Request", 14, "N1 bad number")
NO_DATE = line("400 Bad Request", 16, "Z2 no such date")
NO_PERIOD = line("400 Bad Request", 10, "Z4 period")
BREACHES = told("200 OK", 100, BREACH + EXAMINED)
ADDED = line("201 Created", 25, "added driver 17 number 1")
REPEATED = line("200 OK", 19, "repeated driver 17")


# Requests


def asking(first: str, key: str | None, *fields: str, body: bytes = b"") -> bytes:
    """The bytes of a request."""
    keys = [] if key is None else [f"x-key: {key}"]
    return "\r\n".join([f"{first} HTTP/1.1", *keys, *fields, "", ""]).encode() + body


def posting(path: str, key: str | None, body: bytes, *fields: str) -> bytes:
    """The bytes of a request with a body."""
    return asking(f"POST {path}", key, f"content-length: {len(body)}", *fields, body=body)


OWN = b"GET /me/breaches HTTP/1.1\r\nx-key: anna-key-1\r\n\r\n"
COUNTED = "content-length: "


# The program

# What the program prints, and its status, if it doesn't begin to serve.
BAD_KEY = (b"E9 bad value for key\n", 1)
NO_PORT = (b"X2 device failed\n", 3)

# The same if it has served all connections, and what it prints on standard error.
ENDED = (b"", 0, b"")


@functools.cache
def block_of(process: int) -> socket.socket:
    """A socket at the first port of a block, which is this process's own as long as it runs: no other process that compares servers
    takes a port of it, nor does the system for a client."""
    for first in range(FIRST_PORT, LAST_PORT, BLOCK):
        with contextlib.suppress(OSError):
            return socket.create_server((HOST, first))
    raise RuntimeError(f"process {process} finds no free block of ports")


def free_port() -> int:
    """A port on which nobody listens, the next of this process's block."""
    first = block_of(os.getpid()).getsockname()[1]
    for number in NUMBERS:
        port = first + 1 + number % (BLOCK - 1)
        with contextlib.suppress(OSError), socket.create_server((HOST, port)):
            return port
    raise RuntimeError("no port is free")


def sent(connection: socket.socket, pieces: Iterable[bytes]) -> None:
    """Sends the pieces of a request. The program may have replied and hung up before it has read all."""
    connection.setsockopt(socket.IPPROTO_TCP, socket.TCP_NODELAY, 1)
    with contextlib.suppress(BrokenPipeError, ConnectionResetError):
        for number, piece in enumerate(pieces):
            time.sleep(0.001 if number else 0)
            connection.sendall(piece)


def received(connection: socket.socket) -> bytes:
    """All bytes of a reply, up to the end of the connection. If the program hasn't read all of the request, it ends as broken."""
    found = b""
    with contextlib.suppress(ConnectionResetError):
        while piece := connection.recv(65_536):
            found += piece
    return found


class Serving:
    """The program as a server on an archive, for a number of connections, with some more names in its environment. If it listens, it
    gets the office's key as its input."""

    def __init__(self, program: str, path: str, key: str, count: int, environment: dict[str, str] | None = None,
                 listens: bool = False) -> None:
        self.port = free_port()
        self.path = path
        self.errors = b""
        numbers = [str(self.port), str(count)]
        words = [program, "listen", path, *numbers] if listens else [program, "serve", path, key, *numbers]
        self.process = subprocess.Popen(words, env={**os.environ, **(environment or {})}, stdout=subprocess.PIPE, stderr=subprocess.PIPE,
                                        stdin=subprocess.PIPE if listens else subprocess.DEVNULL)
        if self.process.stdin:
            self.process.stdin.write(key.encode())
            self.process.stdin.close()
            self.process.stdin = None
        self.lost: str | None = None

    def __enter__(self) -> "Serving":
        return self

    def __exit__(self, *_: object) -> None:
        self.process.kill()
        self.process.communicate()

    def connection(self) -> socket.socket:
        """A new connection. The first has to wait until the program listens."""
        last = time.monotonic() + SECONDS
        while True:
            try:
                return socket.create_connection((HOST, self.port), SECONDS)
            except ConnectionRefusedError:
                if self.process.poll() is not None or time.monotonic() > last:
                    raise
                time.sleep(0.01)

    def wait(self) -> None:
        """Waits until the program listens, without a connection."""
        last = time.monotonic() + SECONDS
        while f" 0100007F:{self.port:04X} 00000000:0000 0A " not in pathlib.Path("/proc/net/tcp").read_text(encoding="ascii"):
            if self.process.poll() is not None or time.monotonic() > last:
                raise ConnectionRefusedError
            time.sleep(0.01)

    def ask(self, pieces: Iterable[bytes], waits: bool) -> bytes | str:
        """The reply to a request in pieces, or why there was none; then no other is asked for. Where the program waits for it, the
        request is ended."""
        if self.lost:
            return self.lost
        try:
            with self.connection() as connection:
                sent(connection, pieces)
                if waits:
                    with contextlib.suppress(OSError):
                        connection.shutdown(socket.SHUT_WR)
                return received(connection)
        except OSError as fault:
            self.lost = repr(fault)
            return self.lost

    def end(self) -> Told | str:
        """What the program has printed, and its status, after its last connection; on standard error but for the sentence of its fault."""
        if self.lost:
            return self.lost
        try:
            text, self.errors = self.process.communicate(timeout=SECONDS)
        except subprocess.TimeoutExpired as fault:
            return repr(fault)
        status = self.process.returncode
        return text, status, without_sentence(self.path.encode(), text, status, self.errors)


# Comparisons

Asked = namedtuple("Asked", "name request replies waits")


def server_after(commands: Iterable[Command], key: str = OFFICE) -> slow_server.Server:
    """The slow server over an office that was given commands."""
    office = slow_office.Office()
    for command in commands:
        office.answer(*command)
    return slow_server.Server(office, key)


def asked_of(server: slow_server.Server, named: Iterable[tuple[str, bytes]]) -> list[Asked]:
    """Named requests, one after the other, with the replies of which one is right, and whether they wait for their end."""
    asked = []
    for name, request in named:
        waits = server.waits(request)
        asked.append(Asked(name, request, server.replies(request), waits))
    return asked


def one_of(name: str, given: bytes | str, replies: Sequence[bytes]) -> Comparison:
    """The comparison of a reply with those of which one is right."""
    return name, given, given if given in replies else replies[0]


def pieces_of(chance: random.Random, request: bytes) -> list[bytes]:
    """A request in pieces: mostly in one, else cut at a few places."""
    if chance.random() < 0.7:
        return [request]
    places = sorted(chance.randrange(len(request) + 1) for _ in range(chance.randrange(1, 4)))
    return [request[start:past] for start, past in zip([0, *places], [*places, len(request)])]


def of_asked(program: str, name: str, commands: Iterable[Command], asked: Sequence[Asked], server: slow_server.Server) -> Comparisons:
    """The comparisons of requests to the program, on an archive that was given commands, and of its tables after them with those of the
    slow server, which has had the same requests."""
    chance = random.Random(name)
    with tempfile.TemporaryDirectory() as folder:
        desk = Desk(program, folder)
        desk.prepare(commands)
        with Serving(program, desk.path, server.office_key.decode(), len(asked)) as serving:
            for one in asked:
                yield one_of(f"{name}: {one.name}", serving.ask(pieces_of(chance, one.request), one.waits), one.replies)
            yield f"{name}: the end", serving.end(), ENDED
        yield of_tables(name, desk.path, server.office.archive)
