#!/usr/bin/env python3
"""Starts the program as a server on archives in files and keeps it waiting: by clients that are slow or silent, or go on after their
reply, by signals that stop it for a while, and by a lack of files. It has to wait as long as docs/OFFICE.md says and no longer, and then to
answer who has come after them. Silent clients hold up nobody.

Most of the time nothing happens, and so all parts run side by side, each with a server and clients of its own. Argument: the program.
The last line is 'N passed, M failed'."""
import contextlib
import itertools
import multiprocessing
import os
import resource
import select
import signal
import socket
import subprocess
import sys
import tempfile
import time
from typing import Any

from lib import counting
from lib.advice import without_sentence
from lib.office import WITH_ANNA, Desk
from lib.office_rows import DAY, LARGEST_DAY, LIMIT
from lib.server import (
    BAD, BREACHES, COUNTED, ENDED, FORBIDDEN, NO_PORT, OFFICE, OWN, REPEATED, STORED, TOO_LARGE, Serving, asking, posting, received,
    server_after, told,
)

# Between how many seconds the program may take. The system wakes a call that waits up to an eighth too late, and a busy machine later.
CONNECTION = (29.5, 45)
LINGERING = (1.9, 10)
FILES = (29.5, 60)
SOON = (0, 5)
SILENT = (4.9, 10)
AT_ONCE = (0, 2)  # that a request waits beside silent clients, as many as are held
AFTER_A_WHILE = (0.2, 3)  # that it waits beside more of them
LATE = 3  # seconds after which a silent client sends its request
LONGEST = 65  # after that a client gives up
PIECE = bytes(65_536)

PADDING = f"x-pad: {200 * 'p'}"
DRIPPED = asking("GET /me/breaches", None, PADDING)
UNKNOWN_KEY = "anna-key-2"
UNKNOWN = asking("GET /me/breaches", UNKNOWN_KEY)
UNKNOWN_FRONT = posting("/drivers", UNKNOWN_KEY, PIECE)[: -len(PIECE)]
FILE = asking("GET /drivers/17/files/1", OFFICE)
CHART = asking("GET /drivers/17/chart/2024-03", OFFICE)
WITH_DAY = [*WITH_ANNA, (["import", "both"], DAY)]
UNREAD = 4_000_000  # bytes of a body that is refused by its length


def pieces_of(request):
    """The bytes of a request, each by itself."""
    return [bytes([byte]) for byte in request]


def within(seconds, limits):
    """True if a time lies between two others, else the time."""
    least, most = limits
    return least <= seconds <= most or round(seconds, 2)


@contextlib.contextmanager
def served(program, count, file=DAY):
    """The program as a server, for a number of connections, on an archive that has Anna and a card file of hers."""
    with tempfile.TemporaryDirectory() as folder:
        desk = Desk(program, folder)
        desk.prepare([*WITH_ANNA, (["import", "both"], file)])
        with Serving(program, desk.path, OFFICE, count) as serving:
            yield serving


def timed(function, *words):
    """What a function answers, and how many seconds it takes."""
    start = time.monotonic()
    return function(*words), time.monotonic() - start


def drip(connection, pieces, pause):
    """Sends a piece and waits, again and again, until the other end closes: what came from there."""
    last = time.monotonic() + LONGEST
    connection.settimeout(pause)
    found = b""
    with contextlib.suppress(ConnectionResetError, BrokenPipeError):
        for piece in pieces:
            connection.sendall(piece)
            with contextlib.suppress(TimeoutError):
                given = connection.recv(65_536)
                found += given
                if not given:
                    break
            if time.monotonic() > last:
                break
    return found


def push(connection, piece, pause):
    """Sends a piece again and again, until the other end takes no more."""
    last = time.monotonic() + LONGEST
    connection.settimeout(LONGEST)
    with contextlib.suppress(OSError):
        while time.monotonic() < last:
            connection.sendall(piece)
            time.sleep(pause)


def of_slow(program, name, front, pieces):
    """The comparisons of a client whose request doesn't come to its end, and of the one after it."""
    with served(program, 2) as serving, serving.connection() as slow, serving.connection() as other:
        slow.sendall(front)
        other.sendall(OWN)
        found, seconds = timed(drip, slow, pieces, 1)
        yield f"{name}: what is replied", found, b""
        yield f"{name}: the seconds", within(seconds, CONNECTION), True
        yield f"{name}: the next", timed_reply(other), (BREACHES, True)
        yield f"{name}: the end", serving.end(), ENDED


def timed_reply(connection):
    """The reply over a connection whose request has been sent, and whether it comes soon."""
    connection.settimeout(LONGEST)
    found, seconds = timed(received, connection)
    return found, within(seconds, SOON)


def of_pushing(program, name, piece, pause):
    """The comparisons of a client that goes on sending after its request, and of the one after it."""
    with served(program, 2) as serving, serving.connection() as pushing, serving.connection() as other:
        pushing.sendall(OWN)
        other.sendall(OWN)
        _, seconds = timed(push, pushing, piece, pause)
        yield f"{name}: the seconds", within(seconds, LINGERING), True
        yield f"{name}: the next", timed_reply(other), (BREACHES, True)
        yield f"{name}: the end", serving.end(), ENDED


def of_answered(program, name, front, reply):
    """The comparisons of a client that has its reply soon, takes it whole, and then sends a byte a second, and of the one after it."""
    with served(program, 2) as serving, serving.connection() as answered, serving.connection() as other:
        answered.sendall(front)
        other.sendall(OWN)
        yield f"{name}: its reply", timed_reply(answered), (reply, True)
        _, seconds = timed(push, answered, b"p", 1)
        yield f"{name}: the seconds", within(seconds, LINGERING), True
        yield f"{name}: the next", timed_reply(other), (BREACHES, True)
        yield f"{name}: the end", serving.end(), ENDED


def of_silent(program, name, number, limits):
    """The comparisons of a request beside a number of clients that send nothing, and of what becomes of them."""
    with served(program, number + 1) as serving, contextlib.ExitStack() as clients:
        silent = [clients.enter_context(serving.connection()) for _ in range(number)]
        reply, seconds = timed(serving.ask, [OWN], False)
        yield f"{name}: the request", (reply, within(seconds, limits)), (BREACHES, True)
        left, seconds = timed(lambda: [received(client) for client in silent])
        yield f"{name}: what is replied to them", set(left), {b""}
        yield f"{name}: until they are closed", within(seconds, (0, SILENT[1])), True
        yield f"{name}: the end", serving.end(), ENDED


def of_late(program):
    """The comparisons of clients that stay silent, that send their request late, and that end their input instead."""
    name = "silent at first"
    with served(program, 3) as serving, contextlib.ExitStack() as clients:
        silent, late, ending = (clients.enter_context(serving.connection()) for _ in range(3))
        time.sleep(LATE)
        late.sendall(OWN)
        yield f"{name}: then a request", timed_reply(late), (BREACHES, True)
        late.close()
        ending.shutdown(socket.SHUT_WR)
        yield f"{name}: then an end", timed_reply(ending), (BAD, True)
        ending.close()
        found, seconds = timed(received, silent)
        yield f"{name}: nothing", (found, within(seconds + LATE, SILENT)), (b"", True)
        yield f"{name}: the end", serving.end(), ENDED


def of_order(program):
    """The comparisons of clients that send their requests in another order than that in which they came: the one that came first is
    answered first, but for a silent one. After a reply the server waits for the client to close, so no later one has a reply by then."""
    with served(program, 5) as serving, contextlib.ExitStack() as clients:
        busy = clients.enter_context(serving.connection())
        busy.sendall(OWN[:20])
        time.sleep(0.5)
        silent, *others = (clients.enter_context(serving.connection()) for _ in range(4))
        for other in reversed(others):
            other.sendall(OWN)
        busy.sendall(OWN[20:])
        yield "the order: before all", received(busy), BREACHES
        busy.close()
        while others:
            first = others.pop(0)
            yield "the order: a reply", timed_reply(first), (BREACHES, True)
            yield "the order: no other reply", len(select.select([silent, *others], [], [], 0.2)[0]), 0
            first.close()
        yield "the order: the end", serving.end(), ENDED


def of_count(program):
    """The comparisons of a server whose count is reached by silent clients: it accepts no further one."""
    with served(program, 3) as serving, contextlib.ExitStack() as clients:
        first, second = (clients.enter_context(serving.connection()) for _ in range(2))
        yield "the count: the last", serving.ask([OWN], False), BREACHES
        beyond = clients.enter_context(serving.connection())
        beyond.sendall(OWN)
        yield "the count: the silent", [received(first), received(second)], [b"", b""]
        yield "the count: the end", serving.end(), ENDED
        yield "the count: one beyond it", received(beyond), b""


def ticks_of(process):
    """The processor time that a process has used, in ticks of the system's clock."""
    with open(f"/proc/{process.pid}/stat", encoding="utf-8") as file:
        return sum(map(int, file.read().rpartition(")")[2].split()[11:13]))


def of_idle(program):
    """The comparison of the processor time that a server uses without a connection, after a silent one."""
    with served(program, 2) as serving, serving.connection() as silent:
        yield "idle: a silent client", received(silent), b""
        before = ticks_of(serving.process)
        time.sleep(LATE)
        yield "idle: the processor time", ticks_of(serving.process) - before, 0
        yield "idle: a request", serving.ask([OWN], False), BREACHES
        yield "idle: the end", serving.end(), ENDED


def of_staying(program):
    """The comparisons of a client that doesn't close its end, takes its reply late and has it whole, and of the one after it."""
    name = "a client that takes its reply late"
    with served(program, 2, LARGEST_DAY) as serving, serving.connection() as staying, serving.connection() as other:
        staying.sendall(FILE)
        other.sendall(OWN)
        other.settimeout(LONGEST)
        found, seconds = timed(received, other)
        yield f"{name}: the next", found, BREACHES
        yield f"{name}: the seconds", within(seconds, LINGERING), True
        yield f"{name}: the end", serving.end(), ENDED
        yield f"{name}: its reply", received(staying) == told("200 OK", LIMIT, LARGEST_DAY, STORED), True


def of_unread(program):
    """The comparisons of a body that is refused by its length, and sent all the same: the reply isn't lost."""
    name = "a body that isn't read"
    refused = asking("POST /drivers", OFFICE, f"{COUNTED}{UNREAD}", body=bytes(UNREAD))
    with served(program, 2) as serving:
        yield f"{name}: its reply", serving.ask([refused], False), TOO_LARGE
        yield f"{name}: the next", serving.ask([OWN], False), BREACHES
        yield f"{name}: the end", serving.end(), ENDED


def stop_for_a_while(process):
    """Stops a process and lets it go on: a call in which it waits is interrupted."""
    time.sleep(0.3)
    process.send_signal(signal.SIGSTOP)
    time.sleep(0.2)
    process.send_signal(signal.SIGCONT)
    time.sleep(0.3)


def of_stops(program):
    """The comparisons of a server that is stopped while it waits: for a client, in a head, in a body, and after a reply."""
    file = posting("/cards/both", OFFICE, DAY)
    with served(program, 4) as serving:
        with serving.connection() as first:
            stop_for_a_while(serving.process)
            first.sendall(OWN[:20])
            stop_for_a_while(serving.process)
            first.sendall(OWN[20:])
            yield "stopped in a head", received(first), BREACHES
        stop_for_a_while(serving.process)
        with serving.connection() as second:
            second.sendall(file[:-10])
            stop_for_a_while(serving.process)
            second.sendall(file[-10:])
            yield "stopped before a connection and in a body", received(second), REPEATED
        with serving.connection() as third, serving.connection() as other:
            third.sendall(OWN)
            yield "stopped after a reply: the reply", received(third), BREACHES
            stop_for_a_while(serving.process)
            other.sendall(OWN)
            other.settimeout(LONGEST)
            yield "stopped after a reply: the next", received(other), BREACHES
        yield "stopped: the end", serving.end(), ENDED


def open_files(process):
    """The numbers of the files that a process has open, once it has no connection: the one socket is that at which it listens."""
    folder = f"/proc/{process.pid}/fd"
    last = time.monotonic() + LONGEST
    while time.monotonic() < last:
        with contextlib.suppress(FileNotFoundError):
            files = {int(number): os.readlink(os.path.join(folder, number)) for number in os.listdir(folder)}
            if sum(file.startswith("socket:") for file in files.values()) == 1:
                return files
        time.sleep(0.01)
    raise TimeoutError("a connection stays open")


@contextlib.contextmanager
def without_files(process):
    """Lets a process open no file more for a while. If it waits for a connection already, it has a file for that one."""
    files = open_files(process)
    free = next(number for number in itertools.count() if number not in files)
    before = resource.prlimit(process.pid, resource.RLIMIT_NOFILE)
    resource.prlimit(process.pid, resource.RLIMIT_NOFILE, (free, before[1]))
    try:
        yield
    finally:
        with contextlib.suppress(ProcessLookupError):
            resource.prlimit(process.pid, resource.RLIMIT_NOFILE, before)


def asked(serving):
    """A connection whose request has been sent, with its end."""
    connection = serving.connection()
    connection.sendall(OWN)
    connection.shutdown(socket.SHUT_WR)
    return connection


def of_files(program):
    """The comparisons of a server that has no file for its next connections, until there is one again."""
    with served(program, 3) as serving, contextlib.ExitStack() as clients:
        yield "before files are short", serving.ask([OWN], False), BREACHES
        with without_files(serving.process):
            first, second = [clients.enter_context(asked(serving)) for _ in range(2)]
            yield "while files are short", len(select.select([second], [], [], 3)[0]), 0
        for name, client in [("the first", first), ("the second", second)]:
            yield f"when there are files again: {name}", timed_reply(client), (BREACHES, True)
        yield "when there are files again: the end", serving.end(), ENDED


def of_no_files(program):
    """The comparisons of a server that has no file for its next connections any more."""
    with served(program, 3) as serving:
        yield "before there is no file", serving.ask([OWN], False), BREACHES
        with without_files(serving.process), asked(serving):
            (text, errors), seconds = timed(serving.process.communicate, None, LONGEST)
        status = serving.process.returncode
        errors = without_sentence(serving.path.encode(), text, status, errors)
        yield "without files: the end", (text, status, errors), (*NO_PORT, b"")
        yield "without files: the seconds", within(seconds, FILES), True


# All


def of_question(question):
    """The comparisons of a question: a function and what it is given. They end where no connection can be had or nothing comes."""
    function, *words = question
    found = []
    try:
        for comparison in function(*words):
            found.append(comparison)
    except (OSError, subprocess.TimeoutExpired) as fault:
        found.append((f"{function.__name__} {words[1:2]}", repr(fault), None))
    return found


def comparisons(program: str) -> counting.Comparisons:
    program = os.path.abspath(program)
    file = posting("/cards/both", OFFICE, LARGEST_DAY)
    questions: list[tuple[Any, ...]] = [
        (of_slow, program, "a head byte by byte", DRIPPED[:1], pieces_of(DRIPPED[1:])),
        (of_slow, program, "a body byte by byte", file[: -len(LARGEST_DAY)], pieces_of(LARGEST_DAY[:200])),
        (of_slow, program, "a client that sends half a request", OWN[:20], LONGEST * [b""]),
        (of_slow, program, "a head byte by byte after an unknown key", UNKNOWN[:-2], pieces_of(PADDING.encode())),
        (of_answered, program, "a byte a second after a reply", OWN, BREACHES),
        (of_answered, program, "a byte a second after a chart", CHART, server_after(WITH_DAY).reply(CHART)),
        (of_answered, program, "a body byte by byte after an unknown key", UNKNOWN_FRONT, FORBIDDEN),
        (of_silent, program, "a silent client", 1, AT_ONCE),
        (of_silent, program, "as many silent clients as are held", 31, AT_ONCE),
        (of_silent, program, "more silent clients", 50, AFTER_A_WHILE),
        (of_pushing, program, "a byte now and then after a request", b"p", 0.5),
        (of_pushing, program, "all that goes after a request", PIECE, 0),
        *[(part, program) for part in [of_late, of_order, of_count, of_idle, of_staying, of_unread, of_stops, of_files, of_no_files]],
    ]
    with multiprocessing.Pool(len(questions)) as pool:
        for found in pool.imap(of_question, questions):
            yield from found
        pool.close()
        pool.join()


if __name__ == "__main__":
    sys.exit(counting.count(comparisons(*sys.argv[1:])))
