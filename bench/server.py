"""Measures requests over HTTP on loopback, and compares them with a plain server over stock SQLite (plain/server.rs). The plain server runs
the same statements in the same transactions, with the same settings of its file, and examines with the code of plain/examine.rs.

The driver has card files of some years, and rest entered in all gaps, so that everything is examined. A client sends one request after the
other, each on its own connection. The time of a request runs from before it connects to the end of the reply. In each round the client
takes a turn at each server with the same requests. Each number is the best of the rounds, and each ratio is the median of the rounds'
ratios. Both servers have to send the same replies, byte for byte, and to end with the same tables. Each card file is of the day after the
one before, so each is added, and its request waits for the disk. The instructions of a sheet are those of a server that was asked for
several sheets, minus those of a server that was asked for one."""
import contextlib
import functools
import itertools
import os
import sqlite3
import sys
import time
from collections.abc import Callable, Iterable, Iterator, Sequence

import cards
import lib.server
from archive import DONE, Program, content, time_text
from compiling import plain
from lib.server import OFFICE, Serving, asking, posting
from measuring import CALLGRIND, Instructions, Rounds, collected, instruction_heads, less, only, print_instruction_note
from office import DRIVER, date_of, fill, written

YEARS = [1, 10]
ROUNDS, TURN = 5, 100  # the number of rounds, and of requests in a turn
SHEETS = 2  # the sheets whose instructions are counted
lib.server.SECONDS = 600  # how long to wait for a server, because callgrind is slow
KEY, SHEET = "key-of-0001", "GET /drivers/1/sheet"
DONE_HEAD, ADDED_HEAD = b"HTTP/1.1 200 ", b"HTTP/1.1 201 "


def filling_gaps(folder: str, years: int) -> tuple[int, str]:
    """Writes a text that enters rest in the gaps of the driver's card files. Returns the number of gaps, and the path of the text."""
    rows = cards.rows_of(cards.year_of(cards.read("examples", "driver-year.ddd")))
    rows = [row for ago in reversed(range(years)) for row in cards.rows_later(rows, -ago)]
    gaps = [(last, start) for (_, last, _), (start, _, _) in itertools.pairwise(rows) if last < start]
    lines = [f"{time_text(start)},{time_text(past)},rest\n" for start, past in gaps]
    return len(gaps), written(folder, f"gaps-{years}.csv", "".join(["start,past,activity\n", *lines]).encode())


def fill_gaps(script: str, folder: str, path: str, years: int) -> None:
    """Enters rest in the gaps of the driver's card files."""
    count, hours = filling_gaps(folder, years)
    running = Program([script, "archive", path])
    running.time_of(f"enter - {DRIVER} < {hours}", f"entered 1 to {count}\n{DONE}")
    running.end()


def write_by_stock(path: str, made: str) -> None:
    """Writes the tables of an archive to the path `made` with stock SQLite, without checksums of its pages."""
    with contextlib.closing(sqlite3.connect(path)) as old, contextlib.closing(sqlite3.connect(made)) as new:
        new.executescript("\n".join(old.iterdump()))


def requests_of(month: str) -> dict[str, tuple[Iterator[bytes], bytes]]:
    """The requests of each kind, endlessly many, and how their replies begin."""
    file = cards.of_holder(cards.read("bench", "day.ddd"), DRIVER)
    days = (cards.days_later(file, later) for later in itertools.count())
    return {
        "GET /me/breaches": (itertools.repeat(asking("GET /me/breaches", KEY)), DONE_HEAD),
        SHEET: (itertools.repeat(asking(f"GET /drivers/{DRIVER}/sheet/{month}", OFFICE)), DONE_HEAD),
        "POST /cards/both": ((posting("/cards/both", OFFICE, day) for day in days), ADDED_HEAD),
    }


def turn_of(server: Serving, requests: Iterable[bytes]) -> tuple[list[bytes | str], dict[str, float]]:
    """The replies of a server, and its times in milliseconds: the mean, the median and the 99th percentile of a request, and the mean
    processor time of the server."""
    replies, times = [], []
    clock = ~server.process.pid << 3 | 2  # the clock of its processor time, see clock_getcpuclockid(3)
    start = time.clock_gettime_ns(clock)
    for request in requests:
        before = time.perf_counter_ns()
        replies.append(server.ask([request], False))
        times.append((time.perf_counter_ns() - before) / 1e6)
    work = (time.clock_gettime_ns(clock) - start) / 1e6
    times.sort()
    return replies, {"mean": sum(times) / TURN, "median": times[TURN // 2], "99th": times[TURN * 99 // 100 - 1], "work": work / TURN}


def times_of(servings: Sequence[Serving], requests: Iterator[bytes], begin: bytes) -> Rounds:
    """The times of turns at each server, with the same requests. Exits if the servers' replies differ, or don't begin as expected."""
    replies: dict[Serving, list[bytes | str]] = {}

    def turn(serving: Serving, asked: Iterator[bytes]) -> dict[str, float]:
        replies[serving], times = turn_of(serving, itertools.islice(asked, TURN))
        return times

    def compare() -> None:
        for ours, theirs in zip(*(replies[serving] for serving in servings)):
            if ours != theirs or not ours.startswith(begin):
                sys.exit(f"the servers replied {ours!r} and {theirs!r}")
    both = zip(("tacho", "plain"), servings, itertools.tee(requests, len(servings)))
    return Rounds({side: functools.partial(turn, serving, asked) for side, serving, asked in both}, ROUNDS, compare)


def ended(serving: Serving) -> str:
    """Waits for the end of a server, and returns what it has written to standard error. Exits if it printed anything, or failed."""
    text, status, errors = serving.end()
    if text or status:
        sys.exit(f"a server ended with {text!r} and status {status}")
    return errors.decode()


def measured(programs: Sequence[str], paths: Sequence[str], month: str) -> dict[str, Rounds]:
    """The times of both servers, for each kind of request."""
    requests = requests_of(month)
    count = len(requests) * ROUNDS * TURN
    with contextlib.ExitStack() as stack:
        servings = [stack.enter_context(Serving(program, path, OFFICE, count)) for program, path in zip(programs, paths)]
        found = {kind: times_of(servings, asked, begin) for kind, (asked, begin) in requests.items()}
        if any(map(ended, servings)):
            sys.exit(f"one of {programs} has written to standard error")
    if content(paths[0]) != content(paths[1]):
        sys.exit("the tables of the two archives differ")
    return found


def counting(folder: str, program: str) -> str:
    """Writes a script that runs a program under callgrind, and returns its path."""
    text = f'#!/bin/sh\nexec {" ".join(CALLGRIND)} {program} "$@"\n'
    script = written(folder, f"counting-{os.path.basename(program)}", text.encode())
    os.chmod(script, 0o755)
    return script


def instructions_after(script: str, path: str, request: bytes, count: int) -> int:
    """The number of instructions of a server that has answered a request `count` times."""
    with Serving(script, path, OFFICE, count) as serving:
        for _ in range(count):
            if not (reply := serving.ask([request], False)).startswith(DONE_HEAD):
                sys.exit(f"{script} replied {reply!r}")
        return collected(ended(serving))


def counted(folder: str, programs: Sequence[str], paths: Sequence[str], month: str) -> Instructions:
    """The instructions of both servers, for one sheet and for more."""
    requests, _ = requests_of(month)[SHEET]
    request = next(requests)

    def side_of(program: str, path: str) -> Callable[[], dict[str, int]]:
        def count(times: int) -> int:
            return instructions_after(counting(folder, program), path, request, times)
        return lambda: {"one": count(1), "more": count(1 + SHEETS)}
    return Instructions({side: side_of(*both) for side, *both in zip(("tacho", "plain"), programs, paths)})


def columns_of(times: Rounds, side: str) -> str:
    """The columns of a server: its best numbers."""
    mean, middle, late, work = (times.least(side, only(name)) for name in ("mean", "median", "99th", "work"))
    return f"{1000 / mean:8.0f} {middle:8.3f} {late:8.3f} {work:8.3f}"


def servers(folder: str, program: str, script: str) -> None:
    """Measures both servers with one year and with ten, and prints a table."""
    programs = [program, plain(folder, "server")]
    print("requests over HTTP, one after the other: requests per second; milliseconds of a request, the median and the 99th percentile;")
    print("milliseconds of the server's processor time; then the ratios of the median and of the processor time")
    print_instruction_note("of a sheet millions")
    columns = " ".join(f"{side + '/s':>8} {'p50':>8} {'p99':>8} {'work':>8}" for side in ("tacho", "plain"))
    print(f"{'years':>5}  {'request':21} {columns} {'ratio':>6} {'work':>6}{instruction_heads()}")
    for years in YEARS:
        paths = [os.path.join(folder, f"{side}-{years}.db") for side in ("tacho", "plain")]
        month = date_of(fill(script, folder, paths[0], DRIVER, years))[:7]
        fill_gaps(script, folder, paths[0], years)
        write_by_stock(*paths)
        counts = counted(folder, programs, paths, month)
        for kind, times in measured(programs, paths, month).items():
            columns = " ".join(columns_of(times, side) for side in ("tacho", "plain"))
            ratios = " ".join(f"{times.ratio('tacho', 'plain', only(name)):6.2f}" for name in ("median", "work"))
            instructions = counts.columns(less("more", "one", SHEETS)) if kind == SHEET else ""
            print(f"{years:5}  {kind:21} {columns} {ratios}{instructions}", flush=True)
