#!/usr/bin/env python3
"""Tests a program with the conformance vectors beside this file, and prints what fails and 'N passed, M failed'. The status is 0 only if
something passed and nothing failed, and 2 if the arguments are wrong. It needs Python 3.9 or later, and no other package.

    run.py [OPTION..] --lines PROGRAM [ARGUMENT..]
    run.py [OPTION..] PROGRAM [ARGUMENT..]

With `--lines` the program is one process. It is sent each case as a line of JSON, `{"id": .., "set": .., "input": ..}`, answers each with a
line `{"id": .., "expected": ..}` in the form of the set, in order, and ends with status 0 at the end of its input. `adapters/` has such
programs in Python and in JavaScript.

Without it the program speaks a command line, of which these commands are used (product/formats.md says what they print):

    words, chains   dump < VALUE
    files           holder < CARD, card PART < CARD
    timelines       init ARCHIVE, register ARCHIVE < CSV, import ARCHIVE both < CARD, breaches ARCHIVE N, owed ARCHIVE N
    stretches       init, register and import as above, stretches ARCHIVE N, debts ARCHIVE N
    ahead           init, register and import as above, ahead ARCHIVE N DATE TIME
    csv             init ARCHIVE, register ARCHIVE < CSV, enter ARCHIVE N < CSV, entries ARCHIVE N, drivers ARCHIVE
    http            init ARCHIVE, serve ARCHIVE KEY PORT COUNT

The status of each is 0, or 1 where it prints the line of a fault. ARCHIVE is a path of the program's own, at which it may keep a file or a
folder. A timeline comes as a card file of one driver, whose identification is in the CSV of `register`.

README.md describes the options."""
from __future__ import annotations

import argparse
import contextlib
import datetime
import json
import os
import queue
import signal
import socket
import struct
import subprocess
import sys
import tempfile
import threading
import time
from collections.abc import Callable, Iterator
from concurrent.futures import ThreadPoolExecutor
from typing import Any, NamedTuple

FOLDER = os.path.dirname(os.path.abspath(__file__))
PARTS = {"law": ["words", "chains", "files", "timelines", "stretches"], "product": ["ahead", "csv", "http"]}
PART_OF = {name: part for part, names in PARTS.items() for name in names}
SETS = list(PART_OF)
RULES = [f"B{kind}" for kind in range(1, 11)]
# By the level: its sets, and the rules of its timelines.
LEVELS = {
    "cards": (["words", "chains", "files"], []),
    "days": (["timelines"], RULES[:5]),
    "weeks": (["timelines"], RULES[:9]),
    "debts": (["timelines", "stretches"], []),
}
EPOCH = datetime.datetime(1970, 1, 1)
ACTIVITIES = ["rest", "available", "work", "drive"]
OFFICE_KEY = "office-key-1"
HOST = "127.0.0.1"
LAST = 2_000  # bytes of standard error that a failure shows
LONGEST = 2**24  # bytes of a line that are read: no answer has as many

Answer = Any  # what is expected of a case
Given = dict[str, Any]  # what a case gives
Case = dict[str, Any]  # a line of a set


class Failure(Exception):
    """Why a case fails, in lines."""


# What is printed


def minute_text(minute: int) -> str:
    """The text of a minute."""
    return (EPOCH + datetime.timedelta(minutes=minute)).strftime("%Y-%m-%d %H:%M")


def day_text(minute: int) -> str:
    """The text of a minute's day."""
    return minute_text(minute)[:10]


def length_text(minutes: int) -> str:
    """The text of a number of minutes."""
    return f"{minutes // 60}:{minutes % 60:02}"


FAULTS = {
    "C1": "truncated block at {place}", "C2": "block {block} twice", "C3": "no identification", "C4": "identification too short",
    "C5": "two cards", "C6": "no activity data", "C7": "activity data too short", "C8": "pointer out of the buffer",
    "C9": "record length at {place}", "C10": "chain broken at {place}", "C11": "day out of range at {place}",
    "C12": "word minute at {place}", "C13": "word order at {place}", "C14": "file contradicts itself at {minute}", "Z3": "out of range",
}


def fault_text(fault: Answer) -> str:
    """The line of a fault."""
    parts = {**fault, "minute": minute_text(fault["minute"])} if "minute" in fault else fault
    return f"{fault['fault']} {FAULTS[fault['fault']].format(**parts)}\n"


def spans_text(found: Answer) -> str:
    """The lines of spans, or that of a fault."""
    if "fault" in found:
        return fault_text(found)
    lines = []
    for start, past, mark in found["spans"]:
        activity, _, crew = mark.partition(" ")
        lines.append(f"{minute_text(start)} {minute_text(past)} {activity} {crew or 'single'}\n")
    return "".join(lines)


def holder_text(found: Answer) -> str:
    """The line of a holder, or of a fault."""
    return fault_text(found) if "fault" in found else f"{found['holder']}\n"


def breach_lines(breaches: list[Answer]) -> str:
    """The lines of breaches."""
    return "".join(
        f"{one['rule']} Art {one['article']} at {minute_text(one['moment'])} since {minute_text(one['since'])} amount {one['amount']}\n"
        for one in breaches
    )


def debt_lines(debts: list[Answer], horizon: int) -> str:
    """The lines of debts, as they stand at a horizon."""
    lines = []
    for one in debts:
        standing = "late" if one["deadline"] <= horizon else "open"
        standing = standing if one["payer"] is None else f"paid {minute_text(one['payer'])}"
        lines.append(f"WEEK {day_text(one['week'])} owes {one['amount']} by {minute_text(one['deadline'])} {standing}\n")
    return "".join(lines)


def end_line(report: Answer) -> str:
    """The line of the end of an examination."""
    return f"EXAMINED TO {minute_text(report['horizon'])} {report['cause']}\n"


def breaches_text(report: Answer) -> str:
    """The breaches of a report, and its end."""
    return breach_lines(report["breaches"]) + end_line(report)


def owed_text(report: Answer) -> str:
    """The debts of a report, and its end."""
    return debt_lines(report["debts"], report["horizon"]) + end_line(report)


def unseen_line(one: Answer) -> str:
    """The line of what isn't examined after a stretch, if there is anything."""
    unseen = one["not_examined"]
    return f"NOT EXAMINED {minute_text(unseen[0])} {minute_text(unseen[1])}\n" if unseen else ""


def stretches_text(found: Answer, text: Callable[[Answer], str]) -> str:
    """The stretches, each with a text of its report."""
    return "".join(f"FROM {day_text(one['monday'])}\n{text(one)}{unseen_line(one)}" for one in found["stretches"])


def forecast_text(found: Answer) -> str:
    """The forecast, or why there is none."""
    if "fault" in found:
        return fault_text(found)
    where = f"FROM {day_text(found['monday'])}\n{end_line(found)}"
    if "not_examined" in found:
        return where + unseen_line(found)
    start = found["start"]
    rested = "-" if found["rest_since"] is None else minute_text(found["rest_since"])
    return "".join([
        where,
        f"START {minute_text(start)}\nREST SINCE {rested}\nDAY SINCE {minute_text(found['day_since'])}\n",
        f"REDUCED {found['reduced']}\nEXTENDED {found['extended']}\n",
        *(f"DRIVEN {day_text(week)} {length_text(minutes)}\n" for week, minutes in found["driven"]),
        breach_lines(found["coming"]),
        debt_lines(found["debts"], start),
        *(f"{one['rule']} Art {one['article']} until {minute_text(one['until'])} left {length_text(one['until'] - start)}\n"
          for one in found["limits"]),
    ])


def entries_text(rows: list[list[Any]]) -> str:
    """The lines of entered hours."""
    return "".join(
        f'{number} {minute_text(start)} {minute_text(past)} {activity} kept "{author}" "{note}"\n'
        for number, (start, past, activity, author, note) in enumerate(rows, 1)
    )


def driver_text(driver: list[Any]) -> str:
    """The line of a driver without card files and entries."""
    number, holder, base, name = driver
    return f"{number} {holder} {day_text(base)} 0 0 {name}\n"


def read_text(found: Answer) -> str:
    """What is printed of a text of CSV: the reply, and what was read."""
    read = found["read"]
    return found["reply"] + ("" if read is None else entries_text(read) if not read or isinstance(read[0], list) else driver_text(read))


def replies_text(found: Answer) -> str:
    """The replies to requests."""
    return "".join(bytes_of(pieces).decode(errors="backslashreplace") + "\n" for pieces in found["replies"])


TEXTS: dict[str, Callable[[Answer], str]] = {
    "words": spans_text, "chains": spans_text,
    "files": lambda found: holder_text(found["identification"]) + spans_text(found["activity"]),
    "timelines": lambda found: breaches_text(found) + owed_text(found),
    "stretches": lambda found: stretches_text(found, breaches_text) + stretches_text(found, owed_text),
    "ahead": forecast_text, "csv": read_text, "http": replies_text,
}


# What a program is given


def text_of(pieces: list[Any]) -> str:
    """The text of a list of texts and of repeated ones."""
    return "".join(piece if isinstance(piece, str) else piece["byte"] * piece["times"] for piece in pieces)


def bytes_of(pieces: list[Any]) -> bytes:
    """The bytes of such a list, of which each character is a byte."""
    return text_of(pieces).encode("latin-1")


def bytes_of_digits(pieces: list[Any]) -> bytes:
    """The bytes of such a list in hexadecimal digits."""
    return bytes.fromhex(text_of(pieces))


def holder_of(number: int) -> bytes:
    """The card's holder of a driver: a state, and fourteen letters and digits."""
    return b"\x0dD" + f"{number:013}".encode()


def driver_csv(number: int, base: int) -> bytes:
    """The CSV of a driver."""
    fields = f"{number},{holder_of(number).hex()},key-of-{number:06},{day_text(base)},Driver {number}"
    return f"driver,holder,key,base,name\n{fields}\n".encode()


def word_of(mark: str | None, minute: int) -> int:
    """A word of EF Driver_Activity_Data: a mark, or None for what isn't known, from a minute of the day on."""
    if mark is None:
        return 1 << 13 | minute
    activity, _, crew = mark.partition(" ")
    return (1 << 14 if crew else 0) | ACTIVITIES.index(activity) << 11 | minute


def words_by_day(spans: list[list[Any]]) -> dict[int, list[int]]:
    """The words of each day on which something is held, from spans."""
    days: dict[int, dict[int, str | None]] = {}
    ends = {past for _, past, _ in spans} - {start for start, _, _ in spans}
    for start, past, mark in spans:
        for day in range(start // 1440, (past - 1) // 1440 + 1):
            days.setdefault(day, {})[max(start - 1440 * day, 0)] = mark
    for end in ends:
        if end // 1440 in days and end % 1440:
            days[end // 1440].setdefault(end % 1440, None)
    return {day: [word_of(mark, minute) for minute, mark in sorted(words.items())] for day, words in sorted(days.items())}


def record_of(day: int, words: list[int]) -> bytes:
    """A daily record."""
    return struct.pack(">HHIHH", 0, 12 + 2 * len(words), 86_400 * day, 0, 0) + struct.pack(f">{len(words)}H", *words)


def card_of(number: int, spans: list[list[Any]]) -> bytes:
    """The card file of a driver that gives some spans. A last record without words ends what the record before it gives."""
    days = words_by_day(spans)
    records = [record_of(day, words) for day, words in days.items()] + [record_of(max(days), [])]
    value = struct.pack(">HH", 0, sum(map(len, records[:-1]))) + b"".join(records)
    identification = holder_of(number) + b"00"
    return struct.pack(">HBH", 0x0520, 0, len(identification)) + identification + struct.pack(">HBH", 0x0504, 0, len(value)) + value


# Steps: the commands of a case, each with what it has to print


class Step(NamedTuple):
    """A command without the archive's path, its input, what it has to print, and its status."""
    words: list[str]
    given: bytes
    text: str
    status: int = 0


def step(words: list[str], given: bytes, text: str, found: Answer) -> Step:
    """A command that is refused if what is found is a fault."""
    return Step(words, given, text, 1 if "fault" in found else 0)


def value_steps(given: Given, expected: Answer, number: int) -> list[Step]:
    """About a value of activity data."""
    return [step(["dump"], bytes_of_digits(given["value"]), spans_text(expected), expected)]


def file_steps(given: Given, expected: Answer, number: int) -> list[Step]:
    """About a card file."""
    file = bytes_of_digits(given["file"])
    held, found = expected["identification"], expected["activity"]
    return [step(["holder"], file, holder_text(held), held), step(["card", given["part"]], file, spans_text(found), found)]


def first_steps(given: Given, number: int) -> list[Step]:
    """A driver with a timeline."""
    steps = [Step(["register"], driver_csv(number, given["base"]), f"registered {number}\n")]
    if given["spans"]:
        steps.append(Step(["import", "both"], card_of(number, given["spans"]), f"added driver {number} number 1\n"))
    return steps


def timeline_steps(given: Given, expected: Answer, number: int) -> list[Step]:
    """About the report on a timeline."""
    name = str(number)
    asked = [Step(["breaches", name], b"", breaches_text(expected))]
    if expected["debts"] is not None:
        asked.append(Step(["owed", name], b"", owed_text(expected)))
    return first_steps(given, number) + asked


def stretch_steps(given: Given, expected: Answer, number: int) -> list[Step]:
    """About the stretches of a timeline."""
    name = str(number)
    return [
        *first_steps(given, number), Step(["stretches", name], b"", stretches_text(expected, breaches_text)),
        Step(["debts", name], b"", stretches_text(expected, owed_text)),
    ]


def forecast_steps(given: Given, expected: Answer, number: int) -> list[Step]:
    """About the forecast of a timeline."""
    words = ["ahead", str(number), *minute_text(given["minute"]).split(" ")]
    return [*first_steps(given, number), step(words, b"", forecast_text(expected), expected)]


def csv_steps(given: Given, expected: Answer, number: int) -> list[Step]:
    """About a text of CSV. A driver is registered in an archive of its own."""
    text, reply, read = bytes_of(given["csv"]), expected["reply"], expected["read"]
    status = 1 if read is None else 0
    if given["of"] == "driver":
        return [Step(["register"], text, reply, status), *([] if status else [Step(["drivers"], b"", driver_text(read))])]
    listed = [] if status else [Step(["entries", str(number)], b"", entries_text(read))]
    first = Step(["register"], driver_csv(number, 28_491_840), f"registered {number}\n")
    return [first, Step(["enter", str(number)], text, reply, status), *listed]


STEPS: dict[str, Callable[[Given, Answer, int], list[Step]]] = {
    "words": value_steps, "chains": value_steps, "files": file_steps, "timelines": timeline_steps, "stretches": stretch_steps,
    "ahead": forecast_steps, "csv": csv_steps,
}
WITHOUT_ARCHIVE = ["dump", "holder", "card"]


def line_of_rule(line: str) -> str:
    """The rule of a breach's line, or nothing."""
    word = line.split(" ", 1)[0]
    return word if word in RULES else ""


def of_rules(text: str, rules: list[str]) -> str:
    """A text without the breaches of other rules than some."""
    return "".join(line for line in text.splitlines(True) if not rules or line_of_rule(line) in ("", *rules))


# Failures


def first_difference(told: str, expected: str) -> str:
    """The first line that differs."""
    lines, others = expected.splitlines(), told.splitlines()
    for number in range(max(len(lines), len(others))):
        line, other = (texts[number] if number < len(texts) else "the end" for texts in (lines, others))
        if line != other:
            return f"line {number + 1}\n  expected {line}\n  got      {other}"
    return "the ends of lines differ"


def stop(process: subprocess.Popen[bytes]) -> None:
    """Ends a process, and all that it has started."""
    try:
        os.killpg(process.pid, signal.SIGKILL)
    except (AttributeError, OSError):
        process.kill()
    process.wait()


def error_text(given: bytes) -> str:
    """What a program has printed on standard error, in a failure."""
    text = given[-LAST:].decode(errors="backslashreplace").rstrip()
    return f"\n  standard error: {text}" if text else ""


# A program that speaks the command line


class Program:
    """A program, with an archive in a folder."""

    def __init__(self, words: list[str], folder: str, seconds: float) -> None:
        self.words = words
        self.folder = folder
        self.seconds = seconds
        self.count = 0
        self.path = ""
        self.error = b""  # what the last server has printed on standard error
        self.renew()

    def renew(self) -> None:
        """Makes another archive."""
        self.count += 1
        self.path = os.path.join(self.folder, f"archive-{self.count}")

    def tell(self, words: list[str], given: bytes) -> tuple[str, int, bytes]:
        """What a command prints, its status, and what it prints on standard error."""
        with subprocess.Popen([*self.words, *words], stdin=subprocess.PIPE, stdout=subprocess.PIPE, stderr=subprocess.PIPE,
                              start_new_session=True) as process:
            try:
                told, error = process.communicate(given, self.seconds)
            except subprocess.TimeoutExpired as late:
                stop(process)
                raise Failure(f"'{words[0]}' takes more than {self.seconds:g} seconds{error_text(late.stderr or b'')}") from late
            except BaseException:
                stop(process)
                raise
        return told.decode(errors="backslashreplace"), process.returncode, error

    def take(self, one: Step, rules: list[str]) -> None:
        """Takes a step. The archive is made before its first command."""
        words = one.words
        if words[0] not in WITHOUT_ARCHIVE:
            if not os.path.exists(self.path) and words[0] != "init":
                self.take(Step(["init"], b"", "created\n"), [])
            words = [words[0], self.path, *words[1:]]
        told, status, error = self.tell(words, one.given)
        wanted, found = of_rules(one.text, rules), of_rules(told, rules)
        if found != wanted:
            raise Failure(f"'{' '.join(one.words)}' prints another text: {first_difference(found, wanted)}{error_text(error)}")
        if status != one.status:
            raise Failure(f"'{' '.join(one.words)}' has the status {status}, and {one.status} is expected{error_text(error)}")

    def serve(self, requests: list[bytes]) -> list[bytes]:
        """The replies to requests, each on its own connection, as bytes. The server ends after them with the status 0."""
        self.renew()
        self.take(Step(["init"], b"", "created\n"), [])
        with socket.create_server((HOST, 0)) as free:
            port = free.getsockname()[1]
        words = [*self.words, "serve", self.path, OFFICE_KEY, str(port), str(len(requests))]
        with tempfile.TemporaryFile() as error:
            process = subprocess.Popen(words, stdin=subprocess.DEVNULL, stdout=subprocess.DEVNULL, stderr=error, start_new_session=True)
            try:
                replies = [self.reply_to(process, port, request) for request in requests]
                status = process.wait(self.seconds)
            except (OSError, subprocess.TimeoutExpired) as fault:
                error.seek(0)
                raise Failure(f"'serve' doesn't answer, or doesn't end: {fault}{error_text(error.read())}") from fault
            finally:
                stop(process)
            error.seek(0)
            self.error = error.read()
            if status:
                raise Failure(f"'serve' has the status {status}{error_text(self.error)}")
        return replies

    def connected(self, process: subprocess.Popen[bytes], port: int) -> socket.socket:
        """A connection to a server that may not listen yet."""
        last = time.monotonic() + self.seconds
        while True:
            try:
                return socket.create_connection((HOST, port), self.seconds)
            except OSError:
                if process.poll() is not None or time.monotonic() > last:
                    raise
                time.sleep(0.005)

    def reply_to(self, process: subprocess.Popen[bytes], port: int, request: bytes) -> bytes:
        """The reply to a request, up to the end of its connection. The server may hang up before it has read all of the request."""
        found = b""
        last = time.monotonic() + self.seconds
        with self.connected(process, port) as connection:
            with contextlib.suppress(BrokenPipeError, ConnectionResetError):
                connection.sendall(request)
                connection.shutdown(socket.SHUT_WR)
            with contextlib.suppress(ConnectionResetError):
                while piece := connection.recv(65_536):
                    found += piece
                    if time.monotonic() > last:
                        raise OSError(f"a reply takes more than {self.seconds:g} seconds")
        return found

    def try_case(self, name: str, number: int, case: Case, rules: list[str]) -> None:
        """Tries a case: it fails by a Failure. After one the program has another archive."""
        given, expected = case["input"], case["expected"]
        try:
            if name == "http":
                replies = self.serve([bytes_of(pieces) for pieces in given["requests"]])
                compare_replies(replies, [bytes_of(pieces) for pieces in expected["replies"]], error_text(self.error))
                return
            if given.get("of") == "driver":
                self.renew()
            for one in STEPS[name](given, expected, number):
                self.take(one, rules)
            if given.get("of") == "driver":
                self.renew()
        except Failure:
            self.renew()
            raise

    def close(self) -> None:
        """Nothing runs."""


def compare_replies(found: list[bytes], wanted: list[bytes], error: str) -> None:
    """Fails if replies aren't those that are expected; the failure has the text of an error."""
    for number, (reply, other) in enumerate(zip(found, wanted), 1):
        if reply != other:
            texts = [text.decode(errors="backslashreplace").replace("\r", "\\r") for text in (reply, other)]
            raise Failure(f"reply {number} differs: {first_difference(*texts)}{error}")
    if len(found) != len(wanted):
        raise Failure(f"there are {len(found)} replies, and {len(wanted)} are expected{error}")


# A program that answers lines


class Lines:
    """A program that answers each line with a line."""

    def __init__(self, words: list[str], folder: str, seconds: float) -> None:
        self.words = words
        self.seconds = seconds
        self.errors = os.path.join(folder, "standard-error")
        self.process: subprocess.Popen[bytes] | None = None
        self.told: queue.SimpleQueue[bytes] = queue.SimpleQueue()

    def started(self) -> subprocess.Popen[bytes]:
        """The process, which is started before its first line. A thread reads what it prints."""
        if self.process is None:
            with open(self.errors, "wb") as errors:
                self.process = subprocess.Popen(self.words, stdin=subprocess.PIPE, stdout=subprocess.PIPE, stderr=errors,
                                                start_new_session=True)
            self.told = queue.SimpleQueue()
            threading.Thread(target=read_lines, args=(self.process, self.told), daemon=True).start()
        return self.process

    def error(self) -> str:
        """What the process has printed on standard error."""
        with open(self.errors, "rb") as file:
            return error_text(file.read())

    def answer(self, line: bytes) -> bytes:
        """The line that answers a line."""
        process = self.started()
        assert process.stdin  # since it is a pipe
        late = threading.Timer(self.seconds + 1, stop, [process])  # ends a program that doesn't read the line
        late.start()
        try:
            process.stdin.write(line)
            process.stdin.flush()
            told = self.told.get(timeout=self.seconds)
        except queue.Empty as fault:
            raise Failure(f"no line within {self.seconds:g} seconds") from fault
        except OSError as fault:
            raise Failure(f"the program has ended: {fault}") from fault
        finally:
            late.cancel()
        if not told.endswith(b"\n"):
            raise Failure("the program has ended without a line" if not told else "the program has ended within a line, or it is too long")
        return told

    def try_case(self, name: str, number: int, case: Case, rules: list[str]) -> None:
        """Tries a case: it fails by a Failure. After one that isn't just a wrong answer the process is started anew."""
        question = {"id": case["id"], "set": name, "input": case["input"]}
        try:
            told = self.answer(json.dumps(question, separators=(",", ":")).encode() + b"\n")
            try:
                found = json.loads(told.decode(), object_pairs_hook=without_twice)
            except ValueError as fault:
                raise Failure(f"the line isn't JSON ({fault}): {told[:200]!r}") from fault
            if not isinstance(found, dict) or found.get("id") != case["id"] or set(found) != {"id", "expected"}:
                raise Failure(f"the line isn't an answer to {case['id']}: {told[:200]!r}")
        except Failure as failure:
            error = self.error()
            self.end()
            raise Failure(f"{failure}{error}") from failure
        compare_answers(name, found["expected"], case["expected"], rules, self.error)

    def end(self) -> None:
        """Ends the process."""
        if self.process:
            stop(self.process)
        self.process = None

    def close(self) -> None:
        """Ends the input; the process has to end then."""
        if self.process is None:
            return
        assert self.process.stdin  # since it is a pipe
        try:
            self.process.stdin.close()
            status = self.process.wait(self.seconds)
        except (OSError, subprocess.TimeoutExpired) as fault:
            raise Failure("the program doesn't end at the end of its input") from fault
        finally:
            stop(self.process)
        try:
            more = self.told.get(timeout=self.seconds)
        except queue.Empty as fault:
            raise Failure("what the program prints doesn't end with it") from fault
        if status or more:
            raise Failure(f"after the last line the program prints more, or has the status {status}{self.error()}")


def without_twice(pairs: list[tuple[str, Any]]) -> dict[str, Any]:
    """The object of some pairs, of which no two have one key: a ValueError."""
    found = dict(pairs)
    if len(found) < len(pairs):
        raise ValueError("a key is there twice")
    return found


def read_lines(process: subprocess.Popen[bytes], told: queue.SimpleQueue[bytes]) -> None:
    """Reads the lines of a process, and at its end an empty one."""
    assert process.stdout  # since it is a pipe
    while line := process.stdout.readline(LONGEST):
        told.put(line)
    told.put(b"")


def only_rules(answer: Answer, rules: list[str]) -> Answer:
    """An answer without the breaches of other rules than some."""
    if not rules or not isinstance(answer, dict) or not isinstance(answer.get("breaches"), list):
        return answer
    kept = [one for one in answer["breaches"] if not isinstance(one, dict) or one.get("rule") in rules or one.get("rule") not in RULES]
    return {**answer, "breaches": kept}


def plain(name: str, answer: Answer) -> str:
    """An answer as JSON, in which 1 and 1.0 differ, and bytes are whole."""
    if name == "http":
        answer = {**answer, "replies": [text_of(pieces) for pieces in answer["replies"]]}
    return json.dumps(answer, sort_keys=True)


def compare_answers(name: str, found: Answer, wanted: Answer, rules: list[str], error: Callable[[], str]) -> None:
    """Fails if an answer isn't the one that is expected."""
    found, wanted = only_rules(found, rules), only_rules(wanted, rules)
    if isinstance(wanted, dict) and "debts" in wanted and wanted["debts"] is None and isinstance(found, dict):
        found = {**found, "debts": None}
    try:
        if plain(name, found) == plain(name, wanted):
            return
        texts = [TEXTS[name](answer if answer.get("debts", 0) is not None else {**answer, "debts": []}) for answer in (found, wanted)]
        difference = first_difference(*texts) if texts[0] != texts[1] else ""
    except (AttributeError, KeyError, TypeError, ValueError, IndexError, OverflowError):
        difference = ""
    shown = difference or f"\n  expected {json.dumps(wanted)[:LAST]}\n  got      {json.dumps(found)[:LAST]}"
    raise Failure(f"another answer: {shown}{error()}")


# Cases


def path_of(name: str) -> str:
    """The file of a set."""
    return os.path.join(FOLDER, PART_OF[name], f"{name}.jsonl")


def lines_of(path: str) -> Iterator[Any]:
    """What the lines of a file have."""
    with open(path, encoding="ascii") as file:
        for line in file:
            yield json.loads(line)


def cases_in(name: str) -> list[Case]:
    """The cases of a set."""
    return list(lines_of(path_of(name)))


class Tried(NamedTuple):
    """A case of a set, with a number, and the rules whose breaches are compared: all, if there are none."""
    name: str
    number: int
    case: Case
    rules: list[str]

    @property
    def id(self) -> str:
        """Its set and its id."""
        return f"{self.name}/{self.case['id']}"


def answers_otherwise(tags: list[str]) -> dict[str, dict[str, Answer]]:
    """By the set and the id of a case, and by a tag: what of the answer is different if that is chosen otherwise."""
    found: dict[str, dict[str, Answer]] = {}
    for line in lines_of(os.path.join(FOLDER, "law", "otherwise.jsonl")) if tags else []:
        if line["tag"] in tags:
            found.setdefault(line["case"], {})[line["tag"]] = line["expected"]
    return found


def otherwise_tags() -> set[str]:
    """The tags that have the answers of the other choice."""
    return {line["tag"] for line in lines_of(os.path.join(FOLDER, "law", "otherwise.jsonl"))}


def patched(old: Answer, patch: Answer) -> Answer:
    """An answer with a JSON merge patch (RFC 7396)."""
    if not isinstance(patch, dict) or not isinstance(old, dict):
        return patch
    kept = {key: value for key, value in old.items() if patch.get(key, value) is not None}
    return {**kept, **{key: patched(old.get(key), value) for key, value in patch.items() if value is not None}}


def chosen(arguments: argparse.Namespace) -> list[Tried]:
    """The cases that are asked for."""
    otherwise = answers_otherwise(arguments.otherwise)
    found = []
    for name in sets_of(arguments):
        for number, case in enumerate(cases_in(name), 1):
            one = Tried(name, number, case, arguments.rule if name == "timelines" else [])
            turned = set(case["tags"]) & set(arguments.otherwise)
            is_asked = one.id in arguments.case if arguments.case else not arguments.rule or case["rule"] in arguments.rule
            if is_asked and not set(case["tags"]) & set(arguments.leave_out) and len(turned) < 2:
                for tag in turned:
                    case["expected"] = patched(case["expected"], otherwise[one.id][tag])
                if one.rules and "B10" not in one.rules:
                    case["expected"] = {**case["expected"], "debts": None}
                found.append(one)
    return found


def sets_of(arguments: argparse.Namespace) -> list[str]:
    """The sets that are asked for."""
    if arguments.case:
        return [name for name in SETS if any(one.startswith(f"{name}/") for one in arguments.case)]
    if arguments.set:
        return [name for name in SETS if name in arguments.set]
    return [name for part in arguments.part or ["law"] for name in PARTS[part]]


# The run


def report(one: Tried, failure: Failure) -> None:
    """Prints that a case fails."""
    print(f"failed: {one.id}: {one.case['why']} {failure}", flush=True)


def try_part(arguments: argparse.Namespace, cases: list[Tried]) -> tuple[int, int]:
    """Tries some cases with a program of their own, and returns how many passed and how many failed."""
    passed = failed = 0
    with tempfile.TemporaryDirectory() as folder:
        make = Lines if arguments.lines else Program
        program = make(arguments.program, folder, arguments.seconds)
        name = ""
        for one in cases:
            if name != one.name and isinstance(program, Program):
                program.renew()
            name = one.name
            try:
                program.try_case(one.name, one.number, one.case, one.rules)
                passed += 1
            except Failure as failure:
                failed += 1
                report(one, failure)
        try:
            program.close()
        except Failure as failure:
            failed += 1
            print(f"failed: {failure}", flush=True)
    return passed, failed


def run(arguments: argparse.Namespace) -> int:
    """Tests the program, and returns the status."""
    cases = chosen(arguments)
    parts = [cases[place :: arguments.jobs] for place in range(arguments.jobs)]
    with ThreadPoolExecutor(arguments.jobs) as pool:
        counts = list(pool.map(lambda part: try_part(arguments, part), [part for part in parts if part]))
    passed, failed = (sum(column) for column in zip(*counts)) if counts else (0, 0)
    print(f"{passed} passed, {failed} failed")
    return 0 if passed and not failed else 1


def is_known(kind: str, name: str) -> bool:
    """Whether a case, a tag or a rule is one of a set, or whether a tag has the answers of the other choice."""
    if kind == "other choice":
        return name in otherwise_tags()
    if kind == "case":
        one, _, identifier = name.partition("/")
        return one in SETS and any(case["id"] == identifier for case in cases_in(one))
    return any(name in case["tags"] if kind == "tag" else name == case["rule"] for one in SETS for case in cases_in(one))


def arguments_of(words: list[str]) -> argparse.Namespace:
    """The arguments."""
    parser = argparse.ArgumentParser(description="Tests a program with the conformance vectors.", allow_abbrev=False)
    parser.add_argument("--part", action="append", choices=PARTS, help="a part (law, if none is given)")
    parser.add_argument("--level", choices=LEVELS, help="a level of the part law")
    parser.add_argument("--set", action="append", choices=SETS, help="a set")
    parser.add_argument("--case", action="append", default=[], metavar="SET/ID", help="a case")
    parser.add_argument("--rule", action="append", default=[], metavar="RULE", help="the cases about a rule, and its breaches alone")
    parser.add_argument("--leave-out", action="append", default=[], metavar="TAG", help="leaves out the cases with a tag")
    parser.add_argument("--otherwise", action="append", default=[], metavar="TAG", help="expects the answers of the other choice")
    parser.add_argument("--seconds", type=float, default=30.0, help="after which a command or a line fails (30)")
    parser.add_argument("--jobs", type=int, default=1, metavar="N", help="how many cases are tried at once (1)")
    parser.add_argument("--lines", action="store_true", help="the program answers lines")
    parser.add_argument("program", nargs=argparse.REMAINDER, metavar="PROGRAM [ARGUMENT..]", help="the program, or an adapter")
    arguments = parser.parse_args(words)
    for kind, names in (("case", arguments.case), ("tag", arguments.leave_out), ("other choice", arguments.otherwise),
                        ("rule", arguments.rule)):
        for name in names:
            if not is_known(kind, name):
                parser.error(f"no such {kind}: {name}")
    if arguments.level:
        if arguments.part or arguments.set or arguments.rule or arguments.case:
            parser.error("--level stands alone")
        arguments.set, arguments.rule = LEVELS[arguments.level]
    if not arguments.program or arguments.jobs < 1 or arguments.seconds <= 0:
        parser.error("no program" if not arguments.program else "a number is too small")
    return arguments


if __name__ == "__main__":
    sys.exit(run(arguments_of(sys.argv[1:])))
