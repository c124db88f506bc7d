#!/usr/bin/env python3
"""Ends the program at random moments, by a signal that none can catch: while it makes an archive, changes it or reads it by commands, and
while it serves requests that change it. Then it looks at what is left.

SQLite itself has to find, in a copy of the file and its log, the tables as they were before the command that was ended, or as they are
after it, and after it where it has answered; and of requests those of all that were answered, and perhaps of the next one. Then the
program has to answer as a slow office does in that state, and the same once more is answered as there. A `carry` that is ended leaves the
old archive as it was, and beside it the new archive whole, or no more of it than its unfinished file and log, by which the next one is
refused. Half of the ends come at any time and half after a change of the files, and some of them while the program opens what another end
has left. Argument: the program; after it may stand how many lists of commands and of requests there are, as `--rounds N`, and the seed of
the first, as `--first SEED`. The last line is 'N passed, M failed'."""
import argparse
import multiprocessing
import os
import random
import re
import signal
import subprocess
import sys
import tempfile
import threading
import time
from typing import Any

from inputs import random_commands, random_requests
from lib import counting, files, killing, office_lines
from lib.advice import without_advice, without_begun
from lib.archive import of_tables, rows_of, rows_of_office, tables
from lib.office import CREATED, ENDINGS, STORE_FAILED, Desk, copy_of, name_of
from lib.server import ENDED, Serving, received, sent
from slow import slow_office, slow_reader, slow_server

ROUNDS = 6
PROCESSES = 2
REQUESTS = 30  # of a list
MOST_REQUESTS = 5  # of a server that is ended
NEW = "new.db"
CARRYINGS = 20  # ends of a list's `carry`
MAKINGS = 4  # archives of a list that are made, the last of which is used
OTHERS_LEFT = 0.2  # of a list: of the readings, and of the commands that change nothing
CHANGED = re.compile(rb"registered|added|entered [0-9]|withdrawn|base |key |name ")
CHANGING = ["init", "register", "import", "enter", "withdraw", "base", "key", "name"]
HOURS = 60  # of a long batch, at the most
LATER = 0.002  # seconds at the most after a change of the files
KILLED = -signal.SIGKILL
NO_DRIVERS = (b"", 0, b"")


class KilledDesk(Desk):
    """The program at an archive in a folder, which ends it, and the slow office beside it, in the state that the last end has left."""

    def __init__(self, program, folder, chance):
        super().__init__(program, folder)
        self.chance = chance
        self.kinds = set()
        self.is_known = True
        self.aside = os.path.join(folder, "aside")
        os.mkdir(self.aside)

    # Ends

    def started(self, path, words, given):
        """The program, which runs with arguments at a file. What it prints goes to two files."""
        files.write(os.path.join(self.aside, "input"), given)
        with (open(os.path.join(self.aside, "input"), "rb") as source, open(os.path.join(self.aside, "output"), "wb") as target,
              open(os.path.join(self.aside, "errors"), "wb") as errors):
            line = [self.program, words[0], path, *words[1:]]
            return subprocess.Popen(line, stdin=source, stdout=target, stderr=errors)

    def measured(self, words, given):
        """How long a command takes that nobody ends, in seconds, and how often it changes its files: at a copy of them."""
        path, start = files.copied(self.path, self.aside), time.monotonic()
        with self.started(path, words, given) as running:
            count = killing.watch(running, path, sys.maxsize)
        return time.monotonic() - start, count

    def wait(self, running, seconds, count):
        """Waits for a random moment of a running program, at times a little longer than up to a change of its files."""
        killing.wait(running, self.path, self.chance, seconds, count)
        time.sleep(self.chance.choice([0, self.chance.uniform(0, LATER)]))

    def ended(self, words, given):
        """What a command prints that is ended at a random moment, with what it prints on standard error but for the sentence of its fault,
        and its status."""
        seconds, count = self.measured(words, given)
        with self.started(self.path, words, given) as running:
            self.wait(running, seconds, count)
            killing.end(running)
        text, errors, status = (*(files.content(os.path.join(self.aside, name)) for name in ("output", "errors")), running.returncode)
        line = ["tacho", words[0], self.path, *words[1:]]
        left = without_begun(self.path, errors) if status == KILLED else without_advice(line, text, status, errors)
        return text + left, status

    def served(self, path, requests, key, watching):
        """The replies to requests by the program as a server, as far as they come, and how it ends; and what is answered by a function that
        watches it meanwhile, and hears when the first connection begins."""
        told, begun = [], threading.Event()
        with Serving(self.program, path, key, len(requests)) as serving:
            watcher = threading.Thread(target=lambda: told.append(watching(serving.process, begun)))
            watcher.start()
            replies = replies_of(serving, requests, begun)
            if len(replies) < len(requests):
                serving.process.kill()
            watcher.join()
            return replies, serving.end(), told[0]

    def ended_serving(self, requests, key):
        """The replies by a server that is ended at a random moment, mostly once its first connection has begun, and how it ends."""
        copied = files.copied(self.path, self.aside)

        def measure(process, begun):
            wait_for(begun, process)
            start = time.monotonic()
            return killing.watch(process, copied, sys.maxsize), time.monotonic() - start

        *_, (count, seconds) = self.served(copied, requests, key, measure)

        def end(process, begun):
            if self.chance.random() < 0.8:
                wait_for(begun, process)
            self.wait(process, seconds, count)
            process.kill()

        replies, told, _ = self.served(self.path, requests, key, end)
        return replies, told

    def at(self, path: str) -> Desk:
        """The program at another archive."""
        desk = Desk(self.program, os.path.dirname(path))
        desk.path = path
        return desk

    # What they leave

    def found(self):
        """What SQLite finds in a copy of the file and its log. A file whose making has only begun is none, as it is to the program."""
        copied = files.copied(self.path, self.aside)
        if files.is_begun(copied):
            return rows_of_office(None)
        return rows_of(tables(copied))

    def left(self, name, word, before, after, is_answered, is_killed):
        """The comparison of what an end has left of a command with the tables before it, where it hasn't answered, and with those after
        it. The slow office is in that state then; if it is neither, the list ends."""
        found, was, now = self.found(), rows_of_office(before), rows_of_office(after)
        is_before = found == was and not is_answered
        self.office = before if is_before else after
        self.is_known = self.is_known and (is_before or found == now)
        if was != now and is_killed:
            self.kinds.add((word, "before" if is_before else "after"))
        return f"{name}: what is left", found, was if is_before else now

    def reading(self):
        """A reading: of all drivers, or of one, or of nobody."""
        number, month = self.chance.choice([*self.office.archive.drivers, 1]), self.chance.choice(random_commands.MONTHS)
        readings = ["drivers", "check", f"breaches {number}", f"entries {number}", f"spans {number} {month}", f"file {number} 1"]
        return self.chance.choice(readings).split(" ")

    def of_state(self, name):
        """The comparison of a reading with that of the state that is left."""
        words = self.reading()
        return f"{name}, and then {name_of(words)}", *self.both(words)

    # Lists

    def of_making(self, name):
        """The comparisons of the making of an archive, which is ended once or a few times, and of the making that succeeds."""
        self.office = None
        for place in range(self.chance.choice([1, 1, 2, 3])):
            before, after = self.office, slow_office.Office()
            first = (CREATED if before is None else STORE_FAILED)[:2]
            told = self.ended(["init"], b"")
            yield f"{name}, end {place}: what is printed", told, right_of(told, first)
            yield self.left(f"{name}, end {place}", "init", before, after, is_whole(told, first), told[1] == KILLED)
        yield f"{name}, and then drivers", self.run(["drivers"]), NO_DRIVERS if self.office else STORE_FAILED
        yield f"{name} once more", self.run(["init"]), STORE_FAILED if self.office else CREATED
        self.office = slow_office.Office()
        yield f"{name} once more: tables", self.found(), rows_of_office(self.office)

    def of_command(self, name, words, given):
        """The comparisons of a command that is ended once or a few times, and then given once more."""
        for place in range(self.chance.choice([1, 1, 2, 3])):
            before, after = self.office, copy_of(self.office)
            first = after.answer(words, given)
            told = self.ended(words, given)
            yield f"{name}, end {place}: what is printed", told, right_of(told, first)
            yield self.left(f"{name}, end {place}", words[0], before, after, is_whole(told, first), told[1] == KILLED)
        yield self.of_state(name)
        self.office = copy_of(self.office)
        yield f"{name} once more", *self.both(words, given)
        yield f"{name} once more: tables", self.found(), rows_of_office(self.office)

    def of_requests(self, name, requests, key):
        """The comparisons of requests to a server that is ended; then the one that wasn't answered is mostly sent once more, and a reading
        asked for. Answers how many of them are done."""
        replies, told = self.ended_serving(requests, key)
        before, after, is_answered = self.office, copy_of(self.office), True
        for number, (request, reply) in enumerate(zip(requests, replies), 1):
            before = copy_of(after)
            wanted = slow_server.Server(after, key).reply(request)
            is_answered = reply == wanted
            is_cut = number == len(replies) and wanted.startswith(reply)
            yield f"{name}, request {number}", reply, reply if is_cut else wanted
        has_all = is_answered and len(replies) == len(requests)
        yield f"{name}: its end", told, told if has_all and told == ENDED else (b"", KILLED, b"")
        yield self.left(name, "serve", before, after, is_answered, told != ENDED)
        done = len(replies) - (not is_answered and rows_of_office(self.office) != rows_of_office(after))
        if self.chance.random() < 0.6:
            yield self.of_state(name)
            yield from self.of_once_more(name, requests[min(done, len(requests) - 1)], key)
            done += 1
        return done

    def of_once_more(self, name, request, key):
        """The comparisons of a request that is sent to a server of its own."""
        self.office = copy_of(self.office)
        wanted = slow_server.Server(self.office, key).reply(request)
        with Serving(self.program, self.path, key, 1) as serving:
            yield f"{name}: {request[:40]} once more", serving.ask([request], False), wanted
            yield f"{name}: the end of the server then", serving.end(), ENDED
        yield f"{name}: tables then", self.found(), rows_of_office(self.office)


def is_whole(told, wanted):
    """Whether a command has printed all that is expected: by its status, or by its text alone if it was ended after that."""
    text, status = told
    return status != KILLED or text != b"" and text == wanted[0]


def right_of(told, wanted):
    """What is expected of a command: if it was ended, the beginning of its text."""
    text, status = told
    return told if status == KILLED and wanted[0].startswith(text) else wanted


def wait_for(begun, process):
    """Waits until something has begun, or a process has ended."""
    while not begun.wait(0.001) and process.poll() is None:
        pass


def replies_of(serving, requests, begun):
    """The replies to requests over connections of their own, up to the first that isn't whole, and to the end of the server. It says when
    the first connection begins."""
    replies = []
    for request in requests:
        try:
            with serving.connection() as connection:
                begun.set()
                sent(connection, [request])
                replies.append(received(connection))
        except OSError:
            break
        head, _, body = replies[-1].partition(b"\r\n\r\n")
        length = re.search(rb"content-length: ([0-9]+)", head)
        if not length or len(body) < int(length[1]):
            break
    return replies


# What is done


def long_batch(chance, number):
    """The entry of many hours of a driver, from any day of 2010 or 2011 on."""
    start = 1440 * slow_office.day_number(slow_office.date_of(2010, 1, 1)) + 15 * chance.randrange(70_000)
    starts = [start + 15 * place for place in range(chance.randrange(1, HOURS + 1))]
    return ["enter", str(number)], random_commands.hours_csv([(a, a + 15, chance.choice(slow_reader.ACTIVITIES)) for a in starts])


def enlarged(chance, words, given):
    """The same; an import has, now and then, blocks after the file that aren't read."""
    if words[0] in ("import", "own") and len(given) < slow_office.INPUT_LIMIT and chance.random() < 0.3:
        return words, random_requests.padded_file(given, chance.randrange(len(given), slow_office.INPUT_LIMIT + 1))
    return words, given


def is_kept(chance, told):
    """Whether a command is kept in a list that has printed this: one that changes the archive is, and some of the others."""
    return bool(CHANGED.match(told)) or chance.random() < OTHERS_LEFT


def lines_of(seed, chance):
    """Command lines of a seed, and long batches between them."""
    lines = [enlarged(chance, *line) for line in office_lines.Lines(seed).lines()]
    for _ in range(3):
        lines.insert(chance.randrange(3, len(lines)), long_batch(chance, chance.choice(random_commands.NUMBERS)))
    office = slow_office.Office()
    return [line for line in lines if is_kept(chance, office.answer(*line)[0])]


def requests_of(seed, chance):
    """Requests of a seed, long batches among them, and the office's key."""
    made = random_requests.Requests(seed)
    lines, requests = [*made.registrations(), made.weeks()], []
    while len(requests) < REQUESTS:
        line = lines.pop(0) if lines else enlarged(chance, *made.line())
        line = long_batch(chance, made.number()) if chance.random() < 0.1 else line
        request = made.parts(*line).written()
        if is_kept(chance, made.server.reply(request).partition(b"\r\n\r\n")[2]):
            requests.append(request)
    return requests, made.office_key


def of_commands(desk, seed):
    """The comparisons of a seed's commands."""
    for number in range(MAKINGS):
        desk.path = os.path.join(os.path.dirname(desk.aside), f"archive-{number}.db")
        yield from desk.of_making(f"seed {seed}, init {number}")
    for number, (words, given) in enumerate(lines_of(seed, desk.chance), 1):
        if desk.is_known:
            yield from desk.of_command(f"seed {seed}, line {number}: {name_of(words)}", words, given)


def of_serving(desk, seed):
    """The comparisons of a seed's requests."""
    desk.prepare([])
    requests, key = requests_of(seed, desk.chance)
    number = 0
    while requests and desk.is_known:
        number += 1
        some = requests[: desk.chance.randrange(1, MOST_REQUESTS + 1)]
        done = yield from desk.of_requests(f"seed {seed}, server {number}", some, key)
        requests = requests[done:]


# New archives that are made


class Carrying:
    """An archive in a folder that is carried over to a new one by a command which is ended at a random moment."""

    def __init__(self, desk: KilledDesk, date: str) -> None:
        self.desk = desk
        self.date = date
        self.new = desk.beside(NEW)
        self.office = slow_office.Office(desk.office.archive)
        self.wanted = self.office.answer(["carry", NEW, date])
        self.old = files.both_of(desk.path)

    def made(self) -> list[str]:
        """The endings of the names of those of the new archive's four files that are there."""
        return [ending for ending in ENDINGS if os.path.lexists(self.new + ending)]

    def remove(self) -> None:
        """Removes what is there of the new archive."""
        for ending in self.made():
            os.remove(self.new + ending)

    def running(self) -> subprocess.Popen[bytes]:
        """The command, which runs."""
        return self.desk.started(self.desk.path, ["carry", self.new, self.date], b"")

    def measured(self) -> tuple[float, int]:
        """How long it takes if nobody ends it, in seconds, and how often it changes its files."""
        start = time.monotonic()
        with self.running() as running:
            count = killing.watch(running, self.new + ".part", sys.maxsize)
        return time.monotonic() - start, count

    def tables(self, name: str) -> counting.Comparison:
        """The comparison of the tables of the new archive with those that it has to have."""
        return of_tables(name, self.new, self.office.made[NEW].archive)

    def of_end(self, name: str, seconds: float, count: int) -> counting.Comparisons:
        """The comparisons of what an end leaves: the old archive as it was, and at most the unfinished one, or the new one whole."""
        with self.running() as running:
            killing.wait(running, self.new + ".part", self.desk.chance, seconds, count)
            killing.end(running)
        text = files.content(os.path.join(self.desk.aside, "output")) or b""
        made = self.made()
        yield f"{name}: what is printed", text, text if running.returncode == KILLED and self.wanted[0].startswith(text) else self.wanted[0]
        is_whole = made == [""]
        yield f"{name}: the files", made, made if is_whole or {*made} <= {".part", ".part-wal"} else "the new one, or the unfinished one"
        yield f"{name}: the old archive", files.both_of(self.desk.path) == self.old, True
        yield f"{name}: whether it is there, once it is said", is_whole or not text, True
        yield from self.of_next(name, made)
        self.desk.kinds.add(("carry", "after" if is_whole else "unfinished" if made else "before"))

    def of_next(self, name: str, made: list[str]) -> counting.Comparisons:
        """The comparisons of the next command of the same arguments: it is refused by what is there, and changes nothing of it."""
        before = {ending: files.content(self.new + ending) for ending in made}
        told = self.desk.run(["carry", NEW, self.date])
        yield f"{name}, and again", told, STORE_FAILED if made else (*self.wanted, b"")
        if made:
            after = {ending: files.content(self.new + ending) for ending in self.made()}
            yield f"{name}, and again: the files", after == before, True
        if made == [""] or not made:
            yield self.tables(name)
            yield f"{name}: check", self.desk.at(self.new).run(["check"]), (b"sound\n", 0, b"")
        self.remove()


def of_carrying(desk: KilledDesk, seed: int) -> counting.Comparisons:
    """The comparisons of a seed's new archive: the command is ended some times, and at last nobody ends it."""
    desk.prepare([])
    for words, given in lines_of(seed, desk.chance):
        desk.both(words, given)
    days = [minute // 1440 for driver in desk.office.archive.drivers.values() for minute in driver.held()]
    day = min(desk.chance.choice([min(days), desk.chance.choice(days)]), slow_reader.READ_DAYS.stop - 1)
    carrying = Carrying(desk, random_commands.date_text(day))
    seconds, count = carrying.measured()
    carrying.remove()
    for place in range(CARRYINGS):
        yield from carrying.of_end(f"seed {seed}, carry from {carrying.date}, end {place}", seconds, count)
    yield f"seed {seed}, carry at last", desk.run(["carry", NEW, carrying.date]), (*carrying.wanted, b"")
    yield f"seed {seed}, carry at last: the files", carrying.made(), [""]
    yield carrying.tables(f"seed {seed}, carry at last")
    yield f"seed {seed}, carry at last: the old archive", files.both_of(desk.path) == carrying.old, True


# All


def of_question(question):
    """The comparisons of a function over a list, and which kinds of states the ends have left."""
    function, program, seed = question
    with tempfile.TemporaryDirectory() as folder:
        desk = KilledDesk(program, folder, random.Random(f"{function.__name__} {seed}"))
        return list(function(desk, seed)), desk.kinds


def comparisons(program: str, rounds: int, first: int) -> counting.Comparisons:
    program = os.path.abspath(program)
    seeds = range(first, first + rounds)
    questions: list[tuple[Any, ...]] = [(part, program, seed) for seed in seeds for part in (of_commands, of_serving, of_carrying)]
    kinds = set()
    with multiprocessing.Pool(PROCESSES) as pool:
        for found, left in pool.imap(of_question, questions):
            yield from found
            kinds |= left
        pool.close()
        pool.join()
    both = [word for word in [*CHANGING, "serve"] if {(word, "before"), (word, "after")} <= kinds]
    yield "whether ends have left a command undone and done", any(word != "serve" for word in both), True
    yield "whether ends have left a request undone and done", "serve" in both, True
    yield "what ends of carry have left", sorted(kind for word, kind in kinds if word == "carry"), ["after", "before", "unfinished"]


def arguments() -> argparse.Namespace:
    """The arguments of the command line."""
    parser = argparse.ArgumentParser()
    parser.add_argument("program")
    parser.add_argument("--rounds", type=int, default=ROUNDS)
    parser.add_argument("--first", type=int, default=0)
    return parser.parse_args()


if __name__ == "__main__":
    sys.exit(counting.count(comparisons(**vars(arguments()))))
