#!/usr/bin/env python3
"""Runs commands on an archive in a file with their allocations refused in turn, and looks for an answer or a table that changes.

Each command is given twice. One of the two may be out of memory: it answers M1, or S12 where the store was, or the status 2 alone,
where its line couldn't be read, and has no effect, so that the other gives the undisturbed answer, and SQLite finds what the slow
office's archive holds. Some allocations are refused while a file is opened or made: then nothing is done, and the next run opens it.
Of those of the reader of a command's arguments, which knows no archive, some are refused too. Arguments: the program `tool_script`
and the compiler of C. The last line is 'N passed, M failed'."""
import bisect
import os
import sys
import tempfile
from typing import Any

from lib import counting, pools, programs, script
from lib.archive import of_tables
from lib.office_rows import ANNA, DAY, NO_AUTHOR, NOON, OTHER_DAY, SIGNED_HEAD, bert, hours
from slow import slow_office

PROCESSES = 2
MOST = 100_000  # more allocations than any run asks for
STEP = 43  # one in 43 of the allocations of an opening, or of a reading of arguments, is refused
MARGIN = 20  # allocations at the end of a reading of arguments that are all refused
GIVEN_UP = [(b"M1 no memory\n", 3), (b"S12 store failed\n", 3), (b"", 2)]
ENDED = [(b"", 1)]
NOT_OPENED = [[(b"", 3), (b"", 0)], ENDED]

REGISTER = (["register"], ANNA)
OTHER = (["register"], ANNA.replace(b"\n17,", b"\n9,").replace(b"anna-key-1", b"carl-key-1").replace(b"3233,", b"3239,"))
ENTER = (["enter", "17"], hours("2024-03-04 07:00,2024-03-04 08:00,rest", "2024-03-04 16:30,2024-03-04 18:00,drive"))
SIGNED_ROWS = ["2024-03-04 07:00,2024-03-04 08:00,rest,Eva Lund,", "2024-03-04 16:30,2024-03-04 18:00,drive,Eva Lund,by the printout"]
SIGNED = (["enter", "17"], hours(*SIGNED_ROWS, head=SIGNED_HEAD))
CONTRADICT = (["enter", "17"], hours("2024-03-04 17:00,2024-03-04 17:40,drive", "2024-03-04 17:40,2024-03-04 19:20,work"))
WITH_DAY = [REGISTER, (["import", "both"], DAY)]
WITH_HOURS = [*WITH_DAY, ENTER]
GAP = (["enter", "17"], hours("2024-03-11 00:00,2024-03-11 07:00,rest", "2024-03-11 07:00,2024-03-11 12:00,drive"))
REFUSED = (["entries", "0"], b"")  # a command that is refused when its arguments are read

# What an archive has before, and the command.
CASES = {
    "a first driver": ([], REGISTER),
    "a driver with a taken holder": ([REGISTER], (["register"], bert("bert-key-1", base="2024-03-04"))),
    "a first download": ([REGISTER], (["import", "both"], DAY)),
    "a second download": ([REGISTER, (["import", "both"], NOON)], (["own", "17", "both"], DAY)),
    "a repeated file": (WITH_DAY, (["own", "17", "both"], NOON)),
    "a contradiction": (WITH_DAY, (["import", "both"], OTHER_DAY)),
    "first hours": ([REGISTER], ENTER),
    "hours beside a download": (WITH_DAY, ENTER),
    "hours that contradict": (WITH_HOURS, CONTRADICT),
    "signed hours": (WITH_DAY, SIGNED),
    "hours without an author": ([REGISTER], (["enter", "17"], NO_AUTHOR)),
    "a withdrawal": (WITH_HOURS, (["withdraw", "17", "2"], b"")),
    "a withdrawal of two": (WITH_HOURS, (["withdraw", "17", "1", "2"], b"")),
    "a withdrawal of one too many": (WITH_HOURS, (["withdraw", "17", "1", "3"], b"")),
    "another base": ([REGISTER], (["base", "17", "2024-03-11"], b"")),
    "another key": ([REGISTER], (["key", "17"], b"anna-key-2\n")),
    "a taken key": ([REGISTER, OTHER], (["key", "17"], b"carl-key-1")),
    "another name": ([REGISTER], (["name", "17"], b"Anna Lind\n")),
    "a timeline": (WITH_DAY, (["spans", "17", "2024-03"], b"")),
    "a sheet": (WITH_DAY, (["sheet", "17", "2024-03"], b"")),
    "a chart": (WITH_DAY, (["chart", "17", "2024-03"], b"")),
    "entries": ([*WITH_HOURS, SIGNED], (["entries", "17"], b"")),
    "a file": (WITH_DAY, (["file", "17", "1"], b"")),
    "the list of files": (WITH_DAY, (["files", "17"], b"")),
    "a handover": ([*WITH_HOURS, SIGNED], (["handover", "17", "2024-03-01", "2024-04-01"], b"")),
    "drivers": ([*WITH_HOURS, OTHER], (["drivers"], b"")),
    "stretches": ([*WITH_HOURS, GAP], (["stretches", "17"], b"")),
    "evidence": ([*WITH_HOURS, GAP], (["why", "17", "2024-03"], b"")),
    "a forecast": ([*WITH_HOURS, GAP], (["ahead", "17", "2024-03-11", "12:00"], b"")),
    "debts": ([*WITH_HOURS, GAP], (["debts", "17"], b"")),
    "the forecast for all": ([*WITH_HOURS, GAP, OTHER], (["forecast", "2024-03-11", "12:00"], b"")),
    "how all stand": ([*WITH_HOURS, GAP, OTHER], (["standing", "2024-03"], b"")),
    "an overview": ([*WITH_HOURS, GAP, OTHER], (["overview", "2024-03"], b"")),
    "incidents": ([*WITH_HOURS, GAP, OTHER], (["incidents", "2024-03"], b"")),
    "a form": ([*WITH_HOURS, GAP], (["form", "17"], b"")),
    "a form to a day": ([*WITH_HOURS, GAP], (["form", "17", "2024-03-08"], b"")),
}


class Store:
    """The file of an archive in a folder, to which some commands were given."""

    def __init__(self, program, folder, commands):
        self.folder = folder
        self.path = os.path.join(folder, "archive.db")
        self.words = [program, "archive", self.path]
        self.commands = commands
        self.answers(commands)
        with open(self.path, "rb") as file:
            self.bytes = file.read()

    def answers(self, commands):
        """What the program answers to commands."""
        return script.answers(self.words, self.folder, commands)

    def restore(self):
        """Makes the file what it was, without a log."""
        self.remove()
        with open(self.path, "wb") as file:
            file.write(self.bytes)

    def remove(self):
        """Removes the file and its log."""
        for path in [self.path, self.path + "-wal"]:
            if os.path.exists(path):
                os.remove(path)

    def office(self):
        """The slow office after the commands."""
        office = slow_office.Office()
        script.wanted_of(office, self.commands)
        return office

    def allocations(self, refuser, commands):
        """How many allocations the program asks for where it is given commands."""
        given = script.given(self.folder, commands)

        def is_more(number):
            self.restore()
            return not programs.run_without(refuser, number, self.words, given)[1]

        return bisect.bisect_left(range(1, MOST), True, key=is_more)


def wanted_without_memory(office, commands, told):
    """What is expected where one command at the most was out of memory, or the program has ended since it was."""
    wanted, is_refused = [(b"", 0)], False
    for place, command in enumerate(commands, 1):
        if not is_refused and told[place] in GIVEN_UP:
            wanted.append(told[place])
            is_refused = True
        elif not is_refused and told[place:] == ENDED:
            return wanted + ENDED
        else:
            wanted.append(office.answer(*command))
    return wanted + [(b"", 0)]


def numbers_of(store, refuser, command):
    """The allocations that are refused of a command that is given twice: each time some of the reading of its arguments, and all after
    that."""
    opening = store.allocations(refuser, [])
    reading = store.allocations(refuser, [REFUSED]) - opening - MARGIN
    first = store.allocations(refuser, [command])
    once = [*range(opening + 1, opening + reading, STEP), *range(opening + reading, first + 1)]
    return [*once, *range(first + 1, first + reading, STEP), *range(first + reading, MOST)]


def of_command(program, compiler, case):
    """The comparisons of a case: its command, given twice, with allocations refused for which they ask."""
    before, command = CASES[case]
    with tempfile.TemporaryDirectory() as folder:
        store = Store(program, folder, before)
        numbers = numbers_of(store, programs.built(compiler, folder), command)
        given = script.given(folder, [command] * 2)
        store.restore()
        for number, run in programs.runs_without_memory(compiler, store.words, given, numbers):
            name, told, office = f"{case}, allocation {number} refused", script.answers_of(run), store.office()
            yield name, told, wanted_without_memory(office, [command] * 2, told)
            yield of_tables(name, store.path, office.archive)
            store.restore()


def of_opening(program, compiler, case, is_new):
    """The comparisons of an opening with some of its allocations refused, and of the next one: of an archive, or of a file
    that isn't there yet."""
    with tempfile.TemporaryDirectory() as folder:
        store = Store(program, folder, [REGISTER])
        put_back = store.remove if is_new else store.restore
        put_back()
        for number, run in programs.runs_without_memory(compiler, store.words, b"", range(1, MOST, STEP)):
            name, told, office = f"{case}, allocation {number} refused", script.answers_of(run), store.office()
            yield name, told, told if told in NOT_OPENED else [(b"", 0), (b"", 0)]
            answer = (b"registered 17\n", 0) if is_new else (b"S1 driver taken\n", 1)
            yield name, store.answers([REGISTER]), [(b"", 0), answer, (b"", 0)]
            yield of_tables(name, store.path, office.archive)
            put_back()


def comparisons(program: str, compiler: str) -> counting.Comparisons:
    questions: list[tuple[Any, ...]] = [(of_command, program, compiler, case) for case in CASES]
    questions.append((of_opening, program, compiler, "a new file", True))
    questions.append((of_opening, program, compiler, "an archive", False))
    yield from pools.of_questions(questions, PROCESSES)


if __name__ == "__main__":
    sys.exit(counting.count(comparisons(*sys.argv[1:])))
