#!/usr/bin/env python3
"""Runs the program's commands on an archive in a file with each of their allocations refused in turn, and on a disk that stops at
each of their calls in turn or fails that call alone, and looks for an answer or a table that changes.

A run whose allocation is refused answers as without, or says that it is out of memory (M1), that the store is (S12), or nothing, where
the reader of the command line is. In the last three the archive is as before: the same command, given again, answers as the first would
have. Of the allocations of an opening some are refused. A run whose disk stops answers as without, and has then acted, or says that the
store failed (S12), and has then acted or hasn't: SQLite itself tells which, in a copy, and the same command, given again on a disk that
works, answers so. A new archive by `carry` is there whole, or, after M1 or S12, none of its files is; the old archive keeps its bytes.
Arguments: the program and the compiler of C. The last line is 'N passed, M failed'."""
import bisect
import itertools
import os
import sys
import tempfile
from typing import Any

from lib import counting, files, pools, programs
from lib.failing import (
    ANNA, CARL, CONTRADICT, ENTER, GIVEN_UP, NO_FILE, OF_SCHEMA_1, SIGNED, STORE_FAILED, UNSOUND, WITH_DAY, WITH_HOURS, Commands, Office,
)
from lib.office import ENDINGS
from lib.office_rows import FREE_DAYS, HOLDER, NOON, OTHER_DAY

Answer = tuple[str, int]  # what a program prints, and its status

PROCESSES = 2
STEP = 43  # one in 43 of the allocations of an opening is refused

# Of a `carry`: one in 11 of its last 2,400 allocations is refused, each of 60 at some places, and all of one that has fewer than 1,000.
CARRYING, CARRYING_STEP, NEAR, SHORT = 2_400, 11, 60, 1_000
BERT = (["register"], f"driver,holder,key,base,name\n18,{HOLDER},bert-key-1,2024-03-04,Bert Holm\n".encode())
GAP = (["enter", "17"], b"start,past,activity\n2024-03-11 00:00,2024-03-11 07:00,rest\n2024-03-11 07:00,2024-03-11 12:00,drive\n")
WITH_GAP = [*WITH_HOURS, GAP]
WITH_THREE = [*WITH_HOURS, (["enter", "17"], FREE_DAYS)]

# What an archive was given before, and the command.
CASES = {
    "a first driver": ([], ANNA),
    "a driver with a taken holder": ([ANNA], BERT),
    "a first download": ([ANNA], WITH_DAY[1]),
    "a second download": ([ANNA, (["import", "both"], NOON)], WITH_DAY[1]),
    "a contradiction": (WITH_DAY, (["import", "both"], OTHER_DAY)),
    "hours": (WITH_DAY, ENTER),
    "hours in another order": (WITH_DAY, CONTRADICT),
    "signed hours": (WITH_DAY, SIGNED),
    "a withdrawal": (WITH_HOURS, (["withdraw", "17", "2"], b"")),
    "a withdrawal of three": (WITH_THREE, (["withdraw", "17", "1", "3"], b"")),
    "a withdrawal of one too many": (WITH_THREE, (["withdraw", "17", "1", "4"], b"")),
    "another base": (WITH_DAY, (["base", "17", "2024-03-11"], b"")),
    "another key": (WITH_DAY, (["key", "17"], b"anna-key-2\n")),
    "a taken key": ([ANNA, CARL], (["key", "17"], b"carl-key-1")),
    "another name": (WITH_DAY, (["name", "17"], b"Anna Lind\r\n")),
    "a name of nobody": ([ANNA], (["name", "18"], b"Anna Lind")),
    "a migration": (OF_SCHEMA_1, (["migrate"], b"")),
    "an old archive": (OF_SCHEMA_1, (["drivers"], b"")),
    "spans": (WITH_HOURS, (["spans", "17", "2024-03"], b"")),
    "gaps": (WITH_HOURS, (["gaps", "17", "2024-03"], b"")),
    "a sheet": (WITH_HOURS, (["sheet", "17", "2024-03"], b"")),
    "breaches": (WITH_HOURS, (["breaches", "17"], b"")),
    "what is owed": (WITH_HOURS, (["owed", "17"], b"")),
    "entries": ([*WITH_HOURS, SIGNED], (["entries", "17"], b"")),
    "a file": (WITH_HOURS, (["file", "17", "1"], b"")),
    "a handover": ([*WITH_HOURS, SIGNED], (["handover", "17", "2024-03-01", "2024-04-01"], b"")),
    "drivers": ([*WITH_HOURS, CARL], (["drivers"], b"")),
    "a sound archive": ([*WITH_GAP, SIGNED, CARL], (["check"], b"")),
    "an unsound archive": (UNSOUND, (["check"], b"")),
    "stretches": (WITH_GAP, (["stretches", "17"], b"")),
    "a forecast": (WITH_GAP, (["ahead", "17", "2024-03-11", "12:00"], b"")),
    "debts": (WITH_GAP, (["debts", "17"], b"")),
    "the forecast for all": ([*WITH_GAP, CARL], (["forecast", "2024-03-11", "12:00"], b"")),
    "how all stand": ([*WITH_GAP, CARL], (["standing", "2024-03"], b"")),
    "an overview": ([*WITH_GAP, CARL], (["overview", "2024-03"], b"")),
    "incidents": ([*WITH_GAP, CARL], (["incidents", "2024-03"], b"")),
    "a form": (WITH_GAP, (["form", "17"], b"")),
    "a form to a day": (WITH_GAP, (["form", "17", "2024-03-08"], b"")),
    "a bad month": (WITH_HOURS, (["sheet", "17", "2024-13"], b"")),
    "a bad period": (WITH_HOURS, (["handover", "17", "2024-03-01", "2024-03-01"], b"")),
}

# Those of a disk that stops, and for how many calls it does so; and the making of an archive.
NEW = {"a new archive": (NO_FILE, (["init"], b""))}

STOPPED = [*NEW, "a first driver", "a first download", "signed hours", "a withdrawal", "a withdrawal of three", "another base"]
STOPPED += ["another key", "another name", "a migration", "an old archive", "a sound archive", "an unsound archive"]
STOPS = {"the disk stopped at": None, "the disk failed": 1}


def undisturbed(office, command):
    """What a command answers, given twice, and what the archive has after each of them."""
    office.restore()
    told = []
    for _ in range(2):
        told.append((office.answer(command), office.tables()))
    return told


def numbers_of(office, compiler, command):
    """The allocations that are refused: some of the opening, and all after it."""
    opening = programs.allocations(compiler, office.words((["entries", "0"], b"")), b"") - 20
    return [*range(1, opening, STEP), *range(max(1, opening), programs.allocations(compiler, office.words(command), command[1]) + 1)]


def of_stops(program, compiler, case, kind):
    """The comparisons of a case on a disk that stops at each of its calls in turn, for good or for that call, up to the first run that
    makes fewer."""
    before, command = {**CASES, **NEW}[case]
    with tempfile.TemporaryDirectory() as folder:
        office = Office(program, folder, before)
        wanted = undisturbed(office, command)
        office.restore()
        as_before = office.left(folder)
        stopper = programs.built(compiler, folder, "stop_disk")
        for number in itertools.count(1):
            office.restore()
            run, is_stopped = programs.run_stopped(stopper, number, office.words(command), command[1], STOPS[kind])
            if not is_stopped:
                break
            told = run.stdout.decode(errors="backslashreplace"), run.returncode
            name = f"{case}, {kind} call {number}"
            has_failed = told == STORE_FAILED
            yield name, told, told if has_failed else wanted[0][0]
            left = office.left(folder)
            is_undone = has_failed and left == as_before
            yield f"{name}: what is left", left, as_before if is_undone else wanted[0][1]
            yield f"{name}, and again", (office.answer(command), office.tables()), wanted[0 if is_undone else 1]
        yield f"{case}, {kind} a call: whether it was", number > 1, True


def of_allocations(program, compiler, case):
    """The comparisons of a case, each of its allocations refused in turn."""
    before, command = CASES[case]
    with tempfile.TemporaryDirectory() as folder:
        office = Office(program, folder, before)
        wanted = undisturbed(office, command)
        office.restore()
        numbers = numbers_of(office, compiler, command)
        refuser = programs.built(compiler, folder)
        for number in numbers:
            office.restore()
            run, _ = programs.run_without(refuser, number, office.words(command), command[1])
            told = run.stdout.decode(errors="backslashreplace"), run.returncode
            name = f"{case}, allocation {number} refused"
            gave_up = told in GIVEN_UP
            yield name, told, told if gave_up else wanted[0][0]
            yield f"{name}, and again", (office.answer(command), office.tables()), wanted[0 if gave_up else 1]


# New archives

NEW_NAME = "new.db"
WITH_ALL = [
    ANNA, CARL, (["import", "both"], NOON), (["import", "both"], WITH_DAY[1][1]), ENTER, GAP, SIGNED, (["enter", "9"], ENTER[1]),
    (["withdraw", "9", "1", "2"], b""),
]

BAD_DAY = "a bad day"

# What an archive was given that is carried over, and from which day on: all of it, a part, and none of the drivers; what is refused; and
# one of schema 1.
CARRIED: dict[str, tuple[Commands, str]] = {
    "all carried": (WITH_ALL, "2024-03-04"),
    "a part carried": (WITH_ALL, "2024-03-05"),
    "nobody carried": (WITH_ALL, "2024-04-01"),
    "nobody there": ([], "2024-03-04"),
    BAD_DAY: (WITH_HOURS, "2024-02-30"),
    "an old archive carried": (OF_SCHEMA_1, "2024-03-04"),
}


class Carrying(Office):
    """An archive in a folder that is carried over to a new one, which is removed before it is done again."""

    def __init__(self, program: str, folder: str, case: str) -> None:
        commands, date = CARRIED[case]
        super().__init__(program, folder, commands)
        self.new = os.path.join(folder, NEW_NAME)
        self.line = self.words((["carry", self.new, date], b""))
        self.old = files.both_of(self.path)

    def made(self) -> list[str]:
        """The endings of the names of those of the new archive's four files that are there."""
        return [ending for ending in ENDINGS if os.path.lexists(self.new + ending)]

    def remove(self) -> None:
        """Removes the new archive, and what was left of it."""
        for ending in self.made():
            os.remove(self.new + ending)

    def undisturbed(self) -> tuple[Answer, list[str], list[str]]:
        """What `carry` answers, which files are there then, and what SQLite finds in the new archive."""
        self.remove()
        return programs.answer(self.line, b""), self.made(), self.found()

    def found(self) -> list[str]:
        """What SQLite finds in the new archive, if it is there."""
        return self.tables(self.new) if os.path.exists(self.new) else []

    def of_run(self, name: str, run: programs.Run, wanted: tuple[Answer, list[str], list[str]]) -> counting.Comparisons:
        """The comparisons of a run that was disturbed: it answers as without, and has made the new archive, or it has failed, and none of
        its files is there. The old archive is as it was."""
        told = run.stdout.decode(errors="backslashreplace"), run.returncode
        has_failed = told in GIVEN_UP
        yield name, told, told if has_failed else wanted[0]
        yield f"{name}: the files", self.made(), [] if has_failed else wanted[1]
        yield f"{name}: what is found", self.found(), [] if has_failed else wanted[2]
        yield f"{name}: the old archive", files.both_of(self.path) == self.old, True


def allocations_of(office: Carrying, refuser: str) -> int:
    """How many allocations a `carry` asks for."""
    def is_done(number: int) -> bool:
        office.remove()
        return not programs.run_without(refuser, number, office.line, b"")[1]

    return bisect.bisect_left(range(1, 1_000_000), True, key=is_done)


def carrying_numbers(office: Carrying, compiler: str, refuser: str) -> list[int]:
    """The allocations of a `carry` that are refused: all of a short one; some of all of them, more of those after the openings, and each
    of those near the making of the new file, which follows the opening of the old one, and near the end."""
    count = allocations_of(office, refuser)
    if count < SHORT:
        return [*range(1, count + 1)]
    made = programs.allocations(compiler, office.words((["entries", "0"], b"")), b"")
    numbers = {*range(1, count, STEP), *range(count - CARRYING, count, CARRYING_STEP)}
    numbers |= {*range(made - NEAR, made + NEAR), *range(count - NEAR, count + 2)}
    return sorted(numbers)


def of_carrying_allocations(program: str, compiler: str, case: str) -> counting.Comparisons:
    """The comparisons of a case of `carry`, with some of its allocations refused in turn."""
    with tempfile.TemporaryDirectory() as folder:
        office = Carrying(program, folder, case)
        wanted = office.undisturbed()
        yield f"{case}: the old archive", files.both_of(office.path) == office.old, True
        refuser = programs.built(compiler, folder)
        for number in carrying_numbers(office, compiler, refuser):
            office.remove()
            run, _ = programs.run_without(refuser, number, office.line, b"")
            yield from office.of_run(f"{case}, allocation {number} refused", run, wanted)
        yield f"{case}, then", office.undisturbed(), wanted


def of_carrying_stops(program: str, compiler: str, case: str, kind: str) -> counting.Comparisons:
    """The comparisons of a case of `carry` on a disk that stops at each of its calls in turn, for good or for that call."""
    with tempfile.TemporaryDirectory() as folder:
        office = Carrying(program, folder, case)
        wanted = office.undisturbed()
        stopper = programs.built(compiler, folder, "stop_disk")
        for number in itertools.count(1):
            office.remove()
            run, is_stopped = programs.run_stopped(stopper, number, office.line, b"", STOPS[kind])
            yield from office.of_run(f"{case}, {kind} call {number}", run, wanted)
            if not is_stopped:
                break
        yield f"{case}, {kind} a call: whether it was", number > 1, case != BAD_DAY
        yield f"{case}, {kind} a call, then", office.undisturbed(), wanted


def comparisons(program: str, compiler: str) -> counting.Comparisons:
    questions: list[tuple[Any, ...]] = [(of_allocations, program, compiler, case) for case in CASES]
    questions += [(of_stops, program, compiler, case, kind) for case in STOPPED for kind in STOPS]
    questions += [(of_carrying_allocations, program, compiler, case) for case in CARRIED]
    questions += [(of_carrying_stops, program, compiler, case, kind) for case in CARRIED for kind in STOPS]
    yield from pools.of_questions(questions, PROCESSES)


if __name__ == "__main__":
    sys.exit(counting.count(comparisons(*sys.argv[1:])))
