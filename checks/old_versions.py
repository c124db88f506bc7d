#!/usr/bin/env python3
"""Opens archives that version 1.0.0 of the program has made: a new one, and one that it migrated. Each has to be sound, and to print what
that version printed of it, and what a slow office prints after the same commands. Then commands go on there, as in the slow office.

checks/inputs/version-1.0.0 has the archives, and what that version printed; `--make PROGRAM`, with the program of version 1.0.0, made them.
Its drawing of a chart isn't there, which has changed since. Argument: the program. The last line is 'N passed, M failed'."""
import contextlib
import json
import os
import random
import sqlite3
import subprocess
import sys
import tempfile

from lib import counting, files, office_rows, old_archive
from lib.archive import of_tables
from lib.counting import Comparisons
from lib.files import CHECKS, EXAMPLES
from lib.office import CHANGES, WITH_DAY, Command, Desk, readings_of_all
from slow import slow_office

FOLDER = os.path.join(CHECKS, "inputs", "version-1.0.0")
TOLD = os.path.join(FOLDER, "told.json")

# What the program of version 1.0.0 was given: in a new archive, and in that of examples/archive-schema-1.sql once it was migrated.
GIVEN: dict[str, list[Command]] = {
    "new": [*WITH_DAY, (["withdraw", "17", "1"], b""), *CHANGES[:3], *CHANGES[4:6], (["enter", "17"], office_rows.DAY_OFF)],
    "migrated": [(["import", "both"], office_rows.SATURDAY), (["enter", "17"], office_rows.DAY_OFF), (["withdraw", "17", "3"], b"")],
}

# What the present program is given after that.
NEXT: list[Command] = [
    (["import", "both"], office_rows.SATURDAY), (["import", "both"], office_rows.DAY), (["import", "both"], office_rows.CREW_DAY),
    (["withdraw", "17", "2", "3"], b""), (["name", "17"], b"Anna Lind\n"), (["key", "18"], b"a-key-that-nobody-guesses\n"),
    (["enter", "18"], office_rows.FREE_DAYS), (["carry", "next.db", "2024-03-05"], b""),
]


def office_of(name: str) -> slow_office.Office:
    """The slow office after what the archive was given."""
    office = old_archive.office_after(old_archive.EXAMPLE) if name == "migrated" else slow_office.Office()
    for words, given in GIVEN[name]:
        text, status = office.answer(words, given)
        if status:
            raise RuntimeError(f"{words} is refused: {text!r}")
    return office


def path_of(name: str) -> str:
    """The path of an archive that version 1.0.0 has made."""
    return os.path.join(FOLDER, f"{name}.db")


def questions_of(office: slow_office.Office) -> list[list[str]]:
    """What is read of an archive."""
    return readings_of_all(office, random.Random(0))


# The archives


def make(program: str) -> None:
    """Makes the archives by the program of version 1.0.0, and notes what it prints."""
    os.makedirs(FOLDER, exist_ok=True)
    told: dict[str, dict[str, str]] = {}
    for name, commands in GIVEN.items():
        path = path_of(name)
        with contextlib.suppress(FileNotFoundError):
            os.remove(path)
        if name == "migrated":
            with open(os.path.join(EXAMPLES, "archive-schema-1.sql"), encoding="utf-8") as file, \
                    contextlib.closing(sqlite3.connect(path)) as store, store:
                store.executescript(file.read())
        for words, given in [(["migrate" if name == "migrated" else "init"], b""), *commands]:
            subprocess.run([program, words[0], path, *words[1:]], input=given, stdout=subprocess.DEVNULL, check=True)
        told[name] = {}
        for words in questions_of(office_of(name)):
            run = subprocess.run([program, words[0], path, *words[1:]], stdin=subprocess.DEVNULL, capture_output=True)
            if run.returncode != 2 and words[0] != "chart":
                told[name][" ".join(words)] = run.stdout.decode("latin-1")
        os.remove(path + "-wal")
    with open(TOLD, "w", encoding="utf-8") as file:
        json.dump(told, file, indent=1)
        file.write("\n")


# The present program


def of_archive(program: str, name: str, told: dict[str, str]) -> Comparisons:
    """The comparisons of an archive of version 1.0.0: its rows, its readings, and what comes after that."""
    office = office_of(name)
    with tempfile.TemporaryDirectory() as folder:
        desk = Desk(program, folder)
        desk.office = office
        files.write(desk.path, files.read(path_of(name)))
        os.chmod(desk.path, 0o600)
        yield f"{name}: its rows", *of_tables(name, desk.path, office.archive, is_migrated=name == "migrated")[1:]
        yield f"{name}: check", desk.run(["check"]), (b"sound\n", 0, b"")
        questions = questions_of(office)
        for words in questions:
            line = " ".join(words)
            yield f"{name}: {line}", *desk.both(words)
            if line in told:
                yield f"{name}: {line}, as before", desk.run(words)[0].decode("latin-1"), told[line]
        yield f"{name}: what isn't asked any more", sorted(set(told) - {" ".join(words) for words in questions}), []
        for words, given in NEXT:
            yield f"{name}: {' '.join(words)}", *desk.both(words, given)
        yield f"{name}: its rows at the end", *of_tables(name, desk.path, office.archive, is_migrated=name == "migrated")[1:]
        yield f"{name}: check at the end", desk.run(["check"]), (b"sound\n", 0, b"")


def comparisons(program: str) -> Comparisons:
    """All comparisons."""
    with open(TOLD, encoding="utf-8") as file:
        told = json.load(file)
    for name in GIVEN:
        yield f"{name}: how much version 1.0.0 printed", len(told[name]) > 20, True
        yield from of_archive(os.path.abspath(program), name, told[name])


if __name__ == "__main__":
    if sys.argv[1] == "--make":
        make(os.path.abspath(sys.argv[2]))
    else:
        sys.exit(counting.count(comparisons(*sys.argv[1:])))
