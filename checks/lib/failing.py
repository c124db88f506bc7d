"""An archive in a folder that is put back after each command or request that failed, and what it was given before."""
import contextlib
import os
import sqlite3
from collections.abc import Sequence

from lib import files, old_archive, programs
from lib.office_rows import DAY, HOLDER
from slow.slow_office import Command

Commands = Sequence[Command] | None

STORE_FAILED = ("S12 store failed\n", 3)
GIVEN_UP = [("M1 no memory\n", 3), STORE_FAILED, ("", 2)]

ANNA: Command = (["register"], f"driver,holder,key,base,name\n17,{HOLDER},anna-key-1,2024-03-04,Anna Berg\n".encode())
CARL: Command = (["register"], f"driver,holder,key,base,name\n9,{HOLDER[:-1]}9,carl-key-1,2024-03-04,Carl Ek\n".encode())
HOURS = b"start,past,activity\n2024-03-04 07:00,2024-03-04 08:00,rest\n2024-03-04 16:30,2024-03-04 18:00,drive\n"
ENTER: Command = (["enter", "17"], HOURS)
SIGNED_ROWS = b"2024-03-04 07:00,2024-03-04 08:00,rest,Eva Lund,\n2024-03-04 16:30,2024-03-04 18:00,drive,Zo\xc3\xab,by the printout\n"
SIGNED: Command = (["enter", "17"], b"start,past,activity,author,note\n" + SIGNED_ROWS)
OTHER_HOURS = b"start,past,activity\n2024-03-04 17:00,2024-03-04 18:00,rest\n2024-03-04 16:00,2024-03-04 17:30,work\n"
CONTRADICT: Command = (["enter", "17"], OTHER_HOURS)
WITH_DAY: list[Command] = [ANNA, (["import", "both"], DAY)]
WITH_HOURS: list[Command] = [*WITH_DAY, ENTER]

# In the place of these: the example of schema 1, no file, and an archive with hours of which a row of `held` is wrong.
OF_SCHEMA_1 = None
NO_FILE: Sequence[Command] = ()
UNSOUND: Sequence[Command] = [*WITH_HOURS]


class Office:
    """An archive in a folder, to which some commands were given, or one of schema 1."""

    def __init__(self, program: str, folder: str, commands: Commands) -> None:
        self.program = program
        self.path = os.path.join(folder, "archive.db")
        self.make(commands)
        self.bytes = files.content(self.path)

    def make(self, commands: Commands) -> None:
        """Makes the file."""
        if commands is OF_SCHEMA_1:
            old_archive.make(self.path, old_archive.example_rows())
        elif commands is not NO_FILE:
            for command in [(["init"], b""), *commands]:
                self.answer(command)
        if commands is UNSOUND:
            with contextlib.closing(sqlite3.connect(self.path)) as store, store:
                store.execute("UPDATE held SET past = past + 1 WHERE start = (SELECT max(start) FROM held)")
            old_archive.put_sums(self.path)

    def words(self, command: Command) -> list[str]:
        """The command line of a command."""
        name, *others = command[0]
        return [self.program, name, self.path, *others]

    def answer(self, command: Command) -> tuple[str, int]:
        """What the program answers."""
        return programs.answer(self.words(command), command[1])

    def restore(self) -> None:
        """Makes the file what it was, without a log."""
        for name in [self.path, self.path + "-wal"]:
            with contextlib.suppress(FileNotFoundError):
                os.remove(name)
        if self.bytes is not None:
            files.write(self.path, self.bytes)

    def tables(self, path: str | None = None) -> list[str]:
        """All that SQLite finds in the archive, or in another one. A file whose making has only begun is none."""
        path = path or self.path
        with contextlib.closing(sqlite3.connect(":memory:" if files.is_begun(path) else path)) as connection:
            return list(connection.iterdump())

    def left(self, folder: str) -> list[str]:
        """The same in a copy of its file and its log, so that both stay as they are."""
        return self.tables(files.copied(self.path, folder))
