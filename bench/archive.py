"""Measures an archive, and compares it with two programs over stock SQLite. They write the same rows to the same tables by the same
statements. One is plain Rust, which also reads cards and hours (plain/commands.rs); the other is Python, which gets the rows (stock.py).

Each of the three is a running program that reads commands, one a line, as tool_script does. The system reports its processor time before a
command and after the answer, so neither the opening of an archive nor the commands that filled it count. The time of a command that is
refused because of its first argument is subtracted. Each time is the least of some rounds, and each ratio is the median of the rounds'
ratios. Before the first measurement a program registers a driver, imports a card of one day, and enters and withdraws hours, so that it has
run each statement. After each round all files have to have the same tables.

The instructions of imports, of a batch of entries and of withdrawals are those of a program that has done them, minus those of a program
that hasn't. Both are terminated before they close their file, and the files that they leave have to have the same tables. Plain Rust adds
each row by itself. Its instructions are counted a second time with eight spans or four entries to an INSERT, as in the product."""
import datetime
import functools
import json
import os
import shutil
import sqlite3
import subprocess
import sys
import time
from collections.abc import Callable, Iterable, Mapping, Sequence
from statistics import median
from typing import Any

import cards
from compiling import plain
from measuring import CALLGRIND, Instructions, Rounds, collected, instruction_heads, less, only, print_instruction_note

Answered = tuple[str, str]  # a command, and its answer
Commands = list[Answered]
Measured = Mapping[str, list[Commands]]  # for each work the repetitions, of which the last command is measured
Sides = Mapping[str, Sequence[str]]  # the command that begins each side
Contents = tuple[list[tuple[str, str]], dict[str, list[Any]]]  # the tables of a file with their statements, and the rows

ROUNDS = 12
SPARE, OLD, NEW = 999_999, 1, range(100, 110)  # the driver of the one-day card, the driver with ten years, the drivers to be registered
YEARS, DRIVERS = 10, 50
ENTRIES, ENTERED = [10, 1_000, 10_000], 10  # the numbers of existing entries, and how many are entered and withdrawn
BATCH = 5_000  # the most entries in one text, so that it isn't too large
LINES = 1_000  # the entries of the text whose entering is measured
COUNTED = ["tacho", "plain", "many"]  # the sides whose instructions are counted
ARCHIVES = {  # each archive, and the one that its growth is relative to
    "empty": "empty",
    "ten years": "empty",
    "fifty drivers": "empty",
    f"{LINES:,} lines": f"{LINES:,} lines",
    "10 entries": "10 entries",
    "ten years, 10 entries": "10 entries",
    "ten years, 1000 entries": "ten years, 10 entries",
    "ten years, 10000 entries": "ten years, 10 entries",
}
DAY, SHIFT, WORK = 1440, (480, 960), cards.mark_number(("work", ""))  # minutes of a day, an entry's hours, and its mark
DONE, REFUSED, NO_COMMAND = "status 0\n", "status 1\n", "status 2\n"
NOTHING = ("enter - 0", "N1 bad number\n" + REFUSED)  # the command whose time is subtracted
STOCK = [sys.executable, os.path.join(cards.TOP, "bench", "stock.py")]


class Program:
    """A running program that answers commands, one a line."""

    def __init__(self, command: Sequence[str], **pipes: Any) -> None:
        self.command = command
        self.running = subprocess.Popen(command, stdin=subprocess.PIPE, stdout=subprocess.PIPE, text=True, **pipes)
        assert self.running.stdin is not None and self.running.stdout is not None
        self.commands, self.answers = self.running.stdin, self.running.stdout
        self.clock = ~self.running.pid << 3 | 2  # the clock of its processor time, see clock_getcpuclockid(3)
        self.expect(DONE)
        self.start = time.clock_gettime_ns(self.clock) / 1e6  # the processor time until it was ready, in milliseconds

    def answer(self) -> str:
        """Reads the next answer: what the program prints, and the line with its status."""
        lines: list[str] = []
        while not lines or lines[-1] and not lines[-1].startswith("status "):
            lines.append(self.answers.readline())
        return "".join(lines)

    def expect(self, expected: str) -> None:
        """Reads the next answer, and exits unless it is the expected one."""
        answer = self.answer()
        if answer != expected:
            sys.exit(f"{self.command}: expected {expected!r}, got {answer!r}")

    def send(self, command: str) -> None:
        """Sends a command."""
        self.commands.write(command + "\n")
        self.commands.flush()

    def time_of(self, command: str, expected: str) -> float:
        """Runs a command that has to give this answer. Returns its processor time, in milliseconds."""
        before = time.clock_gettime_ns(self.clock)
        self.send(command)
        self.expect(expected)
        return (time.clock_gettime_ns(self.clock) - before) / 1e6

    def time_of_last(self, commands: Iterable[Answered]) -> float:
        """Runs commands. Returns the processor time of the last one, in milliseconds."""
        return [self.time_of(*command) for command in commands][-1]

    def end(self) -> None:
        """Closes the program's input, and waits for its end. Exits if it printed anything more, or failed."""
        self.commands.close()
        if self.answers.read() or self.running.wait():
            sys.exit(f"{self.command} failed")


# Cards and hours, and the commands on them with their answers


class Files:
    """Card files and texts of hours in a folder. Next to each lies a file with the rows that an archive keeps of it."""

    def __init__(self, folder: str) -> None:
        self.folder = folder
        self.year = cards.year_of(cards.read("examples", "driver-year.ddd"))
        self.day = cards.read("bench", "day.ddd")
        self.year_rows = cards.rows_of(self.year)
        self.past = self.year_rows[-1][1] // DAY  # the day after the year

    def written(self, name: str, content: bytes, rows: dict[str, Any]) -> str:
        """Writes a file, and its rows next to it. Returns the path of the file."""
        path = os.path.join(self.folder, name)
        with open(path, "wb") as file:
            file.write(content)
        with open(path + ".rows", "w", encoding="utf-8") as file_of_rows:
            json.dump(rows, file_of_rows)
        return path

    def a_driver(self, driver: int) -> str:
        """Writes the CSV that registers a driver. Returns its path."""
        holder, key = cards.holder_of(cards.of_holder(self.day, driver)).hex(), f"driver-{driver}"
        text = f"driver,holder,key,base,name\n{driver},{holder},{key},2000-01-03,Anna Berg\n"
        return self.written(f"{driver}.csv", text.encode(), {"driver": driver, "holder": holder, "key": key})

    def a_card(self, driver: int, file: bytes, rows: list[cards.Row]) -> str:
        """Writes a driver's card file, which gives these rows. Returns its path."""
        file = cards.of_holder(file, driver)
        kept = {"driver": driver, "holder": cards.holder_of(file).hex(), "spans": rows}
        return self.written(f"{driver}-{rows[0][0]}.ddd", file, kept)

    def a_year(self, driver: int, years: int = 0) -> str:
        """Writes a driver's card file of one year, this many years after the example's. Returns its path."""
        return self.a_card(driver, cards.years_later(self.year, years), cards.rows_later(self.year_rows, years))

    def a_day(self, driver: int) -> str:
        """Writes a driver's card file of one day. Returns its path."""
        return self.a_card(driver, self.day, cards.rows_of(self.day))

    def sheet(self, first: int, count: int) -> str:
        """Writes a text of hours: a shift of work on each of `count` days from the day `first` on. Returns its path."""
        rows = [(*(day * DAY + minute for minute in SHIFT), WORK) for day in range(first, first + count)]
        lines = [f"{time_text(start)},{time_text(past)},work\n" for start, past, _ in rows]
        return self.written(f"{first}-{count}.csv", "".join(["start,past,activity\n", *lines]).encode(), {"spans": rows})


def time_text(minute: int) -> str:
    """A minute, as a text of hours contains it."""
    return f"{datetime.datetime(1970, 1, 1) + datetime.timedelta(minutes=minute):%Y-%m-%d %H:%M}"


def reading(command: str, path: str, text: str) -> Commands:
    """A command that reads a file and succeeds. Before it comes a line with only the command's name and the file, by which stock.py loads
    the rows of the file before it is measured. To all three programs that line is no command."""
    name = command.split()[0]
    return [(f"{name} < {path}", NO_COMMAND), (f"{command} < {path}", text + DONE)]


def registering(driver: int, path: str) -> Commands:
    """The command that registers a driver."""
    return reading("register -", path, f"registered {driver}\n")


def importing(driver: int, number: int, path: str) -> Commands:
    """The command that imports a driver's card file with this number."""
    return reading("import - both", path, f"added driver {driver} number {number}\n")


def entering(driver: int, first: int, count: int, path: str) -> Commands:
    """The command that enters `count` entries, numbered from `first` on."""
    return reading(f"enter - {driver}", path, f"entered {first} to {first + count - 1}\n")


def entering_many(files: Files, driver: int, first: int, last: int, day: int) -> Commands:
    """The commands that enter the entries from number `first` to `last`. Entry n is on day `day` + n."""
    commands = []
    for number in range(first, last + 1, BATCH):
        count = min(BATCH, last + 1 - number)
        commands += entering(driver, number, count, files.sheet(day + number, count))
    return commands


def withdrawing(driver: int, number: int) -> Commands:
    """The command that withdraws a driver's entry."""
    return [(f"withdraw - {driver} {number}", f"withdrawn {number}\n" + DONE)]


def filling(files: Files) -> dict[str, Commands]:
    """The commands that fill each archive."""
    alone = registering(OLD, files.a_driver(OLD))
    years = list(alone)
    for number in range(1, YEARS + 1):
        years += importing(OLD, number, files.a_year(OLD, number - 1 - YEARS))
    drivers = []
    for driver in range(1, DRIVERS + 1):
        drivers += registering(driver, files.a_driver(driver)) + importing(driver, 1, files.a_year(driver))
    entries = [entering_many(files, OLD, 1, count, files.past - 1) for count in ENTRIES]
    return dict(zip(ARCHIVES, [[], years, drivers, alone, alone + entries[0], *(years + entered for entered in entries)]))


def warming(files: Files) -> Commands:
    """The commands that make a program run each statement once."""
    done = registering(SPARE, files.a_driver(SPARE)) + importing(SPARE, 1, files.a_day(SPARE))
    return done + entering(SPARE, 1, 1, files.sheet(files.past, 1)) + withdrawing(SPARE, 1)


def measuring(files: Files) -> dict[str, Measured]:
    """The works that are measured in each archive."""
    registers = [registering(driver, files.a_driver(driver)) for driver in NEW]
    first = importing(NEW[0], 1, files.a_year(NEW[0]))
    next_year = importing(OLD, YEARS + 1, files.a_year(OLD))
    works: list[Measured] = [{"register": registers, "import": [work]} for work in (first, next_year, first)]
    works.append({"enter": [entering(OLD, 1, LINES, files.sheet(files.past, LINES))]})
    for count in (ENTRIES[0], *ENTRIES):
        numbers = range(count + 1, count + 1 + ENTERED)
        enters = [entering(OLD, number, 1, files.sheet(files.past + number, 1)) for number in numbers]
        works.append({"enter": enters, "withdraw": [withdrawing(OLD, number) for number in numbers]})
    return dict(zip(ARCHIVES, works))


# The times


def path_of(folder: str, side: str, name: str) -> str:
    """The path of a side's database file."""
    return os.path.join(folder, f"{side} {name}.db")


def make_files(sides: Sides, fills: Mapping[str, Commands], folder: str) -> None:
    """Makes the file of each archive with each side."""
    for side, command in sides.items():
        for name, fill in fills.items():
            program = Program([*command, "archive", path_of(folder, side, name)])
            for filling_command in fill:
                program.time_of(*filling_command)
            program.end()


def copied(folder: str, side: str, name: str) -> str:
    """Copies a side's file, without a log, and returns the path of the copy."""
    path = path_of(folder, side, f"copy of {name}")
    shutil.copyfile(path_of(folder, side, name), path)
    if os.path.exists(path + "-wal"):
        os.remove(path + "-wal")
    return path


def begun(command: Sequence[str], fill: Commands, path: str | None) -> Program:
    """A program with a filled archive: opens the file at the path or, if there is no path, fills an archive in memory."""
    if path is not None:
        return Program([*command, "archive", path])
    program = Program([*command, "memory"])
    for filling_command in fill:
        program.time_of(*filling_command)
    return program


def times_of(program: Program, warm: Commands, works: Measured) -> dict[str, float]:
    """The times of a program in milliseconds: of its start, of each work, and of `nothing`, a command that does no work. The time of a work
    is the median of its repetitions, not the least: on a virtual machine the system sometimes reports no time at all for a short work."""
    program.time_of_last(warm)
    works = {"nothing": [[NOTHING] for _ in NEW], **works}
    return {"start": program.start, **{work: median(map(program.time_of_last, times)) for work, times in works.items()}}


def content(path: str) -> Contents:
    """The tables of a file with the statements that create them, and the rows of each."""
    connection = sqlite3.connect(path)
    tables = connection.execute("SELECT name, sql FROM sqlite_schema WHERE type = 'table' ORDER BY name").fetchall()
    rows = {name: connection.execute(f"SELECT * FROM {name} ORDER BY 1, 2").fetchall() for name, _ in tables}
    connection.close()
    return tables, rows


def check_same(name: str, contents: Sequence[Contents]) -> None:
    """Exits unless the contents of the sides' files are the same."""
    if any(other != contents[0] for other in contents):
        sys.exit(f"the tables of the archives differ: {name}")


def compare(folder: str, sides: Iterable[str]) -> None:
    """Exits unless the sides' files of each archive have the same tables."""
    for name in ARCHIVES:
        check_same(name, [content(path_of(folder, side, f"copy of {name}")) for side in sides])


def measured(
    sides: Sides, place: str, folder: str, fills: Mapping[str, Commands], works: Mapping[str, Measured], warm: Commands,
) -> Rounds:
    """The times of each work, for each archive and side. The archives are in files, or in memory, as `place` says."""
    def turn(name: str, side: str) -> dict[str, float]:
        path = copied(folder, side, name) if place == "file" else None
        program = begun(sides[side], fills[name], path)
        taken = times_of(program, warm, works[name])
        program.end()
        return taken
    turns = {(name, side): functools.partial(turn, name, side) for name in ARCHIVES for side in sides}
    return Rounds(turns, ROUNDS, (lambda: compare(folder, sides)) if place == "file" else None)


def instructions_after(command: Sequence[str], path: str, commands: Iterable[Answered]) -> int:
    """The number of instructions of a program that has run commands on an archive. It is terminated before it closes the archive."""
    program = Program([*CALLGRIND, *command, "archive", path], stderr=subprocess.PIPE)
    for one in commands:
        program.time_of(*one)
    program.running.terminate()
    return collected(program.running.communicate()[1])


def counted(sides: Sides, folder: str, name: str, works: Measured, warm: Commands) -> Instructions:
    """The instructions before an archive's last work, and with it: of the product, of plain Rust that adds each row by itself, and of plain
    Rust that adds many at once."""
    *before, last = ([command for commands in work for command in commands] for work in works.values())
    commands_before = [*warm, *(command for commands in before for command in commands)]
    programs = {**sides, "many": [*sides["plain"], "many"]}
    contents = {}

    def side_of(side: str) -> Callable[[], dict[str, int]]:
        def count(commands: Commands) -> int:
            path = copied(folder, side if side in sides else "plain", name)
            taken = instructions_after(programs[side], path, commands)
            contents[side] = content(path)
            return taken
        return lambda: {"before": count(commands_before), "with": count(commands_before + last)}
    found = Instructions({side: side_of(side) for side in COUNTED})
    check_same(name, [*contents.values()])
    return found


def settings(folder: str, side: str, command: Sequence[str]) -> str:
    """The settings of a side's SQLite, as one line of text."""
    program = Program([*command, "archive", copied(folder, side, "empty")])
    program.send("settings")
    line = program.answer().split("\n")[0]
    program.end()
    return line


def print_times(
    place: str, sides: Sides, works: Mapping[str, Measured], times: Rounds, counts: Mapping[str, Instructions] | None,
) -> None:
    """Prints the times of a place, and the growth of each relative to the archive that ARCHIVES names."""
    for work in ("register", "import", "enter", "withdraw"):
        cost = less(work, "nothing")
        for name in (name for name in ARCHIVES if work in works[name]):
            taken = " ".join(f"{times.least((name, side), cost):8.3f}" for side in sides)
            ratios = " ".join(f"{times.ratio((name, 'tacho'), (name, side), cost):6.2f}" for side in ("plain", "stock"))
            grown = " ".join(f"{times.ratio((name, side), (ARCHIVES[name], side), cost):7.2f}" for side in sides)
            done = [*works[name]]
            instructions = counts[name].columns(less("with", "before", len(works[name][work]))) if counts and work == done[-1] else ""
            print(f"{place:7} {work:9} {name:25} {taken} {ratios} {grown}{instructions}", flush=True)


def archives(folder: str, program: str) -> None:
    """Measures the program and both programs over stock SQLite with each archive, and prints a table."""
    sides: Sides = {"tacho": [program], "plain": [plain(folder, "commands")], "stock": STOCK}
    files = Files(folder)
    fills, works, warm = filling(files), measuring(files), warming(files)
    make_files(sides, fills, folder)
    print(f"an archive: processor time in ms, the least of {ROUNDS} rounds, ratios to plain Rust and to Python, and growth")
    print(f"import: the office imports a card of a year, {len(files.year_rows)} spans; the archive is empty, or has ten years of that")
    print("driver, or a year of each of fifty others")
    print("enter and withdraw: one entry of eight hours, of a driver with other entries, and with ten years of cards or none; or enter:")
    print(f"{LINES:,} such lines at once, one a day, for a driver without cards and entries")
    print("growth: from the empty archive; from no cards to ten years with 10 entries; and from there to more entries")
    print("a file of the archive's SQLite, with checksums of its pages: journal_mode wal, synchronous 2, one process, cache of 2000 pages,")
    print("log of 1000 frames")
    for side, name in {"plain": "Rust", "stock": "Python"}.items():
        print(f"a file of stock SQLite {sqlite3.sqlite_version}, with {name}: {settings(folder, side, sides[side])}")
    print_instruction_note("of imports, of the lines and of withdrawals over a file millions")
    print("many is plain Rust with eight spans or four entries to an INSERT, as in the product; plain adds each row by itself")
    taken, grown = (" ".join(f"{side:>{width}}" for side in sides) for width in (8, 7))
    print(f"{'':43} {taken} {'/plain':>6} {'/stock':>6} {grown}{instruction_heads(others=COUNTED[1:])}")
    print_times("memory", sides, works, measured(sides, "memory", folder, fills, works, warm), None)
    times = measured(sides, "file", folder, fills, works, warm)
    print_times("file", sides, works, times, {name: counted(sides, folder, name, works[name], warm) for name in ARCHIVES})
    starts = "; ".join(f"{times.least((name, 'tacho'), only('start')):.0f} ({name})" for name in ARCHIVES)
    print(f"tacho opens a file, which isn't counted above, in this many ms: {starts}")
