"""Measures the program's commands on archives in files.

tool_script fills an archive with some drivers, each with the card files of some years, in one process. The cost of starting the program and
opening the archive is measured by running the program with a driver's number that is refused after the opening. The commands are measured
without the opening: tool_script runs each of them on an archive that it has already opened, and has to print what the program prints. Each
time is the least of some rounds, in which the commands take turns."""
import datetime
import functools
import os

import cards
from archive import DONE, Answered, Program
from measuring import Rounds, only, output_of, processor_time

ROUNDS, OPENINGS = 40, 3
ARCHIVES = [(1, 1), (1, 10), (10, 1), (10, 10), (50, 1), (50, 10)]  # the number of drivers, and of years of each
DRIVER = 1  # the driver whom the commands ask for
DAY = 1440


def date_of(day: int) -> str:
    """The date of a day number, as the program writes it."""
    return f"{datetime.date(1970, 1, 1) + datetime.timedelta(days=day)}"


def written(folder: str, name: str, content: bytes) -> str:
    """Writes a file, and returns its path."""
    path = os.path.join(folder, name)
    with open(path, "wb") as file:
        file.write(content)
    return path


def commands_of(folder: str, drivers: int, years: int) -> tuple[list[Answered], int]:
    """The commands that fill an archive, with their answers, and a day of the month that is asked for. The last year is that of the
    example's card."""
    year = cards.year_of(cards.read("examples", "driver-year.ddd"))
    last = cards.rows_of(year)[-1][0] // DAY
    base = (last - cards.YEAR * years + 3) // 7 * 7 + 4
    commands = []
    for driver in range(1, drivers + 1):
        file = cards.of_holder(year, driver)
        columns = f"{driver},{cards.holder_of(file).hex()},key-of-{driver:04},{date_of(base)},Driver {driver}\n"
        path = written(folder, f"{driver}.csv", f"driver,holder,key,base,name\n{columns}".encode())
        commands.append((f"register - < {path}", f"registered {driver}\n" + DONE))
        for ago in range(years):
            path = written(folder, f"{driver}-{ago}.ddd", cards.years_later(file, -ago))
            commands.append((f"import - both < {path}", f"added driver {driver} number {ago + 1}\n" + DONE))
    return commands, last - 40


def fill(script: str, folder: str, path: str, drivers: int, years: int) -> int:
    """Makes an archive, and returns a day of the month that is asked for."""
    commands, day = commands_of(folder, drivers, years)
    running = Program([script, "archive", path])
    for command in commands:
        running.time_of(*command)
    running.end()
    return day


def times_of(program: str, script: str, path: str, month: str) -> tuple[float, dict[str, float]]:
    """The time of the start and the opening, and the time of each command after it, in milliseconds."""
    commands = {
        "spans": ["spans", path, str(DRIVER), month],
        "gaps": ["gaps", path, str(DRIVER), month],
        "sheet": ["sheet", path, str(DRIVER), month],
        "breaches": ["breaches", path, str(DRIVER)],
        "owed": ["owed", path, str(DRIVER)],
    }
    expected = {name: output_of([program, *arguments])[0].decode() + DONE for name, arguments in commands.items()}
    opening = min(processor_time([program, "breaches", path, "0"]) for _ in range(OPENINGS))
    running = Program([script, "archive", path])

    def turn(name: str) -> dict[str, float]:
        return {"time": running.time_of(" ".join(commands[name]), expected[name])}

    times = Rounds({name: functools.partial(turn, name) for name in commands}, ROUNDS)
    running.end()
    return opening, {name: times.least(name, only("time")) for name in commands}


def offices(folder: str, program: str, script: str) -> None:
    """Measures the commands on each archive, and prints a table."""
    print("commands on an archive in a file: processor time in milliseconds, of the opening and of each command without it")
    print(f"{'drivers':>8} {'years':>6} {'megabytes':>10} {'open':>8} {'spans':>8} {'gaps':>8} {'sheet':>8} {'breaches':>9} {'owed':>8}")
    for drivers, years in ARCHIVES:
        path = os.path.join(folder, f"{drivers}-{years}.db")
        month = date_of(fill(script, folder, path, drivers, years))[:7]
        opening, found = times_of(program, script, path, month)
        size = os.path.getsize(path) / 1e6
        print(f"{drivers:8} {years:6} {size:10.1f} {opening:8.1f} {found['spans']:8.2f} {found['gaps']:8.2f} {found['sheet']:8.2f}"
              f" {found['breaches']:9.2f} {found['owed']:8.2f}", flush=True)
