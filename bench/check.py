"""Measures `check` on archives in files, beside an import of the same card files into a new archive.

tool_script fills an archive with some drivers, each with the card files of some years, in one process; an import's time is that of its
command alone. Each year is a card file, or each month: then all files but the first repeat what those before them have, back to the
beginning of the year. The cost of starting the program and opening the archive is measured by running the program with a driver's number
that is refused after the opening, and subtracted from that of the check. Each time of the program is the least of some rounds. Memory is
the most that a run had, as the system reports it."""
import os
import subprocess
import sys

from archive import DONE, Answered, Program
from inputs import working_lives
from measuring import Rounds, less, only, processor_time
from office import ARCHIVES, commands_of, date_of, written

ROUNDS = 3
MONTHLY = [1, 11]  # the number of drivers with a card file each month of a year
MONTH, MONTHS, LAST = 28, 13, 20_783  # days of a month, months of a year, and the day of the last download: 26 November 2026
SOUND = "sound\n"

# Runs a command, and prints the kilobytes that it had on standard error. What the system reports includes the process that started the
# command, so this is a small one of its own.
LAUNCHER = """
import os, sys
_, _, usage = os.wait4(os.posix_spawn(sys.argv[1], sys.argv[1:], os.environ), 0)
print(usage.ru_maxrss, file=sys.stderr)
"""


def monthly_commands(folder: str, drivers: int) -> list[Answered]:
    """The commands that fill an archive with a card file of each month of a year, with their answers."""
    commands = []
    for driver in working_lives.DRIVERS[:drivers]:
        base = date_of(working_lives.first_day(LAST))
        columns = f"{driver.number},{working_lives.holder_of(driver).hex()},{working_lives.key_of(driver)},{base},Driver\n"
        path = written(folder, f"{driver.number}.csv", f"driver,holder,key,base,name\n{columns}".encode())
        commands.append((f"register - < {path}", f"registered {driver.number}\n" + DONE))
        life = working_lives.Life(driver, LAST)
        for number in range(1, MONTHS + 1):
            path = written(folder, f"{driver.number}-{number}.ddd", life.file(LAST - MONTH * (MONTHS - number)))
            commands.append((f"import - both < {path}", f"added driver {driver.number} number {number}\n" + DONE))
    return commands


def fill(script: str, path: str, commands: list[Answered]) -> float:
    """Makes an archive, and returns the time that all imports took, in milliseconds."""
    running = Program([script, "archive", path])
    taken = [(command, running.time_of(command, expected)) for command, expected in commands]
    running.end()
    return sum(time for command, time in taken if command.startswith("import"))


def megabytes_of(command: list[str], expected: str) -> float:
    """The memory of a run that has to print this, in megabytes."""
    run = subprocess.run([sys.executable, "-S", "-c", LAUNCHER, *command], stdin=subprocess.DEVNULL, capture_output=True, text=True)
    if run.stdout != expected:
        sys.exit(f"{command}: expected {expected!r}, got {run.stdout!r}")
    return int(run.stderr.splitlines()[-1]) * 1024 / 1e6  # a fault's sentence stands before it


def measure(folder: str, program: str, script: str, drivers: int, files: int) -> None:
    """Measures the check of an archive with this many card files of each driver, and prints a row."""
    path = os.path.join(folder, f"{drivers}-{files}.db")
    commands = monthly_commands(folder, drivers) if files == MONTHS else commands_of(folder, drivers, files)[0]
    imports = fill(script, path, commands)
    opening, check = [program, "breaches", path, "0"], [program, "check", path]
    memory = [megabytes_of(opening, "N1 bad number\n"), megabytes_of(check, SOUND)]
    times = Rounds({"ours": lambda: {"opening": processor_time(opening), "check": processor_time(check)}}, ROUNDS)
    opened, checked = times.least("ours", only("opening")), times.least("ours", less("check", "opening"))
    print(f"{drivers:8} {files:6} {os.path.getsize(path) / 1e6:10.1f} {opened:8.1f} {checked:8.1f} {imports:8.1f}"
          f" {checked / opened:6.2f} {checked / imports:8.2f} {memory[0]:8.0f} {memory[1]:8.0f}", flush=True)


def checks(folder: str, program: str, script: str) -> None:
    """Measures the check of each archive, and prints a table."""
    print("the check of an archive in a file: processor time in milliseconds, of the opening, of the check without it, and of the imports by")
    print("which the archive was made; and memory in megabytes, of the opening and of the check")
    print(f"{'drivers':>8} {'files':>6} {'megabytes':>10} {'open':>8} {'check':>8} {'imports':>8} {'/open':>6} {'/imports':>8}"
          f" {'of open':>8} {'of check':>8}")
    for drivers, files in [*ARCHIVES, *((drivers, MONTHS) for drivers in MONTHLY)]:
        measure(folder, program, script, drivers, files)
