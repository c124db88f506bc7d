"""Measures reports on archives in files. A report is made from rows, as the program makes it, or from a timeline that is read first and
then examined.

An archive has one driver, with card files of one year or of ten, and with rest entered in all gaps, so that everything from the base on is
examined. The base is at the start of the held minutes or, with ten years, one year before their end. tool_script makes the archive and
opens it in one process. After the opening it makes the report in turns: from rows (`breaches`), from the timeline from the base on
(`examined`), and from the whole timeline (`examined` with `whole`). All three have to print the same. Each time is the least of some
rounds, and each ratio is the median of the rounds' ratios. The time of a command that is refused because of its first argument is
subtracted.

The peak of memory is that of a process that opens the archive and runs one command. It is read from the process's status file in /proc,
because ru_maxrss would include Python, which starts the process. The peak of a process that only opens the archive is printed next to it.
The opening reads every page, and the process keeps freed memory for further use. So the peak after the opening is measured too: the
system's counter is reset then, and the memory that the process already has is subtracted."""
import functools
import os
import shutil
import sys
from collections.abc import Mapping

import cards
from archive import DONE, NOTHING, Program
from measuring import Rounds, less
from office import DRIVER, date_of, fill
from server import fill_gaps

Asked = Mapping[str, tuple[dict[str, str], str]]  # for each archive the commands and their answer

ROUNDS = 40
MEMORY_ROUNDS = 3
DAY, NEWLINE = 1440, "\n"
WAYS = {"rows": "breaches - {driver}", "line": "examined - {driver} {day}", "whole": "examined - {driver} {day} whole"}


@functools.cache
def base_of(years: int) -> int:
    """The day number of the first Monday in the last `years` years that the driver holds."""
    last = cards.rows_of(cards.year_of(cards.read("examples", "driver-year.ddd")))[-1][0] // DAY
    return (last - cards.YEAR * years + 3) // 7 * 7 + 4


def make(script: str, folder: str, years: int) -> str:
    """Makes the archive of a driver with this many years, all of which are examined. Returns its path."""
    path = os.path.join(folder, f"report-{years}.db")
    fill(script, folder, path, DRIVER, years)
    fill_gaps(script, folder, path, years)
    return path


def based(script: str, path: str, made: str, day: int) -> str:
    """Copies an archive to the path `made`, and gives the driver another base there. Returns that path."""
    shutil.copyfile(path, made)
    running = Program([script, "archive", made])
    running.time_of(f"base - {DRIVER} {date_of(day)}", f"base {date_of(day)}\n{DONE}")
    running.end()
    return made


def answer_of(running: Program, command: str) -> str:
    """The answer to a command. Exits unless the command succeeds."""
    running.send(command)
    answer = running.answer()
    if not answer.endswith(DONE):
        sys.exit(f"{command} answered {answer!r}")
    return answer


def times_of(script: str, path: str, commands: Mapping[str, str], expected: str) -> Rounds:
    """The times of each command after an opening."""
    running = Program([script, "archive", path])

    def turn(command: str) -> dict[str, float]:
        return {"nothing": running.time_of(*NOTHING), "report": running.time_of(command, expected)}

    times = Rounds({name: functools.partial(turn, command) for name, command in commands.items()}, ROUNDS)
    running.end()
    return times


def kilobytes(running: Program, field: str) -> int:
    """The value of a field of a running program's status file in /proc, in kilobytes."""
    with open(f"/proc/{running.running.pid}/status", encoding="utf-8") as file:
        return next(int(line.split()[1]) for line in file if line.startswith(field + ":"))


def peaks_of(script: str, path: str, command: str | None, expected: str) -> tuple[int, int, int]:
    """The peaks of memory of a process that opens an archive and then runs a command, in kilobytes: after the opening, at the end, and what
    the command adds if the system's counter is reset after the opening."""
    running = Program([script, "archive", path])
    opened = kilobytes(running, "VmHWM")
    if command:
        running.time_of(command, expected)
    whole = kilobytes(running, "VmHWM")
    running.end()
    running = Program([script, "archive", path])
    with open(f"/proc/{running.running.pid}/clear_refs", "w", encoding="utf-8") as file:
        file.write("5")
    before = kilobytes(running, "VmRSS")
    if command:
        running.time_of(command, expected)
    added = kilobytes(running, "VmHWM") - before
    running.end()
    return opened, whole, added


def print_times(script: str, archives: Mapping[str, str], asked: Asked) -> None:
    """Prints the times of each archive's commands."""
    print(f"a report of one driver, without the opening: processor time in ms, the least of {ROUNDS} rounds: from rows,")
    print("from the timeline from the base on, and from the whole timeline; then the growth of the time from rows, from a year on")
    names = f"{'rows':>8} {'line':>8} {'whole':>8} {'/line':>6} {'/whole':>6} {'growth':>6}"
    print(f"{'archive':20} {'breaches':>8} {names}")
    first, cost = None, less("report", "nothing")
    for name, path in archives.items():
        commands, expected = asked[name]
        times = times_of(script, path, commands, expected)
        taken = [times.least(way, cost) for way in WAYS]
        first = first or taken[0]
        columns = " ".join(f"{time:8.3f}" for time in taken)
        ratios = " ".join(f"{times.ratio('rows', way, cost):6.2f}" for way in ("line", "whole"))
        print(f"{name:20} {expected.count(NEWLINE) - 2:8} {columns} {ratios} {taken[0] / first:6.2f}", flush=True)


def print_peaks(script: str, archives: Mapping[str, str], asked: Asked) -> None:
    """Prints the peaks of memory of each archive's commands."""
    print(f"the peak of memory in kilobytes, the least of {MEMORY_ROUNDS}: after the opening, at the end, and what the command adds")
    print(f"{'archive':20} {'command':8} {'open':>8} {'end':>8} {'added':>8}")
    for name, path in archives.items():
        commands, expected = asked[name]
        for way, command in {"none": None, **commands}.items():
            rounds = [peaks_of(script, path, command, expected) for _ in range(MEMORY_ROUNDS)]
            opened, whole, added = (min(numbers) for numbers in zip(*rounds))
            print(f"{name:20} {way:8} {opened:8} {whole:8} {added:8}", flush=True)


def reports(folder: str, script: str) -> None:
    """Measures the times and the memory of reports, and prints both tables."""
    one, ten = make(script, folder, 1), make(script, folder, 10)
    archives = {
        "one year": (one, base_of(1)),
        "ten years": (ten, base_of(10)),
        "ten, base one back": (based(script, ten, os.path.join(folder, "based.db"), base_of(1)), base_of(1)),
    }
    asked = {}
    for name, (path, day) in archives.items():
        commands = {way: command.format(driver=DRIVER, day=day) for way, command in WAYS.items()}
        running = Program([script, "archive", path])
        asked[name] = commands, answer_of(running, commands["rows"])
        running.end()
    paths = {name: path for name, (path, _) in archives.items()}
    print_times(script, paths, asked)
    print_peaks(script, paths, asked)
