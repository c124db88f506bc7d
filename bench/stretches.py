"""Measures stretches, forecasts and the evidence for a month's breaches next to reports, and a month of all drivers next to a report of
each, on archives in files. Counts the instructions of stretches, of forecasts, of a month of all drivers, and of the chart of a month and
the evidence for its breaches, and compares them with a plain Rust program over stock SQLite (plain/stretches.rs). Counts those of evidence
next to a report too.

One archive has a driver with card files of ten years. Rest is entered in its gaps, so the report extends to the end. Another archive has
the same files with their gaps, at each of which a stretch ends, and a third the last year of these. There are two archives of fifty drivers
with a year each: the reports of the drivers are measured on the one without gaps, and a month of all drivers on both. tool_script opens an
archive and runs the commands in turns. The time of a command that is refused because of its first argument is subtracted. Each time is the
least of some rounds, and each ratio is the median of the rounds' ratios. The memory is what a command adds to the peak of a process that
has opened the archive, as in report.py.

Both programs have to print the same for the archives with gaps, and each reads a row once. The instructions of a command are those of a
program that has run it as its first command, minus those of a program that has only opened the archive. So the start and the opening don't
count, but the costs of a first command do. Those of running the same command a second time are printed as well."""
import functools
import os
import shutil
import sys
from collections.abc import Callable, Mapping, Sequence

from archive import DONE, NOTHING, Answered, Program, Sides, copied, instructions_after, path_of
from compiling import plain
from measuring import HAS_VALGRIND, NO_VALGRIND, Instructions, Rounds, instruction_heads, less
from office import DRIVER, date_of, fill
from report import MEMORY_ROUNDS, answer_of, make, peaks_of
from server import filling_gaps, write_by_stock

Works = Mapping[str, tuple[str, Sequence[str]]]  # for each work the path of its archive, and its commands

ROUNDS, ROUNDS_OF_ALL = 40, 10
YEARS, DRIVERS = 10, 50
WHY = f"why - {DRIVER} 2023-06"  # the month is one of the last year, and has breaches of three kinds
AHEAD = f"ahead - {DRIVER} 2023-06-01 12:00"  # before the last horizon, so the forecast begins there


def make_all(script: str, folder: str, path: str, is_filled: bool) -> str:
    """Makes an archive of fifty drivers with a year each, and enters rest in their gaps if `is_filled`. Returns a month that they hold."""
    month = date_of(fill(script, folder, path, DRIVERS, 1))[:7]
    if is_filled:
        count, hours = filling_gaps(folder, 1)
        running = Program([script, "archive", path])
        for driver in range(1, DRIVERS + 1):
            running.time_of(f"enter - {driver} < {hours}", f"entered 1 to {count}\n{DONE}")
        running.end()
    return month


def times_of(script: str, works: Works, rounds: int) -> tuple[Rounds, dict[str, list[str]]]:
    """The times of works after the opening of their archives, and the answers to the commands of each."""
    running = {path: Program([script, "archive", path]) for path in {path for path, _ in works.values()}}
    expected = {name: [answer_of(running[path], command) for command in commands] for name, (path, commands) in works.items()}

    def turn(name: str) -> dict[str, float]:
        path, commands = works[name]
        nothing = sum(running[path].time_of(*NOTHING) for _ in commands)
        return {"nothing": nothing, "work": sum(map(running[path].time_of, commands, expected[name]))}

    times = Rounds({name: functools.partial(turn, name) for name in works}, rounds)
    for program in running.values():
        program.end()
    return times, expected


def print_works(script: str, works: Works, rounds: int) -> None:
    """Prints the times of works, their ratios to the first, and the memory that the first command of each adds."""
    (times, expected), cost, first = times_of(script, works, rounds), less("work", "nothing"), next(iter(works))
    print(f"{'':40} {'stretches':>9} {'ms':>8} {'ratio':>6} {'kB':>7}")
    for name, (path, commands) in works.items():
        added = min(peaks_of(script, path, commands[0], expected[name][0])[2] for _ in range(MEMORY_ROUNDS))
        count = sum(answer.count("FROM ") for answer in expected[name])
        print(f"{name:40} {count:9} {times.least(name, cost):8.3f} {times.ratio(name, first, cost):6.2f} {added:7}", flush=True)


def expected_of(sides: Sides, folder: str, name: str, command: str) -> str:
    """The answer to a command at an archive. Exits unless all sides give the same answer."""
    answers = []
    for side, program in sides.items():
        running = Program([*program, "archive", copied(folder, side, name)])
        answers.append(answer_of(running, command))
        running.end()
    if any(answer != answers[0] for answer in answers):
        sys.exit(f"the sides print different things for {command}: {answers}")
    return answers[0]


def counting(program: Sequence[str], folder: str, side: str, name: str, work: Answered) -> Callable[[], dict[str, int]]:
    """A function that counts the instructions of a side that has opened an archive, and has run a command there not at all, once, or
    twice."""
    def after(times: int) -> int:
        return instructions_after(program, copied(folder, side, name), [work] * times)
    return lambda: {"opening": after(0), "once": after(1), "twice": after(2)}


def counted(sides: Sides, folder: str, name: str, command: str) -> Instructions:
    """The instructions of each side at a command."""
    work: Answered = command, expected_of(sides, folder, name, command)
    return Instructions({side: counting(program, folder, side, name, work) for side, program in sides.items()})


def print_instructions(sides: Sides, folder: str, works: Mapping[str, tuple[str, str]]) -> None:
    """Prints the instructions of works, each of which is one command at an archive of the sides."""
    print("compared with plain Rust over stock SQLite: the first command after the opening, and the same command a second time")
    print("millions of instructions, by callgrind, and their ratio" if HAS_VALGRIND else NO_VALGRIND)
    print(f"{'':40}{instruction_heads()}")
    for title, work in works.items():
        counts = counted(sides, folder, *work)
        print(f"{title:40}{counts.columns(less('once', 'opening'))}")
        print(f"{'  a second time':40}{counts.columns(less('twice', 'once'))}", flush=True)


def print_evidence(script: str, folder: str, name: str, title: str) -> None:
    """Prints the product's instructions of the evidence for a month's breaches, and those of the report, at one archive."""
    product, side = [script], "tacho"
    commands = {"why": WHY, "breaches": f"breaches - {DRIVER}"}
    works = {word: (command, expected_of({side: product}, folder, name, command)) for word, command in commands.items()}
    if "\n  " not in works["why"][1]:
        sys.exit(f"{WHY} answers without evidence")
    counts = Instructions({word: counting(product, folder, side, name, work) for word, work in works.items()})
    heads = "".join([*(f" {word + '/M':>10}" for word in works), f" {'ratio':>6}"]) if HAS_VALGRIND else ""
    print("the product's evidence for the breaches of a month compared with its report, likewise; the ratio is to be 3 at most")
    print(f"{'':40}{heads}")
    print(f"{title:40}{counts.columns(less('once', 'opening'))}")
    print(f"{'  a second time':40}{counts.columns(less('twice', 'once'))}", flush=True)


def stretches(folder: str, script: str) -> None:
    """Measures stretches and months, and prints the tables."""
    sides: Sides = {"tacho": [script], "plain": [plain(folder, "stretches")]}
    filled, gaps = make(script, folder, YEARS), path_of(folder, "tacho", "gaps")
    fill(script, folder, gaps, DRIVER, YEARS)
    fill(script, folder, path_of(folder, "tacho", "year"), DRIVER, 1)
    print(f"stretches of a driver, without the opening: processor time in ms, the least of {ROUNDS} rounds; ratio to the first row")
    works: Works = {
        f"breaches, {YEARS} years without a gap": (filled, [f"breaches - {DRIVER}"]),
        f"stretches, {YEARS} years without a gap": (filled, [f"stretches - {DRIVER}"]),
        f"stretches, {YEARS} years with gaps": (gaps, [f"stretches - {DRIVER}"]),
        f"form, {YEARS} years with gaps": (gaps, [f"form - {DRIVER}"]),
        f"why, {YEARS} years without a gap": (filled, [WHY]),
        f"why, {YEARS} years with gaps": (gaps, [WHY]),
        f"ahead, {YEARS} years without a gap": (filled, [AHEAD]),
        f"ahead, {YEARS} years with gaps": (gaps, [AHEAD]),
    }
    print_works(script, works, ROUNDS)
    full, many = os.path.join(folder, "full.db"), path_of(folder, "tacho", "many")
    make_all(script, folder, full, True)
    month = make_all(script, folder, many, False)
    opening = Program([script, "archive", full])
    print(f"a month of {DRIVERS} drivers with a year each, likewise, the least of {ROUNDS_OF_ALL}; opening the archive takes"
          f" {opening.start:.0f} ms")
    opening.end()
    each = [f"{{}} - {driver}" for driver in range(1, DRIVERS + 1)]
    works = {
        "breaches of each driver, without gaps": (full, [command.format("breaches") for command in each]),
        "stretches of each driver, without gaps": (full, [command.format("stretches") for command in each]),
        "stretches of each driver, with gaps": (many, [command.format("stretches") for command in each]),
        "overview, without gaps": (full, [f"overview - {month}"]),
        "overview, with gaps": (many, [f"overview - {month}"]),
        "incidents, with gaps": (many, [f"incidents - {month}"]),
        "standing, without gaps": (full, [f"standing - {month}"]),
        "standing, with gaps": (many, [f"standing - {month}"]),
        "forecast, without gaps": (full, [f"forecast - {month}-01 12:00"]),
    }
    print_works(script, works, ROUNDS_OF_ALL)
    shutil.copyfile(filled, path_of(folder, "tacho", "filled"))
    for name in ("gaps", "many", "year", "filled"):
        write_by_stock(*(path_of(folder, side, name) for side in sides))
    counted_works = {
        f"stretches, {YEARS} years with gaps": ("gaps", f"stretches - {DRIVER}"),
        f"overview, {DRIVERS} drivers with gaps": ("many", f"overview - {month}"),
        "chart, one year with gaps": ("year", f"chart - {DRIVER} {month}"),
        f"chart, {YEARS} years with gaps": ("gaps", f"chart - {DRIVER} {month}"),
        "why, one year with gaps": ("year", WHY),
        f"why, {YEARS} years with gaps": ("gaps", WHY),
        "ahead, one year with gaps": ("year", AHEAD),
        f"ahead, {YEARS} years without a gap": ("filled", AHEAD),
    }
    print_instructions(sides, folder, counted_works)
    print_evidence(script, folder, "filled", f"{YEARS} years without a gap")
