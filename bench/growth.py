"""Measures how the time of commands on files grows: with the years of a driver's cards, with the number of drivers, and with entries.

An archive has a number of drivers, each with the card files of a number of years. It is made once, and in each round a program opens a copy
of it. After the opening, and after each statement has been run once, these are measured: `enter` and `withdraw` of one entry next to a
given number of others; the report (`breaches`) and a sheet of a driver, for whom rest has been entered in all gaps, so that everything is
examined; and imports of the following years. The time of a command that is refused because of its first argument is subtracted. Each time
is the least of some rounds, in which the archives take turns; within a round it is a median. A factor is the median of the rounds'
factors."""
import os
import shutil
from statistics import median

import cards
from archive import DONE, ENTRIES, NOTHING, Answered, Commands, Files, Program, entering_many, importing, warming, withdrawing
from measuring import Rounds, less, only
from office import DRIVER, date_of, fill
from report import answer_of
from server import filling_gaps

ROUNDS = 3
TIMES = 5  # repetitions of each command in a round
IMPORTS = 3
YEARS, DRIVERS = (1, 10), (1, 50)
LATER = cards.YEAR * (IMPORTS + 1)  # the days from the end of the cards to the entries


def repeated(running: Program, command: str, expected: str) -> list[float]:
    """The times of the repetitions of a command that changes nothing, in milliseconds."""
    return [running.time_of(command, expected) for _ in range(TIMES)]


class Growing:
    """An archive with some years of some drivers, and the works that are measured on a copy of it."""

    def __init__(self, script: str, folder: str, files: Files, years: int, drivers: int) -> None:
        self.script, self.folder, self.files, self.years = script, folder, files, years
        self.path = os.path.join(folder, f"{years}-{drivers}.db")
        month = date_of(fill(script, folder, self.path, drivers, years))[:7]
        self.count, self.gaps = filling_gaps(folder, years)
        self.reads = {"breaches": f"breaches - {DRIVER}", "sheet": f"sheet - {DRIVER} {month}"}
        running = self.opened()
        running.time_of(*self.gaps_entered(0))
        self.expected = {name: answer_of(running, command) for name, command in self.reads.items()}
        running.end()

    def opened(self) -> Program:
        """A program that has opened a copy of the archive."""
        made = self.path + ".copy"
        shutil.copyfile(self.path, made)
        if os.path.exists(made + "-wal"):
            os.remove(made + "-wal")
        return Program([self.script, "archive", made])

    def gaps_entered(self, before: int) -> Answered:
        """The command that enters rest in the gaps of a driver who has `before` entries."""
        return f"enter - {DRIVER} < {self.gaps}", f"entered {before + 1} to {before + self.count}\n{DONE}"

    def entered(self, first: int, last: int) -> Commands:
        """The commands that enter the entries from number `first` to `last`, each on its own day."""
        return entering_many(self.files, DRIVER, first, last, self.files.past + LATER)

    def of_entries(self, running: Program, before: int, count: int) -> dict[str, list[float]]:
        """The times of `enter` and `withdraw` of one entry next to `count` others. The archive has `before` entries when this begins."""
        running.time_of_last(self.entered(before + 1, count))
        numbers = range(count + 1, count + 1 + TIMES)
        enters = [running.time_of_last(self.entered(number, number)) for number in numbers]
        withdraws = [running.time_of_last(withdrawing(DRIVER, number)) for number in numbers]
        return {f"enter, {count} entries": enters, f"withdraw, {count} entries": withdraws}

    def turn(self) -> dict[str, float]:
        """The time of each work, in milliseconds: the median of its repetitions."""
        running, (few, *many) = self.opened(), ENTRIES
        running.time_of_last(warming(self.files))
        times = {"opening": [running.start], "nothing": repeated(running, *NOTHING), **self.of_entries(running, 0, few)}
        before = few + TIMES
        running.time_of(*self.gaps_entered(before))
        before += self.count
        times |= {name: repeated(running, command, self.expected[name]) for name, command in self.reads.items()}
        years = [importing(DRIVER, self.years + later, self.files.a_year(DRIVER, later)) for later in range(1, 1 + IMPORTS)]
        times["import"] = [running.time_of_last(year) for year in years]
        for count in many:
            times |= self.of_entries(running, before, count)
            before = count + TIMES
        running.end()
        return {name: median(taken) for name, taken in times.items()}


def growths(folder: str, script: str) -> None:
    """Measures the growth of each work, and prints a table."""
    files = Files(folder)
    archives = {(years, drivers): Growing(script, folder, files, years, drivers) for drivers in DRIVERS for years in YEARS}
    print(f"growth over files: processor time in ms, the least of {ROUNDS} rounds, and the median of the rounds' factors: from one year to")
    print("ten, with one driver and with fifty; and from one driver to fifty, with one year and with ten")
    heads = " ".join(f"{f'{years} y, {drivers} d':>10}" for years, drivers in archives)
    print(f"{'':24} {heads} {'years':>7} {'/ 50 d':>7} {'drivers':>7} {'/ 10 y':>7}", flush=True)
    times = Rounds({key: archive.turn for key, archive in archives.items()}, ROUNDS)
    entered = [f"{work}, {count} entries" for work in ("enter", "withdraw") for count in ENTRIES]
    for work in ("opening", "import", *entered, "breaches", "sheet"):
        cost = only(work) if work == "opening" else less(work, "nothing")
        taken = " ".join(f"{times.least(key, cost):10.3f}" for key in archives)
        of_years = [((YEARS[1], drivers), (YEARS[0], drivers)) for drivers in DRIVERS]
        of_drivers = [((years, DRIVERS[1]), (years, DRIVERS[0])) for years in YEARS]
        factors = " ".join(f"{times.ratio(*pair, cost):7.2f}" for pair in of_years + of_drivers)
        print(f"{work:24} {taken} {factors}", flush=True)
