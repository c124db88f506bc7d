"""Random command lines of the office, from a seed: three drivers and their cards, weeks near the limits of the rules that are
entered for one of them, and readings after what was done before."""
from inputs import hard_timelines, random_commands
from inputs.random_commands import Columns, date_text, rows_csv, rows_of
from slow import slow_csv, slow_office, slow_reader
from slow.slow_archive import Driver
from slow.slow_office import Command

LINES = 30
FIRST_DAY = 10_957  # 2000-01-01, the first day of a month that is read
LAST_MINUTE = 68_374_079  # 2099-12-31 23:59
READINGS = ["spans", "gaps", "sheet", "chart", "why", "breaches", "owed", "owed", "entries", "files", "file", "drivers", "check", "migrate"]
READINGS += ["stretches", "stretches", "debts", "forecast", "standing", "overview", "incidents", "form", "form", "ahead", "handover"]
BAD_DRIVERS = ["017", "0", "1000000", "", "+17", "1e3", "\u0661\u0667"]
BAD_NUMBERS = ["0", "01", "1000001", "x", "99999999999999999999"]
BAD_MONTHS = ["2024-13", "2024-00", "2024-3", "1999-12", "2100-01", "0000-01", "2024-03-04", "2024/03"]
BAD_DATES = ["2024-02-30", "2023-02-29", "1999-12-31", "2100-01-01", "0000-02-29", "2024-03", "2024-3-4"]
BAD_PASTS = ["2000-01-03", "2000-01-04", "2099-12-31", *BAD_DATES]
BAD_TIMES = ["24:00", "12:60", "9:00", "12:0", "12.00", "1200", "12:00:00", "", "2024-03-04"]
BAD_PARTS = ["whole", "BOTH", "", "0"]
FIRST_NEW = "new-1.db"

# By the command: what its arguments, without the archive, are changed to.
BAD: dict[str, list[list[str]]] = {
    "register": [],
    "import": [BAD_PARTS],
    "withdraw": [BAD_DRIVERS, BAD_NUMBERS, BAD_NUMBERS],
    "base": [BAD_DRIVERS, BAD_DATES],
    "spans": [BAD_DRIVERS, BAD_MONTHS],
    "gaps": [BAD_DRIVERS, BAD_MONTHS],
    "sheet": [BAD_DRIVERS, BAD_MONTHS],
    "chart": [BAD_DRIVERS, BAD_MONTHS],
    "why": [BAD_DRIVERS, BAD_MONTHS],
    "ahead": [BAD_DRIVERS, BAD_DATES, BAD_TIMES],
    "file": [BAD_DRIVERS, BAD_NUMBERS],
    "handover": [BAD_DRIVERS, BAD_DATES, BAD_PASTS],
    "form": [BAD_DRIVERS, BAD_DATES],
    "drivers": [BAD_DRIVERS],
    "check": [],
    "migrate": [],
    "carry": [[FIRST_NEW], BAD_DATES],
    "forecast": [BAD_DATES, BAD_TIMES],
    "standing": [BAD_MONTHS],
    "overview": [BAD_MONTHS],
    "incidents": [BAD_MONTHS],
}


def nearest_date(day: int) -> str:
    """The date of a day, or of the nearest one that is read."""
    return date_text(max(slow_reader.READ_DAYS.start, min(day, slow_reader.READ_DAYS.stop - 1)))


def from_week(columns: Columns, day: int) -> Columns:
    """The columns of a driver with the Monday of a day's week as the base."""
    number, holder, key, _, name = columns
    return number, holder, key, day - (day - 4) % 7, name


class Lines(random_commands.Commands):
    """Command lines of a seed: arguments and an input each."""

    def __init__(self, seed: int) -> None:
        super().__init__(seed)
        hard = hard_timelines.weekly_timeline(seed) if seed % 3 == 0 else hard_timelines.timeline(seed, 1 + seed % 2)
        self.hard, self.base, _ = hard

    def from_card(self, columns: Columns) -> Columns:
        """The columns of a driver with the Monday of the card's first week as the base."""
        _, holder, *_ = columns
        return from_week(columns, next(card.days[0][0] for card in self.cards if card.holder == holder))

    def first_drivers(self) -> list[Columns]:
        """All drivers: the last of them from the Monday of the hard weeks on, and the others from that of their card on."""
        *drivers, last = super().first_drivers()
        self.examined = last[0]
        return [*map(self.from_card, drivers), from_week(last, self.base // 1440)]

    def import_new(self) -> Command:
        """The import of a new file by the office."""
        words, file = super().import_new()
        self.imports[-1] = ["import", words[-1]], file
        return self.imports[-1]

    def weeks(self) -> Command:
        """The entry of some of the hard weeks' hours that are left."""
        count = self.chance.choice([len(self.hard), len(self.hard), len(self.hard) // 2])
        taken, self.hard = self.hard[:count], self.hard[count:]
        return ["enter", str(self.examined)], rows_csv(*rows_of(self.chance, taken))

    def month(self, driver: Driver | None) -> str:
        """A month of which a driver holds something or the next to it, or an argument that is none."""
        held = [minute // 1440 for minute in driver.held()] if driver else []
        day = self.chance.choice(held or [self.base // 1440]) + self.chance.choice([-31, 0, 0, 0, 31])
        return self.one_of([date_text(max(day, FIRST_DAY))[:7]], BAD_MONTHS)

    def minute(self, driver: Driver | None) -> list[str]:
        """A date and a time: near the end of what a driver holds, or at any minute of it, or arguments that are none."""
        held = list(driver.held()) if driver else []
        end = max(held, default=self.base)
        minute = self.chance.choice([end, end + 1, end + 600, end + 1440, self.chance.choice(held or [end])])
        date, time = slow_reader.minute_text(min(minute, LAST_MINUTE)).split(" ")
        return [self.one_of([date], BAD_DATES), self.one_of([time], BAD_TIMES)]

    def day(self, driver: Driver | None) -> list[str]:
        """A date before, within or after what a driver holds, or an argument that is none, or no argument."""
        held = [minute // 1440 for minute in driver.held()] if driver else []
        base, end = driver.base if driver else self.base // 1440, max(held, default=self.base // 1440)
        day = self.chance.choice([base, base - 7, base + 1, end, end + 1, end + 400, *[self.chance.choice(held or [end])] * 4])
        return [self.one_of([nearest_date(day)], BAD_DATES)] if self.chance.random() < 0.5 else []

    def period(self, driver: Driver | None) -> list[str]:
        """Two dates: the period is within what a driver holds, at its ends or around it, or too long, or the dates are no period."""
        held = [minute // 1440 for minute in driver.held()] if driver else []
        known = held or [self.base // 1440]
        first = self.chance.choice([min(known), max(known), self.chance.choice(known)]) + self.chance.choice([-2, -1, 0, 0, 0, 1])
        past = first + self.one_of([1, 1, 2, 3, 7, 31, 366], [-1, 0, 367])
        return [self.one_of([nearest_date(first)], BAD_DATES), self.one_of([nearest_date(past)], BAD_PASTS)]

    def minute_of_all(self) -> list[str]:
        """A date and a time for all drivers: near the first end of what they hold, or so late that none has a forecast, or arguments
        that are none. A slow forecast from years after a horizon on takes long."""
        ends = [slow_office.end_of_held(driver.held(), 1440 * driver.base) for driver in self.drivers.values()]
        minute = min(ends, default=self.base) + self.chance.choice([-1, 0, 1, 600, 1440, LAST_MINUTE])
        date, time = slow_reader.minute_text(min(minute, LAST_MINUTE)).split(" ")
        return [self.one_of([date], BAD_DATES), self.one_of([time], BAD_TIMES)]

    def number(self) -> int:
        """A driver's number: that of the hard weeks, one with downloads, if there is any, or any other."""
        with_downloads = [number for number, driver in self.drivers.items() if driver.downloads]
        return self.chance.choice([self.examined, self.one_of(with_downloads or [self.examined]), self.one_of(random_commands.NUMBERS)])

    def reading(self) -> Command:
        """A reading of a driver, or a command that changes nothing of an archive of today."""
        word, number = self.chance.choice(READINGS), self.number()
        driver = self.drivers.get(number)
        if word == "drivers" and number > 1_000:
            return [word, str(number)], b""
        if word in ("drivers", "check", "migrate"):
            return [word], b""
        if word in ("standing", "overview", "incidents"):
            return [word, self.month(driver)], b""
        if word == "forecast":
            return [word, *self.minute_of_all()], b""
        if word in ("spans", "gaps", "sheet", "chart", "why"):
            return [word, str(number), self.month(driver)], b""
        if word == "ahead":
            return [word, str(number), *self.minute(driver)], b""
        if word == "form":
            return [word, str(number), *self.day(driver)], b""
        if word == "handover":
            return [word, str(number), *self.period(driver)], b""
        if word == "file":
            count = len(driver.downloads) if driver else 0
            return [word, str(number), str(self.one_of(range(1, count + 1) or [1], [count + 1]))], b""
        return [word, str(number)], b""

    def spoiled(self, words: list[str], given: bytes) -> Command:
        """The same with another argument, or with an input that is too large, or as a spreadsheet saves it."""
        places = BAD.get(words[0], [BAD_DRIVERS])
        if places and self.chance.random() < 0.6:
            place = self.chance.randrange(len(places))
            words = [*words[: place + 1], self.chance.choice(places[place]), *words[place + 2 :]]
        elif self.chance.random() < 0.2:
            given += b"\n" * (slow_office.INPUT_LIMIT + 1 - len(given))
        elif words[0] in ("register", "enter"):
            given = slow_csv.MARK + given.replace(b"\n", b"\r\n")
        return words, given

    def command(self) -> Command:
        """A command."""
        kinds = [self.import_new] * 4 + [self.enter] * 4 + [self.withdraw] * 3 + [self.weeks] * 2
        kinds += [self.import_again, self.rebase, self.rekey, self.rename, self.register]
        return self.chance.choice(kinds)()

    def line(self) -> Command:
        """A command or a reading."""
        line = self.reading() if self.chance.random() < 0.5 else self.command()
        return self.spoiled(*line) if self.chance.random() < 0.1 else line

    def lines(self) -> list[Command]:
        """The command lines: some drivers first, then the weeks, and then anything."""
        lines = [*self.registrations(), self.weeks()]
        for line in lines:
            self.office.answer(*line)
        while len(lines) < LINES:
            command = None if self.chance.random() < 0.5 else self.command()
            line = command or self.reading()
            if self.chance.random() < 0.1:
                line = self.spoiled(*line)
            elif command:
                self.office.answer(*command)
            lines.append(line)
        return lines


class CarryLines(Lines):
    """The same, with `carry` among the readings, since it leaves the archive as it is."""

    def __init__(self, seed: int) -> None:
        super().__init__(seed)
        self.news: list[str] = []

    def ends(self) -> list[int]:
        """The days in which or at whose end what card files and entries give ends, and those in which it begins."""
        drivers = [*self.drivers.values()]
        given = [download.marks for driver in drivers for download in driver.downloads]
        found = [minute // 1440 for marks in given for minute in (min(marks), max(marks), max(marks) + 1)]
        return found + [minute // 1440 for driver in drivers for entry in driver.entries for minute in (entry.start, entry.past)]

    def carry(self) -> Command:
        """A new archive, or at times one that may be there already, from a day on: near one in which something ends, or any, or an argument
        that is none."""
        day = self.chance.choice(self.ends() or [self.base // 1440]) + self.chance.choice([-7, -1, 0, 0, 0, 1, 2])
        self.news.append(self.one_of([f"new-{1 + len(self.news)}.db"], self.news))
        return ["carry", self.news[-1], self.one_of([nearest_date(day)], BAD_DATES)], b""

    def reading(self) -> Command:
        """A reading, or a new archive."""
        return self.carry() if self.chance.random() < 0.25 else super().reading()
