"""The working lives of twelve drivers, up to a day, and the card files that are downloaded then: a year of driving with breaks, night work,
weekly rests, leave, some breaches, and nights that nobody entered. They show what an office sees, and test no rule. docs/CARD.md says what
the bytes are."""
import random
from bisect import bisect_left, bisect_right
from collections import namedtuple
from collections.abc import Iterator

from inputs.random_cards import ACTIVITY, IDENTIFICATION, activity_data, block, record, word

DAY, WEEK = 1440, 7
WEEKS = 51
REST, AVAILABLE, WORK, DRIVE, UNKNOWN = range(5)
LONG = 180  # minutes of a rest that isn't a break
LEAST = 30  # minutes of driving after a break
SLIP = 0.16  # how likely a week has a breach, of a driver who makes any
BREAK, DAILY_REST, DAILY_DRIVING, TWO_WEEKS = "break", "daily rest", "daily driving", "two weeks"

# A driver: when their day begins and how long they drive, in minutes; how likely they work on a Saturday; which rules they break; the
# leave, as its first week and the count of weeks; the nights that they forgot to enter, each as a week and a day of it; whether they owe
# rest; whether they have a card file; and how many days before the last one it was downloaded. Weeks are counted back from the last one.
Driver = namedtuple("Driver", "number name start driving saturdays slips leave forgotten owes has_file age")

DRIVERS = [
    Driver(1, "Ana Kovač", 330, 490, 0.2, [BREAK], (20, 2), [], False, True, 0),
    Driver(2, "Bart de Vries", 285, 500, 0.3, [TWO_WEEKS, DAILY_DRIVING], (17, 2), [], False, True, 0),
    Driver(3, "Carla Mendes", 360, 470, 0.1, [], (15, 3), [], False, True, 0),
    Driver(4, "Dieter Lange", 1140, 480, 0, [BREAK], (31, 2), [], False, True, 0),
    Driver(5, "Elif Yıldız", 315, 480, 0.2, [DAILY_REST], (22, 2), [(2, 3), (9, 1)], False, True, 0),
    Driver(6, "Francesca Conti", 390, 450, 0.1, [], (13, 2), [], False, True, 0),
    Driver(7, "Gábor Tóth", 300, 495, 0.3, [DAILY_DRIVING, DAILY_REST], (26, 2), [], False, True, 30),
    Driver(8, "Hanna Virtanen", 345, 480, 0.2, [BREAK], (18, 3), [], False, True, 33),
    Driver(9, "Ivo Marek", 240, 480, 0.3, [TWO_WEEKS], (24, 2), [], False, True, 0),
    Driver(10, "Jonas Öberg", 1080, 490, 0, [DAILY_DRIVING], (28, 2), [(2, 4)], False, True, 0),
    Driver(11, "Katrin Wolff", 375, 450, 0.1, [BREAK, DAILY_REST], (11, 1), [], True, True, 0),
    Driver(12, "Luc Moreau", 330, 480, 0, [], (0, 0), [], False, False, 0),
]


def monday_of(day: int) -> int:
    """The Monday of a day's week, both in days since 1970."""
    return day - (day + 3) % WEEK


def first_day(last: int) -> int:
    """The Monday from which the cards have records, where a day is the last."""
    return monday_of(last) - WEEKS * WEEK


class Life:
    """A driver's working life, as changes of their activity, from the first day of a card that ends on a day, to the week after that."""

    def __init__(self, driver: Driver, last: int) -> None:
        self.driver = driver
        self.chance = random.Random(driver.number)
        self.first = first_day(last)
        self.minute = DAY * self.first
        self.changes = [(self.minute, REST)]
        self.was_short = False  # whether the last week had a Saturday
        for week in range(WEEKS + 2):
            self.live_week(WEEKS - week, self.first + WEEK * week)

    def go_on(self, activity: int, minutes: int) -> None:
        """Does something for some minutes."""
        if self.changes[-1][1] != activity:
            self.changes.append((self.minute, activity))
        self.minute += minutes

    def live_week(self, left: int, monday: int) -> None:
        """Works on the days of a week, unless it is one of leave. `left` weeks follow up to the last one."""
        driver, chance = self.driver, self.chance
        first, count = driver.leave
        if first - count < left <= first:
            return
        slip = chance.choice(driver.slips) if driver.slips and chance.random() < SLIP else None
        owes = driver.owes and left == 1
        has_saturday = slip == TWO_WEEKS or owes or not self.was_short and chance.random() < driver.saturdays
        self.was_short = has_saturday
        long_days, slip_day = chance.sample(range(5), 2), chance.randrange(1, 5)
        for day in range(6 if has_saturday else 5):
            at_fault = slip if slip == TWO_WEEKS or day == slip_day else None
            driving = self.driving_of(day == 5 and not owes, day in long_days, at_fault)
            self.work(self.start_of(monday + day, at_fault), driving, at_fault)
            self.go_on(UNKNOWN if (left, day) in driver.forgotten else REST, 0)

    def driving_of(self, is_half: bool, is_long: bool, slip: str | None) -> int:
        """The minutes of driving of a day. It may be half a day, or one on which more than nine hours are allowed."""
        chance = self.chance
        if slip == DAILY_DRIVING:
            return chance.randrange(606, 660)
        if slip == TWO_WEEKS:
            return chance.randrange(530, 540)
        if is_half:
            return chance.randrange(150, 260)
        if is_long and chance.random() < 0.3:
            return chance.randrange(545, 590)
        return min(self.driver.driving + chance.randrange(-60, 40), 535)

    def start_of(self, day: int, slip: str | None) -> int:
        """The minute in which a day's work begins: after at least eleven hours of rest, unless the driver breaks that rule."""
        if slip == DAILY_REST:
            return self.minute + self.chance.randrange(470, 530)
        return max(DAY * day + self.driver.start + self.chance.randrange(-15, 30), self.minute + 665)

    def work(self, start: int, driving: int, slip: str | None) -> None:
        """Works from a minute on, and drives with breaks of 45 minutes. Up to that minute all is as it was."""
        chance = self.chance
        self.minute = start
        self.go_on(WORK, chance.randrange(8, 20))
        while driving:
            most = chance.randrange(276, 296) if slip == BREAK else chance.randrange(200, 268)
            slip = None
            part = driving if driving <= most else min(most, driving - LEAST)
            driving -= part
            self.drive(part)
            if driving:
                self.go_on(REST, chance.randrange(45, 54))
        self.go_on(WORK, chance.randrange(5, 15))

    def drive(self, minutes: int) -> None:
        """Drives for some minutes, mostly with a stop to load, to wait or to rest for a while."""
        chance = self.chance
        first = chance.randrange(minutes // 3, minutes // 2 + 1)
        self.go_on(DRIVE, first)
        kind = chance.random()
        if kind < 0.5:
            self.go_on(WORK, chance.randrange(12, 30))
        elif kind < 0.6:
            self.go_on(AVAILABLE, chance.randrange(5, 16))
        elif kind < 0.8:
            self.go_on(REST, chance.randrange(15, 20))
        self.go_on(DRIVE, minutes - first)

    def read_at(self, day: int) -> int:
        """The minute in which the card is read on a day: when the work of that day ends, else in the afternoon."""
        ends = [start for (start, activity), (past, _) in zip(self.changes, self.changes[1:])
                if activity == REST and past - start >= LONG and start // DAY == day]
        return max(ends, default=DAY * day + 1020 + self.chance.randrange(40))

    def words_of(self, day: int, past: int) -> list[int]:
        """The words of a day, up to the minute in which the card is read."""
        begin = bisect_right(self.changes, (DAY * day, UNKNOWN))
        end = bisect_left(self.changes, (min(DAY * (day + 1), past), REST))
        changes = [(DAY * day, self.changes[begin - 1][1]), *self.changes[begin:end]]
        if past < DAY * (day + 1):
            changes.append((past, REST))
        return [word_of(activity, minute % DAY) for minute, activity in changes]

    def file(self, day: int) -> bytes:
        """The card file that is downloaded on a day."""
        past = self.read_at(day)
        records = [record(one, self.words_of(one, past)) for one in range(self.first, day + 1)]
        return block(IDENTIFICATION, 0, holder_of(self.driver) + b"00") + block(ACTIVITY, 0, activity_data(records, 0, 0))


def word_of(activity: int, minute: int) -> int:
    """The word of an activity from a minute of the day on. If it is unknown, the card is out."""
    return word(1, 0, REST, minute) if activity == UNKNOWN else word(0, 0, activity, minute)


def holder_of(driver: Driver) -> bytes:
    """The holder of a driver's card."""
    return b"\x0d" + f"DF{driver.number:012}".encode()


def key_of(driver: Driver) -> str:
    """The key of a driver."""
    return f"driver-{driver.number}-example"


def card_files(last: int) -> Iterator[bytes]:
    """The card files of the drivers that have one, where a day is the last."""
    for driver in DRIVERS:
        if driver.has_file:
            yield Life(driver, last).file(last - driver.age)
