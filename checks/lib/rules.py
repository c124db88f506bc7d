"""Worked examples of the rules: what is done, and which breaches and debts are expected of it.

A moment is a day of March 2024 and a time, in UTC; the 32nd is 1 April and the 39th is 8 April. All rows are entered
from Monday, 4 March 2024, 00:00, which is minute 28491840 and the start of week 2826. What isn't listed is rest.
"""
from collections import namedtuple
from collections.abc import Iterable
from types import ModuleType

from lib.counting import Comparisons
from slow import slow_rules
from slow.slow_rules import Span

BASE = 28491840
WEEK_4 = 2826  # from Monday, 4 March
WEEK_11 = 2827  # from Monday, 11 March
Row = namedtuple("Row", "name horizon busy breaches debts")


def at(day: int, time: str) -> int:
    """The minute of a time on a day of March 2024."""
    hour, minute = time.split(":")
    return BASE + (day - 4) * 1440 + int(hour) * 60 + int(minute)


def on(activity: str, days: Iterable[int], *times: str) -> list[Span]:
    """The same times of one activity on several days: `on("work", [4, 5], "06:00-07:00")`."""
    busy: list[Span] = []
    for day in days:
        for span in times:
            start, past = span.split("-")
            busy.append((at(day, start), at(day, past), activity))
    return busy


def work(days: Iterable[int], *times: str) -> list[Span]:
    """Work at these times of these days."""
    return on("work", days, *times)


def drive(days: Iterable[int], *times: str) -> list[Span]:
    """Driving at these times of these days."""
    return on("drive", days, *times)


def joined(busy: Iterable[Span], base: int, past: int) -> list[Span]:
    """The spans in order, with rest between them, from the base to the horizon."""
    spans: list[Span] = []
    place = base
    for start, end, activity in sorted(busy):
        if place < start:
            spans.append((place, start, "rest"))
        spans.append((start, end, activity))
        place = end
    if place < past:
        spans.append((place, past, "rest"))
    return spans


NONE = []
ONE_MINUTE_OVER = [(1, at(4, "10:30"), at(4, "06:00"), 1)]

BREAKS = [
    Row("breaks, 45 minutes", at(5, "00:00"), drive([4], "06:00-10:30", "11:15-15:45"), NONE, NONE),
    Row("breaks, a minute over", at(5, "00:00"), drive([4], "06:00-10:31"), ONE_MINUTE_OVER, NONE),
    Row("breaks, 15 and then 30", at(5, "00:00"), drive([4], "06:00-08:00", "08:15-10:45", "11:15-15:45"), NONE, NONE),
    Row("breaks, 30 and then 15", at(5, "00:00"), drive([4], "06:00-08:00", "08:30-11:00", "11:15-15:45"),
        [(1, at(4, "11:15"), at(4, "06:00"), 270)], NONE),
    Row("breaks, one of two parts serves once", at(5, "00:00"), drive([4], "06:00-08:00", "08:15-09:15", "09:45-11:45", "12:15-15:15"),
        [(1, at(4, "14:45"), at(4, "09:45"), 30)], NONE),
]

SHORT_NIGHTS = [
    Row("a rest of 11 hours", at(5, "07:00"), work([4], "06:00-19:00") + work([5], "06:00-07:00"), NONE, NONE),
    Row("a rest of a minute less than 11 hours", at(5, "07:00"), work([4], "06:00-19:01") + work([5], "06:00-07:00"), NONE, NONE),
    Row("a rest of 9 hours", at(5, "07:00"), work([4], "06:00-21:00") + work([5], "06:00-07:00"), NONE, NONE),
    Row("a rest of 3 and of 9 hours", at(5, "07:00"),
        work([4], "06:00-12:00", "15:00-21:00") + work([5], "06:00-07:00"), NONE, NONE),
    Row("a rest of a minute less than 9 hours", at(5, "07:00"), work([4], "06:00-21:01") + work([5], "06:01-07:00"),
        [(2, at(4, "21:00"), at(4, "06:00"), 1)], NONE),
]

DAYS = [
    Row("a fourth reduced rest", at(9, "00:00"), work([4, 5, 6, 7], "06:00-21:00") + work([8], "06:00-12:00"),
        [(3, at(7, "21:00"), at(4, "06:00"), 1)], NONE),
    Row("a fourth rest, but three reduced", at(9, "00:00"),
        work([4, 5, 7], "06:00-21:00") + work([6], "06:00-12:00", "15:00-21:00") + work([8], "06:00-12:00"), NONE, NONE),
    Row("a third day of more than 9 hours, and one of more than 10", at(7, "00:00"),
        drive([4, 5], "06:00-10:30", "11:15-15:45", "16:30-16:31")
        + drive([6], "06:00-10:30", "11:15-15:45", "16:30-17:31"),
        [(5, at(6, "16:30"), at(6, "06:00"), 61), (4, at(6, "17:30"), at(6, "06:00"), 1)], NONE),
]

SIX_DAYS_OF_DRIVING = drive([4, 5, 6, 7, 8, 9], "06:00-10:00", "10:45-14:45")
OWES_345 = [(WEEK_4, 345, at(32, "00:00"), at(11, "13:45"))]

WEEKS = [
    Row("six days between weekly rests", at(12, "00:00"), work(range(4, 10), "06:00-18:00") + work([10], "05:00-06:00"), NONE, NONE),
    Row("six days and a minute between weekly rests", at(12, "00:00"), work(range(4, 10), "06:00-18:00") + work([10], "05:00-06:01"),
        [(8, at(10, "06:00"), at(4, "06:00"), 1)], NONE),
    Row("56 hours in a week", at(12, "00:00"), SIX_DAYS_OF_DRIVING + drive([10], "06:00-10:00", "10:45-14:45"),
        [(8, at(10, "06:00"), at(4, "06:00"), 525)], NONE),
    Row("56 hours and a minute in a week", at(12, "00:00"), SIX_DAYS_OF_DRIVING + drive([10], "06:00-10:00", "10:45-14:46"),
        [(8, at(10, "06:00"), at(4, "06:00"), 526), (6, at(10, "14:45"), at(4, "00:00"), 1)], NONE),
    Row("90 hours in two weeks", at(18, "00:00"), SIX_DAYS_OF_DRIVING + drive(range(11, 17), "06:00-10:00", "10:45-13:45"),
        NONE, OWES_345),
    Row("90 hours and a minute in two weeks", at(18, "00:00"),
        SIX_DAYS_OF_DRIVING + drive(range(11, 16), "06:00-10:00", "10:45-13:45")
        + drive([16], "06:00-10:00", "10:45-13:46"),
        [(7, at(16, "13:45"), at(4, "00:00"), 1)], OWES_345),
]

SHORT_WEEK = work(range(4, 10), "06:00-07:00") + work([10], "07:00-08:00")

THREE_WEEKS = (
    SHORT_WEEK
    + work([11, 12, 13, 14, 15, 18, 19, 20, 21, 22, 25, 26, 27, 28, 29], "06:00-07:00")
    + work([17, 24, 31], "04:00-05:00")
)

DEBTS = [
    Row("a main rest pays", at(18, "02:00"), SHORT_WEEK + work(range(11, 16), "06:00-07:00") + work([18], "01:00-02:00"),
        NONE, [(WEEK_4, 1260, at(32, "00:00"), at(15, "07:00"))]),
    Row("a main rest is a minute too short to pay", at(18, "02:00"),
        SHORT_WEEK + work(range(11, 16), "06:00-07:00") + work([18], "00:59-02:00"), NONE, [(WEEK_4, 1260, at(32, "00:00"), None)]),
    Row("a daily rest pays", at(18, "07:00"),
        SHORT_WEEK + work([11, 12, 14, 15], "06:00-07:00") + work([13], "13:00-14:00") + work([17], "04:00-05:00")
        + work([18], "06:00-07:00"),
        NONE, [(WEEK_4, 1260, at(32, "00:00"), at(12, "07:00"))]),
    Row("a debt is overdue", at(32, "00:00"), THREE_WEEKS + work([31], "23:00-24:00"),
        [(10, at(32, "00:00"), at(4, "00:00"), 1260)], [(WEEK_4, 1260, at(32, "00:00"), None)]),
    Row("a debt is due in a minute", at(31, "23:59"), THREE_WEEKS + work([31], "23:00-23:59"),
        NONE, [(WEEK_4, 1260, at(32, "00:00"), None)]),
]

HORIZONS = [
    Row("a break that is only assumed", at(4, "10:31"), drive([4], "06:00-10:31"), ONE_MINUTE_OVER, NONE),
    Row("a day that isn't over at the horizon", at(4, "21:01"), work([4], "06:00-21:01"), [(2, at(4, "21:00"), at(4, "06:00"), 1)], NONE),
    Row("a day that may still end in time", at(4, "21:00"), work([4], "06:00-21:00"), NONE, NONE),
    Row("available is no rest", at(4, "21:01"), on("available", [4], "06:00-21:01"),
        [(2, at(4, "21:00"), at(4, "06:00"), 1)], NONE),
] + [
    Row(f"rest alone for {minutes} minutes", BASE + minutes, NONE, NONE, NONE)
    for minutes in [0, 1, 539, 540, 1439, 1440, 2700, 10079, 10080, 20160, 50400, 60480]
]

TWO_WEEKS = work([4], "00:00-01:00") + work(range(4, 18), "06:00-07:00")

TWO_SHORT_RESTS = (
    work([4], "00:00-01:00")
    + work([4, 5, 6, 7, 8, 9, 11, 12, 13, 14, 15, 16], "06:00-07:00")
    + work([10, 17], "07:00-08:00")
    + work([17], "23:00-24:00")
)

WEEKLY_RESTS = [
    Row("two weeks without weekly rests", at(18, "00:00"), TWO_WEEKS + work([17], "23:00-24:00"),
        [(8, at(10, "00:00"), at(4, "00:00"), 11520), (9, at(18, "00:00"), at(4, "00:00"), 0)], NONE),
    Row("two weeks without weekly rests, not yet over", at(17, "23:59"), TWO_WEEKS + work([17], "23:00-23:59"),
        [(8, at(10, "00:00"), at(4, "00:00"), 11519)], NONE),
    Row("two weeks with short weekly rests", at(18, "00:00"), TWO_SHORT_RESTS, [(9, at(18, "00:00"), at(4, "00:00"), 0)],
        [(WEEK_4, 1260, at(32, "00:00"), None), (WEEK_11, 1260, at(39, "00:00"), None)]),
]

MONTH = (
    work([4, 5, 6, 7, 8, 12, 13, 14, 15, 18, 19, 20, 21, 22, 25, 29], "06:00-18:00")
    + work([9, 23, 26], "06:00-12:00")
    + work([10], "18:00-22:00")
    + work([11, 28], "08:00-18:00")
    + work([24], "14:00-16:00")
    + work([27], "16:00-22:00")
    + work([31], "15:00-17:00")
)

MONTHS = [
    Row("a month with two reduced weekly rests", at(32, "00:00"), MONTH, NONE,
        [(WEEK_4, 900, at(32, "00:00"), at(15, "18:00")), (WEEK_4 + 2, 1140, at(46, "00:00"), at(26, "12:00"))]),
]

EDGES = [
    Row("a week of driving is in two pairs", BASE + 5401, [(BASE, BASE + 5401, "drive")],
        [
            (1, BASE + 270, BASE, 5131),
            (4, BASE + 600, BASE, 4801),
            (2, BASE + 900, BASE, 4501),
            (6, BASE + 3360, BASE, 2041),
            (7, BASE + 5400, BASE - 10080, 1),
            (7, BASE + 5400, BASE, 1),
        ], NONE),
    Row("the last rest has no end", at(7, "21:01"), work([4, 5, 6, 7], "06:00-21:00"), NONE, NONE),
    Row("a rest of the same week pays", at(11, "07:00"),
        work([4], "00:00-01:00") + work([5], "10:20-11:20") + work([6], "19:00-20:00") + work(range(7, 12), "06:00-07:00"),
        NONE, [(WEEK_4, 700, at(32, "00:00"), at(5, "11:20"))]),
]

# One minute of work and nine hours of rest in turn, from a minute before Monday, 11 March: each rest is reduced, and the
# next weekly one never comes but as the last run.
MINUTE = at(10, "23:59")

SHORT_RESTS = [
    Row("a reduced rest every 541 minutes", at(18, "00:00"),
        [(MINUTE + 541 * turn, MINUTE + 541 * turn + 1, "work") for turn in range(19)],
        [(3, MINUTE + 1 + 541 * turn, MINUTE, turn - 2) for turn in range(3, 16)]
        + [(8, at(16, "23:59"), MINUTE, 1099)]
        + [(3, MINUTE + 1 + 541 * turn, MINUTE, turn - 2) for turn in (16, 17)], NONE),
]

# Each of these notices a reading of the law that no row above notices: a limit from below, since when, which of two comes first.
BREAKS_FROM_BELOW = [
    Row("a break of 44 minutes", at(5, "00:00"), drive([4], "06:00-10:00", "10:44-11:15"),
        [(1, at(4, "11:14"), at(4, "06:00"), 1)], NONE),
    Row("breaks, 14 and then 30", at(5, "00:00"), drive([4], "06:00-08:00", "08:14-10:00", "10:30-11:15"),
        [(1, at(4, "11:14"), at(4, "06:00"), 1)], NONE),
    Row("breaks, 15 and then 29", at(5, "00:00"), drive([4], "06:00-08:00", "08:15-10:00", "10:29-11:15"),
        [(1, at(4, "11:14"), at(4, "06:00"), 1)], NONE),
    Row("work before the first driving", at(5, "00:00"), work([4], "06:00-07:00") + drive([4], "07:00-11:31"),
        [(1, at(4, "11:30"), at(4, "07:00"), 1)], NONE),
]

# A time above 24:00 is on the next day.
LONG_DAY = drive([8, 9], "06:00-10:30", "11:15-15:45", "16:30-16:31")

DAYS_FROM_BELOW = [
    Row("a rest of 539 minutes ends no day", at(5, "06:00"), work([4], "06:00-20:00") + work([5], "04:59-06:00"),
        [(2, at(4, "21:00"), at(4, "06:00"), 540)], NONE),
    Row("a first part of 179 minutes", at(9, "00:00"),
        work([4, 5, 7], "06:00-21:00") + work([6], "06:00-12:00", "14:59-21:00") + work([8], "06:00-12:00"),
        [(3, at(7, "21:00"), at(4, "06:00"), 1)], NONE),
    Row("rests of 13 hours, 9 of them in time", at(8, "23:00"),
        work([4], "06:00-21:00") + work([5], "10:00-25:00") + work([6], "14:00-29:00") + work([7], "18:00-33:00")
        + work([8], "22:00-23:00"),
        [(3, at(8, "09:00"), at(4, "06:00"), 1)], NONE),
    Row("reduced rests are counted from a rest of 24 hours on", at(11, "22:00"),
        work([4, 5, 6, 7], "06:00-21:00") + work([8, 9, 10], "21:00-36:00") + work([11], "21:00-22:00"),
        NONE, [(WEEK_4, 1260, at(32, "00:00"), None)]),
    Row("a fourth rest, of 24 hours", at(8, "22:00"), work([4, 5, 6, 7], "06:00-21:00") + work([8], "21:00-22:00"),
        NONE, NONE),
    Row("a fourth rest, of 24 hours but a minute", at(8, "22:00"), work([4, 5, 6, 7], "06:00-21:00") + work([8], "20:59-22:00"),
        [(3, at(7, "21:00"), at(4, "06:00"), 1)], NONE),
    Row("a day of just 9 hours of driving after three longer ones", at(8, "00:00"),
        drive([4, 5, 6], "06:00-10:30", "11:15-15:45", "16:30-16:31") + drive([7], "06:00-10:30", "11:15-15:45"),
        [(5, at(6, "16:30"), at(6, "06:00"), 1)], NONE),
    Row("extended days on Saturday, Sunday and Monday", at(12, "00:00"),
        work([8], "06:00-07:00") + drive([9, 10, 11], "06:00-10:30", "11:15-15:45", "16:30-16:31"), NONE, NONE),
    Row("a third extended day begins on Sunday", at(12, "00:00"),
        LONG_DAY + drive([10], "20:00-24:00") + drive([11], "00:00-00:30", "01:15-05:46"),
        [(1, at(11, "05:45"), at(11, "01:15"), 1), (5, at(11, "05:45"), at(10, "20:00"), 1)],
        [(WEEK_4, 1051, at(32, "00:00"), None)]),
]

RESTS_FROM_BELOW = [
    Row("the second week is wholly at rest", at(18, "00:00"), work([4], "00:00-01:00") + work(range(4, 11), "06:00-07:00"),
        [(8, at(10, "00:00"), at(4, "00:00"), 420)], NONE),
    Row("the first week is wholly at rest", at(18, "00:00"), work(range(11, 18), "06:00-07:00") + work([17], "23:00-24:00"),
        [(8, at(17, "06:00"), at(11, "06:00"), 1080)], NONE),
    Row("one rest of 45 hours for two weeks", at(18, "00:00"),
        work([4], "00:00-01:00") + work([*range(4, 10), *range(12, 18)], "06:00-07:00") + work([17], "23:00-24:00"),
        [(9, at(18, "00:00"), at(4, "00:00"), 0)], NONE),
    Row("both rests in the second of two weeks", at(18, "00:00"),
        work([4], "00:00-01:00") + work([*range(4, 11), 13, 14, 15, 17], "06:00-07:00") + work([10, 17], "23:00-24:00")
        + work([12], "21:00-22:00"),
        [(8, at(10, "00:00"), at(4, "00:00"), 1440)], NONE),
    Row("a rest of 45 hours but a minute, and one of 24", at(18, "00:00"),
        work([4], "00:00-01:00") + work([*range(4, 9), *range(11, 17)], "06:00-07:00") + work([10], "03:59-07:00")
        + work([17], "07:00-08:00", "23:00-24:00"),
        [(8, at(16, "03:59"), at(10, "03:59"), 181), (9, at(18, "00:00"), at(4, "00:00"), 0)],
        [(WEEK_4, 1, at(32, "00:00"), at(10, "07:00")), (WEEK_11, 1260, at(39, "00:00"), None)]),
    Row("a rest of 24 hours but a minute", at(12, "00:00"), work(range(4, 10), "06:00-18:00") + work([10], "17:59-19:00"),
        [(8, at(10, "06:00"), at(4, "06:00"), 780)], NONE),
]

DEBTS_IN_TURN = [
    Row("the week of the last rest owes nothing yet", at(11, "00:00"),
        work(range(4, 9), "06:00-07:00") + work([9], "07:00-08:00") + work([10], "08:00-09:00"), NONE, NONE),
    Row("two debts, and the first of two rests has room for one", at(26, "00:00"),
        SHORT_WEEK + work(range(11, 17), "06:00-07:00") + work([17], "07:00-08:00")
        + work([18, 21, 22, 23, 25], "06:00-07:00"),
        NONE, [(WEEK_4, 1260, at(32, "00:00"), at(18, "07:00")), (WEEK_11, 1260, at(39, "00:00"), at(23, "07:00"))]),
    Row("a rest pays too late, after the deadline", at(40, "00:00"),
        THREE_WEEKS + work([30, *range(35, 40)], "06:00-07:00"),
        [(10, at(32, "00:00"), at(4, "00:00"), 1260)], [(WEEK_4, 1260, at(32, "00:00"), None)]),
    Row("a week's rest of just 24 hours", at(18, "00:00"),
        work([4], "06:00-07:00") + work([5], "07:00-08:00") + work(range(6, 12), "06:00-07:00"),
        NONE, [(WEEK_4, 1260, at(32, "00:00"), at(11, "07:00"))]),
    Row("of two equal rests the first is the week's, and the second pays", at(12, "00:00"),
        work([4], "06:00-07:00") + work([5], "10:00-11:00") + work([6], "14:00-15:00") + work(range(7, 12), "06:00-07:00"),
        NONE, [(WEEK_4, 1080, at(32, "00:00"), at(5, "11:00"))]),
    Row("a daily rest is a minute too short to pay", at(18, "07:00"),
        SHORT_WEEK + work([11, 12, 14, 15], "06:00-07:00") + work([13], "12:59-14:00") + work([17], "04:00-05:00")
        + work([18], "06:00-07:00"),
        NONE, [(WEEK_4, 1260, at(32, "00:00"), None)]),
    Row("the last rest pays while 24 hours of it are not known", at(12, "13:44"),
        SIX_DAYS_OF_DRIVING + drive([11], "06:00-10:00", "10:45-13:45"), NONE, OWES_345),
    Row("the week's rest begins on Monday at 00:00, and keeps 45 hours", at(17, "00:00"),
        SHORT_WEEK + work([10], "23:00-24:00") + work([12], "20:00-21:00") + work(range(13, 17), "06:00-07:00"),
        NONE, [(WEEK_4, 1260, at(32, "00:00"), None)]),
    Row("the week's rest begins on Sunday at 23:59, and keeps 45 hours", at(23, "00:00"),
        SHORT_WEEK + work(range(11, 17), "06:00-07:00") + work([17], "07:00-08:00", "23:58-23:59")
        + work([19], "20:00-21:00") + work(range(20, 23), "06:00-07:00"),
        NONE, [(WEEK_4, 1260, at(32, "00:00"), None), (WEEK_11, 59, at(39, "00:00"), at(20, "07:00"))]),
]

# Weekly rests over a Sunday and a Monday, each of which is counted in one of its two weeks. A week is called by the
# Monday with which it begins, as the 11th. Each line begins with work, so that the rest before it has no minute in the 4th.
FIRST_HOUR = work([4], "00:00-01:00")

THREE_SUNDAYS = (
    FIRST_HOUR
    + work([9], "23:00-24:00") + work([11], "21:00-22:00")
    + work([17], "05:00-06:00") + work([19], "03:00-04:00")
    + work([24], "05:00-06:00") + work([26], "03:00-04:00")
    + work([*range(4, 10), *range(12, 17), *range(19, 24), *range(26, 32)], "06:00-07:00")
    + work([31], "23:00-24:00")
)

LONG_REST = (
    FIRST_HOUR
    + work([9], "02:00-03:00") + work([11], "00:00-01:00")
    + work([16], "22:00-23:00")
    + work([31], "05:00-06:00") + work([33], "03:00-04:00")
    + work([*range(4, 9), *range(11, 17), *range(25, 31), *range(33, 39)], "06:00-07:00")
    + work([38], "23:00-24:00")
)

COUNTED_ONCE = [
    # Three rests of 45 hours, from the 10th, the 17th and the 24th. The 4th and the 11th have no rests but the first and
    # the second, so the second counts in the 11th. The 18th and the 25th have none but the second and the third.
    Row("three rests over Sundays for four weeks", at(32, "00:00"), THREE_SUNDAYS,
        [(9, at(32, "00:00"), at(18, "00:00"), 0)], NONE),
    # One more, of 47 hours, in the 25th: it and the third are the rests of the 18th and the 25th.
    Row("three rests over Sundays, and one in the fourth week", at(32, "00:00"),
        [piece for piece in THREE_SUNDAYS if piece[0] != at(28, "06:00")], NONE, NONE),
    # As before, and in the week from 1 April there is none. From the 25th on the choice is made anew, but the 25th and
    # 1 April have the third rest alone, wherever that counts.
    Row("a failure directly after another", at(39, "00:00"),
        THREE_SUNDAYS + work(range(32, 39), "06:00-07:00") + work([38], "23:00-24:00"),
        [
            (9, at(32, "00:00"), at(18, "00:00"), 0),
            (8, at(32, "03:00"), at(26, "03:00"), 9900),
            (9, at(39, "00:00"), at(25, "00:00"), 0),
        ], NONE),
    # Rests of 45 hours: in the 4th; from the 16th to the 18th; from the 24th to the 26th; in the week from 1 April. The
    # 4th and the 11th need the second in the 11th, so the 11th and the 18th need the third in the 18th; then the 18th and
    # the 25th have no other. From the 25th on the third counts in the 25th, and with the last it is enough.
    Row("a rest that counts in another week after a failure", at(39, "00:00"),
        FIRST_HOUR + work([11], "00:00-01:00") + work([16], "22:00-23:00") + work([18], "20:00-21:00")
        + work([9], "02:00-03:00") + work([24], "05:00-06:00") + work([26], "03:00-04:00")
        + work([31], "23:00-24:00") + work([33], "21:00-22:00") + work([38], "23:00-24:00")
        + work([*range(4, 9), *range(11, 17), *range(19, 24), *range(26, 32), *range(34, 39)], "06:00-07:00"),
        [(9, at(32, "00:00"), at(18, "00:00"), 0)], NONE),
    # The 18th is all at rest, from the 16th to the 25th: that is one rest. The 4th and the 11th need it in the 11th,
    # beside the one in the 4th; the 25th and 1 April need it in the 25th, beside the one from the 31st.
    Row("a rest of more than a week counts before it or after it", at(39, "00:00"), LONG_REST,
        [(9, at(39, "00:00"), at(25, "00:00"), 0)], NONE),
    # One more, of 47 hours, in the 11th: it and the one in the 4th are enough, and the long one counts in the 25th.
    Row("a rest of more than a week counts after it", at(39, "00:00"),
        [piece for piece in LONG_REST if piece[0] != at(13, "06:00")], NONE, NONE),
]

ROWS = (
    BREAKS + SHORT_NIGHTS + DAYS + WEEKS + DEBTS + HORIZONS + WEEKLY_RESTS + MONTHS + EDGES + SHORT_RESTS
    + BREAKS_FROM_BELOW + DAYS_FROM_BELOW + RESTS_FROM_BELOW + DEBTS_IN_TURN + COUNTED_ONCE
)

# What the rows say of a day's rest: the row, the portion, and whether it is regular or reduced.
DAILY_RESTS = [
    ("a rest of 11 hours", 660, "regular"),
    ("a rest of a minute less than 11 hours", 659, "reduced"),
    ("a rest of 9 hours", 540, "reduced"),
    ("a rest of 3 and of 9 hours", 540, "regular"),
    ("a rest of a minute less than 9 hours", 539, "neither"),
]

# What the rows say of a rest's minutes: the row, its start, its known minutes, and whether it is its week's main rest.
RESTS = [
    ("90 hours in two weeks", at(11, "13:45"), 975, "other"),
    ("a main rest pays", at(9, "07:00"), 1440, "main"),
    ("a main rest pays", at(15, "07:00"), 3960, "main"),
    ("a main rest is a minute too short to pay", at(15, "07:00"), 3959, "main"),
    ("a daily rest pays", at(12, "07:00"), 1800, "other"),
]


def row_of(name: str) -> Row:
    """The row with this name."""
    return next(row for row in ROWS if row.name == name)


def runs_of(row: Row, reading: ModuleType) -> list[slow_rules.Run]:
    """The rest runs of a row."""
    return reading.rest_runs(reading.line_of(joined(row.busy, BASE, row.horizon)))


def examined(row: Row, reading: ModuleType) -> tuple[object, object]:
    """The breaches and debts found in a row, against those expected."""
    found = reading.examine(joined(row.busy, BASE, row.horizon), BASE, row.horizon)
    return found, (row.breaches, row.debts)


def daily_rest(name: str, expected_portion: int, expected_kind: str, reading: ModuleType) -> tuple[object, object]:
    """The portion and kind of a row's first daily rest, against those expected."""
    runs = runs_of(row_of(name), reading)
    day = reading.duty_days(runs)[0]
    kind = "neither"
    if reading.is_regular(runs, day):
        kind = "regular"
    if reading.is_reduced(runs, day):
        kind = "reduced"
    return (reading.portion(day), kind), (expected_portion, expected_kind)


def rest(name: str, start: int, minutes: int, place: str, reading: ModuleType) -> tuple[object, object]:
    """The known minutes of a row's rest and whether it is its week's main rest, against those expected."""
    row = row_of(name)
    runs = runs_of(row, reading)
    run = next(run for run in runs if run.start == start)
    main = reading.main_rest(runs, row.horizon, reading.week_of(start))
    return (reading.minutes_before(row.horizon, run), "main" if main == run else "other"), (minutes, place)


def comparisons(reading: ModuleType = slow_rules) -> Comparisons:
    """What a reading of the rules finds in each row, and what is expected of it."""
    for row in ROWS:
        yield f"row {row.name}", *examined(row, reading)
    for case in DAILY_RESTS:
        yield f"daily rest of {case[0]}", *daily_rest(*case, reading)
    for case in RESTS:
        yield f"rest at {case[1]} of {case[0]}", *rest(*case, reading)
