"""Timelines that sit at the limits of the rules on driving and rest hours, from a seed.

`timeline(seed, weeks)` returns (spans, base, past): spans joined from the first minute of a Monday to the horizon, as
`slow_rules.examine` takes them. The same seed and weeks give the same timeline. `weekly_timeline(seed)` returns the same
at the limits of the rules on weekly rests and debts, `chained_timeline(seed)` long rows of weeks whose rests lie over
their ends, and `held_timeline(seed)` returns (spans, base) as `slow_rules.report` takes them: spans of a card with crew
and gaps. Run by `python3 -m inputs.hard_timelines` in checks/ with a seed and a number of weeks, it prints what
`slow_rules.py` reads.
"""
import random
import sys
from collections.abc import Iterable

from slow.slow_rules import HeldSpan, Span

Timeline = tuple[list[Span], int, int]  # spans, the Monday and the horizon
Owed = tuple[int, int]  # the amount and the deadline of a debt

WEEK = 10080
USUAL_BASE = 28491840  # 2024-03-04
FIRST_BASE = 15780960  # 2000-01-03
LAST_BASE = 68368320  # 2099-12-28
LAST_PAST = 68374080  # 2100-01-01 00:00

SHORT_RESTS = [1, 14, 15, 16, 29, 30, 31, 44, 45, 46]
PARTS = [179, 180, 181]
DAILY_RESTS = [539, 540, 541, 659, 660, 661]
WEEKLY_RESTS = [1439, 1440, 1441, 2699, 2700, 2701]
DRIVES = [1, 89, 90, 91, 135, 136, 180, 270, 271]
DAY_DRIVES = [269, 270, 271, 539, 540, 541, 542, 599, 600, 601, 602]
REDUCTIONS = [1, 1, 60, 345, 700, 1079, 1080, 1081, 1259, 1260]
WEEK_DRIVES = [3359, 3360, 3361, 3362]
PAIR_DRIVES = [5399, 5400, 5401, 5402]


class Writer:
    """Pieces of time laid end to end from the base."""

    def __init__(self, chance: random.Random, base: int, past: int) -> None:
        self.chance = chance
        self.base = base
        self.past = past
        self.place = base
        self.pieces: list[Span] = []
        self.marks: list[int] = []  # minutes at which it may be of interest to end

    def is_full(self) -> bool:
        """Whether the pieces reach the horizon."""
        return self.place >= self.past

    def add(self, activity: str, minutes: int) -> None:
        """Lay a piece of some minutes, cut at the horizon."""
        minutes = min(minutes, self.past - self.place)
        if minutes > 0:
            self.pieces.append((self.place, self.place + minutes, activity))
            self.place += minutes

    def end(self, past: int) -> None:
        """Make this the horizon, or where the pieces end, if that is earlier: nothing is laid from it on."""
        self.past = max(self.base, min(past, self.place))
        self.pieces = [(start, min(end, self.past), activity) for start, end, activity in self.pieces if start < self.past]

    def rest(self, minutes: int) -> None:
        """Lay a rest."""
        self.add("rest", minutes)

    def work(self, minutes: int) -> None:
        """Lay work, or being available."""
        self.add(self.chance.choice(["work", "work", "available"]), minutes)

    def drive(self, minutes: int) -> None:
        """Lay driving."""
        self.add("drive", minutes)


def near(chance: random.Random, minutes: int) -> int:
    """These minutes, or one more or less."""
    return max(1, minutes + chance.choice([-1, 0, 0, 1]))


def to_week_end(place: int, base: int) -> int:
    """How many minutes are left of the week."""
    return WEEK - (place - base) % WEEK


# Kinds of timeline


def mixed(writer: Writer) -> None:
    """Rests of all limits and driving of all limits, one after the other."""
    chance = writer.chance
    weights = chance.choice([(8, 1, 3, 1), (3, 1, 3, 3), (20, 1, 1, 1), (1, 0, 4, 2)])
    while not writer.is_full():
        for _ in range(chance.randint(1, 3)):
            if chance.random() < 0.6:
                writer.drive(chance.choice(DRIVES))
            else:
                writer.work(chance.choice([1, 15, 30, 60, 240, chance.randint(1, 600)]))
        rests = chance.choices([SHORT_RESTS, PARTS, DAILY_RESTS, WEEKLY_RESTS], weights)[0]
        writer.rest(chance.choice(rests))


def drive_with_breaks(writer: Writer, minutes: int) -> None:
    """Driving of some minutes in all, with breaks of all limits."""
    chance = writer.chance
    while minutes > 0:
        first = min(minutes, chance.choice(DRIVES))
        writer.drive(first)
        minutes -= first
        if minutes > 0:
            for rest in chance.choice([[45], [44], [15, 30], [30, 15], [15, 29], [14, 30], [15, 30, 30], [30, 30], [46], []]):
                writer.rest(rest)
                between = min(minutes, chance.choice([1, 60, 120, 135]))
                writer.drive(between)
                minutes -= between


def days(writer: Writer) -> None:
    """Duty days at the limits of driving and of the daily rest, with a weekly rest after six days."""
    chance = writer.chance
    lengths = chance.choice([[780, 781, 900, 901], [900, 900, 900, 899], [781, 840, 900], [600, 720, 780, 901]])
    drives = chance.choice([DAY_DRIVES, [541, 542, 600, 601], [540, 541], [0, 270, 541]])
    rests = chance.choice([[0], [0, 0, 539, 540, 660], [540, 541, 660], [659, 660, 1439]])
    started = writer.place
    while not writer.is_full():
        first = writer.place
        length = chance.choice(lengths)
        drive_with_breaks(writer, chance.choice(drives))
        if chance.random() < 0.3:
            writer.work(chance.randint(1, 30))
            writer.rest(chance.choice(PARTS))
        writer.work(max(1, first + length - writer.place))
        rest = chance.choice(rests)
        writer.rest(rest if rest else max(540, first + 1440 - writer.place))
        if writer.place - started >= chance.choice([5, 6, 6, 6, 9]) * 1440 or chance.random() < 0.04:
            writer.work(max(1, started + 8640 + chance.choice([-1, 0, 1, 2]) - writer.place))
            writer.rest(chance.choice(WEEKLY_RESTS))
            started = writer.place


def weeks(writer: Writer) -> None:
    """Weeks at the limits of driving in one week and in two, with spans across midnights and week ends."""
    chance = writer.chance
    start = chance.choice([0, 360, 1200, 1380])
    left = chance.choice(WEEK_DRIVES + [2700, 5400, 5401])
    done = 0
    this_week = 0
    long_days = left >= 5400
    writer.rest(start)
    while not writer.is_full():
        for minutes in ([270, 270, 270, 270, 90] if long_days else chance.choice([[270, 270, 61], [240, 240], [271, 269]])):
            while minutes > 0:
                week = (writer.place - writer.base) // WEEK
                if week != this_week:
                    left = max(0, chance.choice(chance.choice([WEEK_DRIVES, PAIR_DRIVES])) - done)
                    left = min(left, chance.choice([3360, 3361, 5401]))
                    done = 0
                    this_week = week
                part = min(minutes, to_week_end(writer.place, writer.base), left if left else minutes)
                if left:
                    writer.drive(part)
                    left -= part
                    done += part
                else:
                    writer.work(part)
                minutes -= part
                if writer.is_full():
                    return
            writer.rest(45)
        writer.rest(chance.choice([540, 660, max(1, 1440 - (writer.place - writer.base - start) % 1440)]))


def debts(writer: Writer) -> None:
    """Short work between weekly rests that are reduced, and rests that can just, or just not, pay for them."""
    chance = writer.chance
    patient = chance.random() < 0.4
    daily_rests = [539, 540, 541] if patient else [539, 540, 660, 1380, 1439]
    works = [240, 600, 900] if patient else [1, 60, 240]
    owed: list[int] = []
    while not writer.is_full():
        for _ in range(chance.randint(1, 5)):
            writer.work(chance.choice(works))
            writer.rest(chance.choice(daily_rests))
        writer.work(chance.choice([1, 60]))
        if len(owed) > patient and chance.random() < 0.7:
            paid = chance.choice([owed[:1], owed[-1:], owed[:2], owed[:2], owed])
            own = chance.choice([540, 540, 2700])
            minutes = near(chance, own + sum(paid))
            beyond = chance.choice([0, 0, 0, 60, 700])
            if chance.random() < 0.4:
                writer.work(max(1, (to_week_end(writer.place, writer.base) - minutes + chance.choice([-1, 0, 1, 60])) % WEEK))
            writer.marks.append(writer.place + minutes)
            writer.rest(minutes + beyond)
            if chance.random() < 0.8:
                owed = [debt for debt in owed if debt not in paid]
        else:
            if patient:
                writer.work(max(1, to_week_end(writer.place, writer.base) - chance.choice([1, 60, 1440, 1500])))
            minutes = chance.choice([1439, 1440, 1441, 1800, 2000, 2340, 2699, 2700, chance.randint(1440, 2699)])
            writer.rest(minutes)
            if 1440 <= minutes < 2700:
                owed.append(2700 - minutes)
        if chance.random() < 0.3:
            writer.work(1)
            writer.rest(near(chance, to_week_end(writer.place, writer.base)))
        if chance.random() < 0.05:
            writer.work(1)
            writer.rest(near(chance, WEEK + to_week_end(writer.place, writer.base)))


def work_until(writer: Writer, minute: int) -> None:
    """Work and rests that pay for nothing, up to a minute."""
    while writer.place < min(minute, writer.past):
        writer.work(min(max(1, minute - writer.place), writer.chance.choice([240, 900, 901])))
        if writer.place + 541 < minute:
            writer.rest(540)


def paying(writer: Writer) -> None:
    """Weeks that owe, and then one rest with room for some of what is owed, or a minute less, at a deadline or within it."""
    chance = writer.chance
    owed: list[int] = []
    for week in range(chance.choice([1, 2, 3, 4])):
        amount = chance.choice([1, 60, 345, 1259, 1260])
        owed.append(amount)
        latest = writer.base + (week + 1) * WEEK
        work_until(writer, latest - chance.choice([1, 1000, 1440, 2700]))
        writer.rest(2700 - amount)
    for _ in range(2):
        count = chance.randint(1, len(owed))
        paid = chance.choice([owed[:count], owed[-count:], owed])
        minutes = near(chance, chance.choice([540, 540, 2700]) + sum(paid))
        deadline = writer.base + chance.choice([4, 4, 5]) * WEEK
        start = chance.choice([deadline - minutes, deadline - minutes, writer.place + chance.choice([1, 900, 5000])])
        work_until(writer, max(start, writer.place + 1))
        writer.marks.append(writer.place + minutes)
        writer.rest(minutes + chance.choice([0, 1, 60, 2000]))
    writer.work(1)
    days(writer)


# Weeks by their rests


def rest_from(writer: Writer, minute: int, minutes: int) -> None:
    """Work and short rests up to a minute, one minute of work where that has passed, and then a rest."""
    work_until(writer, max(minute, writer.place + 1))
    writer.marks.append(writer.place + minutes)
    writer.rest(minutes)


def place_in(chance: random.Random, week: int, minutes: int) -> int:
    """A minute of the week at which a rest of some minutes starts: any, or one with which it starts or ends near the week's end."""
    latest = week + WEEK - minutes
    near_end = chance.choice([latest, latest - 1, latest + 1, week + WEEK - 1, week + WEEK - 1440])
    return chance.choice([week + chance.choice([0, 1, 600]), chance.randint(week, max(week, latest)), near_end])


def owing_week(writer: Writer, week: int, owed: list[Owed]) -> None:
    """A week whose longest rest is too short, maybe with others that are as long or pay for it, at its end or before."""
    chance = writer.chance
    amount = chance.choice(REDUCTIONS)
    minutes = 2700 - amount
    others = chance.choice([[], [], [minutes], [minutes, near(chance, minutes)], [540 + amount], [541 + amount], [539 + amount]])
    if others:
        rest_from(writer, week + chance.choice([0, 1, 60, 900]), minutes)
        for other in others:
            rest_from(writer, writer.place + chance.choice([1, 60, 600]), near(chance, other))
    else:
        rest_from(writer, place_in(chance, week, minutes), minutes)
    owed.append((amount, week + 4 * WEEK))


def paying_week(writer: Writer, week: int, owed: list[Owed]) -> None:
    """A rest with room for some debts, or a minute less or more: as the week's longest rest, beside it, or at a deadline."""
    chance = writer.chance
    if not owed:
        owing_week(writer, week, owed)
        return
    paid = chance.choice([owed[:1], owed[-1:], owed[:2], owed[-2:], owed])
    total = sum(amount for amount, _ in paid)
    start = writer.place + chance.choice([1, 60, 900, 2880])
    if chance.random() < 0.5:
        minutes = near(chance, 2700 + total)
        beyond = 0
    else:
        minutes = near(chance, 540 + total)
        beyond = chance.choice([0, 0, 0, 1, 300])
        if minutes + beyond >= 1440:
            rest_from(writer, start, max(2700, minutes + beyond + chance.choice([-1, 0, 1, 1440])))
            start = writer.place + chance.choice([1, 600])
    if chance.random() < 0.4:
        start = paid[0][1] - minutes + chance.choice([-1, 0, 0, 1])
        beyond = chance.choice([0, 1, 700])
    rest_from(writer, min(start, week + 2 * WEEK), minutes + beyond)
    if chance.random() < 0.8:
        owed[:] = [debt for debt in owed if debt not in paid]


def ended_weekly_rests(writer: Writer) -> list[int]:
    """The ends of weekly rests: of the first of all, which has no start, and those of 24 hours."""
    firsts = [start for start, _, activity in writer.pieces if activity != "rest"][:1]
    return firsts + [past for start, past, activity in writer.pieces if activity == "rest" and past - start >= 1440]


def six_days_later(writer: Writer, week: int, owed: list[Owed]) -> None:
    """A weekly rest six days after the last, or a minute less or more."""
    chance = writer.chance
    ended = max(ended_weekly_rests(writer), default=writer.place)
    rest_from(writer, ended + 8640 + chance.choice([-1, 0, 1]), chance.choice(WEEKLY_RESTS))


def two_rests(writer: Writer, week: int, owed: list[Owed]) -> None:
    """Two rests of all limits for weekly rests."""
    chance = writer.chance
    for start in [week + chance.choice([0, 1, 900]), week + WEEK // 2]:
        rest_from(writer, start, chance.choice(WEEKLY_RESTS))


def no_rest(writer: Writer, week: int, owed: list[Owed]) -> None:
    """A week without a weekly rest."""
    work_until(writer, week + WEEK + writer.chance.choice([0, 0, -1, 1, 600]))


def rest_alone(writer: Writer, week: int, owed: list[Owed]) -> None:
    """A rest from about the week's start to about its end."""
    chance = writer.chance
    rest_from(writer, week + chance.choice([-1, 0, 0, 1]), WEEK + chance.choice([-1, 0, 0, 1, 600]))
    work_until(writer, writer.place + 1)


def rest_across(writer: Writer, week: int, owed: list[Owed]) -> None:
    """A rest of a limit across the week's end."""
    chance = writer.chance
    minutes = chance.choice(WEEKLY_RESTS)
    rest_from(writer, week + WEEK - chance.choice([1, 2, minutes // 2, minutes - 1, minutes, minutes + 1]), minutes)


def rested_weeks(writer: Writer) -> None:
    """Weeks that owe, pay, lack rests or are at rest, in any order."""
    chance = writer.chance
    kinds = [owing_week, paying_week, six_days_later, two_rests, no_rest, rest_alone, rest_across]
    weights = chance.choice([(6, 6, 2, 1, 1, 1, 1), (8, 1, 1, 1, 1, 1, 0), (1, 1, 1, 4, 5, 2, 3), (1, 0, 8, 2, 1, 1, 1)])
    owed: list[Owed] = []
    while not writer.is_full():
        week = writer.place - (writer.place - writer.base) % WEEK
        if chance.random() < 0.5:
            week += WEEK
        chance.choices(kinds, weights)[0](writer, week, owed)


def due_weeks(writer: Writer) -> None:
    """Weeks that owe, and then nothing that pays up to a deadline, or one rest with room before that or the horizon, or a
    minute less."""
    chance = writer.chance
    owed: list[Owed] = []
    for _ in range(chance.choice([1, 2, 2, 3, 3])):
        week = writer.place - (writer.place - writer.base) % WEEK
        amount = chance.choice([1, 60, 345, 400, 700, 1260])
        rest_from(writer, place_in(chance, week, 2700 - amount), 2700 - amount)
        owed.append((amount, week + 4 * WEEK))
        work_until(writer, week + WEEK + chance.choice([0, 1, 600]))
    paid = chance.choice([owed[:1], owed[-1:], owed[:2], owed])
    deadline = chance.choice([paid[0], paid[0], paid[0], paid[-1]])[1]
    end = chance.choice([deadline, deadline, deadline, deadline - chance.randint(1, WEEK)])
    own = chance.choice([0, 540, 540, 2700])
    minutes = own + sum(amount for amount, _ in paid) + chance.choice([-1, -1, 0, 0, 1]) if own else 0
    while writer.place + 2 * WEEK < min(end - minutes, writer.past):
        next_week = writer.place + to_week_end(writer.place, writer.base)
        rest_from(writer, next_week + chance.choice([0, 600, 6000, WEEK - 2700, WEEK - 1]), 2700)
    if own:
        beyond = chance.choice([0, 1, 700, 700])
        if own == 540 and minutes + beyond >= 1440:
            rest_from(writer, end - minutes - 2710, max(2700, minutes + beyond))
        rest_from(writer, end - minutes, minutes + beyond)
    work_until(writer, end + chance.choice([0, 1, 600, 6000]))
    writer.end(chance.choice([end, end, end + 1, end - 1, deadline, deadline + 1, writer.place, writer.place]))


def laid(chance: random.Random, writer: Writer) -> tuple[list[Span], int]:
    """The pieces and the horizon as they are."""
    return writer.pieces, writer.past


def closed(chance: random.Random, writer: Writer) -> tuple[list[Span], int]:
    """The pieces up to near the start of a week, a minute of work there, and a rest to the horizon."""
    start = writer.base + chance.randint(1, max(1, (writer.past - writer.base) // WEEK)) * WEEK + chance.choice([-1, 0, 0, 1])
    start -= chance.choice([0, 0, 0, WEEK // 2])
    past = min(LAST_PAST, start + chance.choice([0, 1, 540, 1439, 1440, 2700, 4000, 3 * WEEK - 1, 3 * WEEK]))
    pieces = [(one, min(end, start - 1), activity) for one, end, activity in writer.pieces if one < start - 1]
    place = pieces[-1][1] if pieces else writer.base
    ends = [(place, start, "work"), (start, past, "rest")]
    return pieces + [piece for piece in ends if piece[0] < piece[1]], max(start, past)


def weekly_timeline(seed: int) -> Timeline:
    """The spans from a Monday's first minute to a horizon, the Monday, and the horizon: from two to ten weeks later, and up
    to three days more, or a last rest of up to three weeks; sometimes ended earlier."""
    chance = random.Random(f"weekly {seed}")
    length = chance.choice([2, 3, 4, 5, 6, 7, 8, 9, 10])
    base = chance.choice([USUAL_BASE] * 8 + [FIRST_BASE, LAST_BASE - (length - 1) * WEEK])
    kind = chance.choice([rested_weeks, due_weeks])
    length = max(length, 5) if kind == due_weeks else length
    past = min(LAST_PAST, base + length * WEEK + chance.choice([-1, 0, 0, 1, 1, 1441, 4000]))
    writer = Writer(chance, base, past)
    if chance.random() < 0.2:
        writer.rest(chance.choice([1, 360, 1439, 1440, 2700, WEEK - 1, WEEK, WEEK + 1]))
    kind(writer)
    pieces, past = chance.choices([laid, closed, ended], [4, 1, 2])[0](chance, writer)
    spans = merged(pieces)
    if chance.random() < 0.2:
        spans = merged(moved(chance, spans, chance.randint(1, 3)))
    return spans, base, past


# Rests over the ends of weeks


def over_end(writer: Writer, end: int) -> None:
    """A rest of a limit over a week's end, or one that only just reaches it from one side."""
    chance = writer.chance
    minutes = chance.choice([2700] * 5 + [2820, 2699, 1440])
    rest_from(writer, end - chance.choice([minutes // 2] * 6 + [1, minutes - 1, minutes, 0]), minutes)


def within_week(writer: Writer, end: int) -> None:
    """A rest of a limit in the middle of the week, and maybe one over its end."""
    chance = writer.chance
    rest_from(writer, end - chance.choice([4, 5]) * 1440, chance.choice([2700, 2820, 2699, 1440]))
    if chance.random() < 0.5:
        over_end(writer, end)


def over_next_week(writer: Writer, end: int) -> None:
    """A rest from before the next week, or near its first minute, to after it, or near its last minute."""
    chance = writer.chance
    start = max(writer.place + 1, end - chance.choice([600, 1440, 1440, 1, 0, -1]))
    rest_from(writer, start, end + WEEK + chance.choice([600, 1440, 1440, 1, 0, -1]) - start)


def without_rest(writer: Writer, end: int) -> None:
    """A week without a weekly rest, up to its last minutes."""
    work_until(writer, end - writer.chance.choice([0, 600, 1350]))


def chained_timeline(seed: int) -> Timeline:
    """The spans from a Monday's first minute to a horizon, the Monday, and the horizon, about five to fourteen weeks later:
    long rows of weeks whose rests lie over their ends, so that the week in which one is counted decides over others."""
    chance = random.Random(f"chained {seed}")
    length = chance.randint(5, 14)
    base = chance.choice([USUAL_BASE] * 8 + [FIRST_BASE, LAST_BASE - (length - 1) * WEEK])
    writer = Writer(chance, base, min(LAST_PAST, base + length * WEEK + chance.choice([-1, 0, 0, 1, 1441, 4000])))
    if chance.random() < 0.3:
        writer.rest(chance.choice([1, 360, 1440, WEEK]))
    weights = chance.choice([(6, 1, 0, 2), (5, 0, 0, 2), (7, 1, 1, 2), (9, 1, 1, 2)])
    while not writer.is_full():
        end = writer.place + to_week_end(writer.place, base)
        chance.choices([over_end, within_week, over_next_week, without_rest], weights)[0](writer, end)
        work_until(writer, end + 1)
    pieces, past = chance.choices([laid, closed, ended], [8, 1, 1])[0](chance, writer)
    return merged(pieces), base, past


# A whole timeline


def merged(pieces: Iterable[Span]) -> list[Span]:
    """Neighbouring pieces of one activity made one."""
    spans: list[Span] = []
    for start, past, activity in pieces:
        if spans and spans[-1][2] == activity:
            spans[-1] = (spans[-1][0], past, activity)
        else:
            spans.append((start, past, activity))
    return spans


def moved(chance: random.Random, spans: Iterable[Span], count: int) -> list[Span]:
    """Some ends of spans moved by a minute, where no span becomes empty."""
    found = list(spans)
    for _ in range(count if len(found) > 1 else 0):
        place = chance.randrange(len(found) - 1)
        one, other = found[place], found[place + 1]
        end = one[1] + chance.choice([-1, 1])
        if one[0] < end < other[1]:
            found[place] = (one[0], end, one[2])
            found[place + 1] = (end, other[1], other[2])
    return found


def cut(chance: random.Random, spans: list[Span], count: int, unit: int | None, base: int) -> list[Span]:
    """Spans cut in two with the same activity, as a card does at midnight."""
    for _ in range(count):
        start, past, activity = chance.choice(spans)
        place = chance.randint(start, past)
        if unit:
            place = base + (place - base) // unit * unit
        if start < place < past:
            index = spans.index((start, past, activity))
            spans = spans[:index] + [(start, place, activity), (place, past, activity)] + spans[index + 1:]
    return spans


def bounds(chance: random.Random, length: int) -> tuple[int, int]:
    """A Monday and a horizon: whole weeks later, or a minute or a day less, or a minute more, or any minute before that, or
    one of the first day; sometimes at the ends of the calendar."""
    base = chance.choice([USUAL_BASE] * 8 + [FIRST_BASE, LAST_BASE - (length - 1) * WEEK])
    past = base + length * WEEK
    change = chance.random()
    if change < 0.4:
        past -= chance.choice([0, 1, 1440, WEEK - 1, WEEK, WEEK + 1])
    elif change < 0.6:
        past -= chance.randint(0, length * WEEK)
    elif change < 0.63:
        past = base + chance.choice([0, 1, 539, 540, 1440])
    return base, max(base, min(past, LAST_PAST))


def ended(chance: random.Random, writer: Writer) -> tuple[list[Span], int]:
    """The pieces and the horizon, sometimes an earlier one within a rest, where what is known of it decides."""
    if chance.random() < 0.8:
        return writer.pieces, writer.past
    rests = [start for start, past, activity in writer.pieces if activity == "rest" and past - start > 1440]
    ends = [start + minutes for start in rests for minutes in [1, 539, 540, 1439, 1440, 1441]]
    ends += [mark + change for mark in writer.marks for change in [-1, 0, 0, 1]] * 3
    ends = [end for end in ends if end < writer.past]
    if not ends:
        return writer.pieces, writer.past
    end = chance.choice(ends)
    pieces = [(start, min(past, end), activity) for start, past, activity in writer.pieces if start < end]
    return pieces, end


def timeline(seed: int, weeks_long: int) -> Timeline:
    """The spans from a Monday's first minute to a horizon of at most six weeks, the Monday, and the horizon."""
    chance = random.Random(f"{seed} {weeks_long}")
    base, past = bounds(chance, max(1, min(6, weeks_long)))
    writer = Writer(chance, base, past)
    if chance.random() < 0.5:
        writer.rest(chance.choice([1, 300, 360, 539, 540, 1439, 1440, 2699, 2700, 8640, WEEK, WEEK + 1]))
    chance.choice([mixed, days, days, weeks, debts, debts, paying, paying])(writer)
    pieces, past = ended(chance, writer)
    spans = merged(pieces)
    if chance.random() < 0.4:
        spans = merged(moved(chance, spans, chance.randint(1, 6)))
    if spans and chance.random() < 0.4:
        spans = cut(chance, spans, chance.randint(1, 20), chance.choice([None, 1440, WEEK]), base)
    return spans, base, past


# Spans of a card


def as_crew(chance: random.Random, spans: Iterable[Span]) -> list[HeldSpan]:
    """The same minutes; none, some or all of them are as crew."""
    share = chance.choice([0, 0.3, 1])
    return [(*span, chance.random() < share) for span in spans]


def span_of(chance: random.Random, start: int, past: int) -> list[Span]:
    """A span from one minute to another with any activity, or none where the minutes are out of order."""
    activity = chance.choice(["rest", "available", "work", "drive"])
    return [(start, min(past, LAST_PAST), activity)] if start < min(past, LAST_PAST) else []


def before(chance: random.Random, base: int) -> list[HeldSpan]:
    """What is held before the base: nothing, or up to the base, or to some minutes before it."""
    past = base - chance.choice([0, 0, 1, 600])
    return as_crew(chance, span_of(chance, past - chance.choice([0, 1, 5000]), past))


def after(chance: random.Random, horizon: int, spans: Iterable[Span]) -> list[HeldSpan]:
    """What is held from the horizon on: it begins as crew, or it begins later, or there is nothing."""
    gap = chance.choice([1, 1, 60, 3000])
    last = horizon + chance.choice([1, 45, 600, 20000])
    kind = chance.choice(["crew", "crew", "gap", "gap", "end"])
    if kind == "end":
        return []
    if kind == "gap":
        kept = [(max(start, horizon + gap), past, activity) for start, past, activity in spans if horizon + gap < past]
        return as_crew(chance, kept or span_of(chance, horizon + gap, last + gap))
    kept = [(max(start, horizon), past, activity) for start, past, activity in spans if horizon < past]
    kept = kept or span_of(chance, horizon, last)
    return [(*kept[0], True)] + as_crew(chance, kept[1:]) if kept else []


def repeated(chance: random.Random, spans: list[HeldSpan], count: int) -> list[HeldSpan]:
    """Some spans, and parts of them, given once more."""
    again = []
    for start, past, activity, crew in chance.choices(spans, k=count if spans else 0):
        again.append((chance.randint(start, past - 1), past, activity, crew))
    return spans + again


def held_timeline(seed: int) -> tuple[list[HeldSpan], int]:
    """Spans as a card would hold them, in any order, and a Monday. What is known from it on ends anywhere."""
    chance = random.Random(f"held {seed}")
    spans, base, past = weekly_timeline(seed) if chance.random() < 0.6 else timeline(seed, 1 + seed % 6)
    ends = [end for _, end, _ in spans] or [past]
    horizon = chance.choice([past] * 4 + [base, chance.randint(base, past)] + chance.choices(ends, k=2))
    known = [(start, min(end, horizon), activity) for start, end, activity in spans if start < horizon]
    if known and chance.random() < 0.5:
        known = cut(chance, known, chance.randint(1, 30), chance.choice([None, 1440]), base)
    later = after(chance, horizon, spans)
    held = before(chance, base) + [(*span, False) for span in known] + later
    if chance.random() < 0.3:
        held = repeated(chance, held, chance.randint(1, 5))
    if chance.random() < 0.7:
        chance.shuffle(held)
    if chance.random() < 0.15:
        base = min(base + chance.choice([1, 2, 3]) * WEEK, LAST_BASE)
    return held, base


def main() -> None:
    """Print a timeline as `slow_rules.py` reads it."""
    spans, base, past = timeline(int(sys.argv[1]), int(sys.argv[2]))
    print(base, past)
    for start, end, activity in spans:
        print(start, end, activity)


if __name__ == "__main__":
    main()
