"""Breaches and debts of the rules on driving and rest hours of Regulation (EC) No 561/2006, computed slowly.

Every function says one definition. A minute is a whole number, a run holds the minutes from its start to before its
past, and nothing is remembered between two questions. Use it to check a quicker program, never in place of one.

`python3 -m slow.slow_rules` in checks/ reads `base past` and then lines `start past activity` from standard input, and prints a line
`B1 moment since amount` for each breach and `DEBT week amount deadline payer` (or `-` for no payer) for each debt.
"""
import sys
from bisect import bisect_left
from collections import namedtuple
from collections.abc import Iterable, Sequence
from itertools import groupby

REST, AVAILABLE, WORK, DRIVE = "rest", "available", "work", "drive"

FAR = 4294967295  # where the last rest run ends: later than any minute
FIRST_BASE = 15780960  # 2000-01-03 00:00, a Monday
LAST_PAST = 68374080  # 2100-01-01 00:00

Line = namedtuple("Line", "busy drive")  # the minutes that aren't at rest, and those at drive, both in order
Mark = namedtuple("Mark", "activity crew")
Run = namedtuple("Run", "start past")
Duty = namedtuple("Duty", "start past rest")
Breach = namedtuple("Breach", "kind moment since amount")
Debt = namedtuple("Debt", "week amount deadline paid_by")

Span = tuple[int, int, str]  # start, past and activity
HeldSpan = tuple[int, int, str, bool]  # the same, and whether there was a second driver
FoundBreach = tuple[int, int, int, int]  # as a Breach has them
FoundDebt = tuple[int, int, int, int | None]  # as a Debt has them
Report = tuple[int, str, list[FoundBreach], list[FoundDebt]]  # the horizon, its cause, the breaches and the debts


# The line


def check_examined(spans: Iterable[Span], base: int, past: int) -> None:
    """Refuse spans that don't follow one another from a Monday's first minute to the horizon."""
    place = base
    for start, end, activity in spans:
        if activity not in (REST, AVAILABLE, WORK, DRIVE):
            raise ValueError(f"no such activity: {activity}")
        if start != place or end <= start:
            raise ValueError(f"span {start} {end} doesn't follow {place}")
        place = end
    if place != past:
        raise ValueError(f"the spans end at {place} and not at {past}")
    if base < FIRST_BASE or (base - 5760) % 10080 != 0 or past > LAST_PAST:
        raise ValueError(f"no Monday, or out of range: {base} {past}")


def minutes_at(spans: Iterable[Span], activities: Sequence[str]) -> list[int]:
    """The minutes of the spans with one of the activities, in order."""
    return sorted(minute for start, past, activity in spans if activity in activities for minute in range(start, past))


def line_of(spans: Sequence[Span]) -> Line:
    """What is done at each minute (Article 4(d) to (f), (j)): one that no span has is at rest."""
    return Line(minutes_at(spans, (AVAILABLE, WORK, DRIVE)), minutes_at(spans, (DRIVE,)))


def between(minutes: list[int], start: int, past: int) -> list[int]:
    """Those of some minutes in order that lie from one minute to before another."""
    return minutes[bisect_left(minutes, start) : bisect_left(minutes, past)]


def rest_runs(line: Line) -> list[Run]:
    """The maximal sets of consecutive minutes at rest, in order (Article 4(f)): the first starts at 0, the last ends FAR."""
    if not line.busy:
        return [Run(0, FAR)]
    runs = [Run(0, line.busy[0])]
    for one, next_one in zip(line.busy, line.busy[1:]):
        start = one + 1
        if start < next_one:
            runs.append(Run(start, next_one))
    runs.append(Run(line.busy[-1] + 1, FAR))
    return runs


def minutes_of(run: Run) -> int:
    """How many minutes a run has."""
    return run.past - run.start


def is_before(one: Run, other: Run) -> bool:
    """One run ends before the other starts, with a minute between."""
    return one.past < other.start


def neighbours(runs: Sequence[Run]) -> list[tuple[Run, Run]]:
    """Each two of the runs that have no other of them between."""
    pairs = []
    for one in runs:
        later = [other for other in runs if is_before(one, other)]
        if later:
            pairs.append((one, min(later)))
    return pairs


def rests_of(runs: Iterable[Run], least: int) -> list[Run]:
    """The rest runs of at least some minutes."""
    return [run for run in runs if minutes_of(run) >= least]


# Driving


def driving_minutes(line: Line, start: int, past: int) -> list[int]:
    """The minutes at drive from one minute up to another (Article 4(j))."""
    return between(line.drive, start, past)


def over(line: Line, limit: int, start: int, past: int) -> tuple[int, int] | None:
    """The first driving minute above a limit and how many there are above it, or None where there is none."""
    minutes = driving_minutes(line, start, past)
    if len(minutes) <= limit:
        return None
    return minutes[limit], len(minutes) - limit


# Breaks


def has_first_part(runs: Iterable[Run], breaks: Sequence[Run], run: Run) -> bool:
    """A run of 15 minutes lies before the run, after every complete break before it (Article 7)."""
    return any(
        minutes_of(part) >= 15
        and is_before(part, run)
        and all(is_before(done, part) for done in breaks if is_before(done, run))
        for part in runs
    )


def complete_breaks(runs: Sequence[Run]) -> list[Run]:
    """The rest runs of 45 minutes, or of 30 with a first part of 15 (Article 7): each rests on earlier ones alone."""
    breaks: list[Run] = []
    for run in runs:
        if minutes_of(run) >= 45 or (minutes_of(run) >= 30 and has_first_part(runs, breaks, run)):
            breaks.append(run)
    return breaks


# Days


def duty_days(runs: Iterable[Run]) -> list[Duty]:
    """From the end of one rest of 540 minutes or more to the start of the next, its daily rest (Article 4(g), 4(k))."""
    return [Duty(last.past, rest.start, rest) for last, rest in neighbours(rests_of(runs, 540))]


def portion(day: Duty) -> int:
    """How much of the daily rest lies within 24 hours of the day's start, negative if it starts later (Article 8(2))."""
    return min(day.rest.past, day.start + 1440) - day.past


def is_regular(runs: Iterable[Run], day: Duty) -> bool:
    """A regular daily rest: 11 hours, or 9 hours with one of 3 hours within the day (Article 4(g))."""
    if portion(day) >= 660:
        return True
    parts = [part for part in rests_of(runs, 180) if day.start <= part.start and part.past <= day.past]
    return portion(day) >= 540 and bool(parts)


def is_reduced(runs: Iterable[Run], day: Duty) -> bool:
    """A reduced daily rest: 9 hours, not regular, and no weekly rest (Article 4(g))."""
    return portion(day) >= 540 and not is_regular(runs, day) and minutes_of(day.rest) < 1440


def is_extended(line: Line, week: int, day: Duty) -> bool:
    """A duty day of the week with more than 9 hours of driving (Article 6(1))."""
    return is_in_week(week, day.start) and len(driving_minutes(line, day.start, day.past)) > 540


# Weeks


def week_start(week: int) -> int:
    """The first minute of a week, Monday 00:00 (Article 4(i))."""
    return 5760 + 10080 * week


def week_of(minute: int) -> int:
    """The week that a minute lies in (Article 4(i))."""
    return (minute - 5760) // 10080


def is_in_week(week: int, minute: int) -> bool:
    """A minute lies in a week (Article 4(i)): weeks count from 0, so the first run, which starts at 0, lies in none."""
    return week >= 0 and week_start(week) <= minute < week_start(week + 1)


def weeks_around(base: int, past: int) -> range:
    """Every week of the line, and two more on either side, where all is at rest."""
    return range(week_of(base) - 2, week_of(past) + 3)


def is_wholly_at_rest(line: Line, week: int) -> bool:
    """Each minute of the week is at rest."""
    return not between(line.busy, week_start(week), week_start(week + 1))


def touches(run: Run, week: int) -> bool:
    """A run has a minute in a week."""
    return run.start < week_start(week + 1) and week_start(week) < run.past


def weekly_rests(runs: Iterable[Run]) -> list[Run]:
    """The rest runs of 24 hours or more (Article 4(h))."""
    return rests_of(runs, 1440)


def weeks_touched(run: Run, first: int, last: int) -> list[int]:
    """The weeks from one to another in which a run has a minute."""
    return [week for week in range(first, last + 1) if touches(run, week)]


# The week in which a weekly rest is counted


def asks_for_rests(line: Line, week: int) -> bool:
    """The week and the next ask for weekly rests: neither is wholly at rest."""
    return not is_wholly_at_rest(line, week) and not is_wholly_at_rest(line, week + 1)


def serves(choice: dict[Run, int], week: int) -> bool:
    """Two different weekly rests are counted in the week and the next, one of them of 45 hours (Article 8(6))."""
    counted = [rest for rest, place in choice.items() if place in (week, week + 1)]
    return any(minutes_of(long) >= 2700 and long != other for long in counted for other in counted)


def can_be_counted(rests: Sequence[Run], first: int, last: int, asking: Sequence[int], choice: dict[Run, int]) -> bool:
    """Each of the rests can be counted in one of the weeks in which it has a minute (Article 8(9)), beside those of the
    choice, so that each asking week is served, with the next. All ways are tried, the latest rest first; one is given up as
    soon as an asking week isn't served in which, and in the next, none of the rests that are left has a minute. That a rest
    is counted before the first week or after the last isn't tried: there it would serve none of these."""
    left = [week for week in asking if any(weeks_touched(rest, week, week + 1) for rest in rests)]
    if not all(serves(choice, week) for week in asking if week not in left):
        return False
    if not rests:
        return True
    *earlier, latest = rests
    return any(
        can_be_counted(earlier, first, last, left, {**choice, latest: week})
        for week in weeks_touched(latest, first, last)
    )


def can_serve(line: Line, runs: Sequence[Run], first: int, last: int) -> bool:
    """One choice of a week for each weekly rest serves each two neighbouring weeks from one week to another."""
    rests = [run for run in weekly_rests(runs) if weeks_touched(run, first, last)]
    asking = [week for week in range(first, last) if asks_for_rests(line, week)]
    return can_be_counted(rests, first, last, asking, {})


def failing_weeks(line: Line, runs: Sequence[Run], first: int, horizon: int) -> list[int]:
    """The least ended week up to which no choice serves from the first week on, and so anew from that week on."""
    found = []
    for week in range(first, week_of(horizon)):
        if not can_serve(line, runs, first, week):
            found.append(week)
            first = week
    return found


# Debts


def minutes_before(end: int, run: Run) -> int:
    """The minutes of a run before a minute."""
    return max(0, min(run.past, end) - run.start)


def main_rest(runs: Sequence[Run], horizon: int, week: int) -> Run | None:
    """Of the rests that start in the week with 24 known hours the longest, the earliest of equals (Article 8(6))."""
    candidates = [run for run in weekly_rests(runs) if is_in_week(week, run.start) and minutes_before(horizon, run) >= 1440]
    for run in candidates:
        known = minutes_before(horizon, run)
        earlier = [other for other in candidates if other.start < run.start]
        later = [other for other in candidates if run.start < other.start]
        longer_than_earlier = all(minutes_before(horizon, other) < known for other in earlier)
        as_long_as_later = all(minutes_before(horizon, other) <= known for other in later)
        if longer_than_earlier and as_long_as_later:
            return run
    return None


def owed(runs: Sequence[Run], horizon: int, week: int) -> int:
    """What the main rest lacks of 45 hours, once the last run starts in a later week (Article 8(6)); 0 for nothing."""
    main = main_rest(runs, horizon, week)
    last = runs[-1]
    if main is None or last.start < week_start(week + 1):
        return 0
    return max(0, 2700 - minutes_of(main))


def kept(runs: Sequence[Run], horizon: int, run: Run) -> int:
    """What a rest keeps for itself: 45 hours as the main rest of its week, else 9 hours (Article 8(6b))."""
    if main_rest(runs, horizon, week_of(run.start)) == run:
        return 2700
    return 540


def paid_from(run: Run, debts: Iterable[Debt]) -> int:
    """What a run pays of debts."""
    return sum(debt.amount for debt in debts if debt.paid_by == run.start)


def room(runs: Sequence[Run], horizon: int, earlier: Sequence[Debt], debt: Debt, run: Run) -> int:
    """The minutes of a run before a debt's deadline, less what it keeps and what it pays of earlier debts (Article 8(6b))."""
    return minutes_before(min(horizon, debt.deadline), run) - kept(runs, horizon, run) - paid_from(run, earlier)


def can_pay(runs: Sequence[Run], horizon: int, earlier: Sequence[Debt], debt: Debt, run: Run) -> bool:
    """A run after the debt's main rest has room for all of it (Article 8(6b))."""
    main = main_rest(runs, horizon, debt.week)
    assert main  # since its week owes
    return is_before(main, run) and debt.amount <= room(runs, horizon, earlier, debt, run)


def debts_of(runs: Sequence[Run], base: int, horizon: int) -> list[Debt]:
    """The debts by week; each is paid whole by the first run that can, the oldest debt first (Article 8(6b))."""
    debts: list[Debt] = []
    for week in weeks_around(base, horizon):
        amount = owed(runs, horizon, week)
        if amount > 0:
            debt = Debt(week, amount, week_start(week + 4), None)
            payers = [run.start for run in runs if can_pay(runs, horizon, debts, debt, run)]
            debts.append(debt._replace(paid_by=min(payers)) if payers else debt)
    return debts


# Breaches


def breaches_1(line: Line, runs: Sequence[Run]) -> list[Breach]:
    """Article 7: more than 4 hours 30 minutes of driving between two neighbouring complete breaks."""
    found = []
    for one, next_one in neighbours(complete_breaks(runs)):
        above = over(line, 270, one.past, next_one.start)
        if above:
            moment, amount = above
            since = driving_minutes(line, one.past, next_one.start)[0]
            found.append(Breach(1, moment, since, amount))
    return found


def breaches_2(runs: Sequence[Run]) -> list[Breach]:
    """Article 8(2): less than 9 hours of the daily rest lie within 24 hours of the day's start."""
    return [
        Breach(2, day.start + 900, day.start, 540 - portion(day))
        for day in duty_days(runs)
        if portion(day) < 540
    ]


def breaches_3(runs: Sequence[Run]) -> list[Breach]:
    """Article 8(4): a fourth or later reduced daily rest since the last weekly rest."""
    found = []
    reduced = [day.rest for day in duty_days(runs) if is_reduced(runs, day)]
    for rest in reduced:
        weekly = max(run for run in weekly_rests(runs) if is_before(run, rest))
        ordinal = len([run for run in reduced if is_before(weekly, run) and run.start <= rest.start])
        if ordinal > 3:
            found.append(Breach(3, rest.start, weekly.past, ordinal - 3))
    return found


def breaches_4(line: Line, runs: Sequence[Run]) -> list[Breach]:
    """Article 6(1): more than 10 hours of driving in a duty day."""
    found = []
    for day in duty_days(runs):
        above = over(line, 600, day.start, day.past)
        if above:
            moment, amount = above
            found.append(Breach(4, moment, day.start, amount))
    return found


def breaches_5(line: Line, runs: Sequence[Run]) -> list[Breach]:
    """Article 6(1): a third or later duty day of its week with more than 9 hours of driving."""
    found = []
    days = duty_days(runs)
    for day in days:
        week = week_of(day.start)
        ordinal = len([other for other in days if is_extended(line, week, other) and other.start <= day.start])
        if is_extended(line, week, day) and ordinal > 2:
            above = over(line, 540, day.start, day.past)
            assert above  # since the day is extended
            moment, amount = above
            found.append(Breach(5, moment, day.start, amount))
    return found


def weeks_over(line: Line, base: int, past: int, kind: int, limit: int, count: int) -> list[Breach]:
    """A breach for each week that has, with those after it up to a count, more minutes of driving than the limit."""
    found = []
    for week in weeks_around(base, past):
        above = over(line, limit, week_start(week), week_start(week + count))
        if above:
            moment, amount = above
            found.append(Breach(kind, moment, week_start(week), amount))
    return found


def breaches_6(line: Line, base: int, past: int) -> list[Breach]:
    """Article 6(2): more than 56 hours of driving in a week."""
    return weeks_over(line, base, past, 6, 3360, 1)


def breaches_7(line: Line, base: int, past: int) -> list[Breach]:
    """Article 6(3): more than 90 hours of driving in a week and the next, also where one of them is all rest."""
    return weeks_over(line, base, past, 7, 5400, 2)


def breaches_8(runs: Sequence[Run]) -> list[Breach]:
    """Article 8(6): the next weekly rest starts more than six days after the end of the last."""
    return [
        Breach(8, one.past + 8640, one.past, next_one.start - (one.past + 8640))
        for one, next_one in neighbours(weekly_rests(runs))
        if next_one.start > one.past + 8640
    ]


def breaches_9(line: Line, runs: Sequence[Run], base: int, horizon: int) -> list[Breach]:
    """Articles 8(6) and 8(9): a week up to which no choice of a week for each weekly rest serves, with the week before."""
    return [
        Breach(9, week_start(week + 1), week_start(week - 1), 0)
        for week in failing_weeks(line, runs, week_of(base), horizon)
    ]


def breaches_10(debts: Iterable[Debt], horizon: int) -> list[Breach]:
    """Article 8(6b): a debt that nothing pays, and whose deadline has come."""
    return [
        Breach(10, debt.deadline, week_start(debt.week), debt.amount)
        for debt in debts
        if debt.paid_by is None and debt.deadline <= horizon
    ]


def examine(spans: Sequence[Span], base: int, past: int) -> tuple[list[FoundBreach], list[FoundDebt]]:
    """All breaches by moment, kind and since, and all debts by week, of spans joined from a Monday to a horizon."""
    check_examined(spans, base, past)
    line = line_of(spans)
    runs = rest_runs(line)
    debts = debts_of(runs, base, past)
    breaches = (
        breaches_1(line, runs)
        + breaches_2(runs)
        + breaches_3(runs)
        + breaches_4(line, runs)
        + breaches_5(line, runs)
        + breaches_6(line, base, past)
        + breaches_7(line, base, past)
        + breaches_8(runs)
        + breaches_9(line, runs, base, past)
        + breaches_10(debts, past)
    )
    breaches.sort(key=lambda breach: (breach.moment, breach.kind, breach.since))
    return [tuple(breach) for breach in breaches], [tuple(debt) for debt in debts]


# The report of what is held


def held_minutes(spans: Iterable[HeldSpan]) -> dict[int, Mark]:
    """The mark of each minute of the spans, which are in any order and may have minutes in common."""
    held: dict[int, Mark] = {}
    for start, past, activity, crew in spans:
        held.update(dict.fromkeys(range(start, past), Mark(activity, crew)))
    return held


def horizon_of(held: dict[int, Mark], base: int) -> tuple[int, str]:
    """The first minute from the base on that isn't held, or is held as crew, where other rules hold; and which of the two."""
    minute = base
    while minute in held and not held[minute].crew:
        minute += 1
    return minute, "Crew" if minute in held else "Unknown"


def examined_spans(held: dict[int, Mark], base: int, horizon: int) -> list[Span]:
    """What was done from the base to before the horizon, as spans that follow one another."""
    spans = []
    for activity, group in groupby(range(base, horizon), lambda minute: held[minute].activity):
        minutes = list(group)
        spans.append((minutes[0], minutes[-1] + 1, activity))
    return spans


def report(held_spans: Iterable[HeldSpan], base: int) -> Report:
    """The horizon of what is held, its cause, and the breaches and debts of what was done from the base to before it."""
    held = held_minutes(held_spans)
    horizon, cause = horizon_of(held, base)
    breaches, debts = examine(examined_spans(held, base, horizon), base, horizon)
    return horizon, cause, breaches, debts


# The command


def read_line(words: Sequence[str]) -> Span:
    """A span from the three words of a line."""
    start, past, activity = words
    return int(start), int(past), activity


def main() -> None:
    """Read the spans, print the breaches and the debts."""
    lines = [line.split() for line in sys.stdin if line.strip()]
    base, past = (int(word) for word in lines[0])
    breaches, debts = examine([read_line(words) for words in lines[1:]], base, past)
    for kind, moment, since, amount in breaches:
        print(f"B{kind} {moment} {since} {amount}")
    for week, amount, deadline, paid_by in debts:
        print(f"DEBT {week} {amount} {deadline} {'-' if paid_by is None else paid_by}")


if __name__ == "__main__":
    main()
