"""Until when a driver may drive on, computed slowly: a forecast, which asks for the reports of plans. Every function says one definition.

What is *held* was done from a Monday to a horizon, from which on nothing is held. `start` is where the forecast begins, and what is *known*
is what is held, and rest from the horizon to `start`. A plan goes on with driving from `start` to before a minute x."""
from bisect import bisect_left
from collections import namedtuple
from collections.abc import Callable, Iterable, Sequence

from slow import slow_rules
from slow.slow_rules import DRIVE, FAR, REST, Breach, Debt, Duty, Line, Run, Span

Outlook = namedtuple("Outlook", "start rest_since day_since reduced extended driven coming debts limits")

Spans = Sequence[Span]

DAY = 1440
FIVE_WEEKS = 50_400
DAILY_REST = 660  # a regular one
LOOKED_AT = 91_381  # minutes from `start` on that have to be read: a plan's last rest ends before, wherever it begins
REDUCED = 3  # the kind of breach that five weeks of rest can't show
KINDS = range(1, 10)


# Plans


def joined(spans: Spans) -> list[Span]:
    """Those of some spans that have a minute."""
    return [(start, past, activity) for start, past, activity in spans if start < past]


def known_of(held: Spans, horizon: int, start: int) -> list[Span]:
    """What is held, and rest from the horizon on."""
    return joined([*held, (horizon, start, REST)])


def plan(known: Spans, start: int, x: int) -> list[Span]:
    """What is known, driving to before x, and five weeks of rest."""
    return joined([*known, (start, x, DRIVE), (x, x + FIVE_WEEKS, REST)])


def reported(spans: Spans, base: int) -> list[Breach]:
    """The breaches of the report of some spans from a Monday on, in its order."""
    breaches, _ = slow_rules.examine(spans, base, spans[-1][1] if spans else base)
    return [Breach(*breach) for breach in breaches]


def driven_to(line: Line, start: int, x: int) -> Line:
    """A line on which driving goes on from one minute to before another."""
    minutes = range(start, x)
    return Line([*line.busy, *minutes], [*line.drive, *minutes])


def breaches_at(kind: int, line: Line, runs: Sequence[Run], base: int, start: int, x: int) -> list[Breach]:
    """The breaches of a kind in the report of a plan with driving, as `slow_rules.examine` finds them. The line is that of what is known.
    The rest runs are those of the plan in which one minute is driven: only the last of them is another one for a later x.

    Of B3 the plan goes on with driving to before x, a regular daily rest, a minute of work, and five weeks of rest, since five weeks are
    never a reduced rest."""
    if kind == REDUCED:
        worked = x + DAILY_REST
        return slow_rules.breaches_3([*runs[:-1], Run(x, worked), Run(worked + 1, FAR)])
    driven, rested, past = driven_to(line, start, x), [*runs[:-1], Run(x, FAR)], x + FIVE_WEEKS
    breaches = getattr(slow_rules, f"breaches_{kind}")
    if kind in (2, 8):
        return breaches(rested)
    if kind in (6, 7):
        return breaches(driven, base, past)
    if kind == 9:
        return breaches(driven, rested, base, past)
    return breaches(driven, rested)


# Limits


def reach(kind: int, start: int) -> int:
    """Up to where driving is looked at: for a day; of B6 and B7 up to the end of the week; of B8 for a week; of B9 up to the end of the
    week after."""
    week = slow_rules.week_of(start)
    if kind in (6, 7):
        return slow_rules.week_start(week + 1)
    if kind == 8:
        return start + 7 * DAY
    if kind == 9:
        return slow_rules.week_start(week + 2)
    return start + DAY


def recent(runs: Sequence[Run]) -> list[Run]:
    """The rest runs on which new reduced rests depend: those of three hours from the last weekly rest on, but for the last run."""
    weekly = slow_rules.weekly_rests(runs[:-1])[-1]
    return [run for run in slow_rules.rests_of(runs, 180) if run.start >= weekly.start]


def is_broken(old: Sequence[Breach], breaches: Iterable[Breach]) -> bool:
    """One of some breaches isn't among the old ones."""
    return any(breach not in old for breach in breaches)


def first_of(minutes: range, is_so: Callable[[int], bool]) -> int | None:
    """The first of some minutes for which something is so, where it is so for each one after that."""
    place = bisect_left(minutes, True, key=is_so)
    return minutes[place] if place < len(minutes) else None


def first_new(kind: int, old: Sequence[Breach], line: Line, runs: Sequence[Run], base: int, start: int) -> int | None:
    """The first x within reach whose plan has a new breach of the kind: one that isn't among the old ones, of the plan without driving.

    Of reduced rests each x is tried. Of the others, once there is a new breach for an x, there is one for each later x; so the first is
    found by halves. Why it is so of B1, B2 and B4 to B8: the driving since the last break, in the day, in the week and in two weeks, what
    the last daily rest lacks, and the time since the last weekly rest grow with x, and so does the amount of a breach; all other breaches
    are the same for each x after `start`. Of B9: with a later x the last rest has minutes in fewer weeks, all other rests are the same, and
    no fewer weeks ask for rests; so where no choice serves up to a week, none does with a later x."""
    minutes = range(start + 1, reach(kind, start) + 1)
    if kind == REDUCED:
        last = recent(runs)
        return next((x for x in minutes if is_broken(old, breaches_at(kind, line, last, base, start, x))), None)
    return first_of(minutes, lambda x: is_broken(old, breaches_at(kind, line, runs, base, start, x)))


def limits_of(known: Spans, base: int, start: int) -> dict[int, int]:
    """By the kind of breach: the last minute up to which driving on makes no new one, if there is one after it within reach."""
    old = reported(plan(known, start, start), base)
    line = slow_rules.line_of(known)
    runs = slow_rules.rest_runs(driven_to(line, start, start + 1))
    found = {kind: first_new(kind, old, line, runs, base, start) for kind in KINDS}
    return {kind: first - 1 for kind, first in found.items() if first is not None}


# What is used


def is_recent(runs: Sequence[Run], start: int, day: Duty) -> bool:
    """No weekly rest has ended by `start` after the day's rest."""
    return not any(slow_rules.is_before(day.rest, rest) and rest.past <= start for rest in slow_rules.weekly_rests(runs))


def is_extended_before(line: Line, today: Duty, day: Duty) -> bool:
    """An extended day before today, in the week of today's start."""
    return slow_rules.is_extended(line, slow_rules.week_of(today.start), day) and day.start < today.start


def driven_in(line: Line, week: int) -> tuple[int, int]:
    """A week's first minute, and its minutes of driving."""
    first = slow_rules.week_start(week)
    return first, len(slow_rules.driving_minutes(line, first, slow_rules.week_start(week + 1)))


# The forecast


def coming(held: Spans, known: Spans, base: int, start: int) -> list[Breach]:
    """The breaches that come even if no minute is driven: those that what is held doesn't have."""
    old = reported(held, base)
    return [breach for breach in reported(plan(known, start, start), base) if breach not in old]


def open_debts(known: Spans, base: int, start: int) -> list[Debt]:
    """The debts that no rest has paid, and whose deadline comes after `start`."""
    _, debts = slow_rules.examine(known, base, start)
    return [debt for debt in (Debt(*found) for found in debts) if debt.paid_by is None and debt.deadline > start]


def outlook(held: Spans, base: int, horizon: int, minute: int) -> Outlook | None:
    """The forecast of what is held from a Monday to a horizon, from a minute or the horizon on; nothing where it goes past the last day."""
    start = max(minute, horizon)
    if start + LOOKED_AT > slow_rules.LAST_PAST:
        return None
    known = known_of(held, horizon, start)
    line = slow_rules.line_of(known)
    driven = driven_to(line, start, start + 1)
    runs = slow_rules.rest_runs(driven)
    days = slow_rules.duty_days(runs)
    today = days[-1]
    week = slow_rules.week_of(start)
    return Outlook(
        start,
        slow_rules.rest_runs(line)[-1].start if line.busy else None,
        today.start,
        len([day for day in days if slow_rules.is_reduced(runs, day) and is_recent(runs, start, day)]),
        len([day for day in days if is_extended_before(driven, today, day)]),
        [driven_in(line, week - 1), driven_in(line, week)],
        coming(held, known, base, start),
        open_debts(known, base, start),
        limits_of(known, base, start),
    )
