"""The evidence for breaches, computed slowly: the lines under a breach with which a person can check it. Every function says one definition.

`evidence` has the lines of one breach. A minute is a whole number, a run holds the minutes from its start to before its past, and a length
is a count of minutes."""
from collections.abc import Iterable, Sequence

from slow import slow_reader, slow_rules
from slow.slow_rules import Breach, Debt, Duty, FoundBreach, Line, Run

Texts = list[str]

DAY = 1440


# Texts


def minute_text(minute: int) -> str:
    """A minute. The first rest run has no start, and the last no past."""
    return "-" if minute in (0, slow_rules.FAR) else slow_reader.minute_text(minute)


def date_text(minute: int) -> str:
    """The day of a minute."""
    return slow_reader.minute_text(minute)[:10]


def length_text(minutes: int) -> str:
    """A length, or a room: hours and minutes."""
    return f"{'-' if minutes < 0 else ''}{abs(minutes) // 60}:{abs(minutes) % 60:02}"


def run_text(run: Run) -> str:
    """A run's start, past and length. The first and the last rest run have no length."""
    is_open = run.start == 0 or run.past == slow_rules.FAR
    return f"{minute_text(run.start)} {minute_text(run.past)} {'-' if is_open else length_text(slow_rules.minutes_of(run))}"


# Driving


def driving_spans(line: Line, start: int, past: int) -> list[Run]:
    """The maximal runs of minutes at drive from one minute to before another."""
    minutes = slow_rules.driving_minutes(line, start, past)
    firsts = [minute for minute in minutes if minute - 1 not in minutes]
    lasts = [minute for minute in minutes if minute + 1 not in minutes]
    return [Run(first, last + 1) for first, last in zip(firsts, lasts)]


def driving_lines(line: Line, spans: Iterable[Run], origin: int) -> Texts:
    """A line for each driving span: the total is the driving from the origin to the end of the span."""
    return [f"drive {run_text(span)} {length_text(len(slow_rules.driving_minutes(line, origin, span.past)))}" for span in spans]


def date_lines(line: Line, week: int, origin: int, moment: int) -> Texts:
    """A line for each day of the week with driving, and after the day of the moment its driving spans."""
    lines = []
    monday = slow_rules.week_start(week)
    for start in range(monday, monday + 7 * DAY, DAY):
        driven = len(slow_rules.driving_minutes(line, start, start + DAY))
        if driven:
            total = len(slow_rules.driving_minutes(line, origin, start + DAY))
            lines.append(f"date {date_text(start)} drive {length_text(driven)} {length_text(total)}")
        if start <= moment < start + DAY:
            lines += driving_lines(line, driving_spans(line, start, start + DAY), origin)
    return lines


# The breaches by their kinds


def of_break(line: Line, runs: Sequence[Run], breach: Breach) -> Texts:
    """B1: the complete breaks around the driving, the driving spans, and the rests of 15 minutes between."""
    breaks = slow_rules.complete_breaks(runs)
    before = max(run for run in breaks if run.past <= breach.moment)
    after = min(run for run in breaks if run.start > breach.moment)
    spans = driving_spans(line, before.past, after.start)
    shown = list(zip(spans, driving_lines(line, spans, before.past)))
    between = [run for run in slow_rules.rests_of(runs, 15) if slow_rules.is_before(before, run) and slow_rules.is_before(run, after)]
    shown += [(run, f"rest {run_text(run)}") for run in between]
    return [f"break {run_text(before)}", *(text for _, text in sorted(shown)), f"break {run_text(after)}"]


def day_at(runs: Sequence[Run], start: int) -> Duty:
    """The duty day that starts at a minute."""
    return next(day for day in slow_rules.duty_days(runs) if day.start == start)


def of_daily_rest(runs: Sequence[Run], breach: Breach) -> Texts:
    """B2: the duty day, the end of its 24 hours, the rests of three hours in it, and its daily rest with its portion."""
    day = day_at(runs, breach.since)
    parts = [run for run in slow_rules.rests_of(runs, 180) if day.start <= run.start and run.past <= day.past]
    return [
        f"day {minute_text(day.start)} {minute_text(day.past)}",
        f"limit {minute_text(day.start + DAY)}",
        *(f"rest {run_text(run)}" for run in parts),
        f"rest {run_text(day.rest)} portion {length_text(slow_rules.portion(day))}",
    ]


def of_reduced_rests(runs: Sequence[Run], breach: Breach) -> Texts:
    """B3: the last weekly rest, and each reduced rest since, up to this one."""
    weekly = next(run for run in slow_rules.weekly_rests(runs) if run.past == breach.since)
    days = [
        day
        for day in slow_rules.duty_days(runs)
        if slow_rules.is_reduced(runs, day) and slow_rules.is_before(weekly, day.rest) and day.rest.start <= breach.moment
    ]
    return [
        f"weekly {run_text(weekly)}",
        *(
            f"reduced {ordinal} {run_text(day.rest)} day {minute_text(day.start)} portion {length_text(slow_rules.portion(day))}"
            for ordinal, day in enumerate(days, 1)
        ),
    ]


def of_day(line: Line, runs: Sequence[Run], breach: Breach) -> Texts:
    """B4: the duty day, and its driving spans."""
    day = day_at(runs, breach.since)
    spans = driving_spans(line, day.start, day.past)
    return [f"day {minute_text(day.start)} {minute_text(day.past)}", *driving_lines(line, spans, day.start)]


def of_extended_days(line: Line, runs: Sequence[Run], breach: Breach) -> Texts:
    """B5: the week, its extended days up to this one, and the driving spans of this one."""
    week = slow_rules.week_of(breach.since)
    days = [day for day in slow_rules.duty_days(runs) if slow_rules.is_extended(line, week, day) and day.start <= breach.since]
    last = days[-1]
    return [
        f"week {date_text(slow_rules.week_start(week))}",
        *(
            f"day {ordinal} {minute_text(day.start)} {minute_text(day.past)} "
            f"drive {length_text(len(slow_rules.driving_minutes(line, day.start, day.past)))}"
            for ordinal, day in enumerate(days, 1)
        ),
        *driving_lines(line, driving_spans(line, last.start, last.past), last.start),
    ]


def of_week(line: Line, breach: Breach) -> Texts:
    """B6: the week, and its days with driving."""
    week = slow_rules.week_of(breach.since)
    return [f"week {date_text(breach.since)}", *date_lines(line, week, breach.since, breach.moment)]


def of_two_weeks(line: Line, breach: Breach) -> Texts:
    """B7: each of the two weeks with its driving, and its days with driving."""
    lines = []
    for week in (slow_rules.week_of(breach.since), slow_rules.week_of(breach.since) + 1):
        start, past = slow_rules.week_start(week), slow_rules.week_start(week + 1)
        lines.append(f"week {date_text(start)} drive {length_text(len(slow_rules.driving_minutes(line, start, past)))}")
        lines += date_lines(line, week, breach.since, breach.moment)
    return lines


def of_late_rest(runs: Sequence[Run], breach: Breach) -> Texts:
    """B8: the weekly rest that ended, and the next one."""
    weekly = slow_rules.weekly_rests(runs)
    earlier = next(run for run in weekly if run.past == breach.since)
    later = min(run for run in weekly if slow_rules.is_before(earlier, run))
    return [f"weekly {run_text(earlier)}", f"weekly {run_text(later)}"]


def of_choice(line: Line, runs: Sequence[Run], base: int, horizon: int, breach: Breach) -> Texts:
    """B9: from which week the choice was made anew, the weeks from it on, and each weekly rest with a minute in them."""
    second = slow_rules.week_of(breach.since) + 1
    failed = slow_rules.failing_weeks(line, runs, slow_rules.week_of(base), horizon)
    first = max([slow_rules.week_of(base), *(week for week in failed if week < second)])
    weeks = range(first, second + 1)
    rests = [(run, slow_rules.weeks_touched(run, first, second)) for run in slow_rules.weekly_rests(runs)]
    return [
        f"from {date_text(slow_rules.week_start(first))}",
        *(
            f"week {date_text(slow_rules.week_start(week))}{' at rest' if slow_rules.is_wholly_at_rest(line, week) else ''}"
            for week in weeks
        ),
        *(
            f"weekly {run_text(run)} in {' '.join(date_text(slow_rules.week_start(week)) for week in touched)}"
            for run, touched in rests
            if touched
        ),
    ]


def of_debt(runs: Sequence[Run], debts: Sequence[Debt], horizon: int, breach: Breach) -> Texts:
    """B10: the debt, the main rest of its week, and each later rest that begins before the deadline, with its room."""
    debt = next(debt for debt in debts if slow_rules.week_start(debt.week) == breach.since)
    earlier = [other for other in debts if other.week < debt.week]
    main = slow_rules.main_rest(runs, horizon, debt.week)
    assert main  # since its week owes
    later = [
        run
        for run in runs
        if slow_rules.is_before(main, run) and run.start < debt.deadline and slow_rules.minutes_before(horizon, run) >= 540
    ]
    return [
        f"owes {date_text(breach.since)} {length_text(debt.amount)} by {minute_text(debt.deadline)}",
        f"main {run_text(main)}",
        *(f"rest {run_text(run)} room {length_text(slow_rules.room(runs, horizon, earlier, debt, run))}" for run in later),
    ]


def evidence(spans: Sequence[slow_rules.Span], base: int, horizon: int, found: FoundBreach) -> Texts:
    """The lines of a breach of what was done from a Monday to a horizon."""
    breach = Breach(*found)
    line = slow_rules.line_of(spans)
    runs = slow_rules.rest_runs(line)
    if breach.kind == 10:
        return of_debt(runs, slow_rules.debts_of(runs, base, horizon), horizon, breach)
    return {
        1: lambda: of_break(line, runs, breach),
        2: lambda: of_daily_rest(runs, breach),
        3: lambda: of_reduced_rests(runs, breach),
        4: lambda: of_day(line, runs, breach),
        5: lambda: of_extended_days(line, runs, breach),
        6: lambda: of_week(line, breach),
        7: lambda: of_two_weeks(line, breach),
        8: lambda: of_late_rest(runs, breach),
        9: lambda: of_choice(line, runs, base, horizon, breach),
    }[breach.kind]()
