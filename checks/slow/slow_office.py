"""A slow office over an archive, written from the definitions and not from the program: what each command line prints for an
input, and its status. Its texts are written a minute at a time. `docs/FORMATS.md` says what they are.

`Office.answer` is given the arguments without the archive's path (`["spans", "17", "2024-03"]`) and the input's bytes. It takes one
command more than the program, `own`: the import of a card file by the driver whose number it has. Its archive is one of schema 2,
which `migrate` leaves as it is, and `check` finds sound. What `carry` has made is another office, `Office.made[NEW]`."""
import copy
import datetime
import functools
import hashlib
import re
import string
from collections.abc import Callable, Iterable, Sequence

from lib.programs import name_and_version, version_lines
from slow import slow_ahead, slow_archive, slow_csv, slow_evidence, slow_reader, slow_rules, slow_tar
from slow.slow_archive import Marks, Refusal
from slow.slow_rules import FoundBreach, FoundDebt, Report

Command = tuple[list[str], bytes]  # the arguments without the archive's path, and the input
Month = tuple[int, int]  # a year, and the number of the month
Runs = tuple[tuple[int, int, slow_reader.Mark], ...]

INPUT_LIMIT = 262_144
LONGEST = 527_040
OVERVIEW_HEAD = "driver,name,rest,available,work,drive,crew,none,examined,B1,B2,B3,B4,B5,B6,B7,B8,B9,B10\n"
STANDING_HEAD = "driver,name,files,held,horizon,cause,gaps,unknown,first,last_month,breaches,debts,owes,by\n"
FORECAST_HEAD = "driver,name,from,held,start,B1,B2,B3,B4,B5,B6,B7,B8,B9,reduced,extended,before,week\n"
INCIDENT_HEAD = "driver,name,kind,article,moment,since,amount\n"
LAST_DRIVER = 999_999
LAST_NUMBER = 1_000_000
EPOCH = datetime.date(1970, 1, 1)
WEEKDAYS = ["Mon", "Tue", "Wed", "Thu", "Fri", "Sat", "Sun"]
HEAD = "DATE       DAY   REST  AVAIL   WORK  DRIVE   CREW   NONE\n"

ARTICLES = {
    1: "Art 7",
    2: "Art 8(2)",
    3: "Art 8(4)",
    4: "Art 6(1)",
    5: "Art 6(1)",
    6: "Art 6(2)",
    7: "Art 6(3)",
    8: "Art 8(6)",
    9: "Art 8(6)",
    10: "Art 8(6b)",
}
FAULTS = {
    "S1": "driver taken",
    "S2": "key taken",
    "S3": "holder taken",
    "S4": "unknown driver",
    "S5": "not your card",
    "S7": "unknown entry",
    "S8": "already withdrawn",
    "S9": "not a Monday",
    "S10": "unknown download",
    "S14": "full",
}


# The arguments of a command


def number_of(text: str, most: int) -> int:
    """The number that an argument is: N1."""
    if not re.fullmatch("[1-9][0-9]{0,6}", text) or int(text) > most:
        raise slow_reader.Fault("N1 bad number")
    return int(text)


def date_of(year: int, month: int, day: int) -> datetime.date | None:
    """The date of three numbers, or nothing where the calendar has none. Of the year 0, which Python hasn't, that of the year 400,
    which has the same months."""
    try:
        return datetime.date(year or 400, month, day)
    except ValueError:
        return None


def day_number(date: datetime.date) -> int:
    """The number of a date."""
    return (date - EPOCH).days


def day_of(text: str) -> int:
    """The day that an argument is: Z1, Z2, Z3."""
    if not re.fullmatch("[0-9]{4}-[0-9]{2}-[0-9]{2}", text):
        raise slow_reader.Fault("Z1 not of the shape")
    date = date_of(*[int(part) for part in text.split("-")])
    if date is None:
        raise slow_reader.Fault("Z2 no such date")
    if day_number(date) not in slow_reader.READ_DAYS:
        raise slow_reader.Fault("Z3 out of range")
    return day_number(date)


def minute_of(text: str) -> int:
    """The minute that two arguments are, with a blank between: Z1, Z2, Z3."""
    if not re.fullmatch("[0-9]{4}-[0-9]{2}-[0-9]{2} [0-9]{2}:[0-9]{2}", text):
        raise slow_reader.Fault("Z1 not of the shape")
    date, hours, minutes = date_of(*[int(part) for part in text[:10].split("-")]), int(text[11:13]), int(text[14:])
    if date is None or hours > 23 or minutes > 59:
        raise slow_reader.Fault("Z2 no such date")
    if day_number(date) not in slow_reader.READ_DAYS:
        raise slow_reader.Fault("Z3 out of range")
    return 1440 * day_number(date) + 60 * hours + minutes


def month_of(text: str) -> Month:
    """The year and the month that an argument is: Z1, Z2, Z3."""
    if not re.fullmatch("[0-9]{4}-[0-9]{2}", text):
        raise slow_reader.Fault("Z1 not of the shape")
    year, month = [int(part) for part in text.split("-")]
    if not 1 <= month <= 12:
        raise slow_reader.Fault("Z2 no such date")
    if not 2000 <= year <= 2099:
        raise slow_reader.Fault("Z3 out of range")
    return year, month


def period_of(start: str, past: str) -> range:
    """The minutes of a period, from the first of one day to the last before another: Z1, Z2, Z3 of the one and of the other, then Z4."""
    first, end = day_of(start), day_of(past)
    if not 0 < 1440 * (end - first) <= LONGEST:
        raise slow_reader.Fault("Z4 period")
    return range(1440 * first, 1440 * end)


def part_of(text: str) -> str:
    """The part of a card file that an argument names: P1."""
    if text not in slow_archive.PARTS:
        raise slow_reader.Fault("P1 bad part")
    return text


# The texts of a month


def days_of(month: Month) -> list[datetime.date]:
    """The days of a month, by their dates."""
    year, number = month
    first = datetime.date(year, number, 1)
    return [day for day in (first + datetime.timedelta(days=place) for place in range(31)) if day.month == number]


def minutes_of(date: datetime.date) -> range:
    """The minutes of a date."""
    first = 1440 * day_number(date)
    return range(first, first + 1440)


def month_minutes(month: Month) -> range:
    """The minutes of a month."""
    days = days_of(month)
    return range(minutes_of(days[0]).start, minutes_of(days[-1]).stop)


def spans_text(held: Marks, month: Month) -> str:
    """What is held in a month, as CSV."""
    runs = slow_reader.runs((minute, held[minute]) for minute in month_minutes(month) if minute in held)
    rows = [",".join([slow_reader.minute_text(a), slow_reader.minute_text(b), *mark]) for a, b, mark in runs]
    return "".join(row + "\n" for row in ["start,past,activity,manning", *rows])


def gaps_text(held: Marks, month: Month) -> str:
    """What isn't held in a month."""
    runs = slow_reader.runs((minute, "") for minute in month_minutes(month) if minute not in held)
    return "".join(f"{slow_reader.minute_text(a)} {slow_reader.minute_text(b)}\n" for a, b, _ in runs)


def column_of(mark: slow_reader.Mark | None) -> str:
    """The column in which a minute counts."""
    if mark is None:
        return "none"
    activity, manning = mark
    return "crew" if manning == "crew" else activity


def amounts_text(held: Marks, minutes: range) -> str:
    """The six amounts of some minutes."""
    found = [column_of(held.get(minute)) for minute in minutes]
    counts = [found.count(column) for column in [*slow_reader.ACTIVITIES, "crew", "none"]]
    return "".join(f"{count // 60}:{count % 60:02}".rjust(7) for count in counts)


def day_text(held: Marks, date: datetime.date) -> str:
    """The line of a day."""
    return f"{date.isoformat()} {WEEKDAYS[date.weekday()]}{amounts_text(held, minutes_of(date))}\n"


def sheet_text(number: int, name: str, held: Marks, report: Report, month: Month) -> str:
    """The sheet of a month."""
    horizon, cause, breaches, _ = report
    year, place = month
    minutes = month_minutes(month)
    head = f"DRIVER {number} {name}\nMONTH {year:04}-{place:02}\n{HEAD}"
    days = "".join(day_text(held, date) for date in days_of(month))
    total = f"TOTAL         {amounts_text(held, minutes)}\n"
    return head + days + total + breaches_text(horizon, cause, [breach for breach in breaches if breach[1] in minutes])


# The texts of a report


def horizon_text(horizon: int, cause: str) -> str:
    """The line of the minute at which the examination ends."""
    return f"EXAMINED TO {slow_reader.minute_text(horizon)} {cause.lower()}\n"


def breach_text(breach: FoundBreach) -> str:
    """The line of a breach."""
    kind, moment, since, amount = breach
    return f"B{kind} {ARTICLES[kind]} at {slow_reader.minute_text(moment)} since {slow_reader.minute_text(since)} amount {amount}\n"


def breaches_text(horizon: int, cause: str, breaches: Iterable[FoundBreach]) -> str:
    """Breaches, and where the examination ends."""
    return "".join(map(breach_text, breaches)) + horizon_text(horizon, cause)


def standing_of(horizon: int, deadline: int, payer: int | None) -> str:
    """What became of a debt."""
    if payer is not None:
        return f"paid {slow_reader.minute_text(payer)}"
    return "late" if deadline <= horizon else "open"


def debt_text(horizon: int, debt: FoundDebt) -> str:
    """The line of a debt."""
    week, amount, deadline, payer = debt
    return (
        f"WEEK {slow_reader.minute_text(slow_rules.week_start(week))[:10]} owes {amount} "
        f"by {slow_reader.minute_text(deadline)} {standing_of(horizon, deadline, payer)}\n"
    )


def owed_text(horizon: int, cause: str, debts: Iterable[FoundDebt]) -> str:
    """Debts, and where the examination ends."""
    return "".join(debt_text(horizon, debt) for debt in debts) + horizon_text(horizon, cause)


@functools.lru_cache(maxsize=1_000)
def report_of_runs(runs: Runs, base: int) -> Report:
    """The report of runs of minutes, each with its mark, from a minute on."""
    return slow_rules.report([(start, past, activity, manning == "crew") for start, past, (activity, manning) in runs], base)


def report_of(held: Marks, base: int) -> Report:
    """The report of what is held, from a day on: horizon, cause, breaches and debts."""
    return report_of_runs(tuple(tuple(run) for run in slow_reader.runs(held.items())), 1440 * base)


# Stretches


class Stretch:
    """An examination from a Monday on, and where what isn't examined after it ends, if there is anything."""

    def __init__(self, monday: int, report: Report, unseen: int | None) -> None:
        self.monday = monday
        self.horizon, self.cause, self.breaches, self.debts = report
        self.unseen = unseen

    def text(self, report: str) -> str:
        """Its lines, with these of its report."""
        parts = [f"FROM {slow_reader.minute_text(self.monday)[:10]}\n", report]
        if self.unseen is not None:
            parts.append(f"NOT EXAMINED {slow_reader.minute_text(self.horizon)} {slow_reader.minute_text(self.unseen)}\n")
        return "".join(parts)


def is_start(held: Marks, minute: int) -> bool:
    """The first minute of a Monday that is held without a second driver."""
    return (minute - 1440 * 4) % 10080 == 0 and minute in held and held[minute][1] == "single"


def end_of_held(held: Marks, base: int) -> int:
    """The minute after the last that is held from a minute on, or that minute."""
    return max((minute + 1 for minute in held if minute >= base), default=base)


def lacking_in(held: Marks, base: int) -> list[tuple[int, int]]:
    """The maximal ranges that aren't held from a minute to the end of what is held. They may last for years: no list has their minutes."""
    minutes = [base - 1, *sorted(minute for minute in held if minute >= base)]
    return [(before + 1, minute) for before, minute in zip(minutes, minutes[1:]) if before + 1 < minute]


def stretches_of(held: Marks, base: int) -> list[Stretch]:
    """The stretches of what is held, from a day on."""
    runs = tuple(tuple(run) for run in slow_reader.runs(held.items()))
    starts = [minute for minute in held if is_start(held, minute)]
    end = end_of_held(held, 1440 * base)
    found: list[Stretch] = []
    monday: int | None = 1440 * base
    while monday is not None:
        report = report_of_runs(runs, monday)
        horizon = report[0]
        monday_after = min((minute for minute in starts if minute > horizon), default=None)
        unseen = monday_after if monday_after is not None else end if horizon < end else None
        found.append(Stretch(monday, report, unseen))
        monday = monday_after
    return found


def stretches_text(stretches: Iterable[Stretch]) -> str:
    """The stretches with their breaches."""
    return "".join(stretch.text(breaches_text(stretch.horizon, stretch.cause, stretch.breaches)) for stretch in stretches)


def debts_text(stretches: Iterable[Stretch]) -> str:
    """The stretches with their debts."""
    return "".join(stretch.text(owed_text(stretch.horizon, stretch.cause, stretch.debts)) for stretch in stretches)


def breaches_in(stretches: Iterable[Stretch], minutes: range) -> list[FoundBreach]:
    """The breaches of all stretches with their moment among some minutes."""
    return [breach for stretch in stretches for breach in stretch.breaches if breach[1] in minutes]


def why_text(driver: slow_archive.Driver, month: Month) -> str:
    """The breaches of a month, each with its evidence, which is indented by two blanks."""
    held = driver.held()
    marks = {minute: slow_rules.Mark(activity, manning == "crew") for minute, (activity, manning) in held.items()}
    lines = []
    for stretch in stretches_of(held, driver.base):
        breaches = breaches_in([stretch], month_minutes(month))
        spans = slow_rules.examined_spans(marks, stretch.monday, stretch.horizon) if breaches else []
        for breach in breaches:
            lines.append(breach_text(breach))
            lines += [f"  {line}\n" for line in slow_evidence.evidence(spans, stretch.monday, stretch.horizon, breach)]
    return "".join(lines)


def outlook_text(found: slow_ahead.Outlook) -> str:
    """What is used, which breaches come, which debts are open, and until when driving can go on."""
    since = "-" if found.rest_since is None else slow_reader.minute_text(found.rest_since)
    return "".join([
        f"START {slow_reader.minute_text(found.start)}\nREST SINCE {since}\nDAY SINCE {slow_reader.minute_text(found.day_since)}\n",
        f"REDUCED {found.reduced}\nEXTENDED {found.extended}\n",
        *(f"DRIVEN {slow_reader.minute_text(week)[:10]} {slow_evidence.length_text(minutes)}\n" for week, minutes in found.driven),
        *map(breach_text, found.coming),
        *(debt_text(found.start, debt) for debt in found.debts),
        *(
            f"B{kind} {ARTICLES[kind]} until {slow_reader.minute_text(until)} left {slow_evidence.length_text(until - found.start)}\n"
            for kind, until in found.limits.items()
        ),
    ])


@functools.lru_cache(maxsize=1_000)
def outlook_of_spans(spans: tuple[slow_rules.Span, ...], monday: int, horizon: int, minute: int) -> slow_ahead.Outlook | None:
    """The forecast of what is examined from a Monday to a horizon, from a minute on; nothing where it goes past the last day."""
    return slow_ahead.outlook(spans, monday, horizon, minute)


def outlook_of(held: Marks, last: Stretch, minute: int) -> slow_ahead.Outlook | None:
    """The same of the last stretch of what is held."""
    marks = {minute: slow_rules.Mark(activity, False) for minute, (activity, _) in held.items()}
    spans = slow_rules.examined_spans(marks, last.monday, last.horizon)
    return outlook_of_spans(tuple(spans), last.monday, last.horizon, minute)


def ahead_text(driver: slow_archive.Driver, minute: int) -> str:
    """Until when a driver can drive on: Z3. If something is held after the horizon of the last stretch, this is how it ends."""
    held = driver.held()
    last = stretches_of(held, driver.base)[-1]
    if last.unseen is not None:
        return last.text(horizon_text(last.horizon, last.cause))
    found = outlook_of(held, last, minute)
    if found is None:
        raise slow_reader.Fault("Z3 out of range")
    return last.text(horizon_text(last.horizon, last.cause)) + outlook_text(found)


def minute_cell(minute: int | None) -> str:
    """A minute, or nothing."""
    return "" if minute is None else slow_reader.minute_text(minute)


def held_cell(held: Marks, base: int) -> str:
    """The end of what is held from a minute on, if anything is."""
    end = end_of_held(held, base)
    return minute_cell(end if end > base else None)


def forecast_row(driver: slow_archive.Driver, minute: int) -> str:
    """Until when a driver can drive on by each rule, and what is used."""
    held = driver.held()
    last = stretches_of(held, driver.base)[-1]
    found = outlook_of(held, last, minute) if last.unseen is None else None
    cells = [str(driver.number), driver.name.decode(), slow_reader.minute_text(last.monday)[:10], held_cell(held, 1440 * driver.base)]
    if found is None:
        cells += [""] * 14
    else:
        cells += [slow_reader.minute_text(found.start), *(minute_cell(found.limits.get(kind)) for kind in slow_ahead.KINDS)]
        cells += [str(number) for number in [found.reduced, found.extended, *(minutes for _, minutes in found.driven)]]
    return ",".join(cells) + "\n"


def month_before(month: Month) -> Month | None:
    """The month before a month, if it is one that can be asked for."""
    year, number = month
    before = (year - 1, 12) if number == 1 else (year, number - 1)
    return before if before >= (2000, 1) else None


def breach_count(stretches: Iterable[Stretch], month: Month | None) -> int:
    """How many breaches have their moment in a month."""
    return len(breaches_in(stretches, month_minutes(month))) if month else 0


def standing_row(driver: slow_archive.Driver, month: Month) -> str:
    """What is held of a driver, how far it is examined, what lacks in between, the breaches of two months, and the open debts."""
    held, base = driver.held(), 1440 * driver.base
    stretches = stretches_of(held, driver.base)
    last = stretches[-1]
    gaps = lacking_in(held, base)
    debts = [(amount, deadline) for _, amount, deadline, payer in last.debts if payer is None and deadline > last.horizon]
    cells = [
        driver.number,
        driver.name.decode(),
        len(driver.downloads),
        held_cell(held, base),
        slow_reader.minute_text(last.horizon),
        last.cause.lower(),
        len(gaps),
        sum(past - start for start, past in gaps),
        minute_cell(min((start for start, _ in gaps), default=None)),
        breach_count(stretches, month_before(month)),
        breach_count(stretches, month),
        len(debts),
        sum(amount for amount, _ in debts),
        minute_cell(min((deadline for _, deadline in debts), default=None)),
    ]
    return ",".join(map(str, cells)) + "\n"


def overview_row(driver: slow_archive.Driver, minutes: range) -> str:
    """What a driver holds of a month, what is examined of it, and how many breaches of each rule."""
    held = driver.held()
    stretches = stretches_of(held, driver.base)
    columns = [column_of(held.get(minute)) for minute in minutes]
    amounts = [columns.count(column) for column in [*slow_reader.ACTIVITIES, "crew", "none"]]
    examined = sum(any(stretch.monday <= minute < stretch.horizon for stretch in stretches) for minute in minutes)
    kinds = [breach[0] for breach in breaches_in(stretches, minutes)]
    numbers = [driver.number, driver.name.decode(), *amounts, examined, *(kinds.count(kind) for kind in ARTICLES)]
    return ",".join(map(str, numbers)) + "\n"


def incident_rows(driver: slow_archive.Driver, minutes: range) -> str:
    """The breaches of a driver in a month."""
    found = breaches_in(stretches_of(driver.held(), driver.base), minutes)
    return "".join(
        f"{driver.number},{driver.name.decode()},B{kind},{ARTICLES[kind]},"
        f"{slow_reader.minute_text(moment)},{slow_reader.minute_text(since)},{amount}\n"
        for kind, moment, since, amount in found
    )


# The chart of a month

CHART_STYLE = (
    "<style>text{fill:#1c2128}.right{text-anchor:end}.middle{text-anchor:middle}.back{fill:#f0f2f4;stroke:#767e87}.hour{stroke:#d7dbe0}"
    ".rest{fill:#5b8fc2}.available{fill:#9270c4}.work{fill:#b87100}.drive{fill:#1f4e79}"
    ".crew{fill-opacity:.4;stroke:#1c2128;stroke-dasharray:4 3}.unseen{fill:#55606b;fill-opacity:.2}"
    ".breach path,.mark{fill:#a8201a;stroke:#fff}.code{fill:#a8201a;font-weight:bold;font-size:15px}</style>\n"
    '<rect width="100%" height="100%" fill="#fff"/>\n'
)
BAR_HEIGHTS = {"rest": 6, "available": 12, "work": 20, "drive": 28}
LEGEND = [
    ('rect class="rest"', 0, 26, 6, "rest"),
    ('rect class="available"', 140, 20, 12, "available"),
    ('rect class="work"', 330, 12, 20, "other work"),
    ('rect class="drive"', 530, 4, 28, "driving"),
    ('rect class="drive crew"', 700, 4, 28, "second driver"),
    ('rect class="back"', 930, 4, 28, "not known"),
    ('rect class="unseen"', 1120, 0, 36, "not examined"),
]


def xml_text(text: str) -> str:
    """A text as XML."""
    entities = {"&": "&amp;", "<": "&lt;", ">": "&gt;", "\ufffe": "\ufffd", "\uffff": "\ufffd"}
    return "".join(entities.get(character, character) for character in text)


def bar_text(first: int, start: int, past: int, mark: slow_reader.Mark) -> str:
    """The bar of some minutes with one mark, on the day that begins with the minute `first`."""
    activity, manning = mark
    kind = f"{activity} crew" if manning == "crew" else activity
    height = BAR_HEIGHTS[activity]
    line = f"{slow_reader.minute_text(start)} {slow_reader.minute_text(past)} {activity} {manning}"
    return (
        f'<rect class="{kind}" x="{start - first}" y="{32 - height}" width="{past - start}" height="{height}">'
        f"<title>{line}</title></rect>\n"
    )


def flag_at(minute: int) -> str:
    """The flag of a mark at a minute of the day, and its pole: a path after the pole's top. It points to the left after 23:00."""
    if minute > 23 * 60:
        return " -9h-11l3 4-3 4h11v33h3v-41z"
    return " -9h11l-3 4 3 4h-8v33h-3z"


def chart_day(held: Marks, stretches: Sequence[Stretch], date: datetime.date, y: int) -> str:
    """The group of a day, `y` below the top."""
    minutes = minutes_of(date)
    first = minutes.start
    bars = [bar_text(first, *run) for run in slow_reader.runs((minute, held[minute]) for minute in minutes if minute in held)]
    unseen = [minute for minute in minutes if not any(stretch.monday <= minute < stretch.horizon for stretch in stretches)]
    shades = [
        f'<rect class="unseen" x="{start - first}" y="-5" width="{past - start}" height="42"/>\n'
        for start, past, _ in slow_reader.runs((minute, "") for minute in unseen)
    ]
    found = breaches_in(stretches, minutes)
    marks = [
        f'<g class="breach"><title>B{kind} {ARTICLES[kind]} at {slow_reader.minute_text(moment)} since {slow_reader.minute_text(since)} '
        f'amount {amount}</title><path d="M{moment - first}{flag_at(moment - first)}"/></g>\n'
        for kind, moment, since, amount in found
    ]
    drive = sum(held.get(minute) == ("drive", "single") for minute in minutes)
    grid = "".join(f"M{hour * 60} 4v28" for hour in range(0, 25, 2))
    return (
        f'<g class="day" id="{date.isoformat()}" transform="translate(200 {y})">\n'
        '<rect class="back" x="0" y="4" width="1440" height="28"/>\n'
        f'<path class="hour" d="{grid}"/>\n'
        f'<text class="right" x="-12" y="26">{date.isoformat()} {WEEKDAYS[date.weekday()]}</text>\n'
        f'{"".join(bars)}{"".join(shades)}{"".join(marks)}'
        f'<text class="right" x="1530" y="26">{drive // 60}:{drive % 60:02}</text>\n'
        f'<text class="code" x="1545" y="26">{"".join(f" B{breach[0]}" for breach in found)}</text>\n</g>\n'
    )


def chart_text(driver: slow_archive.Driver, month: Month) -> str:
    """The chart of a driver's month, as SVG."""
    held = driver.held()
    stretches = stretches_of(held, driver.base)
    days = days_of(month)
    title = f"{driver.number} {xml_text(driver.name.decode())}, {month[0]:04}-{month[1]:02}"
    hours = "".join(f'<text x="{200 + 60 * hour}" y="88">{hour}</text>' for hour in range(0, 25, 2))
    groups = "".join(chart_day(held, stretches, date, 100 + 42 * place) for place, date in enumerate(days))
    legend = "".join(
        f'<{shape} x="{x}" y="{y}" width="40" height="{height}"/><text x="{x + 50}" y="32">{text}</text>\n'
        for shape, x, y, height, text in LEGEND
    )
    return (
        f'<svg xmlns="http://www.w3.org/2000/svg" viewBox="0 0 1920 {160 + 42 * len(days)}" font-family="sans-serif" font-size="20" role="img">\n'
        f'<title>{title}</title>\n{CHART_STYLE}<text x="20" y="40" font-size="28">{title}</text>\n'
        '<g class="right"><text x="176" y="88">UTC</text><text x="1730" y="88">driven</text></g>\n'
        f'<g class="middle">{hours}</g>\n{groups}'
        f'<g transform="translate(200 {112 + 42 * len(days)})">\n{legend}'
        '<path class="mark" d="M1340 -9h11l-3 4 3 4h-8v33h-3z"/><text x="1360" y="32">breach</text>\n</g>\n</svg>\n'
    )


def form_text(held: Marks, base: int, limit: int | None) -> str:
    """What isn't held from a minute to the end of what is held, or to a limit if that is earlier, in rows of 366 days at the most."""
    gaps = [(first, past if limit is None else min(past, limit)) for first, past in lacking_in(held, base)]
    rows = [(start, min(start + LONGEST, past)) for first, past in gaps for start in range(first, past, LONGEST)]
    lines = [f"{slow_reader.minute_text(start)},{slow_reader.minute_text(past)},,,\n" for start, past in rows]
    return "".join(["start,past,activity,author,note\n", *lines])


# The card files of a driver


def file_line(number: int, download: slow_archive.Download) -> str:
    """What is listed of a card file: its number, part and length, the first minute of its spans and the one after their last, and its
    digest."""
    first, past = min(download.marks), max(download.marks) + 1
    return (
        f"{number} {download.part} {len(download.file)} {slow_reader.minute_text(first)} {slow_reader.minute_text(past)} "
        f"{hashlib.sha256(download.file).hexdigest()}\n"
    )


# Handovers


def driver_line(driver: slow_archive.Driver) -> str:
    """What is listed of a driver."""
    return (
        f"{driver.number} {driver.holder.hex()} {slow_reader.minute_text(1440 * driver.base)[:10]} {len(driver.downloads)} "
        f"{len(driver.entries)} {driver.name.decode()}\n"
    )


def entry_line(number: int, entry: slow_archive.Entry) -> str:
    """What is listed of an entry."""
    return (
        f"{number} {slow_reader.minute_text(entry.start)} {slow_reader.minute_text(entry.past)} {entry.mark[0]} "
        f"{'withdrawn' if entry.is_withdrawn else 'kept'} \"{entry.author}\" \"{entry.note}\"\n"
    )


def covering_files(driver: slow_archive.Driver, period: range) -> list[int]:
    """The numbers of the card files that cover a period, the newest first: each gives a minute and its mark of the period that no newer
    one that is taken gives."""
    taken: list[int] = []
    given: set[slow_reader.Pair] = set()
    for number in range(len(driver.downloads), 0, -1):
        pairs = {(minute, mark) for minute, mark in driver.downloads[number - 1].marks.items() if minute in period}
        if pairs - given:
            taken.append(number)
            given |= pairs
    return taken


def file_name(holder: bytes, number: int, marks: Marks) -> str:
    """The name of a card file in a handover: its number, the card, and the days of the first and the last minute that it gives."""
    card = "".join(chr(byte) if chr(byte) in string.ascii_letters + string.digits else "_" for byte in holder[1:])
    first, last = [slow_reader.minute_text(minute)[:10].replace("-", "") for minute in (min(marks), max(marks))]
    return f"{number}-{card}-{first}-{last}.ddd"


def entries_within(driver: slow_archive.Driver, period: range) -> str:
    """The lines of the entries, kept or withdrawn, that have a minute of a period."""
    numbered = enumerate(driver.entries, 1)
    return "".join(entry_line(number, entry) for number, entry in numbered if entry.past > period.start and entry.start < period.stop)


def contents_text(driver: slow_archive.Driver, period: range, members: Iterable[slow_tar.Member]) -> str:
    """What a handover has: whose it is, of which period, by which program, its members, and what of the period isn't held."""
    first, past = [slow_reader.minute_text(minute)[:10] for minute in (period.start, period.stop)]
    held = driver.held()
    gaps = slow_reader.runs((minute, "") for minute in period if minute not in held)
    return "".join([
        f"DRIVER {driver_line(driver)}FROM {first} PAST {past}\nPROGRAM {name_and_version()}\n",
        *(f"FILE {name} {len(content)} {hashlib.sha256(content).hexdigest()}\n" for name, content in members),
        *(f"NOT HELD {slow_reader.minute_text(start)} {slow_reader.minute_text(end)}\n" for start, end, _ in gaps),
    ])


def handover_tar(driver: slow_archive.Driver, period: range) -> bytes:
    """The tar file that is handed over of a driver and a period."""
    taken = [(number, driver.downloads[number - 1]) for number in covering_files(driver, period)]
    members = [(file_name(driver.holder, number, download.marks), download.file) for number, download in taken]
    members.append(("entries.txt", entries_within(driver, period).encode()))
    return slow_tar.tar([*members, ("contents.txt", contents_text(driver, period, members).encode())])


# A new archive of what is needed from a day on


def monday_of(day: int) -> int:
    """The Monday of a day's week. Day 4 was one."""
    return day - (day - 4) % 7


def carried_driver(driver: slow_archive.Driver, day: int) -> slow_archive.Driver | None:
    """A driver as they are carried from a day on, or nothing if they are left out: they have had card files or entries, and none of these
    is carried."""
    start = 1440 * day
    made = slow_archive.Driver(driver.number, driver.holder, driver.key, max(driver.base, monday_of(day)), driver.name)
    made.downloads = [download for download in driver.downloads if any(minute >= start for minute in download.marks)]
    made.entries = [copy.copy(entry) for entry in driver.entries if not entry.is_withdrawn and entry.past > start]
    has_had = driver.downloads or driver.entries
    return None if has_had and not made.downloads and not made.entries else made


def carried(archive: slow_archive.Archive, day: int) -> slow_archive.Archive:
    """The new archive of what is needed of an archive from a day on."""
    made = slow_archive.Archive()
    for number, driver in archive.drivers.items():
        if kept := carried_driver(driver, day):
            made.drivers[number] = kept
    return made


# The office


class StoreFailed(Exception):
    """The store can't do what it should: S12."""


def line_of(refusal: Refusal) -> str:
    """The line of a refusal of the archive."""
    code, _, rest = str(refusal).partition(" ")
    if code == "S11":
        return rest
    return f"S6 contradiction at {slow_reader.minute_text(int(rest))}" if code == "S6" else f"{code} {FAULTS[code]}"


def line_in(given: bytes) -> bytes:
    """An input without the LF or CR LF at its end."""
    return re.sub(rb"\r?\n\Z", b"", given)


def column_in(given: bytes, column: str) -> bytes:
    """The value of a driver's column that is the only line of an input: E9."""
    if not slow_csv.COLUMNS[column](line_in(given)):
        raise slow_reader.Fault(f"E9 bad value for {column}")
    return line_in(given)


def within(given: bytes) -> bytes:
    """An input, if it isn't too large: X1."""
    return slow_reader.within(given, INPUT_LIMIT)


class Office:
    """The commands on an archive that is there, and the offices of those that `carry` has made of it, by their paths."""

    def __init__(self, archive: slow_archive.Archive | None = None) -> None:
        self.archive = archive or slow_archive.Archive()
        self.made: dict[str, Office] = {}

    def answer(self, words: Sequence[str], given: bytes = b"", reserved: str | None = None) -> tuple[bytes, int]:
        """What a command line prints for an input, as bytes, and its status. After a refusal nothing has changed. A reserved key can't be
        set."""
        command, *others = words
        commands: dict[str, Callable[[], str | bytes]] = {
            "register": lambda: self.register(given),
            "import": lambda: self.import_file(given, None, *others),
            "own": lambda: self.import_file(given, *others),
            "enter": lambda: self.enter(given, *others),
            "withdraw": lambda: self.withdraw(*others),
            "base": lambda: self.rebase(*others),
            "key": lambda: self.rekey(given, reserved, *others),
            "name": lambda: self.rename(given, *others),
            "spans": lambda: self.spans(*others),
            "gaps": lambda: self.gaps(*others),
            "sheet": lambda: self.sheet(*others),
            "chart": lambda: self.chart(*others),
            "breaches": lambda: self.breaches(*others),
            "why": lambda: self.why(*others),
            "owed": lambda: self.owed(*others),
            "ahead": lambda: self.ahead(*others),
            "entries": lambda: self.entries(*others),
            "file": lambda: self.file(*others),
            "files": lambda: self.files(*others),
            "handover": lambda: self.handover(*others),
            "drivers": lambda: self.drivers(*others),
            "stretches": lambda: self.stretches(*others),
            "debts": lambda: self.debts(*others),
            "forecast": lambda: self.forecast(*others),
            "standing": lambda: self.standing(*others),
            "overview": lambda: self.overview(*others),
            "incidents": lambda: self.incidents(*others),
            "form": lambda: self.form(*others),
            "carry": lambda: self.carry(*others),
            "migrate": lambda: "migrated\n",
            "check": lambda: "sound\n",
            "version": version_lines,
        }
        try:
            told = commands[command]()
        except Refusal as refusal:
            return f"{line_of(refusal)}\n".encode(), 1
        except slow_reader.Fault as fault:
            return f"{fault}\n".encode(), 1
        except StoreFailed:
            return b"S12 store failed\n", 3
        return told if isinstance(told, bytes) else told.encode(), 0

    def import_files(self, part: str, files: Sequence[tuple[str, bytes | None]]) -> tuple[bytes, int]:
        """What `import` prints with files, by their names and what was read of them (nothing where they can't be read), and its status."""
        if part not in slow_archive.PARTS:
            return b"P1 bad part\n", 1
        text, answers = b"", []
        for name, given in files:
            told, status = (b"X2 device failed\n", 1) if given is None else self.answer(["import", part], given)
            answers.append("refused" if status else told.split(b" ")[0].decode())
            text += re.sub(rb"[\0-\x1f\x7f]", b"?", name.encode()) + b": " + told
        counts = ", ".join(f"{answers.count(kind)} {kind}" for kind in ("added", "repeated", "refused"))
        return text + f"{counts}\n".encode(), int("refused" in answers)

    def driver(self, number: str) -> slow_archive.Driver:
        """The driver whose number an argument is: N1, S4."""
        return self.archive.driver(number_of(number, LAST_DRIVER))

    def register(self, given: bytes) -> str:
        """Registers a driver: X1, E1, E2, E9, S1, S2, S3, S9."""
        number, holder, key, base, name = slow_csv.driver_of(within(given))
        day = slow_csv.day_of(base)
        assert day is not None  # the reader has refused others
        self.archive.register(slow_archive.Driver(int(number), bytes.fromhex(holder.decode()), key.decode(), day, name))
        return f"registered {number.decode()}\n"

    def import_file(self, given: bytes, caller: str | None, part: str) -> str:
        """Imports a card file: P1, X1, C1 to C14, S4, S5, S6, S14."""
        part = part_of(part)
        number = None if caller is None else number_of(caller, LAST_DRIVER)
        return self.archive.import_file(number, part, within(given)) + "\n"

    def enter(self, given: bytes, number: str) -> str:
        """Enters hours: N1, X1, E1 to E7, E10, S4, S6, S14."""
        driver = number_of(number, LAST_DRIVER)
        lines = slow_csv.entries_of(within(given))
        hours = [(start, past, slow_reader.ACTIVITIES.index(activity), author, note) for start, past, activity, author, note in lines]
        first = self.archive.enter(driver, hours)
        return f"entered {first} to {first + len(lines) - 1}\n" if lines else "entered none\n"

    def withdraw(self, number: str, entry: str, last: str = "") -> str:
        """Withdraws an entry, or all to the last of a range: N1, N2, S4, S7, S8."""
        driver, place = number_of(number, LAST_DRIVER), number_of(entry, LAST_NUMBER)
        if not last:
            self.archive.withdraw(driver, place, place)
            return f"withdrawn {place}\n"
        end = number_of(last, LAST_NUMBER)
        if end < place:
            raise slow_reader.Fault("N2 wrong order")
        self.archive.withdraw(driver, place, end)
        return f"withdrawn {place} to {end}\n"

    def rebase(self, number: str, date: str) -> str:
        """Sets another base: N1, Z1, Z2, Z3, S4, S9."""
        driver, day = number_of(number, LAST_DRIVER), day_of(date)
        self.archive.rebase(driver, day)
        return f"base {date}\n"

    def rekey(self, given: bytes, reserved: str | None, number: str) -> str:
        """Sets another key: N1, X1, E9, S2, S4."""
        driver = number_of(number, LAST_DRIVER)
        key = column_in(within(given), "key").decode()
        if key == reserved:
            raise Refusal("S2")
        self.archive.rekey(driver, key)
        return f"key {driver}\n"

    def rename(self, given: bytes, number: str) -> str:
        """Sets another name: N1, X1, E9, S4."""
        driver = number_of(number, LAST_DRIVER)
        name = column_in(within(given), "name")
        self.archive.rename(driver, name)
        return f"name {driver}\n"

    def carry(self, new: str, date: str) -> str:
        """Makes a new archive of what is needed from a day on, where none was made before: Z1, Z2, Z3, S12."""
        day = day_of(date)
        if new in self.made:
            raise StoreFailed
        self.made[new] = Office(carried(self.archive, day))
        return f"carried {len(self.made[new].archive.drivers)} of {len(self.archive.drivers)} drivers\n"

    def month(self, number: str, month: str) -> tuple[slow_archive.Driver, Month]:
        """A driver and a month: N1, Z1, Z2, Z3, S4."""
        driver, when = number_of(number, LAST_DRIVER), month_of(month)
        return self.archive.driver(driver), when

    def spans(self, number: str, month: str) -> str:
        """What is held in a month."""
        driver, when = self.month(number, month)
        return spans_text(driver.held(), when)

    def gaps(self, number: str, month: str) -> str:
        """What isn't held in a month."""
        driver, when = self.month(number, month)
        return gaps_text(driver.held(), when)

    def sheet(self, number: str, month: str) -> str:
        """The sheet of a month."""
        driver, when = self.month(number, month)
        held = driver.held()
        return sheet_text(driver.number, driver.name.decode(), held, report_of(held, driver.base), when)

    def chart(self, number: str, month: str) -> str:
        """The chart of a month, as SVG."""
        driver, when = self.month(number, month)
        return chart_text(driver, when)

    def breaches(self, number: str) -> str:
        """The breaches of a driver."""
        driver = self.driver(number)
        horizon, cause, breaches, _ = report_of(driver.held(), driver.base)
        return breaches_text(horizon, cause, breaches)

    def why(self, number: str, month: str) -> str:
        """The breaches of a month, each with its evidence."""
        driver, when = self.month(number, month)
        return why_text(driver, when)

    def owed(self, number: str) -> str:
        """What a driver is owed."""
        driver = self.driver(number)
        horizon, cause, _, debts = report_of(driver.held(), driver.base)
        return owed_text(horizon, cause, debts)

    def ahead(self, number: str, date: str, time: str) -> str:
        """Until when a driver can drive on from a minute: N1, Z1, Z2, Z3, S4, Z3."""
        driver, minute = number_of(number, LAST_DRIVER), minute_of(f"{date} {time}")
        return ahead_text(self.archive.driver(driver), minute)

    def entries(self, number: str) -> str:
        """The entries of a driver."""
        return "".join(entry_line(place, entry) for place, entry in enumerate(self.driver(number).entries, 1))

    def file(self, number: str, download: str) -> bytes:
        """A card file of a driver: N1, S4, S10."""
        driver, place = number_of(number, LAST_DRIVER), number_of(download, LAST_NUMBER)
        return self.archive.download(driver, place)

    def files(self, number: str) -> str:
        """A line for each card file of a driver: N1, S4."""
        return "".join(file_line(place, download) for place, download in enumerate(self.driver(number).downloads, 1))

    def handover(self, number: str, start: str, past: str) -> bytes:
        """A driver's card files and entries of a period, and what is in it, as a tar file: N1, Z1, Z2, Z3, Z4, S4."""
        driver, period = number_of(number, LAST_DRIVER), period_of(start, past)
        return handover_tar(self.archive.driver(driver), period)

    def drivers(self, number: str = "") -> str:
        """A line for each driver, or for the one with a number: N1, S4."""
        listed = [self.driver(number)] if number else [driver for _, driver in sorted(self.archive.drivers.items())]
        return "".join(map(driver_line, listed))

    def stretches(self, number: str) -> str:
        """The breaches of a driver by stretches."""
        driver = self.driver(number)
        return stretches_text(stretches_of(driver.held(), driver.base))

    def debts(self, number: str) -> str:
        """What a driver is owed, by stretches."""
        driver = self.driver(number)
        return debts_text(stretches_of(driver.held(), driver.base))

    def forecast(self, date: str, time: str) -> str:
        """A row of forecasts for each driver: Z1, Z2, Z3."""
        minute = minute_of(f"{date} {time}")
        return FORECAST_HEAD + "".join(forecast_row(driver, minute) for _, driver in sorted(self.archive.drivers.items()))

    def standing(self, month: str) -> str:
        """A row for each driver: Z1, Z2, Z3."""
        when = month_of(month)
        return STANDING_HEAD + "".join(standing_row(driver, when) for _, driver in sorted(self.archive.drivers.items()))

    def overview(self, month: str) -> str:
        """A row of a month for each driver: Z1, Z2, Z3."""
        minutes = month_minutes(month_of(month))
        return OVERVIEW_HEAD + "".join(overview_row(driver, minutes) for _, driver in sorted(self.archive.drivers.items()))

    def incidents(self, month: str) -> str:
        """A row for each breach of a month: Z1, Z2, Z3."""
        minutes = month_minutes(month_of(month))
        return INCIDENT_HEAD + "".join(incident_rows(driver, minutes) for _, driver in sorted(self.archive.drivers.items()))

    def form(self, number: str, date: str = "") -> str:
        """The form for what a driver doesn't hold, or doesn't hold before a day: N1, Z1, Z2, Z3, S4."""
        driver, limit = number_of(number, LAST_DRIVER), 1440 * day_of(date) if date else None
        found = self.archive.driver(driver)
        return form_text(found.held(), 1440 * found.base, limit)
