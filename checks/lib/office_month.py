"""What the office's pages have to show of drivers and of a month, by the replies of the program: rows and sentences in English. They are
written here a second time, and are no part of the page's scripts."""
import contextlib
import datetime
import re
import zoneinfo
from collections.abc import Callable, Iterator, Sequence

from lib.driver_month import DAY, instant
from lib.driver_month import minutes_of as minute_of

WEEK = 10_080
NOW = "2024-11-04 09:00"  # the moment of the pages' clock
MONTH, MONTH_BEFORE = "2024-11", "2024-10"

MONTHS = "Jan Feb Mar Apr May Jun Jul Aug Sep Oct Nov Dec".split()
WEEKDAYS = ["Mon", "Tue", "Wed", "Thu", "Fri", "Sat", "Sun"]
ZONES = [zoneinfo.ZoneInfo("Europe/Berlin")]  # the last one is that of the browser


@contextlib.contextmanager
def in_zone(name: str) -> Iterator[None]:
    """Expects local times of another zone for a while."""
    ZONES.append(zoneinfo.ZoneInfo(name))
    try:
        yield
    finally:
        ZONES.pop()


def day_text(when: datetime.date, with_year: bool = False) -> str:
    """A day as it is said."""
    return f"{WEEKDAYS[when.weekday()]} {when.day} {MONTHS[when.month - 1]}{f' {when.year}' if with_year else ''}"


def local(text: str, with_year: bool = False) -> str:
    """A moment in local time."""
    when = instant(text).astimezone(ZONES[-1])
    return f"{day_text(when, with_year)} {when:%H:%M}"


def both(text: str) -> str:
    """A moment in local time, with UTC in brackets."""
    utc = instant(text)
    day = "" if utc.astimezone(ZONES[-1]).date() == utc.date() else f"{day_text(utc)} "
    return f"{local(text)} ({day}{utc:%H:%M} UTC)"


def long(minutes: int) -> str:
    """A length in words."""
    hours, rest = divmod(minutes, 60)
    return f"{rest} min" if hours == 0 else f"{hours} h {rest:02}" if rest else f"{hours} h"


def hours(minutes: int) -> str:
    """A length as hours and minutes."""
    return f"{minutes // 60}:{minutes % 60:02}"


def counted(number: int, one: str, more: str) -> str:
    """A number of things."""
    return f"{number} {one if number == 1 else more}"


def ago(text: str) -> int:
    """How many local days ago the last known minute was."""
    last = datetime.datetime.fromtimestamp(minute_of(text) * 60 - 60, ZONES[-1]).date()
    return (instant(NOW).astimezone(ZONES[-1]).date() - last).days


def task_of(row: dict[str, str]) -> tuple[int, float, str]:
    """The rank of a driver's first task, its place within the rank, and its text."""
    held, by = row["held"], row["by"]
    age = ago(held) if held else None
    if not held:
        return 0, 0, "Import the first card file" if row["files"] == "0" else "Import a newer card file"
    assert age is not None
    if age > 28:
        return 1, -age, f"Card file {counted(age - 28, 'day', 'days')} overdue"
    if age > 21:
        return 2, -age, f"Card file due in {counted(28 - age, 'day', 'days')}"
    if by and minute_of(by) - minute_of(NOW) < 10 * DAY:
        return 3, minute_of(by), f"Rest to be made up before {local(by)}"
    if row["unknown"] != "0":
        return 4, -int(row["unknown"]), f"Fill in {long(int(row['unknown']))} unknown"
    if row["breaches"] != "0":
        return 5, -int(row["breaches"]), f"Look at {counted(int(row['breaches']), 'breach', 'breaches')}"
    if row["last_month"] != "0":
        return 6, -int(row["last_month"]), f"Look at {counted(int(row['last_month']), 'breach', 'breaches')} in October 2024"
    return 7, 0, "Nothing to do"


def start_row(row: dict[str, str], left: dict[str, str]) -> list[str]:
    """What the start page shows of a driver."""
    days = ago(row["held"]) if row["held"] else 0
    held = f"{local(row['held'])} {['today', 'yesterday'][days] if days < 2 else f'{days} days ago'}" if row["held"] else "–"
    gaps = f"{long(int(row['unknown']))} {counted(int(row['gaps']), 'gap', 'gaps')}" if row["unknown"] != "0" else "–"
    debts = f"{long(int(row['owes']))} before {local(row['by'])}" if row["debts"] != "0" else "–"
    return [f"{row['name']} {row['driver']}", task_of(row)[2], held, gaps,
        *(row[name] if row[name] != "0" else "–" for name in ("last_month", "breaches")),
            debts, driving_left(left)]


def monday(text: str) -> int:
    """The first minute of a week."""
    return minute_of(text) - (minute_of(text) - minute_of("2024-01-01 00:00")) % WEEK


def is_young(row: dict[str, str]) -> bool:
    """Whether the week before isn't known."""
    return minute_of(f"{row['from']} 00:00") > monday(row["start"]) - WEEK


def is_told(row: dict[str, str]) -> bool:
    """Whether a forecast says anything."""
    return bool(row["held"] and row["start"]) and (minute_of(row["start"]) - minute_of(row["held"])) // DAY <= 4


def left_by(row: dict[str, str], *names: str) -> int | None:
    """The least that is left until some limits."""
    found = [minute_of(row[name]) - minute_of(row["start"]) for name in names if row[name]]
    return min(found, default=None)


def driving_left(row: dict[str, str]) -> str:
    """The driving that is left on the start page."""
    if not (row["held"] and row["start"]) or minute_of(row["start"]) - minute_of(row["held"]) > 4 * DAY:
        return "–"
    least = left_by(row, "B4", "B5", "B6", *([] if is_young(row) else ["B7"]))
    return f"{long(least or 0)}{' two weeks: ?' if is_young(row) else ''}"


def left_row(row: dict[str, str]) -> list[str]:
    """What the page of what is left shows of a driver."""
    def shown(minutes: int | None) -> str:
        return "–" if minutes is None else long(minutes)
    bounds = [("", left_by(row, "B4", "B5")), ("week", left_by(row, "B6")), ("two weeks", None if is_young(row) else left_by(row, "B7"))]
    name, least = min(((name, value) for name, value in bounds if value is not None), key=lambda one: one[1])
    remark = ", ".join(one for one in (name, "two weeks: ?" if is_young(row) else "") if one)
    days = (minute_of(row["start"]) - minute_of(row["held"])) // DAY
    needs_long = row["B3"] and (not row["B2"] or row["B3"] <= row["B2"])
    rest = f"{local(row['B3'])} 11 h" if needs_long else local(row["B2"]) if row["B2"] else "–"
    weekly = min((row[name] for name in ("B8", "B9") if row[name]), default="")
    return [f"{row['name']} {row['driver']}", local(row["held"]) + (f" Known only to {days} days before the start: don't rely on it"
        if days > 2 else ""),
            f"{long(least)}{f' {remark}' if remark else ''}", shown(left_by(row, "B1")), rest, shown(left_by(row, "B6")),
            f"? known from {day_text(instant(row['from']))}" if is_young(row) else shown(left_by(row,
                "B7")), local(weekly) if weekly else "–",
            f"{row['reduced']}/3 · {row['extended']}/2"]


AMOUNTS = {"B2": "{} late", "B8": "{} late", "B10": "{} lacking"}


def amount_of(kind: str, amount: int) -> str:
    """The amount of a breach in a few words."""
    return "" if kind == "B9" else f"+{amount}" if kind == "B3" else AMOUNTS.get(kind, "{} over").format(long(amount))


SHORT = {"B1": "Break", "B2": "Daily rest", "B3": "Reduced daily rests", "B4": "Daily driving", "B5": "Extended days",
    "B6": "Weekly driving",
         "B7": "Driving in two weeks", "B8": "Weekly rest", "B9": "Weekly rests of two weeks", "B10": "Rest not made up"}
BREACH = re.compile(r"(B\d+) Art (\S+) at (.{16}) since (.{16}) amount (\d+)")


def is_open(kind: str, evidence: Sequence[str]) -> bool:
    """Whether what shows a breach ends in time that isn't known."""
    ends = [line for line in evidence if line.split(" ")[2] in ("break", "rest", "weekly")]
    return kind in ("B1", "B2", "B8") and re.match(r"  \w+ (?:-|.{16}) -", ends[-1]) is not None


class Month:
    """A driver's month by the program's texts."""

    def __init__(self, text: Callable[[str], str], driver: int, month: str) -> None:
        at = f"/drivers/{driver}"
        self.driver, self.month = driver, month
        self.sheet = text(f"{at}/sheet/{month}").split("\n")
        self.why: list[tuple[re.Match[str], list[str]]] = []
        for line in text(f"{at}/why/{month}").split("\n")[:-1]:
            if line.startswith("  "):
                self.why[-1][1].append(line)
            else:
                self.why.append((BREACH.fullmatch(line), []))
        self.stretches = text(f"{at}/stretches").split("\n")[:-1]
        self.gaps = [(line[:16], line[17:]) for line in text(f"{at}/gaps/{month}").split("\n")[:-1]]
        self.debts = text(f"{at}/debts").split("\n")[:-1]
        self.files = text(f"{at}/files").count("\n")

    def end(self) -> str:
        """The end of what is held, or an empty text."""
        last = self.stretches[-1]
        if last.startswith("NOT EXAMINED"):
            return last[-16:]
        start = next(line for line in reversed(self.stretches) if line.startswith("FROM "))
        return "" if last[12:28] == f"{start[5:]} 00:00" else last[12:28]

    def breaches(self) -> list[list[str]]:
        """The head and the limit of each breach."""
        return [[f"{SHORT[found[1]]}{amount_of(found[1], int(found[5]))}", both(found[3])] for found, _ in self.why]

    def days(self) -> list[list[str]]:
        """The table of days."""
        last = max(instant(NOW).replace(tzinfo=None).isoformat(" ")[:16], self.end())
        rows = [line for line in self.sheet if re.match(r"\d{4}-", line)]
        shown = [[day_text(instant(line[:10]), True), *(part.replace("–", "") for part in line[14:].split())] for line in rows
            if f"{line[:10]} 00:00" < last]
        return [[one if one != "0:00" else "–" for one in row] for row in shown]

    def later(self) -> list[list[str]]:
        """The row of the days that haven't come."""
        days = [line[:10] for line in self.sheet if re.match(r"\d{4}-", line)][len(self.days()):]
        if not days:
            return []
        first, last = day_text(instant(days[0])), day_text(instant(days[-1]), True)
        return [[f"{first} to {last}: not yet", *["–"] * 5, f"{24 * len(days)}:00"]]

    def total(self) -> list[str]:
        """The sums of the month."""
        return next(line for line in self.sheet if line.startswith("TOTAL")).split()[1:]

    def open_gaps(self) -> list[str]:
        """The gaps up to the end of what is held."""
        cut = [(start, min(past, self.end())) for start, past in self.gaps if start < self.end()]
        return [f"{both(start)} to {both(past)} · {long(minute_of(past) - minute_of(start))}" for start, past in cut]
