#!/usr/bin/env python3
"""Compares the forecasts of the slow program (slow/slow_ahead.py) with outputs of another program, which shares no code with this
repository: the files `ahead-DRIVER-DATE-TIME` of checks/readings.

Then come timelines near the limits of the rules, which are entered: what `ahead` answers is compared with the slow office. After some of
the forecasts the driver does what they speak of, by entries: whoever drives up to a rule's limit and then rests has no breach of it that
they wouldn't have without driving, and with a minute more they have one. Of some timelines the slow program's limits are compared with the
reports of plans for single minutes near them and far from them, since it finds most limits by halves.

Argument: `tool_script`. The last line is 'N passed, M failed'."""
import os
import random
import sys
import tempfile
from collections.abc import Iterable, Iterator

from inputs import hard_timelines, random_cards
from inputs.random_commands import driver_csv, rows_csv, rows_of
from lib import counting, pools, seeds
from lib.files import read
from lib.readings import FOLDER, steps_of, words_of
from lib.script import answers
from slow import slow_ahead, slow_office, slow_reader, slow_rules
from slow.slow_ahead import DAILY_REST, FIVE_WEEKS, KINDS, REDUCED, Outlook
from slow.slow_office import Command
from slow.slow_rules import Span

SEEDS = seeds.tried(48)
PLANNED = seeds.tried(12)  # seeds of which single minutes are tried
PROCESSES = 2
ROWS = 2_000  # the most rows of an input
LAST = hard_timelines.LAST_PAST - 1  # the last minute that can be entered is one before it
KEY = "anna-key-1"

# How long a driver may have rested when the forecast begins, and how long a drive before it was.
RESTS = [0, 0, 0, 1, 14, 15, 29, 30, 44, 45, 179, 180, 539, 540, 659, 660, 1439, 1440, 2699, 2700, 8640, 10_080]


# Expected outputs


def of_case(case: str) -> counting.Comparisons:
    """The comparisons of a folder."""
    expected = os.path.join(FOLDER, case, "expected")
    names = [name for name in sorted(os.listdir(expected)) if name.startswith("ahead-")]
    office = slow_office.Office()
    for words, given, _ in steps_of(case) if names else []:
        office.answer(words, given)
    for name in names:
        told, _ = office.answer(words_of(name))
        yield f"{case}: {name}", told.decode().splitlines(), read(os.path.join(expected, name)).decode().splitlines()


def of_kinds() -> counting.Comparisons:
    """The comparison of the kinds that have a limit in the expected outputs with all."""
    found = set()
    for case in os.listdir(FOLDER):
        expected = os.path.join(FOLDER, case, "expected")
        for name in os.listdir(expected):
            if name.startswith("ahead-"):
                lines = read(os.path.join(expected, name)).decode().splitlines()
                found.update(line.split(" ")[0] for line in lines if " until " in line)
    yield "the kinds that have a limit", sorted(found), [f"B{kind}" for kind in KINDS]


# Timelines near the limits


def spans_of(seed: int, chance: random.Random) -> tuple[list[Span], int, int]:
    """A timeline near the limits, its Monday and its horizon. It ends anywhere, often within driving."""
    spans, base, _ = [
        lambda: hard_timelines.timeline(seed, 1 + seed % 3),
        lambda: hard_timelines.weekly_timeline(seed),
        lambda: hard_timelines.timeline(seed, 2),
    ][seed % 3]()
    if chance.random() < 0.8 and spans:
        start, past, _ = chance.choice(spans[len(spans) // 2 :])
        end = chance.choice([start, past, past, chance.randint(start, past), start + 1, past - 1])
    else:
        end = spans[-1][1] if spans else base
    spans = [(start, min(past, end, LAST), activity) for start, past, activity in spans if start < min(end, LAST)]
    return spans, base, spans[-1][1] if spans else base


def minutes_of(chance: random.Random, horizon: int) -> list[int]:
    """Minutes at which forecasts begin: after rests of all limits, before the horizon, and at a week's end."""
    monday = slow_rules.week_start(slow_rules.week_of(horizon) + 1)
    rested = horizon + chance.choice(RESTS) + chance.choice([0, 0, -1])
    near = [rested, chance.choice([horizon - 1, horizon - 5000, monday - 1, monday, monday - chance.randint(1, 3000)])]
    return [min(minute, LAST - 1) for minute in near]


def ahead(minute: int) -> list[str]:
    """The command of a forecast."""
    return ["ahead", "17", *slow_reader.minute_text(minute).split(" ")]


class Driver:
    """A driver of an archive: the commands so far, and what the slow office answers to each."""

    def __init__(self, base: int) -> None:
        self.office = slow_office.Office()
        self.commands: list[Command] = []
        self.told: list[tuple[bytes, int]] = []
        self.entered = 0
        self.do(["register"], driver_csv(17, random_cards.HOLDERS[0], KEY, base // 1440, b"Anna"))

    def do(self, words: list[str], given: bytes = b"") -> int:
        """Gives a command, and returns its place."""
        self.commands.append((words, given))
        self.told.append(self.office.answer(words, given))
        return len(self.told) - 1

    def enter(self, chance: random.Random, spans: list[Span]) -> range:
        """Enters spans, and returns the entries' numbers."""
        first = self.entered + 1
        for place in range(0, len(spans), ROWS):
            head, *rows = rows_of(chance, spans[place : place + ROWS])
            self.do(["enter", "17"], rows_csv(head, *rows))
            self.entered += len(rows)
        return range(first, self.entered + 1)

    def after(self, chance: random.Random, spans: list[Span]) -> int:
        """Enters spans, asks for the stretches, withdraws the spans, and returns the place of the answer."""
        entries = self.enter(chance, spans)
        place = self.do(["stretches", "17"])
        for entry in entries:
            self.do(["withdraw", "17", str(entry)])
        return place


def done(kind: int, horizon: int, start: int, x: int) -> list[Span]:
    """What a driver does after the horizon who drives from a minute to before another, and then rests for five weeks; or who rests for a
    day, works for a minute and then rests, where that rest may be a reduced one too many."""
    spans = [(horizon, start, "rest"), (start, x, "drive")]
    if kind == REDUCED:
        worked = x + DAILY_REST
        spans += [(x, worked, "rest"), (worked, worked + 1, "work"), (worked + 1, worked + 1 + FIVE_WEEKS, "rest")]
    else:
        spans.append((x, x + FIVE_WEEKS, "rest"))
    return slow_ahead.joined(spans)


def breaches_in(told: bytes, kind: int) -> set[str]:
    """The lines of a kind's breaches in an answer."""
    return {line for line in told.decode().splitlines() if line.startswith(f"B{kind} ")}


class Done:
    """What a driver has done whose forecast was asked for, and where the answers about it lie."""

    def __init__(self, kind: int, name: str, is_broken: bool, place: int, before: int) -> None:
        self.kind = kind
        self.name = name
        self.is_broken = is_broken
        self.place = place
        self.before = before

    def comparison(self, told: list[tuple[bytes, int]]) -> counting.Comparison:
        """The comparison of what is new with what was forecast."""
        new = breaches_in(told[self.place][0], self.kind) - breaches_in(told[self.before][0], self.kind)
        return self.name, bool(new), self.is_broken


def acted(driver: Driver, chance: random.Random, horizon: int, found: Outlook) -> Iterator[Done]:
    """The driver does what a forecast speaks of: for each kind up to its limit, and a minute more; without a limit up to its reach."""
    start = found.start
    resting = driver.after(chance, done(1, horizon, start, start))
    for kind in KINDS:
        until = found.limits.get(kind)
        last = slow_ahead.reach(kind, start) if until is None else until
        tries = [(last, False)] if until is None else [(last, False), (last + 1, True)]
        for x, is_broken in tries:
            if x > start:
                place = driver.after(chance, done(kind, horizon, start, x))
                name = f"B{kind} with driving from {slow_reader.minute_text(start)} to {slow_reader.minute_text(x)}"
                yield Done(kind, name, is_broken, place, resting)


def outlook_of(spans: list[Span], base: int, horizon: int, minute: int) -> Outlook | None:
    """The slow program's forecast."""
    return slow_ahead.outlook(spans, base, horizon, minute)


def of_seed(program: str, seed: int) -> counting.Comparisons:
    """The comparisons of a timeline's forecasts, and of what the driver does then, of an archive in a file or in memory."""
    chance = random.Random(f"ahead {seed}")
    spans, base, horizon = spans_of(seed, chance)
    driver = Driver(base)
    driver.enter(chance, spans)
    asked = minutes_of(chance, horizon)
    for minute in asked:
        driver.do(ahead(minute))
    found = outlook_of(spans, base, horizon, asked[0])
    made = list(acted(driver, chance, horizon, found)) if found and seed % 2 == 0 else []
    driver.do(ahead(asked[0]))
    with tempfile.TemporaryDirectory() as folder:
        words = [program, "archive", os.path.join(folder, "archive.db")] if seed % 4 == 0 else [program, "shelf"]
        told = answers(words, folder, driver.commands)
    yield f"seed {seed}", told, [(b"", 0), *driver.told, (b"", 0)]
    for one in made:
        name, is_new, is_broken = one.comparison(told[1:])
        yield f"seed {seed}: a new breach of {name}", is_new, is_broken


# Single minutes


def tried(chance: random.Random, start: int, past: int, limit: int | None) -> Iterable[int]:
    """Some minutes after one and up to another: both ends, those around the limit, and a few others."""
    near = [start + 1, past] if limit is None else [start + 1, past, *range(limit - 1, limit + 4)]
    return sorted({x for x in [*near, *(chance.randint(start + 1, past) for _ in range(4))] if start < x <= past})


def of_minutes(seed: int) -> counting.Comparisons:
    """The comparisons of the slow program's limits with the reports of plans for single minutes."""
    chance = random.Random(f"minutes {seed}")
    spans, base, horizon = spans_of(seed, chance)
    found = outlook_of(spans, base, horizon, minutes_of(chance, horizon)[0])
    if found is None:
        return
    start = found.start
    known = slow_ahead.known_of(spans, horizon, start)
    old = slow_ahead.reported(slow_ahead.plan(known, start, start), base)
    for kind in KINDS:
        limit, past = found.limits.get(kind), slow_ahead.reach(kind, start)
        # After a limit a new breach goes on; but a daily rest is reduced only as long as nine hours of it lie within the day.
        last = past if limit is None or kind != REDUCED else limit + 1
        for x in tried(chance, start, last, limit):
            breaches = slow_ahead.reported([*known, *done(kind, start, start, x)], base)
            is_new = any(breach.kind == kind and breach not in old for breach in breaches)
            yield f"seed {seed}: B{kind} with driving to {slow_reader.minute_text(x)}", is_new, limit is not None and x > limit


def comparisons(program: str) -> counting.Comparisons:
    """All comparisons."""
    yield from of_kinds()
    questions = [(of_case, case) for case in sorted(os.listdir(FOLDER))]
    questions += [(of_minutes, seed) for seed in range(PLANNED)]
    questions += [(of_seed, os.path.abspath(program), seed) for seed in range(SEEDS)]
    yield from pools.of_questions(questions, PROCESSES)


if __name__ == "__main__":
    sys.exit(counting.count(comparisons(*sys.argv[1:])))
