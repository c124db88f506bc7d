#!/usr/bin/env python3
"""Compares the readings of stretches, of all drivers, of a month's chart, of the evidence for its breaches, of card files, of forecasts and
of the form for gaps with expected outputs and with the slow office; and those of all drivers with those of each.

The folders of checks/readings have commands, their input files, and what the readings print after them, computed by a program that shares
no code with this repository. Of a chart they have the lines of lib/charts.py. Then come random archives of two drivers: weeks with gaps and
crew at any place, often at a Monday's first minute or beside it; bases before, within and after what is held; and the last minutes of 2099.
Each form is filled in and entered: then no gap is left. A form to a day is what the whole form has before that day. Arguments: the program
and `tool_script`. The last line is 'N passed, M failed'."""
import csv
import datetime
import os
import random
import re
import subprocess
import sys
import tempfile
from typing import Any

from inputs import random_cards
from inputs.random_commands import KEYS, date_text, driver_csv
from lib import charts, counting, files, pools, script, seeds
from lib.advice import without_advice
from lib.readings import FOLDER, steps_of, words_of
from lib.script import of_commands
from slow import slow_office, slow_reader

SEEDS = seeds.tried(80)
PROCESSES = 2
DAY, WEEK = 1440, 10_080
FIRST_DAY, LAST_DAY = 10_959, 47_481  # 2000-01-03 and 2099-12-31
NUMBERS = [900, 17]
NAMES = [b"Anna Berg", "Zo\u00eb <&> \uffff\ufffe".encode()]  # the second has characters that SVG escapes or replaces

# Weeks of a driver: how many days the driver works, and the lengths of what is done on each.
LENGTHS = [15, 30, 44, 45, 60, 120, 240, 269, 270, 271, 285]
NIGHTS = [480, 539, 540, 599, 660, 661, 1440, 2699, 2700]


# Expected outputs


def of_case(program, case):
    """The comparisons of a folder: its steps, and its readings."""
    with tempfile.TemporaryDirectory() as folder:
        path = os.path.join(folder, "archive.db")

        def told(words, given=b""):
            run = subprocess.run([program, words[0], path, *words[1:]], input=given, capture_output=True)
            return run.stdout, without_advice(run.args, run.stdout, run.returncode, run.stderr)

        yield f"{case}: a new archive", told(["init"]), (b"created\n", b"")
        for words, given, answer in steps_of(case):
            yield f"{case}: {' '.join(words)}", told(words, given), (f"{answer}\n".encode(), b"")
        expected = os.path.join(FOLDER, case, "expected")
        for name in sorted(os.listdir(expected)):
            words = words_of(name)
            text, fault = told(words)
            shown = charts.lines_of(text).encode() if words[0] == "chart" else text
            yield f"{case}: {name}", (shown, fault), (files.read(os.path.join(expected, name)), b"")


# Random archives


class Weeks:
    """Some weeks of a driver, from a seed: the mark of each minute that the card knows."""

    def __init__(self, chance, last):
        self.chance = chance
        self.count = chance.choice([1, 2, 3, 5])
        monday = chance.choice([19_786, 19_814, last - 7 * self.count, FIRST_DAY])
        self.first = monday - (monday - 4) % 7
        self.past = min(self.first + 7 * self.count, LAST_DAY + 1)
        self.marks = {}
        self.work()
        for _ in range(chance.choice([0, 1, 2, 3, 6, 9])):
            self.change()

    def work(self):
        """Days of work and rest."""
        minute = DAY * self.first
        while minute < DAY * self.past:
            for activity, minutes in [("rest", self.chance.choice(NIGHTS)), *self.shift()]:
                for place in range(minute, min(minute + minutes, DAY * self.past)):
                    self.marks[place] = activity, "single"
                minute += minutes

    def shift(self):
        """A day's work."""
        for _ in range(self.chance.choice([1, 2, 3])):
            yield self.chance.choice(["drive", "drive", "work", "available"]), self.chance.choice(LENGTHS)
            yield self.chance.choice(["rest", "rest", "work"]), self.chance.choice([15, 30, 45])

    def change(self):
        """A gap or crew, often from a Monday's first minute on or to it."""
        week = DAY * (self.first + 7 * self.chance.randrange(self.count + 1))
        minutes = self.chance.choice([1, 2, 60, DAY, DAY, WEEK - 1, WEEK, WEEK + 1, 2 * WEEK])
        near = week + self.chance.choice([-1, 0, 0, 0, 1, self.chance.randrange(-WEEK, WEEK)])
        start = self.chance.choice([near, near, near - minutes])
        activity = self.chance.choice(["rest", "drive", None, None, None])
        for place in range(start, start + minutes):
            if place in self.marks:
                del self.marks[place]
                if activity is not None:
                    self.marks[place] = activity, "crew"

    def word(self, minute):
        """What the card says from a minute on."""
        if minute not in self.marks:
            return random_cards.word(1, 0, 0, minute % DAY)
        activity, manning = self.marks[minute]
        return random_cards.word(0, manning == "crew", slow_reader.ACTIVITIES.index(activity), minute % DAY)

    def file(self, holder):
        """The card file."""
        records = []
        for day in range(self.first, self.past):
            minutes = [m for m in range(DAY * day, DAY * day + DAY) if m == DAY * day or self.marks.get(m) != self.marks.get(m - 1)]
            records.append(random_cards.record(day, [self.word(minute) for minute in minutes]))
        blocks = [(random_cards.IDENTIFICATION, holder + b"00"), (random_cards.ACTIVITY, random_cards.activity_data(records, 0, 20))]
        return b"".join(random_cards.block(identifier, 0, value) for identifier, value in blocks)

    def base(self):
        """A base before what is held, at its first week, within it, or after it."""
        later = 7 * self.chance.choice([-1, 0, 0, 0, 0, 1, 2, self.count])
        return max(FIRST_DAY, min(self.first + later, LAST_DAY - 2 - (LAST_DAY - 2 - 4) % 7))

    def period(self):
        """A period of some days that begins and ends before, within or after these weeks."""
        first, past = sorted(self.chance.sample(range(max(self.first - 3, FIRST_DAY), min(self.past + 3, LAST_DAY + 1)), 2))
        return [date_text(first), date_text(past)]

    def months(self):
        """The months of its first and its last day, and the next."""
        days = {min(day, LAST_DAY) for day in (self.first, self.past - 1, self.past + 31)}
        return sorted({date_text(day)[:7] for day in days})


def filled(form):
    """A form with an activity and an author in each row."""
    head, *rows = form.decode().splitlines(keepends=True)
    return "".join([head, *(row.replace(",,,", ",rest,Eva Lund,") for row in rows)]).encode()


def commands_of(seed):
    """The commands of a seed: two drivers and their files, the readings, the filled forms, and the readings once more."""
    chance = random.Random(f"readings {seed}")
    office = slow_office.Office()
    commands = []

    def add(*command):
        commands.append((list(command[0]), command[1]))
        return office.answer(*commands[-1])[0]

    months, pasts, cuts, periods = set(), [], {}, {}
    for place, number in enumerate(NUMBERS):
        weeks = Weeks(chance, LAST_DAY + 1)
        months.update(weeks.months())
        pasts.append(min(weeks.past, LAST_DAY))
        cuts[str(number)] = date_text(max(FIRST_DAY, min(weeks.first + chance.randrange(-8, 7 * weeks.count + 8), LAST_DAY)))
        periods[str(number)] = weeks.period()
        holder = random_cards.HOLDERS[place]
        add(["register"], driver_csv(number, holder, KEYS[place], weeks.base(), NAMES[place]))
        if chance.random() < 0.95:
            add(["import", "both"], weeks.file(holder))

    # Half a day after the weeks that end first: a slow forecast from years after a horizon on takes long.
    minute = [date_text(min(pasts)), "12:00"]

    def read():
        forms = []
        add(["drivers"], b"")
        add(["forecast", *minute], b"")
        for number in map(str, NUMBERS):
            add(["stretches", number], b"")
            add(["debts", number], b"")
            add(["files", number], b"")
            add(["ahead", number, *minute], b"")
            forms.append((number, add(["form", number], b"")))
            add(["form", number, cuts[number]], b"")
            add(["handover", number, *periods[number]], b"")
        for month in sorted(months):
            for number in map(str, NUMBERS):
                add(["chart", number, month], b"")
                add(["why", number, month], b"")
            add(["standing", month], b"")
            add(["overview", month], b"")
            add(["incidents", month], b"")
        return forms

    for number, form in read():
        add(["enter", number], filled(form))
    read()
    return commands


def of_seed(program, seed):
    """The comparisons of a seed's commands, of an archive in a file and in memory."""
    commands = commands_of(seed)
    yield from of_commands(program, f"seed {seed}", commands)
    yield from of_all_drivers(program, seed, commands)


def of_forms(seed):
    """The comparisons of a seed's forms, which lack nothing once they were entered: as the slow office answers."""
    office = slow_office.Office()
    commands = commands_of(seed)
    forms = []
    for words, given in commands:
        told, status = office.answer(words, given)
        if words[0] == "form" and len(words) == 2:
            forms.append(told)
        if words[0] == "enter":
            yield f"seed {seed}: a form is entered", status, 0
    for number, form in zip(NUMBERS, forms[len(NUMBERS):]):
        yield f"seed {seed}: no gap of driver {number} is left", form, b"start,past,activity,author,note\n"


# Readings of all drivers, beside those of each


def told_in_turn(commands, answers):
    """What each reading has told, by its arguments: before the forms were entered, and after."""
    told = [{}]
    for (words, _), (text, _) in zip(commands, answers, strict=True):
        if words[0] != "enter":
            told[-1][" ".join(words)] = text.decode(errors="backslashreplace")  # a tar file is no text
        elif told[-1]:
            told.append({})
    return told


def rows_in(text):
    """The rows of CSV, each by the names of its columns."""
    return list(csv.DictReader(text.split("\n")))


def breaches_in(row):
    """The number of breaches in a row of an overview."""
    return str(sum(int(row[f"B{kind}"]) for kind in range(1, 11)))


def minutes_from(start, past):
    """The minutes from one minute to another."""
    start, past = map(datetime.datetime.fromisoformat, (start, past))
    return (past - start) // datetime.timedelta(minutes=1)


def lacking_in(form):
    """The number of gaps in a form, their minutes, and their first minute. Rows that touch are one gap."""
    rows = [row.split(",")[:2] for row in form.splitlines()[1:]]
    pasts = {past for _, past in rows}
    starts = [start for start, _ in rows if start not in pasts]
    return [str(len(starts)), str(sum(minutes_from(*row) for row in rows)), *starts[:1]]


def front_of(form, date):
    """The rows of a form before a day; one that goes past it is cut."""
    head, *rows = form.splitlines()
    cells = [row.split(",", 2) for row in rows]
    kept = [f"{start},{min(past, f'{date} 00:00')},{rest}" for start, past, rest in cells if start < date]
    return "".join(f"{line}\n" for line in [head, *kept])


def limits_in(ahead):
    """The cells that a forecast has from `start` on, by what `ahead` tells: they are empty where that has no forecast."""
    def told(line):
        found = re.search(f"^{line}", ahead, re.MULTILINE)
        return found[1] if found else ""

    used = [told(line) for line in ("REDUCED (.*)", "EXTENDED (.*)")]
    driven = re.findall(r"^DRIVEN \S+ (\d+):(\d+)", ahead, re.MULTILINE)
    used += [str(60 * int(hours) + int(minutes)) for hours, minutes in driven] or ["", ""]
    return [told("START (.*)"), *(told(rf"B{kind} \S+ \S+ until (.{{16}})") for kind in range(1, 10)), *used]


def of_all_drivers(program, seed, commands):
    """The comparisons of what the program tells of all drivers with what it tells of each."""
    with tempfile.TemporaryDirectory() as folder:
        answers = script.answers([program, "shelf"], folder, commands)[1:-1]
    for place, told in enumerate(told_in_turn(commands, answers)):
        name = f"seed {seed}, {['before', 'after'][place]} the forms"
        drivers = [line.split(" ")[0] for line in told["drivers"].splitlines()]
        counts = {words.split(" ")[1]: {row["driver"]: breaches_in(row) for row in rows_in(text)}
                  for words, text in told.items() if words.startswith("overview ")}
        minute = next(words.removeprefix("forecast ") for words in told if words.startswith("forecast "))
        forecast = rows_in(told[f"forecast {minute}"])
        yield f"{name}: the drivers of the forecast", [row["driver"] for row in forecast], drivers
        for row in forecast:
            number = row["driver"]
            yield f"{name}: the forecast of driver {number}", list(row.values())[4:], limits_in(told[f"ahead {number} {minute}"])
        for words in told:
            if words.startswith("form ") and words.count(" ") == 2:
                whole, date = words.rsplit(" ", 1)
                yield f"{name}: {words}", told[words], front_of(told[whole], date)
        for month in counts:
            standing = rows_in(told[f"standing {month}"])
            before = f"{datetime.date.fromisoformat(f'{month}-01') - datetime.timedelta(days=1)}"[:7]
            yield f"{name}: the drivers of {month}", [row["driver"] for row in standing], drivers
            for row in standing:
                number, of = row["driver"], f"{name}: driver {row['driver']} in {month}"
                yield f"{of}: breaches", row["breaches"], counts[month][number]
                if before in counts:
                    yield f"{of}: breaches of the month before", row["last_month"], counts[before][number]
                lacking = [row[column] for column in ("gaps", "unknown", "first") if row[column]]
                yield f"{of}: gaps", lacking, lacking_in(told[f"form {number}"])


# All


def comparisons(program: str, tool: str) -> counting.Comparisons:
    program, tool = os.path.abspath(program), os.path.abspath(tool)
    questions: list[tuple[Any, ...]] = [(of_case, program, case) for case in sorted(os.listdir(FOLDER))]
    questions += [(of_seed, tool, seed) for seed in range(SEEDS)] + [(of_forms, seed) for seed in range(SEEDS // 4)]
    yield from pools.of_questions(questions, PROCESSES)


if __name__ == "__main__":
    sys.exit(counting.count(comparisons(*sys.argv[1:])))
