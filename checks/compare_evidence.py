#!/usr/bin/env python3
"""Compares the evidence for breaches that the slow program lists (slow/slow_evidence.py) with outputs of another program, which shares no
code with this repository: the files `why-DRIVER-MONTH` of checks/readings. They have evidence of each kind of breach, after the commands
of their folder, which a slow office answers; docs/RULES.md shows parts of them. Then come timelines near the limits of the rules, which are
entered: what `why` answers of each month is compared with the slow office.

Argument: `tool_script`. The last line is 'N passed, M failed'."""
import os
import random
import sys
from collections.abc import Iterator

from inputs import hard_timelines, random_cards
from inputs.random_commands import date_text, driver_csv, rows_csv, rows_of
from lib import counting, pools, seeds
from lib.files import TOP, read
from lib.readings import FOLDER, steps_of, words_of
from lib.script import of_commands
from slow import slow_office
from slow.slow_office import Command

KINDS = range(1, 11)
SEEDS = seeds.tried(150)
PROCESSES = 2
ROWS = 2_000  # the most rows of an input
LAST = hard_timelines.LAST_PAST - 1


# Expected outputs


def of_case(case: str) -> counting.Comparisons:
    """The comparisons of a folder."""
    expected = os.path.join(FOLDER, case, "expected")
    names = [name for name in sorted(os.listdir(expected)) if name.startswith("why-")]
    if not names:
        return
    office = slow_office.Office()
    for words, given, _ in steps_of(case):
        office.answer(words, given)
    for name in names:
        told, _ = office.answer(words_of(name))
        yield f"{case}: {name}", told.decode().splitlines(), read(os.path.join(expected, name)).decode().splitlines()


def of_cases() -> counting.Comparisons:
    """The comparisons of all folders; whether each kind of breach occurs in them, and what docs/RULES.md shows."""
    texts = []
    for case in sorted(os.listdir(FOLDER)):
        for name, told, wanted in of_case(case):
            texts.append("".join(f"{line}\n" for line in wanted))
            yield name, told, wanted
    yield "the kinds of breaches", kinds_in(texts), [f"B{kind}" for kind in KINDS]
    shown = list(shown_in(read(os.path.join(TOP, "docs", "RULES.md")).decode()))
    yield "the kinds that docs/RULES.md shows", kinds_in(shown), [f"B{kind}" for kind in KINDS]
    for text in shown:
        yield f"docs/RULES.md: {text.splitlines()[0]}", any(text in other for other in texts), True


def kinds_in(texts: list[str]) -> list[str]:
    """The kinds of the breaches in texts, each once."""
    lines = [line for text in texts for line in text.splitlines()]
    return sorted({line.split(" ")[0] for line in lines if line.startswith("B")}, key=lambda kind: int(kind[1:]))


def shown_in(page: str) -> Iterator[str]:
    """The evidence that a page shows: its indented blocks, without their indent."""
    section = page.partition("\n## Evidence\n")[2].partition("\n## ")[0]
    for block in section.split("\n\n"):
        if block.startswith("    B"):
            yield "".join(line.removeprefix("    ") + "\n" for line in block.splitlines())


# Timelines near the limits


def commands_of(seed: int) -> list[Command]:
    """A driver, the hours of a timeline, and the readings of the months of its breaches."""
    chance = random.Random(f"evidence {seed}")
    spans, base, past = [
        lambda: hard_timelines.timeline(seed, 1 + seed % 6),
        lambda: hard_timelines.weekly_timeline(seed),
        lambda: hard_timelines.chained_timeline(seed),
    ][seed % 3]()
    # The last minute that can be entered is one before the end of 2099.
    spans = [(start, min(end, LAST), activity) for start, end, activity in spans if start < LAST]
    commands: list[Command] = [(["register"], driver_csv(17, random_cards.HOLDERS[0], "anna-key-1", base // 1440, b"Anna"))]
    for place in range(0, len(spans), ROWS):
        commands.append((["enter", "17"], rows_csv(*rows_of(chance, spans[place : place + ROWS]))))
    days = range(base // 1440, past // 1440 + 32)
    return commands + [(["why", "17", month], b"") for month in sorted({date_text(day)[:7] for day in days if day < 47_482})]


def of_seed(program: str, seed: int) -> counting.Comparisons:
    """The comparisons of a timeline, of an archive in a file and in memory."""
    yield from of_commands(program, f"seed {seed}", commands_of(seed))


def comparisons(program: str) -> counting.Comparisons:
    """All comparisons."""
    yield from of_cases()
    yield from pools.of_questions([(of_seed, os.path.abspath(program), seed) for seed in range(SEEDS)], PROCESSES)


if __name__ == "__main__":
    sys.exit(counting.count(comparisons(*sys.argv[1:])))
