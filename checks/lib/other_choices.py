"""The choices that docs/RULES.md and docs/CARD.md make where the Regulation leaves something open, each with a reading that chooses
otherwise: a slow program with a few texts of its source replaced. A case that such a reading answers differently has the choice's tag."""
import functools
from collections import namedtuple
from collections.abc import Collection
from types import SimpleNamespace

from lib import changes, vector_changes, vector_sets

# A choice: its tag, the slow program that it is made in, and the texts that are replaced to choose otherwise.
Choice = namedtuple("Choice", "tag program pairs")

WEEKLY = "run for run in weekly_rests(runs)"
AT_REST = "not is_wholly_at_rest(line, week) and not is_wholly_at_rest(line, week + 1)"
FILLED = '''
def with_rest(runs, base, monday):
    """The runs from the base on, with rest where nothing is held, or a second driver, before a Monday."""
    held = {minute: mark for start, past, mark in runs for minute in range(start, past)}
    for minute in range(base, monday):
        if held.get(minute, ("rest", "crew"))[1] == "crew":
            held[minute] = ("rest", "single")
    return tuple(tuple(run) for run in slow_reader.runs(held.items()))


def stretches_of('''
SHORTENED = '''
def shortened(runs, debts):
    """The runs without the minutes that pay debts."""
    return [Run(run.start, run.past - paid_from(run, debts)) for run in runs]


def examine('''

CHOICES = [
    # Weeks begin an hour earlier, as in the winter time of most member states.
    Choice("utc", "rules", [
        ("return 5760 + 10080 * week", "return 5700 + 10080 * week"),
        ("return (minute - 5760) // 10080", "return (minute - 5700) // 10080"),
    ]),
    # What isn't known is no rest: the first rest begins with the base, and the last ends with the horizon.
    Choice("unknown-is-rest", "rules", [
        ("    runs = rest_runs(line)\n    debts = debts_of",
         "    runs = [Run(max(run.start, base), min(run.past, past)) for run in rest_runs(line)]\n"
         "    runs = [run for run in runs if run.start < run.past] or [Run(past, past)]\n    debts = debts_of"),
        (f"weekly = max({WEEKLY} if is_before(run, rest))", f"weekly = max(({WEEKLY} if is_before(run, rest)), default=runs[0])"),
    ]),
    # What is held before the base is examined too, week by week.
    Choice("before-base", "rules", [
        ("    horizon, cause = horizon_of(held, base)",
         "    while base - 10080 >= FIRST_BASE and horizon_of(held, base - 10080)[0] >= base:\n        base -= 10080\n"
         "    horizon, cause = horizon_of(held, base)"),
    ]),
    # Availability is a break and a rest.
    Choice("availability", "rules", [("minutes_at(spans, (AVAILABLE, WORK, DRIVE))", "minutes_at(spans, (WORK, DRIVE))")]),
    # A rest of seven hours ends the day.
    Choice("nine-hours-end-a-day", "rules", [("neighbours(rests_of(runs, 540))", "neighbours(rests_of(runs, 420))")]),
    # A duty day belongs to the week in which it ends.
    Choice("day-in-week-of-start", "rules", [
        ("return is_in_week(week, day.start) and len", "return is_in_week(week, day.past - 1) and len"),
        ("week = week_of(day.start)", "week = week_of(day.past - 1)"),
    ]),
    # No portion is below zero.
    Choice("portion-below-zero", "rules", [
        ("return min(day.rest.past, day.start + 1440) - day.past", "return max(0, min(day.rest.past, day.start + 1440) - day.past)"),
    ]),
    # The first pair of weeks is that of the base's week and the next.
    Choice("pair-before-base", "rules", [
        ("for week in weeks_around(base, past):\n        above = over(line, limit",
         "for week in range(week_of(base), week_of(past) + 3):\n        above = over(line, limit"),
    ]),
    # The first rest and the last are no weekly rests for B3, B8 and B9.
    Choice("first-and-last-rest", "rules", [
        (f"weekly = max({WEEKLY} if is_before(run, rest))",
         f"weekly = max(({WEEKLY} if 0 < run.start and is_before(run, rest)), default=Run(0, 0))"),
        ("for one, next_one in neighbours(weekly_rests(runs))",
         f"for one, next_one in neighbours([{WEEKLY} if 0 < run.start and run.past < FAR])"),
        (f"[{WEEKLY} if weeks_touched(run, first, last)]",
         f"[{WEEKLY} if 0 < run.start and run.past < FAR and weeks_touched(run, first, last)]"),
    ]),
    # For debts a rest belongs to the week in which it ends, as far as it is known.
    Choice("debt-in-week-of-start", "rules", [
        ("if is_in_week(week, run.start) and minutes_before(horizon, run) >= 1440]",
         "if is_in_week(week, min(run.past, horizon) - 1) and minutes_before(horizon, run) >= 1440]"),
        ("main_rest(runs, horizon, week_of(run.start)) == run", "main_rest(runs, horizon, week_of(min(run.past, horizon) - 1)) == run"),
    ]),
    # Each reduced weekly rest of a week owes.
    Choice("one-debt-a-week", "rules", [
        ("return max(0, 2700 - minutes_of(main))",
         "return sum(max(0, 2700 - minutes_of(run)) for run in weekly_rests(runs)\n"
         "               if is_in_week(week, run.start) and minutes_before(horizon, run) >= 1440)"),
    ]),
    # A week in which no rest of 24 hours begins owes 45 hours.
    Choice("no-rest-no-debt", "rules", [
        ("    if main is None or last.start < week_start(week + 1):\n        return 0",
         "    if last.start < week_start(week + 1):\n        return 0\n"
         "    if main is None:\n        return 2700 if runs[0].past < week_start(week + 1) else 0"),
        ("    assert main  # since its week owes", "    main = main or Run(week_start(debt.week), week_start(debt.week + 1) - 1)"),
    ]),
    # A week owes as soon as its longest rest has ended.
    Choice("owes-after-last-rest", "rules", [("main is None or last.start < week_start(week + 1)", "main is None")]),
    # The longest rest of a week keeps nine hours too.
    Choice("main-rest-keeps-45", "rules", [("        return 2700\n", "        return 540\n")]),
    # The newest debt is given its rest first.
    Choice("oldest-debt-first", "rules", [
        ("for week in weeks_around(base, horizon):\n        amount = owed",
         "for week in reversed(weeks_around(base, horizon)):\n        amount = owed"),
        ("    return debts\n", "    return sorted(debts)\n"),
    ]),
    # Only rests of later weeks pay.
    Choice("same-week-pays", "rules",
           [("return is_before(main, run) and debt.amount", "return run.start >= week_start(debt.week + 1) and debt.amount")]),
    # No debt is paid before an older one.
    Choice("debts-out-of-turn", "rules", [
        ("if can_pay(runs, horizon, debts, debt, run)]",
         "if can_pay(runs, horizon, debts, debt, run) and all(old.paid_by is not None and old.paid_by <= run.start for old in debts)]"),
    ]),
    # Minutes that pay don't count for B3, B8 and B9.
    Choice("paying-rest-counts", "rules", [
        ("\ndef examine(", SHORTENED),
        ("        + breaches_3(runs)", "        + breaches_3(shortened(runs, debts))"),
        ("        + breaches_8(runs)", "        + breaches_8(shortened(runs, debts))"),
        ("        + breaches_9(line, runs, base, past)", "        + breaches_9(line, shortened(runs, debts), base, past)"),
    ]),
    # A weekly rest counts in the first of its weeks.
    Choice("any-assignment", "rules", [
        ("        for week in weeks_touched(latest, first, last)\n", "        for week in weeks_touched(latest, first, last)[:1]\n"),
    ]),
    # After a breach the search begins at the week after the two.
    Choice("restart", "rules", [("            first = week\n", "            first = week + 1\n")]),
    # Two weeks of which one is wholly at rest need rests too.
    Choice("week-at-rest", "rules", [(f"    return {AT_REST}\n", "    return True\n")]),
    # A rest of more than a week counts in each of its weeks.
    Choice("long-rest-once", "rules", [
        ("if place in (week, week + 1)]",
         "if place in (week, week + 1) or minutes_of(rest) > 10080 and weeks_touched(rest, week, week + 1)]"),
    ]),
    # Each later stretch is examined with all that comes before it, and what isn't examined counts as rest.
    Choice("stretch-alone", "office", [
        ("\ndef stretches_of(", FILLED),
        ("        report = report_of_runs(runs, monday)\n        horizon = report[0]\n        monday_after",
         "        report = report_of_runs(with_rest(runs, 1440 * base, monday), 1440 * base)\n"
         "        horizon = report[0]\n        monday_after"),
    ]),
    # The newest record's last word holds to midnight.
    Choice("last-word", "reader", [("if begun >= 0 and not (place == newest and begun == len(words) - 1):", "if begun >= 0:")]),
    # Words out of order are read as they come.
    Choice("word-order", "reader", [("if i and word % 2048 < words[i - 1] % 2048:", "if False:")]),
    # All days are read that a date can name.
    Choice("read-days", "reader", [("READ_DAYS = range(10_959, 47_482)", "READ_DAYS = range(0, 49_711)")]),
    # Where two records contradict one another, one of the marks is taken.
    Choice("contradiction", "reader", [("        if minute == following:\n", "        if False:\n")]),
    # A card that was replaced or renewed is another card.
    Choice("holder", "reader", [("if len(holders) == 2:", "if len({value[:17] for value in identifications}) == 2:")]),
]


def choice_of(tag: str) -> Choice:
    """The choice with a tag."""
    return next(choice for choice in CHOICES if choice.tag == tag)


@functools.cache
def reading_of(*tags: str) -> SimpleNamespace:
    """The slow programs, one of which makes these choices otherwise, the first of them first. A ValueError says that their texts don't fit
    together."""
    program = choice_of(tags[0]).program
    module = getattr(vector_sets.SLOW, program)
    return vector_sets.with_module(program, changes.module_with_all(module, [choice_of(tag).pairs for tag in tags]))


def tags_for(name: str) -> list[str]:
    """The tags that cases of a set may have."""
    return [choice.tag for choice in CHOICES if choice.program == vector_sets.PROGRAM_OF[name]]


WHOLE = {"before-base"}  # the choices about what is examined at all


def answer_otherwise(known: vector_changes.Known, *tags: str) -> vector_sets.Answer:
    """The answer to a case where some choices are made otherwise."""
    slow = reading_of(*tags)
    if known.name != "timelines" or WHOLE & {*tags}:
        return vector_sets.ANSWERS[known.name](slow, known.case["input"])
    breaches, debts = slow.rules.examine(*known.examined)
    return {**known.case["expected"], "breaches": vector_sets.breaches_answer(breaches), "debts": vector_sets.debts_answer(debts)}


def differs_by(known: vector_changes.Known, *tags: str) -> bool:
    """Whether choices, made otherwise together, change the answer to a case."""
    return bool(answer_otherwise(known, *tags) != known.case["expected"])


# Cases that two choices change only together, with these choices.
TOGETHER = {
    "timelines/at-once-038": [
        ("utc", "one-debt-a-week"), ("availability", "nine-hours-end-a-day"), ("one-debt-a-week", "owes-after-last-rest"),
    ],
}


def otherwise_of(known: vector_changes.Known, tried: Collection[str] | None = None) -> dict[str, vector_sets.Answer]:
    """By the tags of a case the answer of a reading that chooses otherwise: those of the choices with which it differs, and those of two
    with which it differs only together. All choices are tried, or only some."""
    answers = {tag: answer_otherwise(known, tag) for tag in tags_for(known.name) if tried is None or tag in tried}
    together = {tag for pair in TOGETHER.get(known.id, []) for tag in pair}
    return {tag: answer for tag, answer in answers.items() if answer != known.case["expected"] or tag in together}


def patch_of(old: vector_sets.Answer, new: vector_sets.Answer) -> vector_sets.Answer:
    """What of an answer is different, as a JSON merge patch (RFC 7396)."""
    if not isinstance(old, dict) or not isinstance(new, dict):
        return new
    changed = {key: patch_of(old[key], value) if key in old else value for key, value in new.items() if key not in old or old[key] != value}
    return {**changed, **{key: None for key in old if key not in new}}
