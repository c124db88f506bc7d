#!/usr/bin/env python3
"""Compares the breaches and debts that the passes find, and those that a scan finds, with those of a slow reading of the
rules, on lines near the limits, and with those that are written beside the worked examples; and the reports of
timelines with those of the same slow reading. A scan is given the spans of a line as they are, cut at every midnight,
and cut at random minutes.

Some of the lines are rows of weeks whose rests lie over their ends, asked of the passes and of a scan. Of these at least
a third have to be such that a rule which judges each two weeks by themselves finds other breaches B9 in them; how many
there are is printed.

Arguments: the program `tool_rows` and, where memory is to be refused in turn, the compiler of C. The last line is
'N passed, M failed'."""
import multiprocessing
import random
import sys

from inputs import hard_timelines
from lib import counting, programs, rules, seeds
from slow import slow_rules

NUMBERS = {"rest": 0, "available": 1, "work": 2, "drive": 3}
PASSES = {"breaks": {1}, "days": {2, 3, 4, 5}, "weeks": {6, 7}, "rests": {8, 9, 10}}
PROCESSES = 2
LINES = seeds.tried(4000)
WEEKLY_LINES = seeds.tried(4000)
CHAINED_LINES = seeds.tried(3000)
SCANNED_LINES = seeds.tried(6000)
HELD_LINES = seeds.tried(2400)
REFUSED_LINES = 5
INPUT_LIMIT = 262_144


# Lines and timelines as the program reads them


def given_line(spans):
    """The spans of a line."""
    return " ".join(f"{start} {past} {NUMBERS[activity]}" for start, past, activity in spans) + "\n"


def given_held(spans, base):
    """A base, and the spans of a timeline."""
    marks = [f"{start} {past} {NUMBERS[activity] + 4 * crew}" for start, past, activity, crew in spans]
    return " ".join([str(base)] + marks) + "\n"


# What is expected


def breaches_told(name, breaches):
    """The line expected of breaches, under a name."""
    return " ".join([name] + [f"B{kind} {moment} {since} {amount}" for kind, moment, since, amount in breaches])


def debts_told(debts):
    """The line expected of debts."""
    payers = [(week, amount, deadline, "-" if payer is None else payer) for week, amount, deadline, payer in debts]
    return " ".join(["debts"] + [f"{week} {amount} {deadline} {payer}" for week, amount, deadline, payer in payers])


def passes_told(breaches, debts):
    """What is expected of a line: the breaches, a line each pass, and the debts."""
    passes = [(name, [breach for breach in breaches if breach[0] in kinds]) for name, kinds in PASSES.items()]
    return [breaches_told(name, found) for name, found in passes] + [debts_told(debts)]


def scan_told(breaches, debts):
    """What is expected of a scan of a line: all breaches, and the debts."""
    return [breaches_told("scan", breaches), debts_told(debts)]


def report_told(horizon, cause, breaches, debts):
    """What is expected of a timeline: the horizon, the breaches and the debts."""
    return [f"horizon {horizon} {cause}", breaches_told("breaches", breaches), debts_told(debts)]


# Questions: the argument that asks, the input, and what is expected, line by line


def line_question(line, found):
    """What the passes have to find in a line."""
    return "rules", given_line(line[0]), passes_told(*found)


def cut(spans, minutes):
    """The spans cut at those of the minutes, which are in order, that lie within them."""
    pieces = []
    for start, past, activity in spans:
        for minute in minutes:
            if start < minute < past:
                pieces.append((start, minute, activity))
                start = minute
        pieces.append((start, past, activity))
    return pieces


def cuts(seed, base, horizon):
    """The minutes at which a line is cut: none, every midnight, or random ones."""
    chance = random.Random(f"cuts {seed}")
    way = seed % 3
    if way == 0:
        return []
    if way == 1:
        return range(base, horizon, 1440)
    return sorted(chance.sample(range(base, horizon), min(horizon - base, 40)))


def scan_question(seed, line, found):
    """What a scan has to find in a line, however that is cut."""
    spans, base, horizon = line
    return "scan", given_line(cut(spans, cuts(seed, base, horizon))), scan_told(*found)


def held_question(held):
    """What the report of a timeline has to be."""
    return "reports", given_held(*held), report_told(*slow_rules.report(*held))


def pairs_that_lack_rests(line):
    """The breaches B9 by another rule, which judges each two neighbouring weeks by themselves: a weekly rest that falls in
    two weeks counts in both."""
    spans, base, horizon = line
    known = slow_rules.line_of(spans)
    rests = slow_rules.weekly_rests(slow_rules.rest_runs(known))
    found = []
    for week in range(slow_rules.week_of(base), slow_rules.week_of(horizon) - 1):
        near = [rest for rest in rests if slow_rules.weeks_touched(rest, week, week + 1)]
        has_long = any(slow_rules.minutes_of(rest) >= 2700 for rest in near)
        if slow_rules.asks_for_rests(known, week) and not (has_long and len(near) >= 2):
            found.append((9, slow_rules.week_start(week + 2), slow_rules.week_start(week), 0))
    return found


def near_limits(seed):
    """The question of a line near the limits of all rules, or None for an empty one."""
    line = hard_timelines.timeline(seed, 1 + seed % 6)
    return line_question(line, slow_rules.examine(*line)) if line[0] else None


def near_weekly_limits(seed):
    """The question of a line near the limits of the rules on weekly rests, or None for an empty one."""
    line = hard_timelines.weekly_timeline(seed)
    return line_question(line, slow_rules.examine(*line)) if line[0] else None


def scanned_near_limits(seed):
    """The question of a line near the limits, of all rules or of those of weekly rests, to a scan."""
    line = hard_timelines.weekly_timeline(seed) if seed % 2 else hard_timelines.timeline(seed, 1 + seed % 6)
    return scan_question(seed, line, slow_rules.examine(*line)) if line[0] else None


def near_week_ends(seed):
    """The questions of a line whose rests lie over the ends of weeks, to the passes and to a scan, and whether a rule of
    pairs finds other breaches in it; or None for an empty one."""
    line = hard_timelines.chained_timeline(seed)
    if not line[0]:
        return None
    found = slow_rules.examine(*line)
    is_apart = pairs_that_lack_rests(line) != [breach for breach in found[0] if breach[0] == 9]
    return line_question(line, found), scan_question(seed, line, found), is_apart


def near_horizons(seed):
    """The question of a timeline of a card."""
    return held_question(hard_timelines.held_timeline(seed))


def examples():
    """The questions of the worked examples: as a line, where that isn't empty, and as a timeline that ends in either way."""
    base = rules.BASE
    for row in rules.ROWS:
        spans = rules.joined(row.busy, base, row.horizon)
        if spans:
            yield "rules", given_line(spans), passes_told(row.breaches, row.debts)
            for seed in range(3):
                pieces = cut(spans, cuts(seed, base, row.horizon))
                yield "scan", given_line(pieces), scan_told(row.breaches, row.debts)
        held = [(*span, False) for span in spans]
        for behind, cause in [([], "Unknown"), ([(row.horizon, row.horizon + 60, "drive", True)], "Crew")]:
            told = report_told(row.horizon, cause, row.breaches, row.debts)
            yield "reports", given_held(held + behind, base), told


def quiet_year():
    """The spans of 52 weeks of 2024 from Monday, 1 January, with an hour of work on each Monday to Friday: of these there
    is no breach and no debt, so that a scan of them asks for no memory."""
    base = 28_401_120
    days = [base + 1440 * day for day in range(7 * 52) if day % 7 < 5]
    return rules.joined([(day + 360, day + 420, "work") for day in days], base, base + 7 * 52 * 1440)


def of_seeds(pool, question, count):
    """The questions of the seeds up to a count, as far as there are any."""
    return [found for found in pool.map(question, range(count), chunksize=25) if found]


# What the program answers


def batches(questions):
    """The questions in groups that the program takes at once, each by one argument."""
    batch, length = [], 0
    for question in questions:
        word, given, _ = question
        if batch and (length + len(given) > INPUT_LIMIT or batch[0][0] != word):
            yield batch
            batch, length = [], 0
        batch.append(question)
        length += len(given)
    if batch:
        yield batch


def answers(program, questions):
    """What the program answers to each of the questions: as many lines as are expected, and for the last that it takes at
    once all that are left, and its status where that isn't 0."""
    for batch in batches(questions):
        given = "".join(given for _, given, _ in batch).encode()
        text, status = programs.answer([program, batch[0][0]], given)
        told = text.splitlines() + ([f"status {status}"] if status else [])
        place = 0
        for question in batch:
            count = len(question[2])
            past = len(told) if question is batch[-1] else place + count
            yield question, told[place:past]
            place += count


def is_answer_without_memory(word, answer, expected):
    """The input or its line wasn't read, or a report was out of memory, or each pass has answered or was out of memory."""
    if answer in ([], ["not read"]):
        return True
    if word == "reports":
        return answer == ["Memory"]
    return len(answer) == len(expected) and all(line in (other, "Memory") for line, other in zip(answer, expected))


def comparisons(program: str, compiler: str | None = None) -> counting.Comparisons:
    with multiprocessing.Pool(PROCESSES) as pool:
        lines = of_seeds(pool, near_limits, LINES)
        weekly_lines = of_seeds(pool, near_weekly_limits, WEEKLY_LINES)
        chained_lines = of_seeds(pool, near_week_ends, CHAINED_LINES)
        scanned_lines = of_seeds(pool, scanned_near_limits, SCANNED_LINES)
        held_lines = of_seeds(pool, near_horizons, HELD_LINES)
        pool.close()
        pool.join()
    apart = sum(is_apart for _, _, is_apart in chained_lines)
    print(f"a rule of pairs of weeks finds other breaches in {apart} of {len(chained_lines)} lines", flush=True)
    yield "lines that a rule of pairs tells apart are a third", apart * 3 >= len(chained_lines), True
    lines += [line for line, _, _ in chained_lines]
    scanned_lines += [scanned for _, scanned, _ in chained_lines]
    questions = lines + weekly_lines + scanned_lines + held_lines + list(examples())
    for (word, given, expected), answer in answers(program, questions):
        yield f"{word} of {given.strip()}", answer, expected
    some = [line for kind in (lines, weekly_lines, scanned_lines, held_lines) for line in kind[:REFUSED_LINES]]
    for word, given, expected in some if compiler else []:
        for number, (text, _) in programs.answers_without_memory(compiler, [program, word], given.encode()):
            answer = text.splitlines()
            wanted = answer if is_answer_without_memory(word, answer, expected) else expected
            yield f"{word} of {given.strip()}, allocation {number} refused", answer, wanted
    given, expected = given_line(quiet_year()), scan_told([], [])
    for number, (text, _) in programs.answers_without_memory(compiler, [program, "scan"], given.encode()) if compiler else []:
        answer = text.splitlines()
        wanted = answer if answer in ([], ["not read"]) else expected
        yield f"scan of a quiet year, allocation {number} refused", answer, wanted


if __name__ == "__main__":
    sys.exit(counting.count(comparisons(*sys.argv[1:])))
