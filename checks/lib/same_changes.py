"""Changes of the slow programs that mean the same as the programs do, with the reasons: the function, the text as it is, and as it is
changed; and, where only one of several places with these texts is meant, how many come before it. No case can notice them."""

KNOWN = "min(run.past, end) - run.start"
BLOCK_LENGTH = "file[offset + 3] * 256 + file[offset + 4] if value <= len(file) else "
WITHIN = "week_start(week) <= minute < week_start(week + 1)"

# Of slow_rules.py: limits, comparisons, conditions and signs.
RULES = {
    # The first and the last rest are longer than any limit, wherever one starts and the other ends.
    ("rest_runs", "Run(0, FAR)", "Run(1, FAR)"),
    ("rest_runs", "Run(0, FAR)", "Run(-1, FAR)"),
    ("rest_runs", "Run(0, line.busy[0])", "Run(1, line.busy[0])"),
    ("rest_runs", "Run(0, line.busy[0])", "Run(-1, line.busy[0])"),
    # Between two rest runs there is always a minute.
    ("is_before", "one.past < other.start", "one.past <= other.start"),
    # All complete breaks so far are before the run.
    ("has_first_part", "for done in breaks if is_before(done, run)", "for done in breaks"),
    # A day begins and ends with a minute that isn't rest.
    ("is_regular", "day.start <= part.start", "day.start < part.start"),
    ("is_regular", "part.past <= day.past", "part.past < day.past"),
    # A daily rest of less than 9 hours isn't reduced, whether it is regular or not.
    ("is_regular", "portion(day) >= 540 and bool(parts)", "bool(parts)"),
    ("is_regular", "portion(day) >= 540", "portion(day) >= 539"),
    # No week before week 0, nor week 0, is asked of.
    ("is_in_week", f"week >= 0 and {WITHIN}", WITHIN),
    ("is_in_week", "week >= 0", "week > 0"),
    ("is_in_week", "week >= 0", "week >= 1"),
    ("is_in_week", "week >= 0", "week >= -1"),
    # In the weeks around all is at rest, and they break no rule.
    ("weeks_around", "week_of(base) - 2", "week_of(base) - 1"),
    ("weeks_around", "week_of(base) - 2", "week_of(base) - 3"),
    ("weeks_around", "week_of(past) + 3", "week_of(past) + 2"),
    ("weeks_around", "week_of(past) + 3", "week_of(past) + 4"),
    # A rest that is counted in a week after the last serves none of the weeks.
    ("weeks_touched", "last + 1", "last + 2"),
    # Two weeks may be judged later, at the latest when no rest is left.
    ("can_be_counted", "week + 1", "week + 2"),
    # A minute more or less than none is below any limit too.
    ("minutes_before", f"max(0, {KNOWN})", f"max(1, {KNOWN})"),
    ("minutes_before", f"max(0, {KNOWN})", f"max(-1, {KNOWN})"),
    # The first rest that none after it passes is the one that none before it reaches.
    ("main_rest", "longer_than_earlier and as_long_as_later", "as_long_as_later"),
    ("main_rest", "minutes_before(horizon, other) < known", "minutes_before(horizon, other) <= known"),
    # No rest is longer than itself.
    ("main_rest", "for other in candidates if run.start < other.start", "for other in candidates"),
    ("main_rest", "run.start < other.start", "run.start <= other.start"),
    # Nothing is owed if it is no more than 0.
    ("owed", "return 0", "return -1"),
    ("owed", "max(0, 2700 - minutes_of(main))", "max(-1, 2700 - minutes_of(main))"),
}


# Of slow_csv.py.
CSV = {
    # No minute that is read is 1 or less.
    ("entries_of", "found[-1][1] if found else 0", "found[-1][1] if found else 1"),
    ("entries_of", "found[-1][1] if found else 0", "found[-1][1] if found else -1"),
    # Where a driver is read, there is one row.
    ("driver_of", "rows[0]", "rows[-1]", 0),
}

# Of slow_reader.py.
READER = {
    # No word has a number below 0.
    ("pairs_of_value", "-1", "-2"),
    # A length of 11 is odd.
    ("record_of", "length < 12", "length < 11"),
    # Of an even number the half of it and one more is the same, rounded down.
    ("record_of", "length - 12", "length - 11"),
    # A block whose head goes past the end is truncated, whatever its length is.
    ("blocks_of", BLOCK_LENGTH + "0", BLOCK_LENGTH + "1"),
}

# Of slow_office.py, as far as stretches go.
OFFICE = {
    # Only minutes that are held are asked of.
    (
        "is_start",
        "(minute - 1440 * 4) % 10080 == 0 and minute in held and (held[minute][1] == 'single')",
        "(minute - 1440 * 4) % 10080 == 0 and held[minute][1] == 'single'",
    ),
    # If only minutes before the base are held, the horizon is the base, and nothing after it is held.
    ("end_of_held", "for minute in held if minute >= base", "for minute in held"),
    ("stretches_of", "1440 * base", "1439 * base", 1),
    # The horizon isn't held without a second driver, so no stretch begins there.
    ("stretches_of", "minute > horizon", "minute >= horizon"),
}

# Of slow_ahead.py.
PART = "slow_rules.rests_of(runs, 180)"
AHEAD: set[tuple[object, ...]] = {
    # The first new breach of B1 to B5 comes in the first 901 minutes, and that of B8 in the first 8,641.
    ("DAY", "DAY = 1440", "DAY = 1441"),
    ("DAY", "DAY = 1440", "DAY = 1439"),
    ("reach", "if kind == 9", "if True"),
    ("reach", "7 * DAY", "8 * DAY"),
    # All weeks' ends and deadlines that a plan is about come before its last rest ends.
    ("FIVE_WEEKS", "FIVE_WEEKS = 50400", "FIVE_WEEKS = 50401"),
    ("FIVE_WEEKS", "FIVE_WEEKS = 50400", "FIVE_WEEKS = 50399"),
    # No more than 660 minutes of a daily rest lie within 24 hours if it begins at the last minute at which these do.
    ("DAILY_REST", "DAILY_REST = 660", "DAILY_REST = 661"),
    # What comes after a daily rest, or for how long the driver works then, doesn't change it.
    ("breaches_at", "worked + 1", "worked - 1"),
    ("breaches_at", "worked + 1", "worked + 2"),
    ("breaches_at", "worked + 1", "worked + 0"),
    # Rests that don't matter may be looked at too.
    ("recent", f"for run in {PART} if run.start >= weekly.start", f"for run in {PART}"),
    ("recent", PART, "slow_rules.rests_of(runs, 179)"),
    ("recent", "-1", "-0", 0),
    # Two minutes of driving at `start` lie in the same day as one, and so between the same rests.
    ("limits_of", "start + 1", "start + 2"),
    ("outlook", "start + 1", "start + 2"),
}

# Of slow_server.py, where a case has one right reply.
SERVER = {
    # What isn't open is refused. The second of these places is about replies that wait.
    ("head_of", "fault.is_open and (not is_full)", "not is_full"),
    ("head_of", "fault.is_open and (not is_full)", "fault.is_open", 1),
    ("head_of", "fault.is_open and (not is_full)", "fault.is_open or not is_full", 1),
    ("head_of", "not is_full", "is_full", 1),
    # A head that isn't whole and has more than 32 fields has two right replies.
    ("head_of", "fault.is_open and is_full or len(reader.fields) > FIELD_LIMIT", "fault.is_open and is_full"),
    # No body is read of a GET.
    ("body_length", "return 0", "return -1"),
    # There is one length, or the reply is 400.
    ("body_length", "lengths[0]", "lengths[-1]"),
    # A path without an end that isn't UTF-8 has two right replies if the head is full, and else 400.
    ("HeadReader.target", "fault.is_refused or not may_go_on", "fault.is_refused"),
}

# By the program. Of these there are more kinds: tests of an `if` that always hold, or never, and `in` for `not in`.
SAME: dict[str, set[tuple[object, ...]]] = {
    "rules": {*RULES}, "ahead": AHEAD, "reader": READER, "csv": CSV, "office": OFFICE, "server": SERVER,
}

# What no request of a case leads to: a million entries of a driver, and a failure of memory or of the store. The texts are those that a
# change leaves out.
UNREACHED = {"FAULTS": "'S14': 409", "STATUSES": "503: ("}


def is_same(program: str, change: tuple[str, str, str], turn: int) -> bool:
    """Whether a change, before which come some with the same texts, means the same, or changes what no case reaches."""
    function, _, new = change
    if program == "server" and UNREACHED.get(function, "") not in new:
        return True
    return change in SAME[program] or (*change, turn) in SAME[program]
