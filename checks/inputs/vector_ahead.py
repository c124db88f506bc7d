"""Conformance cases of forecasts: until when a driver may drive on. docs/RULES.md, 'What is left', says what a forecast is.

A timeline is written as in vector_days.py. A forecast is asked for at a minute, which is counted from the base: at the end of the timeline,
if the case doesn't name another one."""
from collections.abc import Iterator

from inputs.vector_days import BASE, DAY, FIVE_DAYS, REDUCED, WEEK, day_driven, given_of, length_of, minutes_text
from inputs.vector_rests import SHORT, laid
from lib.vector_sets import ARTICLES, Made

NONE = None  # no limit within what is looked at
FIRST_BASE = 15_780_960  # Monday, 2000-01-03
LAST_MINUTE = 68_374_079  # 2099-12-31 23:59
LATEST = 68_282_699  # the last minute from which a forecast doesn't go past it


def made(rule: str, what: str, claim: str, text: str, minute: int | None = None, base: int = BASE, before: int = 0) -> Made:
    """A case with a timeline that begins some minutes before the base."""
    given = given_of(text, base - before)
    given["base"] = base
    given["minute"] = base + (length_of(text) - before if minute is None else minute)
    about = "ahead" if rule == "ahead" else f"ahead, {rule} (Article {ARTICLES[rule]})"
    return Made(rule, f"{about}: {what}.", rule, claim, given)


def limited(rule: str, what: str, left: int | None, text: str, minute: int | None = None, base: int = BASE) -> Made:
    """A case with what is left of a rule."""
    if left is None:
        return made(rule, f"{what}; it sets no limit", "no limit", text, minute, base)
    ending = "the first minute of driving breaks it" if left == 0 else f"the driver may go on for {minutes_text(left)}"
    return made(rule, f"{what}; {ending}", f"left {left}", text, minute, base)


def resting(rule: str, what: str, left: int | None, text: str, rest: int) -> Made:
    """The same after a rest that isn't held."""
    return limited(rule, f"{what}, and then a rest of {minutes_text(rest)} that isn't held", left, text, length_of(text) + rest)


# The limits of each rule


def breaks() -> Iterator[Made]:
    """B1: driving since the last complete break."""
    for driven in (1, 240, 269, 270, 271, 300):
        what = f"{minutes_text(driven)} of driving without a break, where 270 are allowed"
        yield limited("B1", what, max(0, 270 - driven), f"r360 d{driven}")
    yield limited("B1", "an hour of work and no driving", 270, "r360 w60")
    for rest in (44, 45):
        yield resting("B1", "200 minutes of driving", 270 if rest == 45 else 70, "r360 d200", rest)
        yield limited("B1", f"200 minutes of driving and a rest of {rest} that is held", 270 if rest == 45 else 70, f"r360 d200 r{rest}")
    for first, second in ((14, 30), (15, 29), (15, 30), (30, 15)):
        what = f"200 minutes of driving with a break of {first} minutes in them"
        yield resting("B1", what, 270 if (first, second) == (15, 30) else 70, f"r360 d100 r{first} d100", second)
    yield resting("B1", "200 minutes of driving and a rest of 20 minutes", 270, "r360 d200 r20", 25)


def daily_rests() -> Iterator[Made]:
    """B2: the latest start of the daily rest."""
    for length in (1, 600, 899, 900, 901, 960):
        yield limited("B2", f"a duty day of {minutes_text(length)}, where 900 leave nine hours", max(0, 900 - length), f"r360 w{length}")
    for length, rest in ((600, 300), (600, 301), (600, 539), (600, 540), (900, 540), (960, 539), (960, 540)):
        left = 900 if rest >= 540 else max(0, 900 - length - rest)
        yield resting("B2", f"a duty day of {length} minutes", left, f"r360 w{length}", rest)


def reduced_rests() -> Iterator[Made]:
    """B3: the latest start of a daily rest that isn't reduced."""
    three = "r360 " + " ".join([REDUCED] * 3)
    yield limited("B3", "two reduced daily rests and a day of 60 minutes", NONE, "r360 " + " ".join([REDUCED] * 2) + " w60")
    for length in (1, 60, 779, 780, 781, 899):
        what = f"three reduced daily rests and a day of {minutes_text(length)}, where 780 leave eleven hours"
        yield limited("B3", what, max(0, 780 - length), f"{three} w{length}")
    yield limited("B3", "three reduced daily rests and a day of 900 minutes, from which on no rest has nine hours", NONE, f"{three} w900")
    for part in (179, 180):
        what = f"three reduced daily rests, and a day with a rest of {part} minutes in it, where 180 make the daily rest regular"
        yield limited("B3", what, 481 if part == 179 else NONE, f"{three} w60 r{part} w60")
        yield resting("B3", "three reduced daily rests, and a day of 60 minutes", 541 if part == 179 else NONE, f"{three} w60", part)
    for rest in (539, 540, 660, 1439, 1440):
        left = 0 if 540 <= rest < 1440 else NONE
        yield resting("B3", "three reduced daily rests, and a day of 900 minutes", left, f"{three} w900", rest)
    yield resting("B3", "three reduced daily rests, and a day of 780 minutes", 780, f"{three} w780", 660)
    for rest in (1439, 1440):
        text = f"r360 {REDUCED} {REDUCED} w600 r{rest} {REDUCED} w60"
        yield limited("B3", f"three reduced daily rests with a rest of {rest} minutes between, where 1,440 are a weekly rest",
                      NONE if rest == 1440 else 720, text)
    text = f"r360 {REDUCED} {REDUCED} {REDUCED} w600 r1440 {REDUCED} w60"
    yield limited("B3", "three reduced daily rests, a weekly rest, and another reduced one", NONE, text)


def driving_days() -> Iterator[Made]:
    """B4: driving in the duty day, and B5: in a third day of more than nine hours."""
    for last in (59, 60, 61, 100):
        driven = 540 + last
        what = f"{driven} minutes of driving in a day, where 600 are allowed"
        yield limited("B4", what, max(0, 600 - driven), f"r360 d270 r45 d270 r45 d{last}")
    for rest in (539, 540):
        yield resting("B4", "540 minutes of driving in a day", 600 if rest == 540 else 60, "r360 d270 r45 d270", rest)
    two = "r360 " + day_driven(541) * 2
    for driven in (1, 539, 540, 541):
        text = f"{two} d{min(driven, 270)}" + (f" r45 d{driven - 270}" if driven > 270 else "")
        what = f"two days of 541 minutes of driving in the week, and {minutes_text(driven)} today, where 540 are allowed in the third"
        yield limited("B5", what, max(0, 540 - driven), text)
    yield limited("B5", "days of 540 and 541 minutes of driving in the week", NONE, "r360 " + day_driven(540) + day_driven(541) + "d60")
    monday = f"r{4 * DAY + 360} " + day_driven(541) * 2
    for start in (WEEK - 1, WEEK):
        text = f"{monday} r{start - length_of(monday)} d60"
        when = "on Sunday at 23:59" if start < WEEK else "on Monday at 00:00"
        what = f"two days of 541 minutes of driving in the week, and a day that began {when}"
        yield limited("B5", what, 480 if start < WEEK else NONE, text)


def weeks() -> Iterator[Made]:
    """B6 and B7: driving in the week, and in two."""
    for driven in (3300, 3359, 3360, 3361):
        yield limited("B6", f"{driven} minutes of driving in the week, where 3,360 are allowed", max(0, 3360 - driven), f"r360 d{driven}")
    for driven in (2279, 2280, 2281, 2282):
        left = 3360 - driven
        what = f"{driven} minutes of driving in a week that ends in 1,080"
        yield limited("B6", what, left if left < 1080 else NONE, f"r360 d{driven}", WEEK - 1080)
    yield limited("B6", "3,360 minutes of driving, and the next week begins", 3360, "r360 d3360", WEEK)
    yield limited("B6", "3,360 minutes of driving, and the week's last minute begins", 0, "r360 d3360", WEEK - 1)
    first = f"r360 d2700 r{WEEK - 3060}"
    for driven in (2640, 2699, 2700, 2701):
        what = f"2,700 minutes of driving in one week and {driven} in the next, where 5,400 are allowed"
        yield limited("B7", what, max(0, 2700 - driven), f"{first} d{driven}")
    for driven in (1619, 1620, 1621):
        left = 2700 - driven
        what = f"2,700 minutes of driving in one week, and {driven} in the next, which ends in 1,080"
        yield limited("B7", what, left if left < 1080 else NONE, f"{first} d{driven}", 2 * WEEK - 1080)
    yield limited("B7", "2,700 minutes of driving in the week before the last, and none in the last", NONE, "r360 d2700", 2 * WEEK + 8000)
    yield limited("B7", "3,000 minutes of driving in the week before", 2400, "r360 d3000", WEEK)


def weekly_rests() -> Iterator[Made]:
    """B8: the latest start of the weekly rest."""
    days = f"r360 {FIVE_DAYS}"
    place = length_of(days) - 360
    for worked in (60, 8640 - place - 1, 8640 - place, 8640 - place + 1):
        what = f"{place + worked} minutes since the last weekly rest, where 8,640 are allowed"
        yield limited("B8", what, max(0, 8640 - place - worked), f"{days}w{worked}")
    for rest in (1439, 1440):
        left = 8640 if rest == 1440 else max(0, 8640 - place - 60 - rest)
        yield resting("B8", f"{place + 60} minutes since the last weekly rest", left, f"{days}w60", rest)
    yield limited("B8", "a minute of work on a Friday, after rest since the base", 8639, f"r{4 * DAY} w1")


def two_weeks() -> Iterator[Made]:
    """B9: the latest start of the weekly rest that two weeks need."""
    long, short = (3 * DAY, 2700), (5 * DAY, 1440)
    now = WEEK + 4 * DAY
    rows = [
        ("one weekly rest in the week before, and none in this", [long], now, WEEK - 4 * DAY - 1),
        ("two weekly rests in the week before, and none in this", [(DAY, 2700), short], now, WEEK - 4 * DAY),
        ("a weekly rest of 45 hours in the week before, and one of 24 in this", [long, (WEEK + DAY, 1440)], now, 2 * WEEK - 4 * DAY - 1),
        ("two weekly rests in the week before, and two in this", [(DAY, 2700), short, (WEEK + DAY, 1440), (WEEK + 2 * DAY + 60, 2700)],
         WEEK + 5 * DAY, NONE),
        ("two weekly rests of 24 hours in two weeks", [(3 * DAY, 1440), (WEEK + DAY, 1440)], now, WEEK - 4 * DAY - 1),
        ("a rest of 45 hours over the end of the week before, and none in this", [(WEEK - 1350, 2700)], now, WEEK - 4 * DAY - 1),
        ("no weekly rest in the week before and in this, so that the two lack one in any case", [], now, WEEK - 4 * DAY),
    ]
    for what, rests, horizon, left in rows:
        yield limited("B9", what, left, laid(rests, horizon, SHORT))


# What is used


def used() -> Iterator[Made]:
    """What is printed before the limits."""
    yield made("ahead", "nothing is held, and the forecast begins at the base", "", "")
    yield made("ahead", "nothing is held, and the forecast begins 600 minutes after the base", "", "", 600)
    yield made("ahead", "only rest is held, so no last rest has a start", "", "r600")
    yield made("ahead", "only minutes before the base are held", "", "d600", 60, BASE, WEEK)
    yield made("ahead", "the base is the first Monday that is read, and the week before it is told too", "", "r360 d60", None, FIRST_BASE)
    places = ((100, "within what is held"), (420, "at the horizon"), (421, "a minute after the horizon"), (-5000, "before the base"))
    for minute, what in places:
        yield made("ahead", f"the minute that is asked lies {what}", "", "r360 d60", minute)
    for rest in (539, 540):
        what = f"a rest of {rest} minutes goes on after the horizon, where 540 end the day"
        yield made("ahead", what, f"day {360 if rest < 540 else 960 + rest}", "r360 w600 r60", 960 + rest)
    for count in (0, 1, 4):
        text = "r360 " + f"{REDUCED} " * count + "w61"
        yield made("ahead", f"{count} reduced daily rests since the last weekly rest", f"reduced {count}", text)
    for rest in (1439, 1440, 1441):
        text = f"r360 {REDUCED} {REDUCED} w900"
        what = f"two reduced daily rests, a day of 900 minutes, and then a rest of {rest}, where 1,440 are a weekly rest"
        yield made("ahead", what, f"reduced {3 if rest < 1440 else 0}", text, length_of(text) + rest)
    text = f"r360 {REDUCED} w600 r1440 {REDUCED} w60"
    yield made("ahead", "a reduced daily rest, a weekly rest and another reduced daily rest", "reduced 1", text)
    for driven in (540, 541):
        text = f"r360 {day_driven(driven)}{day_driven(541)} d270 r45 d272"
        what = f"days of {driven} and 541 minutes of driving before today, which has 542"
        yield made("ahead", what, f"extended {1 + (driven > 540)}", text)
    sunday = f"r{5 * DAY + 360} {day_driven(541)}d60"
    yield made("ahead", "a day of 541 minutes of driving on Saturday, and today began on Sunday", "extended 1", sunday)
    yield made("ahead", "a day of 541 minutes of driving on Saturday, and today begins on Monday", "extended 0", sunday, WEEK + 700)
    yield made("ahead", "driving over midnight on Sunday counts in both weeks", "", f"r{WEEK - 100} d270 r600 d30")


def coming() -> Iterator[Made]:
    """Breaches that come in any case, and debts that are open."""
    none = laid([], 2 * WEEK - 600, SHORT)
    yield made("ahead", "two weeks without a weekly rest end in 600 minutes, and a rest that begins now comes too late", "coming 1", none)
    whole = laid([], 2 * WEEK, SHORT)
    yield made("ahead", "two weeks without a weekly rest have ended, which is no news", "coming 0", whole)
    owing = [(4 * DAY, 2640), *[(WEEK * week + DAY, 2700) for week in (1, 2)]]
    for minutes in (2759, 2760):
        what = f"60 minutes are owed by the end of a week without a weekly rest, which ends in {minutes}, where 2,760 are needed"
        yield made("ahead", what, f"coming {int(minutes < 2760)}", laid(owing, 4 * WEEK - minutes, 419))
    whole = [*owing, (WEEK * 3 + DAY, 2700)]
    what = "60 minutes are owed by the end of this week, and a rest that begins now is longer than the one before, which then pays them"
    yield made("ahead", what, "coming 0", laid(whole, 4 * WEEK - 60, 419))
    for minutes, what in ((1, "in a minute"), (0, "now, so that the debt isn't open any more")):
        yield made("ahead", f"60 minutes are owed, and the deadline comes {what}", f"open {minutes}", laid(whole, 4 * WEEK - minutes, 419))
    text = laid([(4 * DAY, 2640), (WEEK + DAY, 2760)], WEEK + 5 * DAY)
    yield made("ahead", "60 minutes are owed, and a rest that is held pays them", "open 0", text)
    text = laid([(4 * DAY, 2640), (WEEK + 4 * DAY, 2000)], 2 * WEEK + DAY, 419)
    yield made("ahead", "two debts are open", "open 2", text)
    text = laid([(4 * DAY, 2640)], WEEK + DAY, 419)
    yield made("ahead", "60 minutes are owed, and the rest since the horizon pays them", "open 0", text, WEEK + DAY + 600)


def apart() -> Iterator[Made]:
    """What isn't examined after the last stretch, stretches before it, and the end of the calendar."""
    parts = (("dc60", "driving with a second driver"), ("rc1", "a minute of rest with a second driver"), ("x60 d60", "a gap and driving"))
    for later, what in parts:
        yield made("ahead", f"after the horizon comes {what}, so there is no forecast", "no forecast", f"r360 d60 {later}")
    what = "after the horizon comes a gap and then rest, and the minute lies long after it"
    yield made("ahead", what, "no forecast", "r360 d60 x60 r1", WEEK)
    gap = f"r360 d60 x{WEEK - 420} r360 d120"
    yield made("ahead", "of two stretches the last is looked at", "", gap)
    yield made("ahead", "the minute lies in the first of two stretches, and the forecast begins at the last horizon", "", gap, 100)
    yield made("ahead", "in the second stretch begins crew, so there is no forecast", "no forecast", f"{gap} dc1")
    days = LATEST // DAY
    base = DAY * (days - (days - 4) % 7)
    for more in (0, 1):
        what = "the forecast doesn't go past 2099-12-31" if not more else "the forecast goes a minute past 2099-12-31"
        yield made("ahead", what, "fault Z3" if more else "", "r360 d60", LATEST + more - base, base)
    place = LATEST + 1 - base
    what = "what is held goes to where a forecast would pass 2099-12-31, and the minute lies before it"
    yield made("ahead", what, "fault Z3", f"r360 d{place - 360}", 0, base)
    what = "the last minute that is read, with a second driver at the end of what is held"
    yield made("ahead", what, "no forecast", "r360 dc60", LAST_MINUTE - base, base)


def forecasts() -> list[Made]:
    """All cases of forecasts."""
    makers = (breaks, daily_rests, reduced_rests, driving_days, weeks, weekly_rests, two_weeks, used, coming, apart)
    return [one for maker in makers for one in maker()]
