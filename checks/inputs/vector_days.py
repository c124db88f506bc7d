"""Conformance cases of breaks, days and weeks of driving (B1 to B8): timelines at each limit, from both sides. docs/RULES.md says what
the rules are.

A timeline is written as tokens from its base: a letter for the activity (`r` rest, `a` available, `w` work, `d` drive), with `c` after it
with a second driver, or `x` for minutes that aren't held; and a number of minutes."""
import itertools
import re
from collections.abc import Iterator

from lib.vector_sets import ARTICLES, Given, Made

BASE = 28_491_840  # Monday, 2024-03-04
DAY, WEEK = 1440, 10_080
MARKS = {"r": "rest", "a": "available", "w": "work", "d": "drive"}
ENDINGS = {
    "breach": "this is a breach", "no breach": "this is no breach", "paid": "a later rest pays the debt",
    "not paid": "nothing pays the debt",
    "no debt": "nothing is owed", "unknown": "the examination ends there, since the minute isn't held",
    "crew": "the examination ends there, since there is a second driver", "": "",
}


def spans_of(text: str, base: int) -> list[list[object]]:
    """The spans that some tokens give from a base on."""
    spans: list[list[object]] = []
    place = base
    for letter, crew, count in re.findall(r"([rawdx])(c?)(\d+)", text):
        past = place + int(count)
        if letter != "x" and past > place:
            spans.append([place, past, MARKS[letter] + (" crew" if crew else "")])
        place = past
    return spans


def length_of(text: str) -> int:
    """The minutes of some tokens."""
    return sum(int(count) for count in re.findall(r"\d+", text))


def minutes_text(count: int) -> str:
    """A number of minutes in words."""
    return "1 minute" if count == 1 else f"{count} minutes"


def given_of(text: str, base: int = BASE) -> Given:
    """A timeline as a case has it."""
    return {"base": base, "spans": spans_of(text, base)}


def why_of(rule: str, what: str, claim: str) -> str:
    """The sentence of a case."""
    ending = f"; {ENDINGS[claim]}" if claim else ""
    return f"{rule} (Article {ARTICLES[rule]}): {what}{ending}."


def made(generator: str, rule: str, what: str, claim: str, text: str, base: int = BASE) -> Made:
    """A case with a timeline."""
    return Made(generator, why_of(rule, what, claim), rule, claim, given_of(text, base))


def judged(is_breach: bool) -> str:
    """What a sentence says of a rule."""
    return "breach" if is_breach else "no breach"


# B1: breaks

PLACES = {
    "in the morning": ("r360 ", " r600"),
    "from the base's first minute": ("", " r600"),
    "over midnight": ("r1300 ", " r600"),
    "over the end of the week": ("r9900 ", " r600"),
    "up to the horizon": ("r360 ", ""),
    "between other work": ("r300 w60 ", " w30 r600"),
}


def break_shapes() -> Iterator[tuple[str, str, bool]]:
    """Ways to drive: in words, in tokens, and whether they are breaches."""
    for minutes in (269, 270, 271, 300):
        yield f"{minutes} minutes of driving without a break, where 270 are allowed", f"d{minutes}", minutes > 270
    for rest in (43, 44, 45, 46):
        yield f"271 minutes of driving with a break of {rest} minutes, where 45 are a complete break", f"d135 r{rest} d136", rest < 45
    for first, second in itertools.product((14, 15, 16), (29, 30, 31)):
        yield (f"271 minutes of driving with breaks of {first} and then {second} minutes, where 15 and then 30 are needed",
               f"d90 r{first} d90 r{second} d91", first < 15 or second < 30)
    for first, second in ((30, 14), (30, 15), (30, 29), (44, 15), (44, 29), (29, 29)):
        yield (f"271 minutes of driving with breaks of {first} and then {second} minutes, the second shorter than 30",
               f"d90 r{first} d90 r{second} d91", True)
    for first, second in ((30, 30), (29, 30), (44, 30), (15, 44)):
        yield f"271 minutes of driving with breaks of {first} and then {second} minutes, of which the first may be longer than 15", \
            f"d90 r{first} d90 r{second} d91", False
    for activity, name in (("w", "work"), ("a", "availability"), ("d", "driving")):
        minutes = 135 if activity != "d" else 134
        yield (f"a break of 22 and 23 minutes with a minute of {name} between, in 271 minutes of driving",
               f"d{minutes} r22 {activity}1 r23 d136", True)
        yield f"a break of 44 minutes and one of 1 with a minute of {name} between", f"d{minutes} r44 {activity}1 r1 d136", True
    yield "271 minutes of driving with 45 minutes of availability between, which isn't a break", "d135 a45 d136", True
    yield "271 minutes of driving with 45 minutes of other work between", "d135 w45 d136", True
    yield "270 minutes of driving with ten hours of other work between", "d135 w600 d135", False


def more_break_shapes() -> Iterator[tuple[str, str, bool]]:
    """Ways to drive with several breaks."""
    yield "271 minutes of driving with three breaks of 15 minutes", "d68 r15 d68 r15 d68 r15 d67", True
    yield "breaks of 15, 10 and 30 minutes: the one between doesn't matter", "d60 r15 d60 r10 d60 r30 d91", False
    yield "breaks of 15, 29 and 30 minutes: the first and the last are a complete break", "d60 r15 d60 r29 d60 r30 d91", False
    yield "after breaks of 15 and 30 minutes, 271 minutes with one of 30: the 15 serve once", "d60 r15 d60 r30 d136 r30 d135", True
    yield "after breaks of 15 and 30 minutes, 271 minutes with breaks of 15 and 30 again", "d60 r15 d60 r30 d90 r15 d90 r30 d91", False
    yield "after a break of 45 minutes, 271 minutes with one of 30", "d60 r45 d136 r30 d135", True
    yield "15 minutes before a break of 45 don't help 30 minutes after it", "d60 r15 d60 r45 d136 r30 d135", True
    yield "271 minutes before a break of 45 and 271 after it: two breaches", "d271 r45 d271", True
    yield "270 minutes before a break of 45 and 270 after it", "d270 r45 d270", False
    yield "270 minutes before a break of 44 and one after it", "d270 r44 d1", True
    yield "a break of 45 minutes that is recorded in two pieces", "d135 r20 r25 d136", False
    yield "271 minutes of driving that are recorded in three pieces", "d100 d100 d71", True
    yield "a night's rest of nine hours is a complete break too", "d135 r540 d136", False
    yield "a break of 15, other work, and a break of 30 minutes", "d90 r15 w60 r30 d91 r45 d181", False
    yield "a break of 30 that comes before any of 15 completes nothing", "d90 r30 d90 r15 d45 r30 d91", False
    yield "a break of 15 right after work and before driving begins counts", "w60 r15 d135 r30 d136", False
    yield "a break of 14 before driving begins doesn't", "w60 r14 d135 r30 d136", True


def breaks() -> Iterator[Made]:
    """B1 at its limits, at each place."""
    shapes = [*break_shapes(), *more_break_shapes()]
    for number, (what, tokens, is_breach) in enumerate(shapes):
        for turn, (place, (before, after)) in enumerate(PLACES.items()):
            if turn in (0, 1 + number % 5, 1 + (number // 5 + 2 + number) % 5):
                yield made("B1", "B1", f"{what}, {place}", judged(is_breach), before + tokens + after)


# B2 and B3: daily rests

STARTS = {"on Monday morning": "r360 ", "from the base's first minute": "", "over the end of the week": "r9700 "}


def portion(length: int, rest: int) -> int:
    """How many minutes of a rest after a day lie within 24 hours of the day's start."""
    return min(rest, DAY - length)


def short_rests() -> Iterator[Made]:
    """B2 by the lengths of the day and of the rest after it."""
    for length, rest in itertools.product((779, 899, 900, 901, 960), (539, 540, 541, 660, 1439, 1440)):
        whole = length if rest >= 540 else length + rest + 60
        is_breach = portion(whole, rest if rest >= 540 else DAY) < 540
        what = f"a duty day of {length} minutes and then a rest of {rest}, where nine hours have to lie within 24 hours of the day's start"
        yield made("B2", "B2", what, judged(is_breach), f"r360 w{length} r{rest} w60 r700")
    for (place, before), length in itertools.product(STARTS.items(), (899, 900, 901)):
        for activity, name in (("w", "work"), ("a", "availability")):
            for after, end in ((" r700", "a long rest"), ("", "the horizon")):
                what = f"{length} minutes of {name} {place} and then {end}, where 900 leave nine hours"
                yield made("B2", "B2", what, judged(length > 900), f"{before}{activity}{length}{after}")


def long_days() -> Iterator[Made]:
    """B2 of days that no rest of nine hours ends in time."""
    for rest in (1, 538, 539, 540):
        what = f"work of 600 and of 300 minutes with a rest of {rest} between, where only nine hours end a day"
        yield made("B2", "B2", what, judged(rest < 540), f"r360 w600 r{rest} w300 r700")
    for rest in (359, 360, 361):
        what = f"work of 300 and of {900 - 300 - rest} minutes with a rest of {rest} between: the day has 900 minutes"
        yield made("B2", "B2", what, "no breach", f"r360 w300 r{rest} w{600 - rest} r540 w60 r700")
    for length in (1439, 1440, 1441, 1500, 2880, 2881):
        what = f"a duty day of {length} minutes, of which {max(0, length - DAY)} lie beyond 24 hours: the portion is {DAY - length}"
        yield made("B2", "B2", what, "breach", f"r360 w{length} r600 w60 r700")
    for turns in (2, 3):
        text = "r360 " + " ".join(["w800 r539"] * turns) + " w60 r700"
        yield made("B2", "B2", f"{turns} rests of 539 minutes end no day, so there is one breach", "breach", text)
        text = "r360 " + " ".join(["w901 r540"] * turns) + " w60 r700"
        yield made("B2", "B2", f"{turns} days of 901 minutes, each with a rest of 540 after it: a breach each", "breach", text)


REDUCED = "w900 r540"
REGULAR = "w700 r740"


def reduced_rests() -> Iterator[Made]:
    """B3 by how many rests are reduced, and by the fourth of them."""
    for count in range(2, 8):
        for place, before in STARTS.items():
            text = before + " ".join([REDUCED] * count) + " w60 r700"
            yield made("B3", "B3", f"{count} reduced rests since the last weekly rest, {place}, where three are allowed", judged(count > 3),
                       text)
    for length, rest in itertools.product((779, 780, 781, 899, 900, 901), (540, 541, 659, 660, 661, 1439, 1440)):
        part = portion(length, rest)
        text = "r360 " + " ".join([REDUCED] * 3) + f" w{length} r{rest} w60 r700"
        what = f"three reduced rests, and after a day of {length} minutes one of {rest}, of which {part} lie within the 24 hours"
        yield made("B3", "B3", what, judged(540 <= part < 660 and rest < 1440), text)


def split_rests() -> Iterator[Made]:
    """B3 by the first part of a rest that is taken in two."""
    for part, length, rest in itertools.product((179, 180, 181), (899, 900, 901), (540, 541)):
        text = "r360 " + " ".join([REDUCED] * 3) + f" w300 r{part} w{length - 300 - part} r{rest} w60 r700"
        what = (f"three reduced rests, and one of {rest} after a day of {length} minutes with a rest of {part} in it, where 180 "
                f"make it regular")
        yield made("B3", "B3", what, judged(part < 180 and length <= 900), text)
    for first, second in ((90, 90), (179, 179), (1, 180), (180, 1)):
        text = "r360 " + " ".join([REDUCED] * 3) + f" w200 r{first} w100 r{second} w{600 - first - second} r540 w60 r700"
        what = f"three reduced rests, and a day with rests of {first} and {second} minutes in it, where one of 180 makes it regular"
        yield made("B3", "B3", what, judged(max(first, second) < 180), text)
    for where, day in (("at the day's start", "w1 r180 w719"), ("at the day's end", "w719 r180 w1")):
        text = "r360 " + " ".join([REDUCED] * 3) + f" {day} r540 w60 r700"
        yield made("B3", "B3", f"three reduced rests, and a day with a rest of 180 minutes {where}", "no breach", text)
    text = "r360 " + " ".join([REDUCED] * 2 + ["w300 r180 w420 r540"] + [REDUCED] * 2) + " w60 r700"
    yield made("B3", "B3", "two reduced rests, one in two parts, and two reduced ones: a part of 180 helps its own day alone", "breach",
               text)


def counted_rests() -> Iterator[Made]:
    """B3 by where reduced rests are counted from."""
    for rest in (1439, 1440, 1441, 2700):
        text = "r360 " + " ".join([REDUCED] * 2) + f" w300 r{rest} " + " ".join([REDUCED] * 2) + " w60 r700"
        what = f"two reduced rests, a rest of {rest} minutes, and two more, where 1,440 are a weekly rest"
        yield made("B3", "B3", what, judged(rest < 1440), text)
    for rest in (1439, 1440):
        text = "r360 " + " ".join([REDUCED] * 4) + f" w300 r{rest} " + " ".join([REDUCED] * 4) + " w60 r700"
        yield made("B3", "B3", f"four reduced rests, a rest of {rest} minutes, and four more", "breach", text)
    for pattern in itertools.product((True, False), repeat=4):
        rests = " ".join(REDUCED if is_reduced else REGULAR for is_reduced in pattern)
        digits = "".join("1" if is_reduced else "0" for is_reduced in pattern)
        what = f"reduced rests and, for each 0, regular ones: {digits}, and then two reduced"
        yield made("B3", "B3", what, judged(sum(pattern) > 1), f"r360 {rests} {REDUCED} {REDUCED} w60 r700")
    for known in (0, 1, 539, 540, 1439):
        text = "r360 " + " ".join([REDUCED] * 3) + f" w900 r{known}"
        what = f"three reduced rests, and a last rest of which {known} minutes are held: it may still be long"
        yield made("B3", "B3", what, "no breach", text)
    yield made("B3", "B3", "four reduced rests, the fourth ended by the horizon's last minute of work", "breach",
               "r360 " + " ".join([REDUCED] * 4) + " w1")


# B4 and B5: driving in a day

DRIVING = [
    ("in three parts", "d270 r45 d270 r45 d{}", 540),
    ("between other work", "w60 d270 r45 d270 r45 d{} w60", 540),
    ("with a rest of 539 minutes, which doesn't end the day", "d270 r45 d30 r539 d270 r45 d{}", 570),
    ("with 45 minutes of availability", "d270 r45 d200 a45 d{}", 470),
]


def daily_driving() -> Iterator[Made]:
    """B4 from both sides of ten hours."""
    for (how, text, before), (place, start) in itertools.product(DRIVING, STARTS.items()):
        for total in (599, 600, 601, 602):
            what = f"{total} minutes of driving in a duty day {how}, {place}, where 600 are allowed"
            yield made("B4", "B4", what, judged(total > 600), start + text.format(total - before) + " r700")
    for rest in (538, 539, 540, 541):
        what = f"300 and 301 minutes of driving with a rest of {rest} minutes between, where nine hours end the day"
        yield made("B4", "B4", what, judged(rest < 540), f"r360 d255 r45 d45 r{rest} d256 r45 d45 r700")
    for total in (600, 601, 660):
        what = f"{total} minutes of driving up to the horizon"
        yield made("B4", "B4", what, judged(total > 600), f"r360 d270 r45 d270 r45 d{total - 540}")
        what = f"two days of {total} minutes of driving"
        day = f"d270 r45 d270 r45 d{total - 540} r660 "
        yield made("B4", "B4", what, judged(total > 600), f"r360 {day}{day}w60 r700")
    yield made("B4", "B4", "ten hours on each side of a night's rest", "no breach",
               "r360 d270 r45 d270 r45 d60 r540 d270 r45 d270 r45 d60 r700")


def day_driven(minutes: int) -> str:
    """A day of 24 hours with at least 540 minutes of driving."""
    text = f"d270 r45 d270 r45 d{minutes - 540}" if minutes > 540 else "d270 r45 d270"
    return f"{text} r{DAY - length_of(text)} "


def extended_days() -> Iterator[Made]:
    """B5 by which days of a week are extended."""
    for pattern in itertools.product((540, 541), repeat=3):
        what = f"days of {', '.join(map(str, pattern))} minutes of driving in one week, where two may have more than 540"
        yield made("B5", "B5", what, judged(pattern.count(541) > 2), "r360 " + "".join(map(day_driven, pattern)) + "w60 r700")
    for pattern in itertools.product((540, 541), repeat=4):
        if pattern.count(541) > 1:
            what = f"days of {', '.join(map(str, pattern))} minutes of driving in one week"
            yield made("B5", "B5", what, judged(pattern.count(541) > 2), "r360 " + "".join(map(day_driven, pattern)) + "w60 r700")
    for count in (2, 3, 5):
        for total in (541, 600, 601):
            what = f"{count} days of {total} minutes of driving in one week"
            yield made("B5", "B5", what, judged(count > 2), "r360 " + day_driven(total) * count + "w60 r700")
    for rest in (539, 540):
        text = f"r360 {day_driven(541)}{day_driven(541)}d255 r45 d45 r{rest} d196 r45 d45 r700"
        yield made("B5", "B5", f"two extended days, and 541 minutes of driving with a rest of {rest} between", judged(rest < 540), text)


def extended_days_at_week_ends() -> Iterator[Made]:
    """B5 by the week in which a day starts."""
    sunday = 6 * DAY
    for start in (-2, -1, 0, 1):
        before = f"r{sunday + DAY + start - 2 * DAY} " + day_driven(541) * 2
        where = f"{minutes_text(abs(start))} {'before' if start < 0 else 'after'} Monday 00:00" if start else "on Monday at 00:00"
        yield made("B5", "B5", f"two extended days, and a third that starts {where}, where a day belongs to the week in which it starts",
                   judged(start < 0), before + day_driven(541) + "w60 r700")
        yield made("B5", "B5", f"an extended day, a short one, and a day and another after it, of which the first starts {where}",
                   "no breach",
                   f"r{sunday + DAY + start - 2 * DAY} " + day_driven(541) + day_driven(540) + day_driven(541) * 2 + "w60 r700")
        yield made("B5", "B5", f"one extended day, then three of which the first starts {where}", judged(start >= 0),
                   f"r{sunday + start} " + day_driven(541) * 4 + "w60 r700")
    for first in range(3, 7):
        text = f"r{first * DAY + 360} " + day_driven(541) * 4 + "w60 r700"
        names = ["Thursday", "Friday", "Saturday", "Sunday"]
        in_week = 7 - first
        yield made("B5", "B5", f"four extended days from {names[first - 3]} on, of which {min(4, in_week)} start in the first week",
                   judged(in_week > 2 or 4 - in_week > 2), text)


# B6 and B7: driving in weeks

EIGHT_HOURS = "r360 d240 r45 d240 r555 "


def weekly_driving() -> Iterator[Made]:
    """B6 from both sides of 56 hours."""
    for more in (-1, 0, 1, 2, 60):
        text = EIGHT_HOURS * 6 + f"r360 d240 r45 d{240 + more} r{555 - more}"
        yield made("B6", "B6", f"{3360 + more} minutes of driving in a week on seven days, where 3,360 are allowed", judged(more > 0), text)
        text = f"r360 d{3360 + more} r600"
        yield made("B6", "B6", f"{3360 + more} minutes of driving in a week in one go", judged(more > 0), text)
        text = f"r7200 d2880 d{480 + more} r600"
        yield made("B6", "B6", f"{3360 + more} minutes of driving, of which 2,880 lie before the end of the week", "no breach", text)
        text = f"d{3360 + more}"
        yield made("B6", "B6", f"{3360 + more} minutes of driving from the base's first minute up to the horizon", judged(more > 0), text)
    for beyond in (0, 1, 2):
        text = f"r{WEEK - 3362 + beyond} d3362 r600"
        what = f"3,362 minutes of driving, of which {beyond} lie after Sunday 24:00"
        yield made("B6", "B6", what, judged(3362 - beyond > 3360), text)
    for before in (0, 1, 2):
        text = f"r{WEEK - before} d3362 r600"
        what = f"3,362 minutes of driving, of which {before} lie before Monday 00:00 of the second week"
        yield made("B6", "B6", what, judged(3362 - before > 3360), text)
    text = f"d3361 r{WEEK - 3361} d3361 r60"
    yield made("B6", "B6", "3,361 minutes of driving in each of two weeks: a breach each", "breach", text)
    yield made("B6", "B6", "3,360 minutes of driving in each of two weeks", "no breach", f"d3360 r{WEEK - 3360} d3360 r60")
    for activity, name in (("a", "availability"), ("w", "work")):
        yield made("B6", "B6", f"3,360 minutes of driving and one of {name}", "no breach", f"d3360 {activity}1 r60")


def two_weeks_driving() -> Iterator[Made]:
    """B7 from both sides of 90 hours."""
    for first in (2700, 3360, 2041, 3000):
        for more in (-1, 0, 1, 2):
            second = 5400 + more - first
            text = f"r360 d{first} r{WEEK - 360 - first} d{second} r60"
            what = f"{first} minutes of driving in a week and {second} in the next, together {5400 + more}, where 5,400 are allowed"
            yield made("B7", "B7", what, judged(more > 0), text)
    for more in (-1, 0, 1, 2):
        yield made("B7", "B7", f"{5400 + more} minutes of driving in the base's week: it forms a pair with the week before too",
                   judged(more > 0), f"d{5400 + more} r60")
        text = f"r{WEEK - 2700} d{5400 + more} r60"
        yield made("B7", "B7", f"{5400 + more} minutes of driving in one go over the end of a week", judged(more > 0), text)
        text = f"r{WEEK} r360 d{5400 + more} r60"
        yield made("B7", "B7", f"{5400 + more} minutes of driving in the second week, after one of rest", judged(more > 0), text)
    for first, second, third in ((1800, 3600, 1800), (1801, 3600, 1800), (1800, 3600, 1801), (1800, 3601, 1800), (3000, 2000, 3000),
                                 (2700, 0, 2701)):
        text = f"d{first} r{WEEK - first} d{second} r{WEEK - second} d{third} r60"
        what = f"{first}, {second} and {third} minutes of driving in three weeks: each two neighbours are a pair"
        yield made("B7", "B7", what, judged(first + second > 5400 or second + third > 5400), text)
    yield made("B7", "B7", "2,700 minutes of driving before a week of rest and 2,701 after it", "no breach",
               f"d2700 r{WEEK - 2700} r{WEEK} d2701 r60")


# B8: six days

FIVE_DAYS = "w60 r1380 " * 5


def six_days() -> Iterator[Made]:
    """B8 from both sides of six days."""
    for more, rest in itertools.product((-1, 0, 1, 2), (1439, 1440, 1441, 2700)):
        text = f"r360 {FIVE_DAYS}w60 r600 w{780 + more} r{rest} w60 r600"
        is_breach = more > 0 if rest >= 1440 else True
        what = (f"a rest of {rest} minutes that starts {8640 + more} minutes after the last weekly rest, where one of 1,440 has "
                f"to start within 8,640")
        yield made("B8", "B8", what, judged(is_breach), text)
    for more, (place, before) in itertools.product((-1, 0, 1, 2), STARTS.items()):
        for known in ("", " r1", " r1440"):
            text = f"{before}{FIVE_DAYS}w60 r600 w{780 + more}{known}"
            held = minutes_text(int(known.strip().removeprefix("r") or 0))
            what = f"work up to {8640 + more} minutes after the first rest, {place}, and {held} of the last rest"
            yield made("B8", "B8", what, judged(more > 0), text)
    for rest in (1439, 1440, 1441):
        text = f"r360 w60 r1380 w60 r1380 w60 r{rest} {FIVE_DAYS}w60 r600"
        what = f"a rest of {rest} minutes on the third day, and work on six more days, where one of 1,440 is a weekly rest"
        yield made("B8", "B8", what, judged(rest < 1440), text)
    for count in (6, 7, 13, 14, 20):
        text = "r360 " + "w60 r1380 " * count + "w60 r600"
        what = f"work on {count + 1} days in a row without a weekly rest"
        yield made("B8", "B8", what, judged(count * DAY + 60 > 8640), text)
    for more in (0, 1):
        text = f"r360 {FIVE_DAYS}w60 r600 w{780 + more} r1440 {FIVE_DAYS}w60 r600 w{780 + more} r1440 w60 r600"
        yield made("B8", "B8", f"two times {8640 + more} minutes between weekly rests", judged(more > 0), text)
    yield made("B8", "B8", "availability in the place of work up to 8,641 minutes", "breach",
               f"r360 {FIVE_DAYS}w60 r600 a781 r1440 w60 r600")


def breaks_between() -> Iterator[Made]:
    """B1 with shorter rests between a break of 15 minutes and one of 30."""
    for count, length in ((2, 5), (3, 5), (4, 14)):
        for last in (29, 30):
            between = " ".join([f"r{length} d10"] * count)
            what = (f"a break of 15 minutes, {count} of {length}, and then one of {last}, in 271 minutes of driving: those between "
                    f"don't matter")
            text = f"r2700 d60 r15 d10 {between} r{last} d{201 - 10 * count} r2700"
            yield made("B1", "B1", what, judged(last < 30), text)
    what = "a break of 15 minutes, three of 10 with other work before each, and then one of 30, in 271 minutes of driving"
    yield made("B1", "B1", what, "no breach", "r2700 d60 r15 w5 r10 w5 r10 w5 r10 w5 r30 d211 r2700")
    what = "breaks of 15, 20, 20 and 30 minutes are one complete break, and then come 271 minutes with one of 30"
    yield made("B1", "B1", what, "breach", "r2700 d60 r15 d10 r20 d10 r20 d10 r30 d136 r30 d135 r2700")


def timelines() -> list[Made]:
    """All cases of B1 to B8."""
    makers = [breaks, breaks_between, short_rests, long_days, reduced_rests, split_rests, counted_rests, daily_driving, extended_days,
              extended_days_at_week_ends, weekly_driving, two_weeks_driving, six_days]
    return [one for maker in makers for one in maker()]
