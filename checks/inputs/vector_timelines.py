"""Conformance cases of whole timelines: where the examination ends, the base, several rules at once, whole years, and stretches; and all
cases of the rules together."""
import random
import re
from collections.abc import Iterator

from inputs import hard_timelines, vector_days, vector_rests
from inputs.vector_days import (
    BASE, DAY, FIVE_DAYS, REDUCED, WEEK, day_driven, given_of, judged, length_of, made, minutes_text, spans_of, why_of,
)
from inputs.vector_rests import laid
from lib.vector_sets import Given, Made
from slow import slow_rules

# For each rule a timeline that breaks it, and the first horizon, in minutes after the base, at which it shows.
OWING = laid([(4 * DAY, 1440), *[(WEEK * week + DAY, 2700) for week in (1, 2, 3)]], 4 * WEEK + 600)
BROKEN = {
    "B1": ("r360 d300 r600", 360 + 271),
    "B2": ("r360 w930 r700", 360 + 901),
    "B3": ("r360 " + " ".join([REDUCED] * 4) + " w60 r700", 360 + 4 * DAY + 1),
    "B4": ("r360 d270 r45 d270 r45 d90 r700", 360 + 691),
    "B5": ("r360 " + day_driven(600) * 3 + "w60 r700", 360 + 2 * DAY + 631),
    "B6": (f"r360 d3420 r{WEEK - 3780} w60", 360 + 3361),
    "B7": (f"r360 d2700 r{WEEK - 3060} d2760 r60", WEEK + 2701),
    "B8": (f"r360 {FIVE_DAYS}w60 r600 w840 r1440 w60 r700", 360 + 8641),
    "B9": (laid([], 2 * WEEK + 600), 2 * WEEK),
    "B10": (OWING, 4 * WEEK),
}
NEXT = {"nothing is held after it": "", "a minute isn't held": "x1 w1", "a minute has a second driver": "wc1 r1",
        "driving with a second driver": "dc600 r60"}


def cut(text: str, past: int) -> str:
    """The first minutes of some tokens."""
    parts, place = [], 0
    for token in text.split():
        count = min(length_of(token), past - place)
        if count > 0:
            parts.append(f"{token[0]}{count}")
            place += count
    return " ".join(parts)


def horizons() -> Iterator[Made]:
    """For each rule, horizons around the first at which a breach shows."""
    for number, (rule, (text, first)) in enumerate(BROKEN.items()):
        for turn, (more, (what, later)) in enumerate([(more, one) for more in (-1, 0, 1) for one in NEXT.items()]):
            if turn % 4 in (0, 1 + number % 3):
                side = "a minute before" if more < 0 else "a minute after" if more > 0 else "at"
                told = f"the horizon is {side} the first minute with which the breach shows, and then {what}"
                yield made("horizon", rule, told, judged(more >= 0), f"{cut(text, first + more)} {later}")


def reasons() -> Iterator[Made]:
    """Where the examination ends, and why."""
    for place in (0, 1, 600, DAY, WEEK - 1, WEEK, WEEK + 1):
        before = f"r{place} " if place else ""
        where = f"minute {place} after the base"
        for later, claim in (("", "unknown"), ("x1 r600", "unknown"), ("rc1 r600", "crew"), ("dc1", "crew"),
                             ("x5000 dc60 d300", "unknown")):
            if place or later:
                what = {"unknown": "isn't held", "crew": "has a second driver"}[claim]
                yield made("reason", "B1", f"{where} is the first that {what}, and minutes after it don't count", claim, before + later)
    for letters in ("d300", "dc300", "w1"):
        what = f"the base itself isn't held, and '{letters}' comes an hour later"
        yield made("reason", "B1", what, "unknown", f"x60 {letters}")
    whole = given_of("r360 d271 r600 x600 d271 r600")
    order = [whole["spans"][2], whole["spans"][0], whole["spans"][1], *whole["spans"][:2:-1]]
    yield Made("reason", why_of("B1", "the spans are given in another order of time", "breach"), "B1", "breach",
               {"base": BASE, "spans": order})
    yield Made("reason", why_of("B1", "nothing is held at all", "unknown"), "B1", "unknown", {"base": BASE, "spans": []})


def later(given: Given, weeks: int) -> Given:
    """The same timeline with a base some weeks later."""
    return {"base": given["base"] + weeks * WEEK, "spans": given["spans"]}


def is_broken(rule: str, given: Given) -> bool:
    """Whether the slow program finds a breach of a rule."""
    held = [(start, past, mark.split(" ")[0], mark.endswith("crew")) for start, past, mark in given["spans"]]
    return any(breach[0] == int(rule[1:]) for breach in slow_rules.report(held, given["base"])[2])


def bases() -> Iterator[Made]:
    """For each rule, what lies before the base: it counts as rest."""
    for rule, (text, _) in BROKEN.items():
        for shift in (1, WEEK // 2 // DAY):
            before = WEEK - shift * DAY
            for weeks in (0, 1):
                given = later(given_of(f"r{before} {text}"), weeks)
                where = f"{shift} days before the second Monday"
                what = (f"what breaks the rule begins {where}, and the base is the {('first', 'second')[weeks]} Monday, before "
                        f"which all counts as rest")
                claim = judged(is_broken(rule, given))
                yield Made("base", why_of(rule, what, claim), rule, claim, given)
    for more in (-60, -1, 0, 1, 60):
        text = f"r{WEEK - 271} d271 r600"
        given = later(given_of(text), 1)
        given["spans"] = spans_of(f"r{WEEK - 271 + more} d271 r600", BASE)
        inside = max(0, more)
        what = (f"271 minutes of driving end {minutes_text(abs(more))} {'after' if more >= 0 else 'before'} the base, so {inside} of "
                f"them are examined")
        yield Made("base", why_of("B1", what, "no breach"), "B1", "no breach", given)


def calendar() -> Iterator[Made]:
    """For each rule a timeline from the first Monday that is read, and one that ends with the calendar."""
    for rule, (text, first) in BROKEN.items():
        if length_of(text) <= WEEK + 600:
            yield made("calendar", rule, "the base is 2000-01-03, the first Monday that is read", "breach", text, hard_timelines.FIRST_BASE)
    for rule in ("B1", "B2", "B4", "B8"):
        text, first = BROKEN[rule]
        base = hard_timelines.LAST_BASE - (WEEK if rule == "B8" else 0)
        rest = hard_timelines.LAST_PAST - base
        tokens = cut(text, min(length_of(text), rest))
        tokens += f" r{rest - length_of(tokens)}"
        yield made("calendar", rule, "rest is held up to the end of 2099, where the days that are read end", "breach", tokens, base)


# Timelines between known rests: nothing in them depends on how what isn't known is judged

REST_AFTER = 2_700
BETWEEN = "between known rests, "
RESTED = ("B7", "B9", "apart", "long")  # the generators whose timelines most often depend on it
# What is said of cases that need the base, the horizon, or a rest that isn't known, where it is.
ENDS = re.compile("base|horizon|first rest|last rest|held")
KEPT = 3  # each third case stays as it is


def can_be_rested(given: Given) -> bool:
    """Whether there is room for a week before a timeline, and for a rest after it, in the days that are read."""
    return given["base"] - WEEK >= hard_timelines.FIRST_BASE and given["spans"][-1][1] + REST_AFTER <= hard_timelines.LAST_PAST


def in_known_rest(given: Given) -> Given:
    """The same timeline after a week of known rest, and before 45 hours of it."""
    base, past = given["base"], given["spans"][-1][1]
    return {"base": base - WEEK, "spans": [[base - WEEK, base, "rest"], *given["spans"], [past, past + REST_AFTER, "rest"]]}


def with_known_rests(cases: list[Made]) -> Iterator[Made]:
    """The cases, of which most of some generators are put between known rests."""
    for place, one in enumerate(cases):
        if one.generator in RESTED and place % KEPT and not ENDS.search(one.why) and can_be_rested(one.given):
            yield one._replace(why=one.why.replace(": ", f": {BETWEEN}", 1), given=in_known_rest(one.given))
        else:
            yield one


# Several rules at once

# Seeds of timelines of at most 90 spans and 25 breaches that break two rules or more: of `mixed` ones three or more.
SEEDS = {
    "mixed": [
        0, 2, 3, 7, 14, 19, 20, 23, 26, 27, 31, 35, 38, 40, 42, 47, 48, 49, 50, 53, 54, 61, 62, 68, 69, 70, 76, 80, 81, 84, 85, 95, 98, 99,
        100, 103, 104, 105, 112, 116,
    ],
    "weekly": [0, 1, 3, 4, 5, 7, 8, 10, 11, 12, 15, 16, 17, 19, 20, 22, 24, 25, 28, 30, 33, 34, 35, 37, 38],
    "chained": [0, 4, 12, 28, 29, 46, 48, 55, 61, 63, 64, 65, 67, 71, 72, 76, 87, 100, 106, 120, 123, 135, 136, 140, 142],
}
MAKERS = {
    "mixed": lambda seed: hard_timelines.timeline(seed, 1 + seed % 3),
    "weekly": hard_timelines.weekly_timeline,
    "chained": hard_timelines.chained_timeline,
}


def listed(kinds: list[int]) -> str:
    """Some rules in words."""
    names = [f"B{kind}" for kind in kinds]
    return names[0] if len(names) == 1 else ", ".join(names[:-1]) + " and " + names[-1]


def at_once() -> Iterator[Made]:
    """Timelines near many limits that break several rules."""
    for name, seeds in SEEDS.items():
        for seed in seeds:
            spans, base, past = MAKERS[name](seed)
            found, debts = slow_rules.examine(spans, base, past)
            kinds = sorted({breach[0] for breach in found})
            owing = f", and {len(debts)} weeks owe" if debts else ""
            why = f"{listed(kinds)} at once: a timeline near many limits has {len(found)} breaches of these rules and of no other{owing}."
            given = {"base": base, "spans": [[start, end, activity] for start, end, activity in spans]}
            yield Made("at-once", why, f"B{kinds[0]}", "breach", given)


# Whole years


def quiet_year() -> str:
    """A year of short days and long weekends, and a horizon at its end."""
    return "r360 " + ("d200 r45 d100 r1095 " * 4 + "d200 r45 d100 r3975 ") * 52


LONG_WEEKS = 40
WORKING_DAYS = "w560 r880 " * 2 + "d270 r45 d270 r45 d70 r740 " * 2 + "w600 "
WEEKENDS = {0: "r1680 w1 r1299 w1 r739 ", 2: "r3720 "}  # by the week modulo 4: one that owes 1,020 minutes, and one that pays them


def long_year() -> str:
    """Weeks with two long days each, of which each fourth has a short weekend, which the one after the next makes good."""
    return "r360 " + "".join(WORKING_DAYS + WEEKENDS.get(week % 4, "r2700 w1 r1019 ") for week in range(LONG_WEEKS))


def chained_year() -> str:
    """A year whose rests lie over the ends of its weeks, with some that are missing."""
    chance = random.Random("a year")
    rests = []
    for week in range(51):
        if chance.random() < 0.85:
            rests.append((WEEK * (week + 1) - 1350, 2700))
    return laid(rests, 52 * WEEK)


def years() -> Iterator[Made]:
    """Timelines of 40 and 52 weeks, the one that is examined fastest first."""
    yield made("year", "B9", "a year of 52 weeks whose rests lie over the ends of weeks, and some of them are missing", "breach",
               chained_year())
    yield made("year", "B9", "a quiet year of 52 weeks, each with two days off", "no breach", quiet_year())
    yield made("year", "B4", f"{LONG_WEEKS} weeks with two days of more than ten hours of driving in each", "breach", long_year())


def timelines() -> list[Made]:
    """All cases of timelines."""
    found = [*with_known_rests([*vector_days.timelines(), *vector_rests.timelines()])]
    for maker in (horizons, reasons, bases, calendar, at_once, years):
        found += maker()
    return found
