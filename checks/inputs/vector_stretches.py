"""Conformance cases of stretches: what is examined of a timeline with gaps and crew, and what isn't (docs/RULES.md, 'Stretches')."""
import itertools
from collections.abc import Iterator

from inputs.vector_days import BASE, DAY, WEEK, given_of, minutes_text
from inputs.vector_timelines import BROKEN
from inputs.vector_rests import SHORT, laid
from lib.vector_sets import Given, Made

NUMBERS = ["no stretches", "one stretch", "two stretches", "three stretches", "four stretches", "five stretches"]


def stretch_count(given: Given) -> int:
    """How many stretches a timeline has, by the ends of its spans: they are in order and disjoint."""
    single = [(start, past) for start, past, mark in given["spans"] if not mark.endswith("crew")]
    count, monday = 1, given["base"]
    while True:
        horizon = monday
        for start, past in single:
            if start <= horizon < past:
                horizon = past
        mondays = [
            minute for start, past in single for minute in range(start + (5760 - start) % WEEK, past, WEEK) if minute > horizon
        ]
        if not mondays:
            return count
        count, monday = count + 1, min(mondays)


def made(what: str, text: str, before: int = 0) -> Made:
    """A case with a timeline that begins some minutes before the base."""
    given = given_of(text, BASE - before)
    given["base"] = BASE
    count = stretch_count(given)
    return Made("stretches", f"stretches: {what}; there {'is' if count == 1 else 'are'} {NUMBERS[count]}.", "stretches",
                f"stretches {count}", given)


def around_mondays() -> Iterator[Made]:
    """Horizons and new beginnings near a Monday's first minute."""
    for horizon, name in ((600, "on Monday at 10:00"), (WEEK - 1, "a minute before the next Monday"),
                          (WEEK, "at the first minute of the next Monday"),
                          (WEEK + 1, "a minute after the first minute of the next Monday")):
        for back, text in ((WEEK - 1, "a minute before"), (WEEK, "at"), (WEEK + 1, "a minute after")):
            for week, later in ((0, "a week"), (1, "two weeks")):
                again = back + week * WEEK
                if again > horizon:
                    what = f"what is held ends {name}, and begins again {text} the first minute of the Monday {later} after the base"
                    yield made(what, f"r{horizon} x{again - horizon} r3000 d60 r600")
    for monday, name in (("r1", "rest"), ("d1", "driving"), ("dc1", "driving with a second driver"), ("rc1", "rest with a second driver"),
                         ("x1", "not held")):
        for after, text in (("r600 d60", "of rest"), ("x600 d60", "that aren't held"), ("dc600 d60", "of driving with a second driver")):
            what = f"after a gap the Monday's first minute is {name}, and then come 600 minutes {text} and 60 of driving"
            yield made(what, f"r360 d60 x{WEEK - 420} {monday} {after}")


def gaps_and_crew() -> Iterator[Made]:
    """What ends an examination, and for how long."""
    for kind, name in (("x", "that aren't held"), ("dc", "of driving with a second driver"), ("rc", "of rest with a second driver")):
        for minutes in (1, 60, WEEK - 660, WEEK - 600, WEEK - 540, 2 * WEEK - 600):
            time = f"{minutes} minutes {name}" if minutes > 1 else f"a minute {name}".replace("aren't", "isn't")
            what = f"600 minutes of rest, {time}, and then rest"
            yield made(what, f"r600 {kind}{minutes} r{2 * WEEK} d60")
        for count, times in ((1, "one week"), (2, "two weeks"), (3, "three weeks"), (4, "four weeks")):
            what = f"{times} that end{'s' * (count == 1)} with minutes {name}"
            yield made(what, f"r9000 {kind}1080 " * count + "r600")
    for first, second in itertools.permutations((("x60", "60 minutes that aren't held"), ("dc60", "60 minutes with a second driver")), 2):
        yield made(f"the horizon is the first of {first[1]}, and before the next Monday come {second[1]}",
                   f"r600 {first[0]} d60 {second[0]} r{WEEK} d60")
    yield made("crew goes on over two Mondays", f"r600 dc{2 * WEEK} d600 r{WEEK}")
    yield made("crew ends with Sunday, and the Monday begins a stretch", f"r600 dc{WEEK - 600} r600 d60")
    yield made("crew for a minute on Monday at 00:01 ends the stretch at its second minute", f"r600 x{WEEK - 600} r1 dc1 r{WEEK} d5")


def ends() -> Iterator[Made]:
    """Where nothing is held, and where what is held ends."""
    yield made("nothing is held", "")
    yield made("only minutes before the base are held", "d600", WEEK)
    yield made("minutes before the base and up to it are held, and none after it", f"d{WEEK}", WEEK)
    for start in (1, 600, WEEK - 1, WEEK, WEEK + 1, 2 * WEEK):
        yield made(f"the first minute that is held comes {minutes_text(start)} after the base", f"x{start} d300 r600")
    for kind, name in (("d", "driving"), ("r", "rest"), ("dc", "driving with a second driver"), ("rc", "rest with a second driver")):
        yield made(f"after the horizon only a minute of {name} is held, on a Wednesday", f"r600 x{2 * DAY} {kind}1")
        yield made(f"after the horizon only a minute of {name} is held, on a Monday at 00:00", f"r600 x{WEEK - 600} {kind}1")
    yield made("the horizon is the end of what is held, so nothing is left that isn't examined", "r360 d60 r600")
    yield made("what is held ends with crew, which isn't examined", "r360 d60 dc600")
    yield made("the base itself has a second driver", f"dc60 r{WEEK} d5")
    yield made("driving up to the base and after it is examined from the base on", "d200 d200 r600", 200)


def apart() -> Iterator[Made]:
    """Each rule broken in the second stretch, over both, or in each."""
    for rule, (text, _) in BROKEN.items():
        yield made(f"what breaks {rule} lies in the second stretch", f"r600 x{WEEK - 600} {text} r1")
        if rule not in ("B9", "B10"):
            yield made(f"what breaks {rule} lies in each of two stretches",
                       f"{text} x{2 * WEEK - sum_of(text) + (WEEK if sum_of(text) > 2 * WEEK else 0)} {text}")
    for gap in (1, 600):
        what = (f"2,700 and 2,701 minutes of driving in two weeks with a gap of {minutes_text(gap)} before the Monday between: B7 isn't "
                f"found over a gap")
        yield made(what, f"r360 d2700 r{WEEK - 3060 - gap} x{gap} d2701 r60")
        what = f"six days without a weekly rest with a gap of {minutes_text(gap)} before a Monday between: B8 isn't found over a gap"
        yield made(what, "r4000 " + "w60 r1380 " * 4 + f"w{WEEK - 9760 - gap} x{gap} " + "w60 r1380 " * 3 + "w60 r600")
    for gap in (0, 60):
        owing = laid([(4 * DAY, 1440)], 2 * WEEK - max(gap, 1), SHORT) + (f" x{gap}" if gap else " w1")
        paying = laid([(DAY, 3960)], WEEK, SHORT)
        what = "a debt is paid only within its stretch: " + ("a gap comes before the rest that has room for it" if gap else "without a gap")
        yield made(what, f"{owing} {paying}")
    yield made("nine days without a rest, of which each stretch sees a part", f"d240 r45 x{WEEK - 285} d271 r600 x{WEEK - 871} d271")


def sum_of(text: str) -> int:
    """The minutes of some tokens."""
    return sum(int(token.lstrip("rawdxc")) for token in text.split())


def at_base() -> Iterator[Made]:
    """What is held is the base's first minute."""
    for kind, name in (("d", "driving"), ("dc", "driving with a second driver")):
        yield made(f"only the base's first minute is held, as {name}", f"{kind}1")


def stretches() -> list[Made]:
    """All cases of stretches."""
    return [one for maker in (around_mondays, gaps_and_crew, ends, apart, at_base) for one in maker()]
