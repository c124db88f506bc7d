"""Conformance cases of weekly rests and debts (B9, B10): timelines at each limit, from both sides. docs/RULES.md says what the rules are.

A timeline is its long rests, each with its start and its minutes, counted from the base, and the horizon. All other time is work of a
minute and short rests in turn, which begins and ends with work."""
import itertools
import random
from collections.abc import Iterable, Iterator, Sequence

from inputs.vector_days import DAY, WEEK, judged, made, minutes_text
from lib.vector_sets import Made

Rest = tuple[int, int]  # start and minutes

SHORT = 1300  # a rest that is no weekly rest, and has room for 760 minutes
NO_ROOM = 419  # a rest that has no room for any debt, and ends no day


def gap_for(debt: int) -> int:
    """The length of short rests that have no room for a debt."""
    return SHORT if debt > SHORT - 540 else NO_ROOM


def filled(start: int, past: int, gap: int) -> str:
    """Tokens of work and short rests from one minute to another, both of which have work beside them."""
    parts = []
    place = start
    while place < past:
        parts.append("w1")
        place += 1
        rest = min(gap, past - 1 - place)
        if rest > 0:
            parts.append(f"r{rest}")
            place += rest
    return " ".join(parts)


def laid(rests: Iterable[Rest], horizon: int, gap: int = SHORT) -> str:
    """The tokens of a timeline that has these rests."""
    parts = []
    place = 0
    for start, minutes in sorted(rests):
        parts.append(filled(place, start, gap))
        minutes = min(minutes, horizon - start)
        parts.append(f"r{minutes}")
        place = start + minutes
    parts.append(filled(place, horizon, gap))
    return " ".join(parts)


# B9: the week in which a rest counts

# Weeks by what they have: a name, and the rests from the week's start on. Those that begin before a week or end after it are in two weeks
# or more.
KINDS: dict[str, tuple[str, list[Rest]]] = {
    ".": ("none", []),
    "s": ("24 hours", [(3 * DAY, 1440)]),
    "S": ("45 hours", [(3 * DAY, 2700)]),
    "o": ("24 hours over its end", [(WEEK - 720, 1440)]),
    "O": ("45 hours over its end", [(WEEK - 1350, 2700)]),
    "W": ("rest alone", [(0, WEEK)]),
    "L": ("rest beyond both ends", [(-600, WEEK + 1200)]),
    "T": ("24 and 45 hours", [(DAY, 1440), (4 * DAY, 2700)]),
    "m": ("2,699 minutes over its end", [(WEEK - 1350, 2699)]),
}


def rests_of(pattern: str) -> list[Rest] | None:
    """The rests of weeks one after the other, or None where two would touch or overlap."""
    rests = sorted((WEEK * week + start, minutes) for week, kind in enumerate(pattern) for start, minutes in KINDS[kind][1])
    if any(one + minutes >= other for (one, minutes), (other, _) in zip(rests, rests[1:])) or rests and rests[0][0] <= 0:
        return None
    return rests


def weeks_touched(rest: Rest, count: int) -> list[int]:
    """The weeks in which a rest has a minute."""
    start, minutes = rest
    return [week for week in range(count) if start < WEEK * (week + 1) and WEEK * week < start + minutes]


def serves(rests: Sequence[Rest], places: Sequence[int], week: int) -> bool:
    """Whether two rests, one of them of 45 hours, count in a week and the next."""
    counted = [minutes for (_, minutes), place in zip(rests, places) if place in (week, week + 1)]
    return len(counted) >= 2 and max(counted) >= 2700


def is_served(rests: Sequence[Rest], first: int, last: int) -> bool:
    """Whether one way to count the rests serves each two weeks from one to another, by trying all."""
    resting = [start // WEEK for start, minutes in rests for start in range(start + (-start) % WEEK, start + minutes - WEEK + 1, WEEK)]
    asking = [week for week in range(first, last) if week not in resting and week + 1 not in resting]
    near = [rest for rest in rests if any(first <= week <= last for week in weeks_touched(rest, last + 1))]
    choices = [[week for week in weeks_touched(rest, last + 1) if week >= first] for rest in near]
    return any(all(serves(near, places, week) for week in asking) for places in itertools.product(*choices))


def lacking(rests: Sequence[Rest], count: int) -> list[int]:
    """The weeks at whose end a rest is missing, where as many weeks have ended."""
    found, first = [], 0
    for week in range(count):
        if not is_served(rests, first, week):
            found.append(week)
            first = week
    return found


def pattern_text(pattern: str) -> str:
    """What the weeks of a pattern have."""
    return ", ".join(KINDS[kind][0] for kind in pattern)


def week_patterns() -> Iterator[str]:
    """All patterns of two weeks, and some of three to six."""
    yield from map("".join, itertools.product(KINDS, repeat=2))
    chance = random.Random("weeks")
    longer = list(map("".join, itertools.product(".sSoOL", repeat=3)))
    yield from chance.sample(longer, 70)
    for count in (4, 5, 6):
        for _ in range(24):
            yield "".join(chance.choices([*KINDS], [3, 2, 4, 3, 9, 1, 1, 1, 1], k=count))
    yield from ["OOOO", "SO.O", "O.OO", "OO.OO", "SOO.", "OLOO", "SOLO", "SOOOO.", "OOS.OO", ".OOO.", "OWOO", "O..OO."]


def weekly_rests() -> Iterator[Made]:
    """B9 by what the weeks have, all ended but perhaps the last."""
    seen = set()
    for number, pattern in enumerate(week_patterns()):
        rests = rests_of(pattern)
        if rests is None or pattern in seen:
            continue
        seen.add(pattern)
        end = WEEK * len(pattern)
        last = max((start + minutes for start, minutes in rests), default=0)
        horizon = max(end, last) + (1 if last >= end else 0)
        found = [week for week in lacking(rests, horizon // WEEK) if week]
        what = f"weekly rests by week: {pattern_text(pattern)}, where each two weeks need two, one of them of 45 hours"
        yield made("B9", "B9", what, judged(bool(found)), laid(rests, horizon))
        if number % 4 == 0:
            is_breach = any(week for week in lacking(rests, len(pattern) - 1) if week)
            what = f"weekly rests by week: {pattern_text(pattern)}, and the horizon is a minute before the last week's end"
            kept = [(start, minutes) for start, minutes in rests if start < end - 2]
            yield made("B9", "B9", what, judged(is_breach), laid(kept, end - 1))


def rests_at_limits() -> Iterator[Made]:
    """B9 by the lengths of two rests, and by where they lie."""
    for first, second in itertools.product((1439, 1440, 1441), (2699, 2700, 2701)):
        what = f"rests of {first} and {second} minutes in two weeks, where 1,440 and 2,700 are needed"
        yield made("B9", "B9", what, judged(first < 1440 or second < 2700), laid([(3 * DAY, first), (WEEK + 3 * DAY, second)], 2 * WEEK))
        what = f"rests of {second} and then {first} minutes in two weeks, where 1,440 and 2,700 are needed"
        yield made("B9", "B9", what, judged(first < 1440 or second < 2700), laid([(3 * DAY, second), (WEEK + 3 * DAY, first)], 2 * WEEK))
    for into in (-1, 0, 1, 2):
        rests = [(3 * DAY, 1440), (2 * WEEK - into, 2700)]
        what = f"a rest of 24 hours in the first week, and one of 45 of which {minutes_text(max(0, into))} lie before the end of the second"
        yield made("B9", "B9", what, judged(into < 1), laid(rests, 2 * WEEK + 2801))
        rests = [(WEEK + 3 * DAY, 1440), (WEEK + 8 * DAY, 2700), (3 * WEEK - 1 - into, 2701)]
        what = f"three weeks, the first without a rest, and one that begins {minutes_text(into + 1)} before the end of the third"
        found = [week for week in lacking(rests, 3) if week]
        yield made("B9", "B9", what, judged(bool(found)), laid([rest for rest in rests if rest != rests[1]], 3 * WEEK + 2900))
    for before in (0, 1, 1440, 2700):
        rests = [(3 * DAY, 2700)]
        what = f"{minutes_text(before)} of rest from the base on, which belong to the first rest, and one of 45 hours in two weeks"
        text = (f"r{before} " if before else "") + laid([(start - before, minutes) for start, minutes in rests], 2 * WEEK - before)
        yield made("B9", "B9", what, judged(before == 0), text)
    for left in (-1, 0, 1):
        end = max(left, 0)
        last = f"a last rest that starts {minutes_text(end)} before the end of the second week" if left >= 0 else "work up to the horizon"
        text = laid([(3 * DAY, 2700)], 2 * WEEK - end) + (" r600" if left >= 0 else "")
        yield made("B9", "B9", f"one rest of 45 hours in two weeks, and {last}", judged(left < 1), text)


def restarts() -> Iterator[Made]:
    """B9 after a B9: the search begins anew at the later of the two weeks."""
    for count in range(2, 7):
        yield made("B9", "B9", f"{count} weeks without a weekly rest: a breach for each two", "breach", laid([], count * WEEK))
    for pattern in ("..S", "..O", "..SS", "S..S", "..OO", "S...S", "O..O", "..T", "T..T", "OO..OO", "S.S.S", "..W..", ".W.", "..L..",
                    "O.O.O"):
        rests = rests_of(pattern)
        if rests is not None:
            horizon = max(WEEK * len(pattern), max(start + minutes for start, minutes in rests) + 1)
            found = [week for week in lacking(rests, horizon // WEEK) if week]
            what = f"weekly rests by week: {pattern_text(pattern)}, where after a breach the search begins anew at the later week"
            yield made("B9", "B9", what, judged(bool(found)), laid(rests, horizon))


# B10 and debts

DEADLINE = 4 * WEEK  # of what the base's week owes
FRIDAY = 4 * DAY


def main_rests() -> Iterator[Made]:
    """What a week owes, by its longest rest."""
    for minutes in (1439, 1440, 1441, 2000, 2698, 2699, 2700, 2701):
        is_owed = 1440 <= minutes < 2700
        for gap in (NO_ROOM, SHORT):
            claim = "no debt" if not is_owed else "paid" if 2700 - minutes <= gap - 540 else "not paid"
            what = (f"a week's longest rest has {minutes} minutes, where one of 1,440 to 2,699 owes what it lacks of 2,700, and "
                    f"all others have {gap}")
            yield made("debts", "B10", what, claim, laid([(FRIDAY, minutes)], 2 * WEEK, gap))
    for first, second in itertools.product((1440, 1500, 1501), (1440, 1500, 1501)):
        longest = max(first, second)
        claim = "not paid"
        what = f"a week has rests of {first} and then {second} minutes: the longer one, or the earlier of equal ones, owes {2700 - longest}"
        yield made("debts", "B10", what, claim, laid([(DAY, first), (FRIDAY, second)], 2 * WEEK))
    for start, name in ((WEEK - 2, "two minutes before Sunday 24:00"), (WEEK - 1, "a minute before it"), (WEEK, "on Monday at 00:00"),
                        (WEEK + 1, "a minute later")):
        what = f"a rest of 24 hours starts {name}: the week in which it starts owes"
        yield made("debts", "B10", what, "not paid", laid([(start, 1440)], 3 * WEEK))
    yield made("debts", "B10", "two weeks without a rest of 24 hours owe nothing", "no debt", laid([], 2 * WEEK + 1))


def last_runs() -> Iterator[Made]:
    """What a week owes where the last rest starts in it or after it."""
    for start, name in ((WEEK - 1, "a minute before the week's end"), (WEEK, "at the week's end"), (WEEK + 1, "a minute after it")):
        text = laid([(DAY, 1440)], start) + " r60"
        what = f"a week's longest rest has 24 hours, and the last rest starts {name}, where a longer one may still begin in the week"
        yield made("debts", "B10", what, "not paid" if start >= WEEK else "no debt", text)
    for known in (1439, 1440, 1441, 2699, 2700):
        text = laid([(DAY, 1440)], WEEK + DAY) + f" r{known}"
        room = known - (2700 if known >= 1440 else 540)
        what = f"a week owes 1,260 minutes, and {known} minutes of the last rest are held, in the week after"
        yield made("debts", "B10", what, "paid" if room >= 1260 else "not paid", text)
    for debt, own in itertools.product((60, 899, 900, 1260), (540, 2700)):
        for more in (-1, 0, 1):
            known = own + debt + more
            text = laid([(DAY, 2700 - debt)], WEEK + DAY, gap_for(debt)) + f" r{known}"
            is_main = known >= 1440
            is_paid = known - (2700 if is_main else 540) >= debt
            what = f"a week owes {debt} minutes, and of the last rest, in the week after, {known} are held before the horizon"
            yield made("debts", "B10", what, "paid" if is_paid else "not paid", text)


def payers() -> Iterator[Made]:
    """Debts that a rest can just pay, or just not."""
    for debt, more in itertools.product((1, 60, 900, 1259, 1260), (-1, 0, 1)):
        first = (FRIDAY, 2700 - debt)
        minutes = 540 + debt + more
        text = laid([first, (WEEK + DAY, minutes), (WEEK + FRIDAY, 2700)], 2 * WEEK + DAY, gap_for(debt))
        what = f"a week owes {debt} minutes, and a rest of {minutes} beside a longer one in the next week keeps 540"
        yield made("debts", "B10", what, "paid" if more >= 0 else "not paid", text)
        minutes = 2700 + debt + more
        text = laid([first, (WEEK + DAY, minutes)], 2 * WEEK + DAY, gap_for(debt))
        what = f"a week owes {debt} minutes, and a rest of {minutes}, the longest of the next week, keeps 2,700"
        yield made("debts", "B10", what, "paid" if more >= 0 else "not paid", text)
        if 540 + debt + more < 2700 - debt:
            minutes = 540 + debt + more
            text = laid([(DAY, 2700 - debt), (FRIDAY, minutes)], WEEK + DAY, gap_for(debt))
            what = f"a week owes {debt} minutes, and a later rest of {minutes} in the same week keeps 540"
            yield made("debts", "B10", what, "paid" if more >= 0 else "not paid", text)
            text = laid([(DAY, minutes), (FRIDAY, 2700 - debt)], WEEK + DAY, gap_for(debt))
            what = f"a week owes {debt} minutes, and a rest of {minutes} comes before the one that is too short"
            yield made("debts", "B10", what, "not paid", text)
    for length in (1440, 2699, 2700, 3959, 3960):
        text = laid([(FRIDAY, 1440), (WEEK + DAY, length)], 3 * WEEK, SHORT)
        what = f"a week owes 1,260 minutes, and the longest rest of the next week has {length}: below 2,700 it keeps all, and then 2,700"
        yield made("debts", "B10", what, "paid" if length >= 3960 else "not paid", text)


def deadlines() -> Iterator[Made]:
    """Rests near the end of the third week after the one that owes."""
    for debt, more in itertools.product((60, 899, 1260), (-2, -1, 0, 1, 60)):
        minutes = 540 + debt
        start = DEADLINE - minutes + more
        others = [(WEEK * week + DAY, 2700) for week in (1, 2, 3)]
        text = laid([(FRIDAY, 2700 - debt), *others, (start, minutes)], DEADLINE + 2 * DAY, gap_for(debt))
        what = (f"a week owes {debt} minutes, and the only rest that has room for them ends {abs(more)} minutes "
                f"{'after' if more > 0 else 'before'} its deadline")
        yield made("deadline", "B10", what, judged(more > 0), text)
    for debt, end in itertools.product((60, 1260), (-60, -1, 0, 1, 60)):
        text = laid([(FRIDAY, 2700 - debt), *[(WEEK * week + DAY, 2700) for week in (1, 2, 3)]], DEADLINE + end, gap_for(debt))
        what = f"nothing pays {debt} minutes, and the horizon is {minutes_text(abs(end))} {'before' if end < 0 else 'after'} the deadline"
        yield made("deadline", "B10", what, judged(end >= 0), text)
    for week, name in ((1, "first"), (2, "second"), (3, "third"), (4, "fourth")):
        others = [(WEEK * other + DAY, 2700) for other in (1, 2, 3, 4) if other != week]
        text = laid([(FRIDAY, 1440), *others, (WEEK * week + DAY, 3960)], 5 * WEEK + DAY, SHORT)
        what = f"a week owes 1,260 minutes, and a rest in the {name} week after it has room for them, where the third is the last"
        yield made("deadline", "B10", what, judged(week > 3), text)
    for before in (540 + 1259, 540 + 1260, 540 + 1261):
        others = [(WEEK * week + DAY, 2700) for week in (1, 2)] + [(3 * WEEK + DAY, 2710)]
        text = laid([(FRIDAY, 1440), *others, (DEADLINE - before, before + 900)], DEADLINE + 3 * DAY, SHORT)
        is_main = before + 900 > 2710
        what = f"a rest goes on beyond the deadline, and {before} of its minutes lie before it, where 540 and the debt of 1,260 are needed"
        yield made("deadline", "B10", what, judged(before < 1800 or is_main), text)


def several_debts() -> Iterator[Made]:
    """Debts of several weeks: the oldest is given its rest first."""
    for one, other in itertools.product((60, 900, 1260), repeat=2):
        for more, text in ((0, "both"), (-1, "all but a minute of both")):
            minutes = 2700 + one + other + more
            rests = [(FRIDAY, 2700 - one), (WEEK + FRIDAY, 2700 - other), (2 * WEEK + DAY, minutes)]
            what = f"two weeks owe {one} and {other} minutes, and a rest in the third has room for {text}"
            yield made("several", "B10", what, "paid", laid(rests, 3 * WEEK + DAY, gap_for(min(one, other))))
        for more, text in ((0, "the second alone"), (-1, "neither")):
            minutes = 2700 + other + more
            if other < one:
                rests = [(FRIDAY, 2700 - one), (WEEK + FRIDAY, 2700 - other), (2 * WEEK + DAY, minutes), (3 * WEEK + DAY, 2700 + one)]
                what = (f"two weeks owe {one} and {other} minutes; a rest in the third has room for {text}, and one in the fourth "
                        f"for the first")
                claim = "paid"
                yield made("several", "B10", what, claim, laid(rests, 4 * WEEK + DAY, gap_for(min(one, other))))
    for count in (2, 3, 4):
        rests = [(WEEK * week + FRIDAY, 1440) for week in range(count)]
        for paid in range(count + 1):
            late = [(WEEK * count + FRIDAY, 2700 + 1260 * paid)] if paid < 3 else [(WEEK * count + DAY, 2700 + 1260 * paid)]
            text = laid([*rests, *late], WEEK * (count + 1) + 2 * DAY, SHORT)
            is_first_paid = paid > 0 and count < 4
            what = f"{count} weeks in a row owe 1,260 minutes each, and a rest in the week after has room for {paid} of these debts"
            yield made("several", "B10", what, "paid" if is_first_paid else "not paid", text)
    for gap in (0, 1, 2):
        rests = [(FRIDAY, 2000), (WEEK + FRIDAY, 2000), (2 * WEEK + DAY, 1240 + gap), (2 * WEEK + 3 * DAY, 1240 + 700 + gap),
                 (2 * WEEK + 5 * DAY, 2700)]
        what = f"two weeks owe 700 minutes each, and of two rests in the third the first has room for 700 and {gap} more"
        yield made("several", "B10", what, "paid", laid(rests, 3 * WEEK + 2 * DAY, NO_ROOM))


def owed_and_paid() -> Iterator[Made]:
    """Minutes that pay, and still count for other rules."""
    for debt in (60, 900, 1260):
        rests = [(FRIDAY, 2700 - debt), (WEEK + DAY, 1440 + 540), (WEEK + FRIDAY, 2700)]
        what = f"a week owes {debt} minutes, and a rest of 1,980, which still counts as a weekly rest for B8, pays up to 1,440"
        yield made("counted", "B10", what, "paid", laid(rests, 2 * WEEK + DAY, gap_for(debt)))
        rests = [(FRIDAY, 2700 - debt), (WEEK + FRIDAY, 2700 + debt)]
        what = f"a week owes {debt} minutes, and the next week's rest of {2700 + debt} pays and is its regular weekly rest"
        yield made("counted", "B10", what, "paid", laid(rests, 2 * WEEK + DAY, gap_for(debt)))
    rests = [(FRIDAY, 1440), (WEEK + DAY, 2700), (WEEK + FRIDAY, 2710), (3 * WEEK - 1350, 1440)]
    what = ("a week owes 1,260 minutes, and of two rests of 45 hours in the next week the shorter one pays, and still counts as "
            "regular for B9")
    yield made("counted", "B10", what, "paid", laid(rests, 3 * WEEK + DAY, SHORT))
    rests = [(WEEK + DAY, 2700), (WEEK + FRIDAY, 2710)]
    what = "the first rest, of which a day is held, is no week's longest, so that week owes nothing"
    yield made("counted", "B10", what, "no debt", "r1440 " + laid(rests, 2 * WEEK + DAY, SHORT))


def long_rests() -> Iterator[Made]:
    """B9 by rests of more than a week, which count once."""
    for pattern in ("S.LO.", "S.LS.", "O.LO.", "SSL.S", "S.L.T", "S.LO.S"):
        rests = rests_of(pattern)
        assert rests is not None
        horizon = max(WEEK * len(pattern), max(start + minutes for start, minutes in rests) + 1)
        found = [week for week in lacking(rests, horizon // WEEK) if week]
        what = f"weekly rests by week: {pattern_text(pattern)}, where a rest of more than a week counts in one week alone"
        yield made("long", "B9", what, judged(bool(found)), laid(rests, horizon))


def equal_rests() -> Iterator[Made]:
    """Debts where two rests of a week are equally long: the earlier one is its main rest."""
    for minutes in (1619, 1620):
        text = laid([(DAY, minutes), (FRIDAY, minutes)], 2 * WEEK, NO_ROOM)
        what = (f"a week has two rests of {minutes} minutes: it owes {2700 - minutes} for the earlier one, and the later one keeps 540 and "
                f"has room for {minutes - 540}")
        yield made("equal", "B10", what, "paid" if minutes - 540 >= 2700 - minutes else "not paid", text)
    rests = [(FRIDAY, 2400), (WEEK + DAY, 2700), (WEEK + FRIDAY, 2700)]
    what = "a week owes 300 minutes, and the next has two rests of 2,700, of which the earlier keeps 2,700 and the later 540"
    yield made("equal", "B10", what, "paid", laid(rests, 2 * WEEK + DAY, NO_ROOM))
    rests = [(DAY, 1800), (3 * DAY, 1800), (5 * DAY, 1800)]
    what = "a week has three rests of 1,800 minutes: the first is its main rest, and the second pays"
    yield made("equal", "B10", what, "paid", laid(rests, 2 * WEEK, NO_ROOM))
    for known in (1799, 1800, 1801):
        text = laid([(FRIDAY, 1440), (WEEK + DAY, 1800)], WEEK + FRIDAY, SHORT) + f" r{known}"
        what = (f"a week owes 1,260 minutes, and of two rests in the next week the earlier has 1,800 minutes and of the last {known} are "
                f"held: the longer one keeps 2,700, and of equal ones the earlier")
        yield made("equal", "B10", what, "paid" if known >= 1800 else "not paid", text)


def weeks_apart() -> Iterator[Made]:
    """Debts of weeks some way apart: what a rest pays of the older one is no room for the newer one."""
    for apart in (1, 2, 3):
        main, payer = (WEEK * apart + DAY, 2000), (WEEK * apart + FRIDAY, 540 + 1000 + 1)
        others = [(WEEK * week + DAY, 2700) for week in range(1, apart)]
        text = laid([(DAY, 1700), *others, main, payer], WEEK * (apart + 1) + DAY, NO_ROOM)
        what = (f"a week owes 1,000 minutes, and a rest in week {apart} after it pays them, and has room for one of the 700 that its own "
                f"week owes")
        yield made("apart", "B10", what, "paid", text)


def timelines() -> list[Made]:
    """All cases of B9 and B10."""
    makers = [weekly_rests, rests_at_limits, restarts, main_rests, last_runs, payers, deadlines, several_debts, owed_and_paid,
              long_rests, equal_rests, weeks_apart]
    return [one for maker in makers for one in maker()]


