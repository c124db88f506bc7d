"""Which change of a slow program which conformance case notices: a case notices a change if the changed program answers it differently, or
ends in a fault, or takes too long."""
import functools
import time
from collections.abc import Callable, Container, Iterable, Iterator, Mapping
from types import ModuleType, SimpleNamespace
from typing import Any

from lib import changes, same_changes, vector_sets, written_changes
from lib.changes import Change
from slow import slow_ahead, slow_csv, slow_office, slow_reader, slow_rules, slow_server

SECONDS = 0.5  # within which a changed program has to answer, where the program as it is takes less than a tenth of that
LONG = 0.2  # seconds: timelines that take longer to answer are tried last
OTHERS = 100  # cases of other rules that are tried
MOST = 3  # cases that are listed for a change, unless another case is needed for nothing else

MODULES = {"reader": slow_reader, "rules": slow_rules, "ahead": slow_ahead, "csv": slow_csv, "office": slow_office, "server": slow_server}
SETS_OF = {
    "reader": ["words", "chains", "files"], "rules": ["timelines"], "ahead": ["ahead"], "office": ["stretches"], "csv": ["csv"],
    "server": ["http"],
}

# What is no definition of the programs: checks of what they are given, and what they print. Of the office only stretches are changed.
APART = {
    "reader": {"minute_text", "runs", "lines_of_pairs", "within", "answer", "dump", "holder", "card", "spans", "Fault"},
    "rules": {"check_examined", "read_line", "main", "FAR", "FIRST_BASE", "LAST_PAST"},
    "csv": {"entries", "driver"},
    "server": {"Server.waits", "Server.reply"},
}
STRETCHES = {"is_start", "end_of_held", "stretches_of"}

# The functions of slow_rules.py in which each rule is defined, those that it has for itself first.
FUNCTIONS = {
    "B1": ["breaches_1", "complete_breaks", "has_first_part", "over"],
    "B2": ["breaches_2", "portion", "duty_days"],
    "B3": ["breaches_3", "is_reduced", "is_regular", "portion", "duty_days"],
    "B4": ["breaches_4", "over", "duty_days"],
    "B5": ["breaches_5", "is_extended", "is_in_week", "over"],
    "B6": ["breaches_6", "weeks_over", "over"],
    "B7": ["breaches_7", "weeks_over", "weeks_around", "over"],
    "B8": ["breaches_8", "weekly_rests"],
    "B9": [
        "breaches_9", "failing_weeks", "can_serve", "can_be_counted", "serves", "asks_for_rests", "is_wholly_at_rest", "touches",
        "weeks_touched", "weekly_rests",
    ],
    "B10": [
        "breaches_10", "debts_of", "can_pay", "room", "paid_from", "kept", "owed", "main_rest", "is_in_week", "minutes_before",
        "weekly_rests",
    ],
}
# The functions that say what is held and where the examination ends. If another one is changed, what is held isn't read again.
HELD = {"held_minutes", "horizon_of", "examined_spans", "report"}


def rules_of(function: str) -> list[str]:
    """The rules in which a function is defined, or none where it belongs to all."""
    return [rule for rule, functions in FUNCTIONS.items() if function in functions]


class Known:
    """A case whose answer is known."""

    def __init__(self, name: str, case: vector_sets.Case) -> None:
        self.name = name
        self.case = case
        self.id = f"{name}/{case['id']}"
        self.is_too_long = False  # whether a changed program has taken too long for it
        started = time.perf_counter()
        self.found = slow_rules.examine(*self.examined) if name == "timelines" else None
        if name == "ahead":
            vector_sets.ANSWERS[name](vector_sets.SLOW, case["input"])
        self.cost = time.perf_counter() - started if name in ("timelines", "ahead") else len(str(case["input"])) / 1e9

    @functools.cached_property
    def examined(self) -> tuple[list[slow_rules.Span], int, int]:
        """What is examined of a timeline: its spans, the base and the horizon."""
        held = slow_rules.held_minutes(vector_sets.held_of(self.case["input"]))
        base = self.case["input"]["base"]
        horizon, _ = slow_rules.horizon_of(held, base)
        return slow_rules.examined_spans(held, base, horizon), base, horizon

    def answer_differs(self, slow: SimpleNamespace, is_whole: bool) -> bool:
        """Whether some slow programs answer the case differently. If not `is_whole`, what is held is taken as it is."""
        if self.found and not is_whole:
            return slow.rules.examine(*self.examined) != self.found
        return vector_sets.ANSWERS[self.name](slow, self.case["input"]) != self.case["expected"]

    def notices(self, slow: SimpleNamespace, is_whole: bool = False) -> bool:
        """The same of changed programs, which may also end in a fault or take too long."""
        try:
            return bool(changes.within(SECONDS + 9 * self.cost, lambda: self.answer_differs(slow, is_whole)))
        except changes.TooLong:
            self.is_too_long = True
            return True
        except Exception:  # whatever a wrong program does
            return True


class Changed:
    """A change of a slow program."""

    def __init__(self, program: str, change: Change, turn: int, make: Callable[[], ModuleType]) -> None:
        self.program = program
        self.change = change
        self.turn = turn  # how many changes with these texts come before it in the function
        self.name = changes.name_of(change) + (f", {turn} of these before it" if turn else "")
        self.make = make
        self.is_whole = change.function in HELD
        self.rules = rules_of(change.function) if program == "rules" else []
        self.is_endless = False  # whether the changed program has taken too long for a case

    @functools.cached_property
    def slow(self) -> SimpleNamespace:
        """The slow programs, one of which is changed."""
        return vector_sets.with_module(self.program, self.make())

    @property
    def key(self) -> tuple[Any, ...]:
        """What shows it in its line."""
        return f"slow_{self.program}", *self.change, self.turn

    def line(self, cases: Iterable[str]) -> dict[str, Any]:
        """The line of the change, with the cases that notice it."""
        function, old, new = self.change
        turn = {"turn": self.turn} if self.turn else {}
        return {"program": f"slow_{self.program}", "function": function, "old": old, "new": new, **turn, "cases": list(cases)}

    def is_noticed_by(self, known: Known) -> bool:
        """Whether a case notices the change."""
        known.is_too_long = False
        is_noticed = known.notices(self.slow, self.is_whole)
        self.is_endless = self.is_endless or known.is_too_long
        return is_noticed


def can_be_made(change: Changed) -> bool:
    """Whether a changed program can be loaded: a constant may be needed as it is to load the others."""
    try:
        return bool(change.slow)
    except Exception:
        return False


def changes_of(program: str) -> Iterator[Changed]:
    """The changes of a program, without those that mean the same."""
    turns: dict[Change, int] = {}
    for change, make in changes.changed_modules(MODULES[program], APART.get(program, set())):
        if program != "office" or change.function in STRETCHES:
            turn = turns.get(change, 0)
            turns[change] = turn + 1
            if not same_changes.is_same(program, change, turn):
                yield Changed(program, change, turn, make)


class WrittenChange(Changed):
    """A change that is written down: only the cases of some generators notice it."""

    def __init__(self, written: written_changes.Written) -> None:
        change = Change(written_changes.function_of(written), written.old, written.new)
        super().__init__(written.program, change, 0, lambda: changes.module_with(written_changes.module_named(written.program), []))
        self.written = written
        self.is_whole = True

    @functools.cached_property
    def slow(self) -> SimpleNamespace:
        """The slow programs, one of which is changed."""
        return written_changes.slow_with(self.written)

    def noticing(self, cases: Iterable[tuple[str, vector_sets.Case]]) -> list[str]:
        """All cases that notice it, of those that are given with their sets; of timelines only those of its rules are asked."""
        rules = rules_of(self.change.function) if self.program == "rules" else []
        asked = [Known(name, case) for name, case in cases if name in self.written.sets and (not rules or case["rule"] in rules)]
        return [one.id for one in asked if self.is_noticed_by(one)]

    def is_expected(self, one: str) -> bool:
        """Whether a case, by its set and id, is of a generator whose cases may notice it."""
        return one.split("/")[1].rsplit("-", 1)[0] in self.written.generators


def written() -> list[WrittenChange]:
    """The changes that are written down."""
    return [WrittenChange(one) for one in written_changes.WRITTEN]


# To find the cases

def candidates(change: Changed, known: list[Known]) -> list[Known]:
    """The cases that may notice a change, those of its rules first, and of these one of each kind first."""
    turns: dict[str, int] = {}
    order = []
    for one in sorted(known, key=lambda one: one.cost):
        kind = f"{one.name} {one.case['rule']} {one.case['id'].rsplit('-', 1)[0]}"
        turns[kind] = turns.get(kind, 0) + 1
        is_other = one.case["rule"] not in change.rules if change.rules else False
        is_long = one.name == "timelines" and one.cost > LONG
        order.append((is_other or is_long, turns[kind], one.cost, one.id, one))
    found = [(is_other, one) for is_other, *_, one in sorted(order, key=lambda item: item[:4])]
    others = [one for is_other, one in found if is_other]
    return [one for is_other, one in found if not is_other] + others[:OTHERS]


def noticing(change: Changed, known: list[Known]) -> list[Known]:
    """Some cases that notice a change."""
    found = []
    for one in candidates(change, known):
        if change.is_noticed_by(one):
            found.append(one)
            if len(found) == MOST or change.is_endless:
                break
    return found


def is_apart(case: vector_sets.Case) -> bool:
    """Whether a case has no forecast: it expects only how the last stretch ends, whatever slow_ahead.py does."""
    return isinstance(case["expected"], dict) and "not_examined" in case["expected"]


def preferred(one: Known, made: list[Changed]) -> list[Changed]:
    """The changes of a case's own rule, its own functions first; of a case without a rule all."""
    functions = FUNCTIONS.get(one.case["rule"], []) if one.name == "timelines" else []
    if one.case["id"].startswith(("reason", "base", "year", "at-once", "calendar")):
        return made
    return sorted((change for change in made if not functions or change.change.function in functions),
                  key=lambda change: functions.index(change.change.function) if functions else 0)


def matched(program: str, known: list[Known], before: Mapping[tuple[Any, ...], list[str]], say: Callable[[str], None],
            needed: Container[str]) -> tuple[list[dict[str, Any]], list[str], list[str]]:
    """The lines of a program's changes, with the cases that notice each; the changes that no case notices; and the cases that notice
    none. Given are the cases that are known to notice each change, and those that are needed for a change that is written down."""
    cases = {one.id: one for one in known}
    made = [change for change in changes_of(program) if before.get(change.key) or can_be_made(change)]
    found = {change.name: [cases[one] for one in before.get(change.key, [])] or noticing(change, known) for change in made}
    say(f"{program}: {len(made)} changes are tried")
    listed = {one.id for cases in found.values() for one in cases}
    lost = []
    for one in known:
        if one.id not in listed and one.id not in needed:
            others = [change for change in preferred(one, made) if not change.is_endless]
            change = next((change for change in others if change.is_noticed_by(one) and not change.is_endless), None)
            if change:
                found[change.name].append(one)
            elif not is_apart(one.case):
                lost.append(one.id)
    lines = [change.line(one.id for one in found[change.name]) for change in made if found[change.name]]
    return lines, [change.name for change in made if not found[change.name]], lost
