"""Wrong readings of each rule, each fault of a card file, each fault of CSV and each status of HTTP: a slow program with a few texts of its
source replaced. The adapter wrong_adapter.py answers by one of them."""
from collections import namedtuple

# A wrong reading: its name, how the sentence of a case that has to notice it begins, the slow program, and the texts that are replaced.
Wrong = namedtuple("Wrong", "name rule program pairs")


def rule(name: str, old: str, new: str) -> Wrong:
    """A wrong reading of a rule on hours, whose name begins with it."""
    return Wrong(name, name.split(" ")[0] + " (Article", "rules", [(old, new)])


def card(code: str, old: str, new: str) -> Wrong:
    """A wrong reading of card files, which doesn't find a fault, or finds one too many."""
    return Wrong(code, f"{code}: ", "reader", [(old, new)])


def forecast(name: str, old: str, new: str) -> Wrong:
    """A wrong forecast, whose name begins with the rule whose limit is wrong, if there is one."""
    rule = name.split(" ")[0]
    return Wrong(f"ahead {name}", f"ahead, {rule} (Article" if rule[1:].isdigit() else "ahead: ", "ahead", [(old, new)])


def text(code: str, old: str, new: str) -> Wrong:
    """A wrong reading of CSV."""
    return Wrong(code, f"{code}: ", "csv", [(old, new)])


def http(name: str, old: str, new: str) -> Wrong:
    """A wrong server, whose name begins with the status that it should give."""
    return Wrong(name, f"HTTP {name.split(' ')[0]}: ", "server", [(old, new)])


WRONG = [
    rule("B1 270", "over(line, 270,", "over(line, 271,"),
    rule("B1 45", "if minutes_of(run) >= 45 or", "if minutes_of(run) >= 44 or"),
    rule("B1 30", "(minutes_of(run) >= 30 and", "(minutes_of(run) >= 29 and"),
    rule("B1 15", "minutes_of(part) >= 15\n", "minutes_of(part) >= 14\n"),
    rule("B2 540", "        if portion(day) < 540\n", "        if portion(day) < 539\n"),
    rule("B2 24 hours", "day.start + 1440) - day.past", "day.start + 1441) - day.past"),
    rule("B3 3", "if ordinal > 3:", "if ordinal > 4:"),
    rule("B3 660", "if portion(day) >= 660:", "if portion(day) >= 659:"),
    rule("B3 180", "rests_of(runs, 180)", "rests_of(runs, 179)"),
    rule("B4 600", "over(line, 600,", "over(line, 601,"),
    rule("B5 540", "day.start, day.past)) > 540", "day.start, day.past)) >= 540"),
    rule("B5 2", "and ordinal > 2:", "and ordinal > 3:"),
    rule("B6 3360", "base, past, 6, 3360, 1", "base, past, 6, 3361, 1"),
    rule("B7 5400", "base, past, 7, 5400, 2", "base, past, 7, 5401, 2"),
    rule("B8 8640", "if next_one.start > one.past + 8640", "if next_one.start > one.past + 8641"),
    rule("B8 1440", "return rests_of(runs, 1440)", "return rests_of(runs, 1439)"),
    rule("B9 2700", "minutes_of(long) >= 2700 and", "minutes_of(long) >= 2699 and"),
    rule("B9 pairs", "            first = week\n", "            first = week - 1\n"),
    rule("B10 deadline", "debt.deadline <= horizon\n", "debt.deadline < horizon\n"),
    rule("B10 2700", "return max(0, 2700 - minutes_of(main))", "return max(0, 2699 - minutes_of(main))"),
    rule("B10 540", "    return 540\n", "    return 541\n"),
    Wrong("stretches Monday", "stretches: ", "office", [("(minute - 1440 * 4) % 10080 == 0", "(minute - 1440 * 4) % 20160 == 0")]),
    Wrong("stretches end", "stretches: ", "office", [("max((minute + 1 for minute in held", "max((minute + 2 for minute in held")]),
    Wrong("stretches crew", "stretches: ", "office", [('minute in held and held[minute][1] == "single"', "minute in held")]),
    forecast("B1 minute", "{kind: first - 1 for kind", "{kind: first for kind"),
    forecast("B3 plan", "return slow_rules.breaches_3([*runs[:-1], Run(x, worked), Run(worked + 1, FAR)])",
             "return slow_rules.breaches_3([*runs[:-1], Run(x, FAR)])"),
    forecast("B2 old", "return any(breach not in old for breach in breaches)", "return bool(breaches)"),
    forecast("B6 reach", "if kind in (6, 7):\n        return slow_rules.week_start(week + 1)",
             "if kind == 7:\n        return slow_rules.week_start(week + 1)"),
    forecast("B9 reach", "return slow_rules.week_start(week + 2)", "return slow_rules.week_start(week + 1)"),
    forecast("rest", "(horizon, start, REST)", "(horizon, start, slow_rules.WORK)"),
    forecast("start", "start = max(minute, horizon)", "start = horizon"),
    forecast("weekly rest", "rest.past <= start for rest", "rest.past < start for rest"),
    forecast("open", "debt.paid_by is None and debt.deadline > start", "debt.deadline > start"),
    forecast("coming", "start, start), base) if breach not in old]", "start, start), base)]"),
    card("C1", "if value + length > len(file):", "if value + length > len(file) + 1:"),
    card("C2", "            if (identifier, kind) in seen:", "            if kind and (identifier, kind) in seen:"),
    card("C3", '        raise Fault("C3 no identification")', '        raise Fault("C6 no activity data")'),
    card("C4", "if any(len(value) < 17 for", "if any(len(value) < 16 for"),
    card("C5", "if len(holders) == 2:", "if len({holder[:14] for holder in holders}) == 2:"),
    card("C6", '        raise Fault("C6 no activity data")', "        return []"),
    card("C7", "if len(value) < 16:", "if len(value) < 15:"),
    card("C8", "if oldest >= len(buffer) or newest >= len(buffer):", "if oldest > len(buffer) or newest > len(buffer):"),
    card("C9", "if length < 12 or length % 2 or length > n:", "if length < 12 or length > n:"),
    card("C10", "if lengths_before + length > n:", "if lengths_before + length > n + 2:"),
    card("C11", "READ_DAYS = range(10_959, 47_482)", "READ_DAYS = range(10_958, 47_483)"),
    card("C12", "if word % 2048 >= 1440:", "if word % 2048 > 1440:"),
    card("C13", "if i and word % 2048 < words[i - 1] % 2048:", "if i > 1 and word % 2048 < words[i - 1] % 2048:"),
    card("C14", "        if minute == following:\n", "        if minute == following and minute % 1440:\n"),
    Wrong("the last word", "ActivityChangeInfo: ", "reader", [("begun == len(words) - 1):", "begun == len(words)):")]),
    Wrong("the wrap", "cyclic buffer: ", "reader", [("buffer[(place + 1) % n]", "buffer[min(place + 1, n - 1)]")]),
    Wrong("both generations", "card file: ", "reader", [('"both": [first, second]', '"both": [second, first][:1]')]),
    text("E1", "if not rows or rows[0] not in heads:", "if not rows or rows[0][:3] not in [head[:3] for head in heads]:"),
    text("E2", "if len(fields) != count:", "if len(fields) < count:"),
    text("E3", "[01][0-9]|2[0-3]", "[01][0-9]|2[0-4]"),
    text("E4", "if start >= past or start < before:", "if start > past or start < before:"),
    text("E5", 'LEFT_OUT = ["crew", "ferry", "out", "derogation"]', 'LEFT_OUT = ["crew", "ferry", "out"]'),
    text("E6", "if activity not in slow_reader.ACTIVITIES:", "if activity.lower() not in slow_reader.ACTIVITIES:"),
    text("E7", "if past - start > LONGEST:", "if past - start > LONGEST + 1:"),
    text("E9", '[1-9][0-9]{0,5}"', '[1-9][0-9]{0,6}"'),
    text("E10", "1 <= len(text) <= 64", "0 <= len(text) <= 65"),
    Wrong("the mark", "CSV: ", "csv", [("    text = text.removeprefix(MARK)\n", "")]),
    http("200 after repeated", 'b"repeated ", b"entered none"', 'b"entered none"'),
    http("200 type", '    "form": "text/csv; charset=utf-8",\n', ""),
    http("200 route", '    "/me/why/{month}": {"GET": "why"},\n', '    "/me/why/{month}": {"GET": "chart"},\n'),
    http("201", "reply_of(201 if is_added else 200, told,", "reply_of(200, told,"),
    http("400 length", '"[0-9]{1,12}"', '"[0-9]{1,13}"'),
    http("403 key", "        raise Refused(403)\n\n    def command", "        raise Refused(404)\n\n    def command"),
    http("404 path", "            return form, words\n    raise Refused(404)", "            return form, words\n    raise Refused(400)"),
    http("405 method", "raise Refused(405)", "raise Refused(404)"),
    http("409 taken", '    "S1": 409,\n', '    "S1": 422,\n'),
    http("411 length", "raise Refused(411)", "raise Refused(400)"),
    http("413 body", "if length > INPUT_LIMIT:", "if length > INPUT_LIMIT + 1:"),
    http("422 fault", '    "E": 422,\n', '    "E": 400,\n'),
    http("431 fields", "FIELD_LIMIT = 32", "FIELD_LIMIT = 33"),
]


def wrong_named(name: str) -> Wrong:
    """The wrong reading with a name."""
    return next(wrong for wrong in WRONG if wrong.name == name)
