"""The sets of conformance vectors in the folder vectors/: what a case is, how a set is written and read, and what the slow programs
expect of a case.

An answer is made from what a case gives by modules that are handed in, so that a changed slow program can take the place of one."""
import contextlib
import importlib.util
import json
import os
import re
import sys
from collections import namedtuple
from collections.abc import Callable, Iterable, Iterator
from types import ModuleType, SimpleNamespace
from typing import Any

from lib import files
from slow import slow_ahead, slow_csv, slow_office, slow_reader, slow_rules, slow_server

FOLDER = os.path.join(files.TOP, "vectors")
# By the part of the folder: its sets. What isn't in the law, or in the Annex, is this product's own.
PARTS = {"law": ["words", "chains", "files", "timelines", "stretches"], "product": ["ahead", "csv", "http"]}
PART_OF = {name: part for part, names in PARTS.items() for name in names}
NAMES = [*PART_OF]
KEYS = ["id", "why", "rule", "tags", "input", "expected"]

# A case as a generator makes it: the name of the generator, a sentence that says what the case is for, the rule or fault that it is about,
# what the sentence says of the answer, and what is given.
Made = namedtuple("Made", "generator why rule claim given")

Case = dict[str, Any]  # what a line of a set has
Given = dict[str, Any]
Answer = dict[str, Any]

# The modules that answer: the slow programs as they are.
SLOW = SimpleNamespace(reader=slow_reader, rules=slow_rules, ahead=slow_ahead, csv=slow_csv, office=slow_office, server=slow_server)
PROGRAM_OF = {
    "words": "reader", "chains": "reader", "files": "reader", "timelines": "rules", "stretches": "office", "ahead": "ahead", "csv": "csv",
    "http": "server",
}


def runner() -> ModuleType:
    """The module vectors/run.py, which tests any program."""
    spec = importlib.util.spec_from_file_location("vectors_run", os.path.join(FOLDER, "run.py"))
    assert spec and spec.loader
    module = importlib.util.module_from_spec(spec)
    writes, sys.dont_write_bytecode = sys.dont_write_bytecode, True  # the folder has no compiled file
    spec.loader.exec_module(module)
    sys.dont_write_bytecode = writes
    return module


def with_module(name: str, module: ModuleType) -> SimpleNamespace:
    """The slow programs with another one in the place of one."""
    return SimpleNamespace(**{**vars(SLOW), name: module})


# Bytes as JSON


def pieces_of(given: bytes) -> list[Any]:
    """Bytes as JSON: texts in which each character, U+0000 to U+00FF, is a byte, and for many equal bytes in a row an object."""
    pieces: list[Any] = []
    for run in re.findall(rb"(?s)((.)\2{199,}|(?:(?!(.)\3{199}).)+)", given):
        text = run[0].decode("latin-1")
        pieces.append({"byte": text[0], "times": len(text)} if run[1] else text)
    return pieces


def texts_of(pieces: Iterable[Any]) -> str:
    """The text of a list of texts and of repeated ones."""
    return "".join(piece if isinstance(piece, str) else piece["byte"] * piece["times"] for piece in pieces)


def bytes_of(pieces: Iterable[Any]) -> bytes:
    """The bytes that such a list gives."""
    return texts_of(pieces).encode("latin-1")


def digits_of(given: bytes) -> list[Any]:
    """Bytes as JSON in hexadecimal digits, and for many equal bytes in a row an object."""
    return [
        piece.encode("latin-1").hex() if isinstance(piece, str) else {**piece, "byte": piece["byte"].encode("latin-1").hex()}
        for piece in pieces_of(given)
    ]


def bytes_of_digits(pieces: Iterable[Any]) -> bytes:
    """The bytes that such a list gives."""
    return bytes.fromhex(texts_of(pieces))


# Answers about cards

MINUTE_FAULTS = {"C14"}


def mark_text(activity: str, is_crew: bool) -> str:
    """A mark as a case has it."""
    return f"{activity} crew" if is_crew else activity


def minute_of(text: str) -> int:
    """The minute of a text `YYYY-MM-DD HH:MM`. The calendar of the rules goes a little beyond that of CSV."""
    when = slow_office.datetime.datetime.strptime(text, "%Y-%m-%d %H:%M") - slow_office.datetime.datetime(1970, 1, 1)
    return when.days * 1440 + when.seconds // 60


def fault_of(line: str) -> Answer:
    """The line of a fault as a case has it: its code, and its place, minute or block."""
    code, _, rest = line.strip().partition(" ")
    found: Answer = {"fault": code}
    if code == "C14":
        found["minute"] = minute_of(rest[-16:])
    elif code == "C2":
        found["block"] = rest.removeprefix("block ").removesuffix(" twice")
    elif rest.rsplit(" ", 1)[-1].isdigit():
        found["place"] = int(rest.rsplit(" ", 1)[-1])
    return found


def spans_answer(reader: ModuleType, pairs: Callable[[], Iterable[Any]]) -> Answer:
    """The spans of pairs of a minute and a mark, or their first fault."""
    try:
        found = reader.runs(reader.map_of(pairs()).items())
    except slow_reader.Fault as fault:
        return fault_of(str(fault))
    except Exception as fault:
        if type(fault).__name__ == "Fault":  # that of a changed module
            return fault_of(str(fault))
        raise
    return {"spans": [[start, past, mark_text(mark[0], mark[1] == "crew")] for start, past, mark in found]}


def answer_value(slow: SimpleNamespace, given: Given) -> Answer:
    """What a value of activity data gives."""
    value = bytes_of_digits(given["value"])
    return spans_answer(slow.reader, lambda: slow.reader.pairs_of_value(value))


def holder_answer(reader: ModuleType, file: bytes) -> Answer:
    """The holder of a file, or its first fault."""
    text, status = reader.holder(file)
    return fault_of(text) if status else {"holder": text.strip()}


def answer_file(slow: SimpleNamespace, given: Given) -> Answer:
    """The holder of a file, and what a part of it gives."""
    file = bytes_of_digits(given["file"])
    try:
        held = holder_answer(slow.reader, file)
    except Exception as fault:
        if type(fault).__name__ != "Fault":
            raise
        held = fault_of(str(fault))
    return {"identification": held, "activity": spans_answer(slow.reader, lambda: slow.reader.pairs_of_file(file, given["part"]))}


# Answers about timelines

ARTICLES = {f"B{kind}": article.removeprefix("Art ") for kind, article in slow_office.ARTICLES.items()}


def held_of(given: Given) -> list[slow_rules.HeldSpan]:
    """The spans of a case as the slow rules take them."""
    return [(start, past, mark.split(" ")[0], mark.endswith(" crew")) for start, past, mark in given["spans"]]


def report_answer(report: slow_rules.Report) -> Answer:
    """A report as a case has it."""
    horizon, cause, breaches, debts = report
    return {"horizon": horizon, "cause": cause.lower(), "breaches": breaches_answer(breaches), "debts": debts_answer(debts)}


def breaches_answer(breaches: Iterable[slow_rules.FoundBreach]) -> list[Answer]:
    """Breaches as a case has them."""
    return [
        {"rule": f"B{kind}", "article": ARTICLES[f"B{kind}"], "moment": moment, "since": since, "amount": amount}
        for kind, moment, since, amount in breaches
    ]


def debts_answer(debts: Iterable[slow_rules.FoundDebt]) -> list[Answer]:
    """Debts as a case has them."""
    return [
        {"week": slow_rules.week_start(week), "amount": amount, "deadline": deadline, "payer": payer}
        for week, amount, deadline, payer in debts
    ]


def answer_timeline(slow: SimpleNamespace, given: Given) -> Answer:
    """The report on a timeline from its base."""
    return report_answer(slow.rules.report(held_of(given), given["base"]))


def marks_of(given: Given) -> dict[int, slow_reader.Mark]:
    """The marks of a case as the slow office takes them."""
    return {
        minute: (activity, "crew" if crew else "single")
        for start, past, activity, crew in held_of(given)
        for minute in range(start, past)
    }


def answer_stretches(slow: SimpleNamespace, given: Given) -> Answer:
    """The stretches of a timeline, each with its report, and what isn't examined after it."""
    stretches = slow.office.stretches_of(marks_of(given), given["base"] // 1440)
    return {
        "stretches": [
            {
                "monday": one.monday,
                **report_answer((one.horizon, one.cause, one.breaches, one.debts)),
                "not_examined": None if one.unseen is None else [one.horizon, one.unseen],
            }
            for one in stretches
        ]
    }


def answer_ahead(slow: SimpleNamespace, given: Given) -> Answer:
    """The forecast of a timeline from a minute on; what isn't examined at its end, in place of it; or that it goes past the calendar."""
    last = slow.office.stretches_of(marks_of(given), given["base"] // 1440)[-1]
    where = {"monday": last.monday, "horizon": last.horizon, "cause": last.cause.lower()}
    if last.unseen is not None:
        return {**where, "not_examined": [last.horizon, last.unseen]}
    spans = slow_rules.examined_spans(slow_rules.held_minutes(held_of(given)), last.monday, last.horizon)
    found = slow.ahead.outlook(spans, last.monday, last.horizon, given["minute"])
    if found is None:
        return {"fault": "Z3"}
    return {
        **where,
        "start": found.start,
        "rest_since": found.rest_since,
        "day_since": found.day_since,
        "reduced": found.reduced,
        "extended": found.extended,
        "driven": [[week, minutes] for week, minutes in found.driven],
        "coming": breaches_answer(found.coming),
        "debts": debts_answer(found.debts),
        "limits": [{"rule": f"B{kind}", "article": ARTICLES[f"B{kind}"], "until": until} for kind, until in found.limits.items()],
    }


# Answers to CSV and requests

OFFICE_KEY = "office-key-1"


def faulted(call: Callable[[], Answer]) -> Answer:
    """What a call answers, or the line of its fault."""
    try:
        return call()
    except Exception as fault:
        if type(fault).__name__ != "Fault":
            raise
        return {"reply": f"{fault}\n", "read": None}


def answer_hours(csv: ModuleType, text: bytes) -> Answer:
    """The reply to hours by CSV, and what is read of them."""
    lines = csv.entries_of(text)
    read = [[start, past, activity, author, note] for start, past, activity, author, note in lines]
    return {"reply": f"entered 1 to {len(lines)}\n" if lines else "entered none\n", "read": read}


def answer_driver(csv: ModuleType, text: bytes) -> Answer:
    """The reply to a driver by CSV, and what is read of them. An archive refuses a base that isn't a Monday."""
    number, holder, key, base, name = csv.driver_of(text)
    day = csv.day_of(base)
    assert day is not None  # the reader has refused others
    if day % 7 != 4:
        return {"reply": "S9 not a Monday\n", "read": None}
    return {"reply": f"registered {number.decode()}\n", "read": [int(number), holder.decode(), 1440 * day, name.decode()]}


def answer_csv(slow: SimpleNamespace, given: Given) -> Answer:
    """The reply to a text of CSV, and what is read of it."""
    text = bytes_of(given["csv"])
    answers = {"hours": answer_hours, "driver": answer_driver}
    return faulted(lambda: answers[given["of"]](slow.csv, text))


def answer_requests(slow: SimpleNamespace, given: Given) -> Answer:
    """The replies to requests, one after the other, over an archive of no drivers. Each has one right reply."""
    server = slow.server.Server(slow.office.Office(), OFFICE_KEY)
    replies = []
    for pieces in given["requests"]:
        found = server.replies(bytes_of(pieces))
        if len(found) != 1:
            raise ValueError(f"{len(found)} replies are right")
        replies.append(pieces_of(found[0]))
    return {"replies": replies}


ANSWERS: dict[str, Callable[[SimpleNamespace, Given], Answer]] = {
    "words": answer_value,
    "chains": answer_value,
    "files": answer_file,
    "timelines": answer_timeline,
    "stretches": answer_stretches,
    "ahead": answer_ahead,
    "csv": answer_csv,
    "http": answer_requests,
}


# What a sentence says of an answer


def debts_in(answer: Answer) -> list[Answer]:
    """The debts of a report."""
    return answer["debts"]


def is_true(rule: str, claim: str, answer: Answer) -> bool:
    """Whether what a sentence says holds of an answer. `breach` and `no breach` speak of the rule, `paid`, `not paid` and `no debt` of
    the first debt, `read` and `fault` of a card or a text, `left` and `no limit` of the rule's limit, and some others of a forecast."""
    if claim in ("breach", "no breach"):
        return (claim == "breach") == any(breach["rule"] == rule for breach in answer["breaches"])
    if claim in ("paid", "not paid", "no debt"):
        debts = debts_in(answer)
        found = "no debt" if not debts else "not paid" if debts[0]["payer"] is None else "paid"
        return claim == found
    if claim in ("unknown", "crew"):
        return answer["cause"] == claim
    if claim.startswith("fault "):
        code = claim.removeprefix("fault ")
        return f'"fault": "{code}"' in json.dumps(answer) or str(answer.get("reply", "")).startswith(f"{code} ")
    if claim == "read":
        return '"fault"' not in json.dumps(answer) and answer.get("read", 0) is not None
    if claim.startswith("status "):
        return str(answer["replies"][-1][0]).startswith(f"HTTP/1.1 {claim.removeprefix('status ')} ")
    if claim.startswith("stretches "):
        return len(answer["stretches"]) == int(claim.removeprefix("stretches "))
    if claim == "no limit" or claim.startswith("left "):
        left = [limit["until"] - answer["start"] for limit in answer["limits"] if limit["rule"] == rule]
        return left == ([] if claim == "no limit" else [int(claim.removeprefix("left "))])
    if claim == "no forecast":
        return "not_examined" in answer
    return claim == "" or of_forecast(answer, *claim.split(" "))


def of_forecast(answer: Answer, name: str, count: str) -> bool:
    """Whether a part of a forecast is a number, or has so many items."""
    return int(count) == {
        "day": answer["day_since"] - answer["monday"],
        "reduced": answer["reduced"],
        "extended": answer["extended"],
        "coming": len(answer["coming"]),
        "open": len(answer["debts"]),
    }[name]


# Lines


def line_of(case: Case) -> str:
    """The line of a case."""
    return json.dumps({key: case[key] for key in KEYS}, ensure_ascii=True, separators=(",", ":")) + "\n"


def path_of(name: str) -> str:
    """The file of a set."""
    return os.path.join(FOLDER, PART_OF[name], f"{name}.jsonl")


def lines_in(path: str) -> list[str]:
    """The lines of a file, or none where there is no file."""
    with contextlib.suppress(FileNotFoundError), open(path, encoding="ascii") as file:
        return file.readlines()
    return []


def cases_in(name: str) -> list[Case]:
    """The cases of a set as they are written."""
    return [json.loads(line) for line in lines_in(path_of(name))]


def numbered(made: Iterable[Made]) -> Iterator[tuple[str, Made]]:
    """Each case with its id: the generator's name, and a number."""
    counts: dict[str, int] = {}
    for one in made:
        counts[one.generator] = counts.get(one.generator, 0) + 1
        yield f"{one.generator}-{counts[one.generator]:03}", one
