#!/usr/bin/env python3
"""Compares our programs with the conformance vectors in vectors/, makes the vectors anew with the slow programs, and expects that each
change of a slow program, each other choice and each wrong reading of an adapter is noticed by a case that says so.

Arguments: the programs `tacho`, `tool_rows` and `tool_script`. All cases are made anew and answered anew. By default the tags are found
anew for a part of them, and a part of the changes is tried, chosen by a fixed rule: `--all` does so with all. `--write` writes the
vectors, and needs no program; it takes some minutes. The last line is 'N passed, M failed'."""
import argparse
import contextlib
import functools
import io
import json
import os
import re
import shutil
import subprocess
import sys
import tempfile
from collections.abc import Callable, Iterable, Iterator
from typing import Any

from inputs import vector_ahead, vector_cards, vector_requests, vector_stretches, vector_texts, vector_timelines
from lib import (
    changes, counting, files, other_choices, programs, same_changes, script, vector_changes, vector_pages, vector_schemas, vector_sets,
    wrong_readings,
)
from lib.vector_sets import SLOW, Case, Made

run = vector_sets.runner()

MAKERS: dict[str, Callable[[], list[Made]]] = {
    "words": vector_cards.words, "chains": vector_cards.chains, "files": vector_cards.card_files, "timelines": vector_timelines.timelines,
    "stretches": vector_stretches.stretches, "ahead": vector_ahead.forecasts, "csv": vector_texts.texts, "http": vector_requests.requests,
}
LARGEST = 5_000_000  # bytes of the folder
LONGEST_LINE = 32_768  # bytes
SECONDS = 30  # within which a server has to answer
LONGEST_WHY = 270
TAGGED, TRIED, RUN = 75, 17, 52  # each 75th case has its tags found anew, each 17th change is tried, each 52nd case is run by run.py
CHANGES = os.path.join(vector_sets.FOLDER, "changes.jsonl")
IDS = os.path.join(vector_sets.FOLDER, "ids.json")
OTHERWISE = os.path.join(vector_sets.FOLDER, "law", "otherwise.jsonl")
VERSION = os.path.join(vector_sets.FOLDER, "VERSION")
HISTORY = os.path.join(vector_sets.FOLDER, "history.md")
CHOICES = os.path.join(vector_sets.FOLDER, "law", "choices.md")
CHANGE_KEYS = ["program", "function", "old", "new", "turn"]
INPUT_LIMIT = 262_144


# Making the vectors


def made_cases(name: str) -> list[tuple[str, Made]]:
    """The cases of a set with their ids, without those that are given what one before them is given. A case keeps the id that it has in the
    set, and a new one gets the number after the last that was given."""
    known = {json.dumps(case["input"]): case["id"] for case in vector_sets.cases_in(name)}
    last = {generator: given["last"] for generator, given in ids_in().get(name, {}).items()}
    found: dict[str, tuple[str, Made]] = {}
    for made in MAKERS[name]():
        given = json.dumps(made.given)
        if given in found:
            continue
        identifier = known.get(given, "")
        if identifier.rsplit("-", 1)[0] != made.generator:
            last[made.generator] = last.get(made.generator, 0) + 1
            identifier = f"{made.generator}-{last[made.generator]:03}"
        found[given] = identifier, made
    return list(found.values())


def ids_in() -> dict[str, dict[str, dict[str, Any]]]:
    """By the set and the generator: the last number that was given, and the numbers that no case has any more."""
    with open(IDS, encoding="ascii") as file:
        return json.load(file)


def ids_of(name: str) -> dict[str, dict[str, Any]]:
    """The same of a set, from its cases and from what was given before."""
    numbers: dict[str, set[int]] = {}
    for case in vector_sets.cases_in(name):
        numbers.setdefault(case["id"].rsplit("-", 1)[0], set()).add(number_of(case["id"]))
    found = {}
    for generator, given in {**{generator: {"last": 0} for generator in numbers}, **ids_in().get(name, {})}.items():
        there = numbers.get(generator, set())
        last = max(given["last"], *there, 0)
        found[generator] = {"last": last, "gone": sorted({*range(1, last + 1)} - there)}
    return found


def write_ids() -> None:
    """Writes which ids were given."""
    found = {name: ids_of(name) for name in vector_sets.NAMES}
    with open(IDS, "w", encoding="ascii") as file:
        sets = []
        for name, ids in found.items():
            lines = ",\n".join(f'  "{generator}": {json.dumps(given)}' for generator, given in ids.items())
            sets.append(f'"{name}": {{\n{lines}\n}}')
        file.write("{" + ",\n".join(sets) + "}\n")


def case_of(name: str, identifier: str, made: Made) -> Case:
    """A case, answered by the slow programs, without tags."""
    expected = vector_sets.ANSWERS[name](SLOW, made.given)
    return {"id": identifier, "why": made.why, "rule": made.rule, "tags": [], "input": made.given, "expected": expected}


def say(text: str) -> None:
    """Prints a line at once."""
    print(text, flush=True)


def write_set(name: str, is_anew: bool) -> list[Case]:
    """Makes the cases of a set, writes them, and returns them. Cases that are as they were keep their tags, and what is answered otherwise,
    unless all is found anew."""
    cases = [case_of(name, identifier, made) for identifier, made in made_cases(name)]
    before = {} if is_anew else {case["id"]: case for case in vector_sets.cases_in(name)}
    kept = otherwise_in()
    for case in cases:
        old = before.get(case["id"])
        one = f"{name}/{case['id']}"
        if old is None or old["expected"] != case["expected"]:
            kept[one] = patches_of(name, case)
            case["tags"] = list(kept[one])
        else:
            case["tags"] = old["tags"]
            if {*old["tags"]} != kept.get(one, {}).keys():
                kept[one] = patches_of(name, case, old["tags"])
    with open(vector_sets.path_of(name), "w", encoding="ascii") as file:
        file.writelines(map(vector_sets.line_of, cases))
    write_otherwise(name, {f"{name}/{case['id']}": kept.get(f"{name}/{case['id']}", {}) for case in cases})
    say(f"{name}: {len(cases)} cases are written")
    return cases


def patches_of(name: str, case: Case, tried: Iterable[str] | None = None) -> dict[str, Any]:
    """By the tags of a case what of its answer is different if that is chosen otherwise. All choices are tried, or only some."""
    answers = other_choices.otherwise_of(vector_changes.Known(name, case), None if tried is None else [*tried])
    return {tag: other_choices.patch_of(case["expected"], answer) for tag, answer in answers.items()}


def otherwise_in() -> dict[str, dict[str, Any]]:
    """The same of all cases, as it is written."""
    found: dict[str, dict[str, Any]] = {}
    for line in map(json.loads, vector_sets.lines_in(OTHERWISE)):
        found.setdefault(line["case"], {})[line["tag"]] = line["expected"]
    return found


def write_otherwise(name: str, found: dict[str, dict[str, Any]]) -> None:
    """Writes the same of a set in the place of what was written of it."""
    kept = {one: answers for one, answers in otherwise_in().items() if not one.startswith(f"{name}/")}
    both = {**kept, **found}
    order = [one for other in vector_sets.NAMES for one in both if one.startswith(f"{other}/")]
    with open(OTHERWISE, "w", encoding="ascii") as file:
        for one in order:
            for tag, patch in both[one].items():
                file.write(json.dumps({"case": one, "tag": tag, "expected": patch}, separators=(",", ":")) + "\n")


def with_tag(tag: str) -> list[tuple[str, Case]]:
    """The cases that have a tag, each with its set."""
    return [(name, case) for name in vector_sets.NAMES for case in vector_sets.cases_in(name) if tag in case["tags"]]


def count_line(tag: str, count: int) -> str:
    """The line of choices.md that says how many cases have a tag."""
    return f"`{tag}`: {count} cases depend on it."


def write_counts() -> None:
    """Writes into choices.md how many cases have each tag."""
    with open(CHOICES, encoding="utf-8") as file:
        page = file.read()
    for choice in other_choices.CHOICES:
        page = re.sub(count_line(choice.tag, 0).replace("0", "\\d+"), count_line(choice.tag, len(with_tag(choice.tag))), page)
    with open(CHOICES, "w", encoding="utf-8") as file:
        file.write(page)


def key_of(line: dict[str, Any]) -> tuple[Any, ...]:
    """What shows a change in its line."""
    return tuple({"turn": 0, **line}[key] for key in CHANGE_KEYS)


def write_written(names: Iterable[str], before: dict[tuple[Any, ...], list[str]]) -> list[dict[str, Any]]:
    """The lines of the changes that are written down, with all cases that notice each; those of other sets are as they were."""
    lines = []
    for change in vector_changes.written():
        if not set(change.written.sets) & set(names):
            lines += [change.line(before[change.key])] if change.key in before else []
            continue
        cases = known_cases(change.written.sets)
        lines.append(change.line(change.noticing(case for one, case in cases.items() if change.is_expected(one))))
    return lines


def write(names: Iterable[str], is_anew: bool) -> int:
    """Writes some sets, and the changes that their cases notice; prints the changes that no case notices, and the cases that notice none.
    The status is 1 if there are any."""
    vector_pages.write()
    vector_schemas.write()
    for name in names:
        write_set(name, is_anew)
    write_ids()
    before = {key_of(line): line["cases"] for line in changes_in()}
    cases_of.cache_clear()
    written = write_written(names, before)
    needed = {one for line in written for one in line["cases"]}
    lines, is_whole = [], all(line["cases"] for line in written)
    for program, sets in vector_changes.SETS_OF.items():
        if not set(sets) & set(names):
            lines += [change.line(before[change.key]) for change in vector_changes.changes_of(program) if change.key in before]
            continue
        known = [vector_changes.Known(name, case) for name in sets for case in vector_sets.cases_in(name)]
        there = {one.id for one in known}
        noticed = {} if is_anew else {key: [one for one in cases if one in there] for key, cases in before.items()}
        found, unnoticed, lost = vector_changes.matched(program, known, noticed, say, needed)
        lines += found
        for text in [f"no case notices {change}" for change in unnoticed] + [f"{one} notices no change" for one in lost]:
            is_whole = False
            say(f"{program}: {text}")
    with open(CHANGES, "w", encoding="ascii") as file:
        file.writelines(json.dumps(line, separators=(",", ":")) + "\n" for line in lines + written)
    write_counts()
    return 0 if is_whole else 1


def changes_in() -> list[dict[str, Any]]:
    """The lines of changes as they are written."""
    return [json.loads(line) for line in vector_sets.lines_in(CHANGES)]


# Ours


def told(program: list[str], words: list[str], given: bytes) -> tuple[str, int]:
    """What a program prints for an input, and its status."""
    return programs.answer([*program, *words], given)


def of_cards(tacho: str) -> counting.Comparisons:
    """The comparisons of values and card files, each by a process."""
    for name in ("words", "chains", "files"):
        for number, case in enumerate(vector_sets.cases_in(name), 1):
            for step in run.STEPS[name](case["input"], case["expected"], number):
                yield f"{name}/{case['id']}: {step.words[0]}", told([tacho], step.words, step.given), (step.text, step.status)


def of_requests(tacho: str) -> counting.Comparisons:
    """The comparisons of requests, each case with a server of its own."""
    with tempfile.TemporaryDirectory() as folder:
        program = run.Program([tacho], folder, SECONDS)
        for case in vector_sets.cases_in("http"):
            replies = program.serve([vector_sets.bytes_of(pieces) for pieces in case["input"]["requests"]])
            yield f"http/{case['id']}", replies, [vector_sets.bytes_of(pieces) for pieces in case["expected"]["replies"]]


def line_for_rows(given: vector_sets.Given) -> str:
    """The line by which `tool_rows` is given a timeline."""
    numbers = [given["base"]]
    for start, past, activity, crew in vector_sets.held_of(given):
        numbers += [start, past, run.ACTIVITIES.index(activity) + 4 * crew]
    return " ".join(map(str, numbers)) + "\n"


def report_in_rows(lines: list[str]) -> vector_sets.Answer:
    """The report that `tool_rows` prints in three lines."""
    if len(lines) != 3:
        return {"printed": lines}
    _, horizon, cause = lines[0].split(" ")
    words, others = lines[1].split(" ")[1:], lines[2].split(" ")[1:]
    breaches = [
        {"rule": rule, "article": vector_sets.ARTICLES[rule], "moment": int(moment), "since": int(since), "amount": int(amount)}
        for rule, moment, since, amount in zip(*[iter(words)] * 4)
    ]
    debts = [
        {"week": vector_sets.slow_rules.week_start(int(week)), "amount": int(amount), "deadline": int(deadline),
         "payer": None if payer == "-" else int(payer)}
        for week, amount, deadline, payer in zip(*[iter(others)] * 4)
    ]
    return {"horizon": int(horizon), "cause": cause.lower(), "breaches": breaches, "debts": debts}


def batches(cases: Iterable[Case]) -> Iterator[list[Case]]:
    """The cases in groups whose lines `tool_rows` takes at once."""
    batch: list[Case] = []
    length = 0
    for case in cases:
        size = len(line_for_rows(case["input"]))
        if batch and length + size > INPUT_LIMIT:
            yield batch
            batch, length = [], 0
        batch.append(case)
        length += size
    yield batch


def of_timelines(rows: str) -> counting.Comparisons:
    """The comparisons of timelines, many by one process."""
    for batch in batches(vector_sets.cases_in("timelines")):
        text, status = told([rows], ["reports"], "".join(line_for_rows(case["input"]) for case in batch).encode())
        lines = text.splitlines()
        yield "the status of tool_rows, and its lines", (status, len(lines)), (0, 3 * len(batch))
        for place, case in enumerate(batch):
            yield f"timelines/{case['id']}", report_in_rows(lines[3 * place : 3 * place + 3]), case["expected"]


def of_steps(tool: str, steps: list[tuple[str, Any]]) -> counting.Comparisons:
    """The comparisons of steps, by names, whose commands are given to one archive. The program does all of them in one process."""
    with tempfile.TemporaryDirectory() as folder:
        words = [tool, "archive", os.path.join(folder, "archive.db")]
        found = script.answers(words, folder, [(step.words, step.given) for _, step in steps])
        for (name, step), answer in zip(steps, found[1:]):
            yield f"{name}: {step.words[0]}", answer, (step.text.encode(), step.status)
        yield "the opening, and the end", (len(found), found[0], found[-1]), (len(steps) + 2, (b"", 0), (b"", 0))


def of_archives(tool: str) -> counting.Comparisons:
    """The comparisons of stretches, of forecasts and of hours by CSV, all in one archive each, and of drivers by CSV, each in one of its
    own."""
    for name in ("stretches", "ahead", "csv"):
        together = []
        for number, case in enumerate(vector_sets.cases_in(name), 1):
            steps = [(f"{name}/{case['id']}", step) for step in run.STEPS[name](case["input"], case["expected"], number)]
            if case["input"].get("of") == "driver":
                yield from of_steps(tool, steps)
            else:
                together += steps
        yield from of_steps(tool, together)


# Anew


def number_of(identifier: str) -> int:
    """The number of a case of its generator."""
    return int(identifier.rsplit("-", 1)[1])


def is_part(identifier: str, of: int) -> bool:
    """Whether a case is in the part of which one in so many is: of each generator the first, and then each so many later."""
    return number_of(identifier) % of == 1 % of


def of_set(name: str, tagged: int) -> counting.Comparisons:
    """The comparisons of a set with what is made anew of it, of a part also the tags."""
    lines = {case["id"]: (case, line) for case, line in zip(vector_sets.cases_in(name), vector_sets.lines_in(vector_sets.path_of(name)))}
    made = made_cases(name)
    kept = otherwise_in()
    yield f"{name}: the ids", list(lines), [identifier for identifier, _ in made]
    yield f"{name}: the ids that were given", ids_in()[name], ids_of(name)
    yield f"{name}: the number of lines", len(vector_sets.lines_in(vector_sets.path_of(name))), len(made)
    tags = {f"{name}/{identifier}": sorted(case["tags"]) for identifier, (case, _) in lines.items() if case["tags"]}
    answered = {one: sorted(answers) for one, answers in kept.items() if one.startswith(f"{name}/")}
    yield f"{name}: the tags, and those that have the answer of the other choice", answered, tags
    for identifier, one in made:
        if identifier not in lines:
            continue
        case, line = lines[identifier]
        expected = vector_sets.ANSWERS[name](SLOW, one.given)
        wanted = {**case, "why": one.why, "rule": one.rule, "input": one.given, "expected": expected}
        if is_part(identifier, tagged) and (tagged == 1 or not is_long(case)):
            patches = patches_of(name, wanted)
            wanted["tags"] = list(patches)
            yield f"{name}/{identifier}: what is answered otherwise", kept.get(f"{name}/{identifier}", {}), patches
        yield f"{name}/{identifier}: its line", line, vector_sets.line_of(wanted)
        yield f"{name}/{identifier}: what its sentence says", vector_sets.is_true(one.rule, one.claim, case["expected"]), True


def is_sentence(why: str) -> bool:
    """Whether a text is one sentence that isn't too long."""
    return len(why) <= LONGEST_WHY and why.endswith(".") and not re.search(r"\.\s+[A-Z]", why)


def of_folder() -> counting.Comparisons:
    """The comparisons of the folder: its size, its pages, its version, its schemas, and its sentences."""
    paths = [os.path.join(folder, name) for folder, _, names in os.walk(vector_sets.FOLDER) for name in names]
    size = sum(map(os.path.getsize, paths))
    yield f"{size} bytes are at most {LARGEST}", size <= LARGEST, True
    yield "the sets of run.py", run.PARTS, vector_sets.PARTS
    version = files.read(VERSION).decode()
    history = files.read(HISTORY).decode()
    yield "the page of what changed begins with the version", re.findall(r"^## Version (\d+)$", history, re.MULTILINE)[:1], version.split()
    for name in vector_sets.NAMES:
        path = vector_sets.path_of(name)
        yield f"the page of {name}", os.path.isfile(path.removesuffix(".jsonl") + ".md"), True
        yield f"the schema of {name}", files.read(vector_schemas.path_of(name)).decode(), vector_schemas.text_of(name)
        lines = vector_sets.lines_in(path)
        yield f"lines of {name} that are too long", [line[:30] for line in lines if len(line) > LONGEST_LINE], []
        cases = cases_of(name)
        yield f"sentences of {name}", [case["id"] for case in cases if not is_sentence(case["why"])], []
        yield f"cases of {name} not as its schema says", [faults for case in cases if (faults := vector_schemas.faults_of(name, case))], []
        wrong = {**cases[0], "expected": {**cases[0]["expected"], "more": 0}}
        yield f"a case of {name} with a key too many is found", bool(vector_schemas.faults_of(name, wrong)), True
    for page in vector_pages.PAGES:
        yield f"{page.path}, as {page.source} has it", files.read(vector_pages.path_of(page)).decode(), vector_pages.text_of(page)
    for path in paths:
        if path.endswith(".md"):
            folder = os.path.dirname(path)
            linked = re.findall(r"\]\(([^)#:]+)\)", files.read(path).decode())
            missing = [one for one in linked if not os.path.exists(os.path.join(folder, one)) or os.path.relpath(
                os.path.join(folder, one), vector_sets.FOLDER).startswith("..")]
            yield f"links of {os.path.relpath(path, vector_sets.FOLDER)} that lead nowhere, or out of the folder", missing, []


# Changes


@functools.cache
def cases_of(name: str) -> list[Case]:
    """The cases of a set, which are read once."""
    return vector_sets.cases_in(name)


def known_cases(names: Iterable[str]) -> dict[str, tuple[str, Case]]:
    """The cases of some sets, by the set and the id."""
    return {f"{name}/{case['id']}": (name, case) for name in names for case in cases_of(name)}


@functools.cache
def known_of(one: str) -> vector_changes.Known:
    """A case by its set and id, with its answer."""
    name, identifier = one.split("/")
    return vector_changes.Known(name, next(case for case in cases_of(name) if case["id"] == identifier))


def of_changes(of: int) -> counting.Comparisons:
    """The comparisons of the changes: each is listed, and of a part a case that is listed for it notices it, and names its rule."""
    listed = {key_of(line): line["cases"] for line in changes_in()}
    needed = {one for cases in listed.values() for one in cases}
    for program, sets in vector_changes.SETS_OF.items():
        cases = known_cases(sets)
        unneeded = [one for one in sorted(cases.keys() - needed) if not vector_changes.is_apart(cases[one][1])]
        yield f"cases of {program} that no change needs", unneeded, []
        for place, change in enumerate(vector_changes.changes_of(program)):
            name = change.name
            noticing = [one for one in listed.get((f"slow_{program}", *change.change, change.turn), []) if one in cases]
            if noticing or vector_changes.can_be_made(change):
                yield f"{program}: {name} is listed", bool(noticing), True
            if noticing and place % of == 0:
                yield f"{program}: {noticing[0]} notices {name}", change.is_noticed_by(known_of(noticing[0])), True
            if noticing and change.rules:
                names = [rule for rule in change.rules if any(rule in cases[one][1]["why"] for one in noticing)]
                yield f"{program}: a case that notices {name} names its rule", bool(names), True
    for change in vector_changes.written():
        cases_listed = listed.get(change.key, [])
        yield f"{change.program}: {change.name} is listed for cases of its generators", bool(cases_listed) and all(
            map(change.is_expected, cases_listed)), True
        if of == 1:
            noticed = change.noticing(known_cases(change.written.sets).values())
            yield f"{change.program}: cases that don't notice {change.name}", sorted({*cases_listed} - {*noticed}), []
            yield f"{change.program}: cases of other generators that notice {change.name}", [
                one for one in noticed if not change.is_expected(one)], []
        elif cases_listed:
            least = min(cases_listed, key=lambda one: known_of(one).cost)
            yield f"{change.program}: {least} notices {change.name}", change.is_noticed_by(known_of(least)), True


def of_choices(of: int) -> counting.Comparisons:
    """The comparisons of the choices: each is the tag of a case, which the other choice answers differently, and of the page."""
    with open(CHOICES, encoding="utf-8") as file:
        page = file.read().splitlines()
    for place, choice in enumerate(other_choices.CHOICES):
        found = with_tag(choice.tag)
        yield f"cases with the tag {choice.tag}", bool(found), True
        yield f"what choices.md says of {choice.tag}", count_line(choice.tag, len(found)) in page, True
        for name, case in found[:1] if place % of == 0 else []:
            noticed = known_of(f"{name}/{case['id']}").notices(other_choices.reading_of(choice.tag), True)
            yield f"{name}/{case['id']} notices that {choice.tag} is chosen otherwise", noticed, True
    for one, pairs in other_choices.TOGETHER.items():
        for pair in pairs:
            alone = [tag for tag in pair if other_choices.differs_by(known_of(one), tag)]
            yield f"{one} notices {' and '.join(pair)} only together", (alone, other_choices.differs_by(known_of(one), *pair)), ([], True)


# The runner and the adapter


def run_by(program: list[str], *options: str) -> tuple[int, list[str]]:
    """The status of vectors/run.py with a program, and its lines."""
    words = [sys.executable, os.path.join(vector_sets.FOLDER, "run.py"), *options, *program]
    made = subprocess.run(words, stdin=subprocess.DEVNULL, capture_output=True, text=True)
    return made.returncode, made.stdout.splitlines()


def sample(of: int) -> list[str]:
    """Some cases of each set, by their set and id."""
    return [one for name in vector_sets.NAMES for one in list(known_cases([name]))[::of]]


def options_of(cases: Iterable[str]) -> list[str]:
    """The options that choose some cases."""
    return [word for one in cases for word in ("--case", one)]


ADAPTERS = os.path.join(vector_sets.FOLDER, "adapters")
LINES = [sys.executable, os.path.join(files.CHECKS, "wrong_lines.py")]


def of_adapters() -> counting.Comparisons:
    """The comparisons of the examples of programs that answer lines, beside vectors/run.py."""
    count = len(cases_of("words")) + len(cases_of("chains"))
    options = ["--lines", "--set", "words", "--set", "chains"]
    passed = (0, [f"{count} passed, 0 failed"])
    yield "run.py with cards.py", run_by([sys.executable, os.path.join(ADAPTERS, "cards.py")], *options), passed
    if node := shutil.which("node"):
        yield "run.py with cards.js", run_by([node, os.path.join(ADAPTERS, "cards.js")], *options), passed
    else:
        say("left out: cards.js, since node isn't there")
    with tempfile.TemporaryDirectory() as folder:
        alone = shutil.copytree(vector_sets.FOLDER, os.path.join(folder, "alone"))
        words = [sys.executable, os.path.join(alone, "run.py"), *options, sys.executable, os.path.join(alone, "adapters", "cards.py")]
        made = subprocess.run(words, stdin=subprocess.DEVNULL, capture_output=True, text=True, cwd=folder, env={"PATH": os.environ["PATH"]})
        yield "run.py in a copy of the folder", (made.returncode, made.stdout.splitlines()), passed


def failures_of(make: Any, words: list[str], cases: Iterable[str], seconds: float) -> str:
    """Why some cases fail with a program, as vectors/run.py says it, in lines."""
    found = []
    with tempfile.TemporaryDirectory() as folder:
        program = make(words, folder, seconds)
        for number, one in enumerate(cases, 1):
            name, _ = one.split("/")
            with noted(found):
                program.try_case(name, number, known_cases([name])[one][1], [])
        with noted(found):
            program.close()
    return "\n".join(found)


@contextlib.contextmanager
def noted(found: list[str]) -> Iterator[None]:
    """Notes a failure in a list."""
    try:
        yield
    except run.Failure as failure:
        found.append(str(failure))


def of_wrong_lines() -> counting.Comparisons:
    """The comparisons of programs that answer lines wrongly: each has to fail, and the failure says why."""
    some = [one for name in vector_sets.NAMES for one in list(known_cases([name]))[:2]]
    right = run_by([*LINES, "right"], "--lines", "--jobs", "2", *options_of(some))
    yield "run.py with lines that are right, by two processes", right, (0, [f"{len(some)} passed, 0 failed"])
    for kind, why in (
        ("fraction", "another answer"), ("id", "isn't an answer"), ("twice", "isn't an answer"), ("text", "isn't JSON"),
        ("silent", "no line within 2 seconds"), ("ended", "the program has ended"), ("key", "another answer"),
        ("missing", "another answer"), ("after", "prints more"), ("open", "doesn't end"), ("status", "the status 3"),
        ("again", "a key is there twice"), ("swapped", "no line within 2 seconds"), ("crash", "RuntimeError: the second line"),
    ):
        # A program that waits has to be late soon. Any other may be slow to begin, on a busy machine.
        seconds = 2 if kind in ("silent", "open", "swapped") else SECONDS
        failures = failures_of(run.Lines, [*LINES, kind], ["timelines/B1-001", "timelines/B1-002"], seconds)
        yield f"lines that are wrong: {kind}", why in failures, True
    shown = failures_of(run.Lines, [*LINES, "error"], ["timelines/B1-001"], SECONDS)
    yield "a failure shows standard error", "something is wrong" in shown, True
    yield "a failure shows the first line that differs", "expected EXAMINED TO 20" in shown, True


def of_wrong_texts() -> counting.Comparisons:
    """The comparisons of adapters whose text or status is wrong in a way that no answer shows."""
    adapter = [sys.executable, os.path.join(files.CHECKS, "wrong_adapter.py")]
    for kind, one, why in (
        ("line", "words/bits-001", "line 2"), ("twice", "timelines/B3-091", "'breaches 1' prints another text"),
        ("late", "timelines/B3-091", "'owed 1' prints another text"), ("monday", "stretches/stretches-007", "expected FROM"),
        ("number", "csv/hours-025", "'entries 1' prints another text"), ("status", "words/bits-001", "has the status 3"),
        ("hang", "words/bits-001", "'dump' takes more than 2 seconds"),
    ):
        seconds = 2 if kind == "hang" else SECONDS
        yield f"a text that is wrong: {kind}, in {one}", why in failures_of(run.Program, [*adapter, f"text {kind}"], [one], seconds), True


def is_refused(*options: str) -> bool:
    """Whether vectors/run.py refuses some options."""
    try:
        with contextlib.redirect_stderr(io.StringIO()):
            run.arguments_of([*options, "PROGRAM"])
    except SystemExit as end:
        return end.code == 2
    return False


def of_options() -> counting.Comparisons:
    """The comparisons of options that vectors/run.py refuses, and that it takes."""
    for options in (("--case", "timelines/B1-000"), ("--case", "B1-001"), ("--leave-out", "ut"), ("--otherwise", "ut"), ("--rule", "B11"),
                    ("--set", "word"), ("--part", "laws"), ("--level", "hours"), ("--jobs", "0")):
        yield f"run.py refuses {' '.join(options)}", is_refused(*options), True
    for options in (("--case", "timelines/B1-001"), ("--leave-out", "utc"), ("--rule", "B10"), ("--level", "days"), ("--part", "product")):
        yield f"run.py takes {' '.join(options)}", is_refused(*options), False


def of_runner(tacho: str, of: int) -> counting.Comparisons:
    """The comparisons of what vectors/run.py prints for our program, and for adapters that are right and wrong."""
    chosen = sample(of)
    yield "run.py with tacho", run_by([tacho], *options_of(chosen)), (0, [f"{len(chosen)} passed, 0 failed"])
    left_out = [one for one, (_, case) in known_cases(["timelines"]).items() if "utc" in case["tags"]][:2]
    yield "run.py that leaves out all", run_by([tacho], "--leave-out", "utc", *options_of(left_out)), (1, ["0 passed, 0 failed"])
    adapter = [sys.executable, os.path.join(files.CHECKS, "wrong_adapter.py")]
    few = [next(iter(known_cases([name]))) for name in vector_sets.NAMES]
    yield "run.py with an adapter that is right", run_by([*adapter, "right"], *options_of(few)), (0, [f"{len(few)} passed, 0 failed"])
    first = next(one for one, (_, case) in known_cases(["timelines"]).items() if case["rule"] == "B1" and "no breach" not in case["why"])
    status, lines = run_by([*adapter, "B1 270"], "--case", first)
    yield "the status and the last line of run.py with an adapter that is wrong", (status, lines[-1:]), (1, ["0 passed, 1 failed"])
    yield "the failure names the case and its sentence", lines[0].startswith(f"failed: {first}: B1 (Article 7)"), True
    one_rule = run_by([*adapter, "B2 540"], "--rule", "B1", "--case", "timelines/B1-003")
    yield "the breaches of another rule don't count", one_rule, (0, ["1 passed, 0 failed"])
    yield from of_options()
    yield from of_adapters()
    yield from of_wrong_lines()
    yield from of_wrong_texts()
    for tag in ("stretch-alone", "last-word", "availability"):
        name, case = with_tag(tag)[0]
        program, options = [*LINES, f"otherwise {tag}"], ["--lines", "--case", f"{name}/{case['id']}"]
        yield f"a program that chooses {tag} otherwise", run_by(program, *options, "--otherwise", tag), (0, ["1 passed, 0 failed"])
        yield f"the same, where {tag} is expected", run_by(program, *options)[0], 1


def of_adapter() -> counting.Comparisons:
    """The comparisons of the adapter's wrong readings: each is noticed by a case whose sentence names what is wrong."""
    for wrong in wrong_readings.WRONG:
        names = [name for name in vector_sets.NAMES if vector_sets.PROGRAM_OF[name] == wrong.program]
        cases = [one for one, (_, case) in known_cases(names).items() if case["why"].startswith(wrong.rule) and not is_long(case)]
        slow = vector_sets.with_module(wrong.program, changes.module_with(vector_changes.MODULES[wrong.program], wrong.pairs))
        noticing = next((one for one in cases if known_of(one).notices(slow, True)), None)
        yield f"a case that begins with '{wrong.rule}' notices '{wrong.name}'", noticing is not None, True


def is_long(case: Case) -> bool:
    """Whether a case takes long to answer."""
    return case["id"].startswith("year")


def comparisons(tacho: str, rows: str, tool: str, is_all: bool) -> counting.Comparisons:
    """All comparisons: of a part, or of all."""
    yield from of_folder()
    yield from of_cards(tacho)
    yield from of_timelines(rows)
    yield from of_archives(tool)
    yield from of_requests(tacho)
    for name in vector_sets.NAMES:
        yield from of_set(name, 1 if is_all else TAGGED)
    yield from of_changes(1 if is_all else TRIED)
    yield from of_choices(1 if is_all else TRIED)
    yield from of_runner(tacho, 1 if is_all else RUN)
    yield from of_adapter()


def arguments_of(words: list[str]) -> argparse.Namespace:
    """The arguments."""
    parser = argparse.ArgumentParser()
    parser.add_argument("programs", nargs="*", help="tacho, tool_rows and tool_script")
    parser.add_argument("--all", action="store_true", help="makes all anew, and tries all changes")
    parser.add_argument("--write", nargs="*", metavar="SET", help="writes the vectors, or some sets")
    return parser.parse_args(words)


def main() -> int:
    """Compares, or writes."""
    arguments = arguments_of(sys.argv[1:])
    if arguments.write is not None:
        return write(arguments.write or vector_sets.NAMES, arguments.all)
    assert same_changes.SAME.keys() == vector_changes.MODULES.keys()
    return counting.count(comparisons(*arguments.programs, arguments.all))


if __name__ == "__main__":
    sys.exit(main())
