#!/usr/bin/env python3
"""Finds the definitions that a reader has to trust: those that public contracts cite, and what these depend on.

It compares the first lines of the crates' specs/*.antt and docs/TRUSTED.md with what it found, and ends in 'N passed,
M failed'. With the argument `--write` it writes docs/TRUSTED.md instead. With `--why FILE NAME`, as in `--why
tacho_line/Walk cut_to`, it prints by which way a definition is reached. lib/contracts.py reads the sources, and says how."""
import collections
import itertools
import os
import re
import sys
from collections.abc import Iterable, Iterator
from typing import Any

from lib import counting
from lib.contracts import (
    CRATES, ENTRIES, SPECS, Declared, Definition, Entry, Kit, Node, Text, all_entries, cited, declared_texts, faults, spec, wrapped,
)
from lib.files import DOCS

Found = dict[Node, Node | str]  # what is reached, and by what it was first cited
Rows = dict[tuple[str, str], tuple[list[str], list[str]]]  # by crate and file: which of its definitions are trusted, and all of them

DOCUMENT = os.path.join(DOCS, "TRUSTED.md")

# What to read in which order, each step with what it is about and its files, or all of another order. Of a public item
# whose name begins with one of the roots everything has to stand in these files, or in crates that are left to others.
Order = collections.namedtuple("Order", "reader question roots left steps")

LAWYER = Order(
    "A lawyer",
    "which rules are checked, and of which minutes? docs/RULES.md has them in prose, with the Articles",
    ("tacho_rules::", "tacho_stretches::", "tacho_evidence::", "tacho_ahead::"),
    (),
    (
        ("what a report is", "tacho_rules: Report"),
        ("what is held, what is examined, and where the examination ends",
         "tacho_time: Spans; tacho_line: Line; tacho_law: Line"),
        ("the numbers of the law, and the range of days", "tacho_law: Limits; tacho_time: Limits"),
        ("runs of rest, driving time, and breaks", "tacho_law: Runs Driving Breaks"),
        ("duty days, weeks, and weekly rests that are owed", "tacho_law: Days Weeks Debts"),
        ("the week in which a weekly rest is counted, and where no choice of weeks serves", "tacho_law: Choice Anew"),
        ("the breaches B1 to B10, each once, all of them and in order", "tacho_law: Breaches Exactly Order"),
        ("the evidence for a breach: what a person needs to check it", "tacho_evidence: Driven Evidence OfReport"),
        ("what is left until the limit of each rule, and what is used", "tacho_ahead: Plans Ahead Used Outlook"),
        ("where an examination begins again, and what isn't examined", "tacho_stretches: Start Stretches Ranges Near"),
        ("two laws: choices of weeks by outcomes, and payment of debts rest by rest",
         "tacho_choice: Counted Step Weeks Laws; tacho_law: ByRuns"),
    ),
)

DATABASE = Order(
    "A database person",
    "what do the tables represent, and what does a crash leave? docs/TABLES.md has the tables in prose",
    ("tacho_store::", "tacho_check::", "tacho_state::keeper::", "tacho_state::laws::a_run_of_calls"),
    ("tacho_time", "tacho_card", "tacho_line", "tacho_law", "tacho_rules", "tacho_stretches"),
    (
        ("the tables, and their rows as values of types", "tacho_tables: Schema Rows Tables Making"),
        ("an archive's state, and which state the tables represent", "tacho_state: State Numbers; tacho_reading: Standing"),
        ("what each command and each reading answers, and the state after it",
         "tacho_state: Steps Content Batch Registration Limits Least Disjoint Distinct Reported Summaries Files"),
        ("what a call does to an archive, and what a crash within it or after several leaves",
         "tacho_state: Acts; tacho_reading: Kept; tacho_state: Runs"),
        ("how an archive is made, found again and migrated from schema 1; the tables after a command",
         "tacho_store: Opening Old After"),
        ("what a check of the tables finds, and the line that is printed of it",
         "tacho_state: Within; tacho_tables: Readable; tacho_check: Check Checked Text"),
    ),
)

AUDITOR = Order(
    "An auditor of the whole",
    "what does the headline say? From README.md's sentences down, and at the end there is nothing else to trust",
    ("",),
    (),
    (
        ("any list of requests: their replies, the states after them, and what a crash leaves",
         "tacho_http: Run Answer Serve Reply Pages"),
        ("who may ask for what, and what a driver's requests look at", "tacho_http: Routes Asked Access Laws"),
        ("requests and replies as bytes", "tacho_message: Head Fields Request Length Body Reply"),
        ("what is done at an archive, and what is printed of it",
         "tacho_desk: Commands Wants Words Range Arguments Tasks Doing Told Own Version; tacho_sheet: Fault"),
        DATABASE,
        ("what a card file says",
         "tacho_card: CardFile DriverActivity Chain DailyRecord ActivityChangeInfo Reading Faults"),
        LAWYER,
        ("texts that come in and go out",
         "tacho_time: Text Reading Calendar; tacho_sheet: Rows Words Entries Driver Number Value Text Reports Done Lines"
         " Stretches Months Form Chart Evidence Why Ahead Cells Standing Forecast"),
        ("what is carried into a new archive, and that nothing of it is refused", "tacho_carry: Carried Carrying Sound"),
        ("what is handed over at an inspection",
         "tacho_handover: Handover Covering Contents Parcel; tacho_tar: Tar Reading"),
        ("the program's arguments, and what it does without an archive and at one",
         "tacho_cli: Words Asked Office Files Listen Command Dump Card Holder Carried Version Fault"),
        ("what a service does to an archive", "tacho_serve: Served"),
        ("what the program's jobs do at a store, what they write, and the program's status", "tacho_jobs: Jobs Ended"),
        ("the rest: streams, out of memory, and terms of spans and lines",
         "tacho_time: Device OrMemory Merge; tacho_line: Gains Join Walk Local"),
    ),
)

ORDERS = LAWYER, DATABASE, AUDITOR


# ---- what is reached


def shown(place):
    """A public item, or a definition with the crate and the file that contain it."""
    return place if isinstance(place, str) else ".".join(place)


def beyond(node, place):
    """What is cited by a definition, a type or a trait that is cited at a place."""
    if isinstance(node, Declared):
        return cited(declared_texts(node))
    if isinstance(node, Kit):
        return set()
    read = spec(node.crate, node.file)
    name = read.constructors.get(node.name, node.name)
    if name not in read.definitions:
        faults.add(f"{shown(place)}: no such definition: {node.crate}/{node.file} has no {node.name}")
        return set()
    if name != node.name:
        return {Definition(node.crate, node.file, name)}
    return cited([Text(read.definitions[name], read.scope)])


def reached(entries: Iterable[Entry]) -> Found:
    """All that is cited by entries, and by what they cite: each with what it was first cited by."""
    found: Found = {}
    waiting: collections.deque[tuple[Node, Node | str]] = collections.deque()
    for name, texts in entries:
        waiting.extend((node, name) for node in sorted(cited(texts), key=str))
    while waiting:
        node, place = waiting.popleft()
        if node not in found:
            found[node] = place
            waiting.extend((other, node) for other in sorted(beyond(node, place), key=str))
    return found


def way_to(node: Node, found: Found) -> list[str]:
    """How a definition is reached, from the public item on."""
    way: list[Any] = [node]
    while way[-1] in found:
        way.append(found[way[-1]])
    return [shown(step) for step in reversed(way)]


# ---- files and documents


def verdicts(found: Found) -> Rows:
    """Of each .antt file, by crate and name, which of its definitions are trusted, and all of them."""
    rows: Rows = {}
    for crate in CRATES:
        for file in SPECS[crate]:
            names = list(spec(crate, file).definitions)
            rows[crate, file] = [name for name in names if Definition(crate, file, name) in found], names
    return rows


def first_words(crate, trusted, names):
    """How the first line of a file begins."""
    if not trusted:
        return f"Private to {crate}: "
    return "Trusted: " if len(trusted) == len(names) else "Trusted in part: "


def about(crate, file):
    """What a file is about: the first sentence of its first comment, without what says whether it is trusted."""
    comment = re.sub(r"^(Trusted|Trusted in part|Private to \w+): ", "", " ".join(spec(crate, file).comment))
    return re.split(r"(?<=\.) (?=[A-Z])", comment)[0].rstrip(".")


def of_files(rows):
    """Files by crate: `crate` A, B; `other` C."""
    groups = [(crate, [file for _, file in group]) for crate, group in itertools.groupby(rows, lambda row: row[0])]
    return "; ".join(f"`{crate}` {', '.join(files)}" for crate, files in groups)


def files_in(step):
    """The crate and the name of each file of a step."""
    if isinstance(step, Order):
        return [file for other in step.steps for file in files_in(other)]
    groups = (group.split(": ") for group in step[1].split("; "))
    return [(crate, file) for crate, names in groups for file in names.split()]


def step_text(step):
    """What a step is about, with its files; of another order only that."""
    if isinstance(step, Order):
        return f"all that {step.reader[0].lower()}{step.reader[1:]} reads"
    return f"{step[0]}: {of_files(files_in(step))}"


def order_lines(order):
    """The lines of what to read in an order."""
    yield from wrapped(f"**{order.reader}**: {order.question}.")
    yield ""
    for number, step in enumerate(order.steps, 1):
        yield from wrapped(f"{number}. {step_text(step)}", "   ")
    yield ""


def how_much(trusted, names):
    """How many definitions of a file are trusted, and where not all are, which: all but a few, or a few."""
    if len(trusted) == len(names):
        return str(len(names))
    others = [name for name in names if name not in trusted]
    listed, before = (trusted, "") if len(trusted) <= len(others) else (others, "all but ")
    return f"{len(trusted)} of {len(names)}: {before}" + ", ".join(f"`{name}`" for name in listed)


def crate_lines(crate, rows):
    """The files of a crate: those that are trusted, each with what it is about, and the names of the others."""
    private = [file for (_, file), (trusted, _) in rows if not trusted]
    yield from ["", f"### {crate}", ""]
    for (_, file), (trusted, names) in rows:
        if trusted:
            yield from wrapped(f"- {file} ({how_much(trusted, names)}): {about(crate, file)}", "  ")
    if private:
        yield from wrapped(f"- private: {', '.join(private)}", "  ")


def totals(rows):
    """What there is in all."""
    files = [first_words("", trusted, names) for trusted, names in rows.values()]
    trusted = sum(len(trusted) for trusted, _ in rows.values())
    return (
        f"Of {sum(len(names) for _, names in rows.values())} definitions {trusted} are trusted. Of {len(files)} files"
        f" {files.count('Trusted: ')} are trusted wholly, {files.count('Trusted in part: ')} in part, and"
        f" {files.count('Private to : ')} are private. The number after a file is that of its definitions."
    )


OPENING = (
    "# What has to be trusted",
    "A contract is a sentence about definitions. The prover checks that the code keeps it. No prover can check that the"
    " sentence says what is meant: for that, somebody has to read the definitions. This page lists them. They are in"
    " `crates/CRATE/specs/FILE.antt`, each with a comment. You needn't read `proofs/*.antt`, nor the contracts of"
    " private functions and of the crates in between.",
    "`checks/trusted.py` makes this page from the sources, and checks that it and the first line of each file"
    " agree with them. It begins at the contracts of the public functions, methods, traits, models and laws of"
    " {entries}: {count} in all. It goes on to every definition that these cite, and that those cite in turn, with"
    " the types of signatures and of fields. Other definitions are private: the code could be proved by others, and no"
    " public sentence would change. A file is private to its crate, and the crates above may use it too. The scan of"
    " `tacho_rules`, its passes and the laws about them are in between as well: what a report is, `IsReport` says,"
    " however it was made.",
    "docs/PROVED.md names the clause or the definition of each public call.",
)


def document(entries: list[Entry], found: Found, rows: Rows) -> Iterator[str]:
    """The lines of docs/TRUSTED.md."""
    crates = ", ".join(f"`{crate}`" for crate in ENTRIES)
    for paragraph in OPENING:
        yield from [*wrapped(paragraph.format(entries=crates, count=len(entries))), ""]
    yield from ["## What to read first", ""]
    for order in ORDERS:
        yield from order_lines(order)
    yield from ["## The files", "", *wrapped(totals(rows))]
    for crate, group in itertools.groupby(rows.items(), lambda row: row[0][0]):
        yield from crate_lines(crate, list(group))
    kit = collections.Counter(node.library for node in found if isinstance(node, Kit))
    names = ", ".join(f"`{name}`" for name, _ in sorted(kit.items(), key=lambda row: (-row[1], row[0])))
    yield from ["", "## The kit", ""]
    yield from wrapped(f"These definitions cite {kit.total()} of its libraries, most of them first: {names}.")


# ---- the check


def missing_names():
    """Takes note of each definition that a file imports and that isn't there."""
    for crate, file in ((crate, file) for crate in CRATES for file in SPECS[crate]):
        for node in spec(crate, file).scope.names.values():
            if isinstance(node, Definition):
                beyond(node, f"{crate}/{file}")


def first_line_rows(rows):
    """Of each file how its first line begins, beside how it has to."""
    for (crate, file), (trusted, names) in rows.items():
        told = re.match(r"(Trusted|Trusted in part|Private to \w+): (?=.)", " ".join(spec(crate, file).comment))
        yield f"the first line of {crate}/{file}", told[0] if told else "", first_words(crate, trusted, names)


def order_rows(order, entries, rows):
    """Whether each file that has to be read stands in an order, and each that stands there has to be read."""
    named = set(files_in(order))
    found = reached([entry for entry in entries if entry[0].startswith(order.roots)])
    definitions = [node for node in found if isinstance(node, Definition)]
    wanted = {(node.crate, node.file) for node in definitions if node.crate not in order.left}
    for crate, file in sorted(named | wanted):
        place = f"{crate}/{file} in the order of {order.reader.lower()}"
        yield place, "named" if (crate, file) in named else "left out", "named"
        yield place, "trusted" if rows.get((crate, file), ([], []))[0] else "not trusted", "trusted"


def comparisons(entries: list[Entry], found: Found, rows: Rows) -> counting.Comparisons:
    """The first lines, the orders, the document, and what is wrong in the sources."""
    yield from first_line_rows(rows)
    for order in ORDERS:
        yield from order_rows(order, entries, rows)
    with open(DOCUMENT, encoding="utf-8") as file:
        yield "docs/TRUSTED.md", file.read().split("\n"), [*document(entries, found, rows), ""]
    missing_names()
    yield "the number of things that can't be found", len(faults), 0
    for fault in sorted(faults):
        yield fault, "not found", "found"


def write(entries: list[Entry], found: Found, rows: Rows) -> int:
    """Writes docs/TRUSTED.md."""
    with open(DOCUMENT, "w", encoding="utf-8") as file:
        file.write("\n".join(document(entries, found, rows)) + "\n")
    return 0


def tell(found: Found, place: str, name: str) -> int:
    """Prints by which way a definition is reached."""
    node = Definition(*place.split("/"), name)
    print("\n".join(way_to(node, found)) if node in found else f"{place} {name} isn't reached")
    return 0


def main(arguments: list[str]) -> int:
    """Does what the arguments ask for."""
    entries = all_entries()
    found = reached(entries)
    if arguments[:1] == ["--why"]:
        return tell(found, *arguments[1:])
    rows = verdicts(found)
    if arguments == ["--write"]:
        return write(entries, found, rows)
    return counting.count(comparisons(entries, found, rows))


if __name__ == "__main__":
    sys.exit(main(sys.argv[1:]))
