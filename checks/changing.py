#!/usr/bin/env python3
"""Looks whether the files and the names in docs/CHANGING.md are there: each file or folder that a step names, and each other name in one of
the files of its step, or in a file below one of its folders. Each file of the list at the end has its number, and no other file of the
rules has the number of a limit that has three digits or more. Each block of docs/PROOFS.md below the name of a file has to be in that file.

It takes no arguments. The last line is 'N passed, M failed'."""
import os
import re
import sys
import textwrap
from collections.abc import Iterator

from lib import counting, files

PAGE = os.path.join(files.DOCS, "CHANGING.md")
QUOTING = os.path.join(files.DOCS, "PROOFS.md")
STEP = re.compile(r"^\d+\. .*(?:\n {3}.*)*", re.MULTILINE)
NAME = re.compile(r"`([^`]+)`")
QUOTE = re.compile(r"`([^`\s]+)`:\n\n((?:(?: {4}.*)?\n)+)")
ENTRY = re.compile(r"^- (.+), (\d+): (`.*(?:\n  .*)*)\.$", re.MULTILINE)
TERM = re.compile(r"(^|[+-] )(?:`(\w+)`|(\d+))")
DAY = "A day of the calendar"
LIMITS = ("Limits.antt", "limits.rt")
FIXED = ("minutes_of_week", "first_week", "first_base", "latest")  # of no Article
LAST = "tacho_ahead"  # no crate after it in crates.txt has a rule


def place_of(name: str) -> str:
    """The path of a file or folder that the page names."""
    return os.path.join(files.TOP, "crates" if re.match(r"tacho|tests_", name) else "", name)


def texts_in(place: str) -> Iterator[str]:
    """The text of a file, or the names and texts of the files below a folder."""
    for path in [place] if os.path.isfile(place) else [os.path.join(folder, one) for folder, _, found in os.walk(place) for one in found]:
        yield os.path.basename(path)
        yield files.read(path).decode(errors="replace")


def is_path(name: str) -> bool:
    """Whether a name is that of a file or a folder, and not a command or a name in one."""
    return " " not in name and ("/" in name or name.endswith(".md")) and "*" not in name and not name.startswith("./")


def quotes() -> counting.Comparisons:
    """Whether the blocks are lines of their files."""
    found = QUOTE.findall(files.read(QUOTING).decode())
    yield "blocks of files", len(found) > 9, True
    for name, block in found:
        place = place_of(name)
        lines = textwrap.dedent(block).strip("\n")
        text = files.read(place).decode() if os.path.isfile(place) else ""
        yield f"a block of {name}: {lines.splitlines()[0]}", f"\n{lines}\n" in f"\n{text}", True


def numbers_in(path: str) -> set[int]:
    """The numbers in a file, outside comments and imports."""
    lines = files.read(path).decode().splitlines()
    code = [line for line in lines if not re.match(r"\s*(--|//|(ghost )?use )", line)]
    return {int(number.replace("_", "")) for number in re.findall(r"(?<![\w.-])\d[\d_]*(?![\w-])", "\n".join(code))}


def sources_of(crate: str) -> set[str]:
    """The files of a crate that can spell the number of a limit: all but the limits themselves, and the examples of docs/RULES.md."""
    tops = [os.path.join(files.TOP, "crates", crate, top) for top in ("proofs", "specs", "src")]
    found = {os.path.join(folder, one) for top in tops for folder, _, names in os.walk(top) for one in names}
    return {path for path in found if os.path.basename(path) not in (*LIMITS, "PageFacts.antt")}


def files_of(crate: str, name: str) -> set[str]:
    """The files that a name in the list of numbers stands for."""
    top = os.path.join(files.TOP, "crates", crate)
    proof = f"proofs/{name}"
    places = (name, f"{name}.antt", f"{proof}.antt", f"{proof}Lemmas.antt", f"{proof}/Answers.antt", f"{proof}/Invariants.antt")
    return {path for path in (os.path.join(top, place) for place in places) if os.path.isfile(path)}


def sum_of(head: str, limits: dict[str, str]) -> int:
    """The value of a sum of limits and numbers."""
    values = [(sign, int(number or limits.get(name, "0"))) for sign, name, number in TERM.findall(head)]
    return sum(-value if sign == "- " else value for sign, value in values)


def entries(page: str) -> counting.Comparisons:
    """Compares the list of numbers with the limits and the files."""
    text = files.read(os.path.join(files.TOP, "crates/tacho_law/specs/Limits.antt")).decode()
    limits = dict(re.findall(r"^(\w+) = (\d+)$", text, re.MULTILINE))
    listed = {int(value): set[str]() for name, value in limits.items() if int(value) > 99 and name not in FIXED}
    for head, number, places in ENTRY.findall(page):
        if TERM.match(head):
            yield f"{head} is {number}", int(number), sum_of(head, limits)
        is_whole = int(number) in listed and (head == DAY or NAME.fullmatch(head) is not None)
        for part in " ".join(places.replace("`", "").split()).split("; "):
            crate, _, names = part.partition(" ")
            for name in names.split(", "):
                found = {path for path in files_of(crate, name) if int(number) in numbers_in(path)}
                yield f"{crate} {name} has {number}", bool(found), True
                if is_whole:
                    listed[int(number)] |= found
    names = re.findall(r"^(tacho_\w+):", files.read(os.path.join(files.TOP, "crates.txt")).decode(), re.MULTILINE)
    crates = names[names.index("tacho_law") : names.index(LAST) + 1]
    sources = {path: numbers_in(path) for crate in crates for path in sources_of(crate)}
    yield "there are files", len(sources) > 99, True
    for number, found in listed.items():
        others = sorted(os.path.relpath(path, files.TOP) for path, has in sources.items() if number in has and path not in found)
        yield f"files with {number} that the list lacks", others, []


def comparisons() -> counting.Comparisons:
    """All comparisons."""
    yield from quotes()
    yield from entries(files.read(PAGE).decode())
    steps = STEP.findall(files.read(PAGE).decode())
    yield "steps of the page", len(steps) > 20, True
    for step in steps:
        names = NAME.findall(step)
        places = [place_of(name) for name in names if is_path(name)]
        for name, place in zip(filter(is_path, names), places):
            yield f"{name} is there", os.path.exists(place), True
        text = "\n".join(text for place in places if os.path.exists(place) for text in texts_in(place))
        for name in names:
            if not is_path(name) and re.fullmatch(r"[\w.]+", name):
                yield f"{name} is in a file of its step", re.search(rf"\b{re.escape(name)}\b", text) is not None, True


if __name__ == "__main__":
    sys.exit(counting.count(comparisons()))
