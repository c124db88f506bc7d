#!/usr/bin/env python3
"""Compares what crates.txt says of the crates with docs/ARCHITECTURE.md, README.md and the picture docs/crates.svg: the headings, the
order, and which crates each one uses directly. Each of these has to be named in its code, its definitions or its proofs.

With the argument `--write` the picture is drawn and written instead. The last line is 'N passed, M failed'."""
import os
import re
import sys
from collections.abc import Mapping, Sequence

from lib import counting, crates, crate_picture, files

PICTURE = os.path.join(files.DOCS, "crates.svg")
ROW = re.compile(r"\| `(\w+)` \| (.*?) \|")
ITEM = re.compile(r"- ((?:\*\*\w+\*\*(?:, )?)+)")


def section(document: str, heading: str) -> str:
    """The text of a document below a heading, up to the next one of the same level."""
    text = files.read(os.path.join(files.TOP, document)).decode()
    return text.partition(f"\n## {heading}\n")[2].partition("\n## ")[0]


def parts_of(text: str) -> dict[str, str]:
    """The text below each heading of the third level."""
    pieces = re.split(r"^### (.*)\n", text, flags=re.MULTILINE)
    return dict(zip(pieces[1::2], pieces[2::2]))


def of_tables(listed: crates.Listed) -> counting.Comparisons:
    """The tables of docs/ARCHITECTURE.md: their headings, their crates, and the second column."""
    rows = {heading: ROW.findall(part) for heading, part in parts_of(section("docs/ARCHITECTURE.md", "Crates")).items()}
    yield "the headings of ARCHITECTURE", list(rows), list(listed.headings)
    for heading, names in listed.headings.items():
        yield f"the crates of ARCHITECTURE: {heading}", [name for name, _ in rows.get(heading, [])], list(names)
    for name, cell in (row for table in rows.values() for row in table):
        shown = re.findall(r"`(\w+)`", cell)
        yield f"the crates that {name} uses", sorted(one for one in shown if one in listed.uses), sorted(listed.directly_below(name))
        yield f"the libraries that {name} uses", [one for one in shown if one not in listed.uses[name]], []


def in_order(names: Sequence[str], listed: crates.Listed) -> Mapping[str, Sequence[str]]:
    """Those of the crates that are below each heading, in order, without headings that have none of them."""
    found = {heading: [name for name in own if name in names] for heading, own in listed.headings.items()}
    return {heading: own for heading, own in found.items() if own}


def of_list(listed: crates.Listed) -> counting.Comparisons:
    """The list of README.md: its headings, and the order of its crates."""
    parts = parts_of(section("README.md", "What is proved"))
    items = {heading: re.findall(r"\w+", " ".join(ITEM.findall(part))) for heading, part in parts.items()}
    named = {heading: names for heading, names in items.items() if names}
    yield "the list of README", list(named.items()), list(in_order([name for names in named.values() for name in names], listed).items())


def comparisons() -> counting.Comparisons:
    """All comparisons."""
    listed = crates.listed()
    names = list(listed.uses)
    for number, name in enumerate(names):
        yield f"what {name} uses comes before it", [one for one in listed.crates_below(name) if one not in names[:number]], []
        named = crates.named_by(name)
        yield f"what {name} uses directly is named in it", [one for one in listed.directly_below(name) if one not in named], []
    yield from of_tables(listed)
    yield from of_list(listed)
    yield "docs/crates.svg", files.read(PICTURE).decode().splitlines(), crate_picture.picture(listed).splitlines()


def main(arguments: Sequence[str]) -> int:
    """Does what the arguments ask for."""
    if list(arguments) == ["--write"]:
        files.write(PICTURE, crate_picture.picture(crates.listed()).encode())
        return 0
    return counting.count(comparisons())


if __name__ == "__main__":
    sys.exit(main(sys.argv[1:]))
