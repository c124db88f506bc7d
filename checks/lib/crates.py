"""The crates of crates.txt, with its headings: which crates each one uses, and which of them directly."""
import os
import re
from collections.abc import Iterator, Mapping, Sequence
from typing import NamedTuple

from lib.files import TOP, read

NAME = re.compile(r"\b(t\w+)(?=::|\.)")


class Listed(NamedTuple):
    """What crates.txt says."""
    headings: Mapping[str, Sequence[str]]  # the crates below each heading, in order
    uses: Mapping[str, Sequence[str]]  # the crates and the libraries of the kit that each crate uses, others below them included

    def crates_below(self, name: str) -> list[str]:
        """The crates that a crate uses, others below them included."""
        return [other for other in self.uses[name] if other in self.uses]

    def directly_below(self, name: str) -> list[str]:
        """The crates that a crate uses, without those that one of them uses too."""
        used = self.crates_below(name)
        return [other for other in used if not any(other in self.uses[between] for between in used)]


def listed() -> Listed:
    """Reads crates.txt. A heading is a comment that has neither a dot nor a comma."""
    headings: dict[str, list[str]] = {}
    uses: dict[str, list[str]] = {}
    for line in read(os.path.join(TOP, "crates.txt")).decode().splitlines():
        if found := re.fullmatch(r"# ([^.,]+)", line):
            headings[found[1]] = []
        elif not line.startswith("#"):
            name, _, libraries = line.partition(":")
            uses[name] = libraries.split()
            list(headings.values())[-1].append(name)
    return Listed(headings, uses)


def sources_of(name: str) -> Iterator[str]:
    """The texts of a crate's code, definitions and proofs."""
    for part in ("src", "specs", "proofs"):
        for folder, _, files in os.walk(os.path.join(TOP, "crates", name, part)):
            for file in files:
                yield read(os.path.join(folder, file)).decode()


def named_by(name: str) -> set[str]:
    """The first parts of the paths in a crate's code, definitions and proofs, as `tacho_time` in `use tacho_time::Span` and in
    `ghost use Rattle.tacho_time.specs.Spans`, where they begin with a t as all our crates do."""
    return {word for text in sources_of(name) for word in NAME.findall(text)}
