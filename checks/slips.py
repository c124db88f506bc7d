#!/usr/bin/env python3
"""Plants wrong bodies, the slips of crates/NAME/slips/*.edit, and asks the prover: the contract of the function that a slip names has to
refuse it.

A slip's lines are `refused: FN`, the function as a check prints it, below its crate; `file: PATH`; and pairs of `old: TEXT` and
`new: TEXT`, where the old text stands once in that file. It is planted in that function's own body. One that stands outside, as in a
constant, is planted alone.

What a type promises by a trait, as that it is `Copy`, no clause says: there the front end refuses a slip, before any proof. Such a slip
has the error in place of a function, as `refused: error[unsatisfied-bound]`.

Each function is proved by its own body and the contracts of what it calls. So the slips of a crate that stand in different functions are
planted together, and the prover says of each function whether it is proved: a crate takes a few tries, and not one a slip. Only these
functions and those that they call are proved. A function that isn't proved only because it calls one that isn't doesn't count as refused.
Nor does one whose proof only names what the new body doesn't have, as a step that is gone, or isn't read at all: this says nothing of its
contract.

A group of slips is tried again only if something changed on which it depends: the crate's files, the statements of the crates below, the
slips' texts, this script, the prover's arguments or the kit. checks/slips.passed has a checksum of all this for each group that passed.
The lines that it lacks are printed. `--write` puts them into the file, and `--anew` tries all groups and writes their lines; both first
build the libraries that aren't built. Names of crates are arguments; without them all are tried but `tacho_plain`.

The last lines are 'slips: N tried now, M kept' and 'N passed, M failed'."""
import argparse
import concurrent.futures
import glob
import hashlib
import os
import re
import shutil
import subprocess
import sys
import tempfile
import threading
from collections.abc import Mapping, Sequence

TOP = os.path.dirname(os.path.dirname(os.path.abspath(__file__)))
sys.path.insert(0, os.path.join(TOP, "build"))

import build  # noqa: E402

from lib import counting  # noqa: E402

PASSED = os.path.join(TOP, "checks", "slips.passed")

# The crate whose slips are tried by hand: tests alone run it, and it takes the longest.
BY_HAND = ("tacho_plain",)

# The first line of a function.
FUNCTION = re.compile(r"\s*(?:pub(?:\([a-z]+\))? )?(?:const )?fn (\w+)")

# What the prover says of a function: that it is proved, or why it isn't. If the only reason is a callee that isn't proved, it says no more.
VERDICT = re.compile(r"fn (\w+)::(\S+?): (.*)")
PROVED = ("proved", "no holes")
ONLY_CALLS = "no proof: it calls "
NOT_READ = "the borrow checker does not cover this function"

# A goal that is left open, of the function whose verdict comes next.
OPEN_GOAL = re.compile(r"note: src/\S+:\d+:\d+: ")

# An error in a file of a function's proof; and what it says where that file names what the new body doesn't have.
ERROR_IN_PROOF = re.compile(r"\./proofs/(\S+)/\w+\.antt:\d+:\d+: error: (.*)")
GONE = re.compile(r"module `\S+` has no `\S+` that can be named from here|record `Rattle\.\S+\.proofs\.\S+` has no field `"
                  r"|\d+ declarations? that depends? on ")

# The files of the proof of a function, which lie in a folder of its name. No other crate can cite them.
PROOF_FILES = ("Answers.antt", "Invariants.antt", "Proof.antt")

# The first line of a lemma. Other crates can cite it only if it is `pub`, and can't unfold its body. A definition that they can unfold
# begins with a word such as `abbrev`.
LEMMA = re.compile(r"(pub )?(\S+) :(?:\s|$)")

# Set when no further group is to be tried, as after a signal: what was begun ends first.
ending = threading.Event()


class Slip:
    """A wrong body: which function has to refuse it, and what it changes."""

    def __init__(self, crate: str, path: str) -> None:
        self.name = f"{crate}/{os.path.basename(path)}"
        self.refused = file_changed = old = ""
        self.pairs: list[tuple[str, str, str]] = []
        with open(path, encoding="utf-8") as file:
            for line in file.read().splitlines():
                word, _, text = line.partition(":")
                text = text.removeprefix(" ")
                if word == "refused":
                    self.refused = text
                elif word == "file":
                    file_changed = text
                elif word == "old":
                    old = text
                elif word == "new":
                    self.pairs.append((file_changed, old, text))
                else:
                    raise build.Stop(f"{path}: a line begins with none of refused:, file:, old: and new:")
        if not self.refused or not self.pairs:
            raise build.Stop(f"{path}: it names no function, or changes nothing")

    def is_compile_error(self) -> bool:
        """Whether the front end has to refuse it."""
        return self.refused.startswith("error[")

    def place_in(self, text: str, old: str) -> int:
        """The place of a text that occurs once."""
        if text.count(old) != 1:
            raise build.Stop(f"{self.name}: its text stands {text.count(old)} times, and not once: {old}")
        return text.index(old)

    def stands_within(self, texts: Mapping[str, str]) -> bool:
        """Whether all that it changes is within the function that has to refuse it."""
        for path, old, _ in self.pairs:
            place = self.place_in(texts[path], old)
            lines = texts[path][:texts[path].index("\n", place)].split("\n")
            if enclosing(lines) != self.refused.rpartition("::")[2]:
                return False
        return True


def enclosing(lines: Sequence[str]) -> str | None:
    """The name of the function that contains the last of these lines, by the layout of `rt fmt`."""
    if match := FUNCTION.match(lines[-1]):
        return match[1]
    indent = len(lines[-1]) - len(lines[-1].lstrip())
    for line in reversed(lines):
        if line.startswith("}"):
            return None
        if (match := FUNCTION.match(line)) and len(line) - len(line.lstrip()) < indent:
            return match[1]
    return None


class Group:
    """Slips of a crate that are planted together."""

    def __init__(self, slip: Slip, is_alone: bool) -> None:
        self.slips = [slip]
        self.is_alone = is_alone
        self.sum = ""
        self.has_passed = False
        self.was_tried = False

    def takes(self, slip: Slip) -> bool:
        """Whether another slip can be planted with them."""
        return not self.is_alone and all(slip.refused != other.refused for other in self.slips)


class Crate:
    """A crate with its slips, in the groups in which they are planted."""

    def __init__(self, name: str) -> None:
        self.name = name
        self.folder = build.folder_of(name)
        self.texts: dict[str, str] = {}
        slips = [Slip(name, path) for path in sorted(glob.glob(os.path.join(self.folder, "slips", "*.edit")))]
        for slip in slips:
            for path, _, _ in slip.pairs:
                with open(os.path.join(self.folder, path), encoding="utf-8") as file:
                    self.texts[path] = file.read()
        self.groups: list[Group] = []
        for slip in slips:
            self.put(slip)

    def put(self, slip: Slip) -> None:
        """Puts a slip into the first group whose slips are in other functions, or into one of its own."""
        is_alone = not slip.stands_within(self.texts)
        for group in self.groups:
            if not is_alone and group.takes(slip):
                group.slips.append(slip)
                return
        self.groups.append(Group(slip, is_alone))

    def planted(self, group: Group, folder: str) -> None:
        """Makes a copy of the crate with a group's slips."""
        for part in build.PARTS:
            if os.path.isdir(os.path.join(self.folder, part)):
                shutil.copytree(os.path.join(self.folder, part), os.path.join(folder, part))
        texts = dict(self.texts)
        for slip in group.slips:
            for path, old, new in slip.pairs:
                slip.place_in(texts[path], old)
                texts[path] = texts[path].replace(old, new)
        for path, text in texts.items():
            with open(os.path.join(folder, path), "w", encoding="utf-8") as file:
                file.write(text)

    def lines(self) -> list[str]:
        """The lines of checks/slips.passed of the groups that have passed."""
        return [f"{self.name} {number:02} {group.sum}\n" for number, group in enumerate(self.groups, 1) if group.has_passed]


def stated(text: str, are_lemmas: bool) -> str:
    """What a file of definitions, or of lemmas, states: its text without comments, and without the proofs of its lemmas and what serves
    these alone."""
    kept = []
    lemma = None
    is_left_out = False
    for line in text.splitlines():
        if not line.strip() or line.lstrip().startswith("--"):
            continue
        if are_lemmas and not line[0].isspace() and line[0] not in ")]}":
            if match := LEMMA.match(line):
                lemma = match[2]
                is_left_out = not match[1]
            else:
                is_left_out = lemma is not None and line.split()[0] in (lemma, "unfolding")
                if not is_left_out:
                    lemma = None
        if not is_left_out:
            kept.append(line)
    return "\n".join(kept)


def statements(name: str) -> str:
    """A checksum of what the prover is given of a library when it proves the crates above: types, contracts, definitions and lemmas, but
    neither bodies nor proofs. It is the same whoever built the library."""
    library = build.library_of(name)
    parts = [os.path.join(library, part) for part in ("interface", "lang/src", "lang/antt")]
    proofs = os.path.join(library, "lang/antt/proofs")
    whole = hashlib.sha256()
    for path in sorted(os.path.join(folder, file) for part in parts for folder, _, files in os.walk(part) for file in files):
        folder, file = os.path.split(path)
        # made.json contains what the prover made of all bodies.
        if file == "made.json" or file in PROOF_FILES and folder.startswith(f"{proofs}/"):
            continue
        with open(path, encoding="utf-8") as opened:
            text = opened.read()
        if file.endswith(".antt"):
            text = stated(text, folder.startswith(proofs))
        whole.update(repr((os.path.relpath(path, library), text)).encode())
    return whole.hexdigest()


def set_sums(crates: Sequence[Crate], kit: build.Kit, below: build.Below) -> None:
    """Gives each group a checksum of all that its answers depend on."""
    with open(__file__, "rb") as file:
        script = file.read()
    of_statements = {other: statements(other) for other in dict.fromkeys(
        other for crate in crates for other in build.needed(below, crate.name)[:-1])}
    for crate in crates:
        words = [word.replace(build.TOP, "").replace(kit.folder, "") for word in kit.words(crate.name, below)]
        given = [(other, of_statements[other]) for other in build.needed(below, crate.name)[:-1]]
        whole = hashlib.sha256(repr((kit.name, script, words, given)).encode())
        for path in build.files_of(crate.name):
            with open(path, "rb") as file:
                whole.update(repr((os.path.relpath(path, crate.folder), file.read())).encode())
        for group in crate.groups:
            own = whole.copy()
            own.update(repr([(slip.name, slip.refused, slip.pairs) for slip in group.slips]).encode())
            group.sum = own.hexdigest()


def reasons(output: str, crate: str) -> dict[str, str]:
    """The functions of a crate that the prover didn't prove, and what refuses each: its callees, the borrow checker, names alone or its
    contract."""
    errors: dict[str, list[bool]] = {}
    found = {}
    has_open_goal = False
    for line in output.splitlines():
        if match := ERROR_IN_PROOF.match(line):
            errors.setdefault(match[1].replace("/", "::"), []).append(GONE.search(match[2]) is None)
        elif OPEN_GOAL.match(line):
            has_open_goal = True
        elif match := VERDICT.match(line):
            name, verdict = match[2], match[3]
            if match[1] != crate or verdict in PROVED:
                pass
            elif verdict.startswith(ONLY_CALLS):
                found[name] = "its callees"
            elif NOT_READ in verdict:
                found[name] = "the borrow checker"
            elif name in errors and not has_open_goal and not any(errors[name]):
                found[name] = "names alone"
            else:
                found[name] = "its contract"
            has_open_goal = False
    return found


def errors_of(output: str) -> set[str]:
    """The errors of the front end."""
    return set(re.findall(r": (error\[[\w-]+\]): ", output))


def answers_of(kit: build.Kit, crate: Crate, below: build.Below, group: Group, kept: str) -> counting.Comparisons:
    """What the prover says of a group, as comparisons: that each slip's function is refused, and by itself no other."""
    with tempfile.TemporaryDirectory() as folder:
        crate.planted(group, folder)
        words = [kit.path("bin", "rattle"), "check", *kit.words(crate.name, below), "--jobs", "1", "--incremental", kept]
        words += [word for slip in group.slips if not slip.is_compile_error() for word in ("--only", slip.refused)]
        run = subprocess.run(words, cwd=folder, stdin=subprocess.DEVNULL, stdout=subprocess.PIPE, stderr=subprocess.STDOUT, text=True,
                             errors="replace", check=False)
    found = reasons(run.stdout, crate.name)
    for slip in group.slips:
        if slip.is_compile_error():
            told, wanted = ", ".join(sorted(errors_of(run.stdout))), slip.refused
        else:
            told, wanted = found.get(slip.refused, "nothing"), "its contract"
        if run.returncode != 1 or told != wanted:
            told += f", with status {run.returncode}: {run.stdout[-800:]}"
        yield f"{slip.name} is refused by", told, wanted
    others = [name for name, reason in found.items()
              if reason != "its callees" and all(name != slip.refused for slip in group.slips)]
    if others and not group.is_alone:
        yield f"{crate.name}: other functions that are refused beside {len(group.slips)} slips", others, []


def try_crate(kit: build.Kit, crate: Crate, below: build.Below, anew: bool) -> list[counting.Comparison]:
    """The answers of a crate's groups, one after the other: a later one begins with what the first has proved."""
    answers: list[counting.Comparison] = []
    with tempfile.TemporaryDirectory() as kept:
        for group in crate.groups:
            if ending.is_set():
                break
            if group.has_passed and not anew:
                answers += [(slip.name, "kept", "kept") for slip in group.slips]
                continue
            found = list(answers_of(kit, crate, below, group, kept))
            group.was_tried = True
            group.has_passed = all(told == wanted for _, told, wanted in found)
            answers += found
    return answers


def need_libraries(kit: build.Kit, below: build.Below, crates: Sequence[Crate], may_build: bool) -> None:
    """Builds the libraries below these crates where they aren't built from the present sources, or raises `Stop`."""
    order: list[str] = []
    for crate in crates:
        build.needed(below, crate.name, order)
    checksums = build.sums(below, order, kit.name)
    lower = dict.fromkeys(other for crate in crates for other in build.needed(below, crate.name)[:-1])
    missing = [name for name in lower if not build.is_built(name, checksums[name])]
    if missing and not may_build:
        raise build.Stop(f"the library of {missing[0]} isn't built from these sources: run ./tacho first")
    if missing:
        build.run(missing)


def lines_passed() -> list[str]:
    """The lines of checks/slips.passed, if there is one."""
    try:
        with open(PASSED, encoding="utf-8") as file:
            return file.readlines()
    except FileNotFoundError:
        return []


def write(crates: Sequence[Crate]) -> None:
    """Writes the lines of these crates, and leaves those of other crates that have slips."""
    own = [line for crate in crates for line in crate.lines()]
    names = [crate.name for crate in crates]
    others = [line for line in lines_passed() if (name := line.split()[0]) not in names and has_slips(name)]
    with open(PASSED, "w", encoding="utf-8") as file:
        file.writelines(sorted(own + others))


def has_slips(name: str) -> bool:
    """Whether a crate has slips."""
    return os.path.isdir(os.path.join(build.folder_of(name), "slips"))


def comparisons(names: Sequence[str], writes: bool, anew: bool) -> counting.Comparisons:
    """The answers of all groups of these crates, or of all crates."""
    kit = build.Kit()
    below = build.lines_of_crates()
    for name in names:
        if not has_slips(name):
            raise build.Stop(f"no crate {name} has slips")
    crates = [Crate(name) for name in names or below if names or has_slips(name) and name not in BY_HAND]
    need_libraries(kit, below, crates, writes)
    set_sums(crates, kit, below)
    sums = {line.split()[2] for line in lines_passed()}
    groups = [group for crate in crates for group in crate.groups]
    for group in groups:
        group.has_passed = group.sum in sums
    # The longest first.
    crates.sort(key=lambda crate: -sum(map(os.path.getsize, build.files_of(crate.name))))
    pool = concurrent.futures.ThreadPoolExecutor(build.room())
    try:
        for answers in pool.map(lambda crate: try_crate(kit, crate, below, anew), crates):
            yield from answers
    finally:
        ending.set()
        pool.shutdown(cancel_futures=True)
        if writes:
            write(crates)
    if not writes:
        for line in sorted(line for crate in crates for line in crate.lines() if line.split()[2] not in sums):
            print(f"not in checks/slips.passed: {line}", end="")
    tried = sum(len(group.slips) for group in groups if group.was_tried)
    print(f"slips: {tried} tried now, {sum(len(group.slips) for group in groups) - tried} kept")


def main(arguments: list[str]) -> int:
    """Tries the slips, and returns the status of this script."""
    parser = argparse.ArgumentParser(description="Tries the slips.")
    parser.add_argument("crates", nargs="*", metavar="CRATE", help="tries the slips of these crates alone")
    parser.add_argument("--write", action="store_true", help="writes checks/slips.passed, and builds libraries that aren't built")
    parser.add_argument("--anew", action="store_true", help="the same, and tries all slips")
    given = parser.parse_args(arguments)
    try:
        return counting.count(comparisons(given.crates, given.write or given.anew, given.anew))
    except build.Stop as stop:
        print(f"failed: {stop}\n0 passed, 1 failed")
        return 1


if __name__ == "__main__":
    sys.exit(main(sys.argv[1:]))
