#!/usr/bin/env python3
"""Makes docs/PROVED.md from the doc comments of the public calls, and compares it with the one that is there.

Each call has the first sentence of its doc comment, or all of it if it is one of WHOLE, and the definitions that its
contract cites. lib/contracts.py finds the calls and what they cite. With the argument `--write` the page is written instead. The last
line is 'N passed, M failed'."""
import os
import re
import sys

from lib import contracts, counting
from lib.files import DOCS, TOP

DOCUMENT = os.path.join(DOCS, "PROVED.md")

OPENING = (
    "# What is proved",
    "`checks/proved.py` makes this page from the doc comments of the public calls that have a contract, and from what"
    " their contracts cite. The gate (`rt ci`) proves each contract. A **law** is a function without a body: its"
    " contract is a fact about the definitions.",
    "The names in parentheses are definitions in the crates' `specs/`. docs/TRUSTED.md says what each file of them is"
    " about, and in which order to read them. README.md says what is only tested, and what is assumed.",
    "Three things hold of every call:",
    "- It returns for every input that its contract allows, and answers a value or one of its errors. Which error"
    " comes, and where several apply, which of them, the contract says.",
    "- `Memory` (an `AllocError`, M1 of a command) may come in place of any other answer of a call that is lent an"
    " allocator or a store. No other call takes memory. S12 without another cause is a failure of the store. It may"
    " come wherever the store is asked, and nowhere else.",
    "- A refusal leaves an archive's state and each of its rows as they were. A reader keeps what wasn't read, a"
    " writer has a beginning of the bytes, and of a text that was lent nothing is said after an error.",
    "The scan of `tacho_rules`, its passes, `tacho_periods`, `tacho_plain`, `tacho_tables`, `tacho_reading`,"
    " `tacho_shelf`, and the readings and judgements of `tacho_check` have contracts too. They lie between these calls"
    " and the code, and are left out here. If a reader doesn't report its bytes, what is said of its input holds for"
    " some input.",
)

# Crates, each with what it is about.
TITLES = {
    "tacho_time": "minutes, days, months, weeks, spans, streams",
    "tacho_card": "driver cards",
    "tacho_line": "timelines",
    "tacho_rules": "the rules on driving and rest hours",
    "tacho_stretches": "what is examined after a horizon",
    "tacho_evidence": "the evidence for a breach",
    "tacho_ahead": "forecasts",
    "tacho_state": "an archive's state, and the contract of an archive",
    "tacho_sheet": "CSV that comes in, texts that go out",
    "tacho_carry": "a new archive of what is needed",
    "tacho_tar": "tar files",
    "tacho_handover": "what is handed over at an inspection",
    "tacho_desk": "what is done at an archive",
    "tacho_store": "the archive over SQLite",
    "tacho_check": "whether the archive's tables represent a state",
    "tacho_message": "requests and replies as bytes",
    "tacho_http": "requests to an archive",
    "tacho_serve": "a port, and its connections",
    "tacho_jobs": "the program's jobs at a store",
    "tacho_cli": "commands",
}

# The calls whose whole doc comment is shown.
WHOLE = {
    "tacho_desk::task::carry_out",
    "tacho_cli::office::perform",
    "tacho_http::exchange::answer",
    "tacho_http::connections::answer_all",
    "tacho_store::archive::Archive::adopt",
    "tacho_store::archive::Archive::create",
    "tacho_store::archive::Archive::migrate",
    "tacho_store::laws::a_crash_is_found_again",
    "tacho_check::checking::check",
    "tacho_state::laws::a_run_of_calls",
}

# A call that cites no definition and says less than this many words is an accessor, or makes a value: it is left out.
FEW = 10

# The line after a doc comment.
ITEM = re.compile(r"(?:pub(?:\(crate\))? )?(?:const )?(fn|struct|enum|trait) (\w+)")


def comments_of(crate, module):
    """The doc comments of a file, by the type or trait that contains them, and the name of the function."""
    found, comment, owner = {}, [], None
    with open(os.path.join(TOP, "crates", crate, "src", module + ".rt"), encoding="utf-8") as file:
        lines = file.read().split("\n")
    for line in lines:
        text = line.strip()
        if line.startswith("impl"):
            owner = contracts.head_of(line)[1]
        if text.startswith("///"):
            comment.append(text[3:].strip())
            continue
        if item := ITEM.match(text):
            if item[1] == "trait" and not line.startswith(" "):
                owner = item[2]
            found[owner, item[2]] = " ".join(comment)
        if line == "}":
            owner = None
        if not text.startswith("#["):
            comment = []
    return found


def first_sentence(comment):
    """The first sentence of a comment."""
    return re.split(r"(?<=[.!?]) (?=[A-Z`])", comment)[0]


def methods_of(crate, module, name):
    """The methods of a trait that have a contract, each with what it says."""
    block = next(chunk for chunk in contracts.source(crate, module)[0] if re.match(rf"pub trait {name}\b", chunk))
    for text in contracts.block_texts(crate, module, block, lambda item: item.startswith("fn ") and contracts.promises(item)):
        yield re.search(r"^ +fn (\w+)", text.words, re.MULTILINE)[1], [text]


def calls():
    """Each call: its crate, its place, the name by which it is called, and what its contract says."""
    for place, texts in contracts.all_entries():
        crate, module, *names = place.split("::")
        if contracts.source(crate, module) is None or names[-1] == names[-1].capitalize() and len(names) == 2:
            continue
        if names[0][0].isupper() and len(names) == 1:
            for name, words in methods_of(crate, module, names[0]):
                yield crate, module, (names[0], name), words
        else:
            yield crate, module, (names[0] if len(names) == 2 else None, names[-1]), texts


def is_said(node):
    """Whether a contract says something by a node: a definition of the crates that isn't a type of values, nor the end of 2099."""
    if not isinstance(node, contracts.Definition) or node.name == "latest":
        return False
    text = contracts.spec(node.crate, node.file).definitions.get(node.name, "")
    return not re.match(rf"(?:abbrev )?(?:pub )?(?:record |data )?{node.name} *: Type", text)


def cited_names(crate, texts):
    """The definitions that a contract cites, those of its own crate first."""
    nodes = filter(is_said, contracts.cited(texts))
    return [node.name for node in sorted(nodes, key=lambda node: (node.crate != crate, node.crate, node.name))]


def comment_of(crate, module, called):
    """The doc comment of a call, also where the crate shows another one's law."""
    found = comments_of(crate, module).get(called, "")
    shown = {name: path for path, name, _ in contracts.shown_names(crate, module)}
    return found if found or called[1] not in shown else comment_of(shown[called[1]][0], module, called)


def line_of(crate, module, called, texts):
    """The lines of a call, or none if it has no comment."""
    owner, name = called
    comment = comment_of(crate, module, called)
    if not comment:
        return []
    path = f"{owner}::{name}" if owner else f"laws::{name}" if module == "laws" else name
    whole = "::".join(filter(None, (crate, module, owner, name))) in WHOLE
    names = ", ".join(f"`{cited}`" for cited in cited_names(crate, texts)[:3])
    says = comment if whole else first_sentence(comment)
    if not names and len(says.split()) < FEW:
        return []
    return contracts.wrapped(f"- `{path}`: {says}" + (f" ({names})" if names else ""), "  ")


def document():
    """The lines of docs/PROVED.md."""
    for paragraph in OPENING:
        yield from contracts.wrapped(paragraph, "  " if paragraph.startswith("- ") else "")
        if not paragraph.startswith("- ") or paragraph == OPENING[-2]:
            yield ""
    crate = None
    for found in calls():
        lines = line_of(*found)
        if lines and found[0] != crate:
            crate = found[0]
            yield from ["", f"## {crate}: {TITLES[crate]}", ""]
        yield from lines


def tidy(lines):
    """The lines, without a blank one after another."""
    lines = list(lines)
    return [line for number, line in enumerate(lines) if line or number and lines[number - 1]]


def comparisons() -> counting.Comparisons:
    """The page next to the one that is made."""
    with open(DOCUMENT, encoding="utf-8") as file:
        yield "docs/PROVED.md", file.read().split("\n"), [*tidy(document()), ""]
    for place in sorted(WHOLE):
        crate, module, *names = place.split("::")
        yield place, (names[0] if len(names) == 2 else None, names[-1]) in comments_of(crate, module), True


def main(arguments: list[str]) -> int:
    """Does what the arguments ask for."""
    if arguments == ["--write"]:
        with open(DOCUMENT, "w", encoding="utf-8") as file:
            file.write("\n".join(tidy(document())) + "\n")
        return 0
    return counting.count(comparisons())


if __name__ == "__main__":
    sys.exit(main(sys.argv[1:]))
