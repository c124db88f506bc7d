"""The definitions in the folder of the vectors: pages that are made from those of docs/, so that an outsider needs nothing else, and so
that the two can't differ. What speaks of this repository (files, proofs, names of definitions) is left out."""
import os
import re
import textwrap
from collections import namedtuple

from lib import files, vector_sets

WIDTH = 120

# A page: where it is in the folder of the vectors, its title, the page of docs/ that it is made from, and the sections that it has of that.
Page = namedtuple("Page", "path title source sections")

PAGES = [
    Page("law/card.md", "The driver card: definitions", "CARD.md",
         ["", "## The card file", "## Words", "## Records", "## The cyclic buffer", "## Faults"]),
    Page("law/rules.md", "The rules on driving and rest: definitions", "RULES.md",
         ["", "## What is examined", "## Breaks: B1", "## Days: B2 to B5", "## Weeks: B6 and B7", "## Weekly rests: B8 to B10",
          "## The report", "## Stretches", "## What is left out"]),
    Page("product/reports.md", "Evidence and forecasts: definitions", "RULES.md", ["## Evidence", "## What is left"]),
    Page("product/formats.md", "What goes in and what comes out: definitions", "FORMATS.md",
         ["", "## Commands", "## CSV", "## Texts that come out", "## Requests and replies", "## All lines of faults"]),
]

# A name of a definition or of a law, or a file of definitions.
NAME = (
    r"`(?:laws::)?(?:[A-Za-z]+\.antt|[a-z]+_[a-z_]+|(?:Is|Are|Has|Can|Fails)[A-Z]\w*|"
    r"RecordGives|Completes|Owes|Keeps|Pays|Serves|Fails|plan)`"
)
# What is left out of a sentence, and what is put in its place.
LEFT_OUT = [
    (rf" \({NAME}(?:[,:;] {NAME})*\)", ""), (rf"\({NAME}(?:[,:;] {NAME})*[,;] ", "("), (rf"[,;] {NAME}\)", ")"), (r" \(docs/[^()]*\)", ""),
    (r"; docs/[^()]*\)", ")"),
]
# Sentences with these are left out whole.
OURS = re.compile(r"docs/|crates|vectors/|`examples/|Names in brackets|are proved|by the kit|examples/|curl|The packages|\./tacho")
SENTENCES = re.compile(r"(?<=[.:]) (?=[A-Z`*]|docs/|examples/)")


def sections_of(page: str) -> dict[str, str]:
    """The sections of a page by their headings of the second level; what comes before them has none."""
    found = {"": ""}
    heading = ""
    is_code = False
    for line in page.split("\n")[1:]:
        is_code = is_code ^ line.startswith("```")
        if line.startswith("## ") and not is_code:
            heading = line
            found[heading] = ""
        else:
            found[heading] += f"{line}\n"
    return found


def without_ours(text: str) -> str:
    """A paragraph of prose in one line, without what speaks of this repository."""
    for old, new in LEFT_OUT:
        text = re.sub(old, new, text)
    return " ".join(sentence for sentence in SENTENCES.split(text) if not OURS.search(sentence))


def filled(block: str) -> str:
    """A block of lines as the page has it: prose and items of lists are filled anew, and other lines stay as they are."""
    lines = block.split("\n")
    if lines[0].startswith(("    ", "|", "#", "```")):
        return re.sub(r" \(docs/[^()]*\)", "", block)
    found = []
    for item in re.split(r"\n(?=(?:  )?(?:- |\d+\. ))", block):
        sign = re.match(r"(?:  )?(?:- |\d+\. )?", item)
        assert sign  # since it may be empty
        indent = " " * len(sign[0])
        text = without_ours(re.sub(r"\s*\n\s*", " ", item[len(sign[0]) :]))
        if text:
            found.append(textwrap.fill(text, WIDTH, initial_indent=sign[0], subsequent_indent=indent, break_long_words=False,
                                       break_on_hyphens=False))
    return "\n".join(found)


def text_of(page: Page) -> str:
    """The text of a page."""
    sections = sections_of(files.read(os.path.join(files.DOCS, page.source)).decode())
    parts = [f"# {page.title}", f"*Made from this project's page {page.source}, so that the two don't differ.*"]
    for heading in page.sections:
        parts += [heading] * bool(heading)
        parts += [text for block in re.split(r"\n\n+", sections[heading].strip("\n")) if (text := filled(block))]
    return "\n\n".join(parts) + "\n"


def path_of(page: Page) -> str:
    """The file of a page."""
    return os.path.join(vector_sets.FOLDER, page.path)


def write() -> None:
    """Writes the pages."""
    for page in PAGES:
        files.write(path_of(page), text_of(page).encode())
