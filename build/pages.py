#!/usr/bin/env python3
"""Writes the files of the folder pages/ as constants to crates/tacho_pages/src/files.rt, from which `tacho listen` serves them. With the
argument `--check` it writes nothing. Then the status is 1 if the constants aren't those of the folder.

A file's path is its place below pages/. An index.html is served at the path of its folder."""
import os
import re
import sys

TOP = os.path.dirname(os.path.dirname(os.path.realpath(__file__)))
PAGES = os.path.join(TOP, "pages")
MADE = os.path.join(TOP, "crates", "tacho_pages", "src", "files.rt")

TYPES = {".html": "Html", ".css": "Css", ".js": "JavaScript", "": "Text"}

HEAD = """//! The page files: those of the folder pages/, of which build/pages.py makes this file.

ghost use Rattle.std.specs.Prelude.{◌≡◌, map};
ghost use Rattle.tacho_pages.specs.Pages.{path_and_type, paths_and_types};

use tacho_message::{PageFile, PageType};

/// The page files, in the order of their paths.
pub fn page_files() -> [PageFile; %d]
    ensures { map path_and_type result ≡ paths_and_types }
{
    [
%s    ]
}
"""

ROW = """        PageFile {
            path: "%s",
            kind: PageType::%s,
            text: %s(),
        },
"""

TEXT = """
/// The text at `%s`.
fn %s() -> &'static str {
    "%s"
}
"""


def files() -> list[tuple[str, str, str]]:
    """The path, the type and the text of each page file, in the order of the paths."""
    found = []
    for folder, _, names in os.walk(PAGES):
        for name in names:
            place = os.path.join(folder, name)
            path = "/" + os.path.relpath(place, PAGES).removesuffix("index.html")
            with open(place, encoding="utf-8", newline="") as file:
                found.append((path, TYPES[os.path.splitext(name)[1]], file.read()))
    return sorted(found)


def literal(text: str) -> str:
    """A text as it stands in a string literal."""
    if "\r" in text:
        raise ValueError("a line of a page file ends with a carriage return")
    return text.replace("\\", "\\\\").replace('"', '\\"')


def function(path: str) -> str:
    """The name of the function with the text at a path."""
    return re.sub(r"\W", "_", path.strip("/"))


def constants() -> str:
    """The file with the constants."""
    rows = files()
    table = "".join(ROW % (path, kind, function(path)) for path, kind, _ in rows)
    return HEAD % (len(rows), table) + "".join(TEXT % (path, function(path), literal(text)) for path, _, text in rows)


def main(*arguments: str) -> int:
    """Writes the constants, or compares them."""
    if arguments not in ((), ("--check",)):
        print("usage: build/pages.py [--check]", file=sys.stderr)
        return 2
    text = constants()
    if arguments:
        with open(MADE, encoding="utf-8", newline="") as file:
            return 0 if file.read() == text else 1
    with open(MADE, "w", encoding="utf-8", newline="") as file:
        file.write(text)
    return 0


if __name__ == "__main__":
    sys.exit(main(*sys.argv[1:]))
