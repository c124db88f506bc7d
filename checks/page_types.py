#!/usr/bin/env python3
"""Checks the types of the pages' modules, which stand in JSDoc comments: TypeScript finds no error in them. What their exported functions
in pages/shared take stands in their comments, under the names that it has in the code; this needs no TypeScript.

The last line is 'N passed, M failed'."""
import json
import os
import re
import shutil
import subprocess
import sys
import tempfile

from lib import counting
from lib.counting import Comparisons
from lib.served import PAGES

FOLDERS = ("driver", "office", "shared")

# All flags of `strict` hold.
OPTIONS = {
    "noEmit": True, "allowJs": True, "checkJs": True, "strict": True, "noImplicitReturns": True, "noFallthroughCasesInSwitch": True,
    "noUnusedLocals": True, "noUnusedParameters": True, "noImplicitOverride": True, "target": "es2022", "module": "es2022",
    "moduleResolution": "node", "lib": ["es2022", "dom", "dom.iterable"], "types": [], "baseUrl": ".",
    "paths": {f"/{folder}/*": [f"{folder}/*"] for folder in FOLDERS},
}

# The parameters of sentences have no types, and some sentences take one that only the other language needs.
ALLOWED = re.compile(r"\w+/words-\w+\.js\(\d+,\d+\): error TS(?:7006|6133): ")

IMPORT = re.compile(r'/\*\* @import \{ (.*?) \} from "(.*?)" \*/')
GENERIC = re.compile(r"@typedef \{(?:[^@])*?\} (\w+)\n \* @template")

# An exported function, and the comment before it.
EXPORTED = re.compile(r"((?:/\*\*(?:(?!\*/)[\s\S])*\*/\n)?)export (?:async )?"
                      r"(?:function (\w+)\((.*)\) \{$|const (\w+) = (?:async )?\((.*)\) =>)", re.MULTILINE)


def text_of(place: str) -> str:
    """The text of a file of the pages."""
    with open(os.path.join(PAGES, place), encoding="utf-8") as file:
        return file.read()


def modules() -> list[str]:
    """The places of all modules."""
    return [f"{folder}/{name}" for folder in FOLDERS for name in sorted(os.listdir(os.path.join(PAGES, folder))) if name.endswith(".js")]


# Comments

def parameters(text: str) -> list[str]:
    """The names of the parameters between the brackets of a function. One that is taken apart has no name, and is ''."""
    names, depth, name = [], 0, ""
    for sign in f"{text},":
        depth += (sign in "{[(") - (sign in "}])")
        if sign == "," and depth == 0:
            names.append(re.sub(r"^\s*(?:\.\.\.)?(\w*).*", r"\1", name, flags=re.DOTALL))
            name = ""
        else:
            name += sign
    return [] if text.strip() == "" else names


def told_parameters(comment: str) -> list[str] | str:
    """The names that a comment gives to parameters, or what is wrong with it. A comment may have the type of the whole function instead."""
    if not comment:
        return "no comment"
    whole = re.search(r"@type \{(?:<\w+>)?\((.*?)\) => ", comment, re.DOTALL)
    if whole:
        return [re.sub(r"[?:].*", "", name, flags=re.DOTALL) for name in parameters(whole[1])]
    return re.findall(r"@param \{(?:[^{}]|\{[^{}]*\})*\} \[?(\w+)", comment)


def of_comments() -> Comparisons:
    """Each exported function of the shared modules says what it takes. A parameter that is taken apart may have any name."""
    for place in modules():
        if not place.startswith("shared/") or "/words-" in place:
            continue
        for comment, one, in_brackets, other, in_arrow in EXPORTED.findall(text_of(place)):
            wanted, told = parameters(in_brackets or in_arrow), told_parameters(comment)
            if isinstance(told, list) and len(told) == len(wanted):
                told = [name if code else "" for name, code in zip(told, wanted)]
            yield f"{place}: what the comment of {one or other} says of its parameters", told, wanted


# Types

def generic_names() -> set[str]:
    """The names of the types that have a parameter."""
    return {name for place in modules() for name in GENERIC.findall(text_of(place))}


def with_typedefs(text: str, generic: set[str]) -> str:
    """The text of a module in which each `@import`, which TypeScript 4.8 doesn't know, is a line of types, so that no line moves."""
    def typedef(name: str, place: str) -> str:
        if name in generic:
            return f'/** @template T @typedef {{import("{place}").{name}<T>}} {name} */'
        return f'/** @typedef {{import("{place}").{name}}} {name} */'

    return IMPORT.sub(lambda found: " ".join(typedef(name.strip(), found[2]) for name in found[1].split(",")), text)


def errors(folder: str) -> list[str]:
    """What TypeScript finds in the modules, copied to a folder."""
    generic = generic_names()
    for place in modules():
        os.makedirs(os.path.dirname(os.path.join(folder, place)), exist_ok=True)
        with open(os.path.join(folder, place), "w", encoding="utf-8") as file:
            file.write(with_typedefs(text_of(place), generic))
    with open(os.path.join(folder, "tsconfig.json"), "w", encoding="utf-8") as file:
        json.dump({"compilerOptions": OPTIONS, "include": ["*/*.js"]}, file)
    told = subprocess.run(["tsc", "-p", folder, "--pretty", "false"], cwd=folder, stdout=subprocess.PIPE, text=True)
    lines = [line for line in told.stdout.splitlines() if not ALLOWED.match(line)]
    # Where TypeScript fails itself, its status says so.
    return lines or ([] if told.returncode in (0, 2) else [f"status {told.returncode}"])


def of_types() -> Comparisons:
    """TypeScript finds no error in any module."""
    if not shutil.which("tsc"):
        print("left out: the types of the pages' modules, since tsc isn't installed: apt install node-typescript", flush=True)
        return
    with tempfile.TemporaryDirectory() as folder:
        found = errors(folder)
    for place in modules():
        yield f"the types of {place}", [line for line in found if line.startswith(f"{place}(")], []
    yield "what TypeScript says else", [line for line in found if not line.startswith(tuple(f"{place}(" for place in [*modules(), " "]))
                                        and not line.startswith(" ")], []


def comparisons() -> Comparisons:
    """All comparisons."""
    yield from of_comments()
    yield from of_types()


if __name__ == "__main__":
    sys.exit(counting.count(comparisons()))
