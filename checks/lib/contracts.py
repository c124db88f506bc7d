"""Reads the public contracts of the crates, and what they cite.

It reads the sources alone. A word that has the name of an imported definition counts as that definition, also where it
is a variable: so it may find too many. Of a function it takes the types of its signature too, of a type the fields and
the `Model`, and of a trait all that it says."""
import collections
import functools
import itertools
import os
import re
import textwrap
from collections.abc import Callable, Iterable, Iterator, Sequence

from lib.files import TOP

# The crates by whose public contracts the product is known, each with those of its modules that count, or None for all.
# The crates in between aren't here: what theirs say is used in proofs of these, and the prover has checked it.
# Of tacho_rules the scan is in between too: what a report is, IsReport says, however it is made. So it is of the pass of
# tacho_stretches. Of tacho_check the readings and the judgement of one driver are in between.
ENTRIES: dict[str, tuple[str, ...] | None] = {
    "tacho_time": None,
    "tacho_card": None,
    "tacho_line": None,
    "tacho_rules": ("examination", "laws", "report"),
    "tacho_stretches": ("laws", "range", "stretch"),
    "tacho_evidence": None,
    "tacho_ahead": None,
    "tacho_state": None,
    "tacho_sheet": None,
    "tacho_carry": None,
    "tacho_tar": None,
    "tacho_handover": None,
    "tacho_desk": None,
    "tacho_store": None,
    "tacho_check": ("checking", "laws", "table", "text"),
    "tacho_message": None,
    "tacho_http": None,
    "tacho_serve": None,
    "tacho_cli": None,
    "tacho_jobs": None,
}

# Laws of these that are about what is in between: what each pass of a scan finds, and how the rows of one driver are judged.
BETWEEN = {
    "tacho_check::laws::judged_rows",
    *(f"tacho_rules::laws::{name}_as_defined" for name in ("breaks", "days", "week_sums", "week_rests")),
}

# What these show of other crates by `pub use`, and what is in between all the same: the scan's passes, and what reads rows for it.
PASSED_ON = {"Breaks", "Days", "Found", "Pass", "Plain", "WeekRests", "WeekSums", "feed_rows"}

# A definition of the crates, a type or trait of their code, or a definition of a library of the kit.
Definition = collections.namedtuple("Definition", "crate file name")
Declared = collections.namedtuple("Declared", "crate module name")
Kit = collections.namedtuple("Kit", "library path name")
Node = Definition | Declared | Kit

# What an .antt file has: its first comment, its definitions by name, which of them a constructor is of, and its scope.
Spec = collections.namedtuple("Spec", "comment definitions constructors scope")

# What words mean in a place: names, and prefixes of names, as `status.Okay`.
Scope = collections.namedtuple("Scope", "names prefixes")

# A part of a source with the scope that its words have.
Text = collections.namedtuple("Text", "words scope")
Entry = tuple[str, list[Text]]  # a public item: its place, and what its contract says

# What is wrong in the sources, each by the place and the name.
faults: set[str] = set()


def crates_in_order() -> dict[str, list[str]]:
    """Each crate of crates.txt with the crates and libraries that it uses."""
    with open(os.path.join(TOP, "crates.txt"), encoding="utf-8") as file:
        rows = [row.partition(":") for row in file if not row.startswith("#")]
    return {name: uses.split() for name, _, uses in rows}


def files_of(crate: str, folder: str, ending: str) -> list[str]:
    """The names of a crate's files in a folder, in order, but those of Lib.antt and lib.rt."""
    path = os.path.join(TOP, "crates", crate, folder)
    names = sorted(os.listdir(path)) if os.path.isdir(path) else []
    return [name.removesuffix(ending) for name in names if name.endswith(ending) and name.lower() != "lib" + ending]


USES = crates_in_order()
CRATES = list(USES)
LIBRARIES = {"std", *CRATES, *itertools.chain(*USES.values())}
SPECS = {crate: files_of(crate, "specs", ".antt") for crate in CRATES}
MODULES = {crate: files_of(crate, "src", ".rt") for crate in CRATES}


# ---- words


def without_comments(text: str, mark: str) -> str:
    """The text without strings, characters and comments, which begin with a mark."""
    strings = r'"(?:\\[\s\S]|[^"\\])*"|' + r"'(?:\\.|[^'\\\n])'"
    return re.sub(strings + "|" + mark + r"[^\n]*", lambda found: "" if found[0].startswith(mark) else '""', text)


def words_of(text: str) -> list[str]:
    """The words of a text, each with what it has after its first dot, and its signs."""
    return re.findall(r"\.?[^\W\d][\w-]*(?:\.\w[\w-]*)*|\[\]|[^\s\w(){}\[\];,.\"]+", text)


def kit_words(name: str) -> list[str]:
    """The word by which a name is cited: of `◌≡◌` it is the sign, and of `if◌then◌else◌` the first word."""
    return [part for part in name.split("◌") if part][:1]


# ---- imports


def target(path: str, name: str) -> Node | None:
    """What a name after a path is, or None where the path leads nowhere."""
    parts = path.split(".")
    if len(parts) < 3 or parts[1] not in LIBRARIES:
        return None
    crate = parts[1]
    if crate not in CRATES:
        return Kit(crate, ".".join(parts[2:]), name)
    if parts[2:4] == ["specs", "declared"] and len(parts) >= 6:
        return Declared(crate, parts[4], name if parts[5] == "TheConstants" else parts[5])
    if parts[2] == "specs" and len(parts) == 4 and parts[3] in SPECS[crate]:
        return Definition(crate, parts[3], name)
    return None


IMPORT = re.compile(r"use (Rattle[\w.]+?)(?:\.\{([^}]*)\}| as (\w+))")


def scope_of(place: str, text: str) -> Scope:
    """The scope that the imports of a text make. What can't be resolved is a fault of the place."""
    scope = Scope({}, {})
    imports = IMPORT.findall(text)
    if len(imports) != len(re.findall(r"^ *(?:ghost )?use ", text, re.MULTILINE)):
        faults.add(f"{place}: an import that can't be read")
    for path, names, prefix in imports:
        if target(path, "") is None:
            faults.add(f"{place}: no such import: {path}")
        elif prefix:
            scope.prefixes[prefix] = path
        else:
            scope.names.update(named(path, names))
    return scope


def named(path: str, names: str) -> Iterator[tuple[str, Node | None]]:
    """The words of an import, each with what it cites."""
    for row in filter(None, (name.strip() for name in names.split(","))):
        name, _, other = row.partition(" as ")
        for word in kit_words(other or name):
            yield word, target(path, name)


def meaning(word: str, scope: Scope) -> Node | None:
    """What a word cites in a scope, or None. What follows a dot is a field, unless a prefix comes before it."""
    head, _, rest = word.partition(".")
    if head in scope.prefixes and rest:
        return target(scope.prefixes[head], rest.split(".")[0])
    return scope.names.get(head) if head else None


# ---- definitions

HEAD = re.compile(r"(?:(?:abbrev|unfoldable) +)?(?:pub +)?(?:(?:record|data) +)?([A-Za-z_][\w-]*)(?= |$)")


def signature(line: str) -> str | None:
    """The name that a line defines, or None: it has a keyword before the name, or a colon after it."""
    found = HEAD.match(line)
    if not found:
        return None
    has_keyword = re.match(r"(abbrev|unfoldable|pub|record|data) ", line)
    return found[1] if has_keyword or line[found.end() :].lstrip().startswith(":") else None


def definitions_of(place: str, text: str) -> dict[str, str]:
    """The definitions of an .antt file, each with its text, and the head of the modules that contain it."""
    definitions: dict[str, list[str]] = {}
    heads: list[list[str]] = []
    last: list[str] = []
    for line in filter(str.strip, text.split("\n")):
        indent = len(line) - len(line.lstrip())
        heads = heads[: indent // 2]
        if indent > 2 * len(heads) or not re.match(r" *[^\W\d]", line):
            last.append(line)
        elif line.lstrip().startswith("module "):
            last = [line]
            heads.append(last)
        else:
            name = signature(line.lstrip())
            if name:
                definitions[name] = sum(heads, [])
            elif (name := line.split()[0]) not in definitions:
                faults.add(f"{place}: no definition of this file: {name}")
                definitions[name] = []
            last = definitions[name]
            last.append(line)
    return {name: "\n".join(lines) for name, lines in definitions.items()}


def constructors_of(definitions: dict[str, str]) -> dict[str, str]:
    """Of each constructor of a `data` the name of the data."""
    found = {}
    for name, text in definitions.items():
        if re.match(r"(?:pub +)?data ", text):
            for constructor in re.findall(r"^  (?:pub +)?([A-Za-z_][\w-]*) +:", text, re.MULTILINE):
                found[constructor] = name
    return found


def first_comment(text: str) -> list[str]:
    """The lines of the comment that a file begins with, without their marks."""
    lines: list[str] = []
    for line in text.split("\n"):
        if not line.startswith("--"):
            break
        lines.append(line[2:].strip())
    return lines


@functools.cache
def spec(crate: str, file: str) -> Spec:
    """What an .antt file has."""
    place = f"{crate}/{file}"
    with open(os.path.join(TOP, "crates", crate, "specs", file + ".antt"), encoding="utf-8") as source:
        whole = source.read()
    text = without_comments(whole, "--")
    imports = re.findall(r"^use [^{\n]*(?:\{[^}]*\})?[^\n]*", text, re.MULTILINE)
    for line in imports:
        text = text.replace(line, "", 1)
    definitions = definitions_of(place, text)
    scope = scope_of(place, "\n".join(imports))
    constructors = constructors_of(definitions)
    own = {**constructors, **{name: name for name in definitions}}
    scope.names.update({name: Definition(crate, file, other) for name, other in own.items()})
    return Spec(first_comment(whole), definitions, constructors, scope)


# ---- code


def chunks(text: str, indent: int) -> list[str]:
    """The items of a text at an indent: each begins there with a letter, and has the lines below it."""
    found: list[str] = []
    for line in text.split("\n"):
        if re.match(" " * indent + "[a-z]", line) and not re.match(" *where\\b", line):
            found.append(line)
        elif found:
            found[-1] += "\n" + line
    return found


def rust_names(crate: str, module: str, text: str) -> dict[str, Declared]:
    """The types and traits of the crates that a file has or imports."""
    names: dict[str, Declared] = {}
    for path, group, single in re.findall(r"^use ([\w:]+)::(?:\{([^}]*)\}|([\w ]+));", text, re.MULTILINE):
        for name, _, other in (row.strip().partition(" as ") for row in (group or single).split(",")):
            found = exported(crate, path.split("::"), name)
            if found:
                names[found.name if name == "self" else other or name] = found
    for name in re.findall(r"^(?:pub(?:\(crate\))? )?(?:struct|enum|trait|type) (\w+)", text, re.MULTILINE):
        names[name] = Declared(crate, module, name)
    return names


def exported(crate: str, path: list[str], name: str) -> Declared | None:
    """The type or trait of the crates that a path of the code leads to, or None: of a variant it is the type."""
    if path[0] == "crate":
        path = [crate, *path[1:]]
    while path[-1][0].isupper():
        *path, name = path
    if path[0] not in CRATES or not name[:1].isupper():
        return None
    if len(path) > 1:
        return Declared(path[0], path[1], name)
    return library(path[0]).get(name)


@functools.cache
def library(crate: str) -> dict[str, Declared]:
    """What the lib.rt of a crate shows of types and traits, by the names that it gives them."""
    types: dict[str, Declared] = {}
    for path, name, other in shown_names(crate):
        found = exported(crate, ["crate", *path] if path[0] not in CRATES else path, name)
        if found:
            types[other] = found
    return types


def shown_names(crate: str, module: str = "lib") -> Iterator[tuple[list[str], str, str]]:
    """What a file of a crate shows by `pub use`: the path, the name in it, and the name outside."""
    path = os.path.join(TOP, "crates", crate, "src", module + ".rt")
    if not os.path.exists(path):
        return
    with open(path, encoding="utf-8") as file:
        text = without_comments(file.read(), "//")
    for path, group, single in re.findall(r"^pub use ([\w:]+)::(?:\{([^}]*)\}|([\w ]+));", text, re.MULTILINE):
        for name, _, other in (row.strip().partition(" as ") for row in (group or single).split(",") if row.strip()):
            yield path.split("::"), name, other or name


def shown_modules(crate: str) -> list[str]:
    """The modules that the lib.rt of a crate shows whole."""
    with open(os.path.join(TOP, "crates", crate, "src", "lib.rt"), encoding="utf-8") as file:
        return re.findall(r"^pub mod (\w+);", file.read(), re.MULTILINE)


@functools.cache
def source(crate: str, module: str) -> tuple[list[str], Scope] | None:
    """The items of a file of code, and the scope of its ghost words; None if there is no such file."""
    path = os.path.join(TOP, "crates", crate, "src", module + ".rt")
    if not os.path.exists(path):
        return None
    with open(path, encoding="utf-8") as file:
        text = without_comments(file.read(), "//")
    imports = "\n".join(chunk for chunk in chunks(text, 0) if chunk.startswith("ghost use"))
    scope = scope_of(f"{crate}/src/{module}.rt", imports)
    return chunks(text, 0), Scope({**rust_names(crate, module, text), **scope.names}, scope.prefixes)


def code(crate: str, module: str) -> tuple[list[str], Scope]:
    """The same of a file that is there."""
    found = source(crate, module)
    assert found is not None, f"no file {module}.rt in {crate}"
    return found


def contract(item: str) -> str:
    """The signature of a function and the clauses of its contract, without its body."""
    lines = item.split("\n")
    indent = len(lines[0]) - len(lines[0].lstrip())
    body = [number for number, line in enumerate(lines) if line in (" " * indent + "{", " " * indent + "{}")]
    if body:
        return "\n".join(lines[: body[0]])
    return item.partition(" {\n")[0] if lines[0].lstrip().startswith(("fn ", "pub fn ")) else item


def promises(item: str) -> bool:
    """Whether a function has a contract."""
    return bool(re.search(r"^ +(ensures|requires)\b", contract(item), re.MULTILINE))


def block_texts(crate: str, module: str, block: str, wanted: Callable[[str], bool]) -> list[Text]:
    """The items of an impl or a trait that are wanted, in the scope of the file and of its own imports."""
    items = chunks(block, 4)
    scope = code(crate, module)[1]
    imports = "\n".join(item for item in items if item.lstrip().startswith("ghost use"))
    own = scope_of(f"{crate}/src/{module}.rt", imports)
    scope = Scope({**scope.names, **own.names}, {**scope.prefixes, **own.prefixes})
    head = block.split("{")[0]
    return [Text(head + "\n" + contract(item), scope) for item in items if wanted(item.lstrip())]


def is_ghost(item: str) -> bool:
    """Whether it is a ghost item that says something."""
    return item.startswith("ghost ") and not item.startswith("ghost use")


def is_shown(item: str) -> bool:
    """Whether it is a public function with a contract."""
    return item.startswith("pub fn ") and promises(item)


def head_of(block: str) -> tuple[str, str]:
    """The trait and the type of an impl: the trait is empty if it has none."""
    head = block.split("{")[0]
    while "<" in head:
        head = re.sub(r"<[^<>]*>", "", head)
    words = [word.split("::")[-1] for word in head.split()[1:]]
    return (words[0], words[2]) if "for" in words else ("", words[0])


def impls_of(crate: str, name: str) -> Iterator[tuple[str, str, str]]:
    """The impl blocks of a type in its crate: module, trait, text."""
    for module in MODULES[crate]:
        for block in code(crate, module)[0]:
            if block.startswith("impl") and head_of(block)[1] == name:
                yield module, head_of(block)[0], block


def declared_texts(declared: Declared) -> list[Text]:
    """What is to be known of a type or a trait that is cited: its fields or its methods, and its Model."""
    read = source(declared.crate, declared.module)
    pattern = re.compile(rf"(?:pub(?:\(crate\))? )?(?:struct|enum|trait|type|const|static) {declared.name}\b")
    found = [chunk for chunk in read[0] if pattern.match(chunk)] if read else []
    if not found:
        faults.add(f"{declared.crate}: no such type: {declared.module}::{declared.name}")
        return []
    texts = [Text(found[0], read[1])]
    if re.match(r"(?:pub(?:\(crate\))? )?trait ", found[0]):
        texts = block_texts(declared.crate, declared.module, found[0], lambda item: not item.startswith("ghost use"))
    for module, trait, block in impls_of(declared.crate, declared.name):
        if trait == "Model":
            texts += block_texts(declared.crate, module, block, is_ghost)
    return texts


# ---- public items


def entries_of(crate: str, modules: Sequence[str] | None) -> Iterator[Entry]:
    """The public items of a crate that have a contract: the name of each, and its texts."""
    whole = shown_modules(crate)
    single = [(path[0], name) for path, name, _ in shown_names(crate) if path[0] in MODULES[crate] and path[0] not in whole]
    there: list[tuple[str, str | None]] = [*single, *((module, None) for module in whole)]
    for module, name in there:
        if modules is None or module in modules:
            yield from entries_in(crate, module, name)
    for path, name, _ in itertools.chain(shown_names(crate), *(shown_names(crate, module) for module in shown_modules(crate))):
        if path[0] in CRATES and path[0] not in ENTRIES and name not in PASSED_ON:
            yield from entries_shown(path[0], path[1:], name)


def entries_shown(crate: str, path: list[str], name: str) -> Iterator[Entry]:
    """The public items of a crate that another one shows: those with this name, in the file that a path leads to or that lib.rt says."""
    if name in shown_modules(crate):
        yield from entries_in(crate, name, None)
        return
    modules = path or [found[0] for found, inner, _ in shown_names(crate) if inner == name and found[0] in MODULES[crate]]
    for module in modules:
        yield from entries_in(crate, module, name)


def entries_in(crate: str, module: str, name: str | None) -> Iterator[Entry]:
    """The public items of a file with this name, or all of them."""
    chunks_there, scope = code(crate, module)
    for chunk in chunks_there:
        found = re.match(r"pub (fn|struct|enum|trait) (\w+)", chunk)
        if not found or name not in (None, found[2]):
            continue
        if found[1] == "fn":
            if promises(chunk):
                yield f"{module}::{found[2]}", [Text(contract(chunk), scope)]
        elif found[1] == "trait":
            yield f"{module}::{found[2]}", declared_texts(Declared(crate, module, found[2]))
        else:
            yield from entries_of_type(crate, found[2])


def entries_of_type(crate: str, name: str) -> Iterator[Entry]:
    """The public methods of a type that have a contract, and what its impls of traits say of it."""
    for module, trait, block in impls_of(crate, name):
        for text in block_texts(crate, module, block, is_ghost if trait else is_shown):
            called = re.search(r"^ +(?:pub fn|ghost) (\w+)", text.words, re.MULTILINE)
            assert called, f"no name in {text.words}"
            yield f"{module}::{name}::{called[1]}", [text]


def all_entries() -> list[Entry]:
    """The public items that have a contract, each with its texts."""
    entries: list[Entry] = []
    for crate, modules in ENTRIES.items():
        there = [(f"{crate}::{name}", texts) for name, texts in entries_of(crate, modules)]
        if not there:
            faults.add(f"{crate}: nothing public has a contract")
        entries += there
    for name in sorted(BETWEEN - {name for name, _ in entries}):
        faults.add(f"no such law: {name}")
    return [entry for entry in entries if entry[0] not in BETWEEN]


# ---- what is cited


def cited(texts: Iterable[Text]) -> set[Node]:
    """What texts cite."""
    return {found for text in texts for word in words_of(text.words) if (found := meaning(word, text.scope))}


def wrapped(text: str, indent: str = "") -> list[str]:
    """A paragraph in lines."""
    return textwrap.wrap(text, 120, subsequent_indent=indent, break_long_words=False, break_on_hyphens=False)
