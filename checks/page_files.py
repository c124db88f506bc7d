#!/usr/bin/env python3
"""Compares the page files that `listen` gives with the folder pages/, to the byte, with the fields of their replies; what `listen` replies
to other methods and near paths, and that `serve` gives no page; the paths in the definition with those of the folder; the size of each page
with all that it loads; and that each sentence is used. It looks for what the policy of the pages forbids in their HTML and scripts.

Argument: the program. The last line is 'N passed, M failed'."""
import gzip
import itertools
import os
import re
import subprocess
import sys
import tempfile
from collections.abc import Mapping

from lib import counting
from lib.counting import Comparisons
from lib.files import TOP
from lib.office import CREATED
from lib.programs import told_by
from lib.served import FIELDS, PAGES
from lib.server import OFFICE, Serving

TYPES = {".html": "text/html", ".css": "text/css", ".js": "text/javascript", "": "text/plain"}

# The most that a page may load: bytes as they are, and compressed; requests.
RAW = 160 << 10
COMPRESSED = 45 << 10
REQUESTS = 12

LANGUAGES = ("en", "de")

# The names of sentences that aren't in the modules as `say.NAME`: each expression that takes a sentence, with the names that it has.
TAKEN = {
    "say[breach.kind]": "B1 B2 B3 B4 B5 B6 B7 B8 B9 B10",
    "say[one.cause]": "unknown crew",
    "say[range.activity]": "rest available work drive",
    'say[AMOUNTS.get(kind) ?? "overBy"]': "late lacking overBy",
    "say[sentence]": "debt debtLate debtBroken",
    "say[fault.name]": "badKey changing isDown keepsChanging noConnection noDriver noReply otherReply tooOften unreadable",
    "say[what]": "broken generations noCard refused sending tooLarge unsure waiting",
}

# What HTML loads, and what a module imports.
LOADED = re.compile(r'<(?:link rel="(?:stylesheet|modulepreload)" href|script type="module" src)="([^"]+)"')
IMPORTED = re.compile(r'(?:import|from) "([^"]+)"')

# What the policy forbids or a browser would run as a script. Nothing in the pages needs it.
FORBIDDEN = {
    ".html": [r"<style", r"\sstyle=", r"\son\w+=", r"<script(?! type=\"module\" src=)", r"https?://"],
    ".js": [r"\.innerHTML", r"\.outerHTML", r"insertAdjacentHTML", r"document\.write", r"\beval\(", r"new Function", r"setAttribute\(\"style\"", r"\bdocument\.cookie"],
    ".css": [r"@import", r"url\(", r"https?://"],
}


def text_of(place: str) -> bytes:
    """The bytes of a file of the folder."""
    with open(os.path.join(PAGES, place), "rb") as file:
        return file.read()


def places() -> dict[str, str]:
    """The place of each file in the folder, by its path."""
    found = {}
    for folder, _, names in os.walk(PAGES):
        for name in names:
            place = os.path.relpath(os.path.join(folder, name), PAGES)
            found["/" + place.removesuffix("index.html")] = place
    return found


def reply_of(status: str, kind: str, body: bytes, more: Mapping[str, str] | None = None) -> bytes:
    """A reply, with fields after those of all replies."""
    fields = [f"{name}: {value}" for name, value in (more or {}).items()]
    head = [f"HTTP/1.1 {status}", f"content-type: {kind}; charset=utf-8", f"content-length: {len(body)}", "connection: close", *fields, "", ""]
    return "\r\n".join(head).encode() + body


def request(method: str, path: str, key: str | None = None, body: bytes = b"") -> list[bytes]:
    """A request in one piece."""
    fields = [f"{method} {path} HTTP/1.1", *([f"x-key: {key}"] if key else []), *([f"content-length: {len(body)}"] if body else []), "", ""]
    return ["\r\n".join(fields).encode() + body]


FORBIDS = reply_of("403 Forbidden", "text/plain", b"forbidden\n")
NOT_FOUND = reply_of("404 Not Found", "text/plain", b"not found\n")
NOT_ALLOWED = reply_of("405 Method Not Allowed", "text/plain", b"method not allowed\n")


def of_listening(program: str, archive: str) -> Comparisons:
    """What `listen` replies for each path, and for paths near it."""
    found = places()
    near = ["/", "/office", "/driver", "/shared", "/shared/", "/office/index.html", "/office/?month", "/office/..", "/Office/", "/office//"]
    with Serving(program, archive, OFFICE, 12 * len(found) + 3 * len(near) + 10, listens=True) as serving:
        for path, place in sorted(found.items()):
            file = reply_of("200 OK", TYPES[os.path.splitext(place)[1]], text_of(place), FIELDS)
            for who, key in [("nobody", None), ("the office", OFFICE), ("a stranger", "nobody-has-this-key")]:
                yield f"GET {path} by {who}", serving.ask(request("GET", path, key), True), file
            for method in ("POST", "HEAD", "PUT", "DELETE", "OPTIONS", "get"):
                yield f"{method} {path}", serving.ask(request(method, path, None, b"ab" if method == "POST" else b""), True), NOT_ALLOWED
        for path in near:
            yield f"GET {path} without a key", serving.ask(request("GET", path), True), FORBIDS
            yield f"GET {path} by the office", serving.ask(request("GET", path, OFFICE), True), NOT_FOUND
        yield "a request of the office", serving.ask(request("GET", "/drivers", OFFICE), True), reply_of("200 OK", "text/plain", b"")


def of_serving(program: str, archive: str) -> Comparisons:
    """`serve` gives no page."""
    found = places()
    with Serving(program, archive, OFFICE, 2 * len(found)) as serving:
        for path in sorted(found):
            yield f"serve: GET {path} without a key", serving.ask(request("GET", path), True), FORBIDS
            yield f"serve: GET {path} by the office", serving.ask(request("GET", path, OFFICE), True), NOT_FOUND


def loaded(path: str, found: dict[str, str], seen: set[str]) -> set[str]:
    """The paths of a file and of all that it loads."""
    if path in seen:
        return seen
    seen.add(path)
    for other in (LOADED if path.endswith("/") else IMPORTED).findall(text_of(found[path]).decode()):
        full = os.path.normpath(os.path.join(os.path.dirname(path), other))
        loaded(full, found, seen)
    return seen


def of_sizes() -> Comparisons:
    """The size of each page with all that it loads, in each language."""
    found = places()
    for page, language in itertools.product(("office", "driver"), LANGUAGES):
        sentences = {f"/{folder}/words-{language}.js" for folder in ("shared", page)}
        texts = [text_of(found[path]) for path in loaded(f"/{page}/", found, set()) | sentences]
        raw, small = sum(map(len, texts)), sum(len(gzip.compress(text, 9)) for text in texts)
        name = f"the page {page} in {language}"
        print(f"{name} loads {len(texts)} files: {raw} bytes, compressed {small}")
        yield f"{name}: bytes, {raw}", raw <= RAW, True
        yield f"{name}: compressed, {small}", small <= COMPRESSED, True
        yield f"{name}: requests, {len(texts)}", len(texts) <= REQUESTS, True


def of_sentences() -> Comparisons:
    """Each sentence is used: its name stands in a module as `say.NAME`, in HTML, or in `TAKEN`."""
    found = {path: text_of(place).decode() for path, place in places().items() if "/words-" not in path}
    yield "what takes no sentence", [one for one in TAKEN if not any(one in text for text in found.values())], []
    taken = {name for names in TAKEN.values() for name in names.split(" ")}
    for folder in ("shared", "driver", "office"):
        text = "".join(text for path, text in found.items() if folder == "shared" or path.startswith((f"/{folder}/", "/shared/")))
        used = {*re.findall(r"\bsay\.(\w+)", text), *re.findall(r'data-text="(\w+)"', text), *taken}
        names = re.findall(r"^  (\w+):", text_of(f"{folder}/words-en.js").decode(), re.MULTILINE)
        yield f"the sentences of {folder} that no module uses", [name for name in names if name not in used], []


def of_texts() -> Comparisons:
    """The constants, the paths in the definition, and what no page file may have."""
    found = places()
    yield "the constants of tacho_pages (build/pages.py writes them)", subprocess.run([os.path.join(TOP, "build", "pages.py"), "--check"]).returncode, 0
    with open(os.path.join(TOP, "crates", "tacho_pages", "specs", "Pages.antt"), encoding="utf-8") as file:
        yield "the paths in the definition", re.findall(r'\(codes "([^"]+)"', file.read()), sorted(found)
    for path, place in sorted(found.items()):
        text = text_of(place).decode()
        for pattern in FORBIDDEN.get(os.path.splitext(place)[1], []):
            yield f"{path} has {pattern}", re.findall(pattern, text), []
        yield f"{path}: the end of its last line", text.endswith("\n"), True
        yield f"{path}: below a folder of the pages", path.startswith(("/driver/", "/office/", "/shared/")), True


def comparisons(program: str) -> Comparisons:
    """All comparisons."""
    yield from of_texts()
    yield from of_sizes()
    yield from of_sentences()
    with tempfile.TemporaryDirectory() as folder:
        archive = os.path.join(folder, "archive.db")
        yield "init", told_by([program, "init", archive]), CREATED
        yield from of_listening(program, archive)
        yield from of_serving(program, archive)


if __name__ == "__main__":
    sys.exit(counting.count(comparisons(os.path.abspath(sys.argv[1]))))
