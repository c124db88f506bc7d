"""The sentences for a person on standard error, by the codes of faults, as docs/FORMATS.md has them."""
import functools
import os
import re
from collections.abc import Iterable, Sequence

from lib.files import TOP

# Commands without an archive, or that look at another input before it: their faults have no sentence. A check prints what is unsound.
WITHOUT = {b"dump", b"holder", b"card", b"serve", b"listen"}

# Commands that give a driver a key.
GIVE_KEYS = {b"register", b"key"}

# The line of a fault: its code, or that the store failed.
CODE = re.compile(rb"^([CEMNPSXZ]\d+) .*\n\Z", re.MULTILINE)


# What `register` and `key` print after they have given a driver a key that others may guess.
SHORT_KEY = "others may guess a key of fewer than 20 characters; make one of 32 random letters and digits"

# What `serve` prints before a service if a driver has the office's key.
OFFICE_KEY = "a driver has the office's key, and so all the rights of the office; give that driver another key"

# What a line of the table has in the place of the fault's line where the sentence is on the new archive of `carry`.
OF_NEW = "the new archive of `carry`"


@functools.cache
def rows() -> list[tuple[str, str, str]]:
    """The lines of the table in docs/FORMATS.md: the codes, when, and the sentence."""
    with open(os.path.join(TOP, "docs", "FORMATS.md"), encoding="utf-8") as file:
        page = file.read()
    table = page[page.index("## All lines of faults") :]
    return re.findall(r"^\| ([^|]+?) \|[ ]*([^|]*?)[ ]*\| ([^|]+?) \|$", table, re.MULTILINE)


def of_new() -> set[str]:
    """The sentences on a new archive that `carry` can't make."""
    return {said for _, when, said in rows() if when == OF_NEW}


@functools.cache
def sentences() -> dict[str, set[str]]:
    """The sentences of the table in docs/FORMATS.md by their codes."""
    found: dict[str, set[str]] = {}
    for codes, _, said in rows():
        first, _, last = codes.partition(" to ")
        numbers = range(int(first[1:]), int(last[1:] or first[1:]) + 1) if first[1:].isdigit() else []
        for number in numbers:
            found.setdefault(f"{first[0]}{number}", set()).add(said)
    return found


def lines_on(path: bytes, known: Iterable[str]) -> list[bytes]:
    """The lines of sentences on the archive with a path."""
    return [b"tacho: %b: %b\n" % (path, sentence.encode()) for sentence in known]


def without_known(path: bytes, known: Iterable[str], errors: bytes) -> bytes:
    """What is printed on standard error but for one of these sentences at its end."""
    return next((errors.removesuffix(line) for line in lines_on(path, known) if errors.endswith(line)), errors)


def without_sentence(path: bytes, text: bytes, status: int, errors: bytes) -> bytes:
    """What a program prints on standard error but for the sentence that belongs to the fault whose line ends its text. Something else than
    nothing if there should be a sentence and there is none, or another."""
    line = CODE.search(text)
    if status not in (1, 3) or line is None:
        return errors
    left = without_known(path, sentences().get(line[1].decode(), set()) - of_new(), errors)
    return left if left != errors else errors + b"no sentence for a person"


def values_of(words: Sequence[bytes]) -> list[bytes]:
    """The arguments of a command: two hyphens may stand before any of them."""
    place = words.index(b"--") if b"--" in words else len(words)
    return [*words[:place], *words[place + 1 :]]


def without_advice(words: Sequence[str | bytes], text: bytes, status: int, errors: bytes) -> bytes:
    """The same of a program with these arguments. If the store failed, the sentence of `carry` may be one on the new archive."""
    bytes_of = [word.encode(errors="surrogateescape") if isinstance(word, str) else word for word in words]
    if len(bytes_of) < 3 or bytes_of[1] in WITHOUT:
        return errors
    path, *others = values_of(bytes_of[2:]) or [b""]
    if status == 0 and bytes_of[1] in GIVE_KEYS:
        return without_known(path, [SHORT_KEY], errors)
    left = without_known(others[0], of_new(), errors) if bytes_of[1] == b"carry" and others else errors
    if text.startswith(b"S12 ") and left != errors:
        return left
    return without_sentence(path, text, status, errors)


def without_any(words: Sequence[str], errors: bytes) -> bytes:
    """What a program prints on standard error but for any sentence, where the line of the fault isn't known."""
    if words[1:2] == ["carry"] and len(words) > 3:
        errors = without_known(words[3].encode(), of_new(), errors)
    return without_known(words[2].encode(), all_sentences(), errors) if len(words) > 2 else errors


def without_begun(path: str, errors: bytes) -> bytes:
    """What a program that was killed has printed on standard error but for the beginning of a sentence."""
    return b"" if any(line.startswith(errors) for line in lines_on(path.encode(), all_sentences())) else errors


def all_sentences() -> set[str]:
    """All sentences of the table, the one on short keys and the one on the office's key."""
    return {SHORT_KEY, OFFICE_KEY}.union(*sentences().values())
