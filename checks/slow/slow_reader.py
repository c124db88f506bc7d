"""A slow reader of driver card data, written from the definitions and not from the program: it asks of each minute
which word gives it its mark. `docs/CARD.md` says the rules."""
import datetime
from collections.abc import Callable, Iterable, Sequence
from typing import Any

ACTIVITIES = ["rest", "available", "work", "drive"]
READ_DAYS = range(10_959, 47_482)

Mark = tuple[str, str]  # an activity, and "single" or "crew"
Pair = tuple[int, Mark]  # a minute and its mark
Block = tuple[int, int, bytes]  # identifier, kind and value


class Fault(Exception):
    """The line of the first fault."""


def number(buffer: bytes | bytearray, place: int) -> int:
    """The number of two bytes at a place of a cyclic buffer."""
    n = len(buffer)
    return buffer[place % n] * 256 + buffer[(place + 1) % n]


def word_place(place: int, i: int) -> int:
    """The place of a word of the record at a place."""
    return place + 12 + 2 * i


def mark_of(word: int) -> Mark | None:
    """The mark that a word gives, or None where its activity isn't known."""
    crew, out = word >> 14 & 1, word >> 13 & 1
    activity = ACTIVITIES[word >> 11 & 3]
    if out:
        return (activity, "single") if crew else None
    return activity, "crew" if crew else "single"


def record_of(buffer: bytes | bytearray, place: int, lengths_before: int) -> tuple[int, int, list[int]]:
    """The day and the words of the record at a place, or its first fault."""
    n = len(buffer)
    length = number(buffer, place + 2)
    if length < 12 or length % 2 or length > n:
        raise Fault(f"C9 record length at {place}")
    if lengths_before + length > n:
        raise Fault(f"C10 chain broken at {place}")
    day = (number(buffer, place + 4) * 65_536 + number(buffer, place + 6)) // 86_400
    if day not in READ_DAYS:
        raise Fault(f"C11 day out of range at {place}")
    words = [number(buffer, word_place(place, i)) for i in range((length - 12) // 2)]
    for i, word in enumerate(words):
        if word % 2048 >= 1440:
            raise Fault(f"C12 word minute at {word_place(place, i) % n}")
        if i and word % 2048 < words[i - 1] % 2048:
            raise Fault(f"C13 word order at {word_place(place, i) % n}")
    return length, day, words


def pointers_of(value: bytes) -> tuple[int, int, bytes]:
    """The two pointers of activity data, and its buffer."""
    if len(value) < 16:
        raise Fault("C7 activity data too short")
    oldest, newest, buffer = value[0] * 256 + value[1], value[2] * 256 + value[3], value[4:]
    if oldest >= len(buffer) or newest >= len(buffer):
        raise Fault("C8 pointer out of the buffer")
    return oldest, newest, buffer


def pairs_of_value(value: bytes) -> set[Pair]:
    """The pairs of a minute and a mark that activity data gives, as a set."""
    oldest, newest, buffer = pointers_of(value)
    pairs: set[Pair] = set()
    if oldest == newest and number(buffer, oldest + 2) == 0:
        return pairs
    place, taken = oldest, 0
    while True:
        length, day, words = record_of(buffer, place, taken)
        last_of = {word % 2048: i for i, word in enumerate(words)}
        begun = -1  # the last word that holds from the minute or earlier
        for minute in range(1440):
            begun = max(begun, last_of.get(minute, -1))
            if begun >= 0 and not (place == newest and begun == len(words) - 1):
                mark = mark_of(words[begun])
                if mark:
                    pairs.add((1440 * day + minute, mark))
        if place == newest:
            return pairs
        place, taken = (place + length) % len(buffer), taken + length


def blocks_of(file: bytes) -> list[Block]:
    """The blocks of a file: identifier, kind and value."""
    blocks, offset = [], 0
    while offset < len(file):
        value = offset + 5
        length = file[offset + 3] * 256 + file[offset + 4] if value <= len(file) else 0
        if value + length > len(file):
            raise Fault(f"C1 truncated block at {offset}")
        blocks.append((file[offset] * 256 + file[offset + 1], file[offset + 2], file[value : value + length]))
        offset = value + length
    return blocks


def data_of(blocks: Sequence[Block], identifier: int) -> list[bytes | None]:
    """The values of the two generations' data of an elementary file."""
    found = {kind: value for name, kind, value in reversed(blocks) if name == identifier}
    return [found.get(kind) for kind in (0, 2)]


def card_file(file: bytes) -> tuple[list[Block], bytes]:
    """The blocks of a file and its holder, or the first of C1 to C5."""
    blocks = blocks_of(file)
    seen = set()
    for identifier, kind, _ in blocks:
        if identifier in (0x0504, 0x0520) and kind in (0, 2):
            if (identifier, kind) in seen:
                raise Fault(f"C2 block {identifier:04x} {kind:02x} twice")
            seen.add((identifier, kind))
    identifications = [value for value in data_of(blocks, 0x0520) if value is not None]
    if not identifications:
        raise Fault("C3 no identification")
    if any(len(value) < 17 for value in identifications):
        raise Fault("C4 identification too short")
    holders = {value[:15] for value in identifications}
    if len(holders) == 2:
        raise Fault("C5 two cards")
    return blocks, holders.pop()


def pairs_of_file(file: bytes, part: str) -> list[Pair]:
    """The pairs of all records of the data that a part chooses."""
    blocks, _ = card_file(file)
    first, second = data_of(blocks, 0x0504)
    chosen = {"first": [first], "second": [second], "both": [first, second]}[part]
    values = [value for value in chosen if value is not None]
    if not values:
        raise Fault("C6 no activity data")
    for value in values:
        pointers_of(value)
    return [pair for value in values for pair in pairs_of_value(value)]


def minute_text(minute: int) -> str:
    """The text of a minute."""
    moment = datetime.datetime(1970, 1, 1) + datetime.timedelta(minutes=minute)
    return moment.strftime("%Y-%m-%d %H:%M")


def runs(pairs: Iterable[tuple[int, Any]]) -> list[list[Any]]:
    """The maximal runs of minutes with one value, as start, past and value."""
    found: list[list[Any]] = []
    for minute, value in sorted(pairs):
        if found and found[-1][1] == minute and found[-1][2] == value:
            found[-1][1] = minute + 1
        else:
            found.append([minute, minute + 1, value])
    return found


def map_of(pairs: Iterable[Pair]) -> dict[int, Mark]:
    """The mark of each minute, or the fault of the least minute with two marks."""
    pairs = sorted(set(pairs))
    for (minute, _), (following, _) in zip(pairs, pairs[1:]):
        if minute == following:
            raise Fault(f"C14 file contradicts itself at {minute_text(minute)}")
    return dict(pairs)


def lines_of_pairs(pairs: Iterable[Pair]) -> str:
    """The lines of the maximal runs of minutes of one mark, or the fault of the least minute with two marks."""
    found = runs(map_of(pairs).items())
    return "".join(f"{minute_text(a)} {minute_text(b)} {m[0]} {m[1]}\n" for a, b, m in found)


def within(given: bytes, limit: int) -> bytes:
    """What is given, if it has no more bytes than the limit."""
    if len(given) > limit:
        raise Fault("X1 too large")
    return given


def answer(lines: Callable[[], str]) -> tuple[str, int]:
    """The lines that a call gives, or that of its first fault, and the status."""
    try:
        return lines(), 0
    except Fault as fault:
        return f"{fault}\n", 1


def dump(value: bytes) -> tuple[str, int]:
    """What `tacho dump` prints, and its status."""
    return answer(lambda: lines_of_pairs(pairs_of_value(within(value, 65_535))))


def holder(file: bytes) -> tuple[str, int]:
    """What `tacho holder` prints, and its status."""
    return answer(lambda: card_file(within(file, 262_144))[1].hex() + "\n")


def card(file: bytes, part: str) -> tuple[str, int]:
    """What `tacho card` prints of a part that is one, and its status."""
    return answer(lambda: lines_of_pairs(pairs_of_file(within(file, 262_144), part)))


def spans(file: bytes, part: str) -> str:
    """What a part of a card file gives, or the line of its first fault."""
    return answer(lambda: lines_of_pairs(pairs_of_file(file, part)))[0]
