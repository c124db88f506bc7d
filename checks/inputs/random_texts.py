"""Random texts of CSV, from a seed: good ones, with faults, as spreadsheets write them, and with bytes that were changed."""
import random
from collections.abc import Callable, Iterable
from typing import Any

from inputs import random_commands
from slow import slow_csv
from slow.slow_rules import Span

FIRST, LAST = random_commands.MINUTES[0], random_commands.MINUTES[-1]  # 2000-01-03 00:00 and 2099-12-31 23:59
ALPHABET = b',"\r\n a1'
HEAD = "start,past,activity\n"
REST = "2024-03-04 00:00,2024-03-04 12:00,rest\n"
SIGNED = "start,past,activity,author,note\n"
COLUMNS = "driver,holder,key,base,name\n"
HOLDER = "0d4431303030303030303037303031"
ANNA = f"17,{HOLDER},anna-key-17,2024-03-04,Anna Berg\n"
WORDS = ["rest", "available", "work", "drive"]

BAD_COLUMNS = [
    ["", "0", "017", "1000000", "+17", "-17", " 17", "17 ", "4294967297", "x"],
    ["", HOLDER[1:], HOLDER + "0", HOLDER.upper(), HOLDER[:-1] + "g"],
    ["", 7 * "k", 65 * "k", "anna key 17", "anna_key_17", "ännannnn"],
    ["", "Monday", "2024-02-30", "2000-01-02", "2100-01-01", "2024-3-4", "2024-03-04 00:00"],
    ["", 65 * "n", 63 * "n" + "ö", "Berg, Anna", 'Anna "B"', "Anna\nBerg", "Anna\tBerg", "Anna\x7f", b"Anna \xff", b"\xc3"],
]

# What comes before random bytes: nothing, a head, a row with its end of line or without, one up to its author or note, a driver
# up to the name.
BEGINNINGS = {
    "entries": ["", HEAD[:-1], HEAD, HEAD + REST[:-1], HEAD + REST, SIGNED[:-1], SIGNED + REST[:-1] + ",", SIGNED + REST[:-1] + ",b,"],
    "driver": ["", COLUMNS[:-1], COLUMNS, COLUMNS + ANNA[:-10], COLUMNS + ANNA[:-10], COLUMNS + ANNA],
}


class Texts:
    """Random texts of a seed."""

    def __init__(self, seed: int | str) -> None:
        self.chance = random.Random(seed)

    def is_now(self, part: float) -> bool:
        return self.chance.random() < part

    def spans(self) -> list[Span]:
        """Hours to be entered, some right after those before. Some are more than the reader takes at once."""
        chance = self.chance
        count = chance.choice([0, 1, 2, 3, 5] * 10 + [500])
        lengths = [1, 15, 480] if count == 500 else [1, 15, 480, 1440, 527_039, 527_040]
        minute = chance.choice([FIRST, 28_491_840, 28_491_840, LAST - 5_000, chance.randrange(FIRST, LAST)])
        spans: list[Span] = []
        for _ in range(count):
            start = min(LAST - 1, minute + chance.choice([0, 0, 1, 30, 600]))
            past = min(LAST, start + chance.choice(lengths))
            if start < past:
                spans.append((start, past, chance.choice(WORDS)))
                minute = past
        return spans

    def driver_row(self) -> list[str]:
        """The columns of a driver, near their limits too."""
        chance = self.chance
        return [
            str(chance.choice([1, 17, 999_999])),
            HOLDER,
            chance.choice(["anna-key-17", 8 * "k", 64 * "K"]),
            chance.choice(["2024-03-04", "2024-03-05", "2000-01-03", "2099-12-31"]),
            chance.choice(["Anna Berg", "Åsa Öberg", "n", 64 * "n", 32 * "ö", "a'b;c"]),
        ]

    def spoil_entry(self, rows: list[list[Any]]) -> None:
        """Puts a fault into a row."""
        random_commands.spoil_hours(self.chance, rows)

    def spoil_driver(self, rows: list[list[Any]]) -> None:
        """Puts a fault into the driver's columns, or adds or removes a row."""
        chance = self.chance
        kind = chance.randrange(8)
        if kind == 0:
            rows.append(self.driver_row())
        elif kind == 1:
            rows.pop()
        elif kind == 2:
            rows[0].append("")
        elif kind == 3:
            rows[0].pop()
        else:
            place = chance.randrange(5)
            rows[0][place : place + 1] = [chance.choice(BAD_COLUMNS[place])]

    def spoil_head(self, head: list[Any]) -> None:
        """Changes the head."""
        place = self.chance.randrange(len(head))
        head[place : place + 1] = self.chance.choice([[], [head[place].upper()], [head[place], b""], [b" " + head[place]]])

    def field(self, field: bytes | str, style: str) -> bytes:
        """A field as it is written: as it is where that can be, in quotes, or partly in quotes."""
        field = field if isinstance(field, bytes) else field.encode()
        if style == "odd":
            style = self.chance.choice(["plain", "quoted", "partly"])
        if style == "plain" and not any(byte in field for byte in b',"\r\n'):
            return field
        inside = field.replace(b'"', b'""')
        if style == "partly" and b'"' not in field and not any(byte in field for byte in b",\r\n"):
            place = self.chance.randrange(len(field) + 1)
            return b'"' + field[:place] + b'"' + field[place:]
        return b'"' + inside + b'"'

    def written(self, rows: Iterable[Iterable[bytes | str]]) -> bytes:
        """The rows as one of many programs would write them."""
        chance = self.chance
        style = chance.choice(["plain", "plain", "quoted", "odd"])
        mixed = [b"\n", b"\r\n", b"\r", b"\n\n", b"\r\n\r\n", b"\n\r"]
        ends = chance.choice([[b"\n"], [b"\n"], [b"\r\n"], [b"\r"], mixed])
        text = chance.choice([b""] * 6 + [slow_csv.MARK] * 4 + [slow_csv.MARK * 2, b"\r\n"])
        for row in rows:
            text += b",".join(self.field(field, style) for field in row) + chance.choice(ends)
        return text if self.is_now(0.7) else text.rstrip(b"\r\n")

    def unclosed(self, text: bytes) -> bytes:
        """The text with one quote less, or with one before its last field."""
        if b'"' in text and self.is_now(0.5):
            place = self.chance.choice([i for i, byte in enumerate(text) if byte == b'"'[0]])
            return text[:place] + text[place + 1 :]
        place = text.rfind(b",") + 1
        return text[:place] + b'"' + text[place:]

    def noisy(self, text: bytes) -> bytes:
        """The text with some bytes added, changed or removed."""
        chance = self.chance
        for _ in range(chance.choice([1, 1, 2, 3])):
            place = chance.randrange(len(text) + 1)
            added = bytes(chance.choice(ALPHABET) for _ in range(chance.randrange(4)))
            text = text[:place] + added + text[place + chance.randrange(2) :]
        return text

    def random_bytes(self, question: str) -> bytes:
        """Bytes of a small alphabet, after a beginning."""
        before = self.chance.choice(BEGINNINGS[question]).encode()
        return before + bytes(self.chance.choice(ALPHABET) for _ in range(self.chance.randrange(12)))

    def text(self, question: str) -> bytes:
        """A text: one in ten of random bytes alone, half of the others with a fault or more, some of them changed."""
        if self.is_now(0.1):
            return self.random_bytes(question)
        head: list[Any]
        rows: list[list[Any]]
        spoil: Callable[[list[list[Any]]], None]
        if question == "entries":
            (head, *rows), spoil = random_commands.rows_of(self.chance, self.spans()), self.spoil_entry
        else:
            head, rows, spoil = [*slow_csv.DRIVER_HEAD], [self.driver_row()], self.spoil_driver
        for _ in range(self.chance.choice([0, 0, 0, 1, 1, 2])):
            if rows and all(rows):
                spoil(rows)
        if self.is_now(0.05):
            self.spoil_head(head)
        text = self.written([head, *rows])
        if self.is_now(0.1):
            text = self.unclosed(text)
        return self.noisy(text) if self.is_now(0.15) else text
