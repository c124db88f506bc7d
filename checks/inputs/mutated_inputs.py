"""Mutated inputs from a seed: card files, texts of CSV, command lines and requests that were good, or nearly so, and then had bits, bytes,
fields, records, arguments or lines changed, removed, repeated, exchanged, or taken from another one.

Commands and requests are made one after the other, each for what those before it have left: who takes one gives it to the office of its
maker before they take the next. In a command line PATH is that of the archive, and NO_TEXT an argument that isn't UTF-8."""
import functools
import os
import random
import re
import struct
from collections.abc import Iterable, Iterator, Sequence
from typing import Any

from inputs import random_cards, random_commands, random_requests, random_texts
from inputs.random_cards import ACTIVITY, IDENTIFICATION
from lib import office_lines
from lib.commands import COMMANDS
from lib.files import EXAMPLES
from slow import slow_archive, slow_csv, slow_office, slow_reader
from slow.slow_office import Command
from slow.slow_reader import Block

FILES, TEXTS, LINES, REQUESTS = 25, 40, 40, 60  # of a seed
MOST_MINUTES = 200_000  # that are entered, since the slow office goes through each of them
LARGEST_FILE, LARGEST_VALUE = 262_144, 65_535
EDGES = b'\x00\x01\x09\x0a\x0d\x20",/0:\x7f\x80\xc3\xfe\xff'  # bytes that mean something somewhere


def changed(chance: random.Random, given: bytes, other: bytes = b"") -> bytes:
    """The same bytes with a few changes, for some of which others are wanted."""
    for _ in range(chance.choice([1, 1, 1, 2, 3])):
        start, middle, past = sorted(chance.randrange(len(given) + 1) for _ in range(3))
        place = chance.choice([start, middle, past])
        piece = given[place : place + chance.choice([1, 1, 2, 4, 16, 100])]
        some = bytes(chance.choice([*EDGES, chance.randrange(256)]) for _ in range(chance.choice([1, 1, 1, 2, 5])))
        bit = bytes(byte ^ 1 << chance.randrange(8) for byte in piece[:1])
        kinds = [
            given[:place] + bit + given[place + len(bit) :],
            given[:place] + some + given[place + len(some) :],
            given[:place] + some + given[place:],
            given[:place] + given[place + len(piece) :],
            given[:middle] + piece + given[middle:],
            given[:start] + given[middle:past] + given[start:middle] + given[past:],
            given[:place],
            given + some * chance.choice([1, 1, 60]),
            given[:place] + other[chance.randrange(len(other) + 1) :],
        ]
        given = chance.choice(kinds)
    return given


# Card files

FILES_OF_CARDS = [os.path.join(EXAMPLES, name) for name in ("driver-year.ddd", "driver-two-generations.ddd")]
READ_DAYS = slow_reader.READ_DAYS
DAYS = [0, READ_DAYS.start - 1, READ_DAYS.start, READ_DAYS.stop - 1, READ_DAYS.stop, 49_709]
LENGTHS = [0, 10, 11, 12, 13, 14, 65_534]


class Activity:
    """Activity data that can be changed by chance: the two pointers and the buffer."""

    def __init__(self, chance: random.Random, value: bytes) -> None:
        self.chance = chance
        self.pointers = list(struct.unpack(">HH", value[:4]))
        self.buffer = bytearray(value[4:])
        self.size = len(self.buffer)

    def number(self, place: int) -> int:
        """The number of two bytes at a place."""
        return slow_reader.number(self.buffer, place)

    def places(self) -> list[int]:
        """The places of the records, one at least, as far as they follow one another."""
        place, newest = (pointer % self.size for pointer in self.pointers)
        found = [place]
        while place != newest and self.number(place + 2) >= 12 and len(found) < 400:
            place = (place + self.number(place + 2)) % self.size
            found.append(place)
        return found

    def other_length(self, record: int) -> tuple[int, bytes]:
        """The place of a record's length, and another one."""
        length, size = self.number(record + 2), self.size
        lengths = [*LENGTHS, size - 1, size, size + 1, size + 2, length + 2, length - 2]
        return record + 2, struct.pack(">H", self.chance.choice(lengths) % 65_536)

    def other_day(self, record: int) -> tuple[int, bytes]:
        """The place of a record's date, and another one."""
        day = (self.number(record + 4) * 65_536 + self.number(record + 6)) // 86_400
        seconds = 86_400 * self.chance.choice([*DAYS, day, day + 1, day - 1]) + self.chance.choice([-1, 0, 0, 86_399])
        return record + 4, struct.pack(">I", seconds % 2**32)

    def other_word(self, record: int) -> tuple[int, bytes]:
        """The place of one of a record's words, and another one: of another minute, or with another mark, or both."""
        words = (self.number(record + 2) - 12) // 2
        place = record + 12 + 2 * self.chance.randrange(min(max(words, 1), 100))
        mark, minute = divmod(self.number(place), 2048)
        minutes = [minute, minute, (minute + 1) % 2048, self.number(place - 2) % 2048, 0, 1439, 1440, 2047]
        return place, struct.pack(">H", self.chance.choice([mark, self.chance.randrange(32)]) * 2048 + self.chance.choice(minutes))

    def changed(self) -> bytes:
        """The bytes with another pointer, or with a buffer that is longer or shorter, or with something else in a record."""
        kind, places = self.chance.random(), self.places()
        if kind < 0.2:
            others = places * 3 + [0, self.size - 1, self.size, self.size + 1, 65_535, self.chance.randrange(self.size)]
            self.pointers[self.chance.randrange(2)] = self.chance.choice(others)
        elif kind < 0.3:
            self.buffer = (self.buffer + bytes(12))[: self.size + self.chance.choice([-2, -1, 1, 2, 12])]
        else:
            change = self.chance.choice([self.other_length, self.other_day, self.other_word, self.other_word])
            place, others = change(self.chance.choice(places))
            for more, byte in enumerate(others):
                self.buffer[(place + more) % self.size] = byte
        return struct.pack(">HH", *self.pointers) + self.buffer


@functools.cache
def example_of(path: str) -> tuple[list[Block], list[bytes]]:
    """The blocks of an example, and the records of its activity data."""
    with open(path, "rb") as file:
        blocks = slow_reader.blocks_of(file.read())
    value = slow_reader.data_of(blocks, ACTIVITY)[0]
    assert value is not None
    data = Activity(random.Random(0), value)
    return blocks, [random_cards.record(*slow_reader.record_of(data.buffer, place, 0)[1:]) for place in data.places()]


def is_activity(one: Block) -> bool:
    """Whether a block has activity data."""
    return one[0] == ACTIVITY and one[1] in (0, 2)


def laid(blocks: Iterable[Block]) -> bytes:
    """The bytes of blocks."""
    return b"".join(random_cards.block(*one) for one in blocks)


class Files:
    """Card files of a seed."""

    def __init__(self, seed: int) -> None:
        self.chance = random.Random(f"files {seed}")

    def of_random_card(self) -> list[Block]:
        """The blocks of a random card's file."""
        card = random_cards.Card(self.chance, self.chance.choice(random_cards.HOLDERS))
        blocks: list[Block] = []
        for kind in self.chance.choice([[0], [2], [0, 2], [0, 2]]):
            blocks += [(IDENTIFICATION, kind, card.identification()), (ACTIVITY, kind, card.activity()), (ACTIVITY, kind + 1, b"\xff")]
        return blocks

    def of_example(self) -> list[Block]:
        """The blocks of an example, with a few of its days, and without some of those that aren't read."""
        blocks, records = example_of(self.chance.choice(FILES_OF_CARDS))
        first = self.chance.randrange(len(records))
        days = records[first : first + self.chance.randrange(1, 5)]

        def data():
            return random_cards.activity_data(days, self.chance.choice([0, 50]), self.chance.choice([0, 0, 9]))

        kept = [one for one in blocks if one[0] in (ACTIVITY, IDENTIFICATION) or self.chance.random() < 0.2]
        return [(*one[:2], data()) if is_activity(one) else one for one in kept]

    def whole(self) -> list[Block]:
        """The blocks of a file."""
        return self.of_random_card() if self.chance.random() < 0.6 else self.of_example()

    def others_of(self, one: Block) -> list[Block]:
        """What may replace a block: nothing, twice the same, or one with another identifier, kind or value."""
        identifier, kind, value = one
        if is_activity(one) and len(value) >= 16 and self.chance.random() < 0.85:
            return [(identifier, kind, Activity(self.chance, value).changed())]
        size = self.chance.choice([0, 15, 16, 17, 18, len(value) + 1, max(len(value) - 1, 0)])
        values = [changed(self.chance, value), (value + bytes(20))[:size], value[:14] + b"5" + value[15:]]
        others = [(identifier, kind, self.chance.choice(values)), (identifier, kind, self.chance.choice(values))]
        others += [(identifier, self.chance.choice([0, 1, 2, 3, 255]), value)]
        others += [(self.chance.choice([IDENTIFICATION, ACTIVITY]), kind, value)]
        return self.chance.choice([[], [one, one], *[[other] for other in others]])

    def change(self, blocks: list[Block]) -> None:
        """Changes a block, mostly one that is read; now and then puts others after it, or all in another order."""
        wanted = self.chance.choice([ACTIVITY, ACTIVITY, ACTIVITY, IDENTIFICATION])
        found = [place for place, one in enumerate(blocks) if one[0] == wanted and one[1] in (0, 2)]
        place = self.chance.choice(found if found and self.chance.random() < 0.9 else range(len(blocks)))
        blocks[place : place + 1] = self.others_of(blocks[place])
        if not blocks or self.chance.random() < 0.05:
            blocks += self.whole()[self.chance.randrange(2) :]
        if self.chance.random() < 0.05:
            self.chance.shuffle(blocks)

    def file_of(self, blocks: Sequence[Block]) -> bytes:
        """The bytes of a file: mostly those of the blocks, now and then with others, or with another length in a block's head, or as many
        as a file may have."""
        file, kind = laid(blocks), self.chance.random()
        if kind < 0.12:
            return changed(self.chance, file, laid(self.whole()))
        if kind < 0.16:
            place = len(laid(blocks[: self.chance.randrange(len(blocks))])) + 3
            length = file[place] * 256 + file[place + 1] + self.chance.choice([-1, 1, 5, 65_535])
            return file[:place] + struct.pack(">H", length % 65_536) + file[place + 2 :]
        return random_requests.padded_file(file, LARGEST_FILE + self.chance.choice([0, 1])) if kind < 0.18 else file

    def value_of(self, blocks: Iterable[Block]) -> bytes:
        """A value of activity data: mostly that of one of the blocks."""
        values = [one[2] for one in blocks if is_activity(one)] or [b""]
        value, kind = self.chance.choice(values), self.chance.random()
        if kind < 0.2:
            return changed(self.chance, value, self.chance.choice(values))
        return value + bytes(max(LARGEST_VALUE - len(value), 0) + self.chance.choice([0, 1])) if kind < 0.22 else value

    def files(self) -> Iterator[tuple[bytes, str, bytes]]:
        """The files, each with a part by which it is read, and a value of activity data."""
        for _ in range(FILES):
            blocks = self.whole()
            for _ in range(self.chance.choice([0, 1, 1, 1, 2, 3])):
                self.change(blocks)
            yield self.file_of(blocks), self.chance.choice(["both", "both", *slow_archive.PARTS]), self.value_of(blocks)


# Command lines with texts of CSV

PATH, NO_TEXT = "PATH", "\ud800"
TIMES = ["2000-01-02 23:59", "2000-01-03 00:00", "2099-12-31 23:59", "2100-01-01 00:00", "2024-02-29 24:00", "2024-03-04 00:00"]


def at_path(words: Sequence[str]) -> list[str]:
    """The arguments of a command, with the archive's path."""
    return [words[0], PATH, *words[1:]]


def is_large(office: slow_office.Office) -> bool:
    """Whether the slow office takes long, since much is entered."""
    return sum(entry.past - entry.start for driver in office.archive.drivers.values() for entry in driver.entries) > MOST_MINUTES


class Texts(random_commands.Commands):
    """Texts of CSV of a seed, in command lines."""

    def __init__(self, seed: int) -> None:
        super().__init__(seed)
        self.writer = random_texts.Texts(seed)
        self.writer.chance = self.chance

    def register(self) -> Command:
        """A driver who is mostly none of those before."""
        if self.chance.random() < 0.3:
            return super().register()
        number = self.chance.randrange(1, 1_000_000)
        holder = random_cards.HOLDERS[0][:-6] + f"{number:06}".encode()
        columns = self.columns(number, holder, f"key-{number:06}", self.chance.choice(random_commands.NAMES))
        return ["register"], random_commands.driver_csv(*columns)

    def activity(self, runs: Sequence[list[Any]], start: int, past: int) -> str:
        """An activity that may contradict what is held."""
        return super().activity(runs, start, past) if self.chance.random() < 0.7 else self.chance.choice(slow_reader.ACTIVITIES)

    def change(self, rows: list[list[bytes]]) -> None:
        """Changes, removes, repeats or adds fields of a row, or does so with rows."""
        place = self.chance.randrange(len(rows)) if self.chance.random() < 0.1 else len(rows) - 1
        row = rows[place]
        if row and self.chance.random() < 0.8:
            column = self.chance.randrange(len(row))
            field = row[column]
            others = [changed(self.chance, field, field), b"", field * 70, field + b" ", self.chance.choice(TIMES).encode()]
            fields = [[other] for other in others] * 4 + [[], [field, field], [field, *[b""] * 300]]
            row[column : column + 1] = self.chance.choice(fields)
        else:
            rows[place : place + 1] = self.chance.choice([[], [row, [*row]], [row, [b" "]], rows[:1] + [row]])

    def text(self, given: bytes) -> bytes:
        """The text with the rows of another one, mostly changed."""
        rows = slow_csv.records(given)
        for _ in range(self.chance.choice([0, 0, 0, 1, 1, 2])):
            if rows:
                self.change(rows)
        text, kind = self.writer.written(rows), self.chance.random()
        if kind < 0.08:
            return self.writer.unclosed(text)
        return changed(self.chance, text, given) if kind < 0.2 else text

    def lines_in_turn(self) -> Iterator[Command]:
        """The command lines: some drivers first, and then drivers and hours."""
        yield from [(at_path(words), given) for words, given in self.registrations()]
        for _ in range(TEXTS):
            words, given = self.register() if self.chance.random() < 0.3 else self.enter()
            yield at_path(words), self.text(given)
            if is_large(self.office):
                return


# Command lines

NAMES = [name for name in COMMANDS if name not in ("init", "serve", "listen")] + ["help", "Sheet", ""]
WORDS = [PATH, NO_TEXT, "", "17", "018", "0", "1000000", "both", "2024-03", "2024-03-04", "2100-01", "12:00", "help", "-", "--", "-1", "-h"]
WORDS += ["--help", "--all=1", "\u0661\u0667", 5_000 * "1", "no-archive"]
LETTERS = ["", *"0123456789-:/ +.eb\u00e9"]
OTHER_LINES = [["help"], [], ["init", PATH, "1"], ["init"]]
OTHER_LINES += [["init", PATH], ["drivers", PATH], ["dump"], ["holder"], ["card", "both"], ["card", "first"], ["card", "second"]] * 5


class Maker(office_lines.Lines):
    """Makes commands and readings of a seed, at times with another input."""

    def __init__(self, seed: int) -> None:
        super().__init__(seed)
        self.texts = Texts(seed)

    def line(self) -> Command:
        """A command or a reading."""
        words, given = super().line()
        if not given or len(given) > 10_000 or self.chance.random() < 0.7:
            return words, given
        if words[0] in ("register", "enter"):
            return words, self.texts.text(given)
        return words, changed(self.chance, given, self.chance.choice(self.cards).file())


class Lines(Maker, office_lines.CarryLines):
    """Command lines of a seed, `carry` among them: all arguments, and an input. No new archive has a path out of the folder."""

    def other_word(self, word: str) -> str:
        """Another argument."""
        place = self.chance.randrange(len(word) + 1)
        near = word[:place] + self.chance.choice(LETTERS) + word[place + self.chance.randrange(2) :]
        return self.chance.choice([near, near, word * 2, self.chance.choice(WORDS)])

    def change(self, words: list[str]) -> None:
        """Changes, removes, repeats or exchanges arguments. The path stays a path."""
        place, other, kind = self.chance.randrange(len(words)), self.chance.randrange(len(words)), self.chance.randrange(12)
        if kind == 0:
            del words[place]
        elif kind == 1:
            words.insert(place + 1, self.chance.choice([words[place], *WORDS]))
        elif kind == 2:
            words[place], words[other] = words[other], words[place]
        elif kind == 3:
            words[0] = self.chance.choice(NAMES)
        elif words[place] != PATH and place:
            words[place] = self.other_word(words[place])

    def lines_in_turn(self) -> Iterator[Command]:
        """The command lines: some drivers first, then weeks, and then anything."""
        yield from [(at_path(words), given) for words, given in [*self.registrations(), self.weeks()]]
        for _ in range(LINES):
            words, given = self.line()
            words = at_path(words)
            for _ in range(self.chance.choice([0, 0, 0, 1, 1, 2])):
                if words:
                    self.change(words)
            if self.chance.random() < 0.1:
                words, given = self.chance.choice(OTHER_LINES), self.chance.choice(self.cards).file()
            if words[:1] == ["carry"] and any(word.startswith("/") or ".." in word for word in words):
                continue
            yield words, given
            if is_large(self.office):
                return


# Requests


class Requests(Maker, random_requests.Requests):
    """Requests of a seed."""

    last = b"GET / HTTP/1.1\r\n\r\n"

    def mutated(self, request: bytes) -> bytes:
        """A request with other bytes in its head, with other lines there, or with other bytes anywhere."""
        found, kind = re.search(rb"\n\r?\n|\Z", request), self.chance.randrange(8)
        end = found.end() if found else len(request)
        lines = request[:end].splitlines(keepends=True) or [b""]
        place, other = self.chance.randrange(len(lines)), self.chance.randrange(len(lines))
        if kind == 0:
            del lines[place]
        elif kind == 1:
            lines.insert(other, lines[place] * self.chance.choice([1, 1, 40]))
        elif kind == 2:
            lines[place], lines[other] = lines[other], lines[place]
        elif kind == 3:
            lines[place:] = self.last.splitlines(keepends=True)[other:]
        else:
            given = request if kind == 4 else request[:end]
            return changed(self.chance, given, self.last) + request[len(given) :]
        return b"".join(lines) + request[end:]

    def requests_in_turn(self) -> Iterator[bytes]:
        """The requests: some drivers first, then weeks of one of them, and then anything."""
        yield from [self.parts(*line).written() for line in [*self.registrations(), self.weeks()]]
        for _ in range(REQUESTS):
            request = self.request(*self.line())
            yield self.mutated(request) if self.chance.random() < 0.3 else request
            self.last = request
            if is_large(self.office):
                return
