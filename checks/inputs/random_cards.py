"""Driver cards from a seed, and the files that are downloaded of them: what a driver did, whole or in part, or with a word
that is another one, or with a fault. `docs/CARD.md` says what the bytes are."""
import random
import struct
from collections.abc import Sequence

DAYS = 5
FIRST_DAYS = [19_786, 19_786, 10_959, 47_482 - DAYS]  # 2024-03-04, and at both ends of the days that are read
HOLDERS = [b"\x0dD1234567890123", b"\x0dD1234567890124", b"\x0dF1234567890123"]
MINUTES = [0, 1, 479, 480, 510, 511, 1020, 1438, 1439]
IDENTIFICATION, ACTIVITY = 0x0520, 0x0504


def word(out: int, crew: int, activity: int, minute: int) -> int:
    """A word; a slot, which is not read, is 0."""
    return crew << 14 | out << 13 | activity << 11 | minute


def record(day: int, words: Sequence[int]) -> bytes:
    """A record of a day."""
    length = 12 + 2 * len(words)
    return struct.pack(f">HHIHH{len(words)}H", 0, length, 86_400 * day, day % 65_536, 0, *words)


def activity_data(records: Sequence[bytes], oldest: int, room: int) -> bytes:
    """Records in a cyclic buffer with some room besides: the oldest begins at a place, or a little before it."""
    if not records:
        return bytes(4) + bytes(max(room, 12))
    laid = b"".join(records)
    size = len(laid) + room
    oldest %= size
    buffer = bytearray(size)
    for place, byte in enumerate(laid, oldest):
        buffer[place % size] = byte
    newest = (oldest + len(laid) - len(records[-1])) % size
    return struct.pack(">HH", oldest, newest) + bytes(buffer)


def block(identifier: int, kind: int, value: bytes) -> bytes:
    """A block of a file."""
    return struct.pack(">HBH", identifier, kind, len(value)) + value


class Card:
    """A card: its holder, and the words of each day on it."""

    def __init__(self, chance: random.Random, holder: bytes) -> None:
        self.chance = chance
        self.holder = holder
        first = chance.choice(FIRST_DAYS)
        self.days = [(first + place, self.words()) for place in range(DAYS)]

    def minute(self) -> int:
        """A minute of a day, often one where others change too."""
        return self.chance.choice(MINUTES) if self.chance.random() < 0.7 else self.chance.randrange(1440)

    def word(self, minute: int) -> int:
        """A word from a minute on. Some are of a card that is out, and some of two drivers."""
        out, crew = self.chance.choice([(0, 0), (0, 0), (0, 0), (0, 1), (1, 1), (1, 0)])
        return word(out, crew, self.chance.randrange(4), minute)

    def words(self) -> list[int]:
        """The words of a day; the first mostly holds from its first minute."""
        minutes = sorted(self.minute() for _ in range(self.chance.randrange(1, 6)))
        if self.chance.random() < 0.8:
            minutes[0] = 0
        return [self.word(minute) for minute in minutes]

    def records(self) -> list[bytes]:
        """What the card had on some days: perhaps without the first words, or without the last ones; now and then with
        another word, or in another order."""
        first = self.chance.randrange(DAYS)
        days = [(day, list(words)) for day, words in self.days[first : first + self.chance.randrange(1, 4)]]
        if self.chance.random() < 0.2:
            del days[0][1][: self.chance.randrange(3)]
        if self.chance.random() < 0.4:
            del days[-1][1][self.chance.randrange(4) :]
        if self.chance.random() < 0.25:
            self.change(self.chance.choice(days)[1])
        if self.chance.random() < 0.1:
            self.chance.shuffle(days)
        return [record(day, words) for day, words in days]

    def change(self, words: list[int]) -> None:
        """Changes one of the words, if there are any."""
        if words:
            place = self.chance.randrange(len(words))
            words[place] = self.word(words[place] % 2048)

    def activity(self) -> bytes:
        """Activity data of some days, or of none."""
        records = self.records() if self.chance.random() < 0.95 else []
        return activity_data(records, self.chance.choice([0, 0, 7, 30]), self.chance.choice([0, 0, 5, 20]))

    def identification(self) -> bytes:
        """The value of an identification: the holder, and the indices of a card that may have been replaced."""
        return self.holder + self.chance.choice([b"00", b"00", b"10", b"01"]) + bytes(self.chance.randrange(3))

    def file(self) -> bytes:
        """A file of the card, of one generation or of both, with blocks that are not read; sometimes with a fault."""
        generations = self.chance.choice([[0], [0], [2], [0, 2]])
        blocks = [block(0x0501, 0, b"\x01\x02")] if self.chance.random() < 0.2 else []
        for kind in generations:
            blocks.append(block(IDENTIFICATION, kind, self.identification()))
            blocks.append(block(ACTIVITY, kind, self.activity()))
            blocks.append(block(ACTIVITY, kind + 1, b"\xff"))
        if self.chance.random() < 0.1:
            self.chance.shuffle(blocks)
        file = b"".join(blocks)
        return self.spoiled(file) if self.chance.random() < 0.15 else file

    def spoiled(self, file: bytes) -> bytes:
        """A file that is cut off, or has another byte: it may still be one."""
        place = self.chance.randrange(len(file))
        if self.chance.random() < 0.2:
            return file[:place]
        return file[:place] + bytes([self.chance.randrange(256)]) + file[place + 1 :]
