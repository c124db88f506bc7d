"""Conformance cases of driver cards: values of EF Driver_Activity_Data, and card files. `docs/CARD.md` says what the bytes are."""
import itertools
import struct
from collections.abc import Iterator, Sequence

from inputs.random_cards import ACTIVITY, IDENTIFICATION, activity_data, block, record, word
from lib.vector_sets import Made, digits_of

DAY = 19_786  # 2024-03-04
FIRST_DAY, LAST_DAY = 10_959, 47_481  # 2000-01-03 and 2099-12-31
NAMES = ["rest", "available", "work", "drive"]
REST, AVAILABLE, WORK, DRIVE = range(4)

# The kinds of word: whether the card is out, the driving status, and in words what that means.
STATES = {(0, 0): "single", (0, 1): "crew", (1, 1): "entered by hand", (1, 0): "not known"}


def clock(minute: int) -> str:
    """A minute of a day as a time."""
    return f"{minute // 60:02}:{minute % 60:02}"


def made(generator: str, rule: str, why: str, claim: str, value: bytes) -> Made:
    """A case with a value of activity data."""
    return Made(generator, f"{rule}: {why}.", rule, claim, {"value": digits_of(value)})


def closed(day: int, words: Sequence[int]) -> bytes:
    """A value with a record of a day, and after it one of the next day without words, so that the day's last word holds to midnight."""
    return activity_data([record(day, words), record(day + 1, [])], 0, 0)


def alone(words: Sequence[int], day: int = DAY) -> bytes:
    """A value with one record."""
    return activity_data([record(day, words)], 0, 0)


# Words

WORD = "ActivityChangeInfo"


def single_words() -> Iterator[Made]:
    """Each of the values of the five bits before the minute."""
    for slot, crew, out, activity in itertools.product((0, 1), (0, 1), (0, 1), range(4)):
        what = f"slot {slot}, driving status {crew}, card status {out}, {NAMES[activity]}"
        value = closed(DAY, [slot << 15 | word(out, crew, activity, 480)])
        state = "it gives nothing" if (out, crew) == (1, 0) else f"it gives {NAMES[activity]} up to midnight"
        yield made("bits", WORD, f"one word from 08:00 with {what}, and the slot isn't read: {state}", "read", value)


def word_kinds() -> list[tuple[str, int]]:
    """Words of each meaning, from minute 0, with names."""
    found = [(f"{NAMES[activity]} {state}", word(*bits, activity, 0)) for bits, state in STATES.items() for activity in range(4)]
    return [kind for kind in found if "not known" not in kind[0]] + [("not known", word(1, 0, 0, 0)),
                                                                     ("not known, drive", word(1, 0, 3, 0))]


def pairs_of_words() -> Iterator[Made]:
    """Each two words that follow one another."""
    for (name, one), (other_name, other) in itertools.product(word_kinds(), repeat=2):
        value = closed(DAY, [one | 360, other | 480])
        yield made("pairs", WORD, f"'{name}' from 06:00 and '{other_name}' from 08:00: each holds to the next word, and equal ones join",
                   "read", value)


def minutes_of_words() -> Iterator[Made]:
    """Minutes from both sides of the last of a day, at each place."""
    for minute in (0, 1, 1438, 1439):
        yield made("minutes", WORD, f"a word from {clock(minute)} on is in the day", "read", closed(DAY, [word(0, 0, DRIVE, minute)]))
    for minute in (1440, 1441, 2047):
        for before in (0, 1, 2):
            words = [word(0, 0, WORK, 60 * place) for place in range(before)]
            for after in ([], [word(0, 0, REST, 600)]):
                value = closed(DAY, [*words, word(0, 0, DRIVE, minute), *after])
                yield made("minutes", "C12", f"word {before + 1} of a record is from minute {minute} on, and a day's last minute is 1439",
                           "fault C12", value)
    yield made("minutes", "C12", "a word with all bits set is from minute 2047 on", "fault C12", closed(DAY, [0xFFFF]))
    yield made("minutes", WORD, "a word with all bits but those of the minute set is read", "read", closed(DAY, [0xF800]))
    yield made("minutes", WORD, "the word 0000 is rest from 00:00 on, not an empty place", "read", closed(DAY, [0]))


def order_of_words() -> Iterator[Made]:
    """Words of equal minutes, and one minute too early."""
    for first in (1, 480, 1439):
        for kind, other in (("the same minute", first), ("the next minute", min(first + 1, 1439))):
            value = closed(DAY, [word(0, 0, WORK, first), word(0, 0, DRIVE, other)])
            yield made("order", WORD, f"a word at minute {first} and one at {kind}, {other}: the later word holds from there", "read",
                       value)
        value = closed(DAY, [word(0, 0, WORK, first), word(0, 0, DRIVE, first - 1)])
        yield made("order", "C13", f"a word at minute {first} and then one at {first - 1}, a minute before it", "fault C13", value)
    for place in (1, 2, 3):
        minutes = [100, 200, 300, 400]
        minutes[place] = minutes[place - 1] - 1
        value = closed(DAY, [word(0, 0, turn, minute) for turn, minute in enumerate(minutes)])
        yield made("order", "C13", f"word {place + 1} is a minute before the word before it", "fault C13", value)
    for at_once in (2, 3, 4):
        value = closed(DAY, [word(0, 0, turn % 4, 480) for turn in range(at_once)] + [word(0, 0, REST, 500)])
        yield made("order", WORD, f"{at_once} words of the minute 08:00: the last of them holds", "read", value)
    value = closed(DAY, [word(0, 0, WORK, 480), word(1, 0, REST, 480)])
    yield made("order", WORD, "a known activity and then 'not known' at one minute: nothing is known from there on", "read", value)
    value = closed(DAY, [word(0, 0, WORK, 480), word(0, 0, DRIVE, 1440), word(0, 0, REST, 100)])
    yield made("order", "C12", "a word of minute 1440 comes before a word that is out of order", "fault C12", value)
    value = closed(DAY, [word(0, 0, WORK, 480), word(0, 0, DRIVE, 100), word(0, 0, REST, 1440)])
    yield made("order", "C13", "a word out of order comes before one of minute 1440", "fault C13", value)


def last_words() -> Iterator[Made]:
    """The last word of the newest record."""
    for count in range(4):
        words = [word(0, 0, (turn + 2) % 4, 300 * turn) for turn in range(count)]
        text = "gives nothing, since nothing says how long it lasted" if count else "has no words"
        tags = "newest"
        yield made(tags, WORD, f"the newest record of {count} words: its last word {text}" if count else "the only record has no words",
                   "read", alone(words))
    for first in (0, 1, 1439):
        value = alone([word(0, 0, REST, first), word(0, 0, WORK, 1439)])
        yield made("newest", WORD, f"of the newest record's words, at {first} and at 1439, the last gives nothing", "read", value)
    value = alone([word(0, 0, REST, 0), word(0, 0, WORK, 480), word(0, 0, DRIVE, 480)])
    yield made("newest", WORD, "the newest record's last two words have one minute: neither gives anything", "read", value)
    value = alone([word(0, 0, REST, 0), word(0, 0, WORK, 1440)])
    yield made("newest", "C12", "the newest record's last word gives nothing, and is read nevertheless", "fault C12", value)
    value = closed(DAY, [word(0, 0, REST, 360)])
    yield made("newest", WORD, "before a day's first word nothing is known", "read", value)


def last_at_once() -> Iterator[Made]:
    """Several last words of the newest record from one minute on."""
    for count in (3, 4, 5):
        for first in (0, 600, 1439):
            words_of = [word(0, 0, (turn + 1) % 4, first) for turn in range(count)]
            newest = record(DAY + 1, [word(0, 0, REST, 0)] * (first > 0) + words_of)
            value = activity_data([record(DAY, [word(0, 0, REST, 0)]), newest], 0, 0)
            what = f"the newest record's last {count} words are of minute {first}: none of them gives anything"
            yield made("at-once", WORD, what, "read", value)
    value = activity_data([day_of_work(DAY, (WORK, 300), (DRIVE, 300), (REST, 300)), day_of_work(DAY + 1, (REST, 0))], 0, 0)
    what = "the last three words of a record that isn't the newest are of one minute: the last holds to midnight"
    yield made("at-once", WORD, what, "read", value)


def words() -> list[Made]:
    """All cases of words."""
    makers = [single_words, pairs_of_words, minutes_of_words, order_of_words, last_words, last_at_once]
    return [one for maker in makers for one in maker()]


# Chains

CHAIN = "cyclic buffer"
FIRST = record(DAY, [word(0, 0, REST, 0), word(0, 0, WORK, 480), word(0, 0, DRIVE, 510), word(0, 0, REST, 1020)])
SECOND = record(DAY + 1, [word(0, 0, REST, 0), word(0, 0, WORK, 510), word(0, 0, AVAILABLE, 600), word(0, 0, REST, 700)])
TWO = FIRST + SECOND
FIELDS = ["previous length", "record length", "date", "date", "presence counter", "distance"]


def byte_name(place: int) -> str:
    """The name of a byte of the two records."""
    which, inner = ("first", place) if place < len(FIRST) else ("second", place - len(FIRST))
    field, half = divmod(inner, 2)
    name = FIELDS[field] if field < 6 else f"word {field - 5}"
    return f"the {('first', 'second')[half]} byte of a pair in the {which} record's {name}"


def wrapped() -> Iterator[Made]:
    """Two records that fill the buffer, which ends before each of their bytes."""
    for place in range(len(TWO)):
        value = activity_data([FIRST, SECOND], len(TWO) - place, 0)
        yield made("wrap", CHAIN, f"two records fill the buffer, and its end is before {byte_name(place)}", "read", value)
    for place in range(1, len(TWO), 3):
        value = activity_data([FIRST, SECOND], len(TWO) - place + 9, 9)
        yield made("wrap", CHAIN, f"nine bytes of the buffer are free, and its end is before {byte_name(place)}", "read", value)


def changed(value: bytes, place: int, number: int) -> bytes:
    """The value with two other bytes at a place of the buffer."""
    buffer = bytearray(value[4:])
    for more, byte in enumerate(struct.pack(">H", number % 65_536)):
        buffer[(place + more) % len(buffer)] = byte
    return value[:4] + bytes(buffer)


def lengths() -> Iterator[Made]:
    """Other lengths of the first record, and of the second."""
    size = len(TWO)
    for which, place in (("oldest", 0), ("newest", len(FIRST))):
        for length in (0, 1, 10, 11, 13, 19, 21, size - 1, size + 1, size + 2, 65_534, 65_535):
            if length == size + 2 or length % 2 or length < 12 or length > size:
                value = changed(activity_data([FIRST, SECOND], 0, 0), place + 2, length)
                side = "below 12" if length < 12 else "above the buffer's" if length > size else "odd"
                yield made("lengths", "C9", f"the {which} record's length is {length}, which is {side}", "fault C9", value)
    for words_left in range(4):
        shorter = record(DAY + 1, [word(0, 0, REST, 60 * turn) for turn in range(words_left)])
        value = activity_data([FIRST, shorter], 5, 3)
        yield made("lengths", CHAIN, f"the newest record has the length {12 + 2 * words_left}, of {words_left} words", "read", value)
    for previous in (0, 1, 11, 12, 65_535):
        value = changed(activity_data([FIRST, SECOND], 0, 0), len(FIRST), previous)
        yield made("lengths", CHAIN, f"the previous record's length is given as {previous}, and isn't read", "read", value)
    for previous in (1, len(SECOND), 65_535):
        value = changed(activity_data([FIRST, SECOND], 0, 0), 0, previous)
        yield made("lengths", CHAIN, f"the oldest record gives {previous} as the length of the one before it, which isn't read", "read",
                   value)
    for place, name in ((8, "presence counter"), (10, "distance")):
        value = changed(activity_data([FIRST, SECOND], 0, 0), place, 0xFFFF)
        yield made("lengths", CHAIN, f"the {name} is FFFF, and isn't read", "read", value)


def broken() -> Iterator[Made]:
    """Chains whose newest record isn't met."""
    size = len(TWO)
    for newest in range(2, size, 2):
        if newest != len(FIRST):
            value = struct.pack(">HH", 0, newest) + TWO
            yield made("broken", "C10", f"the newest record is said to begin at {newest}, and the chain comes round without meeting it",
                       "fault C10", value)
    for more, claim in ((0, "read"), (2, "fault C10")):
        longer = record(DAY + 1, [word(0, 0, REST, 60 * turn) for turn in range(4 + more // 2)])
        value = struct.pack(">HH", 0, len(FIRST)) + FIRST + longer[:len(SECOND)]
        rule = CHAIN if claim == "read" else "C10"
        yield made("broken", rule, f"the lengths together are {more} more than the buffer's", claim, value)
    for oldest in (0, 4, 20):
        value = struct.pack(">HH", oldest, oldest) + TWO
        claim = "read" if oldest != 4 else "fault C9"
        rule = CHAIN if claim == "read" else "C9"
        yield made("broken", rule, f"both pointers are {oldest}: only the record there is read", claim, value)
    for size, claim in ((len(TWO) - 1, "fault C10"), (len(TWO) + 1, "read")):
        rule = CHAIN if claim == "read" else "C10"
        value = struct.pack(">HH", 0, len(FIRST)) + (TWO + b"\0")[:size]
        yield made("broken", rule, f"two records of {len(TWO)} bytes in a buffer of {size}", claim, value)


def pointers() -> Iterator[Made]:
    """Pointers at the buffer's end, and buffers without records."""
    size = len(TWO)
    for which in (0, 1):
        for place in (size - 1, size, size + 1, 65_535):
            both = [0, len(FIRST)]
            both[which] = place
            inside = place < size
            name = ("oldest", "newest")[which]
            code = "C8" if not inside else "C9" if which == 0 else "C10"
            yield made("pointers", code, f"the pointer to the {name} record is {place} in a buffer of {size} bytes", f"fault {code}",
                       struct.pack(">HH", *both) + TWO)
    for size in (0, 1, 4, 15):
        yield made("pointers", "C7", f"a value of {size} bytes, and the least has 16", "fault C7", bytes(size))
    for size in (16, 17, 40):
        yield made("pointers", CHAIN, f"a value of {size} bytes 00: the pointers are equal, and the length there is 0: no records", "read",
                   bytes(size))
    for place in (1, 10, 11):
        yield made("pointers", CHAIN, f"both pointers are {place}, and the length there is 0 across the buffer's end: no records", "read",
                   struct.pack(">HH", place, place) + bytes(12))
    value = struct.pack(">HH", 0, 12) + record(DAY, []) + bytes(12)
    yield made("pointers", "C9", "the newest record has the length 0, and isn't the oldest", "fault C9", value)
    value = struct.pack(">HH", 16, 15) + bytes(16)
    yield made("pointers", "C8", "the pointer to the oldest record is the buffer's length, and the other one is a minute's byte below it",
               "fault C8", value)
    value = struct.pack(">HH", 0, 0) + FIRST[:2] + bytes(2) + FIRST[4:]
    yield made("pointers", CHAIN, "both pointers are equal, and the length there is 0, before a date that isn't: no records", "read", value)
    for length in (1, 2, 10, 11):
        value = struct.pack(">HH", 0, 0) + FIRST[:2] + struct.pack(">H", length) + FIRST[4:]
        yield made("pointers", "C9", f"both pointers are equal, and the length there is {length}: a record, since it isn't 0, and below 12",
                   "fault C9", value)
    for previous, date in ((len(FIRST), bytes(4)), (65_535, FIRST[4:8])):
        value = struct.pack(">HHHH", 0, 0, previous, 0) + date + bytes(20)
        yield made("pointers", CHAIN, f"the pointers are equal, and the length there is 0, after a previous one of {previous}: no records",
                   "read", value)
    long = record(0, [0] * 122)
    yield made("pointers", "C11", f"both pointers are equal, and the length there is {len(long)}, before a date of 0", "fault C11",
               struct.pack(">HH", 0, 0) + long)
    for place in (255, 256, 300, 600):
        yield made("pointers", CHAIN, f"the oldest record begins at {place} in a buffer of 700 bytes, so a pointer has two bytes", "read",
                   activity_data([FIRST, SECOND], place, 700 - len(TWO)))
    value = struct.pack(">HH", 12, 12) + bytes(11)
    yield made("pointers", "C7", "a value of 15 bytes with pointers out of its buffer: the length is checked first", "fault C7", value)


def at_second(day: int, second: int, words_of: Sequence[int]) -> bytes:
    """A record of a day whose date is some seconds after its first."""
    one = record(day, words_of)
    return one[:4] + struct.pack(">I", 86_400 * day + second) + one[8:]


def days() -> Iterator[Made]:
    """Days from both sides of those that are read, and seconds within a day."""
    drive = [word(0, 0, DRIVE, 0), word(0, 0, REST, 1439)]
    for day, name in ((FIRST_DAY - 1, "2000-01-02"), (FIRST_DAY, "2000-01-03"), (LAST_DAY, "2099-12-31"), (LAST_DAY + 1, "2100-01-01")):
        for second in (0, 1, 86_399):
            inside = FIRST_DAY <= day <= LAST_DAY
            yield made("days", "record date" if inside else "C11", f"a record of second {second} of {name}",
                       "read" if inside else "fault C11", activity_data([at_second(day, second, drive)], 0, 0))
    for date in (0, 2**32 - 1):
        one = record(DAY, drive)
        value = activity_data([one[:4] + struct.pack(">I", date) + one[8:]], 0, 0)
        yield made("days", "C11", f"a record whose date is {date} seconds", "fault C11", value)
    value = activity_data([FIRST, at_second(LAST_DAY + 1, 0, drive)], 0, 0)
    yield made("days", "C11", "the second record is of 2100-01-01", "fault C11", value)


def day_of_work(day: int, *minutes: tuple[int, int]) -> bytes:
    """A record of a day with pairs of an activity and the minute from which it holds."""
    return record(day, [word(0, 0, activity, minute) for activity, minute in minutes])


def sequences() -> Iterator[Made]:
    """Records of several days."""
    end = record(DAY + 9, [])
    night = day_of_work(DAY, (WORK, 0), (REST, 1200))
    for later, text in ((1, "the next day"), (2, "the day after the next"), (-1, "the day before"), (7, "a week later")):
        for activity in (REST, DRIVE):
            value = activity_data([night, day_of_work(DAY + later, (activity, 0), (WORK, 300)), end], 0, 0)
            yield made("sequence", CHAIN,
                       f"rest up to midnight, and {NAMES[activity]} from 00:00 of {text}: only neighbours that are equal join", "read",
                       value)
    value = activity_data([night, day_of_work(DAY + 1, (REST, 1)), end], 0, 0)
    yield made("sequence", CHAIN, "rest up to midnight and rest from 00:01 of the next day: a minute between isn't known", "read", value)
    value = activity_data([record(DAY, []), record(DAY + 1, []), end], 0, 0)
    yield made("sequence", CHAIN, "three records without words give nothing", "read", value)
    value = activity_data([night, record(DAY + 3, [word(0, 0, DRIVE, 100)])], 0, 0)
    yield made("sequence", CHAIN, "the last word of the oldest record holds to midnight, that of the newest gives nothing", "read", value)
    for earlier in (1, 5):
        later = day_of_work(DAY + earlier, (REST, 0), (DRIVE, 480))
        value = activity_data([later, day_of_work(DAY, (REST, 0), (WORK, 480))], 0, 0)
        what = f"the newest record is {earlier} day{'s' * (earlier > 1)} before the oldest, and the pointer decides"
        yield made("sequence", CHAIN, what, "read", value)
    for count in (121, 122):
        many = record(DAY, [word(0, 0, turn % 2, 2 * turn) for turn in range(count)])
        value = activity_data([many, end], 0, 0)
        yield made("sequence", CHAIN, f"a record of {count} words, whose length is {len(many)}", "read", value)
    for count in (1, 2, 5, 9):
        records = [day_of_work(DAY + turn, (REST, 0), (DRIVE, 480 + turn), (REST, 700)) for turn in range(count)]
        value = activity_data(records, 33, 7)
        yield made("sequence", CHAIN, f"{count} records of days in order, from place 33 on", "read", value)


def contradictions() -> Iterator[Made]:
    """Records that share minutes."""
    end = record(DAY + 9, [])
    one = day_of_work(DAY, (REST, 0), (WORK, 480))
    others = [
        ("agree in all minutes", day_of_work(DAY, (REST, 0), (WORK, 480)), "read"),
        ("agree where both know something", day_of_work(DAY, (REST, 300), (WORK, 480)), "read"),
        ("differ from the first minute on", day_of_work(DAY, (WORK, 0)), "fault C14"),
        ("differ in one minute, 08:00", day_of_work(DAY, (REST, 0), (WORK, 481)), "fault C14"),
        ("differ in one minute, 07:59", day_of_work(DAY, (REST, 0), (WORK, 479)), "fault C14"),
        ("differ in the last minute", day_of_work(DAY, (REST, 0), (WORK, 480), (REST, 1439)), "fault C14"),
        ("differ where one isn't known", record(DAY, [word(0, 0, REST, 0), word(1, 0, 0, 480)]), "read"),
        ("differ in the driving status", record(DAY, [word(0, 0, REST, 0), word(0, 1, WORK, 480)]), "fault C14"),
        ("differ in whether it was entered by hand", record(DAY, [word(1, 1, REST, 0), word(1, 1, WORK, 480)]), "read"),
    ]
    for text, other, claim in others:
        rule = "C14" if claim != "read" else CHAIN
        yield made("contradiction", rule, f"two records of one day {text}", claim, activity_data([one, other, end], 0, 0))
        yield made("contradiction", rule, f"two records of one day, the other way round, {text}", claim,
                   activity_data([other, one, end], 0, 0))
    between = day_of_work(DAY + 1, (DRIVE, 0))
    value = activity_data([day_of_work(DAY + 1, (WORK, 60)), one, between, day_of_work(DAY, (REST, 0), (WORK, 479)), end], 0, 0)
    yield made("contradiction", "C14", "two days contradict themselves, the later one first in the buffer: the least minute is named",
               "fault C14", value)
    value = activity_data([one, day_of_work(DAY, (REST, 0), (DRIVE, 480))], 0, 0)
    yield made("contradiction", CHAIN, "the newest record's last word would contradict, and gives nothing", "read", value)
    value = activity_data([one, day_of_work(DAY, (WORK, 0), (DRIVE, 1440)), end], 0, 0)
    yield made("contradiction", "C12", "a contradiction, and a word of minute 1440: C14 comes last", "fault C12", value)


def first_faults() -> Iterator[Made]:
    """Two faults, of which the first in reading order is reported."""
    bad = {
        "C9": lambda day: record(day, [0])[:2] + b"\x00\x0d" + record(day, [0])[4:],
        "C11": lambda day: record(LAST_DAY + 1, [0]),
        "C12": lambda day: record(day, [1440]),
        "C13": lambda day: record(day, [1, 0]),
    }
    for (one, make), (other, make_other) in itertools.permutations(bad.items(), 2):
        value = activity_data([make(DAY), make_other(DAY + 1), record(DAY + 2, [])], 0, 0)
        yield made("first", one, f"the first record has {one} and the second {other}", f"fault {one}", value)
    both = record(LAST_DAY + 1, [1440])
    yield made("first", "C11", "one record has a day out of range and a word of minute 1440", "fault C11", activity_data([both], 0, 0))
    odd = both[:2] + b"\x00\x0d" + both[4:]
    yield made("first", "C9", "one record has an odd length, a day out of range and a word of minute 1440", "fault C9",
               activity_data([odd], 0, 0))
    value = struct.pack(">HH", 0, 2) + FIRST + record(LAST_DAY + 1, [0] * 4)
    yield made("first", "C11", "the day of the second record is out of range, and the newest would not be met after it", "fault C11", value)
    value = struct.pack(">HH", 0, len(FIRST)) + FIRST + record(LAST_DAY + 1, [0] * 5)[:len(SECOND)]
    yield made("first", "C10", "the second record is two bytes too long for the buffer, and its day is out of range", "fault C10", value)
    value = struct.pack(">HH", 0, 2) + record(DAY, [1440, 1440]) + bytes(4)
    yield made("first", "C12", "the first record has a word of minute 1440, and the chain would break after it", "fault C12", value)


def faulty_second(code: str) -> tuple[bytes, int]:
    """A record with a fault, and how many bytes after its start the place of the fault is."""
    if code == "C9":
        return changed(bytes(4) + SECOND, 2, 13)[4:], 0
    if code == "C10":
        return changed(bytes(4) + SECOND, 2, len(SECOND) + 2)[4:], 0
    if code == "C11":
        return record(LAST_DAY + 1, [0, 480]), 0
    return record(DAY + 1, [word(0, 0, REST, 0), word(0, 0, WORK, 480), word(0, 0, DRIVE, 1440 if code == "C12" else 479)]), 16


def after_the_end() -> Iterator[Made]:
    """Faults of a record that goes on, or begins, after the buffer's end: their places count from the buffer's start."""
    for code in ("C9", "C10", "C11", "C12", "C13"):
        second, more = faulty_second(code)
        for place in (0, 1, 4, 21):
            value = activity_data([FIRST, second], len(FIRST + second) - len(FIRST) - more + place, 0)
            yield made("after-end", code, f"the second record has {code}, and the fault's place is {place} after the buffer's end",
                       f"fault {code}", value)
        value = activity_data([FIRST, second], len(FIRST + second) - len(FIRST) - more - 1, 0)
        what = f"the second record has {code}, and the fault's place is the buffer's last byte"
        yield made("after-end", code, what, f"fault {code}", value)
        if code != "C10":
            value = activity_data([FIRST, second, SECOND], 2 * len(SECOND) + 3, 9)
            yield made("after-end", code, f"the second record of three has {code}, in a buffer that has nine bytes more", f"fault {code}",
                       value)


REAL_SIZE = 13_776  # the bytes of the buffer of a driver card of either generation, at most


def of_many(words_of: int, minute: int = 0) -> bytes:
    """A record with as many words of rest from one minute on, and two more."""
    return record(DAY, [word(0, 0, REST, minute)] * words_of + [word(0, 0, WORK, 480), word(0, 0, DRIVE, 540)])


def large_buffers() -> Iterator[Made]:
    """Buffers as long as that of a real card, and longer: pointers, lengths and places of many bits."""
    end = record(DAY + 1, [word(0, 0, REST, 0), word(0, 0, WORK, 300)])
    for oldest, newest in ((0, REAL_SIZE - len(end)), (REAL_SIZE - 10, 6)):
        filling = record(DAY, [word(0, 0, REST, 0)])
        room = (newest - oldest) % REAL_SIZE
        filling = filling[:2] + struct.pack(">H", room) + filling[4:] + bytes(room - len(filling))
        yield made("large", CHAIN, f"a buffer of 13,776 bytes, as a card may have, whose newest record begins at {newest}", "read",
                   activity_data([filling, end], oldest, REAL_SIZE - room - len(end)))
    for bits in range(10, 16):
        place = 2**bits + 4
        size = 2 * 2**bits if bits < 15 else 65_531
        yield made("large", CHAIN, f"both pointers are above {2**bits} in a buffer of {size} bytes", "read",
                   activity_data([FIRST, end], place, size - len(FIRST + end)))
    for place in (1_030, 2_050, 4_100, 8_200, 16_400, 32_780, 65_000):
        for code in ("C9", "C12"):
            second, more = faulty_second(code)
            value = activity_data([FIRST, second], place - len(FIRST) - more, 65_531 - len(FIRST + second))
            yield made("large", code, f"the second record has {code}, at {place} in a buffer of 65,531 bytes", f"fault {code}", value)
    for size in (32_767, 32_768, 65_531):
        value = activity_data([FIRST, end], size - 30, size - len(FIRST + end))
        yield made("large", CHAIN, f"two records lie over the end of a buffer of {size} bytes", "read", value)


def many_records() -> Iterator[Made]:
    """Chains of many records, and lengths whose sum has more than 15 or 16 bits."""
    for count in (17, 33, 66):
        last = (0, count - 2, count - 1)
        value = activity_data([record(DAY + turn, [word(0, 0, REST, 0)] * (turn in last)) for turn in range(count)], 100, 5)
        yield made("many-records", CHAIN, f"{count} records, of which the first and the last two have a word", "read", value)
    for size, first, second in ((65_531, 40_000, 25_600), (40_000, 30_000, 10_002)):
        heads = [struct.pack(">HHIHH", 0, length, 86_400 * (DAY + turn), 0, 0) for turn, length in enumerate((first, second))]
        value = struct.pack(">HH", 0, first) + heads[0] + bytes(first - 12) + heads[1] + bytes(size - first - 12)
        what = f"two records of {first} and {second} bytes have more together than the buffer of {size}"
        yield made("many-records", "C10", what, "fault C10", value)


def many_words() -> Iterator[Made]:
    """Records of many words."""
    end = record(DAY + 1, [word(0, 0, REST, 0)])
    for count in (510, 1_022, 1_438, 1_439, 1_440, 2_046, 4_094, 8_190, 16_382):
        text = f"{count} words of 00:00 and two later ones, which makes a length of {len(of_many(count))}"
        yield made("many-words", CHAIN, f"a record has {text}", "read", activity_data([of_many(count), end], 0, 0))
    each = record(DAY, [word(0, 0, (minute // 360) % 4, minute) for minute in range(1440)])
    yield made("many-words", CHAIN, "a record has 1,440 words, one for each minute of its day", "read", activity_data([each, end], 0, 0))
    newest = activity_data([each], 0, 0)
    yield made("many-words", CHAIN, "the newest record has 1,440 words, one for each minute of its day", "read", newest)
    for words_of, what, code in (([1440], "of minute 1440", "C12"), ([0], "of 00:00, after one of 09:00", "C13")):
        value = activity_data([record(DAY, [0] * 9_000 + [word(0, 0, DRIVE, 540), *words_of]), end], 0, 0)
        yield made("many-words", code, f"the last of 9,002 words is {what}", f"fault {code}", value)


def chains() -> list[Made]:
    """All cases of chains."""
    makers = [wrapped, lengths, broken, pointers, days, sequences, contradictions, first_faults, after_the_end, large_buffers, many_words,
              many_records]
    return [one for maker in makers for one in maker()]


# Files

HOLDER = b"\x0dD1234567890123"
VALUE = activity_data([FIRST, SECOND], 0, 0)
OTHER_FIRST = day_of_work(DAY, (REST, 0), (WORK, 479), (DRIVE, 510), (REST, 1020))
OTHER = activity_data([OTHER_FIRST, SECOND], 0, 0)
LATER = activity_data([day_of_work(DAY + 7, (REST, 0), (DRIVE, 300), (REST, 400))], 0, 0)
PARTS = ["both", "first", "second"]


def identified(kind: int, holder: bytes = HOLDER, indices: bytes = b"00", more: int = 0) -> bytes:
    """An identification of a generation."""
    return block(IDENTIFICATION, kind, holder + indices + bytes(more))


def active(kind: int, value: bytes = VALUE) -> bytes:
    """The activity data of a generation."""
    return block(ACTIVITY, kind, value)


def made_file(generator: str, rule: str, why: str, claim: str, part: str, *blocks: bytes) -> Made:
    """A case with a card file."""
    return Made(generator, f"{rule}: {why}.", rule, claim, {"file": digits_of(b"".join(blocks)), "part": part})


FILE = "card file"


def generations() -> Iterator[Made]:
    """Files of one generation and of both, by each part."""
    kinds = {"the first generation": [(0, VALUE)], "the second generation": [(2, VALUE)], "both, which agree": [(0, VALUE), (2, VALUE)],
             "both, of different weeks": [(0, VALUE), (2, LATER)], "both, the second one first": [(2, LATER), (0, VALUE)],
             "both, which contradict one another": [(0, VALUE), (2, OTHER)],
             "both, of which the first has no records": [(0, bytes(16)), (2, VALUE)]}
    for (name, data), part in itertools.product(kinds.items(), PARTS):
        blocks = [made_one for kind,
                  value in data for made_one in (identified(kind), active(kind, value), block(ACTIVITY, kind + 1, b"\xff"))]
        chosen = [value for kind, value in data if part == "both" or kind == 2 * (part == "second")]
        claim = "fault C6" if not chosen else "fault C14" if "contradict" in name and part == "both" else "read"
        rule = FILE if claim == "read" else claim.removeprefix("fault ")
        yield made_file("generations", rule, f"a file of {name}, of which the part '{part}' is read", claim, part, *blocks)
    for part in PARTS:
        yield made_file("generations", "C6", f"a file without activity data, part '{part}'", "fault C6", part, identified(0), identified(2))
    for kind in (4, 6, 0x80):
        yield made_file("generations", FILE, f"blocks of kind {kind:02x} with wrong data aren't read", "read", "both", identified(0),
                        active(0), block(IDENTIFICATION, kind, b""), active(kind, bytes(15)))
    for more in (-0x0500, 0x0100, 0x8000):
        others = [block(identifier + more, 0, b"") for identifier in (IDENTIFICATION, ACTIVITY)]
        yield made_file("generations", FILE, f"blocks {IDENTIFICATION + more:04x} and {ACTIVITY + more:04x} aren't read", "read", "both",
                        *others, identified(0), active(0))
    yield made_file("generations", FILE, "the identification is of one generation and the activity data of the other", "read", "second",
                    identified(0), active(2))
    yield made_file("generations", "C6", "the only activity data has the kind 01 of a signature", "fault C6", "both", identified(0),
                    active(1))


def truncated() -> Iterator[Made]:
    """Files that end within a block's head or its value."""
    whole = identified(0) + active(0) + block(ACTIVITY, 1, b"\xff")
    starts = {0: "identification", 22: "activity data", 22 + 5 + len(VALUE): "signature"}
    for place, name in starts.items():
        for more in (1, 2, 3, 4, 5, 6):
            cut = whole[: place + more]
            if cut != whole:
                yield made_file("truncated", "C1", f"the file ends after {more} bytes of the {name}'s block", "fault C1", "both", cut)
        if place:
            claim = "fault C6" if place == 22 else "read"
            yield made_file("truncated", FILE if claim == "read" else "C6", f"the file ends before the {name}'s block", claim, "both",
                            whole[:place])
    yield made_file("truncated", "C1", "the last value lacks its last byte", "fault C1", "both", whole[:-1])
    yield made_file("truncated", "C1", "the first block's length is FFFF", "fault C1", "both", whole[:3] + b"\xff\xff" + whole[5:])
    for length in (0, 1, 300):
        yield made_file("truncated", FILE, f"a block of {length} bytes that isn't read comes first", "read", "both",
                        block(0x0501, 0, bytes(length)), whole)
    yield made_file("truncated", "C1", "a truncated block after the same data twice: C1 comes before C2", "fault C1", "both", whole,
                    whole[:-1])


def repeated() -> Iterator[Made]:
    """Blocks that come twice."""
    names = {IDENTIFICATION: identified, ACTIVITY: active}
    for (identifier, maker), kind in itertools.product(names.items(), range(4)):
        is_read = kind in (0, 2)
        blocks = [identified(0), active(0)] + [maker(kind)] * (1 if kind == 0 else 2)
        yield made_file("repeated", "C2" if is_read else FILE, f"block {identifier:04x} {kind:02x} is there twice"
                        + ("" if is_read else ", and isn't read"), "fault C2" if is_read else "read", "both", *blocks)
    yield made_file("repeated", FILE, "blocks of another elementary file with the kinds 00 and 02 repeat", "read", "both", identified(0),
                    active(0), *[block(0x0524, kind, b"\x01") for kind in (0, 0, 2, 2)])
    for identifier in (0x0505, 0x051F):
        others = [block(identifier, kind, b"\x01") for kind in (0, 2, 0, 2)]
        yield made_file("repeated", FILE, f"blocks {identifier:04x} 00 and {identifier:04x} 02 are there twice, and aren't read", "read",
                        "both", *others, identified(0), active(0))
    for order in (["a", "i"], ["i", "a"]):
        again = [active(0) if letter == "a" else identified(0) for letter in order]
        yield made_file("repeated", "C2", "both blocks are there twice: the first that repeats is named", "fault C2", "both", identified(0),
                        active(0), *again)
    yield made_file("repeated", "C2", "a block comes twice in a file without an identification", "fault C2", "both", active(0), active(0))
    yield made_file("repeated", "C2", "two identifications of a kind name two holders: C2 comes before C5", "fault C2", "both",
                    identified(0), identified(0, b"\x0dD1234567890124"), active(0))


def holders() -> Iterator[Made]:
    """Identifications that are short, missing, or of two cards."""
    yield made_file("holder", "C3", "the empty file has no identification", "fault C3", "both")
    yield made_file("holder", "C3", "a file with activity data alone has no identification", "fault C3", "both", active(0))
    yield made_file("holder", "C3", "the only identification has the kind 01 of a signature", "fault C3", "both", identified(1), active(0))
    for length in (0, 14, 15, 16, 17, 18):
        claim = "read" if length >= 17 else "fault C4"
        for kind in (0, 2):
            value = (HOLDER + b"00" + bytes(9))[:length]
            others = [] if kind == 0 else [identified(0)]
            yield made_file("holder", FILE if claim == "read" else "C4",
                            f"the identification of kind {kind:02} has {length} bytes, and needs 17", claim, "both", *others,
                            block(IDENTIFICATION, kind, value), active(0))
    for place in range(17):
        other = bytearray(HOLDER + b"00")
        other[place] ^= 1
        claim = "fault C5" if place < 15 else "read"
        text = "which is part of the holder" if place < 15 else "an index of replacement or renewal, which isn't"
        yield made_file("holder", "C5" if place < 15 else FILE, f"the two generations differ in byte {place} of the card number, {text}",
                        claim, "both", identified(0), block(IDENTIFICATION, 2, bytes(other)), active(0))
    yield made_file("holder", "C5", "the two generations differ in whether a letter of the card number is a capital", "fault C5", "both",
                    identified(0), identified(2, HOLDER.lower()), active(0))
    yield made_file("holder", "C4", "an identification is too short, and the two name different holders: C4 comes before C5", "fault C4",
                    "both", identified(0), block(IDENTIFICATION, 2, b"\x0eD1234567890123"), active(0))
    yield made_file("holder", "C5", "two cards and no activity data: C5 comes before C6", "fault C5", "both", identified(0),
                    identified(2, b"\x0eD1234567890123"))
    for part in PARTS:
        yield made_file("holder", FILE, f"the holder is the same for each part, as for '{part}'", "read", part,
                        identified(0, indices=b"12"), active(0), identified(2, indices=b"21", more=9), active(2))


BAD = {
    "C7": bytes(15),
    "C8": struct.pack(">HH", len(TWO), 0) + TWO,
    "C9": changed(VALUE, 2, 13),
    "C10": struct.pack(">HH", 0, 2) + TWO,
    "C11": activity_data([record(LAST_DAY + 1, [0])], 0, 0),
    "C12": activity_data([record(DAY, [1440])], 0, 0),
    "C13": activity_data([record(DAY, [1, 0])], 0, 0),
}


def first_of(one: str, other: str) -> str:
    """Which fault is reported, of one in the data of kind 00 and of another in those of kind 02."""
    return one if one in ("C7", "C8") or other not in ("C7", "C8") else other


def faults_by_generation() -> Iterator[Made]:
    """Faults of activity data in one generation or in both."""
    bad = BAD
    for (code, value), kind in itertools.product(bad.items(), (0, 2)):
        for part in ("both", "first", "second"):
            is_chosen = part == "both" or (kind == 2) == (part == "second")
            data = {0: VALUE, 2: VALUE, kind: value}
            which = "first" if kind == 0 else "second"
            yield made_file("activity", code if is_chosen else FILE,
                            f"{code} is in the data of the {which} generation, and the part '{part}' is read",
                            f"fault {code}" if is_chosen else "read", part, identified(0), active(0, data[0]), active(2, data[2]))
    for one, other in itertools.permutations(bad, 2):
        first = first_of(one, other)
        yield made_file("activity", first,
                        f"the first generation has {one} and the second {other}: C7 and C8 of both come before the records",
                        f"fault {first}", "both", identified(0), active(0, bad[one]), active(2, bad[other]))


ITSELF = activity_data([FIRST, OTHER_FIRST, SECOND], 0, 0)  # contradicts itself at 07:59


def contradicting_generations() -> Iterator[Made]:
    """Contradictions within a generation, and between both, beside other faults: the least minute of all is named, after all records."""
    for code, value in BAD.items():
        yield made_file("contradicting", code, f"kind 00 contradicts itself, and kind 02 has {code}: C14 comes last", f"fault {code}",
                        "both", identified(0), active(0, ITSELF), active(2, value))
    for part, code in (("first", "C14"), ("second", "C12"), ("both", "C12")):
        yield made_file("contradicting", code, f"kind 00 contradicts itself, kind 02 has C12, and the part '{part}' is read",
                        f"fault {code}", part, identified(0), active(0, ITSELF), active(2, BAD["C12"]))
    later = day_of_work(DAY + 1, (DRIVE, 0), (REST, 1300))
    both_days = activity_data([later, OTHER_FIRST, record(DAY + 9, [])], 0, 0)
    plain = activity_data([FIRST, SECOND, record(DAY + 9, [])], 0, 0)
    for one, other, which in ((plain, both_days, "kind 02"), (both_days, plain, "kind 00")):
        yield made_file("contradicting", "C14", f"two days contradict between the kinds, the later one first in the records of {which}",
                        "fault C14", "both", identified(0), active(0, one), active(2, other))
    twice = activity_data([FIRST, SECOND, later, record(DAY + 9, [])], 0, 0)
    for one, other, which in ((twice, OTHER, "kind 00"), (OTHER, twice, "kind 02")):
        yield made_file("contradicting", "C14", f"{which} contradicts itself on the second day, and the other kind on the first: the least "
                        f"minute is named", "fault C14", "both", identified(0), active(0, one), active(2, other))


def second_kind_first() -> Iterator[Made]:
    """Kind 02 before kind 00 in the file, and a fault in both."""
    for one, other in (*itertools.pairwise(BAD), *itertools.pairwise(reversed(BAD)), ("C7", "C13"), ("C13", "C8")):
        first = first_of(one, other)
        yield made_file("in-file-order", first,
                        f"kind 02 has {other} and comes first in the file, and kind 00 has {one}: C7 and C8 come first, and then kind 00",
                        f"fault {first}", "both", identified(2), active(2, BAD[other]), identified(0), active(0, BAD[one]))
    for one, other in (("C4", 0), ("C4", 2)):
        short = block(IDENTIFICATION, other, HOLDER)
        yield made_file("in-file-order", one, f"kind 02 comes first in the file, and the identification of kind {other:02} is too short",
                        f"fault {one}", "both", *([short, identified(0)] if other else [identified(2), short]), active(0))


def lengths_of_blocks() -> Iterator[Made]:
    """Blocks without a value, and long ones."""
    whole = [identified(0), active(0)]
    for identifier, kind in ((ACTIVITY, 1), (IDENTIFICATION, 3), (0x0501, 0), (0, 0), (0xFFFF, 0xFF)):
        yield made_file("block", FILE, f"the file's last block, {identifier:04x} {kind:02x}, has the length 0", "read", "both", *whole,
                        block(identifier, kind, b""))
    empty = block(0, 0, b"")
    for blocks, where in (([empty, *whole], "first"), ([whole[0], empty, whole[1]], "between two others"),
                          ([*whole, empty, active(2, bytes(15))], "before data that are too short")):
        code = "C7" if "short" in where else FILE
        yield made_file("block", code, f"a block 0000 00 without a value comes {where}", "fault C7" if code == "C7" else "read", "both",
                        *blocks)
    yield made_file("block", "C4", "the file's last block is an identification of kind 02 without a value", "fault C4", "both", *whole,
                    block(IDENTIFICATION, 2, b""))
    yield made_file("block", "C7", "the file's last block is activity data of kind 02 without a value", "fault C7", "both", *whole,
                    block(ACTIVITY, 2, b""))
    for bits in range(9, 16):
        value = activity_data([FIRST, SECOND], 2**bits, 2**bits)
        if bits == 15:
            value = activity_data([FIRST, SECOND], 2**bits, 30_000)
        yield made_file("block", FILE, f"the activity data have {len(value)} bytes", "read", "both", identified(0), active(0, value))
        yield made_file("block", FILE, f"a block of {2**bits + 3} bytes that isn't read comes first", "read", "both",
                        block(0x0501, 0, bytes(2**bits + 3)), *whole)
        yield made_file("block", "C1", f"a block lacks its last byte, and begins at {2**bits + 5}", "fault C1", "both",
                        block(0x0501, 0, bytes(2**bits)), active(0)[:-1])
    long = [block(identifier, 0, bytes(65_535)) for identifier in (0x0501, 0x0502)]
    yield made_file("block", FILE, "two blocks of 65,535 bytes that aren't read come first", "read", "both", *long, *whole)
    yield made_file("block", "C1", "a block lacks its last byte, and begins at 131,080", "fault C1", "both", *long, active(0)[:-1])


def card_files() -> list[Made]:
    """All cases of card files."""
    makers = [generations, truncated, repeated, holders, faults_by_generation, contradicting_generations, second_kind_first,
              lengths_of_blocks]
    return [one for maker in makers for one in maker()]
