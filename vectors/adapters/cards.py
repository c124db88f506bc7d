#!/usr/bin/env python3
"""An example of a program that answers lines: a reader of activity data, for the sets `words` and `chains`. The last function is all that
such a program needs to be tried: `python3 run.py --lines --set words --set chains python3 adapters/cards.py`."""
import json
import sys

ACTIVITIES = ["rest", "available", "work", "drive"]
FIRST_DAY, LAST_DAY = 10_959, 47_481  # 2000-01-03 and 2099-12-31


class Fault(Exception):
    """Why a value is refused."""


def mark_of(word):
    """The mark of a word, or None where the activity isn't known."""
    crew, out, activity = word >> 14 & 1, word >> 13 & 1, ACTIVITIES[word >> 11 & 3]
    if out:
        return activity if crew else None
    return f"{activity} crew" if crew else activity


def record_at(buffer, place, before):
    """The length, the day and the words of a record, where the records before it have a length together."""
    size = len(buffer)

    def number(at):
        return buffer[at % size] << 8 | buffer[(at + 1) % size]

    length = number(place + 2)
    if length < 12 or length % 2 or length > size:
        raise Fault({"fault": "C9", "place": place})
    if before + length > size:
        raise Fault({"fault": "C10", "place": place})
    day = (number(place + 4) << 16 | number(place + 6)) // 86_400
    if not FIRST_DAY <= day <= LAST_DAY:
        raise Fault({"fault": "C11", "place": place})
    words = []
    for at in range(place + 12, place + length, 2):
        word = number(at)
        if word & 2047 >= 1440:
            raise Fault({"fault": "C12", "place": at % size})
        if words and word & 2047 < words[-1] & 2047:
            raise Fault({"fault": "C13", "place": at % size})
        words.append(word)
    return length, day, words


def records_of(value):
    """The records of a value, each as its day and its words, and the words of the newest without the last."""
    if len(value) < 16:
        raise Fault({"fault": "C7"})
    oldest, newest, buffer = value[0] << 8 | value[1], value[2] << 8 | value[3], value[4:]
    if max(oldest, newest) >= len(buffer):
        raise Fault({"fault": "C8"})
    if oldest == newest and buffer[(oldest + 2) % len(buffer)] == buffer[(oldest + 3) % len(buffer)] == 0:
        return
    place, before = oldest, 0
    while True:
        length, day, words = record_at(buffer, place, before)
        ends = [word & 2047 for word in words[1:]] + [1440]
        yield day, list(zip(words, ends))[: -1 if place == newest else None]
        if place == newest:
            return
        place, before = (place + length) % len(buffer), before + length


def spans_of(value):
    """The spans that a value gives."""
    marks, twice = {}, []
    for day, words in records_of(value):
        for word, end in words:
            for minute in range(1440 * day + (word & 2047), 1440 * day + end):
                if mark_of(word) and marks.setdefault(minute, mark_of(word)) != mark_of(word):
                    twice.append(minute)
    if twice:
        raise Fault({"fault": "C14", "minute": min(twice)})
    spans = []
    for minute, mark in sorted(marks.items()):
        if spans and spans[-1][1:] == [minute, mark]:
            spans[-1][1] = minute + 1
        else:
            spans.append([minute, minute + 1, mark])
    return spans


def answer(given):
    """What is expected of a value."""
    pieces = [piece if isinstance(piece, str) else piece["byte"] * piece["times"] for piece in given["value"]]
    try:
        return {"spans": spans_of(bytes.fromhex("".join(pieces)))}
    except Fault as fault:
        return fault.args[0]


def main():
    """Answers each line with a line."""
    for line in sys.stdin:
        case = json.loads(line)
        print(json.dumps({"id": case["id"], "expected": answer(case["input"])}), flush=True)


if __name__ == "__main__":
    main()
