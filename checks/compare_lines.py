#!/usr/bin/env python3
"""Gives a timeline random commands, and compares its answers with a map from minutes to marks.

Arguments: the program `tool_rows` and, where memory is to be refused in turn, the compiler of C. The last line is
'N passed, M failed'."""
import random
import sys

from lib import counting, programs
from slow.slow_reader import runs

SEEDS = 400
REFUSED_SEEDS = 40  # one in 40 is also run with its allocations refused
LAST = 68_428_800


class Timeline:
    """What a timeline has to answer, by a map from minutes to marks."""

    def __init__(self):
        self.held = {}

    def gain(self, spans):
        for place, (start, past, _) in enumerate(spans):
            if start >= past:
                return f"EmptySpan({place})"
        given = {}
        for start, past, mark in spans:
            for minute in range(start, past):
                given.setdefault(minute, set()).add(mark)
        for minute in sorted(given):
            if len(given[minute] | {self.held.get(minute, mark) for mark in given[minute]}) > 1:
                return f"Contradiction(Minute {{ number: {minute} }})"
        new = {minute: marks.pop() for minute, marks in given.items() if minute not in self.held}
        self.held.update(new)
        return self.spans("gains", new.items())

    def spans(self, name, pairs):
        return " ".join([name] + [f"{start} {past} {mark}" for start, past, mark in runs(pairs)])

    def range(self, start, past):
        within = range(start, past)
        yield self.spans("slice", [(minute, self.held[minute]) for minute in within if minute in self.held])
        lacking = runs([(minute, None) for minute in within if minute not in self.held])
        yield " ".join(["gaps"] + [f"{a} {b}" for a, b, _ in lacking])
        horizon = start
        while self.held.get(horizon, 4) < 4:
            horizon += 1
        yield f"horizon {horizon} {'Crew' if horizon in self.held else 'Unknown'}"
        yield f"at {self.held.get(start, 'nothing')}"


def commands(seed):
    """Spans that touch, overlap, are equal or empty, and ranges, near a minute that may be the first or the last."""
    chance = random.Random(seed)
    near = chance.choice([0, 0, 28_491_840, LAST - 60])

    def minute():
        return min(LAST, near + chance.randrange(61))

    for _ in range(12):
        if chance.random() < 0.4:
            yield [minute(), minute()]
        else:
            spans = []
            for _ in range(chance.randrange(1, 4)):
                start = minute()
                length = chance.choice([0, 1, 1, 2, 5, 9]) if chance.random() < 0.9 else 30
                spans += [start, min(LAST, start + length), chance.choice([0, 0, 0, 2, 3, 4, 7])]
            yield spans


def wanted(given, told=None):
    """What is expected; a command that was out of memory, as `told` says, has no effect."""
    line, lines = Timeline(), []

    def is_told(text):
        return told is not None and told[len(lines) : len(lines) + 1] == [text]

    for numbers in given:
        if is_told("not read"):
            lines.append("not read")
        elif len(numbers) == 2:
            for answer in line.range(*numbers):
                lines.append("Memory" if is_told("Memory") else answer)
        elif is_told("Memory"):
            lines.append("Memory")
        else:
            spans = [tuple(numbers[i : i + 3]) for i in range(0, len(numbers), 3)]
            lines.append(line.gain(spans))
    lines.append(line.spans("line", line.held.items()))
    return lines


def wanted_without_memory(given, told):
    """What is expected where an allocation was refused. The reader of the arguments or of the input may have been out of memory."""
    return told if told in ([], ["not read"]) else wanted(given, told)


def lines_of(text):
    return [line.strip() for line in text.splitlines()]


def comparisons(program: str, compiler: str | None = None) -> counting.Comparisons:
    for seed in range(SEEDS):
        given = list(commands(seed))
        text = "".join(" ".join(map(str, numbers)) + "\n" for numbers in given).encode()
        told, status = programs.answer([program, "timeline"], text)
        yield f"seed {seed}", lines_of(told) + [f"status {status}"], wanted(given) + ["status 0"]
        if compiler and seed % REFUSED_SEEDS == 0:
            for number, (told, _) in programs.answers_without_memory(compiler, [program, "timeline"], text):
                told = lines_of(told)
                yield f"seed {seed}, allocation {number} refused", told, wanted_without_memory(given, told)


if __name__ == "__main__":
    sys.exit(counting.count(comparisons(*sys.argv[1:])))
