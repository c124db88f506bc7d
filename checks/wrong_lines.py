#!/usr/bin/env python3
"""A program that answers lines by the slow programs, wrong on purpose, to try `vectors/run.py --lines`.

The argument is how it is wrong: `right`; an answer with a `fraction`, without a key (`missing`), with another one (`key`), or with one
that comes `again`; the wrong `id`; a line `twice`; two lines `swapped`; a `text` that isn't JSON; `silent`; `ended` after a line; a
`crash` at the second line; a line `after` the last; `open` at the end of its input; a `status`; an `error` beside a wrong answer; or
`otherwise TAG`, which makes a choice otherwise."""
import json
import sys
import time
from typing import Any

from lib import other_choices, vector_sets


def floated(value: Any) -> Any:
    """The same with fractions in the place of whole numbers."""
    if isinstance(value, dict):
        return {key: floated(one) for key, one in value.items()}
    if isinstance(value, list):
        return [floated(one) for one in value]
    return float(value) if isinstance(value, int) else value


def changed(kind: str, answer: dict[str, Any]) -> Any:
    """An answer that is wrong in a way."""
    if kind == "fraction":
        return floated(answer)
    if kind == "missing":
        return {key: value for key, value in answer.items() if key != "horizon"}
    if kind == "key":
        return {**answer, "more": 0}
    if kind == "error":
        print("something is wrong", file=sys.stderr, flush=True)
        return {**answer, "horizon": answer["horizon"] + 1}
    return answer


def lines_of(kind: str, case: dict[str, Any]) -> list[str]:
    """The lines that answer a case."""
    slow = vector_sets.SLOW
    if kind.startswith("otherwise "):
        slow = other_choices.reading_of(kind.removeprefix("otherwise "))
    answer = changed(kind, vector_sets.ANSWERS[case["set"]](slow, case["input"]))
    line = json.dumps({"id": case["id"] + "0" * (kind == "id"), "expected": answer})
    again = line[:-1] + ', "expected": {}}'
    return {"text": ["an answer"], "twice": [line, line], "silent": [], "again": [again]}.get(kind, [line])


def main() -> int:
    """Answers each line, and returns the status."""
    _, kind = sys.argv
    before: list[str] = []  # the lines that wait for the next one, which is told first
    for number, line in enumerate(sys.stdin, 1):
        if kind == "crash" and number == 2:
            raise RuntimeError("the second line")
        told = lines_of(kind, json.loads(line))
        before, told = (told, []) if kind == "swapped" and number % 2 else ([], told + before)
        for one in told:
            print(one, flush=True)
        if kind == "ended":
            return 0
    if kind == "after":
        print("{}", flush=True)
    if kind == "open":
        time.sleep(60)
    return 3 if kind == "status" else 0


if __name__ == "__main__":
    sys.exit(main())
