"""Counts what a check compares: prints each comparison that failed, and then the line 'N passed, M failed'."""
import itertools
import signal
import sys
from collections.abc import Iterable, Iterator

Comparison = tuple[str, object, object]  # a name, what came, and what was expected
Comparisons = Iterator[Comparison]


def difference(told: object, wanted: object) -> str:
    """What was expected, and what came; of lists the first item that differs."""
    if isinstance(told, list) and isinstance(wanted, list):
        for number, (one, other) in enumerate(itertools.zip_longest(told, wanted), 1):
            if one != other:
                return f"expected {other!r}, got {one!r}, in line {number}"
    return f"expected {wanted!r}, got {told!r}"


def count(comparisons: Iterable[Comparison]) -> int:
    """The status of a check, whose comparisons are a name, what came and what was expected: 0 where some passed and none
    failed."""
    # A check that is asked to end leaves its `with` blocks, and so ends what it has started. One that has a pool closes and joins it
    # when it is done: a worker that is ended while it takes a lock doesn't hear of it, and the pool would wait for it for ever.
    signal.signal(signal.SIGTERM, lambda number, _: sys.exit(128 + number))
    passed = failed = 0
    for name, told, wanted in comparisons:
        if told == wanted:
            passed += 1
        else:
            failed += 1
            print(f"failed: {name}: {difference(told, wanted)}", flush=True)
    print(f"{passed} passed, {failed} failed")
    return 0 if passed and not failed else 1
