#!/usr/bin/env python3
"""Changes the slow reading of the rules in one place at a time, and expects each change to be noticed by a worked row.

A limit that is one off, `<` for `<=`, `and` for `or`, `+` for `-`, `min` for `max`, a condition left out: whatever reads
the law in another way must find something else in one of the rows of lib/rules.py, or what the rows fix is no
reading of it. A few changes mean the same, and are listed with the reason (lib/same_changes.py). Run it; it ends in
'N passed, M failed'. The vectors (vectors.py) are tried with more kinds of change, and in all slow programs."""
import ast
import sys
import types

from lib import changes, counting, rules, same_changes
from slow import slow_rules

# Functions that say nothing of the law: what is held and how it is read, and what spans have to be.
APART = {"check_examined", "held_minutes", "horizon_of", "examined_spans", "report", "read_line", "main"}

SECONDS = 3  # within which a reading has to end; all rows take a tenth


def is_noticed(reading: types.ModuleType) -> bool:
    """Whether a reading finds something else in a row than is expected, or ends in a fault, or takes too long."""
    try:
        return bool(changes.within(SECONDS, lambda: any(told != wanted for _, told, wanted in rules.comparisons(reading))))
    except Exception:  # whatever a wrong reading does
        return True


def comparisons() -> counting.Comparisons:
    """Of each change whether a row notices it, against whether one has to."""
    for change, make in changes.changed_modules(slow_rules, APART, changes.changes_of, (ast.FunctionDef,)):
        yield changes.name_of(change), is_noticed(make()), change not in same_changes.RULES


if __name__ == "__main__":
    sys.exit(counting.count(comparisons()))
