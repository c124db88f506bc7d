#!/usr/bin/env python3
"""Runs each test of the readers of CSV, of the texts, of the scan and of the stretches with each of its allocations refused in turn, and
looks for an answer in place of being out of memory. Of tests that ask for no memory it looks that they ask for none.

Arguments: the program of the worked cases and the compiler of C. A test whose allocation is refused has to end out of memory,
which is `Memory` of a reader and `AllocError` of a text.

The tests that hold spans in a line may pass instead. What is collected there into a list, as the spans of a slice, asks for
the room of all that may come, and where that is refused asks at once for the room of one more: only where both are refused
is it out of memory. So where such a test passes, it is run once more with the next allocation refused as well, and then has to
end out of memory. The last line is 'N passed, M failed'."""
import sys

from lib import counting, programs, tests

FAULTS = ["error: Memory", "error: AllocError"]
MODULES = ["sheets", "reports", "readings", "evidence", "scans", "stretches"]
WITHOUT_MEMORY = [  # ask for none
    "scans::a_year_of_office_hours_asks_for_no_memory",
    "sheets::a_line_has_a_key_or_a_name",
    "sheets::numbers_are_read",
    "sheets::commands_that_were_done_have_lines",
    "sheets::faults_have_lines",
    "sheets::refused_cards_have_the_lines_of_their_faults",
    "stretches::no_stretches_speak_of_no_minutes",
    "stretches::spans_come_in_order",
]
COLLECTING = [
    "evidence::breaches_have_their_evidence",
    "evidence::evidence_needs_a_range",
    "evidence::stretches_of_another_line_have_no_evidence",
    "readings::a_form_is_printed",
    "readings::an_overview_is_cut_at_the_ends_of_the_month",
    "readings::an_overview_is_printed",
    "reports::a_chart_is_drawn",
    "reports::a_day_with_every_mark_is_printed",
    "reports::a_month_is_printed",
    "reports::gaps_of_a_month_are_printed",
    "reports::spans_of_a_month_are_printed",
    "stretches::a_debt_is_of_its_stretch",
    "stretches::lines_have_their_stretches",
    "stretches::the_last_stretch_ends_with_2099",
]


def end_of(run):
    return tests.end_of(run, FAULTS)


def run_without_two(program, test, number, compiler):
    """The run of a test with the allocation of that number and the next one refused."""
    runs = programs.runs_without_memory(compiler, [program, test], b"", [number], in_a_row=2)
    return list(runs)[0][1]


def comparisons(program: str, compiler: str) -> counting.Comparisons:
    for test in tests.names_of(program, MODULES):
        if test in WITHOUT_MEMORY:
            yield f"memory that {test} asks for", programs.allocations(compiler, [program, test], b""), 0
            continue
        for number, run in programs.runs_without_memory(compiler, [program, test], b""):
            name, end = f"{test}, allocation {number} refused", end_of(run)
            if end == "passed" and test in COLLECTING:
                name, end = f"{name}, and the next", end_of(run_without_two(program, test, number, compiler))
            yield name, end, end if end in FAULTS else "out of memory"


if __name__ == "__main__":
    sys.exit(counting.count(comparisons(*sys.argv[1:])))
