#!/usr/bin/env python3
"""Gives texts of CSV to the reader of entered hours and to that of a driver, and compares what they read with the slow one:
worked texts, the examples, and random texts, good ones, with faults, as spreadsheets write them, and with bytes that were
changed. The slow reader's records are compared with those of Python's module `csv`, where the two have to agree.

Arguments: the program `tool_rows` and, where memory is to be refused in turn, the compiler of C. The last line is
'N passed, M failed'."""
import csv
import io
import os
import random
import sys

from inputs.random_texts import ALPHABET, ANNA, COLUMNS, HEAD, HOLDER, REST, SIGNED, Texts
from lib import counting, programs
from lib.files import EXAMPLES, read
from slow import slow_csv

SEEDS = 3000  # of each of the two
REFUSED_SEEDS = 100  # one in 100 is also run with its allocations refused
RECORD_SEEDS = 2000
QUESTIONS = {"entries": slow_csv.entries, "driver": slow_csv.driver}


# Worked texts, and what has to be printed of them. 2024-03-04 00:00 is the minute 28,491,840.

RESTED = '28491840 28492560 rest "office" ""\n'
WORK = "2024-03-04 12:00,2024-03-04 12:01,work\n"
WORKED = '28492560 28492561 work "office" ""\n'
SIGNED_REST = REST[:-1] + ",Eva Lund,day off\n"
SIGNED_RESTED = '28491840 28492560 rest "Eva Lund" "day off"\n'
SIGNED_WORK = WORK[:-1] + ",b,\n"
SIGNED_WORKED = '28492560 28492561 work "b" ""\n'
NO_AUTHOR, NO_NOTE = "E10 bad author in row 2\n", "E10 bad note in row 2\n"

ENTRIES = {
    "": "E1 wrong head\n",
    "\n": "E1 wrong head\n",
    "start,past\n": "E1 wrong head\n",
    "start,past,activity,\n": "E1 wrong head\n",
    "start, past,activity\n": "E1 wrong head\n",
    "Start,past,activity\n": "E1 wrong head\n",
    "start;past;activity\n": "E1 wrong head\n",
    "\ufeff\ufeff" + HEAD: "E1 wrong head\n",
    "\n\ufeff" + HEAD: "E1 wrong head\n",
    HEAD: "",
    "start,past,activity": "",
    "\ufeff" + HEAD + REST: RESTED,
    "\n\r\n" + HEAD + "\n\r" + REST + "\n" + WORK: RESTED + WORKED,
    (HEAD + REST + WORK).replace("\n", "\r\n"): RESTED + WORKED,
    (HEAD + REST + WORK).replace("\n", "\r"): RESTED + WORKED,
    HEAD + '"2024-03-04 00:00","2024-03-04 12:00","rest"': RESTED,
    HEAD + '"2024-03-04" 00:00,2024-03-04 12:00,""rest\n': RESTED,
    HEAD + '2024-03-04 00:00,2024-03-04 12:00,"rest': RESTED,
    HEAD + '2024-03-04 00:00,2024-03-04 12:00,"rest\n': "E6 no such activity in row 2\n",
    HEAD + '"2024-03-04 00:00,2024-03-04 12:00,rest\n': "E2 wrong fields in row 2\n",
    HEAD + " \n": "E2 wrong fields in row 2\n",
    HEAD + '""\n': "E2 wrong fields in row 2\n",
    HEAD + "2024-03-04 00:00,2024-03-04 12:00,rest,\n": "E2 wrong fields in row 2\n",
    HEAD + REST + "\n2024-03-05 00:00,2024-03-05 12:00\n": "E2 wrong fields in row 3\n",
    HEAD + "2024-03-04,2024-03-04 12:00,rest\n": "E3 bad time in row 2\n",
    HEAD + "2024-03-04 00:00,2024-03-04 24:00,rest\n": "E3 bad time in row 2\n",
    HEAD + "04/03/2024 00:00,04/03/2024 12:00,rest\n": "E3 bad time in row 2\n",
    HEAD + "2024-03-04 00:00,2023-02-29 12:00,crew\n": "E3 bad time in row 2\n",
    HEAD + "2024-03-04 23:00,2024-03-05 00:60,rest\n": "E3 bad time in row 2\n",
    HEAD + "2000-01-02 23:59,2000-01-03 00:00,rest\n": "E3 bad time in row 2\n",
    HEAD + "2000-01-03 00:00,2000-01-03 00:01,rest\n": '15780960 15780961 rest "office" ""\n',
    HEAD + "2099-12-31 23:58,2099-12-31 23:59,rest\n": '68374078 68374079 rest "office" ""\n',
    HEAD + "2099-12-31 23:59,2100-01-01 00:00,rest\n": "E3 bad time in row 2\n",
    HEAD + "2024-03-04 12:00,2024-03-04 12:00,rest\n": "E4 wrong order in row 2\n",
    HEAD + "2024-03-04 12:00,2024-03-04 12:00,crew\n": "E4 wrong order in row 2\n",
    HEAD + "2024-03-04 12:00,2024-03-04 00:00,rest\n": "E4 wrong order in row 2\n",
    HEAD + REST + "2024-03-04 11:59,2024-03-04 12:01,lunch\n": "E4 wrong order in row 3\n",
    HEAD + "2024-01-01 00:00,2026-01-01 00:00,ferry\n": "E5 left out in row 2: ferry\n",
    HEAD + REST.replace("rest", "crew"): "E5 left out in row 2: crew\n",
    HEAD + REST.replace("rest", "out"): "E5 left out in row 2: out\n",
    HEAD + REST.replace("rest", "derogation"): "E5 left out in row 2: derogation\n",
    HEAD + "2024-01-01 00:00,2026-01-01 00:00,lunch\n": "E6 no such activity in row 2\n",
    HEAD + REST.replace("rest", "Rest"): "E6 no such activity in row 2\n",
    HEAD + REST.replace("rest", "rest "): "E6 no such activity in row 2\n",
    HEAD + REST.replace("rest", ""): "E6 no such activity in row 2\n",
    HEAD + "2024-01-01 00:00,2025-01-01 00:00,rest\n": '28401120 28928160 rest "office" ""\n',
    HEAD + "2024-01-01 00:00,2025-01-01 00:01,rest\n": "E7 too long in row 2\n",
    # the head with author and note
    SIGNED: "",
    SIGNED[:-1]: "",
    "\ufeff" + SIGNED + SIGNED_REST: SIGNED_RESTED,
    SIGNED + SIGNED_REST + "\n" + SIGNED_WORK: SIGNED_RESTED + SIGNED_WORKED,
    (SIGNED + SIGNED_REST + SIGNED_WORK).replace("\n", "\r\n"): SIGNED_RESTED + SIGNED_WORKED,
    "start,past,activity,author\n": "E1 wrong head\n",
    "start,past,activity,note,author\n": "E1 wrong head\n",
    "start,past,activity,Author,note\n": "E1 wrong head\n",
    "start,past,activity,author,note,\n": "E1 wrong head\n",
    "author,note,start,past,activity\n": "E1 wrong head\n",
    '"start","past","activity","author","note"\n' + SIGNED_REST: SIGNED_RESTED,
    SIGNED + REST: "E2 wrong fields in row 2\n",
    SIGNED + REST[:-1] + ",Eva Lund\n": "E2 wrong fields in row 2\n",
    SIGNED + SIGNED_REST[:-1] + ",\n": "E2 wrong fields in row 2\n",
    SIGNED + SIGNED_REST.replace("day off", "day, off"): "E2 wrong fields in row 2\n",
    SIGNED + SIGNED_REST + WORK: "E2 wrong fields in row 3\n",
    HEAD + SIGNED_REST: "E2 wrong fields in row 2\n",
    HEAD + REST + SIGNED_WORK: "E2 wrong fields in row 3\n",
    # authors and notes
    SIGNED + SIGNED_REST.replace("Eva Lund", '"Eva Lund"').replace("day off", '"day off"'): SIGNED_RESTED,
    SIGNED + SIGNED_REST.replace("day off", '"day" off'): SIGNED_RESTED,
    SIGNED + SIGNED_REST.replace("day off", '"day off'): NO_NOTE,
    SIGNED + SIGNED_REST[:-1].replace("day off", '"day off'): SIGNED_RESTED,
    SIGNED + SIGNED_REST.replace("day off", '""'): SIGNED_RESTED.replace("day off", ""),
    SIGNED + SIGNED_REST.replace("Eva Lund", '""'): NO_AUTHOR,
    SIGNED + SIGNED_REST.replace("Eva Lund", ""): NO_AUTHOR,
    SIGNED + SIGNED_REST.replace("Eva Lund", " "): SIGNED_RESTED.replace("Eva Lund", " "),
    SIGNED + SIGNED_REST.replace("Eva Lund", 64 * "a"): SIGNED_RESTED.replace("Eva Lund", 64 * "a"),
    SIGNED + SIGNED_REST.replace("Eva Lund", 65 * "a"): NO_AUTHOR,
    SIGNED + SIGNED_REST.replace("Eva Lund", 32 * "ö"): SIGNED_RESTED.replace("Eva Lund", 32 * "ö"),
    SIGNED + SIGNED_REST.replace("Eva Lund", 32 * "ö" + "a"): NO_AUTHOR,
    SIGNED + SIGNED_REST.replace("Eva Lund", 33 * "ö"): NO_AUTHOR,
    SIGNED + SIGNED_REST.replace("Eva Lund", '"Lund, Eva"'): NO_AUTHOR,
    SIGNED + SIGNED_REST.replace("Eva Lund", '"Eva ""E"" Lund"'): NO_AUTHOR,
    SIGNED + SIGNED_REST.replace("Eva Lund", 'Eva "E"'): NO_AUTHOR,
    SIGNED + SIGNED_REST.replace("Eva Lund", '"Eva\nLund"'): NO_AUTHOR,
    SIGNED + SIGNED_REST.replace("Eva Lund", "Eva\tLund"): NO_AUTHOR,
    SIGNED + SIGNED_REST.replace("Eva Lund", "Eva\x1fLund"): NO_AUTHOR,
    SIGNED + SIGNED_REST.replace("Eva Lund", "Eva\x7fLund"): NO_AUTHOR,
    SIGNED + SIGNED_REST.replace("Eva Lund", "Eva\x80Lund"): SIGNED_RESTED.replace("Eva Lund", "Eva\x80Lund"),
    SIGNED + SIGNED_REST.replace("day off", 200 * "n"): SIGNED_RESTED.replace("day off", 200 * "n"),
    SIGNED + SIGNED_REST.replace("day off", 201 * "n"): NO_NOTE,
    SIGNED + SIGNED_REST.replace("day off", 100 * "ö"): SIGNED_RESTED.replace("day off", 100 * "ö"),
    SIGNED + SIGNED_REST.replace("day off", 100 * "ö" + "n"): NO_NOTE,
    SIGNED + SIGNED_REST.replace("day off", '"day, off"'): NO_NOTE,
    SIGNED + SIGNED_REST.replace("day off", '"day ""off"""'): NO_NOTE,
    SIGNED + SIGNED_REST.replace("day off", '"day\r\noff"'): NO_NOTE,
    SIGNED + SIGNED_REST.replace("day off", "day\0off"): NO_NOTE,
    SIGNED + SIGNED_REST.replace("day off", "day off\x7f"): NO_NOTE,
    # which of two faults is reported
    SIGNED + SIGNED_REST.replace("Eva Lund", "").replace("day off", 201 * "n"): NO_AUTHOR,
    SIGNED + "2024-01-01 00:00,2025-01-01 00:01,rest,,\n": "E7 too long in row 2\n",
    SIGNED + "2024-01-01 00:00,2025-01-01 00:00,rest,,\n": NO_AUTHOR,
    SIGNED + REST[:-1] + "!,,\n": "E6 no such activity in row 2\n",
    SIGNED + REST.replace("rest\n", "crew,,\n"): "E5 left out in row 2: crew\n",
    SIGNED + "2024-03-04 12:00,2024-03-04 12:00,rest,,\n": "E4 wrong order in row 2\n",
    SIGNED + "2024-03-04 12:00,2024-03-04 24:00,rest,,\n": "E3 bad time in row 2\n",
    SIGNED + SIGNED_REST.replace("Eva Lund", "") + "2024-03-05,,,\n": NO_AUTHOR,
    SIGNED + SIGNED_REST + SIGNED_WORK.replace(",b,", ",,"): "E10 bad author in row 3\n",
    SIGNED + SIGNED_REST + SIGNED_WORK.replace(",b,", ",b,\x1f"): "E10 bad note in row 3\n",
    SIGNED + SIGNED_REST + SIGNED_REST.replace("Eva Lund", ""): "E4 wrong order in row 3\n",
}

# The same of texts that aren't UTF-8.
BYTES = {
    (SIGNED + REST[:-1]).encode() + b",Zo\xc3,\n": NO_AUTHOR,
    (SIGNED + REST[:-1]).encode() + b"," + 63 * b"a" + b"\xc3,\n": NO_AUTHOR,
    (SIGNED + REST[:-1]).encode() + b",\xff,\n": NO_AUTHOR,
    (SIGNED + REST[:-1]).encode() + b",b," + 199 * b"n" + b"\xc3\n": NO_NOTE,
    (SIGNED + REST[:-1]).encode() + b",b,\x80\n": NO_NOTE,
    (SIGNED + REST[:-1]).encode() + b",b,\xed\xa0\x80\n": NO_NOTE,
    (HEAD + REST[:-1]).encode() + b"\xff\n": "E6 no such activity in row 2\n",
}

ANNAS = f"17 {HOLDER} anna-key-17 19786 Anna Berg\n"

DRIVERS = {
    "": "E1 wrong head\n",
    "driver,holder,key,base\n": "E1 wrong head\n",
    HEAD: "E1 wrong head\n",
    COLUMNS: "E2 wrong fields in row 2\n",
    COLUMNS + f"17,{HOLDER},anna-key-17,2024-03-04\n": "E2 wrong fields in row 2\n",
    COLUMNS + f"17,{HOLDER},anna-key-17,2024-03-04,Berg, Anna\n": "E2 wrong fields in row 2\n",
    COLUMNS + ANNA + ANNA: "E2 wrong fields in row 3\n",
    COLUMNS + ANNA.replace("17,", "017,", 1): "E9 bad value for driver\n",
    COLUMNS + ANNA.replace("17,", "017,", 1) + ANNA: "E9 bad value for driver\n",
    COLUMNS + ANNA: ANNAS,
    "\ufeff" + (COLUMNS + ANNA).replace("\n", "\r\n"): ANNAS,
    COLUMNS + ANNA.replace("17,", "999999,", 1): ANNAS.replace("17 ", "999999 ", 1),
    COLUMNS + ANNA.replace("17,", "1000000,", 1): "E9 bad value for driver\n",
    COLUMNS + ANNA.replace("17,", "0,", 1): "E9 bad value for driver\n",
    COLUMNS + ANNA.replace("17,", "+17,", 1): "E9 bad value for driver\n",
    COLUMNS + ANNA.replace("0d", "0D"): "E9 bad value for holder\n",
    COLUMNS + ANNA.replace("0d", "d"): "E9 bad value for holder\n",
    COLUMNS + ANNA.replace("anna-key-17", "anna-17"): "E9 bad value for key\n",
    COLUMNS + ANNA.replace("anna-key-17", "anna_key_17"): "E9 bad value for key\n",
    COLUMNS + ANNA.replace("anna-key-17", 64 * "k"): ANNAS.replace("anna-key-17", 64 * "k"),
    COLUMNS + ANNA.replace("anna-key-17", 65 * "k"): "E9 bad value for key\n",
    COLUMNS + ANNA.replace("2024-03-04", "2024-03-05"): ANNAS.replace("19786", "19787"),
    COLUMNS + ANNA.replace("2024-03-04", "2024-02-30"): "E9 bad value for base\n",
    COLUMNS + ANNA.replace("2024-03-04", "2000-01-03"): ANNAS.replace("19786", "10959"),
    COLUMNS + ANNA.replace("2024-03-04", "2000-01-02"): "E9 bad value for base\n",
    COLUMNS + ANNA.replace("2024-03-04", "2099-12-31"): ANNAS.replace("19786", "47481"),
    COLUMNS + ANNA.replace("2024-03-04", "2100-01-01"): "E9 bad value for base\n",
    COLUMNS + ANNA.replace("Anna Berg", ""): "E9 bad value for name\n",
    COLUMNS + ANNA.replace("Anna Berg", '"Berg, Anna"'): "E9 bad value for name\n",
    COLUMNS + ANNA.replace("Anna Berg", '"Anna ""B"" Berg"'): "E9 bad value for name\n",
    COLUMNS + ANNA.replace("Anna Berg", '"Anna\nBerg"'): "E9 bad value for name\n",
    COLUMNS + ANNA.replace("Anna Berg", "Åsa Öberg"): ANNAS.replace("Anna Berg", "Åsa Öberg"),
    COLUMNS + ANNA.replace("Anna Berg", 32 * "Å"): ANNAS.replace("Anna Berg", 32 * "Å"),
    COLUMNS + ANNA.replace("Anna Berg", 32 * "Å" + "a"): "E9 bad value for name\n",
    COLUMNS + ANNA.replace("Anna Berg", 33 * "Å"): "E9 bad value for name\n",
}

WORKED_TEXTS = {"entries": {**{text.encode(): wanted for text, wanted in ENTRIES.items()}, **BYTES}}
WORKED_TEXTS["driver"] = {text.encode(): wanted for text, wanted in DRIVERS.items()}

# The examples, and what each is.
FILES = {"entries.csv": "entries", "entries-spreadsheet.csv": "entries", "entries-signed.csv": "entries", "driver.csv": "driver"}


# Comparisons


def of_text(program, question, name, text):
    """The comparison of a text with the slow reader."""
    return f"{name}, {question} of {text!r}", programs.answer([program, question], text), (QUESTIONS[question](text), 0)


def of_worked(program):
    """The comparisons of the worked texts, and of the slow reader with what they say."""
    for question, texts in WORKED_TEXTS.items():
        for text, wanted in texts.items():
            yield f"the slow {question} of {text!r}", QUESTIONS[question](text), wanted
            yield of_text(program, question, "a worked text", text)


def span_of(line):
    """The minutes of a line of spans, and the activity."""
    words = line.split(" ")
    return slow_csv.minute_of(line[:16].encode()), slow_csv.minute_of(line[17:33].encode()), words[4]


def contradictions(lines, spans):
    """The entered hours that share a minute with a span of another activity."""
    pairs = [(line, span) for line in lines for span in spans if line[0] < span[1] and span[0] < line[1]]
    return [(line, span) for line, span in pairs if line[2] != span[2]]


def of_examples(program):
    """The comparisons of the examples: each is read, two of the files of entries enter the same hours, and these don't
    contradict the spans of the example of a card, nor do those of the third contradict any of them."""
    for name, question in FILES.items():
        text = read(os.path.join(EXAMPLES, name))
        yield of_text(program, question, name, text)
        yield f"whether {name} is read", QUESTIONS[question](text)[:1].isdigit(), True
    lines = slow_csv.entries_of(read(os.path.join(EXAMPLES, "entries.csv")))
    spans = [span_of(line) for line in read(os.path.join(EXAMPLES, "driver-year.spans")).decode().splitlines()]
    yield "entries-spreadsheet.csv", slow_csv.entries_of(read(os.path.join(EXAMPLES, "entries-spreadsheet.csv"))), lines
    yield "what entries.csv contradicts", contradictions(lines, spans), []
    signed = slow_csv.entries_of(read(os.path.join(EXAMPLES, "entries-signed.csv")))
    yield "what entries-signed.csv contradicts", contradictions(signed, [*spans, *lines]), []


def of_records(seed):
    """The comparisons of the slow reader's records, and of those of Python's module, with the records that were written."""
    chance = random.Random(seed)

    def field():
        return "".join(chr(chance.choice(ALPHABET)) for _ in range(chance.choice([0, 1, 2, 3, 8])))

    records = [[field() for _ in range(chance.randrange(1, 5))] for _ in range(chance.randrange(5))]
    written = io.StringIO(newline="")
    # Where lines end in less than CR LF, the module's writer leaves some ends of lines in fields without quotes.
    quoting, end = chance.choice([(csv.QUOTE_MINIMAL, "\r\n"), (csv.QUOTE_ALL, "\n"), (csv.QUOTE_ALL, "\r")])
    csv.writer(written, quoting=quoting, lineterminator=end).writerows(records)
    text = written.getvalue()
    told = [[field.decode() for field in fields] for fields in slow_csv.records(text.encode())]
    yield f"the slow records of {text!r}", told, records
    yield f"Python's records of {text!r}", list(csv.reader(io.StringIO(text, newline=""))), records


def wanted_without_memory(question, text, told):
    """What is expected where an allocation was refused: that the reader of the arguments, that of the input or the reading is out of
    memory; or the right answer."""
    return told if told in [("", 1), ("not read\n", 0), ("M1 no memory\n", 0)] else (QUESTIONS[question](text), 0)


def of_seed(program, question, seed, compiler):
    """The comparisons of a seed's text, for some with each allocation refused in turn."""
    text = Texts(f"{question} {seed}").text(question)
    yield of_text(program, question, f"seed {seed}", text)
    if compiler and seed % REFUSED_SEEDS == 0:
        for number, told in programs.answers_without_memory(compiler, [program, question], text):
            name = f"seed {seed}, allocation {number} refused, {question} of {text!r}"
            yield name, told, wanted_without_memory(question, text, told)


def comparisons(program: str, compiler: str | None = None) -> counting.Comparisons:
    yield from of_worked(program)
    yield from of_examples(program)
    for seed in range(RECORD_SEEDS):
        yield from of_records(seed)
    for question in QUESTIONS:
        for seed in range(SEEDS):
            yield from of_seed(program, question, seed, compiler)


if __name__ == "__main__":
    sys.exit(counting.count(comparisons(*sys.argv[1:])))
