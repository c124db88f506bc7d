#!/usr/bin/env python3
"""Gives the program mutated card files, texts of CSV, command lines and requests, and compares what it answers, and the tables that it
leaves, with the slow reader, the slow office and the slow server.

The first argument is the program. With no other one the inputs of some seeds are tried, and of each kind all answers have to come that
stand below. With '--seconds N' those from a seed on are tried until the time is over ('--first SEED', '--processes P'), and before the
last line stand the seeds, and of each kind how many inputs were tried, and how often each answer was expected. With '--kind KIND --seed
SEED' those of one seed are tried. A failure names kind, seed and input. The last line is 'N passed, M failed'."""
import argparse
import collections
import itertools
import multiprocessing
import os
import re
import subprocess
import sys
import tempfile
import time

from inputs import mutated_inputs
from inputs.mutated_inputs import NO_TEXT, PATH
from lib import counting, programs, seeds
from lib.files import content
from lib.commands import COMMANDS
from lib.office import ENDINGS, STORE_FAILED, Desk
from lib.office_rows import ANNA, CARD, DAY, DRIVER_HEAD, HOLDER
from lib.server import asked_of, of_asked, server_after
from slow import slow_archive, slow_office, slow_reader

ALL_SEEDS = 45
SEEDS = seeds.tried(ALL_SEEDS)
STEP = 4  # seeds of a round
HANGING = 60  # seconds
SHOWN = 3_000

# Inputs that are tried first in each run: the kind, the bytes, and why. Those of a command line are its arguments, an end of line, and then
# what it reads. Texts of CSV are given to `register` and to `enter`, command lines and requests to an archive with a driver and a file.
CARDS, CSV, LINES, REQUESTS = "card files", "csv", "command lines", "requests"
KEPT = [
    (CARDS, bytes.fromhex(CARD + "0504000010" "00060006" "0f0000010000" "0000000c65e5"), "a date over the end of the shortest buffer"),
    (CSV, b'start,past,activity\r"2024-03-09 00:00",2024-03-11 00:00,"rest', "a quote that nothing closes"),
    (LINES, b"breaches -- PATH 17", "two hyphens before the values"),
    (LINES, b"sheet PATH 17 -- 2024-03", "two hyphens among the values"),
    (LINES, b"breaches PATH -- --", "two hyphens as a value"),
    (LINES, b"breaches PATH -", "a hyphen as a value"),
    (LINES, b"breaches PATH 17 --", "two hyphens after the values"),
    (LINES, b"drivers help", "a path that is a command's name"),
    (LINES, f"register PATH\n{DRIVER_HEAD}18,{HOLDER},bert-key-1,2024-03-04,Bert".encode(), "a card's holder that another driver has"),
    (LINES, f"register PATH\n{DRIVER_HEAD}18,{HOLDER[:-1]}4,bert-key-1,2024-03-05,Bert".encode(), "a base on a Tuesday"),
    (LINES, b"enter -- PATH 18\nstart,past,activity,author,note\n", "two hyphens before the path, and a sentence on standard error"),
    (LINES, b"key PATH 17\nanna-key-1\r\n", "a driver's own key"),
    (LINES, b"name PATH 17\n\xef\xbb\xbfAnna\r\n", "a name after a byte order mark, which is of it"),
    (LINES, b"withdraw PATH 18 2 1", "a range that ends before it begins, of an unknown driver"),
    (LINES, b"form PATH 17 -- 2024-03-05", "two hyphens before a date that may be left out"),
    (LINES, b"handover PATH 17 -- 2024-03-01 2024-04-01", "two hyphens before a period"),
    (LINES, b"handover PATH 18 2024-03-02 2024-03-01", "a period that ends before it begins, of an unknown driver"),
    (LINES, b"carry -- PATH new.db 2024-03-04", "two hyphens before the path of an archive that is carried over"),
    (LINES, b"carry PATH new.db -- 2024-03-05", "two hyphens before the day from which it is"),
    (LINES, b"carry PATH PATH 2024-03-05", "an archive that would be carried into itself"),
    (LINES, b"carry PATH none/new.db 2024-03-05", "a new archive in a folder that isn't there"),
    (LINES, b"carry no-archive new.db 2024-3-5", "a day that is none, before an archive that isn't there"),
    (LINES, b"import PATH both\n" + bytes.fromhex(CARD + "0504000010" "00000000" "0000000d") + bytes(8), "a record of 13 bytes"),
    (REQUESTS, b"\n\r\nGET /drivers/17/breaches HTTP/1.0\nX-KEY:office-key-1\n\r\n\0GET", "ends of lines of both forms"),
]

# By the kind: the answers that have to come. The code of a fault, or a status.
ANSWERS = {
    CARDS: "done C1 C2 C3 C4 C5 C6 C7 C8 C9 C10 C11 C12 C13 C14 X1",
    CSV: "done E1 E2 E3 E4 E5 E6 E7 E9 E10 S1 S2 S3 S4 S6 S9",
    LINES: "done usage N1 N2 P1 Z1 Z2 Z3 Z4 E1 E2 E9 C1 C9 S1 S2 S3 S4 S6 S7 S8 S9 S10 S12 X1",
    REQUESTS: "200 201 400 403 404 405 409 411 413 422 431",
}

Tried = collections.namedtuple("Tried", "name told wanted answers")  # no answers if the input isn't compared


def shown(number, *given):
    """The number of an input, and the input, or the front of a long one."""
    text = ", ".join(map(repr, given))
    return f"{number}: {text[:SHOWN]}{'..' * (len(text) > SHOWN)}"


def told_by(words, given, folder=None):
    """What the program prints for an input, its status, and whether it prints something on standard error; or that it hangs."""
    try:
        text, status, errors = programs.told_by(words, given, cwd=folder, timeout=HANGING)
        return text, status, bool(errors)
    except subprocess.TimeoutExpired as fault:
        return repr(fault)


def answer_of(text, status, *_):
    """What an answer says, in short: the code of a fault, or what the status says."""
    return text.split(b" ")[0].decode() if status in (1, 3) else ["done", "", "usage"][status]


# Card files


def of_files(program, name, files):
    """The comparisons of card files, and of activity data: what `holder`, `card` and `dump` print."""
    for number, (file, part, value) in enumerate(files, 1):
        told = [told_by([program, "holder"], file), told_by([program, "card", part], file), told_by([program, "dump"], value)]
        wanted = [slow_reader.holder(file), slow_reader.card(file, part), slow_reader.dump(value)]
        wanted = [(text.encode(), status, False) for text, status in wanted]
        yield Tried(f"{name}: {shown(number, file, part, value)}", told, wanted, [answer_of(*one) for one in wanted[1:]])


# Command lines

COUNTS = {name: command.counts() for name, command in COMMANDS.items() if name not in ("serve", "listen")}
USAGE = b"", 2


EARLY = None, 0


def asks_early(words):
    """Whether the arguments ask for help or, by another name, for the version."""
    match words:
        case ["help" | "--help" | "-h" | "--version" | "-V"]:
            return True
        case ["help", name]:
            return name in COMMANDS
        case [name, "--help" | "-h", *_]:
            return name in COMMANDS
    return False


def values_of(words):
    """The arguments that are values, or None where one of them is an option. After two hyphens each of them is a value."""
    front = [*itertools.takewhile(lambda word: word != "--", words)]
    if any(word.startswith("-") and word != "-" for word in front):
        return None
    return front + words[len(front) + 1 :]


def without_archive(name, given, part=None):
    """What a command prints that has no archive, and its status."""
    if name == "card" and part not in slow_archive.PARTS:
        return b"P1 bad part\n", 1
    text, status = slow_reader.card(given, part) if name == "card" else getattr(slow_reader, name)(given)
    return text.encode(), status


def names_files(words):
    """Whether the arguments name files to import."""
    return words[:1] == ["import"] and len(words) > 3 and not any(word.startswith("-") for word in words[1:])


def imported(office, path, archive, part, *names):
    """What the import of files prints, and its status. No file is there but those of archives."""
    known = offices_of(office).get(archive.removeprefix("./"))
    if known is None:
        return STORE_FAILED[:2]
    named = [path if name == PATH else name for name in names]
    return known.import_files(part, [(name, content(os.path.join(os.path.dirname(path), name))) for name in named])


def offices_of(office: slow_office.Office) -> dict[str, slow_office.Office]:
    """The slow offices by the paths of their archives: the first one, and those of the archives that were made of it by `carry`."""
    return {PATH: office, **office.made}


def can_be_made(folder: str, new: str) -> bool:
    """Whether a new archive can be made at a path in a folder: its folder is there, its names aren't too long, and nothing has them."""
    names = [os.path.join(folder, new + ending) for ending in ENDINGS]
    fits = all(len(os.path.basename(name).encode(errors="surrogatepass")) <= 255 and len(name) < 4_096 for name in names)
    return fits and os.path.basename(new) != "" and os.path.isdir(os.path.dirname(names[0])) and not any(map(os.path.lexists, names))


def carried(office: slow_office.Office, path: str, archive: str, new: str, date: str) -> tuple[bytes, int]:
    """What `carry` prints, and its status: first the day is read, then the old archive, and then the new one is made."""
    try:
        slow_office.day_of(date)
    except slow_reader.Fault as fault:
        return f"{fault}\n".encode(), 1
    old = offices_of(office).get(archive.removeprefix("./"))
    if old is None or new == PATH or not can_be_made(os.path.dirname(path), new):
        return STORE_FAILED[:2]
    told = old.answer(["carry", new.removeprefix("./"), date])
    office.made.update(old.made)
    old.made = office.made
    return told


def answer_to(office, path, words, given):
    """What a command line prints at the archive with this path that has these arguments, and its status."""
    name, *others = words or [""]
    values = values_of(others)
    if any(NO_TEXT in word for word in words):
        return USAGE
    if asks_early(words):
        return EARLY
    if names_files(words):
        return imported(office, path, *others)
    if values is None or len(values) not in COUNTS.get(name, ()):
        return USAGE
    if name == "version":
        return programs.version_lines(), 0
    if name in ("dump", "holder", "card"):
        return without_archive(name, given, *values)
    if name == "carry":
        return carried(office, path, *values)
    known = offices_of(office).get(values[0].removeprefix("./"))
    return known.answer([name, *values[1:]], given) if known and name != "init" else STORE_FAILED[:2]


def of_lines(program, name, office, lines):
    """The comparisons of command lines at an archive, and of the tables that they leave."""
    with tempfile.TemporaryDirectory() as folder:
        desk = Desk(program, folder)
        desk.office = office
        desk.run(["init"])
        for number, (words, given) in enumerate(lines, 1):
            wanted = answer_to(office, desk.path, words, given)
            bytes_of = [desk.path if word == PATH else word.encode(errors="surrogatepass") for word in words]
            told = told_by([program, *bytes_of], given, folder)
            if wanted == EARLY:
                wanted = told[0] or b"help", 0
            yield Tried(f"{name}: {shown(number, words, given)}", told, (*wanted, wanted == USAGE), [answer_of(*wanted)])
        yield Tried(*desk.tables(name), [])
        for new in office.made:
            yield Tried(*desk.carried_to(new).tables(f"{name}: {new}"), [])


# Requests


def answers_of_reply(reply):
    """The status of a reply, and the code of the fault whose line it has."""
    found = re.match(rb"HTTP/1.1 (\d+) .*?\r\n\r\n(?:([CENPSZ]\d+) )?", reply, re.DOTALL)
    return [word.decode() for word in found.groups() if word]


def of_requests(program, name, server, commands, requests):
    """The comparisons of requests to an archive that was given commands, and of the tables that they leave."""
    asked = asked_of(server, ((shown(number, one), one) for number, one in enumerate(requests, 1)))
    found = of_asked(program, name, commands, asked, server)
    for comparison, one in itertools.zip_longest(found, asked):
        yield Tried(*comparison, answers_of_reply(one.replies[0]) if one else [])


# All


def of_seed(program, kind, seed):
    """The comparisons of a seed's inputs of a kind."""
    name = f"{kind}, seed {seed}"
    if kind == CARDS:
        return of_files(program, name, mutated_inputs.Files(seed).files())
    if kind == REQUESTS:
        maker = mutated_inputs.Requests(seed)
        return of_requests(program, name, maker.server, [], maker.requests_in_turn())
    maker = {CSV: mutated_inputs.Texts, LINES: mutated_inputs.Lines}[kind](seed)
    return of_lines(program, name, maker.office, maker.lines_in_turn())


def of_kept(program, kind, number):
    """The comparisons of an input that is kept."""
    _, given, note = KEPT[number]
    name = f"{kind}, kept, {note}"
    if kind == CARDS:
        return of_files(program, name, [(given, part, given) for part in slow_archive.PARTS])
    if kind == REQUESTS:
        commands = [(["register"], ANNA), (["import", "both"], DAY)]
        return of_requests(program, name, server_after(commands), commands, [given])
    words, _, rest = given.partition(b"\n")
    others = [(["register", PATH], given), (["enter", PATH, "17"], given)] if kind == CSV else [(words.decode().split(" "), rest)]
    lines = [(["register", PATH], ANNA), (["import", PATH, "both"], DAY), *others]
    return of_lines(program, name, slow_office.Office(), lines)


def of_question(question):
    """The kind of a question, and its comparisons. That it comes to no end is one which fails."""
    function, program, kind, number = question
    found = []
    try:
        for one in function(program, kind, number):
            found.append(one if one.told != one.wanted else one._replace(name="", told=True, wanted=True))
    except Exception as fault:  # whatever it is, the other questions are asked
        found.append(Tried(f"{kind}, {number}: the end", repr(fault), None, []))
    return kind, found


def rounds(program, asked):
    """The questions, in lists that are asked one after the other."""
    if asked.seed is not None:
        yield [(of_seed, program, asked.kind, asked.seed)]
        return
    yield [(of_kept, program, kind, number) for number, (kind, *_) in enumerate(KEPT)]
    if asked.seconds is None:
        yield [(of_seed, program, kind, seed) for seed in range(SEEDS) for kind in ANSWERS]
        return
    first, last = asked.first, time.monotonic() + asked.seconds
    while time.monotonic() < last:
        yield [(of_seed, program, kind, seed) for seed in range(first, first + STEP) for kind in ANSWERS]
        first += STEP
    print(f"seeds: {asked.first} to {first - 1}")


def comparisons(program: str, asked: argparse.Namespace) -> counting.Comparisons:
    program = os.path.abspath(program)
    counts, answers = collections.Counter(), {kind: collections.Counter() for kind in ANSWERS}
    with multiprocessing.Pool(asked.processes) as pool:
        for questions in rounds(program, asked):
            for kind, found in pool.imap(of_question, questions):
                for one in found:
                    counts[kind] += bool(one.answers)
                    answers[kind].update(one.answers)
                    yield one[:3]
        pool.close()
        pool.join()
    if asked.seconds is not None:
        for kind in ANSWERS:
            told = [f"{answer} {count}" for answer, count in answers[kind].most_common()]
            print(f"{kind}: {counts[kind]}", f"({', '.join(told)})")
    elif asked.seed is None and SEEDS == ALL_SEEDS:
        for kind, wanted in ANSWERS.items():
            yield f"{kind}: answers that didn't come", [answer for answer in wanted.split() if answer not in answers[kind]], []


def arguments() -> argparse.Namespace:
    """The arguments of the command line."""
    reader = argparse.ArgumentParser()
    reader.add_argument("program")
    reader.add_argument("--first", type=int, default=SEEDS)
    reader.add_argument("--seconds", type=int)
    reader.add_argument("--processes", type=int, default=2)
    reader.add_argument("--kind", choices=ANSWERS, default=CARDS)
    reader.add_argument("--seed", type=int)
    return reader.parse_args()


if __name__ == "__main__":
    ASKED = arguments()
    sys.exit(counting.count(comparisons(ASKED.program, ASKED)))
