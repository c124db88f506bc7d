#!/usr/bin/env python3
"""Types what docs/OFFICE.md says is to be typed, block by block, and compares what it prints, and what the page says in prose, with what
the page promises. A block is a run of indented lines. Nothing else is typed: one block leaves the folder and the umask to the next, and a
block of CSV is saved under the name that the page gives it. Beside the page the office has card files alone. What the page says of other
offices and of mistakes is tried on archives that are thrown away. The blocks of the service have `systemctl` and its like pretended, and
their folders below a temporary one: the service's command is the one of examples/tacho.service. What README.md shows of the tour is
compared with examples/tour.expected, and the edit that it names with the code.

Argument: the program. The last line is 'N passed, M failed'."""
import contextlib
import hashlib
import os
import re
import shutil
import signal
import socket
import sqlite3
import subprocess
import sys
import tempfile
import time

from inputs.random_commands import hours_csv
from lib import counting, files, old_archive, tars, units
from lib.archive import tables
from lib.files import EXAMPLES, TOP, read
from lib.office_rows import ANNA, CREW_DAY, DAY, HOLDER, OTHER_DAY
from lib.proxy import OPENED, Proxy

KEY = "office-key-1"
ANNA_KEY = "G7wq2LmXv9RkT4bZc8Nd"  # as in the page
ROW = re.compile(r"^\| (.*) \|$", re.MULTILINE)

# `systemctl start` and `stop` do what the unit says; of others nothing is wanted. `install` gives nobody else a file.
SYSTEMCTL = """#!/bin/sh
unit=$ROOT/etc/systemd/system/tacho.service
command() { sed -n "s/^$1=-*//p" "$unit"; }
case $* in
"start tacho" | "enable --now tacho")
    kill -0 "$(cat "$ROOT/pid")" 2>/dev/null && exit
    eval "exec $(command ExecStart)" >"$ROOT/journal" 2>&1 <"$(command StandardInput | sed 's/^file://')" &
    echo $! >"$ROOT/pid"
    tries=0
    until curl -s -o /dev/null http://127.0.0.1:$PORT/ || [ $((tries += 1)) -gt 200 ]; do sleep 0.05; done
    ;;
"stop tacho")
    kill "$(cat "$ROOT/pid")"
    while kill -0 "$(cat "$ROOT/pid")" 2>/dev/null; do sleep 0.05; done
    eval "$(command ExecStopPost)" >/dev/null 2>&1
    :
    ;;
esac
"""
INSTALL = """#!/bin/sh
arguments=
while [ $# -gt 0 ]; do
    case $1 in
    -o | -g) shift ;;
    *) arguments="$arguments $1" ;;
    esac
    shift
done
exec $REAL_INSTALL -D $arguments
"""
RUNUSER = """#!/bin/sh
shift 3
exec "$@"
"""


# In the place of `curl`, where that isn't installed: the options that the page uses.
CURL = """#!/usr/bin/env python3
import http.client, sys, urllib.parse
fields, method, body, output, shown, address, words = {}, None, None, None, "", None, iter(sys.argv[1:])
for word in words:
    if word == "-H":
        field = next(words)
        field = open(field[1:]).read() if field.startswith("@") else field
        name, _, value = field.partition(":")
        fields[name] = value.strip()
    elif word == "-X":
        method = next(words)
    elif word == "--data-binary":
        given = next(words)
        body = open(given[1:], "rb").read() if given.startswith("@") else given.encode()
    elif word == "-o":
        output = next(words)
    elif word == "-w":
        shown = next(words)
    elif not word.startswith("-"):
        address = urllib.parse.urlsplit(word)
try:
    asked = http.client.HTTPConnection(address.netloc, timeout=40)
    asked.request(method or ("GET" if body is None else "POST"), address.path or "/", body, fields)
    reply = asked.getresponse()
    given = reply.read()
except OSError:
    sys.exit(7)
with open(output, "wb") if output else open(1, "wb", closefd=False) as file:
    file.write(given)
print(shown.replace("%{http_code}", str(reply.status)).replace("\\\\n", "\\n"), end="")
"""


def page():
    with open(os.path.join(TOP, "docs", "OFFICE.md"), encoding="utf-8") as file:
        return file.read()


def blocks_of(text):
    """The runs of indented lines of a text, without their indents."""
    found = []
    for run in re.findall(r"(?:^(?: {4}| {7})\S.*\n(?:^ {4}.*\S.*\n)*)", text, re.MULTILINE):
        indent = re.match(" +", run)[0]
        found.append("".join(line.removeprefix(indent) for line in run.splitlines(keepends=True)))
    return found


def free_port():
    with socket.socket() as one:
        one.bind(("127.0.0.1", 0))
        return one.getsockname()[1]


class Office:
    """A shell in which the blocks of the page are typed. It begins in the folder of the program."""

    def __init__(self, program, folder):
        self.program = os.path.abspath(program)
        self.root = folder
        self.sources = os.path.join(folder, "mansulip")
        self.folder = self.sources
        self.umask = "022"
        self.port = free_port()
        self.left = blocks_of(page())
        os.makedirs(os.path.join(folder, "bin"))
        self.unpack()
        pretended = {"systemctl": SYSTEMCTL, "install": INSTALL, "runuser": RUNUSER, "useradd": "#!/bin/sh\n"}
        if not shutil.which("curl"):
            pretended["curl"] = CURL
        for name, text in pretended.items():
            path = os.path.join(folder, "bin", name)
            with open(path, "w", encoding="utf-8") as file:
                file.write(text)
            os.chmod(path, 0o755)
        home = os.path.join(folder, "home")
        os.makedirs(home)
        self.environment = dict(os.environ, PATH=f"{folder}/bin:{home}/.local/bin:{os.environ['PATH']}", HOME=home, ROOT=folder,
                                PORT=str(self.port), REAL_INSTALL=shutil.which("install"))

    def unpack(self):
        """Makes the folder of the program, with what the page uses of it."""
        os.makedirs(os.path.join(self.sources, "crates/tacho/out"))
        shutil.copy(self.program, os.path.join(self.sources, "crates/tacho/out/tacho"))
        os.symlink("crates/tacho/out/tacho", os.path.join(self.sources, "tacho"))
        examples = os.path.join(self.sources, "examples")
        shutil.copytree(EXAMPLES, examples)
        for name in os.listdir(examples):
            if name.endswith((".service", ".timer")):
                with open(os.path.join(examples, name), "r+", encoding="utf-8") as file:
                    text = self.here(file.read())
                    file.seek(0)
                    file.write(text)

    def path(self, name):
        return os.path.join(self.folder, name)

    def write(self, name, given):
        os.makedirs(os.path.dirname(self.path(name)), exist_ok=True)
        with open(self.path(name), "wb") as file:
            file.write(given if isinstance(given, bytes) else given.encode())

    def read(self, name):
        with open(self.path(name), "rb") as file:
            return file.read().decode()

    def block(self, beginning):
        """The first block that begins so and that wasn't asked for."""
        block = next(block for block in self.left if block.startswith(beginning))
        self.left.remove(block)
        return block

    def here(self, text):
        """A text of the page with the machine's folders and the port in this one's place."""
        for folder in ("/var/lib/", "/var/backups/", "/etc/", "/usr/local/bin/", "/usr/local/lib/", "/usr/local/share/"):
            text = text.replace(folder, f"{self.root}{folder}")
        return text.replace("8017", str(self.port)).replace(f"{self.root}/dev", "/dev")

    def type(self, text):
        """What is printed of commands of the page that are typed, and their status. Folder and umask are those that the commands before
        have left."""
        shell = os.path.join(self.root, "shell")
        told = self.run(f"umask {self.umask}\n{self.here(text)}\n{{ pwd; umask; }} >{shell}")
        if os.path.exists(shell):
            with open(shell, encoding="utf-8") as file:
                self.folder, self.umask = file.read().splitlines()
            os.remove(shell)
        return told

    def run(self, text):
        """What is printed of commands on this machine's folders, and their status."""
        run = subprocess.run(["sh", "-ec", text], cwd=self.folder, env=self.environment, stdin=subprocess.DEVNULL,
                             stdout=subprocess.PIPE, stderr=subprocess.DEVNULL)
        return run.stdout.decode(), run.returncode

    def save(self, beginning):
        """Saves a block under the name that is the last one before it on the page."""
        block = self.block(beginning)
        before = page().partition("    " + block.partition("\n")[0] + "\n    " + block.splitlines()[1])[0]
        name = re.findall(r"`([\w-]+\.csv)`", before)[-1]
        self.write(name, block)
        return block

    def told(self, *words, given=b""):
        """What the program prints."""
        run = subprocess.run([self.program, words[0], self.path("archive.db"), *words[1:]], input=given, capture_output=True)
        return run.stdout.decode()

    def end(self):
        """Ends the service where a comparison before has left it."""
        with contextlib.suppress(OSError, ValueError):
            with open(os.path.join(self.root, "pid"), encoding="utf-8") as file:
                os.kill(int(file.read()), signal.SIGKILL)

    def told_by_key(self, path):
        """What the server replies to the driver."""
        ask = ["curl", "-sS", "-H", f"x-key: {ANNA_KEY}", f"http://127.0.0.1:{self.port}{path}"]
        return subprocess.run(ask, capture_output=True, env=self.environment).stdout.decode()

    def typed(self, beginning, printed, status=0):
        """The comparison of a block that is typed."""
        block = self.block(beginning)
        return block.splitlines()[0], self.type(block), (printed, status)

    def typed_there(self, beginning, printed):
        """The same of a block that is typed in the folder of the program."""
        folder, self.folder = self.folder, self.sources
        told = self.typed(beginning, printed)
        self.folder = folder
        return told


def mode(path):
    return os.stat(path).st_mode & 0o777


def driver_like_anna(number, key, digit):
    """The CSV of another driver with Anna's base: the number, the key, and the last digit of the holder."""
    return ANNA.replace(b"17,", b"%d," % number).replace(b"anna-key-1", key).replace(HOLDER.encode(), (HOLDER[:-1] + digit).encode())


@contextlib.contextmanager
def undone(office):
    """What is done to the archive meanwhile is undone."""
    for name in ("archive.db", "archive.db-wal"):
        shutil.copy(office.path(name), office.path(name.replace("archive", "before")))
    yield
    for name in ("archive.db", "archive.db-wal"):
        shutil.move(office.path(name.replace("archive", "before")), office.path(name))


@contextlib.contextmanager
def elsewhere(office, name):
    """What is done meanwhile is done in another folder."""
    folder = office.folder
    office.folder = os.path.join(office.root, name)
    os.makedirs(office.folder)
    yield
    office.folder = folder


@contextlib.contextmanager
def another_archive(office, name):
    """What is done meanwhile is done at another archive, which has Anna and no hours."""
    with elsewhere(office, name):
        told = office.told("init") + office.told("register", given=ANNA)
        if told != "created\nregistered 17\n":
            raise RuntimeError(told)
        yield


def beginnings(office):
    """The program in the shell, an archive, a driver, their first file, and their base."""
    yield office.typed("mkdir -p ~/.local/bin", "")
    yield "the program", office.type("tacho version")[0].startswith("tacho "), True
    yield office.typed("umask 077\nmkdir ~/archive", "created\n")
    yield "who may read the folder and the file", [mode(office.path(name)) for name in (".", "archive.db")], [0o700, 0o600]
    office.write("anna.ddd", DAY)
    yield office.typed("tacho holder < anna.ddd", f"{HOLDER}\n")
    driver = office.save("driver,holder,key,base,name\n17")
    yield "the holder of the page", driver.splitlines()[1].split(",")[1], HOLDER
    yield office.typed("tacho register archive.db < anna.csv", "registered 17\n")
    yield office.typed("tacho import archive.db both < anna.ddd", "added driver 17 number 1\n")
    yield office.typed("tacho gaps archive.db 17 2024-02", "2024-02-01 00:00 2024-03-01 00:00\n"
                       "2024-03-01 00:00 2024-03-04 00:00\n2024-03-04 17:00 2024-03-05 00:00\n2024-03-05 08:00 2024-04-01 00:00\n")
    yield "a base that isn't held", office.told("breaches", "17"), "EXAMINED TO 2024-01-01 00:00 unknown\n"
    yield office.typed("tacho base archive.db 17 2024-03-04", "base 2024-03-04\n")
    yield "the list of drivers", office.told("drivers"), f"17 {HOLDER} 2024-03-04 1 0 Anna Berg\n"


# A folder of files: the endings that the page has, in small letters and in capitals, and others.
DOWNLOADS = {
    "a.ddd": DAY, "b.DDD": OTHER_DAY, "c.C1B": DAY, "d.c1b": DAY, "e.TGD": DAY, "f.tgd": DAY, "g.ESM": DAY, "h.esm": DAY,
    "i.txt": b"", "j.ddd.bak": b"",
}
FOLDER = "tacho import archive.db both downloads"
FOLDER_LOOP = "refused=0\nfor file in downloads/"


def folder_text(names, repeated=""):
    """What is printed of the files with these names, each of which is repeated, but for that of the other day. Before how many were refused
    the command says how many were added and repeated."""
    lines = {name: "S6 contradiction at 2024-03-04 08:00" if DOWNLOADS[name] == OTHER_DAY else "repeated driver 17" for name in names}
    refused = sum(line.startswith("S6") for line in lines.values())
    return "".join(f"downloads/{name}: {line}\n" for name, line in lines.items()) + f"{repeated}{refused} refused\n", int(refused > 0)


def weeks(office):
    """A folder of files, the gaps, and what is entered into them."""
    for name, given in DOWNLOADS.items():
        office.write(f"downloads/{name}", given)
    yield office.typed("tacho import archive.db both < anna.ddd", "repeated driver 17\n")
    block = next(block for block in office.left if block.startswith(FOLDER))
    yield office.typed(FOLDER, *folder_text(list(DOWNLOADS)[:8], "0 added, 7 repeated, "))
    yield "which files are kept", office.told("drivers") + office.told("file", "17", "2"), \
        f"17 {HOLDER} 2024-03-04 1 0 Anna Berg\nS10 unknown download\n"
    with elsewhere(office, "empty"):
        os.mkdir(office.path("downloads"))
        yield "a folder without files", office.type(block), ("", 2)
    yield office.typed("tacho form archive.db 17 > form-17.csv\n", "")
    yield "the form", office.read("form-17.csv"), "start,past,activity,author,note\n2024-03-04 17:00,2024-03-05 00:00,,,\n"
    yield office.typed("tacho overview archive.db 2024-03", "")
    yield "the overview", office.read("overview-2024-03.csv"), office.told("overview", "2024-03")
    yield "a driver's row", office.read("overview-2024-03.csv").splitlines()[1], "17,Anna Berg,960,0,30,510,0,43140,1020,1" + 9 * ",0"
    yield "the incidents", office.read("incidents-2024-03.csv"), office.told("incidents", "2024-03")
    yield from crews(office)
    yield from mornings(office)
    yield from twins(office)
    office.save("start,past,activity\n2024-03-09")
    yield office.typed("tacho enter archive.db 17 < hours.csv", "entered 1 to 2\n")
    office.save("start,past,activity,author,note\n2024-03-16")
    listed = office.block('1 2024-03-09 00:00 2024-03-11 00:00 rest kept "office" ""\n2 2024-03-11')
    yield office.typed("tacho enter archive.db 17 < signed.csv", f"entered 3 to 4\n{listed}")
    yield from forms(office)
    corrected = office.save("start,past,activity,author,note\n2024-03-11 06:00")
    yield "the corrected hours", len(corrected.splitlines()), 3
    yield office.typed("tacho entries archive.db 17\ntacho withdraw", office.told("entries", "17") + "withdrawn 2\nentered 11 to 12\n")
    yield "no gap is left by the correction", office.told("form", "17"), "start,past,activity,author,note\n"


def twins(office):
    """Hours that are entered twice."""
    listed = office.block('1 2024-03-09 00:00 2024-03-11 00:00 rest kept "office" ""\n2 2024-03-09')
    free = "start,past,activity\n2024-03-09 00:00,2024-03-11 00:00,rest\n"
    with another_archive(office, "twins"):
        for number in (1, 2):
            yield f"twin {number}", office.told("enter", "17", given=free.encode()), f"entered {number} to {number}\n"
        yield "the twins of the page", office.told("entries", "17"), listed
        work = free.replace("rest", "work").encode()
        yield "a twin withdrawn", office.told("withdraw", "17", "1") + office.told("enter", "17", given=work), \
            "withdrawn 1\nS6 contradiction at 2024-03-09 00:00\n"
        yield "both withdrawn", office.told("withdraw", "17", "2") + office.told("enter", "17", given=work), "withdrawn 2\nentered 3 to 3\n"


def crews(office):
    """A day with a second driver: no entry fills it, and the examination begins anew at the next Monday."""
    with elsewhere(office, "crew"):
        told = office.told("init") + office.told("register", given=ANNA.replace(b"2024-03-04", b"2024-02-26"))
        hours = b"start,past,activity\n2024-02-26 00:00,2024-02-26 06:00,rest\n2024-02-26 06:00,2024-02-26 10:31,drive\n" \
            b"2024-02-26 10:31,2024-03-04 00:00,rest\n2024-03-11 00:00,2024-03-12 00:00,rest\n"
        told += office.told("enter", "17", given=hours) + office.told("import", "both", given=CREW_DAY)
        yield "a week, and a day with a second driver", told, "created\nregistered 17\nentered 1 to 4\nadded driver 17 number 1\n"
        for activity in ("drive", "work", "available", "rest"):
            row = f"start,past,activity\n2024-03-04 08:30,2024-03-04 17:00,{activity}\n".encode()
            yield f"{activity} by hand", office.told("enter", "17", given=row), "S6 contradiction at 2024-03-04 08:30\n"
        yield "the same of the page", page().count("`S6 contradiction at 2024-03-04 08:30`"), 1
        yield "the stretches of the page", office.told("stretches", "17"), office.block("FROM 2024-02-26")
        yield "the base that isn't moved", office.told("drivers"), f"17 {HOLDER} 2024-02-26 1 4 Anna Berg\n"


# Monday, 4 March 2024, in minutes.
MONDAY = 19_786 * 1440


def rows_of(done):
    """The hours of what was done from that Monday on, with rest between: the days are of March, and the hours of the day."""
    rows, place = [], MONDAY
    for day, start, past, activity in done:
        start, past = (MONDAY + 1440 * (day - 4) + round(60 * hour) for hour in (start, past))
        rows += [(place, start, "rest")] if place < start else []
        rows.append((start, past, activity))
        place = past
    return rows


# Three long days from that Monday, 4 March 2024, each after a reduced daily rest, and the morning of the fourth: hours of the day.
LONG_DAYS = [*[(day, 6, 21, "work") for day in (4, 5, 6)], (7, 6, 12, "work")]


# A driver of whom nothing is held.
BERT = b"driver,holder,key,base,name\n18,0d4431323334353637383930313234,bert-key-1,2024-03-04,Bert Falk\n"


def mornings(office):
    """How all drivers stand, their forecasts, and what is reported once one has driven on up to the first limit, and a minute more."""
    with another_archive(office, "mornings"):
        rows = rows_of(LONG_DAYS)
        yield "three long days", office.told("enter", "17", given=hours_csv(rows)), f"entered 1 to {len(rows)}\n"
        forecast = office.block("FROM 2024-03-04\nEXAMINED TO 2024-03-07 12:00")
        yield office.typed("tacho ahead archive.db 17", forecast)
        yield "a driver of whom nothing is held", office.told("register", given=BERT), "registered 18\n"
        yield office.typed("tacho standing archive.db 2024-03", "")
        yield "how the drivers of the page stand", office.read("standing-2024-03.csv"), office.block("driver,name,files,held")
        yield office.typed("tacho forecast archive.db 2024-03-07", "")
        yield "the forecasts of the page", office.read("forecast.csv"), office.block("driver,name,from,held")
        yield "the first limit of the page", "\nB1 Art 7 until 2024-03-07 16:30 left 4:30\n" in forecast, True
        for past, told in (("16:30", []), ("16:31", ["B1 Art 7 at 2024-03-07 16:30 since 2024-03-07 12:00 amount 1\n"])):
            number = office.told("entries", "17").count("\n") + 1
            row = f"start,past,activity\n2024-03-07 12:00,2024-03-07 {past},drive\n".encode()
            yield f"driving up to {past}", office.told("enter", "17", given=row), f"entered {number} to {number}\n"
            yield f"what is reported at {past}", office.told("breaches", "17").splitlines(keepends=True)[:-1], told
            office.told("withdraw", "17", str(number))


def forms(office):
    """The form for the gaps, filled in and entered."""
    form = office.block("start,past,activity,author,note\n2024-03-04 17:00,2024-03-05 00:00,,,")
    yield "the form of the page", office.told("form", "17"), form
    *before, last = form.splitlines(keepends=True)
    yield "the last gap of the page", last[:16], "2024-03-18 00:00"
    yield office.typed("tacho form archive.db 17 2024-03-18", "".join(before))
    yield office.typed("tacho form archive.db 17 > form-17.csv\nsed", "")
    yield "the form with the author", office.read("filled-17.csv"), form.replace(",,,\n", ",,Eva Lund,\n")
    yield "the form with the author alone", office.told("enter", "17", given=office.read("filled-17.csv").encode()), \
        "E6 no such activity in row 2\n"
    office.save("start,past,activity,author,note\n2024-03-04 17:00")
    yield office.typed("tacho enter archive.db 17 < filled-17.csv", "entered 5 to 10\n")
    with undone(office):
        told = [office.told("withdraw", "17", *numbers) for numbers in (["10"], ["5", "10"], ["5", "9"])]
        yield "the form withdrawn", told, ["withdrawn 10\n", "S8 already withdrawn\n", "withdrawn 5 to 9\n"]
        yield "the form after it", office.told("form", "17"), form
    told = office.told("form", "17") + office.told("breaches", "17").splitlines(keepends=True)[-1]
    yield "no gap is left", told, "start,past,activity,author,note\nEXAMINED TO 2024-03-18 14:00 unknown\n"
    for given, line in ((",,,", "E6 no such activity in row 2\n"), (",rest,,", "E10 bad author in row 2\n")):
        row = f"start,past,activity,author,note\n2024-04-26 15:00,2024-04-27 00:00{given}\n".encode()
        yield f"a row that ends in {given}", office.told("enter", "17", given=row), line


# What the first column of the table of spreadsheets says, as rows after the head.
SPREADSHEETS = {
    "semicolons between the fields": b"start;past;activity\n2024-03-11 06:00;2024-03-11 14:00;work\n",
    "UTF-16 ('Unicode text')": "start,past,activity\n2024-03-11 06:00,2024-03-11 14:00,work\n".encode("utf-16"),
    "a head in capitals, with blanks or with a fourth column": b"Start,Past,Activity\n2024-03-11 06:00,2024-03-11 14:00,work\n",
    "`6:00` instead of `06:00`": b"start,past,activity\n2024-03-11 6:00,2024-03-11 14:00,work\n",
    "seconds, as date cells are exported: `2024-03-11 06:00:00`": b"start,past,activity\n2024-03-11 06:00:00,2024-03-11 14:00:00,work\n",
    "`09/03/2024 06:00`, or a day in any other order": b"start,past,activity\n11/03/2024 06:00,11/03/2024 14:00,work\n",
    "`24:00`": b"start,past,activity\n2024-03-11 06:00,2024-03-11 24:00,work\n",
    "an empty row at the end, saved as `,,`": b"start,past,activity\n2024-03-11 06:00,2024-03-11 14:00,work\n,,\n",
    "a row with nothing but a blank": b"start,past,activity\n2024-03-11 06:00,2024-03-11 14:00,work\n \n",
    "`Rest`, or `rest` with a blank after it": b"start,past,activity\n2024-03-11 06:00,2024-03-11 14:00,Rest\n",
    "a row whose author is empty": b"start,past,activity,author,note\n2024-03-11 06:00,2024-03-11 14:00,work,,course\n",
    "a note with a comma or a quote in it, saved as `\"day off, roster of March\"`":
        b'start,past,activity,author,note\n2024-03-11 06:00,2024-03-11 14:00,rest,Eva Lund,"day off, roster of March"\n',
    "Latin-1 ('ANSI', 'Western European'), with a letter beyond a to z in an author, as `Jörg`":
        "start,past,activity,author,note\n2024-03-11 06:00,2024-03-11 14:00,work,Jörg,\n".encode("latin-1"),
    "the same in a note, as `Besuch in Gävle`":
        "start,past,activity,author,note\n2024-03-11 06:00,2024-03-11 14:00,work,Eva Lund,Besuch in Gävle\n".encode("latin-1"),
}

# What does no harm, and a second form of some of them.
HARMLESS = {
    "a byte order mark": b"\xef\xbb\xbfstart,past,activity\n2024-03-12 06:00,2024-03-12 14:00,work\n",
    "quotes": b'start,past,activity\n"2024-03-12 06:00","2024-03-12 14:00","work"\n',
    "CR LF": b"start,past,activity\r\n2024-03-12 06:00,2024-03-12 14:00,work\r\n",
    "a line without any byte": b"start,past,activity\n2024-03-12 06:00,2024-03-12 14:00,work\n\n",
}


def spreadsheets(office):
    """Each row of the table of what spreadsheets do, and each of its commands, on a file that was saved so."""
    with another_archive(office, "spreadsheets"):
        yield from saved_hours(office)


def saved_hours(office):
    """The same, at an archive without hours."""
    table = page().partition("### Out of a spreadsheet")[2].partition("\n\n")[2].partition("\n\n")[0]
    rows = [row.split(" | ") for row in ROW.findall(table)][1:]
    yield "the rows of the table", [row[0] for row in rows], list(SPREADSHEETS)
    for did, line, _ in rows:
        yield f"a spreadsheet with {did}", office.told("enter", "17", given=SPREADSHEETS.get(did, b"")), line.strip("`") + "\n"
    commands = [(did, command) for did, _, remedy in rows for command in re.findall("`((?:sed|iconv) [^`]*)`", remedy)]
    yield "which rows have a command", [did.split(" ")[0] for did, _ in commands], ["semicolons", "UTF-16", "seconds,", "Latin-1"]
    for number, (did, command) in enumerate(commands, 1):
        office.write("saved.csv", SPREADSHEETS[did])
        office.run(command)
        yield f"{did}, mended", office.told("enter", "17", given=office.read("hours.csv").encode()), f"entered {number} to {number}\n"
    yield "an author in Latin-1, mended", '"Jörg"' in office.told("entries", "17"), True
    for number, (name, given) in enumerate(HARMLESS.items(), 1 + len(commands)):
        yield name, office.told("enter", "17", given=given), f"entered {number} to {number}\n"
    name = ANNA.replace(b"17,", b"16,").replace(b"Anna", "Jörg".encode("latin-1"))
    yield "a driver's name in Latin-1", office.told("register", given=name), "E9 bad value for name\n"


def months(office):
    """A month's sheet and chart; a sheet of which nothing was examined; and the month asked for again."""
    yield office.typed("tacho sheet archive.db 17 2024-03", office.told("debts", "17"))
    yield "the sheet", office.read("anna-2024-03.txt"), office.told("sheet", "17", "2024-03")
    yield "the spans", office.read("anna-2024-03.csv"), office.told("spans", "17", "2024-03")
    yield office.typed("tacho chart archive.db 17 2024-03", "")
    yield "the chart", office.read("anna-2024-03.svg"), office.told("chart", "17", "2024-03")
    shown = office.block("2024-03-04 Mon")
    with another_archive(office, "long days"):
        yield from long_days(office, shown)
    yield office.typed("tacho incidents archive.db 2024-03 > incidents-2024-03.new", "")


def long_days(office, shown):
    """The sheet of a driver who drove long days, of which nothing is examined."""
    day = [(0, 360, "rest"), (360, 1050, "drive"), (1050, 1440, "rest")]
    rows = [(1440 * number + start, 1440 * number + past, what) for number in range(19_787, 19_814) for start, past, what in day][:-1]
    yield "long days", office.told("enter", "17", given=hours_csv(rows)), f"entered 1 to {len(rows)}\n"
    sheet = office.told("sheet", "17", "2024-03").splitlines(keepends=True)
    front, _, back = shown.partition("...\n")
    yield "the sheet of the page", "".join([*sheet[6:9], *sheet[-2:]]), front + back
    yield "what is told of long days", [line for line in sheet if re.match("B[0-9]", line)], []


def changes(office):
    """A renewed card; another holder, to whom hours go; and a new archive for the next year."""
    with undone(office):
        yield "a renewed card", office.told("register", given=ANNA.replace(b"17,", b"18,").replace(b"anna-key-1", b"anna-key-2")), \
            "S3 holder taken\n"
    driver = office.save("driver,holder,key,base,name\n18")
    holder = driver.splitlines()[1].split(",")[1]
    yield "a card with another holder", \
        office.told("import", "both", given=DAY.replace(bytes.fromhex(HOLDER), bytes.fromhex(holder))), "S4 unknown driver\n"
    count = len(office.told("spans", "17", "2024-03").splitlines()) - 1
    yield office.typed("tacho register archive.db < anna-2.csv", f"registered 18\nentered 1 to {count}\n")
    yield "what the new number holds", office.told("spans", "18", "2024-03"), office.told("spans", "17", "2024-03")
    folder = office.folder
    shutil.copytree(folder, os.path.join(office.root, "next year"))
    office.folder = os.path.join(office.root, "next year")
    yield from next_year(office)
    office.folder = folder


def next_year(office):
    """A new archive: of a driver with a card file of December, and of those who have nothing, beside others whose hours end before November."""
    number = len(office.told("files", "17").splitlines()) + 1
    yield "a card file of December", office.told("import", "both", given=later(DAY, 275)), f"added driver 17 number {number}\n"
    lines = [line.split(" ", 5) for line in office.told("drivers").splitlines()]
    kept = [line for line in lines if line[0] == "17" or line[3:5] == ["0", "0"]]
    file = office.told("files", "17").splitlines()[-1].split(" ", 1)[1]
    yield office.typed("tacho carry archive.db", f"carried {len(kept)} of {len(lines)} drivers\n")
    before = office.told("drivers")
    yield office.typed("mkdir 2024", "sound\n")
    yield "what is kept of the old year", sorted(os.listdir(office.path("2024"))), ["archive.db", "archive.db-wal", "downloads"]
    yield "the old archive", before, "".join(f"{' '.join(line)}\n" for line in lines)
    later_base = {"17": ["2024-11-04", "1", "0"]}
    wanted = [[*line[:2], *later_base.get(line[0], [max(line[2], "2024-11-04"), "0", "0"]), line[5]] for line in kept]
    yield "the new archive", office.told("drivers"), "".join(f"{' '.join(line)}\n" for line in wanted)
    yield "the driver's card file there", office.told("files", "17"), f"1 {file}\n"


def later(file, days):
    """A card file of 4 and 5 March 2024, some days later."""
    for moment in (1_709_510_400, 1_709_596_800):
        file = file.replace(moment.to_bytes(4, "big"), (moment + 86_400 * days).to_bytes(4, "big"))
    return file


def inspections(office):
    """What is written for an officer: of the card files those that cover a minute of March."""
    with undone(office):
        yield from inspection(office)


def inspection(office):
    """The same, with a card file of June beside those of March."""
    number = len(office.told("files", "17").splitlines()) + 1
    yield "a card file of June", office.told("import", "both", given=later(DAY, 91)), f"added driver 17 number {number}\n"
    yield office.typed("tacho handover archive.db 17", "")
    members = tars.members_of(read(office.path("17.tar")))
    lines = [line.split(" ") for line in office.told("files", "17").splitlines()]
    march = {digest for _, _, _, first, _, past, time, digest in lines if first < "2024-04" and f"{past} {time}" > "2024-03-01 00:00"}
    digests = {hashlib.sha256(content).hexdigest() for _, content in members[:-2]}
    yield "the card files are of March", digests - march, set()
    yield "whether some card files are of March and others aren't", 0 < len(digests) < len(lines), True
    entries = [line for line in office.told("entries", "17").splitlines(keepends=True) if " 2024-03-" in line]
    yield "the texts", [name for name, _ in members[-2:]], ["entries.txt", "contents.txt"]
    yield "the entries", members[-2][1].decode(), "".join(entries)
    named = [line.split(" ") for line in members[-1][1].decode().splitlines() if line.startswith("FILE ")]
    yield "the digests in contents.txt", named, [
        ["FILE", name, str(len(content)), hashlib.sha256(content).hexdigest()] for name, content in members[:-1]]


# What the page and docs/RULES.md say of a rest that is too short by ten minutes, and of leave: what was done from the same Monday. The
# 32nd of March is 1 April.
SHORT_REST = [
    (4, 6, 10, "drive"), (4, 10.75, 14.75, "drive"),
    (4, 23 + 35 / 60, 27 + 35 / 60, "drive"), (5, 4 + 20 / 60, 8 + 20 / 60, "drive"),
]
LEAVE = [
    (4, 0, 10, "work"), *[(day, 6, 16, "work") for day in (5, 6, 7, 8)],
    (10, 15, 24, "work"), (11, 10, 20, "work"), *[(day, 6, 16, "work") for day in (12, 13, 14)], (15, 6, 12, "work"),
    (30, 4, 14, "work"), *[(day, 6, 16, "work") for day in (31, 32, 33, 34)], (35, 6, 18, "work"), (40, 10, 20, "work"),
]


def letters(office):
    """The evidence for the breach that the letter is about."""
    yield office.typed("tacho why archive.db 17 2024-03", office.block("B1 Art 7 at 2024-03-04 13:00"))


def report_of(office, number, key, digit, done, last):
    """The breaches of a new driver who has done this, up to the end of a day of March."""
    rows = rows_of(done)
    rows.append((rows[-1][1], MONDAY + 1440 * (last - 3), "rest"))
    told = office.told("register", given=driver_like_anna(number, key, digit)) + office.told("enter", str(number), given=hours_csv(rows))
    yield f"the hours of driver {number}", told, f"registered {number}\nentered 1 to {len(rows)}\n"
    return office.told("breaches", str(number)).splitlines(keepends=True)[:-1]


def readings(office):
    """Lines that an officer may not write: of a rest that is a few minutes short, and around leave."""
    with another_archive(office, "readings"):
        yield from read_otherwise(office)


def read_otherwise(office):
    """The same, at an archive without hours."""
    told = yield from report_of(office, 20, b"dora-key-1", "7", SHORT_REST, 6)
    yield "a rest of 8 hours 50", "".join(told), office.block("B2 Art 8(2) at 2024-03-04 21:00")
    told = yield from report_of(office, 21, b"emil-key-1", "6", LEAVE, 41)
    yield "rests of 47, 352 and 112 hours", told, ["B9 Art 8(6) at 2024-04-08 00:00 since 2024-03-25 00:00 amount 0\n"]
    told = yield from report_of(office, 22, b"finn-key-1", "5", [(4, 6, 31, "work"), (5, 16, 17, "work")], 6)
    yield "a rest that begins after 25 hours", told, ["B2 Art 8(2) at 2024-03-04 21:00 since 2024-03-04 06:00 amount 600\n"]


def backups(office):
    """A backup and its restore; and what is none."""
    before = office.told("entries", "17")
    yield office.typed("umask 077\nmkdir -p backup", "")
    yield "who may read the backup", mode(office.path("backup/2024-04-01/archive.db")), 0o600
    yield "a change after it", office.told("withdraw", "17", "1"), "withdrawn 1\n"
    yield office.typed("rm -f archive.db-wal", "sound\n")
    yield "what is restored", office.told("entries", "17"), before
    for name, make in {
        ".backup": lambda one, path: one.backup(sqlite3.connect(path)),
        "VACUUM INTO": lambda one, path: one.execute("VACUUM INTO ?", (path,)),
    }.items():
        folder = office.path(f"stock{len(name)}")
        os.makedirs(folder)
        for file in ("archive.db", "archive.db-wal"):
            shutil.copy(office.path(file), folder)
        with contextlib.closing(sqlite3.connect(os.path.join(folder, "archive.db"))) as one:
            make(one, os.path.join(folder, "made.db"))
        run = subprocess.run([office.program, "entries", os.path.join(folder, "made.db"), "17"], capture_output=True)
        yield f"what {name} makes", (run.stdout, run.returncode), (b"S12 store failed\n", 3)
    with contextlib.closing(sqlite3.connect(os.path.join(folder, "archive.db"))) as one, one:
        one.execute("UPDATE drivers SET base = base + 7")
    run = subprocess.run([office.program, "entries", os.path.join(folder, "archive.db"), "17"], capture_output=True)
    yield "an archive after an UPDATE", (run.stdout, run.returncode), (b"S12 store failed\n", 3)


def soundness(office):
    """The check of the archive, and of one whose hours were changed."""
    block = next(block for block in office.left if block.startswith("tacho check"))
    yield office.typed("tacho check archive.db", "sound\n")
    folder = office.folder
    with elsewhere(office, "unsound"):
        for name in ("archive.db", "archive.db-wal"):
            shutil.copy(os.path.join(folder, name), office.path(name))
        with contextlib.closing(sqlite3.connect(office.path("archive.db"))) as one, one:
            one.execute("UPDATE held SET past = past - 1 WHERE driver = 17")
        old_archive.put_sums(office.path("archive.db"))
        yield "the check of an archive that isn't sound", office.type(block), (office.block("unsound 17 held"), 1)


def updates(office):
    """An archive of schema 1, which is migrated."""
    with elsewhere(office, "old"):
        old_archive.make(office.path("archive.db"), old_archive.example_rows())
        told = [office.told("entries", "17"), office.told("check"), office.told("serve", KEY, str(office.port), "1")]
        yield "an old archive", told, 3 * ["S13 old archive\n"]
        yield office.typed("tacho migrate archive.db", "migrated\n")
        yield "whether it is sound", office.told("check"), "sound\n"
        yield "its entries then", office.told("entries", "18"), \
            '1 2024-03-05 06:00 2024-03-05 14:00 work kept "office" ""\n2 2024-03-05 14:00 2024-03-06 06:00 rest withdrawn "office" ""\n'
        yield "a migration once more", office.told("migrate"), "migrated\n"


def secret_of(office):
    """The key of the driver, by the tables."""
    with tempfile.TemporaryDirectory() as aside:
        return tables(files.copied(office.path("archive.db"), aside))["drivers"][0][2]


def keys(office):
    """Another key for a driver, and one that nobody knows."""
    with undone(office):
        yield office.typed('(umask 077; echo "$(tr', "key 17\n")
        key = office.read("anna.key")
        yield "the file of the key", (re.fullmatch("[a-zA-Z0-9]{32}\n", key) is not None, mode(office.path("anna.key"))), (True, 0o600)
        yield "the driver's key", f"{secret_of(office)}\n", key
        yield office.typed("tr -dc a-zA-Z0-9 < /dev/urandom", "key 17\n")
        other = secret_of(office)
        yield "a key that nobody knows", (re.fullmatch("[a-zA-Z0-9]{32}", other) is not None, f"{other}\n" == key), (True, False)
        name = re.search('`(echo "Anna Lind"[^`]*)`', page())[1]
        yield "another name", office.type(name), ("name 17\n", 0)
        yield "the driver by their new name", office.told("drivers", "17").endswith(" Anna Lind\n"), True


def asked_month(office):
    """A month by requests: what is printed and what is saved are what the commands print of the same archive."""
    told = [office.told(*words.split()) for words in ("drivers", "stretches 17", "why 17 2024-03", "ahead 17 2024-03-07 12:00")]
    yield office.typed("curl -H @office.head -o overview.csv", "".join(told))
    for name, words in (("overview.csv", "overview 2024-03"), ("incidents.csv", "incidents 2024-03"), ("17.svg", "chart 17 2024-03")):
        yield f"{name} of the service", office.read(name), office.told(*words.split())


def asked_handovers(office):
    """What is handed over of each driver by a request is what the command writes."""
    yield office.typed("curl -s -H @office.head http://127.0.0.1:8017/drivers |", "")
    for line in office.told("drivers").splitlines():
        driver = line.split(" ")[0]
        command = [office.program, "handover", office.path("archive.db"), driver, "2024-03-01", "2024-04-01"]
        written = subprocess.run(command, capture_output=True).stdout
        yield f"{driver}.tar of the service", read(office.path(f"{driver}.tar")) == written, True


def asked_key(office):
    """Another key for a driver by a request, and then the one that they had."""
    yield office.typed("(umask 077; tr -dc a-zA-Z0-9 < /dev/urandom | head -c 32 > 17.key)", "key 17\n")
    key = office.read("17.key")
    yield "the file of the key by a request", (re.fullmatch("[a-zA-Z0-9]{32}", key) is not None, mode(office.path("17.key"))), (True, 0o600)
    ask = f"curl -sS -o /dev/null -w '%{{http_code}}' -H 'x-key: {key}' http://127.0.0.1:8017/me/owed"
    yield "the driver by their new key", office.type(ask), ("200", 0)
    again = f"printf {ANNA_KEY} | curl -sS -H @office.head --data-binary @- http://127.0.0.1:8017/drivers/17/key"
    yield "the key before", office.type(again), ("key 17\n", 0)


def asked_name(office):
    """Another name for a driver by a request, and then the one that they had."""
    ask = "curl -sS -H @office.head http://127.0.0.1:8017/drivers/17"
    before, _ = office.type(ask)
    yield office.typed("curl -H @office.head --data-binary 'Anna Lind'", "name 17\n")
    yield "the driver by their new name, by a request", office.type(ask), (before.replace("Anna Berg", "Anna Lind"), 0)
    again = "echo 'Anna Berg' | curl -sS -H @office.head --data-binary @- http://127.0.0.1:8017/drivers/17/name"
    yield "the name before", office.type(again), ("name 17\n", 0)


def services(office):
    """The service, by its unit: made, asked, backed up, and restored."""
    root = office.root
    yield office.typed_there("useradd", "created\n")
    yield office.typed("install -m 600 -o tacho -g tacho archive.db archive.db-wal", "")
    yield office.typed("install -d -m 700 /etc/tacho", "")
    key = os.path.join(root, "etc/tacho/key")
    with open(key, encoding="utf-8") as file:
        text = file.read()
    yield "the office's key", (re.fullmatch("[a-zA-Z0-9]{32}\n", text) is not None, mode(key)), (True, 0o600)
    yield office.typed_there("install -m 644 examples/tacho.service", "")
    sign = next(block for block in office.left if block.startswith("curl -s -o /dev/null"))
    yield office.typed("curl -s -o /dev/null", "403\n")
    yield "a command while it serves", office.type("/usr/local/bin/tacho entries /var/lib/tacho/archive.db 17"), ("S12 store failed\n", 3)
    yield office.typed("(umask 077; echo \"x-key:", "repeated driver 17\n")
    yield from asked_month(office)
    yield from asked_handovers(office)
    yield from asked_key(office)
    yield from asked_name(office)
    names = list(DOWNLOADS)[:8]
    loop = next(block for block in office.left if block.startswith(FOLDER_LOOP))
    yield office.typed(FOLDER_LOOP, *folder_text(names))
    for name in ("b.DDD", "g.ESM", "h.esm"):
        os.remove(office.path(f"downloads/{name}"))
        names.remove(name)
    yield "the same with no refusal", office.type(loop), folder_text(names)
    asked = "curl -sS -H @office.head http://127.0.0.1:8017/drivers/17/entries"
    before = office.type(asked)
    yield office.typed("umask 077\nsystemctl stop tacho", "")
    yield "a change after the copy", office.type(f"{asked[:-len('entries')]}withdraw/1 -X POST"), ("withdrawn 1\n", 0)
    yield office.typed("systemctl stop tacho\nrm -f", "")
    yield "what is served after the restore", office.type(asked), before
    yield from updated(office)
    yield office.typed_there("install -D -m 755 examples/tacho-backup.sh", "")
    made = os.path.join(root, "var/backups/tacho")
    places = {units.PLACE: root + units.PLACE, "/usr/bin/": "", "--no-block ": "", "/var/backups/tacho": made}
    environment = {**office.environment, "FROM": os.path.join(root, "var/lib/tacho"), "TO": made}
    yield "the commands of the backup's unit", units.play("tacho-backup.service", places, environment), 0
    named = office.type(office.block("cat /var/backups/tacho/last-good"))[0].strip()
    yield "what it has copied", sorted(os.listdir(os.path.join(made, named))), ["archive.db", "archive.db-wal"]
    yield "the service after it", office.type(sign), ("403\n", 0)
    yield office.typed_there("install -m 644 examples/nginx.conf", "")
    installed = os.path.join(root, "etc/nginx/conf.d/tacho.conf")
    yield "the configuration of nginx as it is installed", (read(installed), mode(installed)), \
        (read(os.path.join(EXAMPLES, "nginx.conf")), 0o644)
    if all(map(shutil.which, ("nginx", "openssl", "curl"))):
        yield from proxied(office)
    else:
        print("left out: the proxy, since nginx, openssl or curl isn't installed: apt install nginx-light openssl curl", flush=True)
    office.type("systemctl stop tacho")
    yield "the sign of life while it is down", office.type(sign)[1], 7
    yield from served_by_hand(office)


def updated(office):
    """The service at an archive of schema 1, and its update."""
    office.type("systemctl stop tacho")
    kept = os.path.join(office.root, "var/lib/tacho/archive.db")
    for path in (kept, kept + "-wal"):
        os.remove(path)
    old_archive.make(kept, old_archive.example_rows())
    yield "a service at an old archive", office.type("systemctl start tacho"), ("", 0)
    with open(os.path.join(office.root, "journal"), encoding="utf-8") as file:
        yield "what it says", file.read().splitlines()[:1], ["S13 old archive"]
    yield office.typed_there("umask 077\nsystemctl stop tacho\nmkdir -p backup/before-the-update", "migrated\n")
    kept_before = os.path.join(office.sources, "backup/before-the-update")
    yield "what is kept from before", sorted(os.listdir(kept_before)), ["archive.db", "archive.db-wal", "tacho"]
    told, status = office.type("curl -sS -H @office.head http://127.0.0.1:8017/drivers/17/entries")
    yield "what is served after the update", (told.splitlines()[:1], status), \
        (['1 2024-03-09 00:00 2024-03-11 00:00 rest withdrawn "office" ""'], 0)


def proxied(office: Office) -> counting.Comparisons:
    """The proxy of examples/nginx.conf, where nginx is installed: drivers' paths go through, the office's don't, and files of drivers
    only once uploads are open; and what the proxy answers by itself. The service is down at the end."""
    with Proxy(os.path.join(office.root, "shut"), free_port(), office.port) as proxy:
        yield from by_proxy(office, f"https://127.0.0.1:{proxy.port}", "with uploads shut", b"405")
    with Proxy(os.path.join(office.root, "open"), free_port(), office.port, [OPENED]) as proxy:
        address = f"https://127.0.0.1:{proxy.port}"
        yield from by_proxy(office, address, "with uploads open", b"repeated driver 17\n200")
        owed = f"{address}/me/owed"
        told = statuses(600, "-H", f"x-key: {ANNA_KEY}", owed)
        yield "who asks too often", (told[:150], sorted({*told})), (["200"] * 150, ["200", "429"])
        office.type("systemctl stop tacho")
        told = "429"
        while told == "429":
            time.sleep(0.5)
            told = status(owed)
        yield "the proxy while the service is down", told, "502"


def status(*options: str) -> str:
    """The status of the reply to a request."""
    run = subprocess.run(["curl", "-sk", "-o", "/dev/null", "-w", "%{http_code}", *options], capture_output=True)
    return run.stdout.decode()


def statuses(count: int, *options: str) -> list[str]:
    """The statuses of the replies to one request, sent again and again on one connection: the last option is its address."""
    words = ["curl", "-sk", "-w", "%{http_code}\n", *options[:-1], *["-o", "/dev/null", options[-1]] * count]
    return subprocess.run(words, capture_output=True).stdout.decode().split()


def by_proxy(office: Office, address: str, name: str, taken: bytes) -> counting.Comparisons:
    """Requests to a proxy. `taken` is the end of what it replies to a card file, and the status."""
    ask = ["curl", "-sk", "--retry", "20", "--retry-connrefused", "--retry-delay", "1", "-w", "%{http_code}", "-H", f"x-key: {ANNA_KEY}"]
    for path, wanted in [("/me/owed", office.told_by_key("/me/owed") + "200"), ("/drivers/17/owed", None), ("/office/", None)]:
        told = subprocess.run([*ask, f"{address}{path}"], capture_output=True).stdout.decode()
        yield f"{path} by the proxy {name}", told if wanted else told[-3:], wanted or "404"
    office.write("large.ddd", bytes(262_145))
    for file, wanted in [("anna.ddd", taken), ("large.ddd", b"413")]:
        told = subprocess.run([*ask, "--data-binary", f"@{office.path(file)}", f"{address}/me/cards/both"], capture_output=True).stdout
        yield f"{file} by the proxy {name}", told[-len(wanted):], wanted
    yield f"without a key by the proxy {name}", status(f"{address}/me/owed"), "403"


def served_by_hand(office):
    """`serve` and `listen` as they are typed."""
    office.write("office.key", f"{KEY}\n")
    ask = ["curl", "-s", "-H", f"x-key: {KEY}", f"http://127.0.0.1:{office.port}/drivers/17/owed"]
    for beginning in ("tacho serve archive.db KEY", "tacho listen archive.db"):
        block = office.block(beginning)
        text = re.sub(r" 1000\b", " 2", office.here(block).replace("KEY", KEY))
        server = subprocess.Popen(["sh", "-c", f"exec {text}"], cwd=office.folder, env=office.environment, stdout=subprocess.PIPE)
        told = []
        while len(told) < 2 and server.poll() is None:
            run = subprocess.run(ask, capture_output=True, env=office.environment)
            if run.returncode == 0:
                told.append(run.stdout.decode())
            else:
                time.sleep(0.05)
        yield block.strip(), (server.communicate(timeout=20)[0], server.returncode, told), (b"", 0, 2 * [office.told("owed", "17")])


def front(_):
    """What README.md shows of the tour, run by run of lines with nothing left out, and the edit that it names."""
    with open(os.path.join(TOP, "README.md"), encoding="utf-8") as file:
        text = file.read()
    with open(os.path.join(EXAMPLES, "tour.expected"), encoding="utf-8") as file:
        expected = file.read()
    shown = next(block for block in blocks_of(text) if block.startswith("$ tacho import"))
    place = 0
    for run in shown.split("...\n"):
        found = expected.find(run, place)
        yield f"what README.md shows: {run.splitlines()[0]}", found >= 0, True
        place = found + len(run)
    crate = os.path.join(TOP, "crates", re.search(r"^    rt must-fail (\w+)$", text, re.MULTILINE)[1])
    name = re.search(r"/(\w+\.edit)`", text)[1]
    with open(os.path.join(crate, "must-fail", name), encoding="utf-8") as file:
        edit = dict(line.split(": ", 1) for line in file.read().splitlines())
    with open(os.path.join(crate, edit["file"]), encoding="utf-8") as file:
        yield f"the line of {name}", file.read().count(edit["old"]), 1


def comparisons(program: str) -> counting.Comparisons:
    with tempfile.TemporaryDirectory() as folder:
        office = Office(program, folder)
        try:
            for part in (front, beginnings, weeks, spreadsheets, months, inspections, readings, letters, changes, keys, backups, soundness,
                         updates, services):
                yield from part(office)
        finally:
            office.end()
        yield "blocks of the page that nobody typed", office.left, []


if __name__ == "__main__":
    sys.exit(counting.count(comparisons(*sys.argv[1:])))
