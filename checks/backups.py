#!/usr/bin/env python3
"""Runs the commands of examples/tacho-backup.service, which run examples/tacho-backup.sh, in a temporary folder, with `systemctl`
pretended: a sound archive, one that is damaged, one that isn't sound, one for which there is no memory, a pipe and links in its place, old
copies, four runs at once, a copy that hangs, and a full disk. Looks which copies are there then, whether they are the archive byte for byte,
and whether the service runs.

Argument: the program. Only root can make a small disk. The last line is 'N passed, M failed'."""
import contextlib
import datetime
import os
import re
import shutil
import sqlite3
import subprocess
import sys
import tempfile
from collections.abc import Iterator

from lib import counting, old_archive, units
from lib.counting import Comparisons
from lib.files import EXAMPLES, read, write
from lib.office_rows import ANNA, DAY

UNIT = "tacho-backup.service"
SCRIPT = os.path.join(EXAMPLES, "tacho-backup.sh")
NAME = re.compile(r"\d{4}-\d\d-\d\dT\d{6}Z")
FILES = ["archive.db", "archive.db-wal"]

# It notes what it is asked, and whether the service is to run.
SYSTEMCTL = """#!/bin/sh
echo "$1" >>"$ROOT/calls"
case $1 in
start) touch "$ROOT/runs" ;;
stop) rm -f "$ROOT/runs" ;;
esac
"""

# `cp` that notes whether the service runs, `tacho` for which there is no memory, and `cp` that never ends.
NOTING = '#!/bin/sh\n[ ! -e "$ROOT/runs" ] || echo "cp $1" >>"$ROOT/beside"\nexec /bin/cp "$@"\n'
NO_MEMORY = "#!/bin/sh\necho 'M1 out of memory'\nexit 3\n"
HANGING = "#!/bin/sh\nexec sleep 1000\n"


class Machine:
    """A machine with an archive, on which the unit runs."""

    def __init__(self, folder: str, program: str) -> None:
        self.folder = folder
        self.archive, self.copies = self.path("archive"), self.path("copies")
        for name in ("archive", "bin"):
            os.mkdir(self.path(name))
        os.symlink(program, self.path("bin/tacho"))
        self.put("systemctl", SYSTEMCTL)
        path = f"{folder}/bin:{os.environ['PATH']}"
        self.environment = {**os.environ, "PATH": path, "ROOT": folder, "FROM": self.archive, "TO": self.copies}
        for words, given in ((["init"], b""), (["register"], ANNA), (["import", "both"], DAY)):
            command = [program, words[0], self.file("archive.db"), *words[1:]]
            subprocess.run(command, input=given, check=True, stdout=subprocess.DEVNULL)

    def path(self, name: str) -> str:
        """The path of a file of the machine."""
        return os.path.join(self.folder, name)

    def file(self, name: str) -> str:
        """The path of a file of the archive."""
        return os.path.join(self.archive, name)

    def put(self, name: str, text: str) -> None:
        """Puts a program before those of this machine."""
        write(self.path(f"bin/{name}"), text.encode())
        os.chmod(self.path(f"bin/{name}"), 0o755)

    def run(self, seconds: float = 60) -> int:
        """Starts the unit, and returns its status."""
        write(self.path("calls"), b"")
        write(self.path("runs"), b"")
        places = {units.PLACE: SCRIPT, "/usr/bin/": "", "-o tacho ": "", "/var/backups/tacho": self.copies}
        return units.play(UNIT, places, self.environment, seconds)

    def runs(self) -> bool:
        """Whether the service runs."""
        return os.path.exists(self.path("runs"))

    def names(self, ending: str = "") -> list[str]:
        """The names of the copies with an ending."""
        return sorted(name for name in os.listdir(self.copies) if name.endswith(ending) and NAME.fullmatch(name.removesuffix(ending)))

    def others(self) -> list[str]:
        """The other names in the folder of the copies."""
        return sorted(name for name in os.listdir(self.copies) if not NAME.match(name))

    def copy(self, name: str) -> dict[str, bytes]:
        """The files of a copy."""
        return files_in(os.path.join(self.copies, name))


def files_in(folder: str) -> dict[str, bytes]:
    """The files in a folder."""
    return {name: read(os.path.join(folder, name)) for name in sorted(os.listdir(folder))}


@contextlib.contextmanager
def machine(program: str) -> Iterator[Machine]:
    """A machine in a folder that is removed."""
    with tempfile.TemporaryDirectory() as folder:
        yield Machine(folder, program)


def unit() -> Comparisons:
    """What the unit says: who runs what, and what ends a command that hangs."""
    privileged = [line for key in ("ExecStartPre", "ExecStart", "ExecStopPost") for line in units.values(UNIT, key) if line.startswith("+")]
    yield "what root runs", sorted({line.split(" ")[0] for line in privileged}), ["+/usr/bin/install", "+/usr/bin/systemctl"]
    yield "the user", units.values(UNIT, "User"), ["tacho"]
    yield "what ends a command that hangs", units.values(UNIT, "TimeoutStartSec"), ["15min"]
    yield "how many copies are kept", units.variables(UNIT), {"DAYS": "14", "MONTHS": "12"}
    if shutil.which("shellcheck"):
        yield "what shellcheck says", subprocess.run(["shellcheck", SCRIPT], capture_output=True).stdout, b""
    else:
        print("left out: what shellcheck says of the script: apt install shellcheck", flush=True)


def sound(one: Machine) -> Comparisons:
    """An archive that is sound: the copy, who may read it, and how long the service is down."""
    one.put("cp", NOTING)
    before = files_in(one.archive)
    yield "a sound archive", (one.run(), one.runs()), (0, True)
    yield "what systemctl is asked", read(one.path("calls")).decode().split(), ["stop", "start", "start"]
    yield "what is copied beside the service", read(one.path("beside")), b"cp -R\n"
    names = one.names()
    yield "the copies", len(names), 1
    yield "the copy", one.copy(names[0]), before
    yield "the archive after it", files_in(one.archive), before
    yield "the last good one", read(os.path.join(one.copies, "last-good")).decode(), f"{names[0]}\n"
    yield "what else is there", one.others(), [".lock", "last-good"]
    modes = [os.stat(path).st_mode & 0o777 for path in (one.copies, os.path.join(one.copies, names[0], "archive.db"))]
    yield "who may read it", modes, [0o700, 0o600]
    os.remove(one.path("bin/cp"))


def no_files(one: Machine) -> Comparisons:
    """Something else in the place of a file: nothing is copied, and the service runs."""
    os.mkfifo(one.path("pipe"))
    links = {"a link to /dev/zero": "/dev/zero", "a link to a file": "/etc/passwd", "a link that leads nowhere": "/nowhere"}
    for what, path in (("a pipe", None), *links.items()):
        for name in FILES:
            os.rename(one.file(name), one.path("aside"))
            if path:
                os.symlink(path, one.file(name))
            else:
                os.rename(one.path("pipe"), one.file(name))
            yield f"{what} in the place of {name}", (one.run(20), one.runs()), (1, True)
            yield f"{what} in the place of {name}: what is kept", (one.names(), one.names(".unchecked"), one.others()), ([], [], [".lock"])
            os.rename(one.file(name), one.path("pipe"))
            os.rename(one.path("aside"), one.file(name))
            if path:
                os.remove(one.path("pipe"))
                os.mkfifo(one.path("pipe"))
    os.rename(one.file("archive.db"), one.path("aside"))
    yield "no archive", (one.run(), one.runs(), one.names(".unchecked")), (1, True, [])


def damaged(one: Machine) -> Comparisons:
    """Archives that can't be opened or aren't sound: they are kept as they are, with a name that says so, and the good one stays named."""
    yield "a sound one before", one.run(), 0
    good = read(os.path.join(one.copies, "last-good"))
    write(one.file("archive.db"), read(one.file("archive.db"))[:8192])
    cut = files_in(one.archive)
    yield "a damaged archive", (one.run(), one.runs()), (1, True)
    yield "the copy of a damaged archive", [one.copy(name) for name in one.names(".unsound")], [cut]
    for name, given in one.copy(one.names()[0]).items():
        write(one.file(name), given)
    with contextlib.closing(sqlite3.connect(one.file("archive.db"))) as file, file:
        file.execute("UPDATE held SET past = past - 1 WHERE driver = 17")
    old_archive.put_sums(one.file("archive.db"))
    wrong = files_in(one.archive)
    yield "an archive that isn't sound", (one.run(), one.runs()), (1, True)
    yield "its copy", [one.copy(name) for name in one.names(".unsound")], [cut, wrong]
    yield "the last good one then", (read(os.path.join(one.copies, "last-good")), len(one.names())), (good, 1)


def no_memory(one: Machine) -> Comparisons:
    """A check without memory says nothing of the copy. The next run checks it."""
    program = os.readlink(one.path("bin/tacho"))
    os.remove(one.path("bin/tacho"))
    one.put("tacho", NO_MEMORY)
    yield "a check without memory", (one.run(), one.runs(), len(one.names(".unchecked"))), (1, True, 1)
    os.remove(one.path("bin/tacho"))
    os.symlink(program, one.path("bin/tacho"))
    yield "the run after it", (one.run(), one.runs()), (0, True)
    yield "its copies", (len(one.names()), one.names(".unchecked"), one.names(".unsound")), (2, [], [])


def old_copies(one: Machine) -> Comparisons:
    """20 copies of days and 15 of months: 14 and 12 stay, with all of a day, and what has another name."""
    today = datetime.date.today()
    days = [today - datetime.timedelta(number) for number in range(1, 21)]
    months = [today.replace(day=1) - datetime.timedelta(31 * number) for number in range(1, 16)]
    names = {f"{day}T{time}Z" for day in [*days, *months] for time in ("013000", "150000")}
    others = ["2020-01-01-023000", "2020-01-01T013000Z.kept", "by hand"]
    unsound = [f"{day}T013000Z.unsound" for day in days]
    os.mkdir(one.copies)
    for name in [*names, *others, *unsound]:
        os.mkdir(os.path.join(one.copies, name))
        write(os.path.join(one.copies, name, "archive.db"), name.encode())
    yield "a run beside old copies", one.run(), 0
    made = read(os.path.join(one.copies, "last-good")).decode().strip()
    present = names | {made}
    last_days = sorted({name[:10] for name in present})[-14:]
    last_months = sorted({name[:7] for name in present})[-12:]
    wanted = {name for name in present if name[:10] in last_days}
    wanted |= {max(name for name in present if name[:7] == month) for month in last_months}
    yield "the copies that stay", one.names(), sorted(wanted)
    yield "what has another name", [name for name in others if os.path.exists(os.path.join(one.copies, name, "archive.db"))], others
    kept = one.names(".unsound")
    yield "the copies of days that aren't sound", kept[-14:], sorted(unsound)[-14:]
    yield "those of months", len({name[:7] for name in kept[:-14]}), len(kept[:-14])


def wrong_clock(one: Machine) -> Comparisons:
    """A clock that is years behind: what was just made stays."""
    for year in range(2040, 2060):
        os.makedirs(os.path.join(one.copies, f"{year}-01-01T013000Z"))
    yield "a run with a wrong clock", one.run(), 0
    made = read(os.path.join(one.copies, "last-good")).decode().strip()
    yield "its copy", (made in one.names(), len(one.names())), (True, 15)


def at_once(one: Machine) -> Comparisons:
    """Four runs of the script at once, in a second or two: each makes a copy of its own."""
    os.mkdir(one.copies)
    running = [subprocess.Popen([SCRIPT, "copy"], env=one.environment) for _ in range(4)]
    yield "runs at once", [process.wait() for process in running], 4 * [0]
    yield "their copies", [one.copy(name) for name in one.names(".unchecked")], 4 * [files_in(one.archive)]
    yield "what else is there", one.others(), [".lock"]


def hanging(one: Machine) -> Comparisons:
    """A copy that never ends is ended, and the service runs. The next run is as usual."""
    one.put("cp", HANGING)
    yield "a copy that hangs", (one.run(2) != 0, one.runs(), one.others()), (True, True, [".lock"])
    os.remove(one.path("bin/cp"))
    yield "the run after it", (one.run(), len(one.names())), (0, 1)


def full(one: Machine) -> Comparisons:
    """A disk without room: nothing of the copy is left on it."""
    os.mkdir(one.copies)
    made = subprocess.run(["mount", "-t", "tmpfs", "-o", "size=16k,mode=700", "tmpfs", one.copies], capture_output=True)
    if made.returncode != 0:
        print("left out: a full disk: run this check as root", flush=True)
        return
    try:
        yield "a full disk", (one.run() != 0, one.runs()), (True, True)
        yield "what is left on it", os.listdir(one.copies), [".lock"]
    finally:
        subprocess.run(["umount", one.copies], check=True)


def comparisons(program: str) -> Comparisons:
    """All comparisons."""
    yield from unit()
    for part in (sound, no_files, damaged, no_memory, old_copies, wrong_clock, at_once, hanging, full):
        with machine(os.path.abspath(program)) as one:
            yield from part(one)


if __name__ == "__main__":
    sys.exit(counting.count(comparisons(*sys.argv[1:])))
