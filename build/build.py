#!/usr/bin/env python3
"""Builds the program `tacho`. It proves the crates that the program depends on (crates.txt lists them), in parallel if they don't depend on
one another, and then proves and compiles the program's own crate. It reports its progress on standard error. The status is 0 if the program
was built, and 3 if it could not be built. A signal ends this script and all that it has started.

A library is built with its statements but without its proofs, so that the crates that use it load no proofs. `rt` has no command for
this, so this script calls the prover as `rt` does. A crate is rebuilt if its files, or those of a crate that it depends on, have changed,
or if the kit is another one."""
import fcntl
import hashlib
import os
import re
import shutil
import signal
import subprocess
import sys
import tempfile
import time
from collections.abc import Callable, Collection, Mapping, Sequence

Below = Mapping[str, list[str]]  # for each crate the libraries that it uses

TOP = os.path.dirname(os.path.dirname(os.path.realpath(__file__)))
PROGRAM = "tacho"

# The folders of a crate from which it is built.
PARTS = ("src", "specs", "proofs")

# The memory that one process of a proof takes, in bytes, with room to spare.
MEMORY_OF_A_JOB = 3 << 29

# The kit's libraries that are linked into a program.
LINKED = ("libos_c.a", "liblibc_c.a")

# A crate that takes at least this many seconds is proved by two processes if there is room for them. In a smaller one more than half of the
# time is loading, which each process does again.
LARGE = 150

# The seconds of processor time that each crate took in one process. They serve to find the longest chain of crates, and which crates are
# large: a wrong number changes the order of the work and its speed, and nothing else.
SECONDS = {
    "tacho_time": 124, "tacho_card": 97, "tacho_line": 91, "tacho_law": 24, "tacho_pass": 24, "tacho_driving": 38, "tacho_days": 48,
    "tacho_choice": 22, "tacho_rests": 79, "tacho_rules": 53, "tacho_stretches": 50, "tacho_periods": 54, "tacho_evidence": 141,
    "tacho_ahead": 150, "tacho_state": 80, "tacho_carry": 110, "tacho_sheet": 490, "tacho_tar": 60, "tacho_handover": 120, "tacho_desk": 180,
    "tacho_tables": 259, "tacho_reading": 290,
    "tacho_store": 510, "tacho_check": 290, "tacho_message": 63, "tacho_http": 85, "tacho_serve": 45, "tacho_cli": 150, "tacho_disk": 60,
    "tacho_jobs": 200,
    "tacho": 400,
}

# The seconds that are assumed for a crate without an entry in SECONDS.
USUAL_SECONDS = 100

# The amount added to a crate's `nice` value for each crate at work that is more urgent.
GIVES_WAY = 5

# The seconds without other output after which the script reports what it is working on.
SILENCE = 30


class Stop(Exception):
    """The reason why the program can't be built."""


class Signal(Exception):
    """A signal that ends the building."""


# The signals received so far. A signal may come at any moment, so its handler only records it here.
received: list[int] = []


def stop_on_signal() -> None:
    """Raises `Signal` if a signal was received. It is called only when every process that was started is known and can be ended."""
    if received:
        raise Signal(received[0])


def say(text: object) -> None:
    """Prints a line on standard error."""
    print(f"tacho: {text}", file=sys.stderr, flush=True)


def duration_text(seconds: float) -> str:
    """A duration as text, in minutes and seconds."""
    minutes, rest = divmod(int(seconds), 60)
    return f"{minutes} min {rest} s" if minutes else f"{rest} s"


def lines_of_crates() -> dict[str, list[str]]:
    """The crates of crates.txt, each with the libraries that it uses."""
    below = {}
    with open(os.path.join(TOP, "crates.txt"), encoding="utf-8") as file:
        for line in file:
            name, colon, libraries = line.partition("#")[0].partition(":")
            if colon:
                below[name.split()[0]] = libraries.split()
    return below


def needed(below: Below, name: str, found: list[str] | None = None) -> list[str]:
    """A crate, and the crates of the repository that it depends on. Each comes after those that it depends on. They are appended to `found`
    if it is given."""
    found = [] if found is None else found
    for library in below[name]:
        if library in below and library not in found:
            needed(below, library, found)
    if name not in found:
        found.append(name)
    return found


def folder_of(name: str) -> str:
    """The path of a crate's folder."""
    return os.path.join(TOP, "crates", name)


def files_of(name: str, parts: Sequence[str] = PARTS) -> list[str]:
    """The paths of the files in these folders of a crate, sorted. It is built from those of PARTS."""
    return sorted(os.path.join(folder, file) for part in parts
                  for folder, _, files in os.walk(os.path.join(folder_of(name), part)) for file in files)


def seconds_of(name: str) -> int:
    """The seconds of processor time that a crate takes in one process."""
    return SECONDS.get(name, USUAL_SECONDS)


def weights(below: Below, crates: Sequence[str]) -> dict[str, int]:
    """For each crate the seconds of its work and of the longest chain of crates that wait for it."""
    weight: dict[str, int] = {}
    for name in reversed(crates):
        above = [weight[other] for other in crates if name in below[other]]
        weight[name] = seconds_of(name) + max(above, default=0)
    return weight


def available_memory() -> int:
    """The memory that is available, in bytes."""
    with open("/proc/meminfo", encoding="utf-8") as file:
        available = re.search(r"^MemAvailable:\s*(\d+) kB", file.read(), re.MULTILINE)
    assert available is not None
    return int(available[1]) << 10


def room() -> int:
    """The number of processes that may work at a time, given the processors and the memory of the machine."""
    return max(1, min(len(os.sched_getaffinity(0)), available_memory() // MEMORY_OF_A_JOB))


def try_to_write(crates: Sequence[str]) -> None:
    """Raises `Stop` if a crate's output folder can't be written. Called before any proof, which would be in vain."""
    for name in crates:
        out = os.path.join(folder_of(name), "out")
        folder = out if os.path.isdir(out) else os.path.dirname(out)
        try:
            tempfile.TemporaryFile(dir=folder).close()
        except OSError as error:
            raise Stop(f"{folder} can't be written ({error.strerror}), and the program is built there") from error


def sums(below: Below, crates: Sequence[str], kit: str, parts: Sequence[str] = PARTS) -> dict[str, str]:
    """For each crate a checksum of all that it is built from: the kit's name, its line of crates.txt, its files in these folders, and the
    checksums of the crates that it depends on."""
    found: dict[str, str] = {}
    for name in crates:
        whole = hashlib.sha256(repr((kit, below[name], [found[other] for other in below[name] if other in found])).encode())
        for path in files_of(name, parts):
            with open(path, "rb") as file:
                whole.update(repr((os.path.relpath(path, folder_of(name)), file.read())).encode())
        found[name] = whole.hexdigest()
    return found


class Kit:
    """The Rattle kit: the prover and its libraries."""

    def __init__(self) -> None:
        if shutil.which("rt") is None:
            raise Stop("the command rt, which says where the kit is, isn't on the path")
        page = subprocess.run(["rt", "doc"], stdin=subprocess.DEVNULL, capture_output=True, text=True, check=False).stdout.strip()
        self.folder = os.path.dirname(page)
        try:
            with open(os.path.join(self.folder, "KIT-ID"), encoding="utf-8") as file:
                self.name = file.read()
        except OSError as error:
            raise Stop(f"the kit of the command rt can't be read ({error.strerror})") from error

    def path(self, *parts: str) -> str:
        """The path of a file in the kit's folder."""
        return os.path.join(self.folder, *parts)

    def words(self, name: str, below: Below) -> list[str]:
        """The arguments by which the prover finds a crate's root, the libraries that it uses, and the libraries that those use."""
        words = ["--crate-name", name, "src/main.rt" if name == PROGRAM else "src/lib.rt"]
        for library in ["std", *below[name]]:
            place = library_of(library) if library in below else self.path("rlibs", f"{library}.rlib")
            words += ["--extern", f"{library}={place}"]
        for place in [self.path("rlibs"), *(os.path.dirname(library_of(other)) for other in needed(below, name)[:-1])]:
            words += ["-L", f"dependency={place}"]
        return [*words, "--antt-project", self.path("rattle", "logic", "antt-project.json"), "--logic-built", self.path("logic_built")]


def library_of(name: str) -> str:
    """The path at which a crate's library is built. It isn't where `rt` builds libraries."""
    return os.path.join(folder_of(name), "out", "statements", f"{name}.rlib")


def kept_sum(name: str) -> str:
    """The path of the file with the checksum of what a crate's library was built from."""
    return os.path.join(folder_of(name), "out", "statements", "sum")


def is_noted(path: str, checksum: str) -> bool:
    """Whether a file contains this checksum."""
    try:
        with open(path, encoding="utf-8") as file:
            return file.read() == checksum
    except OSError:
        return False


def is_built(name: str, checksum: str) -> bool:
    """Whether a crate's library was built from sources with this checksum."""
    return is_noted(kept_sum(name), checksum)


def note(path: str, checksum: str) -> None:
    """Writes a checksum into a file."""
    with open(path, "w", encoding="utf-8") as file:
        file.write(checksum)


def take_from_gate() -> None:
    """Reuses the libraries that `rt ci` has built from the present sources, as if this script had built them. Also those that the program
    doesn't use: checks/slips.py tries the slips of the crates above them."""
    kit = Kit()
    below = lines_of_crates()
    order: list[str] = []
    for name in below:
        needed(below, name, order)
    checksums = sums(below, order, kit.name)
    for name in checksums:
        made = os.path.join(folder_of(name), "out", "rlib", f"{name}.rlib")
        if name != PROGRAM and os.path.isdir(made) and not is_built(name, checksums[name]):
            shutil.rmtree(os.path.dirname(library_of(name)), ignore_errors=True)
            shutil.copytree(made, library_of(name), copy_function=os.link)
            note(kept_sum(name), checksums[name])


def show_end(path: str) -> None:
    """Prints the last lines of a command's output."""
    with open(path, encoding="utf-8", errors="replace") as log:
        print("".join(log.readlines()[-20:]), end="", file=sys.stderr)


def kill_group(process: subprocess.Popen[bytes]) -> None:
    """Ends a process that has a process group of its own, and all that it has started."""
    try:
        os.killpg(process.pid, signal.SIGTERM)
    except ProcessLookupError:
        pass
    process.wait()


class Work:
    """A running process that proves a crate, or builds the program."""

    def __init__(self, name: str, kit: Kit, below: Below, checksum: str, jobs: int, before: int) -> None:
        """Begins the work on a crate with `jobs` processes. `before` is the number of crates at work that are more urgent: the more there
        are, the lower is its priority, so that it gets only the processor time that they leave."""
        self.name = name
        self.checksum = checksum
        self.jobs = jobs
        self.began = time.monotonic()
        os.makedirs(os.path.dirname(library_of(name)), exist_ok=True)
        if os.path.exists(kept_sum(name)):
            os.remove(kept_sum(name))
        self.log = os.path.join(folder_of(name), "out", "statements", "log")
        command = ["nice", "-n", str(min(GIVES_WAY * before, 19)), kit.path("bin", "rattle"), "build", *kit.words(name, below)]
        command += ["--jobs", str(jobs)]
        if name == PROGRAM:
            command += ["--toolchain", kit.path("toolchain"), "--backend", "llvm", "-o", "out/tacho.o"]
        else:
            command += ["--statements", "-o", library_of(name)]
        with open(self.log, "wb") as log:
            # A process group of its own, so that a signal ends all its processes. Not a session of its own: the system divides the
            # processors among sessions first, so `nice` would have no effect between two of them.
            self.process = subprocess.Popen(command, cwd=folder_of(name), stdin=subprocess.DEVNULL, stdout=log, stderr=log,
                                            preexec_fn=os.setpgrp)

    def ended(self) -> bool:
        """Whether the process has ended."""
        return self.process.poll() is not None

    def finish(self) -> None:
        """Writes down what the crate was built from. If the build failed, prints the last lines of its output and raises `Stop`."""
        if self.process.returncode != 0:
            show_end(self.log)
            raise Stop(f"crates/{self.name} could not be built, for the reason above")
        if self.name != PROGRAM:
            note(kept_sum(self.name), self.checksum)

    def kill(self) -> None:
        """Ends the process and all that it has started."""
        kill_group(self.process)


def link(kit: Kit, program: str, compiled: str) -> None:
    """Links a program from what was compiled."""
    command = [kit.path("bin", "rattle-link"), "--target", "x86_64-unknown-linux-gnu", "--toolchain", kit.path("toolchain"),
               "-o", program, compiled, *(kit.path("c", library) for library in LINKED)]
    run = subprocess.run(command, stdin=subprocess.DEVNULL, stdout=sys.stderr, check=False)
    if run.returncode != 0:
        raise Stop("the program could not be linked, for the reason above")


def report_progress(done: Collection[str], crates: Sequence[str], at_work: Sequence[Work]) -> None:
    """Reports how many crates are proved, and which are at work."""
    what = ", ".join(f"{work.name} ({duration_text(time.monotonic() - work.began)} so far)" for work in at_work)
    say(f"{len(done)} of {len(crates)} crates proved, now {what}")


def build(kit: Kit, below: Below, crates: Sequence[str], at_work: list[Work]) -> None:
    """Builds the crates, with as many processes at a time as `room` allows, and links the program if it is one of them. The crates with the
    longest chain of crates that wait for them come first. `at_work` always contains the processes that are running."""
    weight = weights(below, crates)
    checksums = sums(below, crates, kit.name)
    done = {name for name in crates if name != PROGRAM and is_built(name, checksums[name])}
    waiting = sorted((name for name in crates if name not in done), key=lambda name: -weight[name])
    spoke = time.monotonic()
    while waiting or at_work:
        ready = [name for name in waiting if all(other in done or other not in crates for other in below[name])]
        begun = False
        while ready and (free := room() - sum(work.jobs for work in at_work)) > 0:
            name = ready.pop(0)
            jobs = 2 if free > 1 and seconds_of(name) >= LARGE else 1
            waiting.remove(name)
            before = sum(weight[work.name] > weight[name] for work in at_work)
            at_work.append(Work(name, kit, below, checksums[name], jobs, before))
            begun = True
        ended = [work for work in at_work if work.ended()]
        for work in ended:
            at_work.remove(work)
            work.finish()
            done.add(work.name)
        if at_work and (begun or time.monotonic() - spoke >= SILENCE):
            report_progress(done, crates, at_work)
            spoke = time.monotonic()
        if not ended:
            time.sleep(0.2)
        stop_on_signal()
    if PROGRAM in crates:
        made = os.path.join(folder_of(PROGRAM), "out", PROGRAM)
        link(kit, made, f"{made}.o")


def locked(paths: Sequence[str]) -> list[int]:
    """Locks folders against other commands, as `rt` itself locks those of crates. Returns the file descriptors. Closing them releases the
    locks."""
    folders = [os.open(path, os.O_RDONLY) for path in sorted(paths)]
    for number, folder in enumerate(folders):
        said = False
        while True:
            try:
                fcntl.flock(folder, fcntl.LOCK_EX | fcntl.LOCK_NB)
                break
            except BlockingIOError:
                if not said:
                    say(f"waiting for another command to finish with {os.path.relpath(sorted(paths)[number], TOP)}")
                said = True
                time.sleep(0.2)
                stop_on_signal()
    return folders


def run(wanted: Sequence[str] = (PROGRAM,)) -> None:
    """Builds the program, or these crates. Raises `Stop` if that isn't possible."""
    if not os.path.exists(os.path.join(TOP, "crates.txt")):
        raise Stop(f"crates.txt isn't beside the script, in {TOP}")
    kit = Kit()
    below = lines_of_crates()
    crates: list[str] = []
    for name in wanted:
        needed(below, name, crates)
    try_to_write(crates)
    folders = locked([folder_of(name) for name in crates])
    at_work: list[Work] = []
    began = time.monotonic()
    try:
        build(kit, below, crates, at_work)
    finally:
        for work in at_work:
            work.kill()
        for folder in folders:
            os.close(folder)
    say(f"built in {duration_text(time.monotonic() - began)}")


def main(work: Callable[[], None] = run) -> int:
    """Builds the program, or does other work that may raise `Stop` or `Signal`, and returns the status of the script."""
    for number in (signal.SIGHUP, signal.SIGINT, signal.SIGTERM):
        signal.signal(number, lambda number, _: received.append(number))
    try:
        work()
    except Stop as stop:
        say(stop)
        return 3
    except Signal as stop:
        number = stop.args[0]
        signal.signal(number, signal.SIG_DFL)
        os.kill(os.getpid(), number)
    return 0


if __name__ == "__main__":
    sys.exit(main())
