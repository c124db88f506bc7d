#!/usr/bin/env python3
"""Starts the program as a server on a disk that stops at each of its calls in turn, or fails that call alone, and looks for a reply, a
table or an end that is wrong; changes, replaces or moves its files while it runs, or refuses it connections; and looks at who may read the files that it
makes.

A request that changes the archive is replied to as by a slow server, or with 503, and then the archive is as before it or as after it.
After a 503 the next request is replied to as in one of these two states, or the server has ended, since the store is shut: it says so
(S12), and its status is 3. What it has replied to is in the tables that SQLite finds at the end, and what the program reports of them then
is as it was reported. The file of a new archive and its log are their owner's alone, whatever the umask. Arguments: the program and the
compiler of C. The last line is 'N passed, M failed'."""
import contextlib
import errno
import itertools
import multiprocessing
import os
import re
import shutil
import stat
import subprocess
import sys
import tempfile
import time
from typing import Any

from lib import counting, files, killing, pools, programs
from lib.archive import rows_of, rows_of_office, tables
from lib.office import CREATED, STORE_FAILED, WITH_ANNA, WITH_DAY, Desk, copy_of, make_text
from lib.office_rows import ANNA, BERT, DAY, DAY_OFF, LARGEST_DAY, MORNING
from lib.server import ENDED, NO_PORT, OFFICE, UNAVAILABLE, Serving, asking, posting
from slow import slow_server

PROCESSES = 4  # each waits for its program most of the time
STOPPED = b"stopped\n"
LOST = "its file or its log was moved, replaced or changed during service, or its disk failed"
BECOMES = ": what becomes of the server"

# The seconds in which the clock of the file system surely goes on: it may count in hundredths of a second.
TICK = 0.05

# How many calls of the disk fail, and how many replies may be 503 then.
STOPS = {"the disk stopped at": (None, 3), "the disk failed": (1, 1)}

ENTRIES = asking("GET /drivers/17/entries", OFFICE)
HELD = asking("GET /drivers/17/spans/2024-03", OFFICE)
WHY = asking("GET /drivers/17/why/2024-03", OFFICE)
OVERVIEW = asking("GET /overview/2024-03", OFFICE)
HANDOVER = asking("GET /drivers/17/handover/2024-03-01/2024-04-01", OFFICE)
REGISTER = posting("/drivers", OFFICE, BERT)
IMPORT = posting("/cards/both", OFFICE, DAY)
ENTER = posting("/drivers/17/entries", OFFICE, MORNING)
SIGN = posting("/drivers/17/entries", OFFICE, DAY_OFF)
WITHDRAW = asking("POST /drivers/17/withdraw/1", OFFICE)
WITHDRAW_ALL = asking("POST /drivers/17/withdraw/1/3", OFFICE)
RENAME = posting("/drivers/17/name", OFFICE, b"Anna Lind\n")
REBASE = asking("POST /drivers/17/base/2024-03-11", OFFICE)

# What an archive was given before, and three requests to it.
CASES = {
    "a first driver": ([], [posting("/drivers", OFFICE, ANNA), ENTRIES, REGISTER]),
    "a first download": (WITH_ANNA, [IMPORT, HELD, ENTER]),
    "the largest download": (WITH_ANNA, [posting("/cards/both", OFFICE, LARGEST_DAY), HELD, REBASE]),
    "hours": (WITH_DAY, [ENTER, ENTRIES, WITHDRAW]),
    "a withdrawal": (WITH_DAY, [WITHDRAW, HELD, SIGN]),
    "a withdrawal of three": ([*WITH_DAY, (["enter", "17"], MORNING)], [WITHDRAW_ALL, HELD, RENAME]),
    "another base": (WITH_DAY, [REBASE, asking("GET /drivers/17/breaches", OFFICE), IMPORT]),
    "changes one after the other": (WITH_DAY, [ENTER, SIGN, WITHDRAW]),
    "evidence, and all drivers": (WITH_DAY, [SIGN, WHY, OVERVIEW]),
    "a handover": (WITH_DAY, [SIGN, HANDOVER, HANDOVER]),
}


class Judge:
    """What may come from a server whose disk fails: the states in which its archive may be, and how many replies may still be 503."""

    def __init__(self, office, most):
        self.states = [office]
        self.most = most
        self.replies = []

    def has_failed(self):
        """Whether a reply was 503."""
        return UNAVAILABLE in self.replies

    def has_ended(self):
        """Whether there was no reply any more."""
        return b"" in self.replies

    def right(self, request, reply):
        """The reply to a request if it may be so, and else one that may. After it the archive may be in other states."""
        may_end = self.has_failed() or self.has_ended() or not self.replies
        may_fail = request.startswith(b"POST ") and self.replies.count(UNAVAILABLE) < self.most
        is_over = self.has_ended()
        self.replies.append(reply)
        if is_over or reply == b"" and may_end:
            return b""
        offices = [copy_of(office) for office in self.states]
        wanted = [slow_server.Server(office, OFFICE).reply(request) for office in offices]
        if reply == UNAVAILABLE and may_fail:
            self.states += offices
            return reply
        self.states = [office for office, told in zip(offices, wanted) if told == reply] or offices
        return reply if reply in wanted else wanted[0]

    def end(self, told):
        """How the server may end: where the store is shut after its last reply, it ends so too."""
        may_be_shut = self.has_ended() or self.replies[-1] == UNAVAILABLE
        return STORE_FAILED[:2] if self.has_ended() or may_be_shut and told == STORE_FAILED[:2] else ENDED[:2]

    def kind(self, told):
        """What has become of the server that ended so, in short."""
        if not self.has_failed():
            return "unopened" if self.has_ended() else "undisturbed"
        return "shut" if told == STORE_FAILED[:2] else "open"


def remove_log(path):
    """Removes the log beside a file, if there is one."""
    with contextlib.suppress(FileNotFoundError):
        os.remove(path + "-wal")


class StoppedDesk(Desk):
    """The program at an archive in a folder, to which some commands were given, the slow office beside it, and a folder for copies."""

    def __init__(self, program, folder, commands):
        super().__init__(program, folder)
        self.prepare(commands)
        self.aside = os.path.join(folder, "aside")
        os.mkdir(self.aside)
        self.whole = shutil.copy(self.path, os.path.join(folder, "whole.db"))

    def restore(self):
        """Makes the file what it was, without a log."""
        remove_log(self.path)
        shutil.copy(self.whole, self.path)

    def found(self):
        """What SQLite finds in a copy of the file and its log."""
        return rows_of(tables(files.copied(self.path, self.aside)))

    def of_server(self, name, requests, environment, most):
        """The comparisons of requests to a server whose disk fails, and of what it leaves. Answers whether the disk has failed."""
        judge = Judge(self.office, most)
        with Serving(self.program, self.path, OFFICE, len(requests), environment) as serving:
            for number, request in enumerate(requests, 1):
                reply = serving.ask([request], False)
                reply = reply if isinstance(reply, bytes) else b""
                yield f"{name}, request {number}", reply, judge.right(request, reply)
            serving.lost = None
            *told, errors = serving.end()
        yield f"{name}: the end", tuple(told), judge.end(tuple(told))
        found = self.found()
        office = next((office for office in judge.states if rows_of_office(office) == found), judge.states[0])
        yield f"{name}: tables", found, rows_of_office(office)
        yield f"{name}, and then entries", self.run(["entries", "17"]), (*office.answer(["entries", "17"]), b"")
        is_stopped, kind = errors == STOPPED, judge.kind(tuple(told))
        yield f"{name}{BECOMES if is_stopped else ' was not made'}", kind, kind if is_stopped else "undisturbed"
        return is_stopped


def of_case(program, compiler, case, kind):
    """The comparisons of a case on a disk that fails at each call in turn, up to the first server that makes fewer."""
    commands, requests = CASES[case]
    count, most = STOPS[kind]
    with tempfile.TemporaryDirectory() as folder:
        desk = StoppedDesk(program, folder, commands)
        stopper = programs.built(compiler, folder, "stop_disk")
        for number in itertools.count(1):
            desk.restore()
            environment = {"LD_PRELOAD": stopper, **programs.stopped_from(number, count)}
            if not (yield from desk.of_server(f"{case}, {kind} call {number}", requests, environment, most)):
                break
        yield f"{case}, {kind} a call: whether it was", number > 1, True


# Who may read the files


def modes(path):
    """The modes of a file and its log, as far as they are there."""
    return {ending: f"{stat.S_IMODE(os.stat(path + ending).st_mode):o}" for ending in ["", "-wal"] if os.path.exists(path + ending)}


OWNED = {"": "600", "-wal": "600"}


@contextlib.contextmanager
def masked(umask):
    """Has programs begin with a umask."""
    before = os.umask(umask)
    try:
        yield
    finally:
        os.umask(before)


def end_in_log(desk):
    """Ends a command once it has made a log."""
    with open(os.path.join(os.path.dirname(desk.path), "input"), "w+b") as source:
        source.write(MORNING)
        source.seek(0)
        with subprocess.Popen(desk.words(["enter", "17"]), stdin=source, stdout=subprocess.DEVNULL) as running:
            while not os.path.exists(desk.path + "-wal") and running.poll() is None:
                pass
            killing.end(running)


def of_modes(program, umask):
    """The comparisons of the modes of a new archive's files: as they are made, while a server has them open, and after an end; also where
    the log is made anew."""
    name = f"umask {umask:03o}"
    with tempfile.TemporaryDirectory() as folder, masked(umask):
        desk = Desk(program, folder)
        yield f"{name}: init", desk.run(["init"]), CREATED
        yield f"{name}: the modes after init", modes(desk.path), OWNED
        yield f"{name}: register", *desk.both(["register"], ANNA)
        yield f"{name}: the modes after a command", modes(desk.path), OWNED
        for is_new in (False, True):
            if is_new:
                remove_log(desk.path)
            with Serving(program, desk.path, OFFICE, 2) as serving:
                yield f"{name}: a reply", serving.ask([ENTRIES], False), slow_server.Server(desk.office, OFFICE).reply(ENTRIES)
                yield f"{name}: the modes while a server runs, a new log {is_new}", modes(desk.path), OWNED
            yield f"{name}: the modes after its end", modes(desk.path), OWNED
        yield f"{name}: drivers", *desk.both(["drivers"])
        remove_log(desk.path)
        end_in_log(desk)
        yield f"{name}: the modes after the end of a command", modes(desk.path), OWNED


def of_empty_files(program):
    """The comparisons of the modes of an empty file that is there, and of a log beside it, once an archive is made in it."""
    for mode in (0o600, 0o640, 0o644, 0o666):
        for ending in ("", "-wal"):
            with tempfile.TemporaryDirectory() as folder:
                desk = Desk(program, folder)
                with open(desk.path + ending, "wb"):
                    os.chmod(desk.path + ending, mode)
                name = f"an empty {'log' if ending else 'file'} of mode {mode:03o}"
                yield f"{name}: init", desk.run(["init"]), CREATED
                yield f"{name}: the modes after init", modes(desk.path), OWNED
                yield f"{name}: register", *desk.both(["register"], ANNA)
                yield f"{name}: the modes after a command", modes(desk.path), OWNED


def of_refused_modes(program):
    """The comparisons of the modes of files that are there and where no archive is made: they stay."""
    for mode in (0o600, 0o640, 0o644, 0o666):
        for name in ["a text", "an archive"]:
            with tempfile.TemporaryDirectory() as folder:
                desk = Desk(program, folder)
                if name == "an archive":
                    desk.prepare([])
                else:
                    make_text(desk.path)
                os.chmod(desk.path, mode)
                yield f"{name} of mode {mode:03o}: init", desk.run(["init"]), STORE_FAILED
                yield f"{name} of mode {mode:03o}: its mode", modes(desk.path)[""], f"{mode:o}"


# Files that others change while the server runs


def replace(path):
    """Puts a copy in the place of a file."""
    os.replace(shutil.copy(path, path + ".copy"), path)


def rewrite(path, at=0):
    """Writes the byte that a file has at a place there once more."""
    with open(path, "r+b") as file:
        file.seek(at)
        byte = file.read(1)
        file.seek(at)
        file.write(byte)


def move_and_link(path):
    """Moves a file, and links its path to it."""
    os.rename(path, path + ".moved")
    os.symlink(path + ".moved", path)


def move_back(path):
    """Moves a file, and back."""
    os.rename(path, path + ".moved")
    os.rename(path + ".moved", path)


def restore_by(command):
    """What copies the backup of an archive, which lies beside it, over its file and its log by a command with a source and a target."""
    def restore(path):
        for ending in ("", "-wal"):
            paths = {"SOURCE": f"{path}.backup{ending}", "TARGET": path + ending}
            subprocess.run([re.sub("SOURCE|TARGET", lambda found: paths[found[0]], word) for word in command], check=True)

    return restore


# What is done to an archive's files. A log is there already.
LOSSES = {
    "the log removed": lambda path: os.remove(path + "-wal"),
    "the file removed": os.remove,
    "the log replaced": lambda path: replace(path + "-wal"),
    "the file replaced": replace,
    "the log cut": lambda path: os.truncate(path + "-wal", 16),
    "the file cut": lambda path: os.truncate(path, 4096),
    "the file made longer": lambda path: os.truncate(path, os.path.getsize(path) + 4096),
    "a byte of the log written": lambda path: rewrite(path + "-wal"),
    "a byte of the file written": lambda path: rewrite(path, 100),
    "a backup copied": restore_by(["cp", "SOURCE", "TARGET"]),
    "a backup cloned": restore_by(["cp", "--reflink=auto", "SOURCE", "TARGET"]),
    "a backup written in place": restore_by(["dd", "if=SOURCE", "of=TARGET", "conv=notrunc", "status=none"]),
    "the file moved and linked": move_and_link,
    "the log moved and linked": lambda path: move_and_link(path + "-wal"),
    "the file moved and moved back": move_back,
    "the log moved and moved back": lambda path: move_back(path + "-wal"),
    "another link to the file": lambda path: os.link(path, path + ".link"),
    "the mode of the file": lambda path: os.chmod(path, 0o640),
    "the mode of the log": lambda path: os.chmod(path + "-wal", 0o640),
}
if shutil.which("rsync"):
    LOSSES["a backup synchronized"] = restore_by(["rsync", "--inplace", "--ignore-times", "SOURCE", "TARGET"])

# Which requests the server answers before, and whether it serves the archive by a link.
BEFORE = {"at rest": ([], False), "read": ([ENTRIES], False), "written": ([ENTRIES, ENTER], False), "written by a link": ([ENTER], True)}


def of_lost_files(program, name, kind):
    """The comparisons of a server whose file or log others change: it takes no further connection, says why, and writes nothing more."""
    requests, is_linked = BEFORE[kind]
    name = f"{name}, {kind}"
    with tempfile.TemporaryDirectory() as folder:
        desk = Desk(program, folder)
        desk.prepare(WITH_DAY)
        path = os.path.join(folder, "place", "linked.db") if is_linked else desk.path
        if is_linked:
            os.mkdir(os.path.dirname(path))
            os.symlink(desk.path, path)
        for ending in ("", "-wal"):
            shutil.copy(desk.path + ending, f"{desk.path}.backup{ending}")
        with Serving(program, path, OFFICE, 4) as serving:
            serving.wait()
            server = slow_server.Server(desk.office, OFFICE)
            for request in requests:
                yield f"{name}: a reply before", serving.ask([request], False), server.reply(request)
            time.sleep(TICK)
            LOSSES[name.split(", ")[0]](desk.path)
            left = files.both_of(desk.path)
            yield f"{name}: no reply after", serving.ask([ENTRIES], False), b""
            serving.lost = None
            yield f"{name}: the end", serving.end(), STORE_FAILED
            yield f"{name}: the sentence", serving.errors, f"tacho: {path}: {LOST}\n".encode()
            yield f"{name}: what is left", files.both_of(desk.path) == left, True


CHANGED_BASES = 300  # requests of a server whose files stay


def of_kept_files(program):
    """The comparisons of a server whose files stay, through many changes: they don't end it."""
    with tempfile.TemporaryDirectory() as folder:
        desk = Desk(program, folder)
        desk.prepare(WITH_ANNA)
        requests = [posting("/cards/both", OFFICE, LARGEST_DAY), ENTER]
        requests += [asking(f"POST /drivers/17/base/2024-03-{day}", OFFICE) for day in ("04", "11", "18") * (CHANGED_BASES // 3)]
        with Serving(program, desk.path, OFFICE, len(requests)) as serving:
            server = slow_server.Server(desk.office, OFFICE)
            for number, request in enumerate(requests, 1):
                yield f"files that stay, request {number}", serving.ask([request], False), server.reply(request)
            yield "files that stay: the end", serving.end(), ENDED


# Connections that the system refuses

# Errors that may pass, by the name that errno(3) gives them, and one that doesn't pass.
PASSING = ["ENOMEM", "ENFILE", "EMFILE", "ENOSR", "ENOBUFS", "EPERM", "EAGAIN", "ECONNABORTED", "ENONET", "EPROTO", "ENOPROTOOPT"]
PASSING += ["EOPNOTSUPP", "ENETDOWN", "ENETUNREACH", "ETIMEDOUT", "EHOSTDOWN", "EHOSTUNREACH"]
LASTING = "EBADF"
REFUSALS = 3


def of_refused_connections(program, compiler):
    """The comparisons of a server to which the system refuses a few connections: it answers the next one, or ends at once if the error
    doesn't pass."""
    with tempfile.TemporaryDirectory() as folder:
        desk = Desk(program, folder)
        desk.prepare(WITH_ANNA)
        refuser = programs.built(compiler, folder, "refuse_accept")
        for name in [*PASSING, LASTING]:
            refused = {"LD_PRELOAD": refuser, "REFUSED_ERROR": str(getattr(errno, name)), "REFUSED_ACCEPTS": str(REFUSALS)}
            with Serving(program, desk.path, OFFICE, 1, refused) as serving:
                reply = serving.ask([ENTRIES], False)
                serving.lost = None
                told = serving.end()
            if name == LASTING:
                yield f"{name}: the end", told, (*NO_PORT, b"refused\n")
            else:
                yield f"{name}: a reply", reply, slow_server.Server(desk.office, OFFICE).reply(ENTRIES)
                yield f"{name}: the end", told, (*ENDED[:2], b"refused\n")


# All


def comparisons(program: str, compiler: str) -> counting.Comparisons:
    if not shutil.which("rsync"):
        print("left out: a backup by rsync, since it isn't installed: apt install rsync", flush=True)
    questions: list[tuple[Any, ...]] = [(of_case, program, compiler, case, kind) for case in CASES for kind in STOPS]
    questions += [(of_modes, program, 0o022), (of_modes, program, 0), (of_refused_modes, program), (of_empty_files, program)]
    questions += [(of_lost_files, program, name, kind) for name in LOSSES for kind in BEFORE]
    questions += [(of_kept_files, program), (of_refused_connections, program, compiler)]
    kinds = set()
    with multiprocessing.Pool(PROCESSES) as pool:
        for found in pool.imap(pools.of_question, questions):
            yield from found
            kinds.update(told for name, told, _ in found if name.endswith(BECOMES))
        pool.close()
        pool.join()
    yield "whether servers were shut, and others undisturbed", kinds >= {"shut", "undisturbed"}, True


if __name__ == "__main__":
    sys.exit(counting.count(comparisons(*sys.argv[1:])))
