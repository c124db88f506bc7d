#!/usr/bin/env python3
"""Has others prepare the place of an archive, or its files, and expects that the program refuses them (S12), follows no link, and changes
nothing.

`init` takes an empty file and an empty log only if they are regular files of the user with one link. All commands refuse an archive and a
log of another user, also as root. What needs another user is left out unless root runs this. Argument: the program. The last line is
'N passed, M failed'."""
import hashlib
import os
import shutil
import stat
import subprocess
import sys
import tempfile
from collections.abc import Callable, Iterator
from typing import Any

from lib import counting
from lib.counting import Comparisons
from lib.office import CREATED, STORE_FAILED, WITH_DAY, Desk
from lib.office_rows import ANNA

NOBODY = 65534
AS_NOBODY: dict[str, Any] = {"user": NOBODY, "group": NOBODY, "extra_groups": []}
OPEN = 0o644

Kept = dict[str, tuple[int, int, str]]


def state_of(folder: str) -> Kept:
    """All that is in a folder: the mode, the owner, and the content of each file or the target of each link."""
    found = {}
    for name in sorted(os.listdir(folder)):
        path = os.path.join(folder, name)
        status = os.lstat(path)
        content = os.readlink(path) if os.path.islink(path) else ""
        if stat.S_ISREG(status.st_mode):
            with open(path, "rb") as file:
                content = hashlib.sha256(file.read()).hexdigest()
        found[name] = status.st_mode, status.st_uid, content
    return found


def make(path: str, content: bytes = b"", owner: int | None = None) -> str:
    """Makes a file that others may read, and returns its path."""
    with open(path, "wb") as file:
        file.write(content)
    os.chmod(path, OPEN)
    if owner is not None:
        os.chown(path, owner, owner)
    return path


def link_to_file(path: str) -> None:
    os.symlink(make(f"{path}.other", b"secret"), path)


def second_link(path: str) -> None:
    os.link(make(f"{path}.other"), path)


# What may lie at a path where `init` makes no archive.
REFUSED: dict[str, Callable[[str], object]] = {
    "a link to a file": link_to_file,
    "a link to an empty file": lambda path: os.symlink(make(f"{path}.other"), path),
    "a link to nothing": lambda path: os.symlink("nowhere", path),
    "a link to itself": lambda path: os.symlink(os.path.basename(path), path),
    "a second link": second_link,
    "a folder": os.mkdir,
    "a pipe": os.mkfifo,
}
OF_NOBODY: dict[str, Callable[[str], object]] = {
    "an empty file of another user": lambda path: make(path, owner=NOBODY),
    "a file of another user": lambda path: make(path, b"text", NOBODY),
}


def run(desk: Desk, words: list[str], given: bytes = b"", **others: Any) -> tuple[bytes, int, bytes]:
    """A command, which may not wait for anything."""
    return desk.run(words, given, timeout=60, **others)


def of_init(program: str, name: str, prepare: Callable[[str], object], ending: str, other: str) -> Comparisons:
    """The comparisons of an `init` where something lies at the path of the file or of its log, alone or beside the other one, which is
    empty."""
    with tempfile.TemporaryDirectory() as folder:
        desk = Desk(program, folder)
        prepare(desk.path + ending)
        if other:
            make(desk.path + ("" if ending else "-wal"))
        before = state_of(folder)
        name = f"{name} as the {'log' if ending else 'file'}, {other or 'alone'}"
        yield f"{name}: init", run(desk, ["init"]), STORE_FAILED
        yield f"{name}: what is there", state_of(folder), before


def of_log_alone(program: str) -> Comparisons:
    """The comparisons of a log whose file is gone: `init` keeps it, and once the file is back nothing is lost."""
    with tempfile.TemporaryDirectory() as folder:
        desk = Desk(program, folder)
        desk.prepare(WITH_DAY)
        os.rename(desk.path, f"{desk.path}.moved")
        before = state_of(folder)
        yield "a log alone: init", run(desk, ["init"]), STORE_FAILED
        yield "a log alone: what is there", state_of(folder), before
        os.rename(f"{desk.path}.moved", desk.path)
        yield "a log alone: and then", *desk.both(["spans", "17", "2024-03"])


def commands(desk: Desk) -> Iterator[tuple[list[str], bytes]]:
    """Commands of each kind at an archive: one that reads, one that writes, one that opens it otherwise, and a server."""
    yield ["drivers"], b""
    yield ["register"], ANNA
    yield ["check"], b""
    yield ["migrate"], b""
    yield ["init"], b""
    yield ["serve", "office-key-1", "8017", "1"], b""


def of_refused(desk: Desk, name: str) -> Comparisons:
    """The comparisons of commands at an archive that they refuse."""
    folder = os.path.dirname(desk.path)
    before = state_of(folder)
    for words, given in commands(desk):
        yield f"{name}: {words[0]}", run(desk, words, given)[:2], STORE_FAILED[:2]
    yield f"{name}: carry", run(desk, ["carry", "new.db", "2024-03-04"]), STORE_FAILED
    yield f"{name}: what is there", state_of(folder), before


def of_links(program: str) -> Comparisons:
    """The comparisons of an archive by a link, which is served as by its path, and of one whose log is a link, which is refused."""
    with tempfile.TemporaryDirectory() as folder:
        desk = Desk(program, folder)
        desk.prepare(WITH_DAY)
        path, desk.path = desk.path, os.path.join(folder, "linked.db")
        os.symlink(path, desk.path)
        yield "an archive by a link", *desk.both(["spans", "17", "2024-03"])
        yield "an archive by a link: no second log", os.path.lexists(desk.path + "-wal"), False
        desk.path = path
        os.rename(path + "-wal", os.path.join(folder, "moved"))
        os.symlink("moved", path + "-wal")
        yield from of_refused(desk, "a log by a link")


def of_another_user(program: str) -> Comparisons:
    """The comparisons of files of another user. They need the rights of root."""
    for name, prepare in OF_NOBODY.items():
        for ending in ("", "-wal"):
            for other in ("", "beside an empty one"):
                yield from of_init(program, name, prepare, ending, other)
    for names in (["", "-wal"], [""], ["-wal"]):
        with tempfile.TemporaryDirectory() as folder:
            desk = Desk(program, folder)
            desk.prepare(WITH_DAY)
            for ending in names:
                os.chown(desk.path + ending, NOBODY, NOBODY)
            yield from of_refused(desk, f"another user's {names}")
    with tempfile.TemporaryDirectory() as folder:
        os.chown(folder, NOBODY, NOBODY)
        desk = Desk(shutil.copy(program, os.path.join(folder, "program")), folder)
        os.chmod(desk.program, 0o755)
        yield "as another user: init", run(desk, ["init"], **AS_NOBODY), CREATED
        yield "as another user: register", run(desk, ["register"], ANNA, **AS_NOBODY), desk.both(["register"], ANNA)[1]
        yield "as root", run(desk, ["drivers"]), STORE_FAILED
        line = ["runuser", "-u", "nobody", "--", desk.program, "drivers", desk.path]
        yield "by runuser", subprocess.run(line, stdout=subprocess.PIPE).stdout, desk.office.answer(["drivers"], b"")[0]


def comparisons(program: str) -> Comparisons:
    """All comparisons."""
    program = os.path.abspath(program)
    for name, prepare in REFUSED.items():
        for ending in ("", "-wal"):
            for other in ("", "beside an empty one"):
                yield from of_init(program, name, prepare, ending, other)
    yield from of_log_alone(program)
    yield from of_links(program)
    if os.geteuid() == 0:
        yield from of_another_user(program)
    else:
        print("left out: files of another user, since root doesn't run this", flush=True)


if __name__ == "__main__":
    sys.exit(counting.count(comparisons(*sys.argv[1:])))
