"""Tar files by other programs: Python's library makes and reads them, and GNU tar and bsdtar list and unpack them."""
import io
import os
import shutil
import subprocess
import sys
import tarfile
import tempfile
from collections.abc import Iterable, Sequence
from typing import NamedTuple

from lib.files import read

Member = tuple[str, bytes]  # a name and its bytes
PYTHON = [sys.executable, "-I", "-S"]  # with nothing of the user's, and faster

# What GNU tar and bsdtar read of the environment: the language, and the place whose time they show.
PLAIN = {"PATH": os.environ.get("PATH", os.defpath), "LC_ALL": "C", "TZ": "UTC"}


def tar_of(members: Iterable[Member]) -> bytes:
    """The tar file of some members by Python's library, up to the two blocks of NULs at its end."""
    made = io.BytesIO()
    with tarfile.open(fileobj=made, mode="w", format=tarfile.USTAR_FORMAT) as tar:
        for name, content in members:
            member = tarfile.TarInfo(name)
            member.size = len(content)
            tar.addfile(member, io.BytesIO(content))
        end = tar.offset + 1024
    return made.getvalue()[:end]


def members_of(given: bytes) -> list[Member]:
    """The members of a tar file by Python's library, or none where it isn't one."""
    try:
        with tarfile.open(fileobj=io.BytesIO(given), mode="r:") as tar:
            return [(member.name, taken.read()) for member in tar.getmembers() if (taken := tar.extractfile(member))]
    except tarfile.TarError:
        return []


class Reader(NamedTuple):
    """A program that reads tar files: its name, its arguments to list one and to unpack one, before its path, and what to install."""
    name: str
    listing: Sequence[str]
    unpacking: Sequence[str]
    package: str


READERS = [
    Reader("GNU tar", ["tar", "-tvf"], ["tar", "-xf"], "tar"),
    Reader("Python", [*PYTHON, "-m", "tarfile", "-l"], [*PYTHON, "-m", "tarfile", "-e"], "python3"),
    Reader("bsdtar", ["bsdtar", "-tvf"], ["bsdtar", "-xf"], "libarchive-tools"),
]


def present() -> list[Reader]:
    """The readers that are installed."""
    return [reader for reader in READERS if shutil.which(reader.listing[0])]


def told_by(words: Sequence[str], folder: str) -> tuple[str, int, str]:
    """What a reader prints in a folder, its status, and what it prints on standard error."""
    run = subprocess.run(words, cwd=folder, env=PLAIN, stdin=subprocess.DEVNULL, capture_output=True)
    return run.stdout.decode(errors="backslashreplace"), run.returncode, run.stderr.decode(errors="backslashreplace")


def listed_by(reader: Reader, path: str) -> list[str] | str:
    """The words of each line that lists a member of a tar file, or what the reader says in its place."""
    text, status, errors = told_by([*reader.listing, path], os.path.dirname(path))
    return errors or f"status {status}" if status or errors else [" ".join(line.split()) for line in text.splitlines()]


def unpacked_by(reader: Reader, path: str) -> list[Member] | str:
    """The files that unpacking leaves in an empty folder, by their names, or what the reader says in its place."""
    with tempfile.TemporaryDirectory() as folder:
        _, status, errors = told_by([*reader.unpacking, path], folder)
        if status or errors:
            return errors or f"status {status}"
        return [(name, read(os.path.join(folder, name))) for name in sorted(os.listdir(folder))]


def wanted_list(reader: Reader, members: Iterable[Member]) -> list[str]:
    """The words of each line by which a reader has to list members: who may read and write each, whose it is, its length and its time."""
    front, back = {
        "GNU tar": ("-rw-r--r-- 0/0 ", " 1970-01-01 00:00 "),
        "bsdtar": ("-rw-r--r-- 0 0 0 ", " Jan 1 1970 "),
    }.get(reader.name, ("", ""))
    return [f"{front}{len(content)}{back}{name}" if front else name for name, content in members]
