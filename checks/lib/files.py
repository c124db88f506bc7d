"""The folders of the repository, and files: what they hold, and what is next to them."""
import contextlib
import os
import shutil

TOP = os.path.dirname(os.path.dirname(os.path.dirname(os.path.abspath(__file__))))
CHECKS = os.path.join(TOP, "checks")
DOCS = os.path.join(TOP, "docs")
EXAMPLES = os.path.join(TOP, "examples")
PAGE = 4096  # bytes of a page of an archive's file
EMPTY_LOG = 41  # bytes of a log without a commit, at the most: each opening of an archive writes such a log anew


def read(path: str) -> bytes:
    """The bytes of a file."""
    with open(path, "rb") as file:
        return file.read()


def content(path: str) -> bytes | None:
    """The bytes of a file, or None where there is none."""
    return read(path) if os.path.isfile(path) else None


def write(path: str, given: bytes) -> None:
    """Writes a file."""
    with open(path, "wb") as file:
        file.write(given)


def log_of(path: str) -> bytes:
    """The bytes of the log of an archive's file, or none where it has no commit."""
    log = content(path + "-wal") or b""
    return log if len(log) > EMPTY_LOG else b""


def both_of(path: str) -> tuple[bytes | None, bytes]:
    """The bytes of an archive's file, and those of its log, as far as they are the archive."""
    return content(path), log_of(path)


def lying_at(path: str) -> tuple[list[str], bytes | None]:
    """The names in a path's folder, without the log of a file, and the file's bytes."""
    names = os.listdir(os.path.dirname(path))
    logs = [os.path.basename(path) + "-wal"] if os.path.isfile(path) else []
    return sorted({*names} - {*logs}), content(path)


def copied(path: str, folder: str) -> str:
    """Copies a file and its log, as far as they are there, into a folder, and returns the copy's path."""
    copy = os.path.join(folder, "copy.db")
    for ending in ["", "-wal"]:
        with contextlib.suppress(FileNotFoundError):
            os.remove(copy + ending)
        with contextlib.suppress(FileNotFoundError):
            shutil.copy(path + ending, copy + ending)
    return copy


def is_begun(path: str) -> bool:
    """Whether the making of a file has begun and no more: it has one page at the most, and not its first byte, which is written last."""
    whole = content(path)
    return whole is not None and len(whole) <= PAGE and whole[:1] in (b"", b"\0")
