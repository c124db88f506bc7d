"""Runs programs, as they are, with their memory refused, and on disks that stop."""
import bisect
import functools
import os
import subprocess
import tempfile
from collections.abc import Iterator, Sequence
from typing import Any

from lib.advice import without_advice
from lib.files import CHECKS, TOP

Run = subprocess.CompletedProcess[bytes]
Told = tuple[bytes, int, bytes]  # what a program prints, its status, and what it prints on standard error


def answer(words: Sequence[str], given: bytes) -> tuple[str, int]:
    """What a program prints on standard output for an input, and its status."""
    run = subprocess.run(words, input=given, capture_output=True)
    return run.stdout.decode(errors="backslashreplace"), run.returncode


def told_by(words: Sequence[str | bytes], given: bytes = b"", **others: Any) -> Told:
    """What a program prints for an input, its status, and what it prints on standard error but for the sentence that belongs to a fault."""
    made = subprocess.run(words, input=given, capture_output=True, **others)
    return made.stdout, made.returncode, without_advice(words, made.stdout, made.returncode, made.stderr)


def name_and_version() -> str:
    """The program's name, and the version that the file VERSION has: the first line of what it prints as its version."""
    with open(os.path.join(TOP, "VERSION"), encoding="utf-8") as file:
        return f"tacho {file.read().strip()}"


@functools.cache
def version_lines() -> bytes:
    """What the program prints as its version: that of the file VERSION, the schema of its archives, and the kit's logic."""
    kit = subprocess.run(["rt", "version"], capture_output=True, check=True).stdout
    return f"{name_and_version()}\nschema 2\n".encode() + kit.split(b" ", 1)[1]


def unasked(words: Sequence[str]) -> tuple[bytes, int]:
    """What a program prints while its input is open and nobody writes it, and its status."""
    source, target = os.pipe()
    try:
        made = subprocess.run(words, stdin=source, stdout=subprocess.PIPE, timeout=20)
        return made.stdout, made.returncode
    finally:
        os.close(source)
        os.close(target)


def built(compiler: str, folder: str, name: str = "refuse_allocation") -> str:
    """The library that refuses an allocation, or another one."""
    library = os.path.join(folder, f"{name}.so")
    source = os.path.join(CHECKS, "c", f"{name}.c")
    subprocess.run([compiler, "-O1", "-fPIC", "-shared", "-nostdlib", "-fuse-ld=lld", "-o", library, source], check=True)
    return library


def run_with(library: str, words: Sequence[str], given: bytes, **asked: object) -> Run:
    """A run of a program with a library before that of C, which is asked for something."""
    environment = dict(os.environ, LD_PRELOAD=library, **{name: str(number) for name, number in asked.items()})
    return subprocess.run(words, input=given, capture_output=True, env=environment)


def run_without(refuser: str, number: int, words: Sequence[str], given: bytes, in_a_row: int = 1) -> tuple[Run, bool]:
    """A run of a program with some allocations in a row refused, from that number on, and whether it asked for the first
    of them."""
    run = run_with(refuser, words, given, REFUSED_ALLOCATION=number, REFUSED_IN_A_ROW=in_a_row)
    return run, b"refused\n" in run.stderr


def stopped_from(number: int, count: int | None = None) -> dict[str, str]:
    """What the environment has to say to the library that stops a disk, so that it takes no more from its call of that number on, or
    none of some calls."""
    return {"STOPPED_CALL": str(number), **({} if count is None else {"STOPPED_CALLS": str(count)})}


def run_stopped(stopper: str, number: int, words: Sequence[str], given: bytes, count: int | None = None) -> tuple[Run, bool]:
    """A run of a program on a disk that takes no more from its call of that number on, or none of some calls, and whether it came to
    that call."""
    run = run_with(stopper, words, given, **stopped_from(number, count))
    return run, b"stopped\n" in run.stderr


def runs_without_memory(
    compiler: str, words: Sequence[str], given: bytes, numbers: Sequence[int] = range(1, 1_000_000), in_a_row: int = 1,
) -> Iterator[tuple[int, Run]]:
    """The runs of a program with each of its allocations refused in turn, or those of some numbers, up to the first run
    that asks for fewer: the allocation's number, counted from 1, and the run. With each, the next ones may be refused too."""
    with tempfile.TemporaryDirectory() as folder:
        refuser = built(compiler, folder)
        for number in numbers:
            run, is_refused = run_without(refuser, number, words, given, in_a_row)
            if not is_refused:
                if number == numbers[0]:
                    raise RuntimeError(f"no allocation of {words} was refused")
                return
            yield number, run


def answers_without_memory(compiler: str, words: Sequence[str], given: bytes) -> Iterator[tuple[int, tuple[str, int]]]:
    """What a program answers in each of these runs: the allocation's number and the answer."""
    for number, run in runs_without_memory(compiler, words, given):
        yield number, (run.stdout.decode(errors="backslashreplace"), run.returncode)


def allocations(compiler: str, words: Sequence[str], given: bytes) -> int:
    """How many allocations a program asks for."""
    with tempfile.TemporaryDirectory() as folder:
        refuser = built(compiler, folder)
        return bisect.bisect_left(range(1, 1_000_000), True, key=lambda n: not run_without(refuser, n, words, given)[1])
