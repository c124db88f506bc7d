"""Commands to the program `tool_script`, which does them at an archive in a file or in memory, and what it answers."""
import os
import re
import subprocess
import tempfile
from collections.abc import Iterable, Sequence

from lib.archive import of_tables
from lib.counting import Comparisons
from slow import slow_office
from slow.slow_office import Command


def line_for(folder: str, number: int, words: Sequence[str], given: bytes) -> str:
    """The line by which the program is given a command. Its input lies in a file of the folder."""
    path = os.path.join(folder, f"input-{number}")
    with open(path, "wb") as file:
        file.write(given)
    word, *others = words
    return " ".join([word, "-", *others, "<", path]) + "\n"


def given(folder: str, commands: Iterable[Command]) -> bytes:
    """The input with commands."""
    return "".join(line_for(folder, number, *command) for number, command in enumerate(commands)).encode()


def answers_of(run: subprocess.CompletedProcess[bytes]) -> list[tuple[bytes, int]]:
    """What a run of the program answered: of the opening, and of each command, what it printed and its status, and at the end what was
    printed after them, and the run's own status."""
    *answers, rest = re.split(rb"status ([0-9])\n", run.stdout)
    return [*zip(answers[::2], map(int, answers[1::2])), (rest, run.returncode)]


def answers(words: Sequence[str], folder: str, commands: Iterable[Command]) -> list[tuple[bytes, int]]:
    """What the program answers to commands."""
    return answers_of(subprocess.run(words, input=given(folder, commands), capture_output=True))


def wanted_of(office: slow_office.Office, commands: Iterable[Command]) -> list[tuple[bytes, int]]:
    """What is expected of an opening, of commands, as the slow office answers them, and of the end."""
    return [(b"", 0), *[office.answer(*command) for command in commands], (b"", 0)]


def of_commands(program: str, name: str, commands: Sequence[Command]) -> Comparisons:
    """The comparisons of commands, the first half and then the others, on a new file and in memory."""
    half = len(commands) // 2
    office = slow_office.Office()
    first, second = wanted_of(office, commands[:half]), wanted_of(office, commands[half:])
    with tempfile.TemporaryDirectory() as folder:
        path = os.path.join(folder, "archive.db")
        yield f"{name}, on a file", answers([program, "archive", path], folder, commands[:half]), first
        yield f"{name}, on that file again", answers([program, "archive", path], folder, commands[half:]), second
        yield of_tables(name, path, office.archive)
        yield f"{name}, in memory", answers([program, "shelf"], folder, commands), first[:-1] + second[1:]
